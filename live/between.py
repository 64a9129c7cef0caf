#!/usr/bin/env python3
"""A relay of TCP connections, which cuts them, or holds their bytes back: live/between.py --listen HOST:PORT --connect
HOST:PORT [--delay MS]

It does not know what they carry. What it holds back arrives later, and in order: a relay can show neither loss nor
reordering of packets."""

import argparse
import contextlib
import queue
import socket
import struct
import threading
import time

MOST_AT_ONCE = 65536
# Pieces that are held back in one direction; then the sender must wait.
MOST_HELD = 64


def reset(*connections):
    """All that is under way is lost, and both sides see it."""
    for connection in connections:
        with contextlib.suppress(OSError):
            connection.setsockopt(socket.SOL_SOCKET, socket.SO_LINGER, struct.pack("ii", 1, 0))
            connection.shutdown(socket.SHUT_RDWR)
        connection.close()


def put_or_end(connection, data):
    """No data: nothing more comes."""
    if data:
        connection.sendall(data)
    else:
        connection.shutdown(socket.SHUT_WR)


class Relay:
    """cuts: for each connection, in the order in which they are accepted, None or ("out" or "in", a number of bytes):
    it is cut once these have gone to the listener, or have arrived from it; with a third word, "swallow", it stays open
    then, and what follows is swallowed. Later ones are whole. delay: in seconds, of each byte in both directions."""

    def __init__(self, target, listen=("127.0.0.1", 0), cuts=(), delay=0.0):
        self.target, self.cuts, self.delay = target, list(cuts), delay
        self.server = socket.create_server(listen)
        self.address = "{}:{}".format(*self.server.getsockname())
        self.made = self.swallowed = 0
        threading.Thread(target=self.accept, daemon=True).start()

    def accept(self):
        with contextlib.suppress(OSError):
            while True:
                near = self.server.accept()[0]
                cut = self.cuts[self.made] if self.made < len(self.cuts) else None
                self.made += 1
                try:
                    far = socket.create_connection(self.target, 5)
                except OSError:
                    reset(near)
                    continue
                for side in (near, far):
                    side.settimeout(None)
                    side.setsockopt(socket.IPPROTO_TCP, socket.TCP_NODELAY, 1)
                for direction, one, other in (("out", near, far), ("in", far, near)):
                    most = cut[1] if cut and cut[0] == direction else None
                    threading.Thread(target=self.carry, args=(one, other, most, cut and cut[2:]), daemon=True).start()

    def carry(self, one, other, most, is_swallowed=False):
        """At most this many bytes, from one to the other. What is swallowed is read, and goes nowhere."""
        put = self.held_back(other) if self.delay else lambda data: put_or_end(other, data)
        left = most
        try:
            while left != 0:
                data = one.recv(MOST_AT_ONCE if left is None else min(left, MOST_AT_ONCE))
                put(data)
                if not data:
                    return
                left = None if left is None else left - len(data)
            while is_swallowed and one.recv(MOST_AT_ONCE):
                self.swallowed += 1
        except OSError:
            pass
        reset(one, other)

    def held_back(self, other):
        """Puts bytes into a queue, from which a thread sends them later."""
        waiting = queue.Queue(MOST_HELD)

        def send():
            data = None
            with contextlib.suppress(OSError):
                while data != b"":
                    due, data = waiting.get()
                    time.sleep(max(0.0, due - time.monotonic()))
                    put_or_end(other, data)

        threading.Thread(target=send, daemon=True).start()
        return lambda data: waiting.put((time.monotonic() + self.delay, data))

    def close(self):
        """Ends the thread that accepts: close(2) alone would leave it in accept(2)."""
        with contextlib.suppress(OSError):
            self.server.shutdown(socket.SHUT_RDWR)
        self.server.close()


def place(text):
    host, port = text.rsplit(":", 1)
    return host, int(port)


def main():
    parser = argparse.ArgumentParser(description="A relay of TCP connections, which holds their bytes back.")
    parser.add_argument("--listen", type=place, required=True, metavar="HOST:PORT")
    parser.add_argument("--connect", type=place, required=True, metavar="HOST:PORT")
    parser.add_argument("--delay", type=float, default=0.0, metavar="MS")
    arguments = parser.parse_args()
    relay = Relay(arguments.connect, arguments.listen, delay=arguments.delay / 1000)
    print(f"listening {relay.address}", flush=True)
    threading.Event().wait()


if __name__ == "__main__":
    main()
