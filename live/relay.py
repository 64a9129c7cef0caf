#!/usr/bin/env python3
"""Joins its standard input and output with a Unix socket: live/relay.py listen|connect PATH

For tests of `live source --feed` and `live dest --feed`, each of which has one of the two as its other side."""

import os
import socket
import sys
import threading
import time


def joined(how, path):
    if how == "listen":
        with socket.socket(socket.AF_UNIX) as server:
            server.bind(path)
            server.listen(1)
            return server.accept()[0]
    while True:
        connection = socket.socket(socket.AF_UNIX)
        try:
            connection.connect(path)
            return connection
        except OSError:
            connection.close()
            time.sleep(0.01)


def back(connection):
    while data := connection.recv(65536):
        while data:
            data = data[os.write(1, data):]
    os._exit(0)


def main():
    connection = joined(*sys.argv[1:])
    threading.Thread(target=back, args=(connection,), daemon=True).start()
    while data := os.read(0, 65536):
        connection.sendall(data)


if __name__ == "__main__":
    main()
