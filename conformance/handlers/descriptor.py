"""The calls of a handler on a real descriptor. Standard input is a Unix socket: the descriptor comes first on it, and
then the frames."""

import ctypes
import errno
import fcntl
import os
import select
import socket
import struct
import sys

UFFDIO_COPY, UFFDIO_ZEROPAGE, UFFDIO_WAKE = 0xC028AA03, 0xC020AA04, 0x8010AA02
CHANNEL = socket.socket(fileno=0)
DESCRIPTOR = socket.recv_fds(CHANNEL, 1, 1)[1][0]


def ioctl(request, form, *numbers):
    try:
        fcntl.ioctl(DESCRIPTOR, request, bytearray(struct.pack(form, *numbers)))
    except OSError as fault:
        return ["refused", errno.errorcode[fault.errno]]
    return ["ok"]


def receive(count):
    """This number of bytes of the channel, at whose end the handler ends."""
    data = b""
    while len(data) < count:
        piece = CHANNEL.recv(count - len(data))
        if not piece:
            sys.exit(0)
        data += piece
    return data


def frame():
    header = receive(12)
    return header + receive(int.from_bytes(header[8:], "big"))


def wait():
    """A frame or a message, whichever is there, and the frame first."""
    while True:
        ready, _, _ = select.select([CHANNEL, DESCRIPTOR], [], [])
        if CHANNEL in ready:
            return ["frame", frame().hex()]
        answer = read()
        if answer != ["none"]:
            return answer


def read():
    try:
        return ["message", os.read(DESCRIPTOR, 32).hex()]
    except BlockingIOError:
        return ["none"]


def copy(addr, mode, text):
    data = ctypes.create_string_buffer(bytes.fromhex(text), len(text) // 2)
    return ioctl(UFFDIO_COPY, "<4Qq", int(addr, 0), ctypes.addressof(data), len(data), mode, 0)


def zeropage(addr, length, mode):
    return ioctl(UFFDIO_ZEROPAGE, "<3Qq", int(addr, 0), length, mode, 0)


def wake(addr, length):
    return ioctl(UFFDIO_WAKE, "<2Q", int(addr, 0), length)


def send(text):
    CHANNEL.sendall(bytes.fromhex(text))
    return ["ok"]


CALLS = {"next": wait, "read": read, "copy": copy, "zeropage": zeropage, "wake": wake, "send": send}


def call(word, *arguments):
    return CALLS[word](*arguments)
