"""A process in which the kernel refuses one of its calls, by a filter of the process's system calls (seccomp(2))."""

import ctypes
import os

NOBODY = 65534
NO_NEW_PRIVILEGES, SET_SECCOMP, FILTER = 38, 22, 2
# Of x86-64: system calls, errnos, and UFFDIO_API.
IOCTL, USERFAULTFD = 16, 323
EPERM, EINVAL = 1, 22
UFFDIO_API = 0xC018AA3F
# Instructions, and where the number of a call and its second argument are.
LOAD, IF_EQUAL, RETURN = 0x20, 0x15, 0x06
NUMBER, SECOND_ARGUMENT = 0, 24
ALLOWED, REFUSED = 0x7FFF0000, 0x00050000


class Instruction(ctypes.Structure):
    _fields_ = [
        ("code", ctypes.c_uint16),
        ("if_true", ctypes.c_uint8),
        ("if_false", ctypes.c_uint8),
        ("operand", ctypes.c_uint32),
    ]


class Program(ctypes.Structure):
    _fields_ = [("length", ctypes.c_uint16), ("instructions", ctypes.POINTER(Instruction))]


def install(*steps):
    program = Program(len(steps), (Instruction * len(steps))(*(Instruction(*step) for step in steps)))
    prctl = ctypes.CDLL(None, use_errno=True).prctl
    if prctl(NO_NEW_PRIVILEGES, 1, 0, 0, 0) or prctl(SET_SECCOMP, FILTER, ctypes.byref(program), 0, 0):
        raise OSError(ctypes.get_errno(), "seccomp")


def no_userfault():
    """Called in the new process: userfaultfd(2) is refused, as in many containers. Root becomes nobody, who may not
    open its device."""
    if os.getuid() == 0:
        os.setgid(NOBODY)
        os.setuid(NOBODY)
    install(
        (LOAD, 0, 0, NUMBER), (IF_EQUAL, 0, 1, USERFAULTFD), (RETURN, 0, 0, REFUSED | EPERM), (RETURN, 0, 0, ALLOWED)
    )


def no_features():
    """Called in the new process: UFFDIO_API is refused, as where a kernel lacks one of the features."""
    install((LOAD, 0, 0, NUMBER), (IF_EQUAL, 0, 3, IOCTL), (LOAD, 0, 0, SECOND_ARGUMENT), (IF_EQUAL, 0, 1, UFFDIO_API),
            (RETURN, 0, 0, REFUSED | EINVAL), (RETURN, 0, 0, ALLOWED))
