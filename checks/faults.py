"""What checks start the program under: each function here gives what a child process does just before it becomes the program.

Linux's alone: a filter of system calls (seccomp) stands for a stop, or for a disk that fails, at one write, which is told by its place in
the file.
"""
import ctypes
import errno
import os
import platform
import resource
import signal
import struct
from functools import partial

# the numbers of these calls
PREAD, PWRITE, FSYNC = {"x86_64": (17, 18, 74), "aarch64": (67, 68, 82)}.get(platform.machine(), (None, None, None))
KILLED = -signal.SIGSYS  # the status of a program that a filter stopped
NOBODY = 65534

# instructions of a filter: load a word of the call, go on where it is this one, answer; and the answers
LOAD, IF_EQUAL, ANSWER = 0x20, 0x15, 0x06
KILL, FAIL, ALLOW = 0x80000000, 0x00050000 | errno.EIO, 0x7fff0000
NUMBER, PLACE = 0, 16 + 8 * 3  # where a call's number stands, and its fourth word, the place of a write
SET_NO_NEW_RIGHTS, SET_FILTER, OF_FILTERS = 38, 22, 2


class Filter(ctypes.Structure):
    _fields_ = [("length", ctypes.c_ushort), ("instructions", ctypes.c_void_p)]


def answered(answer, *tests):
    """Each call of which these words are these numbers gets the answer; all others are made."""
    lines = []
    for n, (offset, number) in enumerate(tests):
        lines += [(LOAD, 0, 0, offset), (IF_EQUAL, 0, 2 * (len(tests) - n) - 1, number)]
    code = b"".join(struct.pack("=HBBI", *line) for line in [*lines, (ANSWER, 0, 0, answer), (ANSWER, 0, 0, ALLOW)])
    kept = ctypes.create_string_buffer(code, len(code))
    return partial(install, kept, Filter(len(code) // 8, ctypes.addressof(kept)), ctypes.CDLL(None).prctl)


def install(_kept, its_filter, prctl):
    if prctl(SET_NO_NEW_RIGHTS, 1, 0, 0, 0) or prctl(SET_FILTER, OF_FILTERS, ctypes.byref(its_filter), 0, 0):
        os._exit(127)


def killed_at(place):
    """The program is stopped at its first write to this place of a file, before it."""
    return answered(KILL, (NUMBER, PWRITE), (PLACE, place))


def failing_at(place):
    """Each write to this place of a file fails."""
    return answered(FAIL, (NUMBER, PWRITE), (PLACE, place))


def unread_at(place):
    """Each read that names this place of a file fails."""
    return answered(FAIL, (NUMBER, PREAD), (PLACE, place))


def no_syncs():
    """No file can be synced."""
    return answered(FAIL, (NUMBER, FSYNC))


def files_within(size):
    """No file grows past this size: a write that would fails, or is cut short."""
    def limit():
        signal.signal(signal.SIGXFSZ, signal.SIG_IGN)
        resource.setrlimit(resource.RLIMIT_FSIZE, (size, size))
    return limit


def memory_within(size):
    """All memory, the program's own code with it, has so many bytes."""
    return partial(resource.setrlimit, resource.RLIMIT_AS, (size, size))


def as_nobody():
    """A user without rights, where this one has all."""
    def become():
        if os.geteuid() == 0:
            os.setgroups([])
            os.setgid(NOBODY)
            os.setuid(NOBODY)
    return become
