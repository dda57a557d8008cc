"""Runs a program, and gives its wall time, exit status and own peak memory.

A child's ru_maxrss begins with what the parent had, and this parent is larger than a small run. So the child is traced and
stopped where it ends, and the peak of its own memory (VmHWM) is read there. If tracing is not allowed, ru_maxrss is taken.
"""

import ctypes
import os
import signal
import sys
import time
from collections import namedtuple

Ran = namedtuple("Ran", "seconds status peak")

LIBC = ctypes.CDLL(None, use_errno=True)
LIBC.ptrace.argtypes = [ctypes.c_long, ctypes.c_long, ctypes.c_void_p, ctypes.c_void_p]
LIBC.ptrace.restype = ctypes.c_long
TRACE_ME, CONTINUE, SET_OPTIONS = 0, 7, 0x4200
STOP_AT_EXIT, KILL_WITH_PARENT, EXIT_EVENT = 0x40, 0x100000, 6


def start(args, stdin, stdout, processors):
    """Becomes the program; it does not come back from here."""
    try:
        os.sched_setaffinity(0, processors)
        os.dup2(os.open(stdin, os.O_RDONLY), 0)
        os.dup2(os.open(stdout, os.O_WRONLY | os.O_CREAT | os.O_TRUNC, 0o600), 1)
        if TRACED:
            LIBC.ptrace(TRACE_ME, 0, None, None)
        os.execvp(args[0], args)
    finally:
        os._exit(127)


def peak_of(pid):
    with open(f"/proc/{pid}/status", encoding="ascii") as lines:
        return next(int(line.split()[1]) * 1024 for line in lines if line.startswith("VmHWM:"))


def follow(pid):
    """Lets a child run to its end. A traced one stops first as its program is loaded: time begins there."""
    began, peak, loaded = time.perf_counter(), 0, False
    while True:
        _, status, usage = os.wait4(pid, 0)
        if os.WIFEXITED(status) or os.WIFSIGNALED(status):
            return Ran(time.perf_counter() - began, os.waitstatus_to_exitcode(status), peak or usage.ru_maxrss * 1024)
        if not loaded:
            LIBC.ptrace(SET_OPTIONS, pid, None, STOP_AT_EXIT | KILL_WITH_PARENT)
            began, loaded = time.perf_counter(), True
        peak = peak_of(pid) if status >> 16 == EXIT_EVENT else peak
        LIBC.ptrace(CONTINUE, pid, None, 0 if os.WSTOPSIG(status) == signal.SIGTRAP else os.WSTOPSIG(status))


def may_trace():
    pid = os.fork()
    if pid == 0:
        os._exit(0 if LIBC.ptrace(TRACE_ME, 0, None, None) == 0 else 1)
    return os.waitpid(pid, 0)[1] == 0


TRACED = may_trace()
if not TRACED:
    print("bench: programs can't be traced here, so peak memory counts this script's own too", file=sys.stderr)


def run_child(args, stdin, stdout, processors):
    pid = os.fork()
    if pid == 0:
        start(args, stdin, stdout, processors)
    return follow(pid)
