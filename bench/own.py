"""The processes of a script's own: builds that it starts, each in a process group of its own, and what these leave.

The script is a subreaper: a process whose parent has ended becomes its child. So it asks the system for its own children alone, and looks at
no other process of the machine."""

import contextlib
import ctypes
import os
import signal
import subprocess
import threading
import time

PR_SET_CHILD_SUBREAPER = 36

# Which build had a number last. The number of a build stays taken until it was waited for and nobody of its group is left; then another
# may get it, and who asks for the first must not see, or take from the system's list, what is of the other.
LAST = {}
BEGINS = threading.Lock()


def keep_orphans():
    """From now on this process is the parent of all orphans below it."""
    libc = ctypes.CDLL(None, use_errno=True)
    if libc.prctl(PR_SET_CHILD_SUBREAPER, 1, 0, 0, 0):
        raise OSError(ctypes.get_errno(), "prctl cannot make this process a subreaper")


def start(words, **more):
    """Starts a build in a process group of its own."""
    with BEGINS:
        build = subprocess.Popen(words, stdin=subprocess.DEVNULL, start_new_session=True, **more)
        LAST[build.pid] = build
    return build


def runs_in(build):
    """Whether somebody of the group of a build runs that was waited for. Who has ended is taken from the system's list: the children of
    such a one are this process's by then, so nobody is missed who stays in the group."""
    with BEGINS, contextlib.suppress(ChildProcessError):
        while LAST.get(build.pid) is build:
            if os.waitpid(-build.pid, os.WNOHANG)[0] == 0:
                return True
    return False


def wait_for_group(build, longest=60):
    """Waits until nobody of the group of a build runs that was waited for. Answers whether that came in so many seconds."""
    end = time.monotonic() + longest
    while runs_in(build):
        if time.monotonic() > end:
            return False
        time.sleep(0.005)
    return True


def end_group(build, patience=0):
    """Ends all that run in the group of a build that was waited for: by SIGTERM, where they are given some seconds, and then for good."""
    end = time.monotonic() + patience
    if patience and runs_in(build):
        os.killpg(build.pid, signal.SIGTERM)
    while runs_in(build):
        if time.monotonic() >= end:
            os.killpg(build.pid, signal.SIGKILL)
        time.sleep(0.005)


def end_orphan(number):
    """Ends an orphan below this process by its number, and nobody else who may have that number by now."""
    with contextlib.suppress(ChildProcessError):
        if os.waitpid(number, os.WNOHANG)[0] == 0:
            os.kill(number, signal.SIGKILL)
            os.waitpid(number, 0)


def runs_any():
    """Whether any process below this one runs, where this one waits for no child that it started itself. So are commands found that have
    left their group."""
    with contextlib.suppress(ChildProcessError):
        while os.waitpid(-1, os.WNOHANG)[0]:
            pass
        return True
    return False
