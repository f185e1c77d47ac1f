"""What the scripts here do with the kit: they start its command `rt`, read the lines that it prints, and end what they started."""

import contextlib
import os
import queue
import re
import shutil
import signal
import subprocess
import sys
import threading
import time

ROOT = os.path.dirname(os.path.dirname(os.path.realpath(__file__)))


class Refused(Exception):
    """What is wrong, and what to do about it, in a line each."""


# The signals that end a script, which then ends what it started.
STOPS = (signal.SIGINT, signal.SIGTERM, signal.SIGHUP)


def need(program, what_to_do):
    if not shutil.which(program):
        raise Refused(f"the command {program} is not found: {what_to_do}")


def logic():
    """The logic of the kits for which this repository is written, which README.md names."""
    with open(f"{ROOT}/README.md", encoding="utf-8") as it:
        return re.search(r"`logic ([0-9a-f]{16})`", it.read())[1]


def version():
    """The line of the kit that is there, which has to be of the same logic."""
    wanted = logic()
    need("rt", f"put the folder bin of a Rattle kit of 'logic {wanted}' into PATH")
    told = subprocess.run(["rt", "version"], stdin=subprocess.DEVNULL, capture_output=True, text=True, errors="replace").stdout.strip()
    if not told.endswith(f"logic {wanted}"):
        raise Refused(f"this kit is '{told}', and what is here is proved by kits of 'logic {wanted}': put one of these first into PATH")
    return told


def memory_free():
    """How many megabytes of memory are free."""
    with open("/proc/meminfo", encoding="ascii") as it:
        return int(re.search(r"^MemAvailable: +(\d+)", it.read(), flags=re.M)[1]) // 1024


def crates():
    """The crates, lowest first, and for each those that it names in crates.txt."""
    found = {}
    with open(f"{ROOT}/crates.txt", encoding="utf-8") as lines:
        for line in lines:
            named = re.match(r"(\w+):(.*)", line)
            if named:
                found[named[1]] = named[2].split()
    return {name: [it for it in uses if it in found] for name, uses in found.items()}


def below(names):
    """The crates on which these stand, themselves too."""
    known, found, left = crates(), set(), list(names)
    while left:
        name = left.pop()
        if name not in found:
            found.add(name)
            left += known[name]
    return found


def crate_of(line):
    """The crate of which a line of a check tells, or None."""
    named = re.match(r"(?:checked|fn|struct|enum|impl|trait|union|const|static) (\w+)::|crate (\w+): modules |rt: chose --jobs \d+ for (\w+)$", line)
    return named and next(it for it in named.groups() if it)


def long(seconds):
    """A time in words."""
    seconds = int(seconds)
    if seconds < 120:
        return f"{seconds} s"
    return f"{seconds // 60} min {seconds % 60} s" if seconds < 3600 else f"{seconds // 3600} h {seconds // 60 % 60} min"


class Run:
    """A command of the kit, in a process group of its own, so that ^C comes to the script alone, which then ends the command."""

    def __init__(self, words, folder, out=None, log=None):
        self.begun = time.monotonic()
        self.words = words
        self.log = log
        self.process = subprocess.Popen(words, cwd=folder, stdin=subprocess.DEVNULL, stdout=out or subprocess.PIPE,
                                        stderr=subprocess.PIPE if out else subprocess.STDOUT, start_new_session=True)
        self.told = queue.Queue()
        threading.Thread(target=self.read, daemon=True).start()

    def __enter__(self):
        return self

    def __exit__(self, *_):
        self.end()

    def read(self):
        for line in self.process.stderr or self.process.stdout:
            self.told.put(line.decode("utf-8", "replace").rstrip("\n"))
        self.told.put(None)

    def lines(self, quiet=30):
        """Each line as it comes, and '' where none came in so many seconds."""
        while True:
            try:
                line = self.told.get(timeout=quiet)
            except queue.Empty:
                yield ""
                continue
            if line is None:
                return
            if self.log:
                print(line, file=self.log, flush=True)
            yield line or " "

    def seconds(self):
        return time.monotonic() - self.begun

    def status(self):
        return self.process.wait()

    def end(self):
        """Ends the command as ^C would, and where it stays, or at a further ^C, harder."""
        for number, patience in ((signal.SIGINT, 60), (signal.SIGTERM, 10), (signal.SIGKILL, 10)):
            if self.process.poll() is not None:
                return
            with contextlib.suppress(ProcessLookupError):
                os.killpg(self.process.pid, number)
            with contextlib.suppress(subprocess.TimeoutExpired, KeyboardInterrupt):
                self.wait_told(patience)

    def wait_told(self, patience):
        """Waits for the end, and says so where that takes more than a moment."""
        with contextlib.suppress(subprocess.TimeoutExpired):
            self.process.wait(2)
            return
        print(f"waiting for `{' '.join(self.words[:2])}` to end, at most {patience} s more; ^C again waits no longer", file=sys.stderr, flush=True)
        self.process.wait(patience)


def told_as_line(name, call):
    """Calls a script's main: what it refuses is told in a line each, with status 1, and ^C ends it with status 130."""
    def stop(*_):
        raise KeyboardInterrupt

    for number in STOPS:
        signal.signal(number, stop)
    try:
        return call() or 0
    except Refused as why:
        told = why.args
    except OSError as why:
        told = [f"{why.strerror or why}{f': {why.filename}' if why.filename else ''}"]
    except KeyboardInterrupt:
        return 130
    for line in told:
        print(f"{name}: {line}", file=sys.stderr)
    return 1
