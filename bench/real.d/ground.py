"""Where trees are tried: the tools that are there, what was found, and builds of two copies of a tree."""

import collections
import contextlib
import hashlib
import os
import re
import shutil
import stat
import subprocess
import sys
import tempfile
import threading
import time

# What stands in front of a command that is shown.
MARK = "@ran@ "

# Files of the tools' own.
OWN = re.compile(r"(^|/)\.(nj_(log|deps|seen|tick|out\.\d+)(\.new)?|ninja_(log|deps|lock))$")

# How long a build may take, in seconds.
LONGEST = 900

Ran = collections.namedtuple("Ran", "status commands text")


class Ground:
    """The folder of all trees, the tools, and the account of what was tried and what was found."""

    def __init__(self, nj, keep, kills):
        self.keep = keep
        self.kills_wanted = kills
        self.counts = collections.Counter()
        self.counting = threading.Lock()
        self.found = []
        self.left = []
        self.folder = os.path.realpath(tempfile.mkdtemp(prefix="nj-real-"))
        os.chmod(self.folder, 0o755)
        # Whoever is not root can run a copy here, wherever the program stands.
        self.nj = os.path.join(self.folder, "nj")
        # What stands in ninja's place, and a part of the names of trees: it is tried on these alone.
        self.stand_in = self.nj
        self.only = ""
        shutil.copy(nj, self.nj)
        os.chmod(self.nj, 0o755)
        self.ninja = shutil.which("ninja")
        os.environ.update(LC_ALL="C", NINJA_STATUS=MARK, CCACHE_DISABLE="1")

    def __enter__(self):
        return self

    def __exit__(self, *_):
        if not self.keep:
            shutil.rmtree(self.folder, ignore_errors=True)

    def lacks(self, what, *programs):
        """Whether one of the programs is not there; then what it is for is told and left out."""
        missing = [it for it in programs if not shutil.which(it)]
        if missing:
            self.leave_out(what, f"there is no {', '.join(missing)}")
        return bool(missing)

    def leave_out(self, what, why):
        self.left.append(f"{what}: {why}")
        print(f"  left out: {what}: {why}", flush=True)

    def count(self, what, more=1):
        with self.counting:
            self.counts[what] += more

    def tree(self, name):
        """A new and empty folder."""
        self.count("trees")
        folder = os.path.join(self.folder, name)
        os.makedirs(folder)
        os.chmod(folder, 0o755)
        return folder

    def step(self, what):
        self.count("steps")
        print(f"  {what}", flush=True)

    def wrong(self, where, what):
        self.found.append(f"{where}: {what}")
        print(f"  WRONG: {where}: {what}", flush=True)

    def expect(self, holds, where, what):
        if not holds:
            self.wrong(where, what)
        return holds

    def tell(self):
        """Tells the account, and answers the exit status."""
        for it in self.left:
            print(f"left out: {it}")
        for it in self.found:
            print(f"wrong: {it}")
        tried = ", ".join(f"{self.counts[it]} {it}" for it in ("steps", "trees", "kills"))
        print(f"{tried}; {len(self.left)} left out, {len(self.found)} wrong")
        return 1 if self.found else 0


def run(words, folder, env=None, limit=LONGEST):
    """Runs a build with `-v` and a mark, and tells its status, the commands that it showed, and all that it printed."""
    done = subprocess.run(
        words, cwd=folder, env={**os.environ, **(env or {})}, stdin=subprocess.DEVNULL, stdout=subprocess.PIPE,
        stderr=subprocess.STDOUT, timeout=limit,
    )
    text = done.stdout.decode("utf-8", "replace")
    shown = sorted(it[len(MARK):] for it in text.split("\n") if it.startswith(MARK))
    return Ran(done.returncode, shown, text)


def must_run(words, folder, env=None):
    """Runs a tool that prepares a tree; where it fails, the tree cannot be tried."""
    done = subprocess.run(
        words, cwd=folder, env={**os.environ, **(env or {})}, stdin=subprocess.DEVNULL, stdout=subprocess.PIPE,
        stderr=subprocess.STDOUT, timeout=LONGEST,
    )
    if done.returncode:
        raise RuntimeError(f"{' '.join(words)}: {done.stdout.decode('utf-8', 'replace')[-2000:]}")
    return done.stdout.decode("utf-8", "replace")


def write(folder, path, text):
    full = os.path.join(folder, path)
    os.makedirs(os.path.dirname(full), exist_ok=True)
    with open(full, "w", encoding="utf-8") as it:
        it.write(text)


def read(folder, path):
    with open(os.path.join(folder, path), encoding="utf-8", errors="replace") as it:
        return it.read()


def replace(folder, path, old, new):
    text = read(folder, path)
    if old not in text:
        raise RuntimeError(f"{path} has no {old!r}")
    write(folder, path, text.replace(old, new))


def touch(folder, path):
    os.utime(os.path.join(folder, path))


def files_of(folder, passed_over=None):
    """What stands in a folder: for each path the kind and the contents. Files of the tools' own are passed over."""
    held = {}
    for top, folders, names in os.walk(folder):
        for name in folders + names:
            full = os.path.join(top, name)
            path = os.path.relpath(full, folder)
            if OWN.search(path) or (passed_over and passed_over.search(path)):
                continue
            mode = os.lstat(full).st_mode
            if stat.S_ISLNK(mode):
                held[path] = "link to " + os.readlink(full)
            elif stat.S_ISREG(mode):
                with open(full, "rb") as it:
                    held[path] = f"{mode & 0o111 != 0} {hashlib.sha256(it.read()).hexdigest()}"
            else:
                held[path] = "folder"
    return held


def differences(first, second, names):
    """How two tables of files differ, in words; an empty list where they do not."""
    told = [f"{it} only by {names[0]}" for it in sorted(first.keys() - second.keys())]
    told += [f"{it} only by {names[1]}" for it in sorted(second.keys() - first.keys())]
    told += [f"{it} differs" for it in sorted(first.keys() & second.keys()) if first[it] != second[it]]
    return told


def in_short(items, most=4):
    more = f" and {len(items) - most} more" if len(items) > most else ""
    return "; ".join(str(it)[:300] for it in items[:most]) + more


def only_in(first, second):
    """What a list has more often than another."""
    return sorted((collections.Counter(first) - collections.Counter(second)).elements())


class Pair:
    """Two copies of a tree, one for nj and one for ninja, built at the same path in turn, since compilers and generators
    write paths into what they make."""

    TOOLS = ("nj", "ninja")

    def __init__(self, ground, name, fill, build="."):
        """The tree is made once, by `fill` in its folder, and copied. Both tools build in the folder `build` below it."""
        self.ground = ground
        self.name = name
        self.below = build
        self.around = ground.tree(name)
        self.home = os.path.join(self.around, "here")
        os.makedirs(self.home)
        fill(self.home)
        shutil.copytree(self.home, self.copy_of("ninja"), symlinks=True)
        os.rename(self.home, self.copy_of("nj"))

    def copy_of(self, tool):
        return os.path.join(self.around, f"{tool}-copy")

    @contextlib.contextmanager
    def at_home(self, tool):
        os.rename(self.copy_of(tool), self.home)
        try:
            yield self.home
        finally:
            os.rename(self.home, self.copy_of(tool))

    def edit(self, change):
        """Does the same to both copies, some milliseconds after what was done before."""
        time.sleep(0.02)
        for tool in self.TOOLS:
            with self.at_home(tool) as folder:
                change(folder)

    def build(self, tool, *words):
        program = self.ground.nj if tool == "nj" else self.ground.ninja
        with self.at_home(tool) as folder:
            return run([program, "-C", self.below, "-v", *words], folder)

    def files(self, tool, passed_over=None):
        return files_of(self.copy_of(tool), passed_over)

    def step(self, what, *words, status=0, passed_over=None, same_commands=True, terminal=False, besides=()):
        """A build of each copy: both end alike, run the same commands and leave the same files. Where commands get the
        terminal, ninja does not show each that it ran. What nj runs besides is named by its start."""
        where = f"{self.name}, {what}"
        self.ground.step(where)
        nj, ninja = self.build("nj", *words), self.build("ninja", *words)
        ended = (nj.status == 0) == (ninja.status == 0) == (status == 0)
        if not self.ground.expect(ended, where, f"status {nj.status}, by ninja {ninja.status}, and not {status}: {nj.text[-900:]}"):
            print(ninja.text[-900:], file=sys.stderr)
        if same_commands:
            self.compare_commands(where, nj, ninja, terminal, besides)
        told = differences(self.files("nj", passed_over), self.files("ninja", passed_over), self.TOOLS)
        self.ground.expect(not told, where, f"files: {in_short(told)}")
        return nj

    def compare_commands(self, where, nj, ninja, terminal=False, besides=()):
        more, less = only_in(nj.commands, ninja.commands), only_in(ninja.commands, nj.commands)
        for start in besides:
            found = [it for it in more if it.startswith(start)]
            self.ground.expect(len(found) == 1, where, f"nj is to run {start} besides: {in_short(more)}")
            more = [it for it in more if it not in found]
        self.ground.expect(terminal or not more, where, f"nj ran what ninja did not: {in_short(more)}")
        self.ground.expect(not less, where, f"ninja ran what nj did not: {in_short(less)}")

    def rests(self, what="nothing to do", *words):
        """A build in which neither tool has anything to do."""
        where = f"{self.name}, {what}"
        self.ground.step(where)
        nj, ninja = self.build("nj", *words), self.build("ninja", *words)
        self.ground.expect(is_idle(nj), where, f"nj: {nj.text[-900:]}")
        self.ground.expect(ninja.text.rstrip().endswith("no work to do."), where, f"ninja: {ninja.text[-900:]}")


def is_idle(ran):
    return ran.status == 0 and ran.text == "nj: no work to do.\n"
