"""Compilers behind launchers: distcc over three daemons on this machine, one of which is killed in the middle of a build, and ccache, with hard
links too; and launchers that end before what they started has."""

import os
import re
import shutil
import signal
import socket
import subprocess
import time

import own
from ground import Pair, Ran, differences, files_of, in_short, is_idle, must_run, read, replace, run, touch, write

UNITS = 82

# Where a command failed: ninja removes what it left as a depfile, and nj one of an earlier run, before it starts.
DEPFILES = re.compile(r"\.o\.d$")

DAEMONS = 3
SLOTS = 4

BUILD = """\
launcher = LAUNCHER
rule cc
  command = $launcher cc -O1 -I. -MMD -MF $out.d -c $in -o $out
  depfile = $out.d
  deps = gcc
rule link
  command = cc -o $out $in
"""


def fill_with(launcher):
    """A C program of so many sources, each with a header of its own and one that all read."""
    def fill(folder):
        units = range(UNITS - 1)
        objects = "".join(f" o/u{n}.o" for n in units)
        lines = "".join(f"build o/u{n}.o: cc u{n}.c\n" for n in units)
        write(folder, "build.ninja", f"{BUILD.replace('LAUNCHER', launcher)}{lines}build o/main.o: cc main.c\nbuild app: link o/main.o{objects}\n")
        write(folder, "all.h", "#include <stdio.h>\n" + "".join(f"int u{n}(void);\n" for n in units))
        for n in units:
            write(folder, f"u{n}.h", f"#define N{n} {n}\n")
            write(folder, f"u{n}.c", f'#include "all.h"\n#include "u{n}.h"\nint u{n}(void) {{ return N{n}; }}\n')
        write(folder, "main.c", '#include "all.h"\nint main(void) { printf("sum %d\\n", 0' + "".join(f" + u{n}()" for n in units) + "); return 0; }\n")
    return fill


# A launcher that ends at once and leaves all work to a process that has its output open: `late.sh HOW WHAT OUT IN..`. HOW is which streams
# that process keeps, or what becomes of it or of the launcher, as long as nobody is spared; WHAT comes late: the depfile, its second line,
# or the output, in place of which nothing stands till then. How long it rests before that stands beside the tree, and there it notes
# that it rests, and that it has rested: so no command changes with it, and no file of the tree.
LATE_LAUNCHER = r"""
how=$1 what=$2 out=$3
shift 3
rest() {
  read nap < ../nap
  echo b >> ../rests
  : > ../rests.$out
  sleep $nap
  echo e >> ../rests
}
work() {
  case $what in
  depfile) cat "$@" h > $out; rest; echo "$out: $* h" > $out.d ;;
  unfinished) cat "$@" h > $out; echo "$out: $* \\" > $out.d; rest; echo "  h" >> $out.d ;;
  output) rest; cat "$@" > $out ;;
  same) cat "$@" > $out.new; rest; cmp -s $out.new $out && rm $out.new || mv $out.new $out ;;
  esac
}
kill_child() {
  until test -e ../rests.$out; do sleep 0.05; done
  kill -9 $1
}
case $how in
both) work "$@" & ;;
out) work "$@" 2> /dev/null & ;;
errors) work "$@" > /dev/null & ;;
setsid) setsid sh $0 within $what $out "$@" & ;;
within) work "$@" ;;
child_killed)
  rm -f ../rests.$out
  work "$@" &
  test -e ../spared || kill_child $! & ;;
shell_killed)
  work "$@" &
  test -e ../spared || kill -9 $$ ;;
esac
"""

LATE_RULES = """\
rule late
  command = sh late.sh $how $what $out $in
rule late_depfile
  command = sh late.sh $how $what $out $in
  depfile = $out.d
rule copy
  command = cat $in > $out
"""

# What comes late, the rule, and what its edge has besides.
LATE_KINDS = (("depfile", "late_depfile", ""), ("depfile", "late_depfile", "  deps = gcc\n"), ("unfinished", "late_depfile", ""),
              ("unfinished", "late_depfile", "  deps = gcc\n"), ("output", "late", ""), ("same", "late", "  restat = 1\n"))

# Depfiles of edges whose launcher was killed.
LATE_DEPFILES = re.compile(r"^o\d+\.d$")

# The ways in which what is left keeps the command's output, where the command ends well.
WAYS = ("both", "out", "errors", "setsid")

# How long what is late rests, in seconds: a usual rest, one in which 500 launchers can be started, and one that is over at once.
NAP, LONG_NAP, SHORT_NAP = 2, 10, 0.05

# So many commands at least are to be held at once by `-j 0`, of 504.
MANY = 500

# How long such a build may take, in seconds.
LATE_LONGEST = 300


def run_all(place):
    late(place)
    distcc(place)
    ccache(place, "ccache", {})
    ccache(place, "ccache with hard links", {"CCACHE_HARDLINK": "1"})


def check_made(place, where, folder, jobs=SLOTS):
    """What stands there is what the compiler alone makes of the same sources, and nothing is left to do."""
    ran = run([place.nj, "-C", folder, "-v"], folder)
    place.expect(is_idle(ran), where, f"something is left to do: {ran.text[-900:]}")
    alone = f"{folder}-alone"
    shutil.copytree(folder, alone, ignore=shutil.ignore_patterns("o", "app", ".n*"))
    text = open(os.path.join(alone, "build.ninja"), encoding="utf-8").read().split("\n")
    write(alone, "build.ninja", "\n".join(["launcher =", *text[1:]]))
    must_run([place.nj, "-j", str(jobs)], alone)
    told = differences({path: it for path, it in files_of(folder).items() if path != "build.ninja"},
                       {path: it for path, it in files_of(alone).items() if path != "build.ninja"}, ("the launcher", "the compiler alone"))
    place.expect(not told, where, f"files: {in_short(told)}")
    shutil.rmtree(alone)


# ---- launchers that end before their work

def late_edges(ways, count):
    """So many edges for each way and each thing that comes late; each has a copy above it."""
    edges, number = "", 0
    for how in ways:
        for what, rule, kind in LATE_KINDS * count:
            number += 1
            edges += f"build o{number}: {rule} a{number % 7}\n  how = {how}\n  what = {what}\n{kind}build c{number}: copy o{number}\n"
    return edges


def fill_late(ways, count=1):
    def fill(folder):
        write(folder, "build.ninja", LATE_RULES + late_edges(ways, count))
        write(folder, "late.sh", LATE_LAUNCHER)
        write(folder, "h", "header\n")
        for n in range(7):
            write(folder, f"a{n}", f"source {n}\n")
    return fill


class LatePair(Pair):
    """A pair of trees with such launchers. `naps` says for each tool how long what is late rests, and `most` how many rested at once in its
    last build."""

    def __init__(self, ground, name, ways, count=1):
        super().__init__(ground, name, fill_late(ways, count))
        self.naps = dict.fromkeys(self.TOOLS, NAP)
        self.most = {}

    def build(self, tool, *words):
        write(self.around, "nap", f"{self.naps[tool]}\n")
        write(self.around, "rests", "")
        program = self.ground.nj if tool == "nj" else self.ground.ninja
        with self.at_home(tool) as folder:
            try:
                ran = run([program, "-C", self.below, "-v", *words], folder, limit=LATE_LONGEST)
            except subprocess.TimeoutExpired:
                ran = Ran(-1, [], f"it did not end in {LATE_LONGEST} s")
        self.most[tool] = most_at_once(read(self.around, "rests").split())
        return ran

    def held(self, what, least, most):
        """In the last builds so many commands were held at once: each keeps its job until what it left has ended."""
        for tool, count in self.most.items():
            self.ground.expect(least <= count <= most, f"{self.name}, {what}", f"{tool} held {count} commands at once, and not {least} to {most}")

    def spare(self):
        """From now on nobody is killed."""
        write(self.around, "spared", "")


def most_at_once(words):
    """How many had begun and not ended at once, of those that noted both."""
    most = now = 0
    for word in words:
        now += 1 if word == "b" else -1
        most = max(most, now)
    return most


def late(place):
    """What a launcher leaves behind is waited for, and read once it has ended: commands and files are those of ninja."""
    if place.lacks("launchers that end early", "ninja", "setsid"):
        return
    for jobs, count in (("1", 1), ("8", 1), ("0", 21)):
        pair = LatePair(place, f"left behind, -j {jobs}", WAYS, count)
        edges = len(WAYS) * len(LATE_KINDS) * count
        # two seconds each, one after the other, are enough of a wait for nj alone
        if jobs == "1":
            pair.naps["ninja"] = SHORT_NAP
        if jobs == "0":
            pair.naps = dict.fromkeys(pair.TOOLS, LONG_NAP)
        pair.step("a first build", "-j", jobs)
        pair.held("a first build", *((MANY, edges) if jobs == "0" else (int(jobs), int(jobs))))
        pair.rests()
        if jobs == "0":
            pair.naps = dict.fromkeys(pair.TOOLS, NAP)
        for what, change in (
            ("the header", lambda it: write(it, "h", "another\n")),
            ("a source", lambda it: write(it, "a3", "another source\n")),
            ("a source is touched", lambda it: touch(it, "a4")),
            ("the header once more", lambda it: write(it, "h", "a third\n")),
        ):
            pair.edit(change)
            pair.step(what, "-j", jobs)
            pair.held(what, 1, edges if jobs == "0" else int(jobs))
            pair.rests(f"{what}, again")
            # after two builds in which each was late for two seconds
            if jobs == "1":
                pair.naps["nj"] = SHORT_NAP
    ended_early(place)


def ended_early(place):
    """Where what was left is killed, nothing waits for it, and a launcher that is killed has failed: both no sooner than ninja says so, and
    what is done again after that is what ninja does."""
    many = ("-j", "8", "-k", "0")
    for how, name, passed_over in (
        ("child_killed", "left behind and killed", None),
        ("shell_killed", "left behind by a launcher that is killed", LATE_DEPFILES),
    ):
        pair = LatePair(place, name, (how,))
        pair.step("a first build", *many, status=1, passed_over=passed_over)
        pair.held("a first build", len(LATE_KINDS), len(LATE_KINDS))
        pair.step("the same again", *many, status=1, passed_over=passed_over)
        pair.edit(lambda it: write(it, "h", "another\n"))
        pair.step("the header", *many, status=1, passed_over=passed_over)
        pair.edit(lambda it: write(it, "a3", "another source\n"))
        pair.step("a source", *many, status=1, passed_over=passed_over)
        # a command that ended well without its depfile is not run again for the header alone
        pair.spare()
        pair.edit(all_sources)
        pair.step("all sources, and nobody is killed any more", *many)
        pair.rests("all sources, again")
        pair.edit(lambda it: write(it, "h", "a third\n"))
        pair.step("the header once more", *many)
        pair.rests("the header once more, again")


def all_sources(folder):
    for n in range(7):
        write(folder, f"a{n}", f"the last source {n}\n")


# ---- distcc

class Daemon:
    """A daemon of distcc on this machine, at a port of its own."""

    def __init__(self, folder, name):
        with socket.socket() as free:
            free.bind(("127.0.0.1", 0))
            self.port = free.getsockname()[1]
        self.log = os.path.join(folder, f"{name}.log")
        words = ["distccd", "--no-detach", "--daemon", "--listen", "127.0.0.1", "--port", str(self.port), "--allow", "127.0.0.1",
                 "--jobs", str(SLOTS), "--log-level", "info", "--log-file", self.log]
        self.process = own.start(words, stdout=subprocess.DEVNULL, stderr=subprocess.DEVNULL)

    def is_up(self):
        for _ in range(100):
            with socket.socket() as call:
                if call.connect_ex(("127.0.0.1", self.port)) == 0:
                    return True
            time.sleep(0.05)
        return False

    def compiled(self):
        with open(self.log, encoding="utf-8", errors="replace") as it:
            return it.read().count("COMPILE_OK")

    def kill(self):
        if self.process.poll() is None:
            os.killpg(self.process.pid, signal.SIGKILL)
            self.process.wait()
        own.end_group(self.process)


def distcc(place):
    if place.lacks("distcc", "ninja", "cc", "distcc", "distccd"):
        return
    folder = place.tree("distcc-daemons")
    os.chmod(folder, 0o777)
    daemons = [Daemon(folder, f"daemon{n}") for n in range(DAEMONS)]
    try:
        if not all(it.is_up() for it in daemons):
            place.leave_out("distcc", "its daemons do not start")
            return
        hosts = " ".join(f"127.0.0.1:{it.port}/{SLOTS}" for it in daemons)
        state = os.path.join(folder, "state")
        os.makedirs(state)
        over(place, daemons, f"env DISTCC_HOSTS='{hosts}' DISTCC_DIR={state} distcc")
    finally:
        for it in daemons:
            it.kill()


def over(place, daemons, launcher):
    jobs = ["-j", str(DAEMONS * SLOTS)]
    pair = Pair(place, "distcc", fill_with(launcher))
    pair.step("a first build", *jobs)
    counts = [it.compiled() for it in daemons]
    place.expect(all(counts), "distcc", f"each daemon is to compile something: {counts}")
    pair.rests()
    for what, change in (
        ("a header of one", lambda it: replace(it, "u3.h", "N3 3", "N3 30")),
        ("a header of all", lambda it: touch(it, "all.h")),
        ("a source", lambda it: touch(it, "u7.c")),
        ("an output is deleted", lambda it: os.remove(os.path.join(it, "o/u9.o"))),
    ):
        pair.edit(change)
        pair.step(what, *jobs)
        pair.rests(f"{what}, again")
    pair.edit(lambda it: replace(it, "u5.c", "return N5;", "return N5"))
    pair.step("a source is broken", *jobs, status=1, passed_over=DEPFILES)
    pair.edit(lambda it: replace(it, "u5.c", "return N5", "return N5;"))
    pair.step("it is mended", *jobs)
    killed_in_the_middle(place, daemons, launcher, jobs)


def killed_in_the_middle(place, daemons, launcher, jobs):
    """One daemon dies while a build runs: distcc compiles here what it was given, and the build is right."""
    where = "distcc, a daemon is killed in the middle"
    place.step(where)
    folder = place.tree("distcc-killed")
    fill_with(launcher)(folder)
    build = subprocess.Popen([place.nj, *jobs], cwd=folder, stdin=subprocess.DEVNULL, stdout=subprocess.PIPE, stderr=subprocess.STDOUT)
    objects = os.path.join(folder, "o")
    while build.poll() is None and (not os.path.isdir(objects) or len(os.listdir(objects)) < UNITS // 3):
        time.sleep(0.005)
    place.expect(build.poll() is None, where, "the build ended before the kill")
    daemons[0].kill()
    place.count("kills")
    told = build.communicate(timeout=600)[0].decode("utf-8", "replace")
    place.expect(build.returncode == 0, where, f"status {build.returncode}: {told[-900:]}")
    check_made(place, where, folder)
    lone = [it.compiled() for it in daemons[1:]]
    for it in daemons[1:]:
        it.kill()
    where = "distcc, no daemon is left"
    place.step(where)
    touch(folder, "all.h")
    time.sleep(0.02)
    ran = run([place.nj, *jobs], folder)
    place.expect(ran.status == 0, where, f"status {ran.status}: {ran.text[-900:]}")
    check_made(place, where, folder)
    place.expect(all(lone), where, f"the other daemons compiled nothing: {lone}")


# ---- ccache

def ccache(place, name, how):
    if place.lacks(name, "ninja", "cc", "ccache"):
        return
    cache = place.tree(f"{name.replace(' ', '-')}-cache")
    known = " ".join(f"{key}={value}" for key, value in {"CCACHE_DIR": cache, **how}.items())
    launcher = f"env -u CCACHE_DISABLE {known} ccache"
    folder = place.tree(name.replace(" ", "-"))
    fill_with(launcher)(folder)
    for what, prepare, wanted in (
        ("an empty cache", lambda: None, (0, UNITS)),
        ("all is in the cache", lambda: without_outputs(folder), (UNITS, 0)),
        ("a header is edited", lambda: replace(folder, "u3.h", "N3 3", "N3 30"), (0, 1)),
        ("it is as it was", lambda: replace(folder, "u3.h", "N3 30", "N3 3"), (1, 0)),
        ("a header of all is touched", lambda: touch(folder, "all.h"), (UNITS, 0)),
    ):
        where = f"{name}, {what}"
        place.step(where)
        time.sleep(0.05)
        prepare()
        time.sleep(0.05)
        told = cached(cache, lambda where=where: build(place, where, folder))
        place.expect(told == wanted, where, f"hits and misses: {told}, and not {wanted}")
        check_made(place, where, folder)


def build(place, where, folder):
    ran = run([place.nj, "-j", str(SLOTS)], folder)
    place.expect(ran.status == 0, where, f"status {ran.status}: {ran.text[-900:]}")


def without_outputs(folder):
    shutil.rmtree(os.path.join(folder, "o"))
    os.remove(os.path.join(folder, "app"))


def cached(cache, do):
    """How many hits and misses come while this is done."""
    def counts():
        told = dict(it.split("\t") for it in must_run(["ccache", "--print-stats"], cache, {"CCACHE_DIR": cache}).strip().split("\n"))
        return sum(int(told[it]) for it in ("direct_cache_hit", "preprocessed_cache_hit")), int(told["cache_miss"])
    before = counts()
    do()
    after = counts()
    return after[0] - before[0], after[1] - before[1]
