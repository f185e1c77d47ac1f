"""Builds that are killed at random moments, and the builds behind them."""

import concurrent.futures
import functools
import os
import random
import shutil
import signal
import subprocess
import time

import ground
import own
from ground import is_idle, write

JOBS = 4
LANES = 6
UNITS = 16
TABLES = 8

RULES = """\
rule step
  command = echo "b $out" >> $$TRACE; head -c 9 $in > $out; sleep $nap; cat $in > $out; echo $out >> $out; echo "e $out" >> $$TRACE
rule scan
  command = echo "b $out" >> $$TRACE; echo half > $out; sleep $nap; cat $in $read > $out; echo "$out: $in $read" > $out.d; echo "e $out" >> $$TRACE
  depfile = $out.d
  deps = gcc
rule first_line
  command = echo "b $out" >> $$TRACE; sleep $nap; head -n 1 $in > $out.new; cmp -s $out.new $out && rm $out.new || mv $out.new $out; echo "e $out" >> $$TRACE
  restat = 1
rule args
  command = echo "b $out" >> $$TRACE; echo half > $out; sleep $nap; cat $$(cat $out.rsp) > $out; echo "e $out" >> $$TRACE
  rspfile = $out.rsp
  rspfile_content = $in
"""


class Tree:
    """A tree of toy commands, whose outputs are known without running any: for each output its edge, and what it is to
    hold by what sources hold."""

    def __init__(self, place, name):
        self.place = place
        self.folder = place.tree(name)
        self.trace = os.path.join(place.folder, f"{name}.trace")
        self.sources = {}
        self.edges = []
        self.chance = random.Random(7)
        self.make()

    def edge(self, rule, out, inputs, more="", read=()):
        self.edges.append((rule, out, tuple(inputs), tuple(read)))
        nap = f"0.0{self.chance.randrange(5, 30):02}"
        told = f"  read = {' '.join(read)}\n" if read else ""
        return f"build {out}: {rule} {' '.join(inputs)}{more}\n  nap = {nap}\n{told}"

    def make(self):
        text = RULES
        for n in range(TABLES):
            self.put(f"table{n}", f"{n}\ncomment\n")
            self.put(f"head{n}", f"head {n}\n")
            text += self.edge("first_line", f"gen/g{n}", [f"table{n}"])
        for n in range(UNITS):
            self.put(f"source{n}", f"source {n}\n")
            made = f"gen/g{n * 3 % TABLES}"
            text += self.edge("scan", f"obj/o{n}", [f"source{n}"], f" || {made}", (f"head{n % TABLES}", made))
        for n in range(0, UNITS, 4):
            text += self.edge("args", f"lib/l{n}", [f"obj/o{n + k}" for k in range(4)])
        text += self.edge("step", "bin/app", [f"lib/l{n}" for n in range(0, UNITS, 4)])
        before = "source0"
        for n in range(4):
            text += self.edge("step", f"chain/c{n}", [before])
            before = f"chain/c{n}"
        write(self.folder, "build.ninja", text)

    def put(self, path, text):
        self.sources[path] = text
        write(self.folder, path, text)

    def wanted(self):
        """What each output is to hold."""
        held = dict(self.sources)
        for rule, out, inputs, read in self.edges:
            text = "".join(held[it] for it in inputs + read)
            held[out] = {"step": text + out + "\n", "first_line": text.split("\n")[0] + "\n"}.get(rule, text)
        return {out: held[out] for _, out, _, _ in self.edges}

    def below(self, changed):
        """The outputs that some changed paths concern."""
        found = set(changed)
        for _, out, inputs, read in self.edges:
            if found.intersection(inputs + read):
                found.add(out)
        return found

    def edit(self):
        """Some edits; the paths that changed."""
        time.sleep(0.01)
        changed = []
        for _ in range(self.chance.randrange(3, 9)):
            what = self.chance.choice(["source", "source", "head", "table", "comment", "delete"])
            number = self.chance.randrange(UNITS if what == "source" else TABLES)
            word = self.chance.randrange(10**6)
            if what == "delete":
                out = self.chance.choice(self.edges)[1]
                path = os.path.join(self.folder, out)
                if os.path.exists(path):
                    os.remove(path)
                changed.append(out)
                continue
            path = "table" + str(number) if what == "comment" else what + str(number)
            first = self.sources[path].split("\n")[0] if what == "comment" else str(word)
            self.put(path, f"{first}\n{word}\n")
            changed.append(path)
        return changed

    def anew(self):
        """Nothing of what builds made is left."""
        for name in ("gen", "obj", "lib", "bin", "chain"):
            shutil.rmtree(os.path.join(self.folder, name), ignore_errors=True)
        for name in (".nj_log", ".nj_deps"):
            if os.path.exists(os.path.join(self.folder, name)):
                os.remove(os.path.join(self.folder, name))

    def begun_and_ended(self):
        """Which commands the trace says began, and which ended, since it was asked last."""
        begun, ended = [], []
        if os.path.exists(self.trace):
            with open(self.trace, encoding="utf-8") as it:
                for line in it.read().split("\n"):
                    (begun if line.startswith("b ") else ended).append(line[2:])
            os.remove(self.trace)
        return begun, [it for it in ended if it]

    def wrong_outputs(self):
        told = []
        for out, text in self.wanted().items():
            path = os.path.join(self.folder, out)
            held = ground.read(self.folder, out) if os.path.exists(path) else None
            if held != text:
                told.append(f"{out} holds {held!r}, and not {text!r}")
        return told

    def start(self, *before):
        return own.start([*before, self.place.nj, "-j", str(JOBS)], cwd=self.folder, env={**os.environ, "TRACE": self.trace},
                         stdout=subprocess.DEVNULL, stderr=subprocess.DEVNULL)

    def build(self):
        return ground.run([self.place.nj, "-j", str(JOBS), "-v"], self.folder, {"TRACE": self.trace})


def wait_for_commands(build):
    """Waits for the commands of a build that has ended. They are of its group, and orphans of it are children of this process."""
    if not own.wait_for_group(build):
        raise RuntimeError("commands of a killed build do not end")


def kill_all(build, number):
    os.killpg(build.pid, number)
    build.wait()
    wait_for_commands(build)


def kill_alone(build, number):
    os.kill(build.pid, number)
    build.wait()
    wait_for_commands(build)


class Round:
    """One edit, one build that is killed, and the build behind it."""

    def __init__(self, tree, name):
        self.tree = tree
        self.name = name
        self.where = f"kills, {name}"
        self.tear = 0

    def finish(self, changed, slack=JOBS):
        """The next build gives what a clean one gives. Of the commands that had ended at most as many run again as can have
        run when the build was killed, and no command that nothing concerns."""
        tree, place = self.tree, self.tree.place
        begun, ended = tree.begun_and_ended()
        ran = tree.build()
        again, _ = tree.begun_and_ended()
        told = tree.wrong_outputs()
        place.expect(ran.status == 0, self.where, f"the next build: {ran.text[-900:]}")
        place.expect(not told, self.where, ground.in_short(told))
        twice = [it for it in again if it in ended]
        place.expect(len(twice) <= slack, self.where, f"had ended and were run again: {twice}; had begun {begun}, ended {ended}, again {again}")
        beside = set(again) - tree.below(changed)
        place.expect(not beside, self.where, f"concern nobody and were run: {sorted(beside)}")
        return ran


def rounds(place, tree, name, count, kill, number):
    """Rounds of one kind, until so many builds were still running when they were killed."""
    hits, turn, span = 0, 0, 0.4
    while hits < count:
        turn += 1
        if turn % 40 == 39:
            tree.anew()
            changed = [out for _, out, _, _ in tree.edges]
        else:
            changed = tree.edit()
        build, begun = tree.start(), time.monotonic()
        wait = tree.chance.uniform(0, span)
        try:
            build.wait(wait)
            span = 0.9 * span + 0.1 * (time.monotonic() - begun) * 1.1
            wait_for_commands(build)
        except subprocess.TimeoutExpired:
            kill(build, number)
            hits += 1
            span = min(span * 1.02, 3)
        one = Round(tree, f"{name} {turn}")
        one.finish(changed)
        if turn % 10 == 0:
            place.expect(is_idle(tree.build()), one.where, "the build behind that has something to do")
            tree.begun_and_ended()
    place.count("kills", hits)
    place.step(f"{name}: {turn} builds, {hits} of them killed while they ran")


def edits_meanwhile(place, tree, count):
    """Sources are edited while a build runs: the next one is right."""
    for turn in range(count):
        changed = tree.edit()
        build = tree.start()
        for _ in range(3):
            time.sleep(tree.chance.uniform(0, 0.15))
            changed += tree.edit()
        build.wait()
        wait_for_commands(build)
        one = Round(tree, f"edits while a build runs {turn}")
        tree.begun_and_ended()
        one.finish(changed)
        place.expect(is_idle(tree.build()), one.where, "the build behind that has something to do")
        tree.begun_and_ended()
    place.step(f"{count} builds during which sources were edited, each with one behind it")


def left_files(tree):
    """What is there of the files by which commands of a build are known."""
    return [it for it in os.listdir(tree.folder) if it == ".nj_in" or it.startswith(".nj_out.")]


def right_behind(place, tree, count, number):
    """The signal ends nj alone, and right behind that comes an edit and the next build: its outputs are right, though commands of the
    build before ran on, and so they stay; nothing is left in the folder."""
    hits, turn = 0, 0
    while hits < count:
        turn += 1
        tree.edit()
        build = tree.start()
        try:
            build.wait(tree.chance.uniform(0, 0.4))
        except subprocess.TimeoutExpired:
            os.kill(build.pid, number)
            build.wait()
            hits += 1
        tree.edit()
        where = f"right behind {number.name}, {turn}"
        ran = tree.build()
        told = tree.wrong_outputs()
        place.expect(ran.status == 0, where, f"the next build: {ran.text[-900:]}")
        place.expect(not told, where, ground.in_short(told))
        place.expect(not left_files(tree), where, f"left: {left_files(tree)}")
        place.expect(is_idle(tree.build()), where, "the build behind that has something to do")
        wait_for_commands(build)
        told = tree.wrong_outputs()
        place.expect(not told, where, f"once all had ended, {ground.in_short(told)}")
        tree.begun_and_ended()
    place.count("kills", hits)
    place.step(f"right behind {number.name} to nj alone: {turn} builds, {hits} of them killed while they ran")


def torn(tree):
    """Cuts off a part of what was put last behind a log, as a kill within an append would have: of the build log a record of
    a good end, or of the deps log one whose command has no record of its end. Answers whether there was one."""
    log, deps = (os.path.join(tree.folder, it) for it in (".nj_log", ".nj_deps"))
    path, last = log, last_line(log)
    if not last.startswith(b"d\t"):
        path, told = deps, last_line(deps)
        if not told or (last.startswith(b"d\t") and last.split(b"\t")[2] == told.split(b"\t")[2]):
            return False
        last = told
    with open(path, "r+b") as it:
        size = it.seek(0, os.SEEK_END)
        it.truncate(size - tree.chance.randrange(1, len(last) + 1))
    return True


def last_line(path):
    if not os.path.exists(path):
        return b""
    with open(path, "rb") as it:
        lines = it.read().split(b"\n")
    return lines[-2] + b"\n" if len(lines) > 2 else b""


def appends(place, tree, count):
    """Kills of nj alone, with the last append cut off. Of the commands that had ended one more may run again."""
    hits, cut = 0, 0
    for turn in range(count):
        changed = tree.edit()
        build = tree.start()
        time.sleep(tree.chance.uniform(0.02, 0.4))
        if build.poll() is None:
            hits += 1
            kill_alone(build, signal.SIGKILL)
        was_torn = torn(tree)
        cut += was_torn
        Round(tree, f"append {turn}").finish(changed + lost(tree) if was_torn else changed, JOBS + 1)
    place.count("kills", hits)
    place.step(f"appends: {count} builds, {hits} of them killed while they ran, {cut} logs cut off in the last record")


def lost(tree):
    """What may have been recorded in the build before, and was cut off now: anything."""
    return [out for _, out, _, _ in tree.edges]


def calls(place, tree, count):
    """Kills of nj alone right before one of its system calls: those of files, of starts, of appends and replaces."""
    if place.lacks("kills within system calls", "strace"):
        return
    listed = os.path.join(place.folder, "calls")
    hits = 0
    for turn in range(count):
        changed = tree.edit()
        kind = tree.chance.choice(["write", "openat", "rename", "unlink", "clone,clone3,vfork,fork", "pwrite64", "close", "mkdir", "wait4"])
        if kind == "rename":
            # A log whose last line is cut off is replaced by the next build.
            changed += lost(tree) if torn(tree) else []
        when = 1 if kind == "rename" else tree.chance.randrange(1, 40)
        strace = ["strace", "-o", listed, "-e", f"trace={kind}", "-e", f"inject={kind}:signal=KILL:when={when}"]
        build = tree.start(*strace)
        build.wait()
        wait_for_commands(build)
        with open(listed, encoding="utf-8", errors="replace") as it:
            hits += "killed by SIGKILL" in it.read()
        Round(tree, f"{kind} {when} ({turn})").finish(changed, JOBS + 1)
    place.count("kills", hits)
    place.step(f"calls: {count} builds, {hits} of them killed before a system call")


def first_build(place, name):
    """A tree of this name that has been built, or nothing where that went wrong."""
    tree = Tree(place, name)
    ran = tree.build()
    tree.begun_and_ended()
    if place.expect(ran.status == 0 and not tree.wrong_outputs(), f"kills, {name}", f"a first build: {ran.text[-900:]}"):
        return tree
    return None


def lanes(many):
    """What is tried, each in a tree of its own."""
    some = max(many // 5, 1)
    for number in (signal.SIGKILL, signal.SIGINT, signal.SIGTERM):
        for kill, whom in ((kill_all, "nj and all its commands"), (kill_alone, "nj alone")):
            yield f"{number.name} to {whom}", functools.partial(rounds, name=f"{number.name} to {whom}", count=many, kill=kill, number=number)
    for number in (signal.SIGKILL, signal.SIGINT):
        yield f"right behind {number.name}", functools.partial(right_behind, count=some, number=number)
    yield "edits meanwhile", functools.partial(edits_meanwhile, count=some)
    yield "appends", functools.partial(appends, count=some)
    yield "calls", functools.partial(calls, count=2 * some)


def run(place):
    def lane(name, what):
        tree = first_build(place, "killed-" + name.replace(" ", "-"))
        if tree:
            what(place, tree)

    # Builds mostly wait for their commands, which mostly sleep.
    with concurrent.futures.ThreadPoolExecutor(LANES) as pool:
        for it in [pool.submit(lane, *it) for it in lanes(place.kills_wanted)]:
            it.result()
