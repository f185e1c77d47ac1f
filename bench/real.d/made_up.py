"""Trees that are made up: graphs of all kinds of edges, edited at random, and built beside ninja."""

import os
import random
import re
import signal
import subprocess

import own
from kills import kill_all
from ground import Pair, differences, in_short, is_idle, only_in, touch, write

TREES = 30
STEPS = 16

# A source whose text has BAD makes each command that has it as an input fail. A line `use PATH..` of a source names what a
# command reads that scans it. What stands between `$open` and `$shut` is left to a process that runs on for a while, where an edge has LATE.
RULES = """\
rule copy
  command = : $word; ! grep -q BAD $in && $open cat $in $also | tee $out > /dev/null $shut
rule stable
  command = : $word; ! grep -q BAD $in && $open head -n 2 $in > $out.new && { cmp -s $out.new $out && rm $out.new || mv $out.new $out; } $shut
  restat = 1
rule scan
  command = : $word; ! grep -q BAD $in && $open r=$$(sed -n 's/^use //p' $in) && cat $in $$r > $out && echo $out: $in $$r > $out.d $shut
  depfile = $out.d
  deps = gcc
rule scan_stable
  command = : $word; ! grep -q BAD $in && $open r=$$(sed -n 's/^use //p' $in) && cat $in $$r > $out.all && $
      sort -u $out.all | head -n 2 > $out.new && rm $out.all && { cmp -s $out.new $out && rm $out.new || mv $out.new $out; } && $
      echo $out: $in $$r > $out.d $shut
  depfile = $out.d
  deps = gcc
  restat = 1
rule scan_keeping
  command = : $word; ! grep -q BAD $in && $open r=$$(sed -n 's/^use //p' $in) && cat $in $$r > $out && echo $out: $in $$r > $out.d $shut
  depfile = $out.d
rule args
  command = ! grep -q BAD $in && cat $$(sed 's/word[0-9]*//' $out.rsp) > $out
  rspfile = $out.rsp
  rspfile_content = word$word $in
"""

# Who runs on has the command's output open, and both tools wait for that.
LATE = "  open = ( ( sleep 0.05;\n  shut = ) & )\n"

# Depfiles of commands that failed, and what commands that were killed left.
BESIDE = re.compile(r"\.(d|new|all)$")


class Graph:
    """A graph, and what its sources hold. It is the same for both copies, which `write_all` brings up to date."""

    def __init__(self, number):
        self.chance = random.Random(number)
        self.late = random.Random(-1 - number)
        self.headers = [f"h{n}" for n in range(5)]
        self.sources = [f"s{n}" for n in range(8)]
        self.edges = []
        self.scanned = {}
        self.texts = {it: self.text() for it in self.headers}
        self.groups = []
        self.unsettled = False
        self.killed = False
        self.make()
        for it in self.sources:
            self.texts[it] = self.text(it)

    def some(self, items, most):
        return self.chance.sample(items, min(len(items), self.chance.randrange(most + 1)))

    def make(self):
        made = []
        for n in range(self.chance.randrange(5, 18)):
            rule = self.chance.choice(["copy", "copy", "stable", "stable", "scan", "scan", "scan_stable", "scan_keeping", "args", "phony"])
            known = self.sources + made + self.groups
            first = [self.chance.choice(self.sources if rule.startswith("scan") else self.sources + made)]
            edge = {"rule": rule, "outs": [f"o{n}"], "ins": first, "implicit": self.some(known, 2), "order": self.some(made + self.groups, 2),
                    "valid": [], "word": self.chance.randrange(100), "late": self.late.random() < 0.1}
            if rule == "copy" and self.chance.random() < 0.4:
                edge["outs"].append(f"o{n}b")
            if rule in ("copy", "args", "phony"):
                edge["ins"] = sorted({*first, *self.some(self.sources + made, 2)})
            if rule == "phony":
                edge.update(outs=[f"group{n}"], implicit=[], word=0)
                self.groups.append(f"group{n}")
            elif rule.startswith("scan"):
                self.scanned.setdefault(first[0], []).append([it for it in edge["order"] + edge["implicit"] if it in made])
            if made and self.chance.random() < 0.1:
                edge["valid"] = [self.chance.choice(made)]
            self.edges.append(edge)
            made += [it for it in edge["outs"] if rule != "phony"]
        self.made = made

    def text(self, source=None):
        """A new text; of a source that commands scan with the names of headers, and of outputs that stand above all of these."""
        first = f"line {self.chance.randrange(3)}\nline {self.chance.randrange(3)}\nline {self.chance.randrange(10**6)}\n"
        if source not in self.scanned:
            return first
        above = set.intersection(*(set(it) for it in self.scanned[source]))
        return first + "".join(f"use {it}\n" for it in self.some([*self.headers, *sorted(above)], 3))

    def build_file(self):
        lines = [RULES]
        for it in self.edges:
            line = f"build {' '.join(it['outs'])}: {it['rule']} {' '.join(it['ins'])}"
            for mark, name in ((" | ", "implicit"), (" || ", "order"), (" |@ ", "valid")):
                line += mark + " ".join(it[name]) if it[name] else ""
            lines.append(line + "\n")
            if it["rule"] != "phony":
                lines.append(f"  word = {it['word']}\n{LATE if it['late'] else ''}")
        return "".join(lines)

    def write_all(self, folder):
        write(folder, "build.ninja", self.build_file())
        for path, text in self.texts.items():
            write(folder, path, text)

    def edit(self):
        """One edit: what it is, and what does it in a folder."""
        kind = self.chance.choice(["source", "source", "source", "header", "touch", "delete", "delete", "word", "break", "without", "lines", "nothing"])
        path = self.chance.choice(self.sources)
        if kind in ("source", "break"):
            bad = kind == "break" and self.chance.random() < 0.5
            self.texts[path] = self.text(path) + ("BAD\n" if bad else "")
        elif kind == "lines":
            # Where only later lines change, what is stable stays.
            self.texts[path] = re.sub(r"line \d{3,}", f"line {self.chance.randrange(10**3, 10**6)}", self.texts[path])
        elif kind in ("header", "without"):
            path = self.chance.choice(self.headers)
            self.texts[path] = self.text()
        elif kind == "touch":
            path = self.chance.choice(self.sources + self.headers)
        elif kind == "delete":
            path = self.chance.choice(self.made)
        elif kind == "word":
            self.chance.choice([it for it in self.edges if it["rule"] != "phony"] or [{}])["word"] = self.chance.randrange(100)
            path = "build.ninja"
        text = self.build_file() if kind == "word" else self.texts.get(path)
        return f"{kind} {path}", lambda folder: change(folder, kind, path, text)


def change(folder, kind, path, text):
    full = os.path.join(folder, path)
    if kind in ("delete", "without"):
        if os.path.exists(full):
            os.remove(full)
    elif kind == "touch":
        if os.path.exists(full):
            touch(folder, path)
    elif kind != "nothing":
        write(folder, path, text)


def step(pair, graph, what, words):
    """A build of each copy. Behind a failure nj may run what ninja takes for made: a command that failed has no record."""
    place, where = pair.ground, f"{pair.name}, {what}"
    place.count("steps")
    nj, ninja = (pair.build(it, "-j", "3", "-k", "0", *words) for it in Pair.TOOLS)
    failed = nj.status != 0
    place.expect((nj.status == 0) == (ninja.status == 0), where, f"status {nj.status}, by ninja {ninja.status}: {nj.text[-600:]} {ninja.text[-600:]}")
    more, less = only_in(nj.commands, ninja.commands), only_in(ninja.commands, nj.commands)
    place.expect(graph.unsettled or not more, where, f"nj ran what ninja did not: {in_short(more)}")
    place.expect(graph.killed or not less, where, f"ninja ran what nj did not: {in_short(less)}")
    # What a kill left by half stays so until it is built.
    if not graph.killed or not (failed or words):
        told = differences(*(pair.files(it, BESIDE if failed or graph.unsettled else None) for it in Pair.TOOLS), Pair.TOOLS)
        place.expect(not told, where, f"files: {in_short(told)}")
    if failed:
        graph.unsettled = True
    else:
        again = pair.build("nj", *words)
        place.expect(is_idle(again), where, f"nj has something to do again: {again.text[-600:]}")
        graph.unsettled = graph.unsettled and bool(words)
        graph.killed = graph.killed and bool(words)


def cut_off(pair, graph):
    """A build of nj alone that is killed with its commands. What it ran, the next one need not."""
    with pair.at_home("nj") as folder:
        build = own.start([pair.ground.nj, "-j", "3", "-k", "0"], cwd=folder, stdout=subprocess.DEVNULL, stderr=subprocess.DEVNULL)
        try:
            build.wait(graph.chance.uniform(0, 0.1))
        except subprocess.TimeoutExpired:
            kill_all(build, signal.SIGKILL)
            pair.ground.count("kills")
    graph.killed = graph.unsettled = True


def one(place, number):
    graph = Graph(number)
    pair = Pair(place, f"made-up-{number}", graph.write_all)
    step(pair, graph, "a first build", [])
    for turn in range(STEPS):
        told = []
        for _ in range(graph.chance.randrange(1, 4)):
            what, edit = graph.edit()
            pair.edit(edit)
            told.append(what)
        if graph.chance.random() < 0.25:
            cut_off(pair, graph)
            told.append("a build is killed")
        words = graph.some(graph.made, 2) if graph.chance.random() < 0.3 else []
        step(pair, graph, f"step {turn}: {', '.join(told)}; builds {' '.join(words) or 'all'}", words)


def run(place):
    if place.lacks("trees that are made up", "ninja"):
        return
    for number in range(TREES):
        before = len(place.found)
        one(place, number)
        if len(place.found) == before:
            print(f"  made-up-{number}: {STEPS + 1} builds", flush=True)
