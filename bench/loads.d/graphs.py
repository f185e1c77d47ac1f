"""Graphs with four to twelve dyndep files, made up: some of the files are sources and some are made, some edges have `restat` or a pool, what
loads bring goes on in chains, and some files are refused."""

import dataclasses
import random

# Each command makes all outputs of its line, and beside them what a dyndep file may name; `ran` has the commands in the order of their starts.
RULES = """\
pool one
  depth = 1
pool two
  depth = 2
rule copy
  command = echo $out >> ran; : $word && for it in $out $also; do cat $in > $$it || exit 1; done
rule keep
  command = echo $out >> ran; : $word && for it in $out $also; do cat $in | cut -c 1 > $$it.new; $
      cmp -s $$it.new $$it && rm $$it.new || mv $$it.new $$it; done
  restat = 1
rule keep_whole
  command = echo $out >> ran; : $word && for it in $out $also; do cmp -s $in $$it || cat $in > $$it || exit 1; done
  restat = 1
rule scan
  command = echo $out >> ran; : $word && for it in $out $also; do cat $in $told > $$it || exit 1; done && echo $out: $in $told > $out.d
  depfile = $out.d
  deps = gcc
rule scan_keeping
  command = echo $out >> ran; : $word && for it in $out $also; do cat $in $told > $$it || exit 1; done && echo $out: $in $told > $out.d
  depfile = $out.d
"""

VERSION = "ninja_dyndep_version = 1\n"

# What is no dyndep file. `{said}` is all that a right one says behind its version, and `{out}` an output of an edge that names it.
SYNTAX = [
    "", "{said}", "ninja_dyndep_version = 2\n{said}", "ninja_dyndep_version = one\n", VERSION + VERSION + "{said}", "\t" + VERSION,
    *(VERSION + "{said}" + it for it in (
        "build {out} dyndep\n", "build {out}: copy\n", "build {out}: dyndep s0\n", "build {out}: dyndep || s0\n", "build {out} more: dyndep\n",
        "build {out}: dyndep\n  pool = one\n", "build $\n", "rule late\n")),
]

FAULTS = ["syntax", "syntax", "unknown", "missing", "twice", "circle", "circle", "maker", "maker", "absent", "gone", "one of these files"]

EDITS = ["source", "source", "header", "said", "said", "word", "touch", "touch a file", "delete", "break", "mend", "mend", "fail"]

# What a command is given that fails.
FAILS = "; false"


@dataclasses.dataclass
class Edge:
    """A build line, and what its dyndep file says of it."""

    number: int
    rule: str
    outs: list
    ins: list
    implicit: list = dataclasses.field(default_factory=list)
    order: list = dataclasses.field(default_factory=list)
    valid: list = dataclasses.field(default_factory=list)
    file: int = None
    pool: str = ""
    word: str = ":"
    told: list = dataclasses.field(default_factory=list)
    gains: list = dataclasses.field(default_factory=list)
    needs: list = dataclasses.field(default_factory=list)
    restat: bool = False

    def may_gain(self):
        return [f"g{self.number}_{it}" for it in range(3)]

    def line(self):
        text = f"build {' '.join(self.outs)}: {self.rule} {' '.join(self.ins)}"
        for mark, names in ((" | ", self.implicit), (" || ", self.order), (" |@ ", self.valid)):
            text += mark + " ".join(names) if names else ""
        if self.rule == "phony":
            return text + "\n"
        return text + "\n" + "".join(f"  {name} = {value}\n" for name, value in self.bound().items() if value)

    def bound(self):
        """The variables of the line."""
        return {"word": self.word, "also": " ".join(self.may_gain()) if self.file is not None else "", "told": " ".join(self.told), "pool": self.pool,
                "dyndep": f"d{self.file}" if self.file is not None else ""}

    def statement(self):
        gains = " | " + " ".join(self.gains) if self.gains else ""
        needs = " | " + " ".join(self.needs) if self.needs else ""
        return f"build {self.outs[0]}{gains}: dyndep{needs}\n" + "  restat = 1\n" * self.restat


class Graph:
    """A graph, and what its files say. `files` gives all of them as they are to stand now; `edit` and `mend` change that."""

    edge = Edge
    rules = RULES

    def __init__(self, seed, number):
        self.chance = random.Random(f"{seed} {number}")
        self.sources = [f"s{it}" for it in range(self.chance.randrange(3, 9))]
        self.headers = [f"h{it}" for it in range(4)]
        self.texts = {it: self.text() for it in self.sources + self.headers}
        self.edges, self.makers, self.faults = [], {}, {}
        # For each path what stands above it by build lines alone.
        self.above = {}
        self.make()
        self.lines = list(range(len(self.edges)))
        self.chance.choice([lambda _: None, list.reverse, self.chance.shuffle])(self.lines)
        self.statements = {it: self.chance.random() < 0.5 for it in range(self.count)}
        self.words = ["-k", "0"] if self.chance.random() < 0.3 else []
        if self.chance.random() < 0.4:
            self.words += self.chance.sample(self.known(), min(len(self.edges), self.chance.randrange(1, 4)))
        if self.chance.random() < 0.5:
            self.break_some()

    def text(self):
        return f"{self.chance.randrange(3)}{self.chance.randrange(10**6)}\n"

    def some(self, items, most):
        return self.chance.sample(items, min(len(items), self.chance.randrange(most + 1)))

    def make(self):
        self.count = self.chance.randrange(4, 13)
        share = self.chance.choice([0, 0.3, 0.5, 0.5, 0.7, 1])
        kinds = ["file"] * self.count + ["edge"] * self.chance.randrange(2, 3 * self.count)
        self.chance.shuffle(kinds)
        self.placed = []
        for kind in kinds:
            if kind == "file":
                self.placed.append(len(self.placed))
                if self.chance.random() < share:
                    self.make_file(len(self.placed) - 1)
            else:
                self.make_edge(self.chance.choice([None, *self.placed[-3:], *self.placed]))
        for file in self.placed:
            if not any(it.file == file for it in self.edges):
                self.make_edge(file)
        self.give_gains(self.placed)
        for edge in self.edges:
            if self.chance.random() < 0.1:
                self.name_gain(edge)

    def known(self, phony=True):
        return [it for edge in self.edges if phony or edge.rule != "phony" for it in edge.outs]

    def make_file(self, file):
        """A line that makes a dyndep file; now and then it names another one itself."""
        implicit = self.some(self.known(), 1) if self.chance.random() < 0.2 else []
        rule = self.chance.choice(["copy", "keep_whole"])
        edge = self.edge(len(self.edges), rule, [f"d{file}"], [f"d{file}.in"], implicit, self.some(self.known(), 1))
        if len(self.placed) > 1 and self.chance.random() < 0.2:
            edge.file = self.chance.choice(self.placed[:-1])
        self.makers[file] = edge
        self.add(edge)

    def make_edge(self, file):
        number, texts = len(self.edges), self.known(phony=False)
        rule = self.chance.choice(["copy", "copy", "keep", "scan", "scan_keeping"] + ["phony"] * (file is None))
        edge = self.edge(number, rule, [f"o{number}"], [self.chance.choice(self.sources + texts)])
        edge.implicit, edge.order = self.some(self.known() + self.sources, 1), self.some(self.known(), 1)
        edge.file, edge.pool = file, self.chance.choice(["", "", "", "one", "two", "console"])
        if rule in ("copy", "phony") and self.chance.random() < 0.3:
            edge.outs.append(f"o{number}b")
        if rule.startswith("scan"):
            edge.told = self.some(self.headers + [it for it in texts if it in edge.ins + edge.implicit + edge.order], 3)
        if file is not None:
            self.chance.choice([edge.order, edge.order, edge.order, edge.implicit, edge.ins]).append(f"d{file}")
        if self.edges and self.chance.random() < 0.08:
            edge.valid = [self.chance.choice(self.known())]
        self.add(edge)

    def add(self, edge):
        if edge.file is not None and f"d{edge.file}" not in edge.ins + edge.implicit + edge.order:
            edge.order.append(f"d{edge.file}")
        self.edges.append(edge)
        below = set()
        for it in edge.ins + edge.implicit + edge.order:
            below |= {it} | self.above.get(it, set())
        for it in edge.outs:
            self.above[it] = below

    def give_gains(self, files):
        """Draws anew what these files say."""
        for edge in self.edges:
            if edge.file in files:
                edge.gains = self.some(edge.may_gain(), 2)
                edge.restat = self.chance.random() < 0.3
                edge.needs = self.some(self.before(edge) + self.sources[:2] + self.headers[:1], 3)

    def before(self, edge):
        """What an edge may need: what edges in front of it make by their lines, and what they make by files that are loaded in time."""
        found = []
        for it in self.edges[:edge.number]:
            found += it.outs
            in_time = it.file == edge.file or it.file not in self.makers or f"d{it.file}" in self.above.get(f"d{edge.file}", ())
            found += it.gains * 3 if in_time or self.chance.random() < 0.02 else []
        return found

    def name_gain(self, edge):
        """Lets a line name what only a dyndep file says that an edge in front of it makes; where a command makes that file, it stands there before."""
        found = [(it, name) for it in self.edges[:edge.number] for name in it.gains]
        if found:
            maker, name = self.chance.choice(found)
            edge.implicit.append(name)
            if maker.file in self.makers:
                self.texts[name] = self.text()

    # ---- faults

    def break_some(self):
        """Makes one file refused, or two."""
        for file in self.chance.sample(range(self.count), self.chance.choice([1, 1, 2])):
            self.faults[file] = self.chance.choice(FAULTS), self.chance.randrange(10**6)

    def said(self, file):
        """The text of a dyndep file, or nothing where it is absent."""
        fault, draw = self.faults.get(file, ("", 0))
        chance = random.Random(draw)
        edges = [dataclasses.replace(it, gains=[*it.gains], needs=[*it.needs]) for it in self.edges if it.file == file]
        if self.statements[file]:
            edges.reverse()
        if edges:
            self.spoil(fault, chance, chance.choice(edges), edges)
        statements = "".join(it.statement() for it in edges)
        if fault == "absent":
            return None
        if fault == "unknown":
            others = [it.outs[0] for it in self.edges if it.file != file]
            statements += f"build {chance.choice(['nowhere', *others])}: dyndep\n"
        if fault == "syntax":
            out = edges[0].outs[0] if edges else "nowhere"
            return chance.choice(SYNTAX).format(said=statements, out=out)
        return VERSION + statements

    def spoil(self, fault, chance, one, edges):
        """Gives the statements of a file a fault, most of them that of one edge."""
        if fault == "missing":
            edges.remove(one)
        elif fault == "twice":
            edges.append(dataclasses.replace(one, outs=one.outs[::-1]))
        elif fault == "circle":
            behind = [out for it in self.edges for out in it.outs if self.above[out] & set(one.outs)]
            one.needs.append(chance.choice([*behind, *behind, *one.outs, *one.gains]))
        elif fault == "maker":
            others = [name for it in self.edges for name in it.outs + it.gains]
            one.gains.append(chance.choice([*others, *one.gains, *one.outs]))
        elif fault == "gone":
            one.needs.append("nowhere.h")
        elif fault == "one of these files":
            chance.choice([one.gains, one.needs]).append(f"d{chance.randrange(self.count)}")

    # ---- what stands where

    def build_file(self):
        return self.rules + "".join(self.edges[it].line() for it in self.lines)

    def files(self):
        """All files, each with its text, or with none where it is to be absent."""
        found = {"build.ninja": self.build_file(), **self.texts}
        for file in range(self.count):
            found[f"d{file}.in" if file in self.makers else f"d{file}"] = self.said(file)
        return found

    def edit(self):
        """Some edits: answers their names, the paths that are touched, and those that are deleted."""
        told, touched, deleted = [], [], []
        for _ in range(self.chance.randrange(1, 5)):
            kind = self.chance.choice(EDITS)
            if kind == "source":
                self.texts[self.chance.choice(self.sources)] = self.text()
            elif kind == "header":
                self.texts[self.chance.choice(self.headers)] = self.text()
            elif kind == "said":
                self.give_gains([self.chance.randrange(self.count)])
            elif kind == "word":
                self.chance.choice(self.edges).word = f": {self.chance.randrange(100)}"
            elif kind == "touch":
                touched.append(self.chance.choice(self.sources + self.headers))
            elif kind == "touch a file":
                file = self.chance.randrange(self.count)
                touched.append(f"d{file}.in" if file in self.makers else f"d{file}")
            elif kind == "delete":
                edge = self.chance.choice(self.edges)
                deleted.append(self.chance.choice(edge.outs + edge.gains))
            elif kind == "break" and not self.faults:
                self.break_some()
            elif kind == "mend" and self.faults:
                self.mend(all_of_it=self.chance.random() < 0.8)
            elif kind == "fail" and self.chance.random() < 0.3:
                self.chance.choice(self.edges).word = FAILS
            else:
                continue
            told.append(kind)
        return told, touched, deleted

    def mend(self, all_of_it=True):
        """Takes faults away: of the first file that is refused, or all that there are."""
        for file in sorted(self.faults)[:None if all_of_it else 1]:
            del self.faults[file]
        for edge in self.edges:
            if all_of_it and edge.word == FAILS:
                edge.word = ":"
