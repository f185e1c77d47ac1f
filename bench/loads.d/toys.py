"""The same graphs with the commands of `nj_sim`, as scripts for it: what they print tells events, answers, contents and logs with their stamps, and
faults and stops at a call tell how many calls there were."""

from graphs import FAILS, Edge, Graph

RULES = """\
pool one
  depth = 1
pool two
  depth = 2
rule copy
  command = $kind $out $also $in $extra
rule keep
  command = $kind $out $in
  restat = 1
rule keep_whole
  command = $kind $out $in
  restat = 1
rule scan
  command = $kind $out $out.d $in $extra
  depfile = $out.d
  deps = gcc
rule scan_keeping
  command = $kind $out $out.d $in $extra
  depfile = $out.d
"""

# What fails or stops, and up to which call of its kind.
CALLS = {"read": 14, "stat": 80, "tick": 8, "append": 20, "start": 8, "wait_any": 8, "remove": 6}


class ToyEdge(Edge):
    def may_gain(self):
        return [f"g{self.number}_0"] if self.rule == "copy" and len(self.outs) == 1 else []

    def bound(self):
        also = self.file is not None and self.may_gain()
        kind = "both" if also or len(self.outs) == 2 else "cat"
        kind = "fail" if self.word == FAILS else {"copy": kind}.get(self.rule, self.rule.partition("_")[0])
        # Words behind those that a command takes are passed over.
        extra = self.word.removeprefix(":").strip() if kind in ("both", "scan") else ""
        return {"kind": kind, "also": also[0] if also else "", "extra": extra, "pool": self.pool, "dyndep": f"d{self.file}" if self.file is not None else ""}


class ToyGraph(Graph):
    edge = ToyEdge
    rules = RULES

    def text(self):
        """A line of its own, and headers that a command which scans it reads."""
        return super().text() + "".join(f"use h{it}\n" for it in range(4) if self.chance.random() < 0.3)


def put(lines, files, before):
    for path, text in files.items():
        if text == before.get(path):
            continue
        lines += [f"delete {path}"] if text is None else [f"file {path}", *(f"|{it}" for it in text.split("\n")[:-1])]


def script(seed, number):
    """A script: builds of a graph, with edits and trouble between them."""
    graph = ToyGraph(seed, number)
    chance = graph.chance
    lines = [f"-j {chance.choice([1, 2, 3, 4])}", chance.choice(["finish first", "finish last"]), chance.choice(["late", "late", "early"])]
    words = graph.words
    if words[:1] == ["-k"]:
        lines, words = [*lines, f"-k {words[1]}"], words[2:]
    build = " ".join(["build", *words])
    before = {}

    def step(touched=(), deleted=()):
        nonlocal before
        now = graph.files()
        put(lines, now, before)
        before = now
        lines.extend(f"write {it}" for it in touched if now.get(it) is not None)
        lines.extend(f"delete {it}" for it in deleted)
        if chance.random() < 0.4:
            kind = chance.choice([*CALLS, "stat", "stat", "read"])
            lines.append(f"{chance.choice(['fault', 'stop'])} {kind} {chance.randrange(1, CALLS[kind] + 1)}")
            lines.append(build)
        lines.extend([build, build])

    step()
    for _ in range(2):
        _, touched, deleted = graph.edit()
        step(touched, deleted)
    graph.mend()
    step()
    shown = [*(it for edge in graph.edges for it in edge.outs + edge.may_gain()), ".nj_log", ".nj_deps"]
    return "\n".join([*lines, *(f"show {it}" for it in shown)]) + "\n"
