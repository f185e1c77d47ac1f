"""What tools answer of a tree, by the stand-in and by ninja."""

import json
import os
import re

from ground import in_short, only_in, write


def read(path):
    with open(path, encoding="utf-8") as it:
        return it.read()


def fill(files):
    """What writes these files into a folder."""
    def into(folder):
        for path, text in files.items():
            write(folder, path, text)
            if text.startswith("#!"):
                os.chmod(os.path.join(folder, path), 0o755)

    return into


def plain(text, own):
    """A text without what is no two times the same: where the program stands, what it is called, how many processors there are, nodes."""
    for path in own:
        text = re.sub(re.escape(path) + r"(/ninja)?(?=:)", "ninja", text)
    text = re.sub(r"\[default=\d+ on", "[default=N on", text)
    return renamed(text)


def same_list(place, where, told, wanted, is_terminal=False, spared=""):
    """Two lists of commands; with a terminal ninja does not show each. Those that have `spared` in them ninja alone may run."""
    more, less = only_in(told, wanted), only_in(wanted, told)
    if spared:
        less = [it for it in less if not re.search(spared, it)]
    place.expect(is_terminal or not more, where, f"the stand-in ran what ninja did not: {in_short(more)}")
    place.expect(not less, where, f"ninja ran what the stand-in did not: {in_short(less)}")


def same(place, where, both, is_sorted=False):
    told, wanted = both
    text, other = (("\n".join(sorted(it.out.splitlines())) for it in both)) if is_sorted else (told.out, wanted.out)
    place.expect(told.status == wanted.status, where, f"status {told.status}, by ninja {wanted.status}: {told.out[:300]}")
    place.expect(text == other, where, f"answers {first_difference(text, other)}")
    same_beside(place, where, both)


def same_beside(place, where, both):
    """What is told on the standard error is the same too, where that was taken apart."""
    told, wanted = both
    place.expect(told.err == wanted.err, where, f"tells beside {first_difference(told.err, wanted.err)}")


def first_difference(text, other):
    """The first lines in which two texts differ."""
    ours, theirs = text.split("\n"), other.split("\n")
    for number, (one, two) in enumerate(zip([*ours, "(its end)"], [*theirs, "(its end)"])):
        if one != two:
            return f"in line {number + 1} {one[:300]!r}, and ninja {two[:300]!r}"
    return f"{len(ours)} lines, and ninja {len(theirs)}"


def same_json(place, where, both):
    told, wanted = both
    place.expect(told.status == wanted.status, where, f"status {told.status}, by ninja {wanted.status}: {told.out[:300]}")
    try:
        found = json.loads(told.out)
    except ValueError as error:
        place.wrong(where, f"no JSON: {error}: {told.out[:300]!r}")
        return
    other = json.loads(wanted.out)
    differing = [pair for pair in zip(found, other) if pair[0] != pair[1]][:1]
    place.expect(found == other, where, f"other values: {len(found)}, and by ninja {len(other)}: {differing}")


def same_graph(place, where, both):
    """Graphs are the same up to the names of nodes."""
    text, other = (renamed(it.out) for it in both)
    place.expect(both[0].status == both[1].status, where, f"status {both[0].status}, by ninja {both[1].status}")
    place.expect(text == other, where, f"answers {first_difference(text, other)}")
    same_beside(place, where, both)


def renamed(text):
    names = {}
    return re.sub(r'"(0x[0-9a-f]+|[pe]\d+)"', lambda it: f'"{names.setdefault(it[1], len(names))}"', text)


def deps_of(text):
    """For each output the paths that are told of it."""
    found, output = {}, ""
    for line in text.splitlines():
        if line.startswith("    "):
            found[output].append(line.strip())
        elif line:
            output = line.split(": #deps")[0]
            found[output] = []
    return {output: sorted(paths) for output, paths in found.items()}


def reads_it(place, where, both, path, deps):
    """`PATH^` names an output that reads the path. Of several ninja takes the one that is logged first, unless a line names the path."""
    told, wanted = both
    output = told.out.split(":\n")[0]
    place.expect(told.out == wanted.out or path in deps.get(output, []), where, f"answers {told.out[:200]!r}, and ninja {wanted.out[:200]!r}")


def of_graph(place, twice, name, front, rules, some):
    """What tools answer of the graph alone; how many answers were compared."""
    asked = [["targets"], ["targets", "all"], ["targets", "depth", "2"], ["targets", "depth", "4"], ["targets", "depth", "0"], ["targets", "rule"],
             ["rules"], ["rules", "-d"], ["commands"], ["inputs"]]
    asked += [["targets", "rule", rule] for rule in rules]
    asked += [[tool, path] for path in some for tool in ("commands", "inputs", "query")]
    asked += [["commands", "-s", path] for path in some] + [["query", *some], ["commands", *some], ["commands", "-s", *some], ["inputs", *some]]
    for tool in asked:
        same(place, f"{name} {tool}", twice.both([*front, "-t", *tool], apart=True))
    for tool in [["compdb"], ["compdb", "-x"], ["compdb", *rules], ["compdb", "-x", *rules[:3]], ["compdb", "nothing"]]:
        same_json(place, f"{name} {tool[:3]}", twice.both([*front, "-t", *tool]))
    for tool in [["graph"], *[["graph", path] for path in some[:4]]]:
        same_graph(place, f"{name} {tool}", twice.both([*front, "-t", *tool], apart=True))
    return len(asked) + 10


def of_logs(place, twice, name, front, paths):
    """What tools answer that read logs."""
    same(place, f"{name} missingdeps", twice.both([*front, "-t", "missingdeps"]), is_sorted=True)
    for words in ([], paths[:: max(1, len(paths) // 4)]):
        told = [deps_of(it.out) for it in twice.both([*front, "-t", "deps", *words])]
        # the stand-in has also records of edges that set `depfile` alone, where they are named
        known = {it for it in {**told[0], **told[1]} if not words or told[1].get(it)}
        differing = [f"{it}: {told[0].get(it)}, and by ninja {told[1].get(it)}" for it in known if told[0].get(it) != told[1].get(it)]
        place.expect(not differing, f"{name} deps {words}", in_short(differing))
    everything = deps_of(twice.one("ninja", [*front, "-t", "deps"]).out)
    headers = sorted({path for listed in everything.values() for path in listed if path not in paths})
    for path in headers[:: max(1, len(headers) // 3)]:
        same(place, f"{name} query {path}", twice.both([*front, "-t", "query", path]))
        reads_it(place, f"{name} query {path}^", twice.both([*front, "-t", "query", path + "^"]), path, everything)
    same(place, f"{name} restat", twice.both([*front, "-t", "restat", *paths[:2]]))
    same(place, f"{name} recompact", twice.both([*front, "-t", "recompact"]))


# ---- a tree that has of everything

# What it is made of: names with blanks and quotes, scopes, pools, response files, aliases, validations, what a depfile tells that no line
# names, a dyndep file, and a generator that is not above the build file.
EVERYTHING = {
    "build.ninja": """\
ninja_required_version = 1.10
flags = -a "b c"
pool one
  depth = 1
rule copy
  command = cat $in > $out
  description = COPY $in to $out
rule listed
  command = cat $first > $out && echo '$out: $told' > $out.d
  depfile = $out.d
  deps = gcc
  description = with ${flags} and $$
rule kept
  command = cat $first > $out && echo '$out: $told' > $out.d
  depfile = $out.d
rule packed
  command = cat @$out.rsp > /dev/null; cat $out.rsp > $out
  rspfile = $out.rsp
  rspfile_content = $in_newline
rule two
  command = touch $out
  pool = one
rule gen
  command = touch $out
  generator = 1
rule late
  command = cat $first > $out && touch late.mod
  dyndep = names.dd
build made.h: copy number.txt
build also.h: copy number.txt
build a.o: listed a.c | tool || made.h
  first = a.c
  told = a.c made.h part.h
build b.o: listed b.c
  first = b.c
  told = b.c made.h also.h part.h
build c.o: kept c.c || also.h
  first = c.c
  told = c.c also.h
build a$ b$:c: copy it's$ "$ one
build packed: packed a.o b.o
  pool = one
build first second | third: two a.o | b.o || c.o
build lonely: two
build checked: copy a.o |@ proof
build proof: copy b.o
build all.o: phony a.o b.o c.o
build aliased: phony
build group: phony all.o aliased | lonely || checked
build through: copy a.o | all.o
build made.list: gen number.txt
build late: late a.c || names.dd
  first = a.c
build names.dd: copy names.in
build dir/deep/x: copy number.txt
build final: copy packed first a$ b$:c through made.list late dir/deep/x | checked || group
subninja more.ninja
include same.ninja
default final group more
""",
    "more.ninja": "flags = more\nrule copy\n  command = cp $in $out\n  description = other $flags\nrule own\n  command = cp $in $out\nbuild more: copy number.txt\nbuild owned: own more\n",
    "same.ninja": "rule shared\n  command = cp $in $out\nbuild shared: shared number.txt\n",
    "names.in": "ninja_dyndep_version = 1\nbuild late | late.mod: dyndep | made.h\n  restat = 1\n",
    **{it: f"{it}\n" for it in ("number.txt", "a.c", "b.c", "c.c", "part.h", "tool", 'it\'s "', "one")},
}

PATHS = ["made.h", "also.h", "a.o", "b.o", "c.o", "a b:c", "packed", "first", "third", "lonely", "checked", "proof", "all.o", "aliased", "group", "through", "late",
         "made.list", "names.dd", "final", "more", "owned", "shared", "number.txt", "part.h", "dir/deep/x"]


def made_up(place, twice_of):
    """A tree that has of everything: the same answers before a build and behind it, and of missing dependencies."""
    if place.only not in "everything":
        return
    files = {**EVERYTHING}
    files["build.ninja"] = files["build.ninja"].replace("it's$ \"$ one", "it's$ \" one")
    twice = twice_of(place, "answers-everything", fill(files))
    rules = ["copy", "listed", "kept", "packed", "two", "gen", "late", "own", "shared", "phony"]
    front = ["@ninja"]
    made = [it for it in PATHS if it not in ("number.txt", "part.h")]
    for when in ("before a build", "behind a build"):
        number = of_graph(place, twice, f"everything {when}", front, rules, made)
        place.step(f"everything {when}: {number} answers of the graph")
        for path in ("number.txt", "it's \"", "a.c^", "made.h^"):
            same(place, f"everything {when} query {path}", twice.both([*front, "-t", "query", path], apart=True))
        told, wanted = twice.both([*front, "-k0"])
        place.expect(told.status == wanted.status == 0, "everything", f"the build ends with {told.status}, by ninja {wanted.status}: {told.out[-800:]}")
    place.step("everything: answers of the logs")
    of_logs(place, twice, "everything", front, made)
    for path in ([], ["b.o"], ["a.o"], ["final"]):
        told, wanted = twice.both([*front, "-t", "missingdeps", *path])
        place.expect(path == ["a.o"] or wanted.status == 3, "everything", f"ninja tells nothing missing of {path}")
        same(place, f"everything missingdeps {path}", (told, wanted), is_sorted=True)
    for tool in (["clean", "-r", "listed"], ["clean", "packed"], ["clean"]):
        for word in ("-v", "-n"):
            same(place, f"everything {word} {tool}", twice.both([*front, word, "-t", *tool]), is_sorted=True)
            twice.same_files(f"everything {word} {tool}")
        twice.both([*front, "-k0"])
