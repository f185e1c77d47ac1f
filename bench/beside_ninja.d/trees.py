"""The trees whose builds are counted and timed. Each is written into a folder by a function that is given how many edges it has."""

import os
import random as chance
import re

# How many headers a unit tells, of how many there are.
TOLD, HEADERS = 57, 400


def write(folder, path, text):
    full = os.path.join(folder, path)
    os.makedirs(os.path.dirname(full), exist_ok=True)
    with open(full, "w", encoding="utf-8") as it:
        it.write(text)


def empty(folder, paths):
    made = set()
    for path in paths:
        full = os.path.join(folder, path)
        top = os.path.dirname(full)
        if top not in made:
            os.makedirs(top, exist_ok=True)
            made.add(top)
        os.close(os.open(full, os.O_CREAT | os.O_WRONLY, 0o644))


def header(number):
    return f"include/component{number % 20:02}/header_number{number:03}.h"


CPP = """\
cxx = c++
flags = -O2 -g -Wall -Iinclude -std=c++17
pool link
  depth = 2
rule cxx
  command = : $cxx $flags $DEFINES -MD -MF $out.d -c $in -o $out; read heads < heads$set; echo "$out: $in $$heads" > $out.d; : > $out
  depfile = $out.d
  deps = gcc
  description = CXX $out
rule archive
  command = : ar rcs $out @$out.rsp; : > $out
  rspfile = $out.rsp
  rspfile_content = $in
  description = AR $out
rule link
  command = : $cxx $flags -o $out $in; : > $out
  pool = link
  description = LINK $out
rule generate
  command = : generate $in; test -e $out || : > $out
  restat = 1
  description = GENERATE $out
"""


def cpp(folder, edges):
    """Libraries of 40 units and an archive; one unit in ten is generated; a program of each twenty libraries. The headers of a unit are
    one of twenty lists."""
    for number in range(20):
        told = sorted({(number * 11 + k * 7) % HEADERS for k in range(TOLD)})
        write(folder, f"heads{number}", " ".join(header(it) for it in told) + "\n")
    libraries_of(folder, edges, 20)


def random(folder, edges):
    """The same, but each unit has a list of its own, of headers drawn at random."""
    draw = chance.Random(edges)
    for number in range(edges):
        write(folder, f"heads{number}", " ".join(header(it) for it in draw.sample(range(HEADERS), TOLD)) + "\n")
    libraries_of(folder, edges, edges)


def libraries_of(folder, edges, lists):
    lines, sources, libraries = [CPP], [header(n) for n in range(HEADERS)], []
    count, library = 0, 0
    while count < edges:
        objects = []
        for unit in range(min(40, edges - count)):
            name = f"library{library:04}/source/unit{unit:02}"
            source = f"src/{name}.cc"
            if unit % 10 == 9:
                source = f"gen/{name}.cc"
                lines.append(f"build {source}: generate src/{name}.in\n")
                sources.append(f"src/{name}.in")
                count += 1
            else:
                sources.append(source)
            lines.append(f"build obj/{name}.o: cxx {source}\n  DEFINES = -DLIBRARY={library} -DUNIT={unit}\n  set = {(library * 40 + unit if lists > 20 else library) % lists}\n")
            objects.append(f"obj/{name}.o")
            count += 1
        lines.append(f"build lib/library{library:04}.a: archive {' '.join(objects)}\n")
        libraries.append(f"lib/library{library:04}.a")
        count += 1
        if len(libraries) == 20 or count >= edges:
            lines.append(f"build bin/program{library:04}: link {' '.join(libraries)}\n")
            libraries = []
            count += 1
        library += 1
    write(folder, "build.ninja", "".join(lines))
    empty(folder, sources)


TOUCH = "rule touch\n  command = : > $out\n"


def plain(folder, edges):
    """Edges of six inputs each."""
    lines = [TOUCH]
    for n in range(edges):
        inputs = " ".join(f"in/folder{(n + k) % 97:02}/input{n + k}.txt" for k in range(6))
        lines.append(f"build out/folder{n % 97:02}/output{n}.txt: touch {inputs}\n")
    write(folder, "build.ninja", "".join(lines))
    empty(folder, (f"in/folder{n % 97:02}/input{n}.txt" for n in range(edges + 5)))


def phony(folder, edges):
    """Edges that all read one phony edge of 1,000 files."""
    files = [f"in/file{n:03}.txt" for n in range(1000)]
    lines = [TOUCH, f"build all_files: phony {' '.join(files)}\n"]
    lines += [f"build out/folder{n % 97:02}/output{n}.txt: touch | all_files\n" for n in range(edges)]
    write(folder, "build.ninja", "".join(lines))
    empty(folder, files)


def chain(folder, edges):
    lines = [TOUCH, "build out/c0: touch start\n"]
    lines += [f"build out/c{n}: touch out/c{n - 1}\n" for n in range(1, edges)]
    write(folder, "build.ninja", "".join(lines))
    empty(folder, ["start"])


def fan(folder, edges, command=": > $out"):
    lines = [f"rule touch\n  command = {command}\n"]
    lines += [f"build out/folder{n % 97:02}/f{n}: touch start\n" for n in range(edges)]
    write(folder, "build.ninja", "".join(lines))
    empty(folder, ["start"])


# How many edges name one dyndep file.
OF_ONE_FILE = 10


def before(n, _):
    """The module before it, where that has the same file."""
    return [n - 1] if n % OF_ONE_FILE else []


def three_before(n, draw):
    """Three modules before it, of any file."""
    return sorted({draw.randrange(n) for _ in range(3)}) if n else []


def modules(folder, edges, made=False, needs=before, order=lambda lines, draw: lines):
    """Edges of which each ten name a dyndep file that no edge makes. By it each makes a module, and needs that of the one before it."""
    draw = chance.Random(edges)
    head, lines = "rule copy\n  command = cp $in $out\nrule touch\n  command = : > $out; : > out/m$n\n", []
    for first in range(0, edges, OF_ONE_FILE):
        file = f"files/d{first // OF_ONE_FILE}"
        told = ["ninja_dyndep_version = 1\n"]
        for n in range(first, min(first + OF_ONE_FILE, edges)):
            lines.append(f"build out/o{n}: touch start || {file}\n  dyndep = {file}\n  n = {n}\n")
            needed = " ".join(f"out/m{it}" for it in needs(n, draw))
            told.append(f"build out/o{n} | out/m{n}: dyndep{' | ' * bool(needed)}{needed}\n")
        write(folder, f"{file}.in" if made else file, "".join(told))
        if made:
            lines.append(f"build {file}: copy {file}.in\n")
    write(folder, "build.ninja", head + "".join(order(lines, draw)))
    empty(folder, ["start"])


def modules_made(folder, edges):
    """The same, each file made by a command."""
    modules(folder, edges, made=True)


def modules_back(folder, edges):
    """As `modules`, the last edge first, so that each needs what a later line makes."""
    modules(folder, edges, order=lambda lines, draw: lines[::-1])


def modules_drawn(folder, edges):
    """As `modules`, in an order that is drawn."""
    modules(folder, edges, order=lambda lines, draw: draw.sample(lines, len(lines)))


def modules_far(folder, edges):
    """As `modules`, and each needs three modules of any file before it. In another order ninja takes what a later file adds for a missing source."""
    modules(folder, edges, needs=three_before)


def strewn(folder, edges, made=False):
    """Edges of which each ten, strewn over the whole file, name a dyndep file that no edge makes. It adds the source that they read already."""
    count = edges // OF_ONE_FILE
    head = "rule copy\n  command = cp $in $out\nrule touch\n  command = : > $out\n"
    lines = [f"build files/d{k}: copy files/d{k}.in\n" for k in range(count)] if made else []
    lines += [f"build out/o{n}: touch start || files/d{n % count}\n  dyndep = files/d{n % count}\n" for n in range(edges)]
    for k in range(count):
        told = [f"build out/o{n}: dyndep | start\n" for n in range(k, edges, count)]
        write(folder, f"files/d{k}{'.in' * made}", "".join(["ninja_dyndep_version = 1\n", *told]))
    write(folder, "build.ninja", head + "".join(lines))
    empty(folder, ["start"])


def strewn_made(folder, edges):
    """The same, each file made by a command."""
    strewn(folder, edges, made=True)


def gathered_modules(folder, edges):
    """Edges with a dyndep file each, which a command makes and by which each makes a module; all are named by a phony edge, and by a link."""
    lines = ["rule copy\n  command = cp $in $out\nrule touch\n  command = : > $out; : > out/m$n\nrule link\n  command = : > $out\n"]
    for n in range(edges):
        lines.append(f"build files/d{n}: copy files/d{n}.in\nbuild out/o{n}: touch start || files/d{n}\n  dyndep = files/d{n}\n  n = {n}\n")
        write(folder, f"files/d{n}.in", f"ninja_dyndep_version = 1\nbuild out/o{n} | out/m{n}: dyndep\n")
    all_outputs = " ".join(f"out/o{n}" for n in range(edges))
    lines.append(f"build everything: phony {all_outputs}\nbuild out/program: link {all_outputs}\n")
    write(folder, "build.ninja", "".join(lines))
    empty(folder, ["start"])


# How many files stand below the phony edge of `gathered`.
GATHERED = 10_000


def gathered(folder, edges):
    """A chain of edges that all read one phony edge of 10,000 files."""
    files = [f"in/file{n:05}.txt" for n in range(GATHERED)]
    lines = [TOUCH, f"build all_files: phony {' '.join(files)}\n", "build out/c0: touch start | all_files\n"]
    lines += [f"build out/c{n}: touch out/c{n - 1} | all_files\n" for n in range(1, edges)]
    write(folder, "build.ninja", "".join(lines))
    empty(folder, ["start", *files])


# How many outputs an edge of `wide_told` has.
WIDE = 40


def wide_told(folder, edges):
    """Edges of 40 outputs each, which tell 400 headers, the same ones."""
    lines = ["rule wide\n  command = for it in $out; do : > $$it; done; read heads < heads; echo \"out/o$n.0: $$heads\" > $depfile\n"
             "  depfile = out/o$n.d\n  deps = gcc\n"]
    for n in range(edges):
        lines.append(f"build {' '.join(f'out/o{n}.{k}' for k in range(WIDE))}: wide start\n  n = {n}\n")
    headers = [header(n) for n in range(HEADERS)]
    write(folder, "heads", " ".join(headers) + "\n")
    write(folder, "build.ninja", "".join(lines))
    empty(folder, ["start", *headers])


# The target that `asked:` asks for.
ONE = "one"

# What a compiler's command may have in front: 5 kB.
FLAGS = " ".join(f"-Isome/where/include/folder{n} -DSOME_MACRO_{n}=1" for n in range(100))


def long_commands(folder, edges, told=""):
    """Edges with commands of 5 kB, of a source each."""
    lines = [f"flags = {FLAGS}\nrule compile\n  command = : $flags -c $in -o $out; : > $out\n{told}"]
    lines += [f"build obj/o{n}.o: compile src/s{n}.c\n" for n in range(edges)]
    write(folder, "build.ninja", "".join(lines))
    empty(folder, (f"src/s{n}.c" for n in range(edges)))


# How many kinds of commands take turns in `long_kinds`.
KINDS = 6


def long_kinds(folder, edges):
    """The same of six kinds of commands, line by line, each of which begins with another word."""
    lines = [f"flags = {FLAGS}\n", *(f"rule kind{k}\n  command = : {k} $flags -c $in -o $out; : > $out\n" for k in range(KINDS))]
    lines += [f"build obj/o{n}.o: kind{n % KINDS} src/s{n}.c\n" for n in range(edges)]
    write(folder, "build.ninja", "".join(lines))
    empty(folder, (f"src/s{n}.c" for n in range(edges)))


def long_early(folder, edges):
    """The same with the source in front, so that no two commands begin alike."""
    lines = [f"flags = {FLAGS}\nrule compile\n  command = : $in $flags -o $out; : > $out\n"]
    lines += [f"build obj/o{n}.o: compile src/s{n}.c\n" for n in range(edges)]
    write(folder, "build.ninja", "".join(lines))
    empty(folder, (f"src/s{n}.c" for n in range(edges)))


def long_told(folder, edges):
    """The same with a depfile each, and one edge besides."""
    long_commands(folder, edges, f"  depfile = $out.d\n  deps = gcc\n{TOUCH}build {ONE}: touch\n")


# What `bare.` takes out of a build file: the lines by which edges name dyndep files and pools, pools, and a phony edge that all read.
BARE = re.compile(r"^  (?:dyndep|pool) = .*\n|^pool .*\n  depth = .*\n|^build all_files: phony .*\n| \| all_files\b", re.M)


def strip(folder):
    """Makes a tree the bare one."""
    with open(os.path.join(folder, "build.ninja"), encoding="utf-8") as it:
        text = it.read()
    write(folder, "build.ninja", BARE.sub("", text))


# How many edges name one dyndep file in a build in memory.
IN_MEMORY = 50


def script(edges, made, named=True):
    """A script of `nj_sim` with the first build of so many modules, of which each fifty name a dyndep file; without naming these, if so asked."""
    build = ["rule copy", "  command = cat $out $in", "rule compile", "  command = both $out out/m$n $in"]
    files = []
    for first in range(0, edges, IN_MEMORY):
        file = f"files/d{first // IN_MEMORY}"
        build += [f"build {file}: copy {file}.in"] * made
        told = ["ninja_dyndep_version = 1"]
        for n in range(first, min(first + IN_MEMORY, edges)):
            build += [f"build out/o{n}: compile start || {file}", *[f"  dyndep = {file}"] * named, f"  n = {n}"]
            told.append(f"build out/o{n} | out/m{n}: dyndep" + (f" | out/m{n - 1}" if n > first else ""))
        files += [f"file {file}{'.in' * made}", *(f"|{it}" for it in told)]
    return "\n".join(["write start 1", "file build.ninja", *(f"|{it}" for it in build), *files, "build"]) + "\n"


def idle_fan(folder, edges):
    """Commands that do nothing."""
    fan(folder, edges, ":")


def wait(folder, _):
    """One command that takes five seconds."""
    write(folder, "build.ninja", "rule wait\n  command = sleep 5; : > $out\nbuild out/waited: wait\n")
