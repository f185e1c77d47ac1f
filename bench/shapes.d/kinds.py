"""The kinds of trees that bench/shapes counts. Each is written into a folder, as a build that ended well leaves it, by a function of KINDS,
which draws all else by the chance that it is given, and returns a Tree."""

import collections
import os

# What a tree is called, what is counted of it, and for what: `words` are those of the counted build; of two counts, with the files `without`
# and without them, the second is taken from the first; where `built` is set, a build has to run before.
Tree = collections.namedtuple("Tree", "told words without built", defaults=(["no/such"], [], False))

# How much of a log is written at most: its entries, and its bytes. So a tree takes some seconds below callgrind.
ENTRIES, BYTES = 600_000, 40_000_000

LENGTHS = [12, 30, 56, 56, 120, 255, 330]
FRONTS = ["", "", "../", "/home/user/work/", "/home/user/work/"]
WORDS = "io buffer string_view map allocator_traits hash vector thread_pool x type_list config ptr_traits refwrap utility".split()


def write(folder, name, lines):
    path = os.path.join(folder, name)
    os.makedirs(os.path.dirname(path), exist_ok=True)
    with open(path, "w", encoding="ascii") as it:
        it.write("\n".join(lines) + "\n")


# ---- lists of headers

class Lists:
    """What lists of headers have in common: how many units there are, of how many parts, one after another or mixed, how long paths are, and
    how many units have a second record."""

    def __init__(self, chance):
        self.chance = chance
        self.units = chance.choice([300, 1000, 3000, 3000, 6000])
        self.parts = chance.choice([1, 3, 10, 10, 30, 30])
        self.mixed = self.parts > 1 and chance.random() < .25
        self.length = chance.choice(LENGTHS)
        self.vary = chance.random() < .5
        self.front = chance.choice(FRONTS)
        self.again = chance.choice([0, 0, 0, .3, 1])

    def name(self, part, number):
        """The path of a header, of about the length that was drawn."""
        wanted = self.length if not self.vary else max(12, int(self.length * (.5 + number * 7919 % 100 / 100)))
        begin, end = f"{self.front}p{part}/", f"{number}.h"
        room = wanted - len(begin) - len(end)
        if room > 12:
            end = f"{WORDS[number % len(WORDS)]}_{end}"
            room = max(0, wanted - len(begin) - len(end))
        folders = f"include/{WORDS[number // 9 % len(WORDS)]}/{WORDS[(number + part) % len(WORDS)]}/" + "detail/long_name_of_a_folder/" * 11
        return begin + (folders[:room - 1] + "/" if room > 1 else "") + end

    def fit(self, each):
        """Makes the units so many that the log is not too large, where each has so many entries."""
        often = each * (1 + self.again)
        self.units = int(max(50, min(self.units, ENTRIES / often, BYTES / often / self.length)))

    def told(self, more):
        place = "one" if self.parts == 1 else f"{self.parts} {'mixed' if self.mixed else 'one after another'}"
        twice = f", {int(self.again * 100)} in 100 recorded twice" if self.again else ""
        return f"{more}; {self.units} units, parts: {place}; paths of {'about ' * self.vary}{self.length} bytes" \
            f"{f', {self.front}' if self.front else ''}{twice}"

    def write(self, folder, listed):
        """Writes the build file and both logs; `listed` gives the headers of a unit in its part."""
        build = ["rule cxx", "  command = c++ -MD -MF $out.d -c $in -o $out", "  depfile = $out.d", "  deps = gcc"]
        log, deps = ["nj-log 2"], ["nj-deps 2"]
        order = list(range(self.units))
        order += self.chance.choices(order, k=int(self.units * self.again))
        for place, unit in enumerate(order):
            out, source, start = f"obj/unit{unit}.o", f"{self.front}src/unit{unit}.cc", f"1700000000{place:09}"
            paths = [source, *listed(unit, unit % self.parts if self.mixed else unit * self.parts // self.units)]
            if place < self.units:
                build.append(f"build {out}: cxx {source}")
            log.append(f"d\t1\t{out}\t{start}\tc++ -MD -MF {out}.d -c {source} -o {out}\t{out}.d\t\t\t.")
            deps.append("\t".join(["r", "1", out, start, str(len(paths)), *paths, "."]))
        for name, lines in (("build.ninja", build), (".nj_log", log), (".nj_deps", deps)):
            write(folder, name, lines)


class Includes:
    """Which header includes which: a tree of its own for each part."""

    def __init__(self, chance, heads):
        self.chance = chance
        self.heads = heads
        self.parts = {}

    def walk(self, part, roots, most):
        """The headers that a compiler comes by from these, each once, and at most so many."""
        if part not in self.parts:
            self.parts[part] = [[self.chance.randrange(it + 1, min(self.heads, it + 40)) for _ in range(self.chance.randrange(5))]
                                if it + 1 < self.heads else [] for it in range(self.heads)]
        seen, left = {}, list(reversed(roots))
        while left and len(seen) < most:
            number = left.pop()
            if number not in seen:
                seen[number] = None
                left += reversed(self.parts[part][number])
        return list(seen)


def of_lists(draw):
    """The writer of a kind of lists: `draw` gives what is told of it, how many headers a unit has, and the numbers of a unit's headers, or of
    those of another part that part and the number."""

    def written(folder, chance):
        lists = Lists(chance)
        told, each, numbers = draw(lists, chance)
        lists.fit(each)
        lists.write(folder, lambda unit, part: [lists.name(*it) if isinstance(it, tuple) else lists.name(part, it) for it in numbers(unit, part)])
        return Tree(lists.told(told), without=[".nj_deps"])

    return written


def subset(_, chance):
    heads = chance.choice([100, 400, 1000])
    count = min(heads // 2, chance.choice([10, 55, 150]))
    return f"{count} of {heads} headers, drawn at random", count, lambda unit, part: chance.sample(range(heads), count)


def few_then_run(lists, chance):
    few, run = chance.choice([1, 2, 3, 5, 8]), chance.choice([60, 200, 300, 500])
    # a large tree of C++, of which each part reads a library of its own behind its own headers, is drawn often
    if chance.random() < .5:
        lists.parts, lists.mixed = chance.choice([10, 30]), False
    return f"{few} of 100 headers in any order, then {run} in one order", few + run, \
        lambda unit, part: [1000 + it for it in chance.sample(range(100), few)] + list(range(run))


def few_then_runs(_, chance):
    few, run = chance.choice([1, 3, 6, 20]), chance.choice([30, 100, 200])
    return f"{few} of 100 headers in any order, then two of six runs of {run}", few + 2 * run, \
        lambda unit, part: [5000 + it for it in chance.sample(range(100), few)] \
        + [first * 500 + it for first in chance.sample(range(6), 2) for it in range(run)]


def walk(_, chance):
    heads, few, most = chance.choice([200, 1000]), chance.choice([1, 2, 6, 20]), chance.choice([30, 150, 400])
    includes = Includes(chance, heads)
    return f"up to {most} of {heads} headers by a walk of includes from {few}", most, \
        lambda unit, part: includes.walk(part, chance.sample(range(heads), few), most)


def rooted(_, chance):
    heads, most = chance.choice([200, 1000]), chance.choice([30, 150, 400])
    includes = Includes(chance, heads)
    return f"a header of 50, then up to {most} of {heads} by a walk of includes from one root and another", most + 1, \
        lambda unit, part: [9000 + chance.randrange(50)] + includes.walk(part, [0, chance.randrange(heads)], most)


def walk_then_run(_, chance):
    heads, few, most, run = chance.choice([200, 1000]), chance.choice([1, 3, 6]), chance.choice([20, 60]), chance.choice([20, 100, 300])
    includes = Includes(chance, heads)
    return f"{few} of 200 headers, up to {most} by a walk of includes, then {run} in one order", few + most + run, \
        lambda unit, part: [7000 + it for it in chance.sample(range(200), few)] \
        + includes.walk(part, [chance.randrange(heads)], most) + [8000 + it for it in range(run)]


def once(lists, chance):
    count = chance.choice([10, 55, 150])
    lists.again = 0
    return f"{count} headers that no other unit reads", count, lambda unit, part: range(unit * count, unit * count + count)


def ordered(_, chance):
    heads, kept = chance.choice([50, 200, 400]), chance.choice([.3, .6, .95])
    return f"{int(kept * 100)} in 100 of {heads} headers, in one order", int(heads * kept) + 1, \
        lambda unit, part: [it for it in range(heads) if chance.random() < kept]


def reordered(lists, chance):
    heads, few, orders = chance.choice([60, 200, 400]), chance.choice([0, 1, 3, 8]), {}
    if chance.random() < .5:
        lists.parts, lists.mixed = chance.choice([10, 30]), False

    def numbers(_, part):
        if part not in orders:
            orders[part] = [(lists.parts, it) for it in chance.sample(range(heads), heads)]
        return [1000 + it for it in chance.sample(range(100), few)] + orders[part]

    return f"{few} of 100 headers in any order, then {heads} that all parts read, each part in an order of its own", few + heads, numbers


# ---- build files and graphs

def commands(folder, chance):
    """The build log alone: long commands, and records that stand twice."""
    edges, again = chance.choice([1000, 3000, 10000]), chance.choice([0, .5, 1])
    flags = " ".join(f"-I{it}/include" for it in range(chance.choice([2, 40, 150])))
    edges = min(edges, 8_000_000 // (len(flags) + 60))
    build, log = ["rule c", f"  command = cc {flags} -c $in -o $out"], ["nj-log 2"]
    order = list(range(edges))
    order += chance.choices(order, k=int(edges * again))
    for place, edge in enumerate(order):
        out, source = f"obj/unit{edge}.o", f"src/unit{edge}.c"
        if place < edges:
            build.append(f"build {out}: c {source}")
        log += [f"b\t1\t{out}\t1700000000{place:09}\t.", f"d\t1\t{out}\t1700000000{place:09}\tcc {flags} -c {source} -o {out}\t\t\t\t."]
    write(folder, "build.ninja", build)
    write(folder, ".nj_log", log)
    return Tree(f"{edges} records of commands of {len(flags) + 40} bytes, {int(again * 100)} in 100 twice", without=[".nj_log"])


def phony(folder, chance):
    """Commands that read through wide phony edges, and have nothing to do."""
    wide, edges = chance.choice([100, 1000, 3000]), chance.choice([200, 1000])
    groups, made, deep = chance.choice([1, 1, 4, 20]), chance.choice([0, 0, .05]), chance.choice([1, 1, 3])
    build = ["rule touch", "  command = : > $out"]
    for group in range(groups):
        files = [f"in/{group}/file{it}.txt" for it in range(wide // groups)]
        for place, path in enumerate(files):
            if chance.random() < made:
                build.append(f"build {path}: touch start")
            else:
                write(folder, path, [])
        build.append(f"build all{group}_0: phony {' '.join(files)}")
        build += [f"build all{group}_{it}: phony all{group}_{it - 1}" for it in range(1, deep)]
    write(folder, "start", [])
    build += [f"build out/{it}: touch {'| ' * (it % 2)}all{chance.randrange(groups)}_{deep - 1}" for it in range(edges)]
    write(folder, "build.ninja", build)
    return Tree(f"{edges} commands; phony edges: {groups}, {deep} deep, of {wide // groups} files, {int(made * 100)} in 100 made; nothing to do",
                [], built=True)


def shuffled(chance, edges, width):
    """Edges of as many outputs, and edges that read these, in any order or in that of their numbers."""
    numbers, mixed = list(range(edges * width)), chance.random() < .7
    if mixed:
        chance.shuffle(numbers)
    lines = ["rule r", "  command = x"]
    lines += [f"build {' '.join(f'o{it}' for it in range(edge * width, edge * width + width))}: r s" for edge in range(edges)]
    lines += [f"build t{edge}: r {' '.join(f'o{it}' for it in numbers[edge * width:edge * width + width])}" for edge in range(edges)]
    return lines, f"{edges} edges of {width} outputs, and {edges} that read them in {'any' if mixed else 'that'} order"


def orders(folder, chance):
    """Paths that are read in another order than that of their numbers."""
    width = chance.choice([1, 6, 40, 300])
    lines, told = shuffled(chance, 60_000 // width // chance.choice([1, 4]), width)
    write(folder, "build.ninja", lines)
    return Tree(told)


def loads(folder, chance):
    """Dyndep files, which are loaded one after another; then a source is missing, which ends the build before a command runs."""
    width, files = chance.choice([1, 6, 40, 300]), chance.choice([2, 5, 10])
    lines, told = shuffled(chance, 40_000 // files // width, width)
    for it in range(files):
        lines += [f"build m{it}: r || d{it}", f"  dyndep = d{it}"]
        write(folder, f"d{it}", ["ninja_dyndep_version = 1", f"build m{it}: dyndep | o{it}"])
    write(folder, "build.ninja", lines)
    return Tree(f"{told}; {files} dyndep files are loaded", [])


def text_of(chance, length, front):
    """Gives names of about a length, some with what has to be escaped."""
    escaped = chance.choice([0, 0, 0, .3])

    def name(number):
        text = f"{number:x}".rjust(min(length, 6), "g")
        text = front + ("dir/" * 30)[:max(0, length - len(text))] + text
        return text.replace("g", "$ ") if escaped and chance.random() < escaped else text

    return name, f"names of {length} bytes{', some with blanks' if escaped else ''}{f', {front}' if front else ''}"


def scopes(folder, chance):
    """Many files with scopes of their own, and variables below edges."""
    edges, files = chance.choice([2000, 6000]), chance.choice([5, 50, 400])
    below, uses, comments = chance.choice([0, 1, 4]), chance.choice([0, 2, 8]), chance.random() < .3
    name, told = text_of(chance, chance.choice([4, 12, 40]), chance.choice(["", "../", "/home/u/w/", "./", "a/../"]))
    top = ["rule c", f"  command = cc {''.join(f'$v{it} ' for it in range(uses))}-c $in -o $out", "  description = CC $out"]
    top += [f"v{it} = -f{'x' * chance.choice([1, 20])}$$y" for it in range(uses)]
    for number in range(files):
        lines = [f"v0 = q{number}"]
        for edge in range(number * edges // files, (number + 1) * edges // files):
            lines += ["", f"# edge {edge} of the tree"] * comments
            lines.append(f"build {name(edge)}: c {name(10 ** 6 + edge)} || {name(2 * 10 ** 6 + edge % 300)}")
            lines += [f"  FLAGS{it} = -DX{it}=$v0 -Iinclude -O2" for it in range(below)]
        write(folder, f"sub{number}.ninja", lines)
        top.append(f"{chance.choice(['subninja', 'subninja', 'include'])} sub{number}.ninja")
    write(folder, "build.ninja", top)
    return Tree(f"{edges} edges in {files} files, variables below each: {below}, in its command: {uses}{', comments' * comments}; {told}")


def long_lines(folder, chance):
    """Lines of many paths, which are shared or stand once; of one byte, too."""
    width = chance.choice([2, 6, 40, 400])
    edges = 60_000 // width
    shared, cut = chance.random() < .5, chance.random() < .3
    name, told = text_of(chance, chance.choice([1, 4, 12, 40, 120]), chance.choice(["", "", "../", "/home/u/w/"]))
    pool = [name(it) for it in range(300)]
    lines = ["rule c", "  command = cc -c $in -o $out"]
    for edge in range(edges):
        inputs = [chance.choice(pool) if shared else name(10 ** 6 + edge * width + it) for it in range(width)]
        lines.append(f"build {name(5 * 10 ** 6 + edge)}: {'phony' if edge % 3 == 0 else 'c'} {(' $' + chr(10) + '    ' if cut else ' ').join(inputs)}")
    write(folder, "build.ninja", lines)
    return Tree(f"{edges} edges of {width} inputs{' of 300' if shared else ''}, lines {'cut' if cut else 'whole'}; {told}")


def values(folder, chance):
    """Values that are all variables and escapes."""
    piece = chance.choice(["$x$y", "$$$$", "${x}a", "$x-$y/", "$ $:"])
    edges, length = chance.choice([1000, 4000]), chance.choice([2, 4, 12])
    lines = ["x = 1", "y = 2", "rule c", "  command = cc $f -c $in -o $out"]
    for edge in range(edges):
        lines += [f"build o{edge}: c i{edge}", f"  f = {piece * length}"]
    write(folder, "build.ninja", lines)
    return Tree(f"{edges} edges with a value of {length} times {piece}")


KINDS = {
    **{it.__name__: of_lists(it) for it in (subset, few_then_run, few_then_runs, walk, rooted, walk_then_run, once, ordered, reordered)},
    **{it.__name__: it for it in (commands, phony, orders, loads, scopes, long_lines, values)},
}
