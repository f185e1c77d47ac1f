#!/usr/bin/env python3
"""Build trees that `nj`, ninja and samurai read.

    graphs.py KIND SIZE DIR

writes DIR/build.ninja and the sources.  SIZE is the number of build edges,
roughly (exactly for chain).  All kinds keep to what nj reads: no deps = msvc,
no generator rules, no edge that makes the build file; Ninja 1.11 and samurai
read them as well (no validations, which samurai lacks).

KIND        what it is
chain       out/c1 <- out/c2 <- .. ; one edge under the next
fan         one edge, SIZE edges below it, one phony over all
fanin       SIZE edges of sources, one edge that joins all of them (a response file)
layered     like a C++ project: sources with 20 to 100 headers each through
            depfiles with deps = gcc, static libraries, links, a phony for all;
            compile commands of about 400 bytes
plain       as layered, without depfiles: each edge names 5 headers as implicit inputs
pools       SIZE edges over SIZE/10 pools of depth 1 to 8
scopes      subninja files nested 30 deep and 50 edges each, include, shadowed
            variables and rules
phony       trees of phony edges over SIZE/2 real edges
phonywide   a phony over 1000 files, and SIZE edges each with that phony as an
            implicit input (a reading set written out is SIZE times 1000)
restat      as layered's libraries, each source through a restat edge first
cheap       SIZE edges `: > out`, no tree at all: cost of starting commands
"""
import os
import subprocess
import sys
import tempfile

HERE = os.path.dirname(os.path.abspath(__file__))


def helper():
    """Path of the compiled helper; compiled when it is absent or older."""
    d = os.path.join(tempfile.gettempdir(), "nj-bench-helper-%d" % os.getuid())
    os.makedirs(d, exist_ok=True)
    src, out = os.path.join(HERE, "helper.c"), os.path.join(d, "bh")
    if not os.path.exists(out) or os.stat(out).st_mtime < os.stat(src).st_mtime:
        tmp = out + ".%d" % os.getpid()
        subprocess.run(["gcc", "-O2", "-static", "-o", tmp, src], check=True)
        os.replace(tmp, out)
    return out


class Rand:
    """A small generator of our own, the same on every machine."""

    def __init__(self, seed):
        self.x = seed * 2654435761 + 1

    def below(self, n):
        self.x = (self.x * 6364136223846793005 + 1442695040888963407) & (2 ** 64 - 1)
        return (self.x >> 33) % n


class Tree:
    def __init__(self, d):
        self.d, self.made = d, set()
        os.makedirs(d, exist_ok=True)

    def put(self, path, text):
        p = os.path.join(self.d, path)
        parent = os.path.dirname(p)
        if parent not in self.made:
            os.makedirs(parent, exist_ok=True)
            self.made.add(parent)
        with open(p, "w") as f:
            f.write(text)


def chain(t, n, bh):
    w = ["rule cp", "  command = : < $in > $out", ""]
    w += ["build out/c1: cp src", ""]
    w += ["build out/c%d: cp out/c%d" % (i, i - 1) for i in range(2, n + 1)]
    t.put("src", "x\n")
    t.put("build.ninja", "\n".join(w) + "\n")


def fan(t, n, bh):
    w = ["rule cp", "  command = : > $out", "build out/root: cp src"]
    w += ["build out/d%d/f%d: cp out/root" % (i % 64, i) for i in range(n)]
    w += ["build all: phony $"]
    w += ["    out/d%d/f%d $" % (i % 64, i) for i in range(n)] + ["    out/root", "default all"]
    t.put("src", "x\n")
    t.put("build.ninja", "\n".join(w) + "\n")


def fanin(t, n, bh):
    w = ["rule cp", "  command = : > $out", "rule join",
         "  command = wc -c < $out.rsp > $out", "  rspfile = $out.rsp",
         "  rspfile_content = $in_newline"]
    w += ["build out/d%d/f%d: cp src" % (i % 64, i) for i in range(n)]
    w += ["build out/all: join $"]
    w += ["    out/d%d/f%d $" % (i % 64, i) for i in range(n)] + [""]
    t.put("src", "x\n")
    t.put("build.ninja", "\n".join(w) + "\n")


FLAGS = ("-std=c++17 -O2 -g -fPIC -fno-exceptions -fno-rtti -fvisibility-inlines-hidden "
         "-Wall -Wextra -Wno-unused-parameter -Wwrite-strings -Wcast-qual "
         "-Wmissing-field-initializers -pedantic -Wno-long-long -Wimplicit-fallthrough "
         "-fdiagnostics-color -ffunction-sections -fdata-sections")


def layered(t, n, bh, deps=True, restat=False):
    """Of 100 edges about 94 compile, 5 archive and 1 links."""
    per = 2 if restat else 1
    r = Rand(7)
    srcs = max(1, n * 94 // 100 // per)
    headers = max(100, min(srcs // 10, 8000))
    w = ["ninja_required_version = 1.5", "bh = %s" % bh, "cxxflags = " + FLAGS,
         "defines = -DNDEBUG -D_GNU_SOURCE -D__STDC_CONSTANT_MACROS -D__STDC_LIMIT_MACROS",
         "includes = -Iinclude -Isrc -I/usr/include/libxml2", "",
         "rule cxx",
         "  command = $bh cc $defines $includes $cxxflags $extra -MD -MT $out -MF $out.d "
         "-o $out -c $in"]
    if deps:
        w += ["  depfile = $out.d", "  deps = gcc"]
    w += ["  description = CXX $out", "rule ar", "  command = $bh ar $out $in",
          "  description = AR $out", "rule link", "  command = $bh ar $out $in",
          "  rspfile = $out.rsp", "  rspfile_content = $in $libs",
          "  description = LINK $out", "pool link_pool", "  depth = 2",
          "rule gen", "  command = cmp -s $in $out || cp $in $out", "  restat = 1", ""]
    for h in range(headers):
        t.put("include/d%d/header_%d.h" % (h // 100, h), "")
    libs, objs, names, links = [], [], [], 0
    for i in range(srcs):
        src = "src/lib%d/module_%d.cpp" % (i // 19, i)
        obj = "obj/lib%d/module_%d.cpp.o" % (i // 19, i)
        t.put(src, "%d %d %d\n" % (i, 20 + r.below(81), headers))
        if restat:
            w.append("build gen/module_%d.cpp: gen %s" % (i, src))
            src = "gen/module_%d.cpp" % i
        if deps:
            w.append("build %s: cxx %s" % (obj, src))
        else:
            hs = sorted({r.below(headers) for _ in range(5)})
            w.append("build %s: cxx %s | %s" % (
                obj, src, " ".join("include/d%d/header_%d.h" % (h // 100, h) for h in hs)))
        w.append("  extra = -DMODULE=%d -fmacro-prefix-map=src/lib%d=." % (i, i // 19))
        objs.append(obj)
        if len(objs) == 19 or i == srcs - 1:
            lib = "lib/libpart%d.a" % len(libs)
            w.append("build %s: ar %s" % (lib, " ".join(objs)))
            libs.append(lib)
            objs = []
            if len(libs) % 5 == 0 or i == srcs - 1:
                some = libs[-5:]
                name = "bin/tool%d" % links
                w.append("build %s: link obj/lib%d/module_%d.cpp.o | %s || %s" % (
                    name, i // 19, i, " ".join(some), libs[0]))
                w.append("  libs = " + " ".join(some))
                w.append("  pool = link_pool")
                names.append(name)
                links += 1
    w += ["build all: phony " + " ".join(names + libs), "default all"]
    t.put("build.ninja", "\n".join(w) + "\n")


def pools(t, n, bh):
    k = max(1, n // 10)
    w = ["rule cp", "  command = : > $out"]
    for p in range(k):
        w += ["pool p%d" % p, "  depth = %d" % (1 + p % 8)]
    for i in range(n):
        w += ["build out/d%d/f%d: cp src" % (i % 64, i), "  pool = p%d" % (i % k)]
    t.put("src", "x\n")
    t.put("build.ninja", "\n".join(w) + "\n")


def scopes(t, n, bh):
    """Files of 50 edges; 30 nested in one another, many such stacks."""
    per, deep = 50, 30
    files = max(1, n // per)
    t.put("src", "x\n")
    t.put("rules.ninja", "rule cp\n  command = : $flags > $out\n  description = CP $out $flags\n")
    main = ["flags = -top", "root = out", "include rules.ninja"]
    done = 0
    f = 0
    while f < files:
        main.append("subninja sub/s%d.ninja" % f)
        stack = min(deep, files - f)
        for lvl in range(stack):
            w = ["v%d = $flags -level%d" % (lvl, lvl), "flags = $v%d" % lvl if lvl % 3 == 0 else
                 "flags = -f%d" % lvl, "here = $root/s%d" % (f + lvl)]
            if lvl % 7 == 3:
                w += ["rule cp", "  command = : $flags $v0 > $out"]
            for _ in range(min(per, n - done)):
                w.append("build $here/o%d: cp src" % done)
                if done % 4 == 0:
                    w.append("  flags = $flags -own%d $v%d" % (done, lvl // 2))
                done += 1
            if lvl + 1 < stack:
                w.append("subninja sub/s%d.ninja" % (f + lvl + 1))
            t.put("sub/s%d.ninja" % (f + lvl), "\n".join(w) + "\n")
        f += stack
    t.put("build.ninja", "\n".join(main) + "\n")


def phony(t, n, bh):
    real = n // 2
    w = ["rule cp", "  command = : > $out"]
    w += ["build out/d%d/f%d: cp src" % (i % 64, i) for i in range(real)]
    level, num = ["out/d%d/f%d" % (i % 64, i) for i in range(real)], 0
    while len(level) > 1:
        up = []
        for i in range(0, len(level), 2):
            w.append("build ph%d: phony %s" % (num, " ".join(level[i:i + 2])))
            up.append("ph%d" % num)
            num += 1
        level = up
    w += ["build all: phony " + level[0], "default all"]
    t.put("src", "x\n")
    t.put("build.ninja", "\n".join(w) + "\n")


def phonywide(t, n, bh):
    g = min(1000, max(1, n // 2))
    w = ["rule cp", "  command = : > $out"]
    for i in range(g):
        t.put("group/g%d" % i, "")
    w.append("build whole_group: phony " + " ".join("group/g%d" % i for i in range(g)))
    w += ["build out/d%d/f%d: cp src | whole_group" % (i % 64, i) for i in range(n)]
    t.put("src", "x\n")
    t.put("build.ninja", "\n".join(w) + "\n")


def cheap(t, n, bh):
    w = ["rule cp", "  command = : > $out"]
    w += ["build out/d%d/f%d: cp src" % (i % 64, i) for i in range(n)]
    t.put("src", "x\n")
    t.put("build.ninja", "\n".join(w) + "\n")


KINDS = {
    "chain": chain, "fan": fan, "fanin": fanin, "layered": layered,
    "plain": lambda t, n, bh: layered(t, n, bh, deps=False),
    "restat": lambda t, n, bh: layered(t, n, bh, restat=True),
    "pools": pools, "scopes": scopes, "phony": phony, "phonywide": phonywide, "cheap": cheap,
}


def make(kind, size, d):
    KINDS[kind](Tree(d), size, helper())


def main():
    if len(sys.argv) != 4 or sys.argv[1] not in KINDS:
        sys.stderr.write(__doc__)
        return 2
    make(sys.argv[1], int(sys.argv[2]), sys.argv[3])
    return 0


if __name__ == "__main__":
    sys.exit(main())
