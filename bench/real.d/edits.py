"""A tree of C++ with depfiles of the system's compiler: edits, deletions, faults and mendings."""

import os
import re
import shutil
import subprocess

import ground
from ground import Pair, replace, touch, write

BUILD = """\
ninja_required_version = 1.5
builddir = .
cxx = c++
flags = -O1 -Iinclude -isystem cc_include
pool link
  depth = 1
rule cxx
  command = $cxx $flags -MD -MF $out.d -c $in -o $out
  depfile = $out.d
  deps = gcc
  description = CXX $out
rule cxx_keeping_its_depfile
  command = $cxx $flags -MD -MF $out.d -c $in -o $out
  depfile = $out.d
rule archive
  command = rm -f $out && ar rcs $out @$out.rsp
  rspfile = $out.rsp
  rspfile_content = $in_newline
rule link
  command = $cxx -o $out $in $libs
  pool = link
rule table
  command = sh make_table $in > $out.new && (cmp -s $out.new $out && rm $out.new || mv $out.new $out)
  restat = 1
rule run
  command = ./$in > $out
include units.ninja
build lib/libshapes.a: archive obj/circle.o obj/square.o obj/table.o
build bin/app: link obj/main.o lib/libshapes.a
  libs = -lm
build bin/app.txt: run bin/app
build everything: phony bin/app.txt
default everything
"""

UNITS = """\
build include/table.h: table table.txt | make_table
build obj/circle.o: cxx src/circle.cc
build obj/square.o: cxx src/square.cc
  flags = $flags -DSIDE=4
build obj/table.o: cxx src/table.cc || include/table.h
build obj/main.o: cxx_keeping_its_depfile src/main.cc || include/table.h
"""

FILES = {
    "build.ninja": BUILD,
    "units.ninja": UNITS,
    "make_table": 'echo "// made"; while read name value; do case $name in "#"*) ;; *) echo "#define $name $value" ;; esac; done < "$1"\n',
    "table.txt": "# a comment\nWIDTH 7\nHEIGHT 9\n",
    "include/shape.h": "#pragma once\n#include <stddef.h>\nstruct Shape { virtual ~Shape() {} virtual double area() const = 0; };\n",
    "include/circle.h": '#pragma once\n#include "shape.h"\nShape *circle(double radius);\n',
    "include/square.h": '#pragma once\n#include "shape.h"\nShape *square(double side);\n',
    "src/circle.cc": '#include "circle.h"\nstruct C : Shape { double r; double area() const { return 3 * r * r; } };\n'
    "Shape *circle(double r) { C *c = new C; c->r = r; return c; }\n",
    "src/square.cc": '#include "square.h"\nstruct S : Shape { double s; double area() const { return SIDE * s * s / 4; } };\n'
    "Shape *square(double s) { S *it = new S; it->s = s; return it; }\n",
    "src/table.cc": '#include "table.h"\nint table() { return WIDTH * HEIGHT; }\n',
    "src/main.cc": '#include <cstdio>\n#include <string>\n#include "circle.h"\n#include "square.h"\n#include "table.h"\nint table();\n'
    'int main() { std::string s = "area"; printf("%s %g %g %d %d\\n", s.c_str(), circle(2)->area(), square(2)->area(), table(), WIDTH); }\n',
}

# Where a command failed: ninja removes what it left as a depfile, and nj one of an earlier run, before it starts.
DEPFILES = re.compile(r"\.o\.d$")


def fill(folder):
    for path, text in FILES.items():
        write(folder, path, text)
    # The compiler's own headers, in a copy that may be touched.
    own = subprocess.run(["c++", "-print-file-name=include"], stdout=subprocess.PIPE, text=True, check=True).stdout.strip()
    os.makedirs(os.path.join(folder, "cc_include"))
    for name in ("stddef.h", "stdarg.h"):
        shutil.copy(os.path.join(own, name), os.path.join(folder, "cc_include", name))


def run(place):
    if place.lacks("edits of a C++ tree", "ninja", "c++", "ar"):
        return
    pair = Pair(place, "edits", fill)
    pair.step("a first build")
    pair.rests()
    of_contents(pair)
    of_commands(pair)
    of_outputs(pair)
    of_faults(pair)
    of_lists(pair)
    of_depfiles(pair)
    of_targets(pair)
    of_logs(pair)


def changed(pair, what, change, *words, **how):
    """An edit of both copies, a build of each, and one with nothing to do."""
    pair.edit(change)
    ran = pair.step(what, *words, **how)
    pair.rests(f"{what}, again", *words)
    return ran


def of_contents(pair):
    place = pair.ground
    changed(pair, "a header is touched", lambda it: touch(it, "include/circle.h"))
    changed(pair, "a header that all read is touched", lambda it: touch(it, "include/shape.h"))
    changed(pair, "a header is edited", lambda it: replace(it, "include/shape.h", "virtual ~", "int n = 1; virtual ~"))
    changed(pair, "a source is touched", lambda it: touch(it, "src/square.cc"))
    changed(pair, "a source is edited", lambda it: replace(it, "src/circle.cc", "3 *", "3.14 *"))
    ran = changed(pair, "the compiler's own header is touched", lambda it: touch(it, "cc_include/stddef.h"))
    place.expect(len(ran.commands) > 3, "edits", f"a header of the compiler concerns all objects: {ran.commands}")
    changed(pair, "a generated header changes", lambda it: replace(it, "table.txt", "WIDTH 7", "WIDTH 8"))
    ran = changed(pair, "a generated header is made as it was", lambda it: replace(it, "table.txt", "a comment", "another"))
    place.expect(len(ran.commands) == 1, "edits", f"restat is to end there: {ran.commands}")
    changed(pair, "the generator is touched", lambda it: touch(it, "make_table"))
    # its command did not leave it so: to nj it is absent
    changed(pair, "a generated header is touched", lambda it: touch(it, "include/table.h"), besides=["sh make_table table.txt"])
    changed(pair, "two edits at once", lambda it: (touch(it, "src/main.cc"), replace(it, "table.txt", "HEIGHT 9", "HEIGHT 1")))
    pair.edit(lambda it: write(it, "README", "x"))
    pair.rests("a file that nobody reads is written")


def of_commands(pair):
    changed(pair, "a flag of all", lambda it: replace(it, "build.ninja", "-O1", "-O0"))
    changed(pair, "a flag of one", lambda it: replace(it, "units.ninja", "SIDE=4", "SIDE=5"))
    changed(pair, "a flag of the link", lambda it: replace(it, "build.ninja", "libs = -lm", "libs = -lm -lpthread"))
    changed(pair, "a description", lambda it: replace(it, "build.ninja", "CXX $out", "compile $out"))
    changed(pair, "a response file's content", lambda it: replace(it, "build.ninja", "obj/circle.o obj/square.o", "obj/square.o obj/circle.o"))
    changed(pair, "build files are touched", lambda it: (touch(it, "build.ninja"), touch(it, "units.ninja")))
    changed(pair, "the flag is set back", lambda it: replace(it, "build.ninja", "-O0", "-O1"))


def of_outputs(pair):
    for path in ("obj/circle.o", "lib/libshapes.a", "bin/app", "bin/app.txt", "include/table.h", "obj/main.o.d"):
        changed(pair, f"{path} is deleted", lambda it, path=path: os.remove(os.path.join(it, path)))
    changed(pair, "a folder of outputs is deleted", lambda it: shutil.rmtree(os.path.join(it, "obj")))
    changed(pair, "all outputs are deleted", lambda it: [shutil.rmtree(os.path.join(it, name)) for name in ("obj", "lib", "bin")])


def of_faults(pair):
    pair.edit(lambda it: replace(it, "src/circle.cc", "return c;", "return c"))
    pair.step("a source is broken", "-k", "0", status=1, passed_over=DEPFILES)
    pair.step("it is still broken", "-k", "0", status=1, passed_over=DEPFILES)
    pair.edit(lambda it: touch(it, "src/square.cc"))
    pair.step("another is touched meanwhile", "-k", "0", status=1, passed_over=DEPFILES)
    changed(pair, "the source is mended", lambda it: replace(it, "src/circle.cc", "return c", "return c;"))
    pair.edit(lambda it: (replace(it, "include/shape.h", "struct Shape", "strukt Shape"), touch(it, "table.txt")))
    pair.step("a header is broken", "-k", "0", status=1, passed_over=DEPFILES)
    changed(pair, "the header is mended", lambda it: replace(it, "include/shape.h", "strukt", "struct"))
    pair.edit(lambda it: replace(it, "make_table", "done <", "done; exit 3 <"))
    pair.step("the generator fails", "-k", "0", status=1)
    changed(pair, "the generator is mended", lambda it: replace(it, "make_table", "done; exit 3 <", "done <"))
    pair.edit(lambda it: os.rename(os.path.join(it, "src/square.cc"), os.path.join(it, "src/gone")))
    # Refused before anything is started; ninja runs a command whose depfile named the source.
    pair.step("a source is absent", status=1, same_commands=False)
    changed(pair, "it is there again", lambda it: os.rename(os.path.join(it, "src/gone"), os.path.join(it, "src/square.cc")))
    pair.edit(lambda it: replace(it, "src/main.cc", "int main() {", "int main() { return 3;"))
    pair.step("the program fails", "-k", "0", status=1)
    changed(pair, "the program is mended", lambda it: replace(it, "src/main.cc", " return 3;", ""))


def of_lists(pair):
    def new_unit(it):
        write(it, "src/extra.cc", "int extra() { return 5; }\n")
        write(it, "units.ninja", ground.read(it, "units.ninja") + "build obj/extra.o: cxx src/extra.cc\n")
        replace(it, "build.ninja", "obj/table.o\n", "obj/table.o obj/extra.o\n")

    def without_unit(it):
        replace(it, "units.ninja", "build obj/extra.o: cxx src/extra.cc\n", "")
        replace(it, "build.ninja", "obj/table.o obj/extra.o\n", "obj/table.o\n")

    changed(pair, "a source joins", new_unit)
    changed(pair, "a source leaves", without_unit)
    changed(pair, "an output gets another name", lambda it: replace(it, "build.ninja", "bin/app", "bin/program"))
    changed(pair, "it gets its name back", lambda it: replace(it, "build.ninja", "bin/program", "bin/app"))


def of_depfiles(pair):
    def renamed_header(it):
        os.rename(os.path.join(it, "include/circle.h"), os.path.join(it, "include/round.h"))
        for path in ("src/circle.cc", "src/main.cc"):
            replace(it, path, "circle.h", "round.h")

    changed(pair, "a header gets another name", renamed_header)
    changed(pair, "a header is no longer read", lambda it: replace(it, "src/table.cc", '#include "table.h"\n', "#define WIDTH 2\n#define HEIGHT 3\n"))
    changed(pair, "what it no longer reads changes", lambda it: replace(it, "table.txt", "WIDTH 8", "WIDTH 6"))
    changed(pair, "a header is read again", lambda it: replace(it, "src/table.cc", "#define WIDTH 2\n#define HEIGHT 3\n", '#include "table.h"\n'))
    pair.edit(lambda it: os.remove(os.path.join(it, "include/round.h")))
    pair.step("a header is deleted", "-k", "0", status=1, passed_over=DEPFILES)
    changed(pair, "a header comes back", lambda it: write(it, "include/round.h", FILES["include/circle.h"]))
    spaced = 'include/a b.h'

    def name_with_a_space(it):
        write(it, spaced, "#define SPACED 1\n")
        replace(it, "src/circle.cc", "#include", '#include "a b.h"\n#include')

    changed(pair, "a header with a space in its name", name_with_a_space)
    changed(pair, "it is touched", lambda it: touch(it, spaced))


def of_targets(pair):
    pair.edit(lambda it: (touch(it, "src/circle.cc"), touch(it, "src/square.cc"), touch(it, "table.txt")))
    pair.step("one object alone", "obj/circle.o")
    pair.rests("one object again", "obj/circle.o")
    pair.step("a library", "lib/libshapes.a")
    pair.step("all that is left")
    pair.rests("all again")
    pair.step("an unknown target", "obj/none.o", status=1)


def of_logs(pair):
    def without_logs(it):
        for name in (".nj_log", ".nj_deps", ".ninja_log", ".ninja_deps"):
            path = os.path.join(it, name)
            if os.path.exists(path):
                os.remove(path)

    changed(pair, "the logs are deleted", without_logs)
    where = "edits, the deps log is deleted"
    pair.ground.step(where)
    with pair.at_home("nj") as it:
        os.remove(os.path.join(it, ".nj_deps"))
    nj = pair.build("nj")
    pair.ground.expect(nj.status == 0 and len(nj.commands) >= 4, where, nj.text[-900:])
    told = ground.differences(pair.files("nj"), pair.files("ninja"), Pair.TOOLS)
    pair.ground.expect(not told, where, ground.in_short(told))
    pair.rests("edits, again")
