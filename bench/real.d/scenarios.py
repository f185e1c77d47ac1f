"""Generators, their users and what they call, with the stand-in in ninja's place: each step beside the same with ninja."""

import os
import re
import shutil
import subprocess

import answered
import projects
import stand_in
from ground import MARK, replace, touch, write
from stand_in import Twice, kept_by

CMAKE = ["cmake", "-G", "Ninja", "-DCMAKE_MAKE_PROGRAM=@ninja", "-S", ".", "-B", "build", "-DCMAKE_EXPORT_COMPILE_COMMANDS=ON"]
BUILD = ["cmake", "--build", "build"]
SHOWN = [*BUILD, "-v"]
COMPILE = ["meson", "compile", "-C", "build"]
NINJA = ["@ninja", "-C", "build"]

# What ninja runs and the stand-in does not, as docs/USING_IT_AS_NINJA.md says: ninja goes through the generators again once one has run;
GLOBS = "VerifyGlobs|Re-checking globbed"
# it starts a command that reads an absent file, where that is in its deps log;
ABSENT = r"part1\.cc"
# Meson calls `ninja -t restat`, behind which ninja takes what a command with `restat` left alone for older than what that read;
SYMBOLS = "Generating symbol file"
# ninja's log has the stamp that the build file had when ninja itself made it last;
REGENERATED = "Regenerating build files|Generating symbol file"
# and Meson calls `ninja -t cleandead`, by which ninja removes what dyndep files alone name.
MODULES = r"units\.f90|libunits\.a|Linking target app"

AGAIN = ("CMakeLists.txt", "add_executable(app", "add_compile_definitions(AGAIN)\nadd_executable(app")

# What GN brings with it.
GN_EXAMPLE = "/usr/share/doc/generate-ninja/examples"

CHECKS = """\
include(CheckIncludeFile)
include(CheckCXXSourceCompiles)
include(CheckCXXSourceRuns)
include(CheckTypeSize)
check_include_file(stdio.h HAS_STDIO)
check_include_file(absent.h HAS_ABSENT)
check_cxx_source_compiles("int main() { return 0; }" COMPILES)
check_cxx_source_compiles("this is none" COMPILES_NOT)
check_cxx_source_runs("int main() { return 0; }" RUNS)
check_type_size(long SIZE_OF_LONG)
find_package(Threads REQUIRED)
"""

# A project in a project: one is built by a command, the other at each configuration.
INNER = {
    "inner/CMakeLists.txt": "cmake_minimum_required(VERSION 3.20)\nproject(inner C)\nadd_library(inner STATIC inner.c)\ninstall(TARGETS inner DESTINATION lib)\n",
    "inner/inner.c": "int inner(void) { return 1; }\n",
    "fetched/CMakeLists.txt": "cmake_minimum_required(VERSION 3.20)\nproject(fetched C)\nadd_library(fetched STATIC fetched.c)\n",
    "fetched/fetched.c": "int fetched(void) { return 2; }\n",
    "main.c": "int inner(void); int fetched(void); int main(void) { return inner() + fetched() - 3; }\n",
    "CMakeLists.txt": """\
cmake_minimum_required(VERSION 3.20)
project(outer C)
include(ExternalProject)
ExternalProject_Add(inner SOURCE_DIR ${CMAKE_SOURCE_DIR}/inner INSTALL_DIR ${CMAKE_BINARY_DIR}/there
  CMAKE_ARGS -DCMAKE_INSTALL_PREFIX=<INSTALL_DIR> BUILD_BYPRODUCTS ${CMAKE_BINARY_DIR}/there/lib/libinner.a STEP_TARGETS build)
include(FetchContent)
FetchContent_Declare(fetched DOWNLOAD_COMMAND ${CMAKE_COMMAND} -E copy_directory ${CMAKE_SOURCE_DIR}/fetched <SOURCE_DIR>)
FetchContent_MakeAvailable(fetched)
add_executable(app main.c)
target_link_libraries(app ${CMAKE_BINARY_DIR}/there/lib/libinner.a fetched)
add_dependencies(app inner)
""",
}


# A generator that is a script: it has no terminal, a depfile, and an input that another command makes; and no line says `default`.
BY_HAND = {
    "configure": """\
#!/bin/sh
set -e
echo "configuring for $(cat listed.txt | tr '\\n' ' ')"
{
  cat front.ninja
  while read name; do echo "build $name.out: copy $name.txt"; done < listed.txt
} > build.ninja.new
mv build.ninja.new build.ninja
echo "build.ninja: front.ninja" > build.ninja.d
""",
    "front.ninja": """\
rule copy
  command = cp $in $out
  description = COPY $out
rule sort
  command = sort $in > $out
rule configure
  command = ./configure
  depfile = build.ninja.d
  generator = 1
  description = CONFIGURE
build listed.txt: sort names.txt
build build.ninja: configure | configure listed.txt
""",
    "names.txt": "two\none\n",
    **{f"{it}.txt": f"{it}\n" for it in ("one", "two", "three")},
}


class Scenario:
    """Steps of one tree, each done with the stand-in and with ninja."""

    def __init__(self, place, name, files, is_terminal=False):
        self.place, self.name, self.is_terminal = place, name, is_terminal
        # What the stand-in's `cleandead` has kept, and ninja's has removed.
        self.kept = []
        self.twice = Twice(place, f"generators-{name}", files if callable(files) else answered.fill(files))

    def do(self, what, *words, idle=False, ran=None, files=True, text=False, same=True, spared="", heading=MARK):
        """The same words with both: they end alike, run the same commands, and leave the same files. `idle`: both had nothing to do. `ran`:
        both say so. `text`: both print the same lines. `spared`: ninja alone may run commands that have this in them."""
        where = f"{self.name}: {what}"
        self.place.step(where)
        told, wanted = self.twice.both(list(words), heading=heading)
        expect = self.place.expect
        expect(told.status == wanted.status, where, f"status {told.status}, by ninja {wanted.status}: {told.out[-1200:]}\n--- ninja:\n{wanted.out[-600:]}")
        if same:
            answered.same_list(self.place, where, told.commands, wanted.commands, self.is_terminal, spared)
        for who, it in (("stand-in", told), ("ninja", wanted)):
            expect(not idle or "no work to do" in it.out, where, f"{who} had something to do: {it.out[-700:]}")
            expect(not ran or ran in it.out, where, f"{who} does not say {ran!r}: {it.out[-700:]}")
        expect(not text or unordered(told.out) == unordered(wanted.out), where, f"tells {told.out[:600]!r}, and by ninja {wanted.out[:600]!r}")
        self.kept += kept_by(told, words)
        if files:
            self.twice.same_files(where, self.kept)
            self.twice.same_commands(where)
        return told, wanted

    def rests(self, *words, files=True):
        for _ in range(2):
            self.do("nothing to do", *words, idle=True, files=files)

    def edit(self, path, *texts):
        self.twice.edit(lambda at: replace(at, path, *texts) if texts else touch(at, path))

    def put(self, path, text):
        self.twice.edit(lambda at: write(at, path, text))

    def drop(self, path):
        self.twice.edit(lambda at: os.remove(os.path.join(at, path)))


def unordered(text):
    """The lines of a text, whatever order commands end in."""
    return sorted(re.sub(r"^\[\d+/", "[", line) for line in text.splitlines())


# ---- CMake

def cmake(place):
    text = projects.CMAKE_HEAD + CHECKS + projects.WHOLE + projects.CMAKE_TESTS
    files = {**projects.SOURCES, "make_header": projects.MAKE_HEADER, "version.h.in": "#define VERSION @CMAKE_VERSION@\n", "CMakeLists.txt": text}
    it = Scenario(place, "cmake", files)
    it.do("configure, with compiler checks", *CMAKE, ran="Performing Test COMPILES_NOT - Failed", heading=None)
    it.do("build", *SHOWN, ran=" -o app ")
    it.rests(*BUILD)
    it.do("configure again", *CMAKE)
    it.rests(*BUILD)
    it.do("in the folder", "sh", "-c", "cd build && cmake .. && cmake --build . -j 2 -v")
    cmake_users(it)
    cmake_cleans(it)
    cmake_again(it, text)
    cmake_words(it)


def cmake_users(it):
    """What users call, and edits of sources."""
    it.do("lines as they are", "sh", "-c", "touch part1.cc && cmake --build build -j 1", ran="[1/", text=True, heading=None)
    it.do("test", "ctest", "--test-dir", "build", ran="100% tests passed")
    it.do("target test", *BUILD, "--target", "test", ran="100% tests passed")
    it.do("target help", *BUILD, "--target", "help", text=True, heading=None)
    it.do("install", "cmake", "--install", "build", "--prefix", "there")
    it.do("target install", "sh", "-c", "DESTDIR=$PWD/there2 cmake --build build -v --target install", ran="cmake_install.cmake")
    it.edit("part4.cc")
    it.do("a source", *SHOWN, ran="part4.cc.o -c")
    it.edit("parts.h")
    it.do("targets", *SHOWN, "--target", "some", "copied", ran="libsome.a")
    it.do("the rest", *SHOWN, ran=" -o app ")
    it.rests(*BUILD)
    it.drop("build/libsome.a")
    it.do("an output is deleted", *SHOWN, ran="libsome.a")
    it.rests(*BUILD)
    it.do("configured, built and tested by ctest", "ctest", "--build-and-test", ".", "build-and-test", "--build-generator", "Ninja", "--build-makeprogram",
          "@ninja", "--test-command", "ctest", ran="100% tests passed", files=False, heading=None)


def cmake_cleans(it):
    it.do("target clean", *BUILD, "--target", "clean")
    it.do("build after clean", *BUILD, ran="Linking CXX executable app")
    it.do("clean first", *BUILD, "--clean-first", ran="Linking CXX executable app")
    it.rests(*BUILD)


def cmake_again(it, text):
    """What CMake reads is edited."""
    it.edit(*AGAIN)
    it.do("an edited CMakeLists.txt", *SHOWN, ran="--regenerate-during-build")
    it.rests(*BUILD)
    it.edit("version.h.in")
    it.do("a file that is configured", *BUILD, ran="Re-running CMake")
    it.rests(*BUILD)
    it.drop("build/build.ninja")
    it.do("build.ninja is deleted", *BUILD, ran="build.ninja")
    it.do("and made again", *CMAKE, heading=None)
    it.rests(*BUILD)
    it.put("CMakeLists.txt", "this is not CMake\n")
    it.do("a broken CMakeLists.txt", *BUILD, ran="rebuilding 'build.ninja'")
    it.put("CMakeLists.txt", text)
    it.do("a mended CMakeLists.txt", *BUILD, ran="Re-running CMake")
    it.rests(*BUILD)
    it.put("CMakeLists.txt", text.replace("add_library(module MODULE part1.cc $<TARGET_OBJECTS:objects>)\n", ""))
    it.do("a target less", *BUILD, ran="Re-running CMake")
    it.rests(*BUILD)
    it.do("what is left of it", *NINJA, "-t", "cleandead")
    it.rests(*BUILD)


def cmake_words(it):
    """What editors call, and what fails."""
    it.do("target build.ninja", *NINJA, "build.ninja", idle=True)
    it.do("whether build.ninja is up to date", *NINJA, "-n", "build.ninja", idle=True)
    it.do("an unknown target", *BUILD, "--target", "ap", ran="unknown target 'ap'")
    it.edit("part1.cc")
    it.do("a source with ^", "sh", "-c", '"$NINJA" -C build -v "$PWD/part1.cc^"', ran="part1.cc.o -c")
    it.edit("part1.cc", "return", "returm")
    it.do("a broken source", *SHOWN, "-j", "1", ran="build stopped: subcommand failed", files=False)
    it.do("a broken source, and on", *SHOWN, "--", "-k0", ran="cannot make progress due to previous errors", files=False)
    it.edit("part1.cc", "returm", "return")
    it.do("a mended source", *SHOWN, ran=" -o app ")
    it.rests(*BUILD)
    it.drop("part1.cc")
    it.do("a source is deleted", *BUILD, ran="part1.cc", files=False, spared=ABSENT)


def cmake_globs(place):
    text = projects.CMAKE_HEAD + "file(GLOB all CONFIGURE_DEPENDS part*.cc)\nadd_library(every STATIC ${all})\n"
    it = Scenario(place, "cmake-globs", {**projects.SOURCES, "CMakeLists.txt": text})
    it.do("configure", *CMAKE, heading=None)
    it.do("build", *SHOWN, ran="libevery.a")
    it.rests(*BUILD)
    it.put("part9.cc", "int part9() { return 9; }\n")
    it.do("a file more", *SHOWN, ran="part9.cc", spared=GLOBS)
    it.rests(*BUILD)
    it.drop("part9.cc")
    it.do("a file less", *SHOWN, ran="libevery.a", spared=GLOBS)
    it.rests(*BUILD)
    it.do("target clean", *BUILD, "--target", "clean")
    it.do("build after clean", *BUILD, ran="libevery.a")
    it.rests(*BUILD)
    it.edit("CMakeLists.txt", "STATIC", "OBJECT")
    it.do("an edited CMakeLists.txt", *BUILD, ran="Re-running CMake", spared=GLOBS)
    it.rests(*BUILD)


def cmake_configurations(place):
    text = projects.CMAKE_HEAD + projects.WHOLE
    it = Scenario(place, "cmake-configurations", {**projects.SOURCES, "make_header": projects.MAKE_HEADER, "CMakeLists.txt": text})
    multi = ["Ninja Multi-Config" if word == "Ninja" else word for word in CMAKE]
    it.do("configure", *multi, "-DCMAKE_CROSS_CONFIGS=all", "-DCMAKE_DEFAULT_BUILD_TYPE=Release", heading=None)
    for which in ("Release", "Debug"):
        it.do(f"build {which}", *SHOWN, "--config", which, ran=f" -o {which}/app ")
        it.rests(*BUILD, "--config", which)
    it.do("the configuration that is not named", *BUILD, idle=True)
    it.do("another one", *NINJA, "-v", "-f", "build-Release.ninja", "app:RelWithDebInfo", ran=" -o RelWithDebInfo/app ")
    it.edit(*AGAIN)
    it.do("an edited CMakeLists.txt", *SHOWN, "--config", "Release", ran="--regenerate-during-build")
    it.rests(*BUILD, "--config", "Release")
    it.do("the other configuration", *SHOWN, "--config", "Debug", ran=" -o Debug/app ")
    it.rests(*BUILD, "--config", "Debug")
    it.do("target help", *BUILD, "--config", "Debug", "--target", "help", text=True, heading=None)
    it.do("clean", *BUILD, "--config", "Release", "--target", "clean")
    it.do("the other configuration lacks what both need", *SHOWN, "--config", "Debug", ran=" -o Debug/app ")
    it.do("build again", *BUILD, "--config", "Release", ran="Linking CXX executable")
    it.do("clean first", *BUILD, "--config", "Debug", "--clean-first", ran="Linking CXX executable")
    it.do("install", "cmake", "--install", "build", "--config", "Debug", "--prefix", "there")


def cmake_fortran(place):
    it = Scenario(place, "cmake-fortran", projects.FORTRAN_MANY)
    it.do("configure", *CMAKE, heading=None)
    it.do("build", *SHOWN, ran=" -o app ")
    it.rests(*BUILD)
    edits = next(project.edits for project in projects.ALL if project.name == "cmake-fortran-modules")
    for what, *edit in edits:
        it.edit(*edit)
        it.do(what, *SHOWN)
        it.rests(*BUILD)
    it.do("target clean", *BUILD, "--target", "clean")
    it.do("build after clean", *BUILD, ran="Linking Fortran executable app")
    it.do("clean first", *BUILD, "--clean-first", ran="Linking Fortran executable app")
    it.rests(*BUILD)
    it.edit("CMakeLists.txt", "early.f90 late.f90", "early.f90 late.f90 ${CMAKE_SOURCE_DIR}/more.f90")
    it.put("more.f90", "module more\n  use late\nend module\n")
    it.do("an edited CMakeLists.txt", *SHOWN, ran="--regenerate-during-build")
    it.rests(*BUILD)


def cmake_inner(place):
    """Builds in builds: the stand-in is called by commands of its own, in other folders."""
    it = Scenario(place, "cmake-inner", INNER, is_terminal=True)
    it.do("configure", *CMAKE, heading=None, files=False)
    it.do("build", *SHOWN, ran=" -o app ", files=False)
    it.rests(*BUILD)
    it.edit("inner/inner.c")
    it.do("the inner project is built", *BUILD, "--target", "inner-build", files=False)
    it.edit(*AGAIN)
    it.do("an edited CMakeLists.txt", *BUILD, ran="Re-running CMake", files=False)
    it.rests(*BUILD)
    it.do("clean first", *BUILD, "--clean-first", ran="Linking C executable app", files=False)
    it.rests(*BUILD)


# ---- Meson

def meson(place):
    text = projects.MESON_HEAD + projects.MESON_MADE + projects.MESON_REST + projects.MESON_TESTS + "install_data('number.txt', install_dir: 'share')\n"
    it = Scenario(place, "meson", {**projects.MESON_FILES, "meson.build": text})
    it.do("setup", "meson", "setup", "build", "--prefix", "/there", ran="Build targets in project", heading=None)
    it.do("compile", *COMPILE, "-v", ran=" -o app ")
    it.rests(*COMPILE)
    meson_users(it)
    it.edit("meson.build", "some = static", "add_project_arguments('-DAGAIN', language: 'cpp')\nsome = static")
    it.do("an edited meson.build", *COMPILE, "-v", ran="--internal regenerate")
    it.rests(*COMPILE)
    it.do("configure", "meson", "configure", "build", "-Dwarning_level=3")
    it.do("compile after configure", *COMPILE, "-v", ran="--internal regenerate")
    it.rests(*COMPILE)
    it.put("meson.build", "this is not Meson\n")
    it.do("a broken meson.build", *COMPILE, ran="rebuilding 'build.ninja'")
    it.put("meson.build", text)
    it.do("a mended meson.build", *COMPILE, ran="The Meson build system")
    it.rests(*COMPILE)
    it.do("reconfigure", "meson", "setup", "--reconfigure", "build", heading=None)
    it.do("compile after reconfigure", *COMPILE, spared=REGENERATED)
    it.rests(*COMPILE)
    it.do("the target that reconfigures", *NINJA, "reconfigure", ran="The Meson build system")
    it.do("compile after that", *COMPILE, spared=SYMBOLS)
    it.rests(*COMPILE)
    # Meson calls `cleandead` itself, of ninja alone
    it.put("meson.build", text.replace("executable('copied', ", "executable('other_copied', "))
    it.do("a target by another name", *COMPILE, ran="The Meson build system", files=False, spared=SYMBOLS)
    it.do("what is left of it", *NINJA, "-t", "cleandead")
    it.rests(*COMPILE)
    it.do("wiped", "meson", "setup", "--wipe", "build", heading=None)
    it.do("compile after that", *COMPILE, ran="Linking target app")
    it.rests(*COMPILE)


def meson_over(place):
    """In a folder that ninja has built Meson calls `cleandead` while it is called itself, in front of a build."""
    text = projects.MESON_HEAD + projects.MESON_MADE + projects.MESON_REST
    it = Scenario(place, "meson-over", {**projects.MESON_FILES, "meson.build": text})
    it.do("setup", "meson", "setup", "build", heading=None)
    it.do("by ninja itself", place.ninja, "-C", "build", ran="Linking target app")
    it.put("meson.build", re.sub(r"\bapp\b", "other_app", text))
    told, _ = it.do("an edited meson.build", *COMPILE, ran="The Meson build system", files=False, same=False)
    place.expect("Cleaning..." in told.out, "meson-over", f"Meson does not call cleandead: {told.out[-600:]}")
    # what ninja itself has made is in no log of the stand-in's, and stays
    it.rests(*COMPILE, files=False)


def meson_users(it):
    """What users call."""
    it.do("test", "meson", "test", "-C", "build", ran="Ok:                 1")
    it.edit("part1.cc")
    it.do("test after an edit", "meson", "test", "-C", "build", ran="Ok:                 1")
    it.do("target test", *NINJA, "test", ran="Ok:                 1")
    it.do("install", "meson", "install", "-C", "build", "--destdir", "../there")
    it.do("target install", "sh", "-c", "DESTDIR=$PWD/there2 $NINJA -C build install", ran="Installing")
    it.edit("parts.h")
    it.do("a target", *COMPILE, "-v", "some:static_library", ran="libsome.a")
    it.do("the rest, two at once", *COMPILE, "-v", "-j", "2", "-l", "64", ran=" -o app ")
    it.rests(*COMPILE)
    it.do("clean", *COMPILE, "--clean")
    it.do("compile after clean", *COMPILE, ran="Linking target app")
    it.rests(*COMPILE)
    it.do("target clean", *NINJA, "clean")
    it.do("compile after that", *COMPILE, "-v", ran=" -o app ")
    it.rests(*COMPILE)
    it.do("whether build.ninja is up to date", *NINJA, "-n", "build.ninja", idle=True)


def meson_fortran(place):
    it = Scenario(place, "meson-fortran", projects.MESON_FORTRAN)
    it.do("setup", "meson", "setup", "build", heading=None)
    it.do("compile", *COMPILE, "-v", ran=" -o app ")
    it.rests(*COMPILE)
    it.edit("units.f90", "contains\n", "  integer, parameter :: more = 1\ncontains\n")
    it.do("a module offers more", *COMPILE, "-v", ran=" -o app ")
    it.rests(*COMPILE)
    it.edit("meson.build", "project('tried', 'fortran')", "project('tried', 'fortran', version: '2')")
    it.do("an edited meson.build", *COMPILE, ran="The Meson build system", spared=MODULES)
    it.rests(*COMPILE)


# ---- GN

def gn(place):
    """The example that GN brings."""
    if not os.path.isdir(GN_EXAMPLE):
        place.leave_out("gn", f"there is no {GN_EXAMPLE}")
        return
    it = Scenario(place, "gn", lambda folder: shutil.copytree(GN_EXAMPLE, folder, dirs_exist_ok=True))
    gn_steps(it, "out", "hello_static.cc", ('sources = [ "hello.cc" ]', 'sources = [ "hello.cc" ]\n  defines = [ "AGAIN" ]'))
    it.do("it runs", "sh", "-c", "cd out && LD_LIBRARY_PATH=. ./hello", ran="Hello, world")


def gn_more(place):
    """A tree with actions, copies and a pool."""
    it = Scenario(place, "gn-more", projects.GN_FILES)
    gn_steps(it, "build", "part1.cc", ('sources = [ "main.cc" ]', 'sources = [ "main.cc" ]\n  defines = [ "AGAIN" ]'))


def gn_steps(it, folder, source, edit):
    """The steps of a tree of GN that is built in this folder. An edit makes of the first text the second."""
    build = ["@ninja", "-C", folder]
    it.do("gen", "gn", "gen", folder, heading=None)
    it.do("build", *build, "-v", ran=" -o ")
    it.rests(*build)
    it.edit(source)
    it.do("a source", *build, "-v", ran=source)
    it.rests(*build)
    it.edit("BUILD.gn", *edit)
    it.do("an edited BUILD.gn", *build, "-v", ran="--regeneration")
    it.rests(*build)
    it.do("gen again", "gn", "gen", folder, heading=None)
    it.rests(*build)
    it.edit("BUILD.gn", edit[1], edit[1] + "\n  this is none")
    it.do("a broken BUILD.gn", *build, ran="rebuilding 'build.ninja'")
    it.edit("BUILD.gn", edit[1] + "\n  this is none", edit[0])
    it.do("a mended BUILD.gn", *build, ran="Regenerating ninja files")
    it.rests(*build)
    it.do("clean", *build, "-t", "clean")
    it.do("build again", *build, ran="LINK ")
    it.rests(*build)
    it.do("target build.ninja", *build, "build.ninja", idle=True)
    it.do("whether build.ninja is up to date", *build, "-n", "build.ninja", idle=True)
    it.do("gn's own clean", "gn", "clean", folder, heading=None)
    it.do("build after that", *build, ran="LINK ")
    it.rests(*build)


# ---- a script

def by_hand(place):
    it = Scenario(place, "by-hand", BY_HAND)
    it.do("the first time", "sh", "-c", "sort names.txt > listed.txt && ./configure")
    it.do("build", "@ninja", ran="COPY one.out", same=False)
    it.rests("@ninja")
    it.put("names.txt", "two\none\nthree\n")
    it.do("a name more", "@ninja", ran="COPY three.out")
    it.rests("@ninja")
    it.edit("front.ninja", "cp $in", "cat $in >")
    it.do("what its depfile tells is edited", "@ninja", "-v", ran="cat one.txt > one.out")
    it.rests("@ninja")
    it.edit("configure", "set -e", "set -e; exit 3")
    it.do("it fails", "@ninja", ran="rebuilding 'build.ninja'")
    it.edit("configure", "set -e; exit 3", "set -e")
    it.do("it is mended", "@ninja", ran="CONFIGURE")
    it.rests("@ninja")
    it.put("names.txt", "two\nthree\n")
    it.do("a name less", "@ninja", "two.out", ran="CONFIGURE")
    it.do("what is left of it", "@ninja", "-t", "cleandead")
    it.rests("@ninja")
    it.do("all is removed", "@ninja", "-t", "clean")
    it.do("and built", "@ninja", ran="COPY two.out")
    it.rests("@ninja")


SCENARIOS = {
    "cmake": (cmake, "cmake", "c++"),
    "cmake-globs": (cmake_globs, "cmake", "c++"),
    "cmake-configurations": (cmake_configurations, "cmake", "c++"),
    "cmake-fortran": (cmake_fortran, "cmake", "gfortran"),
    "cmake-inner": (cmake_inner, "cmake", "cc"),
    "meson": (meson, "meson", "c++"),
    "meson-over": (meson_over, "meson", "c++"),
    "meson-fortran": (meson_fortran, "meson", "gfortran"),
    "gn": (gn, "gn", "c++"),
    "gn-more": (gn_more, "gn", "c++"),
    "by-hand": (by_hand, "sort"),
}


def generators(place):
    for name, (scenario, *wants) in SCENARIOS.items():
        if place.only in name and not place.lacks(name, *wants):
            try:
                scenario(place)
            except (RuntimeError, OSError, ValueError, subprocess.TimeoutExpired) as error:
                place.wrong(name, f"{type(error).__name__}: {error}")


PARTS = {"generators": generators, "answers": stand_in.answers, "cleans": stand_in.cleans, "dry": stand_in.dry, "words": stand_in.words}


def run_all(place):
    """All parts, where the stand-in is there."""
    if not os.access(place.stand_in, os.X_OK):
        place.leave_out("the stand-in", f"there is no {place.stand_in}")
    elif not place.lacks("the stand-in", "ninja"):
        for part in PARTS.values():
            part(place)
