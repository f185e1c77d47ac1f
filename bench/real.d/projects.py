"""The projects of generators, as their files and how they are made ready."""

import dataclasses


@dataclasses.dataclass
class Project:
    """A project, how it is made ready, what is built, and what is edited then."""

    name: str
    wants: tuple
    files: dict
    prepares: list
    # What is edited and where: it is touched, or the first text in it becomes the second.
    edits: list
    build: str = "build"
    words: tuple = ()
    deleted: tuple = ()
    targets: tuple = ()
    rests: bool = True
    # Whether commands get the terminal: of those that end meanwhile ninja shows the last alone.
    terminal: bool = False
    regenerates: tuple = ()
    runs: tuple = ()
    tells: str = ""


UNITS = {
    f"part{n}.cc": f'#include "parts.h"\n#include <vector>\nint part{n}() {{ std::vector<int> all({n} + 1, {n}); return all.back(); }}\n'
    for n in range(6)
}
PARTS = "#pragma once\n" + "".join(f"int part{n}();\n" for n in range(6))
MAIN = (
    '#include <cstdio>\n#include "made.h"\n#include "parts.h"\nint main() { printf("sum %d\\n", '
    + " + ".join(f"part{n}()" for n in range(6))
    + " + MADE); }\n"
)
SOURCES = {**UNITS, "parts.h": PARTS, "main.cc": MAIN, "number.txt": "27\n"}
SOME = " ".join(list(UNITS)[:3])
OTHERS = " ".join(list(UNITS)[3:])

CMAKE = ["cmake", "-G", "Ninja", "-S", ".", "-B", "build", "-DCMAKE_BUILD_TYPE=Debug"]
CMAKE_HEAD = "cmake_minimum_required(VERSION 3.20)\nproject(tried LANGUAGES C CXX)\n"
CMAKE_MADE = """\
add_custom_command(OUTPUT made.h COMMAND sh ${CMAKE_SOURCE_DIR}/make_header ${CMAKE_SOURCE_DIR}/number.txt made.h
  DEPENDS number.txt make_header VERBATIM)
add_custom_target(headers DEPENDS made.h)
include_directories(${CMAKE_SOURCE_DIR} ${CMAKE_BINARY_DIR})
"""
CMAKE_MAIN = """\
add_executable(app main.cc made.h)
target_link_libraries(app some others)
"""
CMAKE_LIBRARIES = f"add_library(some STATIC {SOME})\nadd_library(others SHARED {OTHERS})\n"
MAKE_HEADER = '#!/bin/sh\nread number < "$1"\necho "#define MADE $number" > "$2"\n'


def cmake(name, text, *flags, **how):
    known = {
        "wants": ("cmake",),
        "files": {**SOURCES, "make_header": MAKE_HEADER, "CMakeLists.txt": CMAKE_HEAD + text},
        "prepares": [[*CMAKE, *flags]],
        "edits": [("a source", "part1.cc"), ("a header", "parts.h"), ("what makes a header", "number.txt")],
        "deleted": ("build/app",),
        "runs": ("build/app",),
        "tells": "sum 42",
    }
    return Project(name, **{**known, **how})


CMAKE_TESTS = """\
enable_testing()
add_executable(check main.cc made.h)
target_link_libraries(check some others)
add_test(NAME check COMMAND check)
configure_file(version.h.in version.h)
add_library(objects OBJECT part0.cc)
add_library(module MODULE part1.cc $<TARGET_OBJECTS:objects>)
add_custom_command(OUTPUT copied.cc COMMAND ${CMAKE_COMMAND} -E copy ${CMAKE_SOURCE_DIR}/part2.cc copied.cc DEPENDS part2.cc)
add_library(copied STATIC ${CMAKE_BINARY_DIR}/copied.cc)
install(TARGETS app)
"""
CMAKE_TERMINAL = """\
add_custom_command(OUTPUT listed.txt COMMAND ${CMAKE_CXX_COMPILER} -M -MT listed.txt -MF listed.d -I${CMAKE_SOURCE_DIR} ${CMAKE_SOURCE_DIR}/part0.cc
  COMMAND ${CMAKE_COMMAND} -E touch listed.txt DEPENDS part0.cc DEPFILE listed.d BYPRODUCTS by.txt
  COMMAND ${CMAKE_COMMAND} -E touch by.txt USES_TERMINAL)
add_custom_target(list ALL DEPENDS listed.txt)
add_custom_target(each_time ALL COMMAND ${CMAKE_COMMAND} -E echo once more USES_TERMINAL)
set_property(GLOBAL PROPERTY JOB_POOLS two=2 one=1)
set_property(TARGET app PROPERTY JOB_POOL_LINK one)
set_property(TARGET some PROPERTY JOB_POOL_COMPILE two)
"""
CMAKE_MANY = {
    "CMakeLists.txt": CMAKE_HEAD + "foreach(n RANGE 1 12)\n  add_subdirectory(lib${n})\n  list(APPEND all lib${n})\nendforeach()\n"
    "add_executable(app main.cc)\ntarget_link_libraries(app ${all})\n",
    "main.cc": '#include <cstdio>\nint f12(); int main() { printf("sum %d\\n", f12()); }\n',
}
for n in range(1, 13):
    below = f'#include "lib{n - 1}.h"\n' if n > 1 else ""
    value = f"f{n - 1}() + 1" if n > 1 else "1"
    link = f"target_link_libraries(lib{n} PUBLIC lib{n - 1})\n" if n > 1 else ""
    CMAKE_MANY[f"lib{n}/lib{n}.cc"] = f'#include "lib{n}.h"\nint f{n}() {{ return {value}; }}\n'
    CMAKE_MANY[f"lib{n}/include/lib{n}.h"] = f"#pragma once\n{below}int f{n}();\n"
    CMAKE_MANY[f"lib{n}/CMakeLists.txt"] = f"add_library(lib{n} lib{n}.cc)\ntarget_include_directories(lib{n} PUBLIC include)\n{link}"

FORTRAN = {
    "CMakeLists.txt": "cmake_minimum_required(VERSION 3.20)\nproject(tried LANGUAGES Fortran)\nadd_library(units units.f90)\n"
    "add_executable(app main.f90)\ntarget_link_libraries(app units)\n",
    "units.f90": "module units\n  implicit none\ncontains\n  integer function twice(n)\n    integer, intent(in) :: n\n    twice = 2 * n\n"
    "  end function\nend module\n",
    "main.f90": "program main\n  use units\n  print '(a,i0)', 'sum ', twice(21)\nend program\n",
}

# Modules of three libraries: `plans` uses one of `units` and later one of its own more.
FORTRAN_MANY = {
    "CMakeLists.txt": "cmake_minimum_required(VERSION 3.20)\nproject(tried LANGUAGES Fortran)\nadd_library(units length.f90 weight.f90)\n"
    "add_library(plans early.f90 late.f90)\ntarget_link_libraries(plans units)\nadd_executable(app main.f90)\n"
    "target_link_libraries(app plans)\n",
    "length.f90": "module length\n  integer, parameter :: metre = 2\nend module\n",
    "weight.f90": "module weight\n  use length\n  integer, parameter :: gram = 3 * metre\nend module\n",
    "early.f90": "module early\n  use weight\n  integer, parameter :: first = gram\nend module\n",
    "late.f90": "module late\n  integer, parameter :: second = 1\nend module\n",
    "main.f90": "program main\n  use early\n  use late\n  print '(a,i0)', 'sum ', first + second + 35\nend program\n",
}

WHOLE = CMAKE_MADE + CMAKE_LIBRARIES + CMAKE_MAIN
CMAKES = [
    cmake("cmake", WHOLE + CMAKE_TESTS, files={
        **SOURCES, "make_header": MAKE_HEADER, "version.h.in": "#define VERSION @CMAKE_VERSION@\n", "CMakeLists.txt": CMAKE_HEAD + WHOLE + CMAKE_TESTS},
          edits=[("a source", "part1.cc"), ("a header", "parts.h"), ("what makes a header", "number.txt"), ("what a source is made of", "part2.cc")],
          targets=("test", "help", "clean", "module", "app"), terminal=True),
    cmake("cmake-unity", WHOLE, "-DCMAKE_UNITY_BUILD=ON"),
    cmake("cmake-responses", WHOLE, "-DCMAKE_NINJA_FORCE_RESPONSE_FILE=ON"),
    cmake("cmake-precompiled", WHOLE + "target_precompile_headers(some PRIVATE <vector> parts.h)\n"),
    cmake("cmake-terminal", WHOLE + CMAKE_TERMINAL, rests=False, terminal=True),
    cmake("cmake-configurations", WHOLE, prepares=[["cmake", "-G", "Ninja Multi-Config", "-S", ".", "-B", "build"]],
          words=("-f", "build-Release.ninja"), deleted=("build/Release/app",), runs=("build/Release/app",)),
    cmake("cmake-folders", "", files=CMAKE_MANY, edits=[("a source", "lib3/lib3.cc"), ("the lowest header", "lib1/include/lib1.h")], tells="sum 12"),
    cmake("cmake-again", WHOLE, regenerates=("CMakeLists.txt", "add_executable(app", "add_compile_definitions(AGAIN)\nadd_executable(app")),
    cmake("cmake-fortran", "", wants=("cmake", "gfortran"), files=FORTRAN, edits=[("a module", "units.f90"), ("a program", "main.f90")]),
    cmake("cmake-fortran-modules", "", wants=("cmake", "gfortran"), files=FORTRAN_MANY, edits=[
        ("a module is used more", "late.f90", "module late\n", "module late\n  use early, only: first\n"), ("the lowest module", "length.f90"),
        ("a module is used no more", "late.f90", "  use early, only: first\n", ""),
        ("a module is another", "weight.f90", "end module\n", "end module\nmodule kilos\n  integer, parameter :: kilo = 1000\nend module\n"),
        ("it is used", "early.f90", "  use weight\n", "  use weight\n  use kilos\n"), ("a program", "main.f90")]),
]

MESON_HEAD = "project('tried', 'c', 'cpp', version: '1.2', default_options: ['buildtype=debug'])\n"
MESON_MADE = """\
maker = find_program('make_header')
made = custom_target('made', input: 'number.txt', output: 'made.h', command: [maker, '@INPUT@', '@OUTPUT@'])
"""
MESON_REST = f"""\
some = static_library('some', {', '.join(repr(it) for it in list(UNITS)[:3])})
others = shared_library('others', {', '.join(repr(it) for it in list(UNITS)[3:])}, version: '1.2.3')
app = executable('app', 'main.cc', made, link_with: [some, others])
"""
MESON_TESTS = """\
test('app', app)
config = configuration_data()
config.set('VERSION', meson.project_version())
configure_file(input: 'version.h.in', output: 'version.h', configuration: config)
lister = find_program('list_headers')
listed = custom_target('listed', input: 'part0.cc', output: 'listed.txt', depfile: 'listed.d', build_by_default: true,
  command: [lister, '@INPUT@', '@OUTPUT@', '@DEPFILE@'])
copier = generator(find_program('copy_source'), output: '@BASENAME@_copied.cc', arguments: ['@INPUT@', '@OUTPUT@'])
executable('copied', copier.process('alone.cc'))
both_libraries('both', 'alone.cc')
"""
MESON_FILES = {
    **SOURCES,
    "make_header": MAKE_HEADER,
    "version.h.in": "#define VERSION @VERSION@\n",
    "list_headers": '#!/bin/sh\necho "$2: $1 $(dirname "$1")/parts.h" > "$3"\necho listed > "$2"\n',
    "copy_source": '#!/bin/sh\ncat "$1" > "$2"\n',
    "alone.cc": "int main() { return 0; }\n",
}


def meson(name, text, *flags, **how):
    known = {
        "wants": ("meson",),
        "files": {**MESON_FILES, "meson.build": MESON_HEAD + text},
        "prepares": [["meson", "setup", *flags, "build"]],
        "edits": [("a source", "part1.cc"), ("a header", "parts.h"), ("what makes a header", "number.txt")],
        "deleted": ("build/app",),
        "runs": ("build/app",),
        "tells": "sum 42",
    }
    return Project(name, **{**known, **how})


MESON_FORTRAN = {
    **{it: FORTRAN[it] for it in ("units.f90", "main.f90")},
    "meson.build": "project('tried', 'fortran')\nunits = static_library('units', 'units.f90')\nexecutable('app', 'main.f90', link_with: units)\n",
}
MESONS = [
    meson("meson", MESON_MADE + MESON_REST + MESON_TESTS, targets=("test", "clean", "app", "listed.txt"), terminal=True),
    meson("meson-unity", MESON_MADE + MESON_REST, "--unity", "on"),
    meson("meson-again", MESON_MADE + MESON_REST, regenerates=("meson.build", "some = static", "add_project_arguments('-DAGAIN', language: 'cpp')\nsome = static")),
    meson("meson-optimized", MESON_MADE + MESON_REST, "--buildtype", "release", "-Db_lto=true", "-Dcpp_args=-frandom-seed=1"),
    meson("meson-fortran", "", wants=("meson", "gfortran"), files=MESON_FORTRAN, edits=[
        ("a module offers more", "units.f90", "contains\n", "  integer, parameter :: more = 1\ncontains\n"), ("a program", "main.f90")]),
    # gfortran leaves a module file as it was where its text would be the same, and Meson's edges have no restat: from then on it is
    # older than its source, and both tools run that command in each build.
    meson("meson-fortran-touched", "", wants=("meson", "gfortran"), files=MESON_FORTRAN, edits=[("a module", "units.f90"), ("a program", "main.f90")],
          rests=False),
]

GN_TOOLCHAIN = """\
toolchain("here") {
  tool("cxx") {
    depfile = "{{output}}.d"
    command = "c++ -MMD -MF $depfile {{defines}} {{include_dirs}} {{cflags}} {{cflags_cc}} -c {{source}} -o {{output}}"
    depsformat = "gcc"
    description = "CXX {{output}}"
    outputs = [ "{{source_out_dir}}/{{target_output_name}}.{{source_name_part}}.o" ]
  }
  tool("alink") {
    rspfile = "{{output}}.rsp"
    rspfile_content = "{{inputs}}"
    command = "rm -f {{output}} && ar rcs {{output}} @$rspfile"
    description = "AR {{output}}"
    outputs = [ "{{target_out_dir}}/{{target_output_name}}{{output_extension}}" ]
    default_output_extension = ".a"
    output_prefix = "lib"
  }
  tool("solink") {
    library = "{{root_out_dir}}/{{target_output_name}}.so"
    table = "$library.TOC"
    rspfile = "$library.rsp"
    rspfile_content = "{{inputs}}"
    command = "c++ -shared -o $library {{ldflags}} @$rspfile && nm -D --defined-only $library | cut -c20- > $table.new && if ! cmp -s $table.new $table; then mv $table.new $table; else rm $table.new; fi"
    restat = true
    description = "SOLINK $library"
    outputs = [ library, table ]
    link_output = library
    depend_output = table
    output_prefix = "lib"
  }
  tool("link") {
    program = "{{root_out_dir}}/{{target_output_name}}"
    rspfile = "$program.rsp"
    rspfile_content = "{{inputs}}"
    command = "c++ -o $program {{ldflags}} -Wl,--start-group @$rspfile {{solibs}} -Wl,--end-group {{libs}} -Wl,-rpath,."
    description = "LINK $program"
    pool = ":one"
    outputs = [ program ]
  }
  tool("stamp") {
    command = "touch {{output}}"
    description = "STAMP {{output}}"
  }
  tool("copy") {
    command = "cp -f {{source}} {{output}}"
    description = "COPY {{source}}"
  }
}
pool("one") {
  depth = 1
}
"""
GN_BUILD = f"""\
action("made") {{
  script = "make_header.py"
  sources = [ "number.txt" ]
  outputs = [ "$target_gen_dir/made.h" ]
  depfile = "$target_gen_dir/made.d"
  args = rebase_path(sources, root_build_dir) + rebase_path(outputs, root_build_dir) + [ rebase_path(depfile, root_build_dir) ]
}}
source_set("set") {{ sources = [ "part0.cc", "parts.h" ] }}
static_library("some") {{ sources = [ {', '.join(f'"{it}"' for it in list(UNITS)[1:3])} ] }}
shared_library("others") {{ sources = [ {', '.join(f'"{it}"' for it in list(UNITS)[3:])} ] }}
executable("app") {{
  sources = [ "main.cc" ]
  include_dirs = [ target_gen_dir ]
  deps = [ ":made", ":set", ":some", ":others" ]
}}
copy("texts") {{
  sources = [ "number.txt" ]
  outputs = [ "$root_out_dir/copied/{{{{source_file_part}}}}" ]
}}
action_foreach("each") {{
  script = "copy_source.py"
  sources = [ "part0.cc", "part1.cc" ]
  outputs = [ "$target_gen_dir/{{{{source_name_part}}}}.txt" ]
  args = [ "{{{{source}}}}", rebase_path(target_gen_dir, root_build_dir) + "/{{{{source_name_part}}}}.txt" ]
}}
group("default") {{ deps = [ ":app", ":texts", ":each" ] }}
"""
GN_FILES = {
    **SOURCES,
    ".gn": 'buildconfig = "//BUILDCONFIG.gn"\nscript_executable = "python3"\n',
    "BUILDCONFIG.gn": 'set_default_toolchain("//toolchain:here")\nset_defaults("shared_library") { cflags = [ "-fPIC" ] }\n',
    "toolchain/BUILD.gn": GN_TOOLCHAIN,
    "BUILD.gn": GN_BUILD,
    "make_header.py": "import sys\nsource, header, dep = sys.argv[1:]\nnumber = open(source).read().strip()\n"
    "open(header, 'w').write(f'#define MADE {number}\\n')\nopen(dep, 'w').write(f'{header}: {source}\\n')\n",
    "copy_source.py": "import sys\nopen(sys.argv[2], 'w').write(open(sys.argv[1]).read())\n",
}


def gn(name, **how):
    known = {
        "wants": ("gn",),
        "files": GN_FILES,
        "prepares": [["gn", "gen", "build"]],
        "edits": [("a source", "part1.cc"), ("a header", "parts.h"), ("what makes a header", "number.txt"), ("a source of a shared library", "part4.cc")],
        "deleted": ("build/app", "build/libothers.so.TOC"),
        "runs": ("sh", "-c", "cd build && ./app"),
        "tells": "sum 42",
    }
    return Project(name, **{**known, **how})


GNS = [
    gn("gn"),
    gn("gn-again", regenerates=("BUILD.gn", 'sources = [ "main.cc" ]', 'sources = [ "main.cc" ]\n  defines = [ "AGAIN" ]')),
]

ALL = CMAKES + MESONS + GNS

# ---- many modules: 30 libraries of ten, and a program. Generators make a dyndep file for each of these, by which commands wait for modules.

LIBRARIES, MODULES = 30, 10


def used(library, module):
    """The modules that one uses: the one before it, one of the library before, and one of a library far below."""
    found = [(library, module - 1)] if module % 4 else []
    if library and module % 3 == 0:
        found.append((library - 1, MODULES - 1 - module))
    if library > 1 and module % 5 == 0:
        found.append((library // 2, module))
    return sorted(set(found))


def value(library, module, base):
    """The constant of a module, where that of the first is `base`."""
    known = {}
    for it in range(LIBRARIES):
        for one in range(MODULES):
            known[it, one] = base if it == one == 0 else (it + one + sum(known[other] for other in used(it, one))) % 1000
    return known[library, module]


def module_text(library, module):
    name = f"{library:02}_{module:02}"
    uses = [f"{it:02}_{one:02}" for it, one in used(library, module)]
    total = " + ".join([str(library + module), *(f"v{it}" for it in uses)]) if library or module else "1"
    return (f"module m{name}\n" + "".join(f"  use m{it}, only: v{it}\n" for it in uses)
            + f"  implicit none\n  private\n  integer, parameter, public :: v{name} = mod({total}, 1000)\n  public :: f{name}\ncontains\n"
            + f"  integer function f{name}(n)\n    integer, intent(in) :: n\n    f{name} = n + v{name}\n  end function\nend module\n")


def many_modules():
    files = {f"lib{it:02}/m{it:02}_{one:02}.f90": module_text(it, one) for it in range(LIBRARIES) for one in range(MODULES)}
    lines = ["cmake_minimum_required(VERSION 3.20)", "project(tried LANGUAGES Fortran)"]
    for it in range(LIBRARIES):
        lines.append(f"add_library(lib{it:02} {' '.join(f'lib{it:02}/m{it:02}_{one:02}.f90' for one in range(MODULES))})")
        if it:
            lines.append(f"target_link_libraries(lib{it:02} {' '.join(f'lib{low:02}' for low in sorted({it - 1, it // 2}))})")
    last = f"{LIBRARIES - 1:02}_{MODULES - 1:02}"
    lines += ["add_executable(app main.f90)", f"target_link_libraries(app lib{LIBRARIES - 1:02})"]
    files["main.f90"] = f"program main\n  use m{last}\n  print '(a,i0)', 'sum ', f{last}(0)\nend program\n"
    return {**files, "CMakeLists.txt": "\n".join(lines) + "\n"}


MANY = [
    cmake("cmake-fortran-300", "", wants=("cmake", "gfortran"), files=many_modules(), edits=[
        ("a module", "lib15/m15_04.f90"), ("a module offers more", "lib15/m15_04.f90", "  private\n", "  private\n  integer, parameter, public :: more = 1\n"),
        ("a module is used more", "lib20/m20_07.f90", "  implicit none\n", "  use m10_03, only: v10_03\n  implicit none\n"),
        ("the lowest module is another", "lib00/m00_00.f90", "mod(1, 1000)", "mod(2, 1000)"), ("a program", "main.f90")],
          tells=f"sum {value(LIBRARIES - 1, MODULES - 1, 2)}"),
]
