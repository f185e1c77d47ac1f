"""What `nj --audit` tells of trees of CMake and Meson: made ones, and those of Debian's packages. Each line has to be one that is known of such
trees, and why it is so stands beside it here."""

import collections
import glob
import os
import re
import resource
import shutil
import subprocess
import tempfile
import time

import edits
import made_up
import projects

# How long a build may take, in seconds.
LONGEST = 120

END = re.compile(r"nj: audit: (\d+) of (\d+) commands of the cone looked at, (\d+) keep all premises, as far as the trace shows")

# What audits tell of made trees: the start of a tree's name, a pattern of lines, and why it is so.
KNOWN = [
    ("cmake", r".*: takes .*, which build lines name as .*, and as .* \(a path is the only name of its file\), commands: \d+",
     "CMake names what a custom command makes by its path in the folder, and from the root"),
    ("cmake-terminal", r"listed\.txt: writes listed\.d, which is neither its output nor scratch.*",
     "CMake makes another depfile of the one that the command wrote, which stays"),
    ("cmake-terminal", r"CMakeFiles/each_time: did not write CMakeFiles/each_time, .*", "the output of a custom target is a name, and no file"),
    ("cmake-fortran", r".*: reads .*/Fortran(DependInfo|Modules)\.json, which is neither an input nor in its depfile.*",
     "CMake's scanner reads what the generator left for it, and what it left itself for another target"),
    ("cmake-fortran", r".*\.dd: writes .*/FortranModules\.json, which is neither its output nor scratch.*", "this is what it leaves"),
    ("cmake-fortran", r".*\.f90\.o: reads .*\.f90, which is neither an input nor in its depfile.*",
     "gfortran opens the source that the lines of a preprocessed one name"),
    ("meson-fortran", r".*\.o: reads .*\.mod, which is neither an input nor in its depfile.*",
     "Meson's dyndep file names no module of another target as an input"),
    ("meson", r"app: reads .*\.(o|obj), which is neither an input nor in its depfile.*", "a thin archive has the names of objects, and the linker reads these"),
    ("meson", r"app: reads libothers\.so\.1\.2\.3, .*", "Meson links anew where the symbols of a shared library are others, not where the library is"),
    ("gn", r"app: reads libothers\.so, which is neither an input nor in its depfile.*",
     "GN links anew where the symbols of a shared library are others, not where the library is"),
    ("jsoncpp", r".*: takes .*, which build lines name as .*, and as .* \(a path is the only name of its file\), commands: \d+",
     "CMake declares each of the three names of a shared library by a build line"),
    ("jsoncpp", r"bin/jsoncpp_test: reads lib/libjsoncpp\.so\.\d+, which is neither an input nor in its depfile.*",
     "the test is run by the command that links it, and the loader reads the library, by a name that this edge does not have"),
    ("fribidi", r".*: reads /\S*/python3[.\d]*, which is neither an input nor in its depfile.*",
     "an interpreter runs these commands, which a build line of another one names"),
    ("fribidi", r"\S+: reads lib/libfribidi\.so\.\d[.\d]*, which is neither an input nor in its depfile.*",
     "Meson links anew where the symbols of a shared library are others, not where the library is"),
    ("meson-fortran", r".*depscan\.dd: reads .*, which is neither an input nor in its depfile.*",
     "`meson --internal depscan` reads a list, and each source in it"),
]


# A tree of Debian's: its name, its archive or the folder where a package puts it, how it is made ready, and what that needs. Beside it stand the
# names that made trees have.
Source = collections.namedtuple("Source", "name archive prepares wants build words", defaults=("build", ()))

PACKAGES = ("libjsoncpp-dev", "libfribidi-dev")

SOURCES = [
    Source("jsoncpp", "libjsoncpp_*.orig.tar.*", [["cmake", "-G", "Ninja", "-B", "build"]], ("cmake", "g++")),
    Source("fribidi", "fribidi_*.orig.tar.*", [["meson", "setup", "build"]], ("meson", "gcc")),
    Source("googletest", "/usr/src/googletest", [["cmake", "-G", "Ninja", "-B", "build"]], ("cmake", "g++")),
]


def filled(project, folder):
    """Puts the files of a project into a folder."""
    if isinstance(project, Source) and os.path.isdir(project.archive):
        shutil.copytree(project.archive, folder, symlinks=True)
        return
    if isinstance(project, Source):
        os.makedirs(folder)
        subprocess.run(["tar", "-xf", project.archive, "--strip-components=1", "-C", folder], check=True)
        return
    for name, text in project.files.items():
        path = os.path.join(folder, name)
        os.makedirs(os.path.dirname(path), exist_ok=True)
        with open(path, "w", encoding="utf-8") as it:
            it.write(text)
        if text.startswith("#!"):
            os.chmod(path, 0o755)


def prepared(project, folder):
    """Makes a project ready; whether it could be."""
    filled(project, folder)
    return all(subprocess.run(words, cwd=folder, stdin=subprocess.DEVNULL, stdout=subprocess.DEVNULL, stderr=subprocess.DEVNULL, check=False).returncode == 0
               for words in project.prepares)


# What a build printed, how many seconds it took, and how many of a processor with all that it started.
Timed = collections.namedtuple("Timed", "text wall busy")


def timed(nj, project, folder, *words):
    """What nj does with the project. No cache answers in the place of a compiler."""
    before, begun = resource.getrusage(resource.RUSAGE_CHILDREN), time.monotonic()
    done = subprocess.run([nj, "-C", project.build, *project.words, "-k0", *words], cwd=folder, env={**os.environ, "CCACHE_DISABLE": "1"},
                          stdin=subprocess.DEVNULL, stdout=subprocess.PIPE, stderr=subprocess.STDOUT, text=True, timeout=LONGEST, check=False)
    after = resource.getrusage(resource.RUSAGE_CHILDREN)
    return Timed(done.stdout, time.monotonic() - begun, after.ru_utime + after.ru_stime - before.ru_utime - before.ru_stime)


def why_known(project, line):
    """Why a line is known of such a tree, if it is."""
    return next((why for name, pattern, why in KNOWN if project.name.startswith(name) and re.fullmatch(pattern, line)), None)


def wrong_in_tree(nj, project, is_listed=False):
    """What is wrong with a tree: lines that are not known, and commands that were not looked at."""
    with tempfile.TemporaryDirectory() as place:
        place = os.path.realpath(place)
        folders = [os.path.join(place, name) for name in ("built", "audited")]
        if not all(prepared(project, folder) for folder in folders):
            yield "could not be made ready"
            return
        plain = timed(nj, project, folders[0])
        traced = timed(nj, project, folders[1], "--audit")
    end = next((end for end in map(END.fullmatch, traced.text.splitlines()) if end), None)
    if not end:
        yield f"no last line: {traced.text!r}"
        return
    told = [line for line in traced.text.splitlines() if re.match(r"\S+: (reads|lists|writes|sets the stamp of|removes|did not write|takes|its trace)", line)]
    for line in told:
        why = why_known(project, line)
        if not why:
            yield f"not known: {line}"
        elif is_listed:
            print(f"    {line.replace(place, '')}\n        {why}")
    if end.group(1) != end.group(2):
        yield f"looked at {end.group(1)} of {end.group(2)}"
    print(f"{project.name}: {end.group(1)} commands, {end.group(3)} keep all premises, {len(told)} lines; built in {plain.wall:.1f} s, "
          f"audited in {traced.wall:.1f} s ({traced.wall / plain.wall:.2f}); processor {plain.busy:.1f} s, {traced.busy:.1f} s "
          f"({traced.busy / plain.busy:.2f})", flush=True)


# How many trees are made up, whose commands keep all premises.
KEEPING = 30


def wrong_in_kept(nj, name, fill):
    """What is wrong with the audit of a tree whose commands keep all premises."""
    with tempfile.TemporaryDirectory() as folder:
        folder = os.path.realpath(folder)
        fill(folder)
        done = subprocess.run([nj, "--audit"], cwd=folder, stdin=subprocess.DEVNULL, stdout=subprocess.PIPE, stderr=subprocess.STDOUT, text=True,
                              timeout=LONGEST, check=False)
    end = END.fullmatch(done.stdout.splitlines()[-1])
    if not end or len(set(end.groups())) != 1 or done.returncode:
        yield f"{name}, whose commands keep all premises: status {done.returncode}: {done.stdout}"


def kept():
    """Trees whose commands keep all premises: their names, and what fills a folder with them."""
    return [("edits", edits.fill), *((f"made-up-{number}", made_up.Graph(number).write_all) for number in range(KEEPING))]


def fetched(folder):
    """Whether apt-get puts the archives of Debian's trees into a folder, by the lists of sources that are there."""
    done = subprocess.run(["apt-get", "source", "--download-only", *PACKAGES], cwd=folder, stdin=subprocess.DEVNULL, stdout=subprocess.PIPE,
                          stderr=subprocess.STDOUT, text=True, timeout=LONGEST, check=False)
    if done.returncode:
        print(f"apt-get source {' '.join(PACKAGES)}: {done.stdout.strip().splitlines()[-1:]}")
    return done.returncode == 0


def sources_in(folder):
    """Debian's trees whose archives stand in a folder, and those that packages have put in a place of their own."""
    for source in SOURCES:
        found = sorted(glob.glob(os.path.join(os.path.realpath(folder), source.archive)))
        if found:
            yield source._replace(archive=found[-1])
        else:
            print(f"{source.name}: left out, there is no {source.archive}" + ("" if source.archive.startswith("/") else f" in {folder}"))


def run(place):
    """The part of bench/real."""
    for name, fill in () if place.lacks("audits", "strace", "c++", "ar") else kept():
        place.step(f"an audit of {name}")
        for wrong in wrong_in_kept(place.nj, name, fill):
            place.wrong(f"an audit of {name}", wrong)
    for project in (*projects.ALL, *sources_in(place.sources or place.folder)):
        if place.lacks(f"an audit of {project.name}", "strace", *project.wants):
            continue
        place.step(f"an audit of {project.name}")
        for wrong in wrong_in_tree(place.nj, project):
            place.wrong(f"an audit of {project.name}", wrong)
