"""The stand-in beside real ninja: words, answers of tools, what is removed, and what would run. Generators that call it: scenarios.py."""

import collections
import contextlib
import json
import os
import re
import shutil
import subprocess
import time

import answered
import projects
from generators import NOTES, fill_of
from ground import MARK, differences, files_of, in_short, only_in, replace, touch, write

# How many targets and paths of a tree are asked for.
MOST_ASKED = 12

# What differs between two runs of a generator, and what tools of the stand-in keep. A database of commands is compared as JSON.
PASSED_OVER = re.compile(NOTES.pattern + r"|(^|/)(\.ninja_(log|deps|lock)|cmake\.check_cache|install_manifest.txt|meson-private/.*|compile_commands\.json|CMakeDetermineCompilerABI_\w+\.bin)$")

# How long one call may take, in seconds.
LONGEST = 900

Told = collections.namedtuple("Told", "status out err commands")


class Twice:
    """A tree in two copies, worked on at one path in turn, with one program for each at one path."""

    PROGRAMS = ("nj", "ninja")

    def __init__(self, place, name, fill):
        self.place, self.name = place, name
        self.around = place.tree(name)
        self.home = os.path.join(self.around, "here")
        self.bin = os.path.join(self.around, "bin")
        os.makedirs(self.home)
        os.makedirs(self.bin)
        fill(self.home)
        shutil.copytree(self.home, self.copy_of("ninja"), symlinks=True)
        os.rename(self.home, self.copy_of("nj"))

    def copy_of(self, program):
        return os.path.join(self.around, f"{program}-copy")

    @contextlib.contextmanager
    def at_home(self, program):
        there = os.path.join(self.bin, "ninja")
        with contextlib.suppress(FileNotFoundError):
            os.remove(there)
        os.symlink(self.place.stand_in if program == "nj" else self.place.ninja, there)
        os.rename(self.copy_of(program), self.home)
        try:
            yield self.home
        finally:
            os.rename(self.home, self.copy_of(program))

    def both(self, words, **how):
        """What the words come to in each copy."""
        return [self.one(program, words, **how) for program in self.PROGRAMS]

    def one(self, program, words, heading=None, apart=False):
        with self.at_home(program) as folder:
            return call([it.replace("@ninja", os.path.join(self.bin, "ninja")) for it in words], folder, self.bin, heading, apart)

    def edit(self, change):
        """Does the same to both copies, some milliseconds after what was done before."""
        time.sleep(0.02)
        for program in self.PROGRAMS:
            with self.at_home(program) as folder:
                change(folder)

    def keep(self):
        """Keeps both copies as they are, with their stamps."""
        for program in self.PROGRAMS:
            shutil.copytree(self.copy_of(program), self.copy_of(program) + ".kept", symlinks=True)

    def give_back(self):
        """Makes both copies what was kept."""
        for program in self.PROGRAMS:
            shutil.rmtree(self.copy_of(program))
            shutil.copytree(self.copy_of(program) + ".kept", self.copy_of(program), symlinks=True)

    def same_files(self, where, kept=()):
        """Both copies have the same files; but the stand-in may have left some."""
        files = [files_of(self.copy_of(program), PASSED_OVER) for program in self.PROGRAMS]
        told = [it for it in differences(*files, ("stand-in", "ninja")) if it not in [f"{path} only by stand-in" for path in kept]]
        self.place.expect(not told, where, f"files: {in_short(told)}")

    def same_commands(self, where):
        """compile_commands.json, where there is one, has as many entries as with ninja, and the same."""
        paths = [os.path.join(self.copy_of(program), "build/compile_commands.json") for program in self.PROGRAMS]
        if any(os.path.exists(it) for it in paths):
            held = [json.loads(answered.read(it)) for it in paths]
            self.place.expect(held[0] == held[1], where, f"compile_commands.json: {len(held[0])} entries, and by ninja {len(held[1])}")


def call(words, folder, before, heading=None, apart=False):
    """Runs the words, with a folder in front of all others that are looked for programs. Of marked lines the commands are taken."""
    env = {**os.environ, "PATH": before + ":" + os.environ["PATH"], "NINJA": os.path.join(before, "ninja")}
    env.pop("NINJA_STATUS", None)
    if heading is not None:
        env["NINJA_STATUS"] = heading
    err = subprocess.PIPE if apart else subprocess.STDOUT
    done = subprocess.run(words, cwd=folder, env=env, stdin=subprocess.DEVNULL, stdout=subprocess.PIPE, stderr=err, timeout=LONGEST)
    out = done.stdout.decode("utf-8", "replace")
    commands = sorted(it[len(MARK):] for it in out.split("\n") if it.startswith(MARK))
    return Told(done.returncode, out, (done.stderr or b"").decode("utf-8", "replace"), commands)


def chosen(place):
    for project in projects.ALL:
        if place.only in project.name and not place.lacks(project.name, *project.wants):
            yield project


def over_trees(place, one):
    """The same of each tree that is chosen."""
    for project in chosen(place):
        try:
            one(place, project)
        except (RuntimeError, OSError, ValueError, subprocess.TimeoutExpired) as error:
            place.wrong(project.name, f"{type(error).__name__}: {error}")


def front_of(project):
    return ["@ninja", "-C", project.build, *project.words]


# ---- words

WORDS = [
    ["--version"], ["-h"], ["--help"], ["-t", "list"], ["-d", "list"], ["-w", "list"], ["-w", "foo"], ["-w", "dupbuild=er"], ["-d", "foo"],
    ["-d", "stat"], ["-t", "foo"], ["-t", "targts"], ["-q"], ["--foo"], ["-j", "x"], ["-j", "-1"], ["-k", "x"], ["-l", "x"], ["-j"], ["-C"],
    ["-C", "absent"], ["-f", "absent"], ["nothing"], ["ap"], ["clean"], ["help"], [""], [], ["app"], ["-v", "app"], ["--verbose", "app"],
    ["--quiet", "app"], ["-v", "--quiet", "app"], ["--quiet", "-v", "app"], ["app", "-j2"], ["-vj2", "app"], ["-j0", "app"], ["-l", "0.5", "app"],
    ["-l0", "app"], ["-w", "phonycycle=err", "app"], ["-d", "keeprsp", "app"], ["-d", "stats", "app"], ["-k0", "bad"], ["bad"], ["--quiet", "bad"],
    ["-v", "bad"], ["-k2", "bad", "bad2"], ["-k", "0", "bad", "bad2", "app"], ["-k", "-3", "bad", "bad2"], ["-C", "."], ["-C.", "app"],
    ["-C", ".", "--quiet", "app"], ["-f", "build.ninja", "app"], ["-f", "other.ninja"], ["./app"], ["x/../app"], ["app", "app"], ["in.txt"], ["in.txt^"],
    ["mid^"], ["app^"], ["nothing^"], ["-t", "clean", "-q"], ["-t", "clean", "-h"], ["-t", "commands", "-h"], ["-t", "inputs", "-h"], ["-t", "compdb", "-h"],
    ["-t", "compdb", "-q"], ["-t", "restat"], ["-t", "restat", "-h"], ["-t", "restat", "app"], ["-t", "restat", "nothing"], ["-t", "recompact"],
    ["-t", "rules", "-h"], ["-t", "rules"], ["-t", "rules", "-d"], ["-t", "query"], ["-t", "query", "nothing"], ["-t", "query", "in.txt"],
    ["-t", "query", "app^"], ["-t", "targets", "foo"], ["-t", "targets", "al"], ["-t", "targets", "depth", "0"], ["-t", "targets", "depth", "x"],
    ["-t", "clean", "-r"], ["-t", "clean", "-r", "nothing"], ["-t", "clean", "nothing"], ["-t", "commands", "nothing"], ["-t", "commands", "in.txt"],
    ["-t", "inputs", ""], ["-t", "inputs", "in.txt^"], ["-t", "targets", "rule", "nothing"], ["--", "app"], ["app", "-t", "query"],
    ["-C", ".", "-t", "query", "app"], ["-t", "deps", "app"], ["-t", "deps", "nothing"], ["-t", "deps"], ["-t", "missingdeps"], ["-t", "missingdeps", "app"],
    ["-t", "graph"], ["-t", "graph", "nothing"], ["-t", "cleandead"], ["-t", "clean"], ["-n", "-t", "clean"], ["-v", "-t", "clean"],
    ["--quiet", "-t", "clean"], ["-t", "clean", "app"], ["-t", "clean", "all"], ["-t", "browse"], ["-t", "msvc"], ["-t"], ["-f", "broken.ninja"],
    ["-f", "broken.ninja", "-t", "targets"], ["-f", "broken.ninja", "-t", "restat"], ["-f", "circle.ninja", "one"], ["-f", "circle.ninja", "-t", "targets"],
    ["-f", "absent.ninja", "-t", "targets"], ["-f", "absent.ninja", "-t", "recompact"], ["lost"], ["-k0", "lost", "app"],
]

SMALL = {
    "in.txt": "text\n",
    "build.ninja": "rule copy\n  command = cp $in $out\n  description = COPY $out\nrule fail\n  command = echo printed; false\n"
    "build mid: copy in.txt\nbuild app: copy mid\nbuild bad: fail\nbuild bad2: fail\nbuild lost: copy lost.in\nbuild all: phony app\ndefault app\n",
    "other.ninja": "rule copy\n  command = cp $in $out; echo one; echo two\nbuild other: copy in.txt\n",
    "broken.ninja": "rule copy\n  command = cp $in $out\nbuild app: cpy in.txt\n",
    "circle.ninja": "rule copy\n  command = cp $in $out\nbuild one: copy two\nbuild two: copy one\n",
}

# What stands in front of lines; times and rates are no two times the same.
HEADINGS = ["[%f/%t] ", "", "%s of %t, %u left: ", "%p%% ", "[%f/%t", "%x ", "%", "\033[1m%f\033[0m ", "[%s/%f/%t/%u] "]
TIMED = [("[%s/%t  %p :: %e] ", r"\[\d/2  +\d+% :: \d+\.\d{3}\] "), ("%e ", r"\d+\.\d{3} "), ("%o ", r"(\d+\.\d|\?) "), ("[%f/%t %o/sec] ", r"\[\d/2 (\d+\.\d|\?)/sec\] "), ("%c ", r"(\d+\.\d|\?) "), ("%r ", r"\d ")]

# Statuses that differ by what docs/USING_IT_AS_NINJA.md says: these tools read no build file.
OTHERWISE = {("-f", "absent.ninja", "-t", "recompact"): 0}

# Words for which a completion is asked, and what is among the answers.
COMPLETED = [("ap", "app"), ("-t missing", "missingdeps"), ("-f other.ninja oth", "other"), ("--qui", "--quiet")]
COMPLETION = os.path.join(os.path.dirname(os.path.realpath(__file__)), "../../crates/ninja/data/ninja.bash")


def words(place):
    """The same words: what is printed, where, and the status. Differences of texts are told and not judged: those of help and of refusals
    differ in part."""
    for number, given in enumerate(WORDS):
        twice = Twice(place, f"words-{number}", answered.fill(SMALL))
        told, wanted = twice.both(["@ninja", *given], apart=True)
        if told.status == OTHERWISE.get(tuple(given)):
            wanted = wanted._replace(status=told.status)
        compare_texts(place, f"words {given}", told, wanted, (twice.bin, place.ninja))
        twice.same_files(f"words {given}")
    for number, heading in enumerate(HEADINGS):
        twice = Twice(place, f"headings-{number}", answered.fill(SMALL))
        told, wanted = twice.both(["@ninja", "app"], heading=heading, apart=True)
        compare_texts(place, f"NINJA_STATUS={heading!r}", told, wanted, (twice.bin, place.ninja))
        place.expect(told.out == wanted.out, f"NINJA_STATUS={heading!r}", f"shows {told.out!r}, and ninja {wanted.out!r}")
    for number, (heading, pattern) in enumerate(TIMED):
        twice = Twice(place, f"timed-{number}", answered.fill(SMALL))
        for who, told in zip(("stand-in", "ninja"), twice.both(["@ninja", "app"], heading=heading)):
            shown = re.fullmatch(f"{pattern}COPY mid\n{pattern}COPY app\n", told.out)
            place.expect(shown, f"NINJA_STATUS={heading!r}", f"{who} shows {told.out!r}")
    completions(place)


def completions(place):
    """Completions of bash, by the targets and tools that the stand-in tells."""
    if place.lacks("completions", "bash"):
        return
    twice = Twice(place, "completions", answered.fill(SMALL))
    for given, wanted in COMPLETED:
        script = f'. {COMPLETION}; COMP_WORDS=(@ninja {given}); COMP_CWORD=$((${{#COMP_WORDS[@]}} - 1)); _ninja; printf "%s\\n" "${{COMPREPLY[@]}}"'
        told = twice.one("nj", ["bash", "-c", script])
        place.step(f"completion of {given}")
        place.expect(wanted in told.out.split(), f"completion of {given}", f"{told.out!r}")


def compare_texts(place, where, told, wanted, own):
    place.step(where)
    place.expect(told.status == wanted.status, where, f"status {told.status}, and by ninja {wanted.status}: {told.out[:300]} {told.err[:300]}")
    for stream, text, other in (("out", told.out, wanted.out), ("err", told.err, wanted.err)):
        text, other = answered.plain(text, own), answered.plain(other, own)
        if text != other:
            print(f"    differs ({stream}): {text[:400]!r}\n           by ninja: {other[:400]!r}")


# ---- answers of tools

def answers(place):
    answered.made_up(place, Twice)
    over_trees(place, one_tree)


def one_tree(place, project):
    twice = Twice(place, f"answers-{project.name}", fill_of(project))
    front = front_of(project)
    told = twice.one("ninja", [*front, "-t", "targets", "all"]).out
    outputs = [line.rsplit(": ", 1) for line in told.splitlines()]
    rules = sorted({rule for _, rule in outputs})
    paths = [path for path, _ in outputs]
    some = paths[:: max(1, len(paths) // MOST_ASKED)]
    number = answered.of_graph(place, twice, project.name, front, rules, some)
    place.step(f"{project.name}: {number} answers of the graph")
    with_logs(place, project, twice, front, paths)


def with_logs(place, project, twice, front, paths):
    """The same of the tools that read logs, once both have built."""
    told, wanted = twice.both(front)
    place.expect(told.status == wanted.status == 0, project.name, f"the build ends with {told.status}, by ninja {wanted.status}: {told.out[-800:]}")
    place.step(f"{project.name}: answers of the logs")
    answered.of_logs(place, twice, project.name, front, paths)


# ---- what is removed

def cleans(place):
    over_trees(place, cleaned)


def cleaned(place, project):
    twice = Twice(place, f"cleans-{project.name}", fill_of(project))
    front = front_of(project)
    twice.both(front)
    twice.keep()
    outputs = [line.rsplit(": ", 1) for line in twice.one("ninja", [*front, "-t", "targets", "all"]).out.splitlines()]
    rules = sorted({rule for _, rule in outputs})
    some = [it for it in rules if it not in ("phony", "gn") and not re.search("RERUN|REGENERATE|CLEAN|HELP|GLOBS", it)][:2]
    other = next(path for path, rule in reversed(outputs) if rule in some)
    target = project.deleted[0].split("/", 1)[1]
    read = os.path.join(project.build, project.words[1] if project.words else "build.ninja")
    for tool in (["clean"], ["cleandead"], ["clean", "-r", *some], ["clean", target], ["clean", other, target], ["clean", "-g", target], ["clean", "-g"]):
        twice.give_back()
        remove(place, twice, f"{project.name} {tool}", [*front, "-t", *tool], kept=(read,) if "-g" in tool else ())
    twice.give_back()
    dead(place, project, twice, front)


def dead(place, project, twice, front):
    """Another name for a target: what was made by the old name is named by no line any more. Meson calls the tool itself, of ninja alone."""
    path = next(it for it in ("CMakeLists.txt", "meson.build", "BUILD.gn") if it in project.files)
    twice.edit(lambda at: write(at, path, re.sub(r"\bapp\b", "other_app", project.files[path])))
    where = f"{project.name} with another name for a target"
    place.step(where)
    told, wanted = twice.both(front)
    place.expect(told.status == wanted.status == 0, where, f"the build ends with {told.status}, by ninja {wanted.status}: {told.out[-800:]}")
    remove(place, twice, where, [*front, "-t", "cleandead"])
    gone = not os.path.exists(os.path.join(twice.copy_of("nj"), project.deleted[0]))
    place.expect(gone, where, f"{project.deleted[0]} is there still")


def remove(place, twice, where, words, kept=()):
    place.step(where)
    told, wanted = twice.both(words)
    loaded = named_by_dyndeps(twice.copy_of("nj"), words) if "cleandead" in words else []
    twice.same_files(where, (*kept, *kept_by(told, words), *loaded))
    place.expect(told.status == wanted.status, where, f"status {told.status}, by ninja {wanted.status}: {told.out[:300]}")
    place.expect("cleandead" in words or "Cleaning... 0 " not in wanted.out, where, "ninja removes nothing")
    if told.out != wanted.out:
        print(f"    differs: {told.out[:200]!r}\n      ninja: {wanted.out[:200]!r}")


def folder_of(words):
    return words[words.index("-C") + 1] if "-C" in words else "."


def named_by_dyndeps(tree, words):
    """What dyndep files of a tree name: ninja's `cleandead` removes it, and the stand-in's keeps it."""
    found = []
    for folder, _, files in os.walk(os.path.join(tree, folder_of(words))):
        for text in (answered.read(os.path.join(folder, it)) for it in files if it.endswith(".dd")):
            for outputs in re.findall(r"^build [^|:]*\|([^:|]*):", text, re.M):
                found += [os.path.normpath(os.path.join(folder_of(words), it)) for it in outputs.split()]
    return found


def kept_by(told, words):
    """The paths that the stand-in says it keeps, which ninja removes."""
    folder = folder_of(words)
    return [os.path.normpath(os.path.join(folder, it)) for it in re.findall(r"^ninja: kept '(.*)', which ", told.out, re.M)]


# ---- what would run

def dry(place):
    """`-n` and `-d explain`: what would run is what ninja says, and has in it all that runs then. Where one is not there, it says so."""
    over_trees(place, would_run)


def would_run(place, project):
    twice = Twice(place, f"dry-{project.name}", fill_of(project))
    front = front_of(project)
    read = project.words[1] if project.words else "build.ninja"
    place.step(f"{project.name}: whether the build file is up to date")
    both = twice.both([*front, "-n", read])
    for who, told in zip(("stand-in", "ninja"), both):
        place.expect(told.status == 0 and "no work to do" in told.out, f"{project.name}: -n {read}", f"{who} answers {told.out[:300]!r}")
    for edit in (None, *project.edits):
        if edit:
            twice.edit(lambda at, it=edit: replace(at, it[1], *it[2:]) if it[2:] else touch(at, it[1]))
        what = f"{project.name}, {edit[0] if edit else 'a first build'}"
        listed = twice.both([*front, "-n", "-v"], heading=MARK)
        if is_not_there(listed[0]):
            place.leave_out(what, "-n is not there yet")
            return
        place.step(f"{what}: what would run")
        # what is below a dyndep file that is yet to be made neither tells, or one of them alone
        is_whole = "more may follow" not in listed[0].out and (edit or "fortran" not in project.name)
        if is_whole:
            same_run(place, f"{what}: -n", listed, project)
        ran = twice.both([*front, "-d", "explain", "-v"], heading=MARK)
        if is_not_there(ran[0]):
            place.leave_out(what, "-d explain is not there yet")
            ran = twice.both([*front, "-v"], heading=MARK)
        else:
            place.expect("explain" in ran[0].out, f"{what}: -d explain", f"nothing is explained: {ran[0].out[-300:]}")
        same_run(place, f"{what}: the build", ran, project)
        if is_whole and not project.terminal:
            missing = only_in(ran[0].commands, listed[0].commands)
            place.expect(not missing, f"{what}: -n", f"has not in it what was run: {in_short(missing)}")


def is_not_there(told):
    return told.status == 1 and re.search(r"is not there yet|is there for targets alone", told.out)


def same_run(place, where, both, project):
    """Both ran the same commands, or would. Where commands get the terminal, ninja does not show each."""
    told, wanted = both
    place.expect(told.status == wanted.status, where, f"status {told.status}, and by ninja {wanted.status}: {told.out[-600:]}")
    answered.same_list(place, where, told.commands, wanted.commands, project.terminal)
