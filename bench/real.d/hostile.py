"""Builds on hostile ground: each ends by a named refusal or is right, loses nothing, and the next one is right."""

import contextlib
import os
import re
import resource
import shutil
import subprocess
import time

import ground
import own
from ground import Pair, in_short, is_idle, run as run_build, touch, write

CAT = "rule cat\n  command = cat $in > $out\n"
NOBODY = 65534

# How a build tells that it was refused, or that commands failed.
NAMED = re.compile(r"^nj: (error: N\d+: .*|build stopped, failed commands: \d+)$", re.M)

# How it is told that three processes are waited for, which commands left behind.
BEHIND = re.compile(r"^nj: waiting for what a command left behind \(process \d+ and 2 more\): ending them lets this build go on$", re.M)


class Case:
    """A folder in which outputs are copies of sources, and builds in it."""

    def __init__(self, place, name, folder=None):
        self.place = place
        self.where = f"hostile, {name}"
        place.step(self.where)
        self.folder = folder or place.tree("hostile-" + re.sub(r"\W+", "-", name))
        self.wanted = {}

    def fan(self, count, rule=CAT, text="text"):
        """A source and an output for each number, and what the outputs are to hold."""
        lines = rule
        for n in range(count):
            lines += f"build out/o{n}: cat in/s{n}\n"
            self.put(n, f"{text} {n}\n")
        write(self.folder, "build.ninja", lines)

    def put(self, number, text):
        write(self.folder, f"in/s{number}", text)
        self.wanted[f"out/o{number}"] = text

    def build(self, *words, before=(), env=None, limit=600, **how):
        """A build; `how` may name a user or what is done in the child."""
        return run_as([*before, self.place.nj, "-v", *words], self.folder, env, limit, how)

    def is_named(self, ran, what):
        """A build that went wrong says by a number why, or that commands failed; one that went well is right."""
        if ran.status == 0:
            return self.is_right(ran, what)
        holds = ran.status == 1 and NAMED.search(ran.text)
        return self.place.expect(holds, self.where, f"{what}: status {ran.status}: {ran.text[-600:]}")

    def is_right(self, ran, what):
        if not self.place.expect(ran.status == 0, self.where, f"{what}: status {ran.status}: {ran.text[-600:]}"):
            return False
        told = []
        for path, text in self.wanted.items():
            full = os.path.join(self.folder, path)
            if not os.path.exists(full) or ground.read(self.folder, path) != text:
                told.append(path)
        return self.place.expect(not told, self.where, f"{what}: wrong outputs: {in_short(told)}")

    def rests(self, what="a build behind that", **how):
        ran = self.build(**how)
        return self.place.expect(is_idle(ran), self.where, f"{what} has something to do: {ran.text[-600:]}")


def run_as(words, folder, env, limit, how):
    """Runs a build in a child that has been prepared by `how`."""
    if not how:
        return run_build(words, folder, env, limit)
    done = subprocess.run(
        words, cwd=folder, env={**os.environ, **(env or {})}, stdin=subprocess.DEVNULL, stdout=subprocess.PIPE,
        stderr=subprocess.STDOUT, timeout=limit, **how,
    )
    text = done.stdout.decode("utf-8", "replace")
    shown = sorted(it[len(ground.MARK):] for it in text.split("\n") if it.startswith(ground.MARK))
    return ground.Ran(done.returncode, shown, text)


def limited(**limits):
    """What a child does to have such limits."""

    def set_limits():
        for name, value in limits.items():
            resource.setrlimit(getattr(resource, f"RLIMIT_{name}"), (value, value))

    return {"preexec_fn": set_limits}


def as_nobody():
    """Whoever runs as root tries as another, since root may write everywhere."""
    return {"user": NOBODY, "group": NOBODY, "extra_groups": []} if os.geteuid() == 0 else {}


@contextlib.contextmanager
def mounted(place, name, *words):
    """A folder with a file system of its own, or nothing where this machine does not let one be mounted."""
    folder = place.tree("mounted-" + name)
    done = subprocess.run(["mount", *words, folder], stdout=subprocess.PIPE, stderr=subprocess.STDOUT, check=False)
    if done.returncode:
        yield None
        return
    try:
        yield folder
    finally:
        subprocess.run(["umount", folder], check=False)


def full_disk(place):
    with mounted(place, "tmpfs", "-t", "tmpfs", "-o", "size=1m", "tmpfs") as folder:
        if not folder:
            place.leave_out("a full disk", "no tmpfs can be mounted here")
            return
        case = Case(place, "a full disk", os.path.join(folder, "tree"))
        case.fan(20, text="a long text " * 1000)
        kinds = set()
        for left in [*range(0, 17), 24, 40, 60, 100, 150, 200]:
            fill_up(folder, left * 4096)
            ran = case.build()
            case.is_named(ran, f"{left * 4} KB are left")
            kinds.add(" ".join(NAMED.findall(ran.text)) or "right")
            os.remove(os.path.join(folder, "filler"))
            case.is_right(case.build(), f"there is room again after {left * 4} KB")
            case.rests(f"after {left * 4} KB")
            shutil.rmtree(os.path.join(case.folder, "out"))
            if left % 2:
                case.put(left % 20, f"another text {left}\n" * 900)
        place.expect(len(kinds) > 1, case.where, f"all answered alike: {kinds}")
        for kind in sorted(kinds):
            print(f"    {kind}")


def fill_up(folder, left):
    """Takes all room of a file system, but for so many bytes."""
    path = os.path.join(folder, "filler")
    with open(path, "wb", buffering=0) as it:
        with contextlib.suppress(OSError):
            while it.write(b"x" * 4096):
                pass
    size = os.path.getsize(path)
    os.truncate(path, max(0, size - size % 4096 - left))


def read_only(place):
    case = Case(place, "folders that may not be written")
    case.fan(6)
    for top, folders, files in os.walk(case.folder):
        for name in folders + files:
            os.chmod(os.path.join(top, name), 0o777)
    os.chmod(case.folder, 0o555)
    user = as_nobody()
    ran = case.build(**user)
    case.is_named(ran, "the working folder may not be written")
    place.expect(ran.status == 1 and "ermission denied" in ran.text, case.where, f"it says why: {ran.text[-300:]}")
    os.chmod(case.folder, 0o777)
    case.is_right(case.build(**user), "it may be written")
    out = os.path.join(case.folder, "out")
    run_as(["chmod", "555", out], case.folder, None, 60, user)
    case.put(2, "new\n")
    for name in os.listdir(out):
        os.chmod(os.path.join(out, name), 0o444)
    case.is_named(case.build(**user), "outputs may not be written")
    os.chmod(out, 0o777)
    for name in os.listdir(out):
        os.chmod(os.path.join(out, name), 0o666)
    case.is_right(case.build(**user), "outputs may be written again")
    for path in ("build.ninja", ".nj_log", ".nj_seen"):
        full = os.path.join(case.folder, path)
        os.chmod(full, 0o000)
        touch(case.folder, "in/s1")
        ran = case.build(**user)
        case.is_named(ran, f"{path} may not be read")
        place.expect(path in ran.text, case.where, f"{path} is to be named: {ran.text[-300:]}")
        os.chmod(full, 0o666)
        case.is_right(case.build(**user), f"{path} may be read")
    # this one is made anew
    full = os.path.join(case.folder, ".nj_tick")
    os.chmod(full, 0o000)
    touch(case.folder, "in/s1")
    case.is_right(case.build(**user), ".nj_tick may not be read")
    place.expect(os.stat(full).st_mode & 0o600 == 0o600, case.where, ".nj_tick is not made anew")
    case.rests(**user)


def logs_of_other_kinds(place):
    """Where logs are folders, or hold what is no log."""
    case = Case(place, "logs that are no logs")
    case.fan(4)
    for name in (".nj_log", ".nj_tick", ".nj_log.new", ".nj_in", ".nj_seen", ".nj_seen.new"):
        path = os.path.join(case.folder, name)
        if os.path.exists(path):
            os.remove(path)
        os.makedirs(os.path.join(path, "x"))
        ran = case.build()
        case.is_named(ran, f"{name} is a folder")
        shutil.rmtree(path)
        case.is_right(case.build(), f"{name} is a folder no more")
        case.rests()
        shutil.rmtree(os.path.join(case.folder, "out"))
    for held in (b"", b"nj-log 2", b"\0" * 4096, b"nj-log 9\n", b"# ninja log v5\n1\t2\t3\tout/o1\tabc\n"):
        with open(os.path.join(case.folder, ".nj_log"), "wb") as it:
            it.write(held)
        case.put(1, f"new {len(held)}\n")
        ran = case.build()
        case.is_right(ran, f"the log holds {held[:12]}")
        place.expect(len(ran.commands) == 4, case.where, f"a log without records runs all: {ran.commands}")
        case.rests()
    for held in (b"", b"nj-seen 2", b"\0" * 4096, b"nj-seen 9\n", b"nj-log 2\n", b"nj-seen 2\ns\tin/s2\t1\t1\t0\t.\nx\n"):
        with open(os.path.join(case.folder, ".nj_seen"), "wb") as it:
            it.write(held)
        case.put(1, f"noted {len(held)}\n")
        ran = case.build()
        case.is_right(ran, f"what was noted is {held[:12]}")
        place.expect(len(ran.commands) == 1, case.where, f"without notes stamps say what runs: {ran.commands}")
        case.rests()


def seconds(place):
    """Stamps of whole seconds, on a file system that has no others where one can be mounted."""
    image = os.path.join(place.folder, "image")
    made = False
    if shutil.which("mkfs.ext2", path=os.environ["PATH"] + ":/usr/sbin:/sbin"):
        with open(image, "wb") as it:
            it.truncate(8 << 20)
        make = ["mkfs.ext2", "-q", "-F", "-I", "128", image]
        path = os.environ["PATH"] + ":/usr/sbin:/sbin"
        made = subprocess.run(make, env={**os.environ, "PATH": path}, stdout=subprocess.DEVNULL, stderr=subprocess.DEVNULL, check=False).returncode == 0
    with mounted(place, "ext2", "-o", "loop", image) if made else contextlib.nullcontext() as folder:
        if not folder:
            place.leave_out("a file system with stamps of seconds", "no ext2 can be made or mounted here")
        else:
            of_seconds(Case(place, "a file system with stamps of seconds", os.path.join(folder, "tree")), lambda _: None)
    of_seconds(Case(place, "stamps of seconds, set behind each build"), whole_seconds)


def whole_seconds(folder):
    for top, _, files in os.walk(folder):
        for name in files:
            path = os.path.join(top, name)
            second = os.stat(path).st_mtime_ns // 10**9
            os.utime(path, (second, second))


def of_seconds(case, settle):
    case.fan(5)
    write(case.folder, "build.ninja", ground.read(case.folder, "build.ninja") + "build out/all: cat " + " ".join(f"out/o{n}" for n in range(5)) + "\n")
    for turn in range(5):
        case.put(turn, f"turn {turn}\n")
        case.wanted["out/all"] = "".join(case.wanted[f"out/o{n}"] for n in range(5))
        settle(case.folder)
        time.sleep(1.1)
        case.is_right(case.build(), f"turn {turn}")
        settle(case.folder)
        case.rests(f"turn {turn}, again")
        time.sleep(1.1)
        settle(case.folder)


def limits(place):
    case = Case(place, "at most 64 open files")
    case.fan(200)
    case.is_right(case.build("-j", "4", **limited(NOFILE=64)), "-j 4")
    case.rests()
    shutil.rmtree(os.path.join(case.folder, "out"))
    case.is_named(case.build("-j", "100", **limited(NOFILE=64)), "-j 100")
    case.is_right(case.build(), "and none")
    case.rests()
    case = Case(place, "little memory")
    case.fan(2000)
    for megabytes in (2, 4, 6, 8, 12, 16, 64):
        ran = case.build(**limited(AS=megabytes << 20))
        # A program that cannot even be loaded tells nothing.
        if ran.status >= 0 and "error while loading" not in ran.text:
            case.is_named(ran, f"{megabytes} MB")
    case.is_right(case.build(), "and enough")
    case.rests()
    case = Case(place, "few processes")
    case.fan(100)
    for top, folders, files in os.walk(case.folder):
        for name in [".", *folders, *files]:
            os.chmod(os.path.join(top, name), 0o777)
    if not as_nobody():
        place.leave_out("few processes", "only root may run a build as another user")
    else:
        case.is_named(case.build("-j", "50", **limited(NPROC=8), **as_nobody()), "8 processes")
        case.is_right(case.build(**as_nobody()), "and any number")
        case.rests(**as_nobody())


def much_output(place):
    case = Case(place, "4 MB from each of 200 commands")
    case.fan(200, CAT.replace("cat $in >", "yes ${in}-${in}-${in}-${in}-${in}-$in | head -c 4000000; cat $in >"))
    shown = os.path.join(case.folder, "shown")
    with open(shown, "wb") as it:
        done = subprocess.run([case.place.nj, "-j", "8"], cwd=case.folder, stdout=it, stderr=subprocess.STDOUT, check=False)
    case.is_right(ground.Ran(done.returncode, [], ""), "much output")
    size = os.path.getsize(shown)
    place.expect(size > 800_000_000, case.where, f"only {size} bytes were shown")
    whole = [4000000 // (len(f"in/s{n}-") * 6) for n in range(200)]
    told = runs_of_lines(shown)
    # The last line of each is cut off, perhaps within its last word.
    apart = len(told) == 200 and all(0 <= it - wanted <= 1 for it, wanted in zip(told, whole))
    place.expect(apart, case.where, "what commands print is not shown whole and apart")
    os.remove(shown)
    case.rests()


def runs_of_lines(path):
    """How many whole lines each number has, of which all stand side by side."""
    counts, last = {}, None
    with open(path, "rb") as it:
        for line in it:
            if not line.startswith(b"in/s") or line.count(b"-") != 5:
                continue
            number = int(line[4:line.index(b"-")])
            if number != last and number in counts:
                return []
            last = number
            counts[number] = counts.get(number, 0) + 1
    return [counts[n] for n in sorted(counts)]


def left_behind(place):
    case = Case(place, "a command that leaves a process behind, which holds its output")
    case.fan(3, CAT.replace("cat $in >", "sleep 3 & echo $$! >> sleepers; cat $in >"))
    begun = time.monotonic()
    ran = case.build()
    case.is_right(ran, "a process is left behind")
    place.expect(time.monotonic() - begun >= 3, case.where, "it was not waited for")
    place.expect(len(BEHIND.findall(ran.text)) == 1, case.where, f"it is to be told once: {ran.text[-600:]}")
    case.rests()
    case = Case(place, "a command that leaves a process behind, whose output leads elsewhere")
    case.fan(3, CAT.replace("cat $in >", "sleep 77 > /dev/null 2>&1 & echo $$! >> sleepers; cat $in >"))
    begun = time.monotonic()
    case.is_right(case.build(), "a process is left behind")
    place.expect(time.monotonic() - begun < 60, case.where, "it was waited for")
    case.rests()
    for number in ground.read(case.folder, "sleepers").split():
        own.end_orphan(int(number))


def many_commands(place):
    case = Case(place, "10,000 commands, 64 at once")
    case.fan(10000)
    case.is_right(case.build("-j", "64"), "all")
    case.rests()
    case.put(7777, "new\n")
    ran = case.build("-j", "64")
    case.is_right(ran, "one of them")
    place.expect(len(ran.commands) == 1, case.where, f"one alone is to run: {len(ran.commands)}")


def moved(place):
    case = Case(place, "a folder that is moved")
    case.fan(5)
    case.is_right(case.build(), "before")
    other = case.folder + " of another name"
    os.rename(case.folder, other)
    case.folder = other
    case.rests("where it was moved to")
    case.put(3, "new\n")
    case.is_right(case.build(), "behind an edit")
    case.rests()


def in_turn(place):
    if place.lacks("two builds in turn", "ninja"):
        return

    def fill(folder):
        write(folder, "build.ninja", CAT + "build common: cat base\nbuild one: cat common first\nbuild two: cat common second | mid\n"
              "build mid: cat one\n")
        for name in ("base", "first", "second"):
            write(folder, name, name + "\n")

    pair = Pair(place, "turns", fill)
    for turn, (edited, targets) in enumerate([
        ("base", ["one"]), ("base", ["two"]), ("first", ["common"]), ("second", ["two"]), ("base", ["common"]), ("first", ["one"]),
        ("base", ["mid"]), ("second", ["one", "two"]), ("base", ["two"]), ("first", []),
    ]):
        pair.edit(lambda it, path=edited, turn=turn: write(it, path, f"{path} {turn}\n"))
        pair.step(f"turn {turn}, {edited} is edited and {' '.join(targets) or 'all'} built", *targets)
        pair.rests(f"turn {turn}, again", *targets)


def clocks(place):
    """Stamps in the past and in the future: commands that set them, and sources that came so."""
    case = Case(place, "commands with another clock")
    if shutil.which("faketime"):
        case.fan(6, CAT.replace("> $out", "> $out && faketime \"$$(cat clock)\" touch $out"))
    else:
        place.leave_out("commands under another clock", "there is no faketime; touch -d takes its place")
        case.fan(6, CAT.replace("> $out", "> $out && touch -d \"$$(cat clock)\" $out"))
    for turn, clock in enumerate(["now", "1 hour ago", "2 hours ago", "now", "1 hour ago", "now"]):
        write(case.folder, "clock", clock)
        case.put(turn, f"turn {turn}\n")
        case.is_right(case.build(), f"turn {turn}, {clock}")
        if clock == "now":
            case.rests(f"turn {turn}, again")
    case = Case(place, "sources from the past and from the future")
    case.fan(6)
    case.is_right(case.build(), "first")
    for n, age in enumerate((-86400, 86400, 3600)):
        case.put(n, f"aged {age}\n")
        stamp = time.time() + age
        if age > 0:
            os.utime(os.path.join(case.folder, f"in/s{n}"), (stamp, stamp))
    case.is_right(case.build(), "sources of tomorrow")
    case.is_right(case.build(), "again")
    for n in range(6):
        touch(case.folder, f"in/s{n}")
    case.is_right(case.build(), "sources of today")
    case.rests()
    case = Case(place, "an edit with a stamp of before the last build, as behind a clock that was set back")
    case.fan(3)
    case.is_right(case.build(), "first")
    case.put(1, "edited\n")
    past = time.time() - 3600
    os.utime(os.path.join(case.folder, "in/s1"), (past, past))
    case.rests("stamps alone do not show the edit: a build by them", env={"NJ_TRUST_STAMPS": "1"})
    ran = case.build()
    case.is_right(ran, "the edit is seen")
    place.expect(len(ran.commands) == 1, case.where, f"one alone is to run: {ran.commands}")
    case.rests()
    past -= 3600
    case.put(1, "once more\n")
    os.utime(os.path.join(case.folder, "in/s1"), (past, past))
    os.remove(os.path.join(case.folder, ".nj_seen"))
    case.rests("nothing is noted: the premise is broken, the edit is not seen, and the build")
    touch(case.folder, "in/s1")
    case.is_right(case.build(), "it is touched")
    case.rests()


def output_closed(place):
    """Standard output that is full, closed, or a pipe that nobody reads."""
    case = Case(place, "standard output that takes nothing")
    case.fan(5)
    for what in ("> /dev/full", ">&-", "| true", "2>&- >&-", "< /dev/null 2> /dev/full"):
        touch(case.folder, "in/s1")
        done = subprocess.run(["sh", "-c", f'"$0" -j 2 {what}', case.place.nj], cwd=case.folder, stdout=subprocess.PIPE,
                              stderr=subprocess.STDOUT, stdin=subprocess.DEVNULL, timeout=60, check=False)
        text = done.stdout.decode("utf-8", "replace")
        named = done.returncode == 0 or NAMED.search(text) or "2>" in what
        place.expect(named, case.where, f"{what}: status {done.returncode}: {text}")
        case.is_right(case.build(), f"behind {what}")
        case.rests()


def commands_of_all_kinds(place):
    case = Case(place, "a command that is longer than the system takes")
    case.fan(3)
    write(case.folder, "build.ninja", ground.read(case.folder, "build.ninja") + f"build long: cat in/s0 | {' '.join(f'in/s{n % 3}' for n in range(9))}\n  word = x\n")
    long = CAT.replace("cat $in", f": {'x' * 200000}; cat $in")
    write(case.folder, "build.ninja", long + ground.read(case.folder, "build.ninja")[len(CAT):])
    case.is_named(case.build(), "200,000 letters")
    write(case.folder, "build.ninja", ground.read(case.folder, "build.ninja").replace("x" * 200000, "x" * 90000))
    case.is_right(case.build(), "90,000 letters")
    case.rests()
    case = Case(place, "commands that end by signals, make nothing, or read their input")
    for number, command in enumerate(["kill -9 $$$$", "kill -TERM $$$$", "exit 255", "cat > $out; exit 4", "no_such_program $out"]):
        case.fan(2, CAT.replace("cat $in > $out", command))
        ran = case.build("-k", "0")
        place.expect(ran.status == 1 and "failed commands: 2" in ran.text, case.where, f"{command}: {ran.text[-300:]}")
        case.fan(2, text=f"mended {number}")
        case.is_right(case.build(), f"behind {command}")
        case.rests()
    case.fan(2, CAT.replace("cat $in > $out", "true"))
    shutil.rmtree(os.path.join(case.folder, "out"))
    for _ in range(2):
        ran = case.build()
        place.expect(ran.status == 0 and len(ran.commands) == 2, case.where, f"an output that is not made: {ran.text[-300:]}")


def names(place):
    """Paths with blanks, quotes, dollars and letters beyond ASCII."""
    if place.lacks("paths of all kinds", "ninja"):
        return
    kinds = ["a b", "quote'd", 'double"d', "dol$lar", "semi;colon", "back\\slash", "star*", "\u00e4\u00f6\u20ac", "-dash", "tilde~", "pipe|d", "new(paren)"]

    def fill(folder):
        lines = CAT
        for kind in kinds:
            spelled = kind.replace("$", "$$").replace(" ", "$ ").replace(":", "$:").replace("|", "$|") if "|" not in kind else None
            if spelled:
                lines += f"build out/{spelled}: cat in/{spelled}\n"
                write(folder, f"in/{kind}", kind)
        write(folder, "build.ninja", lines)

    pair = Pair(place, "names", fill)
    pair.step("a first build")
    pair.rests()
    pair.edit(lambda it: [write(it, f"in/{kind}", "new " + kind) for kind in kinds if "|" not in kind])
    pair.step("all are edited")
    pair.rests("again")


CASES = [
    full_disk, read_only, logs_of_other_kinds, seconds, limits, left_behind, moved, in_turn, clocks, output_closed,
    commands_of_all_kinds, names, many_commands, much_output,
]


def run(place):
    for case in CASES:
        case(place)
