"""Trees that are made up, in which between builds sources are put back under old stamps, outputs are written by hand, and the whole tree goes away and
comes back; builds are killed. What a build leaves is what a build from nothing makes of the same sources."""

import os
import random
import shutil
import signal
import subprocess

import own
from kills import kill_all, kill_alone
from made_up import BESIDE, Graph

STEPS = 12

# Between these an old stamp lies, in seconds.
FIRST, LAST = 1500000000, 1700000000

# The first of them cuts stamps to whole seconds: what was edited in the second in which it was noted, and keeps its size, is not seen then.
AWAY = ("tar cf t.tar t && rm -r t && tar xf t.tar && rm t.tar", "cp -a t k && rm -r t && cp -a k t && rm -r k",
        "tar --format=posix -cf t.tar t && rm -r t && tar xf t.tar && rm t.tar")


class History:
    """A tree in a folder, and what was done there."""

    def __init__(self, nj, folder, number):
        self.nj, self.place, self.folder = nj, folder, os.path.join(folder, "t")
        self.graph = Graph(number)
        # one that leaves its work to others tells nobody that a header is absent, and has reported nothing then
        for edge in self.graph.edges:
            edge["late"] = False
        self.chance = random.Random(f"put back {number}")
        self.told, self.builds, self.kills = [], 0, 0
        # What sources held before, under which stamps.
        self.before = []
        os.makedirs(self.folder)
        self.graph.write_all(self.folder)

    def path(self, name):
        return os.path.join(self.folder, name)

    def put(self, name, text, stamp):
        """Puts a file there under a stamp in nanoseconds, or as it is written now."""
        os.makedirs(os.path.dirname(self.path(name)), exist_ok=True)
        if os.path.lexists(self.path(name)):
            os.remove(self.path(name))
        with open(self.path(name), "w", encoding="utf-8") as it:
            it.write(text)
        if stamp is not None:
            os.utime(self.path(name), ns=(stamp, stamp))

    def old(self):
        return self.chance.randrange(FIRST * 10**9, LAST * 10**9)

    def edit(self, is_first):
        kind = self.chance.choice(["plain", "plain", "old", "old", "old", "back", "hand", "hand", "away"])
        name = self.chance.choice(self.graph.sources + self.graph.headers)
        stamp = os.stat(self.path(name)).st_mtime_ns if os.path.exists(self.path(name)) else 0
        if stamp % 10**9:
            with open(self.path(name), encoding="utf-8") as it:
                self.before.append((name, it.read(), stamp))
        if kind == "plain":
            what, change = self.graph.edit()
            change(self.folder)
            self.told.append(what)
            return
        if kind == "old":
            self.graph.texts[name] = self.graph.text(name) if name in self.graph.sources else self.graph.text()
            self.put(name, self.graph.texts[name], self.old())
        elif kind == "back" and self.before:
            name, text, stamp = self.chance.choice(self.before)
            self.graph.texts[name] = text
            self.put(name, text, stamp)
        elif kind == "hand":
            name = self.chance.choice(self.graph.made)
            text = self.chance.choice([self.graph.text(), self.given(name)])
            self.put(name, text, self.chance.choice([None, self.old()]))
        elif kind == "away":
            name = ""
            subprocess.run(self.chance.choice(AWAY if is_first else AWAY[1:]), shell=True, cwd=self.place, check=True)
        self.told.append(f"{kind} {name}".strip())

    def given(self, name):
        """What its command makes of the sources as they are, if it makes something."""
        clean = self.clean([])
        path = os.path.join(clean, name)
        if not os.path.isfile(path):
            return "nothing is made\n"
        with open(path, encoding="utf-8") as it:
            return it.read()

    def clean(self, words):
        """A folder with the same sources, built from nothing by ninja; nothing is said of whether that went well."""
        folder = os.path.join(self.place, "clean")
        shutil.rmtree(folder, ignore_errors=True)
        os.makedirs(folder)
        for name in ["build.ninja", *self.graph.sources, *self.graph.headers]:
            if os.path.exists(self.path(name)):
                shutil.copy2(self.path(name), os.path.join(folder, name))
        self.clean_ran = self.run(["ninja", "-k", "0", *words], folder)
        return folder

    def run(self, words, folder):
        return subprocess.run(words, cwd=folder, stdin=subprocess.DEVNULL, stdout=subprocess.PIPE, stderr=subprocess.STDOUT, timeout=120, check=False)

    def kill(self, words):
        build = own.start([self.nj, "-j", "3", "-k", "0", *words], cwd=self.folder, stdout=subprocess.DEVNULL, stderr=subprocess.DEVNULL)
        try:
            build.wait(self.chance.uniform(0, 0.1))
        except subprocess.TimeoutExpired:
            self.chance.choice([kill_all, kill_alone])(build, signal.SIGKILL)
            self.kills += 1
        self.told.append("a build is killed")

    def build(self, words):
        """Builds, and answers what is wrong with that, if something is."""
        ran = self.run([self.nj, "-j", "3", "-k", "0", *words], self.folder)
        self.builds += 1
        self.told.append(f"builds {' '.join(words) or 'all'}: {ran.returncode}")
        clean = self.clean(words)
        if (ran.returncode == 0) != (self.clean_ran.returncode == 0):
            return f"status {ran.returncode}, from nothing {self.clean_ran.returncode}: {ran.stdout.decode('utf-8', 'replace')[-900:]}"
        if ran.returncode:
            return None
        stale = [name for name in self.graph.made if self.differs(clean, name)]
        if stale:
            return f"stale: {stale}"
        again = self.run([self.nj, *words], self.folder)
        if again.stdout != b"nj: no work to do.\n":
            return f"it has something to do again: {again.stdout.decode('utf-8', 'replace')[-900:]}"
        return None

    def differs(self, clean, name):
        """Whether what the build from nothing makes there is another."""
        path = os.path.join(clean, name)
        if BESIDE.search(name) or not os.path.exists(path):
            return False
        if not os.path.exists(self.path(name)):
            return True
        with open(path, "rb") as one, open(self.path(name), "rb") as other:
            return one.read() != other.read()


def one(nj, folder, number):
    """Carries out the history of this number: what is wrong, if something is, and how many builds and kills there were."""
    history = History(nj, folder, number)
    for turn in range(STEPS):
        if turn:
            for count in range(history.chance.randrange(1, 4)):
                history.edit(count == 0)
            if history.chance.random() < 0.25:
                history.kill([])
        wrong = history.build(history.graph.some(history.graph.made, 2) if turn and history.chance.random() < 0.4 else [])
        if wrong:
            return f"{wrong}\n    behind: {'; '.join(history.told)}", history
    return None, history
