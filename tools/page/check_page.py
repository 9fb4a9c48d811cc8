#!/usr/bin/env -S python3 -B
"""Compares bin/gomod with the definitions of crates/page on random modules: what `list` prints and reports, and its
exit status.

    tools/page/check_page.py [WORLDS [SEED]]  worlds SEED, SEED + 1, .. (40, others for each commit)
    tools/page/check_page.py --program FILE .. the same with another program

A world is made from its number alone; in nearly half of them each module's file is there and right, so that no fault
hides the list. tools/page/evaluate.py computes by the definitions which files are needed and which outcomes there may
be; what the files say is known, since they are written from that.

It prints each world in which the program and the definitions differ, and a line with the counts. The status is 1 if
there is one. It needs bin/gomod.
"""

import dataclasses
import functools
import os
import random
import subprocess
import sys
import tempfile

sys.path.append(f"{sys.path[0]}/..")
import script
from definitions import Parser
from evaluate import Page
from go_worlds import hash_of
from script import write
from values import NONE, Made, record, text

MAIN = "example.com/m"
PATHS = [f"example.com/{name}" for name in "abcdef"]
# crates/page knows their parts
VERSIONS = ["v0.9.0", "v1.0.0-9", "v1.0.0-10", "v1.0.0", "v1.0.9", "v1.0.10", "v1.10.0"]
CLOSE = [VERSIONS[1:3], VERSIONS[4:6]]  # their order as texts is the other one
GO = [(1, 9), (1, 15), (1, 16), (1, 16), (1, 17), (1, 17), (1, 19), (1, 21), (2, 0)]
ODD = ["local", "-a.org/x", "Example.com/a", MAIN, MAIN, MAIN]  # no proxy has the module of the first three
FOLDERS = ["./x", "./y"]
MALFORMED = "require example.com/a\n"
PAGE = Page()
ENDS = Parser("ListEnds after limit run outcome").whole()


def value(it):
    """What the definitions are of: texts, lists, pairs and records."""
    if isinstance(it, (str, list)):
        return text(it) if isinstance(it, str) else tuple(map(value, it))
    if isinstance(it, tuple):
        return Made("", *map(value, it))
    return record(**{name: value(one) for name, one in it.items()}) if isinstance(it, dict) else it


def option(it):
    return NONE if it is None else Made("Some", value(it))


def named(name, folder, module):
    """The name of a file, or a right side: a folder's, or that of a module at a version."""
    return Made(folder if len(name) == 1 else module, *map(text, name))


@dataclasses.dataclass
class File:
    """What a go.mod file says: the main module's, or without excludes and replaces another's."""

    declared: str | None
    go: tuple = (1, 16)
    requirements: list = dataclasses.field(default_factory=list)
    excludes: list = dataclasses.field(default_factory=list)
    replaces: dict = dataclasses.field(default_factory=dict)
    is_malformed: bool = False
    is_main: bool = False

    def said(self):
        """The record that the definitions have of it."""
        common = {"go": self.go, "requirements": self.requirements}
        if not self.is_main:
            return value({"declared": option(self.declared), **common})
        replaces = [({"path": path, "version": option(version)}, named(right, "Folder", "Module"))
                    for (path, version), right in self.replaces.items()]
        return value({"path": self.declared, "excludes": self.excludes, "replaces": replaces, **common})

    @functools.cached_property
    def text(self):
        """The text of the file, as crates/page writes it; without a go directive it has go 1.16."""
        name = "main_bytes" if self.is_main else "file_bytes"
        written = bytes(PAGE.of("Files.TableFiles", name, self.said())).decode().replace("go 1.16\n", "")
        return written + MALFORMED * self.is_malformed

    def teach(self):
        """Tells the page what the bytes of the file say, or the line of a fault and its kind."""
        misread = Made("", self.text.count("\n"), Made("WrongArguments"))
        PAGE.results["Rattle.page.specs.Files", "main_in" if self.is_main else "said_in", text(self.text)] = (
            Made("Err", misread) if self.is_malformed else Made("Ok", self.said()))


class World:
    """A main module, a proxy folder, folders that replace modules, and a go.sum or none; all from one number."""

    def __init__(self, seed):
        self.random = random.Random(seed)
        self.files, self.sums, self.sums_text, self.bad_sum = {}, None, "", None
        self.is_sound = self.chance(0.45)  # so that faults don't hide what the list has
        gone = self.random.choice([None, None, *PATHS])
        for path in PATHS:
            for version in VERSIONS:
                if self.is_sound or self.chance(0.5 if path == gone else 0.95):
                    self.files[path, version] = self.module_file(path)
        for folder in FOLDERS:
            if self.is_sound or self.chance(0.7):
                self.files[folder,] = self.module_file(self.random.choice([None, MAIN, *PATHS]))
        if self.is_sound or self.chance(0.9):
            self.files[MAIN, "v1.0.0"] = self.module_file(MAIN)
        self.main = File(MAIN, self.go(), [self.module() for _ in range(self.random.randint(1, 3))], is_main=True)
        self.main.excludes = [self.module() for _ in range(self.random.choice([0, 0, 1, 2, 3]))]
        if self.chance(0.15):
            self.require_twice()
        self.add_replaces()
        if self.chance(0.2):
            self.main.excludes += [it for it in self.main.replaces.values() if len(it) == 2]
        if self.chance(0.1):
            self.main.excludes.append(self.main.requirements[0])
        self.add_sums()
        self.after = self.random.choice([None, None, MAIN, *self.random.sample(PATHS, 2)])
        self.limit = self.random.choice([None, None, 1, 2])

    def chance(self, share):
        return self.random.random() < share

    def go(self):
        return self.random.choice(GO)

    def module(self):
        if self.chance(0.04 if self.is_sound else 0.08):
            return self.random.choice([MAIN] if self.is_sound else ODD), "v1.0.0"
        versions = self.random.choice(CLOSE) if self.chance(0.4) else VERSIONS
        return self.random.choice(PATHS), self.random.choice(versions)

    def module_file(self, path):
        """What a file of a module says; if the world isn't sound, it may have another path, or be malformed."""
        declared = path if self.is_sound or self.chance(0.94) else self.random.choice([None] * 4 + PATHS)
        requirements = [self.module() for _ in range(self.random.choice([0, 1, 1, 2, 2]))]
        return File(declared, self.go(), requirements, is_malformed=not self.is_sound and self.chance(0.04))

    def require_twice(self):
        """Two modules at the top, of which an unpruned one requires the other."""
        version = self.random.choice(VERSIONS)
        first, second, third = [(path, version) for path in self.random.sample(PATHS, 3)]
        self.main.go, self.main.requirements = (1, 17), [first, second]
        self.files[first] = File(first[0], (1, 16), [second])
        self.files[second] = File(second[0], (1, 17), [third])
        self.files[third] = File(third[0], (1, 17), [self.module()])

    def add_replaces(self):
        """Adds up to three replacements to the main file, and some of what they need."""
        for _ in range(self.random.choice([0, 0, 1, 2, 3])):
            path, version = ("local", "v1.0.0") if self.chance(0.2) else self.module()
            if path == "local" and self.chance(0.4):
                self.main.requirements.append((path, version))
            if self.chance(0.2):
                path, version = self.main.requirements[0]
            right = self.random.choice([(self.random.choice(FOLDERS),), self.module()])
            self.main.replaces[path, self.random.choice([None, version])] = right
            if self.chance(0.3):
                self.main.replaces[path, version] = (self.random.choice(FOLDERS),)
            if right in self.files and len(right) == 2 and self.chance(0.5):
                self.files[right].declared = path
        path, version = self.random.choice(self.main.requirements)
        if self.chance(0.4):
            self.main.replaces[path, version] = (path if path in PATHS else PATHS[0], self.random.choice(VERSIONS))
        if self.chance(0.2):
            self.main.replaces[path, None] = (self.random.choice(FOLDERS),)
        if self.chance(0.15):
            self.main.replaces[MAIN, None] = (self.random.choice(FOLDERS),)

    def add_sums(self):
        """Makes a go.sum, or none, with some lines left out, wrong, doubled or invalid; the main file may be so,
        too."""
        if self.chance(0.45):
            self.sums = {name: [hash_of(file.text)] for name, file in self.files.items() if len(name) == 2}
            for name, hashes in self.sums.items():
                file, other = self.files[name], hash_of("other")
                if self.chance(0.7 if file.is_malformed or file.declared != name[0] else 0.03):
                    self.sums[name] = self.random.choice([[], [other], [*hashes, other]])
            lines = [f"{path} {version}/go.mod {it}\n" for (path, version), all in self.sums.items() for it in all]
            if self.chance(0.12):
                lines.append("example.com/a v1.0.0\n")
                self.bad_sum = f"go.sum:{len(lines)}: BadSum\n"
            self.sums_text = "".join(lines)
        self.main.is_malformed = self.chance(0.5 if self.bad_sum else 0.02)

    def lay(self, room):
        """Writes the world below a folder, and gives the arguments of the run."""
        words = ["list", "--mod", f"{room}/go.mod", "--proxy", f"{room}/proxy"]
        os.mkdir(f"{room}/proxy")
        for name, file in self.files.items():
            path = f"{room}/{name[0]}/go.mod" if len(name) == 1 else f"{room}/proxy/{name[0]}/@v/{name[1]}.mod"
            write(path, file.text)
        if self.sums is not None:
            write(f"{room}/go.sum", self.sums_text)
            words += ["--sum", f"{room}/go.sum"]
        write(f"{room}/go.mod", self.main.text)
        words += ["--after", self.after] if self.after else []
        return words + (["--limit", str(self.limit)] if self.limit else [])


def expected(world):
    """The outcomes by the definitions: what is printed, what is reported, and the status."""
    PAGE.results, PAGE.kept, PAGE.universes = {}, {}, {}
    world.main.teach()
    for file in world.files.values():
        file.teach()
    if world.sums is not None:
        texts = {hash_of(it): it for it in ["other", *(file.text for file in world.files.values())]}
        lines = [(*name, texts[it]) for name, all in world.sums.items() for it in all]
        said = Made("Err", text(world.bad_sum)) if world.bad_sum else Made("Ok", value(lines))
        PAGE.results["Rattle.page.specs.Types", "sums_in", text(world.sums_text)] = said
    contents = {named(name, "folder_file", "mod_file"): text(file.text) for name, file in world.files.items()}

    def run(names):
        asked = [(it, Made("bytes", contents[it]) if it in contents else Made("absent")) for it in names or ()]
        sums = option(None if world.sums is None else world.sums_text)
        return value({"file": world.main.text, "sums": sums, "answers": {"asked": asked, "failed": []}})

    given = {"after": option(world.after), "limit": option(world.limit), "run": run(PAGE.needed(run(contents)))}
    found = PAGE.outcomes(ENDS, given, PAGE.modules["Rattle.page.specs.ListQuery"])
    return [(*(bytes(it.part(field)).decode() for field in ("text", "report")), it.part("status")) for it in found]


def compare(program, count, seed):
    """Compares the program with the definitions in each world."""
    differing, printed = 0, 0
    for number in range(seed, seed + count):
        world = World(number)
        with tempfile.TemporaryDirectory() as room:
            words = world.lay(room)
            done = subprocess.run([program, *words], capture_output=True, text=True, encoding="utf-8", errors="replace")
        got, want = [(done.stdout, done.stderr, done.returncode)], expected(world)
        printed += done.returncode == 0
        if got != want:
            differing += 1
            print(f"check_page: world {number}: {' '.join(words)}\n  the definitions: {want}\n  the program: {got}")
    print(f"{count} worlds, {printed} of them with a list, {differing} differ")
    return int(differing > 0 or printed * 4 < count)


def main(*words):
    program, numbers = script.program_of(words)
    commits = int(script.git("rev-list", "--count", "HEAD") or 0)
    count, seed = [*map(int, numbers), *(40, 1 + 40 * commits)[len(numbers):]]
    return compare(program, count, seed)


if __name__ == "__main__":
    script.run(main, r"( --program \S+)?( [1-9]\d{0,8}){0,2}")
