#!/usr/bin/env -S python3 -B
"""Shows for each wrong body of crates/run_cases/data/mistakes that its case fails on it.

    tools/try/mistakes.py            before a release: builds all bodies, runs each one's case, and leaves
                                     bin/mistakes.txt
    tools/try/mistakes.py TEXT..     those alone of whose name, crate or cases one of these is a part, and leaves
                                     nothing
    tools/try/mistakes.py --list ..  builds nothing, and prints them: look here before you remove a case

A file has the mistakes of its crate, with a blank line between them:

    === NAME               what the wrong body does; the name of an edit that must fail, if nothing but cases follows
    case: FILE.txt: TITLE  a case of crates/run_cases/data that fails on it; there may be more
    file: src/F.rt         a file of the crate
    fn: NAME               a function of it, if a text stands elsewhere in the file, too
    old: TEXT              what is there once
    new: TEXT              what takes its place; without `old:` it goes to the begin of that function's body
    passes: WHY            the case passes today

All bodies stand in one program, which isn't proved (tools/release/unproved.sh --both). A changed function does what the
wrong body does if a number in the program is that of the mistake, so a body may change nothing but what functions do. A
case is run by run_cases and, if it passes there, by tools/try/program.py. It fails, too, if a signal ends it, 100
seconds of CPU time, or a wait as long in which no CPU is used.

It prints each body on which its case passes, or which isn't needed for it to fail, and each whose text isn't in the
sources. The status is 1 if there is one that has no `passes:`. It needs what unproved.sh needs, and git, and takes four
to six CPU minutes.
"""

import concurrent.futures
import os
import pathlib
import re
import shutil
import subprocess
import sys
import tempfile
import time

sys.path.append(f"{sys.path[0]}/..")
import script
from refusals import Absent, read_edit, replaced
from script import AT_ONCE, read, run_within, shared, write
from sources import functions

CASES = pathlib.Path("crates/run_cases/data")
FOLDER, RECORD = CASES / "mistakes", "bin/mistakes.txt"
# the number in a program: the bytes before it, as tools/release/unproved.py writes them
MARK = b"the number of a mistake:"
ASKS = "fn is_mistake(number: u32) -> bool {\n    number == 4294967295\n}\n"
NOBODY, SECONDS, BYTES = 65534, 100, 4 << 30
AS_NOBODY = ["setpriv", f"--reuid={NOBODY}", f"--regid={NOBODY}", "--clear-groups", "--no-new-privs"]


def placed(text):
    """The functions of a file that have a body, each with where it begins, by the head of the block that it is in, its
    name, and how many such stand before it."""
    found, at = {}, 0
    for item, block in functions(text):
        if not item.text.endswith(";"):
            head, at = block.text.partition("{")[0] if block else "", text.index(item.text, at)
            found[head, item.name, sum(it[:2] == (head, item.name) for it in found)] = item, at
    return found


class Mistake:
    """A wrong body, with its number; its changes are a file, a function or none, and two texts."""

    def __init__(self, crate, number, text):
        self.crate, self.number = crate, number
        self.name, *lines = text.rstrip().split("\n")
        self.changes, self.cases, self.passes = [], [], ""
        said = {"fn": "", "old": ""}
        for kind, _, rest in (it.partition(": ") for it in lines):
            if kind == "case":
                self.cases.append(tuple(rest.split(": ", 1)))
            elif kind == "passes":
                self.passes = rest
            elif kind == "new":
                self.changes.append((f"crates/{crate}/{said['file']}", said["fn"], said["old"], rest))
                said["old"] = ""
            elif kind in ("file", "fn", "old"):
                said |= {"fn": "", kind: rest} if kind == "file" else {kind: rest}
            else:
                sys.exit(f"mistakes: {crate}.txt has a line '{kind}'")
        if not self.changes:
            pairs, _ = read_edit(f"crates/{crate}/must-fail/{self.name}.edit")
            self.changes = [(f"crates/{crate}/{path}", "", old, new) for path, old, new, _ in pairs]

    def __str__(self):
        return f"{self.crate}: {self.name}"

    def has(self, words):
        texts = self.crate, self.name, *map(": ".join, self.cases)
        return not words or any(it in text for it in words for text in texts)

    def texts(self):
        """The changed files, by their paths."""
        found = {}
        for path, function, old, new in self.changes:
            text = found.get(path) or read(path)
            begin, end = 0, len(text)
            if function:
                named = [it for (_, name, _), it in placed(text).items() if name == function]
                if len(named) != 1:
                    raise Absent(f"{path} has {len(named)} functions {function}")
                item, at = named[0]
                begin, end = at + len(item.head), at + len(item.text)
            body = replaced(path, text[begin:end], old, new) if old else f"\n        {new}{text[begin:end]}"
            found[path] = text[:begin] + body + text[end:]
        return found


class File:
    """A source whose functions have the bodies of mistakes, too."""

    def __init__(self, path):
        self.text = read(path)
        self.functions = placed(self.text)
        self.pieces, self.more = [], [ASKS]

    @staticmethod
    def rest(text):
        """What a file has beside functions."""
        for item, _ in placed(text).values():
            text = text.replace(item.text, "", 1)
        return re.sub(r"(?m)//.*$|\s+", "", text)

    def put(self, text, number):
        """What this number changes in functions, and the functions that it adds, if that is all that a text changes."""
        changed, pieces, more = placed(text), [], []
        for key, (item, _) in changed.items():
            old, at = self.functions.get(key, (None, 0))
            if old is None:
                more.append(re.sub(r"(?m)//.*$", "", item.text) + "\n")
            elif old.text != item.text:
                body = item.text[len(item.head):]
                pieces.append((at + len(old.head), f" if is_mistake({number}) {{ return {{{body}; }}"))
            if key[0] if old is None else old.signature() != item.signature():
                raise Absent("it changes more than what functions do")
        if self.rest(text) != self.rest(self.text):
            raise Absent("it changes more than what functions do")
        return pieces, more

    def whole(self):
        text = self.text
        for at, piece in sorted(self.pieces, reverse=True):
            text = text[:at] + piece + text[at:]
        return text + "\n" + "\n".join(self.more)


def all_mistakes():
    """The mistakes of all files, each with its number."""
    texts = [(it.stem, text) for it in sorted(FOLDER.glob("*.txt")) for text in re.split(r"(?m)^=== ", read(it))[1:]]
    return [Mistake(crate, number, text) for number, (crate, text) in enumerate(texts, 1)]


def put_all(chosen):
    """The files with all bodies, and what is told of those that aren't in one."""
    files, told = {}, {}
    for one in chosen:
        try:
            texts = one.texts()
            own = {path: files.get(path) or File(path) for path in texts}
            made = [(it, *it.put(texts[path], one.number)) for path, it in own.items()]
        except Absent as fault:
            told[one] = str(fault)
            continue
        files |= own
        for it, pieces, more in made:
            it.pieces += pieces
            it.more += more
    return files, told


def build(work, files):
    """Makes the program of these files in a copy of the repository, and lays the cases, with the version of a program
    that isn't proved, as tools/try/cases.sh --quick does."""
    (work / "top").mkdir()
    for it in ("crates", "tools", "crates.txt"):
        subprocess.run(["cp", "-r", "--parents", it, work / "top"], check=True)
    for path, it in files.items():
        write(work / "top" / path, it.whole())
    compiler = work / "top/tools/release/unproved.sh"
    subprocess.run([compiler, "--both", work / "all"], stdin=subprocess.DEVNULL, check=True)
    shutil.copytree(CASES, work / "data")
    for path in (work / "data").rglob("*.txt"):
        write(path, re.sub(r"\(Rattle, logic [0-9a-f]{16}\)", "(Rattle, nothing is proved)", read(path)))
    work.chmod(0o711)
    if os.getuid() == 0:
        subprocess.run(["chown", "-R", f"{NOBODY}:{NOBODY}", work / "data"], check=True)


class Trial:
    """A program with the number of a mistake, in a folder with the cases."""

    def __init__(self, work, number):
        self.data, self.room = work / "data", work / f"run.{number}"
        self.room.mkdir()
        self.program = self.room / "run_cases"
        before, mark, after = (work / "all").read_bytes().partition(MARK)
        self.program.write_bytes(before + mark + number.to_bytes(4, "little") + after[4:])
        self.program.chmod(0o755)
        (self.room / "gomod").symlink_to("run_cases")
        self.room.chmod(0o777)

    def run(self, file, part, is_itself):
        """Runs a case by tools/try/program.py, or by run_cases, as nobody if root starts it."""
        given = {}
        words = ["tools/try/program.py", "--program", self.room / "gomod", "--unproved", CASES / file, part]
        if not is_itself:
            words = ["prlimit", f"--as={BYTES}", f"--cpu={SECONDS}", "--", *(AS_NOBODY if os.getuid() == 0 else []),
                     self.program, os.path.basename(file), part]
            room = {"TMPDIR": str(self.room), "HOME": str(self.room), "PATH": os.environ["PATH"]}
            given = {"cwd": (self.data / file).parent, "env": room}
        # tools/try/program.py ends a command that waits, and says of which case it is
        return run_within(words, 3 * SECONDS if is_itself else SECONDS, stdin=subprocess.DEVNULL, errors="replace",
                          stdout=subprocess.PIPE, stderr=subprocess.STDOUT, **given)

    def fails(self, file, title, is_itself):
        """Whether a case fails in one of both ways."""
        pieces = re.split(r"\{N[^}]*\}", title)
        try:
            done = self.run(file, max(pieces, key=len), is_itself)
        except subprocess.TimeoutExpired:
            return True
        named = re.search(r"\S+".join(map(re.escape, pieces)), done.stdout)
        # 2 is how a case that isn't there ends, or one of calls alone
        return done.returncode not in (0, 1, 2) or done.returncode == 1 and bool(named)


def judge(work, one):
    """The cases of a mistake that pass on it, and those that fail, each with the way in which it does."""
    trial, passed, failed = Trial(work, one.number), [], []
    for case in one.cases:
        ways = [True] if case[0].startswith("program/") else [False, True]
        way = next((it for it in ways if trial.fails(*case, it)), None)
        passed += [case] if way is None else []
        failed += [] if way is None else [(*case, way)]
    shutil.rmtree(trial.room)
    return one, passed, failed


def run_all(chosen, files, told):
    """Builds all bodies, runs their cases, and adds what is told of those that aren't shown."""
    with tempfile.TemporaryDirectory(prefix="gomod-mistakes-") as work:
        work = pathlib.Path(work)
        build(work, files)
        with concurrent.futures.ThreadPoolExecutor(AT_ONCE) as pool:
            judged = list(pool.map(lambda it: judge(work, it), [it for it in chosen if it not in told]))
            as_it_is, needed = Trial(work, 0), {it for _, _, failed in judged for it in failed}
            wrong = dict(zip(needed, pool.map(lambda it: as_it_is.fails(*it), needed)))
        for one, passed, failed in judged:
            said = [f"{': '.join(it)}: it passes" for it in passed]
            said += [f"{': '.join(it[:2])}: it fails without it" for it in failed if wrong[it]]
            if said:
                told[one] = "; ".join(said)


def main(*words):
    """Lists the mistakes that words choose, or builds and runs them, and returns the status."""
    is_listed = words[:1] == ("--list",)
    words = words[is_listed:]
    chosen = [it for it in all_mistakes() if it.has(words)]
    if not chosen:
        script.misused(f"no mistake has '{' '.join(words)}'")
    files, told = put_all(chosen)
    if is_listed:
        for one in chosen:
            print(one, *map(": ".join, one.cases), *filter(None, [one.passes]), sep="\n    ")
    else:
        commit, sources = shared("commit_here"), shared("checksum_of_program")
        pathlib.Path(RECORD).unlink(missing_ok=True)
        run_all(chosen, files, told)
    for one, why in told.items():
        print(f"{one}: {why}{one.passes and ', since '}{one.passes}")
    if is_listed:
        return int(bool(told))
    print(said := f"{len(chosen) - len(told)} of {len(chosen)} bodies fail their cases")
    if not all(one.passes for one in told):
        return 1
    # what tools/release/release.sh asks for, if the sources are those at the start
    if not words:
        if shared("checksum_of_program") != sources:
            sys.exit("mistakes: the sources aren't those at the start")
        write(RECORD, f"{said}, on {time.strftime('%F', time.gmtime())} at commit {commit}\n{sources}\n")
    return 0


if __name__ == "__main__":
    script.run(main, r"( --list)?( (?!-)\S+)*")
