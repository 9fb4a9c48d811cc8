#!/usr/bin/env -S python3 -B
"""Makes each open, read, write and close of command lines of bin/gomod fail in turn, and then two calls at once.

    tools/try/faults.py                 with 2,000 pairs of faults: what .ci/run runs
    tools/try/faults.py PAIRS [SEED]    with so many pairs, other ones for another seed (1)
    tools/try/faults.py --whole [SEED]  before a release: with 20,000, and then over files that others change meanwhile
    tools/try/faults.py --program FILE .. the same with another program

There are two command lines or more of each command, which read each kind of file that it has. What is right follows
from the run without a fault, whose calls the library tells. Each call fails alone, and then with all later ones of its
kind, with every error that Linux documents for it; on some lines the first call on each kind of file fails with every
error that Linux has. Each read and write moves fewer bytes than it may, down to 1, or to none for a write. A file that
can't be read has to be the one that is reported, with status 3; one that isn't found is missing; a failed write leaves
what was written before, with status 3; a close that fails changes nothing, and neither does a short read or write. With
two faults, allocations among them, the result is one that one of them has, or a beginning of it. Without a fault a
stream takes one write, or for each write as many whole lines as fit the program's buffer: one for each row is too many,
and so is one that cuts a line.

The files that others change are those of a proxy. They are written in place, replaced, cut off, longer, gone, a folder,
a link. With a go.sum a run has the only right result, or it reports a fault. At last 200 run at once.

It prints each fault after which a result is wrong, as a value of FAULTS (tools/try/faults.c), and how many runs there
were. The status is 1 if one was wrong, or if the library sees no call of a command line. It needs a C compiler (`cc`,
or what CC names) and bin/gomod, and takes 90 s of CPU time.
"""

import concurrent.futures
import contextlib
import errno
import itertools
import os
import random
import re
import shutil
import subprocess
import sys
import tempfile
import threading
from subprocess import DEVNULL, PIPE
from typing import NamedTuple

sys.path.append(f"{sys.path[0]}/..")
import script
from go_worlds import hash_of, unescaped
from script import AT_ONCE, read, write

# the errors that the manual pages of Linux name for each call: open(2), read(2), write(2), close(2)
DOCUMENTED = {
    "open": """EACCES EBADF EBUSY EDQUOT EEXIST EFAULT EFBIG EINTR EINVAL EISDIR ELOOP EMFILE ENAMETOOLONG ENFILE ENODEV
        ENOENT ENOMEM ENOSPC ENOTDIR ENXIO EOPNOTSUPP EOVERFLOW EPERM EROFS ETXTBSY EAGAIN""",
    "read": "EAGAIN EBADF EFAULT EINTR EINVAL EIO EISDIR",
    "write": "EAGAIN EBADF EDESTADDRREQ EDQUOT EFAULT EFBIG EINTR EINVAL EIO ENOSPC EPERM EPIPE",
    "close": "EBADF EDQUOT EINTR EIO ENOSPC",
}
ERRORS = {call: [getattr(errno, it) for it in names.split()] for call, names in DOCUMENTED.items()}
# all errors of Linux
EVERY = range(1, 134)
# how few bytes a read or write may move; a read of none is the end of a file, so only writes may move none
LENGTHS = {"read": range(1, 20), "write": range(20)}
# files that are standard input
MAIN, SUMS = "example/go.mod", "example/go.sum"
# a file of 500 KB, whose layout has 200 KB
LARGE = "".join(f"require{60 * ' '}local/{it:020} v1.0.0\n" for it in range(5000)).encode()
# Two command lines or more of each command, each with its standard input, and some with more errors for the first call
# on each kind of file. Together those of a command read each kind of file that it has: by name and from standard input,
# of a proxy and a folder, with and without sums. E is example/, D and V are of the cases. What is printed of L and
# reported of M takes three writes or more: their paths are long, and one of L is longer than what waits of lines. What
# is printed of W has 3,000 lines, of 32 bytes in a list.
LONG = [f"local{length * '/long-name'}/{it}" for it, length in enumerate([600, 600, 600, 600, 600, 1700])]
LINES = [
    ("fmt E/hand-written.mod", b"", EVERY),
    ("fmt -", LARGE, EVERY),
    ("edit E/go.mod go=1.22 require=example.com/q@v1.3.0 droprequire=rsc.io/quote", b"", EVERY),
    ("edit - go=1.22 require=example.com/q@v2.3.0", MAIN),
    ("graph --mod D/go.mod --proxy D/proxy", b"", EVERY),
    ("graph --mod - --proxy E/cache/download --sum E/go.sum", MAIN),
    ("list --mod E/go.mod --proxy E/cache/download --sum E/go.sum", b"", EVERY),
    ("list --mod E/go.mod --proxy E/cache/download|E/cache/download --sum -", SUMS),
    ("list --mod E/go.mod --proxy E/none", b""),
    ("list --mod D/go.mod --proxy D/proxy|D/proxy", b"", EVERY),
    ("list --mod M/go.mod --proxy M", b""),
    ("graph --mod L/go.mod --proxy L", b""),
    ("list --mod L/go.mod --proxy L", b""),
    ("list --mod W/go.mod --proxy W", b""),
    ("graph --mod W/go.mod --proxy W", b""),
    (f"chain {LONG[-1]} --mod L/go.mod --proxy L", b""),
    ("chain rsc.io/sampler --mod E/go.mod --proxy E/none,E/cache/download --sum E/go.sum", b"", EVERY),
    ("chain example.com/Upper --mod D/go.mod --proxy D/proxy", b""),
    ("chain rsc.io/sampler --mod - --proxy E/cache/download", MAIN),
    ("versions example.com/p", b"v1.10.0\nv1.9.0\n\njunk\nv2.0.0\n"),
    ("versions example.com/p --proxy V/cache,V/mirror", b"", EVERY),
    ("list --limit 0 --proxy D/proxy", b""),
    ("edit --help", b""),
]
FOLDERS = {"E": "example", "D": "crates/run_cases/data/example", "V": "crates/run_cases/data/versions"}
# the modules of the main files in D, L and W that folders and another module replace
REPLACED = {"./local": "example.com/local@v0.0.0", "example.com/fork@v1.1.0": "example.com/c@v1.9.0"}
REPLACED["./x"] = "local@v1.0.0"
REPLACED |= {f"./{number}": f"{it}@v1.0.0" for number, it in enumerate(LONG)}
NO_MEMORY = b"", b"gomod: no memory\n", 3
# how many bytes of lines wait to be written (crates/gomod_texts/src/reports/buffer.rt)
WAITING = 16_384
# how many seconds a run has
LIMIT = 60
# modules whose files others change in these ways, how often, and what runs meanwhile
MODULES, ROUNDS = 12, 100
WAYS = ["in place", "in place", "renamed", "renamed", "cut", "longer", "gone", "folder", "link"]
RACES = [
    "list --proxy P --sum go.sum",
    "graph --proxy P --sum go.sum",
    "chain q.x/m5 --proxy P --sum go.sum",
    "list --proxy P|P --sum go.sum",
]


class Fault(NamedTuple):
    """The call with a number fails with an error, with all later ones if `later` is 1; with a length that isn't
    negative it moves no more bytes instead."""

    call: str
    at: int
    later: int
    error: int
    length: int

    def __str__(self):
        return ":".join(map(str, self))

    def does_nothing(self):
        """Whether the program must do as without it: the file is closed all the same, a further read or write moves the
        rest, and the standard library opens a file again if it was interrupted. An interrupted read or write failed."""
        return self.call == "close" or self.length > 0 or (self.call == "open" and self.error == errno.EINTR)


class Call(NamedTuple):
    """A call of a run without a fault: the file of an open, read or close or the stream of a write, and the result."""

    call: str
    file: str
    result: int


class Line:
    """A command line, the result that it has without a fault, and its calls."""

    def __init__(self, trial, text, stdin, errors=()):
        self.trial, self.text, self.words, self.errors = trial, text, text.split(), errors
        self.stdin = read(stdin).encode() if isinstance(stdin, str) else stdin
        *self.plain, told = trial.run(self, [])
        if not told[:-1]:
            sys.exit(f"faults: the library saw no call of gomod {text}")
        self.plain, self.calls, files = tuple(self.plain), [], {"0": "-"}
        for call, argument, result in (re.fullmatch(r"(\w+) (.*) (-?\d+)", it).groups() for it in told[:-1]):
            if call == "open" and int(result) >= 0:
                files[result] = argument
            self.calls.append(Call(call, argument if call == "open" else files.get(argument, argument), int(result)))

    def judge_writes(self):
        """Tells if a stream takes more writes than it needs, one of no bytes, or one that cuts a line that fits."""
        for stream, text in zip("12", self.plain):
            sizes = [it.result for it in self.of_kind("write") if it.file == stream]
            if any(len(line) >= WAITING for line in text.split(b"\n")):
                is_right = 0 not in sizes and len(sizes) <= 1 + 2 * len(text) // WAITING
            else:
                is_right = sizes in ([len(text)], packed(text))
            if not is_right:
                self.trial.judge(f"gomod {self.text}: {len(sizes)} writes of {len(text)} bytes", sizes, False)

    def value_of(self, option):
        return self.words[self.words.index(option) + 1] if option in self.words else ""

    def name_of(self, file):
        """How a report names a file that is not named by the words."""
        for proxy in re.split("[,|]", self.value_of("--proxy")):
            found = re.fullmatch(rf"{re.escape(proxy)}/(.*)/@v/(?:(list)|(.*)\.mod)", file)
            if found:
                path, is_list, version = found.groups()
                return unescaped(path) + (" list" if is_list else "@" + unescaped(version or ""))
        return os.path.dirname(file).partition("/")[2]

    def is_named(self, file):
        return file in (*self.words[1:2], self.value_of("--mod"), self.value_of("--sum"), "-")

    def kind_of(self, file):
        """Whether the words name a file, a proxy folder has it, or neither: one that replaces a module, or a stream."""
        return "named" if self.is_named(file) else "proxy" if "/@v/" in file else "other"

    def refusal(self, file):
        told = f"cannot read {file}" if self.is_named(file) else f"device at {self.name_of(file)}"
        return b"", f"gomod: {told}\n".encode(), 3

    def missing(self, file):
        name = self.name_of(file).removesuffix(" list")
        return f"{REPLACED.get(name, name)}: Missing".encode()

    def of_kind(self, call):
        return [it for it in self.calls if it.call == call]

    def cut(self, number):
        before = self.of_kind("write")[: number - 1]
        out, report = (sum(it.result for it in before if it.file == stream) for stream in "12")
        return self.plain[0][:out], self.plain[1][:report], 3

    def is_right(self, fault, got):
        """Whether a result is right with one fault."""
        calls = self.of_kind(fault.call)[fault.at - 1 :]
        file = calls[0].file
        falls_back = "|" in self.value_of("--proxy") and self.kind_of(file) == "proxy" and not fault.later
        of_open = fault.error if fault.call == "open" else 0
        if fault.does_nothing():
            return got == self.plain
        if fault.call == "write":
            return got == self.cut(fault.at)
        if of_open == errno.ENOMEM:
            return got == NO_MEMORY
        if falls_back:
            return got == self.plain
        if of_open == errno.ENOENT and not self.is_named(file):
            return self.is_missing(calls if fault.later else calls[:1], got)
        return got == self.refusal(file)

    def is_missing(self, calls, got):
        """Whether a result is right if these opens find nothing: the first file is reported, and then only others."""
        if all(it.result < 0 for it in calls):
            return got == self.plain
        lines = set(got[1].splitlines())
        wanted = {self.missing(it.file) for it in calls}
        return got[0] == b"" and got[2] == 1 and lines <= wanted and (self.missing(calls[0].file) in lines)

    def is_right_with_two(self, faults, got):
        """Whether a result is right with several faults, of which none is an ENOENT: that of one of them or of none, or
        a beginning of it if a write fails."""
        right = [self.plain]
        if any(it.call == "memory" or it.error == errno.ENOMEM for it in faults):
            right.append(NO_MEMORY)
        if any(it.call in ("open", "read") for it in faults):
            right += [self.refusal(it.file) for it in self.calls if it.call in ("open", "read")]
        if any(it.call == "write" and not it.does_nothing() for it in faults) and got[2] == 3:
            return any(it[0].startswith(got[0]) and it[1].startswith(got[1]) for it in right)
        return got in right

    def faults(self):
        """Each fault that is tried alone."""
        for call, errors in ERRORS.items():
            kinds = [self.kind_of(it.file) for it in self.of_kind(call)]
            # many bytes are not moved one by one
            step = max(1, sum(it.result for it in self.of_kind(call)) // 10_000)
            for at, later in itertools.product(range(1, len(kinds) + 1), (0, 1)):
                more = self.errors if not later and kinds.index(kinds[at - 1]) + 1 == at else ()
                # an open that is interrupted for ever is tried for ever
                not_tried = {errno.EINTR} if later and call == "open" else set()
                for error in {*errors, *more} - not_tried:
                    yield Fault(call, at, later, error, -1)
                for length in LENGTHS.get(call, ()):
                    yield Fault(call, at, later, 0, length * step)

    def some_fault(self, chance):
        """A fault at random, for a pair."""
        call = chance.choice(["memory", "open", "read", "write", "close"])
        at = chance.randint(1, 300 if call == "memory" else max(1, len(self.of_kind(call))))
        errors = [errno.ENOMEM] if call == "memory" else [it for it in ERRORS[call] if it != errno.ENOENT]
        error = chance.choice(errors)
        later = chance.randint(0, 0 if call == "open" and error == errno.EINTR else 1)
        length = chance.choice(LENGTHS[call]) if call in LENGTHS and chance.random() < 0.5 else -1
        return Fault(call, at, later, error, length)


def packed(text):
    """How many bytes each write has if lines wait: those of as many whole lines as fit."""
    sizes = []
    for line in text.splitlines(keepends=True):
        if not sizes or sizes[-1] + len(line) > WAITING:
            sizes.append(0)
        sizes[-1] += len(line)
    return sizes


class Judged:
    """A program whose runs are judged."""

    def __init__(self, program):
        self.program, self.runs, self.wrong = program, 0, 0

    def judge(self, what, got, is_right):
        """Counts a run, and prints it if it is wrong, each part of what came cut to 300 characters."""
        self.runs += 1
        if not is_right:
            self.wrong += 1
            print(what, *(f"  {str(it)[:300]}" for it in got), sep="\n", flush=True)


class Trial(Judged):
    """The program with its library, in a scratch folder, and what was found."""

    def __init__(self, program, library, folder):
        super().__init__(program)
        self.folder = folder
        self.environment = {**os.environ, "LD_PRELOAD": library}
        self.pool = concurrent.futures.ThreadPoolExecutor(AT_ONCE)

    def run(self, line, faults):
        """The output, the report and the status of a command line with these faults, and what the library told."""
        # standard input is a file, since how much a pipe gives at once is chance
        with open(os.memfd_create("told"), "rb") as told, script.holding(line.stdin) as stdin:
            number = told.fileno()
            try:
                got = script.run_within(
                    ["gomod", *line.words],
                    LIMIT,
                    executable=self.program,
                    cwd=self.folder,
                    env={**self.environment, "FAULTS": " ".join(map(str, faults)), "FAULTS_TOLD": str(number)},
                    pass_fds=[number],
                    stdin=stdin,
                )
            except subprocess.TimeoutExpired:
                return b"", f"only waits, for {LIMIT} seconds".encode(), -1, ["changed 1"]
            told.seek(0)
            return got.stdout, got.stderr, got.returncode, told.read().decode().splitlines()

    def try_one(self, line, faults, is_right):
        """Runs a command line with faults: the result is right, and a call was changed."""
        *got, told = self.run(line, faults)
        is_met = len(faults) > 1 or told[-1:] != ["changed 0"]
        what = f"gomod {line.text}\n  FAULTS='{' '.join(map(str, faults))}'{'' if is_met else ': no call was changed'}"
        self.judge(what, got, is_right(tuple(got)) and is_met)

    def all_at(self, jobs):
        """Judges each job, many at once: a line, its faults, and what is right."""
        for _ in self.pool.map(lambda job: self.try_one(*job), jobs):
            pass

    def try_each(self, lines):
        self.all_at(
            (line, [fault], lambda got, line=line, fault=fault: line.is_right(fault, got))
            for line in lines
            for fault in line.faults()
        )

    def try_pairs(self, lines, count, seed):
        """Two faults at once, so often. Lines whose proxy folders fall back are left out: there two failures have a
        result that none of them has alone."""
        chance, jobs = random.Random(seed), []
        lines = [it for it in lines if "|" not in it.text]
        for line in chance.choices(lines, k=count):
            faults = [line.some_fault(chance), line.some_fault(chance)]
            jobs.append((line, faults, lambda got, line=line, two=faults: line.is_right_with_two(two, got)))
        self.all_at(jobs)


def compiled(folder):
    compiler, library = os.environ.get("CC") or "cc", os.path.join(folder, "faults.so")
    subprocess.run([compiler, "-O1", "-shared", "-fPIC", "-o", library, "tools/try/faults.c"], check=True)
    return library


def try_faults(program, pairs, seed):
    """Tries each fault, and so many pairs of them, and gives whether a run was wrong."""
    with tempfile.TemporaryDirectory(prefix="gomod-faults-") as folder:
        for name, place in FOLDERS.items():
            shutil.copytree(place, os.path.join(folder, name))
        many = "".join(f"require local/{200 * 'm'}/{it} v1.0.0\n" for it in range(200))
        write(os.path.join(folder, "M", "go.mod"), f"module m\n{many}")
        required = [*(f"require {it} v1.0.0\n" for it in LONG), ""]
        replaced = "".join(f"replace {it} => ./{number}\n" for number, it in enumerate(LONG))
        write(os.path.join(folder, "L", "go.mod"), f"module m\n{required[0]}{replaced}")
        for number, it in enumerate(LONG):
            write(os.path.join(folder, "L", str(number), "go.mod"), f"module {it}\n{required[number + 1]}")
        wide = "".join(f"require example.com/{it:012} v1.0.0\n" for it in range(3000))
        main = f"module {31 * 'm'}\ngo 1.17\nrequire local v1.0.0\nreplace local => ./x\n"
        write(os.path.join(folder, "W", "go.mod"), main)
        write(os.path.join(folder, "W", "x", "go.mod"), f"module local\ngo 1.17\n{wide}")
        trial = Trial(program, compiled(folder), folder)
        lines = [Line(trial, *it) for it in LINES]
        for it in lines:
            it.judge_writes()
        trial.try_each(lines)
        single = trial.runs
        trial.try_pairs(lines, pairs, seed)
        print(f"{single} runs with a fault, {trial.runs - single} with two, {trial.wrong} wrong")
        return trial.wrong > 0


def place(number):
    return f"P/q.x/m{number}/@v/v1.0.0.mod"


def text_of(number, is_other):
    """The file of a module, of more bytes than are read at once: it requires two others, or one of its own."""
    ends = [f"extra{number}"] if is_other else [f"m{(number + it) % MODULES}" for it in (1, 3)]
    required = "".join(f"require q.x/{it} v1.0.0\n" for it in ends)
    return f"module q.x/m{number}\n\ngo 1.16\n\n//{'c' * 5000}\n{required}//{'d' * 70_000}\n"


def lay():
    """Lays the files that others change, with their sums."""
    write("go.mod", "module m.x/m\n\ngo 1.16\n\nrequire q.x/m0 v1.0.0\n")
    for number in range(MODULES):
        write(place(number), text_of(number, False))
    sums = (f"q.x/m{it} v1.0.0/go.mod {hash_of(text_of(it, False))}\n" for it in range(MODULES))
    write("go.sum", "".join(sums))


def replace(name, text, seed):
    """Puts another file in the place of one at once."""
    write(f"{name}.{seed}", text)
    os.replace(f"{name}.{seed}", name)


def change(chance, seed):
    """Changes a file in one of the ways."""
    number, way = chance.randrange(MODULES), chance.choice(WAYS)
    name = place(number)
    if way == "in place":
        write(name, text_of(number, chance.random() < 0.5))
    elif way == "renamed":
        replace(name, text_of(number, chance.random() < 0.3), seed)
    elif way == "cut":
        os.truncate(name, chance.randrange(80_000))
    elif way == "longer":
        with open(name, "a", encoding="utf-8") as file:
            file.write("// more\n" * 2000)
    elif way == "link":
        os.symlink(f"../../m{(number + 1) % MODULES}/@v/v1.0.0.mod", f"{name}.{seed}")
        os.replace(f"{name}.{seed}", name)
    else:
        os.remove(name)
        if way == "folder":
            os.mkdir(name)
            os.rmdir(name)
    if way not in ("in place", "renamed"):
        replace(name, text_of(number, False), seed)


def keep_changing(seed, ended):
    """Changes files until the event. Another writer may be in the way."""
    chance = random.Random(seed)
    while not ended.is_set():
        with contextlib.suppress(OSError):
            change(chance, seed)


class Race(Judged):
    """The program over files that others change, and what it prints of them as they were."""

    def __init__(self, program):
        super().__init__(program)
        self.right = dict(self.results(RACES))
        if any(status for status, *_ in self.right.values()):
            sys.exit(f"faults: a run before the race is wrong: {self.right}")

    def results(self, lines):
        """What command lines come to that run side by side: the status, the output and the report of each."""
        given = {"stdin": DEVNULL, "stdout": PIPE, "stderr": PIPE}
        for line, child in [(it, subprocess.Popen([self.program, *it.split()], **given)) for it in lines]:
            out, report = script.finish(child, None, LIMIT)
            yield line, (child.returncode, out, report)

    def try_at_once(self, lines, may_fail):
        """Judges command lines that run side by side."""
        for line, got in self.results(lines):
            is_fault = may_fail and got[0] in (1, 3) and not got[1] and got[2]
            self.judge(f"a race: gomod {line}", got, is_fault or got == self.right[line])


def try_races(program, seed):
    """Runs command lines over files that change, then many at once, and gives whether one was wrong."""
    ended = threading.Event()
    writers = [threading.Thread(target=keep_changing, args=(seed + it, ended)) for it in (0, 1)]
    with tempfile.TemporaryDirectory(prefix="gomod-races-") as folder:
        os.chdir(folder)
        lay()
        race = Race(program)
        for it in writers:
            it.start()
        try:
            for _ in range(ROUNDS):
                race.try_at_once(8 * RACES, True)
        finally:
            ended.set()
            for it in writers:
                it.join()
        shutil.rmtree("P")
        lay()
        race.try_at_once(50 * RACES, False)
        print(f"{race.runs} runs in races, {race.wrong} wrong")
        return race.wrong > 0


def main(*words):
    """Tries all, and returns the status."""
    program, words = script.program_of(words)
    is_whole = words[:1] == ("--whole",)
    numbers = ["20000", *words[1:]] if is_whole else words
    pairs, seed = map(int, [*numbers, *("2000", "1")[len(numbers):]])
    is_wrong = try_faults(program, pairs, seed)
    return int(is_wrong | try_races(program, seed) if is_whole else is_wrong)


if __name__ == "__main__":
    script.run(main, r"( --program \S+)?( --whole( \d{1,9})?|( \d{1,9}){0,2})")
