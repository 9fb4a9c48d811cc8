#!/usr/bin/env -S python3 -B
"""Runs each command of bin/gomod at three sizes, each twice the one before it, and compares what they cost.

    tools/try/doubling.py                 with bin/gomod: what .ci/run runs
    tools/try/doubling.py --program FILE  with another program

tools/try/doubling.py has a row for each kind of input that may grow. Where valgrind is there, the cost is the number of
instructions, and else CPU time, of inputs that are sixteen times as large. The cost of the last doubling may be at
most 2.4 times that of the first: n log n passes, n squared is 4 times. Three kinds of input have no row, since their
cost is a product: the lines that `graph` prints if modules share a file, operations of `edit` on as many lines, of
which a row has few, and one file under many names. What many operations on many lines may take is a number of
instructions, whatever the names are; without valgrind it isn't measured.

It prints each row, and at last how many were wrong. The status is 1 if one was wrong, or ended with another status than
it should. It takes 80 s of CPU time, on all processors if it has valgrind. Without valgrind it takes several minutes.
It writes files to /dev/shm, if a gigabyte is free there.
"""

import concurrent.futures
import math
import os
import random
import re
import resource
import shutil
import subprocess
import sys
import tempfile
from typing import Callable, NamedTuple

sys.path.append(f"{sys.path[0]}/..")
import script
from go_worlds import hash_of
from script import read, write

MOST = 2.4
# without valgrind CPU time is measured: of greater inputs, and the least of so many runs
LARGER, RUNS = 16, 5
# how many seconds a run has
LIMIT = 120
# where gm_graph_files makes tags of lists, and how; from how many numbers the lists of one tag are made
TAGS = script.TOP / "crates/gm_graph_files/src/list_index.rt"
TAG_STEP = "tag = (tag.rotate_left(5) ^ *number).wrapping_mul(SPREAD);"
NUMBERS = 16_384
# where files are laid: in memory, if a gigabyte is free there, since thousands take long on a disk
IN_MEMORY = "/dev/shm"
FOLDER = IN_MEMORY if os.path.isdir(IN_MEMORY) and shutil.disk_usage(IN_MEMORY).free > 2**30 else None
COUNTED = re.compile(r"I\s+refs:\s+([\d,]+)")


def block(verb, lines):
    return f"{verb} (\n" + "".join(f"\t{it}\n" for it in lines) + ")\n"


def main_of(lines, more="", go="1.16"):
    """A main file that requires the modules in these lines."""
    return f"module example.com/m\n\ngo {go}\n\n" + block("require", lines) + more


def numbered(count, text="a.c/{} v1.0.0"):
    return [text.format(it) for it in range(count)]


def ring(count):
    """The files of a main module that requires one of so many, each of which requires the one before it."""
    files = {
        f"proxy/a.c/{it}/@v/v1.0.0.mod": f"module a.c/{it}\n\nrequire a.c/{(it - 1) % count} v1.0.0\n"
        for it in range(count)
    }
    return {"go.mod": main_of(["a.c/0 v1.0.0"])} | files


def sum_of(path, text):
    return f"{path} v1.0.0/go.mod {hash_of(text)}\n"


def wide(count):
    files = {f"proxy/{it}/@v/v1.0.0.mod": f"module {it}\n" for it in numbered(count, "a.c/{}")}
    sums = "".join(sum_of(it, f"module {it}\n") for it in numbered(count, "a.c/{}"))
    return {"go.mod": main_of(numbered(count)), "go.sum": sums} | files


def missing(count):
    """A main file that requires so many modules, and so many versions of one in whose place is a path as long."""
    more = f"\nreplace a.c => {'x' * 10 * count} v1.0.0\n"
    return {"go.mod": main_of(numbered(count) + numbered(count, "a.c v1.0.{}"), more)}


def pruned(count):
    """The files of a main module that requires one, which requires so many."""
    return {
        "go.mod": main_of(["example.com/a v1.0.0"], go="1.17"),
        "proxy/example.com/a/@v/v1.0.0.mod": main_of(numbered(count), go="1.17").replace("/m\n", "/a\n", 1),
    }


def replaced(count):
    more = block("exclude", numbered(count, "a.c v1.0.{}")) + block("replace", numbered(count, "a.c v1.1.{} => ./x"))
    return {"go.mod": main_of(["a.c v1.0.0"], more)}


def summed(count):
    return {"go.mod": "module example.com/m\n", "go.sum": "".join(numbered(count, "a.c/{} v1.0.0/go.mod h1:x\n"))}


def retracted(count):
    """A list of so many versions, each of which the file of the latest one retracts."""
    versions = numbered(count, "v1.0.{}")
    return {
        "proxy/a.c/@v/list": "\n".join(versions),
        f"proxy/a.c/@v/v1.0.{count - 1}.mod": "module a.c\n\n" + block("retract", versions),
    }


def turned(number, left):
    return (number << left | number >> (32 - left)) & 0xFFFFFFFF


def spread():
    """What the tag of a list is multiplied by after each number."""
    text = read(TAGS)
    found = re.search(r"const SPREAD: u32 = (0x[0-9A-F_]+);", text)
    if not found or TAG_STEP not in text:
        sys.exit("doubling: list_index.rt no longer makes tags as lists_of_one_tag does")
    return int(found[1].replace("_", ""), 16)


def lists_of_one_tag(count, base):
    """So many lists of eight of the numbers from `base` on whose tag is 0, as `tag_of` of gm_graph_files makes it. Six
    are chosen; the last two must cancel what these leave, and are looked up by their exclusive or."""
    factor = spread()
    inverse = pow(factor, -1, 1 << 32)
    before_last = {}
    for last in range(base, base + NUMBERS):
        needed = turned(last, 27) * inverse & 0xFFFFFFFF
        before_last.setdefault(needed // NUMBERS, []).append((needed, last))
    lists, tried = [], 0
    while len(lists) < count:
        front = [base + at * 1024 + (tried >> at * 10 & 1023) for at in range(6)]
        tag = 0
        for number in front:
            tag = (turned(tag, 5) ^ number) * factor & 0xFFFFFFFF
        tag, tried = turned(tag, 5), tried + 1
        for part in range(base // NUMBERS, (base + NUMBERS - 1) // NUMBERS + 1):
            for needed, last in before_last.get(tag // NUMBERS ^ part, []):
                whole = [*front, tag ^ needed, last]
                if base <= whole[6] < base + NUMBERS and len(set(whole)) == 8:
                    lists.append(whole)
    return lists[:count]


def one_tag(count):
    """The files of a main module that requires so many. The first requires many modules, which gives them numbers, and
    the lists of the others have one tag."""
    all_modules = block("require", numbered(NUMBERS, "b.c/{} v1.0.0"))
    files = {"proxy/a.c/0/@v/v1.0.0.mod": "module a.c/0\n\ngo 1.17\n\n" + all_modules}
    for at, one in enumerate(lists_of_one_tag(count - 1, count), 1):
        required = [f"b.c/{number - count} v1.0.0" for number in one]
        files[f"proxy/a.c/{at}/@v/v1.0.0.mod"] = f"module a.c/{at}\n\ngo 1.17\n\n" + block("require", required)
    return {"go.mod": main_of(numbered(count), go="1.17")} | files


class Row(NamedTuple):
    """What grows, its first size, the command line, its files with `stdin` among them, and its status. A word that
    begins with `*` stands there as often as the size says, and so does what is in braces in a word."""

    what: str
    first: int
    text: str
    files: Callable[[int], dict]
    status: int = 0

    def words(self, size):
        words = [re.sub(r"\{(.*)\}", lambda found: found[1] * size, it) for it in self.text.split()]
        return [one for it in words for one in ([it[1:]] * size if it.startswith("*") else [it])]


def lines(count):
    return {"go.mod": main_of(numbered(count))}


def long_lines(count):
    """A main file of so many requirements with paths of a thousand bytes in quotes."""
    return {"go.mod": main_of(numbered(count, '"a.c/{:01000}" v1.0.0'))}


def edited(name_of):
    """The words of 100 operations on a main file of 4,000 requirements with these names, and its lines."""
    names = [f"example.com/{name_of(it)}" for it in range(4000)]
    words = [f"require={it}@v1.50.0" for it in names[::40]]
    return ["edit", "go.mod", *words], {"go.mod": main_of(f"{it} v1.0.0" for it in names)}


# how many instructions operations on many lines may take, and names of modules
MOST_EDITED = 45_000_000
NAMES = {
    "numbered": "module{:06}".format,
    "random": lambda it: f"{random.Random(it).randrange(36**8):012x}",
}
PROXY = "--proxy proxy"
ROWS = [
    Row("lines", 2000, "fmt go.mod", lines),
    Row("words of a line", 8000, "fmt go.mod", lambda n: {"go.mod": "x " * n}),
    Row("bytes of a comment", 200_000, "fmt go.mod", lambda n: {"go.mod": "//" + "x" * n}),
    Row("lines", 2000, "edit go.mod require=a.c/0@v1.1.0 droprequire=a.c/1 go=1.22", lines),
    Row("operations", 1000, "edit go.mod *go=1.22", lambda n: {"go.mod": "module example.com/m\n"}),
    # so few and so long that to look at the key of each line for each operation takes little, and at its words much
    Row("lines and operations", 20, "edit go.mod *droprequire=a.c/x", long_lines),
    Row("modules", 1000, f"list {PROXY}", wide),
    Row("modules with sums", 1000, f"list {PROXY} --sum go.sum --limit 1", wide),
    Row("missing modules and versions", 500, f"list {PROXY}", missing, 1),
    Row("requirements of a dependency", 2000, f"list {PROXY}", pruned),
    Row("lists of one tag", 1000, f"list {PROXY}", one_tag),
    Row("excludes and replaces", 1000, f"list {PROXY}", replaced),
    Row("sums", 2000, f"list {PROXY} --sum go.sum", summed),
    Row("proxy folders", 500, "list --proxy {p,}proxy", lambda n: wide(4)),
    Row("words that are left out", 500, f"list {PROXY} *x", lambda n: {}, 2),
    Row("words and options that are left out", 500, f"list {PROXY} *x *--json", lambda n: {}, 2),
    Row("modules in a ring", 1000, f"graph {PROXY}", ring),
    Row("requirements of a dependency", 2000, f"graph {PROXY}", pruned),
    Row("modules in a ring", 1000, f"chain a.c/1 {PROXY}", ring),
    Row("versions", 4000, "versions a.c", lambda n: {"stdin": "\n".join(numbered(n, "v1.0.{}"))}),
    Row("versions and retractions", 2000, f"versions a.c {PROXY}", retracted),
]


class Meter:
    """The program, and how it is measured: by valgrind if it is there."""

    def __init__(self, program):
        self.program, self.valgrind = program, shutil.which("valgrind")
        self.unit = "instructions" if self.valgrind else "seconds"

    def sizes(self, first):
        """Three sizes, each twice the one before it."""
        return [first * times * (1 if self.valgrind else LARGER) for times in (1, 2, 4)]

    def cost(self, words, files):
        """What a command line takes over these files, its status, and the first line of its report."""
        with tempfile.TemporaryDirectory(prefix="gomod-doubling-", dir=FOLDER) as folder:
            for name, text in files.items():
                write(os.path.join(folder, name), text)
            stdin = files.get("stdin", "").encode()
            if self.valgrind:
                return self.counted(words, folder, stdin)
            runs = [self.timed(words, folder, stdin) for _ in range(RUNS)]
            return min(it[0] for it in runs), *runs[0][1:]

    def counted(self, words, folder, stdin):
        """The instructions of a run."""
        options = ["--tool=cachegrind", "--cache-sim=no", "--cachegrind-out-file=/dev/null"]
        with tempfile.NamedTemporaryFile("r", prefix="gomod-doubling-", encoding="utf-8") as log:
            told = f"--log-file={log.name}"
            done = self.run([self.valgrind, *options, told, self.program, *words], folder, stdin)
            found = COUNTED.search(log.read())
        if not found:
            sys.exit(f"doubling: valgrind counted nothing: gomod {' '.join(words[:3])}")
        return int(found[1].replace(",", "")), done.returncode, done.stderr.partition(b"\n")[0]

    def timed(self, words, folder, stdin):
        before = resource.getrusage(resource.RUSAGE_CHILDREN)
        done = self.run([self.program, *words], folder, stdin)
        after = resource.getrusage(resource.RUSAGE_CHILDREN)
        seconds = after.ru_utime + after.ru_stime - before.ru_utime - before.ru_stime
        return seconds, done.returncode, done.stderr.partition(b"\n")[0]

    @staticmethod
    def run(words, folder, stdin):
        out, report = subprocess.DEVNULL, subprocess.PIPE
        return script.run_within(words, LIMIT, stdin, cwd=folder, stdout=out, stderr=report)

    def edited(self, kind):
        """A line on operations on many lines with names of a kind, and whether it is as it should be."""
        count, status, report = self.cost(*edited(NAMES[kind]))
        line = f"{count:,} instructions of at most {MOST_EDITED:,}: gomod edit, 100 operations on 4,000 {kind} names"
        return (f"{line}, status {status}, report {report}" if status else line), not status and count <= MOST_EDITED

    def measured(self, row):
        """A line on a row of the table, and whether it is as it should be."""
        sizes = self.sizes(row.first)
        costs, statuses, reports = zip(*(self.cost(row.words(it), row.files(it)) for it in sizes))
        if self.valgrind:
            # what a run takes at any size is in neither difference
            growth = (costs[2] - costs[1]) / max(costs[1] - costs[0], 1)
        else:
            # of two doublings together, since seconds are never quite the same
            growth = math.sqrt(costs[2] / costs[0])
        shown = ", ".join(f"{it:,}" if self.valgrind else f"{it:.2f}" for it in costs)
        line = f"{growth:.2f} times for twice the {row.what}: gomod {row.text} ({shown} {self.unit})"
        if set(statuses) != {row.status}:
            return f"{line}, statuses {statuses}, reports {reports}", False
        return line, growth <= MOST


def main(*words):
    """Measures all, and returns the status."""
    meter = Meter(script.program_of(words)[0])
    # CPU times are of all children, so that there may be one at a time
    at_once = script.AT_ONCE if meter.valgrind else 1
    wrong = 0
    with concurrent.futures.ThreadPoolExecutor(at_once) as pool:
        rows = [(meter.measured, it) for it in ROWS] + [(meter.edited, it) for it in NAMES if meter.valgrind]
        for line, is_right in pool.map(lambda it: it[0](it[1]), rows):
            wrong += not is_right
            print(line if is_right else f"wrong: {line}", flush=True)
    print(f"{len(rows)} rows, {wrong} wrong, by {meter.unit}")
    return 1 if wrong else 0


if __name__ == "__main__":
    script.run(main, r"( --program \S+)?")
