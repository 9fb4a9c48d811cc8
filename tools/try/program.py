#!/usr/bin/env -S python3 -B
"""Runs bin/gomod itself over the cases of command lines, and compares standard output, standard error and the status.

    tools/try/program.py                     the cases of crates/run_cases/data and its folders sizes and program
    tools/try/program.py FILE.txt.. TITLE..  those of these files, or those whose titles have one of these texts
    tools/try/program.py --unproved ..       the same with a program that unproved.sh made: where a case has the version
                                             of a proved one, what it prints has to say that nothing is proved
    tools/try/program.py --quick ..          that with an eighth of a size over 131,072, but no less than that, and in
                                             the other world without large cases and those about memory
    tools/try/program.py --program FILE ..   the same with another program

The merge gate runs the same cases inside a process, without standard error and the way from the words to the system.
Calls, cases with a file at the root of the system, and those of files without permission for root are left out.

Of a case with a range of sizes it runs the greatest, of one with a list each. Each command then has an address space of
64 MiB and a hundred times the bytes of its words and of the files of the case, or what a line `% memory N` gives, and
always the stack that README.md names. A command that only waits for 100 seconds ends the script.

The program's name is not UTF-8. The folder of a case, the one above, HOME and TMPDIR must be the same after its
commands as before. In a case with a line `% streams` each command runs with each mixture of standard streams that are
open, closed, /dev/full or open the wrong way, and with a socket or a folder as an input that it reads: if the stream
that it needs takes no byte, the status must be 3, and the other one empty.

Then all cases run once more in another world. Its program is nobody's, if root starts it, so that permissions count.
Its environment is full of variables that the go command, a library or a terminal reads, and for every eighth command
empty. Standard output, standard error or both are terminals, and so is standard input, unless the words name it: then
it is a file, or the text was typed. Output, report and status have to be those of the case. A case with a range of
sizes runs at about 1,000, one with a list at those up to 20,000, or at the least. If strace may look at processes, it
shows what each command opens and calls (opened.py); if it doesn't, the last line says so. If refuse-memory.sh sets
REFUSE_MEMORY, each command runs again with each of its allocations refused, and there is no other world.

Without arguments it removes bin/opened.txt, and if all pass and strace is there makes it anew for release.sh: the
number of commands, the day and the commit, and the sha256 of bin/gomod. It does neither without git, or in a bin/ that
it may not write. It prints each difference. The status is 1 if a case failed.
"""

import concurrent.futures
import contextlib
import errno
import hashlib
import itertools
import multiprocessing
import os
import pathlib
import re
import resource
import selectors
import shutil
import signal
import socket
import subprocess
import sys
import tempfile
import termios
import threading
import time
import tty

sys.path.append(f"{sys.path[0]}/..")
import script
import opened
from case_files import (
    PIPES, bytes_below, case_of, chosen_cases, greatest_sizes, laid, moderate_sizes, quick_sizes, shown
)
from script import AT_ONCE, holding, ticks_of, write

RECORD = "bin/opened.txt"
REFUSE_MEMORY = os.environ.pop("REFUSE_MEMORY", None)
REFUSE_LATER = os.environ.pop("REFUSE_LATER", None)
# each way to refuse an allocation, and whether that refuses later ones, too
WAYS = [("allocation {} refused", 0), ("allocation {} and all later ones refused", 1)]
# how many refused runs are begun before a result is looked at
BATCH = 8 * AT_ONCE
# the name that each command is called by, as from a folder whose name is not UTF-8
NAME = b"b\xff/gomod"
NO_MEMORY = b"", b"gomod: no memory\n", 3
PASSED = b"changed 0\n"
# how many seconds a command has
LIMIT = 100
# a standard input without a byte, which ends when this script does
OPEN_INPUT, _WRITER = os.pipe()
# the address space that a command may have beside FACTOR times the bytes of its words and files
SPARE, FACTOR = 64 << 20, 100
# what a standard stream may be, and a standard input beside that; `open` is a pipe, `wrong` open the wrong way
KINDS = "open", "closed", "full", "wrong"
INPUTS = *KINDS, "socket", "folder"
PLACES = {"full": "/dev/full", "wrong": "/dev/null", "folder": "/"}
OPEN = "open", "open", "open"
# what follows if a needed stream takes no byte, if standard input gives none, and if it gives zeros for ever
CUT = b"", b"", 3
UNREAD = b"", b"gomod: cannot read -\n", 3
ENDLESS = {b"fmt": (b"", b"go.mod:0: TooMany\n", 1), b"versions": (b"", b"example.com/a: TooLong\n", 1)}
# What is typed at the end of a text, and how long a text may be to be typed.
END_KEY, TYPED = b"\x04", 2000
NOBODY = 65534
# What a file of the environment has, below HOME.
HOME_FILES = {
    ".config/go/env": "GOFLAGS=-mod=mod\nGOPROXY=off\n",
    "go.mod": "module example.com/home\n",
    "go.work": "go 1.21\n\nuse .\n",
    "go/pkg/mod/cache/download/example.com/a/@v/list": "v9.0.0\n",
    "go/pkg/mod/cache/download/example.com/a/@v/v1.0.0.mod": "module example.com/a\n\nrequire example.com/z v1.0.0\n",
}
# HOME stands for the folder of that variable.
VARIABLES = """
GO111MODULE=off GOARCH=arm64 GOAUTH=netrc GOBIN=HOME/bin GOCACHE=HOME/cache GODEBUG=netdns=go,gctrace=1
GOENV=HOME/.config/go/env GOEXPERIMENT=none GOFIPS140=off GOFLAGS=-mod=vendor,-modfile=other.mod GOGC=off
GOINSECURE=* GOMAXPROCS=1 GOMEMLIMIT=1 GOMOD=HOME/go.mod GOMODCACHE=HOME/go/pkg/mod GONOPROXY=* GONOSUMCHECK=1
GONOSUMDB=* GOOS=plan9 GOPATH=HOME/go GOPRIVATE=* GOPROXY=off GOROOT=HOME GOSUMDB=off GOTELEMETRY=on
GOTMPDIR=HOME GOTOOLCHAIN=local GOTRACEBACK=crash GOVCS=*:off GOVERSION=go1.1 GOWORK=HOME/go.work
GOMOD_PROXY=HOME/go/pkg/mod/cache/download GOMOD_FLAGS=--help GOMOD_CONFIG=HOME/go.mod GOMOD_COLOR=always
LANG=tr_TR.UTF-8 LC_ALL=tr_TR.UTF-8 LC_COLLATE=C LC_CTYPE=tr_TR.ISO-8859-9 LANGUAGE=tr TERM=xterm-256color
COLORTERM=truecolor CLICOLOR=1 CLICOLOR_FORCE=1 FORCE_COLOR=3 NO_COLOR=1 COLUMNS=20 LINES=5 PAGER=cat EDITOR=vi
CI=true GITHUB_ACTIONS=true DEBUG=1 VERBOSE=1 RUST_BACKTRACE=full RUST_LOG=trace POSIXLY_CORRECT=1 TZ=Asia/Kathmandu
PATH=/usr/bin:/bin PWD=/nowhere OLDPWD=/ SHELL=/bin/sh USER=nobody LOGNAME=nobody SHLVL=9 http_proxy=http://localhost:1
https_proxy=http://localhost:1 XDG_CONFIG_HOME=HOME/.config XDG_CACHE_HOME=HOME/cache SOURCE_DATE_EPOCH=1
MALLOC_PERTURB_=165 GLIBC_TUNABLES=glibc.malloc.tcache_count=0
"""
# the signals that a command ignores and blocks: the others end a command, or this process needs them
IGNORED = set(range(1, 32)) - {signal.SIGINT, signal.SIGTERM, signal.SIGXCPU, signal.SIGCHLD}


def stack_of_readme():
    return 1024 * int(re.search(r"`ulimit -s (\d+)`", script.read("README.md"))[1])


@contextlib.contextmanager
def limited(kind, most):
    """Sets a limit of this process, for what it starts meanwhile. To set it in a process just before it becomes the
    command takes four times as long as starting the command does. Meanwhile it holds for this process, too."""
    before = resource.getrlimit(kind)
    resource.setrlimit(kind, (most, before[1]))
    try:
        yield
    finally:
        resource.setrlimit(kind, before)


def prepared(memory, closed=()):
    """What limits the memory of a process that becomes a command, and closes its standard streams, if there is such."""

    def prepare():
        if memory:
            resource.setrlimit(resource.RLIMIT_AS, (memory, memory))
        for number in closed:
            os.close(number)

    return prepare if memory or closed else None


class World:
    """A program, in a process that runs cases in a folder of its own."""

    here = None  # that of this process
    name = ""

    def __init__(self, program, how, scratch, turn):
        self.program, self.is_proved, self.is_quick, self.turn = program, not how, how == "--quick", turn
        self.folder = tempfile.mkdtemp(prefix="worker-", dir=scratch)
        self.count = 0  # how many runs had an allocation refused, or were seen by strace
        self.own_process()
        self.home, self.temporary = (os.path.join(self.folder, it) for it in ("home", "tmp"))
        for folder, (name, text) in itertools.product((self.home, self.temporary), HOME_FILES.items()):
            write(os.path.join(folder, name), text)

    def own_process(self):
        """Changes this process."""

    def wanted(self, run):
        return run.wanted(self.is_proved)

    def all_faults(self, path, case):
        """What is wrong with a case, in lines, the first of which says which case it is."""
        said, folder = [], self.folder.encode()
        with laid(case, os.path.join(folder, b"case"), [folder], said) as place:
            for run in case.commands():
                said += self.faults_of(run, case, place)
        return [f"{path}:{case.line}: {case.title}{self.name}", *said] if said else []


class ThisWorld(World):
    """This world, in which more is tried of a command."""

    def __init__(self, *given):
        super().__init__(*given)
        self.stack = stack_of_readme()
        self.starting = threading.Lock()  # limits are those of all threads
        self.environment = {**os.environ, "HOME": self.home, "TMPDIR": self.temporary}

    def takes(self, case):
        """Whether a case is run as this user, with files as its words name them."""
        is_large = REFUSE_MEMORY and (case.is_large() or case.has(*PIPES))
        is_root = not os.geteuid()
        return not (case.is_rooted() or is_large or (is_root and any(it.has_mode() for it in case.pieces)))

    def stack_with(self, words, environment):
        """The stack for a command. Its arguments lie there too, and Linux gives them no more than a fourth of it."""
        texts = [*words, *map(os.fsencode, environment), *map(os.fsencode, environment.values())]
        size = len(b"".join(texts)) + 10 * len(texts)
        return max(self.stack + size, 4 * size)

    def result(self, run, case, folder, stdin, refused=None, memory=None, kinds=OPEN):
        """What a run comes to, with standard streams of these kinds: output, report and status."""
        environment = self.environment
        if refused:
            environment = {**environment, "LD_PRELOAD": REFUSE_MEMORY, "FAULTS": refused}
        words = [NAME, *run.words[1:]]
        stack = self.stack_with(words, environment)
        text = stdin if run.reads_input() else None
        with contextlib.ExitStack() as closing, case.fed(folder) as descriptors:
            streams = [stream(kind, number, text, closing) for number, kind in enumerate(kinds)]
            with self.starting, limited(resource.RLIMIT_STACK, stack):
                command = subprocess.Popen(
                    words,
                    executable=self.program,
                    cwd=folder,
                    env=environment,
                    preexec_fn=prepared(memory, [it for it, kind in enumerate(kinds) if kind == "closed"]),
                    pass_fds=descriptors,
                    **dict(zip(("stdin", "stdout", "stderr"), streams)),
                )
            with command:
                try:
                    out, report = script.finish(command, text, LIMIT)
                except subprocess.TimeoutExpired:
                    only_waits(run)
        return out or b"", report or b"", command.returncode

    def refused(self, run, case, folder, stdin):
        """What was refused when the result was wrong for the first time, and that result, or None."""
        allowed = [NO_MEMORY] if REFUSE_LATER else [NO_MEMORY, self.wanted(run)]
        for words, is_later in WAYS if REFUSE_LATER else WAYS[:1]:
            for number, got in self.each_refused(run, case, folder, stdin, is_later):
                if got not in allowed:
                    return ", " + words.format(number), got
        return None

    def each_refused(self, run, case, folder, stdin, is_later):
        """The number of each allocation that the command makes, with the result if it is refused. Ends the script if a
        run without a refusal differs from the case, or is the first, so that nothing was tried."""

        def refused_at(number):
            return self.result(run, case, folder, stdin, f"memory:{number}:{is_later}:{errno.ENOMEM}:-1")

        with concurrent.futures.ThreadPoolExecutor(AT_ONCE) as pool:
            for first in itertools.count(1, BATCH):
                numbers = range(first, first + BATCH)
                for number, (out, report, status) in zip(numbers, pool.map(refused_at, numbers)):
                    if report.endswith(PASSED):
                        if number == 1 or (out, report.removesuffix(PASSED), status) != self.wanted(run):
                            sys.exit(f"program: {run.told(': no allocation was refused')}")
                        return
                    self.count += 1
                    yield number, (out, report, status)

    def faults_of(self, run, case, folder):
        """What is wrong with a run, in lines."""
        stdin, wanted, over = case.stdin(), self.wanted(run), ""
        got = self.result(run, case, folder, stdin, memory=memory_for(run, case, folder))
        if got == wanted and REFUSE_MEMORY and not case.is_sized:
            over, got = self.refused(run, case, folder, stdin) or ("", got)
            wanted = NO_MEMORY if over and REFUSE_LATER else wanted
        inputs = INPUTS if run.reads_input() else KINDS
        is_tried = case.has_streams and got == wanted and not REFUSE_MEMORY
        for kinds in itertools.product(inputs, KINDS, KINDS) if is_tried else ():
            over, wanted = f", streams {', '.join(kinds)}", wanted_with(kinds, run, self.wanted(run))
            got = self.result(run, case, folder, stdin, kinds=kinds)
            if got != wanted:
                break
        return [] if got == wanted else differing(run, got, wanted, over)


def memory_for(run, case, folder):
    """The address space that a run of a case may have, or None if there is no limit."""
    if case.memory or not case.is_sized:
        return case.memory
    return SPARE + FACTOR * (len(case.stdin()) + bytes_below(folder) + sum(len(it) + 1 for it in run.words))


def stream(kind, number, text, closing):
    """What a child has as the standard stream with a number, if that is of a kind; `closing` closes what is opened."""
    if kind in PLACES:
        it = os.open(PLACES[kind], os.O_RDONLY if (kind == "wrong") == (number > 0) else os.O_WRONLY)
        closing.callback(os.close, it)
        return it
    if kind == "socket":
        one, other = map(closing.enter_context, socket.socketpair())
        one.sendall(text)
        one.shutdown(socket.SHUT_WR)
        return other
    # one that is closed is this process's own until then
    return None if kind == "closed" else OPEN_INPUT if number == 0 and text is None else subprocess.PIPE


def wanted_with(kinds, run, wanted):
    """What a run comes to with standard streams of these kinds: what can't be written is lost, with status 3."""
    if run.reads_input() and kinds[0] != "open":
        wanted = {"full": ENDLESS[run.words[1]], "socket": wanted}.get(kinds[0], UNREAD)
    return wanted if kinds[1 if wanted[0] else 2] == "open" else CUT


def differing(run, got, wanted, over=""):
    """What a run came to and what is wanted, in lines."""
    return [f"  {run.told(over)}", shown("got", *got), shown("wanted", *wanted)]


def only_waits(run):
    sys.exit(f"program: {run.told(f' only waits, for {LIMIT} seconds')}")


class OtherWorld(World):
    """The other one, under strace if that is there."""

    name = ", in the other world"

    def __init__(self, *given):
        super().__init__(*given)
        self.environment = dict(it.replace("HOME", self.home).split("=", 1) for it in VARIABLES.split())
        self.environment |= dict.fromkeys(("TMPDIR", "TEMP", "TMP"), self.temporary) | {"HOME": self.home}
        self.environment["LONG"] = 100_000 * "x"
        self.silent = self.terminal()  # both ends stay open
        # not in the folder, where nothing may change
        self.log = f"{self.folder}.log"
        self.tracer = opened.tracer(self.log)

    def own_process(self):
        """Makes this process one of nobody's, if it is one of root's, and sets limits for those that it starts."""
        # the words of a command take as much of the stack as the system allows
        most = resource.getrlimit(resource.RLIMIT_STACK)[1]
        resource.setrlimit(resource.RLIMIT_STACK, (most, most))
        for it in IGNORED - {signal.SIGKILL, signal.SIGSTOP}:
            signal.signal(it, signal.SIG_IGN)
        signal.pthread_sigmask(signal.SIG_BLOCK, IGNORED)
        # this process goes on after so much time
        signal.signal(signal.SIGXCPU, lambda *_: None)
        resource.setrlimit(resource.RLIMIT_CPU, (LIMIT, resource.getrlimit(resource.RLIMIT_CPU)[1]))
        if not os.geteuid():
            os.chown(self.folder, NOBODY, NOBODY)
            with open(f"{self.folder}.log", "wb") as log:
                os.fchown(log.fileno(), NOBODY, NOBODY)
            os.setgroups([])
            os.setgid(NOBODY)
            os.setuid(NOBODY)

    def takes(self, case):
        """Whether a case has no file at the root of the system and, in a quick run, takes little time."""
        return not (case.is_rooted() or (self.is_quick and (case.memory or case.has_over(20_000, 1_000_000))))

    @staticmethod
    def terminal():
        """Both ends of a terminal that changes no byte."""
        ends = os.openpty()
        tty.setraw(ends[1])
        return ends

    def typed(self, text):
        """Both ends of a terminal at which a text was typed, and its end."""
        ends = self.terminal()
        state = termios.tcgetattr(ends[1])
        state[3] |= termios.ICANON
        state[6] = [b"\0"] * len(state[6])
        state[6][termios.VEOF] = END_KEY
        termios.tcsetattr(ends[1], termios.TCSANOW, state)
        os.write(ends[0], text + END_KEY * (1 if text.endswith(b"\n") or not text else 2))
        return ends

    @contextlib.contextmanager
    def input(self, run, case):
        """The descriptor that a run has as its standard input."""
        text = case.stdin() if run.reads_input() else b""
        if not run.reads_input():
            yield self.silent[1]
        elif run.line % 2 and len(text) < TYPED and END_KEY not in text:
            ends = self.typed(text)
            yield ends[1]
            for it in ends:
                os.close(it)
        else:
            with holding(text, self.folder) as file:
                yield file.fileno()

    def streams(self, number):
        """What the command with a number has as its output and its report: both ends, and those that this process reads
        are first."""
        are_terminals = {2: (True, False), 3: (False, True)}.get(number % 4, (True, True))
        return [self.terminal() if it else os.pipe() for it in are_terminals]

    def result(self, run, case, folder):
        """What a run comes to: output, report and status."""
        pairs, words = self.streams(run.line), [*self.tracer, self.program, *run.words[1:]]
        environment = {} if run.line % 8 == 0 else self.environment
        with self.input(run, case) as stdin, case.fed(folder) as descriptors:
            (out, own_out), (report, own_report) = pairs
            streams = {"stdin": stdin, "stdout": own_out, "stderr": own_report, "pass_fds": descriptors}
            limit = prepared(case.memory)
            command = subprocess.Popen(words, cwd=folder, env=environment, preexec_fn=limit, **streams)
            os.close(own_out)
            os.close(own_report)
            texts = read_all([out, report], command)
            if texts is None:
                only_waits(run)
            return *texts, command.wait()

    def faults_of(self, run, case, folder):
        """What is wrong with a run, in lines."""
        allowed, wanted = opened.allowed(run, case, folder), self.wanted(run)
        got = self.result(run, case, folder)
        said = differing(run, got, wanted) if got != wanted else []
        if self.tracer:
            self.count += 1
            faults = [f"  {it}" for it in opened.faults_of(self.log, allowed)]
            said += [f"  {run.told()}", *faults] if faults else []
        return said


def read_all(ends, command):
    """What comes from each of these ends until nobody writes to them. If the command only waits for too long, None, and
    it is ended."""
    texts, before = {end: [] for end in ends}, -2
    with selectors.DefaultSelector() as selector:
        for end in ends:
            selector.register(end, selectors.EVENT_READ)
        while selector.get_map():
            ready = selector.select(LIMIT / 2)
            if not ready:
                used = ticks_of(command.pid)
                if used == before:
                    # strace, too, ends what it has started
                    command.terminate()
                    return None
                before = used
            for key, _ in ready:
                try:
                    piece = os.read(key.fd, 1 << 16)
                except OSError:  # nobody has the other end of the terminal
                    piece = b""
                texts[key.fd].append(piece)
                if not piece:
                    selector.unregister(key.fd)
                    os.close(key.fd)
    return [b"".join(it) for it in texts.values()]


def prints_large_graph(program, n=1000):
    """Whether `graph` prints n*n edges in 16 MiB, compared as they come, and exits with 3 if its reader leaves."""
    targets = [f"a.b/{it}@v1.0.0" for it in sorted(map(str, range(n)))]
    sources = [f"e.x/p@v1.0.{it}" for it in range(n)]
    with tempfile.TemporaryDirectory() as folder:
        for name, head, to in ("", "m\nreplace e.x/p => ./x", sources), ("x", "e.x/p", targets):
            text = "".join(f"require {it}\n" for it in to).replace("@", " ")
            script.write(os.path.join(folder, name, "go.mod"), f"module {head}\ngo 1.17\n{text}")
        words = ["bash", "-c", 'ulimit -v 16384 && exec "$0" graph --proxy .', program]
        for status, most in (0, n), (3, n // 2):
            with subprocess.Popen(words, cwd=folder, stdout=subprocess.PIPE) as command:
                edges = [("m", sources), *((it, targets) for it in sources[:most])]
                texts = ("".join(f"{source} {it}\n" for it in to).encode() for source, to in edges)
                good = all(command.stdout.read(len(it)) == it for it in texts)
                good = good and (status or not command.stdout.read(1))
            if not good or command.returncode != status:
                print(f"{n * n} edges in 16 MiB, status {command.returncode}: $ gomod graph --proxy .")
                return False
    return True


def begin(world, *given):
    """Makes this process one that runs cases in a world."""
    World.here = world(*given)


def judge(job):
    """What is wrong with a case, in lines, and how much was counted, or None if it isn't run in this world."""
    path, *lines = job
    case, world = case_of(*lines), World.here
    if not world.takes(case):
        return None
    before = world.count
    with world.turn if case.is_hungry() else contextlib.nullcontext():
        return world.all_faults(path, case), world.count - before


def run_in(world, program, how, jobs):
    """Runs cases in a world, and prints what is wrong. Returns how many passed and failed, and what was counted."""
    passed = failed = counted = 0
    context = multiprocessing.get_context("fork")
    with tempfile.TemporaryDirectory(prefix="gomod-program-") as scratch:
        os.chmod(scratch, 0o711)
        copied = shutil.copy(program, os.path.join(scratch, "gomod"))
        os.chmod(copied, 0o755)
        given = world, copied, how, scratch, context.Lock()
        # if allocations are refused, each of these runs beside others
        with concurrent.futures.ProcessPoolExecutor(1 if REFUSE_MEMORY else AT_ONCE, context, begin, given) as pool:
            for said, count in filter(None, pool.map(judge, jobs)):
                passed, failed, counted = passed + (not said), failed + bool(said), counted + count
                print(*said, sep="\n", end="\n" if said else "")
    return passed, failed, counted


def run_all(program, how, words):
    """Runs the cases that words choose, in this world and in another one, and prints how many passed and failed.
    Returns the status, and how many commands strace saw if all passed."""
    jobs = chosen_cases(words, quick_sizes if how == "--quick" else greatest_sizes)
    if words and not jobs:
        script.misused(f"it finds no case by '{' '.join(words)}'")
    passed, wrong, refusals = run_in(ThisWorld, program, how, jobs)
    if REFUSE_MEMORY:
        print(f"{passed} passed, {wrong} failed, {refusals} runs with an allocation refused")
        return int(wrong > 0), 0
    if not words:
        is_right = prints_large_graph(program)
        passed, wrong = passed + is_right, wrong + (not is_right)
    others, failed, seen = run_in(OtherWorld, program, how, chosen_cases(words, moderate_sizes))
    if not seen:
        print("skipped, for want of strace: what each command opens")
    looked = f", {seen} commands open nothing else" if seen else "; what they open was not looked at"
    print(f"{passed} passed, {wrong} failed; in the other world {others} passed, {failed} failed{looked}")
    return (1, 0) if wrong + failed else (0, seen)


def main(*words):
    """Runs the cases, and keeps the record."""
    program, words = script.program_of(words)
    how, *words = words if words[:1] in (("--unproved",), ("--quick",)) else ("", *words)
    if sys.argv[1:] or REFUSE_MEMORY or not os.access("bin", os.W_OK) or not script.git("rev-parse", "HEAD"):
        return run_all(program, how, words)[0]
    pathlib.Path(RECORD).unlink(missing_ok=True)
    commit, checksum = script.shared("commit_here"), checksum_of(program)
    status, seen = run_all(program, how, words)
    if seen and checksum_of(program) == checksum:
        when = time.strftime("%F", time.gmtime())
        said = f"{seen} commands, none opens more than it names, on {when} at commit {commit}"
        write(RECORD, f"{said}\n{checksum}  bin/gomod\n")
    return status


def checksum_of(program):
    return hashlib.sha256(pathlib.Path(program).read_bytes()).hexdigest()


if __name__ == "__main__":
    script.run(main, r"( --program \S+)?( --unproved| --quick)?( (?!-)\S+)*")
