"""What the scripts in Python share. Those that are run name the folder of this file before they import it, which finds
the modules in all folders of tools/, and begin with `script.run(main)`."""

import collections
import contextlib
import difflib
import hashlib
import os
import pathlib
import re
import resource
import shutil
import subprocess
import sys
import tempfile

# how much there is side by side: from 24 on, cases that open descriptors 62 and 63 would meet those of a pool
AT_ONCE = min(len(os.sched_getaffinity(0)), 16)
TOP = pathlib.Path(__file__).resolve().parent.parent  # the root of the repository
NAME = pathlib.Path(sys.argv[0]).stem
sys.path += map(str, TOP.glob("tools/*/"))


def misused(reason):
    """Ends with status 2, since the words of the script aren't right."""
    print(f"{NAME}: {reason}; '{sys.argv[0]} --help' says what it takes", file=sys.stderr)
    sys.exit(2)


def program_of(words):
    """The program that the words name after --program, or bin/gomod, and the other words."""
    if words[:1] == ("--program",):
        program = shutil.which(os.path.realpath(words[1]))
        return program or misused("--program takes an executable file"), words[2:]
    shared("need_gomod")
    return os.path.realpath("bin/gomod"), words


def shared(function):
    """What a function of lib.sh prints, which says why if it fails."""
    done = subprocess.run(["bash", "-c", '. tools/lib.sh; "$1"', NAME, function], stdout=subprocess.PIPE, text=True)
    if done.returncode:
        sys.exit(1)
    return done.stdout.strip()


def git(*words):
    """What git prints of the repository, or nothing if it fails."""
    done = subprocess.run(["git", "-C", TOP, *words], capture_output=True, text=True)
    return done.stdout.strip() if done.returncode == 0 else ""


def read(name):
    """The text of a file; bytes that are not UTF-8 are kept."""
    return pathlib.Path(name).read_bytes().decode(errors="surrogateescape")


def write(name, text):
    """Writes a file, with its folders."""
    path = pathlib.Path(name)
    path.parent.mkdir(parents=True, exist_ok=True)
    path.write_bytes(text.encode(errors="surrogateescape"))


def holding(text, folder=None):
    """A temporary file with these bytes, at its begin."""
    file = tempfile.TemporaryFile(dir=folder)
    file.write(text)
    file.seek(0)
    return file


def keep(path, text, is_checked, writer):
    """Writes a file anew, or prints where it differs from what that would write. Gives how many are out of step."""
    there = read(path) if path.exists() else ""
    if is_checked:
        lines = [it.splitlines(True) for it in (there, text)]
        sys.stdout.writelines(difflib.unified_diff(*lines, str(path), writer, n=0))
    elif there != text:
        write(path, text)
    return int(is_checked and there != text)


def numbers_of(pid):
    """The numbers that the system has of a process, from that of what began it on: the fourth of proc(5) and later."""
    return [int(it) for it in read(f"/proc/{pid}/stat").rpartition(")")[2].split()[1:]]


def begun_by(pid):
    """The processes that one has begun, each by a thread, and that are there."""
    begun = []
    for thread in os.listdir(f"/proc/{pid}/task"):
        with contextlib.suppress(OSError):
            begun += read(f"/proc/{pid}/task/{thread}/children").split()
    return begun


def ticks_of(pid):
    """How much a process has used the processor, with all that it began."""
    ticks = 0
    with contextlib.suppress(OSError):
        ticks = sum(numbers_of(pid)[10:14])
        ticks += sum(map(ticks_of, begun_by(pid)))
    return ticks


def finish(command, text=None, seconds=100):
    """What a command that was started writes. A signal ends it after so much CPU time. If for so long it only waits, it
    is killed, and the fault is subprocess.TimeoutExpired."""
    # another user's has to set its own
    with contextlib.suppress(PermissionError):
        resource.prlimit(command.pid, resource.RLIMIT_CPU, (seconds, seconds))
    before = -1
    while True:
        try:
            return command.communicate(text, seconds / 2)
        except subprocess.TimeoutExpired:
            used, text = ticks_of(command.pid), None
            if used == before:
                command.kill()
                raise
            before = used


def run_within(words, seconds=100, text=None, **given):
    """Runs a command that reads a text, within such a time. Streams are pipes, but for those that are given."""
    streams = dict.fromkeys(("stdin", "stdout", "stderr"), subprocess.PIPE)
    with subprocess.Popen(words, **streams | given) as command:
        out, report = finish(command, text, seconds)
    return subprocess.CompletedProcess(words, command.returncode, out, report)


class Tally(collections.Counter):
    """How many things of each kind were right and wrong."""

    def tell(self, kind, is_right, message=""):
        """Counts one, and prints what is wrong with it."""
        self[kind, bool(is_right)] += 1
        if not is_right:
            print(message)

    def status(self):
        """Prints the counts, and returns the status."""
        for kind in dict.fromkeys(kind for kind, _ in self):
            print(f"{kind}: {self[kind, True]} right, {self[kind, False]} wrong")
        return int(any(count for (_, is_right), count in self.items() if not is_right))


def checksum(text):
    """Eight letters from a text's sha256, whatever blanks separate it: letters, since a commit would have digits."""
    digits = hashlib.sha256(" ".join(text.split()).encode()).hexdigest()[:8]
    return digits.translate(str.maketrans("0123456789abcdef", "ghijklmnopqrstuv"))


def run(main, takes, folder=TOP):
    """Ends with what the main function makes, in a folder, of the words, which have a form, each after a blank. If they
    don't, and one asks for help, it prints the docstring. If a file can't be read or written, or a command fails, it
    says so, with status 1."""
    words = sys.argv[1:]
    if sys.stdout is None:
        sys.exit(f"{NAME}: the standard output is closed")
    # a blank within a word would make two of it
    text = "".join(" " + re.sub(r"\s", "\0", it) for it in words)
    if not re.fullmatch(takes, text):
        if {"-h", "--help"} & {*words}:
            print(sys.modules["__main__"].__doc__.strip())
            sys.exit()
        misused(f"it doesn't take '{' '.join(words)}'" if words else "it takes arguments")
    try:
        os.chdir(folder)
        status = main(*words)
        sys.stdout.flush()
    except (OSError, subprocess.CalledProcessError) as fault:
        # python would report once more what it can't write
        status, sys.stdout = f"{NAME}: {fault}", None
    except KeyboardInterrupt:
        status = 130
    sys.exit(status)
