"""Says which files a command of a case may open, and what strace saw it open beside them.

A command may open the files that its words name, what it needs of the proxy folders that they name, and the go.mod of
each folder that its main file names as a replacement. It opens them once, one at a time, to read them, and in the order
that the case has if that says so. It reads nothing after the end of a file, nor standard input unless the words name
it. Once it is loaded it makes no calls of the system but OWN, so none that writes elsewhere, starts a process or
reaches the network.
"""

import collections
import os
import re
import shutil
import subprocess
from typing import NamedTuple

# The calls that a command may make of the system when it is loaded. strace shows all others, and two of these.
OWN = set("rt_sigaction getrandom brk mmap mremap munmap openat read close lseek write exit_group".split())
CALLS = "!" + ",".join(sorted(OWN - {"openat", "read"}))
LINE = re.compile(rb"\d+ +(.*)\n")
CALL = re.compile(rb"(\w+)\((.*)\) += (-?\d+|\?)( .*)?")
OPEN = re.compile(rb'AT_FDCWD, "((?:\\x[0-9a-f]{2})*)", (O_\S+)')
HEXADECIMAL = re.compile(rb"(?:\\x[0-9a-f]{2})+")
# Calls of the loader before the program begins, and the last of these.
OF_LOADER = re.compile(
    rb'access\("[^"]*", R_OK\)|newfstatat\(\d+, "", '
    rb"|(?:pread64|mprotect|arch_prctl|set_tid_address|set_robust_list|rseq|prlimit64)\("
)
LOADED = b"prlimit64(0, RLIMIT_STACK, NULL, "
LOADER = re.compile(rb"/etc/ld\.so\.(cache|preload)|/(usr/)?lib\S*/[^/]*\.so[.0-9]*|/proc/sys/vm/overcommit_memory")
READ_ONLY = {b"O_RDONLY", b"O_NOCTTY", b"O_CLOEXEC"}
OF_PROXY = re.compile(rb"[^\0]+/@v/(?:list|[^/]+\.mod)", re.S)
REPLACED = re.compile(rb'=>[ \t]*(?:"((?:\\.|[^"\\\n])*)"|`([^`]*)`|([^\s"`][^\s]*))')


class Allowed(NamedTuple):
    """What a command may open: these files in this order, if the case says so; otherwise any of the files, and those of
    modules in the folders."""

    order: tuple | None
    files: frozenset
    folders: tuple
    reads_input: bool

    def has(self, name):
        below = [name.removeprefix(it) for it in self.folders if name.startswith(it)]
        return name in self.files or any(OF_PROXY.fullmatch(it) for it in below)


def value_of(words, option):
    """The value of an option, if it has one."""
    for word, following in zip(words, [*words[1:], None]):
        if word == option:
            return following
        if word.startswith(option + b"="):
            return word.removeprefix(option + b"=")
    return None


def folder_name(folder):
    """How names begin that are below a folder, in their shortest spelling."""
    name = os.path.normpath(folder)
    return b"" if name == b"." else name.rstrip(b"/") + b"/"


def main_text(name, case, folder):
    """The bytes of a main file."""
    if name == b"-":
        return case.stdin()
    # the current folder of the command, not of this process
    place = os.path.join(folder, name.replace(b"/proc/self/cwd", folder))
    if not os.path.isfile(place) or not os.access(place, os.R_OK):
        return case.text_of(name)
    with open(place, "rb") as file:
        return file.read()


def allowed(run, case, folder):
    """What a command of a case, whose files are in a folder, may open."""
    words = run.words[1:]
    if run.status == 2 or not words:
        return Allowed((), frozenset(), (), False)
    order = None if run.opened is None else tuple(map(os.path.normpath, run.opened))
    main, sums, proxy = (value_of(words, it) for it in (b"--mod", b"--sum", b"--proxy"))
    if words[0] in (b"fmt", b"edit"):
        main = next((it for it in words[1:] if it != b"--"), b"")
    elif words[0] != b"versions" and main is None:
        main = b"go.mod"
    files = {os.path.normpath(it) for it in (main, sums) if it not in (None, b"-")}
    if main and proxy:
        for found in REPLACED.findall(main_text(main, case, folder)):
            right = re.sub(rb"\\(.)", rb"\1", found[0]) or found[1] or found[2]
            files.add(os.path.normpath(os.path.join(os.path.dirname(main), right, b"go.mod")))
    folders = tuple(folder_name(it) for it in re.split(rb"[,|]", proxy or b"") if it)
    return Allowed(order, frozenset(files), folders, run.reads_input())


def tracer(log):
    """The words that make strace write the calls of a command to a file, if it is there, knows what it needs, and may
    look at processes."""
    shown = ["-q", "-xx", "-s", "0", "-e", "signal=none", "-e", f"trace={CALLS}"]
    words = [shutil.which("strace") or "strace", "-f", "--seccomp-bpf", *shown, "-o", log]
    try:
        done = subprocess.run([*words, "true"], stdin=subprocess.DEVNULL, stderr=subprocess.DEVNULL)
    except FileNotFoundError:
        return []
    return words if done.returncode == 0 and os.path.getsize(log) > 0 else []


def name_of(text):
    return bytes.fromhex(text.decode().replace("\\x", ""))


def faults_of(log, allowed_files):
    """What is wrong with the calls of a command that strace wrote to a file."""
    with open(log, "rb") as file:
        begin, *calls = (LINE.fullmatch(it)[1] for it in file)
    if not begin.startswith(b"execve("):
        yield f"strace says {begin.decode()}"
    names, ended, is_loading = [], set(), True
    for text in (it for it in calls if not it.startswith(b"+++")):
        found = CALL.fullmatch(text)
        if not found:
            yield f"strace says {text.decode()}"
            continue
        call, words, result, _ = found.groups()
        if call == b"openat" and OPEN.match(words):
            name, flags = OPEN.match(words).groups()
            name, flags = name_of(name), flags.rstrip(b",")
            ended.discard(result)
            if not READ_ONLY.issuperset(flags.split(b"|")):
                yield f"opens {name!r} with {flags.decode()}"
            if result not in (b"3", b"-1"):
                yield f"opens {name!r} beside another"
            if not LOADER.fullmatch(name):
                names.append(name)
        elif call == b"read":
            file = words.split(b",")[0]
            if file in ended:
                yield f"reads on after the end of {names[-1:] if file != b'0' else 'standard input'}"
            if result == b"0":
                ended.add(file)
            if file == b"0" and not allowed_files.reads_input:
                yield "reads standard input"
        elif not (is_loading and OF_LOADER.match(text)):
            yield "calls " + HEXADECIMAL.sub(lambda it: ascii(name_of(it[0])).encode(), text).decode()
        is_loading = is_loading and not text.startswith(LOADED)
    if is_loading:
        yield "makes no call that the loader makes last"
    shortest = [os.path.normpath(it) for it in names]
    if allowed_files.order is not None and shortest != list(allowed_files.order):
        yield f"opens {names} and not {list(allowed_files.order)}"
    if allowed_files.order is None:
        yield from (f"opens {it!r}, which its words do not name" for it in shortest if not allowed_files.has(it))
        yield from (f"opens {it!r} again" for it, times in collections.Counter(names).items() if times > 1)
