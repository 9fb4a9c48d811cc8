"""What the completions of share/ do in real shells, for tools/try/check_help.py.

Each runs in a terminal of its own, in a scratch folder with a go.mod, folders and a home with go's cache. A line is
typed, then TAB, then a key that this binds to write the line to a file. Beside a hostile path and folder Enter follows
TAB: gomod is given the right words, and nothing else has run. It prints each line that comes out wrong, how many were
right and wrong, and how many were skipped for want of which shell.
"""

import concurrent.futures
import contextlib
import os
import pty
import re
import select
import shutil
import signal
import tempfile
import time

from script import TOP, read, ticks_of, write

BASH, ZSH = "share/bash-completion/completions/gomod", "share/zsh/site-functions/_gomod"
FISH = "share/fish/vendor_completions.d/gomod.fish"
# how long a shell may use no CPU
SECONDS = 100
GO_MOD = f"""module example.com/hello

// {"a long comment " * 60_000}

go 1.21

require example.com/one v1.0.0

require ( // two
\texample.com/two v1.0.0 // indirect
\t// example.com/comment v1.0.0
\t"rsc.io/quote" v1.5.2
)

\trequire example.com/four v1.0.0

require(
\texample.com/three v1.0.0
\t`example.com/grave` v1.0.0
\tgithub.com/Azure/five v1.0.0
\tLocal/~user/six v1.0.0
)

replace example.com/replaced => ./first
"""
# What is typed before TAB, a bar, and what follows then. HOME is the path of the home. A third part has the shells that
# complete it so: zsh takes no option with `=`, and it and fish don't expand $HOME.
LINES = """
gomod li|st
gomod list --prox|y
gomod list --proxy |HOME/go/pkg/mod/cache/download
gomod list --proxy ../fi|rst
gomod list --proxy ../first,../sec|ond
gomod list --proxy '../first,../sec|ond
gomod list --proxy ../first,../'quo|
gomod graph --proxy ../first,|HOME/go/pkg/mod/cache/download
gomod versions --proxy HOME/go/pkg/mo|d
gomod graph --mod mai|n.mod
gomod chain rs|c.io/quote
gomod chain example.com/o|ne
gomod versions example.com/tw|o
gomod list --after rs|c.io/quote
gomod chain example.com/rep|
gomod chain example.com/com|
gomod edit go.mod dropreq|uire=
gomod edit go.mod droprequire=rs|c.io/quote
gomod edit go.mod go=1.22 require=example.com/o|ne
gomod edit go.mod replace=rs|c.io/quote
gomod edit go.mod go=rs|
gomod chain example.com/th|ree
gomod chain example.com/f|our
gomod chain 'rs|c.io/quote
gomod chain "example.com/o|ne
gomod versions --proxy ../first rs|c.io/quote
gomod list --limit 3 --prox|y
gomod list --limit rs|
gomod list --sum ma|in.mod
gomod list --proxy=../fi|rst|bash fish
gomod chain --proxy=../first rs|c.io/quote|bash fish
gomod list --proxy ../first,$HOME/go/pkg/mo|d|bash
gomod chain example.com/g|rave
gomod chain github.com/A|zure/five
gomod chain Lo|cal/~user/six|bash fish
gomod chain Lo|cal/\\~user/six|zsh
gomod chain rsc.io/quote example.com/o||bash zsh
gomod fmt main.mod ma||bash zsh
gomod fmt ma|in.mod
gomod edit ma|in.mod
gomod help ver|sions
gomod help li|st
gomod help gr|aph
gomod help ch|ain
gomod help fm|t
gomod help ed|it
"""
# Beside the good path a.b/c, and as the only folder: no file `ran` may appear.
HOSTILE = ("$(id>ran)", "`id>ran`", "a;id>ran;", "a|id>ran", "a&id>ran", "<(id>ran)", "~root", "${HOME}", "*", "!!",
           "-m", "a'b", 'a"b', "a\\b", "a\nid>ran")
# What is typed there before TAB and Enter, and the words that gomod is given.
BESIDE = (("chain ", "chain a.b/c"), ("list --proxy ", "list --proxy TEXT"), ("list --proxy ./", "list --proxy ./TEXT"),
          ("list --proxy x,", "list --proxy x,TEXT"), ("list --proxy x\\|", "list --proxy x|TEXT"),
          ("edit go.mod droprequire=", "edit go.mod droprequire=a.b/c"))


def lay_room(room):
    """Lays the files of the scratch folder."""
    for it in ("module", "first", "second", "'quo\nted", "home/go/pkg/mod/cache/download", "kept/cache/download",
               "path/pkg/mod/cache/download"):
        os.makedirs(f"{room}/{it}")
    os.mkfifo(f"{room}/first/go.mod")
    for name in ("go.mod", "main.mod"):
        write(f"{room}/module/{name}", GO_MOD)
    for number, text in enumerate(HOSTILE):
        os.makedirs(f"{room}/{number}/{text}")
        write(f"{room}/{number}/go.mod", "require {0} v1.0.0\nrequire (\n{0} v1.0.0\na.b/c v1.0.0\n)\n".format(
            text.replace("\n", "")))
    # what gomod is given, a byte of value 0 after each word
    write(f"{room}/bin/gomod", f"#!/bin/sh\nprintf '%s\\0' \"$@\" > {room}/left && mv {room}/left {room}/left.whole\n")
    os.chmod(f"{room}/bin/gomod", 0o755)


def environment(room):
    """The environment of a shell: go's own variables would move its cache."""
    kept = {name: value for name, value in os.environ.items() if not name.startswith(("GO", "FISH", "XDG"))}
    path = f"{room}/bin:{os.environ['PATH']}"
    return {**kept, "PATH": path, "HOME": f"{room}/home", "TERM": "dumb", "PS1": "", "LC_ALL": "C.UTF-8"}


class Terminal:
    """A shell in a terminal of its own, in which lines are typed."""

    def __init__(self, words, room):
        self.left = f"{room}/left"
        self.pid, self.terminal = pty.fork()
        if self.pid == 0:
            os.chdir(f"{room}/module")
            os.execvpe(words[0], words, environment(room))

    def say(self, text):
        os.write(self.terminal, text.encode())

    def wait_for_file(self):
        """The words that the shell has left in the file, which then goes, or none if it only waits for too long."""
        until, used = 0, -1
        while time.monotonic() < until or used != ticks_of(self.pid):
            if time.monotonic() >= until:
                until, used = time.monotonic() + SECONDS, ticks_of(self.pid)
            if select.select([self.terminal], [], [], 0.005)[0]:
                with contextlib.suppress(OSError):
                    os.read(self.terminal, 65536)
            if os.path.exists(f"{self.left}.whole"):
                text = read(f"{self.left}.whole")
                os.remove(f"{self.left}.whole")
                return text.split("\0")[:-1]
        return []

    def completed(self, line, key="\x18\x13"):
        """What a key leaves after TAB, after ^U has removed the line before."""
        self.say(f"\x15{line}\t{key}")
        return self.wait_for_file()

    def close(self):
        os.kill(self.pid, signal.SIGKILL)
        os.waitpid(self.pid, 0)
        os.close(self.terminal)


def in_bash(room):
    """A bash with our completion, whose ^X^S leaves the line."""
    write(f"{room}/rc", f". {TOP}/{BASH}\nbind 'set bell-style none'\nIFS=,; set -uf\n"
          "bind -x '\"\\C-x\\C-s\": gomod \"$READLINE_LINE\"'\nstty -ixon; gomod ready\n")
    return Terminal(["bash", "--noprofile", "--rcfile", f"{room}/rc", "-i"], room)


def in_zsh(room):
    """A zsh with our completion, whose ^X^S leaves the line."""
    write(f"{room}/home/.zshrc", f"fpath=({TOP}/{os.path.dirname(ZSH)} $fpath)\n"
          "autoload -Uz compinit && compinit -D -u\n"
          "leave() { gomod $BUFFER }\nzle -N leave\nbindkey -e\nbindkey '^X^S' leave\nbindkey '^U' kill-whole-line\n"
          "stty -ixon; unsetopt beep; setopt no_always_last_prompt; gomod ready\n")
    return Terminal(["zsh", "-d", "-i"], room)


def in_fish(room):
    """A fish with our completion, whose ^X^S leaves the line."""
    write(f"{room}/rc", f"source {TOP}/{FISH}\nfunction fish_prompt; end\n"
          "function fish_title; end\nbind \\cx\\cs 'gomod (commandline)'; bind \\cu kill-whole-line\n"
          "stty -ixon; gomod ready\n")
    return Terminal(["fish", "--no-config", "-i", "-C", f"source {room}/rc"], room)


SHELLS = {"bash": in_bash, "zsh": in_zsh, "fish": in_fish}
# the variables that move go's cache, in the order in which they are set, and where it is then
MOVED = (("GOPATH", "{0}/path:{0}/first", "path/pkg/mod"), ("GOMODCACHE", "{0}/kept", "kept"))


def pairs_of(name):
    """What is typed in a shell, and what it becomes."""
    lines = [it.split("|") for it in LINES.strip("\n").split("\n")]
    return [(typed, typed + more) for typed, more, *shells in lines if not shells or name in shells[0].split()]


def count_of(name):
    """How many lines a shell completes."""
    return len(pairs_of(name)) + len(MOVED) + len(HOSTILE) * len(BESIDE)


def differences(name, shell, room):
    """The lines that a shell completes wrongly, each with what comes out and what is wanted."""
    try:
        if shell.wait_for_file() != ["ready"]:
            yield "(it doesn't start)", "", ""
            return
        for typed, wanted in pairs_of(name):
            typed = re.sub(r"(?<!\$)HOME", f"{room}/home", typed)
            wanted = re.sub(r"\$?HOME", f"{room}/home", wanted)
            came = "".join(shell.completed(typed))
            # what follows a completed word, a slash, a quote or a blank, is the shell's affair, but none may stand
            # before what follows an operation's path or `=`, of which fish knows the latter
            last = wanted.split()[-1]
            is_open = last.endswith("=") if name == "fish" else "=" in last
            if came.rstrip(" /'\"") != wanted or is_open and came.endswith(" "):
                yield typed, came, wanted
        for variable, value, cache in MOVED:
            shell.completed(f"export {variable}={value.format(room)}; gomod", "\r")
            came = "".join(shell.completed("gomod list --proxy "))
            if came.rstrip("/ ") != f"gomod list --proxy {room}/{cache}/cache/download":
                yield f"gomod list --proxy (with {variable})", came, f"end with {cache}/cache/download"
        shutil.rmtree(f"{room}/kept")
        shutil.rmtree(f"{room}/home/go")
        shell.completed(f"cd {room}/first; gomod", "\r")
        if shell.completed("gomod chain ", "\r") != ["chain"]:
            yield "gomod chain (beside a pipe)", "", "gomod chain"
        for number, text in enumerate(HOSTILE):
            shell.completed(f"cd {room}/{number}; gomod", "\r")
            # fish leaves out two folders
            names = [text, text + "/"] + [""] * (text[0] == "~" or "\n" in text)
            for typed, wanted in BESIDE:
                # as far as the good path begins like it
                typed = f"gomod {typed}" + "a" * (text[0] == "a" and "TEXT" not in wanted)
                came = " ".join(shell.completed(typed, "\r"))
                with contextlib.suppress(OSError):
                    os.remove(f"{room}/{number}/ran")
                    came += " (and it ran)"
                if came not in [wanted.replace("TEXT", it).rstrip(" ") for it in names]:
                    yield f"{typed} (beside {text!r})", came, wanted
    finally:
        shell.close()


def main():
    """Completes all lines in all shells."""
    tried = [it for it in SHELLS if shutil.which(it)]
    wrong, count = 0, sum(map(count_of, tried))
    with contextlib.ExitStack() as rooms, concurrent.futures.ThreadPoolExecutor() as pool:
        begun = [rooms.enter_context(tempfile.TemporaryDirectory(prefix="gomod-completion-")) for _ in tried]
        for room in begun:
            lay_room(room)
        shells = [SHELLS[name](room) for name, room in zip(tried, begun)]
        for name, found in zip(tried, pool.map(lambda *it: list(differences(*it)), tried, shells, begun)):
            wrong += len(found)
            for typed, came, wanted in found:
                print(f"{name}: '{typed}' becomes {came!r}, and should {wanted!r}")
    print(f"lines completed in {', '.join(tried)}: {count - wrong} right, {wrong} wrong")
    for name in (it for it in SHELLS if it not in tried):
        print(f"skipped, for want of {name}: {count_of(name)} completed lines")
    return wrong > 0
