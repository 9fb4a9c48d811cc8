#!/usr/bin/env -S python3 -B
"""Runs each example of README.md and of the documents, and compares what it prints byte for byte.

    tools/try/readme.py                   README.md, CHANGELOG.md and all documents of docs/
    tools/try/readme.py FILE..            these
    tools/try/readme.py --quick [FILE..]  the same without compiling the program of docs/lib/LIBRARY.md
    tools/try/readme.py --archive FOLDER  the documents of a release that was unpacked into FOLDER, with its program

An example is a block of lines indented by four spaces that begins with `$ `: each such line is a command of a shell,
and the lines up to the next one are what it prints, on both streams. All blocks of a document run in one shell: in bash
in their order, and backwards in zsh, or in bash if there is no zsh. A block that only makes a scratch folder
(`NAME=$(mktemp -d)`) is the first in both. They run at the top of a scratch folder with the files of the repository,
which has to stay as it was, with bin/ on the PATH. A block is skipped if it, or a script that it runs, calls bwrap,
curl, dot, git, jq or vim and there is no such command, or bwrap may not make a sandbox.

The commands of COMMANDS.md and RECIPES.md run once more, on a stranger's project with hostile texts and links: no file
outside their scratch folders may change, no text may run, and what is fetched has to have the bytes of the proxy.

The pieces of code of docs/lib/LIBRARY.md, fenced as rust, have to stand in the sources of the crate that is named
before them (`From CRATE:`). The commands of "A whole program" compile it and run it in a fresh folder. Each link to a
file of the repository, or to a heading of one, has to lead there, and in README.md and docs/use no comment may follow a
command, since zsh takes one that is typed for words.

It needs bin/gomod, and without --quick the toolchain of Rattle and 3.4 GB of memory. The last lines count what was
right, what was wrong, and what was skipped for want of which commands. The status is 1 if one was wrong.
"""

import collections
import functools
import glob
import json
import os
import re
import shutil
import subprocess
import sys
import tempfile

sys.path.append(f"{sys.path[0]}/..")
import script
from case_files import changed, content_of
from completions import HOSTILE
from script import Tally, read, run_within, write

SECONDS = 300
OPTIONAL = ("bwrap", "curl", "dot", "git", "jq", "vim")
COPIED = ("README.md", "CHANGELOG.md", "docs", "example", "share")
BASH, ZSH = ["bash", "-c"], ["zsh", "-f", "-c"]
# the section whose program is compiled: commands that make its crate, the program, and an example that runs it
SECTION = r"(?ms)^## A whole program\n.*?(?=^## |\Z)"
FENCED = r"(?ms)^```.*?^```$"
SANDBOX = ["bwrap", "--unshare-all", "--ro-bind", "/", "/", "true"]


def blanked(pattern, text):
    """A text without what a pattern matches, whose lines keep their numbers."""
    return re.sub(pattern, lambda it: "\n" * it[0].count("\n"), text)


def blocks(text):
    """The blocks of examples, each of commands: the number of the line, the command, and what it prints."""
    for block in re.finditer(r"(?m)^    .*\n(?:    .*\n|\n+(?=    ))*", text):
        if block[0].startswith("    $ "):
            yield [(text.count("\n", 0, block.start() + it.start()) + 1, it[1], re.sub("(?m)^    ", "", it[2]))
                   for it in re.finditer(r"(?m)^    \$ (.*)\n((?:(?!    \$ ).*\n)*)", block[0])]


def only_makes_a_folder(block):
    return all(re.fullmatch(r"\w+=\$\(mktemp -d\)", command) for _, command, _ in block)


def absent(commands):
    """The optional commands that these, or scripts which they run, call and that aren't there."""
    words = set(re.findall(r"[\w./-]+", "\n".join(commands)))
    for file in [it for it in words if it.endswith(".sh") and os.path.isfile(it)]:
        words |= set(re.findall(r"[\w./-]+", re.sub(r"(?m)^\s*#.*", "", read(file))))
    return [it for it in OPTIONAL if it in words and not is_there(it)]


@functools.cache
def is_there(command):
    return shutil.which(command) and (
        command != "bwrap" or subprocess.run(SANDBOX, capture_output=True).returncode == 0)


def files_in(room):
    """What a folder has: each folder, link and file below it, with its content."""
    paths = [os.path.join(folder, it) for folder, folders, names in os.walk(room) for it in [*folders, *names]]
    return {os.path.relpath(it, room): content_of(it, os.lstat(it)) for it in paths}


def lay_files(room):
    """Lays the files of this folder in `top`, of which those that examples may read are copied and others are links,
    and a folder for temporary files beside it."""
    os.makedirs(f"{room}/top")
    os.makedirs(f"{room}/tmp")
    names = set(os.listdir()) - {".git"}
    subprocess.run(["cp", "-a", *names.intersection(COPIED), f"{room}/top"], check=True)
    for name in names.difference(COPIED):
        os.symlink(os.path.abspath(name), f"{room}/top/{name}")


def lay_stranger(room):
    """Lays a stranger's project, and what it asks for. It leads to `outside`, beside top."""
    mod = read("example/go.mod")
    for number, text in enumerate(HOSTILE):
        write(f"{room}/top/stranger/{text}/go.mod", f"module z.x/m{number}\n")
        if "\n" not in text:
            mod += f"require z.x/m{number} v1.0.0\nreplace z.x/m{number} => {json.dumps('./' + text)}\n"
    # two that would lead from $scratch/mods to the room, and one to fetch, which doesn't fit
    for words in ("./q => ../../../outside/a v1.0.0", "./q => .. ../../../outside/go", 'z.x/B" "v2.0.0'):
        mod += f'replace z.x/b{len(mod)} v1.0.0 => "{words}"\n'
    write(f"{room}/top/stranger/go.mod", mod)
    for name in ("outside/a/@v/v1.0.0", "outside/go", "example/cache/download/z.x/!b/@v/v2.0.0"):
        write(f"{room}/top/{name}.mod", "module z.x/b\n")
    os.mkdir(f"{room}/outside")
    for name in ("old.mod", "new.mod", "go.mod.new", "go.mod.list", "go.mod.errors"):
        os.symlink(f"{room}/outside/{name}", f"{room}/top/stranger/{name}")


def quoted(text):
    return "".join(f"      {line}\n" for line in text.splitlines()) or "      (nothing)\n"


class Documents:
    """The documents, what was right and wrong in them, and what was skipped."""

    def __init__(self, program):
        self.program = program
        self.tally = Tally()
        self.skipped = collections.Counter()

    def run(self, commands, shell, lay=lambda room: None):
        """Runs commands in one shell and a fresh room: what each prints, all files then, and what of them changed."""
        text = "".join(f"ended=$?; printf '\\036'; (exit $ended)\n{it}\n" for it in commands)
        with tempfile.TemporaryDirectory(prefix="gomod-readme-") as room:
            lay_files(room)
            lay(room)
            before = files_in(room)
            own = {"PATH": f"{self.program}:{os.environ['PATH']}", "TMPDIR": f"{room}/tmp"}
            ran = run_within([*shell, text], SECONDS, cwd=f"{room}/top", env=os.environ | own,
                             stdin=subprocess.DEVNULL, stderr=subprocess.STDOUT)
            after = files_in(room)
        wrong = [it for it in changed(before, after) if not it.startswith("tmp/")]
        return ran.stdout.decode("utf-8", "replace").split("\036")[1:], after, wrong

    def run_examples(self, name, text):
        """Runs the examples of a document in order and backwards, each time all in one shell."""
        found = []
        for block in blocks(text):
            if lacking := absent([command for _, command, _ in block]):
                self.skipped[", ".join(lacking)] += len(block)
            else:
                found.append(block)
        for order, shell in ((found, BASH), (found[::-1], ZSH)) if found else ():
            if not shutil.which(shell[0]):
                self.skipped[shell[0]] += sum(map(len, found))
                shell = BASH
            examples = sum(sorted(order, key=only_makes_a_folder, reverse=True), [])
            got, _, wrong = self.run([command for _, command, _ in examples], shell)
            for (number, command, wanted), came in zip(examples, got + ["(it did not run)\n"] * len(examples)):
                message = f"{name}:{number}: $ {command}\n    prints in {shell[0]}\n{quoted(came)}"
                self.tally.tell("examples", came == wanted, f"{message}    and should print\n{quoted(wanted)}")
            message = f"{name}: the examples leave changed: {', '.join(wrong)}"
            self.tally.tell("folders left as they were", not wrong, message)

    def run_on_stranger(self):
        """Runs the commands of two pages on a stranger's project, which cp copies."""
        text = read("docs/use/COMMANDS.md") + read("docs/use/RECIPES.md")
        text = re.sub(r"example/[\w-]+\.mod", "stranger/go.mod", text)
        commands = ['cp() { command cp -a stranger/. "${@: -1}"; }', "seq() { echo 1 2; }"]
        commands += [it for it in re.findall(r"(?m)^    \$ (.*)", text) if not absent([it])]
        # a folder with a link that leads out of it
        commands += ["mkdir $scratch/linked && ln -s $PWD/stranger $scratch/linked/rsc.io",
                     "example/fetch-missing.sh stranger/go.mod $scratch/linked file://$PWD/example/cache/download"]
        # without a prompt, but writing a file
        commands += [f"cp $TMPDIR && cd $TMPDIR && {it}" for it in re.findall(r"(?m)^    (\w.* > .*)", text)]
        got, after, wrong = self.run(commands, BASH, lay_stranger)
        wrong += [it for it in after if it.endswith("/ran")] + commands[len(got):]
        fetched, there = ({it.split(place)[1]: after[it] for it in after if re.search(rf"{place}.*\.mod$", it)}
                          for place in ("/mods/", "top/example/cache/download/"))
        if shutil.which("curl") and fetched != there:
            wrong.append("$scratch/mods")
        self.tally.tell("strangers' projects", not wrong, f"a stranger's project: {', '.join(wrong)}")

    def compare_code(self, name, text):
        """Looks each piece of code up in the crate that was named last before it."""
        crate = ""
        for named, code in re.findall(r"(?ms)\bFrom (\w+):$|^```rust\n(.*?)^```$", text):
            crate = named or crate
            if code:
                is_right = any(code in read(it) for it in glob.glob(f"crates/{crate}/src/**/*.rt", recursive=True))
                self.tally.tell("pieces of code", is_right, f"{name}: crates/{crate} has no\n{quoted(code)}")

    def follow_links(self, name, text):
        """Looks each link to a file, or to a heading of one, up."""
        for link, path, anchor in re.findall(r"\]\((((?![a-z]+:)[^)#]*)(?:#([^)]*))?)\)", text):
            path = os.path.join(os.path.dirname(name), path) if path else name
            is_right = os.path.exists(path) and (not anchor or anchor in anchors(path))
            self.tally.tell("links", is_right, f"{name}: there is no {link}")


def anchors(path):
    """The headings of a page, as links have them."""
    headings = re.findall(r"(?m)^#+ (.*)", blanked(FENCED, read(path))) if path.endswith(".md") else []
    return {re.sub(r"[^\w\- ]", "", it.lower()).replace(" ", "-") for it in headings}


def problem_of(section):
    """What is wrong with the section of the whole program, or an empty text. Its commands run in a folder outside the
    repository, in which gomod is a link to it, and the standard output of the last is compared."""
    program = "".join(re.findall(r"(?ms)^```rust\n(.*?)^```$", section))
    make, _, run = "".join(re.findall(r"(?m)^    (.*\n)", blanked(FENCED, section))).partition("$ ")
    command, _, wanted = run.partition("\n")
    with tempfile.TemporaryDirectory(prefix="gomod-library-") as folder:
        os.symlink(os.path.abspath("."), f"{folder}/gomod")
        steps = f"set -eu\n{{ {make}cat > crates/hello/src/main.rt\n}} >&2\n{command}\n"
        ran = subprocess.run([*BASH, steps], cwd=folder, input=program, text=True, capture_output=True,
                             env={**os.environ, "TMPDIR": folder})
    is_right = wanted and (ran.returncode, ran.stdout) == (0, wanted)
    return "" if is_right else f"it prints\n{quoted(ran.stdout + ran.stderr)}"


def main(*names):
    """Tries the documents that the words name."""
    is_quick, is_archive = names[:1] == ("--quick",), names[:1] == ("--archive",)
    documents = Documents(os.path.abspath(f"{names[1]}/bin" if is_archive else "bin"))
    if is_archive:
        os.chdir(f"{names[1]}/share/doc/gomod")
    else:
        script.shared("need_gomod")
    names = () if is_archive else names[is_quick:]
    for name in names or ["README.md", "CHANGELOG.md", *sorted(glob.glob("docs/**/*.md", recursive=True))]:
        text = read(name)
        documents.run_examples(name, blanked(SECTION, text))
        documents.follow_links(name, text)
        # what users paste into a shell that they type in
        if name.startswith(("README.md", "docs/use/")):
            found = re.findall(r"(?m)^    (?!\$ ).*\S\s+# .*", text)
            documents.tally.tell("pages without comments", not found, f"{name}: comments behind commands: {found}")
        if name == "docs/lib/LIBRARY.md" and not is_archive:
            documents.compare_code(name, text)
            if not is_quick:
                wrong = problem_of("".join(re.findall(SECTION, text)))
                documents.tally.tell("programs", not wrong, f"{name}: the whole program: {wrong}")
    if not names and not is_archive:
        documents.run_on_stranger()
    status = documents.tally.status()
    for tools, number in sorted(documents.skipped.items()):
        print(f"skipped, for want of {tools}: {number} examples")
    return status


if __name__ == "__main__":
    script.run(main, r"( --archive \S+|( --quick)?( (?!-)\S+)*)")
