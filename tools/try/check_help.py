#!/usr/bin/env -S python3 -B
"""Checks that the man page and the completions have what `gomod --help` shows: each command, each option of each
command, each operation of edit, and nothing else.

    tools/try/check_help.py

Of share/man/man1/gomod.1 it reads the forms of SYNOPSIS and the lists of COMMANDS, OPTIONS and OPERATIONS. The limits
are those of all help, as are those of README.md and other documents, and what help says of a status the man page says
of it too. Its EXAMPLES run in a scratch folder: they print what README.md shows, and leave an edited go.mod. What else
the man page, docs/use/COMMANDS.md and all help say was read side by side, and has a checksum here. It calls the
completion for bash, and reads those for zsh and fish. Then it completes lines in those of the shells that are installed
(tools/try/completions.py): folders, also after a comma, go's cache, and the paths of a go.mod, also after an
operation's `=`.

It needs bin/gomod and bash. It prints each difference, what was compared, and what was skipped for want of which shell.
The status is 1 if there is a difference.
"""

import os
import re
import shlex
import shutil
import subprocess
import sys
import tempfile
import textwrap

sys.path.append(f"{sys.path[0]}/..")
import script
import completions
from completions import BASH, FISH, ZSH
from names import HINTS, hints
from script import checksum, read

MAN, MANUAL = "share/man/man1/gomod.1", "docs/use/COMMANDS.md"
# what these and all help say, when they were last read beside one another: who changes one reads them again
READ = "tktnhiqq"
# the documents whose limits are those of help
DOCUMENTS = ["README.md", *(f"docs/use/{it}.md" for it in ("COMMANDS", "GO", "MESSAGES")), "docs/proof/PROVED.md"]
HELP = {"-h", "--help"}


def help_of(*command):
    """What --help prints of a command."""
    return subprocess.run(["bin/gomod", *command, "--help"], capture_output=True, text=True, check=True).stdout


def section(text, head):
    """The lines of help below a head, up to the next head."""
    found = re.search(rf"(?ms)^{head}:\n(.*?)(?=^\S|\Z)", text)
    return found[1] if found else ""


# Of --help and each file there is a set of pairs: a command, or "" for gomod itself, and an option, an operation or,
# after "", a command.


def after(command, words):
    return {(command, it) for it in words}


def from_help():
    """What --help shows."""

    def options_of(text):
        found = re.findall(r"(?m)^ {2,6}(?:(-\w), )?(--[\w-]+)", section(text, "Options"))
        return {it for pair in found for it in pair if it}

    commands = set(re.findall(r"(?m)^  (\w+)", section(help_of(), "Commands")))
    known = after("", commands | options_of(help_of()))
    # the command help has no options of its own
    known = known.union(*(after(it, options_of(help_of(it))) for it in commands - {"help"}))
    return commands, known | after("edit", re.findall(r"(?m)^  (\w+=)", help_of("edit").split("Usage:")[0]))


def flags(text):
    """The options in a text of the man page: the words that follow Fl."""
    found = re.findall(r"\bFl((?: (?![A-Z][a-z]\b)\S+)+)", text)
    return {"-" + it for it in " ".join(found).split() if it not in ("|", ",")}


def from_man():
    """What the man page has in SYNOPSIS and OPERATIONS, and the names that COMMANDS and OPTIONS list."""
    parts = dict(re.findall(r"(?ms)^\.Sh ([^\n]*)\n(.*?)(?=^\.Sh|\Z)", read(MAN)))
    known = after("edit", re.findall(r"(?m)^\.It Cm (\w+=)", parts["OPERATIONS"]))
    for form in re.split(r"(?m)^\.Nm$", parts["SYNOPSIS"])[1:]:
        command = re.search(r"(?m)^\.Cm (\w+)|\Z", form)[1] or ""
        known |= after("", [command] if command else []) | after(command, flags(form))
        # -h and --help stand once, for all commands
        known |= after(command, HELP if command not in ("", "help") else [])
    items = re.findall(r"(?m)^\.It Fl .*", parts["OPTIONS"])
    return known, set(re.findall(r"(?m)^\.It Cm (\w+)", parts["COMMANDS"])), flags("\n".join(items))


def from_bash(commands):
    """What the completion for bash offers."""

    def completed(*words):
        script = f'. {BASH}; COMP_WORDS=(gomod "$@"); COMP_CWORD=$#; _gomod; printf "%s\\n" "${{COMPREPLY[@]}}"'
        ran = subprocess.run(["bash", "-c", script, "bash", *words], stdout=subprocess.PIPE, text=True, check=True)
        return set(ran.stdout.split())

    offered = completed("")
    known = after("", offered | completed("-")) | after("edit", completed("edit", "go.mod", ""))
    return known.union(*(after(it, completed(it, "-")) for it in commands | offered))


def from_zsh():
    """What the completion for zsh has."""
    text = re.sub(r"(?m)^ *#.*\n", "", read(ZSH)).replace("\\\n", "")
    named = dict(re.findall(r"(?m)^  local (\w+)='(.*)'$", text))
    text, branches = re.sub(r"\$(\w+)", lambda it: named.get(it[1], it[0]), text).split("case $words[1] in")

    def options_of(arguments):
        form = r"(?m)^(?:\([^)]*\))?(?:\{([-\w,]+)\}|(--?\w[-\w]*))"
        found = re.findall(form, "\n".join(shlex.split(arguments)))
        return {it for pair in found for it in ",".join(pair).split(",") if it}

    def array(name):
        return shlex.split(re.search(rf"(?ms)^  {name}=\((.*?)\)$", text)[1])

    known = after("", {it.split(":")[0] for it in array("commands")}) | after("edit", array("operations"))
    known |= after("", options_of(re.search(r"(?m)^  _arguments -C (.*?)&& return", text)[1]))
    parts = re.findall(r"(?ms)^    (\w+)\)\n(.*?)^      ;;", branches)
    return known.union(*(after(command, options_of(body)) for command, body in parts))


def from_fish():
    """What the completion for fish has."""
    known = set()
    for condition, rest in re.findall(r"(?m)^complete -c gomod -n ('.*?'|\S+)(.*)", read(FISH).replace("\\\n", "")):
        seen = re.match(r"'__fish_seen_subcommand_from ([\w ]+)", condition)
        names = ["-" * (1 + (letter == "l")) + it for letter, it in re.findall(r" -([ls]) (\S+)", rest)]
        for words in re.findall(r" -a ([\w=]+|'[^(']*')", rest):
            # those after help are arguments
            names += words.strip("'").split() if not seen or "=" in words else []
        places = seen[1].split() if seen else [""] if condition == "__fish_use_subcommand" else []
        known = known.union(*(after(it, names) for it in places))
    return known


def compare(name, what, wanted, has):
    """Prints what a part of a file lacks or has beyond what is wanted, and returns how much that is."""
    for is_there, it in sorted((it in has, it) for it in wanted ^ has):
        it = it if isinstance(it, str) else " ".join(it).strip()
        print(f"{name}: {what}: {f'has {it}, which --help does not show' if is_there else f'lacks {it}'}")
    return len(wanted ^ has)


def compare_descriptions():
    """Prints what zsh and fish say of a command if its line of help doesn't begin so, and returns how much that is."""
    lines = dict(re.findall(r"(?m)^  (\w+) +(.*)", section(help_of(), "Commands").lower()))
    found = [(ZSH, *it) for it in re.findall(r"(?m)^    '(\w+):(.*)'$", read(ZSH))]
    found += [(FISH, *it) for it in re.findall(r"(?m)-n __fish_use_subcommand -a (\w+) -d '(.*)'$", read(FISH))]
    # of the command help the parser says more
    others = [it for it in found if it[1] != "help" and not lines.get(it[1], "").startswith(it[2].lower())]
    for name, command, described in others:
        print(f"{name}: {command}: '{described}', which --help does not say of it")
    return len(others)


def tip_on(word):
    """The tip of a command line that this word makes wrong: an option after list, another one in a command's place."""
    words = ["list", word] if word.startswith("-") and not word.endswith("=") else [word]
    said = subprocess.run(["bin/gomod", *words], capture_output=True, text=True).stderr
    return (re.search(r"(?s)\n\n  tip: (.*?)\n\nUsage", said) or "  ")[1]


def compare_hints():
    """Prints for which names of a row its tip isn't there, or none with two letters swapped, and returns how many."""
    rows, wrong = {}, []
    for names, texts in hints():
        for name in names:
            # of rows with one name the first counts
            rows.setdefault(name, texts[0].partition("\n")[0])
    for name, text in rows.items():
        # the parser takes -h and help; a form is no word
        if name == "help" or name.startswith("-h") or "*" in name:
            continue
        wrong += [] if text in tip_on(name) else [name]
        swapped = name[:-2] + name[:-3:-1]
        if len(name.strip("-=")) >= 4 and not name.endswith("=") and swapped not in rows:
            wrong += [] if tip_on(swapped).strip() else [swapped]
    print(*(f"{HINTS}: there is no such tip on {it}" for it in wrong), sep="\n", end="\n" * bool(wrong))
    return len(wrong)


def limits(text):
    """The great numbers in a text, with what they count."""
    return set(re.findall(r"\d{5,}(?: bytes| module versions)?", " ".join(text.split())))


def limits_of(page):
    """The limits that a document has: great numbers, how many versions, and MiB as bytes."""
    text = read(page)
    found = re.findall(r"\b\d+(?:,\d{3}){2,}\b|\b\d+,\d{3}(?= (?:opened |module )*versions)", text)
    return {it.replace(",", "") for it in found} | {str(int(it) << 20) for it in re.findall(r"\b(\d+) MiB", text)}


def statuses(text, form):
    """What a text says of each status, in small letters and without the macros of a man page."""
    found = re.findall(form, re.sub(r"(?m)^\.(?!It)[A-Z][a-z] ?", "", text))
    return {number: " ".join(meaning.lower().split()) for number, meaning in found}


def compare_statuses():
    """Prints what help says of a status and the man page doesn't, and returns how much that is."""
    wanted = statuses(section(help_of(), "Exit status"), r"(?ms)^  (\d)  (.*?)(?=^  \d|\Z)")
    has = statuses(read(MAN), r"(?ms)^\.It (\d)\n(.*?)(?=^\.It|^$)")
    parts = {f"{number}: {part}" for number, it in wanted.items() for part in re.split(", or |, ", it)}
    return compare(MAN, "EXIT STATUS", parts, {it for it in parts if it[3:] in has.get(it[0], "")})


def prose(page):
    """A document without its examples, and without what scripts write."""
    return re.sub(r"(?ms)^<!-- show.*?^<!-- end -->$|^    [^\n]*$", "", read(page))


def run_examples():
    """Runs the examples of the man page in a folder with a module, and returns how many are wrong."""
    wrong, readme, path = 0, read("README.md"), os.path.abspath("bin")
    with tempfile.TemporaryDirectory(prefix="gomod-help-") as home:
        shutil.copytree("example", f"{home}/go/pkg/mod")
        given = {"cwd": f"{home}/go/pkg/mod", "env": {"HOME": home, "PATH": f"{path}:{os.environ['PATH']}"}}
        for line in re.findall(r"(?m)^\.Dl (.*)", read(MAN)):
            ran = subprocess.run(["bash", "-c", line], **given, capture_output=True, text=True)
            if ran.returncode or ran.stderr or textwrap.indent(ran.stdout, "    ") not in readme:
                wrong += 1
                print(f"{MAN}: {line}: status {ran.returncode}, and not what README.md shows: {ran.stdout}{ran.stderr}")
        if read(f"{home}/go/pkg/mod/go.mod") != read("example/go.mod").replace("go 1.16", "go 1.22"):
            wrong += 1
            print(f"{MAN}: EXAMPLES don't leave a go.mod with another go version")
    return wrong


def main():
    """Compares each file, prints what was compared, and returns the status."""
    script.shared("need_gomod")
    commands, wanted = from_help()
    in_synopsis, listed_commands, listed_options = from_man()
    wrong = compare(MAN, "SYNOPSIS and OPERATIONS", wanted, in_synopsis)
    wrong += compare(MAN, "COMMANDS", commands, listed_commands)
    wrong += compare(MAN, "OPTIONS", {it for _, it in wanted if it.startswith("-")}, listed_options)
    for name, has in ((BASH, from_bash(commands)), (ZSH, from_zsh()), (FISH, from_fish())):
        wrong += compare(name, "completions", wanted, has)
    helps = "".join(help_of(*it.split()) for it in ["", *sorted(commands - {"help"})])
    wrong += compare(MAN, "limits", limits(helps), limits(read(MAN)))
    wrong += compare_descriptions() + compare_statuses() + run_examples() + compare_hints()
    known = set(re.findall(r"\d{5,}", helps))
    for page in DOCUMENTS:
        wrong += compare(page, "limits", limits_of(page) & known, limits_of(page))
    said = checksum(read(MAN) + helps + prose(MANUAL))
    if said != READ:
        wrong += 1
        print(f"{MAN}, {MANUAL} or --help has changed: read them beside one another, and set READ to {said}")
    print(f"{len(commands)} commands, and {len(wanted) - len(commands)} options and operations of them", end=", ")
    print(f"in the man page and three completions: {wrong} wrong")
    return int(completions.main() or wrong > 0)


if __name__ == "__main__":
    script.run(main, "")
