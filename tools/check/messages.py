"""Compares docs/use/MESSAGES.md with what gomod says, for tools/check/documents.py.

Its first table has each line that gomod writes to standard error, with its status; its bullets have the KINDs of a
go.mod. What a case prints is in the table and in the command's help, and each line of the table and each KIND is
printed by a case. A KIND of line 0 has no other line, and the KINDs that its bullet on `Malformed` rules out are those
that no case prints so. The KINDs of directives are in the order in which the first is reported. That the table, help's
errors and the man page's diagnostics say the same is for whoever reads them: a checksum of all three tells if one
changed.
"""

import glob
import re

from script import checksum, read

PAGE, MAN = "docs/use/MESSAGES.md", "share/man/man1/gomod.1"
HELP = "crates/run_cases/data/words.txt"  # cases that print it
KINDS = "crates/gm_file/src/fault.rt"  # which fault of a directive is reported first
# what stands for a part of a line
PARTS = {"LINE": r"(?:\d+|\{N\+1\}|LINE)", "N": r"(?:\d+|\{N\+1\}|N)", "KIND": r"\w+(?: LINE KIND)?",
         "PATH": "[^@ :]+", "VERSION": "[^@ :]+", "FOLDER": "[./F].*", "bad path PATH": "bad path .*"}
PARTS |= dict.fromkeys(["NAME", "VALUE", "P", "DIR", "FILE", "..", "TEXT"], ".*")
AT = re.compile(r"(go\.mod:|go\.sum:|.*: Malformed )(\S+?):? (\w+)")


def pattern(form):
    """What a line of a form matches."""
    pieces = re.split(r"(bad path PATH|\b[A-Z]+\b|\.\.)", form)
    return re.compile("".join(PARTS.get(it) or re.escape(it) for it in pieces))


class Lines:
    """Forms of lines, with their statuses."""

    def __init__(self, forms):
        self.forms = [(form, pattern(form), int(status)) for form, status in forms]

    def of(self, text, status):
        """The forms that a line with this status has."""
        return {form for form, fits, its in self.forms if fits.fullmatch(text) and its == status}


def reports(path):
    """The number, the command, the text and the status of each line that a case reports: of a usage error the first."""
    command, lines, status = "", [], 0
    for at, line in enumerate([*read(path).split("\n"), "$ "], 1):
        if line.startswith(("$ ", "=== ", "-- ")):
            for number, text in lines[:1] if lines and lines[0][1].startswith(("error: ", "Work with ")) else lines:
                yield number, command, text.removesuffix("\\n"), status
            command, lines, status = line.removeprefix("$ gomod ").split(" ")[0], [], 0
        elif re.match(r"!(\*\S+|\\)? ", line):
            lines.append((at, line.split(" ", 1)[1]))
        elif line.startswith("? "):
            status = int(line[2:])


def errors_of_help():
    """The errors of each command, as its help has them, and all that text."""
    asked = r"(?m)^\$ gomod (?:help )?(\w+)(?: --help)?\n(?:>.*\n)*?> Errors,.*\n((?:>   .*\n)+)"
    errors, found = {}, re.findall(asked, read(HELP))
    for command, text in found:
        lines = re.findall(r"(?m)^>   (\S.*?)  +(.*(?:\n> {20}.*)*)", text)
        errors[command] = Lines((form, (re.search(r"status (\d)\)", more) or "11")[1]) for form, more in lines)
    return errors, "".join(text for _, text in found)


def keep(tally):
    """Compares the table with cases, help and man page."""
    page, (helps, help_text) = read(PAGE), errors_of_help()
    table = Lines(re.findall(r"(?m)^\| \[?`(.*?)`(?:\]\S*)? \| (\d) \|", page))
    kinds = re.findall(r"(?m)^- `(\w+)`( \(line 0\))?:", page.partition("## The main file")[2].partition("\n## ")[0])
    whole = {kind for kind, is_whole in kinds if is_whole}
    printed, malformed, usage = set(), set(), tuple(it.rstrip() for it in re.findall(r"`(error: [^'`]*[^'`A-Z])", page))

    def tell(is_right, message):
        tally.tell("messages", is_right, message)

    def is_known(text, status):
        """Whether the table has a line, whose KIND, if it has one, there is on such a line."""
        place, line, kind = found.groups() if (found := AT.fullmatch(text)) else ("", "", "")
        is_kind = place in ("", "go.sum:") or kind in {"KIND", *dict(kinds)}
        return table.of(text, status) and is_kind and (line == "0") == (kind in whole)

    for path in sorted(glob.glob("crates/run_cases/data/**/*.txt", recursive=True)):
        for number, command, text, status in () if "/wrong/" in path else reports(path):
            if text.startswith("Work with "):  # help
                continue
            is_usage = text.startswith("error: ")
            printed |= table.of(text, status) | set(re.findall(r"^go\.mod:.*: (\w+)", text))
            malformed |= set(re.findall(r": Malformed \S+ (\w+)$", text))
            is_right = is_known(text, status) and (not is_usage or text.startswith(usage))
            tell(is_right, f"{path}:{number}: {PAGE} has no '{text}' with status {status}")
            is_there = is_usage or command not in helps or helps[command].of(text, status)
            tell(is_there, f"{path}:{number}: the help of {command} has no '{text}' with status {status}")
    named = [form for form, _, _ in table.forms] + [kind for kind, _ in kinds]
    for it in named:
        tell(it in printed and named.count(it) == 1, f"{PAGE}: no case prints '{it}', or it stands there twice")
    ruled_out = set(re.findall(r"`(\w+)`", page.partition(", but never ")[2].partition(".")[0]))
    tell(ruled_out == {*dict(kinds)} - malformed, f"{PAGE}: `Malformed` rules out other KINDs than no case prints so")
    order = re.findall(r"(?m)^- `(\w+)`:", page.partition("\n### The directives\n")[2].partition("\n### ")[0])
    variants = re.search(r"(?ms)^pub enum DirectiveKind {(.*?)^}", read(KINDS))[1]
    tell(order == [it for it in re.findall(r"(?m)^    (\w+),$", variants) if it not in whole],
         f"{PAGE}: the directives' KINDs aren't in the order of {KINDS}, in which the first is reported")
    section = read(MAN).partition("DIAGNOSTICS")[2].partition(".Sh ")[0].replace("\\&", "")
    stamp = checksum("".join(re.findall(r"(?m)^(?:\||-) .*\n", page)) + help_text + section)
    tell(f"beside one another: {stamp}\n" in page, f"{PAGE}: its rows, help's errors or the man page's diagnostics "
         f"changed: read them beside one another, and write {stamp}")
