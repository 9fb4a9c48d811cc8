"""Checks that each option and each operation is named once, for tools/check/documents.py: as a string in one file of
src/ and in one of specs/, over all crates. A string is a name with or without its dashes or its `=`; longer texts, such
as help, aren't looked at, but for help's list of operations, which has those that there are.

Each row of the tables of hints (src/hints.rt of gomod_hints) has a command in tips.txt or words.txt: with one of its
names, or with any word for a form (`*.mod`), and with its text as the tip. Each command of gomod that a tip shows, up
to a `|` or `>`, prints in one of them, with some word in the place of PATH and the like.
"""

import collections
import re

from case_files import DATA, case_of, chosen_cases, moderate_sizes
from sources import CRATES, product_files

# the tables: of what kind the names of one are, its file in src/ or specs/, and what a row looks like
TABLES = {
    ("option", "gomod_words/src/table.rt"): r' row!\("([\w-]+)", Form::[^,]+, false,',
    ("option", "gomod_words/specs/Table.antt"):
        r'^rule_for a\.\w+ = (?:default_)?(?:option|flag)_rule \(codes "([\w-]+)"',
    ("operation", "gm_operation/src/kind.rt"): r'^ +"(\w+)" => Some\(OperationKind::',
    ("operation", "gm_operation/specs/Operations.antt"): r'\(codes "(\w+)", op\.',
}
HELP, HINTS = "gomod_words/src/help.rt", "gomod_hints/src/hints.rt"
# what stands for a word in the command that a tip shows
PLACE = r"\b(PATH|VERSION|FOLDER|FILE|DIR|OP)\b"
# files in which these words are something else: directives of a go.mod file, and the option that a message is about
DIRECTIVES = "module go require replace exclude retract"
OTHERWISE = {
    r"gm_file/src/\w+\.rt": DIRECTIVES, "gm_file/specs/.*": DIRECTIVES, r"gm_file_edit/src/a\w+\.rt": DIRECTIVES,
    r"gm_file_edit/specs/Edited\.antt": DIRECTIVES, r"gomod_words/src/words\.rt": "limit",
}


def read(file):
    return (CRATES / file).read_text(encoding="utf-8")


def named_in(file):
    """What the strings of a source name, without those of its comments."""
    mark = "//" if file.endswith(".rt") else r"(?<!\S)--(?!\S)"
    return {re.sub(r"^--?|=$", "", it) for it in re.findall(rf'{mark}[^\n]*|"((?:\\.|[^"\\])*)"', read(file)) if it}


def wrong_names(names):
    """Names of some kinds that stand elsewhere than in the tables of their kind, and exceptions that nothing needs."""
    unused = set(OTHERWISE)
    sources = [*product_files("src/**/*.rt"), *product_files("specs/**/*.antt")]
    for file in (str(it.relative_to(CRATES)) for it in sources):
        found = names.keys() & named_in(file) if file != HINTS else set()
        for pattern in (it for it in OTHERWISE if re.fullmatch(it, file)):
            allowed = found.intersection(OTHERWISE[pattern].split())
            unused -= {pattern} if allowed else set()
            found -= allowed
        yield from (f"{file}: {names[it]} '{it}' is named outside of its tables" for it in sorted(found)
                    if (names[it], file) not in TABLES)
    yield from (f"tools/check/names.py: {it} has no such word" for it in unused)


def wrong_rows(rows, names):
    """Names that a table of their kind hasn't once, and those that help's list of operations lacks or has beyond."""
    for (kind, table), found in rows.items():
        yield from (f"{table}: {kind} '{it}' has {found[it]} rows" for it in names
                    if names[it] == kind and found[it] != 1)
    help_text = read(HELP)
    listed = re.findall(r"(?m)^  (\w+)=", help_text[help_text.index("The operations are"):].split('"')[0])
    for it in {*listed} ^ {it for it, kind in names.items() if kind == "operation"}:
        yield f"{HELP}: the list of operations {'has' if it in listed else 'lacks'} '{it}'"


def hints():
    """The names of each row of the tables of hints, and the strings of its text."""
    for row in read(HINTS).partition("\nconst ")[2].rpartition("\n];")[0].split("\n    (")[1:]:
        names, *texts = re.findall(r'"([^"]*)"', row)
        yield names.split(), [it.replace("\\n", "\n") for it in texts]


def wrong_hints():
    """Rows of the tables of hints without a case, and commands of tips that no case runs."""
    printing, tips = [], []
    for _, *case in chosen_cases([f"{DATA}/tips.txt", f"{DATA}/words.txt"], moderate_sizes):
        for run in case_of(*case).commands():
            *words, report = (it.decode("utf-8", "replace") for it in [*run.words, run.report])
            keys = {re.sub("^--", "-", it.partition("=")[0]) for it in words[1:]}
            printing += [] if run.status else [" ".join(words)]
            tips.append((keys, report.partition("\n\n  tip: ")[2].partition("\n\n")[0]))
    for names, texts in hints():
        names = {it.rstrip("=") for it in names}
        if not any((keys & names or "*" in min(names)) and all(it in tip for it in texts) for keys, tip in tips):
            yield f"{HINTS}: no case has the row of '{min(names)}'"
    for command in sorted({it.strip() for _, tip in tips for it in re.findall(r"'(gomod [^'|>]*)", tip)}):
        if not any(re.fullmatch(re.sub(PLACE, r"\\S+", re.escape(command)), it) for it in printing):
            yield f"{HINTS}: no case prints by '{command}'"


def keep(tally):
    """Looks at all names."""
    rows = {it: collections.Counter(re.findall(f"(?m){row}", read(it[1]))) for it, row in TABLES.items()}
    names = {name: kind for (kind, _), found in rows.items() for name in found}
    for wrong in [*wrong_names(names), *wrong_rows(rows, names), *wrong_hints()]:
        tally.tell("options and operations", False, wrong)
    tally["options and operations", True] += len(names)
