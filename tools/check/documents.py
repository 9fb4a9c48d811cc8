#!/usr/bin/env -S python3 -B
"""Checks what the documents name, and all else that files alone show.

    tools/check/documents.py                  README.md, all documents of docs/, PROOFS.md and MISTAKES.md of crates,
                                              and what is told of below
    tools/check/documents.py --accept NAME..  writes the checksums anew of the sentences bound to these laws, or to
                                              `all`
    tools/check/documents.py --trusted LOG    whether docs/proof/PROVED.md has the `axioms` lines and the verdict of
                                              gomod in a log of `rt ci`, or of `rt check` in crates/gomod

What a document names is a table in docs/dev/DEVELOPING.md. How long one may be, and README.md and a release of
CHANGELOG.md, is told below (BUDGETS, keep_budgets), without bars of tables, fenced code, comments, quotes (`>`), and
what scripts write between marks (`<!-- show`). README.md's figures of speed are those of docs/dev/BENCHMARKS.md, and
both name the commit that was measured, which changed a source. What another file has too, as versions and counts, is
compared (ALIKE). Other facts have a comment below them, `<!-- read beside OTHERS: CHECKSUM -->`, or a page has one,
`page read beside`: if the text changes, read it beside these again, and write the checksum that is printed. Types
derive no Hash, and Debug if they are errors or docs/lib/LIBRARY.md names them.

If a sentence on what is proved, or what its law states, isn't the one of its checksum (sentences.py), both are printed.
Who changes one compares them before --accept. Then come the lines that cases print (messages.py), names of options
(names.py), what no contract says of a body (bodies.py), and whether each edit that must fail names its clause, has a
twin, and changes src/ alone.

It needs git. In a clone without its whole history no commits are looked for. The status is 1 if something is wrong.
"""

import collections
import fnmatch
import glob
import itertools
import os
import pathlib
import re
import sys

sys.path.append(f"{sys.path[0]}/..")
import script
import bodies
import messages
import names
import refusals
import sentences
from readme import FENCED, blanked
from script import Tally, checksum, git, read
from sources import code_of, functions, items_of, plain, scope_of

# what documents name that no source has: names of the toolchain and of other commands, and parts of names
ELSEWHERE = set("Dec Lts RT_JOBS axioms com1 com9 cpu drain extern into_iter lpt1 lpt9 rattle reserved-name sub"
                " timeout tred v2".split())
OTHER_ROOTS = {"Env", "Rc", "Vec", "anyhow", "env", "std"}  # what a path of such names begins with
MADE = re.compile("crates/hello(/|$)|.*/out(/|$)")  # what LIBRARY.md, or a build, makes
# how many words documents, or the program of one, may have together: a number, and patterns of names
BUDGETS = """
 7450 docs/use/*.md
 2000 docs/use/GO.md
12100 docs/proof/*.md
 5090 docs/proof/SPEC.md
 1500 docs/lib/*.md
  285 crates/library_example/src/main.rt
 6150 docs/dev/*.md
 1750 docs/dev/CASES.md
 2750 docs/DECISIONS.md
 1700 docs/dev/PROOFS.md
 4950 docs/dev/PROOFS.md crates/*/PROOFS.md
  450 docs/dev/BENCHMARKS.md
"""
HELP, COUNTS = "crates/gomod_words/src/help.rt", "crates/run_cases/stdout"
MISTAKES, FIGURES = "crates/run_cases/MISTAKES.md", "docs/dev/BENCHMARKS.md"
LIBRARY, PROVED = "docs/lib/LIBRARY.md", "docs/proof/PROVED.md"
MEASURED = r"(?m)^Measured at `(\w+)`\.$"
# what documents have, each time, and the file that has the same
ALIKE = (
    ("README.md", MEASURED, FIGURES, MEASURED),
    ("README.md", r"\| (`gomod list`) \|", FIGURES, r"\| (`gomod list`) \|"),
    ("*", r"\bgomod (\d+\.\d+\.\d+ \([^()]*\))", HELP, r'VERSION: &str = "(.*)"'),
    ("*", r"\bgomod-(\d[\d.]+\d)-", HELP, r'VERSION: &str = "(\S+)'),
    ("*", r"\blogic (?:is )?`?([0-9a-f]{16})\b", HELP, r'VERSION: &str = ".*logic (\w+)'),
    (MISTAKES, r"\b[Aa]ll (\d[\d,]*) cases\b", COUNTS, r"(\d+) passed, 0 failed"),
    (MISTAKES, r"\ball (\d[\d,]*) runs\b", COUNTS, r"failed, (\d+) runs"),
    ("docs/use/RECIPES.md", r"curl (\d+\.\d+) or newer", "example/fetch-missing.sh", r"curl \((\d+\.\d+) or newer"),
    (PROVED, r"calls of the system alone: ([\w, ]+?) \|",
     "tools/try/opened.py", r"OWN = set\(\"([\w ]+)"),
    ("README.md", r"in (\d+ to \d+) minutes on four cores", "build", r"from nothing this takes (\d+ to \d+) minutes"),
    ("README.md", r"(\d+) GB of disk", "build", r"DISK_MB=(\d+)000"),
    ("README.md", r"(\d+) GB of memory", "build", r"MEMORY_MB=(\d+)000"),
    ("README.md", r"SIG\w+ \((\d+)", "docs/use/RECIPES.md", r"SIG\w+, (\d+)"),
    ("docs/use/RECIPES.md", r"SIGXFSZ, (\d+)", "docs/use/RECIPES.md", r"\(ulimit -f 0 .*\n    (\d+)"),
    ("docs/use/COMMANDS.md", r"3 too if `head -1` leaves an output over (\d+,\d+) bytes",
     "crates/gomod_texts/src/reports/buffer.rt", r"pieces\.now\)\) ≤ (\d+) }"),
    ("docs/use/COMMANDS.md", r"[Aa]fter `(.)` (?:the next folder is searched if a file is absent;|also if)",
     HELP, r"after '(.)' (?:the next one is searched\nif a file is|also.* fails\.)"),
)

# names in backquotes one after another, each with a remark in brackets or without
ONE = r"`\w+`(?: \([^()]*\))?"
LIST = f"{ONE}(?:(?:,|,? and) {ONE})*"
CALL = r"`(\w+(?:::\w+)*)`"
DERIVE = r"#\[derive\((.*)\)\]\n(?:#.*\n)*(?:pub(?:\(crate\))? )?(?:struct|enum) (\w+)"
SHOWN = r"^<!-- show [^\n]*? -->\n(.*?)^<!-- end -->$"
PATH = re.compile(r"(?<![\w/.@:~$!-])\.?\w[\w.-]*(?:/[\w.*-]+)*/?")
FILE = re.compile(r"[\w-]+\.(?:rt|antt|sh|py|rs|txt|md)")
EDIT = re.compile(r"(?:gm|gomod)_\w+/[a-z]+_\w+")
CAPITALS = re.compile(r"(?<![^/])[A-Z]+(?=/|$|\.(?!md))")  # a part of a path that stands for any name
COMMIT = re.compile(r"(?<![\w.=-])(?=\d*[a-f])(?=[a-f]*\d)(?:[0-9a-f]{40}|[0-9a-f]{7,12})(?![\w-])")
WORD = re.compile(r"[^\s(){}\[\],;.:<>&|\"`]+")


# ---- names


def listed(text):
    return re.findall(r"`(\w+)`", re.sub(r" \([^()]*\)", "", text))


class Sources:
    """What the repository has: of each kind the forms in which documents name it."""

    def __init__(self):
        self.known = collections.defaultdict(set, names=set(ELSEWHERE))
        self.owners = collections.defaultdict(list)  # by the kind of a path and its last name: all that this is in
        self.tops = {"src", "specs", "proofs"}  # what a path begins with
        for path in map(pathlib.Path, git("ls-files", "-co", "--exclude-standard").split("\n")):
            if os.path.lexists(path):
                self.read_path(path)
                self.read_text(path)

    def read_path(self, path):
        """Reads the parts of a path, with its ending and without."""
        self.tops |= {path.parts[0], *(["/".join(path.parts[1:3])] if path.parts[0] == "crates" else [])}
        for parts in (path.parts, path.with_suffix("").parts):
            places = itertools.combinations(range(len(parts) + 1), 2)
            self.known["files"].update("/".join(parts[begin:end]) for begin, end in places)
            self.known["names"].update(parts)
        if path.suffix == ".edit":
            self.known["edits"] |= {path.stem, f"{path.parts[1]}/{path.stem}"}

    def read_text(self, path):
        """Reads a source, a page, or cases."""
        if path.suffix in (".rt", ".antt"):
            text = code_of(path) if path.suffix == ".rt" else plain(path.read_text(encoding="utf-8"))
            kind = "names in proofs" if path.parts[2] == "proofs" else "names"
            self.known[kind].update(WORD.findall(text))
            if path.suffix == ".rt":
                self.read_code(path, text)
        elif path.suffix == ".md" or path.parts[1:3] == ("run_cases", "data"):
            for title in re.findall(r"(?m)^(?:===|#+) (.*)", read(path)):
                self.known["titles"] |= {f'{path.name}, "{title}"', f'any file, "{title}"'}
                self.known["choices"].update(f"{path.name} {it}" for it in re.findall(r"\w+", title))

    def read_code(self, path, text):
        """Reads the items of a source."""
        crate, *modules = path.parts[1], *path.with_suffix("").parts[3:]
        is_law = crate.endswith("_laws") or "laws" in modules
        self.known["tests"].update(re.findall(r"(?m)^ *#\[test\]\n(?: *#\[.*\n)* *(?:pub )?fn (\w+)", text))
        for number, module in enumerate(modules):
            self.add_path(module, [crate, *modules[:number]], True)
        for name in scope_of(text, "pub "):
            self.add_path(name, [crate, *modules], True)
        for one in items_of(text):
            self.add_path(one.name, [crate, *modules], one.visibility == "pub")
            for variant in WORD.findall(one.text) if one.kind == "enum" else ():
                self.add_path(variant, [one.name], one.visibility == "pub")
        for one, block in functions(text):
            owners = [crate, *modules]
            owners += [it.split("::")[-1] for it in [*re.findall(r"^[\w:]+", block.trait), block.name]] if block else []
            is_public = one.visibility == "pub" or block and (block.trait or block.kind == "trait")
            paths = [one.name, *self.add_path(one.name, owners, is_public)]
            self.known["laws"] |= {one.name} if is_law else set()
            self.known["parts"].update(f"{one.name} of {it}" for it in owners)
            for clause in re.findall(r"(?m)^\s+(?:ensures|requires)\*? ([a-z]\w*)", one.text):
                self.known["parts"].update(f"{clause} of {it}" for it in paths)

    def add_path(self, name, owners, is_public):
        """Adds the paths of a name by what it is in."""
        for kind in ("paths of names", "public paths of names")[:2 if is_public else 1]:
            self.owners[kind, name].append({*owners})
        return [f"{it}::{name}" for it in owners]

    def has(self, kind, thing):
        """Whether a thing is of a kind."""
        if kind == "edits that went":
            return thing not in self.known["edits"]
        if kind == "commits":
            return has_commit(thing)
        if kind.endswith("paths of names"):
            *owners, last = thing.split("::")
            return any(it.issuperset(owners) for it in self.owners[kind, last])
        if kind == "files" and thing not in self.known[kind]:
            form = CAPITALS.sub("*", thing)
            return "*" in form and bool(fnmatch.filter(self.known[kind], form))
        return thing in self.known[kind] or kind == "names in proofs" and thing in self.known["names"]


def has_commit(commit, *words):
    """Whether the log of these words has a commit, or isn't whole."""
    log = git("log", "--format=%H", *words)
    return f"\n{commit}" in f"\n{log}" or git("rev-parse", "--is-shallow-repository") == "true"


def mentioned(line, page, tops):
    """What a line of a page names: the kind of each thing, and the thing."""
    base, is_code = os.path.basename(page), line.startswith("    ")
    for word in (it.rstrip("./") for it in PATH.findall(line)):
        first, *rest = word.split("/")
        if EDIT.fullmatch(word):
            yield "edits that went" if page == MISTAKES else "edits", word
        elif not MADE.match(word) and (tops & {first, "/".join([first, *rest[:1]])} if rest
                                       else not is_code and FILE.fullmatch(word)):
            yield "files", word
    file = "any file" if page == MISTAKES and line.startswith("|") else ""
    for named, title in re.findall(r'\b([\w-]+\.(?:txt|md)), (?=")|"([^"]{3,})"', line):
        file = named or file
        if title and file:
            yield "titles", f'{file}, "{title}"'
    if is_code:
        yield from (("choices", it) for it in re.findall(r"\brun_cases ([a-z_]+\.txt \w+)", line))
        return
    of_names = "names in proofs" if base == "PROOFS.md" or "proofs/" in line else "names"
    of_paths = "public paths of names" if base in ("README.md", "LIBRARY.md") else "paths of names"
    for text in re.findall(r"`([^`]+)`", line):
        if re.fullmatch(r"\w+(::\w+)+", text) and text.split("::")[0] not in OTHER_ROOTS:
            yield of_paths, text
        elif not COMMIT.match(text) and re.fullmatch(
                r"[A-Za-z]\w*" + "(-[a-z]+)*" * (base == "PROOFS.md"), text):
            yield of_names, text
    yield from ((of_names, it) for it in re.findall(r"(?<![\w/.@])(?:gm|gomod)_\w+", line))
    for kind, found in re.findall(rf"\b(law|test|edit)s? ({LIST})", line):
        yield from ((f"{kind}s", it) for it in listed(found))
    for found, owner in re.findall(rf"({LIST}) of {CALL}", line):
        yield from (("parts", f"{it} of {owner}") for it in listed(found))
    yield from (("commits", it) for it in COMMIT.findall(line))


def keep_names(tally):
    """Looks up all that the documents name."""
    sources = Sources()
    for page in pages():
        for number, line in enumerate(blanked(FENCED, read(page)).split("\n"), 1):
            for kind, thing in mentioned(line, page, sources.tops):
                tally.tell(kind, sources.has(kind, thing), f"{page}:{number}: {thing} isn't one of the {kind}")


# ---- lengths


def words_of(text):
    """How many words of a text count."""
    text = re.sub(rf"{FENCED}|{SHOWN}|<!--.*?-->|^>[^\n]*$|^\|[-:| ]+\|$", "", text)
    return sum(len((re.sub(r"(?<!\\)\|", " ", it) if it.startswith("|") else it).split()) for it in text.split("\n"))


def keep_budgets(tally):
    """Whether all documents are as short as they should be."""
    readme = re.sub(r"(?m)^(?:    |\|).*", "", read("README.md"))
    claims = [it.text for it in sentences.sentences() if it.file == sentences.ASIDE]
    budgets = [("README.md", words_of(readme), 600), ("README.md, What is verified", len(claims), 8)]
    budgets += [(f"README.md, '{it}'", len(it.split()), 30) for it in claims]
    budgets += [(f"CHANGELOG.md, {it.partition(chr(10))[0]}", words_of(it), 500)
                for it in re.split(r"(?m)^(?=## )", read("CHANGELOG.md"))]
    for most, *patterns in (it.split() for it in BUDGETS.strip().split("\n")):
        number = sum(words_of(read(name)) for it in patterns for name in glob.glob(it))
        budgets.append((" ".join(patterns), number, int(most)))
    for what, number, most in budgets:
        tally.tell("budgets", 0 < number <= most, f"{what}: {number:,}, and at most {most:,} should be")


# ---- what two files say


def pages():
    return sorted(["README.md", *glob.glob("docs/**/*.md", recursive=True), *glob.glob("crates/*/PROOFS.md"), MISTAKES])


def keep_alike(tally):
    """Whether documents have the versions, counts and names that another file has."""
    for page, form, other, its_form in ALIKE:
        text = "\n".join(map(read, pages() if page == "*" else [page]))
        here, there = ({it.replace(",", "") for it in re.findall(*search)}
                       for search in ((form, text), (its_form, read(other))))
        tally.tell("figures", here and here == there, f"{page}: '{form}' has {here}, and {other} has {there}")


def keep_pins(tally):
    """Whether each text that was read beside others is as it was then."""
    form = r"(?m)((?:^.+\n)*)^(<!-- (page )?read beside (.+): (\w+) -->)$"
    for page in pages():
        for block, comment, is_page, others, then in re.findall(form, read(page)):
            text = read(page).replace(comment, "") if is_page else block
            tally.tell("texts read beside others", checksum(text) == then, f"{page}: read this beside {others}, and "
                       f"write {checksum(text)} below it: {text[:100]}")


def keep_figures(tally):
    """Whether README.md's figures of speed are those that were measured, of a commit that changed a source."""
    shown, page = "".join(re.findall(SHOWN, read("README.md"), re.M | re.S)), read(FIGURES)
    wrong = [it for it in shown.split("\n") if f"\n{it}" not in page]
    tally.tell("figures", not wrong, f"README.md: {FIGURES} has no {wrong}; bench/tables.sh --write writes both")
    for commit in re.findall(MEASURED, page):
        is_right = has_commit(commit, "--", "*.rt")
        tally.tell("figures", is_right, f"{FIGURES}: {commit} is no commit that changed a .rt file")


def keep_derives(tally):
    """Whether types derive Debug and Hash as docs/lib/LIBRARY.md says: each is proved."""
    named = set(re.findall(CALL, re.search(r"`Debug` is derived by errors and by (.*), `Hash`", read(LIBRARY))[1]))
    derives = re.findall(DERIVE, "".join(map(read, glob.glob("crates/*/src/**/*.rt", recursive=True))))
    wrong = named ^ {name for words, name in derives if "Debug" in words and "Error" not in words}
    wrong |= {name for words, name in derives if "Hash" in words}
    tally.tell("derives", not wrong, f"{LIBRARY}: what it says of Debug and Hash isn't so: {', '.join(sorted(wrong))}")


def keep_trusted(tally, log):
    """Whether docs/proof/PROVED.md has what a log says that the check of gomod trusts."""
    said = f"\n{read(log)}".rpartition("\n== gomod\n")[2].partition("\n== ")[0]
    # what speeds a check up alone isn't in the gate's verdict
    said = re.sub(" (incremental|cache)=trusted", "", said)
    lines = "".join(re.findall(r"(?m)^(?:axioms \w+: |logic=proved.*target=).*\n", f"{said}\n"))
    if lines:
        is_right = f"```\n{lines}```\n" in read(PROVED)
        tally.tell("what gomod rests on", is_right, f"{PROVED}: it should have these lines:\n{lines}")
    else:
        print("documents: the log has no verdict of gomod, so nothing was compared")


def main(*words):
    """Looks up what the documents name, prints what isn't there, and returns the status."""
    if words[:1] == ("--accept",):
        return sentences.accept(words[1:])
    if not git("rev-parse", "HEAD"):
        sys.exit("documents: this is no repository of git, so nothing can be looked up")
    tally = Tally()
    if words[:1] == ("--trusted",):
        keep_trusted(tally, words[1])
        return tally.status()
    for keep in (keep_names, sentences.keep, keep_budgets, keep_figures, keep_alike, keep_pins, keep_derives,
                 messages.keep, names.keep, bodies.keep, refusals.keep):
        keep(tally)
    return tally.status()


if __name__ == "__main__":
    script.run(main, r"( --accept( (?!-)\S+)+| --trusted (?!-)\S+)?")
