#!/usr/bin/env -S python3 -B
"""Keeps the pages on what `gomod list` is proved to print, and the crates page and page_commands, in step with the
definitions and with docs/proof/SPEC.md.

    tools/check/headline.py          writes anew what HEADLINE.md, REPORTS.md and DEFINITIONS.md show of the sources,
                                     and copies of the definitions that `list` needs into crates/page/specs, and of
                                     those that the other commands need into crates/page_commands/specs
    tools/check/headline.py --check  changes nothing, and tells which page or copy is out of step, or too long, and what
                                     tools/check/private.py finds wrong; the status is 1 if there is one

Between the marks `<!-- show .. -->` and `<!-- end -->` of a page stands what the sources say; the rest is by hand:

    show FILE: NAME..           these definitions of a file below crates/, with their comments
    show contract FILE F: C..   these clauses of the function F in a source, or its `signature`
    show worlds                 which functions of gomod_laws/src/example_world.rt try which definition
    show names                  each name that the page uses and doesn't define, and its file
    show files CRATE: NAME..    the files of a crate's specs/ with definitions that the contract of `run` reaches, and
                                these, each after those that it uses: its first sentence, and how many are reached

A quote (a line that begins with `>`) must stand in docs/proof/SPEC.md word by word. A definition stands on one page
only: HEADLINE shows a name before what it is made of, REPORTS after that. Section 2 of HEADLINE says what each name of
the standard library is that the page has. The copies are of all definitions that `ListEnds` or COPIES reaches, but for
those that a crate of copies defines by hand.

Each definition that the contract of `run` reaches must be on HEADLINE or REPORTS, or in a file that DEFINITIONS names;
those of crates that know module graphs, if `list` needs them, on one of the first two. HEADLINE may have 45 definitions
of 170 lines from `ListEnds` down; neither empty lines nor comments count. No type that its crate doesn't export may be
reached.
"""

import functools
import pathlib
import re
import sys
from collections import defaultdict

sys.path.append(f"{sys.path[0]}/..")
import script
import private
import sources
from sources import (
    CRATES, USED, Clause, Definition, definitions, first_sentence, functions, items_of, place, reached_from, scope_of,
)

FOLDER = pathlib.Path("docs/proof")
# the crates that know module graphs
GRAPH = (
    "gm_graph_files", "gm_graph_cache", "gm_graph_select", "gm_graph", "gomod_texts", "gomod_outcomes", "gomod_run")
RUNNING = CRATES / "gomod_run/src/running.rt"
LIST = ["gomod_texts.specs.ListQuery.ListEnds", "gomod_run.specs.Written.EndsAsStated"]
# the crates of copies, with the definitions that reach theirs
COPIES = {"page": LIST[:1], "page_commands": [
    "gomod_outcomes.specs.Versions.VersionsEnds", "gomod_texts.specs.ChainQuery.PrintsChain",
    "gomod_texts.specs.GraphQuery.PrintsGraph", "gomod_outcomes.specs.Fmt.FmtEnds",
    "gomod_outcomes.specs.Edit.EditEnds",
    "gm_store_sums.specs.Hash.file_hash", "gm_store_sums.specs.Sums.SaysOfHash",
    "gm_store_sums.specs.Sums.IsFirstInvalid", "gm_store_sums.specs.Sums.HasValidLines",
    "gm_store_parts.specs.Asked.answer_in", "gm_store.specs.Relative.relative_text", "gm_name.specs.Path.IsPath",
    "gm_syntax_words.specs.Lines.lines_of", "gm_syntax.specs.Document.class_of", "gm_syntax.specs.Document.start",
    "gm_syntax.specs.Document.after",
]}
SHOWN = re.compile(r"(?ms)^<!-- show ([^\n]*?) -->\n(.*?)^<!-- end -->$")
MOST_DEFINITIONS, MOST_LINES = 45, 170  # from `ListEnds` down, on HEADLINE


def reached_from_paths(paths, *is_end):
    """The definitions that those of these paths reach."""
    return reached_from((place(*it.rsplit(".", 1)) for it in paths), *is_end)


@functools.cache
def reached_by_run():
    """The definitions that the contract of `run` reaches, and those of them that `list` needs."""
    return [set(it) for it in (reached_from(clauses_of(RUNNING, "run").values()), reached_from_paths(LIST))]


def clauses_of(file, function):
    """The clauses of the first function of this name in a source, by their names, with the comments before each; and
    its signature."""
    found = next(it for it, _ in functions(file.read_text()) if it.name == function)
    texts = {"signature": found.signature().rstrip(), **found.clauses()}
    return {name: Clause(file, text) for name, text in texts.items()}


@functools.cache
def exported(crate):
    code = sources.code_of(CRATES / crate / "src/lib.rt")
    return {it.name for it in items_of(code) if it.visibility == "pub"} | scope_of(code, "pub ").keys()


# ---- what stands between marks


def shown(order):
    """What stands below a mark but `names`: its text, and the definitions or clauses that it has."""
    if order == "worlds":
        return worlds(), []
    what, names = order.removeprefix("contract ").split(":") if ":" in order else (order, "")
    name, *words = what.split()
    if name == "files":
        return rows_of_files(words[0], names.split()), []
    file, function = CRATES / name, "".join(f", `{it}`" for it in words)
    known = clauses_of(file, *words) if words else definitions(file)
    missing = [it for it in names.split() if it not in known]
    if missing:
        sys.exit(f"headline: {what} has no {' '.join(missing)}")
    found = [known[it] for it in names.split()]
    code = ("\n" if words else "\n\n").join(it.whole() for it in found)
    return f"[{name}](../../crates/{name}){function}:\n```\n{code}\n```\n", found


def worlds():
    """Which functions try which definition: the documentation of each says it in backquotes."""
    file = "gomod_laws/src/example_world.rt"
    found = re.findall(r"(?m)((?:^///.*\n)+)(?:^#\[.*\n)*^pub fn (\w+)", (CRATES / file).read_text())
    rows = [f"- `{name}`: {' '.join(re.sub('(?m)^///', '', comment).split())}\n" for comment, name in found]
    return f"[{file}](../../crates/{file}):\n\n" + "".join(rows)


@functools.cache
def files_of(crate):
    """The files of a crate's specs/, each after those that it uses."""
    left, found = [it for it in sources.files("specs/*.antt", crate) if it.stem not in ("Lib", "Private")], []
    uses = {file: {it.file for one in definitions(file).values() for it in one.cites().values()} - {file}
            for file in left}
    while left:
        found.append(next(it for it in left if not uses[it].intersection(left)))
        left.remove(found[-1])
    return found


def rows_of_files(crate, also):
    """A table of the files of a crate that have something to read."""
    rows = ["| File | What it has | `run` | `list` |\n|---|---|---|---|\n"]
    for file in files_of(crate):
        counts = [len(it.intersection(definitions(file).values())) for it in reached_by_run()]
        if counts[0] or file.stem in also:
            link = f"[{file.relative_to(CRATES)}](../../{file})"
            rows.append(f"| {link} | {first_sentence(file)} | {counts[0]} | {counts[1]} |\n")
    return "".join(rows)


class Page:
    """A page: its text, the definitions that it shows, what these and its contracts use, and the crates whose files it
    names."""

    def __init__(self, name):
        self.path = FOLDER / f"{name}.md"
        self.text = self.path.read_text()
        self.crates = re.findall(r"<!-- show files (\w+)", self.text)
        orders = (order for order, _ in SHOWN.findall(self.text) if order != "names")
        found = [it for order in orders for it in shown(order)[1]]
        self.defined = [it for it in found if isinstance(it, Definition)]
        self.uses = {it for one in found for it in one.cites().items()}

    def early(self):
        """The names of the page that it uses before it shows them, each with the definition that uses it."""
        for at, one in enumerate(self.defined, 1):
            yield from (f"{one.name} uses {it.name}, which is shown after it" for it in one.cites().values()
                        if it in self.defined[at:])

    def names(self, other):
        """The names that the page uses and doesn't define."""
        groups, renamed = defaultdict(set), set()
        for name, one in self.uses:
            short = name.split(".")[-1]
            if short not in (one.name, *one.constructors):
                renamed.add((name, one))
            if one not in self.defined:
                where = f"[{other.path.name}]({other.path.name})" if one in other.defined else source_of(one)
                groups[where].add(one.name)
        rows = [f"- {where}: {', '.join(f'`{name}`' for name in sorted(names))}\n"
                for where, names in sorted(groups.items())]
        rows += [f"- Written `{name}` here: `{one.name}` of {source_of(one)}\n"
                 for name, one in sorted(renamed, key=lambda it: it[0])]
        return "".join(rows)

    def renewed(self, other):
        """The text of the page with what the sources say, beside the other page."""

        def renew(found):
            body = self.names(other) if found[1] == "names" else shown(found[1])[0]
            return f"<!-- show {found[1]} -->\n{body}<!-- end -->"

        return SHOWN.sub(renew, self.text)


def source_of(one):
    return re.sub(r"`crates/([^`]+)`", r"[\1](../../crates/\1)", one.source)


# ---- the crates that a reader can change


# their definitions that are written by hand: what these name is not copied
BY_HAND = ("Types", "Files", "Runs", "Worlds")


def is_in(name, code):
    """Whether an operator or a sign, such as `◌++◌`, `if◌then◌else◌` or `ℕ`, stands in a text."""
    return all(re.search(r"\b" + it + r"\b" if it.isalpha() and it.isascii() else re.escape(it), code)
               for it in name.split("◌") if it)


class Copies:
    """A crate with copies of the definitions from these down to its stand-ins."""

    def __init__(self, crate, ends):
        self.specs, self.path = CRATES / crate / "specs", f"Rattle.{crate}.specs"
        self.by_hand = [it for it in BY_HAND if (self.specs / f"{it}.antt").exists()]
        stands = [(base, one) for base in self.by_hand[:-1]
                  for one in definitions(self.specs / f"{base}.antt").values()]
        self.names = {one.name: base for base, one in stands}
        self.constructors = {name: base for base, one in stands for name in one.constructors}
        found = reached_from_paths(ends, self.stand_in)
        self.copied = {file: [it for it in definitions(file).values() if it in found]
                       for file in sorted({it.file for it in found})}

    def stand_in(self, one):
        """The module of the crate that has a stand-in for a definition or a leaf, or None."""
        kind = one.owner and one.owner[1]
        if kind and (self.specs / f"Types/{kind}.antt").exists():
            return f"Types.{kind}"
        return self.names.get(one.name) or kind and self.constructors.get(one.name)

    def base_of(self, file):
        """The name of the copy of a file, with that of its crate if there are two."""
        is_alone = [it.name for it in self.copied].count(file.name) == 1
        return file.stem if is_alone else file.parts[1].title().replace("_", "") + file.stem

    def text_of(self, file, ones):
        """The text of the crate's file with these definitions of a source: it imports of what the source does the names
        that they use, and stand-ins for definitions of the source itself."""
        imports, code = defaultdict(list), "\n".join(one.code for one in ones)
        used = {name: it for one in ones for name, it in one.cites().items()}
        scope = scope_of(file.read_text())
        for own, (path, name) in scope.items():
            one = used.get(own)
            if not name:
                stands = {self.stand_in(it) for as_used, it in used.items() if as_used.startswith(f"{own}.")}
                imports |= {f"{self.path}.{it} as {own}": [] for it in stands}
            elif one or not USED.fullmatch(name) and is_in(name, code):
                base = one and (self.stand_in(one) or one.file and self.base_of(one.file))
                imports[f"{self.path}.{base}" if base else path].append(name if name == own else f"{name} as {own}")
        for name in sorted(used.keys() - scope.keys()):
            if base := used[name].file == file and self.stand_in(used[name]):
                imports[f"{self.path}.{base}"].append(name)
        uses = [f"use {path}" + (f".{{{', '.join(items)}}}" if items else "") for path, items in imports.items()]
        head = f"-- A copy from {file}, which tools/check/headline.py writes."
        return "\n\n".join(["\n".join([head, *uses]), *(one.whole() for one in ones)]) + "\n"

    def texts(self):
        """The text of each file of copies."""
        texts = {self.base_of(file): self.text_of(file, ones) for file, ones in self.copied.items()}
        texts["Lib"] = "".join(f"pub mod {base}\n" for base in sorted([*texts, *self.by_hand]))
        return {self.specs / f"{name}.antt": text for name, text in texts.items()}

    def strange(self):
        """Files that are neither by hand nor copies."""
        known = [*BY_HAND, "Lib", *map(self.base_of, self.copied)]
        return [f"{it}: it is a copy of nothing that the pages reach" for it in self.specs.glob("*.antt")
                if it.stem not in known]


# ---- what is wrong


def faults_of(page, other, index):
    """What is wrong with the pages, apart from what is out of step."""
    spec = " ".join((FOLDER / "SPEC.md").read_text().split())
    for it in {*page.defined}.intersection(other.defined):
        yield f"{other.path}: {it.name} of {it.file} stands on {page.path}, too"
    for it in (page, other):
        for lines in re.findall(r"(?m)(?:^>.*\n)+", it.text):
            quote = " ".join(re.sub("(?m)^>", "", lines).split())
            if quote not in spec:
                yield f"{it.path}: docs/proof/SPEC.md does not say: {quote}"
    yield from (f"{other.path}: {it}" for it in other.early())
    every, of_list = reached_by_run()
    for it in every.difference(page.defined, other.defined):
        crate = it.file.parts[1]
        if crate in GRAPH and it in of_list or crate not in index.crates:
            yield f"{page.path}: neither it nor REPORTS.md has {it.name} of {it.file}"
    for it in {it for one in every for it in one.cites().values() if it.owner}:
        if it.owner[1] not in exported(it.owner[0]):
            yield f"the contract of `run` reaches {it.name} of {it.source}, which isn't exported"
    legend = page.text.partition("\n## 2.")[2].partition("\n## 3.")[0]
    for name in sorted(it.name for _, it in page.uses if it.source == "the standard library"):
        if not re.search(rf"\b{name}\b", legend):
            yield f"{page.path}: section 2 doesn't say what {name} is"
    top = reached_from_paths(LIST[:1], lambda one: one not in page.defined)
    size, lines = (sum(it.size() for it in found) for found in (top, of_list))
    if len(top) > MOST_DEFINITIONS or size > MOST_LINES:
        yield f"{page.path}: from `ListEnds` down at most {MOST_DEFINITIONS} definitions and {MOST_LINES} lines"
    for it in (f"{len(top)}, from `ListEnds` down, on this page", f"in {len(of_list)} definitions of {lines:,} lines",
               f"all {lines:,} lines", f"they are {len(every)}."):
        if it not in page.text:
            yield f"{page.path}: it should say: {it}"


def main(option=""):
    """Renews or compares the pages and the copies, prints what is wrong, and returns the status."""
    page, other, index = pages = [Page(it) for it in ("HEADLINE", "REPORTS", "DEFINITIONS")]
    copies = [Copies(*it) for it in COPIES.items()]
    wrong = [*faults_of(*pages), *(it for one in copies for it in one.strange())]
    print(*wrong, sep="\n", end="\n" if wrong else "")
    texts = {it.path: it.renewed(other if it is page else page) for it in pages}
    texts |= {path: text for one in copies for path, text in one.texts().items()}
    kept = [script.keep(*it, bool(option), "tools/check/headline.py") for it in texts.items()]
    return int(bool(option and private.main()) or bool(wrong) or any(kept))


if __name__ == "__main__":
    script.run(main, "( --check)?")
