"""Keeps sentences of README.md and docs/proof/PROVED.md bound to the laws that state them, for
tools/check/documents.py.

Beside a sentence that names a law, in PROVED.md's "What you can rely on", and beside those of its "The main promise",
stands a comment: the laws' names, a checksum of the sentence and one of what the laws state. For README.md's "What is
verified" tools/check/readme_sentences.txt has the same, a line for each sentence. A law states the clauses of its
function, and all definitions in specs/ of any crate that these reach (tools/check/sources.py), each with its file.
Comments of sources and blanks don't count. If a definition isn't as it was when the checksums were written, which git
tells, the check names it.
"""
import collections
import dataclasses
import functools
import re
import sys

from script import checksum, git, read, write
from sources import Clause, code_of, definitions_in, files, functions, reached_from

README, PROVED = "README.md", "docs/proof/PROVED.md"
SECTIONS = {README: ["What is verified"], PROVED: ["The main promise", "What you can rely on"]}
ASIDE = "tools/check/readme_sentences.txt"  # the checksums of README.md
BOUND = re.compile(r"(?:\s*<!-- bound to )?([\w:, ]+): (\w*) (\w*)(?: -->)?")
FIRST = ["gomod_laws", "gomod_run"]  # if crates have laws of one name, a name alone is that of the first of these
SHOWN = set()  # the changed definitions whose text was printed
CHECKS = "checks"  # stands for a law: what the check of a crate says of each of its functions


@dataclasses.dataclass
class Sentence:
    """A sentence, its place, its laws, its checksums, or none, and the file and the line that have or get them."""

    text: str
    place: str
    laws: list
    sums: tuple
    file: str
    at: int

    def now(self):
        return checksum(self.text), checksum("\n".join(map(statement, self.laws)))


# ---- laws


@functools.cache
def public_functions():
    """The functions of the sources by their names: for each its crate, whether it is a law's, and its contract."""
    found = collections.defaultdict(list)
    for path in files("src/**/*.rt"):
        is_law = path.parts[1].endswith("_laws") or "laws" in path.with_suffix("").parts
        for one in (it for it, block in functions(code_of(path)) if not block and it.visibility == "pub"):
            found[one.name].append((path.parts[1], is_law, Clause(path, one.contract)))
    return found


def law(name):
    """The contract of a law or call, by its name or path, or None."""
    *path, last = name.split("::")
    known = [it for it in public_functions().get(last, []) if (it[0] in path if path else it[1])]
    best = next(filter(None, ([it for it in known if it[0] == crate] for crate in FIRST)), known)
    return best[0][2] if len(best) == 1 else None


def stated(text):
    """A definition without its comments."""
    return re.sub(r"(?m)^[ \t]*--.*\n", "", text)


@functools.cache
def reached(name):
    """The definitions that the contract of a law reaches."""
    if name == CHECKS:
        return []
    return sorted(reached_from([law(name)]), key=lambda it: (str(it.file), it.line))


def statement(name):
    """What a law states: its contract, and the definitions that it reaches."""
    if name == CHECKS:
        return "checks: each function of each crate is safe, and returns"
    parts = sorted(f"{it.file}: {stated(it.text)}" for it in reached(name))
    return "\n".join([f"{name}:", law(name).text, *parts])


def changed(one):
    """The definitions that the laws of a sentence reach and that aren't as they were when its comment was written."""
    commit = git("log", "-1", "--format=%H", f"-S{' '.join(one.sums)}", "--", one.file) or "HEAD"
    before = functools.cache(lambda file: definitions_in(file, git("show", f"{commit}:{file}") + "\n"))
    for it in dict.fromkeys(it for name in one.laws for it in reached(name)):
        old = before(it.file).get(it.name)
        if not old or stated(old.text).split() != stated(it.text).split():
            yield f"  {it.file}:{it.line}: {it.name} {'changed' if old else 'is new'}"
            if it not in SHOWN:
                SHOWN.add(it)
                yield from (f"    {line}" for line in stated(it.text).split("\n"))


# ---- sentences


def lines_of(file):
    return read(file).split("\n")


def sentences():
    """The sentences that are or should be bound."""
    asides = enumerate(lines_of(ASIDE))
    for file, sections in SECTIONS.items():
        lines, heading = lines_of(file), ""
        for number, line in enumerate(lines, 1):
            heading = line[3:] if line.startswith("## ") else heading
            found = re.match(r"\s*- (.*)", line) if heading in sections else None
            if found:
                is_aside, named = file == README, re.findall(r"`((?:\w+::)*[a-z]\w+)`", found[1])
                at, row = next(asides, (0, "")) if is_aside else (number, "".join(lines[number:][:1]))
                bound = BOUND.fullmatch(row)
                laws = [it for it in dict.fromkeys(named) if law(it) and not is_aside]
                laws = laws or (re.split(",? +", bound[1]) if bound else [])
                if laws or is_aside:
                    yield Sentence(found[1], f"{file}:{number}", laws, bound.groups()[1:] if bound else (),
                                   ASIDE if is_aside else file, at)


def keep(tally):
    """Whether the checksums of each sentence are right."""
    for one in sentences():
        tally.tell("sentences and laws", *judged(one))


def judged(one):
    """Whether the checksums of a sentence are right, and what is wrong."""
    unknown = [it for it in one.laws if it != CHECKS and law(it) is None]
    if unknown or not one.sums:
        what = f"bound to {unknown[0]}, which is no law" if unknown else "bound to no law"
        return False, f"{one.place}: a sentence is {what}; tools/check/documents.py --accept: {one.text[:80]}"
    now = one.now()
    what = " and ".join(it for it, old, new in zip(("the sentence", "its law"), one.sums, now) if old != new)
    more = changed(one) if now[1] != one.sums[1] else ()
    accept = f"tools/check/documents.py --accept {one.laws[0]}"
    told = f"{one.place}: {what} changed; if they say the same, {accept}:"
    return now == one.sums, "\n".join([told, f"  {one.text}", *more])


def accept(names):
    """Writes the checksums anew of the sentences that are bound to these laws, and gives whether a name is of none."""
    names, used = {it.split("::")[-1] for it in names}, {"all"}
    for one in reversed([*sentences()]):
        mine = {it.split("::")[-1] for it in one.laws} & names
        if not one.laws or not (mine or names == {"all"}):
            continue
        used |= mine
        lines, row = lines_of(one.file), f"{', '.join(one.laws)}: {' '.join(one.now())}"
        if one.file != ASIDE:
            row = f"{re.match(' *', lines[one.at - 1])[0]}  <!-- bound to {row} -->"
        lines[one.at: one.at + bool(one.sums)] = [row]
        write(one.file, "\n".join(lines))
        print(f"{one.place}: {one.text[:100]}")
    for name in sorted(names - used):
        print(f"documents: no sentence is bound to {name}", file=sys.stderr)
    return bool(names - used)
