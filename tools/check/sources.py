#!/usr/bin/env -S python3 -B
"""Reads the sources of the crates for other scripts: what a comment, a `use`, a definition and an item of the code is.

    tools/check/sources.py NAME  prints the crates to copy to use a library: those below it and itself, lowest first

It relies on the layout of `rt fmt`: an item ends with the first line at its margin that ends with `}` or `;`, or before
the next item; a definition ends before a blank line that no indented line follows, with comments directly above it.
"""
import dataclasses
import functools
import itertools
import pathlib
import re
import sys

sys.path.append(f"{sys.path[0]}/..")
import script

CRATES = pathlib.Path("crates")
COPYING = "page", "page_commands"  # the crates whose definitions are copies of others
# the crates of which neither the program nor a library of users is made
ASIDE = re.compile("gomod_(tests|case_.*|laws)|gm_file_edit_laws|run_cases|page|page_commands|library_example")
# a `use` of either language: the words before it, the path, the names in braces, another name of a module
USE = re.compile(r"(?m)^ *((?:unfoldable |pub(?:\(crate\))? |ghost )*)use ([\w.:]+?)"
                 r"(?:(?:\.|::)\{([^}]*)\}| as (\w+))?;?$")
# the beginning of what a file of definitions declares: the words before its name, its kind, the name
HEAD = re.compile(r"((?:(?:abbrev|unfoldable|opaque|pub) )*)(?:(record|data) )?([^\s:(){}]+)")
# an item at a margin: its visibility, its kind, its name; what an `impl` is of: a trait, a type
ITEM = (r"(?m)^{}(?:(pub(?:\([^)]*\))?) )?(?:unsafe |default |const (?=fn)|ghost (?=use))*"
        r"(ghost|fn|struct|enum|trait|impl|type|const|static|mod|use)\b(?: (\w+))?")
IMPL = re.compile(r"impl(?:<[^{]*?>+)? (?:([^{]+?) for )?&?(?:'\w+ )?([\w:]+)")
# where a contract begins, with its comments; a clause of one without its margin, and the name of it
CONTRACT = re.compile(r"(?m)^ +(?://.*\n +)*(?:requires|ensures)\b")
CLAUSE = re.compile(r"(?m)^(?://.*\n)*(?:requires|ensures)\*? (?:(\w+) )?\{.*(?:\n(?!//|requires|ensures).*)*")


def files(pattern, crate="*"):
    """The files of all crates, or of one, that are like a pattern."""
    return sorted(CRATES.glob(f"{crate}/{pattern}"))


def product_files(pattern):
    """Those of the crates that the program and libraries are made of."""
    return [it for it in files(pattern) if not ASIDE.fullmatch(it.parts[1])]


def first_sentence(path):
    """The first sentence of the comment at the head of a file, or nothing."""
    mark = "//!" if path.suffix == ".rt" else "--"
    head = itertools.takewhile(lambda line: line.startswith(mark), path.read_text().split("\n"))
    text = " ".join(itertools.takewhile(bool, (line.removeprefix(mark).strip() for line in head)))
    return re.match(r"(?:.*?[.!?][\"')]*(?= |$)|.*)", text)[0].replace("|", "\\|")


@functools.cache
def crates():
    """The crates of crates.txt, lowest layer first, each with all that it stands on."""
    lines = pathlib.Path("crates.txt").read_text().split("\n")
    return {name: below.split() for name, below in (it.split(":") for it in lines if re.match(r"\w+:", it))}


def with_below(crate):
    """A crate and all crates below it, lowest layer first."""
    found, left = set(), [crate]
    while left:
        found.add(left[-1])
        left += set(crates().get(left.pop(), ())) - found
    return [it for it in crates() if it in found]


def names_in(group):
    """The names of a group of a `use`, each with the one that it has in the file."""
    for entry in filter(None, (it.strip() for it in group.split(","))):
        name, _, own = entry.partition(" as ")
        yield name, own or name


def scope_of(text, words=""):
    """What each name means that the `use` lines import, or those with these words before `use`: the path of a module
    and a name of it, or, for a module itself, None."""
    scope = {}
    for given, path, group, own in USE.findall(text):
        if words in given:
            scope |= {name: (path, it) for it, name in names_in(group)}
            if not group:
                scope[own or re.split("[.:]", path)[-1]] = path, None
    return scope


def paths_of(text):
    """The path of each name of the code that the `use` items of a text import, by the name that it has there."""
    found = scope_of(re.sub(r"(?m)^ *(?:pub )?ghost use .*", "", text))
    return {own.rpartition("::")[2]: tuple("::".join(filter(None, it)).split("::")) for own, it in found.items()}


# ---- files of definitions


def plain(text):
    """Definitions without comments and what strings say."""
    return re.sub(r"(?m)(^|\s)--.*$", r"\1", re.sub(r'"(?:\\.|[^"\\\n])*"', '""', text))


@dataclasses.dataclass(eq=False)
class Clause:
    """A clause of a source, or some: a file, and the text."""

    file: pathlib.Path
    text: str
    owner = None

    @property
    def source(self):
        return f"`{self.file}`"

    def cites(self):
        return cited(self.file, self.text)

    def whole(self):
        return self.text


@dataclasses.dataclass(eq=False)
class Definition(Clause):
    """A definition or a lemma: its file and text, its first line with the comments above, and these."""

    line: int
    comment: str

    def __post_init__(self):
        words, self.kind, self.name = HEAD.match(self.text).groups()
        self.is_public = "pub" in words
        self.code = plain(self.text)
        self.constructors = re.findall(r"(?m)^  (\S+) : ", self.code) if self.kind == "data" else []

    def whole(self):
        return f"{self.comment}\n{self.text}".strip()

    def size(self):
        """How many lines there are to read."""
        return sum(map(bool, map(str.strip, self.code.split("\n"))))


@functools.cache
def definitions(path):
    """What a file declares, by its name, in order."""
    return definitions_in(path, path.read_text(encoding="utf-8"))


def definitions_in(path, text):
    """The same of a text of the file."""
    found, begin = [], r"(?!use |pub use |pub mod |mod |--)[^\s}].*(?:\n.+|\n+(?= ).*)*"
    for it in re.finditer(rf"(?m)^((?:--.*\n)*)({begin})", text):
        found.append(Definition(path, it[2], text.count("\n", 0, it.start()) + 1, it[1].rstrip()))
    return {it.name: it for it in found}


# ---- the code


@functools.cache
def code_of(path):
    """The text of a source without comments; its lines have the same numbers."""
    return re.sub(r"(?m)//.*$", "", path.read_text(encoding="utf-8"))


@dataclasses.dataclass
class Item:
    """An item of a source, or of a block of it: of an `impl` the name is the type's, and it may have a trait."""

    visibility: str
    kind: str
    name: str
    line: int
    text: str
    indent: str
    trait: str = ""

    @functools.cached_property
    def head(self):
        """What stands before the body."""
        end = re.search(rf"(?m)^{self.indent}(?! )[^\n]*(?:\{{|\{{\}}|;)$", self.text)
        return self.text[:end.end()] if end else self.text

    @functools.cached_property
    def contract(self):
        """The clauses of a function, or the whole of a ghost item."""
        found = CONTRACT.search(self.head) if self.kind == "fn" else None
        clauses = re.sub(r"(?:;|\n *\{\}?)\Z", "", self.head[found.start():]) if found else ""
        return self.text if self.kind == "ghost" else clauses

    def signature(self):
        return CONTRACT.split(self.head)[0]

    def clauses(self):
        """The text of each clause, after the comments above it, by its name."""
        contract = re.sub(rf"(?m)^{self.indent}    ", "", self.contract)
        return {it[1] or "": it[0].rstrip() for it in CLAUSE.finditer(contract)}

    def inner(self):
        return items_of(self.text.rpartition("\n")[0], self.indent + "    ", self.line)


def items_of(text, indent="", line=1):
    """The items at a margin, given the number of the first line."""
    starts = list(re.finditer(ITEM.format(indent), text))
    for now, following in zip(starts, [*starts[1:], None]):
        own = text[now.start():following.start() if following else len(text)]
        # a function that a trait declares ends after its last clause
        end = re.search(rf"(?m)^{indent}(?! )[^\n]*[}};]$", own)
        own = own[:end.end()] if end else re.sub(r"(?:\n *(?:(?://|#).*)?)+\Z", "", own)
        one = Item(now[1] or "", now[2], now[3] or "", line + text.count("\n", 0, now.start()), own, indent)
        if block := one.kind == "impl" and IMPL.match(own):
            one.trait, one.name = block[1] or "", block[2]
        yield one


def members(text):
    """All items but blocks, each with the block that it is in, or None."""
    for one in items_of(text):
        yield from ((it, one) for it in one.inner()) if one.kind in ("impl", "trait") else [(one, None)]


def functions(text):
    return [it for it in members(text) if it[0].kind == "fn"]


# ---- the graph of definitions

# a name, perhaps after that of a module; a variable; where variables and fields are named: before a colon, as
# a field that is given or after `let`, after a `λ`, and on the left of an equation
USED = re.compile(r"(?<![\w.'])(?:([A-Za-z_]\w*)\.)?([A-Za-z_][\w'-]*)")
VARIABLE = r"(?<![\w.'])[a-z_]\w*'?"
BINDERS = (rf"((?:{VARIABLE} )*{VARIABLE}) :", rf"(?m)(?:[{{;]\s*|\blet |^  )({VARIABLE}) =(?!=)", r"λ ([^.:]*)",
           r"(?m)^\w\S* ([^=\n]*) =(?!=)")


@dataclasses.dataclass(frozen=True)
class Leaf:
    """A name that no file of specs/ defines: one of the standard library, of another package, or of a type of the code,
    which is then given by its crate and its own name."""

    name: str
    source: str
    owner: tuple | None = None
    file, constructors = None, ()

    def cites(self):
        return {}


def placed(scope):
    """What these names mean: a definition or a leaf, or the path of a module."""
    return {own: place(path, name) if name else path for own, (path, name) in scope.items()}


@functools.cache
def own_names(file):
    """What the names that a file of specs/ defines or passes on mean; that of a constructor means its definition."""
    own = {name: one for one in definitions(file).values() for name in (*one.constructors, one.name)}
    return placed(scope_of(file.read_text(encoding="utf-8"), "pub ")) | own


@functools.cache
def known_in(file):
    """What each name means that a file of specs/ or a source imports or defines."""
    text = file.read_text(encoding="utf-8")
    return placed(scope_of(text, "ghost ")) if file.suffix == ".rt" else placed(scope_of(text)) | own_names(file)


@functools.cache
def place(path, name):
    """The definition of a name in a module, or the leaf that it is."""
    package, *inner = path.removeprefix("Rattle.").split(".")
    if not (CRATES / package).is_dir():
        return Leaf(name, "the standard library" if package == "std" else f"the package {package}")
    if inner[1:2] == ["declared"]:
        *module, kind = names = [it for it in inner[2:] if it != "TheVariants"]
        of = f" of `{kind}`" if len(names) < len(inner) - 2 else ""
        owner = None if kind == "TheConstants" else (package, kind)
        return Leaf(name, f"`crates/{package}/src/{'/'.join(module)}.rt`{of}", owner)
    file = CRATES.joinpath(package, *inner).with_suffix(".antt")
    if not file.exists():
        return Leaf(name, f"`{file}`")
    return own_names(file).get(name) or sys.exit(f"{file} has no {name}")


def bound_in(text, known):
    """The variables and fields of a definition; a constructor, which may stand where they do, is none."""
    bound = {name for rule in BINDERS for group in re.findall(rule, text) for name in re.findall(VARIABLE, group)}
    return {it for it in bound if it not in getattr(known.get(it), "constructors", ())}


@functools.cache
def cited(file, text):
    """What the names in a definition or clause of a file mean: a definition or a leaf, by the name as it is written."""
    text, known, seen = plain(re.sub(r"(?m)^//.*$", "", text)), known_in(file), {}
    bound = bound_in(text, known)
    for module, name in USED.findall(text):
        one = known.get(module or name)
        if isinstance(one, str):
            seen |= {f"{module}.{name}": place(one, name)} if module else {}
        elif one and (module or name) not in bound:
            seen[module or name] = one
    return seen


def reached_from(found, is_end=lambda one: False, models={}):
    """All definitions that these reach, but for those that end it: from a type of the code what the clauses of its
    model do, if they are given by the type's crate and name."""
    reached, left = {}, [*found]
    while left:
        one = left.pop()
        if one not in reached and not is_end(one):
            reached[one] = None
            left += [*one.cites().values(), *models.get(one.owner, ())]
    return [it for it in reached if isinstance(it, Definition)]


def main(crate):
    """Prints a crate and those below it."""
    if crate not in crates():
        script.misused(f"crates.txt has no crate {crate}")
    print(*with_below(crate), sep="\n")
    return 0


if __name__ == "__main__":
    script.run(main, r" (?!-)\S+")
