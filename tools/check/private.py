#!/usr/bin/env -S python3 -B
"""Checks that definitions which no public contract reaches stand apart, in specs/Private of their crate, so that who
opens specs/ finds what the promises of a crate mean.

    tools/check/private.py  prints each definition that stands in the wrong folder, each public name that definitions in
                            two files of specs/ have, and each file of src/ or specs/ that doesn't begin with a comment;
                            the status is 1 if there is one

Public contracts are those of the public functions in a crate's root or a public module, the laws among them, or that
one of these exports; of public methods; of what a type implements and a trait declares; and the models of public types.
A contract reaches the definitions that it names, what these name, and the model of a type that they are about. Crates
whose definitions are copies are left out.
"""

import collections
import re
import sys

sys.path.append(f"{sys.path[0]}/..")
import script
from sources import (
    COPYING, CRATES, Clause, code_of, definitions, files, first_sentence, members, plain, reached_from, scope_of,
)

# forms that nothing uses, and that tools/check/sources.py doesn't follow
UNREAD = {
    "a `use` of all names": r"^ *(?:pub |ghost )*use [^;\n]*[.:]\*",
    "a `pub use` of names below several modules": r"^ *pub use [^;\n]*\{[^}\n]*::",
    "a public module without a file": r"^ *pub mod \w+ \{",
    "a definition by its whole path": r"^(?! *(?:pub |ghost )*use )[^\n]*\bRattle\.\w+\.specs\.",
}


def contracts(crate):
    """The contracts of a crate: for each the item that has it, whether it is public, and of a model its type."""
    items = [(file, *it) for file in files("src/**/*.rt", crate) for it in members(code_of(file))]
    public = [it for _, it, block in items if it.visibility == "pub" and not block]
    modules = {it.name for it in public if it.kind == "mod"} | {"lib"}
    types = {it.name for it in public if it.kind in ("struct", "enum", "type")}
    exported = {name for file in files("src/**/*.rt", crate) for name in scope_of(code_of(file), "pub ")}
    for file, one, block in items:
        model, is_public = None, one.visibility == "pub"
        if not block:
            is_public = is_public and (file.stem in modules or one.name in exported) or one.name == "main"
        elif block.trait.startswith("Model"):
            model = block.name.rpartition("::")[2]
            is_public = model in types
        elif block.trait or block.kind == "trait":
            is_public = True
        yield f"{file} {one.name}", is_public, (crate, model), Clause(file, one.contract)


def misplaced(specs, crates):
    """The definitions that stand in the wrong folder."""
    public, models = [], collections.defaultdict(list)
    for item, is_public, model, contract in (it for crate in crates for it in contracts(crate)):
        public += [(item, contract)] if is_public else []
        models[model].append(contract)
    every = set(reached_from((it for _, it in public), models=models))
    for it in (one for file in specs for one in definitions(file).values()):
        if (it in every) == ("Private" in it.file.parts):
            by = next((item for item, contract in public if it in reached_from([contract], models=models)), None)
            yield f"{it.file}:{it.line}: {it.name}: " + (
                f"a public contract reaches it, that of {by}" if by else "no public contract reaches it")


def shared(specs):
    """The public names that definitions in two or more files have, each with the files."""
    found = collections.defaultdict(list)
    for file in specs:
        for name in {it.name for it in definitions(file).values() if it.is_public}:
            found[name].append(str(file))
    return [f"{name} stands in {' and '.join(it)}" for name, it in sorted(found.items()) if len(it) > 1]


def unread(file):
    text = code_of(file) if file.suffix == ".rt" else plain(file.read_text())
    for form, rule in UNREAD.items():
        for it in re.finditer(f"(?m){rule}", text):
            yield f"{file}:{text.count(chr(10), 0, it.start()) + 1}: {form}"
    if file.stem not in ("Lib", "Private") and not first_sentence(file):
        yield f"{file}: no comment at its head says what it has"


def main():
    """Compares the folders of all definitions."""
    crates = sorted(it.parent.name for it in CRATES.glob("*/src") if it.parent.name not in COPYING)
    code, specs = ([it for crate in crates for it in files(part, crate)] for part in ("src/**/*.rt", "specs/**/*.antt"))
    wrong = [*misplaced(specs, crates), *shared(specs)]
    wrong += [it for file in [*code, *specs] for it in unread(file)]
    print(*wrong, f"{sum(len(definitions(it)) for it in specs)} definitions, {len(wrong)} wrong", sep="\n")
    return 1 if wrong else 0


if __name__ == "__main__":
    script.run(main, "")
