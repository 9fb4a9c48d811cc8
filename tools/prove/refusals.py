#!/usr/bin/env -S python3 -B
"""Checks that each edit that must fail is refused for the reason that it names, and that a harmless change in the same
place is still proved.

    tools/prove/refusals.py                     every edit of every crate
    tools/prove/refusals.py NAME.. NAME/EDIT..  those of these crates, or these edits alone
    tools/prove/refusals.py --only ..           checks for each edit and twin the function alone that `# clause:` names

An edit, crates/NAME/must-fail/EDIT.edit, has lines that the merge gate passes over:

    # clause: FUNCTION CLAUSE   the function and the clause of its contract at which the prover refuses the edit:
                                `returns` for a clause without a name, and instead of a clause a goal by its whole
                                name, as `loop-step-preserved`
    # twin: TEXT                after a pair of `old:` and `new:`, a harmless text instead of that `new:`; a pair
                                without one stays as it is in the crate

For each edit it prints a line: `refused`, `other` with the goals where it was refused instead, or `PROVED`; and for its
twin `twin proved` or `twin REFUSED`. The status is 1 if an edit was not refused at its clause, or its twin was not
proved. A goal whose answer only names what the edit took away does not count. tools/check/documents.py looks that each
edit names a clause, has a twin, and changes src/ alone: one that takes answers out of proofs/ may be refused for that
alone.

It needs rt, and the crates as ./build or `rt all check` leaves them (for `--only` the libraries below a crate), and
takes about half a minute a check.
"""

import os
import re
import shutil
import subprocess
import sys
import tempfile

sys.path.append(f"{sys.path[0]}/..")
import script
from script import read, write
from sources import crates, files, with_below

# what antt says of an answer that names what is no longer there, and what follows its goal here
GONE = re.compile(r"is not in scope|has no field|has no `|was not admitted")
IS_GONE = " (its answer names what is gone)"


class Absent(Exception):
    """A text that isn't in a source, or not once, or a change that can't be made."""


def replaced(path, text, old, new):
    """A text, of a file with this path, with what takes the place of a part that is there once."""
    if text.count(old) != 1:
        raise Absent(f"{path} has `{old}` {text.count(old)} times")
    return text.replace(old, new)


def read_edit(file):
    """Its pairs as (path, old, new, twin), and the clause that it names."""
    said, pairs, clause = {}, [], None
    for kind, text in re.findall(r"(?m)^(file|old|new|# twin|# clause): ?(.*)$", read(file)):
        said[kind] = text
        if kind == "new":
            pairs.append([said["file"].strip(), said["old"], text, None])
        elif kind == "# twin":
            pairs[-1][3] = text
        elif kind == "# clause":
            clause = text.split()
    return pairs, clause


def keep(tally):
    """Whether each edit names its clause, has a twin and changes src/ alone, for tools/check/documents.py."""
    for file in files("must-fail/*.edit"):
        pairs, clause = read_edit(file)
        lacks = [] if clause else ["names no clause"]
        lacks += [] if any(twin is not None for _, _, _, twin in pairs) else ["has no twin"]
        lacks += [f"changes {path}" for path, *_ in pairs if not path.startswith("src/")]
        tally.tell("edits that must fail", not lacks, f"{file}: it {', '.join(lacks)}")


def run_check(room, texts, only=None):
    """What a check of a crate, or of one function of it, says with these texts, which are then taken back."""
    kept = {path: read(f"{room}/{path}") for path in texts}
    for path, text in texts.items():
        write(f"{room}/{path}", text)
    words = ["rt", "check", "--jobs", "1", *(["--only", only] if only else [])]
    ran = subprocess.run(words, cwd=room, stdin=subprocess.DEVNULL, stdout=subprocess.PIPE, stderr=subprocess.STDOUT,
                         errors="replace")
    for path, text in kept.items():
        write(f"{room}/{path}", text)
    return ran


def check(room, pairs, only=None):
    """Whether a crate, or one function of it, is proved with these texts replaced, the goals where it is not, each with
    its function, and what the check said."""
    texts = {}
    for path, old, new in pairs:
        texts[path] = replaced(path, texts.get(path) or read(f"{room}/{path}"), old, new)
    ran = run_check(room, texts, only)
    return ran.returncode == 0, goals_of(ran.stdout), ran.stdout


def goals_of(said):
    """The goals that a check names as not proved, each with its function."""
    answers = re.findall(r"(?m)^\./proofs/(\S+)/\w+\.antt:\d+:\d+: error: `([^`]*)`(.*)", said)
    goals = [(at.replace("/", "::"), goal + (IS_GONE if GONE.search(more) else "")) for at, goal, more in answers]
    for function, listed in re.findall(r"(?m)^fn \w+::(\S+): no proof: .*did not prove (.*)", said):
        goals += [(function, goal) for goal in re.findall(r"`([^`]*)`", listed)]
    # where an answer fails, too, the goals that the search left open are told by file alone
    noted = re.findall(r"(?m)^note: src/(\S+)\.rt:\d+:\d+: it is not proved .*\(`([^`]*)`\)", said)
    unproved = re.findall(r"(?m)^fn \w+::(\S+): not proved$", said)
    return goals + [(function, goal) for function in unproved for file, goal in noted
                    if function.startswith(f"{file.replace('/', '::')}::")]


def is_at(clause, goals):
    """Whether one of the goals is that of the named function and clause, and its answer names nothing that is gone."""
    function, name = clause[0], clause[1]
    own = [goal for at, goal in goals if f"::{at}".endswith(f"::{function}") and not goal.endswith(IS_GONE)]
    if name == "returns":
        return any(goal.startswith("returns") and "-clause-" not in goal for goal in own)
    return any(goal == name or goal.endswith(f"-clause-{name}") for goal in own)


def try_edit(room, name, edit, is_quick):
    """Whether an edit is refused at its clause, and its twin proved. Prints how they went."""
    pairs, clause = read_edit(f"crates/{name}/must-fail/{edit}.edit")
    only = clause[0] if is_quick and clause else None
    is_proved, goals, _ = check(room, [it[:3] for it in pairs], only)
    is_well = not is_proved and clause is not None and is_at(clause, goals)
    found = "PROVED" if is_proved else "refused at " + " ".join(clause) if is_well else "other: " + told(goals)
    twins = [(path, old, twin) for path, old, _, twin in pairs if twin is not None]
    if twins:
        is_twin_proved, goals, _ = check(room, twins, only)
        found += "; twin proved" if is_twin_proved else "; twin REFUSED: " + told(goals)
        is_well = is_well and is_twin_proved
    print(f"{name}/{edit}: {found}", flush=True)
    return is_well


def told(goals):
    return ", ".join(f"{at} {goal}" for at, goal in goals[:4]) or "no goal was named"


def make_room(work, name):
    """A copy of the crate with what its last check kept, and the libraries below it."""
    below = with_below(name)
    write(f"{work}/crates.txt", "".join(f"{it}: {' '.join(crates()[it])}\n" for it in below))
    for it in below:
        os.makedirs(f"{work}/crates/{it}/out")
        for part in ("src", "specs", "proofs", "out/incremental" if it == name else "out/rlib"):
            if os.path.isdir(f"crates/{it}/{part}"):
                # a check writes to what it kept, and only reads libraries
                by = os.link if part == "out/rlib" else shutil.copy2
                shutil.copytree(f"crates/{it}/{part}", f"{work}/crates/{it}/{part}", copy_function=by)
    subprocess.run(["git", "init", "-q", work], check=True)
    return f"{work}/crates/{name}"


def edits_of(chosen):
    """The edits that these words choose, or all, by their crates."""
    found, left = {}, set(chosen)
    for name in crates():
        for edit in (it.stem for it in files("must-fail/*.edit", name)):
            words = {name, f"{name}/{edit}"}
            if not chosen or words & set(chosen):
                found.setdefault(name, []).append(edit)
                left -= words
    if left:
        script.misused(f"there is no edit {' '.join(left)}")
    return found.items()


def main(*words):
    """Tries the edits that the words choose, and returns the status."""
    is_quick, is_well = words[:1] == ("--only",), True
    for name, edits in edits_of(words[is_quick:]):
        with tempfile.TemporaryDirectory(prefix="refusals-") as work:
            room = make_room(work, name)
            is_proved, _, said = (True, [], "") if is_quick else check(room, [])
            if not is_proved:
                sys.exit(f"refusals: {name} itself is not proved\n{said[-2000:]}")
            try:
                is_well = all([try_edit(room, name, it, is_quick) for it in edits]) and is_well
            except Absent as fault:
                sys.exit(f"refusals: {fault}")
    return 0 if is_well else 1


if __name__ == "__main__":
    script.run(main, r"( --only)?( (?!-)\S+)*")
