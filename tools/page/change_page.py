#!/usr/bin/env -S python3 -B
"""Changes a definition that crates/page or page_commands copies, and shows by what outcome of a world it is refused.

    tools/page/change_page.py                 lists the changes, each with its number and its definition, and compares
                                              their counts with those in docs/proof/HEADLINE.md, and what is said of the
                                              worlds, and tools/page/evaluate_cases.txt, with what is computed
    tools/page/change_page.py NUMBER..        tries these
    tools/page/change_page.py --all           tries all, and compares what refused them with HEADLINE, too
    tools/page/change_page.py --some SECONDS  tries as many as fit into so many seconds of CPU time, others for each
                                              commit
    tools/page/change_page.py --prove NUMBER.. lets the prover check these, which takes some 15 s of CPU time each
    tools/page/change_page.py --sample        lets the prover check all equal forms, and thirty others for each commit

Changes are made by rule (RULES). tools/page/page_changes.txt has those that no rule for all definitions makes, each by
a rule for one: the definition, what goes and what comes at the first place that fits, and ` -- ` with a title. They
stand below what refuses them, or below `== OPEN`. After `== equal forms` come changes that say the same in other words.
After `== no witness` come reasons, each with changes by rule that no world shows: the name of the definition, and a
piece of the change as it is listed.

tools/page/evaluate.py judges: it computes each world's outcomes by the changed definitions. A change is refused by a
value (another outcome), a second outcome, an outcome of a run that has none, a file (that the run needs now and didn't
ask for, or asked for without need), a fact (of a single definition, as of a path or a version; no outcome shows it), or
a loss (no outcome any more; nothing else shows it). It prints the world with both outcomes, or with the file. If both
crates have the definition, the worlds of either may refuse its change.

The status is 1 if a change is not as it should be or can't be made, a claim or a case is otherwise, or a count differs.
To prove it needs rt and 2 GB of memory.
"""

import collections
import dataclasses
import functools
import pathlib
import re
import sys
import tempfile
import time

sys.path.append(f"{sys.path[0]}/..")
import script
import evaluate
from definitions import ESCAPES, OF_VALUES, Function, Parser, Relation, Unreadable
from evaluate import Page
from refusals import make_room, run_check
from sources import COPYING
from values import shown

CHANGES = pathlib.Path("tools/page/page_changes.txt")
COUNTED = pathlib.Path("docs/proof/HEADLINE.md")
MOST = 9  # CPU seconds for a change that can't be told
# what is said of a change that was tried
VALUE, SECOND, OUTCOME = "refused by a value", "refused by a second outcome", "refused by an outcome where none is said"
FILE, FACT, LOSS = "refused by a file", "refused by a fact of a single definition", "refused by a loss"
PASSES, OPEN = "PASSES", "OPEN"
WITNESSED = (VALUE, SECOND, OUTCOME, FILE)
REFUSED = (*WITNESSED, FACT, LOSS)
# kinds of changes, beside those of which the verdict is known, and what may be said of each
MADE, EQUAL, UNSHOWN = "made by a rule", "equal forms", "no witness"
EXPECTED = {MADE: REFUSED, EQUAL: [PASSES], UNSHOWN: [OPEN, PASSES]}
# where the library has what a change may use and no definition does
LIBRARY = [("◌+◌", ("Rattle.std.specs.Prelude", "◌+◌")), ("is_none", ("Rattle.std.specs.Option", "is_none"))]
COPY = "-- A copy from "
# What becomes what else, or each the other: in a pattern, a letter stands for any expression. What depends on types is
# in Maker.
RULES = """
a ≡ b ⇔ a ≢ b
a < b ⇔ a ≤ b
a < b ⇒ b < a
a ≤ b ⇒ b ≤ a
a && b ⇔ a || b
a && b ⇒ a; b
a || b ⇒ a; b
a × b ⇔ a ⊎ b
a × b ⇒ a; b
a ⊎ b ⇒ a; b
a ++ b ⇒ a; b; b ++ a
a ∷ b ⇒ b; a ∷ []
a == b ⇒ not (a == b)
not a ⇒ a
¬ a ⇒ a
a ↔ b ⇒ a → b; b → a
a → b ⇒ b
if a then b else c ⇒ if a then c else b; b; c
filter f ⇒ λ xs. xs
filter f x ⇒ x
map f ⇒ λ xs. xs
map f x ⇒ x
before_first f x ⇒ x
take n x ⇒ x; []; take (n + 1) x
up_to n x ⇒ x
without_excluded m x ⇒ x
line x ⇒ x
then_cmp a b ⇒ a; b
ordering_then a b ⇒ a; b
option_or a b ⇒ a; b
replacement_in m x ⇒ None
Says r x ⇒ FileSays r (file_of r.main x)
decimal n ⇒ codes "0"
list_any f x ⇒ list_any f (take 1 x)
flat_map f x ⇒ flat_map f (take 1 x)
slice_cmp f a b ⇒ slice_cmp f b a
Requires r a b ⇒ Requires r b a
Some x ⇒ None
r.sums ⇒ None
main.replaces ⇒ []
main.excludes ⇒ main.requirements
r.main.requirements ⇔ r.main.excludes
nat_lt ⇔ nat_le
list_any ⇔ list_all
version_cmp ⇒ slice_cmp nat_cmp
is_ascii_digit ⇔ is_ascii_lowercase
text_outcome ⇔ refusal_outcome
failure_outcome ⇔ refusal_outcome
IsTop ⇔ IsDeep
IsTop ⇔ IsOpened
IsDeep ⇔ IsOpened
true ⇔ false
Less ⇒ Greater; Equal
Missing ⇔ TooLong
NotFetchable ⇒ Missing
WrongPath ⇒ Missing
Strict ⇔ Lax
folder_file ⇒ list_file
⊥ ⇒ ⊤
""" + "".join(f"{it} a b ⇒ {it} b a\n" for it in (
    "nat_lt", "nat_le", "version_cmp", "pair_cmp", "path_cmp", "is_same_left", "is_same_version", "then_cmp",
    "ordering_then", "option_or", "list_line"))
TABLE = collections.defaultdict(list)
for left, sign, right in re.findall("(.+) ([⇒⇔]) (.+)", RULES):
    for one, others in [(left, right), *([(right, left)] if sign == "⇔" else [])]:
        pattern = Parser(one).whole()
        TABLE[pattern.kind, pattern.head()] += [(pattern, template) for template in others.split("; ")]
ESCAPED = str.maketrans({"\\": "\\\\", '"': '\\"', **{it: f"\\{name}" for name, it in ESCAPES.items()}})
# the items of a type that are of one type
ITEMS = {"ModuleVersion": "01", "ℕ × ℕ": "01", "Parts": "012"}


# ---- changes by rule


def fits(pattern, node, found):
    """Whether a node is of a pattern; puts there what the pattern's letters stand for."""
    if pattern.kind == "name" and re.fullmatch("[a-z]", pattern.parts[0]):
        found[pattern.parts[0]] = node
        return True
    own, others = ([it for it in one.parts if isinstance(it, (str, int))] for one in (pattern, node))
    return pattern.kind == node.kind and own == others and len(pattern.below()) == len(node.below()) and all(
        fits(*it, found) for it in zip(pattern.below(), node.below()))


class Maker:
    """Makes changes of expressions of a text; `scope` has names with the texts of their types."""

    def __init__(self, text):
        self.text = text

    def of(self, node):
        """The text of a node, in parentheses if it needs any."""
        text = self.text[node.start:node.end]
        return text if node.kind in ("name", "number", "text", "nil", "part", "tuple") else f"({text})"

    def made(self, pattern, template, node):
        """The change of a node of this pattern, as a list, or none."""
        found = {}
        if not fits(pattern, node, found):
            return []
        texts = {letter: self.of(it) for letter, it in found.items()}
        new = re.sub(r"(?<![\w.\"])[a-z](?![\w'])", lambda it: texts.get(it[0], it[0]), template)
        return [(node.start, node.end, f"({new})" if " " in template else new)]

    def changes(self, node, scope):
        """The changes of a node and of those below it: from where to where, and what comes."""
        kind, parts, below = node.kind, node.parts, node.below()
        if kind in ("all", "some", "lambda"):
            bound = {name: self.of(of).strip("()") if of else None for name, of in parts[0].items()}
            scope, below = {**scope, **bound}, [parts[1]]
        for pattern, template in TABLE[kind, node.head()]:
            yield from self.made(pattern, template, node)
        for new in TYPED.get(kind, lambda *_: ())(self, parts, scope):
            yield node.start, node.end, new
        if kind == "record" and {"text", "report"} <= dict(parts[1]).keys():
            text, report = (dict(parts[1])[it] for it in ("text", "report"))
            for one, other in ((text, report), (report, text)):
                yield one.start, one.end, self.of(other)
        if kind != "part" or parts[0].kind == "part" or parts[0].head() in scope:
            for child in below:
                yield from self.changes(child, scope)

    def number(self, parts, _):
        return (str(it) for it in (parts[0] + 1, parts[0] - 1) if it >= 0)

    def string(self, parts, _):
        """A text with another last letter, and one without it."""
        begin = parts[0][:-1].translate(ESCAPED)
        return [f'"{begin}{it}"' for it in ("#", "")] if parts[0] else []

    def name(self, parts, scope):
        """Another name of the same type."""
        own = scope.get(parts[0])
        return (it for it, of in scope.items() if own and of == own and it != parts[0])

    def part(self, parts, scope):
        """Another item of the same value."""
        items = ITEMS.get(scope.get(parts[0].head()), "01" if parts[0].kind == "part" else "")
        return (f"{self.of(parts[0])}.{it}" for it in items if parts[1] in items and it != parts[1])


TYPED = {"number": Maker.number, "text": Maker.string, "name": Maker.name, "part": Maker.part}


def types_in(page, module, pattern, type_):
    """The names of a pattern with the texts of their types, or None if that isn't known."""
    if page.is_variable(pattern, module):
        return {pattern.head(): type_ and type_.strip("()")} if pattern.head() != "_" else {}
    name, below = page.shape(pattern, module)
    node = pattern.parts[0] if pattern.kind == "call" else pattern
    source = page.modules.get(module.imports[node.parts[0].head()][0]) if node.kind == "part" else (
        page.meaning(module, node.head())[1] if node.head() else None)
    types = [None] * len(below)
    if name in ("∷", "Some") and type_:
        types = [type_.strip("()").partition(" ")[2], type_][:len(below)]
    elif source and below:
        fields = next(it.fields for it in source.names.values() if isinstance(it, Relation) and name in it.fields)
        types = [source.text[it.start:it.end] for it in fields[name].result()[1]]
    return {name: of for it in zip(below, types) for name, of in types_in(page, module, *it).items()}


def of_function(page, module, one, maker):
    """The changes of a function: those of each clause, and that a clause has its neighbour's body."""
    for index, (patterns, body) in enumerate(one.clauses):
        scope = {}
        for pattern, type_ in zip(patterns, one.takes):
            scope |= types_in(page, module, pattern, maker.of(type_))
        yield from maker.changes(body, scope)
        for patterns_of_other, other in one.clauses[max(index - 1, 0):index] + one.clauses[index + 1:index + 2]:
            needed = {name for it in patterns_of_other for name in it.names} & other.names.keys()
            if needed <= {name for it in patterns for name in it.names}:
                yield body.start, body.end, maker.of(other)


def of_relation(_, __, one, maker):
    """The changes of a record or data type: a field or rule less, a premise less, and those of its facts."""
    parameters = {name: maker.text[of.start:of.end] for name, of in one.parameters.items()}
    for name, type_ in one.fields.items():
        scope = dict(parameters)
        if one.is_data:
            start = maker.text.rindex(name, 0, type_.start)
            yield start, type_.end, ""
            while type_.kind in ("all", "→"):
                if type_.kind == "all":
                    scope |= {it: maker.of(of).strip("()") for it, of in type_.parts[0].items()}
                else:
                    yield type_.start, type_.parts[1].start, ""
                    yield from maker.changes(type_.parts[0], scope)
                type_ = type_.parts[1]
            for side in type_.arguments():
                if side.head() not in parameters:
                    yield from maker.changes(side, scope)
        elif type_.head() not in OF_VALUES:
            yield type_.start, type_.end, "⊤"
            yield from maker.changes(type_, scope)


def changes_by_rule(page):
    """All of these changes, each once: the module, the name, from where to where, what
    comes."""
    for module in page.modules.values():
        seen, whole = set(), module.text
        for name, one in module.names.items() if module.text.startswith(COPY) else ():
            if isinstance(one, int) or (one.type.head() == "Type" if isinstance(one, Function) else not one.count):
                continue  # a constructor or a type
            make = of_function if isinstance(one, Function) else of_relation
            for start, end, new in make(page, module, one, Maker(module.text)):
                first, last = whole.rfind("\n\n", 0, start), whole.find("\n\n", end)
                old, text = bare(whole[first:last]), bare(whole[first:start] + new + whole[end:last])
                if text != old and text not in seen:
                    seen.add(text)
                    yield module, name, start, end, new


def change_by(module, name, rule):
    """The change of a definition by a rule for it alone, at the first place that the rule fits: from where to where,
    and what comes."""
    pattern, template = rule.split(" ⇒ ")
    pattern, maker = Parser(pattern).whole(), Maker(module.text)
    nodes = (it for whole in module.names[name].expressions for it in whole.all_below())
    return next((it for node in nodes for it in maker.made(pattern, template, node)), None)


def bare(text):
    """A text without what may stand in it or not."""
    return re.sub(r"[()\s]", "", text)


# ---- all changes


@dataclasses.dataclass
class Change:
    """One change: for each crate that has the definition its file with the text after it, and its kind."""

    title: str
    kind: str
    places: dict

    def is_right(self, verdict):
        return verdict in EXPECTED.get(self.kind, [self.kind])


def changes():
    """All changes: those that are listed, and those by rule."""
    _, *parts = re.split(r"(?m)^== (.*)\n", CHANGES.read_text())
    parts = dict(zip(parts[::2], parts[1::2]))
    marks, found = {line.strip(): False for line in parts.pop(UNSHOWN).split("\n") if line.startswith("  ")}, {}
    listed = [(line, kind) for kind, part in parts.items() for line in re.sub(r"\n +", " ", part).split("\n") if line]
    for crate in COPYING:
        page = Page(crate)
        for title, kind in listed:
            name, rule = title.partition(" -- ")[0].split(": ", 1)
            for module in page.modules.values():
                place = change_by(module, name, rule) if name in module.texts and is_copy(module) else None
                if place:
                    add(found, page, Change(title, kind, {}), module, *place)
        for module, name, start, end, comes in changes_by_rule(page):
            text = module.text
            goes, new = (" ".join(it.split()) for it in (text[start:end], comes))
            first, last = text.rfind("\n", 0, start) + 1, text.find("\n", end)
            title = f"{name}: {f'{text[first:start]}⟪{goes} ⇒ {new}⟫{text[end:last]}'.strip()}"
            mine = [it for it in marks if title.startswith(it.split(" ")[0]) and it.partition(": ")[2] in title]
            marks.update(dict.fromkeys(mine, True))
            add(found, page, Change(title, UNSHOWN if mine else MADE, {}), module, start, end, comes)
    lost = [it for it, is_made in marks.items() if not is_made] + [it for it, _ in listed if it not in found]
    if lost:
        sys.exit("\n".join(["change_page: can't be made:", *lost]))
    return [it for same in found.values() for it in same]


def is_copy(module):
    return module.text.startswith(COPY)


def add(found, page, change, module, start, end, comes):
    """Adds a change at this place, or the place to the change with this title that another crate has."""
    same, text = found.setdefault(change.title, []), module.text
    if not same or page.crate in same[-1].places:
        same.append(change)
    old = module.texts[change.title.partition(":")[0]]
    same[-1].places[page.crate] = module.name, functools.partial(
        importing, names_of(page), module, old, text[:start] + comes + text[end:], comes)


@functools.cache
def names_of(page):
    """Where what a change may use is defined, and its name there."""
    named = [it for module in page.modules.values() for it in module.imports.items() if it[0] == it[1][1]] + LIBRARY
    copies = [(name, (it.name, name)) for it in page.modules.values() if is_copy(it) for name in it.names]
    return {sign_of(name): it for name, it in named + copies}


def sign_of(name):
    """How a name begins where it is used: `if◌then◌else◌` as `if`, `[]` as `[`."""
    return name.strip("◌]").split("◌")[0]


def importing(known, module, old, text, comes):
    """The changed text of a file with imports of what comes and isn't known there, nor bound in the old definition."""
    there = {*signs_in(old), *map(sign_of, [*module.imports, *module.names])}
    uses = [f"use {known[it][0]}.{{{known[it][1]}}}" for it in sorted(signs_in(comes) - there) if it in known]
    return text.replace("\n", "\n".join(["", *uses, ""]), 1)


def signs_in(text):
    """The names and signs in a text, not those in comments and strings."""
    return {it for kind, it, *_ in Parser(text).tokens if kind in ("name", "sign")}


# ---- what refuses a change


class Judge:
    """A page as it is, and what is said of its worlds, with the names that this reaches; those that reach least first;
    and what isn't so."""

    def __init__(self, page):
        self.page, self.claims, self.wrong, self.refusing, results = page, [], [], {}, {}
        for claim in evaluate.all_claims(page):
            page.values, page.results, page.reached = {}, {}, set()
            self.wrong += [claim.title] if differing(page, claim) else []
            self.claims.append((claim, page.reached))
            results |= page.results
        page.results = results
        self.claims.sort(key=lambda it: len(it[1]))

    def judge(self, name, module, text):
        """What refuses a change, and the world with what is said and what is so now: the first that reaches it. Facts
        of single definitions come after the worlds, however much time these took."""
        try:
            page = Page(base=self.page, file=module, text=text())
        except (Unreadable, ValueError) as error:
            return OPEN, f"it can't be read: {error}"
        left = PASSES, ""
        for is_fact in (False, True):
            begun = time.process_time()
            for claim, reached in sorted(self.claims, key=lambda it: it[0] is not self.refusing.get(name)):
                # what facts have in common is kept, so that only the first reaches it
                is_reached = page.is_touched(*claim.fact[::2]) if is_fact else page.changed & reached
                if (claim.said is None) != is_fact or not is_reached:
                    continue
                try:
                    found = differing(page, claim)
                except Exception as error:
                    why = f"{claim.title}: {type(error).__name__} {shown(error.args[0])[:80]}"
                    left = (OPEN, why) if left[0] == PASSES else left
                    if time.process_time() > begun + MOST:
                        break
                    continue
                if found and found[0] != LOSS:
                    self.refusing[name] = claim
                    self.claims.sort(key=lambda it: it[0] is not claim)  # it may refuse the next one, too
                    return found
                left = found or left
        return left


def differing(page, claim):
    """The kind of a difference and what differs, if a claim isn't so by the page."""
    said = claim.said
    if said is None:
        return None if page.is_so(*claim.fact) else (FACT, f"{claim.title} doesn't hold")
    found = page.outcomes(*claim.fact)
    if found == said:
        return None
    if found:
        kind = SECOND if said and said[0] in found else VALUE if said else OUTCOME
        return kind, f"{claim.title}: {outcomes(said)} is said, and it is {outcomes(found)}"
    for what, names in page.unneeded():
        for name in sorted(map(shown, names))[:1]:
            return FILE, f"{claim.title}: the run {what} {name}"
    return LOSS, f"{claim.title}: {outcomes(said)} is said, and it is none"


def outcomes(values):
    """Outcomes in a few words: the status, and what is printed or reported."""
    found = [f"{it.part('status')} {shown(it.part('text') or it.part('report'))}" if "status" in getattr(
        it, "name", "") else shown(it) for it in values[:2]]
    return " or ".join(it if len(it) < 130 else f"{it[:127]}.." for it in found) or "none"


def verdict_of(judges, change):
    """What refuses a change in the crates that have it: a witness, if there is one."""
    found = []
    for judge in judges:
        if judge.page.crate in change.places:
            found.append(judge.judge(change.title.partition(":")[0], *change.places[judge.page.crate]))
            if found[-1][0] in WITNESSED:
                return found[-1]
    return min(found, key=lambda it: (FACT, LOSS, OPEN, PASSES).index(it[0]))


def all_judges():
    """A judge of each page, and how many of its claims are otherwise, which are printed."""
    judges = [*map(Judge, evaluate.all_pages())]
    return judges, told([title for it in judges for title in it.wrong])


def told(wrong):
    """Prints what is otherwise than said, and gives how much that is."""
    for title in wrong:
        print(f"change_page: {title} is otherwise")
    return len(wrong)


def try_all(chosen, most):
    """Tries these changes, until so many CPU seconds are over; gives how many were wrong, with the claims that are, and
    how many had each verdict."""
    (judges, wrong), verdicts = all_judges(), collections.Counter()
    for number, change in chosen:
        if most and time.process_time() >= most:
            break
        before = time.process_time()
        verdict, why = verdict_of(judges, change)
        is_right = change.is_right(verdict)
        verdicts[verdict] += 1
        wrong += not is_right
        print(f"{number} {change.title}: {'' if is_right else 'NOT AS IT SHOULD BE: '}{verdict} "
              f"({time.process_time() - before:.1f} s)\n  {why}".rstrip(), flush=True)
    for verdict, count in verdicts.most_common():
        print(f"{count} {verdict}")
    print(f"{verdicts.total()} changes tried, {wrong} of them not as they should be; {time.process_time():.0f} CPU s")
    return wrong, verdicts


def prove_all(chosen):
    """Lets the prover check these changes, each in the first crate that has it, and gives how many were wrong."""
    wrong = 0
    with tempfile.TemporaryDirectory() as folder:
        for crate in COPYING:
            mine = [it for it in chosen if next(iter(it[1].places)) == crate]
            room = make_room(folder, crate) if mine else ""
            for number, change in [(0, Change("as it is", EQUAL, {})), *mine] if mine else ():
                texts = {f"specs/{it.split('specs.')[1].replace('.', '/')}.antt": text()
                         for it, text in [*change.places.values()][:1]}
                said = run_check(room, texts).stdout
                is_proved = bool(re.search(r"(?m)^logic=proved", said))
                wrong += is_proved != (change.kind in (EQUAL, UNSHOWN))
                errors = re.findall(r"(?m)^\./(\S+)\.antt:\d+:\d+: error: (.*(?:\n  .*)*)", said)
                print(f"{number} {change.title}: {'PROVED' if is_proved else 'refused'}", flush=True)
                for where, message in errors[:2]:
                    print(f"  {where}: {' '.join(message.split())[:300]}", flush=True)
    return wrong


def miscounted(says):
    """Whether the page doesn't say this; it prints what it should say."""
    if says in COUNTED.read_text():
        return False
    print(f"change_page: {COUNTED} should say: {says}", file=sys.stderr)
    return True


def in_turn(numbered):
    """The changes in an order that mixes their files: one of each kind, and then those whose turn it is by the number
    of commits."""
    mixed = sorted(numbered, key=lambda it: it[0] * 0.6180339887 % 1)
    at = 151 * int(script.git("rev-list", "--count", "HEAD") or 0) % len(mixed)
    one_each = {change.kind: number for number, change in reversed(numbered)}.values()
    return sorted(mixed[at:] + mixed[:at], key=lambda it: it[0] not in one_each)


def main(*words):
    """Does what the words say, and returns the status."""
    numbered = [*enumerate(changes(), 1)]
    if not words:
        for number, change in numbered:
            print(f"{number} {change.title}{' (an equal form)' if change.kind == EQUAL else ''}")
        kinds = collections.Counter(it.kind for _, it in numbered)
        by_rule, equal = kinds[MADE] + kinds[UNSHOWN], kinds[EQUAL]
        says = (f"{by_rule} changes by rule, of which {kinds[UNSHOWN]} are marked as without a witness, "
                f"{kinds.total() - by_rule - equal} by hand, and {equal}")
        (judges, wrong), (cases, count) = all_judges(), evaluate.wrong_cases()
        wrong += told(cases)
        claims = sum(len(it.claims) for it in judges)
        print(f"{claims} claims and {count} cases, {wrong} not as said")
        agrees = f"agrees with the prover on all {claims} claims"
        return int(wrong + miscounted(says) + miscounted(agrees) > 0)
    if words[0] == "--some":
        return int(try_all(in_turn(numbered), int(words[1]))[0] > 0)
    if words[0] == "--all":
        wrong, verdicts = try_all(numbered, 0)
        witnessed = sum(verdicts[it] for it in WITNESSED)
        says = f"{witnessed} by a witness, {verdicts[FACT]} by a fact, {verdicts[LOSS]} by a loss"
        return int(wrong + miscounted(says) > 0)
    if words[0] == "--sample":
        some = [it for it in in_turn(numbered) if it[1].kind not in (EQUAL, UNSHOWN)]
        return int(prove_all([it for it in numbered if it[1].kind == EQUAL] + some[:30]) > 0)
    chosen = {int(it) for it in words if it.isdigit()}
    if max(chosen) > len(numbered):
        script.misused(f"there are {len(numbered)} changes")
    some = [it for it in numbered if it[0] in chosen]
    return int((prove_all(some) if words[0] == "--prove" else try_all(some, 0)[0]) > 0)


if __name__ == "__main__":
    script.run(main, r" --all| --sample| --some [1-9]\d{0,5}|( --prove)?( [1-9]\d{0,3})+|")
