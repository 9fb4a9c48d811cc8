"""Evaluates the definitions of crates/page and page_commands on their worlds, functions and relations alike, without a
proof; for tools/page/change_page.py and tools/page/check_page.py.

Functions are computed. Facts (`≡`, `×`, data, records, `(x : T) → ..`) are solved, over the modules, names, files,
lines and versions that a world has; `ListEnds after limit run OUTCOME` gives each outcome that the definitions allow. A
number near 65,536 is computed as one near 6, so that worlds with too many modules can be tried, and a path has at most
as many edges as FAR says. That a world has no other outcome is no proof: of unknown lists those are tried that have all
members, in some of the orders that their facts allow, or lack one, and the words of a file are at one place of it.

tools/page/evaluate_cases.txt has facts of which it is known whether they hold.
"""

import collections
import functools
import gc
import itertools
import operator
import pathlib
import re
import sys

from definitions import Function, Module, Node, Parser, Relation, Unreadable
from sources import scope_of
from values import (BUILT, CONSTRUCTORS, FAILS, HOLDS, INVERSE, JOINED, NONE, TRAIL, Applied, Goal, Made, Stuck,
                    Unknown, all_pairs, complete, forget, is_own, is_text, is_true, known, record, resolved, shown,
                    text, unify, unknowns_in)

CASES = pathlib.Path("tools/page/evaluate_cases.txt")
# relations whose last argument is the outcome, for which each is found that they allow
ENDS = "ListEnds", "EditEnds", "FmtEnds", "VersionsEnds", "PrintsGraph", "PrintsChain", "SaysOfHash", "IsFirstInvalid"
# the bound of the definitions, what it is computed as in worlds that are about it, and how what is said of these is
# named
MANY, FEW, BOUND = 65536, 6, "TooMany"
MOST, MOST_STEPS = 24, 200000  # orders of a list, and steps for what is so of a world
FAR = 9  # edges of a path
sys.setrecursionlimit(9000)
gc.set_threshold(200000)


def unknown_of(type_):
    """An unknown of a type; of a pair or a record that the code defines, one for each part."""
    name = type_.head() or type_.kind
    if name == "FaultPlace":
        return Made("", Unknown("ℕ"), Unknown("Misreading"))
    if name in PARTS:
        return record(**{field: Unknown(of) for field, of in PARTS[name].items()})
    return Unknown("Lines" if name == "List" and type_.arguments()[0].head() == "Line" else name)


def unknowns_of(bound):
    """Bound names, each with an unknown of its type."""
    return {name: unknown_of(type_) for name, type_ in bound.items()}


# records of the code, with the types of their fields
PARTS = {"Fault": {"vertex": "ModuleVersion", "class": "Class"}, "Edge": {"from": "Step", "to": "ModuleVersion"}}
# what is tried of an unknown that nothing determines: two values show that anything goes; of a data type it is its
# first two constructors without arguments
ANY = {
    "ℕ": [7, 8],
    "Result": [Made("Err", Made("Missing")), Made("Err", Made("TooLong"))],
    "Outcome": [record(text=(120 + it,), report=(), status=0) for it in (0, 1)],
    "Option": [NONE],
    "List": [()],
}


class Table(dict):
    """The solutions of a relation, each once: whether they are being found, and whether they were used meanwhile."""

    is_busy, is_used = True, False


def joined_in(node):
    """The expressions that an expression joins by `++`, however they are grouped."""
    return [it for part in node.parts for it in joined_in(part)] if node.kind == "++" else [node]


class Page:
    """The definitions of a crate, or those of another page with another text of a file; what was computed of them."""

    def __init__(self, crate="page", few=MANY, base=None, file="", text=""):
        self.few, self.crate, self.reached, self.steps = few, crate, set(), 0
        self.base, self.touched, self.given, self.busy, self.finds_lists = base or self, set(), (), [], False
        self.values, self.results, self.kept, self.universes, self.lambdas = {}, {}, {}, {}, {}
        if base:
            self.few, self.crate = base.few, base.crate
            self.modules = {**base.modules, file: Module(file, text)}
            old, new = base.modules[file].texts, self.modules[file].texts
            self.changed = {name for name, it in new.items() if it != old.get(name)}
            # all else is as in the page that was changed
            self.touched = base.with_users({(file, name) for name in self.changed})
        else:
            specs = pathlib.Path("crates", crate, "specs")
            files = {self.own + ".".join(it.with_suffix("").relative_to(specs).parts): it
                     for it in sorted(specs.glob("**/*.antt"))}
            self.modules = {it: Module(it, files[it].read_text()) for it in files}

    @property
    def own(self):
        """How the names of its modules begin."""
        return f"Rattle.{self.crate}.specs."

    @functools.cached_property
    def users(self):
        """The definitions by which each is used."""
        found = collections.defaultdict(set)
        for module in self.modules.values():
            for name, one in module.names.items():
                for used in {it for whole in getattr(one, "expressions", ()) for it in whole.names}:
                    _, source, own = self.meaning(module, used)
                    found[source and source.name, own].add((module.name, name))
        return found

    def with_users(self, some):
        """These definitions, and those that use them."""
        found = set()
        while some:
            found |= some
            some = {user for it in some for user in self.users[it]} - found
        return found

    def of(self, module, name, *given):
        """A definition of a module of the page, of these arguments."""
        return self.named(self.modules[self.own + module], name).to(*given)

    # ---- names

    def meaning(self, module, name):
        """What a name means, the module that has it, or None for the library, and its name there."""
        while module is not None and name not in module.names:
            path, name = module.imports.get(name, (None, name))
            module = self.modules.get(path)
        return module.names[name] if module else CONSTRUCTORS.get(name), module, name

    def named(self, module, name):
        """The value of a name."""
        key = module.name, name
        if key not in self.values:
            self.values[key] = self.named_anew(module, name)
        return self.values[key]

    def named_anew(self, module, name):
        one, source, own = self.meaning(module, name)
        self.reached.add(own)
        if isinstance(one, (Function, Relation)):
            body = functools.partial(self.call, source, own) if isinstance(one, Function) else functools.partial(
                Goal, self.relation, source, own)
            found = Applied((source.name, own), one.count, body, own=(source.name, own) in self.touched)
            return found.to() if isinstance(one, Function) else found
        if isinstance(one, int) and own != "suc":
            return Applied(own, one, functools.partial(Made, own)).to()
        if own not in BUILT:
            raise Unreadable(f"{name} of {module.name} is not known")
        return Applied((own,), *BUILT[own]).to()

    # ---- expressions

    def value(self, node, env, module):
        """What an expression is, or a goal if it is a fact."""
        kind, parts = node.kind, node.parts
        if kind == "name":
            return resolved(env[parts[0]]) if parts[0] in env else self.named(module, parts[0])
        if kind == "call":
            arguments = [self.value(it, env, module) for it in parts[1]]
            return arguments[0] if node.head() == "codes" else known(self.value(parts[0], env, module)).to(*arguments)
        if kind == "part":
            path, own = module.imports.get(parts[0].head(), (None, ""))
            if own is None and parts[0].head() not in env:  # a name of a module
                return self.named(self.modules[path], parts[1])
            return known(self.value(parts[0], env, module)).part(parts[1])
        if kind == "number":
            return parts[0] - (abs(parts[0] - MANY) < 99 and MANY - self.few)
        if kind == "text":
            return text(parts[0])
        if kind == "nil":
            return ()
        if kind == "tuple":
            return Made("", *(self.value(it, env, module) for it in parts[0]))
        if kind == "record":
            base = known(self.value(parts[0], env, module)) if parts[0] else record()
            fields = {name: self.value(it, env, module) for name, it in parts[1]}
            return record(**{**dict(zip(base.name, base.items)), **fields})
        if kind == "lambda":
            return self.function(node, env, module)
        if kind == "if":
            return self.value(parts[1 if is_true(self.value(parts[0], env, module)) else 2], env, module)
        if kind == "let":
            return self.value(parts[2], {**env, parts[0]: self.value(parts[1], env, module)}, module)
        if kind in ("&&", "||"):
            left = known(self.value(parts[0], env, module))
            return left if is_true(left) == (kind == "||") else self.value(parts[1], env, module)
        if kind in JOINED:
            return JOINED[kind](*(self.value(it, env, module) for it in parts))
        return self.fact(node, env, module)

    def function(self, node, env, module):
        """The function that a λ is, of what it takes from outside, and of its arguments."""
        outside = [name for name in node.names if name in env]
        names = [*outside, *node.parts[0]]
        return Applied(node, len(names), lambda *given: self.value(node.parts[1], dict(zip(names, given)), module),
                       *(env[name] for name in outside), own=self.is_touched(node, module))

    def is_touched(self, node, module):
        """Whether a λ uses what was changed, or stands in the file with that."""
        if node not in self.lambdas:
            self.lambdas[node] = bool(self.touched) and (module is not self.base.modules.get(module.name) or any(
                (source and source.name, own) in self.touched
                for _, source, own in (self.meaning(module, name) for name in node.names)))
        return self.lambdas[node]

    def call(self, module, name, *given):
        """A function of all its arguments; the result is kept, if they have no unknowns."""
        try:
            key = (module.name, name, *map(complete, given))
        except Stuck:
            return self.call_anew(module, name, given)
        # a goal is solved by the page that made it
        results = (self if module.names[name].is_fact else self.holder(module, name, key[2:])).results
        if key not in results:
            results[key] = self.call_anew(module, name, key[2:])
        return results[key]

    def holder(self, module, name, given):
        """The page that keeps what is found of a definition: the one that was changed, if that is the same there."""
        is_here = self is self.base or (module.name, name) in self.touched or is_own(given)
        return self if is_here else self.base

    def call_anew(self, module, name, given):
        """What the first clause is that matches; for a fact all clauses may, if that depends on an unknown."""
        function = module.names[name]
        for patterns, body in function.clauses:
            try:
                env = self.match(patterns, given, module)
            except Stuck:
                if not function.is_fact:
                    raise
                return Goal(self.cases, module, function, given)
            if env is not None:
                return self.value(body, env, module)
        raise Unreadable(f"no clause of {name} matches")

    def match(self, patterns, given, module):
        """The names of patterns with what they are in these values, or None if the values are of others; stuck if they
        may be."""
        env, stuck = {}, []
        fit = all(self.fits(*it, env, stuck, module) for it in zip(patterns, given))
        if fit and stuck:
            raise Stuck(*stuck[:1])
        return env if fit else None

    def fits(self, node, value, env, stuck, module):
        """Whether a value may be of a pattern; notes what the names are, and what has to be known for the rest."""
        if node.shape is None:
            node.shape = self.shape(node, module)
        name, below = node.shape
        if name is None:
            env[below] = value
            return True
        value = resolved(value)
        if value.__class__ is Unknown:
            stuck.append(value)
            return True
        if name == "∷" and isinstance(value, tuple):
            items = value and (value[0], value[1:])
        elif name == "suc" and isinstance(value, int):
            items = (value - 1,) if value else ()
        elif not isinstance(value, Made):
            return value == name
        else:
            items = value.items if value.name == name else ()
        return len(items) == len(below) and (items or value.__class__ is Made and value.name == name) and all(
            self.fits(*it, env, stuck, module) for it in zip(below, items))

    def shape(self, node, module):
        """What a pattern is: a constructor, a number or the empty list, with the patterns below; or a name."""
        kind, parts = node.kind, node.parts
        if self.is_variable(node, module):
            return None, parts[0]
        if kind in ("number", "nil") or node.head() == "zero":
            return parts[0] if kind == "number" else () if kind == "nil" else 0, ()
        if node.head():
            return self.meaning(module, node.head())[2], node.arguments()
        if kind in ("call", "part"):  # a name of a module
            return (parts[0].parts if kind == "call" else parts)[-1], node.arguments()
        return ("", parts[0]) if kind == "tuple" else (kind, parts)

    def is_variable(self, node, module):
        """Whether a pattern is a name that stands for any value."""
        name = node.head()
        return node.kind == "name" and name != "zero" and not isinstance(self.meaning(module, name)[0], int)

    def pattern(self, node, env, module):
        """A pattern as a value, whose names are unknowns."""
        name, below = self.shape(node, module)
        if name is None:
            return env.setdefault(node if below == "_" else below, Unknown())
        return Made(name, *(self.pattern(it, env, module) for it in below)) if isinstance(name, str) else name

    # ---- facts

    def solve(self, goals):
        """Finds the solutions of all of these, one after the other, and each is there while the unknowns are bound. A
        goal that can't be tried yet waits for the others."""
        if not goals:
            yield
            return
        self.steps += 1
        if self.steps > (MOST_STEPS if self.base is self else MOST_STEPS / 10):
            raise Unreadable("it takes too many steps")
        goals = [*goals]
        index, found = self.first(goals, False)
        guesses = self.guesses(goals) if index is None else iter(())
        guess = next(guesses, None)
        if index is None and not guess:
            index, found = self.first(goals, True)
        if index is None:
            unknown, values = guess or self.last_guess(goals, found)
            for value in values:
                yield from self.solve_if([(unknown, value)], goals)
        else:
            for equations, more in found:
                yield from self.solve_if(equations, [*more, *goals[:index], *goals[index + 1:]])

    def first(self, goals, finds_lists):
        """The place of the first goal that can be tried, and its alternatives; or none, and why one can't."""
        stuck = None
        for index, goal in enumerate(goals):
            try:
                while goal.name == self.facts and goal.items[0].kind in ("name", "call", "part", "let", "if"):
                    goals[index] = goal = known(self.value(*goal.items))
                self.finds_lists = finds_lists
                return index, goal.name(*goal.items)
            except Stuck as error:
                stuck = stuck or error
        return None, stuck

    def solve_if(self, equations, goals=()):
        """The solutions of goals in which these pairs are the same."""
        mark = len(TRAIL)
        try:
            if all(unify(*it) for it in equations):
                yield from self.solve(goals)
        finally:
            forget(mark)

    def fact(self, node, env, module):
        """An expression that is a fact, as a goal."""
        return Goal(self.facts, node, {name: env[name] for name in node.names if name in env}, module)

    def facts(self, node, env, module):
        """The alternatives of an expression that is a fact."""
        kind, parts = node.kind, node.parts
        if kind == "×":
            return [([], [self.fact(it, env, module) for it in parts])]
        if kind == "⊎":
            return [([], [self.fact(it, env, module)]) for it in parts]
        if kind == "some":
            return [([], [self.fact(parts[1], {**env, **unknowns_of(parts[0])}, module)])]
        if kind == "≡":
            return self.equations(parts, env, module)
        if kind in COMPARED:
            return HOLDS if COMPARED[kind](*(complete(self.value(it, env, module)) for it in parts)) else FAILS
        return HOLDS if self.follows(node, [], dict(zip(env, map(complete, env.values()))), module) else FAILS

    def equations(self, parts, env, module):
        """The alternatives of `a ≡ b`."""
        for whole, cut in (parts, parts[::-1]):
            if cut.kind == "++" or cut.head() in INVERSE:
                try:
                    self.value(cut, env, module)
                except Stuck:
                    whole = known(self.value(whole, env, module))
                    return [(found, []) for found in self.cuts(whole, joined_in(cut), env, module)]
        return self.same(parts[0], env, module, self.value(parts[1], env, module))

    def same(self, node, env, module, value):
        return [([(self.value(node, env, module), value)], [])]

    def cuts(self, whole, nodes, env, module):
        """What has to be the same so that these, joined, are this list: one way for each place at which it can be
        cut."""
        node, *others = nodes
        if others:
            head = self.value(node, env, module)
            places = range(len(whole) + 1) if isinstance(head, Unknown) else [len(known(head))]
            return [[(head, whole[:at]), *more] for at in places
                    for more in self.cuts(whole[at:], others, env, module)]
        if node.head() in INVERSE:
            *given, last = (self.value(it, env, module) for it in node.arguments())
            return [[(last, it)] for it in INVERSE[node.head()](whole, *given)]
        return [[(self.value(node, env, module), whole)]]

    def follows(self, node, premises, env, module, bound=()):
        """Whether a fact is so in each solution of the premises, whatever the bound unknowns are; those before its
        arrows are added."""
        kind, parts = node.kind, node.parts
        if kind == "all":
            more = unknowns_of(parts[0])
            return self.follows(parts[1], premises, {**env, **more}, module, (*bound, *more.values()))
        if kind in ("→", "¬"):
            added = [*premises, self.fact(parts[0], env, module)]
            return self.follows(parts[1], added, env, module, bound) if kind == "→" else not self.holds(added)
        if kind == "↔":
            return all(self.follows(two, [*premises, self.fact(one, env, module)], env, module, bound)
                       for one, two in (parts, parts[::-1]))
        fact = self.fact(node, env, module)
        used = tuple(it for it in bound if any(it is one for one in fact.items[1].values()))
        return all(self.holds([fact]) for _ in self.solve(premises) for _ in self.values_of(used))

    def holds(self, goals):
        return any(True for _ in self.solve(goals))

    def found(self, goals, term):
        """The values of a term in all solutions, each once."""
        return [*dict.fromkeys(value for _ in self.solve(goals) for value in self.values_of(term))]

    def values_of(self, term):
        """The values of a term; of an unknown in it that nothing determines, some that it may be."""
        try:
            yield complete(term)
        except Stuck as error:
            unknown = resolved(error.args[0])
            if not self.tried(unknown):
                raise
            for value in self.tried(unknown):
                for _ in self.solve_if([(unknown, value)]):
                    yield from self.values_of(term)

    def tried(self, unknown):
        """What is tried of an unknown that nothing determines: what the world has of its type, or two values."""
        type_ = getattr(unknown, "type", None)
        some = (it.names[type_].fields.items() for it in self.modules.values()
                if isinstance(it.names.get(type_), Relation) and it.names[type_].is_data)
        return self.universe.get(type_) or ANY.get(type_) or [
            Made(name) for name, of in next(some, ()) if not of.result()[1]][:2]

    def cases(self, module, function, given):
        """An alternative for each clause of a fact, if no clause before it matches."""
        before = []
        for patterns, body in function.clauses:
            env = {}
            pattern = tuple(self.pattern(it, env, module) for it in patterns)
            yield [(pattern, given)], [*before, self.fact(body, env, module)]
            before.append(Goal(lambda *it: HOLDS if self.match(*it) is None else FAILS, patterns, given, module))

    # ---- guesses, if all goals wait

    def guesses(self, goals):
        """Unknown lists with what they may be, first those of which all members are told."""
        return (it for sign in "↔→" for goal in goals for it in self.lists(goal, goals, sign))

    def last_guess(self, goals, stuck):
        """An unknown with what it may be, first one that the world has something for."""
        for unknown in sorted(unknowns_in(tuple(goals)), key=lambda it: it.type not in self.universe):
            if self.tried(unknown):
                return unknown, self.tried(unknown)
        raise stuck

    def lists(self, goal, goals, sign):
        """An unknown list of a goal `(x : T) → Contains xs x ↔ P x`, and lists of what P holds of. If P only has to
        imply that the list contains it, the list may have others; if it is only implied, the list may lack some."""
        if goal.name != self.facts or goal.items[0].kind != "all":
            return
        ((bound, body), env, module) = goal.items[0].parts, *goal.items[1:]
        for one, other in itertools.permutations(body.parts[:2]) if body.kind == sign else ():
            if one.head() != "Contains":
                continue
            try:
                xs, env = self.value(one.arguments()[0], env, module), {**env, **unknowns_of(bound)}
                x = env[one.arguments()[1].head()]
                members = sorted(self.found([self.fact(other, env, module)], x), key=shown)
                sets = [members]
                if body.kind == "→" and one is body.parts[1]:
                    sets += [[*members, it] for it in itertools.islice(self.values_of(x), 4) if it not in members]
                elif body.kind == "→":
                    sets += [*([it for it in members if it is not left] for left in members), []]
            except Stuck:
                continue
            relations = [it.items[0] for it in goals if it.name == all_pairs and resolved(it.items[1]) is xs]
            if not isinstance(xs, tuple):
                yield xs, (it for some in sets for it in itertools.islice(self.ordered(some, relations), MOST))

    def ordered(self, members, relations):
        """The lists of these in which the relations are so of all pairs."""
        if not members:
            yield ()
        for at, one in enumerate(members):
            rest = members[:at] + members[at + 1:]
            if all(self.holds([relation.to(one, it)]) for relation in relations for it in rest):
                yield from ((one, *others) for others in self.ordered(rest, relations))

    # ---- records and data types

    def relation(self, module, name, *given):
        """The alternatives of a record, or of a data type: its solutions, which are kept, so that recursion ends."""
        one, key, free = module.names[name], [], []
        for value in given:
            try:
                key.append(complete(value))
            except Stuck as error:
                if not one.is_data:
                    env = dict(zip(one.parameters, given)) | unknowns_of(one.rules[0].bound)
                    return [([], [self.fact(it, env, module) for it in one.rules[0].premises])]
                if getattr(error.args[0], "type", "List") == "List" and not self.finds_lists:
                    raise  # other goals may tell what it is
                key.append(None)
                free.append(value)
        return [([(tuple(free), values)], []) for values in [*self.table(module, name, tuple(key))]]

    def table(self, module, name, given):
        """The solutions of a relation of these arguments: the values of those that are None."""
        page = self if self.reads_anew else self.holder(module, name, given)
        key, tables = (name, given), page.kept.setdefault(self.given, {})
        if key in tables:
            tables[key].is_used = True
            return tables[key]
        one, table, size = module.names[name], Table(), -1
        tables[key] = table
        self.busy.append(table)
        try:
            while len(table) > size and (size < 0 or table.is_used):
                size = len(table)
                for rule in one.rules:
                    self.run(rule, one, given, module, table)
            table.is_used = False
            # what a table gave that is still busy may not be all
            table.is_busy = any(it.is_used for it in self.busy)
        finally:
            self.busy.pop()
            if table.is_busy:
                del tables[key]
        return table

    def run(self, rule, one, given, module, table):
        """Adds the solutions that a rule gives. A list that is asked for is found, and not guessed."""
        values = [it if it is not None else Unknown() if of.head() == "List" else unknown_of(of)
                  for it, of in zip(given, one.takes)]
        free = tuple(value for it, value in zip(given, values) if it is None)
        env = dict(zip(one.parameters, values)) | unknowns_of(rule.bound)
        sides = rule.result.arguments()
        if len(sides) != len(given):
            raise Unreadable("a rule says nothing of its type")
        goals = [Goal(self.same, it, env, module, value) for it, value in zip(sides, values)]
        for _ in self.solve([*goals, *(self.fact(it, env, module) for it in rule.premises)]):
            table.update((found, None) for found in self.values_of(free)
                         if all(not isinstance(it, int) or it <= FAR for it in found))
            if not free:
                break

    # ---- worlds

    @functools.cached_property
    def reads_anew(self):
        """Whether what was changed is used to find what files say, and so what there is."""
        return any((self.own + file, name) in self.touched for file, names in READERS.items() for name in names)

    @property
    def universe(self):
        """What there is in a world, or in all: found when it is needed."""
        page = self if self.reads_anew else self.base
        if self.given not in page.universes:
            values = self.values_of_worlds() if self.crate == "page" and not self.given else self.values_in(*self.given)
            page.universes[self.given] = self.universe_of(values)
        return page.universes[self.given]

    def begin(self, *given):
        """Begins to find what is so of a world, or of all of them."""
        self.given, self.steps = given, 0

    def values_in(self, *given):
        """A world, and what its files say: their contents, or their lines and the versions there."""
        asked = (it.items[0] if getattr(it, "name", "") == "Some" else it for it in given)
        given = *given, *(Made("", it, text("v1.0.0")) for it in asked if is_text(it))
        if self.crate == "page":
            *_, run = (it for it in given if it.name == ("answers", "file", "sums"))
            contents = [it.items[1].items[0] for it in run.part("answers").part("asked") if it.items[1].items]
            return [*given, self.of("Files", "main_in", run.part("file")),
                    *(self.of("Files", "said_in", it) for it in contents)]
        return given

    def values_of_worlds(self):
        """What the worlds are made of; lists that are as long as the bound only if that is a low one."""
        constants = {(module.name, name) for module in self.modules.values() for name, one in module.names.items()
                     if module.name.startswith((self.own + "Files", self.own + "Worlds"))
                     and getattr(one, "is_constant", False)}
        long = {it for it in constants if str(MANY) in self.modules[it[0]].texts[it[1]] and self.few == MANY}
        return [self.named(self.modules[file], name) for file, name in sorted(constants - self.base.with_users(long))]

    def outcomes(self, node, env, module):
        """All values of its last argument for which a fact holds."""
        *given, _ = node.arguments()
        given = [complete(self.value(it, env, module)) for it in given]
        takes = self.meaning(module, node.head())[0].takes
        outcome = Unknown(takes[-1].head() if len(takes) > len(given) else "Outcome")
        self.begin(*given)
        return self.found([self.value(node.parts[0], env, module).to(*given, outcome)], outcome)

    def needed(self, run):
        """The names of the files that a run needs by its answers, or None if its main file or its go.sum is invalid."""
        self.begin(NONE, NONE, run)
        main, table, name = self.of("Files", "main_in", run.part("file")), Unknown(), Unknown("Name")
        are_sums = self.of("Types", "AreSums", run.part("sums"), table)
        for sums in self.found([are_sums], table) if main.name == "Ok" else ():
            by_answers = self.of("Sayings", "run_of", main.items[0], sums, run.part("answers").part("asked"))
            return self.found([self.of("Run", "IsNeeded", by_answers, name)], name)
        return None

    def unneeded(self):
        """For a run of `list` without an outcome, the files that it doesn't ask for but needs, and the other way
        round."""
        run = self.given[-1]
        if self.crate != "page":
            return []
        asked = {it.items[0] for it in run.part("answers").part("asked")}
        needed = self.needed(run)
        needed = asked if needed is None else set(needed)
        return [("doesn't ask for", needed - asked), ("asks without need for", asked - needed)]

    def is_so(self, node, env, module):
        """Whether a fact holds, over all worlds, or of the texts in it."""
        texts = (text(it.parts[0]) for it in node.all_below() if it.kind == "text" and self.crate != "page")
        self.begin(*texts)
        return self.holds([self.fact(node, env, module)])

    def universe_of(self, values):
        """The modules, names, files, rows, lines and versions that occur in values, by their types."""
        found, replacements, texts = collections.defaultdict(dict), {NONE: None}, {(): None}

        def look(value):
            if isinstance(value, Made):
                look(value.items)
                is_module = value.name == "" and len(value.items) == 2 and all(map(is_text, value.items))
                found["ModuleVersion" if is_module else TYPES.get(value.name)][value] = None
                if value.name in RIGHTS:
                    replacements[Made("Some", value)] = found["Name"][Made(RIGHTS[value.name], *value.items)] = None
                if value.name == ("path", "version"):
                    look(Made("", value.items[0], *(value.items[1].items or [text("v1.0.0")])))
            elif is_text(value):
                texts[value] = None
            elif isinstance(value, tuple):
                for it in value:
                    look(it)

        look(tuple(values))
        if self.crate != "page":
            words = {it[1:]: None for some in texts for it in re.findall(rb'[^][\s(),"`]+', bytes(some))}
            readings = ("Lines", "Files", "lines_in", texts), ("Parts", "Types", "version_parts", words)
            for name, *reader, some in readings:
                said = (self.of(*reader, tuple(it)) for it in some)
                found[name] = [placed(*it.items) for it in said if it.name == "Ok"]
        found["Name"].update((Made("mod_file", *it.items), None) for it in found["ModuleVersion"])
        found["Step"] = [Made("Main"), *(Made("Of", it) for it in found["ModuleVersion"])]
        found["Entry"] = found["×"] = [Made("", *it) for it in itertools.product(found["Step"], replacements)]
        return {name: [*some] for name, some in found.items() if name}


def placed(value):
    """Lines whose words have a place."""
    if isinstance(value, Made):
        is_word = value.name == ("kind", "spelling")
        return record(word=value, line=0, span=NONE) if is_word else value.of(*map(placed, value.items))
    return tuple(map(placed, value)) if isinstance(value, tuple) else value


# what is used to find what there is in a world
READERS = {"Files": ("main_in", "said_in", "lines_in"), "Types": ("version_parts",)}
# the files of the right sides of replaces; which of the universe's types some constructors are of
RIGHTS = {"Folder": "folder_file", "Module": "mod_file"}
TYPES = {**dict.fromkeys(("mod_file", "folder_file", "list_file"), "Name"),
         ("declared", "go", "requirements"): "Dependency"}
COMPARED = {"≢": operator.ne, "≤": operator.le, "<": operator.lt}


# ---- what the page says of its worlds


# what is said: a fact; and all values of its last argument, or None, if it is one that has no outcomes
Claim = collections.namedtuple("Claim", "title fact said", defaults=[None])


def claims_of(page, title, node, env, module):
    """The claims that an expression makes, about each of its worlds."""
    head, arguments = node.head(), node.arguments()
    one, source, name = page.meaning(module, head) if head else (None, None, "")
    is_of_worlds = source and source.name.startswith(page.own + "Worlds")
    if head in ENDS:
        return [Claim(title, (node, env, module), [complete(page.value(arguments[-1], env, module))])]
    conclusion, premises = node.result()
    if node.kind == "all" and conclusion.head() == "⊥" and premises[-1].head() in ENDS:
        return [Claim(title, (premises[-1], env, module), [])]
    if head == "AllByRecursion":
        one = Node("call", (arguments[0], [Node("name", ("one",))]))
        return [it for number, world in enumerate(page.value(arguments[1], env, module)) for it in claims_of(
            page, f"{arguments[1].head() or arguments[0].head()}[{number}]", one, {"one": world}, module)]
    if isinstance(one, Relation) and is_of_worlds:
        facts = [(f"{name}.{field}", type_, {}, source) for field, type_ in one.fields.items()]
        return [it for fact in facts for it in claims_of(page, *fact)]
    if isinstance(one, Function) and one.is_fact and is_of_worlds:
        patterns, body = one.clauses[0]
        given = [page.value(it, env, module) for it in arguments]
        return claims_of(page, title, body, dict(zip((it.head() for it in patterns), given)), source)
    return [Claim(title, (node, env, module))]


def all_claims(page):
    """What a crate proves of its worlds, of those about the bound alone if the page has a lower one; not the law that a
    run has one outcome."""
    source = Module("", "")
    code = pathlib.Path("crates", page.crate, "src/lib.rt").read_text()
    source.imports = scope_of(code)
    names = [it for it in re.findall(r"ensures \{ (\w+) \}", code) if it != "OneOutcome"]
    return [it for name in names if name.startswith(BOUND) == (page.few == FEW)
            for it in claims_of(page, name, Node("name", (name,)), {}, source)]


def all_pages():
    """The pages whose claims are tried."""
    return Page(), Page(few=FEW), Page("page_commands")


def wrong_cases():
    """The cases that are otherwise, and how many there are."""
    said, page = CASES.read_text(), Page()
    facts = re.findall(r"(?m)^(holds|fails) (.*)", said)
    cases = page.modules["cases"] = Module("cases", said[:said.index("\nholds")])
    wrong = [f"{word} {it}" for word, it in facts
             if page.is_so(Parser(it).whole(), {}, cases) != (word == "holds")]
    return wrong, len(facts)
