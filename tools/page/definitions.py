"""Reads the definitions of crates/page and page_commands: trees that know their place in the file, and what a module
has and imports.

For tools/page/evaluate.py, which computes them, and tools/page/change_page.py, which changes them.
"""

import functools
import re

from sources import definitions_in, scope_of

# a word in braces, as `{R}`, gives an implicit argument, which counts for nothing
TOKEN = re.compile(r'(?:\s|--[^\n]*|\{\w+\})+|"(?P<text>(?:\\.|[^"\\])*)"|(?P<number>\d+)|(?P<part>(?<=\S)\.(?=\w))'
                   r"|(?P<sign>\+\+|&&|\|\||==|[()\[\]{},;:=.λ→×⊎↔¬≡≢≤<∷+*/%^-])|(?P<name>[^\W\d][\w']*|[⊥⊤])")
KEYWORDS = {"if", "then", "else", "let", "in"}
ESCAPES = {"n": "\n", "t": "\t", "r": "\r"}
# what some tokens are
READ = {"number": int, "text": lambda word: re.sub(r"\\(.)", lambda it: ESCAPES.get(it[1], it[1]), word)}
# operators, those that bind least first, and those of them that group to the right
LEVELS = ["→", "↔", "× ⊎", "≡ ≢ ≤ <", "||", "&&", "==", "++ ∷ + -", "* / %", "^"]
POWER = {sign: power for power, signs in enumerate(LEVELS) for sign in signs.split()}
TO_THE_RIGHT = {"→", "×", "⊎", "++", "∷", "+"}
BINDER, FACT = POWER["×"], POWER["≡"]  # how much binds what follows a binder's `×`, or a `¬`


# types of fields that a record has; all others are facts about them
OF_VALUES = {"List", "Option", "ℕ"}


class Unreadable(Exception):
    """What can't be read, or has no meaning."""


class Node:
    """A piece of a definition: its kind, its parts, and from where to where it goes in the file."""

    def __init__(self, kind, parts, start=0, end=0):
        self.kind, self.parts, self.start, self.end, self.shape = kind, parts, start, end, None

    def head(self):
        """The name that it is, or that it calls."""
        node = self.parts[0] if self.kind == "call" else self
        return node.parts[0] if node.kind == "name" else None

    def arguments(self):
        return self.parts[1] if self.kind == "call" else []

    def below(self):
        """The nodes of which it is made."""
        return [*nodes_in(self.parts)]

    def all_below(self):
        """It, and all that it is made of, in their order."""
        yield self
        for node in self.below():
            yield from node.all_below()

    @functools.cached_property
    def names(self):
        """The names in it, in their order."""
        return dict.fromkeys(it.parts[0] for it in self.all_below() if it.kind == "name")

    def result(self):
        """What stands behind the last arrow of a type, and the nodes before that, of which a binder has one each
        name."""
        if self.kind == "→":
            last, before = self.parts[1].result()
            return last, [self.parts[0], *before]
        if self.kind == "all":
            last, before = self.parts[1].result()
            return last, [*explicit(self.parts[0]).values(), *before]
        return self, []


def explicit(bound):
    """The bound names that are no types, with their types: a type is always an implicit argument."""
    return {name: type_ for name, type_ in bound.items() if type_.head() != "Type"}


def nodes_in(parts):
    """The nodes among parts, and in lists of them."""
    for part in parts:
        if isinstance(part, Node):
            yield part
        elif isinstance(part, (list, tuple, dict)):
            yield from nodes_in(part.values() if isinstance(part, dict) else part)


class Parser:
    """Reads expressions, patterns and types. Places count from `at`, where the text begins in its file."""

    def __init__(self, text, at=0):
        self.tokens, self.here, end = [], 0, 0
        while end < len(text):
            found = TOKEN.match(text, end)
            if not found:
                raise Unreadable(f"what is {text[end:end + 20]!r}?")
            if found.lastgroup:
                self.tokens.append((found.lastgroup, found[found.lastgroup], at + found.start(), at + found.end()))
            end = found.end()
        self.tokens += [("end", "", 0, 0)] * 2

    def kind(self):
        return self.tokens[self.here][0]

    def sign(self):
        """The text of the next token, if it isn't a string."""
        return self.tokens[self.here][1] if self.kind() != "text" else None

    def take(self, *expected):
        """The text of the next token, which is one of these."""
        word = self.tokens[self.here][1]
        if expected and word not in expected:
            raise Unreadable(f"{word!r} stands where {' or '.join(expected)} is expected")
        self.here += 1
        return word

    def node(self, kind, first, *parts):
        """A node that began with this token, and ends before the next."""
        return Node(kind, parts, self.tokens[first][2], self.tokens[self.here - 1][3])

    def whole(self):
        """An expression that takes all of the text."""
        found = self.expression()
        if self.kind() != "end":
            raise Unreadable(f"{self.sign()!r} stands after an expression")
        return found

    def binders(self):
        """Bound names, each with its type: `(x y : T) {z : U}`."""
        found = {}
        while self.sign() in ("(", "{"):
            ahead = self.here + 1
            while self.tokens[ahead][0] == "name":
                ahead += 1
            if ahead == self.here + 1 or self.tokens[ahead][1] != ":":
                break
            self.take()
            names = [self.take() for _ in range(ahead - self.here)]
            self.take(":")
            found |= dict.fromkeys(names, self.expression())
            self.take("}", ")")
        return found

    def expression(self, level=0):
        """An expression of operators that bind as much as this level, or more."""
        first, bound = self.here, self.binders()
        if bound and self.take("→", "×") == "→":
            left = self.node("all", first, bound, self.expression())
        elif bound:
            left = self.node("some", first, bound, self.expression(BINDER))
        elif self.sign() == "¬":
            self.take()
            left = self.node("¬", first, self.expression(FACT))
        else:
            left = self.call()
        while self.kind() == "sign" and POWER.get(self.sign(), -1) >= level:
            sign = self.take()
            left = self.node(sign, first, left, self.expression(POWER[sign] + (sign not in TO_THE_RIGHT)))
        return left

    def call(self):
        """A function with its arguments, of which the last may be a λ or an `if`."""
        first = self.here
        if self.sign() == "λ":
            self.take()
            bound = {}
            while self.sign() != ".":
                bound |= self.binders() or {self.take(): None}
            self.take(".")
            return self.node("lambda", first, bound, self.expression())
        if self.sign() == "if":
            return self.node("if", first, *self.after("if", "then", "else"))
        if self.sign() == "let":
            self.take()
            return self.node("let", first, self.take(), *self.after("=", "in"))
        function, arguments = self.atom(), []
        while self.begins_atom() or self.sign() in ("λ", "if", "let"):
            arguments.append(self.atom() if self.begins_atom() else self.call())
        return self.node("call", first, function, arguments) if arguments else function

    def after(self, *words):
        """The expressions after each of these words."""
        parts = []
        for word in words:
            self.take(word)
            parts.append(self.expression())
        return parts

    def begins_atom(self):
        return self.kind() in ("text", "number") or self.sign() in ("(", "[") or (
            self.kind() == "name" and self.sign() not in KEYWORDS)

    def atom(self):
        """A name, a number, a text, a list, a tuple or a record, with the parts that are taken of it."""
        first, kind = self.here, self.kind()
        if not self.begins_atom():
            raise Unreadable(f"{self.sign()!r} begins nothing")
        word = self.take()
        if word == "record" and kind != "text":
            found = self.record(first)
        elif word == "(" and kind != "text":
            items = [self.expression()]
            while self.take(",", ")") == ",":
                items += [] if self.sign() == ")" else [self.expression()]
            found = self.node("tuple", first, items) if len(items) > 1 else items[0]
        elif word == "[" and kind != "text":
            self.take("]")
            found = self.node("nil", first)
        else:
            found = self.node(kind, first, READ.get(kind, str)(word))
        while self.kind() == "part":
            self.take()
            found = self.node("part", first, found, self.take())
        return found

    def record(self, first):
        """`record { name = value; }`, or one that is changed: `record x { .. }`."""
        base, fields = None if self.sign() == "{" else self.atom(), []
        self.take("{")
        while self.sign() != "}":
            name = self.take()
            self.take("=")
            fields.append((name, self.expression()))
            if self.sign() == ";":
                self.take()
        self.take("}")
        return self.node("record", first, base, fields)


class Function:
    """A definition by equations: its type, and its clauses, each with its patterns and the expression that it is
    then."""

    def __init__(self, type_, clauses):
        self.type, self.clauses = type_, clauses
        self.expressions = [body for _, body in clauses]
        self.count = len(clauses[0][0])
        last, before = type_.result()
        self.is_fact = last.head() == "Type"  # what it gives is a fact, or a type
        self.is_constant = not (before or self.is_fact)
        self.takes = before  # the types of its arguments


class Rule:
    """A rule of a data type: its bound names with their types, its premises, and of what it is then. A record has one,
    which binds its fields that are values, and whose premises are those that are facts."""

    def __init__(self, type_):
        self.bound, self.premises = {}, []
        while type_.kind in ("all", "→"):
            if type_.kind == "all":
                self.bound |= type_.parts[0]
            else:
                self.premises.append(type_.parts[0])
            type_ = type_.parts[1]
        self.result = type_


class Relation:
    """A record or a data type: its parameters, the types of all its arguments, its fields or rules with their types,
    and the rules."""

    def __init__(self, kind, parameters, indices, fields):
        self.is_data, self.fields, self.expressions = kind == "data", fields, [*fields.values()]
        self.parameters = explicit(parameters)
        self.takes = [*self.parameters.values(), *indices]
        self.count = len(self.takes)
        self.rules = [Rule(type_) for type_ in fields.values()]
        if not self.is_data:
            rule = Rule(Node("call", (Node("name", ("",)), [Node("name", (it,)) for it in self.parameters])))
            rule.bound = {name: type_ for name, type_ in fields.items() if type_.head() in OF_VALUES}
            rule.premises = [type_ for name, type_ in fields.items() if name not in rule.bound]
            self.rules = [rule]


class Module:
    """What a file defines: functions, relations, and constructors, each as how many arguments it takes; the texts of
    the definitions; and what the names mean that it imports: a module, and the name there or None."""

    def __init__(self, name, text):
        self.name, self.text, self.imports, self.names, self.texts = name, text, scope_of(text), {}, {}
        at = 0
        for one in definitions_in(None, text).values():
            self.texts[one.name] = one.text
            at = text.index("\n" + one.text, max(at - 1, 0)) + 1 if at or not text.startswith(one.text) else 0
            self.read(one, at)
            at += len(one.text)

    def read(self, one, at):
        """Reads a definition that begins here in the file."""
        text = one.text
        if not one.kind:
            starts = [text.index(" : ") + 3, *(it.end() for it in re.finditer(rf"(?m)^{one.name}(?=[ {{])", text))]
            ends = [*(it - len(one.name) for it in starts[1:]), len(text)]
            type_, *clauses = (Parser(text[start:end], at + start) for start, end in zip(starts, ends))
            self.names[one.name] = Function(type_.whole(), [self.clause(it) for it in clauses])
            return
        head, body = text[:text.index("where")], text.index("where") + 5
        parser = Parser(head[head.index(one.name) + len(one.name):])
        parameters = parser.binders()
        parser.take(":")
        starts = [*re.finditer(r"(?m)^  (?:pub )?(\w+) : ", text[body:]), None]
        fields = {}
        for start, following in zip(starts, starts[1:]):
            end = body + following.start() if following else len(text)
            fields[start[1]] = Parser(text[body + start.end():end], at + body + start.end()).whole()
        self.names[one.name] = Relation(one.kind, parameters, parser.expression().result()[1], fields)
        if one.kind == "data":
            self.names |= {name: len(type_.result()[1]) for name, type_ in fields.items()}

    @staticmethod
    def clause(parser):
        patterns = []
        while parser.sign() != "=":
            patterns.append(parser.atom())
        parser.take()
        return patterns, parser.whole()
