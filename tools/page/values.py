"""Values of definitions: texts, lists, pairs and records, some of them unknown; and the library's functions, which
compute them. For tools/page/evaluate.py.
"""

import functools
import itertools
import operator
import re

from definitions import Unreadable



class Stuck(Exception):
    """What is asked for needs an unknown to be known."""


# ---- values: numbers, tuples for lists and texts, and these


class Made:
    """What a constructor makes; a pair, whose constructor is ""; a record, whose constructor has its fields' names; a
    list with an unknown tail, whose constructor is "∷"; or a number above an unknown one, whose constructor is
    "suc"."""

    def __init__(self, name, *items):
        self.name, self.items, self.hash, self.is_complete, self.own = name, items, None, not items, None

    def __eq__(self, other):
        return self is other or isinstance(other, Made) and (self.name, self.items) == (other.name, other.items)

    def __hash__(self):
        if self.hash is None:
            self.hash = hash((self.name, self.items))
        return self.hash

    def of(self, *items):
        return Made(self.name, *items)

    def part(self, field):
        """A field of a record, or an item of a pair by its number."""
        if field not in (self.name or "01234"[:len(self.items)]):
            raise Unreadable(f"{shown(self)} has no part {field}")
        return resolved(self.items[self.name.index(field) if self.name else int(field)])


class Applied(Made):
    """A function of so many arguments, which has been given some; its name tells it from others."""

    def __init__(self, name, count, body, *given, own=None):
        super().__init__(name, *given)
        self.count, self.body, self.own = count, body, own or None

    def of(self, *items):
        return Applied(self.name, self.count, self.body, *items, own=self.own)

    def to(self, *arguments):
        """The function of some arguments, which may be fewer or more than it takes."""
        given = (*self.items, *arguments)
        if len(given) < self.count:
            return self.of(*given)
        result = self.body(*given[:self.count])
        return known(result).to(*given[self.count:]) if len(given) > self.count else result


class Goal(Made):
    """A fact to be shown. Its name is a function that gives the alternatives, of its items. An alternative is pairs of
    what has to be the same, and the goals that are left."""


class Unknown:
    """What is to be found, with the name of its type; its value, if it was found."""

    def __init__(self, type_=None):
        self.value, self.type = None, type_


NONE = Made("None")
GROWING = "∷", "suc"  # what is above an unknown
HOLDS, FAILS = [([], [])], []
TRAIL = []  # the unknowns that have a value, in the order in which they got it


def truth(value):
    return Made("true" if value else "false")


def is_true(value):
    return known(value).name == "true"


def record(**fields):
    names = tuple(sorted(fields))
    return Made(names, *(fields[name] for name in names))


def text(value):
    return tuple(value.encode())


def is_text(value):
    return isinstance(value, tuple) and value != () and isinstance(value[0], int)


def shown(value):
    """A value as a reader writes it."""
    value = resolved(value)
    if isinstance(value, tuple):
        return repr("".join(map(chr, value))) if is_text(value) else f"[{', '.join(map(shown, value))}]"
    if isinstance(value, Made):
        items = [shown(it) for it in value.items]
        if isinstance(value.name, tuple):
            return "{" + "; ".join(f"{name} = {it}" for name, it in zip(value.name, items)) + "}"
        return " ".join([value.name, *items]) if value.name else f"({', '.join(items)})"
    return "?" if isinstance(value, Unknown) else str(value)


def resolved(value):
    """A value, if it is known by now."""
    while value.__class__ is Unknown:
        if value.value is None:
            return value
        value = value.value
    if value.__class__ is Made and value.name in GROWING:
        last = resolved(value.items[-1])
        if value.name == "suc" and isinstance(last, int):
            return last + 1
        if value.name == "∷" and isinstance(last, tuple):
            return value.items[0], *last
    return value


def known(value):
    """A value whose constructor is known."""
    value = resolved(value)
    if value.__class__ is Unknown or value.__class__ is Made and value.name in GROWING:
        raise Stuck(value)
    return value


def complete(value):
    """A value without unknowns."""
    value = resolved(value)
    if isinstance(value, Unknown):
        raise Stuck(value)
    if isinstance(value, tuple):
        return value if not value or isinstance(value[0], int) else tuple(map(complete, value))
    if isinstance(value, Made) and not value.is_complete:
        items = tuple(map(complete, value.items))
        if any(one is not other for one, other in zip(items, value.items)):
            value = value.of(*items)
        value.is_complete = True
    return value


def is_own(value):
    """Whether a complete value has a function that isn't as in the page that was changed."""
    if isinstance(value, Made):
        if value.own is None:
            value.own = any(map(is_own, value.items))
        return value.own
    return isinstance(value, tuple) and not is_text(value) and any(map(is_own, value))


def unknowns_in(value):
    """The unknowns of values, goals and names with their values, in their order."""
    value = resolved(value)
    if isinstance(value, Unknown):
        yield value
    elif isinstance(value, (Made, dict, tuple)) and not is_text(value):
        for it in value.items if isinstance(value, Made) else value.values() if isinstance(value, dict) else value:
            yield from unknowns_in(it)


def unify(one, other):
    """Whether two values can be the same; it binds what has to be for that."""
    one, other = resolved(one), resolved(other)
    if not isinstance(one, Unknown) and (isinstance(other, Unknown) or getattr(other, "name", "") in ("∷", "suc")):
        one, other = other, one
    if one is other:
        return True
    if isinstance(one, Unknown):
        one.value = other
        TRAIL.append(one)
        return True
    if isinstance(one, tuple) and isinstance(other, tuple):
        return one == other or len(one) == len(other) and all(map(unify, one, other))
    if not isinstance(one, Made):
        return one == other
    if one.name == "∷" and isinstance(other, tuple):
        return other != () and unify(one.items[0], other[0]) and unify(one.items[1], other[1:])
    if one.name == "suc" and isinstance(other, int):
        return other > 0 and unify(one.items[0], other - 1)
    return isinstance(other, Made) and one.name == other.name and unify(one.items, other.items)


def forget(mark):
    """Takes back what was bound since the trail was so long."""
    while len(TRAIL) > mark:
        TRAIL.pop().value = None


# ---- the library


def compare(one, other):
    return Made("Less" if one < other else "Greater" if one > other else "Equal")


def compare_lists(order, one, other):
    """The order of lists by that of their elements; a list comes after those that begin it."""
    if order.name == ("nat_cmp",):
        return compare(complete(one), complete(other))
    orders = (known(order.to(*it)) for it in zip(one, other))
    return next((it for it in orders if it.name != "Equal"), None) or compare(len(one), len(other))


def then_compare(one, other, a, b):
    found = known(one.to(a, b))
    return found if found.name != "Equal" else other.to(a, b)


def prepended(one, other):
    tail = resolved(other)
    return (one, *tail) if isinstance(tail, tuple) else Made("∷", one, tail)


def on_known(body, *given):
    return body(*map(known, given))


def numbers_of(whole):
    """The number of which this is the decimal text."""
    return [int(bytes(whole))] if re.fullmatch(b"0|[1-9][0-9]*", bytes(whole)) else []


def pieces_of(whole, byte):
    """The lists of texts that are this one with a byte between each two."""
    pieces = [tuple(it) for it in bytes(whole).split(bytes([byte]))]
    for ends in itertools.product((False, True), repeat=len(pieces) - 1):
        found = [pieces[:1]]
        for is_end, piece in zip(ends, pieces[1:]):
            found[len(found) - (not is_end):] = [[piece] if is_end else [*found[-1], piece]]
        yield tuple(tuple(bytes([byte]).join(map(bytes, it))) for it in found)
    if not whole:
        yield ()


# functions that an equation is solved for
INVERSE = {"decimal": numbers_of, "join_with_byte": pieces_of}
# operators that compute a value of two
JOINED = {"∷": prepended} | {sign: functools.partial(on_known, body) for sign, body in {
    "==": lambda one, other: truth(one == other), "-": lambda one, other: max(one - other, 0), "+": operator.add,
    "++": operator.add, "*": operator.mul, "/": operator.floordiv, "%": operator.mod, "^": operator.pow}.items()}


def contains(xs, x):
    """An alternative for each element of a list."""
    return [([(x, it)], []) for it in dict.fromkeys(known(xs))]


def is_distinct(equal, xs):
    pairs = itertools.combinations(complete(xs), 2)
    return FAILS if any(is_true(equal.to(*it)) for it in pairs) else HOLDS


def all_pairs(relation, xs):
    return [([], [relation.to(*it) for it in itertools.combinations(complete(xs), 2)])]


def all_by_recursion(relation, xs):
    return [([], [relation.to(it) for it in complete(xs)])]


def is_less(order, one, other):
    return Goal(lambda *it: [([(order.to(*it), Made("Less"))], [])], one, other)


def is_sorted(order, xs):
    """That each element of a list is less than those after it."""
    return Goal(all_pairs, Applied(("is_less", order), 2, functools.partial(is_less, order)), xs)


def are_equal(equal, one, other):
    """Whether two lists have equal elements."""
    return truth(len(one) == len(other) and all(is_true(equal.to(*it)) for it in zip(one, other)))


def split(test, xs):
    """The pieces between the elements that pass a test."""
    found = [()]
    for it in xs:
        found[len(found) - (not is_true(test.to(it))):] = [()] if is_true(test.to(it)) else [(*found[-1], it)]
    return tuple(found)


def count_while(test, xs):
    return len([*itertools.takewhile(lambda it: is_true(test.to(it)), xs)])


def is_utf8(xs):
    try:
        return truth(bytes(xs).decode() is not None)
    except ValueError:
        return truth(False)


def in_range(*ends):
    """Whether a byte is in one of these ranges."""
    return lambda byte: truth(any(low <= chr(byte) <= high for low, high in ends))


# the library's constructors, with how many arguments they take
CONSTRUCTORS = {"true": 0, "false": 0, "None": 0, "Some": 1, "Ok": 1, "Err": 1, "Less": 0, "Equal": 0, "Greater": 0,
                "suc": 1}
DIGITS = {ord(it): int(it, 36) for it in "0123456789abcdefghijklmnopqrstuvwxyzABCDEFGHIJKLMNOPQRSTUVWXYZ"}
BUILT = {name: (count, functools.partial(on_known, body)) for name, count, body in [
    ("bytes_eq", 2, lambda a, b: truth(complete(a) == complete(b))),
    ("pointwise", 3, are_equal),
    ("zero", 0, lambda: 0),
    ("nat_eq", 2, lambda a, b: truth(a == b)),
    ("nat_lt", 2, lambda a, b: truth(a < b)),
    ("nat_le", 2, lambda a, b: truth(a <= b)),
    ("nat_cmp", 2, compare),
    ("slice_cmp", 3, compare_lists),
    ("then_cmp", 4, then_compare),
    ("on", 4, lambda f, order, a, b: order.to(f.to(a), f.to(b))),
    ("ordering_then", 2, lambda a, b: b if a.name == "Equal" else a),
    ("is_gt", 1, lambda a: truth(a.name == "Greater")),
    ("not", 1, lambda a: truth(a.name == "false")),
    ("is_lt", 1, lambda a: truth(a.name == "Less")),
    ("map", 2, lambda f, xs: tuple(f.to(it) for it in xs)),
    ("flat_map", 2, lambda f, xs: tuple(y for x in xs for y in known(f.to(x)))),
    ("filter", 2, lambda f, xs: tuple(it for it in xs if is_true(f.to(it)))),
    ("find", 2, lambda f, xs: next((Made("Some", it) for it in xs if is_true(f.to(it))), NONE)),
    ("filter_map", 2, lambda f, xs: tuple(y for x in xs for y in known(f.to(x)).items)),
    ("fold", 3, lambda f, a, xs: functools.reduce(lambda it, x: f.to(it, x), xs, a)),
    ("before_first", 2, lambda f, xs: split(f, xs)[0]),
    ("after_first", 2, lambda f, xs: xs[len(split(f, xs)[0]) + 1:]),
    ("take_while", 2, lambda f, xs: xs[:count_while(f, xs)]),
    ("prefix_len", 2, count_while),
    ("suffix_len", 2, lambda f, xs: count_while(f, xs[::-1])),
    ("position_or_len", 2, lambda f, xs: len(split(f, xs)[0])),
    ("slice_split", 2, split),
    ("starts_with", 3, lambda equal, xs, ys: are_equal(equal, ys, xs[:len(ys)])),
    ("ends_with", 3, lambda equal, xs, ys: are_equal(equal, ys, xs[max(len(xs) - len(ys), 0):])),
    ("join_with_byte", 2, lambda b, xs: tuple(bytes([b]).join(map(bytes, complete(xs))))),
    ("list_any", 2, lambda f, xs: truth(any(is_true(f.to(it)) for it in xs))),
    ("list_all", 2, lambda f, xs: truth(all(is_true(f.to(it)) for it in xs))),
    ("length", 1, len),
    ("take", 2, lambda n, xs: xs[:n]),
    ("drop", 2, lambda n, xs: xs[n:]),
    ("slice_index", 2, lambda xs, at: xs[at] if at < len(xs) else 0),
    ("option_map", 2, lambda f, a: Made("Some", f.to(*a.items)) if a.items else a),
    ("option_or", 2, lambda a, b: a if a.items else b),
    ("option_and_then", 2, lambda f, a: f.to(*a.items) if a.items else a),
    ("option_map_or", 3, lambda f, a, b: f.to(*a.items) if a.items else b),
    ("option_to_list", 1, lambda a: a.items),
    ("unwrap_or", 2, lambda a, b: a.items[0] if a.items else b),
    ("result_unwrap_or", 2, lambda a, b: a.items[0] if a.name == "Ok" else b),
    ("is_none", 1, lambda a: truth(not a.items)),
    ("is_some", 1, lambda a: truth(a.items)),
    ("decimal", 1, lambda n: text(str(n))),
    ("digits_value", 2, lambda radix, xs: functools.reduce(lambda n, b: n * radix + DIGITS.get(b, 36), xs, 0)),
    ("is_utf8", 1, is_utf8),
    ("is_in_range", 3, lambda low, high, b: truth(low <= b <= high)),
    ("is_ascii_lowercase", 1, in_range("az")),
    ("is_ascii_uppercase", 1, in_range("AZ")),
    ("is_ascii_digit", 1, in_range("09")),
    ("is_ascii_alphanumeric", 1, in_range("09", "AZ", "az")),
    ("to_ascii_lowercase", 1, lambda b: b + 32 if 65 <= b <= 90 else b),
]}
BUILT |= {name: (2, functools.partial(Goal, alternatives)) for name, alternatives in [
    ("Contains", contains), ("IsDistinct", is_distinct), ("AllPairs", all_pairs), ("AllByRecursion", all_by_recursion)]}
BUILT |= {"IsStrictlySortedBy": (2, is_sorted), "suc": (1, lambda n: resolved(Made("suc", n)))}
BUILT |= {"⊤": (0, lambda: Goal(lambda: HOLDS)), "⊥": (0, lambda: Goal(lambda: FAILS))}
