"""Checks what no contract says of a body, for tools/check/documents.py: that it reaches the system as it should, and
makes up no want of memory.

What a function does with real files, words and streams is in no clause, and a body that answers "no memory" meets any
contract. So each function of the libraries and of the program has a row in tools/check/bodies.txt if it

    system    names what reaches outside, by itself or in the head of its `impl`
    memory    names a value such as `NoMemory`, other than in an arm that was given one
    room      asks for room, other than for a length or a small number; so do those that call one that takes a number
    loop      has a `while`, a `loop` or a `for` over a range without a length, and after it a call that may refuse
    call      calls what may refuse and is neither the product's nor known, or has no end; or formats with a width
    turns     in gm_graph_cache, lends what a vertex requires, or appends its turn; in gm_graph, asks it by name

with a checksum of the head of its `impl`, its text, and what it names of its file that gives a number: constants and
functions. Who changes one does what the reason in its row says, and writes the checksum anew. Other items that reach
the system, and other names of what does or of such a value, are told, too.
"""

import collections
import pathlib
import re

from script import checksum
from sources import CRATES, code_of, functions, items_of, paths_of, product_files

LIST, KIND = pathlib.Path("tools/check/bodies.txt"), "bodies that no contract speaks of"
# what reaches nothing outside the program, and what does without being imported
INSIDE = re.compile(
    r"std::(?:alloc|collections|fmt|hash|mem|str)(?:::|$)|std::borrow::CowStr|std::cmp::Ordering|std::env::FillError"
    r"|std::marker::(?:Model|PhantomData)|std::rc::Rc|std::snapshot::Snapshot")
OUTSIDE = {"HostRuntime", "extern", "print", "println", "eprint", "eprintln", "dbg"}
FULL_PATH = re.compile(r"\b(?:std|rt|core|alloc)(?:::\w+)+")
NO_CODE = re.compile(r"\"(?:\\.|[^\"\\])*\"|b?'(?:\\[^\n]{1,8}?|[^\\\n])'", re.S)
NO_MEMORY = r"\b(?:NoMemory|AllocError|AllocFailed|OutOfMemory|Memory)\b"
GIVEN = rf"(?:Err\()?(?:\w+::)*{NO_MEMORY}\)?"
# what asks for room, and what may be given to it: allocators, borrows, values, lengths and small numbers
ROOM = r"(?:try_)?(?:reserve(?:_exact)?|resize(?:_with)?|with_capacity|from_elem)"
LENGTH = r"(?:(?:[\w.]+\.(?:len|count|\w+_count)\(\))(?: \+ \d{1,3})?|\d{1,3})"
GIFT = rf"(?:&(?:mut )?[\w.]+|(?:\w+\.)?alloc|[A-Z]\w*::(?:new|none|in_source)\([^()]*\)|{LENGTH})"
LIST_OF = rf"\bvec!\[(?!in alloc; [^;\]]*(?:; {LENGTH})?\])"
GROWS = {"push", "push_str", "extend_from_slice", "insert", "write_str", "append"}
# calls of std that may refuse, or answer None; each takes no more than what it is given has
KNOWN = GROWS | {
    "as_ref", "clone", "encode_string", "from_slice", "from_str", "from_utf8", "into_owned", "osa_distance",
    "split_first", "split_once", "strip_prefix", "strip_suffix", "to_ascii_lowercase", "to_string",
    "try_push_str", "vec", "format"}
ARGUMENTS = r"[^()]*"
for _ in range(9):
    ARGUMENTS = rf"(?:[^()]|\({ARGUMENTS}\))*"
MAY_REFUSE = re.compile(rf"(?<!fn )(?<!\w)([a-z]\w*)!?\((?=(?:\w+\.)?alloc(?:\(\))?[,)]"
                        rf"|{ARGUMENTS}\)\s*(?:\?|\.(?:is_err|is_ok|ok|map_err|expect)\b))")
ENDLESS = re.compile(r"\b(?:cycle|repeat\w*|from_fn|successors)\(|\.(?:extend|collect)\("
                     r"|(?:(?!\w+::MAX\b)[A-Z]\w*|\])::[a-z]\w*\b(?![\w(:<])")
WIDTH = re.compile(r"\b(?:format|write|writeln)!\((?:[^\"]*)\"[^\"]*\{\w*:[^}\"]*(?:\$|\*|\d\d)")
LOOP = re.compile(rf"\b(?:while\b|loop\b|for [^{{;]*\.\.(?![^{{;]*len\(\)))"
                  rf".*?(?:\)\?|\.(?:{'|'.join(GROWS)})\()", re.S)
TURNS = {"gm_graph_cache": re.compile(r"\bLent(?:::at\(| \{)|(?:(?<!names)\.|History::)with\(|\blend_at\("),
         "gm_graph": re.compile(r"\b(?:known|lend)\(")}


class Body:
    """A function with a body: its file, its name, and its text without what strings say."""

    def __init__(self, path, one, block):
        self.file, self.head, self.raw = str(path.relative_to(CRATES)), one.head, one.text[len(one.head):]
        self.name, self.crate = one.name, path.parts[1]
        self.call = ("", f"{block.name}::new") if one.name == "new" else (self.crate, one.name)
        self.whole = (block.text.partition("{")[0] if block else "") + " " + one.text
        self.is_from_memory = bool(block and re.match(r"From<Alloc", block.trait))
        self.text = NO_CODE.sub('""', self.raw)

    def checksum(self, numbers):
        """That of its text, and of what it names that gives a number."""
        found, left = {}, [self.whole]
        while left:
            more = set(re.findall(r"(?<![.\w])[A-Za-z_]\w*", left.pop())) & set(numbers) - {self.name, *found}
            found |= {name: numbers[name] for name in more}
            left += map(numbers.get, more)
        return checksum(self.whole + "".join(found[it] for it in sorted(found)))

    def asks_for_room(self, calls):
        """Whether it asks, itself or by one of these calls, for more than a length."""
        names = "|".join([ROOM, *(name for crate, name in calls if crate in ("", self.crate))])
        # what it made itself may have any length
        made = "|".join(re.findall(r"\blet (?:mut )?(\w+)", self.text)) or "\0"
        text = re.sub(rf"(?<![\w.])(?:{made})\.", "made().", self.text)
        return re.search(rf"\b(?:{names})\((?!\s*(?:{GIFT}(?:,\s*|(?=\))))*\))|{LIST_OF}", text)

    def kinds(self, names, own, calls):
        """Why it has to have a row, given what its file imports, the product's functions, and what asks for room."""
        arms = re.sub(rf"{GIVEN} => {GIVEN}", "", self.text)
        refusing = set(MAY_REFUSE.findall(self.text)) - own - KNOWN
        return [kind for kind, is_so in (
            ("system", reaches(self.whole, names)),
            ("memory", re.search(rf"{NO_MEMORY}(?!\s*(?:::from\b|>))", arms) and not self.is_from_memory),
            ("room", self.asks_for_room(calls)),
            ("loop", LOOP.search(self.text)),
            ("call", ENDLESS.search(self.text) or WIDTH.search(self.raw)
             or any(not re.fullmatch(ROOM, it) for it in refusing)),
            ("turns", self.crate in TURNS and TURNS[self.crate].search(self.text))) if is_so]


def reaches(text, names):
    """Whether a text names what reaches the system."""
    text = NO_CODE.sub('""', text)
    return bool(set(re.findall(r"(?<![.\w])\w+", text)) & (names | OUTSIDE)) or any(
        not INSIDE.match(it) for it in FULL_PATH.findall(text))


def imported(text):
    """The path of each name that a text imports, and the names that reach the system."""
    paths = {own: "::".join(it) for own, it in paths_of(text).items()}
    return paths, {own for own, it in paths.items()
                   if it.split("::")[0] in ("std", "rt", "core") and not INSIDE.match(it)}


def other_items(file, text):
    """What else of a file reaches the system, or names a want of memory."""
    (paths, names), rest = imported(text), text
    for one in items_of(text):
        rest = rest.replace(one.text, "", 1)
        if one.kind in ("const", "static", "mod") and (reaches(one.text, names) or re.search(NO_MEMORY, one.text)):
            yield f"item {file} {one.name}"
        if one.kind == "use" and one.visibility == "pub" and reaches(re.sub(r"\buse\b", "", one.text), names):
            yield f"item {file} pub use"
    if reaches(rest, names) or re.search(NO_MEMORY, rest):
        yield f"item {file} macro"
    for own, it in paths.items():
        if own == "*" or own != it.rpartition("::")[2] and re.search(NO_MEMORY, it):
            yield f"item {file} {own} for {it}"


def rows():
    """What the sources ask for a row of, in order."""
    texts = {path: code_of(path) for path in product_files("src/**/*.rt")}
    by_file = {path: [Body(path, *it) for it in functions(text) if not it[0].text.endswith(";")]
               for path, text in texts.items()}
    bodies = [it for those in by_file.values() for it in those]
    own, calls, known = set(re.findall(r"\bfn (\w+)", "\n".join(texts.values()))), set(), None
    while calls != known:
        known, calls = calls, {it.call for it in bodies if ": usize" in it.head and it.asks_for_room(calls)}
    for path, those in by_file.items():
        yield from other_items(str(path.relative_to(CRATES)), texts[path])
        numbers = dict(re.findall(r"\bconst (\w+): \w+ = ([^;]*);", texts[path]))
        numbers |= {it.name: it.text for it in those if re.search(r"-> [^{]*\busize\b", it.head)}
        for it in those:
            if kinds := it.kinds(imported(texts[path])[1], own, calls):
                yield f"{','.join(kinds)} {it.file} {it.name} {it.checksum(numbers)}"


def keep(tally):
    """Compares both sides."""
    made = collections.Counter(rows())
    there = collections.Counter(re.findall(r"(?m)^([^#\s].*): ", LIST.read_text()))
    tally[KIND, True] += (made & there).total()
    for row in (made - there).elements():
        tally.tell(KIND, False, f"{LIST} hasn't what the sources have: {row}")
    for row in (there - made).elements():
        tally.tell(KIND, False, f"the sources haven't what {LIST} has: {row}")
