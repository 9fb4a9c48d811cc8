"""Texts with one odd character, word or line for tools/go/compare_go.py, each from its number alone, and a reader of
them that is go or gomod, but for one row of docs/use/GO.md, in which it may be the other. A text shows a row if go and
gomod
read it differently, and one of them another way with that row."""
import collections
import random
import re
import string

import go_rows as rows
from go_worlds import (
    BIG, BYTES, SPACES, fits, goes_with, has_major, hash_of, is_big, is_fetchable, is_import_path, is_path, is_pseudo,
    latest_of, must_quote, order_of, whole
)

CHARACTERS = [  # marks, controls, blanks, blanks past ASCII, letters, those that don't print, those not UTF-8
    string.punctuation, "\1\b\x0e\x1b\x1c\x1f\x7f\f\v", " \t\r", SPACES[6:], "\xe9\u4e16\U0001f600\ufffd\u0301",
    "\xad\x80\x9f\u0378\u200b\u200d\u202e\u2060\ue000\ufeff\uffff\U000f0000\U0010ffff", "\udcff\udce9\udc80",
]
WORDS = {  # by the pattern of a word that they stand for
    "h1:": [hash_of(""), "h1:" + "B" * 43 + "=", "h2:x"],
    r"\.+/": "./ ../ ./x/ ./x//y ./it's ./x,y ./x(y ./x=>y =>y ./x=y ./x@v1.0.0 .\\x ./x/../y . .. x:y".split(),
    r"v\d": "v1.0.0 v1.1.0 v2.0.0 v0.0.0 v1 v1.2 1.0.0 latest v01.0.0 v1.0.0- v1.0.0-01 v1.0.0.0 "
    f"v1.0.0+incompatible v2.0.0+incompatible v1.0.0+meta v1.{BIG}.0 v1.{BIG // 2}.0 v1.0.0-0.20200101000000-ab "
    "v0.0.0-20200101000000-ab v1.0.1-0.20200101000000-a v1.2.3-rc.0.20209999999999-ab".split(),
    r"\d": "1.17 1.21 1 1.016 v1.16 1.17.1 1.21rc1 1.9999999999 1.17\xe9".split(),
    r".*\.": [f"example.com/m{it}" for it in " /v1 /v2 /v02 /v2.1 /v ~1 . / +b".split(" ")]
    + [f"gopkg.in/foo{it}" for it in ("", ".v1", ".v2-unstable")]
    + "v2 a -a/b .a/b /a con a.b/aux.x a.b/com0 a.b/c.d~1 A.b/c 1.2/a a+b".split(),
    "": "module go require exclude replace retract toolchain droprequire foo => x".split(),
}
MORE = ["x", '"x"', "`x`", "'x'", "v1.0.0", *"()[],{}", "=>", "// x", "/* x */", '"x, "`x', '"\\x61"', "\udcff",
        "x\u200b"]
LINES = [
    "(", "foo (\n\t(\n)", "foo x (\n)", ")", ") x", "go (\n\t1.17\n)", "go ()", "foo (",
    "toolchain go1.21.1", "retract v1.1.0 extra", "retract [v1.0.0, v1.1.0] x", "retract v1.1.0,",
    "retract v1.1", "retract v2.0.0", "replace a.b/c => example.com/c v2.0.0", "replace example.com/r => ./x",
    "require example.com/b v1.0", "module example.com/x", "foo \udcff", "\udcff",
    "// x \udcff",
]
FILES = {it: f"module example.com/{it}\n" for it in "abrp"}
FILES["a"] += "require example.com/b v1.0.0\n"
MAIN = ("module example.com/m\n\ngo 1.16\n\nrequire (\n\texample.com/a v1.0.0\n\texample.com/r v1.0.0\n)\n\n"
        "exclude example.com/c v1.0.0\n\nreplace example.com/r => ./r\n\nretract v1.1.0\n")
OTHER = ("module example.com/%s\n\ngo 1.16\n\nrequire example.com/b v1.0.0\n\nexclude example.com/c v1.0.0\n\n"
         "replace example.com/b => ./b\n\nretract v1.0.0\n\nfoo x\n")
OPERATIONS = ["module=example.com/x", "go=1.17", "require=example.com/b@v1.0.0", "droprequire=example.com/a",
              "exclude=example.com/b@v1.0.0", "dropexclude=example.com/c@v1.0.0", "replace=example.com/a=./x",
              "replace=example.com/a@v1.0.0=example.com/z@v1.0.0", "dropreplace=example.com/r", "retract=v1.5.0",
              "retract=[v1.5.0,v1.6.0]", "dropretract=v1.1.0"]
OTHERS = {"dependency": "a", "folder": "r", "latest": "p"}  # whose files
ODD = {  # texts, and lines more
    "main": ([MAIN], LINES),
    **{place: ([OTHER % name], LINES) for place, name in OTHERS.items()},
    "list": (["v1.0.0\nv1.1.0\nv1.2.0-rc.1\n"], ["v1.3.0 x", "", "v1.1.0", "\udcff", "v1.3.0 \udcff"]),
    "sum": (["".join(f"example.com/{it} v1.0.0/go.mod {hash_of(FILES[it])}\n" for it in "ab")],
            [*(f"example.com/{name} v1.0.0/go.mod {it}" for it in WORDS["h1:"] for name in "ab"),
             "a b", "a b c d", "a b \udcff", "\x85", "\f", " "]),
    "operation": (OPERATIONS, ["@v1.0.0", "=./x", ",v1.0.0", "=", "@", " ", "]"]),
}
Text = collections.namedtuple("Text", "place text")


def odd(some, texts, lines):
    """A text with an odd character or word, or one less or more."""
    text, way = some.choice(texts), some.choice(["character"] * 3 + ["word"] * 4 + ["line"] * 2 + ["more", "less"])
    if way == "line":
        line, at = some.choice(lines), some.choice([0, len(text)])
        return text + line if text in OPERATIONS else f"{text[:at]}{line}\n{text[at:]}"
    spans = collections.defaultdict(list)
    for it in re.finditer(r"=>|[ =@,\[\]]|[^\s=@,()\[\]]+", text):
        spans[next(kind for kind in WORDS if re.match(kind, it[0]))].append(it.span())
    kind = some.choice(list(spans))
    at, end = some.choice(spans[kind])
    word = text[at:end]
    if way == "character":
        word = odd_word(some, word, text[end:end + 1] == "\n")
    elif way == "word":
        word = some.choice(WORDS[kind])
    else:
        word = "" if way == "less" else f"{word} {some.choice(MORE)}"
    return text[:at] + word + text[end:]


def odd_word(some, word, is_last):
    """A word with an odd character, bare, in quotes, or, if it is the last of its line, in a comment."""
    piece, at = some.choice(some.choice(CHARACTERS)), some.choice([0, len(word) // 2, len(word)])
    odd, after = word[:at] + piece + word[at:], [f"{word} {piece}", f"{word} // {piece}"]
    quoted = [f'"{odd}"', f"`{odd}`"] if piece not in '"\\`' else []
    return some.choice([odd] * 5 + quoted + after[:1 + is_last])


def make(number):
    some = random.Random(number)
    place = some.choice([*ODD, "main", "operation", "operation"])
    return Text(place, odd(some, *ODD[place]))


KNOWN, NEWER = "module go require exclude replace retract".split(), "toolchain godebug tool ignore".split()
MARKS = r"[()\[\]{},]"
TOKEN = r"""[ \t\r]+|//.*|("[^"]*"|`[^`]*`)|(%s)|((?!["`])(?:(?!//|/\*)[^ \t\r()\[\]{},])+)|(.)"""
SHOWN = ["v1.0.0", "v1.1.0"]


class Refused(Exception):
    """A fault, by gomod's name."""


class Reader:
    """What is read of a text: the value, or None and the fault's kind; the rows asked about; what to lay."""

    def __init__(self, it, is_go, but=None):
        self.is_go, self.but, self.place = is_go, but, it.place
        self.is_lax, self.is_edit = it.place in OTHERS, it.place == "operation"
        self.value, self.kind, self.asked, self.pairs, self.folders, self.once = None, "", set(), [], [], {}
        reads = {"list": self.listed, "sum": self.sums, "operation": self.operation}
        try:
            self.value = reads.get(it.place, self.module)(it.text)
        except Refused as fault:
            self.kind = re.sub("^Bad.*", "Spelling", str(fault)) if self.is_edit else str(fault)

    def goes(self, row):
        """Whether it is go in what a row is about."""
        self.asked.add(row)
        return self.is_go != (row == self.but)

    def check(self, is_right, kind="", row=None):
        """Refuses a fault, which is none to go if a row is named."""
        if not is_right and not (row and self.goes(row)):
            raise Refused(kind)

    def only_go(self, is_right, row):
        """Refuses what is a fault to go alone."""
        if not is_right and self.goes(row):
            raise Refused

    def words(self, line):
        """The words of a line, as they are spelled."""
        found, marks = [], MARKS if self.goes(rows.APOSTROPHE) else f"=>|{MARKS}"
        for quoted, mark, bare, wrong in re.findall(TOKEN % marks, line, re.S):
            self.check(not wrong and not re.search("[\0-\x1f\x7f]", bare))
            self.check(mark not in ("{", "}") and not re.search('["`]', bare), "BadByte", rows.PROFILE)
            self.check(quoted[:1] == "`" or "\\" not in quoted, "BadEscape", rows.PROFILE)
            self.only_go(re.sub(BYTES, "\ufffd", bare).isprintable(), rows.HIDDEN)
            found += filter(None, [quoted + mark + bare])
        return found

    def entries(self, text):
        """The verb and the words of each directive; None for them where a block opens."""
        self.check(not re.search(BYTES, text), "NotUtf8", rows.NOT_UTF8)
        verb = ""
        for words in list(filter(None, map(self.words, text.split("\n")))):
            is_opening = words[-1] == "(" and not verb and len(words) > 1
            is_plain = is_opening and len(words) == 2 and not re.match(f'["`]|{MARKS}', words[0])
            self.check(words[-1] != "(" or is_plain, "NestedOpen", rows.PROFILE)
            self.check(words[0] != ")" or verb and len(words) == 1, "StrayClose", not verb and rows.CLOSES)
            if is_opening or not verb and words[1:] == ["(", ")"]:
                verb = " ".join(words[:-1]) if is_opening else ""
                yield verb or words[0], None
            elif verb and words == [")"]:
                verb = ""
            elif verb != "go":
                yield (verb, words) if verb else (words[0], words[1:])
        self.check(not verb)

    def text_of(self, word):
        """What a word stands for."""
        if word[0] == '"':
            return re.sub(BYTES, "\ufffd", word[1:-1]).replace(r"\x61", "a")
        self.only_go(word[0] != "`", rows.GRAVE)
        if word[0] == "`":
            return word[1:-1]
        self.check(not re.search(f'["`]|^{MARKS}|^=>$', word))
        self.only_go("'" not in word, rows.APOSTROPHE)
        return word

    def module(self, text):
        """What a go.mod says: of the latest version, the versions that it shows."""
        retractions = []
        for verb, words in list(self.entries(text)):
            self.check(self.is_lax or verb in KNOWN + NEWER)
            self.only_go(self.is_lax or verb in KNOWN, rows.NEWER)
            if words is None:
                self.check(verb != "go", "WrongArguments", self.is_lax and rows.BLOCK)
            elif verb == "retract":
                try:
                    retractions.append(self.retraction(words))
                except Refused:
                    self.check(self.is_lax)
            elif verb in ("module", "go"):
                self.check(len(words) == 1 and verb not in self.once)
                self.once[verb] = self.go_version(words[0], rows.TO_GOMOD) if verb == "go" else self.text_of(words[0])
            elif verb == "require" or verb == "exclude" and not self.is_lax:
                self.require(words, verb == "require" and self.place != "latest")
            elif verb == "replace" and not self.is_lax:
                self.replace(words)
        path = self.once.get("module", "example.com/p")
        self.check("module" in self.once or self.place in ("folder", "latest"))
        self.check(self.place != "dependency" or path == "example.com/a")
        self.path(path, not self.is_lax, False)
        for end in () if self.is_lax else sum(retractions, ()):
            self.check(has_major(path))
            self.only_go(goes_with(path, end), rows.UNFIT)
        if self.place != "latest":
            return "read"
        places = [[order_of(whole(end)) if whole(end) else () for end in ends] for ends in retractions]
        return str([it for it in SHOWN if not any(low <= order_of(it) <= high for low, high in places)])

    def require(self, words, is_asked_for):
        self.check(len(words) == 2)
        path, version = map(self.text_of, words)
        self.check(is_path(path) and is_fetchable(path) or not is_asked_for)
        self.pairs.append((self.path(path), self.version(version, path)))

    def replace(self, words):
        """Checks a replacement."""
        arrow = words.index("=>") if "=>" in words else 0
        self.check(arrow in (1, 2) and len(words) - arrow in (2, 3))
        left, right = list(map(self.text_of, words[:arrow])), list(map(self.text_of, words[arrow + 1:]))
        self.path(left[0])
        for version in left[1:]:
            self.version(version, left[0])
        self.check(self.is_folder(right[0]) == (len(right) == 1))
        if len(right) == 1:
            self.only_go("\\" not in right[0], "Windows")
            self.check(right[0][0] != "/")
            self.check(not re.search(r"[^./]/\.\./", right[0]), "Missing", rows.DOTS)
            self.folders += right
        else:
            self.pairs.append((self.path(right[0]), self.version(right[1])))
            self.only_go(goes_with(*self.pairs[-1]), rows.UNFIT)
        self.check(self.once.setdefault(("replace", *left), right) == right)

    def retraction(self, words):
        """The ends of a retraction."""
        is_interval = len(words) > 4 and words[0] + words[2] + words[4] == "[,]"
        ends, more = ([words[1], words[3]], words[5:]) if is_interval else (words[:1] * 2, words[1:])
        self.check(ends)
        ends = tuple(map(self.text_of, ends))
        self.check(not more, "", self.is_lax and rows.RETRACTED)
        for it in () if self.is_lax and self.goes(rows.RETRACTED) else ends:
            self.version(it)
        return ends

    def path(self, text, is_own=False, has_end=True):
        """A path. go checks those of the main module and of operations as paths of imports, of others the end alone."""
        is_import = is_own or self.is_edit
        self.check(is_import_path(text.lstrip("-")) if is_import else has_major(text) or not has_end, "BadPath")
        self.only_go(not is_import or text[:1] != "-", rows.DASH)
        self.check(is_path(text), "BadPath", rows.NO_PATH if self.is_edit else rows.PATHS)
        return text

    def version(self, text, path=""):
        """A version, which has to fit the path, if there is one."""
        full = whole(text)
        self.check(not must_quote(text) if self.is_edit else full, "BadVersion")
        self.check(full == text, "BadVersion", self.place != "main" and rows.NOT_CANONICAL)
        if full:
            self.check(not is_big(full), "BadVersion", rows.PROFILE)
        if full and path:
            known = rows.INCOMPATIBLE if goes_with(path, full) else self.is_edit and rows.MISFIT
            self.check(fits(path, full), "Misfit", known)
        return text if self.is_edit else full

    def go_version(self, text, row):
        """A go version."""
        is_go, number = self.goes(row), r"(0|[1-9]\d%s)" % ("*" if self.goes(rows.BLOCK) else "{0,8}")
        first = rf"(?!0){number}\.{number}"
        if self.is_lax:
            form = rf"{first}|v?{first}\D.*" + f"|v{first}" * (not is_go)
        else:
            form = first + rf"(\.{number})?([a-z]+\d+)?" * (not is_go)
        self.check(re.fullmatch(form, text if is_go or self.is_edit else self.text_of(text), re.A), "BadGo")
        return text

    def is_folder(self, text):
        self.only_go(text not in (".", ".."), rows.DOTS)
        return re.match(r"\.{0,2}/|\.\.?\Z", text) is not None

    def fields(self, line):
        return re.findall(f"[^{SPACES}]+" if self.goes(rows.BLANKS) else "[^ \t\r]+", line)

    def listed(self, text):
        """The versions that a list has."""
        found = []
        for version in (words[0] for words in map(self.fields, text.split("\n")) if words):
            is_listed = whole(version) and not is_pseudo(version, self.goes(rows.PSEUDO))
            if is_listed and (not is_big(version) or self.goes(rows.PROFILE)):
                if fits("example.com/p", version) or self.goes(rows.MISFITS):
                    self.pairs.append(("example.com/p", version))
                    found += [version] * (version not in found or self.goes(rows.TWICE))
        latest = latest_of(found) or "v1.0.0"
        self.check(whole(latest) == latest)
        return str(sorted(found))

    def sums(self, text):
        """Whether a go.sum has what is needed."""
        hashes = collections.defaultdict(list)
        for line in text.split("\n"):
            fields = self.fields(line)
            self.check(len(fields) in (0, 3) and not re.search(BYTES, line), "BadSum", rows.SUM_LINES)
            if len(fields) not in (0, 3):
                break  # go reads no further
            if fields[1:2] == ["v1.0.0/go.mod"] and (fields[2] != hash_of("") or not self.goes(rows.SECOND)):
                hashes[fields[0]] += [fields[2]] * fields[2].startswith("h1:")
        for name in "ab":
            found = hashes[f"example.com/{name}"]
            self.check(found and found[0] == hash_of(FILES[name]))
            self.check(len({*found}) == 1, "SumDiffers", rows.SECOND)
        return "read"

    def operation(self, text):
        """What an operation writes."""
        self.check(not re.search(BYTES, text), "UTF-8", rows.NOT_UTF8)
        self.check(text[0] != "-", "dash", "Operations")
        name, equals, given = text.removeprefix("-").partition("=")
        words = []
        if name in ("module", "go") and equals and not given:
            self.check(False, "", rows.EMPTY)
        elif name in ("module", "droprequire"):
            words = [self.path(given)]
        elif name == "go":
            words = [self.go_version(given, rows.GO_EDIT)]
        elif name == "replace":
            left, equals, right = given.partition("=")
            self.check(equals)
            words = self.side(self.trimmed(left), True) + self.right(self.trimmed(right))
        elif name == "dropreplace" and re.match(r"\.{0,2}[/\\]|.:", given):
            self.check("@" not in given or not must_quote(given.partition("@")[2]))
            self.check(False, "Spelling", rows.NO_PATH)
        elif name in ("require", "exclude", "dropexclude", "dropreplace"):
            self.check("@" in given or name == "dropreplace")
            words = self.side(given, name in ("require", "exclude"))
            is_right = whole(words[-1]) == words[-1] and (not has_major(words[0]) or goes_with(*words))
            self.check(name != "exclude" or is_right)
        elif name in ("retract", "dropretract"):
            found = re.fullmatch(r"\[(.*?),(.*)\]", given, re.S)
            ends = [self.trimmed(it.strip(" \t")) for it in found.groups()] if found else [given] * 2
            words = [self.version(it) for it in ends]
            self.check(name[0] == "d" or all(whole(it) == it for it in words))
            self.only_go(name[0] == "d" or all(goes_with("example.com/m", it) for it in words), rows.UNFIT)
            if text == "retract=v1.1.0" and self.goes(rows.RETRACT_IN_ONE_CALL):
                words *= 2  # MAIN has it
        else:
            raise Refused
        return " ".join([name, *map(self.written, words)])

    def trimmed(self, word):
        return word.strip(SPACES) if self.goes(rows.TRIMMED) else word

    def side(self, text, has_to_fit=False):
        """A path, possibly at a version."""
        path, at, version = text.partition("@")
        path = self.path(self.trimmed(path) if at else path)
        return [path, self.version(self.trimmed(version), path if has_to_fit else "")] if at else [path]

    def right(self, text):
        """A folder, or a path at a version."""
        path, at, version = text.partition("@")
        if self.is_folder(path):
            if not at or not self.goes(rows.GRAVE):
                return [text]
            self.check(not must_quote(version.strip(SPACES)))
            return [path.strip(SPACES), version.strip(SPACES)]
        if re.match(r"\.{0,2}\\|[A-Za-z]:", path):
            self.check(False, "Spelling", "Windows")
            return [text]
        self.check(at)
        return self.side(text)

    def written(self, word):
        """A word as it is written."""
        is_bare = not re.search("[\0-\x20\x7f()\\[\\],{}\"`]|//|/\\*|^=>|^$", word)
        if is_bare and not (must_quote(word) and self.goes(rows.BARE)):
            return word
        if not word.isprintable() and self.goes(rows.QUOTES):
            word = ascii(word)
        return f'"{word}"'


def judged(it):
    """What go and gomod read of a text, and the rows that it shows."""
    both = go, gomod = Reader(it, True), Reader(it, False)
    asked = go.asked | gomod.asked if go.value != gomod.value else ()
    return *both, {row for row in asked if any(Reader(it, one.is_go, row).value != one.value for one in both)}
