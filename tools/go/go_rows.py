"""Worlds by hand for tools/go/compare_go.py: each shows a difference that has a row in the table of docs/use/GO.md."""
import os
import typing

from go_worlds import escaped, hash_of, lay_version
from script import write

MAIN = "module example.com/m\n\ngo 1.19\n\nrequire example.com/a v1.0.0\n"
FILE_A, FILE_B = "module example.com/a\n", "module example.com/b\n"
A, B = {"example.com/a v1.0.0": FILE_A}, {"example.com/b v1.0.0": FILE_B}
SUM = f"example.com/a v1.0.0/go.mod {hash_of(FILE_A)}\n"
MARK = "\ufeff"
LATIN = "\udce9"  # a byte that is not UTF-8
HUGE = f"example.com/b/v{2**64} v{2**64}.0.0"
LIST = "list -m all"
# rows by their first words; the last ones are of what one of the two reads and the other does not
NOT_CANONICAL = "Versions that are not canonical"
MISFITS = "Versions in a list that do not fit the path"
EXCLUDED = "Versions that the main file excludes"
TWICE = "A version that stands twice in a list"
DROPPED = "What `go mod edit` drops as it formats"
TWO_REPLACES = "Two `replace` of one left side"
RETRACT_IN_ONE_CALL = "`retract` of what is there already"
NEWER = "`go` and `toolchain` lines of newer graphs"
REPLACE_IN_ONE_CALL = "An operation on `P@V` after `replace=P=..` in one call"
TO_GOMOD = "`go 1.17.1`"
BLOCK = "`go (` in a dependency"
INCOMPATIBLE = "`v1.0.0+incompatible`"
NOT_UTF8 = "Bytes that are not UTF-8"
HIDDEN = "A byte order mark"
UNFIT = "A version that does not fit its path"
SECOND = "A second `h1:` hash of a file in go.sum"
MISFIT = "`require=P@V` where V does not fit P"
GRAVE = "Words in grave accents"
GO_EDIT = "A go version in `go mod edit -go`"
QUOTES = "Quotes that a word does not need"
PROFILE = "Texts"
# rows that tools/go/go_texts.py alone shows
ALONE = [
    PATHS := "Paths that are none",
    CLOSES := "A line of a dependency that begins with `)`",
    RETRACTED := "`retract v1.1.0 x`",
    PSEUDO := "`v1.0.0-0.T-R` in a list",
    BLANKS := "Form feeds",
    SUM_LINES := "A bad line of a go.sum",
    TRIMMED := "Blanks around the parts of an operation",
    EMPTY := "`edit go=`",
    NO_PATH := "An operation on a path that is none",
    BARE := "Words that an operation writes",
    APOSTROPHE := "An apostrophe in a bare folder of `replace`",
    DOTS := "The folders `.` and `..`",
    DASH := "A path that begins with a dash",
]


class Row(typing.NamedTuple):
    """A world, what gomod is asked there, and in part what both programs say."""
    name: str  # the first words of the row
    ask: str
    go: str
    gomod: str
    main: str = MAIN
    proxy: dict = A  # go.mod files by their paths and versions, and by `PATH list` version lists
    files: dict = {}  # other files, by their names from the main file's folder
    # What go is asked, if it isn't what compare_go.py asks it for such a command; then `{proxy}` stands for the proxy.
    words: str = ""
    flags: str = "-mod=mod"
    goproxy: str = "{proxy}"
    folder: str = "."  # where both run then


REFUSED = "invalid go version"
LISTED = "example.com/a v1.0.0\n"


def dependency(name, line, go, gomod, proxy={}, **more):
    """A world whose dependency has lines more."""
    return Row(name, "list", go, gomod, proxy={"example.com/a v1.0.0": f"{FILE_A}{line}\n", **B, **proxy}, **more)


def main_file(name, line, go, gomod, **more):
    """A world whose main file has a line more."""
    return Row(name, "list", go, gomod, main=f"{MAIN}\n{line}\n", **more)


def since(version):
    """A main file with another go version."""
    return MAIN.replace("1.19", version)


ROWS = [
    dependency("An untidy main file", "require example.com/b v1.1.0", "example.com/b v1.1.0", "example.com/b v1.1.0",
               {"example.com/b v1.1.0": FILE_B}, main=MAIN + "\nrequire example.com/b v1.0.0\n"),
    Row("A file that the list does not need", "list --proxy {proxy}", "v1.0.0.info: no such file",
        "example.com/b v1.0.0\n", main=since("1.17"),
        proxy={"example.com/a v1.0.0": FILE_A + "go 1.17\nrequire example.com/b v1.0.0\n"}, words=LIST),
    Row("A file in the graph that the module cache lacks", "list --proxy empty", LISTED,
        "example.com/a@v1.0.0: Missing\n", words=LIST),
    dependency(NOT_CANONICAL, "require example.com/b v1.0", "example.com/b v1.0.0\n",
               "example.com/a@v1.0.0: Malformed 2 BadVersion\n", {"example.com/b list": "v1.0.0\n"}),
    Row(MISFIT, "edit require=example.com/b@v2.0.0", "example.com/b v2.0.0\n", "edit 1: Misfit\n"),
    Row("The layout", "fmt", "require (\n\texample.com/a v1.0.0\n\texample.com/b v1.0.0\n)\n",
        "require (\n\texample.com/b v1.0.0\n\texample.com/a v1.0.0\n)\n",
        main="module example.com/m\nrequire (\nexample.com/b v1.0.0\nexample.com/a v1.0.0\n)\n"),
    Row("`fmt` of a file with a faulty directive", "fmt", "usage: require module/path v1.2.3",
        "require example.com/b\n", main=MAIN + "\nrequire example.com/b\n"),
    Row(DROPPED, "fmt", "\nexclude example.com/b v1.0.0\n",
        "\texample.com/b v1.0.0\n\texample.com/b v1.0.0\n",
        main=MAIN + "\nexclude (\n\texample.com/b v1.0.0\n\texample.com/b v1.0.0\n)\n"),
    Row(TWO_REPLACES, "edit go=1.18", "replace example.com/b => ./two\n", "go.mod:8: ConflictingReplace\n",
        main=MAIN + "\nreplace example.com/b => ./one\nreplace example.com/b => ./two\n"),
    Row("The place of a new `require`", "edit go.mod require=example.com/c@v1.0.0",
        "require (\n\texample.com/a v1.0.0\n\texample.com/c v1.0.0\n)\n",
        "require example.com/a v1.0.0\nrequire example.com/c v1.0.0\n",
        words="mod edit -print -require=example.com/c@v1.0.0 go.mod"),
    main_file(NEWER, "toolchain go1.21.1", "go.mod:7: unknown directive: toolchain", LISTED),
    Row("The latest version with `+incompatible`", "versions example.com/a",
        "example.com/a v1.0.0 v2.0.0+incompatible\t", "example.com/a v2.0.0+incompatible\n",
        proxy={"example.com/a v1.0.0": FILE_A + "go 1.17\n",
               "example.com/a v2.0.0+incompatible": FILE_A + "retract v1.0.0\n",
               "example.com/a list": "v1.0.0\nv2.0.0+incompatible\n"}),
    Row(MISFITS, "versions example.com/a", "example.com/a v1.0.0 v2.0.0\t", LISTED,
        proxy={**A, "example.com/a list": "v1.0.0\nv2.0.0\n", "example.com/a v2.0.0": FILE_A}),
    Row(TWICE, "versions example.com/a", "example.com/a v1.0.0 v1.0.0\t",
        LISTED, proxy={**A, "example.com/a list": "v1.0.0\nv1.0.0\n"}),
    Row(EXCLUDED, "versions example.com/a", "example.com/a v1.1.0\t",
        "example.com/a v1.0.0 v1.1.0\n", main=MAIN + "\nexclude example.com/a v1.0.0\n",
        proxy={**A, "example.com/a v1.1.0": FILE_A, "example.com/a list": "v1.0.0\nv1.1.0\n"}),
    Row("Operations", "edit go.mod -go=1.18", "go 1.18\n", "error: operations have no dash: go=1.18\n",
        words="mod edit -print -go=1.18 go.mod"),
    Row("A comment on a line before an entry that an edit drops", "edit droprequire=example.com/a",
        "go 1.19\n", "go 1.19\n\n// why\n", main=MAIN.replace("require", "// why\nrequire")),
    Row(GO_EDIT, "edit go=1.21.0", "invalid -go option", "go 1.21.0\n"),
    Row(RETRACT_IN_ONE_CALL, "edit retract=v1.0.0",
        "retract (\n\tv1.0.0\n\tv1.0.0\n)\n", "\nretract v1.0.0\n", main=MAIN + "\nretract v1.0.0\n"),
    Row(RETRACT_IN_ONE_CALL,
        "edit retract=v1.0.0 dropretract=v1.0.0", "\nretract v1.0.0\n", "require example.com/a v1.0.0\n"),
    Row(REPLACE_IN_ONE_CALL,
        "edit replace=example.com/b@v1.0.0=./a replace=example.com/b=./b replace=example.com/b@v1.0.0=./c",
        "v1.0.0\n\nreplace example.com/b v1.0.0 => ./c\n",
        "\nreplace example.com/b => ./b\nreplace example.com/b v1.0.0 => ./c\n"),
    Row(REPLACE_IN_ONE_CALL,
        "edit replace=example.com/b=./b dropreplace=example.com/b@v1.0.0",
        "require example.com/a v1.0.0\n", "\nreplace example.com/b => ./b\n",
        main=MAIN + "\nreplace example.com/b v1.0.0 => ./a\n"),
    Row(GRAVE, "edit replace=example.com/b=./a@b", "example.com/b => ./a b\n", "example.com/b => ./a@b\n"),
    Row("Checksums", "graph", "example.com/a@v1.0.0\n", "example.com/a@v1.0.0: NoSum\n", files={"go.sum": ""}),
    Row(SECOND, "list", LISTED, "example.com/a@v1.0.0: SumDiffers\n",
        files={"go.sum": SUM + "example.com/a v1.0.0/go.mod h1:AAAA\n"}),
    Row(QUOTES, "fmt go.mod", "=> ./b\n", '=> "./b"\n', main=MAIN + '\nreplace example.com/b => "./b"\n',
        words="mod edit -fmt -print go.mod"),
    Row("A requirement that stands twice in a file", "graph --proxy {proxy}",
        2 * "example.com/a@v1.0.0 example.com/b@v1.0.0\n",
        "example.com/m example.com/a@v1.0.0\nexample.com/a@v1.0.0 example.com/b@v1.0.0\n",
        main=since("1.16"), words="mod graph",
        proxy={"example.com/a v1.0.0": FILE_A + "require example.com/b v1.0.0\n" * 2, **B}),
    Row("A path that the main file replaces", "versions example.com/a --proxy {proxy}",
        "example.com/a v1.0.0 v1.5.0\n", LISTED, main=MAIN + "\nreplace example.com/a v1.5.0 => ./a\n",
        proxy={**A, "example.com/a list": "v1.0.0\n"}, files={"a/go.mod": FILE_A},
        words="list -m -versions example.com/a"),
    Row("Folders of `replace` in a main file of another folder", "list --mod sub/alt.mod --proxy {proxy}",
        "example.com/a v1.0.0 => ./a\n", "example.com/a@v1.0.0: Missing\n", words=LIST,
        flags="-mod=mod -modfile=sub/alt.mod",
        files={"sub/alt.mod": MAIN + "\nreplace example.com/a => ./a\n", "a/go.mod": FILE_A}),
    Row("A list in one proxy folder", "versions example.com/a --proxy {proxy}/1,{proxy}/2", "/@v/list: no such file",
        LISTED, goproxy="{proxy}/1,{proxy}/2", words="list -m -versions example.com/a",
        proxy={"1/example.com/a list": "v1.0.0\n", "2/example.com/a v1.0.0": FILE_A}),
    Row("A run in a folder below the main file's", "list --proxy {proxy}", LISTED,
        "gomod: cannot read go.mod\n", files={"below/file": ""}, words=LIST, folder="below"),
    Row("GOPROXY", "list --proxy {proxy}", "example.com/other\n", "example.com/m\n",
        files={"other.mod": "module example.com/other\n\ngo 1.19\n"}, words=LIST,
        flags="-mod=mod -modfile=other.mod"),
    Row("Windows", "edit go.mod replace=example.com/b=.\\b", "replace example.com/b => .\\b\n",
        "edit 1: Spelling\n", words="mod edit -print -replace=example.com/b=.\\\\b go.mod"),
    main_file("Windows", "replace example.com/b => ./b\\c",
              "go.mod:7: replacement directory appears to be Windows path", LISTED),
    *[Row(TO_GOMOD, "list", REFUSED, LISTED, main=since(it)) for it in ("1.17.1", "1.21rc1", '"1.17"')],
    dependency(TO_GOMOD, "go v1.17", REFUSED, LISTED),
    dependency(TO_GOMOD, 'go "1.17"', REFUSED, LISTED),
    Row(TO_GOMOD, "edit droprequire=example.com/b", REFUSED, "go 1.17.1\n", main=since("1.17.1")),
    Row(TO_GOMOD, "fmt", REFUSED, "go 1.17.1\n", main=since("1.17.1")),
    dependency(BLOCK, "go (\n1.17\n)", LISTED, "Malformed 2 WrongArguments\n"),
    dependency(BLOCK, "go 1.9999999999", LISTED, "Malformed 2 BadGo\n"),
    Row(BLOCK, "list", LISTED, "go.mod:3: BadGo\n", main=since("1.9999999999")),
    dependency(INCOMPATIBLE, "require example.com/b v1.0.0+incompatible", "example.com/b v1.0.0+incompatible\n",
               "example.com/a@v1.0.0: Malformed 2 Misfit\n", {"example.com/b v1.0.0+incompatible": FILE_B}),
    main_file(INCOMPATIBLE, "require example.com/b/v2 v2.0.0+incompatible", "example.com/b/v2 v2.0.0+incompatible\n",
              "go.mod:7: Misfit\n", proxy={**A, "example.com/b/v2 v2.0.0+incompatible": "module example.com/b/v2\n"}),
    dependency(NOT_UTF8, f"// caf{LATIN}", LISTED, "Malformed 0 NotUtf8\n"),
    Row(NOT_UTF8, "list", LISTED, "go.mod:0: NotUtf8\n", main=f"{MAIN}// caf{LATIN}\n"),
    Row(HIDDEN, "list", "unexpected input character '\\ufeff'", "example.com/a@v1.0.0: WrongPath\n",
        proxy={"example.com/a v1.0.0": MARK + FILE_A}),
    main_file(HIDDEN, "replace example.com/a => ./a", "unexpected input character '\\ufeff'",
              "example.com/m\nexample.com/a v1.0.0 => ./a\n",
              files={"a/go.mod": MARK + "require example.com/b v1.0.0\n"}),
    main_file(HIDDEN, "replace example.com/b => ./b\u00a0c", "unexpected input character '\\u00a0'", LISTED),
    main_file(UNFIT, "retract v3.0.0", 'version "v3.0.0" invalid', LISTED),
    main_file(UNFIT, "replace example.com/b => example.com/c v2.0.0", 'version "v2.0.0" invalid', LISTED),
    Row(UNFIT, "edit retract=v3.0.0", 'version "v3.0.0" invalid', "\nretract v3.0.0\n"),
    dependency(PROFILE, "unknown {", LISTED, "Malformed 2 BadByte\n"),
    dependency(PROFILE, 'unknown a"b"', LISTED, "Malformed 2 BadByte\n"),
    dependency(PROFILE, 'require "example.com/\\x62" v1.0.0', "example.com/b v1.0.0\n", "Malformed 2 BadEscape\n"),
    dependency(PROFILE, "unknown (\na (\n)\n)", LISTED, "Malformed 3 NestedOpen\n"),
    dependency(PROFILE, "unknown a (\n)", LISTED, "Malformed 2 NestedOpen\n"),
    main_file(PROFILE, "exclude a..b/. v1.0.0", LISTED, "go.mod:7: BadPath\n"),
    Row(PROFILE, "list", "a+b\n", "go.mod:1: BadPath\n", main=MAIN.replace("example.com/m", "a+b")),
    Row(PROFILE, "list", ".a/b\n", "go.mod:1: BadPath\n", main=MAIN.replace("example.com/m", ".a/b")),
    main_file(PROFILE, f"require {HUGE}", f"{HUGE}\n", "go.mod:7: BadPath\n",
              proxy={**A, HUGE: f"module {HUGE.split(' ')[0]}\n"}),
]


def lay(row, proxy, main):
    """Writes the files of a world."""
    for name, text in row.proxy.items():
        path, version = name.split(" ")
        if version == "list":
            write(f"{proxy}/{escaped(path)}/@v/list", text)
        else:
            lay_version(proxy, path, version, text)
    os.makedirs(proxy, exist_ok=True)
    write(f"{main}/go.mod", row.main)
    for name, text in row.files.items():
        write(f"{main}/{name}", text)
