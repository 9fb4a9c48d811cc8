#!/usr/bin/env -S python3 -B
"""Compares bin/gomod with an installed go command on random modules, or on a module cache and a main file of one's own.

    tools/go/compare_go.py [WORLDS [SEED]]         random worlds SEED, SEED + 1, .. (100 from 1)
    tools/go/compare_go.py --cache DIR --mod FILE [EDITS [SEED]]
                                                   a cache/download folder, and a go.mod with random edits (100)
    tools/go/compare_go.py --rows [ROW]            the worlds of tools/go/go_rows.py, for each row of docs/use/GO.md or
                                                   this one
    tools/go/compare_go.py --texts [COUNT [SEED]]  texts with one odd character, word or line, of tools/go/go_texts.py
                                                   (2000)
    tools/go/compare_go.py --go COMMAND ..         with this go, as /usr/lib/go-1.19/bin/go
    tools/go/compare_go.py --check [--quick]       the check of this script that .ci/run runs, which needs no go, or
                                                   with fewer texts beside go
    tools/go/compare_go.py --record COMMAND        writes what go answers in that check anew

First a module that `go mod tidy` and `go mod download` made ready, with packages, is compared; it isn't counted. A
world (tools/go/go_worlds.py) is made from its number alone. Both programs are asked for list, graph, versions (with and
without retracted ones), edit and fmt, and each chain of gomod is looked up in the graph of go. go runs without a
network, with all that it writes in a scratch folder. If go updates the main file, gomod reads what that leaves.

It prints the version of go, each difference that docs/use/GO.md does not name in full, with the number of its world,
and for each command how many results were the same, refused by both, or differ in a way that has a row in the table of
docs/use/GO.md (tools/go/go_differences.py); a result can differ in several. The status is 1 if there is a difference
without a name.

--rows asks both in worlds made by hand. The status is 1 unless each row of the table has a world, each world has a
difference of its row and of no other, and both programs say what tools/go/go_rows.py has of them.

--texts asks both of the texts from SEED on. tools/go/go_texts.py reads each as go and as gomod, and says which rows it
shows; of each row that none of these shows there is one text more. The status is 1 if the two differ and no row is
shown, if one is shown and they don't differ, or answer another way, or if no text shows one. It is of go 1.19.8.

--check compares a tidy module with the cache that `go mod download` filled, example/go.mod, example/tidy.mod, and the
worlds of --rows, with the answers of go 1.19.8 in tools/go/go_answers.json, each of which has to be asked for. Mistakes
have to be found, too: output of gomod that is changed, another command in go's place, a proxy without the .info of a
pruned-out module, and a row, a world or a difference without the others. The first random worlds and texts have to be
those of then. If there is a go 1.19.8, it has to give these answers, and 2000 texts, from a number that the commit
gives, and 40 random worlds are compared.

It needs bin/gomod, and a go command of 1.19 or later (in Debian: apt-get install golang-go).
"""

import argparse
import contextlib
import functools
import hashlib
import io
import json
import os
import random
import re
import shlex
import shutil
import subprocess
import sys
import tempfile
import typing
from unittest import mock

sys.path.append(f"{sys.path[0]}/..")
import script
import go_differences
import go_rows
import go_texts
from go_differences import BOTH, SAME, Comparison, Differences, pieces_of
from go_worlds import (
    UNFETCHABLE, World, escaped, is_import_path, lay_tidy_world, lay_version, operations, unescaped, whole
)
from script import TOP, read, write

GOMOD, ANSWERS = TOP / "bin/gomod", TOP / "tools/go/go_answers.json"
TEXTS, MORE, WORLDS = 2000, 100000, 40  # MORE texts are looked at for one that shows a row
NOTHING = "\0", "", ""  # no words have this
NO_ROW, NONE = ": a difference that docs/use/GO.md does not name", "differences that docs/use/GO.md does not name: 0\n"


class Result(typing.NamedTuple):
    """What a command came to."""

    status: int
    out: str
    err: str

    def text(self):
        return self.out if self.status == 0 else f"{self.err}status {self.status}\n"


def run(words, folder, environment=None):
    ran = script.run_within(words, cwd=folder, env=environment)
    return Result(ran.returncode, ran.stdout.decode("utf-8", "surrogateescape"), ran.stderr.decode("utf-8", "replace"))


class Programs:
    """go and gomod, each of which is run in a folder. What gomod prints is changed if the words have a text: what a
    pattern finds is replaced."""

    def __init__(self, go, change=NOTHING):
        self.real, self.change = go, change

    def go(self, words, folder, environment, _proxy):
        return run([self.real, *words], folder, environment)

    def gomod(self, words, folder):
        ran, (text, *change) = run([GOMOD, *words], folder), self.change
        if text not in " ".join(words):
            return ran
        return Result(ran.status, re.sub(*change, ran.out), re.sub(*change, ran.err))


class Recorded(Programs):
    """The same with recorded answers in go's place, each to a checksum of the words, GOFLAGS, GOPROXY, and the files of
    the proxy and of the folder, or of that above it if it has no go.mod: what was printed, or why it was refused, the
    files that go changed, but for a go.sum that it may write, and those of the proxy that its cache lacked, if that is
    looked at then. If there is a real go, it is asked for what lacks."""

    def __init__(self, answers, real=""):
        super().__init__(real)
        self.answers, self.asked = answers, set()

    def go(self, words, folder, environment, proxy):
        flags, cache = environment["GOFLAGS"], f"{environment['GOMODCACHE']}/cache/download"
        top = folder if os.path.exists(f"{folder}/go.mod") else os.path.dirname(folder)
        has_sums, room = flags == "-mod=readonly" or words[1] == "tidy", os.path.dirname(proxy)
        before, laid = files_below(top, has_sums), files_below(proxy)
        given = [words, flags, environment["GOPROXY"].replace(room, ""), before, laid]
        key = hashlib.sha256(json.dumps(given).encode()).hexdigest()[:8]
        cached = [it for it in laid if words[1] in ("graph", "download") and re.search(r"/list$|\.mod$", it)]
        if self.real and key not in self.answers:
            ran = super().go(words, folder, environment, proxy)
            answer = {
                "out": ran.out, "refused": ran.status and ran.err,
                "files": {name: text for name, text in files_below(top, has_sums).items() if before.get(name) != text},
                "uncached": [it for it in cached if not os.path.exists(f"{cache}/{it}")],
            }
            found = json.dumps({what: it for what, it in answer.items() if it})
            self.answers[key] = json.loads(found.replace(room, "<ROOM>"))
        self.asked.add(key)
        answer = self.answers.get(key, {"refused": f"go's answer {key} to {words} isn't recorded\n"})
        for name, text in answer.get("files", {}).items():
            write(f"{top}/{name}", text)
        for name in set(cached) - set(answer.get("uncached", ())):
            write(f"{cache}/{name}", laid[name])
        out, refused = (answer.get(it, "").replace("<ROOM>", room) for it in ("out", "refused"))
        return Result(int(refused != ""), out, refused)


def files_below(folder, has_sums=True):
    """The text of each file, by its name; of zip files the names alone."""
    found = {}
    for base, _, names in os.walk(folder):
        for name in names:
            if has_sums or not name.endswith(".sum"):
                at = os.path.join(base, name)
                found[os.path.relpath(at, folder)] = "" if name.endswith(".zip") else read(at)
    return dict(sorted(found.items()))


class Commands:
    """go and gomod, in a scratch folder of their own, without a network."""

    def __init__(self, programs, room, proxy):
        self.programs, self.proxy, self.cache = programs, proxy, f"{room}/cache"
        self.said = {"go": "", "gomod": ""}  # all that the two printed
        self.environment = {
            "PATH": "/usr/bin:/bin", "HOME": room, "GOPATH": f"{room}/gopath", "GOMODCACHE": self.cache,
            "GOCACHE": f"{room}/build", "GOENV": "off", "GOWORK": "off", "GOPROXY": f"file://{proxy}", "GOSUMDB": "off",
            "GONOSUMDB": "*", "GOPRIVATE": "", "GONOPROXY": "", "GOTOOLCHAIN": "local", "GOVCS": "*:off",
            "GO111MODULE": "on", "GOTELEMETRY": "off", "GOMAXPROCS": "1",
        }

    def ask_go(self, folder, *words, mod="readonly", flags=None):
        flags = {"GOFLAGS": flags if flags is not None else f"-mod={mod}" if mod else ""}
        return self.heard("go", self.programs.go(words, folder, self.environment | flags, self.proxy))

    def ask(self, folder, *words):
        return self.heard("gomod", self.programs.gomod(words, folder))

    def ask_graph(self, folder, *words, sums=False):
        return self.ask(folder, *words, "--proxy", self.proxy, *["--sum", "go.sum"] * sums)

    def heard(self, program, ran):
        self.said[program] += ran.out + ran.err
        return ran


def compare_world(programs, seed, room, found):
    """Compares all commands in the world of a seed."""
    world = World(seed, room)
    at = Comparison(f"world {seed}", Commands(programs, room, world.proxy), found)
    for (path, version), (right, _) in world.replaces.items():
        for known in world.versions.get(path, []):
            if version in (None, known) and " " in right:
                at.replaced.setdefault(f"{path}@{known}", right.replace(" ", "@"))
    for _ in range(2):
        at.compare_edit(world.main, operations(world.random, world.requires, world.replaces, world.excludes))
    at.compare_layout(world.main, world.is_laid_out)
    paths = world.some([it for it in world.versions if it not in UNFETCHABLE], 1, 3)
    at.compare_versions(f"{room}/asker", paths, world.excludes)
    at.compare_graph(world.main, world.sums != "none")


def lay_cache(cache, proxy, named):
    """A proxy of the .mod files and lists of a cache, and the paths with a list. It has an .info for each named version
    and for each that these files name: go asks for that of every module which it lists, a pruned-out one too, and
    `go mod download` doesn't fetch it."""
    paths, named = [], set(named)
    for folder, _, files in os.walk(cache):
        if os.path.basename(folder) != "@v":
            continue
        base = os.path.join(proxy, os.path.relpath(folder, cache))
        os.makedirs(base)
        path = unescaped(os.path.dirname(os.path.relpath(folder, cache)))
        for name in files:
            if name.endswith(".mod") or name == "list":
                shutil.copy(os.path.join(folder, name), base)
            if name.endswith(".mod"):
                named.add((path, unescaped(name.removesuffix(".mod"))))
                named |= named_versions(read(f"{folder}/{name}"))
        if "list" in files:
            paths.append(path)
    for path, version in named:
        lay_version(proxy, path, version, None)
    return sorted(paths)


def named_versions(text):
    """The pairs of path and version that the text of a go.mod requires or replaces by."""
    named = {args[-2:] for verb, args, _ in pieces_of(text)[0] if verb in ("require", "replace") and len(args) > 1}
    # no path of an import leads out of the proxy
    return {(path, version) for path, version in named if is_import_path(path) and whole(version) == version}


def compare_cache(programs, cache, mod, edits, seed, room, found):
    """The same on a cache and a main file. The go.mod files of folders that replace modules are copied."""
    proxy, main, some = f"{room}/proxy", f"{room}/1/2/3/4/5/6/7/8/main", random.Random(seed)
    text = read(mod)
    write(f"{main}/go.mod", text)
    sums = os.path.join(os.path.dirname(os.path.abspath(mod)), "go.sum")
    if os.path.exists(sums):
        shutil.copy(sums, main)
    requires, replaces, excludes, named = {}, {}, [], named_versions(text)
    for verb, args, _ in pieces_of(text)[0]:
        if verb == "require":
            requires[args[0]] = args[1]
        elif verb == "exclude":
            excludes.append(args[:2])
        elif verb == "replace":
            replaces[args[0], None if args[1] == "=>" else args[1]] = None
            folder = os.path.join(os.path.dirname(os.path.abspath(mod)), args[-1])
            if re.match(r"\.{1,2}(/|$)", args[-1]) and os.path.exists(f"{folder}/go.mod"):
                write(os.path.normpath(f"{main}/{args[-1]}/go.mod"), read(f"{folder}/go.mod"))
                named |= named_versions(read(f"{folder}/go.mod"))
    paths = lay_cache(cache, proxy, named)
    at = Comparison(mod, Commands(programs, room, proxy), found)
    for _ in range(edits):
        at.compare_edit(main, operations(some, requires, replaces, excludes))
    at.compare_layout(main, False)
    at.compare_versions(f"{room}/asker", sorted(some.sample(paths, min(len(paths), 100))), [])
    at.compare_graph(main, os.path.exists(sums))


def compare_tidy(programs, room, found):
    """The same on a module that go tidied, with the cache that `go mod download` filled for it."""
    proxy, main = f"{room}/source", f"{room}/tidied"
    lay_tidy_world(proxy, main)
    for words in ["tidy"], ["download"]:
        commands = Commands(programs, f"{room}/{words[0]}", proxy)
        ran = commands.ask_go(main, "mod", *words, mod="mod")
        if ran.status:
            sys.exit(f"compare-go: go mod {words[0]} failed: {ran.err}")
    compare_cache(programs, f"{commands.cache}/cache/download", f"{main}/go.mod", 0, 1, room, found)


def compare_row_world(programs, row, room, found):
    """The world of a row of docs/use/GO.md, whose difference has to show there, and no other."""
    proxy, main = f"{room}/proxy", f"{room}/main"
    go_rows.lay(row, proxy, main)
    commands, seen = Commands(programs, room, proxy), Differences()
    at = Comparison(f"the world of '{row.name}', {row.ask}", commands, seen)
    command, *words = shlex.split(row.ask.replace("{proxy}", proxy).replace("\\", "\\\\"))
    if row.words:
        commands.environment["GOPROXY"] = row.goproxy.replace("{proxy}", f"file://{proxy}")
        wanted = commands.ask_go(f"{main}/{row.folder}", *shlex.split(row.words), flags=row.flags)
        came = commands.ask(f"{main}/{row.folder}", command, *words)
        seen.count(command, row.name if came.text() != wanted.text() else SAME)
    elif command == "edit":
        at.compare_edit(main, words)
    elif command == "fmt":
        at.compare_layout(main, False)
    elif command == "versions":
        excludes = [args for verb, args, _ in pieces_of(row.main)[0] if verb == "exclude"]
        at.compare_versions(f"{room}/asker", words, excludes)
    else:
        at.compare_graph(main, "go.sum" in row.files)
    found.add(seen)
    kinds = {kind for counts in seen.counts.values() for kind in counts} - {SAME, BOTH}
    faults = [f"{at.where}: it has a difference of the row '{it}'" for it in sorted(kinds - {row.name})]
    faults += [f"{at.where}: it has no difference of that row"] * (row.name not in kinds)
    for program, text in ("go", row.go), ("gomod", row.gomod):
        if not text or text not in commands.said[program]:
            faults.append(f"{at.where}: {program} doesn't say {text!r}, but {commands.said[program][:600]!r}")
    found.unexplained += len(faults)
    for it in faults:
        print(it, flush=True)


def questions(it, proxy):
    """What go and gomod are asked, and the GOFLAGS."""
    if it.place == "operation":
        return ["mod", "edit", "-print", f"-{it.text}", "go.mod"], ["edit", "go.mod", it.text], ""
    is_list = it.place in ("latest", "list")
    go = ["list", "-m", "-versions", "example.com/p"] if is_list else ["list", "-m", "all"]
    words = ["versions", "example.com/p"] if is_list else ["list", *["--sum", "go.sum"] * (it.place == "sum")]
    return go, [*words, "--proxy", proxy], "-mod=readonly" if it.place == "sum" else "-mod=mod"


def answer(ran):
    """What a program answers, whatever the layout."""
    if ran.status:
        return "refused: " + ran.err
    verb, found = "", []
    for line in ran.out.split("\n"):
        words = " ".join(re.split("[ \t\r]+", line.strip(" \t\r")))
        if words.endswith(" (") and not verb:
            verb = words[:-1]
        elif words == ")" and verb:
            verb = ""
        elif words:
            found.append(verb + words)
    return "\n".join(sorted(found))


class TextWorlds:
    """The worlds of texts, one after another. They share a proxy, where only what differs is written."""

    def __init__(self, programs, room):
        self.programs, self.room, self.proxy, self.laid = programs, room, f"{room}/proxy", {}

    def lay(self, it, readers, main):
        """Writes the world of a text, with all that one of the two reads of it."""
        texts = {name: it.text if go_texts.OTHERS.get(it.place) == name else text
                 for name, text in go_texts.FILES.items()}
        known = [(f"example.com/{name}", version) for name in texts for version in go_texts.SHOWN]
        self.lay_proxy({(path, version): texts.get(path.removeprefix("example.com/"), f"module {path}\n")
                        for path, version in sum((reader.pairs for reader in readers), known) if is_import_path(path)})
        write(f"{self.proxy}/example.com/p/@v/list", it.text if it.place == "list" else "v1.0.0\nv1.1.0\n")
        for folder in {"r"}.union(*(reader.folders for reader in readers)):
            place = os.path.normpath(f"{main}/{folder}/go.mod")
            if place.startswith(os.path.dirname(main)) and folder[0] != "/":
                write(place, texts["r"])
        write(f"{main}/go.mod", it.text if it.place == "main" else go_texts.MAIN)
        if it.place == "sum":
            write(f"{main}/go.sum", it.text)

    def lay_proxy(self, files):
        """Writes the files of versions, and removes those of versions that only the world before had."""
        for path, version in self.laid.keys() - files.keys():
            for ending in "info", "mod":
                os.remove(f"{self.proxy}/{escaped(path)}/@v/{escaped(version)}.{ending}")
        for (path, version), text in files.items():
            if self.laid.get((path, version)) != text:
                lay_version(self.proxy, path, version, text)
        self.laid = files

    def compare(self, it, judged, found):
        """One text: whether go and gomod answer what is read of it as each of them does, and differ if that does."""
        *readers, shown = judged
        as_go, as_gomod = readers
        with tempfile.TemporaryDirectory(dir=self.room) as room:
            main, commands = f"{room}/main", Commands(self.programs, room, self.proxy)
            self.lay(it, readers, main)
            asked, words, flags = questions(it, self.proxy)
            theirs = answer(commands.ask_go(main, *asked, flags=flags))
            ours = answer(commands.ask(main, *words))
        is_same = theirs == ours or all(text.startswith("refused") for text in (theirs, ours))
        said = [text.startswith("refused") == (reader.value is None)
                for text, reader in ((theirs, as_go), (ours, as_gomod))]
        if is_same == bool(shown) or shown and not (all(said) and as_gomod.kind in ours):
            rows = "; ".join(sorted(shown))
            found.report(it, words[0], ours, theirs, rows and f"{as_gomod.kind or 'not'} what the rows say: {rows}")
        for kind in shown or [SAME if theirs == ours else BOTH]:
            found.count(it.place, kind)


def compare_texts(programs, count, seed, room, found):
    """So many texts from a number on, and one for each row that they ask about and that none of them shows."""
    asked, seen, worlds = {row: set() for row in go_rows.ALONE}, set(), TextWorlds(programs, room)  # the places of rows
    for number in range(seed, seed + count + MORE):
        it, is_more, missing = go_texts.make(number), number >= seed + count, asked.keys() - seen
        if is_more and not missing:
            break
        if is_more and not any(it.place in (asked[row] or go_texts.ODD) for row in missing):
            continue
        as_go, as_gomod, shown = judged = go_texts.judged(it)
        for row in () if is_more else as_go.asked | as_gomod.asked:
            asked.setdefault(row, set()).add(it.place)
        if not is_more or shown & missing:
            seen |= shown
            worlds.compare(it, judged, found)
    for row in sorted(asked.keys() - seen):
        found.unexplained += 1
        print(f"tools/go/go_texts.py: there is no text that shows the row '{row}'")


def compare_rows(programs, name, found):
    """The worlds of tools/go/go_rows.py, or those of one row: each row of docs/use/GO.md has one, or texts of
    tools/go/go_texts.py, and each is of a row."""
    names = go_differences.names()
    named = {it.name for it in go_rows.ROWS} | set(go_rows.ALONE)
    for it in sorted(names - named):
        print(f"docs/use/GO.md: tools/go/go_rows.py has no world that shows the row '{it}'")
    for it in sorted(named - names):
        print(f"tools/go/go_rows.py: docs/use/GO.md has no row '{it}'")
    if names != named:
        sys.exit("compare-go: docs/use/GO.md has other rows than tools/go/go_rows.py has worlds for")
    for row in go_rows.ROWS:
        if name in ("", row.name):
            in_scratch(compare_row_world, programs, row, found)


def in_scratch(compare, *words):
    """Calls a comparison with a folder before its last argument, which it removes at the end."""
    in_memory = "/dev/shm" if os.access("/dev/shm", os.W_OK) else None
    room = tempfile.mkdtemp(prefix="gomod-world-", dir=in_memory)
    try:
        compare(*words[:-1], room, words[-1])
    finally:
        for folder, _, _ in os.walk(room):
            os.chmod(folder, 0o755)
        shutil.rmtree(room)


def parsed(words):
    """What the words ask for."""
    parser = argparse.ArgumentParser(add_help=False, prog="compare-go")
    parser.add_argument("worlds", nargs="?", type=int)
    parser.add_argument("seed", nargs="?", type=int, default=1)
    parser.add_argument("--go", default="go")
    parser.add_argument("--rows", nargs="?", const="")
    parser.add_argument("--texts", action="store_true")
    parser.add_argument("--cache")
    parser.add_argument("--mod", default="go.mod")
    asked = parser.parse_args(words)
    if asked.worlds is None:
        asked.worlds = TEXTS if asked.texts else 100
    if asked.worlds < 0 or asked.cache and not os.path.isdir(asked.cache):
        script.misused("it takes a number, and --cache a folder")
    if asked.rows and asked.rows not in {it.name for it in go_rows.ROWS}:
        script.misused(f"there is no row '{asked.rows}'")
    return asked


def compare(programs, asked):
    """Compares worlds, rows of GO.md or a module, and returns the status."""
    found = Differences()
    if asked.rows is not None:
        compare_rows(programs, asked.rows, found)
    elif asked.texts:
        in_scratch(compare_texts, programs, asked.worlds, asked.seed, found)
    elif asked.cache:
        in_scratch(compare_cache, programs, asked.cache, asked.mod, asked.worlds, asked.seed, found)
    else:
        tidy = Differences()
        in_scratch(compare_tidy, programs, tidy)
        found.unexplained += tidy.unexplained
        for seed in range(asked.seed, asked.seed + asked.worlds):
            in_scratch(compare_world, programs, seed, found)
    found.print()
    return 1 if found.unexplained else 0


class Check(script.Tally):
    """How many comparisons were right and wrong."""

    def expect(self, kind, programs, what, words, status, *texts):
        """What a comparison prints, which has to end with this status and print these texts."""
        with contextlib.redirect_stdout(io.StringIO()) as printed:
            try:
                came = compare(programs, parsed(map(str, words)))
            except SystemExit as fault:
                came = 1
                print(fault)
        said = printed.getvalue()
        missing = [f"  it doesn't print: {it}\n" for it in texts if it not in said]
        message = f"{what}: status {came}, and {status} is right\n{''.join(missing)}  it prints:\n{said}"
        self.tell(kind, came == status and not missing, message)
        return said

    def compare_all(self, programs, room):
        """All comparisons with recorded answers."""
        expect = functools.partial(self.expect, "comparisons with recorded answers of go", programs)
        cache = f"{room}/cache"
        for name in "cache/download", "mirror":
            shutil.copytree(f"{TOP}/example/{name}", cache, dirs_exist_ok=True)
        write(f"{room}/main/go.mod", read(f"{TOP}/example/tidy.mod") + "\n// a remark\n")
        example = ["--cache", f"{TOP}/example/cache/download", "--mod", f"{TOP}/example/go.mod", 2]
        tidy = ["--cache", cache, "--mod", f"{room}/main/go.mod", 0]
        commands = {"list": 1, "graph": 1, "chain": 3, "versions": 3, "versions --retracted": 3, "fmt": 1}
        same = {it: f"{it}:\n{number:8} the same\n" for it, number in commands.items()}
        expect("a module that go made tidy", [0], 0, NONE)
        expect("example/go.mod", example, 0, *same.values(), "edit:\n", NONE)
        expect("example/tidy.mod", tidy, 0, same["list"], same["graph"], same["chain"], same["fmt"], NONE)
        expect("the worlds of the rows", ["--rows"], 0, NONE)
        line, chain, step = r".*rsc\.io/sampler.*\n", "chain golang.org/x/text", "rsc.io/sampler@v1.3.1\n"
        for asked, words, found, put, command in (
            *((example, it, line, "", it) for it in ("list", "graph", "chain", "versions", "fmt", "edit")),
            (example, "--retracted", line, "", "versions --retracted"), (tidy, "fmt", "// a remark\n", "", "fmt"),
            (example, "/cache/download", line, "", "list"), (example, chain, step, "rsc.io/quote@v1.5.2\n", "chain"),
            (example, chain, step, "rsc.io/quote@v1.5.2\nrsc.io/sampler@v1.3.0\n", "chain"),
            (["--rows", go_rows.TWICE], "--retracted", "v1.0.0", "v1.1.0", "versions --retracted"),
        ):
            programs.change = words, found, put
            expect(f"gomod {words}, with {put!r} for {found!r}", asked, 1, f": {command}{NO_ROW}")
        programs.change = NOTHING
        with mock.patch.dict(globals(), named_versions=lambda text: set()):
            expect("a proxy without the .info of a pruned-out module", [0], 1, NO_ROW, ".info: ")
        row, names = go_rows.NOT_UTF8, go_differences.names()
        others = [it for it in go_differences.GOMOD_ALONE if it[1] != row]
        one_more, one_less = names | {"Another"}, names - {row}
        for what, changed, says in (
            ("a row without a world", {"names": lambda: one_more}, "has no world that shows the row 'Another'"),
            ("a world without a row", {"names": lambda: one_less}, f"docs/use/GO.md has no row '{row}'"),
            ("a difference that has no row", {"GOMOD_ALONE": others}, NO_ROW),
        ):
            with mock.patch.multiple(go_differences, **changed):
                expect(what, ["--rows", row], 1, says)

    def compare_without(self):
        """What is seen if another command is taken for go."""
        expect, texts = functools.partial(self.expect, "comparisons with what is no go"), ["--texts", 0]
        commands, says = ("list", "edit", "fmt", "versions", "versions --retracted"), " what the rows say: "
        mute, without = Programs("true"), Programs("true", ("", "StrayClose", ""))
        expect(mute, "a go that prints nothing", [1], 1, *(f"world 1: {it}{NO_ROW}" for it in commands))
        with mock.patch.dict(globals(), MORE=300):
            expect(Programs("false"), "a go that refuses all", texts, 1, f"not{says}{go_rows.RETRACTED}")
            expect(without, "a gomod without a reason", texts, 1, f"StrayClose{says}{go_rows.CLOSES}")
        with mock.patch.dict(globals(), MORE=0):
            expect(mute, "a row that no text shows", texts, 1, f"shows the row '{go_rows.DASH}'")

    def compare_beside(self, real, version, count):
        """Compares texts, others for each commit, and random worlds with a real go, and leaves a record of TEXTS for
        tools/release/release.sh."""
        expect, seed = functools.partial(self.expect, "comparisons beside go"), script.git("rev-parse", "HEAD")
        seed = TEXTS * int(seed[:6] or "0", 16)
        what = f"{count} texts from {seed}"
        said = expect(Programs(real), what, ["--texts", count, seed], 0, NONE)
        judged = sum(map(int, re.findall(r"(?m)^ +(\d+) ", said)))
        self.tell("texts that are judged", judged >= count, f"{judged} of {what} were judged")
        expect(Programs(real), f"{WORLDS} random worlds", [WORLDS], 0, NONE)
        without = Programs(real, ("fmt", "\n\n", "\n"))
        expect(without, "gomod fmt without blank lines", [3], 1, f": fmt{NO_ROW}")
        if count == TEXTS and all(is_right for _, is_right in self):
            program = hashlib.sha256(GOMOD.read_bytes()).hexdigest()
            write(f"{TOP}/bin/texts.txt", f"{what} beside {version}\n{program}  bin/gomod\n")


def drawn():
    """A checksum of the first random worlds and texts."""
    found = [go_texts.make(it) for it in range(300)]
    for seed in range(1, WORLDS + 1):
        with tempfile.TemporaryDirectory() as room:
            World(seed, room)
            found.append({name: text.replace(room, "") for name, text in files_below(room).items()})
    return script.checksum(json.dumps(found))


def check(real, version, count):
    """Makes the comparisons of --check with so many texts, or of --record, and returns the status. What a real go
    answers is compared with the recorded answers, or written."""
    tally, recorded = Check(), {} if real else json.loads(read(ANSWERS))
    answers = {key: it for keys, it in recorded.get("answers", {}).items() for key in keys.split()}
    programs = Recorded(answers, real)
    with tempfile.TemporaryDirectory(prefix="gomod-recorded-") as room:
        tally.compare_all(programs, room)
    if real:
        texts = [json.dumps(it) for it in answers.values()]
        groups = {" ".join(key for key, it in zip(answers, texts) if it == text): json.loads(text) for text in texts}
        text = json.dumps({"version": version, "drawn": drawn(), "answers": groups}, indent=0) + "\n"
        tally.tell("files of answers that go gives", not script.keep(ANSWERS, text, count > 0, "--record"))
    else:
        unasked = answers.keys() - programs.asked
        tally.tell("files of answers that are asked for", not unasked, f"nothing asks for {sorted(unasked)}")
        tally.tell("random worlds and texts", recorded["drawn"] == drawn(), "the first ones are others than recorded")
    tally.compare_without()
    if real and count:
        tally.compare_beside(real, version, count)
    return tally.status()


def real_go(command):
    """The path of a go command, and its version."""
    found = shutil.which(command)
    if not found:
        sys.exit(f"{script.NAME}: there is no command '{command}': install go, or name one with --go")
    real = os.path.realpath(found)
    return real, subprocess.run([real, "version"], capture_output=True, text=True, check=True).stdout.strip()


def go_of(version):
    """The go command of this version, if there is one."""
    found = [it for it in (shutil.which("go"), "/usr/lib/go-1.19/bin/go") if it and os.path.exists(it)]
    return next((it for it in found if real_go(it)[1] == version), "")


def main(*words):
    """Compares what the words say, and returns the status."""
    if not os.access(GOMOD, os.X_OK):
        sys.exit("compare-go: there is no bin/gomod: run ./build")
    match words:
        case ["--check"] | ["--check", "--quick"]:
            version = json.loads(read(ANSWERS))["version"]
            real = go_of(version)
            if not real:
                print(f"skipped, for want of {version}: comparisons beside go")
            return check(real, version, TEXTS // 10 if words[1:] else TEXTS)
        case ["--record", command]:
            return check(*real_go(command), 0)
        case ["--check" | "--record", *_]:
            script.misused("--check takes --quick, --record the name of a go command")
    asked = parsed(words)
    go, version = real_go(asked.go)
    print(version)
    return compare(Programs(go), asked)


if __name__ == "__main__":
    script.run(main, r"( (?!(-h|--help)( |$))\S+)*", ".")
