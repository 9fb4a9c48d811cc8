"""What differs between go and gomod, for tools/go/compare_go.py: each command in one world, and the rows of
docs/use/GO.md
that a difference has."""
import collections
import functools
import random
import re
import shutil
import sys

import go_rows
import script
from go_worlds import escaped, fits, is_pseudo, latest_of, whole
from script import read, write

SAME, BOTH = "the same", "refused by both"
# What go says about a file of a module, and what gomod then reports.
FAULTS = [
    (r"missing go\.sum entry", {"NoSum", "Missing", "NotFetchable"}),
    (r"checksum mismatch", {"SumDiffers"}),
    (r"no such file or directory", {"Missing"}),
    (r"missing dot in first path element|malformed module path", {"NotFetchable"}),
    (r"declares its path as|missing module line", {"WrongPath"}),
    (r"parsing go\.mod|errors parsing|go\.mod:\d+", {"Malformed"}),
]
# What go says of a file that gomod reads, or refuses for another reason; what gomod says of one that go reads.
GO_ALONE = [
    (r"invalid go version", go_rows.TO_GOMOD),
    (r"unknown (directive|block type): (toolchain|godebug|tool|ignore)\b", go_rows.NEWER),
    (r"unexpected input character '\\u", go_rows.HIDDEN),
    (r'version "\S+" invalid', go_rows.UNFIT),
    (r"appears to be Windows path", "Windows"),
]
GOMOD_ALONE = [
    (r" NotUtf8$", go_rows.NOT_UTF8),
    (r" (BadGo|WrongArguments)$", go_rows.BLOCK),
    (r" Misfit$", go_rows.INCOMPATIBLE),
    (r" (BadByte|BadEscape|NestedOpen|BadPath|TooLong|TooMany)$", go_rows.PROFILE),
]


@functools.cache
def names():
    """The first words of the rows of docs/use/GO.md, up to a comma, a semicolon or a colon before a blank."""
    lines = read(script.TOP / "docs/use/GO.md").split("\n")
    return {re.split(r"[,;]|: | \|", line[2:])[0] for line in lines if line.startswith("| ")} - {"What"}


class Differences:
    """Counts by command and kind: SAME, BOTH or the name of a row."""

    def __init__(self):
        self.counts = collections.defaultdict(collections.Counter)
        self.unexplained = 0

    def count(self, command, kind, number=1):
        if kind not in (SAME, BOTH) and kind not in names():
            sys.exit(f"compare-go: docs/use/GO.md has no row '{kind}'")
        self.counts[command][kind] += number

    def add(self, others):
        self.unexplained += others.unexplained
        for command, counts in others.counts.items():
            self.counts[command].update(counts)

    def report(self, where, command, came, wanted, note=""):
        """Counts and prints a difference that has no reason."""
        self.unexplained += 1
        print(f"{where}: {command}: a difference that docs/use/GO.md does not name{note and ': ' + note}")
        for what, text in (("gomod", came), ("go", wanted)):
            print(f"  {what}:")
            for line in text.splitlines() or ["(nothing)"]:
                print(f"    {line}")
        sys.stdout.flush()

    def print(self):
        for command, kinds in self.counts.items():
            print(f"{command}:")
            for kind, number in sorted(kinds.items(), key=lambda it: (it[0] not in (SAME, BOTH), -it[1], it[0])):
                print(f"  {number:6} {kind}")
        print(f"differences that docs/use/GO.md does not name: {self.unexplained}")


# The text of a go.mod, read loosely.


def words_of(line):
    words = re.findall(r'"[^"]*"|`[^`]*`|=>|[()\[\],]|[^\s()\[\],]+', line.partition("//")[0])
    return [it.strip('"`') for it in words]


def pieces_of(text):
    """The directives of a go.mod, each with the comment on its line, and the comment lines."""
    directives, comments, verb = [], [], None
    for line in text.splitlines():
        words, comment = words_of(line), line.partition("//")[2].strip()
        if not words:
            comments += [comment] if "//" in line else []
        elif verb is None and words[-1] == "(":
            verb = words[0]
        elif words == [")"]:
            verb = None
        elif not (verb is None and words[1:] == ["(", ")"]):
            directives.append((verb or words[0], tuple(words if verb else words[1:]), comment))
    return collections.Counter(directives), collections.Counter(comments)


# The comparison.


def left_of(args):
    """What an exclude or a replace is about."""
    return tuple(args[:args.index("=>")] if "=>" in args else args)


def go_faults(text):
    """The modules that go's report blames, each with the classes of gomod that say the same."""
    blamed = list(re.finditer(r"([^\s:@]+@v[^\s:/]+)(?:/go\.mod)?(?: \(replaced by [^)]*\))?: ", text))
    ends = [it.start() for it in blamed[1:]] + [len(text)]
    for name, message in [(it[1], text[it.end():end]) for it, end in zip(blamed, ends)] or [(None, text)]:
        yield name, next((classes for pattern, classes in FAULTS if re.search(pattern, message)), set())


class Comparison:
    """One world, or one cache and main file."""

    def __init__(self, where, commands, found):
        self.where, self.commands, self.found = where, commands, found
        self.replaced = {}

    def both_refuse(self, came, wanted):
        """Whether gomod reports what go does: the module that it blames, or the line of the main file."""
        line = re.match(r"go\.mod:(\d+): (\S+)", came.err)
        if line:
            same = r"conflicting replacements" if line[2] == "ConflictingReplace" else rf"go\.mod:{line[1]}\b"
            return re.search(same, wanted.err) is not None
        faults = re.findall(r"^(\S+@\S+?): (\S+)", came.err, re.M)
        return any(kind in classes and blamed in (None, name, self.replaced.get(name))
                   for name, kind in faults for blamed, classes in go_faults(wanted.err))

    def same_lines(self, came, wanted, is_graph):
        """Whether both printed the same lines; of a graph in any order, and without go's newer kinds of modules."""
        if came.status or wanted.status:
            return False
        ours, theirs = came.out.splitlines(), wanted.out.splitlines()
        if is_graph:
            newer = [it for it in theirs if re.search(r"(^| )(go|toolchain)@\S+", it)]
            theirs = sorted(set(theirs) - set(newer), key=lambda it: it.encode())
            if newer:
                self.found.count("graph", go_rows.NEWER)
            return sorted(set(ours), key=lambda it: it.encode()) == theirs and len(set(ours)) == len(ours)
        return ours == theirs

    def compare_graph(self, main, has_sums):
        """list, graph and chain. Where go updates the main file, gomod reads what that leaves."""
        mod, before = ("readonly" if has_sums else "mod"), read(f"{main}/go.mod")
        wanted = self.commands.ask_go(main, "list", "-m", "all", mod=mod)
        is_refused = "updates to go.mod needed" in wanted.err
        if is_refused or pieces_of(read(f"{main}/go.mod")) != pieces_of(before):
            self.found.count("list", "An untidy main file")
            if is_refused:
                mod, main = "mod", shutil.copytree(main, f"{main}.tidy")
                wanted = self.commands.ask_go(main, "list", "-m", "all", mod=mod)
            if wanted.status:
                return
        if not self.judge("list", main, has_sums, wanted):
            return
        graph = self.commands.ask_go(main, "mod", "graph", mod=mod)
        if self.judge("graph", main, has_sums, graph) and wanted.status == 0 and graph.status == 0:
            self.compare_chains(main, wanted.out.splitlines(), graph.out.splitlines())
            came = self.commands.ask(main, "list", "--proxy", f"{self.commands.cache}/cache/download")
            if not self.same_lines(came, wanted, False):
                self.found.report(self.where, "list", came.text(), wanted.text(), "from the cache that go filled")

    def judge(self, command, main, has_sums, wanted):
        """Whether one command, with --sum if there is a go.sum, has the result of go."""
        came = self.commands.ask_graph(main, command, sums=has_sums)
        kinds = set(re.findall(r"^\S+@\S+: (\S+)$", came.err, re.M)) if has_sums else set()
        name = None
        is_mismatch = "checksum mismatch" in wanted.err
        if kinds == {"SumDiffers"} and not is_mismatch and self.has_second_hashes(main, came):
            name = go_rows.SECOND
        elif "NoSum" in kinds and "missing go.sum entry" not in wanted.err:
            name = "Checksums"
        if name:
            self.found.count(command, name)
            came = self.commands.ask_graph(main, command)
        if self.same_lines(came, wanted, command == "graph"):
            self.found.count(command, SAME)
            return True
        kind = read_by_one(came, wanted)
        if came.status and wanted.status and self.both_refuse(came, wanted):
            kind = BOTH
        elif kind:
            pass
        elif re.search(r"^(\S+@\S+: Malformed|go\.mod:)[ \d]+:? BadVersion$", came.err, re.M):
            kind = go_rows.NOT_CANONICAL
        elif came.status == 0 and self.is_untidy(command, main, wanted):
            kind = "An untidy main file"
        elif command == "list" and came.status == 0 and self.is_unneeded(came, wanted):
            kind = "A file that the list does not need"
        if kind:
            self.found.count(command, kind)
        else:
            self.found.report(self.where, command, came.text(), wanted.text())
        return kind == BOTH

    def is_untidy(self, command, main, wanted):
        """Whether go's result is that of the main file as it updates it, or a refusal as it updates one."""
        rows = dict(it.split(" ")[:2] for it in self.commands.ask_graph(main, "list").out.splitlines()[1:])
        required = [args for verb, args, _ in pieces_of(read(f"{main}/go.mod"))[0] if verb == "require"]
        if all(rows.get(path, version) == version for path, version in required):
            return False
        if wanted.status:
            return True
        copy = shutil.copytree(main, f"{main}.{command}")
        if not any(verb == "go" for verb, _, _ in pieces_of(read(f"{main}/go.mod"))[0]):
            self.commands.ask_go(copy, "mod", "edit", "-go=1.16", mod="")  # an update would write its own version
        self.commands.ask_go(copy, "list", "-m", "all", mod="mod")
        return self.same_lines(self.commands.ask_graph(copy, command), wanted, command == "graph")

    def is_unneeded(self, came, wanted):
        """Whether go refuses the hash of a file that is listed and that gomod does not ask for."""
        rows = [it.split(" ") for it in came.out.splitlines()[1:]]
        names = {"@".join(it[:2]) for it in rows} | {"@".join(it[3:]) for it in rows}
        return any(classes == {"SumDiffers"} and name in names for name, classes in go_faults(wanted.err))

    def has_second_hashes(self, main, came):
        sums = [line.split() for line in read(f"{main}/go.sum").splitlines()]
        names = [f"{path}@{version.removesuffix('/go.mod')}" for path, version, _ in sums]
        blamed = re.findall(r"^(\S+@\S+): ", came.err, re.M)
        return all(names.count(self.replaced.get(it, it)) > 1 for it in blamed)

    def compare_chains(self, main, rows, lines):
        """A chain of gomod takes lines of go's graph, and none that is shorter leads there."""
        edges = collections.defaultdict(list)
        for line in lines:
            left, right = line.split(" ")
            edges[left].append(right)
        levels, queue = {rows[0]: 0}, [rows[0]]
        for step in queue:
            for to in edges[step]:
                if to not in levels:
                    levels[to] = levels[step] + 1
                    queue.append(to)
        for row in random.Random(len(lines)).sample(rows, min(3, len(rows))):
            path, *rest = row.split(" ")
            step = f"{path}@{rest[0]}" if rest else path
            came = self.commands.ask_graph(main, "chain", path)
            steps = came.out.splitlines()
            if (came.status == 0 and steps[:1] == rows[:1] and steps[-1:] == [step] and len(steps) == levels[step] + 1
                    and all(to in edges[at] for at, to in zip(steps, steps[1:]))):
                self.found.count("chain", SAME)
            else:
                self.found.report(self.where, "chain", came.text(), f"a chain to {step} of {levels[step] + 1} steps\n")

    def compare_versions(self, folder, paths, excludes):
        """versions, asked for from a main module that requires nothing."""
        write(f"{folder}/go.mod", "module example.com/asker\n\ngo 1.16\n"
              + "".join(f"exclude {path} {version}\n" for path, version in excludes))
        form = "{{.Path}}{{range .Versions}} {{.}}{{end}}\t{{with .Error}}{{printf \"%q\" .Err}}{{end}}"
        for words in [], ["-retracted"]:
            asked = ["list", "-m", "-e", "-versions", *words, "-f", form, *paths]
            wanted = self.commands.ask_go(folder, *asked, mod="mod")
            rows = dict.fromkeys(paths, ("", "no row"))
            for line in wanted.out.splitlines():
                row, _, error = line.partition("\t")
                rows[row.split(" ")[0]] = row, error
            for path in paths:
                came = self.commands.ask_graph(folder, "versions", path, *(f"-{it}" for it in words))
                kinds = self.kinds_of_row(path, came, *rows[path], words, excludes)
                command = "versions --retracted" if words else "versions"
                self.tell(command, kinds, came.text(), "\n".join(rows[path]), path)

    def tell(self, command, kinds, *report):
        """Counts the kinds of a difference, or reports it if there is none, or one without a name."""
        if not kinds or None in kinds:
            self.found.report(self.where, command, *report)
        for kind in kinds if None not in kinds else []:
            self.found.count(command, kind)

    def kinds_of_row(self, path, came, row, error, words, excludes):
        """The kinds of a difference between the versions of a path that gomod prints and those of go's row."""
        ours, theirs = came.out.split()[1:], row.split(" ")[1:]
        once = list(dict.fromkeys(theirs))
        if came.status == 0 and not error and ours == once:
            return [SAME if once == theirs else go_rows.TWICE]
        lines = read(f"{self.commands.proxy}/{escaped(path)}/@v/list").splitlines()
        listed = [it for it, *_ in map(str.split, filter(str.strip, lines)) if whole(it) and not is_pseudo(it, True)]
        fitting = [it for it in listed if fits(path, it)]
        if came.status == 0 and not error:
            kept = [it for it in once if fits(path, it)]
            shown = [it for it in ours if (path, it) not in excludes]
            if kept == shown:
                told = {go_rows.EXCLUDED: shown != ours, go_rows.MISFITS: kept != once, go_rows.TWICE: once != theirs}
                return [name for name, is_met in told.items() if is_met]
        if not error and fitting and all((path, it) in excludes for it in fitting):
            return [go_rows.EXCLUDED]
        if came.err.endswith("BadVersion\n"):
            return [go_rows.NOT_CANONICAL]
        if not words and latest_of(listed) not in fitting:
            return [go_rows.MISFITS]
        if not words and "+incompatible" in latest_of(fitting):
            return ["The latest version with `+incompatible`"]
        return [BOTH] if came.status and error else []

    def compare_edit(self, main, operations):
        """Compares what operations make of a main file."""
        flags = [f"-{it}" for it in operations]
        wanted = self.commands.ask_go(main, "mod", "edit", "-print", *flags, "go.mod", mod="")
        came = self.commands.ask(main, "edit", "go.mod", *operations)
        note = "edit " + " ".join(f"'{it}'" for it in operations) + "\n" + read(f"{main}/go.mod")
        self.tell("edit", self.kinds_of_edit(main, came, wanted, operations), came.text(), wanted.text(), note)

    def kinds_of_edit(self, main, came, wanted, operations):
        """The kinds of a difference between two edits; none if there is no reason for it."""
        if came.status and wanted.status:
            return [BOTH]
        if came.status:
            number = re.fullmatch(r"edit (\d+): (Misfit|Spelling)\n", came.err)
            if number and number[2] == "Misfit":
                return [go_rows.MISFIT]
            if number and re.search(r"@(v\d+(\.\d+)?|latest|master)$", operations[int(number[1]) - 1]):
                return [go_rows.NOT_CANONICAL]
            faults = {"ConflictingReplace": go_rows.TWO_REPLACES, "BadVersion": go_rows.NOT_CANONICAL}
            return [faults[it] for it in faults if re.fullmatch(rf"go\.mod:\d+: {it}\n", came.err)]
        if wanted.status:
            if "invalid -go" in wanted.err and any(re.fullmatch(r"go=.*(\..*\.|rc).*", it) for it in operations):
                return [go_rows.GO_EDIT]
            return [read_by_one(came, wanted)]
        return self.kinds_of_texts(read(f"{main}/go.mod"), came.out, wanted.out, operations) or [SAME]

    def kinds_of_texts(self, before, came, wanted, operations):
        """The kinds of the differences of two texts; None is one that has no name."""
        cut = any(it.endswith("=./a@b") for it in operations)
        kinds = {go_rows.GRAVE} if cut and "=> ./a b" in wanted else set()
        wanted = wanted.replace("=> ./a b", "=> ./a@b") if kinds else wanted
        whole = re.sub(r"( v\d+\.\d+)(?=\s)", r"\1.0", came)
        kinds |= {go_rows.NOT_CANONICAL} if whole != came else set()
        (ours, our_comments), (theirs, their_comments) = pieces_of(whole), pieces_of(wanted)
        lost = our_comments - their_comments
        if their_comments - our_comments:
            return [None]
        if lost - (lost_by_go(before) | lost_by_go(came)):
            drops = any(it.startswith(("drop", "require", "replace")) for it in operations)
            kinds.add("A comment on a line before an entry that an edit drops" if drops else None)
        elif lost:
            kinds.add(go_rows.DROPPED)
        for verb, args, _ in ours - theirs:
            left = left_of(args)
            kept = [them for it, them, _ in theirs if it == verb and them[:len(left)] == left]
            again = [us for it, us, _ in ours.elements() if it == verb and us[:len(left)] == left]
            if verb == "replace" and is_rewritten(left[0], operations):
                kinds.add(go_rows.REPLACE_IN_ONE_CALL)
            elif verb in ("exclude", "replace") and len(again) > 1 and kept:
                kinds.add(go_rows.DROPPED if args in kept else go_rows.TWO_REPLACES)
            else:
                kinds.add(None)
        for verb, args, _ in theirs - ours:
            if verb == "retract":
                kinds.add(go_rows.RETRACT_IN_ONE_CALL if any("retract=" in it for it in operations) else None)
            else:
                is_named = verb == "replace" and is_rewritten(args[0], operations)
                kinds.add(go_rows.REPLACE_IN_ONE_CALL if is_named else None)
        return [None] if None in kinds else sorted(kinds)

    def compare_layout(self, main, is_laid_out):
        """Compares how a main file is laid out."""
        wanted = self.commands.ask_go(main, "mod", "edit", "-fmt", "-print", "go.mod", mod="")
        came = self.commands.ask(main, "fmt", "go.mod")
        kinds = self.kinds_of_layout(main, came, wanted, is_laid_out)
        self.tell("fmt", kinds, came.text(), wanted.text(), read(f"{main}/go.mod"))

    def kinds_of_layout(self, main, came, wanted, is_laid_out):
        """The kinds of a difference between two layouts; none if there is no reason for it."""
        if came.status and wanted.status:
            return [BOTH]
        if came.status or wanted.status:
            strict = self.commands.ask(main, "edit", "go.mod", "dropretract=v0.0.0")
            if came.status == 0 and self.both_refuse(strict, wanted):
                return ["`fmt` of a file with a faulty directive"]
            if came.status == 0 and re.match(r"go\.mod:\d+: BadVersion$", strict.err, re.M):
                return [go_rows.NOT_CANONICAL]
            return [read_by_one(came, wanted)]
        if came.out == wanted.out:
            return [SAME]
        return [] if is_laid_out else self.kinds_of_texts(came.out, came.out, wanted.out, []) or ["The layout"]


def read_by_one(came, wanted):
    """The row of a file that only one of the two reads, or that they refuse for reasons that differ."""
    if wanted.status:
        return next((row for pattern, row in GO_ALONE if re.search(pattern, wanted.err)), None)
    if came.status:
        return next((row for pattern, row in GOMOD_ALONE if re.search(pattern, came.err, re.M)), None)
    return None


def is_rewritten(path, operations):
    """Whether a replace of all versions of the path is followed by another operation on one of it."""
    at = next((at for at, it in enumerate(operations) if it.startswith(f"replace={path}=")), len(operations))
    return any(re.match(rf"(drop)?replace={re.escape(path)}(?![-\w/.])", it) for it in operations[at + 1:])


def lost_by_go(text):
    """The comment lines that go loses as it formats: of a block that it drops or makes a line, and of repetitions."""
    lost, block, before, inside, comments = collections.Counter(), None, [], [], []
    times = collections.Counter((verb, left_of(args)) for verb, args, _ in pieces_of(text)[0].elements())
    for line in text.splitlines():
        words = words_of(line)
        if not words and "//" in line:
            comments.append(line.strip()[2:].strip())
        elif words and words[-1] == "(" and block is None:
            block, before, inside, comments = words[0], comments, [], []
        elif words == [")"]:
            lost.update(before + comments if len(inside) < 2 else [])
            block, comments = None, []
        elif words:
            verb, left = block or words[0], left_of(words if block else words[1:])
            if verb in ("exclude", "replace") and times[verb, left] > 1:
                lost.update(comments)
            else:
                inside.append(left)
            before, comments = before + comments, []
    return lost
