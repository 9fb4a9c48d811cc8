"""Measures gomod beside other programs. bench/tables.sh starts it, and says what it prints and writes."""
import argparse
import collections
import filecmp
import os
import re
import shutil
import subprocess
import sys
import tempfile
import time
from concurrent.futures import ThreadPoolExecutor

import sets

TOP = sets.TOP
PAGE, README, MANUAL = (f"{TOP}/{it}" for it in ("docs/dev/BENCHMARKS.md", "README.md", "docs/use/COMMANDS.md"))
ROUNDS, SLOW_ROUNDS = 7, 3
SLOW = 1.0  # the seconds from which a program runs in fewer rounds
COUNTED = 10_000  # the modules up to which instructions are counted, which takes 100 times as long
# go reads modules from its cache alone, and writes nothing that stays
GO = {"GOENV": "off", "GOWORK": "off", "GOSUMDB": "off", "GONOSUMDB": "*", "GOPRIVATE": "", "GONOPROXY": "none",
      "GOTOOLCHAIN": "local", "GOVCS": "*:off", "GO111MODULE": "on", "GOTELEMETRY": "off", "GOPROXY": "off",
      "GOFLAGS": "-mod=mod -modcacherw"}

Taken = collections.namedtuple("Taken", "elapsed busy memory")


class Program:
    """A command line with its standard input, its folder, what it finds in the environment, and its status."""

    def __init__(self, *words, reads="-", folder=TOP, settings=None, status=0):
        self.words, self.reads, self.folder, self.status = words, reads, folder, status
        self.settings = {**os.environ, **(settings or {})}


def refuse(message):
    sys.exit(f"tables: {message}")


class Bench:
    """What is measured, and a folder for all files."""

    def __init__(self, work, asked):
        self.work, self.small, self.rounds = work, asked.small, asked.rounds
        self.gomod = asked.program
        self.go = shutil.which(asked.go)
        self.plain = f"{work}/plain" if shutil.which("rustc") else None
        self.has_valgrind = shutil.which("valgrind") is not None
        compiler = os.environ.get("CC") or "cc"
        if not shutil.which(compiler):
            refuse(f"there is no C compiler {compiler}: set CC")
        subprocess.run([compiler, "-O2", "-o", f"{work}/measure", f"{TOP}/bench/measure.c"], check=True)
        if self.plain:
            rustc = ["rustc", "--edition", "2021", "-O", "-o", self.plain, f"{TOP}/bench/plain.rs"]
            subprocess.run(rustc, check=True)

    def run(self, program, output="-"):
        told = subprocess.run([f"{self.work}/measure", program.reads, output, *program.words], cwd=program.folder,
                              env=program.settings, capture_output=True, text=True, check=False)
        if told.returncode:
            refuse(told.stderr.strip())
        elapsed, busy, memory, status = told.stdout.split()
        if int(status) != program.status:
            refuse(f"{' '.join(program.words)[:200]} ended with status {status}: {told.stderr[-500:]}")
        return Taken(float(elapsed), float(busy), int(memory))

    def in_turn(self, programs, same=()):
        """What each program took: the least time of the rounds, and the greatest memory. Before them each ran once, and
        those named in SAME printed the same bytes. What then took more than a second runs in the first three rounds."""
        outputs = {name: f"{self.work}/output{number}" for number, name in enumerate(programs)}
        before = {name: self.run(program, outputs[name]) for name, program in programs.items()}
        alike = [it for it in same if it in programs]
        for name in alike[1:]:
            if not filecmp.cmp(outputs[alike[0]], outputs[name], False):
                refuse(f"{' '.join(programs[name].words)} doesn't print what {' '.join(programs[alike[0]].words)} does")
        taken = collections.defaultdict(list)
        for number in range(self.rounds):
            for name, program in programs.items():
                if number < SLOW_ROUNDS or before[name].busy < SLOW:
                    taken[name].append(self.run(program))
        return {name: Taken(min(it.elapsed for it in runs), min(it.busy for it in runs), max(it.memory for it in runs))
                for name, runs in taken.items()}

    def instructions(self, programs):
        """How many millions of instructions each program takes, by valgrind, as many at once as there are
        processors."""
        def count(program):
            counter = ["valgrind", "--tool=callgrind", "--callgrind-out-file=/dev/null"]
            told = subprocess.run([*counter, *program.words], cwd=program.folder, env=program.settings, check=False,
                                  stdin=subprocess.DEVNULL, stdout=subprocess.DEVNULL, stderr=subprocess.PIPE)
            found = re.search(rb"Collected : (\d+)", told.stderr)
            return int(found[1]) / 1e6 if found else None

        with ThreadPoolExecutor(len(os.sched_getaffinity(0))) as pool:
            return list(pool.map(count, programs))

    def last_path(self, *words):
        """The last path that `gomod list` prints."""
        listed = subprocess.run([self.gomod, "list", *words], stdout=subprocess.PIPE, text=True, check=True).stdout
        return listed.splitlines()[-1].split(" ")[0]

    def with_go(self, *words, folder, cache, **settings):
        """A go command with a module cache."""
        scratch = {"HOME": self.work, "GOPATH": f"{self.work}/gopath", "GOCACHE": f"{self.work}/gocache"}
        return Program(self.go, *words, folder=folder, settings={**GO, **scratch, "GOMODCACHE": cache, **settings})


# How figures are shown.


def seconds(it):
    if it < 0.0995:
        return f"{round(it * 1e3, 1) if it < 0.00995 else round(it * 1e3):g} ms"
    return f"{it:.2f} s" if it < 9.95 else f"{it:.0f} s"


def megabytes(it):
    return f"{round(it / 1e6, 1) if it < 9.95e6 else round(it / 1e6):g} MB"


def shown(taken):
    return f"{seconds(taken.elapsed)}, {megabytes(taken.memory)}" if taken else ""


def with_busy(taken):
    """The same, with CPU seconds."""
    return f"{seconds(taken.elapsed)} ({seconds(taken.busy)}), {megabytes(taken.memory)}" if taken else ""


def span(ratios, form):
    return f"{min(ratios):{form}} to {max(ratios):{form}}"


def table(head, rows):
    return "".join(f"| {' | '.join(it)} |\n" for it in [head, ["---"] * len(head), *rows])


# The tables. Each function returns what stands between the marks of that name, by the name.


class GraphTimes:
    """What the programs took over one graph."""

    def __init__(self, bench, name, label):
        self.label, self.folder = label, f"{bench.work}/{name}"
        files = (name for _, _, names in os.walk(f"{self.folder}/proxy") for name in names)
        self.modules = sum(name.endswith(".mod") for name in files)
        main = ["--mod", f"{self.folder}/go.mod", "--proxy", f"{self.folder}/proxy"]
        self.programs = {"list": Program(bench.gomod, "list", *main)}
        if bench.plain:
            words = [bench.plain, main[1], main[3]]
            with open(f"{self.folder}/names", "w", encoding="utf-8") as names:
                subprocess.run([*words, "--names"], stdout=names, check=True)
            self.programs["plain"] = Program(*words)
            self.programs["files"] = Program(bench.plain, "--read", f"{self.folder}/names")
        self.programs["sum"] = Program(bench.gomod, "list", *main, "--sum", f"{self.folder}/go.sum")
        self.programs["graph"] = Program(bench.gomod, "graph", *main)
        self.programs["chain"] = Program(bench.gomod, "chain", bench.last_path(*main), *main)
        self.cold = self.lay_go(bench, name) if bench.go else None
        self.took = bench.in_turn(self.programs, ("list", "plain", "sum", "go"))
        self.counted = {}

    def lay_go(self, bench, name):
        """Makes a folder for go, whose cache is the proxy itself, and returns what go took with an empty cache."""
        main, cache = f"{self.folder}/main", f"{self.folder}/cache"
        os.makedirs(main)
        os.makedirs(f"{cache}/cache")
        os.symlink(f"{self.folder}/proxy", f"{cache}/cache/download")
        shutil.copy(f"{self.folder}/go.mod", main)
        words = ("list", "-m", "all")
        self.programs["go"] = bench.with_go(*words, folder=main, cache=cache)
        if name not in ("example", "scattered1000", "scattered10000"):
            return None
        proxy = f"file://{self.folder}/proxy"
        return bench.run(bench.with_go(*words, folder=main, cache=f"{self.folder}/cold", GOPROXY=proxy))

    def beside_go(self):
        go = self.took.get("go")
        return [self.label, shown(self.took["list"]), shown(go), seconds(go.busy) if go else "", shown(self.cold)]

    def part(self, name, field="busy", of="list"):
        """What a program took as a part of what another took."""
        took = self.took
        return getattr(took[name], field) / getattr(took[of], field) if name in took and of in took else None

    def beside_plain(self):
        ratios = [self.part("list", of="plain"), self.part("list", "memory", "plain")]
        ratios += [self.part(it) for it in ("sum", "graph", "chain", "files")]
        counts = [f"{self.counted[it]:,.1f}" if self.counted.get(it) else "" for it in ("list", "plain")]
        plain = self.took.get("plain")
        return [self.label, seconds(self.took["list"].busy), seconds(plain.busy) if plain else "",
                *["" if it is None else f"{it:.2f}" for it in ratios], *counts]


def graph_tables(bench):
    sets.make_graphs(bench.work, bench.small)
    graphs = [GraphTimes(bench, name, label) for name, label, *_ in sets.graphs(bench.small)]
    if bench.has_valgrind:
        small = [it for it in graphs if it.modules <= COUNTED]
        asked = [(it, name) for it in small for name in ("list", "plain") if name in it.programs]
        counts = bench.instructions([graph.programs[name] for graph, name in asked])
        for (graph, name), count in zip(asked, counts):
            graph.counted[name] = count
    summary = memory = ""
    if bench.plain:
        parts = [[it.part("list", field, "plain") for it in graphs[1:]] for field in ("busy", "memory")]
        summary = f"`list` takes {span(parts[0], '.2f')} times the CPU time of a lean unverified Rust program.\n"
        memory = f"It takes {span(parts[1], '.1f')} times the memory"
    go = table(["Modules", "`gomod list`", "`go list -m all`, warm cache", "its CPU time", "cold cache"],
               [it.beside_go() for it in graphs])
    columns = ["Modules", "`list`", "Plain program", "Time", "Memory", "`--sum`", "`graph`", "`chain`", "Files alone",
               "Millions of instructions", "Plain program"]
    plain = table(columns, [it.beside_plain() for it in graphs])
    each = [f"{it.took['list'].busy * 1e6 / it.modules:.1f} at {it.modules:,}" for it in graphs[1:4]]
    plain += f"\n{summary}\n{memory or 'It takes'}, and microseconds for each module: {', '.join(each)}.\n"
    readme = [it.beside_go()[:3] for it in graphs[1:4]]
    speed = table(["Modules", "`gomod list`", "`go list -m all`, warm cache"], readme) + f"\n{summary}"
    return {"go": go, "plain": plain, "speed": speed}


def version_table(bench):
    lines, fitting = sets.make_versions(bench.work, bench.small)
    words = (bench.gomod, "versions", "example.com/p")
    programs = {
        f"`gomod versions`, {lines:,} lines": Program(*words, reads=f"{bench.work}/list"),
        "`sort -V -u` of them": Program("sort", "-V", "-u", f"{bench.work}/list", settings={"LC_ALL": "C"}),
        f"`gomod versions --proxy`, the {fitting:,} lines that fit the path":
            Program(*words, "--proxy", f"{bench.work}/fitting"),
    }
    if bench.go:
        programs["`go list -m -versions` of them"] = bench.with_go(
            "list", "-m", "-versions", "example.com/p", folder=f"{bench.work}/asker", cache=f"{bench.work}/asked",
            GOPROXY=f"file://{bench.work}/fitting")
    programs[f"`gomod versions --proxy`, {lines:,} lines and as many retractions"] = Program(
        *words, "--proxy", f"{bench.work}/retracting")
    for name, what in ("one-line", "in one line"), ("line-ends", "of line ends"), ("nuls", "of NULs"):
        size = os.path.getsize(f"{bench.work}/{name}") >> 20
        programs[f"`gomod versions`, {size} MiB {what}"] = Program(*words, reads=f"{bench.work}/{name}")
    took = bench.in_turn(programs)
    return {"versions": table(["", "Time and memory"], [[name, with_busy(it)] for name, it in took.items()])}


def format_table(bench):
    count, limit = sets.make_unformatted(bench.work, bench.small)
    files = {f"{count:,} requirements": "unformatted.mod", f"{limit >> 20} MiB of line ends": "ends.mod"}
    programs = {}
    for name in files.values():
        words = {"gomod": (bench.gomod, "fmt"), "cat": ("cat",)}
        programs |= {(who, name): Program(*it, f"{bench.work}/{name}") for who, it in words.items()}
        if bench.go:
            words = "mod", "edit", "-fmt", "-print", f"{bench.work}/{name}"
            programs["go", name] = bench.with_go(*words, folder=bench.work, cache=f"{bench.work}/none")
    took = bench.in_turn(programs)
    rows = [[what, *(with_busy(took.get((who, name))) for who in ("gomod", "go")), seconds(took["cat", name].elapsed)]
            for what, name in files.items()]
    return {"fmt": table(["File", "`gomod fmt`", "`go mod edit -fmt -print`", "`cat`"], rows)}


def sum_table(bench):
    written, short = sets.make_sums(bench.work, bench.small)
    files = {f"{written:,} lines as the go command writes them": "written.sum", f"{short:,} short lines": "short.sum",
             "one short line, as often": "equal.sum", "line ends": "ends.sum"}
    ten = ["list", "--mod", f"{bench.work}/ten/go.mod", "--proxy", f"{bench.work}/ten/proxy"]
    programs = {}
    for name in files.values():
        file = f"{bench.work}/{name}"
        programs["gomod", name] = Program(bench.gomod, *ten, "--sum", file)
        programs["sort", name] = Program("sort", "--parallel=1", "-u", file, settings={"LC_ALL": "C"})
    took = bench.in_turn(programs)
    rows = [[what, *(with_busy(took[who, name]) for who in ("gomod", "sort"))] for what, name in files.items()]
    return {"sums": table(["Of 16 MiB" if not bench.small else "Of 1 MiB", "`gomod list --sum`", "`sort -u`"], rows)}


def edit_table(bench):
    """The rows of bench/edit.sh, whose programs run once in each of its runs."""
    path = f"{os.path.dirname(bench.go)}:{os.environ['PATH']}" if bench.go else os.environ["PATH"]
    settings = {**os.environ, **GO, "PATH": path, "BENCH_RUNS": "1", "BENCH_PROGRAM": bench.gomod}
    taken, above = collections.defaultdict(list), ""
    for _ in range(bench.rounds):
        told = subprocess.run([f"{TOP}/bench/edit.sh", *["--small"] * bench.small], env=settings, text=True, check=True,
                              stdout=subprocess.PIPE).stdout
        for found in re.finditer(r"(?m)^( *)(.*?) +([\d.]+) s, CPU +([\d.]+) s, +(\d+) MB$", told):
            above = above if found[1] else re.sub(r" \(goal.*\)", "", found[2])
            taken[above, bool(found[1])].append(Taken(float(found[3]), float(found[4]), int(found[5]) * 10**6))
    best = {name: Taken(min(it.elapsed for it in runs), min(it.busy for it in runs), max(it.memory for it in runs))
            for name, runs in taken.items()}
    rows = [[re.sub(r"\d{4,}", lambda it: f"{int(it[0]):,}", name), with_busy(it), with_busy(best.get((name, True)))]
            for (name, is_go), it in best.items() if not is_go]
    return {"edit": table(["", "`gomod edit`", "`go mod edit`"], rows)}


def stranger_table(bench):
    """Files that are made to be slow, or to take memory."""
    rows = []
    for name, what, size in sets.make_strange(bench.work, bench.small):
        folder = f"{bench.work}/{name}"
        words = "--mod", f"{folder}/go.mod", "--proxy", f"{folder}/proxy"
        last = bench.last_path(*words)
        took = bench.in_turn({"list": Program(bench.gomod, "list", *words),
                              "chain": Program(bench.gomod, "chain", last, *words)})
        rows.append([what, megabytes(size), *map(with_busy, took.values())])
    return {"strangers": table(["Input", "Its size", "`gomod list`", "`gomod chain`"], rows)}


def growth_table(bench):
    """The CPU time and memory that each command takes for one more of what grows, on the worst of some shapes."""
    rows, columns = collections.defaultdict(dict), ["list", "graph", "chain", "versions", "fmt", "edit"]
    for what, number, commands in sets.make_growth(bench.work, bench.small):
        took = bench.in_turn({name: Program(bench.gomod, *words) for name, words in commands.items()})
        for name, it in took.items():
            before = rows[what].get(name, (0, 0))
            rows[what][name] = max(before[0], it.busy / number), max(before[1], it.memory / number)
    body = [[what, *(f"{seconds(row[it][0])}, {megabytes(row[it][1])}" if it in row else "" for it in columns)]
            for what, row in rows.items()]
    version = subprocess.run([bench.gomod, "--version"], capture_output=True, text=True, check=True).stdout.split()
    measured_with = f"\nVersion {' '.join(version[1:])}; {machine()}.\n"
    return {"growth": table(["One more", *(f"`{it}`" for it in columns)], body) + measured_with}


# Which blocks each function makes.
TABLES = {"edit": edit_table, "fmt": format_table, "sums": sum_table, "versions": version_table,
          "strangers": stranger_table, "growth": growth_table, "graphs": graph_tables}
SHOWN = {README: ["speed"], MANUAL: ["growth"],
         PAGE: ["measured", "go", "plain", "versions", "fmt", "edit", "sums", "strangers"]}


def version_of(*words):
    found = re.search(r"\d+\.\d+\.\d+", subprocess.run(words, capture_output=True, text=True, check=True).stdout)
    return found[0]


def git(*words):
    return subprocess.run(["git", "-C", TOP, *words], capture_output=True, text=True, check=True).stdout.strip()


def machine():
    with open("/proc/cpuinfo", encoding="utf-8") as file:
        model = re.search(r"model name\s*: (.*)", file.read())[1]
    return f"{len(os.sched_getaffinity(0))} processors of {re.sub(r'[(](R|TM)[)]', '', model)}, x86-64 Linux"


def measured(bench, commit, load, began):
    """What was measured, beside what, where and how."""
    nothing = bench.in_turn({"true": Program("true"), "gomod": Program(bench.gomod, "--version")})
    beside = [f"go {version_of(bench.go, 'version')}"] if bench.go else []
    beside += [f"rustc {version_of('rustc', '--version')}"] if bench.plain else []
    return (f"Measured at `{commit}`.\n\n{machine()}; {', '.join(beside)}; load {load:.1f} at the beginning, "
            f"{bench.rounds} rounds, {(time.monotonic() - began) / 60:.1f} minutes. Of the CPU time, "
            f"{seconds(nothing['true'].busy)} is what the smallest program takes to start, and "
            f"{seconds(nothing['gomod'].busy)} what `gomod --version` takes.\n")


def marked(name, block):
    return f"<!-- show {name} -->\n{block}<!-- end -->"


def with_blocks(path, blocks):
    """The text of a document with these blocks between its marks."""
    with open(path, encoding="utf-8") as file:
        text = file.read()
    for name in SHOWN[path]:
        mark = rf"(?ms)^<!-- show {name} -->$.*?^<!-- end -->$"
        text, count = re.subn(mark, lambda _, it=marked(name, blocks.get(name, "")): it, text)
        if count != 1:
            refuse(f"{os.path.relpath(path, TOP)} hasn't once the mark '<!-- show {name} -->'")
    return text


def refuse_to_write(asked):
    """Ends unless the whole is measured with the program that the gate left, beside go and a plain program."""
    if asked.small or asked.only not in ("", "growth") or asked.program or asked.rounds < ROUNDS:
        refuse(f"--write takes all tables, or growth, in {ROUNDS} rounds or more, of bin/gomod")
    lack = [it for it in ("rustc", "valgrind", asked.go) if not shutil.which(it)]
    if lack and not asked.only:
        refuse(f"--write needs {', '.join(lack)}; --go names a go command")
    newer = subprocess.run(["bash", "-c", ". tools/lib.sh; newer_source"], cwd=TOP, capture_output=True, check=False)
    if newer.returncode or newer.stdout:
        refuse("bin/gomod isn't there, or older than a source")
    if git("status", "--porcelain", "--", "*.rt"):
        refuse("a .rt file has changes that aren't committed")
    for path in SHOWN:
        with_blocks(path, {})
    sums = subprocess.run(["sha256sum", "--check", "--status"], cwd=TOP, input=gate_sum(), text=True, check=False)
    if sums.returncode:
        refuse("bin/gomod isn't the program of bin/gate.txt, which .ci/run leaves if all is proved")


def gate_sum():
    """The line of bin/gate.txt with the sha256 of the program."""
    if not os.path.exists(f"{TOP}/bin/gate.txt"):
        refuse("there is no bin/gate.txt: .ci/run leaves it if all is proved")
    with open(f"{TOP}/bin/gate.txt", encoding="utf-8") as file:
        return "".join(it for it in file if it.endswith("  bin/gomod\n"))


def main():
    parser = argparse.ArgumentParser(description=__doc__, formatter_class=argparse.RawDescriptionHelpFormatter)
    parser.add_argument("--small", action="store_true", help="small files, to see in a minute whether it runs")
    parser.add_argument("--write", action="store_true", help="write the tables into the documents")
    parser.add_argument("--only", default="", metavar="TABLE,..", help=", ".join(TABLES))
    parser.add_argument("--go", default="go", metavar="COMMAND")
    parser.add_argument("--program", metavar="FILE", help="another program than bin/gomod")
    parser.add_argument("--rounds", type=int, default=ROUNDS)
    asked = parser.parse_args()
    names = asked.only.split(",") if asked.only else list(TABLES)
    if not set(names) <= set(TABLES) or asked.rounds < 1:
        parser.error(f"--only takes names out of {', '.join(TABLES)}, --rounds a number of 1 or more")
    if asked.write:
        refuse_to_write(asked)
    asked.program = os.path.abspath(asked.program or f"{TOP}/bin/gomod")
    if not os.access(asked.program, os.X_OK):
        refuse(f"there is no {asked.program}: ./build makes bin/gomod")
    began, load, blocks = time.monotonic(), os.getloadavg()[0], {}
    is_own = asked.program == f"{TOP}/bin/gomod"
    commit = git("log", "-1", "--format=%h", "--abbrev=8", "--", "*.rt") if is_own else "no commit"
    with tempfile.TemporaryDirectory(prefix="gomod-bench-") as work:
        bench = Bench(work, asked)
        for name in names:
            made = TABLES[name](bench)
            for block in made:
                print(marked(block, made[block]), flush=True)
            print(f"tables: {name}, {time.monotonic() - began:.0f} s", file=sys.stderr, flush=True)
            blocks |= made
        blocks["measured"] = measured(bench, commit, load, began)
        print(marked("measured", blocks["measured"]))
        # many small files: rm is faster than python
        subprocess.run(["rm", "-rf", *(it.path for it in os.scandir(work) if it.is_dir())], check=True)
    if asked.write:
        if "speed" in blocks:
            blocks["speed"] += f"\nMeasured at `{commit}`.\n"
        for path, text in {it: with_blocks(it, blocks) for it in SHOWN if blocks.keys() >= {*SHOWN[it]}}.items():
            with open(path, "w", encoding="utf-8") as file:
                file.write(text)
    return 0


if __name__ == "__main__":
    sys.exit(main())
