"""Makes the files that bench/tables.py measures with: the same bytes at each run."""
import base64
import hashlib
import json
import os
import random
import shutil
import sys
from multiprocessing import Pool

TOP = os.path.dirname(os.path.dirname(os.path.abspath(__file__)))
LIMIT = 1 << 24  # the greatest file that gomod takes


def write(name, text):
    os.makedirs(os.path.dirname(name), exist_ok=True)
    with open(name, "w", encoding="ascii", newline="") as file:
        file.write(text)


def hash_of(text):
    line = hashlib.sha256(text.encode("ascii")).hexdigest() + "  go.mod\n"
    return "h1:" + base64.b64encode(hashlib.sha256(line.encode("ascii")).digest()).decode("ascii")


class Graph:
    """A proxy folder, a main file and a go.sum, in a folder. Requirements stand as the go command leaves them, in the
    order of their paths and each once."""

    def __init__(self, folder):
        self.folder, self.sums, self.made = folder, [], set()

    def add(self, path, version, requirements, go=""):
        place = f"{self.folder}/proxy/{path}/@v"
        if place not in self.made:
            self.made.add(place)
            os.makedirs(place)
        lines = "".join(f"\t{p} {v}\n" for p, v in sorted(requirements))
        text = f"module {path}\n\n{go}require (\n{lines})\n"
        self.sums.append(f"{path} {version}/go.mod {hash_of(text)}\n")
        with open(f"{place}/{version}.mod", "w", encoding="ascii") as file:
            file.write(text)
        # the go command wants it; gomod doesn't look at it
        with open(f"{place}/{version}.info", "w", encoding="ascii") as file:
            file.write(f'{{"Version":"{version}","Time":"2020-01-01T00:00:00Z"}}')

    def end(self, requirements, go="1.16"):
        lines = "".join(f"\t{p} {v}\n" for p, v in sorted(requirements))
        write(f"{self.folder}/go.mod", f"module example.com/main\n\ngo {go}\n\nrequire (\n{lines})\n")
        write(f"{self.folder}/go.sum", "".join(sorted(self.sums)))


def scattered(graph, count, width):
    """A path has up to three versions, each a module of its own."""
    chance = random.Random(1)
    modules = [(f"example.com/m{place // 3:05d}", f"v1.{place % 3}.0") for place in range(count)]
    for place, (path, version) in enumerate(modules):
        # the next one in the list, so that all are reached, and others anywhere
        next_one = modules[(place + 1) % count]
        others = [module for module in chance.sample(modules, width) if module != next_one]
        graph.add(path, version, [next_one] + others[: width - 1])
    graph.end(chance.sample(modules, 20))


def deep(graph, count):
    modules = [(f"example.com/d{place:05d}", "v1.0.0") for place in range(count)]
    for place, (path, version) in enumerate(modules):
        graph.add(path, version, modules[place + 1:place + 2])
    graph.end(modules[:1])


def flat(graph, count):
    modules = [(f"example.com/f{place:05d}", "v1.0.0") for place in range(count)]
    for path, version in modules:
        graph.add(path, version, [])
    graph.end(modules)


def pruned(graph, count):
    chance = random.Random(1)
    modules = [(f"example.com/p{place:05d}", "v1.0.0") for place in range(count)]
    for path, version in modules:
        graph.add(path, version, chance.sample(modules, 5), "go 1.20\n\n")
    graph.end(modules[: count // 4], "1.17")


def example(graph):
    """The repository's example, with what the go command wants."""
    proxy = f"{graph.folder}/proxy"
    shutil.copytree(f"{TOP}/example/cache/download", proxy)
    for name in "go.mod", "go.sum":
        shutil.copy(f"{TOP}/example/{name}", graph.folder)
    for place, _, names in os.walk(proxy):
        for name in names:
            version, ending = os.path.splitext(name)
            if ending == ".mod":
                write(f"{place}/{version}.info", json.dumps({"Version": version, "Time": "2020-01-01T00:00:00Z"}))


def graphs(small):
    """The graphs: the name of a folder, what it is, and what makes it, with its arguments."""
    counts = (50, 100, 500) if small else (1_000, 10_000, 65_000)
    wide, width = (100, 50) if small else (1_000, 200)
    high, broad, cut = (500, 500, 200) if small else (65_000, 65_535, 10_000)
    return [
        ("example", "the four of `example/`", example),
        *[(f"scattered{it}", f"{it:,}, five requirements each", scattered, it, 5) for it in counts],
        ("wide", f"{wide:,}, {width} requirements each", scattered, wide, width),
        ("deep", f"{high:,} in a chain", deep, high),
        ("flat", f"{broad:,} that the main file requires", flat, broad),
        ("pruned", f"{cut:,} at go 1.17, of which {cut // 4:,} are read", pruned, cut),
    ]


def make_graph(work, name, make, *arguments):
    folder = f"{work}/{name}"
    os.makedirs(folder)
    make(Graph(folder), *arguments)


def make_graphs(work, small):
    found = [(work, name, *how) for name, _, *how in graphs(small)]
    with Pool() as pool:
        pool.starmap(make_graph, sorted(found, key=lambda it: -it[3] if len(it) > 3 else 0), 1)


def make_versions(work, small):
    """A list of versions: releases, pre-releases, pseudo-versions, words that are none, and repeats of each; a proxy
    with that list, whose latest version retracts as many; one with its lines that fit the path; and odd lists."""
    count, limit = (20_000, LIMIT // 16) if small else (1_000_000, LIMIT)
    chance, lines = random.Random(1), []
    for _ in range(count):
        kind = chance.random()
        version = f"v{chance.randrange(2)}.{chance.randrange(500)}.{chance.randrange(2000)}"
        if lines and kind < 0.20:
            lines.append(chance.choice(lines))
        elif kind < 0.65:
            lines.append(version)
        elif kind < 0.83:
            lines.append(f"{version}-{chance.choice(['alpha', 'beta', 'rc'])}.{chance.randrange(100)}")
        elif kind < 0.91:
            lines.append(f"v0.0.0-{chance.randrange(20120101000000, 20251231235959)}-{chance.randrange(16**12):012x}")
        elif kind < 0.96:
            lines.append(f"v{chance.randrange(2, 9)}.{chance.randrange(500)}.{chance.randrange(2000)}")
        else:
            lines.append(chance.choice(["master", "", "v1.2", "release-1.x", "v1.02.3", "v1.2.3+meta", "# a comment"]))
    text = "\n".join(lines) + "\n"
    write(f"{work}/list", text)
    write(f"{work}/retracting/example.com/p/@v/list", text + "v1.500.0\n")
    retractions = []
    for place in range(count):
        low = f"v{chance.randrange(2)}.{chance.randrange(500)}.{chance.randrange(2000)}"
        high = f"{low.rpartition('.')[0]}.{chance.randrange(2000)}"
        retractions.append(f"[{low},{high}]" if place % 8 == 0 else low)
    text = "module example.com/p\n\nretract (\n" + "\n".join(retractions) + "\n)\n"
    write(f"{work}/retracting/example.com/p/@v/v1.500.0.mod", text)
    fitting = [it for it in [*lines, "v1.500.0"] if it[:2] in ("v0", "v1")]
    write(f"{work}/fitting/example.com/p/@v/list", "".join(f"{it}\n" for it in fitting))
    write(f"{work}/fitting/example.com/p/@v/v1.500.0.mod", "module example.com/p\n")
    write(f"{work}/fitting/example.com/p/@v/v1.500.0.info", '{"Version": "v1.500.0"}\n')
    write(f"{work}/asker/go.mod", "module example.com/m\n\ngo 1.16\n")
    for name, byte in [("one-line", "v"), ("line-ends", "\n"), ("nuls", "\0")]:
        write(f"{work}/{name}", byte * limit)
    return len(lines), len(fitting)


def make_unformatted(work, small):
    """A go.mod that isn't formatted, and one of line ends."""
    count, limit = (10_000, LIMIT // 16) if small else (400_000, LIMIT)
    lines = ["module example.com/big", "", "go 1.21", "", "require ("]
    for number in range(count):
        comment = " //indirect" if number % 4 == 0 else ""
        lines.append(f"  example.com/module{number:06d}   v1.{number % 40}.{number % 7}{comment}")
    write(f"{work}/unformatted.mod", "\n".join([*lines, ")"]) + "\n")
    write(f"{work}/ends.mod", "module example.com/big".ljust(limit, "\n"))
    return count, limit


def make_sums(work, small):
    """Four go.sum files, which end with the hashes of ten modules: as the go command writes them, with the hash of a
    module and that of its go.mod, in no order; of short lines; of one line again and again; and of line ends."""
    limit, chance = LIMIT // 16 if small else LIMIT, random.Random(1)
    graph = Graph(f"{work}/ten")
    modules = [(f"example.com/bench{place}", "v1.0.0") for place in range(10)]
    for place, (path, version) in enumerate(modules):
        graph.add(path, version, [modules[(place + 1) % 10]])
    graph.end(modules[:1])
    last = "".join(graph.sums)

    def any_hash():
        return "h1:" + base64.b64encode(chance.randbytes(32)).decode("ascii")

    lines, size = [], len(last)
    while True:
        path = f"github.com/{chance.choice('abcdefghij')}{chance.randrange(10**4)}/m{chance.randrange(10**5)}"
        version = f"v{chance.randrange(2)}.{chance.randrange(100)}.{chance.randrange(20)}"
        pair = f"{path} {version} {any_hash()}\n{path} {version}/go.mod {any_hash()}\n"
        size += len(pair)
        if size > limit:
            break
        lines.append(pair)
    # each a line of 16 bytes that the table holds
    letters = "abcdefghijklmnopqrstuvwxyz0123456789-_.~ABCDEFGHIJKLMNOPQRSTUVWXYZ"
    count = (limit - len(last)) // 16
    short = ["".join(chance.choice(letters) for _ in range(3)) + " /go.mod h1:\n" for _ in range(count)]
    for name, text, fill in [("written", "".join(lines), "\n"), ("short", "".join(short), "\n"),
                             ("equal", "", "abc /go.mod h1:\n"), ("ends", "", "\n")]:
        write(f"{work}/{name}.sum", text + fill * ((limit - len(text) - len(last)) // len(fill)) + last)
    return 2 * len(lines), count


def make_strange(work, small):
    """Inputs that are made to be slow, or to take memory: the name of a folder, what it is, and its size."""
    found = []
    shared = [(200, 200), (400, 400)] if small else [(8_000,) * 2, (16_000,) * 2, (32_000,) * 2, (60_000, 300_000)]
    for count, required in shared:
        # What has the last row is required by the module that a search comes to last.
        name, one, two = f"shared{count}", "example.com/one", "example.com/two"
        versions = "".join(f"\t{one} v1.0.{it}\n" for it in range(count))
        write(f"{work}/{name}/go.mod",
              "module example.com/main\n\ngo 1.17\n\n"
              f"replace {one} => ./one\n\nreplace {two} => ./two\n\nrequire (\n{versions}\t{two} v1.0.0\n)\n")
        write(f"{work}/{name}/two/go.mod", f"module {two}\n\ngo 1.17\n\nrequire example.com/two/last v1.0.0\n")
        needs = "".join(f"\texample.com/needed{it} v1.0.0\n" for it in range(required))
        write(f"{work}/{name}/one/go.mod", f"module {one}\n\ngo 1.17\n\nrequire (\n{needs})\n")
        os.makedirs(f"{work}/{name}/proxy")
        found.append((name, f"{count:,} versions that share a file of {required:,} requirements"))
    count, limit = (5, LIMIT // 16) if small else (60, LIMIT)
    graph = Graph(f"{work}/long")
    modules = [(f"example.com/long{place}", "v1.0.0") for place in range(count)]
    for path, version in modules:
        graph.add(path, version, [], ("// " + "x" * 60 + "\n") * ((limit - 100) // 64))
    graph.end(modules)
    found.append(("long", f"{count} files of {limit >> 20} MiB"))
    return [(name, what, size_of(f"{work}/{name}")) for name, what in found]


# What takes most time or memory of a file that a stranger wrote: a head, a piece again and again, whose %d is a number,
# and a tail.
MAIN = [("", "\n", ""), ("tool (\n", "a\n", ")\n"), ("exclude (\n", "a v0.0.%d\n", ")\n")]
OTHER = [("", "a\n", ""), ("require (\n", "a v0.0.%d\n", ")\n"), ("a ", ",", "\n")]
SUMS = [("", "a v0.0.0/go.mod h1:\n", ""), ("", "a v0.0.%d/go.mod h1:\n", "")]
LISTS = [("", "v0.0.0\n", ""), ("", "v0.0.%d\n", ""), ("", "v0.0.0-%d\n", "")]
LATEST = [("retract (\n", "[v0.0.0,v0.0.%d]\n", ")\n"), OTHER[-1]]


def grown(size, begin, head, piece, tail):
    """A text of a size."""
    room = size - len(begin + head + tail)
    if "%" not in piece:
        return begin + head + piece * (room // len(piece)) + tail
    count = room // len(piece % 10**6)
    return begin + head + "".join(piece % it for it in range(10**6, 10**6 + count)) + tail


def make_growth(work, small):
    """Files that grow: what does, how many of it there are, and the words of the commands that read it."""
    top, size, count = f"{work}/growth", LIMIT // 16 if small else LIMIT, 400 if small else 4_000
    main, proxy, sums = f"{top}/go.mod", f"{top}/proxy", f"{top}/go.sum"
    begin, other = "module m.x/m\n\ngo 1.17\n\n", "module e.x/d\n\ngo 1.17\n\n"
    own, words = f"{proxy}/e.x/d/@v", ["--mod", main, "--proxy", proxy]
    graphs = {"list": ["list", *words], "graph": ["graph", *words], "chain": ["chain", "e.x/d", *words]}
    files = {"fmt": ["fmt", main], "edit": ["edit", main, "go=1.16", "require=z.x/z@v1.0.0"]}
    shown = {"versions": ["versions", "e.x/d", "--proxy", proxy]}

    def lay(versions, text=other):
        """A main file that requires versions of a module, all with one file."""
        shutil.rmtree(own, ignore_errors=True)
        write(f"{own}/v1.0.0.mod", text)
        for it in range(1, versions):
            os.link(f"{own}/v1.0.0.mod", f"{own}/v1.0.{it}.mod")
        write(main, begin + "require (\n" + "".join(f"e.x/d v1.0.{it}\n" for it in range(versions)) + ")\n")

    lay(1)
    for shape in MAIN:
        write(main, grown(size, f"{begin}require e.x/d v1.0.0\n", *shape))
        yield "MiB of the main file", size / 2**20, {**graphs, **files}
    for shape in OTHER:
        lay(1, grown(size, other, *shape))
        yield "MiB of a dependency's file", size / 2**20, graphs
    lay(1)
    for shape in SUMS:
        write(sums, f"e.x/d v1.0.0/go.mod {hash_of(other)}\n" + grown(size - 100, "", *shape))
        yield "MiB of a go.sum", size / 2**20, {name: [*it, "--sum", sums] for name, it in graphs.items()}
    for shape in LISTS:
        write(f"{own}/list", grown(size, "v1.0.0\n", *shape))
        yield "MiB of a version list", size / 2**20, shown
    write(f"{own}/list", "".join(f"v0.0.{it}\n" for it in range(10**5)) + "v1.0.0\n")
    for shape in LATEST:
        write(f"{own}/v1.0.0.mod", grown(size, other, *shape))
        yield "MiB of the latest version's file", size / 2**20, shown
    lay(15 * count)
    yield "thousand names of a small file", 15 * count / 1e3, graphs
    lay(count)
    with open(main, "a", encoding="ascii") as file:
        file.write("replace e.x/d => ./one\n")
    write(f"{top}/one/go.mod", other + "".join(f"require a.b/{it} v1.0.0\n" for it in range(count)))
    yield "million edges, lines of 32 bytes", count * count / 1e6, graphs


def size_of(folder):
    files = (os.path.join(place, name) for place, _, names in os.walk(folder) for name in names)
    return sum(os.path.getsize(it) for it in files if it.endswith(".mod"))


if __name__ == "__main__":
    print(__doc__, end="")
    sys.exit()
