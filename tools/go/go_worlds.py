"""Random module worlds for tools/go/compare_go.py: a proxy folder, a main module, and folders that replace modules."""
import base64
import collections
import hashlib
import json
import os
import random
import re
import zipfile

from script import write

RELEASES = ["v0.1.0", "v0.2.0", "v1.0.0", "v1.1.0", "v1.2.0-rc.1", "v1.2.0", "v1.10.0"]
PSEUDO = ["v0.0.0-20200101000000-0123456789ab", "v1.2.0-rc.1.0.20200102000000-0123456789ab",
          "v1.2.1-0.20200103000000-0123456789ab"]
INCOMPATIBLE = ["v2.0.0+incompatible", "v3.1.0+incompatible"]
PATHS = {
    **{f"example.com/{name}": RELEASES + PSEUDO + INCOMPATIBLE for name in "abcde"},
    "example.com/a/v2": ["v2.0.0", "v2.1.0", "v2.0.1-0.20200104000000-0123456789ab"],
    "example.com/a-b": RELEASES,
    "github.com/Azure/Sdk": RELEASES + PSEUDO,
    "gopkg.in/y.v1": ["v1.0.0", "v1.1.0", "v0.0.0-20200105000000-0123456789ab"],
    "gopkg.in/z.v2-unstable": ["v2.0.0", "v2.1.0"],
    "example.com/fork": RELEASES[2:],
}
UNFETCHABLE = {"local": ["v0.0.0", "v1.0.0"], "corp/tool": ["v1.0.0"]}
OLD, NEW = ["1.11", "1.14", "1.16", None], ["1.17", "1.18", "1.19"]


def escaped(name):
    return re.sub("[A-Z]", lambda it: "!" + it[0].lower(), name)


def unescaped(name):
    return re.sub("!([a-z])", lambda it: it[1].upper(), name)


def lay_version(proxy, path, version, text):
    """Lays the files of a version in a proxy folder: its .info and, if there is one, its go.mod."""
    base = f"{proxy}/{escaped(path)}/@v/{escaped(version)}"
    write(f"{base}.info", json.dumps({"Version": version, "Time": "2020-01-01T00:00:00Z"}))
    if text is not None:
        write(f"{base}.mod", text)


def hash_of(text):
    line = hashlib.sha256(text.encode()).hexdigest() + "  go.mod\n"
    return "h1:" + base64.b64encode(hashlib.sha256(line.encode()).digest()).decode()


def order_of(version):
    """The place of a version in the order of SemVer, of two that fit one path."""
    core, _, pre = version[1:].partition("+")[0].partition("-")
    parts = [(0, int(it), "") if it.isdigit() else (1, 0, it) for it in pre.split(".")]
    return [int(it) for it in core.split(".")], not pre, parts


def latest_of(versions):
    releases = [it for it in versions if "-" not in it]
    return max(releases or versions, key=lambda it: (order_of(it), it), default="")


def fits(path, version):
    """Whether a version is canonical and fits the path."""
    if whole(version) != version:
        return False
    major = version[1:].split(".")[0]
    suffix = re.search(r"(?:/v|^gopkg\.in/.*\.v)(\d+)(?:-unstable)?$", path)
    if suffix:
        return suffix[1] == major and "+" not in version
    return ("+incompatible" in version) == (int(major) > 1)


# what go takes for blanks in lists and the like, those past ASCII from the seventh on
SPACES = "".join(chr(it) for it in range(0x3001) if chr(it).isspace() and it not in range(0x1C, 0x20))
BYTES = "[\udc80-\udcff]"  # those that are not UTF-8
BIG = 2**64
SEMVER = re.compile(r"v(\d+)(?:\.(\d+)(?:\.(\d+)(-[0-9A-Za-z.-]+)?(\+[0-9A-Za-z.-]+)?)?)?", re.A)


def whole(version):
    """A version with all three numbers, and without another build than +incompatible; None if a text is none to go."""
    found = SEMVER.fullmatch(version)
    pre = (found[4] or "-x")[1:].split(".") + (found[5] or "+x")[1:].split(".") if found else [""]
    if not all(pre) or any(re.fullmatch(r"0\d+", it or "", re.A) for it in [*found.groups()[:3], *pre]):
        return None
    numbers = ".".join(it or "0" for it in found.groups()[:3])
    return f"v{numbers}{found[4] or ''}{found[5] if found[5] == '+incompatible' else ''}"


def is_big(version):
    """Whether one of the three numbers is too great for gomod."""
    return any(int(it or 0) >= BIG for it in SEMVER.match(version).groups()[:3])


def is_pseudo(version, is_go):
    """Whether go or gomod takes a version for a pseudo-version."""
    third = r"\d+" if is_go else r"[1-9]\d*"
    form = rf"v\d+\.(0\.0-|\d+\.\d+-[^+]+\.0\.|\d+\.{third}-0\.)\d{{14}}-[A-Za-z0-9]+(\+incompatible)?"
    return re.fullmatch(form, version, re.A) is not None


def goes_with(path, version):
    """Whether go takes the major number of a version for the path."""
    is_without = "+incompatible" in version and fits(path, "v2.0.0+incompatible")
    return is_without or fits(path, version.removesuffix("+incompatible"))


def is_import_path(text):
    """Whether go takes a text for a path of an import, which is all that it checks of most paths."""
    name = r"(?!\.+(/|$)|(?i:con|prn|aux|nul|com[1-9]|lpt[1-9])(\.|/|$)|[^/.]*~\d+(\.|/|$))[\w.~+-]*[\w~+-]"
    return re.fullmatch(rf"(?!-){name}(/{name})*", text, re.A) is not None


def must_quote(word):
    """Whether go writes a word in quotes."""
    word = re.sub(BYTES, "\ufffd", word)
    return (re.search(r"[ \"'`]|//|/\*|^$", word) is not None or not word.isprintable()
            or len(word) > 1 and re.search(r"[()\[\]{},]", word) is not None)


def has_major(path):
    """Whether the end of a path is a major version, or none."""
    if path.startswith("gopkg.in/"):
        return re.search(r"\.v(0|[1-9]\d*(-unstable)?)$", path) is not None
    end = re.search(r"./v([\d.]+)$", path)
    return not end or re.fullmatch(r"[2-9]|[1-9]\d+", end[1]) is not None


def is_fetchable(path):
    return re.match(r"(?!-)[a-z0-9-]*\.[a-z0-9.-]*(/|$)", path) is not None


def is_path(text):
    """Whether gomod takes a text for the path of a module."""
    return is_import_path(text.lstrip("-")) and not re.search(r"\+|(^|/)\.", text) and has_major(text)


# A module that go can tidy: each module has a package by which it is imported, and one that imports what it needs
# alone.
TIDY = {
    "example.com/Used": ("1.17", ["example.com/far", "example.com/needed"], ["example.com/needed"]),
    "example.com/needed": ("1.17", ["example.com/far", "example.com/old"], ["example.com/old"]),
    "example.com/old": ("1.16", ["example.com/older"], []),
    "example.com/older": ("1.16", [], []),
    "example.com/far": ("1.17", ["example.com/farther"], []),
    "example.com/farther": ("1.17", [], []),
}


def lay_tidy_world(proxy, main):
    """A proxy with packages, and a main module that imports one of them, so that go can tidy it: then its modules are
    pruned, and it requires those that packages come from."""
    for path, (go, needs, imports) in TIDY.items():
        name = path.split("/")[1].lower()
        text = f"module {path}\n\ngo {go}\n" + "".join(f"\nrequire {it} v1.0.0\n" for it in needs)
        files = {
            "go.mod": text,
            f"{name}.go": f"package {name}\n" + "".join(f'import _ "{it}"\n' for it in imports),
            "all/all.go": "package all\n" + "".join(f'import _ "{it}"\n' for it in needs),
        }
        base = f"{proxy}/{escaped(path)}/@v"
        write(f"{base}/list", "v1.0.0\n")
        lay_version(proxy, path, "v1.0.0", text)
        with zipfile.ZipFile(f"{base}/v1.0.0.zip", "w") as file:
            for name, text in files.items():
                file.writestr(f"{path}@v1.0.0/{name}", text)
    write(f"{main}/go.mod", "module example.com/main\n\ngo 1.17\n")
    write(f"{main}/main.go", 'package main\n\nimport _ "example.com/Used"\n\nfunc main() {}\n')


class World:
    """A file-system proxy, a main module, and folders that replace modules; all from one number."""

    def __init__(self, seed, room):
        self.random, self.room = random.Random(seed), room
        self.proxy, self.main = f"{room}/proxy", f"{room}/main"
        self.needs, self.texts, self.folders = {}, {}, {}
        self.name = self.random.choice(["example.com/main", "example.com/main", "main"])
        self.style = self.random.choice([OLD, NEW, OLD + NEW])
        self.is_faulty = self.chance(0.2)
        self.make_modules()
        self.requires, self.excludes, self.replaces, self.retracts = {}, [], {}, []
        self.go = self.random.choice(self.style)
        self.make_main()
        self.lay()

    def chance(self, share):
        return self.random.random() < share

    def some(self, things, low, high):
        things = list(things)
        return self.random.sample(things, min(len(things), self.random.randint(low, high)))

    def make_modules(self):
        """Makes the modules, their versions and their files."""
        self.versions = {}
        for path in self.some(PATHS, 4, len(PATHS)):
            self.versions[path] = self.some(PATHS[path], 1, 6)
        if self.chance(0.2):
            self.versions.update(UNFETCHABLE)
        for path, versions in self.versions.items():
            for version in versions:
                self.texts[path, version] = self.module_text(path, version)

    def some_version(self, path):
        return self.random.choice(self.versions[path])

    def module_text(self, path, version):
        """The file of a module, with up to three requirements."""
        go = self.random.choice(self.style)
        pool = [it for it in self.versions if it != path and (it not in UNFETCHABLE or self.chance(0.05))]
        needs = [(it, self.some_version(it)) for it in self.some(pool, 0, 3)]
        if self.chance(0.05):
            needs.append((self.name, "v1.0.0")) if "." in self.name else None
        self.needs[path, version] = needs
        lines = [f"module {path}" + (" // Deprecated: no longer kept" if self.chance(0.03) else "")]
        lines += [f"go {go}"] if go else []
        if len(needs) > 1 and self.chance(0.7):
            lines += ["require (", *(f"\t{it} {at}" for it, at in needs), ")"]
        else:
            lines += [f"require {it} {at}" for it, at in needs]
        if self.chance(0.2):
            lines.append(f"exclude {self.a_need()}")
        if self.chance(0.1):
            lines.append(f"replace {self.a_need()} => ../else")
        if self.chance(0.5):
            lines += self.retractions(path)
        if self.chance(0.03):
            lines += ["unknown verb", "unknown (", "\tin a block", ")"]
        return "\n".join(lines) + "\n"

    def a_need(self):
        path = self.random.choice(list(self.versions))
        return f"{path} {self.some_version(path)}"

    def retractions(self, path):
        fit = PATHS.get(path) or UNFETCHABLE[path]
        low, high = sorted(self.random.sample(fit, 2) if len(fit) > 1 else fit * 2, key=order_of)
        return self.random.choice([[f"retract {low}"], [f"retract [{low}, {high}]"],
                                   ["retract (", f"\t{high} // bad", f"\t[{low}, {low}]", ")"]])

    def make_main(self):
        """Makes what the main file requires, excludes and replaces."""
        pool = [it for it in self.versions if it not in UNFETCHABLE or self.chance(0.4)]
        for path in self.some(pool, 1, 6):
            self.requires[path] = self.some_version(path)
        for path in self.some(self.versions, 0, 2) if self.chance(0.5) else []:
            self.excludes.append((path, self.some_version(path)))
        for path in UNFETCHABLE:
            if path in self.versions and self.chance(0.9):
                self.replace(path, None)
        for path in self.some(PATHS, 0, 2) if self.chance(0.6) else []:
            known = self.versions.get(path, PATHS[path])
            self.replace(path, self.random.choice([None, self.random.choice(known)]))
        if self.chance(0.2):
            self.retracts = ["v1.0.0", "[v1.1.0, v1.2.0]"][:self.random.randint(1, 2)]
        if self.chance(0.7):
            self.raise_roots()

    def replace(self, path, version):
        """A right side: a folder, or a module."""
        forks = [it for it in self.versions if it not in UNFETCHABLE]
        if path in UNFETCHABLE or self.chance(0.5):
            base = f"{path.replace('/', '_')}{len(self.folders)}"
            places = [f"./local/{base}", f"../side/{base}", f"{self.room}/far/{base}", f"./dir/{base}/"]
            folder = self.random.choice(places)
            before = self.needs.get((path, version), [])
            text = self.module_text(path, version)
            needs, self.needs[path, version] = self.needs[path, version], before
            if self.chance(0.2):
                text = text.split("\n", 1)[1]
            self.folders[folder] = None if self.is_faulty and self.chance(0.2) else text
            self.replaces[path, version] = (folder, needs)
            return
        fork = self.random.choice([path] if path in self.versions and self.chance(0.3) else forks)
        at = self.some_version(fork)
        self.replaces[path, version] = (f"{fork} {at}", self.needs[fork, at])
        if fork != path and self.chance(0.8):
            self.texts[fork, at] = self.texts[fork, at].replace(f"module {fork}", f"module {path}", 1)

    def raise_roots(self):
        """What is required is raised to what all requirements together select, so that the file is tidy."""
        while True:
            seen, queue = set(), list(self.requires.items())
            while queue:
                pair = queue.pop()
                if pair in seen or pair in self.excludes:
                    continue
                seen.add(pair)
                right = self.replaces.get(pair) or self.replaces.get((pair[0], None))
                queue += right[1] if right else self.needs.get(pair, [])
            raised = {path: max((v for p, v in seen if p == path), key=order_of, default=version)
                      for path, version in self.requires.items()}
            if raised == self.requires:
                return
            self.requires = raised

    def main_text(self):
        """The main file, half of the time as go lays it out."""
        groups = [
            ("require", sorted(f"{path} {version}" + self.random.choice(["", "", " // indirect"])
                               for path, version in self.requires.items())),
            ("exclude", sorted(f"{path} {version}" for path, version in self.excludes)),
            ("replace", sorted(f"{path}{' ' + version if version else ''} => {right}"
                               for (path, version), (right, _) in self.replaces.items())),
            ("retract", self.retracts[::-1]),
        ]
        self.is_laid_out = self.chance(0.5)
        if self.chance(0.05):
            self.is_laid_out = False
            groups.append(self.random.choice([
                ("require", ["example.com/a v1.2"]), ("require", ["example.com/a v5.0.0"]), ("unknown", ["verb"]),
                ("require", ["example.com/a"]), ("go", ["1.16"]), ("replace", ["example.com/a => else"]),
                ("replace", ["example.com/a => ./one", "example.com/a => ./two"]),
            ]))
        if self.is_laid_out:
            parts = [f"module {self.name}"] + ([f"go {self.go}"] if self.go else [])
            for verb, entries in groups:
                if len(entries) == 1:
                    parts.append(f"{verb} {entries[0]}")
                elif entries:
                    parts.append(f"{verb} (\n" + "".join(f"\t{it}\n" for it in entries) + ")")
            return "\n\n".join(parts) + "\n"
        lines = [[f"module {self.name}"]] + ([[f"go  {self.go}"]] if self.go else [])
        for verb, entries in groups:
            self.random.shuffle(entries)
            entries = [re.sub(r"^\S+", lambda it: f'"{it[0]}"', it) if self.chance(0.05) else it for it in entries]
            if entries and self.chance(0.1):
                entries.append(entries[0])
            at = self.random.randint(0, len(entries))
            lines += [[f"{verb}   {it}"] for it in entries[:at]]
            if entries[at:] or self.chance(0.1):
                lines.append([f"{verb}(", *(f"  {it}" for it in entries[at:]), ")"])
        tail = lines[1:]
        self.random.shuffle(tail)
        text = ""
        for block in lines[:1] + tail:
            for line in block:
                remark = f"{self.random.choice(['', '   '])}// remark {self.random.randint(1, 99)}\n"
                text += (remark if self.chance(0.1) else "") + line
                text += "  // why" if self.chance(0.05) and not line.endswith(("(", ")")) and "//" not in line else ""
                text += "\n" * (2 if self.chance(0.1) else 1)
            text += "\n" * self.random.randint(0, 2)
        return text

    def lay(self):
        """Lays the proxy folder, some of whose files may be missing or faulty, and the main module."""
        texts = dict(self.texts)
        for pair in self.some(texts, 1, 2) if self.is_faulty else []:
            texts[pair] = self.random.choice([
                None, None, texts[pair].replace("module ", "module example.com/other/", 1),
                texts[pair] + "require (\n", texts[pair] + "require example.com/a v1.2\n",
                texts[pair] + "require example.com/a v7.0.0\n", texts[pair] + "require example.com/a\n",
                "require example.com/b v1.0.0\n", texts[pair] + "go 1.17.x.y\n",
            ])
        if "." in self.name and self.chance(0.9):
            texts[self.name, "v1.0.0"] = f"module {self.name}\n"
        lists = collections.defaultdict(list)
        for (path, version), text in texts.items():
            base = f"{self.proxy}/{escaped(path)}/@v"
            lists[base] += [version] * (not re.search(r"\d{14}-", version) or self.chance(0.2))
            lay_version(self.proxy, path, version, text)
        for base, versions in lists.items():
            extra = self.random.choice(
                [[]] * 8 + [["v9.0.0"], ["master", "v1.2"], ["v1.4.0 2020-01-01T00:00:00Z"], versions[:1]])
            if extra and extra[0] == "v1.4.0" and "/v2" in base:
                extra = []
            write(f"{base}/list", "".join(f"{it}\n" for it in versions + extra))
            if extra == ["v9.0.0"]:
                path = next(path for path, _ in texts if f"/{escaped(path)}/@v" in base)
                lay_version(self.proxy, path, "v9.0.0", f"module {path}\n")
        for folder, text in self.folders.items():
            if text is not None:
                write(os.path.normpath(os.path.join(self.main, folder, "go.mod")), text)
        write(f"{self.main}/go.mod", self.main_text())
        self.lay_sums(texts)

    def lay_sums(self, texts):
        """Lays the go.sum, or none; it may lack lines, or have wrong or second ones."""
        self.sums = self.random.choice(["all"] * 6 + ["none", "none", "lacking", "wrong", "second"])
        lines = [[pair, hash_of(text)] for pair, text in sorted(texts.items()) if text is not None]
        odd = self.some(range(len(lines)), 1, 3)
        if self.sums == "lacking":
            lines = [it for at, it in enumerate(lines) if at not in odd]
        elif self.sums == "wrong":
            for at in odd:
                lines[at][1] = hash_of("another")
        elif self.sums == "second":
            lines += [[lines[at][0], hash_of("another")] for at in odd]
        if self.sums != "none":
            write(f"{self.main}/go.sum", "".join(f"{p} {v}/go.mod {it}\n" for (p, v), it in lines))


def operations(some, requires, replaces, excludes):
    """Operations of an edit, most of them about what a file has, by the random numbers of SOME."""
    def is_rare(share):
        return some.random() < share

    def path():
        return some.choice([*requires, *PATHS])

    def version(of):
        return "v9.1.0" if is_rare(0.05) else some.choice(PATHS.get(of, ["v1.0.0"]))

    found = []
    for _ in range(some.randint(1, 4)):
        one = path()
        old, known = some.choice([*replaces, (one, None)]), [*excludes, (one, version(one))]
        left, away = old[0] + (f"@{old[1]}" if old[1] else ""), "%s@%s" % some.choice(known)
        span = some.choice(["v1.0.0", "[v1.1.0,v1.2.0]", "[v1.1.0, v1.2.0]", "v1.3.0", "[v1.3.0,v1.3.0]"])
        span = "v3.0.0" if is_rare(0.03) else span
        found.append(some.choice([
            "go=" + some.choice(["1.15", "1.18", "1.20", "1.21.0", "1.22rc1"]),
            "module=example.com/renamed", f"require={one}@{version(one)}", f"require={one}@{version(one)}",
            f"droprequire={one}", f"droprequire={one}", f"exclude={one}@{version(one)}", f"exclude={away}",
            f"dropexclude={away}", f"replace={left}=./here", f"replace={one}={path()}@v1.0.0",
            f"replace={one}@{version(one)}=../there", f"dropreplace={left}", f"dropreplace={one}",
            f"retract={span}", f"dropretract={span}",
            *[f"require={one}@v1.2", f"replace={one}=./a@b"] * is_rare(0.2),
        ]))
    return found
