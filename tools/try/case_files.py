"""Reads the cases of crates/run_cases/data, lays their files, and says what a folder has.

docs/dev/CASES.md has the form of a case. program.py runs their command lines.
"""

import contextlib
import hashlib
import os
import re
import shutil
import socket
import stat
import threading

DATA = "crates/run_cases/data"
ESCAPE = re.compile(rb'\\(?:(n|r|t|0|\\|"|x[0-9a-fA-F]{2})|\*([0-9]+)\*(?:\(([^)]*)\)|(.)))', re.S)
SIMPLE = {b"n": b"\n", b"r": b"\r", b"t": b"\t", b"0": b"\0", b"\\": b"\\", b'"': b'"'}
NO_LINE_END = b"\\ No newline at end of file"
# what the version of a proved program has, and that of an unproved one in its place
PROVED, UNPROVED = re.compile(rb"(\(Rattle, )logic [0-9a-f]{16}\)"), rb"\1nothing is proved)"
COPY = re.compile(rb"-- .* copy (\S+) --")
# The pieces that only a case in the folder program can have, and how many bytes a pipe takes before it is read.
PIPES, PIPE_ROOM = (b"fifo", b"pipe"), 65536
# How many names a file with the same text as others has.
LINKS = 1000
# The most files of which the contents are compared too.
HASHED = 5000


def meant(escape):
    simple, count, group, byte = escape.groups()
    if count:
        return all_numbered(group, int(count)) if byte is None else byte * int(count)
    return SIMPLE[simple] if simple in SIMPLE else bytes([int(simple[1:], 16)])


def unescaped(text):
    return ESCAPE.sub(meant, text)


def words_of(line):
    """The words of a command, or of the header of a file."""
    words = []
    for single, double, bare in re.findall(rb"""'([^']*)'|"((?:\\.|[^"\\])*)"|([^ ]+)""", line):
        several = re.fullmatch(rb"\*(\d+)\*(.*)", bare, re.S)
        if several:
            words.extend(each_numbered(several[2], int(several[1])))
        else:
            words.append(bare or single or unescaped(double))
    return words


def each_numbered(text, most):
    """A text with each number up to the greatest, of as many digits as that has."""
    digits = len(str(most))
    return (text.replace(b"{n}", b"%0*d" % (digits, it)) for it in range(1, most + 1))


def all_numbered(text, most):
    return b"".join(each_numbered(text, most)) if b"{n}" in text else text * most


def greatest_sizes(least, sizes):
    """The sizes that a case is run at: the greatest of a range, which has a least one, or each of a list."""
    return sizes


def moderate_sizes(least, sizes):
    """The same for runs that need not be large: in a range about 1,000, in a list up to 20,000 if there are such."""
    if least is not None:
        return [min(max(least, 1000), *sizes)]
    return [it for it in sizes if it <= 20_000] or [min(sizes)]


def quick_sizes(least, sizes):
    """The same for quick runs: in a range an eighth of what is over 131,072, but no less than that."""
    return sizes if least is None else [min(it, max(it // 8, 131_072)) for it in sizes]


def sizes_of(lines, choose):
    found = lines[1:] and re.fullmatch(rb"% sizes (?:(\d+) to )?(\d+(?:, \d+)*)", lines[1])
    if not found:
        return []
    return choose(found[1] and int(found[1]), [int(it) for it in found[2].split(b", ")])


def at_size(lines, size):
    text = b"\n".join([lines[0], b"", *lines[2:]])
    for place, number in ((b"{N}", size), (b"{N-1}", size - 1), (b"{N+1}", size + 1)):
        text = text.replace(place, b"%d" % number)
    return text.split(b"\n")


class Run:
    """A command of a case: its words, what it writes to both streams, its status, and the files that it opens."""

    def __init__(self, line, text):
        self.line, self.text, self.words = line, text, words_of(text)
        self.out, self.report, self.status = b"", b"", 0
        self.opened = None  # the names of the files, in order; None if the case doesn't say

    def take(self, line):
        """Takes a line below the command."""
        found = re.match(rb"([>!])(?:\*(\d+))?(\\)?(?: |$)(.*)$", line, re.S)
        if found:
            mark, count, escape, text = found.groups()
            stream = "out" if mark == b">" else "report"
            before = getattr(self, stream)
            if text == NO_LINE_END and not count and not escape:
                setattr(self, stream, before[:-1])
                return
            text = unescaped(text) if escape else text + b"\n"
            setattr(self, stream, before + (all_numbered(text, int(count)) if count else text))
        elif line.startswith(b"? "):
            self.status = int(line[2:])
        elif line == b"@" or line.startswith(b"@ "):
            self.opened = [*(self.opened or []), *([line[2:]] if line[2:] else [])]

    def told(self, what=""):
        return f"line {self.line}{what}: $ {self.text.decode()}"

    def wanted(self, is_proved):
        """The output, the report and the status, given whether the program says that it is proved."""
        return self.out if is_proved else PROVED.sub(UNPROVED, self.out), self.report, self.status

    def reads_input(self):
        if self.words[1:2] == [b"versions"]:
            return not any(it.startswith(b"--proxy") for it in self.words)
        return any(it in (b"-", b"--mod=-", b"--sum=-") for it in self.words[2:])


class Piece:
    """A file, folder or other thing that a case has."""

    def __init__(self, header):
        words = words_of(header)
        self.name, self.kind, self.argument, self.lines = words[0], b"".join(words[1:2]), b"".join(words[2:3]), []

    def text(self):
        """The text of the lines."""
        text = b""
        for line in self.lines:
            if line == NO_LINE_END:
                text = text[:-1]
            else:
                text += (unescaped(line) if self.kind == b"escaped" else line) + b"\n"
        return text

    def bytes_of(self, copies):
        """The bytes of the file."""
        if self.kind == b"copy":
            return copies[self.argument]
        if self.kind == b"fill":
            line = self.lines[0]
            return line + line[-1:] * (int(self.argument) - 1 - len(line)) + b"\n"
        if self.kind == b"repeat":
            return all_numbered(self.text(), int(self.argument))
        return self.text()

    def lay_each(self, place):
        """Makes each of its files, given the place with `{n}` in it."""
        most, text, first, made = int(self.argument), self.text(), None, None
        for number, (one, own) in enumerate(zip(each_numbered(place, most), each_numbered(text, most))):
            if os.path.dirname(one) != made:
                made = os.path.dirname(one)
                os.makedirs(made, exist_ok=True)
            if b"{n}" not in text and number % LINKS:
                # a link to a file with the same text takes a tenth of the time
                os.link(first, one)
                continue
            first = one
            with open(one, "wb") as file:
                file.write(own)

    def has_mode(self):
        """Whether its mode keeps others than root from it."""
        return self.kind == b"mode" or (self.kind == b"folder" and self.argument != b"")

    def lay(self, folder, copies):
        """Makes it in a folder. The mode of a folder is set after all are laid."""
        place = os.path.join(folder, self.name)
        if self.kind == b"pipe":
            return
        os.makedirs(os.path.dirname(place), exist_ok=True)
        if self.kind == b"folder":
            os.makedirs(place, exist_ok=True)
        elif self.kind == b"link":
            os.symlink(self.argument, place)
        elif self.kind == b"fifo":
            os.mkfifo(place)
        elif self.kind == b"socket":
            # the name of a socket has at most 107 bytes
            with socket.socket(socket.AF_UNIX) as it, working_in(os.path.dirname(place)):
                it.bind(os.path.basename(place))
        elif self.kind == b"repeat" and b"{n}" in self.name:
            self.lay_each(place)
        else:
            with open(place, "ab") as file:
                file.write(self.bytes_of(copies))
            if self.kind == b"mode":
                os.chmod(place, int(self.argument, 8))


class Case:
    """A title, commands and files."""

    def __init__(self, line, title):
        self.line, self.title, self.runs, self.pieces, self.copies = line, title, [], [], {}
        self.is_sized, self.has_streams, self.memory = False, False, None

    def is_hungry(self):
        """Whether a command takes much memory for it, so that no other such case should run beside it."""
        return self.has_over(900_000, 1 << 30)

    def is_large(self):
        """Whether its commands ask for memory so often that refusing each time would take hours."""
        return self.has_over(64, 100_000)

    def has_over(self, repeats, size):
        """Whether something is repeated more often than so, or a line is filled to more than a size."""
        most = {b"repeat": repeats, b"fill": size}
        return any(it.kind in most and int(it.argument) > most[it.kind] for it in self.pieces)

    def end(self):
        """Drops the blank line before the next title."""
        if self.pieces and self.pieces[-1].lines[-1:] == [b""]:
            self.pieces[-1].lines.pop()

    def take(self, number, line):
        """Takes a line, given its number."""
        if line.startswith(b"-- ") and line.endswith(b" --"):
            self.pieces.append(Piece(line[3:-3]))
        elif self.pieces:
            self.pieces[-1].lines.append(line)
        elif line.startswith(b"% memory "):
            self.memory = int(line[9:]) << 20
        elif line == b"% streams":
            self.has_streams = True
        elif line.startswith(b"$ "):
            self.runs.append(Run(number, line[2:]))
        elif self.runs:
            self.runs[-1].take(line)

    def has(self, *kinds):
        return any(it.kind in kinds for it in self.pieces)

    def commands(self):
        """Its command lines, without the calls."""
        return [it for it in self.runs if it.words[0] == b"gomod"]

    def is_rooted(self):
        return any(it.name.startswith(b"/") and it.kind != b"pipe" for it in self.pieces)

    def stdin(self):
        return self.text_of(b"stdin")

    def text_of(self, name):
        return b"".join(it.bytes_of(self.copies) for it in self.pieces if it.name == name and it.kind != b"folder")

    def lay(self, folder):
        """Makes its files in a folder."""
        pieces = [it for it in self.pieces if it.name != b"stdin"]
        for piece in pieces:
            piece.lay(folder, self.copies)
        for piece in pieces:
            if piece.kind == b"folder" and piece.has_mode():
                os.chmod(os.path.join(folder, piece.name), int(piece.argument, 8))

    @contextlib.contextmanager
    def fed(self, folder):
        """Gives a command what it can read from pipes: writes to each FIFO that it opens, and gives the descriptors."""
        threads, given = [], []
        for piece in self.pieces:
            text = piece.bytes_of(self.copies) if piece.kind in PIPES else b""
            assert len(text) <= PIPE_ROOM
            if piece.kind == b"fifo":
                threads.append((threading.Thread(target=feed, args=(os.path.join(folder, piece.name), text)), piece))
                threads[-1][0].start()
            elif piece.kind == b"pipe":
                given.append(int(os.path.basename(piece.name)))
                reader, writer = os.pipe()
                os.dup2(reader, given[-1])
                os.write(writer, text)
                os.close(reader)
                os.close(writer)
        try:
            yield given
        finally:
            for thread, piece in threads:
                # one that nobody opened is opened here, so that its thread ends
                release(os.path.join(folder, piece.name), thread)
            for number in given:
                os.close(number)


def feed(place, text):
    with contextlib.suppress(BrokenPipeError), open(place, "wb", buffering=0) as file:
        file.write(text)


def release(place, thread):
    while thread.is_alive():
        os.close(os.open(place, os.O_RDONLY | os.O_NONBLOCK))
        thread.join(0.01)


@contextlib.contextmanager
def working_in(folder):
    """Makes a folder the current one."""
    before = os.open(".", os.O_RDONLY)
    os.chdir(folder)
    try:
        yield
    finally:
        os.fchdir(before)
        os.close(before)


def case_of(first, lines, is_sized, copies):
    """The case of these lines, the first of which has this number."""
    case = Case(first, lines[0][4:].decode())
    case.is_sized, case.copies = is_sized, copies
    for number, line in enumerate(lines[1:], first + 1):
        case.take(number, line)
    case.end()
    return case


def lines_of_cases(path, choose):
    """What `case_of` takes, for each case of a file that has a command line, at each size that is chosen."""
    with open(path, "rb") as file:
        lines = file.read().removesuffix(b"\n").split(b"\n")
    titles = [at for at, line in enumerate(lines) if line.startswith(b"=== ")]
    for begin, end in zip(titles, [*titles[1:], len(lines)]):
        if not any(it.startswith(b"$ gomod") for it in lines[begin:end]):
            continue
        copies = {}
        for found in filter(None, map(COPY.fullmatch, lines[begin:end])):
            with open(os.path.join(DATA.encode(), found[1]), "rb") as file:
                copies[found[1]] = file.read()
        sizes = sizes_of(lines[begin:end], choose)
        for own in [at_size(lines[begin:end], it) for it in sizes] or [lines[begin:end]]:
            yield begin + 1, own, bool(sizes), copies


def chosen_cases(words, choose):
    """The file of each case that words name, by it or a text in its title, or of all, and what `case_of` takes."""
    folders = DATA, os.path.join(DATA, "sizes"), os.path.join(DATA, "program")
    every = [os.path.join(data, it) for data in folders for it in sorted(os.listdir(data)) if it.endswith(".txt")]
    titles = [it.encode() for it in words if not it.endswith(".txt")]
    return [
        (path, *it)
        for path in [it for it in words if it.endswith(".txt")] or every
        for it in lines_of_cases(path, choose)
        if not titles or any(title in it[1][0] for title in titles)
    ]


def bytes_below(folder):
    return sum(os.path.getsize(os.path.join(at, name)) for at, _, names in os.walk(folder) for name in names)


def content_of(place, state):
    """What says whether a file, folder or link has changed, beside its state: a hash of a file, a link's target."""
    try:
        if stat.S_ISLNK(state.st_mode):
            return os.readlink(place)
        if stat.S_ISREG(state.st_mode):
            with open(place, "rb") as file:
                return hashlib.blake2b(file.read()).digest()
    except PermissionError:
        pass
    return None


def state_of(place, state, is_hashed):
    """What a tree says of a place. When a FIFO changed isn't part of it, since it is written to here."""
    if stat.S_ISFIFO(state.st_mode):
        return (state.st_mode,)
    return state.st_mode, state.st_size, state.st_mtime_ns, content_of(place, state) if is_hashed else None


def tree_of(folder):
    """Each file and folder from one on, with its mode, its size, when it was changed, and the hash of its content. Of
    more than HASHED files the hashes are left out."""
    found = {folder: os.lstat(folder)}
    for at, folders, names in os.walk(folder):
        for name in folders + names:
            with contextlib.suppress(PermissionError):
                found[os.path.join(at, name)] = os.lstat(os.path.join(at, name))
    is_hashed = len(found) <= HASHED
    return {place: state_of(place, it, is_hashed) for place, it in found.items()}


@contextlib.contextmanager
def laid(case, top, watched, wrong):
    """Gives the folder of a case, which is laid below a new one that goes at the end. What changed meanwhile in the
    folders that are watched is wrong."""
    folder = os.path.join(top, b"main")
    os.makedirs(folder)
    try:
        case.lay(folder)
        before = {place: it for one in watched for place, it in tree_of(one).items()}
        yield folder
        differing = changed(before, {place: it for one in watched for place, it in tree_of(one).items()})
        if differing:
            wrong.append(f"  files that were made, changed or removed: {differing}")
    finally:
        remove(top)


def shown(what, out, report, status):
    """A result, as lines below what it is."""
    lines = [
        f"{mark} {line}"
        for mark, text in ((">", out), ("!", report))
        for line in text[:2000].decode("utf-8", "replace").splitlines()
    ]
    return "\n".join([f"  {what}:", *lines, f"? {status}"])


def changed(before, after):
    return sorted(it for it in {**before, **after} if before.get(it) != after.get(it))


def remove(folder):
    """Removes a folder with all that it has, whatever the modes of its folders are."""
    for at, folders, _ in os.walk(folder):
        for name in folders:
            place = os.path.join(at, name)
            if not os.path.islink(place):
                os.chmod(place, 0o700)
    shutil.rmtree(folder)
