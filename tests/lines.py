"""Reads the cases of crates/gv_probe/data: calls in a line, each with its answer behind it.

Texts here have a character for each byte. A file begins with what its calls are; the notation is that of gv_probe: `CALL PARTS =>
ANSWER`, or lines that say files, a store, an input and calls that fail, then `load` or `run WORDS` and the lines of the answer.
"""
import os
import re

from common import DATA, EMPTY, bytes_of

NUMBERS = {"out": 0, "err": 0, "tree": 0, "store": 0, "input": 0, "most": 4096, "pieces": 4096}
PIECE = re.compile(r"\\\{(\d+)\}|\\x([0-9a-f]{2})|\\(.)|([^\\]+)", re.S)


def part_of(written):
    """The bytes of a part as it is written."""
    pieces, at = [(1, "")], 0
    while at < len(written):
        found = PIECE.match(written, at)
        if not found:
            break
        times, byte, escaped, plain = found.groups()
        count, piece = pieces[-1]
        if times is not None:
            pieces.append((int(times), ""))
        else:
            more = chr(int(byte, 16)) if byte else {"n": "\n", "t": "\t", "s": ";", "#": "\1"}.get(escaped, escaped) if escaped else plain
            pieces[-1] = count, piece + more
        at = found.end()
    return "".join(piece * count if count == 1 or "\1" not in piece else "".join(piece.replace("\1", str(number)) for number in range(count)) for count, piece in pieces)


def written(text):
    """An answer as it stands in a line."""
    marks = {"\n": "\\n", "\t": "\\t", "\\": "\\\\"}
    return "".join(marks.get(c, c) if c in marks or " " <= c <= "~" else "\\x%02x" % ord(c) for c in text)


def numbered(text, number):
    return text.replace("#", str(number)).replace("+", str(number + 1))


class Outside:
    """What a run goes over: files, the store, an input, and which calls fail. `store` has what the last run left or, where the lines
    in front of a run say so, what it finds."""

    def __init__(self):
        self.files, self.store, self.before, self.reports = {}, {}, {}, []
        self.place = self.files, ""
        self.forget()

    def forget(self):
        """What is of one run alone."""
        self.numbers, self.is_set, self.input, self.keeps = dict(NUMBERS), False, "", False

    def begin(self, files, path, text=""):
        self.place = files, path
        files[path] = text

    def begin_stored(self, path):
        if not self.keeps:
            self.store, self.keeps = {}, True
        self.begin(self.store, path)

    def add(self, text):
        files, path = self.place
        files[path] = files.get(path, "") + text

    def add_input(self, text):
        self.input += text

    def put_many(self, parts):
        first, count, path, text = map(part_of, parts.split(";"))
        for number in range(int(first), int(first) + int(count)):
            self.files[numbered(path, number)] = numbered(text, number)

    def begin_entry(self, words):
        category, name, version = words.split()
        self.files[f"{category}/{name}/{name}-{version}.ebuild"] = ""
        self.begin(self.files, f"metadata/md5-cache/{category}/{name}-{version}", f"_md5_={EMPTY}\n")

    def set(self, words):
        name, number = words.split()
        if name not in NUMBERS:
            raise ValueError(f"no number has the name {name}")
        self.numbers[name], self.is_set = int(number), True

    def keep(self, _):
        self.keeps = True

    def takes(self, line):
        """Whether the line is one of the outside, which it changes."""
        ways = [
            ("@", lambda path: self.begin(self.files, path)), ("|", lambda more: self.add(more + "\n")), (".", self.add),
            ("*", lambda more: self.add(part_of(more))), ("&", self.reports.append), ("%", self.begin_entry),
            ("-", lambda path: self.files.pop(path, None)), ("<*", lambda more: self.add_input(part_of(more))),
            ("< ", lambda more: self.add_input(more[:-1] if more.endswith("~") else more + "\n")), ("set ", self.set), ("many ", self.put_many),
            ("store ", self.begin_stored)]
        if line in ("new", "keep"):
            self.__init__() if line == "new" else self.keep(line)
            return True
        for front, way in ways:
            if line.startswith(front):
                way(line[len(front):])
                return True
        return False

    def is_real(self):
        """Whether no line says how the objects are, so that those of a system are as good."""
        return not self.is_set

    def found(self):
        """The store that a run finds."""
        return dict(self.store) if self.keeps else {}

    def leave(self, store):
        """What a run leaves, over what it found."""
        self.before, self.store = self.found(), store


def marked(mark, text):
    """The lines of an output of a run, as they stand in an answer."""
    if not text:
        return []
    text = text[:-1] if text.endswith("\n") else text + "~"
    return [f"{mark} {line}" for line in text.split("\n")]


def files():
    return sorted(name for name in os.listdir(DATA) if name.endswith(".txt"))


def name_in(heading):
    """The name of a heading, without the marks of rules behind it."""
    return heading[3:].split(" [")[0]


def headings_of(name):
    """The headings of a file, `` where calls stand in front of all."""
    found = []
    for line in bytes_of(DATA, name).decode("latin-1").split("\n"):
        if line.startswith("## "):
            found.append(name_in(line))
        elif not found and line and line[0] != "#":
            found.append("")
    return found


def start_of(lines, heading):
    """The heading and the place of the last line `new` up to the first line behind a heading, since nothing before it is known there."""
    under, found = "", ("", 0)
    for at, line in enumerate(lines):
        if heading is None or under == heading and line and line[0] != "#" and line != "new":
            break
        if line.startswith("## "):
            under = name_in(line)
        elif line == "new":
            found = under, at
    return found


def calls(name, heading=None):
    """Of each call of a file its place, its text up to the answer, its answer and the outside, in order; those behind one heading,
    or all. The outside is that of the moment: who reads on has to have asked all of it."""
    lines, outside = bytes_of(DATA, name).decode("latin-1").split("\n"), Outside()
    under, at = start_of(lines, heading)
    while at < len(lines):
        line, number = lines[at], at + 1
        at += 1
        if line.startswith("## "):
            if under == heading:
                return
            under = name_in(line)
        if not line or line[0] == "#" or outside.takes(line):
            continue
        if line in ("load", "run", "emit") or line.startswith(("run ", "emit ", "reread ")):
            answer = []
            while at < len(lines) and lines[at][:2] in ("= ", "! ", "> "):
                answer.append(lines[at])
                at += 1
            yield from [(f"{name}:{number}", line, answer, outside)] * (heading in (None, under))
            outside.forget()
        else:
            asked, _, answer = line.partition(" =>")
            yield from [(f"{name}:{number}", asked, answer.removeprefix(" "), outside)] * (heading in (None, under))
