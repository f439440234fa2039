"""The plain program's words of the command line and scripts of sessions, by docs/formats.md alone. Texts have a character for each byte."""
import re

from plain import KEYWORDS, LINT_KEYWORDS, is_part, is_path

LONGEST_PATH, LARGEST_FILE, LONGEST_LINE, MOST_COMMANDS = 4096, 16777216, 4200, 1000000
FLAGS = {"--fresh", "--json"}
COMMANDS = {
    "scan": ({"--certs"}, {"--fresh", "--json", "--keywords", "--profiles", "--budget", "--part"}),
    "overlay": ({"--repo", "--certs"}, {"--fresh", "--json", "--keywords", "--profiles", "--budget"}),
    "verify": ({"--certs", "--report"}, {"--json", "--keywords", "--profiles"}),
    "session": (set(), {"--json", "--keywords", "--profiles", "--budget"}),
    "demo": (set(), set()),
    "merge": ({"--certs", "--from", "--of"}, {"--json", "--keywords", "--profiles"}),
    "lint": (set(), {"--json", "--keywords", "--profiles"}),
}
VALUES = {"--certs", "--report", "--keywords", "--repo", "--profiles", "--budget", "--part", "--from", "--of"}
MOST_PARTS = 1000


def is_number(text, least, most):
    return re.fullmatch("0|[1-9][0-9]*", text) is not None and least <= int(text) <= most


def part_in(text):
    """The part and the number of parts that `I/N` is, or nothing."""
    part, slash, parts = text.partition("/")
    if not slash or not is_number(parts, 1, MOST_PARTS) or not is_number(part, 1, int(parts)):
        return None
    return int(part), int(parts)


def is_utf8(word):
    try:
        word.encode("latin-1").decode("utf-8")
    except UnicodeDecodeError:
        return False
    return True


def is_plain(word):
    return word != "" and word[0] != "-"


def values_in(words):
    """The flags, the options with their values and the plain words behind the command, or nothing."""
    found, plain, at = {}, [], 0
    while at < len(words):
        name, equals, value = words[at].partition("=")
        at += 1
        if name in FLAGS and not equals:
            value = True
        elif name in VALUES:
            if not equals:
                if at == len(words) or not is_plain(words[at]):
                    return None
                value, at = words[at], at + 1
            if value == "":
                return None
        elif is_plain(words[at - 1]):
            plain.append(words[at - 1])
            continue
        else:
            return None
        if name in found:
            return None
        found[name] = value
    return (found, plain[0]) if len(plain) == 1 else None


def keywords_of(command):
    """The keywords that a command tells, and that can be named for it."""
    return LINT_KEYWORDS if command == "lint" else KEYWORDS


def command_of(words):
    """A command as a table of its values, with the defaults; or nothing."""
    if not words or words[0] not in COMMANDS or not all(map(is_utf8, words)):
        return None
    must, may = COMMANDS[words[0]]
    read = values_in(words[1:])
    if not read or not must <= set(read[0]) <= must | may:
        return None
    values, root = read
    lists = {name: values[name].split(",") for name in ("--keywords", "--profiles", "--from") if name in values}
    if any("" in items for items in lists.values()) or not set(lists.get("--keywords", [])) <= set(keywords_of(words[0])):
        return None
    if not is_number(values.get("--budget", "65536"), 1, 1000000) or words[0] == "demo" and not is_number(root, 0, 2 ** 64 - 1):
        return None
    if "--part" in values and not part_in(values["--part"]) or not is_number(values.get("--of", "1"), 1, MOST_PARTS):
        return None
    if not is_part(values.get("--repo", "a")):
        return None
    name = "part" if "--part" in values else words[0]
    return {"command": name, "root": root, "share": part_in(values.get("--part", "")), "from": lists.get("--from"), "parts": int(values.get("--of", "1")), "certs": values.get("--certs"), "report": values.get("--report"), "repo": values.get("--repo"), "fresh": "--fresh" in values,
            "json": "--json" in values, "keywords": lists.get("--keywords"), "profiles": lists.get("--profiles"),
            "budget": int(values.get("--budget", "65536"))}


def values_of(command):
    """The number of keywords, the profiles or `-`, whether JSON is written, and the budget."""
    keywords = keywords_of(command["command"]) if command["keywords"] is None else command["keywords"]
    profiles = "-" if command["profiles"] is None else ",".join(command["profiles"])
    return [str(len(keywords)), profiles, str(command["json"]).lower(), str(command["budget"])]


# Scripts

class Refused(Exception):
    """How a run ends: its status and what its line says."""


class Input:
    """Bytes that come in pieces, where the call of a number fails."""

    def __init__(self, content, most, failing):
        self.content, self.at, self.most, self.failing, self.calls = content, 0, most, failing, 0

    def next(self, room):
        self.calls += 1
        if self.calls == self.failing:
            raise Refused(3, "fault: input")
        piece = self.content[self.at:self.at + min(room, self.most)]
        self.at += len(piece)
        return piece


def commands(given, piece=4096):
    """The commands of a script, each as it is complete: ("put", path, content), ("cut", path), ("report",) and ("end",), at most a
    piece of the input behind what was performed."""
    held, at, number = "", 0, 0

    def more():
        nonlocal held, at
        got = given.next(piece)
        held, at = held[at:] + got, 0
        return got != ""

    def bad():
        return Refused(8, f"bad script: command {number}")

    while number < MOST_COMMANDS:
        number += 1
        while (end := held.find("\n", at, at + LONGEST_LINE + 1)) < 0:
            if len(held) - at > LONGEST_LINE or not more():
                raise bad()
        line, at = held[at:end], end + 1
        word, _, rest = line.partition(" ")
        if line in ("report", "end"):
            yield (line,)
            if line == "end":
                return
        elif word == "cut" and is_path(rest) and len(rest) <= LONGEST_PATH:
            yield "cut", rest
        elif word == "put":
            path, _, length = rest.rpartition(" ")
            if not is_path(path) or len(path) > LONGEST_PATH or not is_number(length, 0, LARGEST_FILE):
                raise bad()
            while len(held) - at <= int(length):
                if not more():
                    raise bad()
            content, at = held[at:at + int(length)], at + int(length) + 1
            if held[at - 1] != "\n":
                raise bad()
            yield "put", path, content
        else:
            raise bad()
    raise Refused(7, f"limit: script {MOST_COMMANDS}")
