#!/usr/bin/env python3
"""The built program over files of certificates of all kinds: what it prints is what a scan with --fresh prints, and the file that it
leaves has the answer of the first record that is backed, by tests/backing.py, and else the one of that scan. No changed report is accepted.

    tests/rescans.py --all [BINARY]

Damages the files of both versions at each of their bytes; inside the gate some drawn ones.
"""
import os
import random
import sys
import tempfile

sys.dont_write_bytecode = True
import backing  # noqa: E402
from common import TOP, bytes_of, entry, named, put, put_files, run  # noqa: E402
from random_repositories import draw_options, draw_repository  # noqa: E402

CHOICE = {
    "profiles/profiles.desc": b"amd64 base stable\n",
    "profiles/categories": b"app\nx\n",
    "profiles/base/eapi": b"8\n",
    "app/p/p-1.ebuild": b"",
    "metadata/md5-cache/app/p-1": entry(IUSE="a b", REQUIRED_USE="^^ ( a b )", RDEPEND="b? ( x/none )").encode(),
}
REPORT = ("app/p-1: NonexistentDeps: RDEPEND: x/none\n"
          'app/p-1: NonsolvableDepsInStable: RDEPEND: amd64 base stable: USE="-a b": b? ( x/none )\n')
# The first query of each record of its file: DEPEND's gates are those of all classes but RDEPEND.
QUERIES = (1, 2, 4)
REPOSITORIES, EDITS, DRAWN = 100, 50, 60


class Place:
    """A folder with a repository R, in which the program is run over a file C."""

    def __init__(self, binary, folder, files=CHOICE, words=("scan", "R", "--certs", "C")):
        self.binary, self.folder, self.words = binary, folder, list(words)
        put_files(os.path.join(folder, "R"), files)

    def give(self, given):
        path = os.path.join(self.folder, "C")
        if given is not None:
            put(self.folder, "C", given)
        elif os.path.exists(path):
            os.remove(path)

    def scan(self, given, *more):
        """The status, what is printed and told, and the file that is left, over a file of these bytes or none."""
        self.give(given)
        return run([self.binary, *self.words, *more], cwd=self.folder), bytes_of(self.folder, "C")

    def verify(self, given, report):
        """The status and what is printed and told; a file that is changed is no answer."""
        self.give(given)
        put(self.folder, "P", report)
        said = run([self.binary, "verify", "R", "--certs", "C", "--report", "P"], cwd=self.folder)
        return said if (bytes_of(self.folder, "C"), bytes_of(self.folder, "P").decode()) == (given, report) else None


# The files of both versions

# [files of the first version]
def worked_files(*_):
    """The record of the gates that are one Or of nothing: 64 bytes of the first version and 49 of the second, read by the plain reader."""
    query = bytes.fromhex("0000000000000001010000000000000000")
    old = b"gviscert1\n" + b"".join(len(part).to_bytes(8, "big") + part for part in (query, bytes.fromhex("000000000100000000000000020000000100000000")))
    new = b"gviscert2\n" + b"".join(len(part).to_bytes(8, "big") + part for part in (query, bytes.fromhex("000100020102")))
    pairs = backing.records(new)
    bad = [backing.is_backed(query, bytes.fromhex(answer)) for answer in ("00810000020102", "000100020002", "0001000101", "0001000201")]
    return (len(old), len(new), backing.records(old), pairs, backing.file_of(pairs), backing.first_file_of(pairs), backing.is_backed(*pairs[0]), bad), (
        64, 49, [(query, bytes.fromhex("000100020102"))], [(query, bytes.fromhex("000100020102"))], new, old, True, [False] * 4)


def both(fresh):
    """A file in both versions."""
    return {"version 1": backing.first_file_of(backing.records(fresh)), "version 2": fresh}


# [files of the first version]
def both_are_read(binary, folder):
    """The worked example's file: its scan leaves the second version with the same records in order, and its report is accepted."""
    place = Place(binary, folder)
    told, fresh = place.scan(None)
    got = {version: (place.scan(given), place.verify(given, REPORT), place.verify(given, "b" + REPORT[1:])) for version, given in both(fresh).items()}
    return (told, fresh[:10], [backing.is_backed(*pair) for pair in backing.records(fresh)], got), (
        (1, REPORT, ""), b"gviscert2\n", [True] * 3,
        dict.fromkeys(got, ((told, fresh), (0, "accepted 6\n", ""), (1, "refused: text differs at byte 0\n", ""))))


LINES = REPORT.splitlines(keepends=True)
CHANGED = ["b" + REPORT[1:], LINES[0], LINES[1], LINES[1] + LINES[0], REPORT + LINES[1], REPORT[:-1], REPORT + "\n", "",
           REPORT.replace('"-a b"', '"a -b"'), REPORT.replace("InStable", "InDev"), REPORT.replace("x/none", "x/nine")]


def differing(report):
    """What a verification says of a changed report whose queries all have their answers."""
    at = next((n for n, (a, b) in enumerate(zip(report, REPORT)) if a != b), min(len(report), len(REPORT)))
    return 1, f"refused: text differs at byte {at}\n", ""


def verdicts(given, fresh, changed):
    """What verifications of the right report and of a changed one have to say, by the records of the file."""
    backed = [any(query == wanted and backing.is_backed(query, answer) for query, answer in backing.records(given)) for wanted, _ in backing.records(fresh)]
    if all(backed):
        return (0, "accepted 6\n", ""), differing(changed)
    return ((1, f"refused: query {QUERIES[backed.index(False)]} has no backing\n", ""),) * 2


def told_over(place, told, fresh, given, changed):
    """What a scan and verifications of the right report and of a changed one say over a file, and what they have to."""
    got = place.scan(given), place.verify(given, REPORT), place.verify(given, changed)
    COUNT["files"] += 1
    return got, ((told, backing.rescanned(fresh, given)[0]), *verdicts(given, fresh, changed))


DAMAGES = {
    "cut": lambda content, at: content[:at],
    "a byte raised by one": lambda content, at: content[:at] + bytes([(content[at] + 1) % 256]) + content[at + 1:],
    "a byte raised by its place": lambda content, at: content[:at] + bytes([(content[at] + 1 + at % 255) % 256]) + content[at + 1:],
    "a byte 0": lambda content, at: content[:at] + bytes(1) + content[at + 1:],
    "a byte 255": lambda content, at: content[:at] + b"\xff" + content[at + 1:],
}


# [certificates that a scan finds] [what a verification says]
def damaged(version, how, most, binary, folder):
    """The worked example's file, damaged at each of its bytes, or at so many: a scan prints and leaves the same but for answers of
    records that are backed still, and a verification accepts nothing but the right report."""
    place = Place(binary, folder)
    told, fresh = place.scan(None)
    whole, got, want = both(fresh)[version], {}, {}
    places = [at for at in range(len(whole)) if DAMAGES[how](whole, at) != whole]
    for at in places if most is None else random.Random(how).sample(places, most):
        got[at], want[at] = told_over(place, told, fresh, DAMAGES[how](whole, at), CHANGED[at % len(CHANGED)])
    return got, want


def record(query, answer, *lengths):
    """A record, with other lengths than those of its parts where they are given."""
    lengths = lengths + (len(query), len(answer))[len(lengths):]
    return b"".join(length.to_bytes(8, "big") + part for length, part in zip(lengths, (query, answer)))


# [certificates that a scan finds] [what a verification says]
def arranged(version, binary, folder):
    """The records in another order, twice, beside those of other repositories, and behind lengths of a terabyte and more."""
    place = Place(binary, os.path.join(folder, "own"))
    told, fresh = place.scan(None)
    other = Place(binary, os.path.join(folder, "other"), drawn(1)[1]).scan(None)[1]
    file_of = backing.file_of if version == "version 2" else backing.first_file_of
    own, others = backing.records(fresh), backing.records(other)
    whole, header = file_of(own), file_of([])
    raw = backing.records_behind(backing.Reader(whole[len(header):]))
    first = record(*raw[0])
    over = {
        "the other order": file_of(own[::-1]), "twice": file_of(own * 2), "each twice": file_of([pair for pair in own for _ in range(2)]),
        "others in front": file_of(others + own), "others behind": file_of(own + others), "others alone": file_of(others),
        "answers exchanged": header + b"".join(record(query, answer) for (query, _), (_, answer) in zip(raw, raw[1:] + raw[:1])),
        "the header twice": header + whole, "a byte behind": whole + b"\0", "a header behind": whole + header, "the header alone": header,
        **{f"{name}, {length}": at for length in (10 ** 12, 2 ** 63, 2 ** 64 - 1) for name, at in {
            "a query's length in front": header + record(b"", b"", length) + whole[len(header):],
            "an answer's length in front": header + record(b"", b"", 0, length) + whole[len(header):],
            "a query's length behind the first": header + first + record(b"", b"", length) + whole[len(header) + len(first):],
            "an answer's length behind": whole + record(b"query", b"answer", 5, length)}.items()},
    }
    got, want = {}, {}
    for number, (name, given) in enumerate(over.items()):
        got[name], want[name] = told_over(place, told, fresh, given, CHANGED[number % len(CHANGED)])
    return got, want


# A small file of three records

def with_answer(content, change):
    """The file whose last record has another answer."""
    pairs = backing.records(content)
    return backing.file_of(pairs[:-1] + [(pairs[-1][0], change(*pairs[-1]))])


def twice(query, answer):
    """The answer whose last step stands there twice, which backs the same, if it has steps."""
    clauses, bits, steps = backing.claim_of(query, answer)
    return backing.written(clauses, bits, steps + steps[-1:])


# [certificates that a scan finds]
def other_records(binary, folder):
    """Other answers, and other logs, in both versions."""
    place = Place(binary, folder)
    told, first = place.scan(None)
    longer = with_answer(first, twice)
    records = backing.records
    over = {
        "no steps": (with_answer(first, lambda _, answer: answer[:3] + bytes(1)), first),
        "the bits a b": (with_answer(first, lambda _, answer: b"\1\1\1" + answer[3:]), first),
        "cut by a byte": (with_answer(first, lambda _, answer: answer[:-1]), first),
        "hello": (b"hello", first),
        "another log": (longer, longer),
        "another log behind": (backing.file_of(records(first) + records(longer)), first),
        "another log in front": (backing.file_of(records(longer) + records(first)), longer),
        "another log of the first version": (backing.first_file_of(records(longer)), longer),
        "both logs of the first version": (backing.first_file_of(records(first) + records(longer)), first),
        "another version": (b"gviscert3\n" + first[10:], first),
        "a header of the first version": (b"gviscert1\n" + first[10:], first),
    }
    got = {name: (place.scan(given), backing.rescanned(first, given)[0]) for name, (given, _) in over.items()}
    passed_over = place.scan(longer, "--fresh")
    return (got, passed_over), ({name: ((told, left), left) for name, (_, left) in over.items()}, (told, first))


# Files of other repositories, changed ones, and repositories that were edited

def mixed(draw, content, other):
    """The records of both in any order, some of them cut off, cut, of another log or of other bits, and some bytes more."""
    pairs = []
    for query, answer in backing.records(content) + backing.records(other):
        how = draw.randrange(8)
        if how == 0:
            continue
        if how == 1:
            answer = answer[:draw.randrange(len(answer))]
        if how == 2 and len(answer) > 1:
            at = draw.randrange(len(answer))
            answer = answer[:at] + bytes([answer[at] ^ 1]) + answer[at + 1:]
        if how in (3, 4):
            answer = twice(query, answer)
        pairs += [(query, answer)] * draw.choice([1, 1, 1, 2])
    draw.shuffle(pairs)
    return backing.file_of(pairs) + bytes(draw.randrange(20))


def edited(draw, files, other):
    """The files after edits: each puts a file of the other repository, changes one or takes one away."""
    files = dict(files)
    for _ in range(EDITS):
        path = draw.choice(sorted(set(files) | set(other)))
        how = draw.randrange(4)
        if how < 2 and path in other:
            files = {old: content for old, content in files.items() if not old.startswith(path + "/") and not path.startswith(old + "/")}
            files[path] = other[path]
        elif how == 2 and files.get(path):
            lines = files[path].splitlines(True)
            lines.insert(draw.randrange(len(lines) + 1), draw.choice(lines))
            files[path] = b"".join(lines)
        elif path in files and path not in ("profiles/profiles.desc", "profiles/categories"):
            del files[path]
    return files


COUNT = {"files": 0, "own": 0, "first version's": 0, "another's": 0, "mixed": 0, "edited": 0, "new": 0}


def told():
    return f"{COUNT['files']} files of the worked example; answers of " + ", ".join(f"{kind} files {count}" for kind, count in COUNT.items() if kind != "files")


def drawn(number):
    """The draw of a repository, its files, those of another one, and words."""
    draw = random.Random(number + 5000)
    files, other = draw_repository(draw), draw_repository(draw)
    return draw, files, other, [word for word in draw_options(draw)[1] if word != "--fresh"]


# [certificates that a scan finds]
def repository(number, binary, folder):
    """Over its own file, in both versions, its neighbour's and a mixed one, and after edits over its own."""
    draw, files, other, words = drawn(number)
    place, got, want = Place(binary, os.path.join(folder, "first"), files, words), {}, {}
    fresh = place.scan(None)

    def over(name, place, fresh, given):
        left, used = backing.rescanned(fresh[1], given)
        got[name], want[name] = place.scan(given), (fresh[0], left)
        COUNT[name] += used
        COUNT["new"] += len(backing.records(fresh[1])) - used

    over("own", place, fresh, fresh[1])
    over("first version's", place, fresh, backing.first_file_of(backing.records(fresh[1])))
    if number:
        _, files_before, _, words_before = drawn(number - 1)
        before = Place(binary, os.path.join(folder, "before"), files_before, words_before).scan(None)[1]
        over("another's", place, fresh, before)
        got["passed over"], want["passed over"] = place.scan(before, "--fresh"), fresh
        over("mixed", place, fresh, mixed(draw, fresh[1], before))
    place = Place(binary, os.path.join(folder, "edited"), edited(draw, files, other), words)
    over("edited", place, place.scan(None), fresh[1])
    return got, want


def damages(most):
    return [named(f"{version}, {how}", damaged, version, how, most) for version in ("version 1", "version 2") for how in DAMAGES]


CASES = [
    worked_files, both_are_read, other_records, *(named(f"{version}, arranged", arranged, version) for version in ("version 1", "version 2")),
    *damages(DRAWN), *(named(f"repository {number}", repository, number) for number in range(REPOSITORIES)),
]


def main(binary):
    """Damages both files at each of their bytes; answers how many kinds of damage went wrong."""
    wrong = 0
    for case in damages(None):
        with tempfile.TemporaryDirectory() as folder:
            got, want = case(binary, folder)
        unlike = {at: (got[at], want[at]) for at in got if got[at] != want[at]}
        print(f"{case.__name__}: {len(got)} files, {len(unlike)} wrong", *unlike.items(), sep="\n  ", flush=True)
        wrong += bool(unlike)
    return wrong


if __name__ == "__main__":
    if len(sys.argv) not in (2, 3) or sys.argv[1] != "--all":
        sys.exit(__doc__)
    sys.exit(1 if main(os.path.abspath((sys.argv[2:] or [os.path.join(TOP, "crates/gvis/out/gvis")])[0])) else 0)
