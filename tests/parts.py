"""Parts of a scan and merges of their certificates, by the built program beside the plain one.

For each number a small repository is drawn, a number of parts and options. Each part is scanned by itself; its file holds an answer to each
distinct query of the part and nothing else. What is merged is the report, in any order, with files named twice and among others that are forged,
cut, empty or of another repository; and where the files of a part are left out or bad, the line names the first query that lacks an answer.
"""
import os
import random

import backing
import plain
import plain_run
from common import HEADER, bytes_of, entry, named, put, put_files, run
from random_repositories import draw_options, draw_repository

NUMBERS = range(100)
COUNT = {"parts": 0, "merges": 0, "that lack a query": 0}
CHOICE = {"profiles/profiles.desc": "amd64 base stable\n", "profiles/categories": "app\nx\n", "profiles/base/eapi": "8\n", "app/p/p-1.ebuild": "",
          "metadata/md5-cache/app/p-1": entry(IUSE="a b", REQUIRED_USE="^^ ( a b )", RDEPEND="b? ( x/none )")}
REPORT = 'app/p-1: NonexistentDeps: RDEPEND: x/none\napp/p-1: NonsolvableDepsInStable: RDEPEND: amd64 base stable: USE="-a b": b? ( x/none )\n'


def told():
    return ", ".join(f"{count} {what}" for what, count in COUNT.items())


def of_choice(binary, folder):
    put_files(os.path.join(folder, "R"), CHOICE)
    return lambda *words: run([binary, *words], cwd=folder)


def two_parts_are_the_whole(binary, folder):
    """Six queries; the second and the third have the same gates."""
    call = of_choice(binary, folder)
    parts = [call("scan", "R", "--certs", f"C{n}", "--part", f"{n}/2") for n in (1, 2)]
    orders = [call("merge", "R", "--certs", f"M{n}", "--from", files, "--of", "2") for n, files in enumerate(("C2,C1,C2", "C1,C2", "C2,C1"))]
    whole = call("scan", "R", "--certs", "C")
    files = [bytes_of(folder, name) for name in ("M0", "M1", "M2", "C")]
    return (parts, orders, whole, len(set(files)), len(backing.records(files[0]))), ([(0, "", "")] * 2, [(1, REPORT, "")] * 3, (1, REPORT, ""), 1, 3)


def the_first_query_without_an_answer(binary, folder):
    call = of_choice(binary, folder)
    call("scan", "R", "--certs", "C1", "--part", "1/2")
    put(folder, "M", "kept")
    got = [call("merge", "R", "--certs", "M", "--from", files, "--of", of) for files, of in (("C1", "2"), ("none", "2"), ("C1", "4"), ("C1", "1"))]
    return (got, bytes_of(folder, "M")), (
        [(10, "", f"gvis: part {part} lacks query {query}\n") for part, query in (("2/2", 4), ("1/2", 1), ("4/4", 4), ("1/1", 4))], b"kept")


def the_merged_file_is_used_again(binary, folder):
    """A scan over it takes its answers, and a verification accepts what was merged; another merge over it alone gives it byte for byte."""
    call = of_choice(binary, folder)
    for n in (1, 2, 3):
        call("scan", "R", "--certs", f"C{n}", "--part", f"{n}/3")
    merged = call("merge", "R", "--certs", "M", "--from", "C1,C2,C3", "--of", "3")
    put(folder, "P", merged[1])
    before = bytes_of(folder, "M")
    after = [call("verify", "R", "--certs", "M", "--report", "P"), call("merge", "R", "--certs", "M", "--from", "M", "--of", "7"), call("scan", "R", "--certs", "M")]
    return (after, bytes_of(folder, "M") == before), ([(0, "accepted 6\n", ""), (1, REPORT, ""), (1, REPORT, "")], True)


def a_part_over_an_older_file(binary, folder):
    """It takes what the file holds, and leaves the answers to its own queries alone."""
    call = of_choice(binary, folder)
    call("scan", "R", "--certs", "C")
    whole = dict(backing.records(bytes_of(folder, "C")))
    got = call("scan", "R", "--certs", "C", "--part", "2/2")
    kept = backing.records(bytes_of(folder, "C"))
    return (got, len(kept), all(whole[query] == answer for query, answer in kept)), ((0, "", ""), 2, True)


def a_part_without_queries(binary, folder):
    """Of seven parts of six queries the last has none."""
    call = of_choice(binary, folder)
    return (call("scan", "R", "--certs", "C", "--part", "7/7"), bytes_of(folder, "C")), ((0, "", ""), HEADER)


def the_budget_and_the_limits_of_its_own_queries(binary, folder):
    """A part is refused only by a query of its own: the first query takes more than two sets."""
    signs = [f"|| ( {a}a {b}b {c}c )" for a in ("", "!") for b in ("", "!") for c in ("", "!")]
    put_files(os.path.join(folder, "R"), {**CHOICE, "metadata/md5-cache/app/p-1": entry(IUSE="a b c", REQUIRED_USE=" ".join(signs))})
    call = lambda *words: run([binary, *words], cwd=folder)  # noqa: E731
    first = call("scan", "R", "--certs", "C1", "--part", "1/6", "--budget", "2")
    flags = " ".join(f"f{n}" for n in range(4097))
    put_files(os.path.join(folder, "R"), {**CHOICE, "metadata/md5-cache/app/p-1": entry(IUSE=flags, RDEPEND=" ".join(f"f{n}? ( x/none )" for n in range(4097)))})
    many = [call("scan", "R", "--certs", f"C{n}", "--part", f"{n}/6") for n in (2, 4)]
    merged = call("merge", "R", "--certs", "M", "--from", "none", "--of", "6"), call("merge", "R", "--certs", "M", "--from", "C2", "--of", "6")
    return (first, many, merged, sorted(os.listdir(folder))), (
        (4, "", "gvis: budget spent: app/p-1 REQUIRED_USE amd64 base stable\n"), [(0, "", ""), (7, "", "gvis: limit: app/p-1 4096\n")],
        ((10, "", "gvis: part 1/6 lacks query 1\n"), (10, "", "gvis: part 1/6 lacks query 1\n")), ["C2", "R"])


def a_file_that_cannot_be_read(binary, folder):
    """Nothing else is done; the path is told."""
    call = of_choice(binary, folder)
    call("scan", "R", "--certs", "C", "--part", "1/1")
    os.mkdir(os.path.join(folder, "D"))
    return (call("merge", "R", "--certs", "M", "--from", "C,D", "--of", "1"), os.path.exists(os.path.join(folder, "M"))), ((3, "", "gvis: fault: store D\n"), False)


# Random parts

def forged(draw, content):
    """Records of these queries, with answers that aren't theirs: cut, of another query, or with bytes changed."""
    pairs = backing.records(content)
    answers = [answer for _, answer in pairs] or [b""]
    out = []
    for query, answer in pairs:
        kind = draw.randrange(4)
        if kind == 0:
            answer = answer[:draw.randrange(len(answer) + 1)]
        elif kind == 1:
            answer = draw.choice(answers)
        elif kind == 2 and answer:
            place = draw.randrange(len(answer))
            answer = answer[:place] + bytes([answer[place] ^ draw.randrange(1, 256)]) + answer[place + 1:]
        else:
            answer = b"\0"
        out += [(query, answer)] * draw.choice([1, 1, 2])
    return backing.file_of(out)


def bad_files(draw, contents, foreign):
    """What a machine that isn't trusted may hand over in place of a file: forged, cut, empty, of another repository, or no certificates at all."""
    content = draw.choice(contents)
    return {"forged": forged(draw, content), "cut": content[:draw.randrange(len(content) + 1)], "empty": b"", "foreign": foreign, "text": b"hello\n",
            "large": HEADER + b"\xff" * 8}


def backs(contents, query):
    """Whether a record of one of the files is backed for the query."""
    return any(found == query and backing.is_backed(query, answer) for content in contents for found, answer in backing.records(content))


def lacking(queries, contents, parts):
    """The line of a merge of these files, or nothing."""
    for number, query in enumerate(queries, 1):
        if not backs(contents, query):
            return f"gvis: part {plain_run.part_of(number, parts)}/{parts} lacks query {number}\n"
    return None


# [what a merge says]
def compared(number, binary, folder):
    draw = random.Random(number)
    files, other = draw_repository(draw), draw_repository(draw)
    (keywords, profiles, as_json), words = draw_options(draw)
    options = [word for word in words if word.startswith(("--json", "--keywords=", "--profiles="))]
    for name in ("--keywords", "--profiles"):
        options += words[words.index(name):words.index(name) + 2] if name in words else []
    for name, content in (("R", files), ("O", other)):
        put_files(os.path.join(folder, name), content)
    asked = [gates for _, gates in plain_run.gates_within_limits(plain.Files(files), {"keywords": keywords, "profiles": profiles})]
    parts = draw.choice([1, 2, 2, 3, 3, 4, 5, 7, 16])
    call = lambda *words: run([binary, *words], cwd=folder)  # noqa: E731
    got, want = [], []
    for part in range(1, parts + 1):
        words = ["scan", "R", "--certs", f"C{part}", f"--part={part}/{parts}", *options, *draw.choice([[], ["--fresh"]])]
        if draw.random() < 0.2:
            put(folder, f"C{part}", draw.choice([b"hello", HEADER]))
        got.append((call(*words), [query for query, _ in backing.records(bytes_of(folder, f"C{part}"))]))
        want.append(((0, "", ""), list(dict.fromkeys(asked[part - 1::parts]))))
    COUNT["parts"] += parts
    call("scan", "O", "--certs", "foreign")
    good = {f"C{part}": bytes_of(folder, f"C{part}") for part in range(1, parts + 1)}
    bad = bad_files(draw, list(good.values()), bytes_of(folder, "foreign"))
    put_files(folder, bad)
    said = plain.scan(files, keywords, profiles, as_json)
    for at in range(3):
        # (all parts in any order, some twice, and anything among them; then without one part, and with a bad file in its place)
        left_out = [] if at == 0 else [f"C{draw.randrange(parts) + 1}"]
        names = [name for name in good if name not in left_out] + draw.sample(list(bad), draw.randrange(len(bad))) + draw.choices(list(good), k=draw.randrange(2) if at == 0 else 0)
        draw.shuffle(names)
        names = names or ["none"]
        line = lacking(asked, [{**good, **bad}.get(name, b"") for name in names], parts)
        result = call("merge", "R", "--certs", f"M{at}", "--from", ",".join(names), "--of", str(parts), *options)
        kept = os.path.join(folder, f"M{at}")
        records = backing.records(bytes_of(kept)) if os.path.exists(kept) else None
        got.append((result, None if records is None else [query for query, _ in records], records is None or all(backing.is_backed(*pair) for pair in records)))
        want.append(((10, "", line), None, True) if line else (said, list(dict.fromkeys(asked)), True))
        COUNT["merges"] += 1
        COUNT["that lack a query"] += line is not None
    return got, want


CASES = [
    two_parts_are_the_whole, the_first_query_without_an_answer, the_merged_file_is_used_again, a_part_over_an_older_file,
    a_part_without_queries, the_budget_and_the_limits_of_its_own_queries, a_file_that_cannot_be_read,
    *[named(f"parts of repository {number}", compared, number) for number in NUMBERS]]
