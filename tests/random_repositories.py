"""The built program beside a plain one on random repositories.

For each number a small repository is drawn from it, judged by tests/plain.py, written to a folder and scanned by the program, which
then has to accept its own report by its certificates, and refuse another one at the first byte that differs. The gates of the
queries that its file answers are those of the plain program, in order of first use.
"""
import hashlib
import json
import os
import random
import re

import backing
import plain
import plain_run
from common import bytes_of, named, put, put_files, run

NUMBERS = range(200)
VERSIONS = ["1", "1.0", "1.00", "1.01", "1.010", "1.1", "1.10", "1.9", "1a", "1_rc", "1_p", "1_p0", "1-r0", "1-r1", "2",
            "1.2_alpha3-r2", "01"]
FLAGS = list("abcde") + ["k_a", "k_b", "v"]
PACKAGES = ["x/y", "x/z", "app/p", "app/q"]
FOLDERS = ["base", "other", "third", "top", "top/inner", "far/away"]
ECLASSES = ["one", "two"]


# Expressions

def draw_item(draw):
    sign, mark = draw.choice([("", ""), ("", ""), ("-", ""), ("", "="), ("!", "="), ("", "?"), ("!", "?")])
    return sign + draw.choice(FLAGS) + draw.choice(["", "", "(+)", "(-)"]) + mark


def draw_atom(draw, asks=0.0):
    name = draw.choice(PACKAGES + ["x/none"])
    op = draw.choice(["", "", "", "<", "<=", "=", "~", ">=", ">", "=*"])
    block = draw.choice([""] * 5 + ["!", "!!"])
    slot = draw.choice(["", "", "", "", "", ":0", ":1", ":0/0", ":0/2", ":*", ":=", ":0=", ":1/1="])
    items = "[" + ",".join(draw_item(draw) for _ in range(draw.randrange(1, 3))) + "]" if draw.random() < asks else ""
    return block + op.rstrip("*") + name + ("-" + draw.choice(VERSIONS) if op else "") + ("*" if op == "=*" else "") + slot + items


def draw_tree(draw, depth, required, asks):
    kind = draw.randrange(10)
    signed = draw.choice(["", "", "!"]) + draw.choice(FLAGS)
    if depth == 0 or kind < 5:
        return signed if required else draw_atom(draw, asks)
    children = " ".join(draw_tree(draw, depth - 1, required, asks) for _ in range(draw.randrange(4)))
    heads = ["", "|| ", "|| "] + (["^^ ", "?? ", "^^ "] if required else [])
    head = signed + "? " if kind < 8 else draw.choice(heads)
    return head + "( " + children + " )"


def draw_expression(draw, required, asks):
    trees = [draw_tree(draw, 3, required, asks) for _ in range(draw.randrange(3 if required else 4))]
    return draw.choice([" ", "  ", "\t"]).join(trees) + (" )" if draw.random() < 0.06 else "")


# Profiles

def draw_lines(draw, line, most):
    """Lines, of which some are comments or bad."""
    odd = ["# a b", "", "\t", "-", "/", "a b c", "* *", "x/y:"]
    return "".join((draw.choice(odd) if draw.random() < 0.15 else line()) + draw.choice(["\n"] * 5 + [" # c\n", "\r\n"])
                   for _ in range(draw.randrange(most)))


def draw_defaults(draw):
    known = ['USE_EXPAND="K"', "USE_EXPAND_IMPLICIT='K U'", "USE_EXPAND_UNPREFIXED=U", "X=b", 'USE_EXPAND_VALUES_K="a b"',
             'USE_EXPAND_VALUES_U="d ${X}"']
    lines = ['IUSE_IMPLICIT="v"', "IUSE_IMPLICIT='a -e'", 'USE_EXPAND="K"', "USE_EXPAND_IMPLICIT=K", "USE_EXPAND_VALUES_K='a b'",
             'USE_EXPAND_UNPREFIXED="U"', 'USE_EXPAND_IMPLICIT="K U"', 'USE_EXPAND_VALUES_U="d ${X} e"', "X=b\\ c", "X=$X$X",
             'IUSE_IMPLICIT="${IUSE_IMPLICIT} c -v"', "USE_EXPAND_IMPLICIT='-* U'", "IUSE_IMPLICIT='-* b'", 'USE_EXPAND_VALUES_K="a\\\n b"', "# X=1", "X=a#b",
             'ACCEPT_KEYWORDS="amd64 ~amd64"', 'ACCEPT_KEYWORDS="-~amd64 ~x86"', "ACCEPT_KEYWORDS='-* amd64'", 'ACCEPT_KEYWORDS="-~${ARCH}"',
             'ACCEPT_KEYWORDS="$ACCEPT_KEYWORDS ~$ARCH"', "A+=1", 'X="']
    testing = draw.choice([['ARCH="amd64"', 'ACCEPT_KEYWORDS="${ARCH} ~${ARCH}"'], ['ARCH="x86"', 'ACCEPT_KEYWORDS="${ARCH} ~${ARCH} ~amd64"'],
                           ['ACCEPT_KEYWORDS="-~amd64"'], ['ACCEPT_KEYWORDS="-~x86 ~arm"']])
    weights = [6] * (len(lines) - 2) + [1, 1]
    drawn = (known if draw.random() < 0.6 else []) + (testing if draw.random() < 0.6 else []) + draw.choices(lines, weights, k=draw.randrange(5))
    return "".join(line + draw.choice(["\n", " ", "\n\n"]) for line in drawn)


def put_file_or_folder(draw, files, path, content):
    """The lines in one file, or spread over the files of a folder, of which some aren't read."""
    if draw.random() < 0.7:
        files[path] = content
        return
    lines = content.splitlines(True)
    at = draw.randrange(len(lines) + 1)
    files[path + "/10-first"], files[path + "/9"] = "".join(lines[:at]), "".join(lines[at:])
    files[path + "/.hidden"], files[path + "/sub/file"] = "a\n-b\n", "a\n"


def put_profile(draw, files, folder, masked):
    path = "profiles/" + folder

    def flag():
        return draw.choice(["", "", "-"]) + draw.choice(FLAGS)

    def package_flags():
        return draw.choice(masked) + " " + " ".join(flag() for _ in range(draw.randrange(1, 3))) + draw.choice([""] * 6 + [" *"])

    def mask():
        return draw.choice(["", "", "-"]) + draw.choice(masked)

    files[path + "/eapi"] = draw.choice(["8\n"] * 8 + ["5", "4\n", "# none\n", "9\n"])
    if draw.random() < 0.5:
        files[path + "/make.defaults"] = draw_defaults(draw)
    for name in ("use.mask", "use.force", "use.stable.mask", "use.stable.force"):
        if draw.random() < 0.3:
            put_file_or_folder(draw, files, path + "/" + name, draw_lines(draw, flag, 4))
    for name in ("package.use.mask", "package.use.force", "package.use.stable.mask", "package.use.stable.force"):
        if draw.random() < 0.2:
            put_file_or_folder(draw, files, path + "/" + name, draw_lines(draw, package_flags, 3))
    if draw.random() < 0.4:
        put_file_or_folder(draw, files, path + "/package.mask", draw_lines(draw, mask, 3))


def put_parents(draw, files):
    for at, folder in enumerate(FOLDERS):
        up = "../" * (folder.count("/") + 1)
        parents = [up + other for other in draw.sample(FOLDERS[at + 1:], min(len(FOLDERS) - at - 1, draw.randrange(3)))]
        if parents and draw.random() < 0.5:
            parents.append(parents[0])
        if draw.random() < 0.06:
            parents.insert(0, draw.choice(["../gone", ".", "..", "../../../..", up + draw.choice(FOLDERS) + "/"]))
        if parents:
            files["profiles/%s/parent" % folder] = draw_lines(draw, iter(parents * 4).__next__, 4)


# Entries

def put_entry(draw, files, asks):
    name, version = draw.choice(PACKAGES), draw.choice(VERSIONS)
    category, package = name.split("/")
    ebuild = draw.choice(["", "# an ebuild\n"])
    digest = hashlib.md5(ebuild.encode()).hexdigest()
    eclasses = draw.sample(ECLASSES, draw.choice([0, 0, 1, 2]))
    pairs = [part for eclass in eclasses for part in (eclass, hashlib.md5(files["eclass/%s.eclass" % eclass].encode()).hexdigest())]
    if draw.random() < 0.05:
        pairs = draw.choice([["one"], ["one", "0" * 32], ["none", digest], ["one", digest, ""]])
    iuse = " ".join(draw.choice(["", "+", "-"]) + flag for flag in draw.sample(FLAGS, draw.randrange(6)))
    lines = ["EAPI=" + draw.choice(list("5678") + ["8"] * 4 + ["4"]), "SLOT=" + draw.choice(["0", "1", "0/2", "1/1", "0"]),
             "KEYWORDS=" + draw.choice(["amd64", "~amd64", "amd64 x86", "~x86 amd64", "~amd64 x86", "-* x86", "", "amd64 ~~x86"]),
             "IUSE=" + iuse, "PROPERTIES=" + draw.choice(["", "", "", "live", "interactive live"]), "_md5_=" + draw.choice([digest] * 9 + [digest.upper(), "0" * 32]), "_eclasses_=" + "\t".join(pairs)]
    for key in ["REQUIRED_USE"] + plain.CLASSES:
        if draw.random() < 0.5:
            lines.append("%s=%s" % (key, draw_expression(draw, key == "REQUIRED_USE", asks)))
    files["metadata/md5-cache/%s/%s-%s" % (category, package, version)] = "".join(line + "\n" for line in lines)
    if draw.random() < 0.95:
        files["%s/%s/%s-%s.ebuild" % (category, package, package, version)] = ebuild


def draw_repository(draw):
    files = {"profiles/categories": "app\nx # the others\n", "metadata/md5-cache/x/Manifest.gz": "no package and version\n",
             "x/y/y-9.ebuild": "no entry\n", "eclass/one.eclass": "", "eclass/two.eclass": "# two\n"}
    lines = [("amd64", "base", "stable"), ("amd64", "other", "dev"), ("x86", "third/", "exp"), ("amd64", "top/inner", "exp more"),
             ("amd64", "gone", "dev"), ("x86", "top/../other", "stable"), ("amd64", "base", "dev"), ("amd64", "base", "none")]
    rows = draw.sample(lines, draw.randrange(1, 5))
    files["profiles/profiles.desc"] = "".join(" ".join(row) + draw.choice(["\n", "\n", "\n# c\n"]) for row in rows)
    masked = [draw_atom(draw).lstrip("!") for _ in range(4)]
    for folder in FOLDERS:
        put_profile(draw, files, folder, masked)
    put_parents(draw, files)
    if draw.random() < 0.4:
        put_file_or_folder(draw, files, "profiles/package.mask", draw.choice(masked) + "\n")
    asks = draw.choice([0, 0.1, 0.3])
    for _ in range(draw.randrange(1, 9)):
        put_entry(draw, files, asks)
    return {path: content.encode() for path, content in files.items()}


def draw_options(draw):
    """Keywords, profiles, and whether JSON is asked for; and the words for them, in any order."""
    keywords = draw.sample(plain.KEYWORDS, draw.randrange(1, 6)) if draw.random() < 0.3 else None
    profiles = draw.sample(FOLDERS + ["none"], draw.randrange(1, 3)) if draw.random() < 0.2 else None
    as_json = draw.random() < 0.3
    parts = [["R"], draw.choice([["--certs", "C"], ["--certs=C"]])] + [["--fresh"]] * draw.randrange(2) + [["--json"]] * as_json
    for name, values in (("--keywords", keywords), ("--profiles", profiles)):
        if values is not None:
            parts.append(draw.choice([[name, ",".join(values)], [name + "=" + ",".join(values)]]))
    draw.shuffle(parts)
    return (keywords, profiles, as_json), ["scan"] + [word for part in parts for word in part]


COUNT = {"lines": 0, "certificates": 0, "profiles that accept testing": 0, "that take it back": 0, "packages with a preferred flag": 0,
         "with status 0": 0, "with status 1": 0}


def told():
    return ", ".join(f"{count} {what}" for what, count in COUNT.items())


def verified(binary, folder, words, report):
    """How the verification of a report ends, with the number of queries left out."""
    put(folder, "P", report)
    words = ["verify"] + [word for word in words[1:] if word != "--fresh"] + ["--report", "P"]
    status, out, err = run([binary] + words, cwd=folder)
    return status, re.sub("^accepted [0-9]+", "accepted", out), err


def another(draw, report):
    """The report with a byte changed, a line left out or a byte more; and the first place where the two differ."""
    lines, place = report.splitlines(keepends=True), draw.randrange(len(report) + 1)
    without = draw.randrange(len(lines)) if lines else 0
    other = draw.choice([
        report[:place] + b"*" + report[place + 1:], b"".join(lines[:without] + lines[without + 1:]), report + b"\n"])
    if other == report:
        other += b"*"
    return other, next((n for n, (a, b) in enumerate(zip(report, other)) if a != b), min(len(report), len(other)))


def counted(files, repository, want, queries):
    packages, profiles = repository
    COUNT["lines"] += want[1].count("\n")
    COUNT["certificates"] += len(queries)
    COUNT["profiles that accept testing"] += sum(profile["testing"] for profile in profiles)
    COUNT["that take it back"] += sum(not profile["testing"] and any(
        "ACCEPT_KEYWORDS" in files.text(folder + "/make.defaults") and "~" + profile["arch"] in plain.words_in(
            plain.with_defaults(files.text(folder + "/make.defaults"), {}), "ACCEPT_KEYWORDS")
        for folder in plain.stack_of(files, plain.resolve("profiles", plain.relative(profile["path"])))) for profile in profiles)
    COUNT["packages with a preferred flag"] += sum(bool(package["plus"]) for package in packages)
    COUNT[f"with status {want[0]}"] += 1


def compared(number, binary, folder):
    """What a scan prints, the queries of which it leaves an answer, in their order, and the verdicts on its report and on another one."""
    draw = random.Random(number)
    files = draw_repository(draw)
    (keywords, profiles, as_json), words = draw_options(draw)
    want, read = plain.scan(files, keywords, profiles, as_json), plain.Files(files)
    repository = plain.repository_of(read)
    put_files(os.path.join(folder, "R"), files)
    got = run([binary] + words, cwd=folder)
    if as_json:
        for line in got[1].splitlines():
            json.loads(line)
    kept = bytes_of(folder, "C")
    queries = [query for query, _ in backing.records(kept)]
    asked = plain_run.gates_within_limits(read, {"keywords": keywords, "profiles": profiles})
    other, at = another(draw, got[1].encode())
    verdicts = verified(binary, folder, words, got[1].encode()), verified(binary, folder, words, other)
    counted(read, repository, want, queries)
    return (got, kept[:10], backing.file_of(backing.records(kept)) == kept, queries, *verdicts), (
        want, b"gviscert2\n", True, list(dict.fromkeys(gates for _, gates in asked)), (0, "accepted\n", ""),
        (1, "refused: text differs at byte %d\n" % at, ""))


CASES = [named(f"repository {number}", compared, number) for number in NUMBERS]
