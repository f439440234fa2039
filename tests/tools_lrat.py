"""`gvis-lrat`: records of the real program as DIMACS and LRAT, held against the formats, and accepted by the checkers of others."""
import functools
import itertools
import os
import random
import re
import shutil
import tempfile

import backing
import plain
import plain_gates
from common import BOOKS, HEADER, TOP, bytes_of, content, needs, put, put_files, run
from random_repositories import draw_repository

TOOL = os.path.join(TOP, "share/gvis-lrat")
REPOSITORIES = 20
# So many inputs of a query are tried one by one.
TRIED = 8


class Place:
    """A folder with a repository R, its certificates C as a scan leaves them, and what the tool says."""

    def __init__(self, binary, folder, files=None):
        self.folder, self.binary = folder, binary
        if files is None:
            shutil.copytree(os.path.join(TOP, "examples/repo"), os.path.join(folder, "R"))
        else:
            put_files(os.path.join(folder, "R"), files)
        self.status, report, _ = run([binary, "scan", "R", "--certs", "C"], cwd=folder)
        put(folder, "P", report)

    def call(self, *words):
        return run([TOOL, "C", "out", *words], cwd=self.folder)

    def written(self, out="out"):
        """The files of the folder `out`."""
        return {name: content(self.folder, out, name) for name in sorted(os.listdir(os.path.join(self.folder, out)))}

    def queries(self):
        """The name and the gates of each query, by the plain program."""
        root = os.path.join(self.folder, "R")
        files = {os.path.relpath(os.path.join(at, name), root): bytes_of(at, name) for at, _, names in os.walk(root) for name in names}
        repository = plain.repository_of(plain.Files(files))
        for query in plain_gates.queries(repository, {"keywords": None, "profiles": None}):
            package, profile, level, key, _ = query
            yield f"{package['pf']} {key} {profile['arch']} {profile['path']} {level}", plain_gates.bytes_of(query, plain.shown(repository[0], profile, level))


class Drawn:
    """What a place has that several cases look at: its certificates, its queries, how many the program asks, and what the tool says
    and writes."""

    def __init__(self, place):
        self.pairs = backing.records(bytes_of(place.folder, "C"))
        self.said, self.written = place.call("--tree", "R", "--report", "P"), place.written()
        self.queries = list(place.queries())
        verdict = run([place.binary, "verify", "R", "--certs", "C", "--report", "P"], cwd=place.folder)[1]
        self.count = re.fullmatch(r"accepted (\d+)\n", verdict)[1]


@functools.lru_cache(maxsize=None)
def several(binary):
    """The example, and repositories that numbers draw."""
    found = {}
    for number in range(-1, REPOSITORIES):
        with tempfile.TemporaryDirectory() as folder:
            place = Place(binary, folder, draw_repository(random.Random(number)) if number >= 0 else None)
            if place.status in (0, 1) and backing.records(bytes_of(folder, "C")):
                found[number] = Drawn(place)
    return found


# A plain checker of LRAT by unit propagation alone.

def numbers_in(text):
    return [[int(word) for word in line.split()] for line in text.splitlines()]


def clauses_in(cnf):
    """The clauses of DIMACS by their numbers, and how many variables there are."""
    head, *lines = cnf.splitlines()
    variables, count = map(int, re.fullmatch(r"p cnf ([1-9]\d*) ([1-9]\d*)", head).groups())
    clauses = {at: set(line[:-1]) for at, line in enumerate(numbers_in("\n".join(lines)), 1)}
    assert len(clauses) == count and all(0 < abs(literal) <= variables for clause in clauses.values() for literal in clause)
    assert all(-literal not in clause for clause in clauses.values() for literal in clause)
    return clauses, variables


def is_refuted(cnf, proof):
    """Whether each line of the proof follows by its hints, and one is empty."""
    clauses, is_empty = clauses_in(cnf)[0], False
    last = len(clauses)
    for number, *rest in numbers_in(proof):
        end = rest.index(0)
        clause, hints = rest[:end], rest[end + 1:-1]
        if number <= last or rest[-1] != 0 or not propagates({-literal for literal in clause}, [clauses.get(hint) for hint in hints]):
            return False
        clauses[number], last, is_empty = set(clause), number, is_empty or not clause
    return is_empty


def propagates(true, hints):
    """Whether each of the clauses but the last is unit in turn, and the last one false."""
    for at, clause in enumerate(hints):
        if clause is None or clause & true:
            return False
        left = {literal for literal in clause if -literal not in true}
        if len(left) != (at < len(hints) - 1):
            return False
        true |= left
    return bool(hints)


def pairs_of(written):
    """The names of the refutations, each with its formula and its proof."""
    return [(name[:-5], written[name[:-5] + ".cnf"], text) for name, text in written.items() if name.endswith(".lrat")]


COUNT = {"refutations": 0, "models": 0}


def told():
    return ", ".join(f"{count} {what}" for what, count in COUNT.items())


# What is written

def each_refutation_and_model_is_right(binary, _):
    """By the plain checker; and there is one of both for each record, and for bits a refutation for each input that is on."""
    got, want = {}, {}
    for number, drawn in several(binary).items():
        refuted = {name: is_refuted(cnf, proof) for name, cnf, proof in pairs_of(drawn.written)}
        models = {}
        for name, text in drawn.written.items():
            if name.endswith(".model"):
                values = set(map(int, re.fullmatch(r"s SATISFIABLE\nv ([-\d ]+) 0\n", text)[1].split()))
                models[name[:-6]] = all(clause & values for clause in clauses_in(drawn.written[name[:-6] + ".cnf"])[0].values())
        got[number] = drawn.said[0], drawn.said[2], refuted, models
        expected, satisfied = [], []
        for at, (query, answer) in enumerate(drawn.pairs, 1):
            bits = backing.claim_of(query, answer)[1]
            expected += [str(at)] if bits is None else [f"{at}-{one}" for one, bit in enumerate(bits, 1) if bit]
            satisfied += [] if bits is None else [str(at)]
        want[number] = 0, "", dict.fromkeys(expected, True), dict.fromkeys(satisfied, True)
        COUNT["refutations"] += len(expected)
        COUNT["models"] += len(satisfied)
    return (got, COUNT["refutations"] > 40, COUNT["models"] > 40), (want, True, True)


def formulas_are_those_of_the_gates(binary, _):
    """For all bits of few inputs: the formula has a model with them exactly where they give the root true. A formula beside a
    refutation of an input has besides that this one is off, and those before it that the answer has off."""
    got, want = {}, {}
    for number, drawn in several(binary).items():
        for at, (query, answer) in enumerate(drawn.pairs, 1):
            inputs, gates, root = backing.gates_of(query)
            clauses = clauses_in(drawn.written[f"{at}.cnf"])[0]
            for bits in itertools.product((0, 1), repeat=inputs) if inputs <= TRIED else []:
                values = {place if value else -place for place, value in enumerate(backing.values(gates, bits), 1)}
                got[number, at, bits] = [name for name, clause in clauses.items() if not clause & values]
                want[number, at, bits] = [] if backing.value(inputs, gates, root, bits) else [len(clauses)]
            bits = backing.claim_of(query, answer)[1] or []
            for one in (one for one, bit in enumerate(bits, 1) if bit):
                more = list(clauses_in(drawn.written[f"{at}-{one}.cnf"])[0].values())
                got[number, at, one] = more[:len(clauses)] == list(clauses.values()), sorted(more[len(clauses):], key=min)
                off = [{-other} for other in range(1, one + 1) if other == one or not bits[other - 1]]
                want[number, at, one] = True, sorted(off, key=min)
    return got, want


def records_are_named(binary, _):
    """In order, with their first query and how many there are, by the plain program; together as many as the program asks."""
    got, want = {}, {}
    for number, drawn in several(binary).items():
        asked = {}
        for name, gates in drawn.queries:
            asked.setdefault(gates, []).append(name)
        got[number] = drawn.written["records"].splitlines(), drawn.said[1].splitlines()[1]
        want[number] = [], f"{drawn.count} queries of R, each with a record"
        for at, (query, answer) in enumerate(drawn.pairs, 1):
            bits = backing.claim_of(query, answer)[1]
            says = "none" if bits is None else " ".join(map(str, ["bits", *bits]))
            want[number][0].append(f"{at}\t{says}\t{len(asked[query])}\t{asked[query][0]}")
    return got, want


def the_report_is_held_against_the_records(binary, folder):
    """As text and as JSON; a line more, less or changed is told. (That right ones are accepted, the drawn repositories show.)"""
    place = Place(binary, folder)
    text, as_json = content(folder, "P"), run([binary, "scan", "R", "--certs", "C", "--json"], cwd=folder)[1]
    lines = text.splitlines(True)
    given = {"text": text, "json": as_json, "less": "".join(lines[1:]), "changed": text.replace("-systemd", "systemd"), "more": text + lines[2].replace("tmux", "screen")}
    got = {}
    for name, report in given.items():
        put(folder, "P", report)
        status, _, err = place.call("--tree", "R", "--report", "P")
        got[name] = status, err
    first, third = lines[0], lines[2]
    return got, {
        "text": (0, ""), "json": (0, ""), "less": (2, f"gvis-lrat: P: 1 lines are missing, as {first}"),
        "changed": (2, f"gvis-lrat: P: 1 lines that no record gives, as {third.replace('-systemd', 'systemd')}gvis-lrat: P: 1 lines are missing, as {third}"),
        "more": (2, f"gvis-lrat: P: 1 lines that no record gives, as {third.replace('tmux', 'screen')}")}


def one_query_or_record_is_as_in_the_whole(binary, folder):
    """The files of one query are those that the whole file gives; the number of the record is kept."""
    place = Place(binary, folder)
    place.call("--tree", "R")
    whole = place.written()
    query = "app-misc/tmux-3.4 RDEPEND riscv default/linux/riscv stable"
    number = next(line.split("\t")[0] for line in whole["records"].splitlines() if line.endswith(query))
    mine = {name: text for name, text in whole.items() if re.match(number + r"[.-]", name)}
    line = next(line for line in whole["records"].splitlines(True) if line.startswith(number + "\t"))
    got, want = {}, {}
    for out, words in {"query": ["--tree", "R", "--query", query], "record": ["--tree", "R", "--record", number]}.items():
        status, _, err = run([TOOL, "C", out, *words], cwd=folder)
        got[out], want[out] = (status, err, place.written(out)), (0, "", {**mine, "records": line})
    return (got, len(mine)), (want, 4)


def without_a_tree(binary, folder):
    """The same files, and it is said that no record has a name."""
    place = Place(binary, folder)
    place.call("--tree", "R")
    whole = place.written()
    status, out, err = run([TOOL, "C", "bare"], cwd=folder)
    bare = place.written("bare")
    lines = {line.split("\t", 2)[2] for line in bare.pop("records").splitlines()}
    whole.pop("records")
    asked = run([TOOL, "C", "bare", "--query", "a"], cwd=folder)
    return (status, out.splitlines()[1], err, bare == whole, lines, asked[0], asked[2].splitlines()[-1]), (
        0, "no tree is given (--tree ROOT), so no record is named, and whether each query has one isn't known", "", True, {"?\tnot named"}, 2,
        "gvis-lrat: error: --query, --report, --keywords and --profiles want --tree ROOT")


def both_versions_give_the_same(binary, folder):
    place = Place(binary, folder)
    place.call("--tree", "R")
    second = place.written()
    pairs = backing.records(bytes_of(folder, "C"))
    put(folder, "C", backing.first_file_of(pairs))
    shutil.rmtree(os.path.join(folder, "out"))
    return (place.call("--tree", "R"), place.written() == second), (
        (0, "12 records in out: 10 refutations, 5 models\n120 queries of R, each with a record\n", ""), True)


# What is no record

def with_record(pairs, at, query=None, answer=None):
    """The file with another query or answer in a record."""
    old = pairs[at]
    return backing.file_of(pairs[:at] + [(old[0] if query is None else query, old[1] if answer is None else answer)] + pairs[at + 1:])


def what_is_of_no_use_is_told(binary, folder):
    """With its number, and the rest is written."""
    place = Place(binary, folder)
    whole = bytes_of(folder, "C")
    pairs = backing.records(whole)
    one = next(at for at, (query, answer) in enumerate(pairs) if backing.claim_of(query, answer)[1] == [1, 0])
    query, answer = pairs[one]
    clauses, bits, steps = backing.claim_of(query, answer)
    given = {
        "no gates": with_record(pairs, 1, query=b"\0"),
        "no answer": with_record(pairs, 1, answer=b"\2"),
        "no empty clause": with_record(pairs, 1, answer=b"\0\0"),
        "other bits": with_record(pairs, one, answer=backing.written(clauses, [0, 0], steps)),
        "not least": with_record(pairs, one, answer=backing.written(clauses, bits, [])),
        "cut": whole[:-1], "more": whole + b"more", "no header": b"hello", "nothing": b"", "no records": HEADER,
    }
    got = {}
    for name, content_ in given.items():
        put(folder, "C", content_)
        status, out, err = run([TOOL, "C", name], cwd=folder)
        got[name] = status, int(out.split()[0]), err
    cut = len(pairs[-1][0]) + len(pairs[-1][1]) + 15
    no_use = "gvis-lrat: record %d is of no use: %s\n"
    return got, {
        "no gates": (2, 11, no_use % (2, "its query is no gates")), "no answer": (2, 11, no_use % (2, "its answer isn't of the form of one")),
        "no empty clause": (2, 11, no_use % (2, "its log has no empty clause")), "other bits": (2, 11, no_use % (one + 1, "its bits don't give the root true")),
        "not least": (2, 11, no_use % (one + 1, "its log doesn't say that input 1 has to be on")),
        "cut": (2, 11, f"gvis-lrat: C: {cut} bytes behind the last record are unused\n"), "more": (2, 12, "gvis-lrat: C: 4 bytes behind the last record are unused\n"),
        "no header": (2, 0, "gvis-lrat: C: it has no header of a certificate file\n"), "nothing": (2, 0, "gvis-lrat: C: it has no header of a certificate file\n"),
        "no records": (0, 0, "")}


def a_query_without_a_record_is_told(binary, folder):
    """The first one, and how many there are; those that the options don't select aren't missed."""
    place = Place(binary, folder)
    pairs = backing.records(bytes_of(folder, "C"))
    put(folder, "C", backing.file_of(pairs[:3] + pairs[4:]))
    missing = place.call("--tree", "R")
    stable = place.call("--tree", "R", "--keywords", "NonsolvableDepsInStable")
    amd64 = place.call("--tree", "R", "--profiles", "default/linux/amd64")
    gone = place.call("--tree", "R", "--query", "app-editors/nano-8.2 RDEPEND riscv default/linux/riscv stable")
    count = sum(" REQUIRED_USE " not in name and " amd64 " in name for name, _ in place.queries())
    return (missing, stable[0], stable[1].splitlines()[1], amd64[0], gone), (
        (2, "11 records in out: 9 refutations, 4 models\n120 queries of R, 1 of them without a record\n",
         "gvis-lrat: no record: app-editors/nano-8.2 RDEPEND riscv default/linux/riscv stable\n"), 0, f"{count} queries of R, each with a record", 0,
        (2, "", "gvis-lrat: no record of the query app-editors/nano-8.2 RDEPEND riscv default/linux/riscv stable\n"))


def what_cannot_be_read_or_written(binary, folder):
    place = Place(binary, folder)
    put(folder, "file", "")
    os.remove(put(folder, "empty/file", ""))
    return ([run([TOOL, *words], cwd=folder)[0::2] for words in (["gone", "out"], ["C", "file"], ["C", "out", "--tree", "empty"])], place.status), ([
        (1, "gvis-lrat: [Errno 2] No such file or directory: 'gone'\n"), (1, "gvis-lrat: [Errno 17] File exists: 'file'\n"),
        (1, "gvis-lrat: not a repository: empty/profiles/profiles.desc isn't there\n")], 1)


# Checkers of others

def spoilt(proof):
    """Proofs of which no checker may accept one: without a step that a later one names, without the last hint of the last step,
    and with another last hint of it."""
    lines = numbers_in(proof)
    for at, (number, *rest) in enumerate(lines):
        if any(number in later[later.index(0, 1):] for later in lines[at + 1:]):
            yield f"without_{number}", lines[:at] + lines[at + 1:]
    last = lines[-1]
    yield "a_hint_less", lines[:-1] + [last[:-2] + [0]]
    if len(last) > 4:
        yield "another_hint", lines[:-1] + [last[:-2] + [last[2], 0]]


def written_again(lines):
    return "".join(" ".join(map(str, line)) + "\n" for line in lines)


def all_pairs(binary, folder):
    """The folder in which all refutations of several repositories stand, and their names, each with whether it is right."""
    found = {}

    def add(name, cnf, proof, is_right):
        put(folder, name + ".cnf", cnf)
        put(folder, name + ".lrat", proof)
        found[name] = is_right

    for number, drawn in several(binary).items():
        for name, cnf, proof in pairs_of(drawn.written):
            add(f"{number}_{name}", cnf, proof, True)
            for how, lines in spoilt(proof):
                add(f"{number}_{name}_{how}", cnf, written_again(lines), False)
    return found


def a_step_that_is_left_out_or_changed_is_refused(binary, folder):
    """By the plain checker."""
    found = all_pairs(binary, folder)
    return {name: is_refuted(content(folder, name + ".cnf"), content(folder, name + ".lrat")) for name in found}, found


def shell_block(number):
    return re.findall(r"^```sh\n(.*?)^```", content(TOP, "docs/certificates.md"), re.M | re.S)[number]


@needs("acl2", BOOKS)
def acl2_accepts_what_is_right_alone(binary, folder):
    """The checker that is proved in ACL2, as docs/certificates.md calls it."""
    found = all_pairs(binary, folder)
    status, out, _ = run(["sh", "-c", shell_block(1)], cwd=folder)
    accepted = set(re.findall(r"^accepted (\S+)$", out, re.M))
    return (status, {name: name in accepted for name in found}, len(accepted) > 40), (0, found, True)


@needs("cadical")
def a_solver_says_the_same(binary, folder):
    """Of each formula whether it has a model."""
    got, want = {}, {}
    for number, drawn in several(binary).items():
        for name, text in drawn.written.items():
            if name.endswith(".cnf"):
                got[number, name] = run(["cadical", "-q", "-n", put(folder, name, text)])[0]
                want[number, name] = 10 if name[:-4] + ".model" in drawn.written else 20
    return got, want


@needs("lrat-check")
def lrat_check_accepts_what_is_right_alone(binary, folder):
    found = all_pairs(binary, folder)
    return {name: "c VERIFIED" in run(["lrat-check", name + ".cnf", name + ".lrat"], cwd=folder)[1].splitlines() for name in found}, found


@needs("drat-trim")
def drat_trim_accepts_what_is_right(binary, folder):
    """It has no use for hints, and so accepts some of the others too."""
    found = all_pairs(binary, folder)
    right, got = [name for name, is_right in found.items() if is_right], {}
    for name in right:
        put(folder, name + ".drat", "".join(" ".join(map(str, line[1:line.index(0) + 1])) + "\n" for line in numbers_in(content(folder, name + ".lrat"))))
        got[name] = "s VERIFIED" in run(["drat-trim", name + ".cnf", name + ".drat"], cwd=folder)[1]
    return got, dict.fromkeys(right, True)


# The recipes of docs/certificates.md

def what_is_published(binary, folder):
    """The report, its certificates and their sums, which the program and the tool accept; the models by the recipe's line, and a
    spoilt one isn't."""
    how = {"cwd": folder, "env": dict(os.environ, PATH=folder + "/bin:" + os.environ["PATH"])}
    os.makedirs(folder + "/bin")
    os.symlink(binary, folder + "/bin/gvis")
    shutil.copytree(os.path.join(TOP, "examples/repo"), folder + "/R")
    script = put(folder, "gvis-publish", shell_block(0), 0o755)
    published = run([script, "R", "published"], **how)
    refused = run([script, "gone", "other"], **how)[0]
    sums = run(["sha256sum", "-c", "--quiet", "sums"], cwd=folder + "/published")
    verdict = run([binary, "verify", "R", "--certs", "published/certificates", "--report", "published/report"], **how)[1]
    tool = run([TOOL, "published/certificates", "out", "--tree", "R", "--report", "published/report"], **how)
    models = run(["sh", "-c", shell_block(2)], cwd=folder + "/out")
    model = content(folder, "out/4.model")
    put(folder, "out/4.model", model.replace(" 14 0", " -14 0"))
    spoilt_model = run(["sh", "-c", shell_block(2)], cwd=folder + "/out")[1]
    return (published, refused, sums, verdict, tool[0], models, model.count(" 14 0"), spoilt_model.splitlines()[-1]), (
        (0, "", ""), 6, (0, "", ""), "accepted 120\n", 0, (0, "", ""), 1, "4.cnf: clause 25 is false")


CASES = [
    each_refutation_and_model_is_right, formulas_are_those_of_the_gates, records_are_named, the_report_is_held_against_the_records, one_query_or_record_is_as_in_the_whole,
    without_a_tree, both_versions_give_the_same, what_is_of_no_use_is_told, a_query_without_a_record_is_told, what_cannot_be_read_or_written,
    a_step_that_is_left_out_or_changed_is_refused, acl2_accepts_what_is_right_alone, a_solver_says_the_same,
    lrat_check_accepts_what_is_right_alone, drat_trim_accepts_what_is_right, what_is_published,
]
