"""Counts what the built program does on small trees, where time would tell nothing.

valgrind counts the calls of what solves, of what lowers and of what takes memory in a scan of a tree with some profiles that
say the same, and in one of the same tree with more of them. Each distinct query is solved once; an expression of a package is
lowered once, whatever its classes and profiles; a query of another profile takes at most MOST calls for memory; and the program that
was proved and built takes at most INSTRUCTIONS for the second tree, 5 parts of 100 more than were counted when that was written.
"""
import os
import re

from common import EMPTY, TOP, bytes_of, needs, put, run

PACKAGES = 40
FEW, MANY = 3, 9
# of REQUIRED_USE and of the five classes, in each context
QUERIES = 6
# of REQUIRED_USE, of RDEPEND, of DEPEND, and the empty one that three classes have
EXPRESSIONS = 4
# calls for memory that one more query may cost, with its part of a report and of reading the profile
MOST = 1.0
INSTRUCTIONS = 11_330_000
# Each is called once where a query is solved in a fresh scan, and once where one is lowered: counted is the first that the
# compiler left standing, since it may write a function into its one caller.
SOLVES = ("gv_solver::solver::search", "gv_solver::solver::solve", "gv_query::asking::ask", "gv_encode::encoding::encode",
          "gv_query::records::backed_among")
LOWERS = ("gv_lower::sketch::Sketch::begin", "gv_lower::sketch::Sketch::finish", "gv_lower::flags::free_flags")
TAKES = ("rattle_alloc", "rattle_realloc")


def dependencies(n):
    one, two, three = (f"x/p{(n * k + 1) % (PACKAGES + 2)}" for k in (1, 3, 7))
    return f"{one} a? ( {two}[b] ) || ( {three}[c?] >={one}-1 )"


def write_tree(folder, profiles):
    put(folder, "profiles/categories", "x\n")
    put(folder, "profiles/profiles.desc", "".join(f"amd64 p{i} stable\n" for i in range(profiles)))
    put(folder, "profiles/base/eapi", "8\n")
    put(folder, "profiles/base/use.mask", "c\n")
    for i in range(profiles):
        put(folder, f"profiles/p{i}/eapi", "8\n")
        put(folder, f"profiles/p{i}/parent", "../base\n")
    for n in range(PACKAGES):
        lines = ["EAPI=8", "SLOT=0", "KEYWORDS=amd64", "IUSE=a b c", "REQUIRED_USE=?? ( a b )", f"RDEPEND={dependencies(n)}",
                 f"DEPEND=x/p{n // 2}", f"_md5_={EMPTY}"]
        put(folder, f"metadata/md5-cache/x/p{n}-1", "\n".join(lines) + "\n")
        put(folder, f"x/p{n}/p{n}-1.ebuild", "")


def calls(listing):
    """How often each function was called, of a file that callgrind wrote."""
    names, counts, callee = {}, {}, None
    for line in listing.split("\n"):
        found = re.match(r"c?fn=\((\d+)\)(?: (.*))?$", line)
        if found:
            names.setdefault(found[1], found[2])
            callee = found[1]
        elif line.startswith("calls="):
            counts[callee] = counts.get(callee, 0) + int(line[6:].split()[0])
    totals = {}
    for number, count in counts.items():
        name = re.sub(r"(::<.*|'\d+)$", "", names[number])
        totals[name] = totals.get(name, 0) + count
    return totals


def instructions(listing):
    """How many instructions callgrind counted, of a file that it wrote."""
    return int(re.search(r"^(?:summary|totals): (\d+)", listing, re.M)[1])


def first_of(counted, names):
    """The calls of the first of these functions that was called, and None where none was."""
    return next((counted[name] for name in names if name in counted), None)


def records_in(file):
    """How many records a file of certificates has."""
    at, found = 10, 0
    while at < len(file):
        for _ in range(2):
            at += 8 + int.from_bytes(file[at:at + 8], "big")
        found += 1
    return found


def count(binary, folder, profiles):
    """The calls that were counted in a scan, the records that it wrote, the calls for memory, and the instructions."""
    tree, certs, listing = (os.path.join(folder, f"{name}{profiles}") for name in ("R", "C", "calls"))
    write_tree(tree, profiles)
    words = ["valgrind", "--tool=callgrind", f"--callgrind-out-file={listing}", binary, "scan", tree, "--certs", certs, "--fresh"]
    status, _, err = run(words, timeout=600)
    if status not in (0, 1):
        raise AssertionError(f"{words} ended with {status}: {err}")
    with open(listing, encoding="utf-8", errors="replace") as file:
        text = file.read()
    counted = calls(text)
    return counted, records_in(bytes_of(certs)), sum(counted.get(name, 0) for name in TAKES), instructions(text)


SAID = []


def told():
    return ", ".join(SAID)


@needs("valgrind")
def work_does_not_grow_with_what_is_the_same(binary, folder):
    """Each distinct query is solved once, with few profiles and with many; each expression of a package is lowered once, and not for
    another profile; one more query takes few calls for memory; and all takes few instructions."""
    few, many = (count(binary, folder, profiles) for profiles in (FEW, MANY))
    solved, lowered = ([first_of(counted[0], names) for counted in (few, many)] for names in (SOLVES, LOWERS))
    each = (many[2] - few[2]) / ((MANY - FEW) * PACKAGES * QUERIES)
    SAID.append(f"{few[1]} solved, {lowered[1]} lowered, {each:.2f} calls for memory a query of one more profile, {many[3]:,} instructions")
    # (a program that wasn't proved checks at run time, too)
    is_built = binary == os.path.join(TOP, "crates/gvis/out/gvis")
    took = many[3] if is_built and many[3] > INSTRUCTIONS else "few"
    return (solved, lowered, each if each > MOST else "few", took), ([few[1], many[1]], [EXPRESSIONS * PACKAGES] * 2, "few", "few")


CASES = [work_does_not_grow_with_what_is_the_same]
