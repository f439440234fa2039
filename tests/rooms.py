"""What docs/rules.md names for each rule is there, and each case that it names carries the rule's mark.

Reads the table under "From a rule to its rooms": the module and the names of a definition, the public call and its clauses, the files of
code, and the cases. Of the library gv_NAME a case is a heading `## CASE` of gv_probe's data, in NAME.txt, or a test in a crate of tests, in
NAME.rt, or in a file that begins with `NAME_`, or in the crate itself; `tests/MODULE: CASE` is a function here.

A rule's mark is its name up to the first `,`, `:`, `;` or ` (`. It stands in brackets behind a heading, in a comment in front of a
function here, and, once one test in a crate has any, in front of each of those that a rule names.
"""
import os
import re

from common import TOP

ALONE = True
HEADING = "## From a rule to its rooms"
MARK = re.compile(r"\[([^\[\]]+)\]")
# The file of lines that isn't called as its library.
LINES = {"rows": "run"}


def read(*path):
    try:
        with open(os.path.join(TOP, *path), encoding="utf-8") as f:
            return f.read()
    except FileNotFoundError:
        return ""


def names_in(*path):
    folder = os.path.join(TOP, *path)
    return sorted(os.listdir(folder)) if os.path.isdir(folder) else []


def code_of(crate):
    """The text of each file of a crate's code by its name."""
    return {name[:-3]: read("crates", crate, "src", name) for name in names_in("crates", crate, "src") if name.endswith(".rt")}


# Cases: places by their kind, their home and their name, with the marks that stand there.

def homes_of(name):
    """The libraries whose name a file has in front."""
    parts = LINES.get(name, name).split("_")
    return ["gv_" + "_".join(parts[:at]) for at in range(1, len(parts) + 1)]


def headings():
    for file in names_in("crates/gv_probe/data"):
        for line in read("crates/gv_probe/data", file).split("\n"):
            if line.startswith("## "):
                for home in homes_of(file.removesuffix(".txt")):
                    yield ("line", home, line[3:].split(" [")[0]), MARK.findall(line)


def functions():
    for file in names_in("tests"):
        if file.endswith(".py"):
            for comment, name in re.findall(r"^(?:# (\[.*\])\n(?:@.*\n)*)?def (\w+)\(", read("tests", file), re.M):
                yield ("function", "tests/" + file[:-3], name), MARK.findall(comment)


def tests():
    """The tests of all crates; one stands for each library whose name its file has in front."""
    for crate in names_in("crates"):
        for file, text in code_of(crate).items():
            for comment, name in re.findall(r"^ *(?:// (\[.*\])\n *)?#\[test\]\n\s*fn (\w+)\(", text, re.M):
                for home in homes_of(file) if crate.endswith("_tests") else [crate]:
                    yield ("test", home, name), MARK.findall(comment)


def contract(code, call):
    """The lines of a public function from its name to its body, or nothing."""
    owner, _, name = call.rpartition("::")
    for text in code.values():
        holder = ""
        lines = text.split("\n")
        for at, line in enumerate(lines):
            if line.startswith("impl"):
                holder = line
            elif line.startswith("}"):
                holder = ""
            if re.match(rf"\s*pub fn {name}\b", line) and (re.search(rf"\b{owner}\b", holder) if owner else not holder):
                end = next((n for n in range(at, len(lines)) if lines[n].strip() == "{" or lines[n].endswith("{}")), len(lines))
                return "\n".join(lines[at : end + 1])
    return ""


# What is missing of a definition, a call and a file of code.

def definition_lacks(crate, module, names):
    text = read("crates", crate, "specs", module + ".antt")
    return [name for name in names or [""] if not re.search(rf"\bpub (?:\w+ )*{re.escape(name)}(?= |$)", text, re.M)]


def call_lacks(crate, call, clauses):
    lines = contract(code_of(crate), call)
    if not lines:
        return [call]
    return [clause for clause in clauses if not re.search(rf"\bensures {clause} \{{", lines)]


def file_lacks(crate, file, _):
    return [] if file in code_of(crate) else [file]


COLUMNS = (("definition", definition_lacks), ("call", call_lacks), ("code", file_lacks))


# The table

def rows():
    """The rows of the table as lists of cells, and the headings of sections in it."""
    behind = read("docs", "rules.md").partition(HEADING)[2]
    lines = [line for line in behind.split("\n") if line.startswith("|")][2:]
    cells = [[cell.strip() for cell in re.split(r"(?<!\\)\|", line)[1:-1]] for line in lines]
    return [row for row in cells if any(row[1:])], {row[0].strip("*") for row in cells if not any(row[1:])}


def mark_of(rule):
    return re.split(r",|:|;| \(", rule.replace("`", ""))[0]


def named_in(cell, crate):
    """The home, the item and its names of each thing that a cell names."""
    for one in re.findall(r"`([^`]+)`", cell):
        place, _, names = one.partition(": ")
        home, _, item = place.rpartition("/")
        yield home or crate.strip("`"), item, [name for name in names.split(", ") if name]


def cases_named():
    """Of each rule its mark and the cases that it names, as (home, name)."""
    for rule, crate, *_, cell in rows()[0]:
        cases = []
        for home, item, names in named_in(cell, crate):
            cases += [("tests/" + item, name) for name in names] if home == "tests" else [(home, item)]
        yield mark_of(rule), cases


def what_a_rule_names_is_there(*_):
    there, sections = rows()
    missing, looked = [], 0
    for rule, crate, *cells in there:
        missing += [f"{rule}: no {kind}" for kind, cell in zip(["definition", "call", "code", "case"], cells) if not re.search("`[^`]+`", cell)]
        for (kind, lacks), cell in zip(COLUMNS, cells):
            for home, item, names in named_in(cell, crate):
                looked += 1 + len(names)
                missing += [f"{rule}: {kind}: {home}: {item}: {name}" for name in lacks(home, item, names)]
    titles = re.findall(r"^## (.*?)(?: \(.*)?$", read("docs", "rules.md").partition(HEADING)[0], re.M)
    missing += [f"no rule of the section: {title}" for title in titles if title not in sections]
    return (missing, len(there) > 80, looked > 800), ([], True, True)


def each_case_has_the_marks_of_its_rules(*_):
    """And no mark that is of no rule, or of one that doesn't name the case; no two rules have one mark."""
    places, wrong, wanted = {}, [], {}
    for place, marks in [*headings(), *functions(), *tests()]:
        places.setdefault(place, set()).update(marks)
    marks = [mark for mark, _ in cases_named()]
    wrong += [f"{mark}: the mark of two rules" for mark in sorted(set(marks)) if marks.count(mark) > 1]
    for mark, cases in cases_named():
        for home, name in cases:
            found = [place for place in places if place[1:] == (home, name)]
            wrong += [f"{mark}: no case {home}: {name}"] * (not found)
            for place in found:
                wanted.setdefault(place, set()).add(mark)
    tests_are_marked = any(marks for place, marks in places.items() if place[0] == "test")
    for place, marks in places.items():
        asked = wanted.get(place, set()) if place[0] != "test" or tests_are_marked else set()
        wrong += [f"{place[1]}: {place[2]}: lacks the mark [{mark}]" for mark in sorted(asked - marks)]
        named = {mark for other, of in wanted.items() if other[::2] == place[::2] for mark in of}
        wrong += [f"{place[1]}: {place[2]}: has the mark [{mark}], whose rule doesn't name it" for mark in sorted(marks - named)]
    return wrong, []


def no_mark_of_a_merge_is_left(*_):
    documents = ["README.md", "CONTRIBUTING.md", *("docs/" + name for name in names_in("docs")), *("tests/" + name for name in names_in("tests"))]
    return [name for name in documents if re.search("^(<{7} |={7}$|>{7} )", read(name), re.M)], []


CASES = [no_mark_of_a_merge_is_left, what_a_rule_names_is_there, each_case_has_the_marks_of_its_rules]
