"""docs/calls.md has one row for each public call of each library and of the program's adapters, and each clause that it names stands in
the contract of each call of the row.

A public call is a function that `lib` hands on, or one of a type or a trait that it hands on; those of an implementation of the four traits of
the outside are public too. The crates of tests have none.
"""
import re

from common import TOP, content
from rooms import code_of, names_in

ALONE = True
OUTSIDE = ("Tree", "Store", "Source", "Sink")
CELLS = ("Ends", "Refusals", "Outside", "Causes")


def handed_on(code):
    """The names that `lib` hands on; a program's types are all public here."""
    if "lib" not in code:
        return None
    found = re.findall(r"^pub use ([^;]+);", code["lib"], re.M)
    return {name.split("::")[-1].strip() for one in found for name in one[one.find("{") + 1:].rstrip("} \n").split(",")}


def holder_of(line):
    """The trait and the type of the first line of an implementation, and the type alone of another one or of a trait."""
    line = line.replace("->", "  ")
    while re.match(r"impl\s*<", line):
        # (the parameters, innermost first)
        shorter = re.sub(r"<[^<>]*>", "", line, count=1)
        line = shorter if shorter != line else "impl" + line.partition("<")[2]
    named = re.match(r"(?:impl|pub trait)\s+(?:(\w+)(?:<.*?>)? for )?(\w+)", line)
    return named.groups() if named else (None, None)


def functions(text):
    """Of each function in a file of code the trait and the type around it, whether it is public, its name and its contract."""
    trait = holder = None
    lines = text.split("\n")
    for at, line in enumerate(lines):
        if line.startswith(("impl", "pub trait")):
            trait, holder = holder_of(line)
            trait = "itself" if line.startswith("pub trait") else trait
        elif line.startswith("}"):
            trait = holder = None
        named = re.match(r"\s*(pub )?fn (\w+)", line)
        if named:
            end = next((n for n in range(at, len(lines)) if lines[n].endswith(";") or re.search(r"\{\}?$", lines[n]) and "ensures" not in lines[n]), at)
            yield trait, holder, bool(named[1]), named[2], "\n".join(lines[at:end + 1])


def calls_of(crate):
    """The contract of each public call of a crate by its name."""
    code, found = code_of(crate), {}
    known = handed_on(code)
    for text in code.values():
        for trait, holder, is_public, name, contract in functions(text):
            if (is_public or trait == "itself" or trait in OUTSIDE) and (known is None and holder or known is not None and (holder or name) in known):
                found[f"{holder}::{name}" if holder else name] = contract
    return found


def libraries():
    return [crate for crate in names_in("crates") if crate not in ("gv_probe", "gv_tests")]


def rows():
    """The rows of the document: a crate, its calls, and the cells by their columns."""
    for part in content(TOP, "docs/calls.md").split("\n## ")[1:]:
        for line in part.split("\n"):
            cells = [cell.strip() for cell in line.split("|")[1:-1]]
            if line.startswith("| `"):
                yield part[:part.index("\n")].strip("`"), re.findall("`([^`]+)`", cells[0]), dict(zip(CELLS, cells[1:], strict=True))


def each_public_call_has_a_row(*_):
    rowed = [(crate, call) for crate, calls, _ in rows() for call in calls]
    there = [(crate, call) for crate in libraries() for call in calls_of(crate)]
    twice = sorted({one for one in rowed if rowed.count(one) > 1})
    return (sorted(set(there) - set(rowed)), sorted(set(rowed) - set(there)), twice, len(there) > 400), ([], [], [], True)


def lacks(contract, cell, known):
    """What a cell names that is neither a clause of the contract nor another call."""
    names = re.findall("`([^`]+)`", cell)
    wrong = [name for name in names if name not in known and not re.search(rf"\bensures {re.escape(name)} \{{", contract)]
    return wrong + (["its clause"] if "its clause" in cell and len(re.findall(r"\bensures \{", contract)) != 1 else [])


def each_clause_stands_in_its_contract(*_):
    """And no cell is empty, and each refusal but for memory has its place or its state, and its cause."""
    contracts = {crate: calls_of(crate) for crate in libraries()}
    known = {call for calls in contracts.values() for call in calls if "::" in call}
    wrong, looked = [], 0
    for crate, calls, cells in rows():
        for call in calls:
            contract = contracts.get(crate, {}).get(call, "")
            looked += 1
            wrong += [(crate, call, name) for cell in cells.values() for name in lacks(contract, cell, known)]
            wrong += [(crate, call, column) for column, cell in cells.items() if not cell]
            if re.search(r"-> Result<", contract):
                wrong += [(crate, call, column) for column in ("Refusals", "Causes") if cells[column] == "–"]
    return (wrong, looked > 400), ([], True)


CASES = [each_public_call_has_a_row, each_clause_stands_in_its_contract]
