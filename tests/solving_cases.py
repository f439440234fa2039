"""Answers, by docs/formats.md alone, to the calls about gates, logs, answers and certificates that stand in gv_probe's data.

A case is the calls behind one heading of logic.txt, encode.txt, refute.txt, trail.txt, solver.txt, cert.txt or query.txt. Each call is
answered by a plain reading of the formats (backing.py), what is sought among bits by trying all of them, and the clauses of gates are
besides held against all assignments; nothing here is shared with the program.

The sets of a spent budget are no single answer: they are accepted where they are as many as the budget and kept sets. Of a log
that was found anew only what it proves is looked at: each clause that is shown follows from those of the gates.
"""
import itertools

import backing
import lines
from backing import Cut
from common import named

ALONE = True
FILES = ("logic.txt", "encode.txt", "refute.txt", "trail.txt", "solver.txt", "cert.txt", "query.txt")


# What lines are written of.

def numbers(text):
    return [int(digits) for digits in text.split(",") if digits != "-"]


def bits(text):
    return [int(digit) for digit in text if digit != "-"]


def content(text):
    """The bytes of words of digits; a word that is none stands for its own bytes."""
    found = b""
    for word in text.split():
        try:
            found += bytes.fromhex(word)
        except ValueError:
            found += word.encode()
    return found


def gates(text):
    """Gates as (inputs, [(is_or, operands)], root); none where they are no gates."""
    words = text.split()
    if len(words) < 3 or words[-2] != ":" or any(word[0] not in "&|" for word in words[1:-2]):
        return None
    inputs, root = int(words[0]), int(words[-1])
    found = [(word[0] == "|", numbers(word[1:])) for word in words[1:-2]]
    if any(literal // 2 >= inputs + at for at, (_, operands) in enumerate(found) for literal in operands):
        return None
    return None if root // 2 >= inputs + len(found) else (inputs, found, root)


def clauses(text):
    """The number of variables, and the clauses; none where a literal is of none of the variables."""
    count, _, *lists = text.split()
    found = [numbers(word) for word in lists]
    return None if any(literal // 2 >= int(count) for clause in found for literal in clause) else (int(count), found)


def steps(text):
    return [tuple(map(numbers, word.split("<"))) for word in text.split()]


def records(parts):
    return [tuple(map(content, part.split("="))) for part in parts if part]


def claim(text):
    kind, _, rest = text.partition(" ")
    if kind == "refuted":
        return None, steps(rest)
    found, _, rest = rest.partition(" ")
    return bits(found), steps(rest)


# What answers are written as.

def list_of(found):
    return ",".join(map(str, found)) or "-"


def bits_of(found):
    return "".join(map(str, found)) or "-"


def gates_of(circuit):
    inputs, found, root = circuit
    return " ".join([str(inputs)] + ["&|"[is_or] + list_of(operands) for is_or, operands in found] + [":", str(root)])


def clauses_of(variables, found):
    return " ".join([f"{variables} :"] + [list_of(clause) for clause in found])


def log_of(found):
    return "".join(f" {list_of(clause)}<{list_of(hints)}" for clause, hints in found)


def claim_of(found, log):
    return ("refuted" if found is None else "found " + bits_of(found)) + log_of(log)


def records_of(found):
    return " ".join([str(len(found))] + [f"{query.hex()}={answer.hex()}" for query, answer in found])


# Gates.

def bytes_of(circuit):
    inputs, found, root = circuit
    written = [inputs, len(found)]
    said = b"".join(number.to_bytes(4, "big") for number in written)
    for is_or, operands in found:
        said += bytes([is_or]) + b"".join(number.to_bytes(4, "big") for number in [len(operands), *operands])
    return said + root.to_bytes(4, "big")


def values(circuit, on):
    """The value of each place."""
    inputs, found, _ = circuit
    return [backing.value(inputs, found, 2 * place, on) for place in range(inputs + len(found))]


def is_true(literal, places):
    return places[literal // 2] != (literal % 2 == 1)


def encoding_holds(circuit, found):
    """Whether the clauses but the last are true in exactly those assignments that give each gate its value, and the last one
    exactly where the root is true."""
    inputs, inner, root = circuit
    for places in itertools.product((False, True), repeat=inputs + len(inner)):
        whole = [any(is_true(literal, places) for literal in clause) for clause in found]
        if all(whole[:-1]) != (list(places) == values(circuit, [int(on) for on in places[:inputs]])):
            return False
        if whole[-1] != is_true(root, places):
            return False
    return True


def apart(circuit):
    """The gates as parts that share no input, each with its inputs and the literals that have all to be true: the root's operands
    where it is And, taken together where they look at the same input."""
    inputs, found, root = circuit
    seen = [{place} for place in range(inputs)]
    for _, operands in found:
        seen.append(set().union(*(seen[literal // 2] for literal in operands)))
    at = root // 2 - inputs
    asked = found[at][1] if root % 2 == 0 and at >= 0 and not found[at][0] else [root]
    parts = [({place}, []) for place in range(inputs)]
    for literal in asked:
        near = [part for part in parts if part[0] & seen[literal // 2]]
        joined = set().union(*(part[0] for part in near)), sum((part[1] for part in near), [literal])
        parts = [part for part in parts if part not in near] + [joined]
    return parts


def least(circuit):
    """The least bits that give the root true, by trying all; none where there are none."""
    inputs, found, _ = circuit
    all_on = [0] * inputs
    for own, asked in apart(circuit):
        own = sorted(own)
        for tried in itertools.product((0, 1), repeat=len(own)):
            on = [0] * inputs
            for place, bit in zip(own, tried):
                on[place] = bit
            if all(backing.value(inputs, found, literal, on) for literal in asked):
                break
        else:
            return None
        for place, bit in zip(own, tried):
            all_on[place] = bit
    return all_on


def asked_for(found, true):
    """The literals that clauses ask for one after another, beginning with these, as pairs with the clauses that ask for them;
    and none, where a clause is false on the way, with the clauses that then may be."""
    known, added = set(true), []
    while True:
        false = [at for at, clause in enumerate(found) if all(literal ^ 1 in known for literal in clause)]
        if false:
            return None, false
        units = [(left.pop(), at) for at, clause in enumerate(found) if not known & set(clause)
                 for left in [{literal for literal in clause if literal ^ 1 not in known}] if len(left) == 1]
        if not units:
            return added, []
        known.add(units[0][0])
        added.append(units[0])


def are_kept(circuit, sets):
    """Whether the sets are kept sets for the gates."""
    inputs, found, root = circuit
    known = backing.clauses_of(*circuit)
    for at, one in enumerate(sets):
        if not one or any(set(earlier) <= set(one) for earlier in sets[:at]):
            return False
        for on in itertools.product((0, 1), repeat=inputs):
            if not any(on[place] for place in one) and backing.value(inputs, found, root, on):
                return False
        if any(asked_for(known, [2 * place + 1 for place in one if place != out])[0] is None for out in one):
            return False
        known = known + [[2 * place for place in one]]
    return True


def is_implied(circuit, clause):
    """Whether the clause is true in each assignment in which those of the gates are."""
    inputs, found, root = circuit
    for on in itertools.product((0, 1), repeat=inputs):
        places = values(circuit, on)
        if is_true(root, places) and not any(is_true(literal, places) for literal in clause):
            return False
    return True


# The calls: each is given the parts behind it and the answer that stands there, and gives its own.

def of_gates(answer):
    def answered(parts, stands):
        circuit = gates(parts[0])
        return "no gates" if circuit is None else answer(circuit, parts, stands)
    return answered


def of_bits(answer):
    def answered(circuit, parts, _):
        on = bits(parts[1])
        return answer(circuit, on) if len(on) == circuit[0] else "other bits"
    return of_gates(answered)


def read_gates(parts, _):
    try:
        return gates_of(backing.gates_of(content(parts[0])))
    except Cut:
        return "none"


def encode(circuit, parts, _):
    found = backing.clauses_of(*circuit)
    variables = circuit[0] + len(circuit[1])
    if variables <= 8 and not encoding_holds(circuit, found):
        return "clauses that do not hold"
    return clauses_of(variables, found)


def written_clauses(parts, _):
    found = clauses(parts[0])
    return "no clauses" if found is None else clauses_of(*found)


def one_clause(parts, _):
    found = clauses(parts[0])
    return "no clauses" if found is None else list_of(found[1][int(parts[1])]) if int(parts[1]) < len(found[1]) else "none"


def is_on(parts, _):
    on = bits(parts[0])
    return "yes" if int(parts[1]) < len(on) and on[int(parts[1])] else "no"


def first_refused(variables, known, log):
    known = list(known)
    for at, (clause, hints) in enumerate(log):
        if not backing.follows(known, variables, clause, hints):
            return at
        known.append(clause)
    return None


def check(parts, _):
    variables, known = clauses(parts[0])
    refused = [first_refused(variables, known, steps(part)) for part in parts[1:]]
    return ", ".join("accepted" if at is None else f"refused {at}" for at in refused)


def proves_least(parts, _):
    on, said = bits(parts[0]), [clause for clause, _ in steps(parts[1])]
    needed = ([2 * j for j in range(at + 1) if j == at or not on[j]] for at in range(len(on)) if on[at])
    return "yes" if all(clause in said for clause in needed) else "no"


def asks_for(clause, literal, true):
    """Whether all other literals of the clause are false."""
    return all(other == literal or other ^ 1 in true for other in clause)


class Walk:
    """A trail over clauses: what is true as (literal, level, clauses that may be its reason), and the level of a conflict, at and
    above which not all that is assigned is known."""

    def __init__(self, found):
        self.found, self.entries, self.level, self.lost = list(found), [], 0, None

    def true(self):
        return {literal for literal, _, _ in self.entries}

    def back(self, level):
        self.level = min(level, self.level)
        self.entries = [entry for entry in self.entries if entry[1] <= self.level]
        if self.lost is not None and self.level < self.lost:
            self.lost = None

    def decide(self, literal):
        if not {literal, literal ^ 1} & self.true():
            self.level += 1
            self.entries.append((literal, self.level, []))

    def propagate(self, stands):
        added, false = asked_for(self.found, self.true())
        if added is None:
            self.lost = self.level if self.lost is None else self.lost
            reached = self.reached()
            named = int(stands.partition(" ")[2] or -1)
            may = named in false or 0 <= named < len(self.found) and all(literal ^ 1 in reached for literal in self.found[named])
            return stands if stands.startswith("conflict ") and may else f"conflict {false}"
        for literal, _ in added:
            known = self.true()
            reasons = [at for at, clause in enumerate(self.found) if literal in clause and asks_for(clause, literal, known)]
            self.entries.append((literal, self.level, reasons))
        return "fixed"

    def reached(self):
        """All literals that may have become true before a conflict is met."""
        known = self.true()
        while True:
            more = {literal for clause in self.found for literal in clause if asks_for(clause, literal, known)}
            if more <= known:
                return known
            known |= more

    def literal(self, literal, stands):
        if self.lost is not None:
            return stands
        for known, level, reasons in self.entries:
            if known == literal:
                reason = stands.partition("<")[2]
                return f"true@{level}" + (f"<{reason if reason.isdigit() and int(reason) in reasons else reasons}" if reasons else "")
            if known == literal ^ 1:
                return f"false@{level}"
        return "free"

    def assigned(self, stands):
        """Level by level the literals may stand in any order in which a reason is found for each: held against the set alone."""
        level, _, said = stands.partition(":")
        same = self.lost is not None or set(numbers(said)) == self.true() and len(numbers(said)) == len(self.entries)
        return stands if same and level == str(self.level) else f"{self.level}:{list_of(sorted(self.true()))}"


def trail(parts, stands):
    walk, told = Walk(clauses(parts[0])[1]), []
    left = stands.replace("conflict ", "conflict_").split()
    for step in parts[1:]:
        kind, _, number = step.partition(" ")
        if kind[0] == "+":
            walk.found.append(numbers(kind[1:]))
        elif kind in ("decide", "back"):
            getattr(walk, kind)(int(number))
        else:
            here = left[len(told)].replace("_", " ") if len(told) < len(left) else ""
            told.append(walk.literal(int(number), here) if kind == "literal" else getattr(walk, kind)(here))
    return " ".join(told)


def sought(circuit, budget, stands, behind=""):
    """What is found of gates within a budget; the sets of a spent one are those that stand there where they may be."""
    if stands.startswith("spent"):
        sets = [numbers(word) for word in stands.split()[1:]]
        return stands if len(sets) == budget and are_kept(circuit, sets) else "other sets"
    on = least(circuit)
    return ("refuted" if on is None else "found " + bits_of(on)) + behind


def solve(parts, stands):
    return sought(gates(parts[1]), int(parts[0]), stands)


def solve_log(parts, stands):
    circuit = gates(parts[1])
    count, *shown = stands.split(", ")
    holds = len(shown) == len(parts) - 2 and all(is_implied(circuit, numbers(clause)) for clause in shown)
    return stands if count.endswith(" steps") and holds else "other steps"


def first_backed(circuit, parts):
    query = bytes_of(circuit)
    for known, answer in records(parts):
        if known == query and backing.is_backed(query, answer):
            return backing.answer_of(circuit[0], len(backing.clauses_of(*circuit)), answer)
    return None


def backed(circuit, parts, _):
    known = first_backed(circuit, parts[1:])
    return "none" if known is None else claim_of(*known)


def query(parts, stands):
    circuit = gates(parts[1])
    known = first_backed(circuit, parts[2:])
    if known is None:
        return sought(circuit, int(parts[0]), stands, " anew")
    on, log = known
    return ("refuted" if on is None else "found " + bits_of(on)) + " by" + log_of(log)


def read_certs(parts, _):
    return records_of(backing.records(content(parts[0])))


def write_certs(parts, _):
    file = backing.file_of(records(parts))
    return f"{file[:9].decode()} {file[9:].hex()}"


def find(parts, _):
    at, query = int(parts[0]), content(parts[1])
    found = (n for n, (known, _) in enumerate(records(parts[2:])) if n >= at and known == query)
    return str(next(found, "none"))


def read_answer(parts, _):
    try:
        return claim_of(*backing.answer_of(int(parts[0]), int(parts[1]), content(parts[2])))
    except Cut:
        return "none"


def write_answer(parts, _):
    count, (on, log) = int(parts[0]), claim(parts[1])
    if any(hint >= count + at for at, (_, hints) in enumerate(log) for hint in hints):
        return "no such hint"
    return backing.written(count, on, log).hex()


CALLS = {
    "value": of_bits(lambda circuit, on: str(int(backing.value(*circuit, on)))),
    "values": of_bits(lambda circuit, on: bits_of(map(int, values(circuit, on)))),
    "gate-bytes": of_gates(lambda circuit, *_: bytes_of(circuit).hex()),
    "clause-count": of_gates(lambda circuit, *_: str(len(backing.clauses_of(*circuit)))),
    "encode": of_gates(encode),
    "read-gates": read_gates,
    "clauses": written_clauses,
    "clause": one_clause,
    "opposites": lambda parts, _: list_of([literal ^ 1 for literal in numbers(parts[0])]),
    "is-on": is_on,
    "check": check,
    "proves-none": lambda parts, _: "yes" if [] in [clause for clause, _ in steps(parts[0])] else "no",
    "proves-least": proves_least,
    "log": lambda parts, _: "log" + log_of(steps(parts[0])),
    "trail": trail,
    "solve": solve,
    "solve-log": solve_log,
    "query": query,
    "query-again": lambda parts, _: "again",
    "first-backed": of_gates(backed),
    "read-certs": read_certs,
    "write-certs": write_certs,
    "find": find,
    "read-answer": read_answer,
    "write-answer": write_answer,
}


COUNT = {}


def told():
    return ", ".join(f"{name} {count}" for name, count in COUNT.items())


def answered(name, heading, *_):
    got, want = {}, {}
    for place, asked, stands, _ in lines.calls(name, heading):
        call, _, given = asked.partition(" ")
        key = f"{place} {asked[:200]}"
        got[key], want[key] = CALLS[call](given.split(";"), stands.strip()) if call in CALLS else "no such call", stands.strip()
    COUNT[name] = COUNT.get(name, 0) + len(want)
    return (got, bool(want)), (want, True)


CASES = [named(f"{name}: {heading}", answered, name, heading) for name in FILES for heading in lines.headings_of(name)]
