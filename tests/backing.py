"""Files of certificates read, and their answers checked, by docs/formats.md alone: shares no code with the program."""

HEADER, FIRST_HEADER = b"gviscert2\n", b"gviscert1\n"


class Cut(Exception):
    """Bytes are wanting, or are of no form."""


class Reader:
    def __init__(self, content):
        self.content, self.at = content, 0

    def take(self, size):
        if self.at + size > len(self.content):
            raise Cut
        self.at += size
        return self.content[self.at - size:self.at]

    def number(self, size=4):
        return int.from_bytes(self.take(size), "big")

    def numbers(self):
        count = self.number()
        if count > len(self.content):
            raise Cut
        return [self.number() for _ in range(count)]

    def short(self):
        """A number of one to five bytes, seven bits each, the least significant first, and as few as there can be."""
        value, at = 0, 0
        while True:
            byte = self.number(1)
            value += (byte % 128) << 7 * at
            at += 1
            if byte < 128:
                if at > 1 and byte == 0:
                    raise Cut
                return value
            if at == 5:
                raise Cut

    def end(self):
        if self.at != len(self.content):
            raise Cut


def short(value):
    """A number as it is read by `Reader.short`."""
    found = []
    while value >= 128:
        found.append(128 + value % 128)
        value //= 128
    return bytes(found + [value])


def records_behind(reader):
    found = []
    try:
        while True:
            found.append(tuple(reader.take(reader.number(8)) for _ in range(2)))
    except Cut:
        return found


def records(content):
    """The records of a file of any bytes: pairs of a query and an answer. Those of the first version are turned into the second,
    and left out where they can't be."""
    reader = Reader(content[len(HEADER):])
    if content.startswith(HEADER):
        return records_behind(reader)
    found = []
    if content.startswith(FIRST_HEADER):
        for query, answer in records_behind(reader):
            try:
                inputs, gates, root = gates_of(query)
                clauses = len(clauses_of(inputs, gates, root))
                found.append((query, written(clauses, *first_answer_of(inputs, clauses, answer))))
            except Cut:
                pass
    return found


def first_file_of(pairs):
    """The file of the first version of records of this one."""
    return FIRST_HEADER + file_of((query, first_written(*claim_of(query, answer))) for query, answer in pairs)[len(HEADER):]


def file_of(pairs):
    return HEADER + b"".join(len(part).to_bytes(8, "big") + part for pair in pairs for part in pair)


# Gates as (inputs, [(is_or, operands)], root), and answers as (bits or None, steps).

def gates_of(query):
    reader = Reader(query)
    inputs, count = reader.number(), reader.number()
    if count > len(query) or inputs + count > 2 ** 30:
        raise Cut
    gates = []
    for at in range(count):
        kind = reader.number(1)
        operands = reader.numbers()
        if kind > 1 or any(literal // 2 >= inputs + at for literal in operands):
            raise Cut
        gates.append((kind == 1, operands))
    root = reader.number()
    reader.end()
    if root // 2 >= inputs + count:
        raise Cut
    return inputs, gates, root


def bits_of(reader, inputs):
    kind = reader.number(1)
    if kind > 1:
        raise Cut
    if kind == 0:
        return None
    bits = [reader.number(1) for _ in range(inputs)]
    if any(bit > 1 for bit in bits):
        raise Cut
    return bits


def answer_of(inputs, clauses, answer):
    reader = Reader(answer)
    bits = bits_of(reader, inputs)

    def number():
        value = reader.short()
        if value >= 2 ** 32:
            raise Cut
        return value

    def count():
        value = number()
        if value > len(answer):
            raise Cut
        return value

    def hint(names):
        back = reader.short()
        if not 1 <= back <= names or names - back >= 2 ** 32:
            raise Cut
        return names - back

    steps = []
    for at in range(count()):
        literals = [number() for _ in range(count())]
        steps.append((literals, [hint(clauses + at) for _ in range(count())]))
    reader.end()
    return bits, steps


def first_answer_of(inputs, clauses, answer):
    """An answer of the first version, with each hint naming a clause or an earlier step."""
    reader = Reader(answer)
    bits = bits_of(reader, inputs)
    count = reader.number()
    if count > len(answer):
        raise Cut
    steps = [(reader.numbers(), reader.numbers()) for _ in range(count)]
    reader.end()
    if any(hint >= clauses + at for at, (_, hints) in enumerate(steps) for hint in hints):
        raise Cut
    return bits, steps


def claim_of(query, answer):
    """The number of clauses of the query's gates, and what the answer claims."""
    inputs, gates, root = gates_of(query)
    clauses = len(clauses_of(inputs, gates, root))
    return (clauses,) + answer_of(inputs, clauses, answer)


def written(clauses, bits, steps):
    """The answer's bytes."""
    found = b"\0" if bits is None else bytes([1] + bits)
    found += short(len(steps))
    for at, (literals, hints) in enumerate(steps):
        for part in (literals, [clauses + at - hint for hint in hints]):
            found += short(len(part)) + b"".join(map(short, part))
    return found


def first_written(clauses, bits, steps):
    """The same in the first version."""
    found = b"\0" if bits is None else bytes([1] + bits)
    numbers = [len(steps)]
    for step in steps:
        for part in step:
            numbers += [len(part)] + part
    return found + b"".join(number.to_bytes(4, "big") for number in numbers)


def clauses_of(inputs, gates, root):
    clauses = []
    for at, (is_or, operands) in enumerate(gates):
        on = 2 * (inputs + at)
        if is_or:
            clauses += [[on, literal ^ 1] for literal in operands] + [[on ^ 1] + operands]
        else:
            clauses += [[on ^ 1, literal] for literal in operands] + [[on] + [literal ^ 1 for literal in operands]]
    return clauses + [[root]]


def follows(clauses, variables, clause, hints):
    if any(literal // 2 >= variables for literal in clause) or len({literal // 2 for literal in clause}) < len(clause):
        return False
    true = {literal ^ 1 for literal in clause}
    for at, hint in enumerate(hints):
        if hint >= len(clauses):
            return False
        if any(literal in true for literal in clauses[hint]):
            return False
        left = {literal for literal in clauses[hint] if literal ^ 1 not in true}
        if at == len(hints) - 1:
            return not left
        if len(left) != 1:
            return False
        true |= left
    return False


def values(gates, bits):
    """The value of each place."""
    found = [bit == 1 for bit in bits]
    for is_or, operands in gates:
        found.append((any if is_or else all)(found[literal // 2] != (literal % 2 == 1) for literal in operands))
    return found


def value(inputs, gates, root, bits):
    return values(gates, bits)[root // 2] != (root % 2 == 1)


def is_backed(query, answer):
    """Whether the answer is backed for the gates of the query."""
    try:
        inputs, gates, root = gates_of(query)
        clauses = clauses_of(inputs, gates, root)
        bits, steps = answer_of(inputs, len(clauses), answer)
    except Cut:
        return False
    for clause, hints in steps:
        if not follows(clauses, inputs + len(gates), clause, hints):
            return False
        clauses.append(clause)
    said = [clause for clause, _ in steps]
    if bits is None:
        return [] in said
    least = all([2 * j for j in range(at + 1) if j == at or not bits[j]] in said for at in range(inputs) if bits[at])
    return least and value(inputs, gates, root, bits)


def rescanned(fresh, given):
    """The file that a scan leaves over a file `given`, where one that passes it over leaves `fresh`; and how many of its answers
    are of the given file."""
    known, pairs, used = {}, [], 0
    for query, answer in records(given):
        known.setdefault(query, []).append(answer)
    for query, answer in records(fresh):
        backed = next((old for old in known.get(query, []) if is_backed(query, old)), None)
        used += backed is not None
        pairs.append((query, answer if backed is None else backed))
    return file_of(pairs), used
