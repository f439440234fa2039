"""The plain program's queries, and their gates by docs/formats.md alone: places, operands, and their bytes."""
import backing
import plain


class Gates:
    def __init__(self, flags):
        self.inputs, self.gates = {flag: 2 * at for at, flag in enumerate(flags)}, []
        self.true, self.false = self.add(0, []), self.add(1, [])

    def add(self, kind, operands):
        self.gates.append((kind, operands))
        return 2 * (len(self.inputs) + len(self.gates) - 1)

    def both(self, *operands):
        return self.add(0, list(operands))

    def some(self, *operands):
        return self.add(1, list(operands))

    def bytes(self, root):
        def number(n):
            return n.to_bytes(4, "big")
        gates = b"".join(bytes([kind]) + number(len(operands)) + b"".join(map(number, operands)) for kind, operands in self.gates)
        return number(len(self.inputs)) + number(len(self.gates)) + gates + number(root)


class Lowering:
    """The gates of a package's query in a context, with what it shows."""

    def __init__(self, query, shown):
        self.package, self.profile, self.level, self.key, flags = query
        self.shown, self.gates, self.states = shown, Gates(flags), {}

    def flag(self, flag):
        """The literal of a flag of the package itself: an input is on where the flag hasn't its preferred value."""
        if flag in self.gates.inputs:
            return self.gates.inputs[flag] ^ (flag in self.package["plus"])
        return self.gates.true if plain.state(self.package, self.profile, self.level, flag) == "on" else self.gates.false

    def condition(self, tree):
        return self.flag(tree[1]) ^ tree[2]

    def all(self, trees):
        return self.gates.both(*[self.tree(tree) for tree in trees])

    def tree(self, tree):
        kind = tree[0]
        if kind == "atom":
            return self.atom(tree[1])
        if kind == "flag":
            return self.condition(tree)
        if kind == "all":
            return self.all(tree[1])
        if kind == "if":
            inside = self.all(tree[3])
            return self.gates.some(self.condition(tree) ^ 1, inside)
        return self.group(kind, tree[1])

    def member(self, tree):
        if tree[0] != "if":
            return self.tree(tree)
        inside = self.all(tree[3])
        return self.gates.both(self.condition(tree), inside)

    def group(self, kind, trees):
        members, none = [self.member(tree) for tree in trees], []
        if kind != "most" and self.package["eapi"] < 7 and all(tree[0] == "if" for tree in trees):
            none = [self.gates.both(*[self.condition(tree) ^ 1 for tree in trees])]
        if kind == "any":
            return self.gates.some(*members, *none)
        some, twice = self.gates.false, []
        for member in members:
            twice.append(self.gates.both(member, some))
            some = self.gates.some(some, member)
        two = self.gates.some(*twice)
        if kind == "most":
            return two ^ 1
        one = self.gates.both(some, two ^ 1)
        return self.gates.some(one, *none) if none else one

    def atom(self, atom):
        if atom["block"]:
            return self.gates.true
        return self.gates.some(*[self.candidate(atom, other) for other in self.shown.get(atom["name"], []) if plain.matches(atom, other)])

    def candidate(self, atom, other):
        flags = list(dict.fromkeys(flag for flag, _, _ in atom["items"]))
        return self.gates.both(*[self.setting(other, flag, [item for item in atom["items"] if item[0] == flag]) for flag in flags])

    def asks(self, ask, flag):
        """What an item's on literal is, and its off literal, where it has them."""
        parent = self.flag(flag)
        return {"on": (self.gates.true, None), "off": (None, self.gates.true), "same": (parent, parent ^ 1), "opposite": (parent ^ 1, parent),
                "on if": (parent, None), "off if not": (None, parent ^ 1)}[ask]

    def setting(self, other, flag, items):
        state = plain.state(other, self.profile, self.level, flag)
        if state == "free":
            on, off = ([pair[at] for pair in (self.asks(ask, flag) for _, ask, _ in items) if pair[at] is not None] for at in (0, 1))
            on = self.gates.some(*on)
            off = self.gates.some(*off)
            return self.gates.some(on ^ 1, off ^ 1)
        forbidden = []
        for _, ask, missing in items:
            on, off = self.asks(ask, flag)
            counts = {"on": [True], "off": [False], "absent": [True, False] if missing is None else [missing]}[state]
            # (a flag that is on forbids what asks it off, and one that is off what asks it on; one that is neither forbids both)
            forbids = [on] * (False in counts) + [off] * (True in counts)
            forbidden += [literal for literal in forbids if literal is not None]
        return self.gates.some(*forbidden) ^ 1


def queries(repository, options):
    """The package, the profile, the level and the key of each query that the options select, in order; and its flags."""
    packages, profiles = repository
    for package in packages:
        for profile in profiles:
            level = plain.level_of(package, profile)
            if not level or package["REQUIRED_USE"] is None or options["profiles"] is not None and profile["path"] not in options["profiles"]:
                continue
            for key in ["REQUIRED_USE"] + plain.CLASSES:
                keyword = "UnsatisfiableRequiredUse" if key == "REQUIRED_USE" else plain.STATUSES[profile["status"]]
                if (options["keywords"] is None or keyword in options["keywords"]) and not plain.lacks(package["eapi"], key) and package[key] is not None:
                    yield package, profile, level, key, plain.flags_of(package, profile, level, key)


def bytes_of(query, shown):
    """The bytes of a query's gates. `shown` has the visible packages of each name, in order."""
    lowering = Lowering(query, shown)
    package, key = query[0], query[3]
    root = lowering.all(package["REQUIRED_USE"])
    if key != "REQUIRED_USE":
        root = lowering.gates.both(root, lowering.all(package[key]) ^ 1)
    return lowering.gates.bytes(root)


def backed_in(kept, gates):
    """The first answer of a file that is backed for these gates, or nothing."""
    records = backing.records((kept or "").encode("latin-1"))
    return next((answer for query, answer in records if query == gates and backing.is_backed(query, answer)), None)


def is_backed(gates, kept):
    """Whether a file backs an answer to a query: its bytes, or the queries of a scan that left it."""
    return gates in kept if isinstance(kept, list) else backed_in(kept, gates) is not None


def joined(queries, files):
    """The file that a merge of these files leaves, which back an answer to each query: with the answer of the first that does, where all
    are bytes, and else the queries."""
    if queries and any(isinstance(kept, list) for kept in files):
        return queries
    answers = [next(filter(None, (backed_in(kept, gates) for kept in files))) for gates in queries]
    return backing.file_of(zip(queries, answers)).decode("latin-1")


def kept_over(queries, given):
    """The file that a scan leaves over one: its bytes where that has an answer to each query, and else the queries, whose certificates
    are open."""
    if isinstance(given, list) or not queries:
        return queries
    pairs = [(gates, backed_in(given, gates)) for gates in queries]
    return queries if any(answer is None for _, answer in pairs) else backing.file_of(pairs).decode("latin-1")
