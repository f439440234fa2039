"""The plain program's names, versions, atoms and expressions, by docs/rules.md and docs/formats.md alone. Texts have a character for each
byte."""
import functools
import re

SUFFIXES = ["alpha", "beta", "pre", "rc", "p"]
VERSION = r"\d+(?:\.\d+)*[a-z]?(?:_(?:alpha|beta|pre|rc|p)\d*)*(?:-r\d+)?"
SLOT = r"[A-Za-z0-9_][A-Za-z0-9+_.-]*"
FLAG = r"[A-Za-z0-9][A-Za-z0-9+_@-]*"
ITEM = r"(?:-?{0}(?:\([+-]\))?|!?{0}(?:\([+-]\))?[=?])".format(FLAG)


def is_whole(pattern, text):
    return re.fullmatch(pattern, text) is not None


@functools.lru_cache(maxsize=4096)
def is_category(text):
    return is_whole(SLOT, text)


@functools.lru_cache(maxsize=4096)
def is_flag(text):
    return is_whole(FLAG, text)


def is_keyword_name(text):
    return is_whole(r"[A-Za-z0-9_][A-Za-z0-9_-]*", text)


def is_part(text):
    return is_whole("[!-.0-~]+", text) and text not in (".", "..")


@functools.lru_cache(maxsize=4096)
def is_path(text):
    return all(map(is_part, text.split("/")))


@functools.lru_cache(maxsize=4096)
def is_package(text):
    return is_whole(r"[A-Za-z0-9_][A-Za-z0-9+_-]*", text) and not is_whole(".*-" + VERSION, text)


def is_version(text):
    return is_whole(VERSION, text) and not re.search(r"\d{19}", text)


def version_fault(text):
    """How a text is no version, and where; or nothing."""
    if not is_whole(VERSION, text):
        return "shape", max((at for at in range(len(text)) if is_whole(VERSION, text[:at])), default=0)
    long = re.search(r"\d{19}", text)
    return ("long", long.start()) if long else None


@functools.lru_cache(maxsize=4096)
def split_pf(text):
    """Name and version; a text that can be divided can be so at one hyphen alone."""
    for at, byte in enumerate(text):
        if byte == "-" and is_package(text[:at]) and is_version(text[at + 1:]):
            return text[:at], text[at + 1:]
    return None


# Versions

@functools.lru_cache(maxsize=4096)
def parts(version):
    found = re.fullmatch(r"(\d+)((?:\.\d+)*)([a-z]?)((?:_(?:alpha|beta|pre|rc|p)\d*)*)(?:-r(\d+))?", version)
    numbers = [found[1]] + found[2].split(".")[1:]
    return numbers, found[3], re.findall(r"_(alpha|beta|pre|rc|p)(\d*)", found[4]), found[5]


def sign(a, b):
    return (a > b) - (a < b)


def compare_later(a, b):
    if a[0] == "0" or b[0] == "0":
        return sign(a.rstrip("0"), b.rstrip("0"))
    return sign(int(a), int(b))


def compare_suffixes(first, second):
    for (word, number), (other, other_number) in zip(first, second):
        order = sign(SUFFIXES.index(word), SUFFIXES.index(other)) or sign(int(number or 0), int(other_number or 0))
        if order:
            return order
    if len(first) == len(second):
        return 0
    longer, way = (first, 1) if len(first) > len(second) else (second, -1)
    return way if longer[min(len(first), len(second))][0] == "p" else -way


def compare(first, second, with_revision=True):
    (numbers, letter, suffixes, revision), (others, other_letter, other_suffixes, other_revision) = parts(first), parts(second)
    order = sign(int(numbers[0]), int(others[0]))
    for a, b in zip(numbers[1:], others[1:]):
        order = order or compare_later(a, b)
    order = order or sign(len(numbers), len(others)) or sign(letter, other_letter) or compare_suffixes(suffixes, other_suffixes)
    return order or (sign(int(revision or 0), int(other_revision or 0)) if with_revision else 0)


def pieces(version):
    numbers, letter, suffixes, revision = parts(version)
    yield "first", int(numbers[0])
    for number in numbers[1:]:
        yield "later", number
    if letter:
        yield "letter", letter
    for word, number in suffixes:
        yield "suffix", (word, int(number or 0))
    if revision is not None:
        yield "revision", int(revision)


def begins(front, version):
    front, version = list(pieces(front)), list(pieces(version))
    return len(front) <= len(version) and all(
        kind == other and (compare_later(a, b) == 0 if kind == "later" else a == b)
        for (kind, a), (other, b) in zip(front, version))


# Atoms

def read_item(text):
    """The flag, what is asked of it, and what an absent one counts as."""
    sign, flag, missing, mark = re.fullmatch(r"([-!]?)([A-Za-z0-9][A-Za-z0-9+_@-]*)(?:\(([+-])\))?([=?]?)", text).groups()
    ask = {"": "on", "-": "off", "=": "same", "!=": "opposite", "?": "on if", "!?": "off if not"}[sign + mark]
    return flag, ask, {None: None, "+": True, "-": False}[missing]


def asked(ask, parent):
    """Whether the flag has to be on or off, given the parent's; or nothing."""
    return {"on": True, "off": False, "same": parent, "opposite": not parent, "on if": True if parent else None,
            "off if not": None if parent else False}[ask]


@functools.lru_cache(maxsize=4096)
def read_atom(text):
    found = re.fullmatch(r"(!!|!|)(<=|>=|<|>|=|~|)([^\[\]]*)(\[[^\[\]]*\])?", text)
    if not found:
        return None
    block, op, rest, items = found.groups()
    name, colon, slot = rest.partition(":")
    if colon and not is_whole(r"\*|=|{0}(?:/{0})?=?".format(SLOT), slot):
        return None
    if items and not all(is_whole(ITEM, item) for item in items[1:-1].split(",")):
        return None
    category, slash, name = name.partition("/")
    if not slash or not is_category(category):
        return None
    atom = {"text": text, "block": block, "op": op, "slot": slot, "items": [read_item(item) for item in items[1:-1].split(",")] if items else [],
            "version": None}
    if op:
        star = op == "=" and name.endswith("*")
        divided = split_pf(name[:-1] if star else name)
        if not divided:
            return None
        name, atom["version"] = divided
        atom["op"] = op + "*" if star else op
    elif not is_package(name):
        return None
    atom["name"] = category + "/" + name
    return atom


def atom_fault(text):
    """The kind of the first bad part of a text that is no atom, and where it begins; or nothing."""
    block, op, rest = re.fullmatch(r"(!!|!|)(<=|>=|<|>|=|~|)(.*)", text, re.S).groups()
    begin = len(block + op)
    front, bracket, items = rest.partition("[")
    name, colon, slot = front.partition(":")
    category, slash, name = name.partition("/")
    if not slash or not is_category(category):
        return "Category", begin
    if not op and not is_package(name):
        return "Package", begin + len(category) + 1
    if op and not split_pf(name[:-1] if op == "=" and name.endswith("*") else name):
        return "Version", begin + len(category) + 1
    slot_at = begin + len(category) + 1 + len(name)
    if "::" in colon + slot:
        return "Repo", slot_at + (colon + slot).index("::")
    if colon and not is_whole(r"\*|=|{0}(?:/{0})?=?".format(SLOT), slot):
        return "Slot", slot_at
    at = begin + len(front)
    if bracket and (not items.endswith("]") or set("[]") & set(items[:-1])):
        return "Item", at
    for item in items[:-1].split(",") if bracket else []:
        at += 1
        if not is_whole(ITEM, item):
            return "Item", at
        at += len(item)
    return None


def matches(atom, package):
    if atom["name"] != package["name"]:
        return False
    op, version = atom["op"], atom["version"]
    if op == "=*" and not begins(version, package["version"]):
        return False
    if op == "~" and compare(package["version"], version, with_revision=False) != 0:
        return False
    if op in ("<", "<=", "=", ">=", ">"):
        order = compare(package["version"], version)
        if not {"<": order < 0, "<=": order <= 0, "=": order == 0, ">=": order >= 0, ">": order > 0}[op]:
            return False
    slot, _, sub = atom["slot"].rstrip("=").rstrip("*").partition("/")
    return slot in ("", package["slot"]) and sub in ("", package["sub"])


# Expressions: ("atom", atom), ("flag", flag, negated), ("if", flag, negated, trees), ("all" | "any" | "one" | "most", trees)

def tokens_of(text):
    return [token for token in re.split("[ \t\r\n]+", text) if token]


class Broken(Exception):
    pass


def read_group(tokens, at, depth, required):
    """The trees from a place on, up to a `)` or the end, and the place behind them."""
    trees = []
    while at < len(tokens) and tokens[at] != ")":
        token, head = tokens[at], None
        if token == "(":
            head, at = ("all",), at - 1
        elif token == "||" or token in ("^^", "??") and required:
            head = ({"||": "any", "^^": "one", "??": "most"}[token],)
        elif token.endswith("?"):
            head = ("if", token[:-1].lstrip("!") if token[:1] == "!" else token[:-1], token[:1] == "!")
            if not is_flag(head[1]) or token[:2] == "!!":
                raise Broken
        elif required:
            flag = token[1:] if token[:1] == "!" else token
            if not is_flag(flag):
                raise Broken
            trees.append(("flag", flag, token[:1] == "!"))
        else:
            atom = read_atom(token)
            if not atom:
                raise Broken
            trees.append(("atom", atom))
        at += 1
        if head:
            if tokens[at:at + 1] != ["("] or depth == 64:
                raise Broken
            inside, at = read_group(tokens, at + 1, depth + 1, required)
            if at == len(tokens):
                raise Broken
            trees.append(head + (inside,))
            at += 1
    return trees, at


@functools.lru_cache(maxsize=4096)
def read_expression(text, required):
    tokens = tokens_of(text)
    try:
        trees, at = read_group(tokens, 0, 0, required)
    except Broken:
        return None
    return trees if at == len(tokens) and len(tokens) <= 100000 else None


def print_tree(tree):
    kind = tree[0]
    if kind == "atom":
        return tree[1]["text"]
    signed = ("!" if tree[2] else "") + tree[1] if kind in ("flag", "if") else ""
    if kind == "flag":
        return signed
    head = {"if": signed + "? ", "all": "", "any": "|| ", "one": "^^ ", "most": "?? "}[kind]
    return head + "( " + "".join(print_tree(child) + " " for child in tree[-1]) + ")"


def holds(tree, on, met, empty):
    kind = tree[0]
    if kind == "atom":
        return met(tree[1])
    if kind == "flag":
        return on(tree[1]) != tree[2]
    if kind == "if" and on(tree[1]) == tree[2]:
        return True
    if kind in ("all", "if"):
        return all(holds(child, on, met, empty) for child in tree[-1])
    members = [child for child in tree[1] if child[0] != "if" or on(child[1]) != child[2]]
    values = [holds(member, on, met, empty) for member in members]
    if kind == "most":
        return sum(values) <= 1
    if not values:
        return empty
    return any(values) if kind == "any" else sum(values) == 1


def walk(trees):
    for tree in trees:
        yield tree
        if isinstance(tree[-1], list):
            yield from walk(tree[-1])


def wanted_atoms(trees):
    return [tree[1] for tree in walk(trees) if tree[0] == "atom" and not tree[1]["block"]]


def mentions(trees):
    flags = {tree[1] for tree in walk(trees) if tree[0] in ("flag", "if")}
    return flags | {flag for atom in wanted_atoms(trees) for flag, ask, _ in atom["items"] if ask not in ("on", "off")}


@functools.lru_cache(maxsize=4096)
def fault_of(text, required):
    """The number of the first token at fault, and how; or nothing."""
    opened, wants = 0, False
    tokens = tokens_of(text)
    for number, token in enumerate(tokens, 1):
        heads, is_if = ("||", "^^", "??"), token.endswith("?") and token != "??"
        flag = token[1:] if token[:1] == "!" else token
        if number > 100000:
            return number, "too many tokens"
        if token == "(" and opened == 64:
            return number, "depth"
        if token == ")" and opened == 0 or wants and token != "(":
            return number, "stray token"
        if token in ("^^", "??") and not required:
            return number, "not allowed here"
        if token not in ("(", ")") + heads:
            if is_if and not is_flag(flag[:-1]) or required and not is_if and not is_flag(flag):
                return number, "bad flag"
            if not is_if and not required and not read_atom(token):
                return number, "bad atom"
        opened += {"(": 1, ")": -1}.get(token, 0)
        wants = token in heads or is_if
    return (len(tokens) + 1, "unclosed group") if opened or wants else None
