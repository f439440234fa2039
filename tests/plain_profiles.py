"""The plain program's files, make.defaults and profiles, by docs/rules.md and docs/formats.md alone."""
import itertools
import re

from plain_atoms import is_category, is_flag, is_keyword_name, read_atom, tokens_of

BLANKS = " \t\r\n"
STATUSES = {"stable": "NonsolvableDepsInStable", "dev": "NonsolvableDepsInDev", "exp": "NonsolvableDepsInExp"}
INCREMENTAL = {"USE", "USE_EXPAND", "USE_EXPAND_HIDDEN", "CONFIG_PROTECT", "CONFIG_PROTECT_MASK", "IUSE_IMPLICIT",
               "USE_EXPAND_IMPLICIT", "USE_EXPAND_UNPREFIXED", "ENV_UNSET", "ACCEPT_KEYWORDS"}


# Files

class Files:
    """A map of files as text, and what lies below a path."""

    def __init__(self, files):
        self.texts = {path: content.decode("latin-1") if isinstance(content, bytes) else content for path, content in files.items()}
        self.below = {}
        for path in files:
            steps = path.split("/")
            for at in range(1, len(steps)):
                self.below.setdefault("/".join(steps[:at]), set()).add(steps[at])

    def names(self, path):
        return sorted(name for name in self.below.get(path, ()) if all("!" <= byte <= "~" for byte in name))

    def text(self, path):
        return self.texts.get(path, "")

    def paths_at(self, path):
        """The file, or the files of a file directory."""
        inside = [path + "/" + name for name in self.names(path) if name[0] != "."]
        return [path] if path in self.texts else [file for file in inside if file in self.texts]

    def all_at(self, path):
        return [self.texts[file] for file in self.paths_at(path)]


def rows_of(text):
    """The words of each line, up to a comment."""
    for line in text.split("\n"):
        words = [word for word in re.split("[ \t\r]+", line) if word]
        yield list(itertools.takewhile(lambda word: word[0] != "#", words))


def relative(word):
    word = word[:-1] if word.endswith("/") else word
    steps = word.split("/")
    return steps if all(step and all("!" <= byte <= "~" for byte in step) for step in steps) else None


def resolve(folder, steps):
    path = folder.split("/")
    for step in steps:
        if step == "..":
            if not path:
                return None
            path.pop()
        elif step != ".":
            path.append(step)
    return "/".join(path) or None


# make.defaults

class Unreadable(Exception):
    pass


BETWEEN = re.compile(r"(?:[ \t\r\n]+|#[^\n]*)*")
ASSIGNED = re.compile(r"([A-Za-z_][A-Za-z0-9_]*)=")
NAMED = re.compile(r"\$(?:\{([A-Za-z_][A-Za-z0-9_]*)\}|([A-Za-z_][A-Za-z0-9_]*))")
# Runs of bytes that stand for themselves: bare, in double quotes and in single ones.
RUNS = {None: re.compile("[^ \t\r\n\"'\\\\$]+"), '"': re.compile('[^"\\\\$]+'), "'": re.compile("[^']+")}
LONGEST_VALUE = 1 << 26


def read_value(text, at, value_of):
    """A value from a place on, and the place behind it."""
    pieces, size, quote = [], 0, None

    def add(piece):
        nonlocal size
        size += len(piece)
        if size > LONGEST_VALUE:
            raise MemoryError
        pieces.append(piece)

    while True:
        byte, following = text[at:at + 1], text[at + 1:at + 2]
        run = RUNS[quote].match(text, at)
        name = NAMED.match(text, at) if byte == "$" and quote != "'" else None
        if byte == "":
            if quote:
                raise Unreadable
            return "".join(pieces), at
        if run:
            add(run[0])
            at = run.end()
        elif quote == "'":
            quote, at = None, at + 1
        elif name:
            add(value_of(name[1] or name[2]))
            at = name.end()
        elif byte == "\\" and following == "\n":
            at += 2
        elif byte == "\\" and following and (quote is None or following in '"\\$'):
            add(following)
            at += 2
        elif byte == '"':
            quote, at = (None if quote else '"'), at + 1
        elif byte == "'" and quote is None:
            quote, at = "'", at + 1
        elif quote is None and byte in BLANKS:
            return "".join(pieces), at
        else:
            add(byte)
            at += 1


def with_defaults(text, before):
    values, at = {}, 0

    def value_of(name):
        if name in values:
            return values[name]
        known = before.get(name, "")
        return known if isinstance(known, str) else " ".join(known)

    while True:
        at = BETWEEN.match(text, at).end()
        name = ASSIGNED.match(text, at)
        if not name:
            break
        try:
            value, at = read_value(text, name.end(), value_of)
        except Unreadable:
            break
        values[name[1]] = value
    after = dict(before)
    for name, value in values.items():
        if name not in INCREMENTAL:
            after[name] = value
            continue
        words = dict.fromkeys(after.get(name, []))
        for word in tokens_of(value):
            if word == "-*":
                words = {}
            elif word[0] == "-":
                words.pop(word[1:], None)
            else:
                words.setdefault(word)
        after[name] = list(words)
    return after


def bad_assignment(text):
    """The line of the first assignment that can't be read, or nothing."""
    at = 0
    while True:
        at = BETWEEN.match(text, at).end()
        if at == len(text):
            return None
        name, begin = ASSIGNED.match(text, at), at
        try:
            if not name:
                raise Unreadable
            at = read_value(text, name.end(), lambda _: "")[1]
        except Unreadable:
            return text.count("\n", 0, begin) + 1


def lowered(name):
    return "".join(byte.lower() if byte.isascii() else byte for byte in name)


def words_in(variables, name):
    known = variables.get(name, "")
    return tokens_of(known) if isinstance(known, str) else known


# Profiles

class Fault(Exception):
    """Where a stack is at fault: a path, a line, and how."""


def eapi_of(files, folder):
    words = [word for row in rows_of(files.text(folder + "/eapi")) for word in row]
    if words and words[0] not in list("012345678"):
        raise Fault(folder + "/eapi", 1, "bad eapi")
    return int(words[0]) if words else 0


def is_parent(row):
    return len(row) == 1 and ":" not in row[0] and bool(relative(row[0]))


def stack_of(files, folder, above=()):
    eapi_of(files, folder)
    stack = []
    for number, row in enumerate(rows_of(files.text(folder + "/parent")), 1):
        if not is_parent(row):
            continue
        parent = resolve(folder, relative(row[0]))
        if parent not in files.below:
            raise Fault(folder + "/parent", number, "missing parent")
        if parent in above + (folder,):
            raise Fault(folder + "/parent", number, "cycle")
        stack += stack_of(files, parent, above + (folder,))
    return stack + [folder]


def plain_atom(word):
    atom = read_atom(word)
    return atom if atom and not atom["block"] and not atom["items"] else None


def flags_in(words):
    signed = [(word[1:], False) if word[0] == "-" else (word, True) for word in words]
    return signed if all(is_flag(flag) for flag, _ in signed) else []


def rules_of(files, folder):
    forms = ["use", "use.stable", "package.use", "package.use.stable"]
    for form in forms if eapi_of(files, folder) >= 5 else forms[::2]:
        for effect in ("mask", "force"):
            for text in files.all_at("%s/%s.%s" % (folder, form, effect)):
                for row in rows_of(text):
                    atom = plain_atom(row[0]) if row and form[0] == "p" else None
                    if form[0] == "p" and not atom or form[0] == "u" and len(row) != 1:
                        continue
                    for flag, on in flags_in(row[1:] if atom else row):
                        yield {"effect": effect, "stable": "stable" in form, "atom": atom, "flag": flag, "on": on}


def with_masks(files, path, masks):
    for text in files.all_at(path):
        for row in rows_of(text):
            if len(row) == 1 and row[0][0] == "-":
                masks = [atom for atom in masks if atom["text"] != row[0][1:]]
            elif len(row) == 1 and plain_atom(row[0]):
                masks = masks + [plain_atom(row[0])]
    return masks


def read_profile(files, line):
    folder = resolve("profiles", relative(line["path"]))
    if folder not in files.below:
        raise Fault("profiles/profiles.desc", line["number"], "missing profile")
    variables, masks, rules = {}, with_masks(files, "profiles/package.mask", []), []
    for folder in stack_of(files, folder):
        variables = with_defaults(files.text(folder + "/make.defaults"), variables)
        masks = with_masks(files, folder + "/package.mask", masks)
        rules += rules_of(files, folder)
    implicit = set(words_in(variables, "IUSE_IMPLICIT"))
    expanded = set(words_in(variables, "USE_EXPAND_IMPLICIT"))
    for name in expanded & set(words_in(variables, "USE_EXPAND")):
        implicit |= {lowered(name) + "_" + word for word in words_in(variables, "USE_EXPAND_VALUES_" + name)}
    for name in expanded & set(words_in(variables, "USE_EXPAND_UNPREFIXED")):
        implicit |= set(words_in(variables, "USE_EXPAND_VALUES_" + name))
    testing = "~" + line["arch"] in words_in(variables, "ACCEPT_KEYWORDS")
    return dict(line, masks=masks, rules=rules, implicit=implicit, testing=testing, variables=variables)


def is_desc(row):
    return len(row) >= 3 and is_keyword_name(row[0]) and bool(relative(row[1])) and row[2] in STATUSES


def desc_lines(files):
    seen = set()
    for number, row in enumerate(rows_of(files.text("profiles/profiles.desc")), 1):
        if is_desc(row) and (row[0], row[1]) not in seen:
            seen.add((row[0], row[1]))
            yield {"number": number, "arch": row[0], "path": row[1], "status": row[2]}


def read_profiles(files):
    """The profiles, and the places of those with a fault."""
    profiles, faults = [], []
    for line in desc_lines(files):
        try:
            profiles.append(read_profile(files, line))
        except Fault as fault:
            faults.append(fault.args)
    return profiles, faults


def bad_mask(row):
    return None if len(row) == 1 and (row[0][0] == "-" or plain_atom(row[0])) else "bad atom"


def bad_flags(row):
    return None if len(row) == 1 and flags_in(row) else "bad flag"


def bad_package_flags(row):
    if not plain_atom(row[0]):
        return "bad atom"
    return None if len(row) > 1 and flags_in(row[1:]) else "bad flag"


def reached(files):
    """The folders that profiles come to by their parents, whatever is wrong with them."""
    found, waiting = [], [resolve("profiles", relative(line["path"])) for line in desc_lines(files)]
    while waiting:
        folder = waiting.pop()
        if folder in files.below and folder not in found:
            found.append(folder)
            waiting += [resolve(folder, relative(row[0])) for row in rows_of(files.text(folder + "/parent")) if is_parent(row)]
    return found


def bad_lines(files):
    """The path, the number and what is wrong of each bad line of the files that are read."""
    counted = {(line["arch"], line["path"]): line["number"] for line in desc_lines(files)}
    for number, row in enumerate(rows_of(files.text("profiles/profiles.desc")), 1):
        if row and not is_desc(row) and counted.get(tuple(row[:2]), number) >= number:
            yield "profiles/profiles.desc", number, "bad line"
    forms = [("profiles/categories", lambda row: None if len(row) == 1 and is_category(row[0]) else "bad category"),
             ("profiles/package.mask", bad_mask)]
    for folder in reached(files):
        forms += [(folder + "/parent", lambda row: None if is_parent(row) else "bad line"), (folder + "/package.mask", bad_mask)]
        for name in ("mask", "force", "stable.mask", "stable.force"):
            forms += [(folder + "/use." + name, bad_flags), (folder + "/package.use." + name, bad_package_flags)]
    for path, test in forms:
        alone = path.endswith(("/categories", "/parent"))
        for file in [path] * (path in files.texts) if alone else files.paths_at(path):
            for number, row in enumerate(rows_of(files.texts[file]), 1):
                if row and test(row):
                    yield file, number, test(row)
    for folder in reached(files):
        line = bad_assignment(files.text(folder + "/make.defaults"))
        if line:
            yield folder + "/make.defaults", line, "bad assignment"
