"""The plain program answers the cases of crates/gv_probe/data: a case is the calls behind one heading of a file.

Where it knows a call, it has to answer what stands there. A call or a run that it doesn't know is counted.
"""
import functools
import inspect
import re

import lines
import plain
import plain_demo
import plain_run
import solving_cases
import text_calls
from common import named
from plain_words import Input, Refused, command_of, commands, values_of

ALONE = True


# Of gv_base

def yes(value):
    return "yes" if value else "no"


def until(text, byte):
    return text.partition(byte)[0] if len(byte) == 1 else "no byte"


def between(text):
    return [word for word in re.split("[ \t\r]+", text) if word]


def source(most, failing, content):
    """What a source gives in five calls, and how the room of four is left."""
    given, room, said = Input(content, max(1, int(most)), int(failing)), "\0" * 4, ""
    for _ in range(5):
        try:
            piece = given.next(4)
        except Refused:
            said += "failed,"
            continue
        room = piece + room[len(piece):]
        said += f"{len(piece)},"
    return said + room


def sink(most, failing, *pieces):
    taker = plain_run.Sink(max(1, int(most)), int(failing))
    taken = [taker.put(piece) for piece in pieces]
    return "".join("the output failed," if count is None else f"{count}," for count in taken) + taker.held


BASE = {
    "tokens": lambda text: "|".join(plain.tokens_of(text)), "words-between": lambda text: "|".join(between(text)),
    "lines": lambda text: "".join(line + "." for line in text.split("\n")),
    "path-parts": lambda text: "".join(part + "." for part in text.split("/")), "texts-in-order": lambda *texts: "|".join(sorted(set(texts))),
    "path": lambda text: yes(plain.is_path(text)), "path-part": lambda text: yes(plain.is_part(text)),
    "plain": lambda text: yes(all("!" <= byte <= "~" for byte in text)), "until": until, "source": source, "sink": sink,
}


# Of versions and names

def version(text):
    fault = plain.version_fault(text)
    return "%s %d" % fault if fault else text


def of_versions(answer):
    """An answer to some versions, or the fault of the first that is none."""
    def answered(*texts):
        return next((version(text) for text in texts if plain.version_fault(text)), None) or answer(*texts)
    return answered


def ordered(*texts):
    return "".join(text + ";" for text in sorted(texts, key=functools.cmp_to_key(plain.compare)))


VERSIONS = {
    "version": version, "order": of_versions(lambda a, b: "<=>"[plain.compare(a, b) + 1]),
    "revision": of_versions(lambda a, b: yes(plain.compare(a, b, with_revision=False) == 0)), "begins": of_versions(lambda a, b: yes(plain.begins(a, b))),
    "sorted": of_versions(ordered), "pf": lambda text: str(len(plain.split_pf(text)[0])) if plain.split_pf(text) else "none",
    "category": lambda text: yes(plain.is_category(text)), "package": lambda text: yes(plain.is_package(text)),
    "slot": lambda text: yes(plain.is_category(text)), "flag": lambda text: yes(plain.is_flag(text)), "keyword": lambda text: yes(plain.is_keyword_name(text)),
}


# Of atoms and expressions

def of_atom(answer):
    def answered(text, *more):
        fault = plain.atom_fault(text)
        assert (fault is None) == (plain.read_atom(text) is not None), text
        return "%s %d" % fault if fault else answer(plain.read_atom(text), *more)
    return answered


def matched(atom, category, name, version, slot, sub):
    if plain.version_fault(version):
        return "no version"
    return yes(plain.matches(atom, {"name": category + "/" + name, "version": version, "slot": slot, "sub": sub}))


def named_option(value):
    return "None" if value is None else f"Some({str(value).lower()})"


def asks(atom):
    told = ""
    for _, ask, _ in atom["items"]:
        on, off = (plain.asked(ask, parent) for parent in (True, False))
        told += f"{named_option(on)} {named_option(off)} {str(ask not in ('on', 'off')).lower()},"
    return told


BLOCKS = {"": "No", "!": "Weak", "!!": "Strong"}
OPERATORS = {"": "None", "<": "Some(Less)", "<=": "Some(LessEqual)", "=": "Some(Equal)", "=*": "Some(Equal)", "~": "Some(Same)", ">=": "Some(GreaterEqual)",
             ">": "Some(Greater)"}
ASKS = {"on": "On", "off": "Off", "same": "Same", "opposite": "Opposite", "on if": "OnIf", "off if not": "OffIfNot"}


def parts(atom):
    slot = atom["slot"]
    mark = "Star" if slot == "*" else "Equals" if slot.endswith("=") else "Plain"
    category, _, name = atom["name"].partition("/")
    words = [BLOCKS[atom["block"]], OPERATORS[atom["op"]], str(atom["op"] == "=*").lower(), mark, str(atom["block"] != "").lower(), category, name]
    words += [atom["version"]] if atom["version"] else []
    told = " ".join(words) + " " + (slot.rstrip("=*").replace("/", " ") or " any")
    return told + "".join(f", {flag} {ASKS[ask]} {named_option(missing)}" for flag, ask, missing in atom["items"])


KINDS = {"too many tokens": "TooMany", "depth": "Depth", "stray token": "Stray", "not allowed here": "NotHere", "bad flag": "BadFlag", "bad atom": "BadAtom",
         "unclosed group": "Unclosed"}


def of_expression(required, answer):
    def answered(text, *more):
        fault = plain.fault_of(text, required)
        return f"{KINDS[fault[1]]} {fault[0]}" if fault else answer(plain.read_expression(text, required), *more)
    return answered


def printed(trees):
    return " ".join(map(plain.print_tree, trees))


def item(trees, number):
    return plain.print_tree(trees[int(number)]) if int(number) < len(trees) else "none"


EXPRESSIONS = {
    "atom": of_atom(lambda atom: atom["text"]), "parts": of_atom(parts), "matches": of_atom(matched), "asks": of_atom(asks), "dep-item": of_expression(False, item),
    **{f"{name}{more}": of_expression(required, answer) for name, required in (("dep", False), ("required", True)) for more, answer in (
        ("", printed), ("-fault", lambda _: "none"), ("-flags", lambda trees: ",".join(sorted(plain.mentions(trees)))))},
}


# Of make.defaults, words, scripts, edits and the demo repository

def defaults(before, text, name):
    """The words of a name behind a file over one before it, and the line of the file's fault."""
    variables = plain.with_defaults(text, plain.with_defaults(before, {}))
    bad = plain.bad_assignment(text)
    return "|".join(plain.words_in(variables, name)) + (f", bad {bad}" if bad else "")


def defaults_size(before, text, name):
    words, comma, bad = defaults(before, text, name).partition(", bad ")
    return f"{words.count('|') + 1 if words else 0} {len(words)}{comma}{bad}"


def words(*given):
    command = command_of(given)
    if not command:
        return "none"
    kind = command["command"]
    if kind == "demo":
        return f"demo {command['root']}"
    asked = [str(command["fresh"]).lower(), command["root"], command["certs"]]
    first = {"scan": asked, "part": ["/".join(map(str, command["share"] or ())), *asked], "overlay": [asked[0], command["root"], command["repo"], command["certs"]], "verify": [command["root"], command["certs"], command["report"]],
             "merge": [str(command["parts"]), ",".join(command["from"] or ()), command["root"], command["certs"]], "session": [command["root"]], "lint": [command["root"]]}[kind]
    return " ".join([kind, *first, *values_of(command)])


FAULTS = {"fault: input": "the script could not be read", "limit: script 1000000": "a script has too many commands"}


def script(most, failing, content):
    """Each command, and how the script ends; and the number of those in front."""
    told, count = [], 0
    try:
        for command in commands(Input(content, max(1, int(most)), int(failing))):
            told.append({"put": "put {}={},", "cut": "cut {},", "report": "report,", "end": "end"}[command[0]].format(*command[1:]))
            count += command[0] != "end"
    except Refused as refused:
        told.append(FAULTS.get(refused.args[1], refused.args[1]))
    return "".join(told), f"{count}, {told[-1]}"


class Edited:
    """Files and empty folders of a disk, and edits over them."""

    def __init__(self):
        self.files, self.folders, self.edits = set(), set(), {}

    def is_folder(self, path):
        return path in self.folders or any(other.startswith(path + "/") for other in self.files | self.folders)

    def below(self, path):
        return {other: how for other, how in self.edits.items() if other.startswith(path + "/")}

    def kind(self, path):
        """`new` and `old` files, `/` for a folder and `-` for nothing."""
        if self.edits.get(path) == "put":
            return "new"
        if path in self.files and path not in self.edits:
            return "old"
        below = self.below(path)
        kept = any(other.startswith(path + "/") and self.edits.get(other) != "cut" for other in self.files)
        return "/" if "put" in below.values() or self.is_folder(path) and ("cut" not in below.values() or kept) else "-"

    def names(self, path):
        front = path + "/"
        known = self.files | self.folders | {other for other, how in self.edits.items() if how == "put"}
        names = sorted({other[len(front):].split("/")[0] for other in known if other.startswith(front)})
        return [name for name in names if self.kind(front + name) != "-"]

    def step(self, step):
        kind, path = step[:1], step[1:]
        if kind in ("+", "-"):
            if not plain.is_path(path):
                return "BadPath,"
            if len(path) > 4096:
                return "Limit,"
            self.edits[path] = "put" if kind == "+" else "cut"
            return ""
        if kind in ("@", "/"):
            (self.files if kind == "@" else self.folders).add(path)
            return ""
        return f"{self.kind(step)} {'|'.join(self.names(step))},"


def edited(*steps):
    disk = Edited()
    return "".join(map(disk.step, steps))


def demo_sum(number):
    files, total = plain_demo.files_of(int(number)), 0
    for at in range(1000):
        for byte in files[f"metadata/md5-cache/x/p{at:03}-1"]:
            total = (total * 31 + ord(byte)) & plain_demo.MASK
    return str(total)


OTHERS = {
    "defaults": defaults, "defaults-size": defaults_size,
    "words": words, "default-options": lambda *_: " " + " ".join(values_of(command_of(["session", "R"]))),
    "script": lambda *given: script(*given)[0], "script-end": lambda *given: script(*given)[1], "edited": edited,
    "demo": lambda number, path: plain_demo.files_of(int(number)).get(path, "none"), "demo-sum": demo_sum,
}
CALLS = {**BASE, **VERSIONS, **EXPRESSIONS, **OTHERS, **text_calls.CALLS}


# Loads and runs

def loaded(outside):
    """What is told of a load, its packages and its profiles; or how it is refused."""
    tree = plain_run.Tree(plain.Files(outside.files), outside.numbers["tree"])
    try:
        plain_run.load(tree)
    except Refused as refused:
        return ["! " + refused.args[1].replace("fault: tree", "tree").replace("limit: ", "limit ").replace("not a repository: ", "none ")]
    reports = []
    packages, profiles = plain.repository_of(tree.files, reports)
    told = [plain.line_of(report)[:-1].split(": ", 2) for report in sorted(reports, key=plain.order_of)]
    notes = [" ".join([keyword, place, *detail]) for place, keyword, *detail in told]
    return in_any_order(["> " + line for line in [*notes, *(f"package {package['pf']}" for package in packages),
                                                  *(f"profile {profile['arch']} {profile['path']}" for profile in profiles)]])


def in_any_order(told):
    """The lines of a load with its notes in order of bytes, since nothing says how they come."""
    listed = [line for line in told if line.startswith(("> package ", "> profile "))]
    return sorted(line for line in told if line not in listed) + listed


def ran(outside, given):
    status, err, out, left = plain_run.run(given, outside.files, outside.found(), outside.input, outside.numbers)
    outside.leave(left)
    return [f"= {status}", *lines.marked("!", err), *lines.marked(">", out)]


def is_same(first, second):
    """Whether two files of the store are the same: one that a scan left is known by its queries, unless all are answered again."""
    if isinstance(first, list) != isinstance(second, list) and None not in (first, second):
        raise plain_run.Unknown
    return first == second


def stored(outside, path):
    """How many bytes a file of the store has: that of a scan without queries has its header alone."""
    kept = outside.store.get(path)
    if isinstance(kept, list) and kept:
        raise plain_run.Unknown
    return "none" if kept is None else "10" if kept == [] else str(len(kept))


def left(outside, path):
    before, after = outside.before.get(path), outside.store.get(path)
    if after is None:
        return "none"
    return "new" if before is None else "same" if is_same(before, after) else "other"


STORED = {"stored": stored, "left": left, "same": lambda outside, first, second: yes(is_same(outside.store.get(first), outside.store.get(second)))}


def takes(call, given):
    """Whether the plain program knows a call that is given so many parts."""
    try:
        inspect.signature(CALLS[call]).bind(*given)
    except (KeyError, TypeError):
        return False
    return True


def answer(asked, outside):
    """The answer to a call, or nothing where the plain program has none."""
    call, _, rest = asked.partition(" ")
    given = [lines.part_of(part) for part in rest.split(";")]
    try:
        if asked == "load":
            return loaded(outside)
        if call == "run":
            return ran(outside, rest.split(" ") if rest else [])
        if call == "emit":
            return text_calls.emitted(outside.reports, rest)
        if call in STORED:
            return STORED[call](outside, *given)
        if call in text_calls.OVER_FILES:
            return lines.written(text_calls.OVER_FILES[call](plain.Files(outside.files), *given))
        if call in text_calls.OVER_TREE:
            tree = plain_run.Tree(plain.Files(outside.files), outside.numbers["tree"])
            return lines.written(text_calls.OVER_TREE[call](tree, *given))
        return lines.written(CALLS[call](*given)) if takes(call, given) else None
    except (plain_run.Unknown, MemoryError):
        # (what the store has then isn't known either)
        outside.store = Unsaid()
        return None


class Unsaid(dict):
    """A store of which nothing is known."""

    def get(self, *_):
        raise plain_run.Unknown


COUNT = {}


def told():
    return ", ".join(f"{name} {known} of {known + unknown}" for name, (known, unknown) in COUNT.items())


def answered(name, heading, *_):
    got, want, unknown = {}, {}, 0
    for place, asked, wanted, outside in lines.calls(name, heading):
        found = answer(asked, outside)
        if found is None:
            unknown += 1
        else:
            key = f"{place} {asked[:200]}"
            got[key], want[key] = found, in_any_order(wanted) if asked == "load" else wanted
    known, before = COUNT.get(name, (0, 0))
    COUNT[name] = known + len(want), before + unknown
    return got, want


def is_refused(asked, answer):
    return asked.split(" ")[0] == "run" and int(answer[0][2:]) > 1


def what_each_refusal_leaves_is_asked(*_):
    """Behind each run that is refused stands what it left of FILE, but for sessions and lints, which have none."""
    missing, looked = [], 0
    for name in lines.files():
        refused = None
        for place, asked, answer, _ in [*lines.calls(name), ("", "", [], None)]:
            missing += [refused] * (refused is not None and not asked.startswith("left "))
            refused = place if is_refused(asked, answer) and not asked.startswith(("run session ", "run lint ")) else None
            looked += refused is not None
    return (missing, looked > 100), ([], True)


CASES = [what_each_refusal_leaves_is_asked]
CASES += [named(f"{name}: {heading}", answered, name, heading) for name in lines.files() if name not in solving_cases.FILES
         for heading in lines.headings_of(name)]
