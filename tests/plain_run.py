"""The plain program's whole runs, over files and objects that fail at a call: status, errors and output.

What a run leaves in the store is known by its queries, since how an answer is certified is open.
"""
import re
import sys

import plain
import plain_demo
import plain_gates
import plain_lint
import plain_overlay
from plain_gates import queries
from plain_words import LARGEST_FILE, LONGEST_PATH, Input, Refused, command_of, commands

MOST_FILES, MOST_VISITS, MOST_FLAGS, MOST_WEIGHT = 400000, 4096, 4096, 2000000
# More flags of a query than this many aren't tried, and more reports of a session aren't made.
TRIED, REPORTS = 14, 100
sys.setrecursionlimit(20000)


class Unknown(Exception):
    """What the plain program can't say."""


class Sink:
    """Takes at most so many bytes a call; the call of a number fails."""

    def __init__(self, most, failing):
        self.held, self.most, self.failing, self.calls = "", most, failing, 0

    def put(self, piece):
        """How many bytes are taken, or none where the call fails."""
        self.calls += 1
        if self.calls == self.failing:
            return None
        self.held += piece[:self.most]
        return min(len(piece), self.most)

    def put_all(self, text):
        while text:
            taken = self.put(text)
            if taken is None:
                return False
            text = text[taken:]
        return True


class Store:
    def __init__(self, files, failing):
        self.files, self.failing, self.calls = dict(files), failing, 0

    def call(self, path):
        self.calls += 1
        if self.calls == self.failing:
            raise Refused(3, f"fault: store {path}")

    def fetch(self, path):
        self.call(path)
        return self.files.get(path)

    def replace(self, path, content):
        self.call(path)
        self.files[path] = content


# Reading in order

class Tree:
    """Files, read one call after the other; the call of a number fails."""

    def __init__(self, files, failing):
        self.files, self.failing, self.calls, self.read_paths, self.found = files, failing, 0, {}, 0

    def call(self, path):
        if len(path) > LONGEST_PATH:
            raise Refused(7, f"limit: {path} {LONGEST_PATH}")
        self.calls += 1
        if self.calls == self.failing:
            raise Refused(3, f"fault: tree {path}")

    def read(self, path):
        """`file`, `folder` or nothing. A path is read once."""
        if path not in self.read_paths:
            self.call(path)
            content = self.files.texts.get(path)
            if content is not None and len(content) > LARGEST_FILE:
                raise Refused(7, f"limit: {path} {LARGEST_FILE}")
            if content is not None and self.found == MOST_FILES:
                raise Refused(7, f"limit: {path} {MOST_FILES}")
            self.found += content is not None
            self.read_paths[path] = "file" if content is not None else "folder" if path in self.files.below else None
        return self.read_paths[path]

    def names(self, path):
        self.call(path)
        return self.files.names(path)

    def read_file_or_folder(self, path):
        if self.read(path) == "folder":
            for name in self.names(path):
                if name[0] != ".":
                    self.read(f"{path}/{name}")


SINGLE = ("eapi", "parent", "make.defaults")
MAYBE_FOLDERS = ("use.mask", "use.force", "use.stable.mask", "use.stable.force", "package.mask", "package.use.mask", "package.use.force",
                 "package.use.stable.mask", "package.use.stable.force")


def read_folder(tree, folder, known):
    """A directory of a stack and those above it, each when it is first reached."""
    if folder is None or folder in known:
        return
    known.add(folder)
    if tree.read(folder) != "folder":
        return
    for name in SINGLE:
        tree.read(f"{folder}/{name}")
    for name in MAYBE_FOLDERS:
        tree.read_file_or_folder(f"{folder}/{name}")
    for row in plain.rows_of(tree.files.text(folder + "/parent")):
        if plain.is_parent(row):
            read_folder(tree, plain.resolve(folder, plain.relative(row[0])), known)


def visits_of(files, line):
    """Raises the limit of the folders visited, where the walk meets it before another fault."""
    visits = 0

    def visit(folder, above):
        nonlocal visits
        visits += 1
        if visits > MOST_VISITS:
            raise Refused(7, f"limit: profiles/{line['path']} {MOST_VISITS}")
        plain.eapi_of(files, folder)
        for number, row in enumerate(plain.rows_of(files.text(folder + "/parent")), 1):
            if plain.is_parent(row):
                parent = plain.resolve(folder, plain.relative(row[0]))
                if parent not in files.below or parent in above:
                    raise plain.Fault(folder + "/parent", number, "")
                visit(parent, above | {parent})

    folder = plain.resolve("profiles", plain.relative(line["path"]))
    if folder in files.below:
        try:
            visit(folder, {folder})
        except plain.Fault:
            pass


def read_lines(tree, folder, known):
    """The files of a directory whose lines are looked at, and those of its parents, each when it is first reached."""
    if folder is None or folder in known:
        return
    known.add(folder)
    for name in ("parent", "make.defaults"):
        tree.read(f"{folder}/{name}")
    for name in ("package.use", "package.mask", *MAYBE_FOLDERS[5:]):
        tree.read_file_or_folder(f"{folder}/{name}")
    for row in plain.rows_of(tree.files.text(folder + "/parent")):
        if plain.is_parent(row):
            read_lines(tree, plain.resolve(folder, plain.relative(row[0])), known)


def walk(tree):
    """Makes the calls of a walk over the profiles in their order, behind those of the load."""
    again = Tree(tree.files, tree.failing)
    again.calls = tree.calls
    again.read_file_or_folder("profiles/package.mask")
    known = set()
    for profile in plain.read_profiles(tree.files)[0]:
        read_lines(again, plain.resolve("profiles", plain.relative(profile["path"])), known)


def load(tree):
    """Makes the calls of a load in their order, up to the first that refuses."""
    files = tree.files
    for path in ("profiles/profiles.desc", "profiles/categories"):
        if tree.read(path) != "file":
            raise Refused(6, f"not a repository: {path}")
    tree.read_file_or_folder("profiles/package.mask")
    known = set()
    for line in plain.desc_lines(files):
        read_folder(tree, plain.resolve("profiles", plain.relative(line["path"])), known)
    for line in plain.desc_lines(files):
        visits_of(files, line)
    eclasses = set()
    for category in plain.categories_of(files):
        listed = set(tree.names("metadata/md5-cache/" + category))
        for folder in tree.names(category):
            if plain.is_package(folder):
                tree.names(f"{category}/{folder}")
        for pf in plain.pfs_of(files, category):
            path, name = f"metadata/md5-cache/{category}/{pf}", plain.split_pf(pf)[0]
            has_entry = pf in listed and tree.read(path) == "file"
            if tree.read(f"{category}/{name}/{pf}.ebuild") == "file" and has_entry:
                eclasses |= {eclass for eclass, _ in plain.eclasses_of(plain.value_of(files.texts[path], "_eclasses_")) or []}
    for eclass in sorted(eclasses):
        tree.read(f"eclass/{eclass}.eclass")


# Judging

def weight_of(query, shown):
    package, _, _, key, _ = query
    keys = {"REQUIRED_USE", key}
    atoms = [atom for name in keys - {"REQUIRED_USE"} for atom in plain.wanted_atoms(package[name])]
    distinct = {atom["text"]: atom for atom in atoms}
    matched = {text: sum(plain.matches(atom, other) for other in shown.get(atom["name"], [])) for text, atom in distinct.items()}
    return sum(len(plain.tokens_of(package["texts"][name])) for name in keys) + sum((1 + len(atom["items"])) * matched[atom["text"]] for atom in atoms)


def part_of(number, parts):
    """The part of a query of this number among so many parts, all from 1."""
    return (number - 1) % parts + 1


def gates_within_limits(files, options, share=None):
    """The gates of each query of these files, or of each of a part of so many, up to the first that is refused."""
    packages, profiles = plain.repository_of(files)
    return gates_among(packages, profiles, packages, options, share)


def gates_among(packages, profiles, judged, options, share=None):
    """The same of the queries of some packages among all."""
    for number, query in enumerate(queries((judged, profiles), options), 1):
        if share and part_of(number, share[1]) != share[0]:
            continue
        package, profile, level, _, flags = query
        if len(flags) > MOST_FLAGS:
            raise Refused(7, f"limit: {package['pf']} {MOST_FLAGS}")
        shown = plain.shown(packages, profile, level)
        if weight_of(query, shown) > MOST_WEIGHT:
            raise Refused(7, f"limit: {package['pf']} {MOST_WEIGHT}")
        yield query, plain_gates.bytes_of(query, shown)


def judged(asked, options):
    """The gates of queries, where none spends its budget."""
    found = []
    for query, gates in asked:
        if 2 ** len(query[4]) > options["budget"] or len(query[4]) > TRIED:
            raise Unknown("whether the budget is spent")
        found.append(gates)
    return found


def text_of(files, options):
    return plain.text_of(files, options["keywords"], options["profiles"], options["json"])


def given_to(options, outside):
    return None if options["fresh"] else outside["store"].fetch(options["certs"])


def left_by(options, outside, out, given, kept, text):
    """The status of a scan with these answers, which are kept and written."""
    outside["store"].replace(options["certs"], plain_gates.kept_over(list(dict.fromkeys(kept)), given))
    if not out.put_all(text):
        raise Refused(3, "fault: output")
    return 1 if text else 0


def part(options, outside, _):
    given = None if options["fresh"] else outside["store"].fetch(options["certs"])
    load(outside["tree"])
    kept = judged(gates_within_limits(outside["tree"].files, options, options["share"]), options)
    outside["store"].replace(options["certs"], plain_gates.kept_over(list(dict.fromkeys(kept)), given))
    return 0


def merge(options, outside, out):
    given = [outside["store"].fetch(path) for path in options["from"]]
    load(outside["tree"])
    files, kept = outside["tree"].files, []
    for number, (_, gates) in enumerate(gates_within_limits(files, options), 1):
        if not any(plain_gates.is_backed(gates, content) for content in given):
            raise Refused(10, f"part {part_of(number, options['parts'])}/{options['parts']} lacks query {number}")
        kept.append(gates)
    text = text_of(files, options)
    outside["store"].replace(options["certs"], plain_gates.joined(list(dict.fromkeys(kept)), given))
    if not out.put_all(text):
        raise Refused(3, "fault: output")
    return 1 if text else 0


def scan(options, outside, out):
    given = given_to(options, outside)
    load(outside["tree"])
    files = outside["tree"].files
    return left_by(options, outside, out, given, judged(gates_within_limits(files, options), options), text_of(files, options))


class View(Tree):
    """Some files of a tree, read by its calls."""

    def __init__(self, files, tree):
        super().__init__(plain.Files(files), 0)
        self.tree = tree

    def call(self, path):
        super().call(path)
        self.tree.calls += 1
        if self.tree.calls == self.tree.failing:
            raise Refused(3, f"fault: tree {path}")


def load_master(tree, folder):
    try:
        load(View(plain_overlay.folder_view(tree.files.texts, folder), tree))
    except Refused as refused:
        status, line = refused.args
        raise Refused(status, re.sub("^(fault: tree|limit:|not a repository:) ", lambda front: f"{front[0]}{folder}/", line)) from None


def masters_of(tree, name):
    """The masters that the layout names, which is the first file that is read."""
    path = f"{name}/{plain_overlay.LAYOUT}"
    if tree.read(path) != "file":
        raise Refused(6, f"not a repository: {path}")
    try:
        return plain_overlay.masters_in(name, tree.files.texts[path])
    except plain_overlay.Bad as bad:
        raise Refused(7, f"limit: {path} {bad.args[0]}") if bad.args[0] else Refused(6, f"not a repository: {path}") from None


def load_overlay(tree, name):
    """Makes the calls of a load of the layout and the masters in their order, and then those of the overlay's view."""
    masters = masters_of(tree, name)
    for master in masters:
        load_master(tree, master)
    if tree.failing > tree.calls:
        raise Unknown("which call of the tree fails in the overlay's view")
    load(View(plain_overlay.overlay_view(tree.files.texts, name, masters), tree))
    return plain_overlay.repository_of(tree.files.texts, name, masters)


def overlay(options, outside, out):
    given = given_to(options, outside)
    repository = load_overlay(outside["tree"], options["repo"])
    kept = judged(gates_among(*repository[:3], options), options)
    return left_by(options, outside, out, given, kept, plain_overlay.text_of(repository, options["keywords"], options["profiles"], options["json"]))


def verify(options, outside, out):
    kept, report = outside["store"].fetch(options["certs"]), outside["store"].fetch(options["report"])
    load(outside["tree"])
    files = outside["tree"].files
    text, count, said = text_of(files, options), 0, None
    for _, gates in gates_within_limits(files, options):
        count += 1
        if not plain_gates.is_backed(gates, kept):
            said = f"refused: query {count} has no backing\n"
            break
    report = report or ""
    if said is None and report != text:
        at = next((n for n, (a, b) in enumerate(zip(report, text)) if a != b), min(len(report), len(text)))
        said = f"refused: text differs at byte {at}\n"
    if not out.put_all(said or f"accepted {count}\n"):
        raise Refused(3, "fault: output")
    return 1 if said else 0


def session(options, outside, out):
    files, tree, edits = dict(outside["tree"].files.texts), outside["tree"], False
    if outside["input"].content.count("report\n") > REPORTS:
        raise Unknown("what so many reports say")
    for command in commands(outside["input"]):
        if command[0] == "put":
            files[command[1]], edits = command[2], True
        elif command[0] == "cut":
            edits = files.pop(command[1], None) is not None or edits
        elif command[0] == "report":
            if edits and tree.failing > tree.calls:
                raise Unknown("which call of the tree fails behind an edit")
            edited = Tree(plain.Files(files), 0 if edits else tree.failing)
            load(edited)
            judged(gates_within_limits(edited.files, options), options)
            text = text_of(edited.files, options)
            if not out.put_all(f"report {len(text)}\n{text}"):
                raise Refused(3, "fault: output")
    return 0


def lint(options, outside, out):
    load(outside["tree"])
    walk(outside["tree"])
    text = plain_lint.text_of(outside["tree"].files, options["keywords"], options["profiles"], options["json"])
    if not out.put_all(text):
        raise Refused(3, "fault: output")
    return 1 if text else 0


def demo(options, _, out):
    files = plain.Files(plain_demo.files_of(int(options["root"])))
    options = command_of(["scan", "R", "--certs", "C"])
    text, count = text_of(files, options), sum(1 for _ in queries(plain.repository_of(files), options))
    if not out.put_all(f"packages 1000\nqueries {count}\nreports {text.count(chr(10))}\nbytes {len(text)}\n"):
        raise Refused(3, "fault: output")
    return 0


def run(words, files, store, script, numbers):
    """Status, errors, output and the store of a run over these; `numbers` says which call of each object fails, and how many bytes
    a sink takes and the input gives at once."""
    out, err = (Sink(numbers["most"], numbers[name]) for name in ("out", "err"))
    outside = {"tree": Tree(plain.Files(files), numbers["tree"]), "store": Store(store, numbers["store"]),
               "input": Input(script, numbers["pieces"], numbers["input"])}
    command = command_of(words)
    try:
        if not command:
            raise Refused(2, "bad command line")
        does = {"scan": scan, "overlay": overlay, "part": part, "merge": merge, "verify": verify, "session": session, "demo": demo, "lint": lint}
        status = does[command["command"]](command, outside, out)
    except Refused as refused:
        status, line = refused.args
        err.put_all(f"gvis: {line}\n")
    return status, err.held, out.held, outside["store"].files
