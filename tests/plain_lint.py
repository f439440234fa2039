"""The plain program's lint, by docs/rules.md and docs/formats.md alone: the defaults of flags, needless versions and unknown names.

    lint(files, keywords, profiles, json) -> (status, out, err)
"""
import plain

MASKS = ("package.mask",)
FLAGS = ("package.use", "package.use.mask", "package.use.force", "package.use.stable.mask", "package.use.stable.force")


# Defaults

def folded(files, folders, variables):
    for folder in folders:
        variables = plain.with_defaults(files.text(folder + "/make.defaults"), variables)
    return variables


def good_rows(text):
    """The atom and the flags of each good line of a package.use file, with its number."""
    for number, row in enumerate(plain.rows_of(text), 1):
        if row and not plain.bad_package_flags(row):
            yield number, plain.plain_atom(row[0]), plain.flags_in(row[1:])


def folders_of(files, profile):
    return plain.stack_of(files, plain.resolve("profiles", plain.relative(profile["path"])))


def defaults_of(files, packages, profile):
    """What the stack of a profile says of flags."""
    folders = folders_of(files, profile)
    variables = folded(files, folders, {})
    everything = sorted(set().union(*(package["iuse"] for package in packages)))
    texts = [text for folder in folders for text in files.all_at(folder + "/package.use")]
    return {
        "words": [(atom, flag, on) for text in texts for _, atom, flags in good_rows(text) for flag, on in flags],
        "values": [(plain.lowered(name) + "_", plain.words_in(variables, name)) for name in plain.words_in(variables, "USE_EXPAND")],
        "use": set(plain.words_in(variables, "USE")),
        "kept": set(plain.words_in(folded(files, folders, {"USE": everything}), "USE")),
    }


def is_on(package, profile, level, defaults, flag):
    """The default of a flag of a package."""
    kept = plain.state(package, profile, level, flag)
    if kept != "free":
        return kept == "on"
    said = [on for atom, named, on in defaults["words"] if named == flag and plain.matches(atom, package)]
    if said:
        return said[-1]
    values = [flag[len(front):] in words for front, words in defaults["values"] if words and flag.startswith(front)]
    if values:
        return any(values)
    return flag in defaults["use"] or flag in defaults["kept"] and flag in package["plus"]


def default_reports(files, packages, profiles):
    for profile in profiles:
        defaults = defaults_of(files, packages, profile)
        for package in packages:
            level = plain.level_of(package, profile)
            trees = package["REQUIRED_USE"]
            if not level or trees is None:
                continue
            on = {flag: is_on(package, profile, level, defaults, flag) for flag in plain.mentions(trees)}
            if not all(plain.holds(tree, on.get, None, package["eapi"] < 7) for tree in trees):
                use = " ".join(("" if on[flag] else "-") + flag for flag in sorted(on))
                yield {"subject": package, "keyword": "RequiredUseDefaults", "profile": profile, "level": level, "use": use,
                       "detail": " ".join(plain.print_tree(tree) for tree in trees)}


# Versions

def makes_needless(package, other):
    """Whether the other version has all that the package is there for."""
    if other["live"] or other["name"] != package["name"] or other["slot"] != package["slot"] or plain.compare(package["version"], other["version"]) >= 0:
        return False
    offers = [word for word in package["keywords"] if word[0] != "-"]
    return all(word in other["keywords"] or word[0] == "~" and word[1:] in other["keywords"] for word in offers)


def version_reports(packages):
    for package in packages:
        if not package["live"] and any(word[0] != "-" for word in package["keywords"]):
            others = [other for other in packages if makes_needless(package, other)]
            if others:
                yield {"subject": package, "keyword": "RedundantVersion", "detail": others[0]["pf"].partition("/")[2]}


# Names

def named_atoms(files, folder, names):
    """The path, the line and the atom of each good line of these files of a folder."""
    for name in names:
        for path in files.paths_at(f"{folder}/{name}"):
            if name in MASKS:
                for number, row in enumerate(plain.rows_of(files.texts[path]), 1):
                    if len(row) == 1 and row[0][0] != "-" and plain.plain_atom(row[0]):
                        yield path, number, plain.plain_atom(row[0])
            else:
                for number, atom, _ in good_rows(files.texts[path]):
                    yield path, number, atom


def name_reports(files, packages, profiles):
    known, found = {package["name"] for package in packages}, list(named_atoms(files, "profiles", MASKS))
    for folder in dict.fromkeys(folder for profile in profiles for folder in folders_of(files, profile)):
        found += named_atoms(files, folder, MASKS + FLAGS)
    for path, number, atom in found:
        if atom["name"] not in known:
            yield {"path": path, "line": number, "keyword": "UnknownProfilePackage", "detail": atom["text"]}


def text_of(files, keywords=None, profiles=None, as_json=False):
    """The text of a lint of these files, which are a repository."""
    packages, known = plain.repository_of(files)
    reports = [*default_reports(files, packages, known), *version_reports(packages), *name_reports(files, packages, known)]
    return plain.text_of_reports(reports, keywords, profiles, as_json)


# What stands between: the walk, and what a stack says

class TooLong(Exception):
    """The path word of a profile whose stack has too many visits."""


def stack_over(files, profile):
    """The stack of a profile by these files' parents alone: what isn't there is a folder without files, and one on the way isn't followed."""
    visits = 0

    def visit(folder, way):
        nonlocal visits
        visits += 1
        if visits > 4096:
            raise TooLong(profile["path"])
        parents = (plain.resolve(folder, plain.relative(row[0])) for row in plain.rows_of(files.text(folder + "/parent")) if plain.is_parent(row))
        return [other for parent in parents if parent and parent not in way for other in visit(parent, way | {parent})] + [folder]

    folder = plain.resolve("profiles", plain.relative(profile["path"]))
    return visit(folder, {folder})


def walked(loaded, files):
    """Of each file that a walk reads its folder, its kind and its path, in order; and of each profile of what was loaded its line and
    its stack."""
    found, known = [("profiles", "package.mask", path) for path in files.paths_at("profiles/package.mask")], set()

    def visit(folder):
        if folder is None or folder in known:
            return
        known.add(folder)
        for name in ("parent", "make.defaults"):
            if f"{folder}/{name}" in files.texts:
                found.append((folder, name, f"{folder}/{name}"))
        for name in (FLAGS[0], *MASKS, *FLAGS[1:]):
            found.extend((folder, name, path) for path in files.paths_at(f"{folder}/{name}"))
        for row in plain.rows_of(files.text(folder + "/parent")):
            if plain.is_parent(row):
                visit(plain.resolve(folder, plain.relative(row[0])))

    profiles = plain.read_profiles(loaded)[0]
    for profile in profiles:
        visit(plain.resolve("profiles", plain.relative(profile["path"])))
    return found, [(profile["number"], stack_over(files, profile)) for profile in profiles]


def lint(content, keywords=None, profiles=None, as_json=False):
    files = plain.Files(content)
    refused = plain.refused(files)
    if refused:
        return refused
    out = text_of(files, keywords, profiles, as_json)
    return (1 if out else 0), out, ""
