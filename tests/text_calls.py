"""The plain program's answers to calls of gv_probe over packages, profiles, queries and reports."""
import plain
import plain_gates
import plain_lint
import plain_overlay
import plain_run
from plain_words import LARGEST_FILE, Refused, command_of


def yes(value):
    return "yes" if value else "no"


def ended(parts, mark="; "):
    return "".join(part + mark for part in parts)


# Of entries

def package_in(category, pf, text):
    """The package that the text of an entry says, or nothing."""
    def values(key):
        return plain.value_of(text, key)
    if not plain.split_pf(pf) or any(error.startswith(("EAPI", "SLOT", "KEYWORDS", "IUSE")) for error in plain.errors_of(values)):
        return None
    return dict(plain.package_of(category, *plain.split_pf(pf), pf, values), words=plain.tokens_of(values("IUSE")))


def parts(package):
    """All of a package, or that there is none."""
    if not package:
        return "none"
    words = package["words"]
    told = [package["category"], package["name"].partition("/")[2], package["pf"].partition("/")[2], package["slot"], package["sub"],
            package["version"], " ".join(package["keywords"]), " ".join(word.lstrip("+-") for word in words),
            " ".join(word[1:] for word in words if word[0] == "+"), *["live"] * package["live"]]
    return "|".join(told)


def flags(text):
    package = package_in("app", "q-1", text)
    return f"{len(package['words'])} {sum(word[0] == '+' for word in package['words'])}" if package else "none"


def digest(value):
    return value.lower() if plain.is_whole("[0-9A-Fa-f]{32}", value) else "none"


def eclasses(value):
    found = plain.eclasses_of(value)
    return "none" if found is None else ended(f"{name} {said.lower()}" for name, said in found)


def classes(text):
    """How many trees stand at the top of each class, and that REQUIRED_USE is none of dependencies."""
    eapi, told = plain.value_of(text, "EAPI"), ""
    for key in ["REQUIRED_USE"] + plain.CLASSES:
        if eapi not in list("5678") or plain.lacks(int(eapi), key):
            told += "0"
        else:
            trees = plain.read_expression(plain.value_of(text, key), key == "REQUIRED_USE")
            told += "-" if trees is None else str(len(trees))
    return told + "-"


ENTRIES = {
    "md5": plain.digest_of, "entry-digest": digest, "entry-eclasses": eclasses, "entry-flags": flags, "entry-classes": classes,
    "entry-errors": lambda text: ended(plain.errors_of(lambda key: plain.value_of(text, key))),
    "entry-package": lambda pf, text: parts(package_in("app", pf, text)),
}


# Of packages and profiles

def places(wanted, found):
    return ended((str(at) for at, one in enumerate(found) if one == wanted), " ")


def package_places(category, name, *others):
    return places([category, name], [other.split() for other in others])


def mask_places(category, name, masks):
    return places(category + "/" + name, [plain.read_atom(mask)["name"] for mask in masks.split(",")])


def classes_of(eapi):
    return ended((key for key in ["REQUIRED_USE"] + plain.CLASSES if not plain.lacks(int(eapi), key)), " ")


def rules_in(text):
    """Rules with commas between: the form and the effect, an atom, and the flag."""
    for line in filter(None, text.split(",")):
        kind, *front, flag = line.split(" ")
        yield {"effect": "mask" if kind.endswith("mask") else "force", "stable": kind.startswith("stable"), "flag": flag.removeprefix("-"),
               "atom": plain.read_atom(front[0]) if front else None, "on": flag[0] != "-"}


def profile_with(rules="", masks="", implicit=(), testing=False):
    return {"number": 1, "arch": "amd64", "path": "base", "status": "stable", "testing": testing, "implicit": set(implicit),
            "masks": [plain.read_atom(mask) for mask in masks.split(",") if mask], "rules": list(rules_in(rules))}


def of_flag(answer):
    """About x/y-1.2 and a profile with these rules; ELIBC and ARCH are implicit, and ARCH isn't prefixed."""
    def answered(keywords, iuse, rules, *more):
        package = package_in("x", "y-1.2", f"EAPI=8\nSLOT=0/3\nKEYWORDS={keywords}\nIUSE={iuse}")
        implicit = ["prefix", "b", "elibc_musl", "elibc_glibc", "elibc_uclibc", "x86", "amd64"]
        return answer(package, profile_with(rules, implicit=implicit), *more)
    return answered


def judged_at(category, pf, keywords, masks, testing=""):
    package = package_in(category, pf, f"EAPI=8\nSLOT=0/3\nKEYWORDS={keywords}")
    profile = profile_with(masks=masks, testing=testing == "testing")
    shown = tuple(plain.is_visible(package, profile, level) for level in ("stable", "testing"))
    by = {(True, True): "both", (True, False): "stable", (False, True): "testing", (False, False): "neither"}[shown]
    return f"{by} {plain.level_of(package, profile) or 'none'}"


FACTS = {
    "package-places": package_places, "mask-places": mask_places, "rule-places": lambda flag, *others: places(flag, others), "classes-of": classes_of,
    "accepts": lambda level, arch, keywords: yes(plain.is_accepted({"keywords": plain.tokens_of(keywords)}, {"arch": arch}, level)),
    "testing-of": lambda arch, keyword: yes(keyword == "~" + arch),
    "package-matches": lambda atom, category, pf, text: yes(plain.matches(plain.read_atom(atom), package_in(category, pf, text))),
    "state": of_flag(lambda package, profile, flag: " ".join(plain.state(package, profile, level, flag) for level in ("stable", "testing"))),
    "effective": of_flag(lambda package, profile, *_: " ".join(sorted(package["iuse"] | profile["implicit"]))),
    "judged-at": judged_at, "bits": lambda digits: digits + " none",
}


# Of one query

class Asked:
    """The query of a class of app/p-1 at stable, or why there is none."""

    def __init__(self, key, eapi, iuse, other, rules, required, dep, bits="", more="0", *others):
        lines = f"SLOT=0\nKEYWORDS=amd64\nEAPI={eapi}\nIUSE={iuse}\nREQUIRED_USE={required}\nRDEPEND={dep}\n"
        self.package, self.profile, self.key, self.digits = package_in("app", "p-1", lines), profile_with(rules), key, bits
        made = [("y-1", other)] * (0 if other == "-" else 1 + int(more or 0)) + [it.partition(" ")[::2] for it in others]
        packages = [self.package, *(package_in("x", name, f"EAPI=8\nSLOT=0\nKEYWORDS=amd64\nIUSE={words}") for name, words in made)]
        self.shown = plain.shown(packages, self.profile, "stable")
        self.flags = plain.flags_of(self.package, self.profile, "stable", key)
        weight = plain_run.weight_of((self.package, self.profile, "stable", key, self.flags), self.shown)
        self.refused = f"{len(self.flags)} flags" if len(self.flags) > plain_run.MOST_FLAGS else f"weight {weight}" if weight > plain_run.MOST_WEIGHT else None

    def at(self, assignment):
        """Whether the query's gates are on, and which items of the class hold."""
        is_true = plain.holding(self.package, self.profile, "stable", self.shown, assignment)
        allowed, items = all(map(is_true, self.package["REQUIRED_USE"])), [is_true(tree) for tree in self.package["RDEPEND"]]
        return allowed if self.key == "REQUIRED_USE" else allowed and not all(items), items

    def at_digits(self):
        if self.refused or len(self.digits) != len(self.flags):
            return self.refused or "other inputs"
        return yes(self.at({flag: (digit == "1") != (flag in self.package["plus"]) for flag, digit in zip(self.flags, self.digits)})[0])

    def preferred(self):
        return self.refused or "".join(f" {'+' * (flag in self.package['plus'])}{flag}" for flag in self.flags)


def tables(*given):
    """At all assignments of f0 to f5: where the query of REQUIRED_USE is on, the one of RDEPEND, and its items."""
    allowed, failing = Asked("REQUIRED_USE", *given), Asked("RDEPEND", *given)
    rows = []
    for number in range(64):
        assignment = {f"f{place}": number >> place & 1 == 1 for place in range(6)}
        on, items = failing.at(assignment)
        rows.append([allowed.at(assignment)[0], on, *items])
    return " ".join(f"{sum(bit << number for number, bit in enumerate(column)):016x}" for column in zip(*rows))


QUERIES = {
    "failing": lambda *given: Asked("RDEPEND", *given).at_digits(), "allowed": lambda *given: Asked("REQUIRED_USE", *given).at_digits(),
    "preferring": lambda *given: Asked("RDEPEND", *given).preferred(), "tables": tables,
}


# Over the loaded tree

def package_at(files, place):
    packages = plain.repository_of(files)[0]
    if int(place) >= len(packages):
        return "none"
    package = packages[int(place)]
    text = files.text(f"metadata/md5-cache/{package['pf']}")
    return parts(dict(package, words=plain.tokens_of(plain.value_of(text, "IUSE"))))


def profile_at(files, place):
    profiles = plain.repository_of(files)[1]
    if int(place) >= len(profiles):
        return "none"
    profile = profiles[int(place)]
    lists = {name: plain.words_in(profile["variables"], name) for name in ("IUSE_IMPLICIT", "USE_EXPAND", "USE_EXPAND_IMPLICIT", "USE_EXPAND_UNPREFIXED")}
    for name in lists["USE_EXPAND_IMPLICIT"]:
        lists.setdefault(name, plain.words_in(profile["variables"], "USE_EXPAND_VALUES_" + name))
    told = [f"{profile['number']} {profile['arch']} {profile['path']} {profile['status']}", *["testing"] * profile["testing"]]
    told += [f"{name}={' '.join(words)}" for name, words in lists.items() if words]
    for rule in profile["rules"]:
        atom = rule["atom"]["text"] + " " if rule["atom"] else ""
        told.append(f"{rule['effect']}{'.stable' * rule['stable']} {atom}{'-' * (not rule['on'])}{rule['flag']}")
    return ended(told + [mask["text"] for mask in profile["masks"]])


def walked(loaded, path, content=""):
    """Over the files that were loaded, or over those with this content at a path."""
    files = plain.Files({**loaded.texts, path: content}) if path else loaded
    try:
        found, stacks = plain_lint.walked(loaded, files)
    except plain_lint.TooLong as long:
        return f"! limit profiles/{long.args[0]} 4096\n"
    return ended([f"{folder} {name} {path} {len(files.texts[path])}" for folder, name, path in found]
                 + [f"{number} {' '.join(folders)}" for number, folders in stacks])


def line_defaults(files, number):
    """Where no profile stands at the line, nothing is known but the flags of all packages."""
    packages, profiles = plain.repository_of(files)
    profile = next((profile for profile in profiles if profile["number"] == int(number)), None)
    everything = sorted(set().union(*(package["iuse"] for package in packages)))
    if not profile:
        return ended(["left=" + " ".join(everything)] if everything else [])
    folders, defaults = plain_lint.folders_of(files, profile), plain_lint.defaults_of(files, packages, profile)
    use, left = (plain.words_in(plain_lint.folded(files, folders, before), "USE") for before in ({}, {"USE": everything}))
    variables = plain_lint.folded(files, folders, {})
    lists = [("USE", use), ("left", left)] + [(name, plain.words_in(variables, name)) for name in plain.words_in(variables, "USE_EXPAND")]
    told = [f"{name}={' '.join(words)}" for name, words in lists if words]
    return ended(told + [f"force {atom['text']} {'-' * (not on)}{flag}" for atom, flag, on in defaults["words"]])


def flag_defaults(files, place, line, *flags):
    packages, profiles = plain.repository_of(files)
    if int(place) >= len(packages) or int(line) >= len(profiles):
        return "none"
    package, profile = packages[int(place)], profiles[int(line)]
    level, defaults = plain.level_of(package, profile), plain_lint.defaults_of(files, packages, profile)
    if not level:
        return "not judged"
    return ended((("" if plain_lint.is_on(package, profile, level, defaults, flag) else "-") + flag for flag in flags), " ")


def options_of(budget, paths=""):
    return dict(command_of(["scan", "R", "--certs", "C"]), budget=int(budget), profiles=paths.split() or None)


def asked_of(files, options):
    """The queries, each with its gates, what its profile shows and its place among the packages."""
    repository = plain.repository_of(files)
    for query, gates in plain_run.gates_within_limits(files, options):
        shown = plain.shown(repository[0], query[1], query[2])
        yield query, gates, shown, [package["pf"] for package in repository[0]].index(query[0]["pf"])


def names(files, *given):
    return ended(f"{place} {query[3]} {query[1]['number']} {query[2]}" for query, _, _, place in asked_of(files, options_of(*given)))


def gates(files, budget, paths, place, key):
    return next((gates.hex() for query, gates, _, at in asked_of(files, options_of(budget, paths)) if (at, query[3]) == (int(place), key)), "no query")


def judged(files, *given):
    options = options_of(*given)
    return plain_run.judged(plain_run.gates_within_limits(files, options), options)


def judge(files, *given):
    """How many queries and records there are. What is answered is known from its record, and what isn't is told."""
    try:
        found = judged(files, *given)
    except Refused as refused:
        return refused.args[1].removeprefix("limit: ")
    return f"{len(found)} queries, {len(set(found))} records, {len(found)} known, recalled, {min(1, len(found))} wanting, left"


def records(files, *given):
    found = judged(files, *given)
    return ended((str(found.index(gates)) for gates in dict.fromkeys(found)), " ")


def ask(files, *given):
    told = []
    for (package, profile, level, key, _), _, shown, _ in asked_of(files, options_of(*given)):
        least = plain.least_of(package, profile, level, key, shown)
        told.append((least[0] if least else "none") + ", reported" * ((least is None) == (key == "REQUIRED_USE")))
    return ended(told)


UNSOLVED = [keyword for keyword in plain.KEYWORDS if not keyword.startswith(("Nonsolvable", "Unsatisfiable"))]


def told_lines(text):
    return "".join(f"> {line}\n" for line in text.split("\n")[:-1])


def plain_reports(files, *given):
    """The reports for which nothing is solved."""
    return told_lines(plain.text_of(files, UNSOLVED, options_of(*given)["profiles"]))


def plain_one(files, budget, paths, place):
    """The same of the package at a place."""
    packages, profiles = plain.repository_of(files)
    reports = plain.judging(packages, profiles, judged=packages[int(place):int(place) + 1])
    return told_lines(plain.text_of_reports(reports, UNSOLVED, options_of(budget, paths)["profiles"]))


# Of overlays

def layout(name, text):
    try:
        return " ".join(plain_overlay.masters_in(name, text))
    except plain_overlay.Bad as bad:
        return "too many" if bad.args[0] else "bad"


def view(files, folder, masters, path):
    """What stands at a path of a folder, or of an overlay over its masters, and the names below it."""
    texts, masters = files.texts, masters.split()
    seen = plain.Files(plain_overlay.overlay_view(texts, folder, masters) if masters else plain_overlay.folder_view(texts, folder))
    at = "folder" if path in seen.below else "absent"
    if path in seen.texts:
        at = "file " + seen.texts[path] if len(seen.texts[path]) <= LARGEST_FILE else "too large"
    return f"{at}; {' '.join(sorted(seen.below.get(path, ())))}"


def of_overlay(answer):
    """About the overlay of a name, which stands last, or why it isn't loaded."""
    def answered(tree, *given):
        try:
            repository = plain_run.load_overlay(tree, given[-1])
        except Refused as refused:
            return refused.args[1].replace("fault: tree", "tree").replace("limit: ", "limit ").replace("not a repository: ", "none ")
        return answer(repository, *given[:-1])
    return answered


def overlay(repository):
    packages, _, own, notes = repository
    mine = {id(package) for package in own}
    return told_lines(plain.text_of_reports(notes)) + ended(f"{'own' if id(package) in mine else 'of a master'} {package['pf']}" for package in packages)


def own(repository, budget, paths):
    options = options_of(budget, paths)
    try:
        found = plain_run.judged(plain_run.gates_among(*repository[:3], options), options)
    except Refused as refused:
        return refused.args[1].removeprefix("limit: ")
    return f"{len(found)} queries, {len(set(found))} records; {told_lines(plain_overlay.text_of(repository, profiles=options['profiles']))}"


OVER_FILES = {"package-at": package_at, "profile-at": profile_at, "queries": names, "gates": gates, "judge": judge, "records": records, "ask": ask,
              "plain-reports": plain_reports, "plain-one": plain_one, "view": view, "walked": walked, "line-defaults": line_defaults,
              "flag-defaults": flag_defaults}
# Over files where a call may fail.
OVER_TREE = {"overlay": of_overlay(overlay), "own": of_overlay(own)}


# Of reports

def report_of(line):
    """A report as it is written: `KEYWORD|SUBJECT|CLASS|CONTEXT|WITNESS|DETAIL`."""
    keyword, subject, key, context, use, detail = line.split("|", 5)
    report = {"keyword": keyword, "class": key or None}
    if ":" in subject:
        path, _, number = subject.rpartition(":")
        report.update(path=path, line=int(number))
    else:
        category, name, version, pf = subject.split("/")
        report["subject"] = {"category": category, "name": f"{category}/{name}", "version": version, "pf": f"{category}/{pf}"}
    if context:
        number, arch, path, level = context.split(" ")
        report.update(profile={"number": int(number), "arch": arch, "path": path}, level=level)
    if use:
        report["use"] = use.replace("''", "")
    if detail:
        report["detail"] = detail.replace("''", "")
    return report


def ordered(reports):
    """In order, equal ones once."""
    left = []
    for report in sorted(reports, key=plain.order_of):
        if report not in left:
            left.append(report)
    return left


def emitted(lines, how):
    reports, tell = [report_of(line) for line in lines if line != "&"], plain.line_of
    for word in how.split():
        if word == "json":
            tell = plain.object_of
        elif word == "ordered":
            reports = ordered(reports)
        else:
            reports = [report for report in reports if report["keyword"] in word.split(",")]
    return ["> " + tell(report)[:-1] for report in reports]


def selected(keywords, paths, line):
    report = report_of(line)
    return yes(report["keyword"] in keywords.split(",") and (not report.get("profile") or report["profile"]["path"] in paths.split()))


CALLS = {**ENTRIES, **FACTS, **QUERIES, "selected": selected, "layout": layout}
