"""A plain program that says what a scan of a map of files prints. It follows docs/rules.md and docs/formats.md, tries
everything, and shares nothing with the proved program. All of plain_atoms and plain_profiles can be named here.

    scan(files, keywords, profiles, json) -> (status, out, err)      files: from path to bytes; keywords and profiles: names, or
                                                                     None for all
"""
import functools
import hashlib
import itertools
import json

from plain_atoms import *  # noqa: F403
from plain_profiles import *  # noqa: F403

CLASSES = ["DEPEND", "BDEPEND", "RDEPEND", "PDEPEND", "IDEPEND"]
KEYWORDS = ["ProfileError", "ProfileNote", "MetadataError", "StaleCache", "OrphanCache", "MissingCache", "NonexistentDeps",
            "NonsolvableDepsInStable", "NonsolvableDepsInDev", "NonsolvableDepsInExp", "UnsatisfiableRequiredUse",
            "UnstatedIuse", "VisibleVcsPkg"]
# Those of a lint; in the order of reports they come behind the others.
LINT_KEYWORDS = ["RequiredUseDefaults", "RedundantVersion", "UnknownProfilePackage"]


# Entries

def digest_of(text):
    return hashlib.md5(text.encode("latin-1")).hexdigest()


def eclasses_of(value):
    """The pairs of a name and a digest of a list of eclasses; nothing where it has another form."""
    words = value.split("\t") if value else []
    is_good = len(words) % 2 == 0 and all(map(is_part, words[::2])) and all(is_whole("[0-9A-Fa-f]{32}", word) for word in words[1::2])
    return list(zip(words[::2], words[1::2])) if is_good else None


def stale(files, category, name, pf, values):
    """Why an entry with an ebuild isn't current, or nothing."""
    if values("_md5_").lower() != digest_of(files.texts["%s/%s/%s.ebuild" % (category, name, pf)]):
        return "ebuild"
    eclasses = eclasses_of(values("_eclasses_"))
    if eclasses is None:
        return "eclasses"
    for eclass, digest in eclasses:
        path = "eclass/%s.eclass" % eclass
        if path not in files.texts or digest.lower() != digest_of(files.texts[path]):
            return "eclass " + eclass
    return None


def is_keyword(word):
    return is_whole(r"-\*|[~-]?[A-Za-z0-9_][A-Za-z0-9_-]*", word)


def is_signed_flag(word):
    return is_flag(word[1:] if word[0] in "+-" else word)


def errors_of(values):
    """What is wrong in a current entry."""
    if values("EAPI") not in list("5678"):
        return ["EAPI: unsupported"]
    errors = [] if is_whole("{0}(?:/{0})?".format(SLOT), values("SLOT")) else ["SLOT: bad"]
    for key, test in (("KEYWORDS", is_keyword), ("IUSE", is_signed_flag)):
        errors += ["%s: word %d" % (key, number) for number, word in enumerate(tokens_of(values(key)), 1) if not test(word)][:1]
    for key in ["REQUIRED_USE"] + CLASSES:
        fault = None if lacks(int(values("EAPI")), key) else fault_of(values(key), key == "REQUIRED_USE")
        if fault:
            errors.append("%s: token %d: %s" % (key, *fault))
    return errors


def lacks(eapi, key):
    return key == "BDEPEND" and eapi < 7 or key == "IDEPEND" and eapi < 8


def package_of(category, name, version, pf, values):
    slot, _, sub = values("SLOT").partition("/")
    iuse = tokens_of(values("IUSE"))
    package = {"category": category, "name": category + "/" + name, "version": version, "pf": category + "/" + pf,
               "eapi": int(values("EAPI")), "slot": slot, "sub": sub or slot, "keywords": tokens_of(values("KEYWORDS")),
               "iuse": {word.lstrip("+-") for word in iuse}, "plus": {word[1:] for word in iuse if word[0] == "+"},
               "live": "live" in tokens_of(values("PROPERTIES")), "texts": {key: values(key) for key in ["REQUIRED_USE"] + CLASSES}}
    for key in ["REQUIRED_USE"] + CLASSES:
        package[key] = read_expression(values(key), key == "REQUIRED_USE")
        assert (package[key] is None) == (fault_of(values(key), key == "REQUIRED_USE") is not None)
    return package


@functools.lru_cache(maxsize=4096)
def value_of(text, key):
    """The value of a key in an entry: what stands behind it in its first line, or nothing."""
    return next((line[len(key) + 1:] for line in text.split("\n") if line.startswith(key + "=")), "")


def read_pf(files, category, pf, reports):
    """The package that an entry says, where it is current and says one; and what is told of the entry."""
    text, (name, version) = files.texts.get("metadata/md5-cache/%s/%s" % (category, pf)), split_pf(pf)
    subject = {"category": category, "name": category + "/" + name, "version": version, "pf": category + "/" + pf}

    def tell(keyword, detail=None):
        reports.append({"subject": subject, "keyword": keyword, "detail": detail})

    def values(key):
        return value_of(text, key)

    has_ebuild = "%s/%s/%s.ebuild" % (category, name, pf) in files.texts
    if text is None:
        if has_ebuild:
            tell("MissingCache")
        return None
    if not has_ebuild:
        tell("OrphanCache")
        return None
    why = stale(files, category, name, pf, values)
    if why:
        tell("StaleCache", why)
        return None
    errors = errors_of(values)
    for error in errors:
        tell("MetadataError", error)
    if any(error.startswith(("EAPI", "SLOT", "KEYWORDS", "IUSE")) for error in errors):
        return None
    return package_of(category, name, version, pf, values)


def pfs_of(files, category):
    found = {name for name in files.names("metadata/md5-cache/" + category) if split_pf(name)}
    for folder in files.names(category):
        if is_package(folder):
            for file in files.names(category + "/" + folder):
                pf = file[:-len(".ebuild")] if file.endswith(".ebuild") else ""
                if split_pf(pf) and split_pf(pf)[0] == folder:
                    found.add(pf)
    return sorted(found)


def place_of(package):
    return (package["category"], package["name"], functools.cmp_to_key(compare)(package["version"]), package["pf"])


def categories_of(files):
    rows = rows_of(files.text("profiles/categories"))
    return sorted({row[0] for row in rows if len(row) == 1 and is_category(row[0])})


def read_packages(files, reports):
    read = [read_pf(files, category, pf, reports) for category in categories_of(files) for pf in pfs_of(files, category)]
    return sorted((package for package in read if package), key=place_of)


# Judging

def is_accepted(package, profile, level):
    return profile["arch"] in package["keywords"] or level == "testing" and "~" + profile["arch"] in package["keywords"]


def is_visible(package, profile, level):
    return is_accepted(package, profile, level) and not any(matches(atom, package) for _, atom in listed(profile, "masks", name_of).get(package["name"], []))


def name_of(atom):
    return atom["name"] if atom else ""


def named_flag(rule):
    return rule["flag"], name_of(rule["atom"])


def listed(profile, what, key):
    """What a profile has of this kind by a key, each with its place; made once."""
    if (what, key) not in profile:
        found = profile[what, key] = {}
        for at, one in enumerate(profile[what]):
            found.setdefault(key(one), []).append((at, one))
    return profile[what, key]


def rules_on(profile, flag, name):
    """The rules on a flag for every package, and for some of this name, each with its place, in order."""
    rules = listed(profile, "rules", named_flag)
    return sorted(rules.get((flag, ""), []) + rules.get((flag, name), []), key=lambda pair: pair[0])


def level_of(package, profile):
    for level in ("testing",) if profile["testing"] else ("stable", "testing"):
        if is_accepted(package, profile, level):
            return level if is_visible(package, profile, level) else None
    return None


def state(package, profile, level, flag):
    if flag not in package["iuse"] | profile["implicit"]:
        return "absent"
    last = {}
    restricted = level == "stable" and profile["arch"] in package["keywords"]
    for _, rule in rules_on(profile, flag, package["name"]):
        if (restricted or not rule["stable"]) and (not rule["atom"] or matches(rule["atom"], package)):
            last[rule["effect"]] = rule["on"]
    return "off" if last.get("mask") else "on" if last.get("force") else "free"


def items_met(atom, package, profile, level, on):
    """Whether one setting of the package's flags gives each item what it asks."""
    wants = {}
    for flag, ask, missing in atom["items"]:
        want, kept = asked(ask, on(flag)), state(package, profile, level, flag)
        if want is None:
            continue
        bits = {"on": [True], "off": [False], "free": [True, False], "absent": [] if missing is None else [missing]}[kept]
        if want not in bits or wants.setdefault((flag, kept), want) != want and kept == "free":
            return False
    return True


def shown(packages, profile, level):
    """The packages of each name that a profile shows at a level."""
    found = {}
    for package in packages:
        if is_visible(package, profile, level):
            found.setdefault(package["name"], []).append(package)
    return found


def flags_of(package, profile, level, key):
    """The flags of a query, in byte order."""
    mentioned = mentions(package["REQUIRED_USE"]) | mentions(package[key])
    return sorted(flag for flag in mentioned if state(package, profile, level, flag) == "free")


def holding(package, profile, level, visible, assignment):
    """Whether a tree holds where the flags of a query are so."""
    def on(flag):
        return assignment[flag] if flag in assignment else state(package, profile, level, flag) == "on"

    known = {}

    def met(atom):
        if atom["text"] not in known:
            known[atom["text"]] = atom["block"] != "" or any(
                matches(atom, other) and items_met(atom, other, profile, level, on) for other in visible.get(atom["name"], []))
        return known[atom["text"]]

    return lambda tree: holds(tree, on, met, package["eapi"] < 7)


def least_of(package, profile, level, key, visible):
    """The first assignment of a query's flags that is asked for, with the first tree that fails: the value that IUSE prefers comes
    before the other, flag by flag."""
    flags = flags_of(package, profile, level, key)
    for bits in itertools.product(*([flag in package["plus"], flag not in package["plus"]] for flag in flags)):
        is_true = holding(package, profile, level, visible, dict(zip(flags, bits)))
        if all(is_true(tree) for tree in package["REQUIRED_USE"]):
            use = " ".join(("" if bit else "-") + flag for flag, bit in zip(flags, bits))
            if key == "REQUIRED_USE":
                return use, None
            for tree in package[key]:
                if not is_true(tree):
                    return use, tree
    return None


def case_reports(package, profile, level, visible):
    base = {"subject": package, "profile": profile, "level": level}
    keys = [key for key in ["REQUIRED_USE"] + CLASSES if not lacks(package["eapi"], key) and package[key] is not None]
    for key in keys:
        for flag in mentions(package[key]):
            if state(package, profile, level, flag) == "absent":
                yield dict(base, keyword="UnstatedIuse", detail=flag, **{"class": key})
    if package["live"]:
        yield dict(base, keyword="VisibleVcsPkg")
    for key in keys if package["REQUIRED_USE"] is not None else []:
        least = least_of(package, profile, level, key, visible)
        if key == "REQUIRED_USE" and not least:
            yield dict(base, keyword="UnsatisfiableRequiredUse", detail=" ".join(print_tree(tree) for tree in package[key]))
        if key != "REQUIRED_USE" and least:
            yield dict(base, keyword=STATUSES[profile["status"]], use=least[0], detail=print_tree(least[1]), **{"class": key})


def package_reports(package, contexts, names, cases):
    """The reports of a package; `contexts` has of each profile and level what it shows, `names` the packages of each name, and `cases`
    answers as case_reports does."""
    for key in CLASSES:
        if not lacks(package["eapi"], key) and package[key] is not None:
            for atom in wanted_atoms(package[key]):
                if not any(matches(atom, other) for other in names.get(atom["name"], [])):
                    yield {"subject": package, "keyword": "NonexistentDeps", "class": key, "detail": atom["text"]}
    for profile, visible in contexts:
        level = level_of(package, profile)
        if level:
            yield from cases(package, profile, level, visible[level])


# Texts

def order_of(report):
    keyword = (KEYWORDS + LINT_KEYWORDS).index(report["keyword"])
    detail = report.get("detail") or ""
    if "path" in report:
        return 0, report["path"], report["line"], keyword, detail
    key = (["REQUIRED_USE"] + CLASSES).index(report["class"]) if report.get("class") else -1
    line = report["profile"]["number"] if report.get("profile") else 0
    return (1,) + place_of(report["subject"]) + (keyword, key, line, detail)


def line_of(report):
    profile, words = report.get("profile"), []
    words.append("%s:%d" % (report["path"], report["line"]) if "path" in report else report["subject"]["pf"])
    words.append(report["keyword"])
    words += [report["class"]] if report.get("class") else []
    words += ["%s %s %s" % (profile["arch"], profile["path"], report["level"])] if profile else []
    words += ['USE="%s"' % report["use"]] if "use" in report else []
    words += [report["detail"]] if report.get("detail") is not None else []
    return ": ".join(words) + "\n"


def in_object(value):
    """A value as it stands in JSON, where any byte of a text that isn't printable is a `?`."""
    return "".join(letter if " " <= letter <= "~" else "?" for letter in value) if isinstance(value, str) else value


def object_of(report):
    value = {key: report[key] for key in ("keyword", "path", "line", "class", "level", "use", "detail") if report.get(key) is not None}
    if "subject" in report:
        value["package"] = report["subject"]["pf"]
    if report.get("profile"):
        value["arch"], value["profile"] = report["profile"]["arch"], report["profile"]["path"]
    return json.dumps({key: in_object(part) for key, part in value.items()}, sort_keys=True, separators=(",", ":")) + "\n"


def profiles_of(files):
    """The profiles, and what is told of their files."""
    profiles, faults = read_profiles(files)
    told = [{"path": path, "line": line, "keyword": "ProfileError", "detail": detail} for path, line, detail in faults]
    return profiles, told + [{"path": path, "line": line, "keyword": "ProfileNote", "detail": detail} for path, line, detail in bad_lines(files)]


def repository_of(files, reports=None):
    """The packages and the profiles, and what is told of them besides."""
    reports = [] if reports is None else reports
    profiles, told = profiles_of(files)
    reports += told
    return read_packages(files, reports), profiles


def judging(packages, known, cases=case_reports, judged=None):
    """The reports of all packages in all profiles, or of those that are judged among them."""
    contexts = [(profile, {level: shown(packages, profile, level) for level in ("stable", "testing")}) for profile in known]
    names = {}
    for package in packages:
        names.setdefault(package["name"], []).append(package)
    return [report for package in (packages if judged is None else judged) for report in package_reports(package, contexts, names, cases)]


def text_of(files, keywords=None, profiles=None, as_json=False):
    """The text of a scan of these files, which are a repository."""
    reports = []
    reports += judging(*repository_of(files, reports))
    return text_of_reports(reports, keywords, profiles, as_json)


def text_of_reports(reports, keywords=None, profiles=None, as_json=False):
    taken = [report for report in sorted(reports, key=order_of)
             if (keywords is None or report["keyword"] in keywords)
             and (profiles is None or not report.get("profile") or report["profile"]["path"] in profiles)]
    texts = [object_of(report) if as_json else line_of(report) for report in taken]
    return "".join(text for text, _ in itertools.groupby(texts))


def refused(files):
    """How a run over files ends that are no repository."""
    for path in ("profiles/profiles.desc", "profiles/categories"):
        if path not in files.texts:
            return 6, "", "gvis: not a repository: %s\n" % path
    return None


def scan(content, keywords=None, profiles=None, as_json=False):
    files = Files(content)
    if refused(files):
        return refused(files)
    out = text_of(files, keywords, profiles, as_json)
    return (1 if out else 0), out, ""
