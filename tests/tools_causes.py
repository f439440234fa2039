"""`gvis-causes`: what it takes for the cause of reports, and what it writes."""
import html.parser
import json
import os
import re

import json_reports
import plain
from common import TOP, content, needs, put, run

TOOL = os.path.join(TOP, "share/gvis-causes")


def unmet(package, item, profile="amd64 base", use="", level="stable", kind="NonsolvableDepsInStable", group="RDEPEND"):
    arch, path = profile.split()
    return {"arch": arch, "class": group, "detail": item, "keyword": kind, "level": level, "package": package, "profile": path, "use": use}


def gone(package, atom):
    return {"class": "RDEPEND", "detail": atom, "keyword": "NonexistentDeps", "package": package}


def causes(folder, reports, *more):
    path = put(folder, "reports", "".join(json.dumps(r, separators=(",", ":"), sort_keys=True) + "\n" for r in reports))
    status, out, err = run([TOOL, path, *more])
    if status or err:
        raise AssertionError(f"{status}: {err}")
    return out


def titles(folder, reports):
    """Of each cause its title and how many packages it has."""
    return [(title, int(count)) for count, title in re.findall(r"^(\d+) (?:package|line)s?, \d+ reports: (.*)$", causes(folder, reports, "--top", "99"), re.M)]


# An item, the flags of the query, and the atoms that are the cause.
ITEMS = [
    ("x/y", "", "x/y"), (">=x/y-1.2:0=", "", ">=x/y-1.2:0"), ("x/y:=", "", "x/y"), ("x/y:*", "", "x/y"), ("x/y:=[a]", "", "x/y[a]"), ("x/y[a=]", "a", "x/y[a=]"),
    ("f? ( x/y )", "f", "x/y"), ("!f? ( x/y )", "-f", "x/y"), ("f? ( g? ( x/z ) !g? ( x/y ) )", "f -g", "x/y"),
    ("|| ( x/y x/z )", "", "none of x/y, x/z"), ("|| ( x/z x/y )", "", "none of x/y, x/z"), ("|| ( f? ( x/w ) x/y )", "-f", "x/y"),
    ("|| ( ( x/y !x/z ) x/w )", "", "none of x/w, x/y"), ("( !x/z x/y )", "", "x/y"), ("( !!<x/z-3 x/y )", "", "x/y"), ("|| ( )", "", "groups || ( ) without a member"),
]


def the_cause_of_an_item(_, folder):
    return {item: titles(folder, [unmet("a/b-1", item, use=use)]) for item, use, _ in ITEMS}, {item: [(title, 1)] for item, _, title in ITEMS}


def most_packages_first(_, folder):
    reports = [unmet("a/a-1", "x/one"), unmet("a/b-1", "x/two"), unmet("a/c-1", "x/two")] + [unmet("a/a-1", "x/one", "arm base"), unmet("a/a-1", "x/one", "x86 base")]
    return titles(folder, reports + reports), [("x/two", 2), ("x/one", 1)]


def of_several_the_one_that_other_lines_show(_, folder):
    """What can't be met there by other lines, then what is behind most packages; and then it is said that it isn't sure."""
    both = unmet("a/a-1", "f? ( x/one x/two )", use="f")
    sure = causes(folder, [both, unmet("a/b-1", "x/two")])
    elsewhere = causes(folder, [both, unmet("a/b-1", "x/two", "arm base"), unmet("a/c-1", "x/two", "arm base"), unmet("a/b-1", "x/one", "x86 base")])
    nothing = causes(folder, [both])
    unsure = "another atom of the same item may be at fault"
    got = {name: (titles_of(text), unsure in text) for name, text in {"sure": sure, "elsewhere": elsewhere, "nothing": nothing}.items()}
    return got, {"sure": ([("x/two", 2)], False), "elsewhere": ([("x/two", 3), ("x/one", 1)], True), "nothing": ([("x/one", 1)], True)}


def titles_of(text):
    return [(title, int(count)) for count, title in re.findall(r"^(\d+) (?:package|line)s?, \d+ reports: (.*)$", text, re.M)]


def what_asks_for_more_goes_with_what_asks_for_less(_, folder):
    """Only where the lesser one can't be met: at the same level, or the testing one."""
    same = titles(folder, [unmet("a/a-1", "x/y"), unmet("a/b-1", ">=x/y-2:0[f]"), unmet("a/c-1", "x/y[g?]", use="g")])
    flags = titles(folder, [unmet("a/a-1", ">=x/y-2"), unmet("a/b-1", ">=x/y-2[f]"), unmet("a/c-1", ">=x/y-3"), unmet("a/d-1", ">=x/y-2:0/1")])
    other = titles(folder, [unmet("a/a-1", "x/y", "arm base"), unmet("a/b-1", "x/y[f]")])
    levels = titles(folder, [unmet("a/a-1", "x/y", level="testing"), unmet("a/b-1", "x/y[f]")]), titles(folder, [unmet("a/a-1", "x/y"), unmet("a/b-1", "x/y[f]", level="testing")])
    return (same, flags, other, levels), ([("x/y", 3)], [(">=x/y-2", 3), (">=x/y-3", 1)], [("x/y", 1), ("x/y[f]", 1)], ([("x/y", 2)], [("x/y", 1), ("x/y[f]", 1)]))


def what_no_package_matches(_, folder):
    """It is its own cause, and among alternatives the others are."""
    text = causes(folder, [gone("a/a-1", "x/gone:="), unmet("a/a-1", "|| ( x/y x/gone )"), unmet("a/b-1", "x/gone"), unmet("a/c-1", "|| ( x/gone x/gone[f] )")])
    return (titles_of(text), text.count("no package of the repository matches it")), ([("x/gone", 3), ("x/y", 1)], 1)


def what_is_behind_it(_, folder):
    """A keyword or a mask, by profiles and levels."""
    others = [unmet("a/z-1", "x/z", f"{arch} {path}") for arch in ("amd64", "arm") for path in ("one", "two", "three")] + [unmet("a/z-1", "x/z", "mips one")]
    mask = causes(folder, [unmet("a/a-1", "x/y", "amd64 one"), *others])
    stable = causes(folder, [unmet("a/a-1", "x/y", f"arm {path}") for path in ("one", "two", "three")] + others)
    testing = causes(folder, [unmet("a/a-1", "x/y", f"arm {path}", level="testing") for path in ("one", "two", "three")] + others)
    alone = causes(folder, [unmet("a/a-1", "x/y[f,-g(+)]", "mips one", level="testing"), *others])

    def said(text):
        return re.findall(r"^  (\w+:.*|it .*)$", text.split("reports: x/y")[1].split("\n\n")[0], re.M)
    return [said(text) for text in (mask, stable, testing, alone)], [
        ["amd64: in 1 of 3 profiles (one) and not in the others, so a mask or flags of these rather than a keyword"],
        ["arm: in all 3 profiles, at level stable: the stable keyword arm may be missing, or a mask that all of them share"],
        ["arm: in all 3 profiles, at level testing: the keywords arm and ~arm may be missing, or a mask that all of them share"],
        ["mips: in the only profile of this arch that is told of, at level testing: the keywords mips and ~mips may be missing, or a mask; the lines can't tell which",
         "it asks for flags (f, g): a package may be there on which one is masked, forced or missing"]]


def counts_of_profiles(_, folder):
    text = causes(folder, [unmet("a/a-1", "x/y"), unmet("a/a-1", "x/y", level="testing", group="DEPEND"), unmet("a/b-1", "x/y"), unmet("a/b-1", "x/y", "arm base")])
    return re.findall(r"^ +(\d+) in (.*)$", text, re.M) + re.findall(r"^ +(a/.*)$", text, re.M), [("2", "amd64 base (stable, testing)"), ("1", "arm base (stable)"), "a/a-1 (DEPEND, RDEPEND)", "a/b-1 (RDEPEND)"]


def other_reports(_, folder):
    """By kind and detail."""
    context = {"arch": "amd64", "profile": "base", "level": "stable"}
    reports = [
        {"keyword": "ProfileError", "path": "profiles/a/parent", "line": 2, "detail": "cycle"}, {"keyword": "ProfileNote", "path": "profiles/package.mask", "line": 4, "detail": "bad atom"},
        {"keyword": "ProfileNote", "path": "profiles/package.mask", "line": 9, "detail": "bad atom"},
        {"keyword": "MetadataError", "package": "a/a-1", "detail": "RDEPEND: token 4: bad atom"}, {"keyword": "MetadataError", "package": "a/b-1", "detail": "RDEPEND: token 19: bad atom"},
        {"keyword": "MetadataError", "package": "a/a-1", "detail": "IUSE: word 2"}, {"keyword": "MetadataError", "package": "a/c-1", "detail": "EAPI: unsupported"},
        {"keyword": "StaleCache", "package": "a/a-1", "detail": "eclass one"}, {"keyword": "StaleCache", "package": "a/b-1", "detail": "eclass one"},
        {"keyword": "StaleCache", "package": "a/c-1", "detail": "eclass one"}, {"keyword": "StaleCache", "package": "a/a-2", "detail": "ebuild"}, {"keyword": "StaleCache", "package": "a/a-3", "detail": "eclasses"},
        {"keyword": "OrphanCache", "package": "a/a-4"}, {"keyword": "MissingCache", "package": "a/a-5"}, {"keyword": "VisibleVcsPkg", "package": "a/a-9999", **context},
        {"keyword": "UnsatisfiableRequiredUse", "package": "a/a-1", "detail": "^^ ( b c )", **context}, {"keyword": "UnstatedIuse", "package": "a/a-1", "detail": "flag", "class": "DEPEND", **context},
        {"keyword": "UnstatedIuse", "package": "a/a-1", "detail": "flag", "class": "RDEPEND", **context},
        {"keyword": "RequiredUseDefaults", "package": "a/a-1", "detail": "^^ ( b c )", "use": "-b -c", **context}, {"keyword": "RedundantVersion", "package": "a/a-1", "detail": "a-2"},
        {"keyword": "RedundantVersion", "package": "a/b-1", "detail": "b-9"}, {"keyword": "UnknownProfilePackage", "path": "profiles/package.mask", "line": 4, "detail": "x/gone"},
        {"keyword": "UnknownProfilePackage", "path": "profiles/package.mask", "line": 7, "detail": "=x/y-9"}]
    return sorted(titles(folder, reports)), sorted([
        ("cache entries made before eclass one changed", 3), ("bad value in cache entries: RDEPEND: bad atom", 2), ("cache entries that aren't those of their ebuild", 1),
        ("bad value in cache entries: EAPI: unsupported", 1), ("bad value in cache entries: IUSE", 1), ("cache entries whose list of eclasses can't be read", 1),
        ("cache entries without an ebuild", 1), ("ebuilds without a cache entry", 1), ("live packages that are visible", 1), ("REQUIRED_USE that can't be met: ^^ ( b c )", 1),
        ("flag that isn't in IUSE: flag", 1), ("profiles/package.mask: bad atom", 2), ("profiles/a/parent: cycle", 1),
        ("REQUIRED_USE that defaults don't meet: ^^ ( b c )", 1), ("versions that a later one makes needless", 2), ("profiles/package.mask: names of no package", 2)])


def names_of_no_package(_, folder):
    """By file, each with its line and its name: in text, on the page, and where a line is a result of its own."""
    reports = [{"keyword": "UnknownProfilePackage", "path": f"profiles/{path}", "line": line, "detail": name}
               for path, line, name in (("package.mask", 4, "x/gone"), ("package.mask", 12, "=x/y-9"), ("base/package.use/a", 1, "x/<b>"))]
    text = causes(folder, reports)
    causes(folder, reports, "--html", os.path.join(folder, "page"))
    data = json.loads(re.search(r'<script type="application/json" id="data">(.*)</script>', content(folder, "page"))[1])
    items = [re.findall(r"<li><code>(line .*?)</code> <span class=\"dim\">(.*?)</span>", inside) for _, _, inside in data]
    issues = sorted((issue["location"]["lines"]["begin"], issue["description"], issue["severity"]) for issue in json.loads(causes(folder, reports, "--gitlab")))
    return (titles_of(text), re.findall(r"^ {10}(line.*)$", text, re.M), items, issues), (
        [("profiles/package.mask: names of no package", 2), ("profiles/base/package.use/a: names of no package", 1)],
        ["line 4: x/gone", "line 12: =x/y-9", "line 1: x/<b>"], [[("line 4", "x/gone"), ("line 12", "=x/y-9")], [("line 1", "x/&lt;b&gt;")]],
        [(1, "profiles/base/package.use/a: names of no package; x/<b>", "minor"), (4, "profiles/package.mask: names of no package; x/gone", "minor"),
         (12, "profiles/package.mask: names of no package; =x/y-9", "minor")])


def every_line_is_counted_once(binary, folder):
    """Of what the program prints of the small repository, and of lists of many reports."""
    out = run([binary, "scan", os.path.join(TOP, "examples/repo"), "--certs", os.path.join(folder, "C"), "--json"])[1]
    path = put(folder, "lines", out)
    text, piped = run([TOOL, path, "--all"])[1], run(["sh", "-c", f"'{TOOL}' --all <'{path}'"])[1]
    counts = [int(n) for n in re.findall(r", (\d+) reports: ", text)]
    return (titles_of(text), sum(counts), text == piped, text.splitlines()[0]), (
        [("sys-libs/libutempter", 1), (">=sys-apps/file-5.45", 1), ("sys-libs/utempter", 1)], 4, True, "3 causes, 4 reports, 2 packages, 2 profiles")


class Page(html.parser.HTMLParser):
    """Whether tags are closed in their order, what is referred to, and the rows of the tables."""

    def __init__(self, text):
        super().__init__()
        self.open, self.links, self.tables, self.good = [], [], [], True
        self.feed(text)

    def handle_starttag(self, tag, attrs):
        attrs = dict(attrs)
        self.links += [attrs[name] for name in ("href", "src") if name in attrs]
        if tag == "table":
            self.tables.append([])
        elif tag == "tr":
            self.tables[-1].append([])
        elif tag in ("td", "th"):
            self.tables[-1][-1].append("")
        if tag not in ("meta", "input"):
            self.open.append(tag)

    def handle_endtag(self, tag):
        self.good &= bool(self.open) and self.open.pop() == tag

    def handle_data(self, data):
        if "td" in self.open or "th" in self.open:
            self.tables[-1][-1][-1] += data


def page_of_causes(_, folder):
    """Whole, without anything from a network; what a line holds only as text; of each cause its numbers, and inside a table of its profiles, those alike in one row."""
    reports = [unmet("a/a-1", "x/y"), unmet("a/b-1", "x/y"), unmet("a/a-1", "x/y", "amd64 other"), unmet("a/b-1", "x/y", "amd64 other"), unmet("a/b-1", "x/y", "arm two", level="testing"),
               unmet("a/c-1", "x/</script><b>&\"", kind="NonsolvableDepsInExp"), unmet("a/c-1", "x/y:2", "mips base")]
    causes(folder, reports, "--html", os.path.join(folder, "page"))
    text = content(folder, "page")
    page = Page(text)
    data = json.loads(re.search(r'<script type="application/json" id="data">(.*)</script>', text)[1])
    parts = [(Page(head), Page(inside)) for _, head, inside in data]
    inside, names = [page for _, page in parts], {name for name, _, _ in data}
    links = [link for page in inside for link in page.links]
    return (page.good, page.open, page.links, all(head.good and page.good and not head.open + page.open for head, page in parts), [link[1:] in names for link in links], "://" in text,
            "<b>&" in text, [re.sub("<[^>]*>", "", head) for _, head, _ in data], [page.tables for page in inside]), (
        True, [], [], True, [True, True], False, False,
        ["x/y 2 packages, 5 reports, 3 profiles keyword or common mask keyword or mask", "x/&lt;/script&gt;&lt;b&gt;&amp;&quot; 1 package, 1 report, 1 profile mask or flags",
         "x/y:2 1 package, 1 report, 1 profile keyword or mask"],
        [[[["Arch", "Profiles", "Status", "Level", "Packages in each"], ["amd64", "base, other", "stable", "stable", "2"], ["arm", "two", "stable", "testing", "1"]]],
         [[["Arch", "Profiles", "Status", "Level", "Packages in each"], ["amd64", "base", "exp", "stable", "1"]]], [[["Arch", "Profiles", "Status", "Level", "Packages in each"], ["mips", "base", "stable", "stable", "1"]]]])


def a_page_without_its_file(_, folder):
    """Where the tool was copied alone it says what it lacks; other forms need nothing."""
    tool = put(folder, "bin/gvis-causes", content(TOOL), 0o755)
    lines = put(folder, "lines", "")
    status, out, err = run([tool, lines, "--html", "-"])
    put(folder, "share/gvis/causes.html", "a <!--numbers--> b <!--causes--> c")
    return (status, out, err, run([tool, lines])[0], run([tool, lines, "--html", "-"])[1].endswith(" b [] c")), (
        1, "", f"gvis-causes: the page causes.html is neither in {folder}/bin nor in ../share/gvis beside it\n", 0, True)


def annotations(_, folder):
    """Percent, commas and colons are written as such commands want them; the place is the ebuild, or the line."""
    reports = [unmet("a/b-c-1.2_rc3-r1", ">=x/y-1:0"), unmet("a/d-1", "x/z", kind="NonsolvableDepsInDev"), {"keyword": "ProfileNote", "path": "profiles/use.mask", "line": 7, "detail": "bad flag"}]
    lines = causes(folder, reports, "--github").splitlines()
    return [re.match(r"(.*?)::(.*?%0A|[^%]*$)", line[2:]).groups() for line in lines], [
        ("error file=a/b-c/b-c-1.2_rc3-r1.ebuild,line=1,title=>=x/y-1%3A0", "1 package: a/b-c-1.2_rc3-r1%0A"), ("warning file=a/d/d-1.ebuild,line=1,title=x/z", "1 package: a/d-1%0A"),
        ("warning file=profiles/use.mask,line=7,title=profiles/use.mask%3A bad flag", "1 line: profiles/use.mask: bad flag")]


PLACES = [
    unmet("a/b-c-1.2_rc3-r1", ">=x/y-1:0"), unmet("a/b-c-1.2_rc3-r1", ">=x/y-1:0", kind="NonsolvableDepsInExp", profile="arm base"), gone("a/d-1", "x/gone"), unmet("a/e-1", "x/gone"),
    unmet("a/f++-1", "x/z", kind="NonsolvableDepsInDev"), {"keyword": "OrphanCache", "package": "a/g-2"},
    {"keyword": "ProfileNote", "path": "profiles/o dd", "line": 7, "detail": "bad flag"}, {"keyword": "ProfileNote", "path": "profiles/o dd", "line": 9, "detail": "bad flag"}]


def sarif(folder, reports):
    return json.loads(causes(folder, reports, "--sarif"))


def sarif_results(_, folder):
    """One for each cause and place, of the gravest kind there; the rules are the kinds that are named, each with its level."""
    run_, = sarif(folder, PLACES)["runs"]
    rules = run_["tool"]["driver"]["rules"]
    got = []
    for result in run_["results"]:
        location = result["locations"][0]["physicalLocation"]
        got.append((result["ruleId"], result["level"], location["artifactLocation"]["uri"], location["region"]["startLine"], result["message"]["text"].split(";")[0]))
    agree = [rules[result["ruleIndex"]]["id"] == result["ruleId"] and rules[result["ruleIndex"]]["defaultConfiguration"]["level"] == result["level"] for result in run_["results"]]
    prints = {result["partialFingerprints"]["causeAndFile/v1"] for result in run_["results"]}
    return (sorted(got), agree, len(prints), [rule["id"] for rule in rules]), (sorted([
        ("NonexistentDeps", "error", "a/d/d-1.ebuild", 1, "x/gone"), ("NonsolvableDepsInStable", "error", "a/e/e-1.ebuild", 1, "x/gone"),
        ("NonsolvableDepsInStable", "error", "a/b-c/b-c-1.2_rc3-r1.ebuild", 1, ">=x/y-1:0"), ("NonsolvableDepsInDev", "warning", "a/f%2B%2B/f%2B%2B-1.ebuild", 1, "x/z"),
        ("OrphanCache", "error", "metadata/md5-cache/a/g-2", 1, "cache entries without an ebuild"),
        ("ProfileNote", "warning", "profiles/o%20dd", 7, "profiles/o dd: bad flag"), ("ProfileNote", "warning", "profiles/o%20dd", 9, "profiles/o dd: bad flag")]), [True] * 7, 7,
        ["NonexistentDeps", "NonsolvableDepsInStable", "OrphanCache", "NonsolvableDepsInDev", "NonsolvableDepsInExp", "ProfileNote"])


def each_kind_is_described(_, folder):
    """Those of the program, each by a sentence of its own."""
    rules = sarif(folder, json_reports.reports() + json_reports.lint_reports())["runs"][0]["tool"]["driver"]["rules"]
    return (sorted(rule["id"] for rule in rules), len({rule["shortDescription"]["text"] for rule in rules})), (sorted(plain.KEYWORDS + plain.LINT_KEYWORDS), 16)


@needs("jsonschema")
def sarif_is_of_its_schema(_, folder):
    """By a validator: of reports of each kind, of none, and not what has a property or a level that the standard lacks."""
    def valid(log):
        return run(["jsonschema", "-i", put(folder, "log", json.dumps(log)), os.path.join(TOP, "tests/sarif_part.json")])[0] == 0

    good = sarif(folder, PLACES + json_reports.reports())
    turned = [json.loads(json.dumps(good)) for _ in range(3)]
    turned[0]["runs"][0]["results"][0]["level"] = "grave"
    turned[1]["runs"][0]["results"][0]["locations"][0]["physicalLocation"]["line"] = 1
    del turned[2]["runs"][0]["results"][0]["message"]
    return ([valid(log) for log in (good, sarif(folder, []), *turned)], len(good["runs"][0]["results"]) > 13), ([True, True, False, False, False], True)


def lines_for_editors(binary, folder):
    """Each report of the program as FILE:LINE: and the rest of its line; FILE of a package is its ebuild, where it has one."""
    options = ["scan", "R", "--certs", "C"]
    text = json_reports.scan(binary, folder)[1].splitlines()
    lines = run([TOOL, "--lines", put(folder, "json", run([binary, *options, "--json"], cwd=folder)[1])])[1].splitlines()
    parts = [re.match(r"(\S+):(\d+): (.*)", line).groups() for line in lines]
    ebuilds = {path for path, _, _ in parts if path.startswith("app/")}
    there = [os.path.exists(os.path.join(folder, "R", path)) for path, _, _ in parts]
    return ([rest for _, _, rest in parts], all(there), sorted(ebuilds), [":".join(part[:2]) for part in parts[:2]]), (
        [re.sub(r"^\S+: ", "", line, count=1) for line in text], True, [f"app/{n}/{n}-{v}.ebuild" for n, v in (("p", 1), ("q", 1), ("r", 1), ("t", 1), ("u", 1), ("v", 9999))],
        [line.split(": ")[0] for line in text[:2]])


READS_LINES = ["-c", r"set errorformat=%f:%l:\ %m", "-c", "cgetfile lines", "-c", "call writefile(map(getqflist(), 'bufname(v:val.bufnr) .. \"|\" .. v:val.lnum .. \"|\" .. v:val.text'), 'read')"]


@needs("vim")
def an_editor_reads_the_lines(_, folder):
    """By vim's own reader of such lines, as docs/ci.md sets it: the file, the line, and the whole text."""
    reports = json_reports.reports()
    lines = put(folder, "lines", causes(folder, reports, "--lines"))
    run(["vim", "-N", "-u", "NONE", "-i", "NONE", "-es", *READS_LINES, "-c", "qa!"], cwd=folder)
    shown = os.path.join(folder, "read")
    got = content(shown).splitlines() if os.path.exists(shown) else []
    return (got, r"errorformat=%f:%l:\ %m" in content(TOP, "docs/ci.md")), ([re.sub(r":(\d+): ", r"|\1|", line, count=1) for line in content(lines).splitlines()], True)


def fingerprints_of_code_quality(_, folder):
    """Each entry has its own, also two lines of one file, and keeps it where lines move."""
    def prints(*more):
        return [issue["fingerprint"] for issue in json.loads(causes(folder, [*PLACES, *more], "--gitlab"))]

    got = prints()
    moved = [issue["fingerprint"] for issue in json.loads(causes(folder, [dict(report, line=report["line"] + 1) if "line" in report else report for report in PLACES], "--gitlab"))]
    return (len(got), len(set(got)), got == moved), (7, 7, True)


def bad_input(_, folder):
    """What is no report is told by its line; nothing is an empty list of causes."""
    lines = ["{", "[]", "1", "{}", '{"keyword":"NonexistentDeps","package":"a/b-1"}', '{"keyword":"NonsolvableDepsInExp","package":"a/b-1","detail":"x/y"}',
             '{"keyword":"NonsolvableDepsInExp","package":"a/b-1","detail":"( x/y","arch":"a","profile":"b","level":"stable"}', '{"keyword":"NonsolvableDepsInExp","package":"a/b-1","detail":")","arch":"a","profile":"b","level":"stable"}']
    got = {line: run([TOOL, put(folder, "bad", "\n" + line + "\n")]) for line in lines}
    wanted = dict.fromkeys(lines, (2, "", f"gvis-causes: {folder}/bad: line 2 is no report of gvis scan --json\n"))
    files = run([TOOL, put(folder, "none", "")]), run([TOOL, folder + "/gone"])[0], run([TOOL, put(folder, "bytes", b"\xff\n")])[0]
    return (got, files), (wanted, ((0, "0 causes, 0 reports, 0 packages, 0 profiles\n", ""), 1, 1))


def large_input(_, folder):
    """100,000 reports, and an item of many alternatives, in the minutes that a test has."""
    path = os.path.join(folder, "many")
    with open(path, "w", encoding="utf-8") as f:
        for n in range(100_000):
            f.write(json.dumps(unmet(f"a/p{n % 2000}-1", f"x/y{n % 97}", f"amd64 p{n // 2000}")) + "\n")
        f.write(json.dumps(unmet("a/b-1", "|| ( " + " ".join(f"( x/a{n} x/b{n} )" for n in range(40)) + " )")) + "\n")
    status, out, _ = run([TOOL, path, "--top", "1"])
    return (status, out.splitlines()[0]), (0, "98 causes, 100001 reports, 2001 packages, 51 profiles")


CASES = [
    the_cause_of_an_item, most_packages_first, of_several_the_one_that_other_lines_show, what_asks_for_more_goes_with_what_asks_for_less,
    what_no_package_matches, what_is_behind_it, counts_of_profiles, other_reports, names_of_no_package, every_line_is_counted_once, page_of_causes, a_page_without_its_file, annotations,
    sarif_results, each_kind_is_described, sarif_is_of_its_schema, lines_for_editors, an_editor_reads_the_lines, fingerprints_of_code_quality,
    bad_input, large_input,
]
