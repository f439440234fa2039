"""Reads back what the built program writes of each keyword in JSON, and compares it with the text.

One repository has reports of all keywords, some with `"` and `\\` in a path, a profile or a detail. Its reports stand below as
Python's own values. Each line of `--json` must be read by Python's json as the value at its place, and be what Python's json
writes of it; the text must have the same reports; and each keyword alone must give its own.
"""
import json
import os

import plain
from common import EMPTY, entry, named, put_files, run

ODD = 'de"v\\'


def repository():
    files = {
        "profiles/profiles.desc": f"amd64 base stable\namd64 {ODD} dev\namd64 exp exp\namd64 gone dev\n",
        "profiles/categories": "app\n",
        "profiles/base/eapi": "8\n",
        f"profiles/{ODD}/parent": "../base\n",
        "profiles/exp/parent": "../base\n",
        'profiles/package.mask/m"\\': "*\nx/gone\n",
        "app/t/t-1.ebuild": "",
    }
    entries = {
        "p-1": entry(IUSE="a", RDEPEND="a? ( x/none )"),
        "p-2": entry(),
        "q-1": entry(EAPI="4"),
        "r-1": entry(_eclasses_=f'e"\\x\t{EMPTY}'),
        "s-1": entry(),
        "u-1": entry(IUSE="a", REQUIRED_USE="a !a"),
        "v-9999": entry(KEYWORDS="~amd64", DEPEND="q? ( app/p )", PROPERTIES="live"),
    }
    for pf, content in entries.items():
        files["metadata/md5-cache/app/" + pf] = content
        if pf != "s-1":
            files[f"app/{pf[0]}/{pf}.ebuild"] = ""
    return files


def place(keyword, path, line, detail):
    return {"keyword": keyword, "path": path, "line": line, "detail": detail}


def package(keyword, pf, **more):
    return {"keyword": keyword, "package": "app/" + pf, **more}


CONTEXTS = [{"arch": "amd64", "profile": path} for path in ("base", ODD, "exp")]


def reports():
    unmet = {"class": "RDEPEND", "level": "stable", "use": "a", "detail": "a? ( x/none )"}
    kinds = ("NonsolvableDepsInStable", "NonsolvableDepsInDev", "NonsolvableDepsInExp")
    return [
        place("ProfileNote", 'profiles/package.mask/m"\\', 1, "bad atom"),
        place("ProfileError", "profiles/profiles.desc", 4, "missing profile"),
        package("NonexistentDeps", "p-1", **{"class": "RDEPEND", "detail": "x/none"}),
        *(package(kind, "p-1", **context, **unmet) for kind, context in zip(kinds, CONTEXTS)),
        package("MetadataError", "q-1", detail="EAPI: unsupported"),
        package("StaleCache", "r-1", detail='eclass e"\\x'),
        package("OrphanCache", "s-1"),
        package("MissingCache", "t-1"),
        *(package("UnsatisfiableRequiredUse", "u-1", level="stable", detail="a !a", **context) for context in CONTEXTS),
        *(package("UnstatedIuse", "v-9999", **{"class": "DEPEND", "level": "testing", "detail": "q"}, **context) for context in CONTEXTS),
        *(package("VisibleVcsPkg", "v-9999", level="testing", **context) for context in CONTEXTS),
    ]


def lint_reports():
    return [
        place("UnknownProfilePackage", 'profiles/package.mask/m"\\', 2, "x/gone"),
        package("RedundantVersion", "p-1", detail="p-2"),
        *(package("RequiredUseDefaults", "u-1", level="stable", use="-a", detail="a !a", **context) for context in CONTEXTS),
    ]


def as_text(report):
    subject = report.get("package") or "%s:%d" % (report["path"], report["line"])
    parts = [subject, report["keyword"], report.get("class")]
    if "arch" in report:
        parts.append("%s %s %s" % (report["arch"], report["profile"], report["level"]))
    if "use" in report:
        parts.append('USE="%s"' % report["use"])
    return ": ".join(part for part in parts + [report.get("detail")] if part is not None) + "\n"


def as_json(report):
    return json.dumps(report, sort_keys=True, separators=(",", ":")) + "\n"


def scan(binary, folder, *more):
    put_files(os.path.join(folder, "R"), repository())
    return run([binary, "scan", "R", "--certs", "C", *more], cwd=folder)


def lint(binary, folder, *more):
    put_files(os.path.join(folder, "R"), repository())
    return run([binary, "lint", "R", *more], cwd=folder)


def read_back(out):
    """The values of the lines; a line that can't be read is itself."""
    values = []
    for line in out.splitlines(True):
        try:
            values.append(json.loads(line))
        except ValueError:
            values.append(line)
    return values


def all_keywords_stand_here(*_):
    return [sorted({r["keyword"] for r in told}) for told in (reports(), lint_reports())], [sorted(plain.KEYWORDS), sorted(plain.LINT_KEYWORDS)]


def text(binary, folder):
    return scan(binary, folder), (1, "".join(map(as_text, reports())), "")


def json_is_read_back(binary, folder):
    status, out, err = scan(binary, folder, "--json")
    return (status, read_back(out), err), (1, reports(), "")


def json_is_as_python_writes_it(binary, folder):
    return scan(binary, folder, "--json")[1], "".join(map(as_json, reports()))


def lint_is_read_back(binary, folder):
    """Its text, its JSON and what Python writes of that; no file is made."""
    told, (status, out, err) = lint(binary, folder), lint(binary, folder, "--json")
    return (told, status, read_back(out), out, err, os.listdir(folder)), (
        (1, "".join(map(as_text, lint_reports())), ""), 1, lint_reports(), "".join(map(as_json, lint_reports())), "", ["R"])


def alone_of_a_lint(keyword, binary, folder):
    status, out, err = lint(binary, folder, "--json", "--keywords", keyword)
    return (status, read_back(out), err, scan(binary, folder, "--keywords", keyword)), (
        1, [r for r in lint_reports() if r["keyword"] == keyword], "", (2, "", "gvis: bad command line\n"))


def alone(keyword, binary, folder):
    status, out, err = scan(binary, folder, "--json", "--keywords", keyword)
    return (status, read_back(out), err), (1, [r for r in reports() if r["keyword"] == keyword], "")


CASES = [all_keywords_stand_here, text, json_is_read_back, json_is_as_python_writes_it, lint_is_read_back,
         *(named(keyword, alone, keyword) for keyword in plain.KEYWORDS), *(named(keyword, alone_of_a_lint, keyword) for keyword in plain.LINT_KEYWORDS)]
