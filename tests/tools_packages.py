"""The packages that `make tar` and `make deb` make of a commit, the ebuild, and the numbers of versions, in a copy of the repository."""
import hashlib
import os
import re
import shutil

import tools_install
from common import TOP, bytes_of, checkout, content, needs, put, run

ENV = {"PATH": os.environ["PATH"], "HOME": "/nonexistent", "GIT_CONFIG_NOSYSTEM": "1", "GIT_AUTHOR_NAME": "a", "GIT_AUTHOR_EMAIL": "a@b", "GIT_COMMITTER_NAME": "a",
       "GIT_COMMITTER_EMAIL": "a@b", "GIT_AUTHOR_DATE": "2026-01-02T03:04:05Z", "GIT_COMMITTER_DATE": "2026-01-02T03:04:05Z"}
VERSION = re.search(r"^version=(.*)$", content(TOP, "gvis"), re.M)[1]
EBUILD = f"share/packaging/app-portage/gvis/gvis-{VERSION}.ebuild"
# What a package has besides what `make install` gives.
PAGES = {"share/doc/gvis/NEWS.md": 0o644, "share/doc/gvis/copyright": 0o644}


def good(words, **more):
    status, out, err = run(words, env=ENV, **more)
    if status:
        raise AssertionError(f"{words}: {status}: {err}")
    return out


def commit(binary, folder, tag=None):
    """A repository of one commit whose program is built; with this tag, if any."""
    top = checkout(os.path.join(folder, "copy"), binary)
    put(top, ".gitignore", "out/\n")
    shutil.copy2(os.path.join(TOP, "CHANGELOG.md"), top)
    for words in (["init", "-q"], ["add", "-A"], ["commit", "-q", "-m", "one"], *([["tag", "-a", "-m", "release", tag]] if tag else [])):
        good(["git", *words], cwd=top)
    return top


def package(top, kind):
    """The path of the package that is made there."""
    return os.path.join(top, good(["make", "-s", kind], cwd=top).strip())


def abbreviated(top):
    return good(["git", "rev-parse", "--short", "HEAD"], cwd=top).strip()


def readme_lines(program, folder):
    """What the program says of the example, and whether README shows that."""
    status, out, err = run([program, "scan", os.path.join(TOP, "examples/repo"), "--certs", os.path.join(folder, "C")], env=ENV)
    return status, err, ["    " + line in content(TOP, "README.md") for line in out.splitlines()]


def versions(binary, folder):
    """At the tag of its version a package has that, and else the commit's date and name; a change that isn't committed shows."""
    top = commit(binary, folder, "v" + VERSION)
    names = [os.path.basename(package(top, "tar"))]
    put(top, "docs/more", "")
    good(["git", "add", "-A"], cwd=top)
    good(["git", "commit", "-q", "-m", "two"], cwd=top)
    name = abbreviated(top)
    said = run([os.path.join(top, "gvis"), "--version"], env=ENV)[1].splitlines()[0]
    names.append(os.path.basename(package(top, "tar")))
    put(top, "gvis", content(top, "gvis") + "\n", 0o755)
    names.append(os.path.basename(package(top, "tar")))
    later = f"{VERSION}+20260102.v{VERSION}.1.g{name}"
    return (names, said), ([f"gvis-{v}-amd64.tar.gz" for v in (VERSION, later, later + ".dirty")], f"gvis {VERSION} (v{VERSION}-1-g{name})")


def archive(binary, folder):
    """All that is installed, and the program runs where it is unpacked."""
    top = commit(binary, folder, "v" + VERSION)
    good(["tar", "-xzf", package(top, "tar")], cwd=folder)
    root = os.path.join(folder, f"gvis-{VERSION}")
    version = good([os.path.join(root, "usr/bin/gvis"), "--version"])
    return (tools_install.installed(os.path.join(root, "usr")), readme_lines(os.path.join(root, "usr/bin/gvis"), folder), version), (
        {**tools_install.FILES, **PAGES}, (1, "", [True] * 4), f"gvis {VERSION} (v{VERSION})\nproved and built by a toolchain\n")


def the_same_bytes(binary, folder):
    """Two builds of one commit, in other folders, at other times and with other rights for new files."""
    sums = []
    first = commit(binary, folder)
    second = os.path.join(folder, "an other")
    good(["git", "clone", "-q", first, second])
    shutil.copytree(os.path.join(first, "crates/gvis/out"), os.path.join(second, "crates/gvis/out"))
    put(second, "crates/gvis/out/gvis.built", "a toolchain\n")
    for top, mask in ((first, 0o022), (second, 0o077)):
        os.umask(mask)
        sums.append([hashlib.sha256(bytes_of(package(top, kind))).hexdigest() for kind in ("tar", *(["deb"] if shutil.which("dpkg-deb") else []))])
    os.umask(0o022)
    return sums[0], sums[1]


STATUS = "".join(f"Package: {name}\nStatus: install ok installed\nMaintainer: a <a@b>\nArchitecture: amd64\nVersion: {version}\nDescription: none\n\n" for name, version in (("libc6", "2.36"), ("python3", "3.11")))


@needs("dpkg", "dpkg-deb")
def debian_package(binary, folder):
    """Installed into a fresh root it runs from there, with its version; removed it leaves nothing."""
    top, root = commit(binary, folder), os.path.join(folder, "root")
    put(root, "var/lib/dpkg/status", STATUS)
    put(root, "var/lib/dpkg/info/format", "1\n")
    path = package(top, "deb")
    dpkg = ["dpkg", f"--root={root}", "--force-not-root", "--force-bad-path", "--log=/dev/null"]
    good([*dpkg, "--install", path])
    usr = os.path.join(root, "usr")
    found = tools_install.installed(usr)
    told = run([os.path.join(usr, "bin/gvis"), "--version"], env=ENV)[1].splitlines()[0]
    field = good(["dpkg-deb", "--field", path, "Version"]).strip()
    ran = readme_lines(os.path.join(usr, "bin/gvis"), folder)
    commands = sorted(os.listdir(os.path.join(usr, "bin")))
    help_ = [run([os.path.join(usr, "bin", name), "--help"], env=ENV)[0] for name in commands]
    readers = {content(usr, "bin", name).split("\n")[0] for name in commands}
    good([*dpkg, "--remove", "gvis"])
    names = {**tools_install.FILES, **PAGES, "share/doc/gvis/changelog.gz": 0o644, "share/lintian/overrides/gvis": 0o644}
    names["share/man/man1/gvis.1.gz"] = names.pop("share/man/man1/gvis.1")
    names["share/zsh/vendor-completions/_gvis"] = names.pop("share/zsh/site-functions/_gvis")
    return (found, ran, help_, readers, told, field, tools_install.installed(usr)), (
        names, (1, "", [True] * 4), [0] * 5, {"#!/bin/sh", "#!/usr/bin/python3"}, f"gvis {VERSION} ({abbreviated(top)})", f"{VERSION}+20260102.{abbreviated(top)}", {})


@needs("dpkg-deb")
def the_c_library_is_named(binary, folder):
    """The least one that has all that the program calls."""
    wanted = max(tuple(map(int, v.split("."))) for v in re.findall(r"GLIBC_(\d+\.\d+)", bytes_of(binary).decode("latin-1")))
    depends = good(["dpkg-deb", "--field", package(commit(binary, folder), "deb"), "Depends"]).strip()
    ebuild = re.search(r">=sys-libs/glibc-(\S+)", content(TOP, EBUILD))[1]
    return (depends, ebuild), ("libc6 (>= {0}.{1}), python3".format(*wanted), "{0}.{1}".format(*wanted))


@needs("dpkg-deb", "lintian")
def lintian_finds_no_error(binary, folder):
    """But the one that is overridden and said why, which shows that it looked at the program."""
    status, out, _ = run(["lintian", "--allow-root", "--show-overrides", "--fail-on", "none", package(commit(binary, folder), "deb")], timeout=600)
    return (status, [line for line in out.splitlines() if line.startswith("E:")], [line.split()[2:] for line in out.splitlines() if line.startswith("O:")]), (
        0, [], [["unstripped-binary-or-object", "[usr/libexec/gvis/gvis]"]])


def numbers_agree(*_):
    """The launcher's, that of the change log's newest release, and that of the ebuild, of which there is one."""
    releases = re.findall(r"^## (\S+)$", content(TOP, "CHANGELOG.md"), re.M)
    ebuilds = os.listdir(os.path.dirname(os.path.join(TOP, EBUILD)))
    falling = sorted(releases, key=lambda number: tuple(map(int, number.split("."))), reverse=True)
    return (releases[0], releases, ebuilds), (VERSION, falling, [os.path.basename(EBUILD)])


def the_licence_is_stated_once(*_):
    """Each package has the page that says so, and nothing else in the repository says more."""
    says = re.compile(r"No licence is stated|licen[cs]e is", re.I)
    found = []
    for at, folders, names in os.walk(TOP):
        folders[:] = [name for name in folders if name not in (".git", "out", "crates")]
        found += [os.path.relpath(os.path.join(at, name), TOP) for name in names if says.search(bytes_of(at, name).decode("utf-8", "replace"))]
    return [name for name in found if name != "tests/tools_packages.py"], ["share/packaging/copyright"]


def values_of_ebuild():
    """The variables that the ebuild sets, as bash reads it."""
    script = f'P=gvis-{VERSION} PV={VERSION} PF=gvis-{VERSION}; source "$0" && for name in EAPI DESCRIPTION SRC_URI LICENSE SLOT KEYWORDS RESTRICT RDEPEND; do echo "$name="${{!name}}; done'
    return dict(line.split("=", 1) for line in good(["bash", "-c", script, os.path.join(TOP, EBUILD)]).splitlines())


@needs("bash")
def ebuild(binary, folder):
    """Its syntax is bash's; in a tree that has it with its entry and what it needs nothing is told of it, and else what it lacks."""
    syntax = run(["bash", "-n", os.path.join(TOP, EBUILD)])
    root = os.path.join(folder, "R")
    shutil.copytree(os.path.join(TOP, "examples/repo"), root)
    text, empty = bytes_of(TOP, EBUILD), hashlib.md5(b"").hexdigest()
    put(root, "profiles/categories", content(root, "profiles/categories") + "app-portage\ndev-lang\n")
    for package_, keywords in (("dev-lang/python-3.12.1", "amd64"), ("sys-libs/glibc-2.40", "amd64")):
        category, pf = package_.split("/")
        put(root, f"{category}/{pf.rsplit('-', 1)[0]}/{pf}.ebuild", "")
        put(root, f"metadata/md5-cache/{package_}", f"EAPI=8\nSLOT=0\nKEYWORDS={keywords}\n_md5_={empty}\n")
    put(root, f"app-portage/gvis/gvis-{VERSION}.ebuild", text)
    entry = {**values_of_ebuild(), "_md5_": hashlib.md5(text).hexdigest()}

    def told():
        put(root, f"metadata/md5-cache/app-portage/gvis-{VERSION}", "".join(f"{key}={value}\n" for key, value in entry.items()))
        out = run([binary, "scan", root, "--certs", os.path.join(folder, "C")])[1]
        return [line.split(": ", 2)[1:] for line in out.splitlines() if line.startswith("app-portage/gvis")]

    silent = told()
    shutil.rmtree(os.path.join(root, "sys-libs/glibc"))
    os.remove(os.path.join(root, "metadata/md5-cache/sys-libs/glibc-2.40"))
    lacking = told()
    return (syntax, silent, [kind for kind, _ in lacking], entry["SRC_URI"], entry["KEYWORDS"]), (
        (0, "", ""), [], ["NonexistentDeps", "NonsolvableDepsInStable"], f"gvis-{VERSION}-amd64.tar.gz", "-* ~amd64")


CASES = [numbers_agree, the_licence_is_stated_once, ebuild,
         *(needs("make", "git", *getattr(case, "needs", ()))(case) for case in (versions, archive, the_same_bytes, debian_package, the_c_library_is_named, lintian_finds_no_error))]
