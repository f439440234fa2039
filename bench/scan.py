#!/usr/bin/env python3
"""How long a whole scan takes, beside `cat` over the same files.

    scan.py GVIS FOLDER gentoo [PACKAGES [PROFILES]]
    scan.py GVIS FOLDER debian [PACKAGES]
    scan.py GVIS FOLDER hard [PACKAGES [FLAGS]]

FOLDER gets, unless it is there, a repository of that shape, the same for the same numbers, with an ebuild for each package:

- gentoo: 30,000 packages in 160 categories, most of one or two versions; up to a dozen flags with REQUIRED_USE, targets of an
  interpreter that atoms ask for, dependencies in three classes; 40 profiles over ten arches, in stacks six deep, with masks of
  packages and rules on flags.
- debian: 63,440 packages in 60 categories, without flags, and one profile; a handful of dependencies each, of which a third
  are a `||` of two to four and half name a range of versions.
- hard: 100 packages, each with a REQUIRED_USE of random groups of three of its 60 flags, 4.26 groups a flag, where about half can't
  be met.

Prints for three runs of a fresh scan, of a scan over its certificates and of `cat` the seconds that passed, those of the
processor, and the peak of memory.
"""
import hashlib
import os
import random
import sys

from load import measure
from make_tree import put

ARCHES = ["amd64", "arm64", "x86", "ppc64", "arm", "riscv", "ppc", "sparc", "hppa", "loong"]
FLAGS = ["doc", "test", "static-libs", "debug", "examples", "nls", "gtk", "qt6", "ssl", "zlib", "systemd", "minimal", "gui", "X"]
TARGETS = ["python_targets_python3_%d" % minor for minor in (11, 12, 13)]


def put_package(folder, atom, version, values):
    """An entry with these values, and its ebuild."""
    category, name = atom.split("/")
    ebuild = "".join("# line %d of %s-%s\n" % (line, name, version) for line in range(60))
    lines = ["%s=%s" % pair for pair in {"EAPI": "8", "SLOT": "0", **values}.items() if pair[1]]
    lines.append("_md5_=" + hashlib.md5(ebuild.encode()).hexdigest())
    put(folder, "metadata/md5-cache/%s-%s" % (atom, version), "".join(line + "\n" for line in lines))
    put(folder, "%s/%s/%s-%s.ebuild" % (category, name, name, version), ebuild)


def put_lists(folder, names, lines):
    put(folder, "profiles/categories", "".join(sorted({name.split("/")[0] + "\n" for name in names})))
    put(folder, "profiles/profiles.desc", "".join(line + "\n" for line in lines))


# ---- the shape of Gentoo's repository

def keywords(draw):
    """Of the first arches most are stable; few packages are known to all arches."""
    known = draw.choice([10, 7, 4, 2, 2, 1])
    return " ".join(("" if draw.random() < 0.6 else "~") + arch for arch in ARCHES[:known])


def gentoo_atom(draw, names, has_targets):
    name = names[int(len(names) * draw.random() ** 2)]
    atom = draw.choice([name, name, name, ">=%s-1" % name, name + ":0=", "<%s-3" % name])
    if has_targets and draw.random() < 0.4:
        return "%s[%s]" % (atom, ",".join(target + "(-)?" for target in TARGETS))
    return atom + draw.choice(["", "", "", "", "[%s(-)]" % draw.choice(FLAGS), "[%s(+)?]" % draw.choice(FLAGS[:3])])


def gentoo_class(draw, names, flags, has_targets, most):
    items = []
    for _ in range(draw.randrange(most)):
        atom = gentoo_atom(draw, names, has_targets)
        if flags and draw.random() < 0.3:
            atom = "%s? ( %s )" % (draw.choice(flags), atom)
        elif draw.random() < 0.05:
            atom = "|| ( %s %s )" % (atom, draw.choice(names))
        items.append(atom)
    return " ".join(items)


def gentoo_values(draw, names):
    has_targets = draw.random() < 0.3
    flags = sorted(draw.sample(FLAGS, min(len(FLAGS), int(draw.expovariate(1 / 3)))))
    required = "|| ( %s )" % " ".join(TARGETS) if has_targets else ""
    if len(flags) > 1 and draw.random() < 0.3:
        required += " %s( %s %s )" % (draw.choice(["?? ", "|| ", flags[0] + "? "]), *draw.sample(flags, 2))
    targets = TARGETS if has_targets else []
    return {"KEYWORDS": keywords(draw), "IUSE": " ".join(flags + targets), "REQUIRED_USE": required.strip(),
            "RDEPEND": gentoo_class(draw, names, flags, has_targets, 10), "DEPEND": gentoo_class(draw, names, flags, has_targets, 8),
            "BDEPEND": gentoo_class(draw, names, flags, has_targets, 4)}


def put_gentoo_profiles(folder, draw, names, count):
    put(folder, "profiles/base/eapi", "8\n")
    put(folder, "profiles/base/package.mask", "".join("<%s-2\n" % name for name in draw.sample(names, min(len(names), 300))))
    put(folder, "profiles/base/use.mask", "".join("hidden%d\n" % n for n in range(200)))
    for arch in ARCHES:
        put(folder, "profiles/%s/parent" % arch, "../base\n")
        put(folder, "profiles/%s/use.mask" % arch, "".join(flag + "\n" for flag in draw.sample(FLAGS[6:], 2)))
        put(folder, "profiles/%s/package.use.mask" % arch, "".join("%s %s\n" % (draw.choice(names), draw.choice(FLAGS)) for _ in range(150)))
    for n in range(count):
        path = "profiles/%s/%d" % (ARCHES[n % 10], n)
        for part, parent in [("a", "../.."), ("a/b", ".."), ("c", "../a/b"), ("d", "../c")]:
            put(folder, "%s/%s/parent" % (path, part), parent + "\n")
        put(folder, path + "/d/package.use.force", "".join("%s %s\n" % (draw.choice(names), draw.choice(FLAGS)) for _ in range(20)))
    return ["%s %s/%d/d %s" % (ARCHES[n % 10], ARCHES[n % 10], n, ["stable", "dev", "exp"][n % 3]) for n in range(count)]


def make_gentoo(folder, packages, profiles):
    draw = random.Random(1)
    names = ["cat%03d/name%d" % (n % 160, n) for n in range(packages * 19 // 30 or 1)]
    put_lists(folder, names, put_gentoo_profiles(folder, draw, names, profiles))
    for n in range(packages):
        put_package(folder, names[n % len(names)], str(1 + n // len(names)), gentoo_values(draw, names))


# ---- the shape of Debian's

def debian_item(draw, names):
    """A plain name, or a range of versions of it."""
    name = names[int(len(names) * draw.random() ** 3)]
    if draw.random() < 0.5:
        return name
    return draw.choice([">=%s-1", ">=%s-1.2", "<%s-3", ">=%s-2", "<=%s-2.5"]) % name


def debian_class(draw, names):
    items = []
    for _ in range(int(draw.expovariate(1 / 5))):
        if draw.random() < 0.33:
            items.append("|| ( %s )" % " ".join(debian_item(draw, names) for _ in range(draw.randrange(2, 5))))
        else:
            items.append(debian_item(draw, names))
    return " ".join(items)


def make_debian(folder, packages):
    draw = random.Random(1)
    names = ["cat%02d/name%d" % (n % 60, n) for n in range(packages)]
    put(folder, "profiles/base/eapi", "8\n")
    put_lists(folder, names, ["amd64 base stable"])
    for name in names:
        version = "%d.%d" % (draw.randrange(1, 4), draw.randrange(10))
        put_package(folder, name, version, {"KEYWORDS": "amd64", "RDEPEND": debian_class(draw, names)})


# ---- groups at the threshold

def make_hard(folder, packages, flags):
    draw = random.Random(7)
    names = ["cat/name%d" % n for n in range(packages)]
    uses = ["flag%d" % n for n in range(flags)]
    put(folder, "profiles/base/eapi", "8\n")
    put_lists(folder, names, ["amd64 base stable"])
    for name in names:
        threes = [draw.sample(uses, 3) for _ in range(flags * 426 // 100)]
        groups = ["|| ( %s )" % " ".join(draw.choice(["", "!"]) + flag for flag in three) for three in threes]
        values = {"IUSE": " ".join(uses), "REQUIRED_USE": " ".join(groups), "RDEPEND": "cat/none", "KEYWORDS": "amd64"}
        put_package(folder, name, "1", values)


def main(binary, folder, shape, packages=None, second=None):
    if not os.path.exists(folder):
        if shape == "gentoo":
            make_gentoo(folder, int(packages or 30000), int(second or 40))
        elif shape == "debian":
            make_debian(folder, int(packages or 63440))
        else:
            make_hard(folder, int(packages or 100), int(second or 60))
    certs = folder.rstrip("/") + ".certs"
    measure("fresh scan", [binary, "scan", folder, "--fresh", "--certs", certs])
    measure("over its certificates", [binary, "scan", folder, "--certs", certs])
    measure("cat", ["sh", "-c", 'find "$0" -type f -print0 | xargs -0 cat', folder])


if __name__ == "__main__":
    most = {"gentoo": 6, "debian": 5, "hard": 6}.get(sys.argv[3] if sys.argv[3:] else "", 0)
    if not 4 <= len(sys.argv) <= most or not all(word.isdigit() for word in sys.argv[4:]):
        sys.exit(__doc__)
    main(os.path.abspath(sys.argv[1]), *sys.argv[2:])
