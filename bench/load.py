#!/usr/bin/env python3
"""How long loading a whole repository takes, beside `cat` over the same files.

    load.py GVIS FOLDER [ENTRIES [PROFILES]]

FOLDER gets, unless it is there, a repository of ENTRIES (30,000) cache entries of some 1.6 KB in 150 categories, each with an
ebuild of 4 KB and up to four of 60 eclasses, and PROFILES (40) lines whose stacks are twelve directories deep, with
variables, masks and rules. No profile of it judges a package, so that a scan costs the load and, for each package and
profile, finding that it isn't judged there. Prints for three runs of each the seconds that passed, those of the processor,
and the peak of memory.
"""
import hashlib
import os
import random
import subprocess
import sys
import time

from make_tree import put

CATEGORIES = 150
FLAGS = ["doc", "nls", "test", "static-libs", "debug", "examples"]
PYTHONS = "python_targets_python3_11(-)?,python_targets_python3_12(-)?"


def name(number):
    return "cat%03d/pkg%d" % (number % CATEGORIES, number // 2)


def atoms(draw, entries, count):
    for _ in range(count):
        atom = name(draw.randrange(entries))
        kind = draw.randrange(6)
        yield [">=%s-1.0" % atom, atom + ":=", atom + ":0/0=", atom + "[" + PYTHONS + "]", atom, "!<%s-1" % atom][kind]


def group(draw, entries, count):
    for atom in atoms(draw, entries, count):
        yield "%s? ( %s )" % (draw.choice(FLAGS), atom) if draw.randrange(3) == 0 else atom


def put_package(folder, draw, entries, number, digests):
    version = "%d.%d" % (1 + number % 2, draw.randrange(20))
    category, package = name(number).split("/")
    ebuild = "".join("# line %d of %s-%s\n" % (line, package, version) for line in range(150))
    named = "\t".join("%s\t%s" % pair for pair in draw.sample(digests, draw.randrange(5)))
    entry = ["DEFINED_PHASES=compile configure install prepare", "DESCRIPTION=" + "A package that is here to be read. " * 4,
             "DEPEND=" + " ".join(group(draw, entries, 6)), "BDEPEND=" + " ".join(atoms(draw, entries, 3)),
             "RDEPEND=" + " ".join(group(draw, entries, 12)), "EAPI=8", "HOMEPAGE=https://example.org/" + package,
             "IUSE=" + " ".join(FLAGS), "KEYWORDS=~" + draw.choice(["alpha", "mips"]), "LICENSE=GPL-2", "SLOT=0",
             "SRC_URI=" + "https://example.org/%s.tar.gz " % package * 4,
             "_eclasses_=" + named, "_md5_=" + hashlib.md5(ebuild.encode()).hexdigest()]
    put(folder, "metadata/md5-cache/%s/%s-%s" % (category, package, version), "".join(line + "\n" for line in entry))
    put(folder, "%s/%s/%s-%s.ebuild" % (category, package, package, version), ebuild)


def put_profiles(folder, draw, entries, profiles):
    for depth in range(11):
        path = "profiles/base%d" % depth
        put(folder, path + "/eapi", "8\n")
        put(folder, path + "/make.defaults", 'USE="$USE flag%d"\nUSE_EXPAND="PYTHON_TARGETS ELIBC"\nX%d="a b"\n' % (depth, depth))
        put(folder, path + "/use.mask", "".join("flag%d\n" % draw.randrange(500) for _ in range(60)))
        put(folder, path + "/package.use.mask", "".join("%s %s\n" % (name(draw.randrange(entries)), draw.choice(FLAGS)) for _ in range(80)))
        put(folder, path + "/package.mask", "".join("<%s-1\n" % name(draw.randrange(entries)) for _ in range(30)))
        if depth:
            put(folder, path + "/parent", "../base%d\n" % (depth - 1))
    lines = []
    for number in range(profiles):
        put(folder, "profiles/line%d/parent" % number, "../base10\n")
        put(folder, "profiles/line%d/eapi" % number, "8\n")
        lines.append("amd64 line%d stable\n" % number)
    put(folder, "profiles/profiles.desc", "".join(lines))


def make(folder, entries, profiles):
    draw = random.Random(1)
    put(folder, "profiles/categories", "".join("cat%03d\n" % n for n in range(CATEGORIES)))
    eclasses = {"eclass%d" % n: "# an eclass\n" * (50 + n) for n in range(60)}
    for eclass, text in eclasses.items():
        put(folder, "eclass/%s.eclass" % eclass, text)
    digests = [(eclass, hashlib.md5(text.encode()).hexdigest()) for eclass, text in eclasses.items()]
    put_profiles(folder, draw, entries, profiles)
    for number in range(entries):
        put_package(folder, draw, entries, number, digests)


def measure(name, words):
    for _ in range(3):
        begun = time.time()
        with open(os.devnull, "w") as nothing:
            child = subprocess.Popen(words, stdout=nothing)
            _, status, used = os.wait4(child.pid, 0)
        print("%s: %.2f s, of the processor %.2f and %.2f s, %d KB, status %d" % (
            name, time.time() - begun, used.ru_utime, used.ru_stime, used.ru_maxrss, os.waitstatus_to_exitcode(status)))


def main(binary, folder, entries=30000, profiles=40):
    if not os.path.exists(folder):
        make(folder, int(entries), int(profiles))
    measure("scan", [binary, "scan", folder, "--certs", os.path.join(folder, "C")])
    measure("cat", ["sh", "-c", 'find "$0" -type f -print0 | xargs -0 cat', folder])


if __name__ == "__main__":
    if not 3 <= len(sys.argv) <= 5 or not all(word.isdigit() for word in sys.argv[3:]):
        sys.exit(__doc__)
    main(os.path.abspath(sys.argv[1]), *sys.argv[2:])
