#!/usr/bin/env python3
"""How long a scan of an overlay takes, beside a scan of its master with the same packages in it, and `cat` over the same files.

    overlay.py GVIS FOLDER [PACKAGES [OWN [PROFILES]]]

FOLDER gets, unless it is there, the same for the same numbers:

- gentoo: scan.py's repository of that shape, 30,000 packages and 40 profiles.
- my: an overlay over it with OWN packages, 300, in a category of its own, whose dependencies are packages of both.
- one: gentoo with these packages in it, as links to both.

Prints for three runs each of fresh scans of all three, of those that ask no query (`--keywords OrphanCache`), and of `cat` the seconds
that passed, those of the processor and the peak of memory. What judging costs is what a scan takes more than one that asks nothing.
"""
import os
import random
import sys

from load import measure
from make_tree import put
from scan import gentoo_values, make_gentoo, put_package


def make_own(folder, packages, own):
    """The overlay's packages, of which each asks for some of the master's and of its own."""
    draw = random.Random(2)
    names = ["cat%03d/name%d" % (n % 160, n) for n in range(packages * 19 // 30 or 1)]
    mine = ["own/mine%d" % n for n in range(own)]
    for name in mine:
        put_package(folder, name, "1", gentoo_values(draw, mine[:20] + names))
    put(folder, "profiles/categories", "own\n")
    put(folder, "metadata/layout.conf", "masters = gentoo\n")


def link_all(folder, others):
    """All files of these folders in one, as links; of a path that several have the lines together."""
    for other in others:
        for path, _, names in os.walk(other):
            for name in names:
                file = os.path.join(path, name)
                to = os.path.join(folder, os.path.relpath(file, other))
                os.makedirs(os.path.dirname(to), exist_ok=True)
                if not os.path.lexists(to):
                    os.symlink(os.path.abspath(file), to)
                else:
                    with open(to, encoding="utf-8") as a, open(file, encoding="utf-8") as b:
                        both = a.read() + b.read()
                    os.unlink(to)
                    put(folder, os.path.relpath(file, other), both)


def main(binary, folder, packages=30000, own=300, profiles=40):
    gentoo, mine, one = (os.path.join(folder, name) for name in ("gentoo", "my", "one"))
    if not os.path.exists(folder):
        make_gentoo(gentoo, int(packages), int(profiles))
        make_own(mine, int(packages), int(own))
        link_all(one, [gentoo, mine])
    certs = folder.rstrip("/") + ".certs"
    for name, words in (("overlay", ["overlay", folder, "--repo", "my"]), ("master", ["scan", gentoo]), ("one repository", ["scan", one])):
        measure(name, [binary, *words, "--fresh", "--certs", certs])
        measure(name + ", no query", [binary, *words, "--fresh", "--certs", certs, "--keywords", "OrphanCache"])
    measure("cat", ["sh", "-c", 'find "$0" "$1" -type f -print0 | xargs -0 cat', gentoo, mine])


if __name__ == "__main__":
    if not 3 <= len(sys.argv) <= 6 or not all(word.isdigit() for word in sys.argv[3:]):
        sys.exit(__doc__)
    main(os.path.abspath(sys.argv[1]), *sys.argv[2:])
