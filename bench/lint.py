#!/usr/bin/env python3
"""How long a lint takes, beside the load that it stands on.

    lint.py GVIS FOLDER [PACKAGES [PROFILES]]

FOLDER gets, unless it is there, the repository of `scan.py ... gentoo` with what a lint looks at besides: lines of `package.use` in each
directory of a profile, of which one in fifty names no package, and USE and a variable of USE_EXPAND in each make.defaults. Prints for
three runs of a lint, and of a scan that selects a kind which asks nothing and isn't there, so that it loads alone, the seconds that
passed, those of the processor, and the peak of memory.
"""
import os
import random
import sys

from load import measure
from make_tree import put
from scan import FLAGS, make_gentoo


def put_more(folder):
    draw = random.Random(2)
    with open(os.path.join(folder, "profiles/base/package.mask")) as f:
        names = [line[1:-2] for line in f.read().splitlines()] + ["cat000/none"] * 6
    put(folder, "profiles/base/make.defaults", 'USE="%s -*"\nUSE_EXPAND="PYTHON_TARGETS"\nPYTHON_TARGETS="python3_12"\n' % FLAGS[0])
    for path, _, files in list(os.walk(os.path.join(folder, "profiles"))):
        if "parent" in files:
            words = "".join("%s %s%s\n" % (draw.choice(names), draw.choice(["", "-"]), draw.choice(FLAGS)) for _ in range(40))
            put(path, "package.use", words)
            put(path, "make.defaults", 'USE="%s"\n' % " ".join(draw.choice(["", "-"]) + flag for flag in draw.sample(FLAGS, 3)))


def main(binary, folder, packages=30000, profiles=40):
    if not os.path.exists(folder):
        make_gentoo(folder, int(packages), int(profiles))
        put_more(folder)
    measure("lint", [binary, "lint", folder])
    measure("load", [binary, "scan", folder, "--fresh", "--certs", folder.rstrip("/") + ".certs", "--keywords", "MissingCache"])


if __name__ == "__main__":
    if not 3 <= len(sys.argv) <= 5 or not all(word.isdigit() for word in sys.argv[3:]):
        sys.exit(__doc__)
    main(os.path.abspath(sys.argv[1]), *sys.argv[2:])
