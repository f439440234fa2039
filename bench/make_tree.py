#!/usr/bin/env python3
"""Writes a repository of many packages, the same for the same numbers.

    make_tree.py FOLDER ENTRIES SEED

FOLDER must not be there. It gets one profile, a hundred categories and ENTRIES cache entries, each with its ebuild and one
to four dependencies, some behind one of three flags. Most packages are stable, so that a few reports come of it.
"""
import hashlib
import os
import random
import sys

CATEGORIES = 100
FLAGS = ["doc", "nls", "test"]


def dependency(draw, entries):
    atom = name(draw.randrange(entries + entries // 1000))
    if draw.randrange(3) == 0:
        return f"{draw.choice(['', '!'])}{draw.choice(FLAGS)}? ( {atom} )"
    return atom


def name(number):
    return f"cat{number % CATEGORIES:02}/pkg{number}"


def ebuild(number):
    return f"# package {number}\n"


def entry(draw, entries, number):
    keywords = "~amd64" if draw.randrange(50) == 0 else "amd64"
    items = " ".join(dependency(draw, entries) for _ in range(draw.randrange(1, 5)))
    return f"EAPI=8\nIUSE={' '.join(FLAGS)}\nKEYWORDS={keywords}\nRDEPEND={items}\nSLOT=0\n_md5_={hashlib.md5(ebuild(number).encode()).hexdigest()}\n"


def put(folder, path, text):
    path = os.path.join(folder, path)
    os.makedirs(os.path.dirname(path), exist_ok=True)
    with open(path, "w") as f:
        f.write(text)


def main(folder, entries, seed):
    os.mkdir(folder)
    put(folder, "profiles/profiles.desc", "amd64 base stable\n")
    put(folder, "profiles/categories", "".join(f"cat{n:02}\n" for n in range(CATEGORIES)))
    put(folder, "profiles/base/eapi", "8\n")
    put(folder, "profiles/base/use.mask", "test\n")
    draw = random.Random(seed)
    for number in range(entries):
        put(folder, f"metadata/md5-cache/{name(number)}-1", entry(draw, entries, number))
        put(folder, f"{name(number)}/pkg{number}-1.ebuild", ebuild(number))


if __name__ == "__main__":
    if len(sys.argv) != 4:
        sys.exit(__doc__)
    main(sys.argv[1], int(sys.argv[2]), int(sys.argv[3]))
