"""The built program's lint beside the plain one on random repositories, and over those that the rules speak of.

Each random repository is one of tests/random_repositories.py with more of what a lint looks at: package.use files, USE and the
variables of USE_EXPAND, flags that IUSE sets, live versions, and names that no package has.
"""
import json
import os
import random

import plain
import plain_lint
import random_repositories
from common import EMPTY, named, put_files, run
from random_repositories import FLAGS, FOLDERS, PACKAGES, VERSIONS, draw_atom, draw_expression, draw_lines, put_file_or_folder

NUMBERS = range(200)
COUNT = {"lines": 0, **{keyword: 0 for keyword in plain.LINT_KEYWORDS}, "flags on by default": 0, "off": 0, "with status 0": 0, "with status 1": 0}
USE = ["a b", "a -b", "-*", "-* c", "-a", "${USE} d", "k_a -k_b", "-* k_b a", "e v"]
VALUES = ['USE_EXPAND="K"', 'USE_EXPAND="K U"', 'USE_EXPAND="-K"', 'K="a"', 'K="b"', 'K=""', "K='a b'", 'U="d"', 'USE_EXPAND="X"', 'X="a"']


def told():
    return ", ".join(f"{count} {what}" for what, count in COUNT.items())


def draw_use(draw, names):
    flags = " ".join(draw.choice(["", "", "-"]) + draw.choice(FLAGS) for _ in range(draw.randrange(1, 4)))
    return draw.choice(names).lstrip("!") + " " + flags + draw.choice([""] * 8 + [" *"])


def put(draw, files, path, content):
    """In place of what stands there, a file or a folder."""
    for old in [old for old in files if old == path or old.startswith(path + "/")]:
        del files[old]
    put_file_or_folder(draw, files, path, content)


def put_folder(draw, files, folder):
    path, names = "profiles/" + folder, PACKAGES + ["x/none", "gone/p", draw_atom(draw), draw_atom(draw)]
    if draw.random() < 0.6:
        put(draw, files, path + "/package.use", draw_lines(draw, lambda: draw_use(draw, names), 5))
    if draw.random() < 0.4:
        put(draw, files, path + "/package.mask", draw_lines(draw, lambda: draw.choice(["", "-"]) + draw.choice(["gone/p", "x/none", "<x/z-1"]), 3))
    if draw.random() < 0.6:
        lines = [f'USE="{draw.choice(USE)}"', *draw.sample(VALUES, draw.randrange(3))]
        draw.shuffle(lines)
        files[path + "/make.defaults"] = "\n".join(lines) + "\n" + draw.choice([files.get(path + "/make.defaults", ""), ""])


def put_version(draw, files):
    """One more version of a package, whose REQUIRED_USE asks more often than not."""
    name, version = draw.choice(PACKAGES), draw.choice(VERSIONS)
    category, package = name.split("/")
    iuse = " ".join(draw.choice(["", "", "+", "-"]) + flag for flag in draw.sample(FLAGS, draw.randrange(1, 5)))
    lines = {"EAPI": draw.choice("5678"), "SLOT": draw.choice(["0", "0", "1", "0/2"]), "IUSE": iuse, "REQUIRED_USE": draw_expression(draw, True, 0),
             "KEYWORDS": draw.choice(["amd64", "~amd64", "amd64 ~x86", "amd64 x86", "~amd64 -x86", "-* amd64", "-*", ""]), "_md5_": EMPTY,
             "PROPERTIES": draw.choice([""] * 4 + ["live"])}
    files[f"metadata/md5-cache/{category}/{package}-{version}"] = "".join(f"{key}={value}\n" for key, value in lines.items())
    files[f"{category}/{package}/{package}-{version}.ebuild"] = ""


def draw_lint(draw):
    files = {path: content.decode() for path, content in random_repositories.draw_repository(draw).items()}
    for folder in FOLDERS:
        if draw.random() < 0.7:
            put_folder(draw, files, folder)
    for _ in range(draw.randrange(1, 8)):
        put_version(draw, files)
    return {path: content.encode() for path, content in files.items()}


def draw_options(draw):
    """Keywords, profiles, and whether JSON is asked for; and the words for them, in any order."""
    keywords = draw.choices(plain.LINT_KEYWORDS, k=draw.randrange(1, 3)) if draw.random() < 0.3 else None
    profiles = draw.sample(FOLDERS + ["none"], draw.randrange(1, 3)) if draw.random() < 0.2 else None
    as_json = draw.random() < 0.3
    parts = [["R"]] + [["--json"]] * as_json
    for name, values in (("--keywords", keywords), ("--profiles", profiles)):
        if values is not None:
            parts.append(draw.choice([[name, ",".join(values)], [name + "=" + ",".join(values)]]))
    draw.shuffle(parts)
    return (keywords, profiles, as_json), ["lint"] + [word for part in parts for word in part]


def counted(files, text):
    read = plain.Files(files)
    packages, profiles = plain.repository_of(read)
    COUNT["lines"] += text.count("\n")
    for keyword in plain.LINT_KEYWORDS:
        COUNT[keyword] += plain_lint.text_of(read, [keyword]).count("\n")
    for profile in profiles:
        defaults = plain_lint.defaults_of(read, packages, profile)
        for package in packages:
            for flag in package["iuse"]:
                COUNT["flags on by default" if plain_lint.is_on(package, profile, "stable", defaults, flag) else "off"] += 1


# [what a lint prints]
def compared(number, binary, folder):
    draw = random.Random(number)
    files = draw_lint(draw)
    given, words = draw_options(draw)
    want = plain_lint.lint(files, *given)
    put_files(os.path.join(folder, "R"), files)
    got = run([binary] + words, cwd=folder)
    if given[2]:
        for line in got[1].splitlines():
            json.loads(line)
    counted(files, want[1])
    COUNT[f"with status {want[0]}"] += 1
    return (got, os.listdir(folder)), (want, ["R"])


CASES = [named(f"repository {number}", compared, number) for number in NUMBERS]
