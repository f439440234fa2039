"""The built program beside a plain one on random overlays.

For each number up to three masters and an overlay are drawn from it as folders side by side, judged by tests/plain_overlay.py, written
and scanned by the program. The gates of the queries that its file answers are those of the plain program, in order of first use; and a
scan over that file leaves it as it is.
"""
import os
import random

import backing
import plain
import plain_overlay
import plain_run
from common import bytes_of, named, put_files, run
from random_repositories import draw_options, draw_repository

NUMBERS = range(120)
MASTERS = ["gentoo", "b", "c.d"]


def draw_layout(draw, masters):
    """A layout, of which some name no masters."""
    words = draw.choice([" ", "  ", "\t"]).join(masters)
    good = [f"masters = {words}\n", f"masters={words} # more\n", f"repo-name = my\n\tmasters\t = {words}\r\nmasters = my\n"]
    bad = ["", f"masters {words}\n", "masters =\nmasters = gentoo\n", f"masters = {words} {masters[0]}\n", f"masters = {words} my\n", f"masters = {words} a/b\n",
           "masters = 1 2 3 4 5 6 7 8 9\n", f"masters = {words} gone\n"]
    return draw.choice(good if draw.random() < 0.9 else bad)


def draw_files(draw):
    masters, files = draw.sample(MASTERS, draw.randrange(1, 4)), {}
    for folder in [*masters, "my"]:
        files.update((f"{folder}/{path}", content) for path, content in draw_repository(draw).items())
    for folder in [*masters, "my"]:
        if draw.random() < 0.3:
            files[f"{folder}/profiles/categories"] = draw.choice([b"app\n", b"x", b"new\napp", b"# none\n", b"new\n* bad\n"])
        for name in ("one", "two"):
            if draw.random() < 0.4:
                files.pop(f"{folder}/eclass/{name}.eclass")
    if draw.random() < 0.3:
        files.pop("my/profiles/categories")
    if draw.random() < 0.5:
        files = {path: content for path, content in files.items() if not path.startswith("my/profiles/") or path == "my/profiles/categories"}
    files["my/metadata/layout.conf"] = draw_layout(draw, masters).encode()
    if draw.random() < 0.02:
        files.pop("my/metadata/layout.conf")
    return files


COUNT = {"packages": 0, "of overlays": 0, "lines": 0, "certificates": 0, "with status 0": 0, "with status 1": 0, "with status 6": 0, "with status 7": 0}


def told():
    return ", ".join(f"{count} {what}" for what, count in COUNT.items())


def asked_of(files, options):
    """The gates of the overlay's queries, in order of first use."""
    texts = plain.Files(files).texts
    repository = plain_overlay.repository_of(texts, "my", plain_overlay.masters_in("my", texts["my/metadata/layout.conf"]))
    COUNT["packages"] += len(repository[0])
    COUNT["of overlays"] += len(repository[2])
    return list(dict.fromkeys(gates for _, gates in plain_run.gates_among(*repository[:3], options)))


# [scan of an overlay] [view of an overlay] [packages of an overlay and its masters]
def compared(number, binary, folder):
    """What a scan prints, and the queries of which it leaves an answer; and what it prints and leaves over these."""
    draw = random.Random(number)
    files = draw_files(draw)
    (keywords, profiles, as_json), words = draw_options(draw)
    words = [binary, "overlay"] + words[1:] + draw.choice([["--repo", "my"], ["--repo=my"]])
    want = plain_overlay.scan(files, "my", keywords, profiles, as_json)
    put_files(os.path.join(folder, "R"), files)
    got = run(words, cwd=folder)
    COUNT[f"with status {want[0]}"] += 1
    COUNT["lines"] += want[1].count("\n")
    if want[0] > 1:
        return (got, os.path.exists(os.path.join(folder, "C"))), (want, False)
    kept, asked = bytes_of(folder, "C"), asked_of(files, {"keywords": keywords, "profiles": profiles})
    again = run([word for word in words if word != "--fresh"], cwd=folder), bytes_of(folder, "C") == kept
    COUNT["certificates"] += len(asked)
    return (got, [query for query, _ in backing.records(kept)], again), (want, asked, (want, True))


CASES = [named(f"overlay {number}", compared, number) for number in NUMBERS]
