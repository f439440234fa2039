"""Sessions of the built program: each report is what a scan with --fresh prints of the edited files, written out.

For each of 200 random repositories a script is made of 20 random edits with a `report` before them and behind each; a session
that ends at a report has to end as the scan does. Every fourth repository has 400 packages besides that no other one mentions, so that
an edit touches few of its packages.
"""
import os
import random

from common import EMPTY, called, named, put_files
from random_repositories import draw_options, draw_repository

REPOSITORIES, EDITS, OTHERS = 200, 20, 400
LISTS = ("profiles/profiles.desc", "profiles/categories")


def drawn_edit(draw, files, other):
    """The commands of an edit: a file of the other repository, a line more in a file, or a file that goes. What stands on the way
    of a file that is put goes first, since no folder of a disk can be a file too."""
    path = draw.choice(sorted(set(files) | set(other)))
    how = draw.randrange(4)
    if how < 2 and path in other:
        content = other[path]
    elif how == 2 and files.get(path):
        lines = files[path].splitlines(True)
        lines.insert(draw.randrange(len(lines) + 1), draw.choice(lines))
        content = b"".join(lines)
    else:
        return [] if path in LISTS else [(path, None)]
    on_the_way = sorted(old for old in files if old.startswith(path + "/") or path.startswith(old + "/"))
    return [(old, None) for old in on_the_way if old not in LISTS] + [(path, content)]


def with_others(files):
    """The files with packages of a category of their own, each of which mentions the one before it."""
    entry = b"DEFINED_PHASES=-\nEAPI=8\nIUSE=a\nKEYWORDS=amd64 ~x86\nRDEPEND=%s\nSLOT=0\n_md5_=" + EMPTY.encode() + b"\n"
    files = dict(files)
    files["profiles/categories"] = files.get("profiles/categories", b"") + b"zz\n"
    for number in range(OTHERS):
        wanted = b"a? ( zz/p%d )" % (number - 1) if number else b""
        files["metadata/md5-cache/zz/p%d-1" % number] = entry % wanted
        files["zz/p%d/p%d-1.ebuild" % (number, number)] = b""
    return files


def apply(files, folder, commands):
    """The files with these edits, on the disk too, where a folder goes with its last file."""
    for path, content in commands:
        if content is not None:
            files[path] = content
            put_files(folder, {path: content})
        elif files.pop(path, None) is not None:
            place = os.path.join(folder, path)
            os.remove(place)
            while not os.listdir(os.path.dirname(place)):
                place = os.path.dirname(place)
                os.rmdir(place)


def written(commands):
    """The lines of these edits."""
    return b"".join(b"cut %s\n" % path.encode() if content is None else b"put %s %d\n%s\n" % (path.encode(), len(content), content)
                    for path, content in commands)


COUNT = {"sessions": 0, "reports": 0}


def told():
    return ", ".join(f"{count} {what}" for what, count in COUNT.items())


# [what a session writes]
def served(number, binary, folder):
    """How a session over a repository ends, and how scans of the edited files say that it has to."""
    draw = random.Random(number + 9000)
    files, other = draw_repository(draw), draw_repository(draw)
    if number % 4 == 3:
        files = with_others(files)
    words = [word for word in draw_options(draw)[1] if word != "--fresh"]
    asked = [word for at, word in enumerate(words) if not word.startswith("--certs") and words[at - 1] != "--certs"]
    root, session = os.path.join(folder, "edited", "R"), os.path.join(folder, "session")
    put_files(root, files)
    put_files(os.path.join(session, "R"), files)
    files, script, out = dict(files), b"", b""
    COUNT["sessions"] += 1
    ended = None
    for at in range(EDITS + 1):
        if at:
            commands = drawn_edit(draw, files, other)
            apply(files, root, commands)
            script += written(commands)
        script += b"report\n"
        if ended is None:
            status, text, err = called([binary, *words, "--fresh"], cwd=os.path.join(folder, "edited"))
            if status > 1:
                ended = (status, out, err)
            else:
                out += b"report %d\n" % len(text) + text
                COUNT["reports"] += 1
    got = called([binary, "session", *asked[1:]], cwd=session, input=script + b"end\n")
    return got, ended or (0, out, b"")


CASES = [named(f"session {number}", served, number) for number in range(REPOSITORIES)]
