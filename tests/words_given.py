"""The words that the program is called with: all that are given count, empty and long ones too, and no other."""
import os
import subprocess

from common import bytes_of, called, put_files
from rescans import CHOICE, REPORT

BAD = (2, b"", b"gvis: bad command line\n")
SCAN = [b"scan", b"R", b"--certs", b"C"]
REPORTED = (1, REPORT.encode(), b"")


def ended(binary, folder, words, **more):
    """How a call with these words ends, and whether it left a file of certificates."""
    got = called([os.fsencode(binary), *words], cwd=folder, **more)
    path = os.path.join(folder, "C")
    left = os.path.exists(path)
    if left:
        os.remove(path)
    return got, left


def repository(folder):
    put_files(os.path.join(folder, "R"), CHOICE)


def words_that_are_no_utf_8(binary, folder):
    """In place of each word, and beside them."""
    repository(folder)
    calls = [SCAN[:at] + [b"\xff"] + SCAN[at + behind:] for at in range(len(SCAN) + 1) for behind in (0, 1)]
    calls += [SCAN[:3] + [b"C\xff"], SCAN + [b"--keywords=\xc3("], [b"\xed\xa0\x80"]]
    return [ended(binary, folder, words) for words in calls], [(BAD, False)] * len(calls)


def empty_words(binary, folder):
    """An empty word is one: each of these is a command without it."""
    repository(folder)
    calls = [SCAN[:at] + [b""] + SCAN[at:] for at in range(len(SCAN) + 1)] + [[b""], [b"", b""]]
    return ([ended(binary, folder, words) for words in calls], ended(binary, folder, SCAN)), ([(BAD, False)] * len(calls), (REPORTED, True))


def no_words(binary, folder):
    return ended(binary, folder, []), (BAD, False)


def words_of_any_length(binary, folder):
    """Each is taken whole: a path that is too long for the system is told, and lists name one keyword many times or none."""
    repository(folder)
    got, want = [], []
    for length in (255, 256, 257, 511, 512, 513, 4095, 4096, 65_535, 65_536, 131_000):
        path = b"d/" + b"a" * (length - 2)
        got.append(ended(binary, folder, SCAN[:3] + [path]))
        want.append(((3, b"", b"gvis: fault: store %s\n" % path), False))
    many = [b"--profiles", b"/".join([b"a"] * 60_000)]
    return (got, ended(binary, folder, SCAN + many)[0][0] in (0, 1)), (want, True)


def many_words(binary, folder):
    """A command with one word too many stays bad with thousands."""
    repository(folder)
    return ended(binary, folder, SCAN + [b"more"] * 5000), (BAD, False)


def name_of_the_program(binary, folder):
    """It is no word, whatever it is."""
    repository(folder)
    got = []
    for name in (b"\xff", b"", b"scan", b"a" * 5000):
        done = subprocess.run([name, *SCAN], executable=binary, cwd=folder, stdin=subprocess.DEVNULL, capture_output=True, timeout=60)
        got.append((done.returncode, done.stdout, done.stderr, bytes_of(folder, "C")[:9]))
        os.remove(os.path.join(folder, "C"))
    return got, [(*REPORTED, b"gviscert2")] * 4


CASES = [words_that_are_no_utf_8, empty_words, no_words, words_of_any_length, many_words, name_of_the_program]
