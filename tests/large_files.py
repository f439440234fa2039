"""A file of certificates and a report of more than 16 MiB, which a file of the repository may not have: they are fetched, verified and
replaced.
"""
import os

from common import HEADER, bytes_of, called, entry, put, put_files

LEAST = 16_777_217
LINES, ATOM, ATOMS = 211, "x/" + "z" * 998 + " ", 80
BASE = {"profiles/profiles.desc": b"amd64 base stable\n", "profiles/categories": b"app\n", "profiles/base/eapi": b"8\n"}


def verified(binary, folder, report):
    """How a verification ends that the file of certificates and this report go into, and whether both stay."""
    certs = bytes_of(folder, "C")
    put(folder, "P", report)
    said = called([binary, "verify", "R", "--certs", "C", "--report", "P"], cwd=folder, timeout=300)
    return said if (bytes_of(folder, "C"), bytes_of(folder, "P")) == (certs, report) else None


def report_of_many_bytes(binary, folder):
    """211 lines of 80 KB: the whole report is accepted, and one whose last byte differs is refused at that one."""
    files = {**BASE, **{f"app/p{number}/p{number}-1.ebuild": b"" for number in range(LINES)}}
    dependency = "|| ( " + ATOM * ATOMS + ")"
    files.update({f"metadata/md5-cache/app/p{number}-1": entry(RDEPEND=dependency).encode() for number in range(LINES)})
    put_files(os.path.join(folder, "R"), files)
    status, report, err = called([binary, "scan", "R", "--certs", "C"], cwd=folder, timeout=300)
    accepted, refused = verified(binary, folder, report), verified(binary, folder, report[:-1] + b"x")
    return (status, err, len(report) >= LEAST, accepted[0], accepted[1].split()[0], refused), (
        1, b"", True, 0, b"accepted", (1, b"refused: text differs at byte %d\n" % (len(report) - 1), b""))


def certificates_of_many_bytes(binary, folder):
    """A file whose last bytes are the records that a scan of a small budget needs, behind 17 MiB of others: a verification accepts the
    report by it, such a scan answers by it, and leaves the records alone."""
    never = " ".join(f"|| ( {c}c {d}d {e}e )" for c in ("", "!") for d in ("", "!") for e in ("", "!"))
    two = {**BASE, "app/p/p-1.ebuild": b"", "metadata/md5-cache/app/p-1": entry(IUSE="c d e", REQUIRED_USE=never).encode()}
    put_files(os.path.join(folder, "R"), two)
    words = [binary, "scan", "R", "--certs", "C"]
    status, report, _ = called(words, cwd=folder)
    certs = bytes_of(folder, "C")
    put(folder, "C", b"")
    without = called([*words, "--budget", "2"], cwd=folder)[0]
    no_query = (1 << 20).to_bytes(8, "big") + bytes(1 << 20) + bytes(8)
    large = HEADER + no_query * 17 + certs[len(HEADER):]
    put(folder, "C", large)
    accepted = verified(binary, folder, report)
    return (len(large) >= LEAST, without, accepted and accepted[0], called([*words, "--budget", "2"], cwd=folder), bytes_of(folder, "C")), (
        True, 4, 0, (status, report, b""), certs)


CASES = [report_of_many_bytes, certificates_of_many_bytes]
