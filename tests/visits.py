"""Trees whose directories are visited again and again: where the room of a load is spent the run ends with 5, within a minute of the
processor and three gigabytes; what stays within it is read. `bench/hostile.py` has the trees.
"""
import os
import resource
import subprocess
import sys

from common import TOP, named

sys.path.append(os.path.join(TOP, "bench"))
import hostile  # noqa: E402

SECONDS, MOST = 60, 3 << 20
SPENT = "parents-twice-above-many-lines", "visits-of-many-lines", "visits-of-many-masks", "lines-above-many-flags", "values-at-each-visit"
READ = "parents-twice", "values-within-their-room", "lines-of-one-folder"


def limited():
    """More memory than a run may take, so that a run that takes it is seen, and ends."""
    resource.setrlimit(resource.RLIMIT_AS, (8 << 30, 8 << 30))
    resource.setrlimit(resource.RLIMIT_CPU, (SECONDS, SECONDS + 1))


def scanned(kind, statuses, said, binary, folder):
    hostile.make(kind, os.path.join(folder, "R"))
    with open(os.path.join(folder, "err"), "w+b") as err:
        child = subprocess.Popen([binary, "scan", "R", "--certs", "C"], cwd=folder, stdin=subprocess.DEVNULL, stdout=subprocess.DEVNULL, stderr=err,
                                 preexec_fn=limited)
        _, status, used = os.wait4(child.pid, 0)
        err.seek(0)
        told = err.read()
    return (os.waitstatus_to_exitcode(status) in statuses, told, used.ru_maxrss <= MOST), (True, said, True)


CASES = [named(kind.replace("-", "_"), scanned, kind, (5,), b"gvis: out of memory\n") for kind in SPENT]
CASES += [named(kind.replace("-", "_"), scanned, kind, (0, 1), b"") for kind in READ]
