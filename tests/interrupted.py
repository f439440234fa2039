"""Scans that are killed, or fail, at each call of the system that touches FILE, its folder or the new file beside it.

strace says which calls these are, and makes the program end, or the call fail, at each of them. FILE is then the old one or the new one,
whole, and the next scan ends as one that nothing befell, and leaves nothing beside FILE.
"""
import os
import random
import re
import shutil
import subprocess
import time

from common import Untested, bytes_of, named, needs, put, put_files, run
from rescans import CHOICE

WORDS = ["scan", "R", "--certs", "certs/C"]
# What a run that was killed may leave beside FILE up to the next one.
LEFT = {"C.new0", "D.new0"}
# What ended runs left in one of the cases, which a scan takes away.
EARLIER = {"C.new0", "C.new7"}
FAULT = (3, "", "gvis: fault: store certs/C\n")
# Errors by the calls that can have them: a full disk, a quota, a disk at fault, a read-only one, a folder that went away, no leave.
ERRORS = {"openat": ["ENOSPC", "EDQUOT", "EROFS", "EACCES", "ENOENT", "EMFILE", "EIO"], "write": ["ENOSPC", "EDQUOT", "EIO", "EFBIG"],
          "fsync": ["EIO", "ENOSPC", "EDQUOT"], "fchmod": ["EPERM", "EROFS"], "rename": ["EACCES", "ENOENT", "EROFS", "ENOSPC", "EDQUOT"],
          "read": ["EIO", "EISDIR"], "statx": ["EACCES", "EIO"], "readlink": ["EIO", "EACCES", "ELOOP"], "flock": ["ENOSYS", "ENOLCK"],
          "unlink": ["EACCES", "EROFS"], "close": ["EIO"]}


def old_certificates(place):
    put(place, "certs/C", b"old certificates\n" * 300)


def left_before(place):
    old_certificates(place)
    for name in EARLIER:
        put(place, "certs/" + name, b"gviscert2\n")


def linked(place):
    put(place, "elsewhere/D", b"old certificates\n" * 300)
    os.makedirs(os.path.join(place, "certs"))
    os.symlink("../elsewhere/D", os.path.join(place, "certs/C"))


def nothing(place):
    os.makedirs(os.path.join(place, "certs"))


def linked_to_nothing(place):
    os.makedirs(os.path.join(place, "elsewhere"))
    nothing(place)
    os.symlink("../elsewhere/D", os.path.join(place, "certs/C"))


BEFORE = {"no file": nothing, "an old file": old_certificates, "a link to one": linked, "a link to nothing": linked_to_nothing,
          "what ended runs left": left_before}


def made(before, folder):
    """A new folder with the repository and what stands at FILE before."""
    place = os.path.join(folder, "place")
    if os.path.exists(place):
        shutil.rmtree(place)
    put_files(os.path.join(place, "R"), CHOICE)
    BEFORE[before](place)
    return place


def file_at(place):
    path = os.path.join(place, "certs/C")
    return bytes_of(path) if os.path.exists(path) else None


def link_at(place):
    """Where FILE leads to, or nothing where it is no link."""
    path = os.path.join(place, "certs/C")
    return os.readlink(path) if os.path.islink(path) else None


def beside(place):
    """What stands in the folders of FILE besides it and what was there."""
    return {name for folder in ("certs", "elsewhere") if os.path.isdir(os.path.join(place, folder))
            for name in os.listdir(os.path.join(place, folder))} - {"C", "D"}


def touching(binary, place):
    """The calls of a scan that touch FILE, its folder or what stands beside it: the name, the how manieth of that name, and the line."""
    log = os.path.join(os.path.dirname(place), "log")
    if run(["strace", "-y", "-o", log, binary, *WORDS], cwd=place)[0] != 1:
        raise Untested("strace may trace nothing here")
    seen, found = {}, []
    for line in bytes_of(log).decode(errors="replace").splitlines():
        name = re.match(r"(\w+)\(", line)
        if name:
            seen[name[1]] = seen.get(name[1], 0) + 1
            if name[1] != "execve" and re.search(r"\bcerts\b|\belsewhere\b", line):
                found.append((name[1], seen[name[1]], line))
    return found


def with_fault(binary, place, name, number, fault):
    """A scan in which this call of the system ends the program, or fails."""
    return run(["strace", "-o", "/dev/null", "-e", f"trace={name}", "-e", f"inject={name}:{fault}:when={number}", binary, *WORDS], cwd=place)


def whole(before, binary, folder):
    """What a scan leaves that nothing befalls, the calls that touch its file, and the file before."""
    place = made(before, folder)
    old = file_at(place)
    calls = touching(binary, place)
    new = file_at(place)
    return run([binary, *WORDS], cwd=place), old, new, calls


COUNT = {"killed": 0, "calls failed": 0}


def told():
    return ", ".join(f"{count} {what}" for what, count in COUNT.items())


@needs("strace")
def killed(before, binary, folder):
    """Killed at each of these calls: FILE is the old or the new one, nothing stands beside it but one new file, and the next scan prints
    and leaves the same, and nothing else."""
    want, old, new, calls = whole(before, binary, folder)
    wrong = {}
    for name, number, line in calls:
        place = made(before, folder)
        link, may_be_left = link_at(place), beside(place) | LEFT
        status, out, _ = with_fault(binary, place, name, number, "signal=KILL")
        stands, left = file_at(place), beside(place)
        again = run([binary, *WORDS], cwd=place), file_at(place), beside(place)
        if (status, out) != (-9, "") or stands not in (old, new) or not left <= may_be_left or again != (want, new, set()) or link_at(place) != link:
            wrong[line] = status, out, stands, left, again
        COUNT["killed"] += 1
    return (len(calls) > 10, wrong), (True, {})


def changes_nothing(name, line, error):
    """Whether FILE is written all the same where this call fails: it closes; or lists the folder of FILE, or puts it on the disk; or says
    that nothing is there to be read, or that there are no locks; or looks at what ended runs left, or takes it away."""
    is_of_folder = re.search(r'(certs|elsewhere)(/?", O_RDONLY|>[,)])', line) is not None
    is_reading = name == "openat" and "O_RDONLY" in line and (error == "ENOENT" or ".new" in line)
    return name in ("close", "flock", "unlink") or is_of_folder or is_reading or name == "statx" and ".new" in line


@needs("strace")
def failed(before, binary, folder):
    """Each of these calls fails in each way: the scan ends with 3, FILE is as before and nothing stands beside it that didn't before; or,
    where that changes nothing of FILE, as one that nothing befell. A link stays one."""
    want, old, new, calls = whole(before, binary, folder)
    wrong = {}
    for name, number, line in calls:
        for error in ERRORS.get(name, ["EIO"]):
            place = made(before, folder)
            link, may_be_left = link_at(place), beside(place)
            got = with_fault(binary, place, name, number, f"error={error}")
            stands, left = file_at(place), beside(place)
            is_whole = (got, stands) == (want, new) and changes_nothing(name, line, error)
            if not left <= may_be_left or link_at(place) != link or (got, stands) != (FAULT, old) and not is_whole:
                wrong[error, line] = got, stands, left
            COUNT["calls failed"] += 1
    return wrong, {}


def killed_at_drawn_moments(binary, folder):
    """Killed after drawn times, a hundred scans in a row, each over what the ones before left: FILE is always whole, and behind the next
    scan that ends nothing else is left."""
    draw = random.Random(5)
    place = made("an old file", folder)
    old = file_at(place)
    began = time.monotonic()
    want = run([binary, *WORDS], cwd=place)
    takes, new = time.monotonic() - began, file_at(place)
    put(place, "certs/C", old)
    torn, most = [], 0
    for _ in range(100):
        with subprocess.Popen([binary, *WORDS], cwd=place, stdout=subprocess.DEVNULL, stderr=subprocess.DEVNULL) as scan:
            time.sleep(draw.random() * takes * 1.2)
            scan.kill()
        torn += [file_at(place)] * (file_at(place) not in (old, new))
        most = max(most, len(beside(place)))
    return (torn, most <= 1, run([binary, *WORDS], cwd=place), file_at(place), beside(place)), ([], True, want, new, set())


READ_ONLY = """
mount -t tmpfs -o size=64k none certs || exit 77
printf old >certs/C
mount -o remount,ro certs || exit 77
"$@"
echo "$? $(cat certs/C) $(cd certs && echo *)"
"""


@needs("unshare")
def read_only_disk(binary, folder):
    place = made("no file", folder)
    status, out, err = run(["unshare", "--map-root-user", "--mount", "sh", "-c", READ_ONLY, "sh", binary, *WORDS], cwd=place)
    if status == 77 or err.startswith("unshare: "):
        raise Untested("no disk can be mounted here")
    return (out, err), ("3 old C\n", FAULT[2])


CASES = [read_only_disk, killed_at_drawn_moments, *(named(f"{case.__name__}, {before}", case, before) for case in (killed, failed) for before in BEFORE)]
