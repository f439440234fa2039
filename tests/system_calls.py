"""Each call of the system that a run makes for its files and streams is interrupted by a signal, or finds no memory, in turn. strace says
which calls these are, and makes them fail. And in which order a new file comes to the disk.
"""
import os
import re
import signal
import subprocess
import time

from common import Untested, bytes_of, called, named, needs, put, put_files, run
from interrupted import BEFORE, WORDS, beside, made
from rescans import REPORT
from run import parts_that_differ
from waiting_client import FILES, MISSING, reply

OUT_OF_MEMORY = b"gvis: out of memory\n"
SCRIPT = b"report\ncut metadata/md5-cache/app/q-1\nreport\nend\n"


def content_of(path):
    """A file's bytes, or where a link leads to."""
    return os.readlink(path) if os.path.islink(path) else bytes_of(path)


def but_new_files(left):
    return {name: content for name, content in left.items() if ".new" not in name}


class Runs:
    """Runs of one command in a folder that is made anew each time."""

    def __init__(self, binary, folder, words, make):
        self.words, self.folder, self.make = [binary, *words], folder, make
        self.log = os.path.join(folder, "log")

    def ended(self, *traced):
        """Status, output and errors, and what stands beside the repository."""
        place = self.make(self.folder)
        script = os.path.join(self.folder, "script")
        put(self.folder, "script", SCRIPT)
        with open(script, "rb") as given:
            got = called(["strace", "-y", "-o", self.log if not traced else "/dev/null", *traced, *self.words], cwd=place, stdin=given)
        return got, {os.path.relpath(path, place): content_of(path) for path in (os.path.join(at, name) for at, _, names in os.walk(place) for name in names)}

    def calls(self):
        """How the run ends that nothing befalls, and of its calls the name, the how manieth of that name, and the line."""
        whole = self.ended()
        if not os.path.exists(self.log) or not re.search(rb"^\+\+\+ exited with", bytes_of(self.log), re.M):
            raise Untested("strace may trace nothing here")
        place = re.escape(os.path.join(self.folder, "place"))
        meant = re.compile(rf'\w+\((AT_FDCWD<[^>]*>, )?("(?!/)|"{place}|\d+<{place}|[012]<)')
        seen, found = {}, []
        for line in bytes_of(self.log).decode(errors="replace").splitlines():
            name = re.match(r"(\w+)\(", line)
            if name:
                seen[name[1]] = seen.get(name[1], 0) + 1
                if meant.match(line) and name[1] not in ("execve", "getrandom"):
                    found.append((name[1], seen[name[1]], line))
        return whole, found

    def failing(self, name, number, error):
        return self.ended("-e", f"trace={name}", "-e", f"inject={name}:error={error}:when={number}")


def place_of(before):
    return lambda folder: made(before, folder)


def kept(folder):
    """A repository with its report and no certificates, which a verification refuses."""
    place = made("an old file", folder)
    put(place, "P", REPORT)
    return place


def session(folder):
    place = made("no file", folder)
    put_files(os.path.join(place, "R"), FILES)
    return place


RUNS = {**{f"scan, {before}": (WORDS, place_of(before)) for before in BEFORE},
        "verify": (["verify", "R", "--certs", "certs/C", "--report", "P"], kept), "session": (["session", "R"], session)}
COUNT = {"calls interrupted": 0, "without memory": 0}


def told():
    return ", ".join(f"{count} {what}" for what, count in COUNT.items())


@needs("strace")
def interrupted(run_of, binary, folder):
    """Each call is made again: the run ends and leaves all as if nothing had come in between."""
    whole, calls = Runs(binary, folder, *run_of).calls()
    wrong = {}
    for name, number, line in calls:
        got = Runs(binary, folder, *run_of).failing(name, number, "EINTR")
        if got != whole:
            wrong[line] = got[0], parts_that_differ(got[1], whole[1])
        COUNT["calls interrupted"] += 1
    return (len(calls) > 30, wrong), (True, {})


def is_needless(name, line):
    """Whether a run can do without the call: it closes; or lists or keeps the folder of FILE, or looks at what ended runs left there."""
    return name in ("close", "flock", "unlink") or re.search(r'certs(/")|(certs|elsewhere)(/?", O_RDONLY|>\))|(certs|elsewhere)>, 0x|\.new\d', line) is not None


@needs("strace")
def without_memory(run_of, binary, folder):
    """The system has none for a call: the run ends with 5, and FILE and what is beside it are as before; or, where it can do without the
    call, as if nothing had been wanted. The input alone fails by it."""
    whole, calls = Runs(binary, folder, *run_of).calls()
    before = Runs(binary, folder, ["no words"], run_of[1]).ended()[1]
    wrong = {}
    for name, number, line in calls:
        (status, out, err), left = got = Runs(binary, folder, *run_of).failing(name, number, "ENOMEM")
        is_output = re.match(r"write\(1<", line) is not None
        stands = whole[1] if is_output else before
        if line.startswith("read(0<"):
            ended = (status, err) == (3, b"gvis: fault: input\n")
        elif line.startswith("write(2<"):
            ended = status == whole[0][0]
        else:
            ended = (status, err) == (5, OUT_OF_MEMORY)
        as_it_stood = but_new_files(left) == but_new_files(stands) and set(left) <= set(before) | set(stands)
        if not (ended and whole[0][1].startswith(out) and as_it_stood) and not (is_needless(name, line) and got[0] == whole[0]):
            wrong[line] = got[0], parts_that_differ(left, stands)
        COUNT["without memory"] += 1
    return wrong, {}


@needs("strace")
def input_fails_at_each_read(binary, folder):
    """What the commands before write is written, and then the fault is told."""
    runs = Runs(binary, folder, *RUNS["session"])
    whole, calls = runs.calls()
    reads = [number for name, number, line in calls if line.startswith("read(0<")]
    got = [runs.failing("read", number, "EIO")[0] for number in reads]
    return (whole[0], len(reads) > 0, got), ((0, reply(MISSING) * 2, b""), True, [(3, b"", b"gvis: fault: input\n")] * len(reads))


def steps_of(binary, folder, before):
    """What is done at FILE's folder from the new file on, as the calls' names and the last parts of their paths."""
    runs = Runs(binary, folder, *RUNS[f"scan, {before}"])
    lines = [line for _, _, line in runs.calls()[1] if re.search(r"\b(certs|elsewhere)\b", line)]
    at = next(n for n, line in enumerate(lines) if "O_CREAT" in line)
    bare = [re.sub("AT_FDCWD<[^>]*>", "", line) for line in lines[at:] if not line.startswith(("close", "statx"))]
    return [(re.match(r"\w+", line)[0], *re.findall(r'[/"](\w+(?:\.new\d+)?)(?:>[,)]|")', line)) for line in bare]


@needs("strace")
def new_file_is_on_the_disk_first(before, binary, folder):
    """It is filled and on the disk before it takes the old one's place; then its folder is."""
    at, name = ("elsewhere", "D") if "link" in before else ("certs", "C")
    new = name + ".new0"
    permissions = [("fchmod", new)] if "old" in before or before == "a link to one" else []
    return steps_of(binary, folder, before), [
        ("openat", new), ("flock", new), *permissions, ("write", new), ("fsync", new), ("rename", new, name), ("openat", at), ("fsync", at)]


def goes_on(process):
    """What the process runs goes on where it is stopped, up to its end."""
    while process.poll() is None:
        for pid in bytes_of(f"/proc/{process.pid}/task/{process.pid}/children").split():
            os.kill(int(pid), signal.SIGCONT)
        time.sleep(0.05)


@needs("strace")
def file_that_is_still_written(binary, folder):
    """A scan is stopped when its new file is filled, and meanwhile another one replaces FILE: it takes nothing from the first."""
    place = made("an old file", folder)
    put(place, "certs/C.new3", b"left by an ended run")
    new = os.path.join(place, "certs/C.new0")
    words = ["strace", "-o", "/dev/null", "-e", "trace=fsync", "-e", "inject=fsync:signal=STOP:when=1", binary, *WORDS]
    with subprocess.Popen(words, cwd=place, stdout=subprocess.PIPE, stderr=subprocess.PIPE) as first:
        while first.poll() is None and not (os.path.exists(new) and os.path.getsize(new)):
            time.sleep(0.02)
        other = run([binary, *WORDS], cwd=place), beside(place), bytes_of(place, "certs/C")[:10]
        goes_on(first)
        ended = first.communicate(timeout=60) + (first.returncode,)
    last = bytes_of(place, "certs/C")
    again = run([binary, *WORDS], cwd=place), bytes_of(place, "certs/C") == last, beside(place)
    want = (1, REPORT, "")
    return (other, ended, again), ((want, {"C.new0"}, b"gviscert2\n"), (REPORT.encode(), b"", 1), (want, True, set()))


CASES = [
    *(named(f"{case.__name__}, {name}", case, run_of) for case in (interrupted, without_memory) for name, run_of in RUNS.items()),
    input_fails_at_each_read, file_that_is_still_written,
    *(named(f"new_file_is_on_the_disk_first, {before}", new_file_is_on_the_disk_first, before) for before in ("no file", "an old file", "a link to one", "a link to nothing")),
]
