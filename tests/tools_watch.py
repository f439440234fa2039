"""`gvis-watch` and the module that it shares: real files, the real program, and the kernel's notices."""
import os
import random
import re
import shutil
import signal
import subprocess
import sys
import threading
import time

import sessions
from common import TOP, WATCHDOG, content, entry, more_of, needs, put, put_files, run
from random_repositories import draw_repository

TOOL = os.path.join(TOP, "share/gvis-watch")
# A condition is waited for so long.
PATIENCE = 60
HEAD = re.compile(r"# (.*): (\d+) added, (\d+) gone, (\d+) lines?, \d+\.\d\d s")
BASE = {
    "profiles/profiles.desc": "amd64 base stable\n", "profiles/categories": "app\nx\n", "profiles/base/eapi": "8\n", "profiles/package.mask": "# none\n",
    "x/lib/lib-1.ebuild": "", "metadata/md5-cache/x/lib-1": entry(), "app/user/user-1.ebuild": "", "metadata/md5-cache/app/user-1": entry(RDEPEND="x/lib"),
}
GONE = "app/user-1: NonexistentDeps: RDEPEND: x/%s"
UNMET = 'app/user-1: NonsolvableDepsInStable: RDEPEND: amd64 base stable: USE="": x/%s'


class Shown:
    """A process, and the lines that it prints."""

    def __init__(self, words, **more):
        self.process = subprocess.Popen(words, stdin=subprocess.DEVNULL, stdout=subprocess.PIPE, **more)
        self.held = b""

    def line(self, seconds):
        """The next line, or nothing where it doesn't come in time or never will."""
        end = time.monotonic() + seconds
        while b"\n" not in self.held:
            more = more_of(self.process, self.held, end)
            if more is None:
                return None
            self.held = more
        line, self.held = self.held.split(b"\n", 1)
        return line.decode()


class Watch(Shown):
    """The tool over the folder R, and the lines that its report has by what it printed so far."""

    def __init__(self, binary, folder, *options, files=None):
        self.binary, self.folder, self.root = binary, folder, os.path.join(folder, "R")
        if files is not None:
            put_files(self.root, files)
        self.lines = self.scan(*options)
        self.marks = os.path.join(folder, "marks")
        os.makedirs(self.marks)
        self.said = open(os.path.join(folder, "said"), "w+", encoding="utf-8")
        super().__init__([sys.executable, TOOL, "--program", binary, *options, "R"], cwd=folder, stderr=self.said, env=dict(os.environ, TMPDIR=self.marks))
        self.heads = []
        self.first = self.block()

    def __enter__(self):
        return self

    def __exit__(self, *_):
        self.process.kill()
        self.process.wait()
        self.process.stdout.close()
        self.said.close()

    def scan(self, *options):
        """What a scan of the folder prints now, as a set of lines."""
        return set(run([self.binary, "scan", "R", "--certs", "C", "--fresh", *options], cwd=self.folder)[1].splitlines())

    def block(self, seconds=PATIENCE):
        """What the next head says happened, the lines that came and those that went; the report's lines are kept by them."""
        head = self.line(seconds)
        if head is None:
            return None
        happened, added, gone, count = HEAD.fullmatch(head).groups()
        came, went = ([self.line(PATIENCE) for _ in range(int(number))] for number in (added, gone))
        if not all(line.startswith("+ ") for line in came) or not all(line.startswith("- ") for line in went):
            raise AssertionError((head, came, went))
        came, went = ([line[2:] for line in found] for found in (came, went))
        if self.lines & set(came) or not set(went) <= self.lines:
            raise AssertionError(("told twice, or gone before it came", came, went))
        self.lines = self.lines - set(went) | set(came)
        if len(self.lines) != int(count):
            raise AssertionError((head, self.lines))
        self.heads.append(happened)
        return happened, came, went

    def until(self, lines):
        """Whether the report comes to these lines."""
        end = time.monotonic() + PATIENCE
        while self.lines != lines and time.monotonic() < end:
            if self.block(max(0, end - time.monotonic())) is None:
                return False
        return self.lines == lines

    def tells(self, text):
        """Whether it comes to be said on standard error."""
        end = time.monotonic() + PATIENCE
        while text not in content(self.folder, "said") and time.monotonic() < end:
            time.sleep(0.02)
        return text in content(self.folder, "said")

    def end(self, by=signal.SIGTERM):
        """The status behind a signal, what was said in all, and what it left where it makes its marks."""
        self.process.send_signal(by)
        status = self.process.wait(PATIENCE)
        return status, content(self.folder, "said"), os.listdir(self.marks)


def put_whole(root, path, text):
    """A file that takes the place of the one before at once."""
    put(root, path + ".~new", text)
    os.replace(os.path.join(root, path + ".~new"), os.path.join(root, path))


# What is shown

def what_a_change_adds_and_takes_away(binary, folder):
    with Watch(binary, folder, files=BASE) as watch:
        put_whole(watch.root, "profiles/package.mask", "x/lib\n")
        masked = watch.block()
        put_whole(watch.root, "metadata/md5-cache/app/user-1", entry(RDEPEND="x/none"))
        renamed = watch.block()
        put_whole(watch.root, "metadata/md5-cache/app/user-1", entry())
        mended = watch.block()
        return (watch.first, masked, renamed, mended, watch.end()), (
            ("R is watched", [], []), ("1 changed file", [UNMET % "lib"], []), ("1 changed file", [GONE % "none", UNMET % "none"], [UNMET % "lib"]),
            ("1 changed file", [], [GONE % "none", UNMET % "none"]), (0, "", []))


def options_are_those_of_the_session(binary, folder):
    with Watch(binary, folder, "--json", "--keywords", "NonexistentDeps", files=BASE) as watch:
        put_whole(watch.root, "metadata/md5-cache/app/user-1", entry(RDEPEND="x/none"))
        return (watch.block(), watch.end()[0]), (
            ("1 changed file", ['{"class":"RDEPEND","detail":"x/none","keyword":"NonexistentDeps","package":"app/user-1"}'], []), 0)


def drawn_edits_beside_scans(binary, folder):
    """Random repositories and edits of theirs, each of which the report comes to be of."""
    got = []
    for number in range(6):
        draw = random.Random(number + 400)
        files, other = draw_repository(draw), draw_repository(draw)
        with Watch(binary, os.path.join(folder, str(number)), files=files) as watch:
            if watch.first is None:
                continue
            files = dict(files)
            for _ in range(8):
                sessions.apply(files, watch.root, sessions.drawn_edit(draw, files, other))
                got.append(watch.until(watch.scan()))
            got.append(watch.end()[0] == 0)
    return (got, len(got) > 30), ([True] * len(got), True)


def ways_of_saving(binary, folder):
    """In place, in parts, by a file beside it, by another link, gone and back, in a new folder, with its folder, and from elsewhere."""
    lib, user = "metadata/md5-cache/x/lib-1", "metadata/md5-cache/app/user-1"
    got, want = {}, {}
    with Watch(binary, folder, files=BASE) as watch:
        root = watch.root

        def then(name, *came):
            got[name], want[name] = watch.until(set(came)) and watch.lines == watch.scan(), True

        put(root, user, entry(RDEPEND="x/a"))
        then("in place", GONE % "a", UNMET % "a")
        with open(os.path.join(root, user), "w", encoding="utf-8") as f:
            for part in entry(RDEPEND="x/b").splitlines(True):
                f.write(part)
                f.flush()
                time.sleep(0.005)
        then("in parts", GONE % "b", UNMET % "b")
        os.remove(os.path.join(root, user))
        then("gone", "app/user-1: MissingCache")
        os.link(put(folder, "other", entry(RDEPEND="x/c")), os.path.join(root, user))
        then("a link of another", GONE % "c", UNMET % "c")
        os.remove(os.path.join(root, lib))
        os.rename(os.path.join(root, "x"), os.path.join(root, "app/user/x"))
        then("the folder of a category", GONE % "c", UNMET % "c")
        os.rename(os.path.join(root, "app/user/x"), os.path.join(root, "x"))
        then("and back", GONE % "c", UNMET % "c", "x/lib-1: MissingCache")
        put_files(root, {lib: entry(), "x/c/c-1.ebuild": "", "metadata/md5-cache/x/c-1": entry()})
        then("a new package")
        shutil.move(os.path.join(root, "x/c"), os.path.join(folder, "c"))
        then("a package that is moved away", GONE % "c", UNMET % "c", "x/c-1: OrphanCache")
        shutil.move(os.path.join(folder, "c"), os.path.join(root, "x/c"))
        then("and back again")
        put_whole(root, "x/c/c-1.ebuild", "# more\n")
        then("an ebuild", GONE % "c", UNMET % "c", "x/c-1: StaleCache: ebuild")
        put_whole(root, "x/c/c-1.ebuild", "")
        then("as it was")
        os.rename(os.path.join(root, "profiles/base"), os.path.join(root, "profiles/other"))
        then("the folder of a profile", "profiles/profiles.desc:1: ProfileError: missing profile")
        put_whole(root, "profiles/profiles.desc", "amd64 other stable\n")
        then("another profile")
        put_files(root, {"profiles/other/package.mask/one": "x/c\n", "profiles/other/package.mask/two": ""})
        then("a folder of masks", UNMET.replace("base", "other") % "c")
        return (got, watch.end()), (want, (0, "", []))


def what_does_not_count_is_not_told(binary, folder):
    """Files that no scan reads, a file that is written as it was, and one that is only touched after it was put."""
    with Watch(binary, folder, files=BASE) as watch:
        put_files(watch.root, {"x/lib/Manifest": "a", "profiles/use.desc": "a", "metadata/md5-cache/x/.lib-1.swp": "a", "licenses/a": "a", ".git/HEAD": "a",
                               "x/lib/files/lib-1.ebuild": "a", "metadata/news/a/b": "a"})
        put_whole(watch.root, "metadata/md5-cache/x/lib-1", entry(KEYWORDS=""))
        first = watch.block()
        os.utime(os.path.join(watch.root, "metadata/md5-cache/x/lib-1"))
        put_whole(watch.root, "metadata/md5-cache/x/lib-1", entry(KEYWORDS=""))
        put_whole(watch.root, "metadata/md5-cache/x/lib-1", entry())
        second = watch.until(set())
        return (first, second, set(watch.heads[1:]), watch.end()), (("1 changed file", [UNMET % "lib"], []), True, {"1 changed file"}, (0, "", []))


# Bursts and moments

def many(count, number):
    """Entries of so many packages, each of which wants a package that isn't there, by a number."""
    return {f"metadata/md5-cache/app/p{at}-1": entry(RDEPEND=f"x/none{number}") for at in range(count)}


def with_many(count):
    files = dict(BASE, **many(count, 0))
    files.update({f"app/p{at}/p{at}-1.ebuild": "" for at in range(count)})
    return files


def a_burst_is_one_report(binary, folder):
    """A thousand changed entries."""
    with Watch(binary, folder, files=with_many(1000)) as watch:
        for path, text in many(1000, 1).items():
            put_whole(watch.root, path, text)
        happened, came, went = watch.block()
        return (happened, len(came), len(went), watch.lines == watch.scan(), watch.heads[1:], watch.end()), (
            "1000 changed files", 2000, 2000, True, ["1000 changed files"], (0, "", []))


def git_in(folder):
    """Git's commands in a repository R with 400 entries, in a commit of its branch `one`."""
    env = {"HOME": folder, "PATH": os.environ["PATH"], "GIT_CONFIG_NOSYSTEM": "1", "GIT_AUTHOR_NAME": "a", "GIT_AUTHOR_EMAIL": "a@b", "GIT_COMMITTER_NAME": "a",
           "GIT_COMMITTER_EMAIL": "a@b"}

    def git(*words):
        status, _, err = run(["git", "-c", "gc.auto=0", *words], cwd=os.path.join(folder, "R"), env=env)
        if status:
            raise AssertionError(err)

    put_files(os.path.join(folder, "R"), with_many(400))
    git("init", "-q", "-b", "one")
    git("add", "-A")
    git("commit", "-qm", "one")
    return git


@needs("git")
def a_checkout_is_one_report(binary, folder):
    """Of git, between two branches that differ in all entries; its lock of the index is waited for."""
    git = git_in(folder)
    git("checkout", "-qb", "two")
    put_files(os.path.join(folder, "R"), many(400, 2))
    git("commit", "-qam", "two")
    with Watch(binary, folder) as watch:
        git("checkout", "-q", "one")
        first = watch.block()[0]
        # (a lock that stands holds the report back; it is taken away while nothing else happens)
        put(watch.root, ".git/index.lock", "")
        put_whole(watch.root, "metadata/md5-cache/app/p0-1", entry())
        held_back = watch.block(1.0)
        for path, text in many(400, 3).items():
            put_whole(watch.root, path, text)
        os.remove(os.path.join(watch.root, ".git/index.lock"))
        second = watch.block()[0]
        return (first, held_back, second, watch.lines == watch.scan(), watch.end()), ("400 changed files", None, "400 changed files", True, (0, "", []))


@needs("git")
def a_rebase_is_one_report(binary, folder):
    """Of eight commits, each of which changes thirty entries."""
    git = git_in(folder)
    git("checkout", "-qb", "two")
    for at in range(8):
        put_files(os.path.join(folder, "R"), dict(list(many(400, 2).items())[at * 30:at * 30 + 30]))
        git("commit", "-qam", f"{at}")
    git("checkout", "-q", "one")
    put(os.path.join(folder, "R"), "profiles/package.mask", "x/lib\n")
    git("commit", "-qam", "mask")
    git("checkout", "-q", "two")
    with Watch(binary, folder) as watch:
        git("rebase", "-q", "one")
        reports = [watch.block() is not None]
        while watch.lines != watch.scan() and watch.block() is not None:
            reports.append(True)
        return (len(reports), watch.lines == watch.scan(), watch.end()), (1, True, (0, "", []))


def no_report_is_of_no_moment(binary, folder):
    """Two entries are changed in turn, the first of them always first: a report in which the second one is ahead, or more than one
    behind, is of files that never stood so."""
    files = dict(BASE, **many(2, 0), **{f"app/p{at}/p{at}-1.ebuild": "" for at in range(2)})
    rounds = 60
    with Watch(binary, folder, files=files) as watch:
        draw = random.Random(1)

        def write():
            for number in range(1, rounds + 1):
                for path, text in many(2, number).items():
                    put_whole(watch.root, path, text)
                    time.sleep(draw.choice([0, 0, 0.002, 0.03, 0.05, 0.1]))

        writer, seen = threading.Thread(target=write), []
        writer.start()
        while not seen or seen[-1] != (rounds, rounds):
            if watch.block() is None:
                break
            told = dict(re.findall(r"^app/p(\d)-1: NonexistentDeps: RDEPEND: x/none(\d+)$", "\n".join(watch.lines), re.M))
            seen.append((int(told["0"]), int(told["1"])))
        writer.join()
        wrong = [(first, second) for first, second in seen if not second <= first <= second + 1]
        return (wrong, seen[-1], seen == sorted(seen), len(seen) > 2, watch.end()), ([], (rounds, rounds), True, True, (0, "", []))


# What is told and recovered

def a_full_queue_of_notices(binary, folder):
    """While the tool stands still more notices come than the kernel keeps."""
    with Watch(binary, folder, files=BASE) as watch:
        most = int(content("/proc/sys/fs/inotify/max_queued_events"))
        if most > 200000:
            return "not tried", "not tried"
        watch.process.send_signal(signal.SIGSTOP)
        paths = [os.path.join(watch.root, "x/lib", name) for name in ("one", "two")]
        for _ in range(most // 4 + 1000):
            for path in paths:
                with open(path, "w", encoding="utf-8"):
                    pass
        put_whole(watch.root, "metadata/md5-cache/app/user-1", entry(RDEPEND="x/none"))
        watch.process.send_signal(signal.SIGCONT)
        full = watch.block()
        put_whole(watch.root, "metadata/md5-cache/app/user-1", entry())
        return (full, watch.block(), watch.end()), (
            ("read anew, as the queue of notices was full", [GONE % "none", UNMET % "none"], []), ("1 changed file", [], [GONE % "none", UNMET % "none"]), (0, "", []))


def a_vanished_folder(binary, folder):
    """It is told, waited for, and compared with what was there before."""
    with Watch(binary, folder, files=BASE) as watch:
        os.rename(watch.root, watch.root + " away")
        told = watch.tells("gvis-watch: R is gone; waiting for it\n")
        put(watch.root + " away", "profiles/package.mask", "x/lib\n")
        os.rename(watch.root + " away", watch.root)
        back = watch.block()
        put_whole(watch.root, "profiles/package.mask", "")
        return (told, back, watch.block(), watch.end()[0]), (
            True, ("read anew, as the folder was gone", [UNMET % "lib"], []), ("1 changed file", [], [UNMET % "lib"]), 0)


def files_without_a_report(binary, folder):
    """No repository, and a file that is too large: the session ends, the next change is waited for."""
    with Watch(binary, folder, files=BASE) as watch:
        os.rename(os.path.join(watch.root, "profiles/categories"), os.path.join(folder, "categories"))
        none = watch.tells("gvis-watch: no report: gvis session ended with status 6; the next change is waited for\n")
        os.rename(os.path.join(folder, "categories"), os.path.join(watch.root, "profiles/categories"))
        there = watch.block()
        put_whole(watch.root, "profiles/package.mask", "#" * 16777217)
        large = watch.tells("gvis-watch: no report: gvis session ended with status 7; the next change is waited for\n")
        put_whole(watch.root, "profiles/package.mask", "x/lib\n")
        return (none, there, large, watch.block(), watch.end()[0]), (
            True, ("read anew, as there was no report", [], []), True, ("read anew, as there was no report", [UNMET % "lib"], []), 0)


def session_of(watch):
    """The number of the session's process."""
    listed = run(["ps", "-o", "pid=,args=", "--ppid", str(watch.process.pid)])[1].splitlines()
    return next(int(line.split()[0]) for line in listed if " session " in line)


@needs("ps")
def a_session_that_ends(binary, folder):
    """Its pipe is broken while nothing happens, and while a change is told."""
    with Watch(binary, folder, files=BASE) as watch:
        os.kill(session_of(watch), signal.SIGKILL)
        again = watch.block()
        put_whole(watch.root, "profiles/package.mask", "x/lib\n")
        masked = watch.block()
        status, said, left = watch.end()
        return (again, masked, status, said, left), (
            ("read anew, as the session had ended", [], []), ("1 changed file", [UNMET % "lib"], []), 0, "gvis-watch: the session ended by itself\n", [])


@needs("ps")
def ended_by_a_signal(binary, folder):
    """Each ends it with 0, and neither its session nor its folder of marks is left."""
    got = {}
    for name in ("SIGINT", "SIGTERM", "SIGHUP"):
        with Watch(binary, os.path.join(folder, name), files=BASE) as watch:
            session = session_of(watch)
            ended = watch.end(getattr(signal, name))
            got[name] = ended, os.path.exists(f"/proc/{session}")
    return got, dict.fromkeys(got, ((0, "", []), False))


def ended_in_whatever_it_does(binary, folder):
    """At drawn moments behind a change: of an entry, of a mask, and of folders of profiles, behind which all is read anew."""
    got, draw = [], random.Random(3)
    for number in range(24):
        with Watch(binary, os.path.join(folder, str(number)), files=BASE) as watch:
            if number % 3 == 2:
                for name in ("one", "two", "three"):
                    os.mkdir(os.path.join(watch.root, "profiles", name))
                    time.sleep(draw.random() * 0.08)
            else:
                put_whole(watch.root, ("metadata/md5-cache/app/user-1", "profiles/package.mask")[number % 3], "x/lib\n")
                time.sleep(draw.random() * 0.15)
            got.append(watch.end())
    return got, [(0, "", [])] * 24


def nobody_reads(binary, folder):
    with Watch(binary, folder, files=BASE) as watch:
        watch.process.stdout.close()
        put_whole(watch.root, "profiles/package.mask", "x/lib\n")
        status = watch.process.wait(PATIENCE)
        watch.process.stdout = open(os.devnull, "rb")
        return (status, content(folder, "said"), os.listdir(watch.marks)), (1, "gvis-watch: nobody reads what is printed\n", [])


def what_cannot_be_watched(binary, folder):
    put_files(os.path.join(folder, "R"), BASE)
    put(folder, "none/watchdog.py", "raise ImportError('none')\n")
    return ([run([TOOL, *words], cwd=folder, env=dict(os.environ, **env))[0::2] for words, env in (
        (["--program", binary, "gone"], {}), (["--program", "gone", "R"], {}), (["--program", binary, "R"], {"PYTHONPATH": folder + "/none"}))],
        run([TOOL], cwd=folder)[0]), ([
            (1, "gvis-watch: gone is no folder\n"), (1, "gvis-watch: there is no command gone\n"),
            (1, "gvis-watch: the library watchdog can't be used (Debian's python3-watchdog has it): none\n")], 2)


def screencast():
    """The commands of share/README.md, and the lines that are shown, in order; seconds are left out."""
    block = re.search(r"^## gvis-watch\n.*?^```\n(.*?)^```", content(TOP, "share/README.md"), re.M | re.S)[1]
    return [(line[:1] == "$", re.sub(r", \d+\.\d\d s$", "", line[2:] if line[:1] == "$" else line.strip())) for line in block.splitlines()]


def the_screencast_is_so(binary, folder):
    """Its commands in turn, each when all lines before it were shown."""
    os.makedirs(os.path.join(folder, "bin"))
    os.symlink(binary, os.path.join(folder, "bin/gvis"))
    os.symlink(TOOL, os.path.join(folder, "bin/gvis-watch"))
    shutil.copytree(os.path.join(TOP, "examples/repo"), os.path.join(folder, "repo"))
    env = dict(os.environ, PATH=folder + "/bin:" + os.environ["PATH"])
    (_, start), *steps = screencast()
    shell = subprocess.Popen(["sh"], cwd=folder, stdin=subprocess.PIPE, text=True)
    shown = Shown(start[2:].split(), cwd=folder, env=env)
    got = []
    for is_typed, line in steps:
        if is_typed:
            shell.stdin.write(line.replace("/tmp", folder) + "\n")
            shell.stdin.flush()
            got.append((True, line))
        else:
            got.append((False, re.sub(r", \d+\.\d\d s$", "", shown.line(PATIENCE) or "nothing")))
    shown.process.send_signal(signal.SIGTERM)
    status = shown.process.wait(PATIENCE)
    shown.process.stdout.close()
    shell.communicate()
    return (got, status, shell.returncode), (steps, 0, 0)


# The shared module by itself

def differences_of_reports(_, folder):
    """Beside a plain reading, on random lines and with parts of all sizes."""
    sys.path.insert(0, os.path.join(TOP, "share"))
    import gvis_session
    sys.path.pop(0)
    wrong, draw, sizes = [], random.Random(7), (gvis_session.PARTS, gvis_session.FEW_LINES, gvis_session.MOST_PIECES)
    for number in range(3000):
        lines = [f"line {at}\n".encode() for at in range(draw.randrange(12))]
        before, after = (b"".join(sorted({line for line in lines if draw.random() < 0.8} | {f"more {draw.randrange(9)}\n".encode()})) for _ in range(2))
        gvis_session.PARTS, gvis_session.FEW_LINES, gvis_session.MOST_PIECES = (draw.randrange(1, 9), 1), draw.randrange(1, 4), draw.randrange(8)
        old, new = before.splitlines(), after.splitlines()
        if gvis_session.differences(before, after) != ([line for line in new if line not in old], [line for line in old if line not in new]):
            wrong.append(number)
    gvis_session.PARTS, gvis_session.FEW_LINES, gvis_session.MOST_PIECES = sizes
    return (wrong, gvis_session.differences(b"", b""), gvis_session.differences(b"", b"a\n"), gvis_session.differences(b"a\n", b"")), (
        [], ([], []), ([b"a"], []), ([], [b"a"]))


CASES = [differences_of_reports, what_cannot_be_watched]
for case in (
        what_a_change_adds_and_takes_away, options_are_those_of_the_session, drawn_edits_beside_scans, ways_of_saving, what_does_not_count_is_not_told,
        a_burst_is_one_report, a_checkout_is_one_report, a_rebase_is_one_report, no_report_is_of_no_moment, a_full_queue_of_notices, a_vanished_folder, files_without_a_report,
        a_session_that_ends, ended_by_a_signal, ended_in_whatever_it_does, nobody_reads, the_screencast_is_so):
    CASES.append(needs(WATCHDOG, *getattr(case, "needs", ()))(case))
