"""A repository held open: a session of gvis, the kernel's notices of changed files, and the report of each moment.

What `gvis-watch`, `gvis-language-server` and the hook share. `Held.open` gives the report of the files as they are, `Held.next` waits for a change
and gives the next one, and `Held.edited` the one of what an editor has and didn't save. A report is always one of files as they stood at one moment: the files that notices name are read,
then a mark is made in a folder of its own and the notices before it are taken, and only where none of these names a file again the
session is told and asked. After a load, which reads the disk, the same is asked once more.

The notices are those of Linux (inotify), by the library `watchdog` (Debian's python3-watchdog), by its calls of the kernel: its
observers hold notices back for half a second, and lose that the queue was full.
"""
import ctypes
import errno
import fcntl
import os
import re
import select
import shutil
import signal
import struct
import subprocess
import sys
import tempfile
import time

DEBIAN = "/usr/lib/python3/dist-packages"
# Seconds without a notice behind which a change is complete: of few files, of many, as a checkout writes them with pauses, and while git
# rebases, which writes one commit behind the other.
QUIET, QUIET_OF_MANY, QUIET_OF_REBASE, MANY = 0.04, 0.4, 1.0, 10
# A lock of git's index is waited for so long, and a vanished folder is looked for so often.
LOCKED, LOOK_AGAIN = 20.0, 0.2
# No wait takes longer: Python tells of a signal that comes just before one only behind it.
LONGEST_WAIT = 1.0
LARGEST_FILE, LONGEST_PATH, MOST_COMMANDS = 16777216, 4096, 1000000
# Linux's number of the call that sets how much a pipe holds, and what one holds that gives long reports.
SIZE_OF_PIPE, PIPE = 1031, 1 << 20
# The signals that end a tool.
ENDING = (signal.SIGINT, signal.SIGTERM, signal.SIGHUP)
CACHE = "metadata/md5-cache/"
PF = re.compile(r"[A-Za-z0-9_][A-Za-z0-9+_-]*-\d+(\.\d+)*[a-z]?(_(alpha|beta|pre|rc|p)\d*)*(-r\d+)?")
FILE_OR_FOLDER = {"use.mask", "use.force", "use.stable.mask", "use.stable.force", "package.mask", "package.use.mask", "package.use.force",
                  "package.use.stable.mask", "package.use.stable.force"}
OF_PROFILES = FILE_OR_FOLDER | {"profiles.desc", "categories", "eapi", "parent", "make.defaults"}


class CannotWatch(Exception):
    """Why no repository can be held open here."""


class Ended(Exception):
    """The session ended by itself; its status."""


class Anew(Exception):
    """Why all has to be read anew."""


class Vanished(Exception):
    """The repository's folder is gone."""


# ---- the end by a signal

class Stopped(Exception):
    """A signal asks for the end."""


class Whole:
    """What is made or closed in it is so wholly: where a signal asks for the end meanwhile, it is heard behind it."""

    def __init__(self):
        self.depth, self.is_asked = 0, False

    def stop(self, *_):
        self.is_asked = True
        self.hear()

    def hear(self):
        if self.is_asked and not self.depth:
            self.is_asked = False
            raise Stopped

    def __enter__(self):
        self.depth += 1

    def __exit__(self, *_):
        self.depth -= 1
        self.hear()


WHOLE = Whole()


# ---- which files and folders count

def is_entry(path):
    return path.startswith(CACHE)


def counts(path):
    """Whether a scan may read a file at this path."""
    parts = path.split("/")
    if not re.fullmatch("[!-~]+", path) or len(path) > LONGEST_PATH:
        return False
    if is_entry(path):
        return len(parts) == 4 and PF.fullmatch(parts[-1]) is not None
    if path.endswith(".ebuild"):
        return len(parts) == 3
    if path.endswith(".eclass"):
        return len(parts) == 2 and parts[0] == "eclass"
    return parts[-1] in OF_PROFILES or len(parts) > 1 and parts[-2] in FILE_OR_FOLDER


def is_watched(folder):
    """Whether such files may stand in the folder: all of profiles, and elsewhere the folders of entries, packages and eclasses."""
    parts = folder.split("/")
    deepest = 3 if is_entry(folder + "/") else 2
    return parts[0] == "profiles" or not parts[0].startswith(".") and len(parts) <= deepest


def joined(folder, name):
    return f"{folder}/{name}" if folder else name


# ---- the session

class Session:
    """The program's session over a folder."""

    def __init__(self, program, root, options, **more):
        self.process = subprocess.Popen([program, "session", root, *options], stdin=subprocess.PIPE, stdout=subprocess.PIPE, **more)
        # (whether no command is being told and no report written)
        self.commands, self.is_idle = 0, True
        try:
            fcntl.fcntl(self.process.stdout, SIZE_OF_PIPE, PIPE)
        except OSError:
            # (a smaller one is slower and no more)
            pass

    def send(self, command):
        self.is_idle = False
        try:
            self.process.stdin.write(command)
            self.process.stdin.flush()
        except OSError:
            raise self.ended() from None
        self.commands += 1

    def put(self, path, content):
        """The file at the path has these bytes; with None there is no file."""
        where = path.encode("ascii")
        self.send(b"cut %s\n" % where if content is None else b"put %s %d\n%s\n" % (where, len(content), content))
        self.is_idle = True

    def report(self):
        self.send(b"report\n")
        head = self.process.stdout.readline()
        length = int(head.split()[1]) if head else 0
        text = self.process.stdout.read(length)
        if not head or len(text) < length:
            raise self.ended()
        self.is_idle = True
        return text

    def ended(self):
        # (it is about to end, however busy the machine is)
        self.is_idle = True
        self.stop(10.0)
        return Ended(self.process.returncode)

    def stop(self, seconds=0.2):
        """Ends it, in whatever it is, and by a signal where that takes longer."""
        if self.process.stdin.closed:
            return
        if not self.is_idle:
            self.process.terminate()
        try:
            self.process.stdin.write(b"end\n")
        except OSError:
            pass
        for pipe in (self.process.stdin, self.process.stdout):
            try:
                pipe.close()
            except OSError:
                pass
        try:
            self.process.wait(seconds)
        except subprocess.TimeoutExpired:
            self.process.terminate()
            self.process.wait()


# ---- the kernel's notices

def calls_of_the_kernel():
    """Watchdog's module of inotify. Debian's serves another Python of the machine too."""
    try:
        from watchdog.observers import inotify_c
    except ImportError:
        sys.path.append(DEBIAN)
        try:
            from watchdog.observers import inotify_c
        except Exception as why:
            raise CannotWatch(f"the library watchdog can't be used (Debian's python3-watchdog has it): {why}") from None
        finally:
            sys.path.remove(DEBIAN)
    return inotify_c


class Notices:
    """Which files and folders below a root changed, as the kernel tells it, in order."""

    def __init__(self, root):
        self.kernel, self.root = calls_of_the_kernel(), root
        self.what = self.kernel.InotifyConstants
        self.wanted = (self.what.IN_MODIFY | self.what.IN_CLOSE_WRITE | self.what.IN_CREATE | self.what.IN_DELETE | self.what.IN_MOVED_FROM
                       | self.what.IN_MOVED_TO | self.what.IN_ATTRIB | self.what.IN_DELETE_SELF | self.what.IN_MOVE_SELF | self.what.IN_ONLYDIR)
        self.handle = self.kernel.inotify_init()
        if self.handle < 0:
            raise CannotWatch(f"the kernel gives no notices: {os.strerror(ctypes.get_errno())}")
        os.set_blocking(self.handle, False)
        # (of each number its folder, and of each folder its number, its folders and its files)
        self.folders, self.numbers, self.inner, self.files = {}, {}, {}, {}
        self.marks, self.made, self.passed_marks = tempfile.mkdtemp(prefix="gvis-"), 0, 0
        self.mark_number = self.number_of(self.marks)

    def close(self):
        os.close(self.handle)
        shutil.rmtree(self.marks, ignore_errors=True)

    def number_of(self, path):
        """The kernel's number of a folder that is watched from now on; nothing where it is gone."""
        number = self.kernel.inotify_add_watch(self.handle, os.fsencode(path), self.wanted)
        if number >= 0:
            return number
        why = ctypes.get_errno()
        if why in (errno.ENOENT, errno.ENOTDIR, errno.ELOOP):
            return None
        more = " (sysctl fs.inotify.max_user_watches)" if why == errno.ENOSPC else ""
        raise CannotWatch(f"{path} can't be watched: {os.strerror(why)}{more}")

    def add(self, folder, above=()):
        """Watches a folder and those in it; the files there that count."""
        place = os.path.join(self.root, folder)
        number, real = self.number_of(place), os.path.realpath(place)
        if number is None or real in above:
            return set()
        # (two links to one folder have one number: the later one names it)
        self.folders[number], self.numbers[folder], self.inner[folder], self.files[folder] = folder, number, set(), set()
        found = set()
        try:
            with os.scandir(place) as listing:
                entries = [(entry.name, entry.is_dir()) for entry in listing]
        except OSError:
            return set()
        for name, is_folder in entries:
            path = joined(folder, name)
            if is_folder and is_watched(path):
                self.inner[folder].add(path)
                found |= self.add(path, (*above, real))
            elif not is_folder and counts(path):
                self.files[folder].add(name)
                found.add(path)
        return found

    def drop(self, folder):
        """Forgets a folder and those in it; the files that were there."""
        if folder not in self.numbers:
            return set()
        number = self.numbers.pop(folder)
        if self.folders.get(number) == folder:
            del self.folders[number]
            self.kernel.inotify_rm_watch(self.handle, number)
        found = {joined(folder, name) for name in self.files.pop(folder)}
        for inner in self.inner.pop(folder):
            found |= self.drop(inner)
        return found

    def wait(self, seconds, *others):
        """Whether notices are there within so many seconds, or one of the others can be read."""
        return bool(select.select([self.handle, *others], [], [], seconds)[0])

    def raw(self):
        """The notices that are there: of each the folder's number, what, and the name."""
        while True:
            try:
                content = os.read(self.handle, 1 << 18)
            except BlockingIOError:
                return
            at = 0
            while at < len(content):
                number, mask, _, length = struct.unpack_from("iIII", content, at)
                name = content[at + 16:at + 16 + length].rstrip(b"\0")
                at += 16 + length
                yield number, mask, os.fsdecode(name)

    def read(self):
        """The paths of files that the notices so far name."""
        found = set()
        for number, mask, name in self.raw():
            if mask & self.what.IN_Q_OVERFLOW:
                raise Anew("the queue of notices was full")
            if number == self.mark_number:
                self.passed_marks = max(self.passed_marks, int(name or 0))
            elif number in self.folders:
                found |= self.told(self.folders[number], mask, name)
        return found

    def told(self, folder, mask, name):
        """The paths that one notice names."""
        gone = self.what.IN_DELETE_SELF | self.what.IN_MOVE_SELF | self.what.IN_UNMOUNT
        if not name:
            if not folder and mask & gone:
                raise Vanished
            return set()
        path = joined(folder, name)
        if not mask & self.what.IN_ISDIR:
            return {path} if counts(path) else set()
        if not is_watched(path) or not mask & (self.what.IN_CREATE | self.what.IN_DELETE | self.what.IN_MOVED_FROM | self.what.IN_MOVED_TO):
            return set()
        if path.split("/")[0] == "profiles":
            # (a session can't be told of a folder without files)
            raise Anew(f"the folder {path} came or went")
        found = self.drop(path)
        self.inner[folder].discard(path)
        if os.path.isdir(os.path.join(self.root, path)):
            self.inner[folder].add(path)
            found |= self.add(path)
        return found

    def passed(self):
        """The paths of all notices up to now: a mark is made, and read until it comes."""
        self.made += 1
        mark = os.path.join(self.marks, str(self.made))
        with open(mark, "wb"):
            pass
        os.remove(mark)
        found = self.read()
        while self.passed_marks < self.made:
            self.wait(LONGEST_WAIT)
            found |= self.read()
        return found


# ---- the repository

class Held:
    """A repository held open. `tell` gets what is said besides: where it waits, and why a report fails."""

    def __init__(self, program, root, options, tell):
        self.program, self.root, self.options, self.tell = program, root, options, tell
        # (what was put and cut, and how often in all)
        self.notices, self.session, self.put, self.edits = None, None, {}, 0
        # (the bytes of files that an editor has and didn't save, by their paths)
        self.unsaved = {}
        if not os.path.isdir(root):
            raise CannotWatch(f"{root} is no folder")

    def close(self):
        with WHOLE:
            for part in (self.session and self.session.stop, self.notices and self.notices.close):
                if part:
                    part()
            self.notices, self.session, self.put = None, None, {}

    def open(self):
        """The report of the files as they are, or nothing where there is none: then the next one comes behind a change."""
        while True:
            self.close()
            self.wait_for_the_folder()
            try:
                with WHOLE:
                    self.notices = Notices(self.root)
                self.notices.add("")
                with WHOLE:
                    self.session = Session(self.program, self.root, self.options)
                text = self.session.report()
                paths = self.notices.passed() | set(self.unsaved)
                return self.changed(self.settled(paths)) if paths else text
            except Ended as status:
                return self.ended(status)
            except (Anew, Vanished):
                continue

    def wait_for_the_folder(self):
        if not os.path.isdir(self.root):
            self.tell(f"{self.root} is gone; waiting for it")
        while not os.path.isdir(self.root):
            time.sleep(LOOK_AGAIN)

    def ended(self, status):
        self.session = None
        self.tell(f"no report: gvis session ended with status {status}; the next change is waited for")

    def next(self, *others):
        """Waits for a change: how many files changed, why all was read anew or nothing, when that began, and the report, or nothing where
        there is none. Nothing at all, where one of the others can be read first."""
        return self.behind(lambda: self.first_paths(others))

    def edited(self, paths):
        """The same for paths whose unsaved bytes changed, came or went."""
        return self.behind(lambda: paths)

    def behind(self, find_paths):
        try:
            paths = find_paths()
            begin = time.monotonic()
            if paths is None:
                return None
            if not paths:
                return 0, "the session had ended", begin, self.open()
            paths = self.settled(paths)
            if self.session is None:
                return 0, "there was no report", begin, self.open()
            before = self.edits
            text = self.changed(paths)
            return self.edits - before, None, begin, text
        except Ended as status:
            return 0, None, time.monotonic(), self.ended(status)
        except Anew as why:
            begin = time.monotonic()
            return 0, str(why), begin, self.open()
        except Vanished:
            begin = time.monotonic()
            return 0, "the folder was gone", begin, self.open()

    def first_paths(self, others):
        """The paths of the first notices that name some; an empty set where the session ended meanwhile, nothing where one of the others
        can be read."""
        output = [self.session.process.stdout] if self.session else []
        while True:
            if not self.notices.wait(LONGEST_WAIT, *output, *others):
                continue
            paths = self.notices.read()
            if paths:
                return paths
            if others and select.select(others, [], [], 0)[0]:
                return None
            if output and select.select(output, [], [], 0)[0]:
                self.tell("the session ended by itself")
                return set()

    def settled(self, paths):
        """These paths and those of more notices, until none came for a while and git isn't at work."""
        end = time.monotonic() + LOCKED
        while self.notices.wait(self.quiet(paths)) or self.is_locked() and time.monotonic() < end:
            paths |= self.notices.read()
        return paths

    def quiet(self, paths):
        """Seconds without a notice behind which a change of these paths is complete."""
        if any(os.path.isdir(os.path.join(self.root, ".git", name)) for name in ("rebase-merge", "rebase-apply")):
            return QUIET_OF_REBASE
        return QUIET_OF_MANY if len(paths) > MANY else QUIET

    def is_locked(self):
        return os.path.exists(os.path.join(self.root, ".git/index.lock"))

    def changed(self, paths):
        """The report of a moment at which the files at these paths are as they are read."""
        while True:
            contents = {path: self.content(path) for path in paths}
            more = self.notices.passed()
            if more:
                paths = self.settled(paths | more)
                continue
            self.edit(contents)
            text = self.session.report()
            # (a report behind edits of entries alone reads nothing of the disk)
            paths = set() if all(map(is_entry, contents)) else self.notices.passed()
            if not paths:
                return text

    def content(self, path):
        """The bytes of a file, or nothing where there is none."""
        if path in self.unsaved:
            return self.unsaved[path]
        try:
            with open(os.path.join(self.root, path), "rb") as f:
                content = f.read(LARGEST_FILE + 1)
        except (FileNotFoundError, NotADirectoryError, IsADirectoryError):
            if path.startswith("profiles/"):
                # (the folder of a file that goes may stay, which a session can't be told)
                raise Anew(f"{path} went") from None
            return None
        except OSError as why:
            raise Anew(f"{path} can't be read ({why.strerror})") from None
        if len(content) > LARGEST_FILE:
            raise Anew(f"{path} has more than {LARGEST_FILE} bytes")
        return content

    def edit(self, contents):
        """Tells the session of those that it doesn't have so."""
        if self.session.commands + len(contents) + 2 > MOST_COMMANDS:
            raise Anew("a session has no more commands")
        for path, content in sorted(contents.items()):
            if path not in self.put or self.put[path] != content:
                self.session.put(path, content)
                self.put[path] = content
                self.edits += 1
                folder, _, name = path.rpartition("/")
                names = self.notices.files.get(folder, set())
                (names.discard if content is None else names.add)(name)


# ---- for the tools

def find_program(named=None):
    """The command gvis: the one that is named, on PATH, or beside the tools, as in a checkout."""
    here = os.path.dirname(os.path.realpath(__file__))
    beside = [os.path.normpath(os.path.join(here, up, name)) for up, name in (("..", "gvis"), ("../../bin", "gvis"))]
    found = named or shutil.which("gvis") or next((path for path in beside if os.path.isfile(path) and os.access(path, os.X_OK)), "gvis")
    if not shutil.which(found):
        raise CannotWatch(f"there is no command {found}")
    return shutil.which(found)


def options_of(given):
    """The options of a session that a tool was given."""
    return [f"--{name}={getattr(given, name)}" for name in ("keywords", "profiles", "budget") if getattr(given, name)]


def add_options(parser):
    """The words of a tool that holds a repository open."""
    parser.add_argument("--keywords", metavar="LIST", help="tell only these kinds of reports")
    parser.add_argument("--profiles", metavar="LIST", help="ask only in these profiles")
    parser.add_argument("--budget", metavar="N", help="how many sets of flags one query may keep")
    parser.add_argument("--program", metavar="GVIS", help="the command gvis, where it isn't on PATH")


# How many bytes of two texts are compared at once, and then of what differs; so many lines are looked at first for one that both have; and
# how many pieces are found so: the rest is compared at once.
PARTS, FEW_LINES, MOST_PIECES = (1 << 16, 1 << 12, 1 << 8, 1 << 4, 1), 32, 1000


def alike(one, at, other, there):
    """How many bytes of two texts are the same from these places on."""
    count, most = 0, min(len(one) - at, len(other) - there)
    for part in PARTS:
        while count + part <= most and one[at + count:at + count + part] == other[there + count:there + count + part]:
            count += part
    return count


def lines_behind(text, at, most):
    """At most so many lines from a place on, with their line feeds."""
    found = []
    while len(found) < most and at < len(text):
        end = text.find(b"\n", at) + 1 or len(text)
        found.append(text[at:end])
        at = end
    return found


def differences(before, after):
    """The lines that a report has and the one before hadn't, and those that went, both in order. No report has a line twice."""
    # (of a long report nearly all is as before, in many pieces where many packages name what was changed)
    went, came, at, there, most, pieces = [], [], 0, 0, FEW_LINES, 0
    while (at < len(before) or there < len(after)) and pieces < MOST_PIECES:
        whole = before.rfind(b"\n", at, at + alike(before, at, after, there)) + 1
        at, there = (whole, there + whole - at) if whole else (at, there)
        old, new = lines_behind(before, at, most), lines_behind(after, there, most)
        places = {line: place for place, line in enumerate(new)}
        in_old = next((place for place, line in enumerate(old) if line in places), None)
        if in_old is None and (len(old) == most or len(new) == most):
            most *= 4
            continue
        in_new = len(new) if in_old is None else places[old[in_old]]
        in_old = len(old) if in_old is None else in_old
        went += old[:in_old]
        came += new[:in_new]
        # (the line that both have is done too)
        at += sum(map(len, old[:in_old + 1]))
        there += sum(map(len, new[:in_new + 1]))
        most, pieces = FEW_LINES, pieces + 1
    went += lines_behind(before, at, len(before))
    came += lines_behind(after, there, len(after))
    were, are = set(went), set(came)
    return [line.removesuffix(b"\n") for line in came if line not in were], [line.removesuffix(b"\n") for line in went if line not in are]
