"""What the tests share: how a case is made, files and calls.

A case is a function of the program and of a folder of its own, which answers what came and what is wanted; `needs` has the commands
without which it can't be run. A matter is a module here with a list CASES.
"""
import os
import pty
import select
import shutil
import subprocess
import time

TOP = os.path.realpath(os.path.join(os.path.dirname(os.path.abspath(__file__)), ".."))
DATA = os.path.join(TOP, "crates/gv_probe/data")
COMPLETION = "/usr/share/bash-completion/bash_completion"
# The kernel's notices for Python, and the books of ACL2.
WATCHDOG = "/usr/lib/python3/dist-packages/watchdog"
BOOKS = "/usr/share/doc/acl2-books"
# What is installed of these tests.
PLAIN = ("backing.py", "plain.py", "plain_atoms.py", "plain_gates.py", "plain_profiles.py")
# The digest of an empty file.
EMPTY = "d41d8cd98f00b204e9800998ecf8427e"
# What a file of certificates begins with.
HEADER = b"gviscert2\n"


class Untested(Exception):
    """Why a case can't be run here."""


def needs(*tools):
    """Marks a case that can't be run without these commands. One that begins with `/` is a path."""
    def mark(case):
        case.needs = tools
        return case
    return mark


def named(name, function, *given):
    """A case with this name: the function of what is given, the program and the folder."""
    def case(binary, folder):
        return function(*given, binary, folder)
    case.__name__ = name
    case.needs = getattr(function, "needs", ())
    return case


# Files

def put(folder, path, content, mode=None):
    path = os.path.join(folder, path)
    os.makedirs(os.path.dirname(path), exist_ok=True)
    with open(path, "wb") as f:
        f.write(content if isinstance(content, bytes) else content.encode())
    if mode is not None:
        os.chmod(path, mode)
    return path


def put_files(folder, files):
    for path, content in files.items():
        put(folder, path, content)


def content(*parts):
    with open(os.path.join(*parts), encoding="utf-8") as f:
        return f.read()


def bytes_of(*parts):
    with open(os.path.join(*parts), "rb") as f:
        return f.read()


def entry(**keys):
    """An entry of a package, stable on amd64, with an empty ebuild and these keys."""
    values = {"EAPI": "8", "SLOT": "0", "KEYWORDS": "amd64", "_md5_": EMPTY, **keys}
    return "".join(f"{key}={value}\n" for key, value in values.items())


# Calls

def run(words, **more):
    """Status, standard output and standard error, as text."""
    return called(words, text=True, **more)


def called(words, **more):
    """The same as bytes."""
    if "input" not in more:
        more.setdefault("stdin", subprocess.DEVNULL)
    done = subprocess.run(words, capture_output=True, timeout=more.pop("timeout", 120), **more)
    return done.returncode, done.stdout, done.stderr


def on_terminal(words, typed=(), timeout=120, **more):
    """Runs the words on a terminal of their own. `typed` has pairs: a text to wait for, and what is typed then; a
    text of None waits until nothing more comes. Answers the status and all that the terminal showed."""
    pid, terminal = pty.fork()
    if pid == 0:
        try:
            if "cwd" in more:
                os.chdir(more["cwd"])
            os.execvpe(words[0], words, more.get("env", os.environ))
        finally:
            os._exit(127)
    shown, seen, steps, end, last = b"", 0, list(typed), time.monotonic() + timeout, time.monotonic()
    while time.monotonic() < end:
        if select.select([terminal], [], [], 0.1)[0]:
            try:
                got = os.read(terminal, 65536)
            except OSError:
                break
            if not got:
                break
            shown, last = shown + got, time.monotonic()
        if steps:
            wanted, keys = steps[0]
            if (wanted is None and time.monotonic() - last > 1.5) or (wanted is not None and wanted.encode() in shown[seen:]):
                seen, last = len(shown), time.monotonic()
                os.write(terminal, keys.encode())
                steps.pop(0)
    else:
        os.kill(pid, 9)
    status = os.waitstatus_to_exitcode(os.waitpid(pid, 0)[1])
    os.close(terminal)
    return status, shown.decode(errors="replace").replace("\r\n", "\n")


def checkout(folder, binary=None):
    """A copy of what stands around the program, with this program, as if it were just built."""
    os.makedirs(folder, exist_ok=True)
    for name in ("gvis", "HANDLES", "Makefile", "crates.txt", "share", "docs", "examples"):
        source = os.path.join(TOP, name)
        if os.path.isdir(source):
            shutil.copytree(source, os.path.join(folder, name))
        else:
            shutil.copy2(source, os.path.join(folder, name))
    for name in PLAIN:
        put(folder, "tests/" + name, bytes_of(TOP, "tests", name))
    put(folder, "crates/gvis/src/main.rt", "")
    for part in ("specs", "proofs"):
        os.makedirs(os.path.join(folder, "crates/gvis", part))
    if binary:
        os.makedirs(os.path.join(folder, "crates/gvis/out"))
        shutil.copy2(binary, os.path.join(folder, "crates/gvis/out/gvis"))
        put(folder, "crates/gvis/out/gvis.built", "a toolchain\n")
    return folder


def more_of(process, held, end):
    """What is held and what the process printed behind it, or nothing where that doesn't come before the end or never will."""
    if not select.select([process.stdout], [], [], max(0, end - time.monotonic()))[0]:
        return None
    got = os.read(process.stdout.fileno(), 1 << 16)
    return held + got if got else None
