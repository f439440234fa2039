#!/usr/bin/env python3
"""Runs the tests of the built program and of what stands around it.

    tests/run.py [--packages | --all-packages] [BINARY] [NAME ..]
    tests/run.py --list [NAME ..]

BINARY has a `/`; without it the program is crates/gvis/out/gvis, which the launcher runs. NAME is a matter (a module of this folder
with a list CASES, as `rescans`), or a part of `MATTER: CASE`; without one all are run. With --packages the Debian packages that the
chosen cases want and the machine lacks are installed first, where this is root and apt-get can, with --all-packages also those of
hundreds of megabytes; else the others are run, and those that can't be are counted. Prints a line for each case that went wrong or isn't tested, for each matter how its cases ended and its
seconds, and last the sums. Exit status 1 where one went wrong or none passed.
"""
import importlib
import os
import resource
import shutil
import subprocess
import sys
import tempfile
import time
import traceback

# (nothing is left in the checkout)
sys.dont_write_bytecode = True
import common  # noqa: E402

HERE = os.path.dirname(os.path.abspath(__file__))
PACKAGES = {"mandoc": "mandoc", "zsh": "zsh", "fish": "fish", "make": "make", "git": "git", "flock": "util-linux", "valgrind": "valgrind",
            common.COMPLETION: "bash-completion", common.WATCHDOG: "python3-watchdog", "nvim": "neovim", "cadical": "cadical", "ps": "procps", "jsonschema": "python3-jsonschema", "lintian": "lintian", "parallel": "parallel", "sbatch": "slurm-wlm", "/usr/sbin/slurmctld": "slurm-wlm", "/usr/sbin/slurmd": "slurm-wlm", "strace": "strace", "chromium": "chromium", "acl2": "acl2",
            common.BOOKS: "acl2-books"}
# Those of hundreds of megabytes.
LARGE = {"acl2", "acl2-books", "chromium"}


def is_there(tool):
    return os.path.exists(tool) if tool.startswith("/") else shutil.which(tool) is not None


def lacks(case):
    """The commands that the case needs and that aren't there."""
    return [tool for tool in getattr(case, "needs", ()) if not is_there(tool)]


def install(cases, left_out):
    """Installs what these cases want and isn't there, but what is left out, or says why it doesn't."""
    wanted = sorted({PACKAGES[tool] for case in cases for tool in lacks(case) if tool in PACKAGES} - left_out)
    if not wanted:
        return
    if os.getuid() != 0 or not shutil.which("apt-get"):
        print(f"not installed, as this isn't root or has no apt-get: {' '.join(wanted)}")
        return
    if apt_get(["update"], wanted, 300):
        apt_get(["-y", "--no-install-recommends", "install", *wanted], wanted, 1800 if LARGE & set(wanted) else 300)


def apt_get(words, wanted, most):
    """Whether the call went well within so many seconds; says why these packages aren't installed."""
    try:
        done = subprocess.run(["apt-get", "-qq", *words], env=dict(os.environ, DEBIAN_FRONTEND="noninteractive"), stdin=subprocess.DEVNULL,
                              capture_output=True, text=True, timeout=most)
    except subprocess.TimeoutExpired:
        print(f"not installed, as apt-get took too long: {' '.join(wanted)}")
        return False
    if done.returncode:
        print(f"not installed, as apt-get {words[0]} failed ({'; '.join(done.stderr.strip().splitlines()[-1:])}): {' '.join(wanted)}")
    return done.returncode == 0


def parts_that_differ(got, want):
    """Of two records, lists or tables of the same form what isn't alike in them, with its key or its place from 0."""
    if isinstance(got, dict) and isinstance(want, dict):
        keys = [key for key in {**got, **want} if key not in got or key not in want or got[key] != want[key]]
        return {key: got[key] for key in keys if key in got}, {key: want[key] for key in keys if key in want}
    if isinstance(got, (tuple, list)) and type(got) is type(want) and len(got) == len(want):
        unlike = {place: parts_that_differ(a, b) for place, (a, b) in enumerate(zip(got, want)) if a != b}
        return {place: a for place, (a, _) in unlike.items()}, {place: b for place, (_, b) in unlike.items()}
    return got, want


def seconds():
    """The seconds that went by, and those of the processor here and in what was called."""
    used = [resource.getrusage(who) for who in (resource.RUSAGE_SELF, resource.RUSAGE_CHILDREN)]
    return time.monotonic(), sum(it.ru_utime + it.ru_stime for it in used)


def tried(case, name, binary):
    """How the case ends: passed, failed, or what it lacks. Prints what went wrong."""
    if lacks(case):
        print(f"not tested: {name} (no {', no '.join(lacks(case))})")
        return [f"no {tool}" for tool in lacks(case)]
    with tempfile.TemporaryDirectory() as folder:
        try:
            got, want = case(binary, os.path.realpath(folder))
        except common.Untested as why:
            print(f"not tested: {name} ({why})")
            return [str(why)]
        except Exception:
            got, want = traceback.format_exc(), "an answer"
    if got == want:
        return "passed"
    got, want = parts_that_differ(got, want)
    print(f"{name}: {got if isinstance(got, str) else repr(got)}\n  wanted: {want!r}")
    return "failed"


def run_matter(matter, cases, binary):
    """How the cases of a matter ended: of each end its number."""
    ends, begin = {"passed": 0, "failed": 0}, seconds()
    for case in cases:
        end = tried(case, f"{matter.__name__}: {case.__name__}", binary)
        for one in [end] if isinstance(end, str) else end:
            ends[one] = ends.get(one, 0) + 1
        if not isinstance(end, str):
            ends["not tested"] = ends.get("not tested", 0) + 1
    wall, processor = (b - a for a, b in zip(begin, seconds()))
    said = [matter.told()] if hasattr(matter, "told") else []
    parts = [f"{ends['passed']} passed", f"{ends['failed']} failed", *([f"{ends['not tested']} not tested"] if "not tested" in ends else [])]
    print(f"{matter.__name__}: {', '.join(parts)} in {wall:.1f} s, {processor:.1f} s of the processor{''.join('; ' + it for it in said)}", flush=True)
    return ends


def matters():
    """The modules here that have cases; and a failure for each that can't be read."""
    found, broken = [], []
    for file in sorted(os.listdir(HERE)):
        if file.endswith(".py") and file != os.path.basename(__file__):
            try:
                module = importlib.import_module(file[:-3])
            except Exception:
                broken.append(f"{file[:-3]}: {traceback.format_exc()}")
                continue
            if hasattr(module, "CASES"):
                found.append(module)
                broken += [] if module.CASES else [f"{file[:-3]}: no case"]
    return found, broken


def chosen(found, names):
    """The cases of each matter that the names say, and the names that say none."""
    whole = {matter.__name__ for matter in found}
    unused, cases = set(names), []
    for matter in found:
        for case in matter.CASES:
            said = [n for n in names if (n == matter.__name__ if n in whole else n in f"{matter.__name__}: {case.__name__}")]
            unused -= set(said)
            if said or not names:
                cases.append((matter, case))
    return [(matter, [case for other, case in cases if other is matter]) for matter in found if any(other is matter for other, _ in cases)], unused


def main(words):
    flags = {word for word in words if word.startswith("-")}
    words = [word for word in words if word not in flags]
    if flags - {"--packages", "--all-packages", "--list"}:
        sys.exit(__doc__)
    binary = words.pop(0) if words and "/" in words[0] else os.path.join(common.TOP, "crates/gvis/out/gvis")
    found, broken = matters()
    plan, unused = chosen(found, words)
    if unused:
        sys.exit(f"no such case: {', '.join(sorted(unused))}")
    if "--list" in flags:
        print("\n".join(f"{matter.__name__}: {case.__name__}" for matter, cases in plan for case in cases))
        return 0
    # (a matter that is ALONE has nothing to do with the program)
    if not os.access(binary, os.X_OK) and not all(hasattr(matter, "ALONE") for matter, _ in plan):
        sys.exit(f"there is no program {binary}: ./gvis --prove proves and builds it")
    if flags & {"--packages", "--all-packages"}:
        install([case for _, cases in plan for case in cases], set() if "--all-packages" in flags else LARGE)
    begin, sums = seconds(), {}
    for matter, cases in plan:
        for end, count in run_matter(matter, cases, os.path.abspath(binary)).items():
            sums[end] = sums.get(end, 0) + count
    wall, processor = (b - a for a, b in zip(begin, seconds()))
    print("\n".join(broken), end="\n" * bool(broken))
    failed, untested = sums.pop("failed", 0) + len(broken), sums.pop("not tested", 0)
    passed, reasons = sums.pop("passed", 0), ", ".join(f"{why}: {count}" for why, count in sums.items())
    print(f"{passed} passed, {failed} failed, {untested} not tested{f' ({reasons})' if reasons else ''} in {wall:.0f} s, {processor:.0f} s of the processor")
    return 1 if failed or not passed else 0


if __name__ == "__main__":
    sys.exit(main(sys.argv[1:]))
