#!/usr/bin/env python3
"""The built program where one call for memory is refused, and where each one behind it is too, by a library that is loaded before it.

    tests/refused_memory.py --all [BINARY] [MOST]

Each run has to end as it would, or with 5, some first bytes of its line and of the output, and at FILE what stood there or would. Without
--all a draw of the calls is refused; with it all of them, but of runs over 1,000 packages at most MOST, and a table is printed.
"""
import os
import random
import shutil
import subprocess
import sys
import tempfile

sys.dont_write_bytecode = True
import backing  # noqa: E402
import plain_demo  # noqa: E402
from common import TOP, Untested, bytes_of, called, entry, named, needs, put_files  # noqa: E402
from rescans import CHOICE, with_answer  # noqa: E402

LIBRARY = os.path.join(TOP, "tests/refusing.c")
DRAWN, DRAWN_OF_MANY, DRAWN_OF_AGAIN = 40, 6, 8
OUT_OF_MEMORY = b"gvis: out of memory\n"

MET = {
    "profiles/profiles.desc": b"amd64 base stable\n",
    "profiles/categories": b"app\nx\n",
    "profiles/base/eapi": b"8\n",
    "app/p/p-1.ebuild": b"",
    "metadata/md5-cache/app/p-1": entry(RDEPEND="x/y").encode(),
    "x/y/y-1.ebuild": b"",
    "metadata/md5-cache/x/y-1": entry().encode(),
}
LINTED = {
    **MET,
    "profiles/base/make.defaults": b'USE_EXPAND="K"\nK="a"\nUSE="-b"\n',
    "profiles/base/package.use/one": b"x/gone a\napp/p c\n",
    "app/p/p-2.ebuild": b"",
    "metadata/md5-cache/app/p-2": entry(IUSE="+b c k_a", REQUIRED_USE="^^ ( b c ) !k_a").encode(),
}
# An overlay in `my` over these files in `gentoo`.
OVERLAID = {
    **{"gentoo/" + path: content for path, content in MET.items()},
    "my/metadata/layout.conf": b"masters = gentoo\n",
    "my/profiles/categories": b"own\n",
    "my/own/q/q-1.ebuild": b"",
    "my/own/q/q-2.ebuild": b"",
    "my/metadata/md5-cache/own/q-1": entry(IUSE="a b", RDEPEND="a? ( x/z ) app/p", REQUIRED_USE="|| ( a b )").encode(),
}
PUT = entry().encode()
# The edits of a session in front of each of its reports.
EDITS = (b"", b"cut metadata/md5-cache/x/y-1\n", b"put metadata/md5-cache/x/y-1 %d\n%s\n" % (len(PUT), PUT))
SCRIPT = b"".join(edits + b"report\n" for edits in EDITS) + b"end\n"
SCAN = ["scan", "R", "--certs", "C"]
OVERLAY = ["overlay", "R", "--repo", "my", "--certs", "C"]
VERIFY = ["verify", "R", "--certs", "C", "--report", "P"]


def thousand():
    return {path: text.encode() for path, text in plain_demo.files_of(1).items()}


# Of each run its files, its words, its input, and what stands there before: what a scan leaves, changed by the function.
RUNS = {
    "scan": (lambda: CHOICE, SCAN, b"", None),
    "scan in JSON over another file": (lambda: CHOICE, SCAN + ["--json"], b"", lambda certs, report: (b"hello", None)),
    "scan over its certificates": (lambda: CHOICE, SCAN, b"", lambda certs, report: (certs, None)),
    "scan over the first version": (lambda: CHOICE, SCAN, b"", lambda certs, report: (backing.first_file_of(backing.records(certs)), None)),
    "scan over another log": (lambda: CHOICE, SCAN, b"", lambda certs, report: (with_answer(certs, lambda _, answer: answer[:3] + bytes(1)), None)),
    "scan with --fresh": (lambda: CHOICE, SCAN + ["--fresh"], b"", lambda certs, report: (certs, None)),
    "scan that spends its budget": (lambda: CHOICE, SCAN + ["--budget", "1"], b"", lambda certs, report: (b"hello", None)),
    "verify, accepted": (lambda: CHOICE, VERIFY, b"", lambda certs, report: (certs, report)),
    "verify, another report": (lambda: CHOICE, VERIFY, b"", lambda certs, report: (certs, b"b" + report[1:])),
    "verify, certificates cut": (lambda: CHOICE, VERIFY, b"", lambda certs, report: (certs[:-1], report)),
    "verify, no certificates": (lambda: CHOICE, VERIFY, b"", lambda certs, report: (None, report)),
    "verify of one kind, accepted": (lambda: CHOICE, [*VERIFY, "--keywords", "NonexistentDeps"], b"",
                                     lambda certs, report: (None, report.splitlines(True)[0])),
    "session": (lambda: MET, ["session", "R"], SCRIPT, None),
    "session with a bad command": (lambda: MET, ["session", "R"], SCRIPT[:-4], None),
    "scan of a part": (lambda: CHOICE, [*SCAN, "--part", "2/3"], b"", lambda certs, report: (certs, None)),
    "merge of a file that is named twice": (lambda: CHOICE, ["merge", "R", "--certs", "C", "--from", "C,none,C", "--of", "2"], b"", lambda certs, report: (certs, None)),
    "merge of nothing": (lambda: CHOICE, ["merge", "R", "--certs", "C", "--from", "none", "--of", "2"], b"", None),
    "overlay": (lambda: OVERLAID, OVERLAY, b"", lambda certs, report: (b"hello", None)),
    "overlay in JSON with --fresh": (lambda: OVERLAID, [*OVERLAY, "--json", "--fresh"], b"", None),
    "overlay of a layout without masters": (lambda: {**OVERLAID, "my/metadata/layout.conf": b"masters = my\n"}, OVERLAY, b"", None),
    "lint": (lambda: LINTED, ["lint", "R"], b"", None),
    "lint in JSON": (lambda: LINTED, ["lint", "R", "--json"], b"", None),
    "words of no command": (dict, ["scan", "R"], b"", None),
    "no repository": (dict, SCAN, b"", lambda certs, report: (b"hello", None)),
}
MANY = {
    "scan of 1,000 packages": (thousand, SCAN, b"", None),
    "the same over its certificates": (thousand, SCAN, b"", lambda certs, report: (certs, None)),
    "verify of 1,000 packages": (thousand, VERIFY, b"", lambda certs, report: (certs, report)),
    "session of 1,000 packages": (thousand, ["session", "R"], b"report\ncut metadata/md5-cache/x/p001-1\nreport\nend\n", None),
    "demo": (dict, ["demo", "1"], b"", None),
}


class Place:
    """A folder in which a run is made again and again, with a call refused."""

    def __init__(self, binary, folder, run):
        files, words, self.input, before = run
        self.words, self.folder, self.binary = [binary, *words], os.path.join(folder, "run"), binary
        self.library, self.counted = os.path.join(folder, "refusing.so"), os.path.join(folder, "counted")
        os.makedirs(os.path.join(self.folder, "R"))
        put_files(os.path.join(self.folder, "R"), files())
        self.before = self.stands(*before(*self.scanned())) if before else {}
        if subprocess.run(["cc", "-O1", "-shared", "-fPIC", "-o", self.library, LIBRARY], capture_output=True).returncode:
            raise Untested("cc makes no library to load")
        self.whole = self.ended(0)
        if not os.path.exists(self.counted):
            raise Untested("no library is loaded")
        self.calls = int(bytes_of(self.counted))

    def scanned(self):
        """What a scan leaves and prints."""
        _, report, _ = called([self.binary, *SCAN], cwd=self.folder)
        certs = bytes_of(self.folder, "C") if os.path.exists(os.path.join(self.folder, "C")) else b""
        return certs, report

    @staticmethod
    def stands(certs, report):
        return {name: content for name, content in (("C", certs), ("P", report)) if content is not None}

    def calls_of(self, script):
        """How many calls for memory a run takes up to the end of this input."""
        called(self.words, cwd=self.folder, input=script, env=dict(os.environ, LD_PRELOAD=self.library, COUNTED=self.counted))
        return int(bytes_of(self.counted))

    def ended(self, number, *more):
        """Status, output and errors, and what stands beside the repository, where the call of that number is refused."""
        for name in set(os.listdir(self.folder)) - {"R"}:
            os.remove(os.path.join(self.folder, name))
        put_files(self.folder, self.before)
        env = dict(os.environ, LD_PRELOAD=self.library, REFUSED=str(number), **dict.fromkeys(more, "1"), **({} if number else {"COUNTED": self.counted}))
        got = called(self.words, cwd=self.folder, input=self.input, env=env, timeout=600)
        return *got, {name: bytes_of(self.folder, name) for name in os.listdir(self.folder) if name != "R"}

    def kind(self, number, *more):
        """How a run ends: as it would, with 5 and what may stand, or in a way that it must not."""
        got = status, out, err, left = self.ended(number, *more)
        if got == self.whole:
            return "as without"
        _, whole_out, whole_err, whole_left = self.whole
        stands = left == self.before and (out == b"" or "C" not in whole_left) or left == whole_left
        if status == 5 and whole_out.startswith(out) and stands and (OUT_OF_MEMORY.startswith(err) or whole_err.startswith(err)):
            return "with 5"
        return f"not as it must: {got}"


COUNT = {"with 5": 0, "as without": 0}


def told():
    return "runs ended: " + ", ".join(f"{count} {kind}" for kind, count in COUNT.items())


@needs("cc")
def refused(name, run, most, binary, folder):
    """Drawn calls are refused, the first and the last ones among them, alone and with those behind; none ends as it must not."""
    place = Place(binary, folder, run)
    ends = list(range(1, min(place.calls, 3) + 1)) + [place.calls]
    drawn = ends + random.Random(name).sample(range(1, place.calls + 1), min(most, place.calls))
    got = {(number, *more): place.kind(number, *more) for number in sorted(set(drawn)) for more in ((), ("REFUSED_ON",))}
    for kind in got.values():
        COUNT[kind] = COUNT.get(kind, 0) + 1
    return {key: kind for key, kind in got.items() if kind.startswith("not")}, {}


def replies(out):
    """The whole replies of a session."""
    found = []
    while b"\n" in out:
        head, _, rest = out.partition(b"\n")
        length = int(head.removeprefix(b"report "))
        if len(rest) < length:
            break
        found, out = [*found, rest[:length]], rest[length:]
    return found


@needs("cc")
def refused_reports_are_asked_again(files, edits, most, binary, folder):
    """Of each report of a session drawn calls are refused. Where it ends so, what it replied is as without, and the refused report, asked
    again behind the same edits, too."""
    scripts = [b"".join(before + b"report\n" for before in edits[:count]) for count in range(len(edits) + 1)]
    place = Place(binary, folder, (files, ["session", "R"], scripts[-1] + b"end\n", None))
    whole, calls = replies(place.whole[1]), [place.calls_of(script) for script in scripts]
    wrong, asked = {}, [0] * len(edits)
    for at, (first, last) in enumerate(zip(calls, calls[1:])):
        for number in random.Random(at).sample(range(first + 1, last + 1), min(most, last - first)):
            for more in ((), ("REFUSED_ON",)):
                status, out, _, left = place.ended(number, *more)
                told = replies(out)
                # (a growth that needn't succeed may be refused, or one behind all reports)
                if told == whole:
                    continue
                behind = b"".join(edits[:len(told) + 1]) + b"report\nend\n"
                again = called([binary, "session", "R"], cwd=place.folder, input=behind)
                if (status, told, left) != (5, whole[:len(told)], {}) or again != (0, b"report %d\n%s" % (len(whole[len(told)]), whole[len(told)]), b""):
                    wrong[at, number, *more] = status, out, left, again
                asked[len(told)] += 1
    return (wrong, len(whole), min(asked) > 0), ({}, len(edits), True)


CASES = [*(named(name, refused, name, run, DRAWN) for name, run in RUNS.items()),
         *(named(name, refused, name, run, DRAWN_OF_MANY) for name, run in MANY.items()),
         named("refused reports are asked again", refused_reports_are_asked_again, lambda: MET, EDITS, DRAWN_OF_AGAIN),
         named("refused reports of 1,000 packages are asked again", refused_reports_are_asked_again, thousand,
               (b"", b"cut metadata/md5-cache/x/p001-1\n"), DRAWN_OF_MANY // 2)]


def tried(name, run, most, binary, folder):
    """Refuses all calls of a run, or so many drawn ones, prints a line of the table and what went wrong; answers whether something did."""
    place = Place(binary, folder, run)
    numbers = range(1, place.calls + 1)
    if place.calls > most:
        numbers = sorted(random.Random(name).sample(numbers, most))
    ends = {}
    for number in numbers:
        for more in ((), ("REFUSED_ON",)):
            kind = place.kind(number, *more)
            ends.setdefault(kind, []).append((number, *more))
    wrong = [kind for kind in ends if kind.startswith("not")]
    row = [name, f"{place.calls:,}", f"{2 * len(numbers):,}", *(f"{len(ends.get(kind, [])):,}" for kind in COUNT)]
    print("| " + " | ".join(row) + " |", *(f"{ends[kind]}: {kind}" for kind in wrong), sep="\n", flush=True)
    return bool(wrong)


def main(binary, most):
    print(f"| Run | Calls | Runs | {' | '.join(COUNT)} |\n|---|---|---|---|---|", flush=True)
    bad = 0
    for name, run in {**RUNS, **MANY}.items():
        with tempfile.TemporaryDirectory() as folder:
            bad += tried(name, run, most if name in MANY else sys.maxsize, binary, folder)
    return bad


if __name__ == "__main__":
    if len(sys.argv) < 2 or sys.argv[1] != "--all" or not shutil.which("cc"):
        sys.exit(__doc__)
    given = sys.argv[2:]
    program = os.path.abspath(given[0] if given else os.path.join(TOP, "crates/gvis/out/gvis"))
    sys.exit(1 if main(program, int(given[1]) if len(given) > 1 else sys.maxsize) else 0)
