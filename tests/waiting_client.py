"""A session over pipes with a client that waits: each report comes before anything more is asked for. And what a real folder and a failing
input make of a session.
"""
import os
import subprocess
import time

from common import called, entry, more_of, put, put_files

FILES = {
    "profiles/profiles.desc": b"amd64 base stable\n",
    "profiles/categories": b"app\nx\n",
    "profiles/base/eapi": b"8\n",
    "app/p/p-1.ebuild": b"",
    "metadata/md5-cache/app/p-1": entry(RDEPEND="x/y").encode(),
}
CONTENT = entry().encode()
MISSING = b'app/p-1: NonexistentDeps: RDEPEND: x/y\napp/p-1: NonsolvableDepsInStable: RDEPEND: amd64 base stable: USE="": x/y\n'
PUT = b"put metadata/md5-cache/x/y-1 %d\n" % len(CONTENT)
EBUILD = b"put x/y/y-1.ebuild 0\n\n"
CUT = b"cut metadata/md5-cache/x/y-1\ncut x/y/y-1.ebuild\n"


def reply(text):
    return b"report %d\n" % len(text) + text


class Client:
    """The program over pipes, in the folder of a repository R."""

    def __init__(self, binary, folder):
        put_files(os.path.join(folder, "R"), FILES)
        self.process = subprocess.Popen([binary, "session", "R"], cwd=folder, stdin=subprocess.PIPE, stdout=subprocess.PIPE, stderr=subprocess.PIPE, bufsize=0)
        self.held = b""

    def says(self, *pieces):
        for piece in pieces:
            self.process.stdin.write(piece)

    def hears(self, want):
        """Whether these bytes come, and nothing else, while the program is given nothing more."""
        end = time.monotonic() + 60
        while len(self.held) < len(want):
            more = more_of(self.process, self.held, end)
            if more is None:
                break
            self.held = more
        got, self.held = self.held == want, self.held[len(want):]
        return got

    def ends(self):
        """The status, and what else the program says, where its input stays open."""
        status = self.process.wait(60)
        rest = self.held + self.process.stdout.read(), self.process.stderr.read()
        for pipe in (self.process.stdin, self.process.stdout, self.process.stderr):
            pipe.close()
        return (status, *rest)


def answers_before_more_is_given(binary, folder):
    """Commands whole, in parts, byte by byte and with the front of the next one behind them. The session ends at `end`, whatever would follow."""
    client = Client(binary, folder)
    heard = []
    for pieces, want in [
            ([b"report\n"], [MISSING]),
            ([EBUILD, PUT, CONTENT[:7], CONTENT[7:] + b"\n", b"report\n"], [b""]),
            ([bytes([byte]) for byte in CUT + b"report\n"], [MISSING]),
            ([b"report\nrepor"], [MISSING]),
            ([b"t\nreport\n" + EBUILD + PUT[:9]], [MISSING, MISSING]),
            ([PUT[9:] + CONTENT + b"\nreport\nen"], [b""])]:
        client.says(*pieces)
        heard.append(client.hears(b"".join(map(reply, want))))
    client.says(b"d\nnonsense")
    return (heard, client.ends()), ([True] * 6, (0, b"", b""))


def bad_command_is_told_before_more_is_given(binary, folder):
    client = Client(binary, folder)
    client.says(b"report\nnonsense\n")
    return (client.hears(reply(MISSING)), client.ends()), (True, (8, b"", b"gvis: bad script: command 2\n"))


def input_that_fails(binary, folder):
    """A folder can't be read: that is no end of the script."""
    put_files(os.path.join(folder, "R"), FILES)
    given = os.open(folder, os.O_RDONLY)
    got = called([binary, "session", "R"], cwd=folder, stdin=given)
    os.close(given)
    return got, (3, b"", b"gvis: fault: input\n")


def closed_input(binary, folder):
    put_files(os.path.join(folder, "R"), FILES)
    return called([binary, "session", "R"], cwd=folder, preexec_fn=lambda: os.close(0)), (3, b"", b"gvis: fault: input\n")


def file_whose_name_begins_with_a_dot(binary, folder):
    """It keeps the folder of a profile where the last other file is cut; without it the folder is gone, and its line names nothing."""
    script, got = b"report\ncut profiles/base/eapi\nreport\nend\n", []
    for kept in (True, False):
        root = os.path.join(folder, str(kept), "R")
        put_files(root, FILES)
        if kept:
            put(root, "profiles/base/.x", b"")
        edited = called([binary, "session", "R"], cwd=os.path.dirname(root), input=script)
        os.remove(os.path.join(root, "profiles/base/eapi"))
        if not kept:
            os.rmdir(os.path.join(root, "profiles/base"))
        status, text, err = called([binary, "scan", "R", "--certs", "C"], cwd=os.path.dirname(root))
        got.append(edited == ((0, reply(MISSING) + reply(text), b"") if status < 2 else (status, reply(MISSING), err)))
        got.append((status, text, err) == (1, MISSING, b""))
    return got, [True, True, True, False]


CASES = [answers_before_more_is_given, bad_command_is_told_before_more_is_given, input_that_fails, closed_input, file_whose_name_begins_with_a_dot]
