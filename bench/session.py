#!/usr/bin/env python3
"""Times the reports of a session: the first one, one without a new edit, and one after each change of one entry.

    session.py PROGRAM TREE [CHANGES]

Of CHANGES entries (6 where it isn't given), drawn by a fixed number, each is put with one more atom in RDEPEND, put without KEYWORDS,
or cut, in turn, and then put as it was; and last a thousand entries at once, with one more atom, and as they were. Prints for each
report the seconds by the clock and of the program's processor, and its bytes. Exit status 1 where the report behind entries that
were put as they were isn't the first one, or the session doesn't end with 0.
"""
import os
import random
import subprocess
import sys
import time

CACHE = "metadata/md5-cache"
MANY = 1000


class Session:
    def __init__(self, program, tree):
        self.process = subprocess.Popen([program, "session", tree], stdin=subprocess.PIPE, stdout=subprocess.PIPE)

    def edit(self, path, content):
        where = path.encode()
        if content is None:
            self.process.stdin.write(b"cut %s\n" % where)
        else:
            self.process.stdin.write(b"put %s %d\n%s\n" % (where, len(content), content))

    def processor(self):
        """Seconds of the processor so far, user and system."""
        fields = open("/proc/%d/stat" % self.process.pid).read().rsplit(")", 1)[1].split()
        return (int(fields[11]) + int(fields[12])) / os.sysconf("SC_CLK_TCK")

    def report(self, what):
        begin, spent = time.time(), self.processor()
        self.process.stdin.write(b"report\n")
        self.process.stdin.flush()
        length = int(self.process.stdout.readline().split()[1])
        text = self.process.stdout.read(length)
        print("%-60s %6.2f s, %6.2f s of the processor, %d bytes" % (what, time.time() - begin, self.processor() - spent, length), flush=True)
        return text

    def end(self):
        self.process.stdin.write(b"end\n")
        self.process.stdin.close()
        return self.process.wait()


def changed(content, number):
    """The entry with one more atom, without keywords, or none, in turn."""
    if number % 3 == 0:
        return content.replace(b"RDEPEND=", b"RDEPEND=x-none/none ")
    if number % 3 == 1:
        return b"\n".join(line for line in content.split(b"\n") if not line.startswith(b"KEYWORDS="))
    return None


def main(program, tree, changes):
    cache = os.path.join(tree, CACHE)
    entries = sorted(category + "/" + pf for category in os.listdir(cache) for pf in os.listdir(os.path.join(cache, category)))
    draw = random.Random(1)
    session = Session(program, tree)
    first = session.report("first")
    same = session.report("no new edit") == first
    for number in range(changes):
        entry = draw.choice(entries)
        content = open(os.path.join(cache, entry), "rb").read()
        session.edit(CACHE + "/" + entry, changed(content, number))
        session.report(entry + " changed")
        session.edit(CACHE + "/" + entry, content)
        same = (session.report(entry + " as it was") == first) and same
    many = draw.sample(entries, min(MANY, len(entries)))
    contents = {entry: open(os.path.join(cache, entry), "rb").read() for entry in many}
    for entry in many:
        session.edit(CACHE + "/" + entry, changed(contents[entry], 0))
    session.report("%d entries changed" % len(many))
    for entry in many:
        session.edit(CACHE + "/" + entry, contents[entry])
    same = (session.report("%d entries as they were" % len(many)) == first) and same
    status = session.end()
    print("the same" if same else "another report", "and status %d" % status)
    return 0 if same and status == 0 else 1


if __name__ == "__main__":
    if len(sys.argv) not in (3, 4):
        sys.exit(__doc__)
    sys.exit(main(sys.argv[1], sys.argv[2], int(sys.argv[3]) if len(sys.argv) == 4 else 6))
