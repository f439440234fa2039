#!/usr/bin/env python3
"""Times what `gvis-watch` shows behind each change of one entry.

    watch.py PROGRAM TREE [CHANGES]

The files of TREE are changed, each by a new file in its place, so TREE may be a copy of hard links (`cp -al`). Of CHANGES changes (100
where it isn't given) each second one puts a drawn entry with one more atom in RDEPEND, or without KEYWORDS, in turn, and the one behind
it as it was; last a comment is put in front of profiles/package.mask, and taken away. Prints the seconds from the new file's renaming
to the last line that is shown, and those of the processor of the tool and of its session, each with median and worst. Exit status 1 where the lines that came and went don't cancel, or it doesn't end with 0.
"""
import os
import random
import re
import signal
import statistics
import subprocess
import sys
import time

from session import CACHE, changed

TOOL = os.path.join(os.path.dirname(os.path.abspath(__file__)), "../share/gvis-watch")


def processor(numbers):
    """Seconds of the processor so far of these processes, user and system."""
    spent = 0
    for number in numbers:
        with open(f"/proc/{number}/stat", encoding="utf-8") as f:
            fields = f.read().rsplit(")", 1)[1].split()
        spent += (int(fields[11]) + int(fields[12])) / os.sysconf("SC_CLK_TCK")
    return spent


def block(process):
    """The head of what is shown next, and its lines."""
    head = process.stdout.readline().decode()
    added, gone = map(int, re.search(r": (\d+) added, (\d+) gone,", head).groups())
    return head, [process.stdout.readline() for _ in range(added + gone)]


def replaced(path, content):
    """Puts a new file in the place of one, and says when."""
    with open(path + ".~", "wb") as f:
        f.write(content)
    begin = time.monotonic()
    os.replace(path + ".~", path)
    return begin


def drawn(draw, entries, number):
    """An entry that such a change changes, its bytes, and what they are changed to."""
    while True:
        path = draw.choice(entries)
        with open(path, "rb") as f:
            before = f.read()
        after = changed(before, number % 2)
        if after != before:
            return path, before, after


def main(program, tree, changes):
    cache = os.path.join(tree, CACHE)
    entries = sorted(os.path.join(cache, category, pf) for category in os.listdir(cache) for pf in os.listdir(os.path.join(cache, category)))
    draw, shown, waits, spent, loads = random.Random(1), set(), [], [], []
    with subprocess.Popen([sys.executable, TOOL, "--program", program, tree], stdout=subprocess.PIPE) as process:
        print(block(process)[0], end="", flush=True)
        with open(f"/proc/{process.pid}/task/{process.pid}/children", encoding="utf-8") as f:
            numbers = [process.pid, *map(int, f.read().split())]
        masks = os.path.join(tree, "profiles/package.mask")
        with open(masks, "rb") as f:
            last = f.read()
        for path, before, after in [*(drawn(draw, entries, number) for number in range(changes // 2)), (masks, last, b"# more\n" + last)]:
            for content in (after, before):
                used, begin = processor(numbers), replaced(path, content)
                for line in block(process)[1]:
                    shown ^= {line[2:]}
                took = time.monotonic() - begin, processor(numbers) - used
                (loads if path == masks else waits).append(took[0])
                spent += [took[1]] * (path != masks)
        process.send_signal(signal.SIGTERM)
        status = process.wait()
    for name, found in (("by the clock", waits), ("of the processor", spent)):
        print(f"{len(found)} changes, {name}: median {statistics.median(found):.3f} s, worst {max(found):.3f} s")
    print("a changed mask, by the clock: " + ", ".join(f"{seconds:.1f} s" for seconds in loads))
    print("the same lines" if not shown else f"{len(shown)} lines more or less", "and status", status)
    return 0 if not shown and status == 0 else 1


if __name__ == "__main__":
    if len(sys.argv) not in (3, 4):
        sys.exit(__doc__)
    sys.exit(main(sys.argv[1], sys.argv[2], int(sys.argv[3]) if len(sys.argv) == 4 else 100))
