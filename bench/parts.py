#!/usr/bin/env python3
"""What spreading a scan over parts saves, and what a merge of them costs.

    parts.py GVIS FOLDER SHAPE [PACKAGES [SECOND]] [--parts N ..]

FOLDER and SHAPE are those of scan.py, which makes the tree unless it is there. The parts of each number (1, 2, 4, 8 and 16) are scanned one
after another, each as a machine of its own would, with no certificates before; then their files are merged. Prints for each number the
seconds of the processor of the part that took most and of all parts, those of the merge, the bytes of the parts' files, and the share of
a scan that is left where each part has its machine: the longest part and the merge. A merge has to print what a scan prints.
"""
import os
import subprocess
import sys
import time

import scan

NUMBERS = [1, 2, 4, 8, 16]


def called(words):
    """The seconds of the processor, those that passed, the peak of memory in MB, the status and the output."""
    begin = time.monotonic()
    process = subprocess.Popen(words, stdout=subprocess.PIPE)
    out = process.stdout.read()
    _, status, used = os.wait4(process.pid, 0)
    return used.ru_utime + used.ru_stime, time.monotonic() - begin, used.ru_maxrss // 1024, os.waitstatus_to_exitcode(status), out


def made(folder, shape, numbers):
    if not os.path.exists(folder):
        make, defaults = {"gentoo": (scan.make_gentoo, (30000, 40)), "debian": (scan.make_debian, (63440,)), "hard": (scan.make_hard, (100, 60))}[shape]
        make(folder, *(int(given or default) for given, default in zip(numbers + [None] * len(defaults), defaults)))


def main(binary, folder, shape, *numbers, parts=NUMBERS):
    made(folder, shape, list(numbers))
    name = folder.rstrip("/") + ".part"
    whole, wall, memory, status, report = called([binary, "scan", folder, "--fresh", "--certs", name])
    print(f"a scan: {whole:.2f} s of the processor, {wall:.2f} s, {memory} MB, {os.path.getsize(name)} bytes of certificates, status {status}")
    again, _, _, _, _ = called([binary, "scan", folder, "--certs", name])
    print(f"over its certificates: {again:.2f} s")
    for count in parts:
        files, took = [f"{name}{part}" for part in range(1, count + 1)], []
        for part, file in enumerate(files, 1):
            one, _, _, status, out = called([binary, "scan", folder, "--fresh", "--certs", file, f"--part={part}/{count}"])
            if status or out:
                sys.exit(f"part {part} of {count} ended with {status}")
            took.append(one)
        merge, _, memory, _, out = called([binary, "merge", folder, "--certs", name + ".merged", "--from", ",".join(files), "--of", str(count)])
        if out != report:
            sys.exit(f"the merge of {count} parts prints something else")
        print(f"{count:3} parts: longest {max(took):.2f} s, all {sum(took):.2f} s, merge {merge:.2f} s ({memory} MB), {sum(map(os.path.getsize, files))} bytes, "
              f"{(max(took) + merge) / whole:.0%} of a scan", flush=True)
        for file in files:
            os.remove(file)


if __name__ == "__main__":
    given = sys.argv[1:]
    chosen = NUMBERS
    if "--parts" in given:
        at = given.index("--parts")
        chosen, given = list(map(int, given[at + 1:])), given[:at]
    if not 3 <= len(given) <= 5 or given[2] not in ("gentoo", "debian", "hard") or not all(word.isdigit() for word in given[3:]):
        sys.exit(__doc__)
    main(os.path.abspath(given[0]), *given[1:], parts=chosen)
