#!/usr/bin/env python3
"""Times the pre-push hook where ten entries changed and no report is kept, beside a fresh scan of the same tree.

    hook.py PROGRAM TREE FOLDER [ROUNDS]

FOLDER gets, unless it is there, a copy of TREE as a repository of git: a commit of all files, and one with another atom in ten entries,
drawn by a fixed number. In each of ROUNDS (5) the checkout of the first commit is scanned, and the push of the second one judged. Prints
the seconds by the clock and of the processor, and last the medians and the hook's parts of the scan's. The hook's first call, which makes
the checkout, isn't counted. The scan has the environment as it is; the hook asks for large pages besides.
"""
import os
import random
import resource
import shutil
import statistics
import subprocess
import sys
import time

from session import CACHE

HOOK = os.path.join(os.path.dirname(os.path.abspath(__file__)), "../share/hooks/pre-push")


class Repository:
    def __init__(self, program, tree, folder):
        self.folder, self.work = folder, os.path.join(folder, "work")
        self.env = {"HOME": folder, "PATH": os.path.join(folder, "bin") + ":/usr/bin:/bin", "GIT_CONFIG_NOSYSTEM": "1", "LANG": "C.UTF-8"}
        self.env.update({f"GIT_{who}_{what}": "a@b" for who in ("AUTHOR", "COMMITTER") for what in ("NAME", "EMAIL")})
        if not os.path.exists(folder):
            shutil.copytree(tree, self.work, symlinks=True)
            for words in ("init -q -b main", "config gc.auto 0", "add -A", "commit -qm base"):
                self.git(*words.split())
            for path in random.Random(5).sample(self.git("ls-files", CACHE).split(), 10):
                self.change(os.path.join(self.work, path))
            self.git("commit", "-qam", "ten")
        # (the hook sets GVIS_PROVED, and a program of this name is what it calls)
        os.makedirs(os.path.join(folder, "bin"), exist_ok=True)
        with open(os.path.join(folder, "bin/gvis"), "w", encoding="ascii") as f:
            f.write(f'#!/bin/sh\n[ "$1" = --version ] && exit\nexec {program} "$@"\n')
        os.chmod(f.name, 0o755)
        self.commits = self.git("rev-parse", "main", "main~").split()

    @staticmethod
    def change(path):
        with open(path, encoding="utf-8") as f:
            values = dict(line.rstrip("\n").split("=", 1) for line in f)
        values["RDEPEND"] = (values.get("RDEPEND", "") + " no-such/package").strip()
        with open(path, "w", encoding="utf-8") as f:
            f.writelines(f"{key}={value}\n" for key, value in sorted(values.items()))

    def git(self, *words):
        return subprocess.run(["git", *words], cwd=self.work, env=self.env, check=True, capture_output=True, text=True).stdout

    def timed(self, words, given=""):
        """Seconds by the clock and of the processor."""
        begin, before = time.monotonic(), resource.getrusage(resource.RUSAGE_CHILDREN)
        done = subprocess.run(words, cwd=self.work, env=self.env, input=given, capture_output=True, text=True, check=False)
        wall, now = time.monotonic() - begin, resource.getrusage(resource.RUSAGE_CHILDREN)
        if done.returncode not in (0, 1):
            sys.exit(f"{words[0]} ended with {done.returncode}: {done.stderr}")
        return wall, now.ru_utime - before.ru_utime + now.ru_stime - before.ru_stime

    def scan(self):
        return self.timed(["gvis", "scan", os.path.join(self.work, ".git/gvis/tree"), "--fresh", "--certs", os.path.join(self.folder, "certs")])

    def hook(self):
        shutil.rmtree(os.path.join(self.work, ".git/gvis/reports"), ignore_errors=True)
        return self.timed([HOOK, "origin", "nowhere"], "refs/heads/main {} refs/heads/main {}\n".format(*self.commits))


def main(program, tree, folder, rounds=5):
    repository = Repository(os.path.abspath(program), tree, os.path.abspath(folder))
    repository.hook()
    calls = {"scan": repository.scan, "hook": repository.hook}
    times = {name: [] for name in calls}
    for _ in range(int(rounds)):
        for name, call in calls.items():
            times[name].append(call())
            print("%s: %.2f s, %.2f s of the processor" % (name, *times[name][-1]), flush=True)
    middle = {name: [statistics.median(one) for one in zip(*found)] for name, found in times.items()}
    print("; ".join("%s %.2f s, %.2f s" % (name, *found) for name, found in middle.items()) + "; parts %.3f, %.3f" % tuple(
        hook / scan for hook, scan in zip(middle["hook"], middle["scan"])))


if __name__ == "__main__":
    if not 4 <= len(sys.argv) <= 5:
        sys.exit(__doc__)
    main(*sys.argv[1:])
