"""The pre-push hook, with real repositories and the built program."""
import hashlib
import os
import shutil
import subprocess
import time

from common import TOP, content, needs, put, run

HOOK = os.path.join(TOP, "share/hooks/pre-push")
# What is there from the beginning: a package that needs one that isn't there.
OLD = "app/old-1: NonsolvableDepsInStable: RDEPEND: amd64 base stable: USE=\"\": x/gone"
NEW = "app/new-1: NonsolvableDepsInStable: RDEPEND: amd64 base stable: USE=\"\": x/gone"
HIDDEN = "app/user-1: NonsolvableDepsInStable: RDEPEND: amd64 base stable: USE=\"\": x/lib"


class Repository:
    """A repository, its remote, and what a push says."""

    def __init__(self, binary, folder):
        self.folder, self.remote = os.path.join(folder, "work"), os.path.join(folder, "remote.git")
        self.env = {"HOME": folder, "PATH": os.path.join(folder, "bin") + ":" + os.environ["PATH"], "GIT_CONFIG_NOSYSTEM": "1", "LANG": "C.UTF-8",
                    "GIT_AUTHOR_NAME": "a", "GIT_AUTHOR_EMAIL": "a@b", "GIT_COMMITTER_NAME": "a", "GIT_COMMITTER_EMAIL": "a@b"}
        # The program counts its scans and sessions.
        put(folder, "bin/gvis", f"#!/bin/sh\ncase $1 in scan|session) echo $1 >>{folder}/scans ;; esac\nexec {binary} \"$@\"\n", 0o755)
        self.scans = os.path.join(folder, "scans")
        self.git("init", "-q", "--bare", "-b", "main", self.remote, cwd=folder)
        self.git("init", "-q", "-b", "main", self.folder, cwd=folder)
        self.git("remote", "add", "origin", self.remote)
        self.git("config", "gvis.keywords", "NonsolvableDepsInStable,ProfileNote,ProfileError,StaleCache")
        for path, text in {"profiles.desc": "amd64 base stable\n", "categories": "app\nx\n", "base/eapi": "8\n", "package.mask": "# nothing\n"}.items():
            put(self.folder, "profiles/" + path, text)
        self.package("x/lib-1")
        self.package("app/user-1", "x/lib")
        self.package("app/old-1", "x/gone")
        self.commit()
        self.git("push", "-q", "origin", "main")
        os.symlink(HOOK, os.path.join(self.folder, ".git/hooks/pre-push"))

    def git(self, *words, **more):
        status, out, err = run(["git", *words], cwd=more.pop("cwd", self.folder), env={**self.env, **more})
        if status:
            raise AssertionError(f"git {words}: {err}")
        return out.strip()

    def package(self, name, needed="", ebuild="# nothing\n"):
        category, pf = name.split("/")
        put(self.folder, f"{category}/{pf.rsplit('-', 1)[0]}/{pf}.ebuild", ebuild)
        put(self.folder, f"metadata/md5-cache/{name}", f"EAPI=8\nSLOT=0\nKEYWORDS=amd64\nRDEPEND={needed}\n_md5_={hashlib.md5(ebuild.encode()).hexdigest()}\n")

    def commit(self, message="more"):
        self.git("add", "-A")
        self.git("commit", "-qm", message)
        return self.git("rev-parse", "HEAD")

    def push(self, *words, **more):
        """Whether the push passed, the lines of reports, and what the hook says."""
        status, _, err = run(["git", "push", *(words or ("origin", "main"))], cwd=self.folder, env={**self.env, **more})
        lines = err.splitlines()
        return status == 0, [line for line in lines if line.startswith(("app/", "x/", "profiles/"))], [line for line in lines if line.startswith("gvis: ")]

    def count(self, what="scan"):
        return content(self.scans).count(what) if os.path.exists(self.scans) else 0

    def has(self, ref="main"):
        return run(["git", "rev-parse", "--verify", "-q", ref], cwd=self.remote, env=self.env)[1].strip()


def mask(repository):
    put(repository.folder, "profiles/package.mask", "x/lib\n")
    return repository.commit()


def a_push_that_hides_a_dependency_is_refused(binary, folder):
    r = Repository(binary, folder)
    before = r.has()
    made = mask(r)
    passed, lines, said = r.push()
    return (passed, lines, said, r.has() == before, r.count()), (False, [HIDDEN], [
        f"gvis: scanning {before[:12]}, which origin has", f"gvis: scanning {made[:12]}, which is pushed to refs/heads/main",
        "gvis: 1 new line by the push to refs/heads/main:", "gvis: the push is refused; GVIS_ALLOW=1 git push .. lets it pass"], True, 2)


def one_that_does_not_passes(binary, folder):
    """With an old report on each side."""
    r = Repository(binary, folder)
    r.package("app/more-1", "x/lib")
    made = r.commit()
    passed, lines, said = r.push()
    return (passed, lines, len(said), r.has()), (True, [], 2, made)


def a_fault_that_goes_passes(binary, folder):
    r = Repository(binary, folder)
    r.package("app/old-1", "x/lib")
    made = r.commit()
    return (*r.push()[:2], r.has()), (True, [], made)


def reports_are_kept(binary, folder):
    """The second push scans one tree, and the same again none."""
    r = Repository(binary, folder)
    r.package("app/more-1", "x/lib")
    r.commit()
    counts = [r.push() and r.count()]
    r.package("app/new-1", "x/gone")
    r.commit()
    got = r.push()[1]
    counts.append(r.count())
    again = r.push()[:2]
    counts.append(r.count())
    kept = sorted(os.listdir(os.path.join(r.folder, ".git/gvis")))
    clean = r.git("status", "--porcelain")
    return (counts, got, again, kept, clean), ([2, 3, 3], [NEW], (False, [NEW]), ["certificates", "index", "lock", "reports", "tree"], "")


def the_commit_is_judged_and_not_the_folder(binary, folder):
    """Neither what isn't committed, staged or ignored, nor what the checkout held before."""
    r = Repository(binary, folder)
    put(r.folder, ".gitignore", "*.bak\n")
    r.package("app/more-1", "x/lib")
    r.commit()
    first = r.push()[:2]
    # Not in the commit: a mask, staged; a package that isn't tracked. In the checkout: a file too many, one that was changed, one that is gone.
    put(r.folder, "profiles/package.mask", "x/lib\n")
    r.git("add", "-A")
    r.package("app/new-1", "x/gone")
    tree = os.path.join(r.folder, ".git/gvis/tree")
    for path in ("metadata/md5-cache/app/new-1", "app/new/new-1.ebuild"):
        put(tree, path, content(r.folder, path))
    put(tree, "profiles/package.mask", "x/lib\n")
    shutil.rmtree(os.path.join(tree, "x"))
    r.git("stash", "-q", "-u")
    put(r.folder, "app/more/note", "")
    made = r.commit()
    r.git("stash", "pop", "-q")
    again = r.push()[:2]
    return (first, again, r.has()), ((True, []), (True, []), made)


def allowed_by_a_variable(binary, folder):
    r = Repository(binary, folder)
    made = mask(r)
    zero = r.push(GVIS_ALLOW="0")[0]
    passed, lines, said = r.push(GVIS_ALLOW="1")
    return (zero, passed, lines, said[-1], r.has()), (False, True, [HIDDEN], "gvis: GVIS_ALLOW is set: the push passes", made)


def a_new_branch_is_compared_with_what_the_remote_has(binary, folder):
    r = Repository(binary, folder)
    r.git("checkout", "-qb", "topic")
    r.package("app/new-1", "x/gone")
    r.commit()
    r.package("app/more-1")
    r.commit()
    new = r.push("origin", "topic")[:2]
    r.git("checkout", "-qb", "other", "main")
    same = r.push("origin", "other")
    r.package("app/more-1")
    r.commit()
    good = r.push("origin", "other")[:2]
    return (new, same, good), ((False, [NEW]), (True, [], []), (True, []))


def an_empty_remote(binary, folder):
    """Nothing to compare with: it says so, and passes."""
    r = Repository(binary, folder)
    r.git("init", "-q", "--bare", os.path.join(folder, "empty.git"))
    r.git("remote", "add", "mirror", os.path.join(folder, "empty.git"))
    passed, lines, said = r.push("mirror", "main")
    return (passed, lines, said[1:]), (True, [], ["gvis: refs/heads/main: 1 lines; nothing that mirror has can be compared with, so none counts as new"])


def what_the_remote_has_is_not_here(binary, folder):
    """Another one pushed: this push is forced over it, and compared with the commit that is known."""
    r = Repository(binary, folder)
    r.git("clone", "-q", r.remote, os.path.join(folder, "another"))
    another = os.path.join(folder, "another")
    put(another, "profiles/package.mask", "x/lib\n")
    r.git("commit", "-qam", "another", cwd=another)
    r.git("push", "-q", cwd=another)
    r.package("app/new-1", "x/gone")
    r.commit()
    passed, lines, said = r.push("-f", "origin", "main")
    return (passed, lines, "isn't here" in said[0]), (False, [NEW], True)


def other_pushes_are_not_judged(binary, folder):
    """Tags, removals, and what is set to be passed over."""
    r = Repository(binary, folder)
    r.git("push", "-q", "origin", "main:gone")
    mask(r)
    r.git("tag", "v1")
    r.git("config", "--add", "gvis.skip", "refs/heads/wild/*")
    tame = r.push("origin", "main:tame")[0], r.count()
    return (*tame, r.push("origin", "v1")[0], r.push("origin", ":gone")[0], r.push("origin", "main:wild/one")[0], r.count()), (False, 2, True, True, True, 2)


def several_branches_at_once(binary, folder):
    r = Repository(binary, folder)
    r.git("branch", "good")
    mask(r)
    passed, lines, said = r.push("origin", "main", "good", "main:third")
    return (passed, lines, [line for line in said if "new" in line]), (False, [HIDDEN, HIDDEN], [
        "gvis: 1 new line by the push to refs/heads/main:", "gvis: 1 new line by the push to refs/heads/third:"])


def lines_of_files_are_compared_without_numbers(binary, folder):
    """A bad line that moved is no new one; a second one like it is."""
    r = Repository(binary, folder)
    put(r.folder, "profiles/package.mask", "what is this\n")
    r.commit()
    r.git("push", "-q", "--no-verify", "origin", "main")
    put(r.folder, "profiles/package.mask", "# a reason\n\nwhat is this\n")
    r.commit()
    moved = r.push()[:2]
    put(r.folder, "profiles/package.mask", "# a reason\nx/y z\nwhat is this\n")
    r.commit()
    second = r.push()[:2]
    return (moved, second), ((True, []), (False, ["profiles/package.mask:2: ProfileNote: bad atom"]))


def what_cannot_be_judged_is_refused(binary, folder):
    r = Repository(binary, folder)
    base = r.has()
    put(r.folder, "profiles/package.mask", b"#" * 16_777_217)
    r.commit()
    large = r.push()
    allowed = r.push(GVIS_ALLOW="1")[0]
    put(r.folder, "profiles/package.mask", "")
    r.commit()
    mended = r.push()
    r.git("push", "-q", "-f", "--no-verify", "origin", base + ":main")
    r.git("rm", "-q", "profiles/categories")
    r.commit()
    gone = r.push()
    r.git("config", "gvis.budget", "0")
    r.git("config", "gvis.program", os.path.join(folder, "nothing"))
    none = r.push()
    return (large[0], large[2][-2:], allowed, mended[0], mended[2][1], gone[0], gone[2][-2], none[0], none[2][0].replace(folder, "")), (
        False, ["gvis: what is pushed can't be judged: gvis scan ended with status 7", "gvis: the push is refused; GVIS_ALLOW=1 git push .. lets it pass"], True,
        True, "gvis: limit: profiles/package.mask 16777216", False,
        "gvis: what is pushed can't be judged: it is no repository any more: profiles/profiles.desc or profiles/categories is missing", False,
        "gvis: what is pushed can't be judged: there is no command /nothing; git config gvis.program PATH names it")


def a_cache_that_is_made(binary, folder):
    """A tree without entries is refused, and a command can make them; the ones that it made stay for the next time."""
    r = Repository(binary, folder)
    put(folder, "cache/app/new-1", content(r.folder, "metadata/md5-cache/app/old-1"))
    shutil.copytree(os.path.join(r.folder, "metadata/md5-cache"), os.path.join(folder, "cache"), dirs_exist_ok=True)
    r.git("rm", "-qr", "--cached", "metadata")
    put(r.folder, ".gitignore", "metadata\n")
    r.commit()
    r.git("push", "-q", "--no-verify", "origin", "main")
    r.package("app/new-1")
    r.commit()
    without = r.push()
    r.git("config", "gvis.prepare", f"ls -d metadata/md5-cache >>{folder}/before 2>&1; mkdir -p metadata && cp -r {folder}/cache metadata/md5-cache.new && rm -rf metadata/md5-cache && mv metadata/md5-cache.new metadata/md5-cache")
    made = r.push()[:2]
    r.git("config", "gvis.prepare", "exit 4")
    failed = r.push()
    return (without[0], without[2][-2], made, content(folder, "before").splitlines()[-1], failed[2][-2]), (
        False, "gvis: what is pushed can't be judged: the tree has no metadata/md5-cache; a command that makes it can be given by git config gvis.prepare",
        (False, [NEW]), "metadata/md5-cache", "gvis: what is pushed can't be judged: gvis.prepare ended with status 4: exit 4")


def another_program_reports_anew(binary, folder):
    r = Repository(binary, folder)
    r.package("app/more-1")
    r.commit()
    r.push()
    first = r.count()
    put(folder, "bin/gvis", content(folder, "bin/gvis") + "# another\n", 0o755)
    r.package("app/more-2")
    r.commit()
    r.push()
    second = r.count()
    r.git("config", "gvis.profiles", "base")
    r.package("app/more-3")
    r.commit()
    r.push()
    return (first, second, r.count()), (2, 4, 6)


def lint_by_a_setting(binary, folder):
    """Only where the setting is true; a line that moved is none that is new."""
    r = Repository(binary, folder)
    put(r.folder, "profiles/package.mask", "# nothing\nx/away\n")
    r.package("x/lib-2")
    r.commit()
    without = r.push()[:2]
    r.git("config", "gvis.lint", "true")
    put(r.folder, "profiles/package.mask", "# nothing\n# more\nx/away\nx/elsewhere\n")
    r.package("app/old-2", "x/lib")
    r.commit()
    with_it = r.push()[:2]
    r.git("config", "gvis.lint", "no")
    return (without, with_it, r.push()[:2]), (
        (True, []), (False, ["profiles/package.mask:4: UnknownProfilePackage: x/elsewhere", "app/old-1: RedundantVersion: old-2"]), (True, []))


def from_a_worktree_and_a_bare_repository(binary, folder):
    r = Repository(binary, folder)
    r.git("worktree", "add", "-q", "-b", "side", os.path.join(folder, "side"))
    put(os.path.join(folder, "side"), "profiles/package.mask", "x/lib\n")
    r.git("commit", "-qam", "mask", cwd=os.path.join(folder, "side"))
    main, r.folder = r.folder, os.path.join(folder, "side")
    side = r.push("origin", "side")[:2]
    r.folder = os.path.join(folder, "bare.git")
    r.git("clone", "-q", "--bare", main, r.folder, cwd=folder)
    r.git("config", "gvis.keywords", "NonsolvableDepsInStable")
    r.git("remote", "set-url", "origin", r.remote)
    r.git("fetch", "-q", "origin", "+refs/heads/*:refs/remotes/origin/*")
    os.symlink(HOOK, os.path.join(r.folder, "hooks/pre-push"))
    bare = r.push("origin", "side")[:2]
    return (side, os.path.isdir(os.path.join(main, ".git/gvis")), bare), ((False, [HIDDEN]), True, (False, [HIDDEN]))


def two_pushes_at_once(binary, folder):
    r = Repository(binary, folder)
    mask(r)
    put(folder, "bin/gvis", content(folder, "bin/gvis").replace("exec", "sleep 3\nexec"), 0o755)
    pushes = []
    for branch in ("one", "two"):
        pushes.append(subprocess.Popen(["git", "push", "origin", f"main:{branch}"], cwd=r.folder, env=r.env, text=True, stdin=subprocess.DEVNULL, stderr=subprocess.PIPE))
        while not r.count():
            time.sleep(0.05)
    said = [(p.communicate(timeout=120)[1].splitlines(), p.returncode) for p in pushes]
    return ([HIDDEN in lines for lines, _ in said], [status for _, status in said], "waiting" in said[1][0][0], r.count()), ([True, True], [1, 1], True, 2)


def what_an_ended_push_left(binary, folder):
    """A lock of the index, an index that is none, half of a checkout, half of a report."""
    r = Repository(binary, folder)
    put(r.folder, ".git/gvis/index", "no index")
    put(r.folder, ".git/gvis/index.lock", "")
    put(r.folder, ".git/gvis/tree/profiles/package.mask/file", "x/lib\n")
    mask(r)
    first = r.push()[:2]
    tree = r.git("rev-parse", "HEAD^{tree}")
    kept = [name for name in os.listdir(os.path.join(r.folder, ".git/gvis/reports")) if name.startswith(tree)]
    os.rename(os.path.join(r.folder, ".git/gvis/reports", kept[0]), os.path.join(r.folder, ".git/gvis/reports", kept[0] + ".new"))
    return (first, r.push()[:2]), ((False, [HIDDEN]), (False, [HIDDEN]))


def a_checkout_that_was_changed_is_mended(binary, folder):
    """Its index is of the tree that is wanted: a file changed, one gone, a folder and a link in the place of one, files and a folder too many."""
    r = Repository(binary, folder)
    r.package("app/user-1")
    r.commit()
    first = r.push()[:2]
    r.git("push", "-q", "-f", "--no-verify", "origin", "main~:main")
    tree = os.path.join(r.folder, ".git/gvis/tree")
    shutil.rmtree(os.path.join(r.folder, ".git/gvis/reports"))
    put(tree, "profiles/package.mask", "x/lib\n")
    os.remove(os.path.join(tree, "metadata/md5-cache/x/lib-1"))
    os.remove(os.path.join(tree, "x/lib/lib-1.ebuild"))
    put(tree, "x/lib/lib-1.ebuild/file", "")
    shutil.rmtree(os.path.join(tree, "app/user"))
    os.symlink("../x", os.path.join(tree, "app/user"))
    for path in ("metadata/md5-cache/app/new-1", "app/new/new-1.ebuild"):
        put(tree, path, content(tree, path.replace("new", "old")))
    again = r.push()
    walked = sorted(os.path.relpath(os.path.join(at, name), tree) for at, _, names in os.walk(tree) for name in names)
    left = content(tree, "profiles/package.mask"), os.path.isfile(os.path.join(tree, "x/lib/lib-1.ebuild")), walked == sorted(r.git("ls-files").splitlines())
    return (first, again[:2], len(again[2]), left, r.count("session")), ((True, []), (True, []), 1, ("# nothing\n", True, True), 2)


def entries_alone_take_one_session(binary, folder):
    """Ten entries changed, one gone and one new, whose ebuild was there: both trees are reported on by one session, as scans do."""
    r = Repository(binary, folder)
    for number in range(12):
        r.package(f"app/p{number}-1", "x/lib")
    os.remove(os.path.join(r.folder, "metadata/md5-cache/app/p11-1"))
    r.git("config", "--unset", "gvis.keywords")
    r.commit()
    r.git("push", "-q", "--no-verify", "origin", "main")
    base = r.has()
    for number in (*range(10), 11):
        r.package(f"app/p{number}-1", "x/gone" if number == 3 else "")
    os.remove(os.path.join(r.folder, "metadata/md5-cache/app/p10-1"))
    made = r.commit()
    passed, lines, said = r.push()
    counts, again = (r.count(), r.count("session")), r.push()[:2]
    kept, scanned = {}, {}
    for commit in (base, made):
        tree = r.git("rev-parse", commit + "^{tree}")
        name, = (name for name in os.listdir(os.path.join(r.folder, ".git/gvis/reports")) if name.startswith(tree))
        kept[commit] = content(r.folder, ".git/gvis/reports", name)
        r.git("worktree", "add", "-q", os.path.join(folder, commit), commit)
        scanned[commit] = run([binary, "scan", commit, "--certs", "C"], cwd=folder)[1]
    wrong = ["app/p10-1: MissingCache", "app/p3-1: NonexistentDeps: RDEPEND: x/gone", OLD.replace("old", "p3")]
    return (passed, sorted(lines), said[:2], counts, again[0], r.count(), kept == scanned, "app/p11-1: MissingCache" in kept[base]), (
        False, sorted(wrong), [f"gvis: scanning {base[:12]}, which origin has, and 12 changed entries of {made[:12]}, which is pushed to refs/heads/main",
                               "gvis: 3 new lines by the push to refs/heads/main:"], (0, 1), False, 0, True, True)


def else_both_are_scanned(binary, folder):
    """With an ebuild, an entry that is a link, a tree that is reported on already, and a session that ends."""
    r = Repository(binary, folder)
    got = {}

    def push(name):
        before = r.count(), r.count("session")
        passed = r.push()[0]
        got[name] = passed, r.count() - before[0], r.count("session") - before[1]

    r.package("app/user-1", "x/lib x/lib", ebuild="# more\n")
    r.commit()
    push("an ebuild")
    r.package("app/user-1", "x/lib", ebuild="# more\n")
    r.commit()
    push("a tree of before")
    shutil.rmtree(os.path.join(r.folder, ".git/gvis"))
    os.rename(os.path.join(r.folder, "metadata/md5-cache/app/user-1"), os.path.join(r.folder, "entry"))
    os.symlink("../../../entry", os.path.join(r.folder, "metadata/md5-cache/app/user-1"))
    r.git("add", "entry")
    r.commit()
    push("a link")
    shutil.rmtree(os.path.join(r.folder, ".git/gvis"))
    put(r.folder, "metadata/md5-cache/x/lib-1", content(r.folder, "metadata/md5-cache/x/lib-1") + "#" * 16777216)
    r.commit()
    push("a session that ends")
    return got, {"an ebuild": (True, 2, 0), "a tree of before": (True, 1, 0), "a link": (True, 2, 0), "a session that ends": (False, 2, 1)}


def as_a_checkout_writes_it(binary, folder):
    """What git makes of a file's line ends is what the session is told."""
    r = Repository(binary, folder)
    put(r.folder, ".gitattributes", "metadata/md5-cache/app/user-1 text eol=crlf\n")
    r.commit()
    r.git("push", "-q", "--no-verify", "origin", "main")
    r.package("app/user-1", "x/gone")
    made = r.commit()
    passed = r.push()[0]
    tree, reports = r.git("rev-parse", made + "^{tree}"), os.path.join(r.folder, ".git/gvis/reports")
    kept, = (content(reports, name) for name in os.listdir(reports) if name.startswith(tree))
    r.git("worktree", "add", "-q", os.path.join(folder, "made"), made)
    scanned = run([binary, "scan", "made", "--certs", "C", "--keywords", r.git("config", "gvis.keywords")], cwd=folder)[1]
    return (r.count("session"), passed, kept, "app/user-1: StaleCache: ebuild" in kept), (1, True, scanned, True)


def as_an_overlay(r, folder, name="gentoo"):
    """Makes the repository an overlay, without profiles of its own, over a master that it names."""
    master = os.path.join(folder, "masters", name)
    shutil.copytree(os.path.join(r.folder, "profiles"), os.path.join(master, "profiles"))
    for path in ("x/lib/lib-1.ebuild", "metadata/md5-cache/x/lib-1"):
        put(master, path, content(r.folder, path))
    for path in ("profiles", "x", "metadata/md5-cache/x"):
        shutil.rmtree(os.path.join(r.folder, path))
    put(r.folder, "metadata/layout.conf", f"masters = {name}\n")
    r.commit()
    r.git("config", "gvis.master", master)
    r.git("push", "-q", "--no-verify", "origin", "main")
    return master


def an_overlay_is_judged_among_its_masters(binary, folder):
    r = Repository(binary, folder)
    put(folder, "bin/gvis", f"#!/bin/sh\ncase $1 in scan|session|overlay) echo $1 >>{folder}/scans ;; esac\nexec {binary} \"$@\"\n", 0o755)
    master = as_an_overlay(r, folder)
    r.package("app/more-1", "x/lib")
    r.commit()
    got = [r.push()[:2]]
    r.package("app/new-1", "x/gone")
    r.commit()
    got.append(r.push()[:2])
    counts = r.count("overlay"), r.count("session"), r.count("scan")
    # what the master takes away is no fault of the push
    put(master, "profiles/package.mask", "x/lib\n")
    r.package("app/new-1")
    r.commit()
    got.append(r.push()[:2])
    os.remove(os.path.join(master, "profiles/categories"))
    r.package("app/other-1")
    r.commit()
    passed, lines, said = r.push()
    return (got, counts, passed, lines, "gvis: what is pushed can't be judged: gvis overlay ended with status 6" in said, sorted(os.listdir(os.path.join(r.folder, ".git/gvis/root")))), (
        [(True, []), (False, [NEW]), (True, [])], (4, 0, 0), False, [], True, ["gentoo", "pushed-overlay"])


CASES = [needs("git")(case) for case in (
    a_push_that_hides_a_dependency_is_refused, one_that_does_not_passes, a_fault_that_goes_passes, reports_are_kept,
    the_commit_is_judged_and_not_the_folder, allowed_by_a_variable, a_new_branch_is_compared_with_what_the_remote_has, an_empty_remote,
    what_the_remote_has_is_not_here, other_pushes_are_not_judged, several_branches_at_once, lines_of_files_are_compared_without_numbers,
    what_cannot_be_judged_is_refused, a_cache_that_is_made, another_program_reports_anew, from_a_worktree_and_a_bare_repository,
    two_pushes_at_once, what_an_ended_push_left, a_checkout_that_was_changed_is_mended, entries_alone_take_one_session, else_both_are_scanned, as_a_checkout_writes_it, an_overlay_is_judged_among_its_masters,
    lint_by_a_setting)]
