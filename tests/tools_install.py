"""`make install` and `make uninstall`, in a copy of the repository with the built program."""
import os
import shutil

import tools_hook
from common import TOP, checkout, content, needs, put, run

FILES = {
    "bin/gvis": 0o755, "bin/gvis-causes": 0o755, "bin/gvis-lrat": 0o755, "bin/gvis-watch": 0o755, "bin/gvis-language-server": 0o755,
    "share/gvis/gvis_session.py": 0o644, "libexec/gvis/gvis": 0o755, "libexec/gvis/version": 0o644, "share/man/man1/gvis.1": 0o644,
    "share/bash-completion/completions/gvis": 0o644, "share/zsh/site-functions/_gvis": 0o644, "share/fish/vendor_completions.d/gvis.fish": 0o644,
    "share/gvis/hooks/pre-push": 0o755, "share/gvis/causes.html": 0o644,
    **{f"share/gvis/plain/{name}.py": 0o644 for name in ("backing", "plain", "plain_atoms", "plain_gates", "plain_profiles")}}
BASE = {"PATH": os.environ["PATH"], "HOME": "/nonexistent"}


def copy(binary, folder):
    top = checkout(os.path.join(folder, "copy of gvis"), binary)
    return top


def make(top, *words):
    return run(["make", *words], cwd=top, env=BASE)


def installed(folder):
    found = {}
    for at, _, names in os.walk(folder):
        for name in names:
            path = os.path.join(at, name)
            found[os.path.relpath(path, folder)] = os.stat(path).st_mode & 0o777
    return found


def into_an_empty_prefix(binary, folder):
    """Every file, and the installed program says of the example what README shows."""
    top, prefix = copy(binary, folder), os.path.join(folder, "a prefix")
    status, _, err = make(top, "install", f"PREFIX={prefix}")
    words = [os.path.join(prefix, "bin/gvis"), "scan", os.path.join(TOP, "examples/repo"), "--certs", os.path.join(folder, "C")]
    shutil.move(top, top + " moved")
    scan = run(words, env=BASE)
    shown = ["    " + line in content(TOP, "README.md") for line in scan[1].splitlines()]
    version, words_ = run([words[0], "--version"], env=BASE), run([words[0], "--help"], env=BASE)
    return (status, err, installed(prefix), scan[0], shown, version, words_[1].splitlines()[-1]), (
        0, "", FILES, 1, [True] * 4, (0, "gvis 0.1\nproved and built by a toolchain\n", ""), "The manual: man gvis")


def below_a_destination(binary, folder):
    """DESTDIR stands before PREFIX, and nothing is written elsewhere."""
    top, image = copy(binary, folder), os.path.join(folder, "image")
    status = make(top, "install", f"DESTDIR={image}", "PREFIX=/opt/nowhere/gvis")[0]
    moved = os.path.join(folder, "moved")
    os.rename(os.path.join(image, "opt/nowhere/gvis"), moved)
    link = os.path.join(folder, "link")
    os.symlink(os.path.join(moved, "bin/gvis"), link)
    return (status, installed(moved), os.path.exists("/opt/nowhere"), run([link, "scan"], env=BASE)), (0, FILES, False, (2, "", "gvis: bad command line\n"))


def uninstall_leaves_what_others_have(binary, folder):
    top, prefix = copy(binary, folder), os.path.join(folder, "prefix")
    make(top, "install", f"PREFIX={prefix}")
    put(prefix, "share/man/man1/other.1", "")
    status, _, err = make(top, "uninstall", f"PREFIX={prefix}")
    again = make(top, "uninstall", f"PREFIX={prefix}")[0]
    return (status, err, again, list(installed(prefix)), os.path.exists(os.path.join(prefix, "share/gvis")), os.path.exists(os.path.join(prefix, "libexec/gvis"))), (
        0, "", 0, ["share/man/man1/other.1"], False, False)


def fails_without_a_program(binary, folder):
    """Where the program can't be built nothing is installed."""
    top, prefix = copy(None, folder), os.path.join(folder, "prefix")
    put(folder, "bin/rt", "#!/bin/sh\n[ \"$1\" = version ]\n", 0o755)
    status, _, err = run(["make", "install", f"PREFIX={prefix}"], cwd=top, env=dict(BASE, PATH=os.path.join(folder, "bin") + ":" + BASE["PATH"]))
    return (status, "gvis: no program: what isn't proved isn't built" in err, os.path.exists(prefix)), (2, True, False)


def installed_program_that_is_gone(binary, folder):
    top, prefix = copy(binary, folder), os.path.join(folder, "prefix")
    make(top, "install", f"PREFIX={prefix}")
    os.remove(os.path.join(prefix, "libexec/gvis/gvis"))
    got = run([os.path.join(prefix, "bin/gvis"), "scan"], env=BASE)
    return (got[0], got[2].replace(prefix, "")), (125, "gvis: no program: /bin/../libexec/gvis/gvis is not there\n")


def installed_hook_finds_its_program(binary, folder):
    """Where no `gvis` is on PATH, the one that was installed with it."""
    top, prefix = copy(binary, folder), os.path.join(folder, "prefix")
    make(top, "install", f"PREFIX={prefix}")
    repository = tools_hook.Repository(binary, folder)
    os.remove(os.path.join(folder, "bin/gvis"))
    os.remove(os.path.join(repository.folder, ".git/hooks/pre-push"))
    os.symlink(os.path.join(prefix, "share/gvis/hooks/pre-push"), os.path.join(repository.folder, ".git/hooks/pre-push"))
    tools_hook.mask(repository)
    return (shutil.which("gvis", path=repository.env["PATH"]), repository.push()[:2]), (None, (False, [tools_hook.HIDDEN]))


def installed_tools_work(binary, folder):
    """Beside the program that was installed with them, where the checkout is gone."""
    top, prefix = copy(binary, folder), os.path.join(folder, "prefix")
    make(top, "install", f"PREFIX={prefix}")
    shutil.move(top, top + " moved")
    root, env = os.path.join(TOP, "examples/repo"), dict(BASE, PATH=prefix + "/bin:" + BASE["PATH"])
    run(["gvis", "scan", root, "--certs", "C"], cwd=folder, env=env)
    lrat = run(["gvis-lrat", "C", "out", "--tree", root], cwd=folder, env=env)
    watch = run(["gvis-watch", "gone"], cwd=folder, env=env)
    server = run(["gvis-language-server"], cwd=folder, env=env)
    left = sorted(set(installed(prefix)) - set(FILES))
    return (lrat[0], lrat[1].splitlines()[0], lrat[2], watch, server, left), (
        0, "12 records in out: 10 refutations, 5 models", "", (1, "", "gvis-watch: gone is no folder\n"), (1, "", ""), [])


def the_hook_asks_for_the_proved_program(binary, folder):
    """Each of its calls says so to a launcher."""
    repository = tools_hook.Repository(binary, folder)
    put(folder, "bin/gvis", f'#!/bin/sh\necho "$GVIS_PROVED" >>{folder}/asked\nexec {binary} "$@"\n', 0o755)
    tools_hook.mask(repository)
    passed = repository.push()[0]
    return (passed, set(content(folder, "asked").splitlines())), (False, {"1"})


CASES = [needs("make")(case) for case in (
    into_an_empty_prefix, below_a_destination, uninstall_leaves_what_others_have, fails_without_a_program, installed_program_that_is_gone,
    installed_tools_work)]
CASES += [needs("make", "git")(installed_hook_finds_its_program), needs("git")(the_hook_asks_for_the_proved_program)]
