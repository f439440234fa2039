"""Runs the recipes of docs/ci.md, as they stand there, on the small repository."""
import json
import os
import re
import shutil
import textwrap

from common import TOP, content, entry, put, run


def blocks(kind):
    return re.findall(rf"^```{kind}\n(.*?)^```", content(TOP, "docs/ci.md"), re.M | re.S)


def prepare(binary, folder):
    """A repository as a working folder, and the commands on PATH."""
    shutil.copytree(os.path.join(TOP, "examples/repo"), os.path.join(folder, "repo"))
    os.makedirs(os.path.join(folder, "bin"))
    os.symlink(binary, os.path.join(folder, "bin/gvis"))
    os.symlink(os.path.join(TOP, "share/gvis-causes"), os.path.join(folder, "bin/gvis-causes"))
    return {"cwd": os.path.join(folder, "repo"), "env": dict(os.environ, PATH=os.path.join(folder, "bin") + ":" + os.environ["PATH"])}


def mended(folder):
    """Takes the faults of the repository away: the entries of tmux, which has them all but one of riscv."""
    for path in ("metadata/md5-cache/app-misc/tmux-3.4", "app-misc/tmux/tmux-3.4.ebuild"):
        os.remove(os.path.join(folder, "repo", path))


def plain_script(binary, folder):
    how = prepare(binary, folder)
    script = put(folder, "gvis-since", blocks("sh")[0], 0o755)
    call = [script, ".", "../kept"]
    first = run(call, **how)
    put(folder, "repo/profiles/package.mask", "sys-libs/ncurses\nsys-apps/file\n")
    masked, again = run(call, **how), run(call, **how)
    broken = run([script, "gone", "../kept"], **how)
    kinds = sorted({line.split(": ")[1] for line in masked[1].splitlines()})
    return (first, masked[0], "app-editors/nano-8.2" in masked[1], "NonexistentDeps" in kinds, again, broken[0], sorted(os.listdir(os.path.join(folder, "kept")))), (
        (0, "", ""), 1, True, False, (0, "", ""), 6, ["before", "certificates", "new", "now"])


def github_job(binary, folder):
    how = prepare(binary, folder)
    lines = blocks("yaml")[0]
    step = textwrap.dedent(re.search(r"^ +run: \|\n((?: {10}.*\n)+)", lines, re.M)[1])
    status, out, err = run(["bash", "-e", "-o", "pipefail", "-c", step], **how)
    kept = sorted(os.listdir(os.path.join(folder, "repo/.gvis")))
    page = "sys-libs/libutempter" in content(folder, "repo/gvis.html")
    mended(folder)
    good = run(["bash", "-e", "-o", "pipefail", "-c", step], **how)
    os.remove(os.path.join(folder, "repo/profiles/categories"))
    bad = run(["bash", "-e", "-o", "pipefail", "-c", step], **how)[0]
    return (status, err, [re.sub("::.*", "", line[2:]) for line in out.splitlines()], kept, page, good, bad), (1, "", [
        "error file=app-misc/tmux/tmux-3.4.ebuild,line=1,title=sys-libs/libutempter",
        "error file=app-misc/tmux/tmux-3.4.ebuild,line=1,title=sys-libs/utempter"], ["certificates", "reports"], True, (0, "", ""), 6)


def gitlab_job(binary, folder):
    how = prepare(binary, folder)
    steps = "\n".join(re.findall(r"^    - (.*)$", re.search(r"^  script:\n((?:    - .*\n)+)", blocks("yaml")[1], re.M)[1], re.M))
    status, out, err = run(["sh", "-e", "-c", steps], **how)
    issues = json.loads(content(folder, "repo/gvis.json"))
    mended(folder)
    good = run(["sh", "-e", "-c", steps], **how)
    return (status, err, "1 package, 1 reports: sys-libs/utempter" in out, [(i["location"]["path"], i["severity"], len(i["fingerprint"])) for i in issues],
            good[0], json.loads(content(folder, "repo/gvis.json"))), (
        1, "", True, [("app-misc/tmux/tmux-3.4.ebuild", "major", 64)] * 2, 0, [])


def overlay_job(binary, folder):
    """An overlay with a package that needs one of its master and one that is nowhere, beside the small repository."""
    how = prepare(binary, folder)
    shutil.copytree(os.path.join(TOP, "examples/repo"), os.path.join(folder, "repo/repos/gentoo"))
    needed = next(name for name in sorted(os.listdir(os.path.join(folder, "repo/app-editors"))) if name)
    for path, text in {"metadata/layout.conf": "masters = gentoo\n", "app-editors/own/own-1.ebuild": "",
                       "metadata/md5-cache/app-editors/own-1": entry(RDEPEND=f"app-editors/{needed} app-editors/nowhere")}.items():
        put(folder, "repo/repos/overlay/" + path, text)
    step = textwrap.dedent(re.search(r"^ +run: \|\n((?: {10}.*\n)+)", blocks("yaml")[2], re.M)[1])
    status, out, err = run(["bash", "-e", "-o", "pipefail", "-c", step], **how)
    put(folder, "repo/repos/overlay/metadata/md5-cache/app-editors/own-1", entry())
    good = run(["bash", "-e", "-o", "pipefail", "-c", step], **how)
    os.remove(os.path.join(folder, "repo/repos/overlay/metadata/layout.conf"))
    bad = run(["bash", "-e", "-o", "pipefail", "-c", step], **how)[0]
    return (status, err, [re.sub("::.*", "", line[2:]) for line in out.splitlines()], good, bad), (
        1, "", ["error file=app-editors/own/own-1.ebuild,line=1,title=app-editors/nowhere"], (0, "", ""), 6)


def recipes_keep_the_certificates(*_):
    """The file that the command writes is in the folder that is kept."""
    return [bool(re.search(r"path(s: \[|: )\.gvis\b", block)) and "--certs .gvis/" in block for block in blocks("yaml")], [True, True, True]


CASES = [plain_script, github_job, gitlab_job, overlay_job, recipes_keep_the_certificates]
