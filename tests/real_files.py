"""The built program on real folders and files: what the objects in memory can't show."""
import hashlib
import os
import resource
import shutil
import signal
import socket
import subprocess

from common import HEADER, Untested, bytes_of as content, called, checkout, named, needs, put, run

NOBODY = 65534
LARGEST = 16_777_216
MISSING = "app/p-1: NonsolvableDepsInStable: RDEPEND: amd64 base stable: USE=\"\": x/y\n"


ASKED = ["--keywords", "NonsolvableDepsInStable"]
EBUILD = b"inherit one\n"
ECLASS = b"# an eclass\n"
ENTRY = b"EAPI=8\nSLOT=0\nKEYWORDS=amd64\nRDEPEND=x/y\n_md5_=%s\n_eclasses_=one\t%s\n" % (
    hashlib.md5(EBUILD).hexdigest().encode(), hashlib.md5(ECLASS).hexdigest().encode())


def repository(folder):
    """One profile and one package that needs a package that isn't there."""
    put(folder, "profiles/profiles.desc", b"amd64 base stable\n")
    put(folder, "profiles/categories", b"app\nx\n")
    put(folder, "profiles/base/eapi", b"8\n")
    put(folder, "app/p/p-1.ebuild", EBUILD)
    put(folder, "eclass/one.eclass", ECLASS)
    put(folder, "metadata/md5-cache/app/p-1", ENTRY)


def cut(folder, path):
    path = os.path.join(folder, path)
    shutil.rmtree(path) if os.path.isdir(path) else os.remove(path)


def make(folder, path):
    os.makedirs(os.path.join(folder, path))


def scan(binary, folder, **more):
    return run([binary, "scan", folder, "--certs", os.path.join(folder, "C")] + ASKED, **more)


def a_file_and_an_absent_path(folder):
    return 1, MISSING, ""


def no_profiles_desc(folder):
    cut(folder, "profiles/profiles.desc")
    return 6, "", "gvis: not a repository: profiles/profiles.desc\n"


def folder_in_place_of_a_file(folder):
    cut(folder, "profiles/categories")
    make(folder, "profiles/categories")
    return 6, "", "gvis: not a repository: profiles/categories\n"


def path_below_a_file(folder):
    cut(folder, "profiles")
    put(folder, "profiles", b"")
    return 6, "", "gvis: not a repository: profiles/profiles.desc\n"


def empty_folder_is_a_profile(folder):
    cut(folder, "profiles/base")
    make(folder, "profiles/base")
    return 1, MISSING, ""


def folders_in_place_of_files(folder):
    for name in ("parent", "make.defaults", "use.mask", "package.mask"):
        make(folder, "profiles/base/" + name)
    make(folder, "profiles/package.mask/below")
    return 1, MISSING, ""


def files_of_a_folder(folder):
    put(folder, "profiles/package.mask/10", b"app/p\n")
    put(folder, "profiles/package.mask/9", b"-app/p\n")
    return 1, MISSING, ""


def hidden_file_of_a_folder(folder):
    put(folder, "profiles/package.mask/.10", b"app/p\n")
    put(folder, "profiles/package.mask/sub/10", b"app/p\n")
    return 1, MISSING, ""


def links_to_files_and_folders(folder):
    cut(folder, "profiles/base")
    put(folder, "elsewhere/base/eapi", b"8\n")
    os.symlink("../elsewhere/base", os.path.join(folder, "profiles/base"))
    os.rename(os.path.join(folder, "app/p/p-1.ebuild"), os.path.join(folder, "elsewhere/ebuild"))
    os.symlink("../../elsewhere/ebuild", os.path.join(folder, "app/p/p-1.ebuild"))
    return 1, MISSING, ""


def link_to_nothing(folder):
    os.symlink("nothing", os.path.join(folder, "profiles/base/parent"))
    return 1, MISSING, ""


def ebuild_changed(folder):
    put(folder, "app/p/p-1.ebuild", EBUILD + b"\n")
    return 0, "", ""


def eclass_changed(folder):
    put(folder, "eclass/one.eclass", ECLASS + b"\n")
    return 0, "", ""


def folder_in_place_of_an_ebuild(folder):
    cut(folder, "app/p/p-1.ebuild")
    make(folder, "app/p/p-1.ebuild")
    return 0, "", ""


def folder_in_place_of_an_eclass(folder):
    cut(folder, "eclass/one.eclass")
    make(folder, "eclass/one.eclass")
    return 0, "", ""


def listing_of_a_file_is_empty(folder):
    cut(folder, "metadata/md5-cache/app")
    put(folder, "metadata/md5-cache/app", b"")
    return 0, "", ""


def listing_below_a_file_is_empty(folder):
    cut(folder, "metadata/md5-cache")
    put(folder, "metadata/md5-cache", b"")
    return 0, "", ""


def folder_in_place_of_an_entry(folder):
    make(folder, "metadata/md5-cache/x/y-1")
    return 1, MISSING, ""


def largest_file(folder):
    put(folder, "profiles/categories", b"app\nx\n" + b"#" * (LARGEST - 6))
    return 1, MISSING, ""


def one_byte_more(folder):
    put(folder, "profiles/categories", b"app\nx\n" + b"#" * (LARGEST - 5))
    return 7, "", "gvis: limit: profiles/categories 16777216\n"


def path_too_long(folder):
    put(folder, "profiles/profiles.desc", b"amd64 " + b"a/" * 2100 + b"a stable\n")
    return 7, "", "gvis: limit: profiles/" + "a/" * 2100 + "a 4096\n"


def name_that_is_no_text(folder):
    put(os.fsencode(folder), b"metadata/md5-cache/x/y\xff-1", b"")
    return 3, "", "gvis: fault: tree metadata/md5-cache/x\n"


def loop_of_links(folder):
    os.symlink("make.defaults", os.path.join(folder, "profiles/base/make.defaults"))
    return 3, "", "gvis: fault: tree profiles/base/make.defaults\n"


# What can't be read and never ends, or isn't there to be opened, at a path.

def pipe(path):
    os.mkfifo(path)


def device(path):
    os.symlink("/dev/zero", path)


def listening(path):
    here = os.getcwd()
    os.chdir(os.path.dirname(path))
    with socket.socket(socket.AF_UNIX) as made:
        made.bind(os.path.basename(path))
    os.chdir(here)


IN_PROFILE = ["eapi", "parent", "make.defaults"] + [
    name + form for form in ("mask", "force") for name in ("use.", "use.stable.", "package.use.", "package.use.stable.")] + ["package.mask"]
READ = ["profiles/profiles.desc", "profiles/categories", "profiles/package.mask", "profiles/package.mask/10", "profiles/base",
        "metadata/md5-cache/app/p-1", "app/p/p-1.ebuild", "eclass/one.eclass"] + ["profiles/base/" + name for name in IN_PROFILE]
LISTED = ["metadata/md5-cache/app", "app", "app/p"]


def replaced(folder, path, kind):
    """Something else stands at a path, which may be a file, a folder or nothing before."""
    full = os.path.join(folder, path)
    if os.path.lexists(full):
        cut(folder, path)
    os.makedirs(os.path.dirname(full), exist_ok=True)
    kind(full)


def name_too_long(folder):
    put(folder, "profiles/profiles.desc", b"amd64 " + b"a" * 300 + b" stable\n")
    return 3, "", "gvis: fault: tree profiles/" + "a" * 300 + "\n"


def no_leave_to_read(folder):
    os.chmod(os.path.join(folder, "metadata/md5-cache/app"), 0)
    return 3, "", "gvis: fault: tree metadata/md5-cache/app\n"


def closed_pipe(binary, folder):
    """Nobody reads what is written: a fault of the output, whether the system's signal is held back or not."""
    read_end, write_end = os.pipe()
    os.close(read_end)
    words = [binary, "scan", folder, "--certs", os.path.join(folder, "C")] + ASKED
    done = subprocess.run(words, stdout=write_end, stderr=subprocess.PIPE, timeout=60, restore_signals=False)
    os.close(write_end)
    return (done.returncode, done.stderr.decode()), (3, "gvis: fault: output\n")


# The file of the certificates, and an output that takes nothing. Each answers what came and what is wanted.

def kept(binary, folder, path, **more):
    """The status, what stands on standard error, whether the file begins as one of certificates, and what else stands there."""
    status, _, err = run([binary, "scan", folder, "--certs", path] + ASKED, cwd=folder, **more)
    full = os.path.join(folder, path)
    is_new = os.path.isfile(full) and content(full).startswith(HEADER)
    return status, err, is_new, sorted(os.listdir(os.path.dirname(full)) if os.path.isdir(os.path.dirname(full)) else [])


def new_file(binary, folder):
    make(folder, "certs")
    return kept(binary, folder, "certs/C"), (1, "", True, ["C"])


def old_file(binary, folder):
    put(folder, "certs/C", b"old")
    os.chmod(os.path.join(folder, "certs/C"), 0o640)
    got = kept(binary, folder, "certs/C")
    return got + (os.stat(os.path.join(folder, "certs/C")).st_mode & 0o777,), (1, "", True, ["C"], 0o640)


def twice(binary, folder):
    make(folder, "certs")
    first = kept(binary, folder, "certs/C"), content(os.path.join(folder, "certs/C"))
    return (kept(binary, folder, "certs/C"), content(os.path.join(folder, "certs/C"))), first


def link_to_a_file(binary, folder):
    put(folder, "elsewhere/D", b"old")
    make(folder, "certs")
    os.symlink("../elsewhere/D", os.path.join(folder, "certs/C"))
    got = kept(binary, folder, "certs/C")
    where = os.path.islink(os.path.join(folder, "certs/C")), content(os.path.join(folder, "elsewhere/D"))[:10], os.listdir(os.path.join(folder, "elsewhere"))
    return got + where, (1, "", True, ["C"], True, HEADER, ["D"])


def link_to_no_file(binary, folder):
    make(folder, "certs")
    os.symlink("D", os.path.join(folder, "certs/C"))
    return kept(binary, folder, "certs/C") + (os.path.islink(os.path.join(folder, "certs/C")),), (1, "", True, ["C", "D"], True)


def links_to_no_file(binary, folder):
    """A link to a link to nothing, in other folders: ended in the middle, nothing stands there; then the new file does."""
    make(folder, "certs")
    make(folder, "elsewhere")
    os.symlink("../elsewhere/D", os.path.join(folder, "certs/C"))
    os.symlink(os.path.join(folder, "E"), os.path.join(folder, "elsewhere/D"))
    first = kept(binary, folder, "certs/C", preexec_fn=small_files_only(signal.SIG_DFL))
    ended = first[0], os.path.lexists(os.path.join(folder, "E"))
    got = kept(binary, folder, "certs/C") + (content(os.path.join(folder, "E"))[:10], os.path.islink(os.path.join(folder, "elsewhere/D")))
    return (ended, got), ((-signal.SIGXFSZ, False), (1, "", True, ["C"], HEADER, True))


def loop_of_links_as_file(binary, folder):
    make(folder, "certs")
    os.symlink("C", os.path.join(folder, "certs/C"))
    return kept(binary, folder, "certs/C"), (3, "gvis: fault: store certs/C\n", False, ["C"])


def link_below_no_folder(binary, folder):
    make(folder, "certs")
    os.symlink("gone/D", os.path.join(folder, "certs/C"))
    return kept(binary, folder, "certs/C"), (3, "gvis: fault: store certs/C\n", False, ["C"])


def full_device(binary, folder):
    return kept(binary, folder, "/dev/full")[:3], (3, "gvis: fault: store /dev/full\n", False)


def null_device(binary, folder):
    got = kept(binary, folder, "/dev/null")[:2]
    return got + (os.path.isfile("/dev/null"),), (1, "", False)


def folder_as_file(binary, folder):
    make(folder, "certs/C/inside")
    return kept(binary, folder, "certs/C"), (3, "gvis: fault: store certs/C\n", False, ["C"])


def no_folder(binary, folder):
    return kept(binary, folder, "gone/C"), (3, "gvis: fault: store gone/C\n", False, [])


def pipe_with_a_reader(binary, folder):
    os.mkfifo(os.path.join(folder, "C"))
    with subprocess.Popen([binary, "scan", folder, "--certs", "C"] + ASKED, cwd=folder, stdout=subprocess.PIPE) as run:
        got = content(os.path.join(folder, "C"))[:10]
        out = run.communicate(timeout=60)[0].decode()
    return (run.returncode, out, got), (1, MISSING, HEADER)


def pipe_without_an_end(binary, folder):
    """Who reads the certificates from the pipe holds it open for writing too: the scan doesn't wait for what would come."""
    os.mkfifo(os.path.join(folder, "C"))
    pipe_end = os.open(os.path.join(folder, "C"), os.O_RDWR)
    got = kept_quickly(binary, folder, "C"), os.read(pipe_end, 10)
    os.close(pipe_end)
    return got, ((1, ""), HEADER)


def endless_device(binary, folder):
    os.symlink("/dev/zero", os.path.join(folder, "C"))
    return kept_quickly(binary, folder, "C"), (1, "")


def kept_quickly(binary, folder, path):
    return run([binary, "scan", folder, "--certs", path] + ASKED, timeout=20, cwd=folder)[::2]


def socket_as_file(binary, folder):
    make(folder, "certs")
    listening(os.path.join(folder, "certs/C"))
    return kept(binary, folder, "certs/C"), (3, "gvis: fault: store certs/C\n", False, ["C"])


def used_again(binary, folder):
    """The certificates of before, by a link, of another tree, cut, and not read with --fresh."""
    make(folder, "certs")
    make(folder, "elsewhere")
    os.symlink("../elsewhere/D", os.path.join(folder, "certs/C"))
    first = kept(binary, folder, "certs/C"), content(os.path.join(folder, "elsewhere/D"))
    got = []
    for before in (first[1], first[1][:-1], first[1][:30], b"", b"old", HEADER, bytes(100)):
        put(folder, "elsewhere/D", before)
        got.append((kept(binary, folder, "certs/C"), content(os.path.join(folder, "elsewhere/D"))))
    return got, [first] * 7


def verified(binary, folder, **more):
    """A verification with the certificates `C` and the report `P`."""
    return run([binary, "verify", folder, "--certs", "C", "--report", "P"] + ASKED, cwd=folder, **more)


def verified_reports(binary, folder):
    """What a scan left, another report, an empty one, none, a link to it; other certificates, none; nothing is changed."""
    kept(binary, folder, "C")
    certs, report, got = content(os.path.join(folder, "C")), MISSING.encode(), []
    for text in (report, b"b" + report[1:], report + b"\n", report[:-1], b""):
        put(folder, "P", text)
        got.append(verified(binary, folder))
    cut(folder, "P")
    got.append(verified(binary, folder))
    put(folder, "elsewhere/Q", report)
    os.symlink("elsewhere/Q", os.path.join(folder, "P"))
    got.append(verified(binary, folder))
    for other in (certs[:-1], b"old"):
        put(folder, "C", other)
        got.append(verified(binary, folder))
    left = content(os.path.join(folder, "C")), content(os.path.join(folder, "P"))
    cut(folder, "C")
    got.append(verified(binary, folder))
    differs, accepted = [(1, f"refused: text differs at byte {n}\n", "") for n in (0, len(report), len(report) - 1, 0, 0)], (0, "accepted 5\n", "")
    backed = [(1, f"refused: query {n} has no backing\n", "") for n in (3, 1, 1)]
    return (got, left, os.path.exists(os.path.join(folder, "C"))), ([accepted, *differs, accepted, *backed], (b"old", report), False)


def folder_as_report(binary, folder):
    kept(binary, folder, "C")
    make(folder, "P")
    return verified(binary, folder), (3, "", "gvis: fault: store P\n")


def folder_as_certificates(binary, folder):
    make(folder, "C")
    make(folder, "P")
    return verified(binary, folder), (3, "", "gvis: fault: store C\n")


def verdict_to_full_device(binary, folder):
    with open("/dev/full", "wb") as full:
        words = [binary, "verify", folder, "--certs", "C", "--report", "P"] + ASKED
        done = subprocess.run(words, stdout=full, stderr=subprocess.PIPE, timeout=60, cwd=folder)
    return (done.returncode, done.stderr), (3, b"gvis: fault: output\n")


def demo_to_full_device(binary, folder):
    with open("/dev/full", "wb") as full:
        done = subprocess.run([binary, "demo", "1"], stdout=full, stderr=subprocess.PIPE, timeout=60, cwd=folder)
    return (done.returncode, done.stderr), (3, b"gvis: fault: output\n")


def demo_in_a_folder(binary, folder):
    """Nothing is read or left there."""
    before = sorted(os.listdir(folder))
    return (*called([binary, "demo", "1"], cwd=folder), sorted(os.listdir(folder))), (
        0, b"packages 1000\nqueries 12000\nreports 506\nbytes 41095\n", b"", before)


def small_files_only(then, most=5):
    def before():
        signal.signal(signal.SIGXFSZ, then)
        resource.setrlimit(resource.RLIMIT_FSIZE, (most, most))
    return before


def no_room(binary, folder):
    """Files of five bytes at most: the new one is taken away, the old one stays."""
    put(folder, "certs/C", b"old")
    got = kept(binary, folder, "certs/C", preexec_fn=small_files_only(signal.SIG_IGN), restore_signals=False)
    return got + (content(os.path.join(folder, "certs/C")),), (3, "gvis: fault: store certs/C\n", False, ["C"], b"old")


def ended_in_the_middle(binary, folder):
    """Ended by a signal while it writes: the old file stays, and the next run takes away what is left beside it."""
    put(folder, "certs/C", b"old")
    first = kept(binary, folder, "certs/C", preexec_fn=small_files_only(signal.SIG_DFL))
    got = first[0], content(os.path.join(folder, "certs/C")), first[3], kept(binary, folder, "certs/C")
    return got, (-signal.SIGXFSZ, b"old", ["C", "C.new0"], (1, "", True, ["C"]))


def at_each_length(binary, folder):
    """Ended by a signal at the first byte, within and right before the last one of the new file: the old file stays."""
    make(folder, "certs")
    kept(binary, folder, "certs/C")
    whole = len(content(os.path.join(folder, "certs/C")))
    put(folder, "certs/C", b"old")
    got = []
    for most in (0, 1, whole // 2, whole - 1):
        done = kept(binary, folder, "certs/C", preexec_fn=small_files_only(signal.SIG_DFL, most))
        got.append((done[0], content(os.path.join(folder, "certs/C"))))
    return got, [(-signal.SIGXFSZ, b"old")] * 4


def killed_at_any_moment(binary, folder):
    """Killed after ever longer times, until a run ends by itself: at FILE stand the old bytes or all of the new ones, and in the end nothing
    else is left."""
    wide(folder)
    make(folder, "certs")
    path = os.path.join(folder, "certs/C")
    want = kept(binary, folder, "certs/C"), content(path)
    torn, wait, code = [], 0.0, -signal.SIGKILL
    while code == -signal.SIGKILL:
        put(folder, "certs/C", b"old")
        with subprocess.Popen([binary, "scan", folder, "--certs", path] + ASKED, stdout=subprocess.DEVNULL) as run:
            try:
                run.wait(wait)
            except subprocess.TimeoutExpired:
                run.kill()
            code = run.wait()
        if content(path) not in (b"old", want[1]):
            torn.append(wait)
        wait += 0.002
    return (torn, (kept(binary, folder, "certs/C"), content(path))), ([], want)


def wide(folder):
    """A report of one long line, and certificates of some length."""
    entry = ENTRY.replace(b"RDEPEND=x/y", b"RDEPEND=|| ( " + b"x/y " * 20000 + b")")
    put(folder, "metadata/md5-cache/app/p-1", entry)


def written(binary, folder, certs="C", err=subprocess.PIPE, **more):
    """The status, what stands on standard error, and what the file of the certificates begins with."""
    words = [binary, "scan", folder, "--certs", os.path.join(folder, certs)] + ASKED
    done = subprocess.run(words, stderr=err, timeout=60, **more)
    begins = content(os.path.join(folder, certs))[:10] if certs == "C" else None
    return done.returncode, (done.stderr or b"").decode(), begins


FAULT_OF_OUTPUT = (3, "gvis: fault: output\n", HEADER)


def output_to_full_device(binary, folder):
    with open("/dev/full", "wb") as out:
        return written(binary, folder, stdout=out), FAULT_OF_OUTPUT


def closed_output(binary, folder):
    return written(binary, folder, preexec_fn=lambda: os.close(1)), FAULT_OF_OUTPUT


def closed_input(binary, folder):
    return written(binary, folder, preexec_fn=lambda: os.close(0), stdout=subprocess.DEVNULL), (1, "", HEADER)


def closed_standard_error(binary, folder):
    cut(folder, "profiles/categories")
    return written(binary, folder, "none", err=None, preexec_fn=lambda: os.close(2), stdout=subprocess.DEVNULL), (6, "", None)


def standard_error_to_full_device(binary, folder):
    cut(folder, "profiles/categories")
    with open("/dev/full", "wb") as err:
        return written(binary, folder, "none", err=err, stdout=subprocess.DEVNULL), (6, "", None)


def pipe_that_closes_early(binary, folder):
    """Who reads takes one byte of a report that no pipe holds whole, and closes."""
    wide(folder)
    words = [binary, "scan", folder, "--certs", os.path.join(folder, "C")] + ASKED
    with subprocess.Popen(words, stdout=subprocess.PIPE, stderr=subprocess.PIPE, restore_signals=False) as run:
        first = run.stdout.read(1)
        run.stdout.close()
        err = run.stderr.read().decode()
    got = (run.returncode, err, content(os.path.join(folder, "C"))[:10])
    return (first,) + got, (b"a",) + FAULT_OF_OUTPUT


def output_of_small_files(binary, folder):
    """A file as output that may have five bytes; the certificates go to a device, which has no such limit."""
    words = [binary, "scan", folder, "--certs", "/dev/null"] + ASKED
    return small_output(words, folder, small_files_only(signal.SIG_IGN)), (3, "gvis: fault: output\n", b"app/p")


def small_output(words, folder, limited):
    path = os.path.join(folder, "out")
    with open(path, "wb") as out:
        done = subprocess.run(words, stdout=out, stderr=subprocess.PIPE, timeout=60, preexec_fn=limited, restore_signals=False)
    return done.returncode, done.stderr.decode(), content(path)


def as_it_is_called(binary, folder):
    """By the script at the top, the signal of that limit is held back: a fault of the store, and one of the output."""
    top = checkout(os.path.join(folder, "top"), binary)
    script = os.path.join(top, "gvis")
    put(folder, "certs/C", b"old")
    limited = small_files_only(signal.SIG_DFL)
    store = kept(script, folder, "certs/C", preexec_fn=limited) + (content(os.path.join(folder, "certs/C")),)
    output = small_output([script, "scan", folder, "--certs", "/dev/null"] + ASKED, folder, limited)
    return (store, output), ((3, "gvis: fault: store certs/C\n", False, ["C"], b"old"), (3, "gvis: fault: output\n", b"app/p"))


# A disk of a few pages, full but for the names of its files. Its words are the folder of the disk and then the call.
FULL_DISK = """
mount -t tmpfs -o size=64k none "$1" || exit 77
printf old >"$1/C"
dd if=/dev/zero of="$1/fill" bs=4096 2>"$1/log"
: >"$1/out"
folder=$1
shift
if [ "$1" = output ]; then shift; "$@" >"$folder/out"; else shift; "$@"; fi
status=$?
echo "$status $(cat "$folder/C") $(wc -c <"$folder/out") $(cd "$folder" && echo *)"
"""


def on_full_disk(binary, folder, what, certs):
    """What the script says, and what stands on standard error."""
    make(folder, "disk")
    disk = os.path.join(folder, "disk")
    call = [binary, "scan", folder, "--certs", certs] + ASKED
    words = ["unshare", "--map-root-user", "--mount", "sh", "-c", FULL_DISK, "sh", disk, what] + call
    status, out, err = run(words, cwd=folder)
    if status == 77 or err.startswith("unshare: "):
        raise Untested("no disk can be mounted here")
    return out.splitlines()[-1:], err


@needs("unshare")
def store_on_full_disk(binary, folder):
    return on_full_disk(binary, folder, "store", "disk/C"), (["3 old 0 C fill log out"], "gvis: fault: store disk/C\n")


@needs("unshare")
def output_on_full_disk(binary, folder):
    return on_full_disk(binary, folder, "output", "C"), (["3 old 0 C fill log out"], "gvis: fault: output\n")


KEPT = [new_file, old_file, twice, link_to_a_file, link_to_no_file, links_to_no_file, loop_of_links_as_file,
        link_below_no_folder, full_device, null_device, folder_as_file, no_folder, pipe_with_a_reader, pipe_without_an_end,
        endless_device, socket_as_file, used_again, verified_reports, folder_as_report, folder_as_certificates,
        verdict_to_full_device, demo_to_full_device, demo_in_a_folder, no_room,
        ended_in_the_middle, at_each_length, killed_at_any_moment, output_to_full_device, closed_output, closed_input,
        closed_standard_error, standard_error_to_full_device, pipe_that_closes_early, output_of_small_files,
        as_it_is_called]
ON_A_DISK = [store_on_full_disk, output_on_full_disk]


def for_nobody(binary, folder):
    """A copy of the program that another user may run, and as whom to run it where the test is root, since root may do all."""
    os.chmod(folder, 0o755)
    copied = os.path.join(folder, "gvis")
    shutil.copy(binary, copied)
    os.chmod(copied, 0o755)
    return copied, {"user": NOBODY} if os.getuid() == 0 else {}


def without_leave_at(mode, binary, folder):
    """The folder of the old file may not be written, or not even be entered: the old one stays."""
    repository(folder)
    put(folder, "certs/C", b"old")
    os.chmod(os.path.join(folder, "certs"), mode)
    copied, more = for_nobody(binary, folder)
    try:
        status, err = kept(copied, folder, "certs/C", **more)[:2]
    finally:
        os.chmod(os.path.join(folder, "certs"), 0o755)
    got = status, err, os.listdir(os.path.join(folder, "certs")), content(os.path.join(folder, "certs/C"))
    return got, (3, "gvis: fault: store certs/C\n", ["C"], b"old")


def without_leave_to_read_certificates(binary, folder):
    """The old file may not be read: it stays, unless it is passed over."""
    repository(folder)
    put(folder, "certs/C", b"old")
    old = os.path.join(folder, "certs/C")
    os.chmod(old, 0)
    os.chmod(os.path.join(folder, "certs"), 0o777)
    copied, more = for_nobody(binary, folder)
    first = kept(copied, folder, "certs/C", **more)[:2]
    os.chmod(old, 0o600)
    got = first, content(old)
    os.chmod(old, 0)
    fresh = run([copied, "scan", folder, "--certs", "certs/C", "--fresh"] + ASKED, cwd=folder, **more)
    os.chmod(old, 0o600)
    return got + (*fresh[::2], content(old)[:10]), ((3, "gvis: fault: store certs/C\n"), b"old", 1, "", HEADER)


def without_leave_to_read_the_report(binary, folder):
    repository(folder)
    kept(binary, folder, "C")
    put(folder, "P", MISSING.encode())
    os.chmod(os.path.join(folder, "P"), 0)
    copied, more = for_nobody(binary, folder)
    return verified(copied, folder, **more), (3, "", "gvis: fault: store P\n")


CHANGES = [
    a_file_and_an_absent_path, no_profiles_desc, folder_in_place_of_a_file, path_below_a_file, empty_folder_is_a_profile,
    folders_in_place_of_files, files_of_a_folder, hidden_file_of_a_folder, links_to_files_and_folders, link_to_nothing,
    ebuild_changed, eclass_changed, folder_in_place_of_an_ebuild, folder_in_place_of_an_eclass,
    listing_of_a_file_is_empty, listing_below_a_file_is_empty, folder_in_place_of_an_entry, largest_file, one_byte_more,
    path_too_long, name_that_is_no_text, loop_of_links, name_too_long,
]


def without_leave(binary, folder):
    repository(folder)
    want = no_leave_to_read(folder)
    copied, more = for_nobody(binary, folder)
    try:
        return scan(copied, folder, **more), want
    finally:
        os.chmod(os.path.join(folder, "metadata/md5-cache/app"), 0o700)


def changed(case, binary, folder):
    """A scan of the repository behind a change, which answers what is wanted."""
    repository(folder)
    want = case(folder)
    return scan(binary, folder), want


def standing_at(kind, path, binary, folder):
    repository(folder)
    replaced(folder, path, kind)
    return scan(binary, folder), (3, "", "gvis: fault: tree %s\n" % path) if path in READ else (0, "", "")


def in_repository(case, binary, folder):
    repository(folder)
    return case(binary, folder)


def standing(case):
    """A case in the repository, by its own name."""
    made = named(case.__name__, in_repository, case)
    made.needs = getattr(case, "needs", ())
    return made


CASES = [
    *(named(case.__name__, changed, case) for case in CHANGES),
    *(named(f"{kind.__name__} at {path}", standing_at, kind, path) for kind in (pipe, device, listening) for path in READ + LISTED),
    named("no_leave_to_read", without_leave), named("no_leave_to_write", without_leave_at, 0o555),
    named("no_leave_to_enter", without_leave_at, 0), named("no_leave_to_read_certificates", without_leave_to_read_certificates),
    named("no_leave_to_read_the_report", without_leave_to_read_the_report), *map(standing, KEPT + [closed_pipe] + ON_A_DISK),
]
