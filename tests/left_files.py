"""What stands beside FILE when a scan writes it: what ended runs left there goes, and nothing else does."""
import os
import stat

from common import HEADER, bytes_of, named, put, put_files, run
from rescans import CHOICE, REPORT
from real_files import for_nobody

WORDS = ["scan", "R", "--certs", "certs/C"]
REPORTED = (1, REPORT, "")


def place(folder):
    put_files(os.path.join(folder, "R"), CHOICE)
    os.makedirs(os.path.join(folder, "certs"))


def beside(folder, certs="certs"):
    return sorted(os.listdir(os.path.join(folder, certs)))


def scanned(binary, folder, words=WORDS, **more):
    return run([binary, *words], cwd=folder, **more)


def files_of_ended_runs_go(binary, folder):
    place(folder)
    for number in (0, 1, 7, 42, 999):
        put(folder, f"certs/C.new{number}", b"" if number else HEADER)
    return (scanned(binary, folder), beside(folder)), (REPORTED, ["C"])


def a_thousand_of_them_refuse_nothing(binary, folder):
    place(folder)
    for number in range(1000):
        put(folder, f"certs/C.new{number}", b"")
    return (scanned(binary, folder), beside(folder)), (REPORTED, ["C"])


def other_names_stay(binary, folder):
    """Of another form, or of another file."""
    place(folder)
    names = ["C.new", "C.new00", "C.new01", "C.new1000", "C.new-1", "C.new+1", "C.new1 ", "C.newx", "C.new0.bak", "C.NEW0", "C.old0", "Cnew0",
             "D.new0", "XC.new0", ".C.new0", "C.new0.new0", "C.new²"]
    for name in names:
        put(folder, "certs/" + name, name)
    return (scanned(binary, folder), beside(folder), {bytes_of(folder, "certs", name).decode() for name in names}), (REPORTED, sorted(names + ["C"]), set(names))


def what_is_no_file_stays(binary, folder):
    """A folder, a link to a file, one to nothing, and a pipe that nobody writes to, which isn't waited for."""
    place(folder)
    put(folder, "certs/kept", b"kept")
    os.mkdir(os.path.join(folder, "certs/C.new0"))
    os.symlink("kept", os.path.join(folder, "certs/C.new1"))
    os.symlink("nothing", os.path.join(folder, "certs/C.new2"))
    os.mkfifo(os.path.join(folder, "certs/C.new3"))
    got = scanned(binary, folder), beside(folder), bytes_of(folder, "certs/kept"), os.readlink(os.path.join(folder, "certs/C.new1"))
    return (*got, stat.S_ISFIFO(os.stat(os.path.join(folder, "certs/C.new3")).st_mode)), (
        REPORTED, ["C", "C.new0", "C.new1", "C.new2", "C.new3", "kept"], b"kept", "kept", True)


def file_that_may_not_be_read_stays(binary, folder):
    """Nobody can be asked whether it is written still; another number is taken."""
    place(folder)
    left = put(folder, "certs/C.new0", b"", 0)
    os.chmod(os.path.join(folder, "certs"), 0o777)
    copied, more = for_nobody(binary, folder)
    got = scanned(copied, folder, **more), beside(folder)
    os.chmod(left, 0o600)
    return got, (REPORTED, ["C", "C.new0"])


def folder_that_may_not_be_listed(binary, folder):
    """FILE is replaced there all the same."""
    place(folder)
    put(folder, "certs/C.new0", b"")
    os.chmod(os.path.join(folder, "certs"), 0o333)
    copied, more = for_nobody(binary, folder)
    got = scanned(copied, folder, **more)
    os.chmod(os.path.join(folder, "certs"), 0o755)
    return (got, bytes_of(folder, "certs/C")[:10]), (REPORTED, HEADER)


def names_that_are_no_text(binary, folder):
    """They hinder nothing."""
    place(folder)
    put(os.fsencode(folder), b"certs/C.new\xff", b"")
    put(folder, "certs/C.new3", b"")
    return (scanned(binary, folder), sorted(os.listdir(os.fsencode(os.path.join(folder, "certs"))))), (REPORTED, [b"C", b"C.new\xff"])


def beside_the_end_of_links(binary, folder):
    """Where FILE is a link, what was left goes beside the file that it leads to, and there alone."""
    place(folder)
    put(folder, "elsewhere/D", b"old")
    os.symlink("../elsewhere/D", os.path.join(folder, "certs/C"))
    for path in ("elsewhere/D.new0", "elsewhere/D.new5", "elsewhere/C.new0", "certs/C.new0", "certs/D.new0"):
        put(folder, path, b"")
    return (scanned(binary, folder), beside(folder), beside(folder, "elsewhere")), (REPORTED, ["C", "C.new0", "D.new0"], ["C.new0", "D"])


def in_the_callers_folder(binary, folder):
    """FILE without a folder in its path."""
    place(folder)
    put(folder, "C.new4", b"")
    return (scanned(binary, folder, ["scan", "R", "--certs", "C"]), beside(folder, ".")), (REPORTED, ["C", "R", "certs"])


def nothing_else_takes_them_away(words, binary, folder):
    """Only a scan that writes FILE does."""
    place(folder)
    scanned(binary, folder)
    put(folder, "P", REPORT)
    put(folder, "certs/C.new0", b"")
    put(folder, "certs/P.new0", b"")
    scanned(binary, folder, words)
    return beside(folder), ["C", "C.new0", "P.new0"]


def link_that_is_no_text(binary, folder):
    """A link whose text can't be taken is a fault, and stays."""
    place(folder)
    os.symlink(b"D\xff", os.fsencode(os.path.join(folder, "certs/C")))
    return (scanned(binary, folder), os.readlink(os.fsencode(os.path.join(folder, "certs/C"))), beside(folder)), (
        (3, "", "gvis: fault: store certs/C\n"), b"D\xff", ["C"])


CASES = [
    files_of_ended_runs_go, a_thousand_of_them_refuse_nothing, other_names_stay, what_is_no_file_stays, file_that_may_not_be_read_stays,
    folder_that_may_not_be_listed, names_that_are_no_text, beside_the_end_of_links, in_the_callers_folder, link_that_is_no_text,
    *(named(f"nothing_else_takes_them_away, {name}", nothing_else_takes_them_away, words) for name, words in [
        ("verify", ["verify", "R", "--certs", "certs/C", "--report", "P"]), ("refused", ["scan", "gone", "--certs", "certs/C"])]),
]
