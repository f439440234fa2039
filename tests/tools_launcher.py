"""The launcher `gvis`, in a copy, with a command `rt` that only acts as one, in a kit that only looks like one."""
import os
import shutil
import signal
import subprocess
import time

from common import TOP, content, needs, on_terminal, put, put_files, run

# A program that tells its words and ends as ENDS says, and a toolchain that counts its runs and tries and ends as PROVES and TRIES say.
PROGRAM = """#!/bin/sh
printf '<%s>' "$@"
grep SigIgn /proc/self/status
[ -z "$ENDS_BY" ] || kill -"$ENDS_BY" $$
[ "$ENDS" != 2 ] || echo 'gvis: bad command line' >&2
exit "${ENDS:-2}"
"""
TOOLCHAIN = """#!/bin/sh
case $1 in
doc) echo KIT/START-HERE.md; exit ;;
version) echo 'stub-kit logic 1'; exit ;;
try)
    echo try >>RUNS
    [ -z "$TAKES" ] || /bin/sleep "$TAKES"
    [ "$TRIES" != no ] || { echo 'a kit that tries in another way'; exit 2; }
    # A small module first, then the whole program, both beside this file's own toolchain.
    cd "$(mktemp -d)" || exit 2
    clang=$(dirname "$0")/../toolchain/bin/clang
    echo small >module.bc
    env -i "$clang" -c -x ir module.bc -o module.o -O0 && [ "$(cat module.o)" = "-c -x ir module.bc -o module.o -O0: small" ] || exit 9
    echo whole >module.bc
    env -i "$clang" -c -x ir module.bc -o module.o -O0 -fsanitize=address && echo 'the try went on'
    exit 2
    ;;
esac
echo run >>RUNS
cat <<'LINES'
rt: chose --jobs 4 for gv_low
checked gv_low::one, 1 of 2
rt: chose --jobs 2 for gvis
so far: 7 of 8 functions checked
LINES
[ -z "$TAKES" ] || /bin/sleep "$TAKES"
case $PROVES in
no)
    cat <<'LINES'
fn gvis::running::run: no proof: expected answers in ./proofs/run/Answers.antt; `search` did not prove `returns`
  \\342\\212\\242 nat_eq c.echo.result 3 \\342\\211\\241 true
LINES
    exit 1
    ;;
strange) exit 1 ;;
esac
cp PROGRAM out/gvis
echo 'gvis: bad command line'
exit 2
"""
# Its compiler, which writes its words and its module, and its linker, which makes the program of that.
CLANG = """#!/bin/sh
for word in "$@"; do [ "$before" != -o ] || out=$word; before=$word; done
echo "$*: $(cat module.bc)" >"$out"
"""
LINKER = """#!/bin/sh
[ "$1 $3 $4 $5" = "--target --toolchain KIT/toolchain -o" ] && grep -q -- ' -O1 .*: whole$' "$7" && ! grep -q 'O0\\|sanitize' "$7" && [ "$8 $9" = "KIT/c/libone_c.a KIT/c/libtwo_c.a" ] || exit 1
cp PROGRAM "$6"
"""
WAITS = "gvis: another call proves and builds; waiting for it\n"
NOT_PROVED = "gvis: this program is not proved yet; gvis --prove proves and builds it, and with GVIS_PROVED=1 no other one is run\n"


def copy(folder):
    """The launcher among sources, and the toolchain's folder to go on PATH."""
    for name in ("gvis", "share/build-unproved", "share/time-left.awk"):
        os.makedirs(os.path.dirname(os.path.join(folder, name)), exist_ok=True)
        shutil.copy2(os.path.join(TOP, name), os.path.join(folder, name))
    put(folder, "crates.txt", "gv_low: thiserror\ngv_high: gv_low\ngv_low_tests: gv_low\ngvis: gv_high\ngv_probe: gv_high gv_low\n")
    put(folder, "HANDLES", "")
    for crate in ("gv_low", "gv_high", "gvis", "gv_low_tests", "gv_probe"):
        for part in ("src", "specs", "proofs"):
            put(folder, f"crates/{crate}/{part}/some", "")
    program = put(folder, "program", PROGRAM, 0o755)
    toolchain = TOOLCHAIN.replace("RUNS", os.path.join(folder, "runs")).replace("PROGRAM", program).replace("KIT", os.path.join(folder, "kit"))
    put(folder, "kit/bin/rt", toolchain.encode().decode("unicode_escape").encode("latin-1").replace(b"\\n", b"\n"), 0o755)
    put(folder, "kit/toolchain/bin/clang", CLANG, 0o755)
    put(folder, "kit/bin/rattle-link", LINKER.replace("PROGRAM", program).replace("KIT", os.path.join(folder, "kit")), 0o755)
    put_files(folder, {"kit/c/libone_c.a": "", "kit/c/libtwo_c.a": "", "kit/c/other.a": "", "kit/START-HERE.md": "", "kit/toolchain/lib/some": ""})
    os.makedirs(os.path.join(folder, "bin"))
    os.symlink("../kit/bin/rt", os.path.join(folder, "bin/rt"))


def environment(folder, **more):
    """Where the proved program alone is wanted, but for what is said otherwise."""
    return {**os.environ, "PATH": os.path.join(folder, "bin") + ":" + os.environ["PATH"], "GVIS_PROVED": "1", **more}


def call(folder, *words, **more):
    return run([os.path.join(folder, "gvis"), *words], cwd=folder, env=environment(folder, **more))


def runs(folder, kind="run"):
    path = os.path.join(folder, "runs")
    return content(path).count(kind) if os.path.exists(path) else 0


def help_is_answered_without_a_program(_, folder):
    copy(folder)
    got = [call(folder, word) for word in ("--help", "-h", "help")]
    return (got[0] == got[1] == got[2], got[0][0], got[0][2], len(got[0][1].splitlines()) <= 17, os.path.exists(os.path.join(folder, "crates/gvis/out"))), (
        True, 0, "", True, False)


def help_names_a_manual_that_is_there(_, folder):
    copy(folder)
    last = call(folder, "--help")[1].splitlines()[-1]
    return last.replace(folder, ""), "The manual: man /share/man/gvis.1"


def version_before_and_after(_, folder):
    copy(folder)
    git = put(folder, "bin/git", "#!/bin/sh\necho 1a2b3c4\n", 0o755)
    before = call(folder, "--version")
    call(folder)
    after = call(folder, "--version")
    os.utime(os.path.join(folder, "crates/gvis/src/some"), (time.time() + 9, time.time() + 9))
    changed = call(folder, "--version")
    put(folder, git, "#!/bin/sh\nexit 128\n", 0o755)
    first = call(folder, "--version")[1].splitlines()[0]
    unbuilt = (0, "gvis 0.1 (1a2b3c4)\nnot built from these sources yet; the toolchain is stub-kit logic 1\n", "")
    return (before, after, changed, first), (unbuilt, (0, "gvis 0.1 (1a2b3c4)\nproved and built by stub-kit logic 1\n", ""), unbuilt, "gvis 0.1")


def other_words_are_the_programs(_, folder):
    copy(folder)
    call(folder)
    lists = [["scan", "a b", "--certs", "", "*"], ["--help", "scan"], ["help", "-h"], ["scan", "--help"], ["--version", "1"], ["--"], ["--helpp"]]
    got = {tuple(words): call(folder, *words, ENDS="4") for words in lists}
    return {words: (g[0], g[1].split("SigIgn")[0], g[2]) for words, g in got.items()}, {tuple(words): (4, "".join(f"<{w}>" for w in words), "") for words in lists}


def signal_of_large_files_is_held_back(_, folder):
    copy(folder)
    call(folder)
    shown = call(folder)[1], on_terminal([os.path.join(folder, "gvis")], env=environment(folder, ENDS="0"))[1]
    bit = 1 << (signal.SIGXFSZ - 1)
    return [bool(int(s.split("SigIgn:")[1].split()[0], 16) & bit) for s in shown], [True, True]


def builds_once(_, folder):
    copy(folder)
    first, second = call(folder), call(folder)
    said = first[2].splitlines()
    os.utime(os.path.join(folder, "crates/gv_low/specs/some"), (time.time() + 9, time.time() + 9))
    stamp = os.path.join(folder, "crates/gvis/out/gvis.built")
    once = runs(folder)
    os.utime(stamp, (time.time() - 9, time.time() - 9))
    call(folder)
    left = sorted(os.listdir(os.path.join(folder, "crates/gvis/out")))
    return (first[0], said[0].startswith("gvis: proving and building"), said[-1].startswith("gvis: proved and built in"), second[0], second[2], once,
            runs(folder), content(stamp), left), (
        2, True, True, 2, "", 1, 2, "stub-kit logic 1\n", ["gvis", "gvis.built", "gvis.lock", "gvis.log"])


def newer(folder, path, text=""):
    """A file that is newer than the program stands at a path."""
    os.utime(put(folder, path, text), (time.time() + 9, time.time() + 9))


def builds_where_what_it_is_made_of_is_newer(_, folder):
    """Each part of the crates below it, at any depth; what they are; and a file that is gone."""
    copy(folder)
    parts = [f"crates/{crate}/{part}/some" for crate in ("gv_low", "gv_high", "gvis") for part in ("src", "specs", "proofs")] + ["crates.txt", "HANDLES"]
    got = {}
    for path in parts:
        call(folder)
        before = runs(folder)
        newer(folder, path, content(folder, path))
        call(folder)
        got[path] = runs(folder) - before
        os.utime(os.path.join(folder, path), (time.time() - 99, time.time() - 99))
    call(folder)
    before = runs(folder)
    os.remove(os.path.join(folder, "crates/gv_low/src/some"))
    os.utime(os.path.join(folder, "crates/gv_low/src"), (time.time() + 9, time.time() + 9))
    call(folder)
    return (got, runs(folder) - before), (dict.fromkeys(parts, 1), 1)


def builds_nothing_where_a_test_is_newer(_, folder):
    """What only tests the program, or isn't in it, may change: wrong programs, crates of tests, the probe and its cases, what stands around."""
    copy(folder)
    call(folder)
    for path in ("crates/gv_low/must-fail/wrong.edit", "crates/gv_low_tests/src/some", "crates/gv_low_tests/src/other", "crates/gv_low_tests/proofs/some", "crates/gv_probe/src/some",
                 "crates/gv_probe/data/low.txt", "crates/gv_probe/stdout", "crates/gvis/stdout", "crates/other/src/some", "tests/run.py", "docs/rules.md"):
        newer(folder, path)
    return (runs(folder), call(folder, "--version")[1].splitlines()[1], call(folder, "x", ENDS="0")[:1], runs(folder)), (
        1, "proved and built by stub-kit logic 1", (0,), 1)


def status_of_the_program_stays(_, folder):
    copy(folder)
    call(folder)
    return [call(folder, ENDS=str(n))[0] for n in range(8)], list(range(8))


def no_toolchain(_, folder):
    copy(folder)
    os.remove(os.path.join(folder, "bin/rt"))
    tools = "dirname readlink find head mkdir rm mv cut grep tail awk sed sort wc date sleep cat flock git sh".split()
    for tool in tools:
        if shutil.which(tool):
            os.symlink(shutil.which(tool), os.path.join(folder, "bin", tool))
    only = {"PATH": os.path.join(folder, "bin"), "GVIS_PROVED": "1"}
    got = run([os.path.join(folder, "gvis"), "scan"], env=only), run([os.path.join(folder, "gvis"), "--version"], env=only)[1].splitlines()[-1]
    return got, ((125, "", "gvis: no program: rt, the command of the Rattle kit, is not on PATH\n"),
                 "not built from these sources yet, and rt, the command of the Rattle kit, is not on PATH")


def no_lock_command(_, folder):
    """Where `flock` isn't there a call proves all the same."""
    copy(folder)
    for tool in "dirname readlink find head mkdir rm mv cut cp grep tail awk sed sort wc date sleep cat sh".split():
        os.symlink(shutil.which(tool), os.path.join(folder, "bin", tool))
    got = run([os.path.join(folder, "gvis"), "x"], env={"PATH": os.path.join(folder, "bin"), "ENDS": "0", "GVIS_PROVED": "1"})
    return (got[0], got[1][:3], runs(folder)), (0, "<x>", 1)


def a_file_where_its_folder_has_to_be(_, folder):
    copy(folder)
    put(folder, "crates/gvis/out", "")
    got = call(folder)
    return (got[0], got[1], got[2].replace(folder, "")), (125, "", "gvis: no program: nothing can be written to /crates/gvis/out: File exists\n")


def no_leave_to_write(_, folder):
    copy(folder)
    os.chmod(folder, 0o755)
    os.chmod(os.path.join(folder, "crates/gvis"), 0o555)
    user = {"user": 65534} if os.getuid() == 0 else {}
    got = run([os.path.join(folder, "gvis")], env=environment(folder), **user)
    os.chmod(os.path.join(folder, "crates/gvis"), 0o755)
    return (got[0], got[1], got[2].replace(folder, "")), (125, "", "gvis: no program: nothing can be written to /crates/gvis/out: Permission denied\n")


def what_is_not_proved_is_shown(_, folder):
    copy(folder)
    got = call(folder, PROVES="no")
    lines = got[2].replace(folder, "").splitlines()[1:]
    return (got[0], got[1], lines), (125, "", [
        "fn gvis::running::run: no proof: expected answers in ./proofs/run/Answers.antt; `search` did not prove `returns`",
        "  ⊢ nat_eq c.echo.result 3 ≡ true",
        "gvis: no program: what isn't proved isn't built; the whole of it stands in /crates/gvis/out/gvis.log"])


def a_failure_of_another_form_is_shown(_, folder):
    copy(folder)
    got = call(folder, PROVES="strange")
    return (got[0], got[2].replace(folder, "").splitlines()[1:]), (125, [
        "rt: chose --jobs 4 for gv_low", "checked gv_low::one, 1 of 2", "rt: chose --jobs 2 for gvis", "so far: 7 of 8 functions checked",
        "gvis: no program: what isn't proved isn't built; the whole of it stands in /crates/gvis/out/gvis.log"])


def unproved(folder, *words, **more):
    return call(folder, *words, GVIS_PROVED="", **more)


def older(folder):
    """The proved program is older than what it is made of."""
    stamp = os.path.join(folder, "crates/gvis/out/gvis.built")
    os.utime(stamp, (time.time() - 99, time.time() - 99))


def a_first_call_builds_without_proofs(_, folder):
    """It says so, as README shows it, and so does each later call, which builds nothing; then the proved program is run, without a word."""
    copy(folder)
    first, second = unproved(folder, "x", ENDS="1"), unproved(folder, "x", "y", ENDS="0")
    left = sorted(os.listdir(os.path.join(folder, "crates/gvis/out")))
    version = call(folder, "--version")[1].splitlines()[1]
    call(folder)
    third = unproved(folder, "z", ENDS="0")
    said = first[2].removeprefix(NOT_PROVED).splitlines()
    shown = [line.replace(folder + "/", "") for line in [NOT_PROVED.strip(), said[0]]]
    return (first[0], first[1][:3], first[2].startswith(NOT_PROVED), said[0].startswith("gvis: building without proofs"), said[-1].startswith("gvis: built without proofs in "),
            second[0], second[1][:6], second[2], left, version, third[0], third[2], runs(folder, "try"), runs(folder), ["    " + line in content(TOP, "README.md").splitlines() for line in shown]), (
        1, "<x>", True, True, True, 0, "<x><y>", NOT_PROVED, [f"gvis.unproved{end}" for end in ("", ".built", ".lock", ".log")],
        "not proved; built without proofs by stub-kit logic 1; gvis --prove proves and builds it", 0, "", 1, 1, [True, True])


def a_proof_is_asked_for(_, folder):
    """By a word, which then tells the version, also a second time; and by the variable, but for 0 and nothing."""
    copy(folder)
    first, second = unproved(folder, "--prove"), unproved(folder, "--prove")
    older(folder)
    words = {value: call(folder, "x", GVIS_PROVED=value, ENDS="0")[2].splitlines()[0] for value in ("0", "", "yes")}
    return (first[:2], "gvis: proved and built in" in first[2], second, words["0"] + "\n", words[""] + "\n", words["yes"].startswith("gvis: proving and building"), runs(folder, "try"), runs(folder)), (
        (0, "gvis 0.1\nproved and built by stub-kit logic 1\n"), True, (0, first[1], ""), NOT_PROVED, NOT_PROVED, True, 1, 2)


def what_is_newer_is_built_without_proofs_too(_, folder):
    """A proved program of older sources isn't run; with the variable it is proved anew."""
    copy(folder)
    call(folder)
    older(folder)
    got = [unproved(folder)[2].startswith(NOT_PROVED) for _ in range(2)]
    once = runs(folder, "try"), runs(folder)
    call(folder)
    return (got, once, runs(folder, "try"), runs(folder)), ([True, True], (1, 1), 1, 2)


def a_kit_that_tries_otherwise(_, folder):
    """Its own words are shown, nothing is left to be taken for a program, and a proof still can be asked for."""
    copy(folder)
    got = unproved(folder, TRIES="no")
    left = sorted(os.listdir(os.path.join(folder, "crates/gvis/out")))
    return (got[0], got[1], got[2].replace(folder, "").splitlines()[2:], left, call(folder, "x", ENDS="0")[0]), (125, "", [
        "a kit that tries in another way", "build-unproved: this kit's rt try made no program",
        "gvis: no program: it can't be built without proofs, and gvis --prove proves and builds it; the whole of it stands in /crates/gvis/out/gvis.unproved.log"],
        ["gvis.unproved.lock", "gvis.unproved.log"], 0)


def a_linker_that_fails(_, folder):
    copy(folder)
    put(folder, "kit/bin/rattle-link", "#!/bin/sh\necho 'no linker' >&2\nexit 1\n", 0o755)
    got = unproved(folder)
    return (got[0], "no linker" in got[2], os.path.exists(os.path.join(folder, "crates/gvis/out/gvis.unproved"))), (125, True, False)


@needs("flock")
def a_call_beside_a_proof_builds_without_proofs(_, folder):
    """It doesn't wait for the proof."""
    copy(folder)
    with subprocess.Popen([os.path.join(folder, "gvis"), "--prove"], env=environment(folder, TAKES="4"), stdout=subprocess.DEVNULL, stderr=subprocess.DEVNULL) as proof:
        while not runs(folder):
            time.sleep(0.05)
        got = unproved(folder, "x", ENDS="0")
        beside = proof.poll()
        status = proof.wait()
    return (got[0], got[1][:3], "waiting" in got[2], beside, status), (0, "<x>", False, None, 0)


def time_left(_, folder):
    """By the minutes of the crates that were begun and of those that are left; a crate below one that was begun is done. At first by those of the processor."""
    table = "| Crate | functions | proof |\n|---|---|---|\n| `gv_low` | 9 | 2 min |\n| `gv_high` | 9 | 4.0 min in batches |\n| `gvis` | 9 | |\n\n| Crate | other |\n|---|---|\n| `gvis` | 70 |\n"
    paths = [put(folder, "table", table), put(folder, "crates", "gv_low: md5\ngv_high: gv_low\ngv_other: gv_low\ngvis: gv_high gv_low\n")]
    logs = {
        "": ", some 4 minutes left\n", "rt: chose --jobs 4 for gv_low\n": ", some 4 minutes left\n", "rt: chose --jobs 4 for gv_low\nso far: 1 of 2 functions checked\n": ", some 7 minutes left\n",
        "rt: chose --jobs 4 for gv_low\nso far: 1 of 2 functions checked\nrt: chose --jobs 2 for gv_high\n": ", some 3 minutes left\n",
        "rt: chose --jobs 2 for gv_high\nso far: 3 of 4 functions checked\n": ", some 1 minutes left\n"}
    return {log: run(["awk", "-v", "seconds=60", "-v", "processors=2", "-f", os.path.join(TOP, "share/time-left.awk"), *paths, put(folder, "log", log)])[1] for log in logs}, logs


def each_crate_has_its_minutes(_, folder):
    """Each crate of the program has a row in the table of the last measured build."""
    crates = {line.split(":")[0]: line.split(":")[1].split() for line in content(TOP, "crates.txt").splitlines()}
    below, waiting = set(), ["gvis"]
    while waiting:
        name = waiting.pop()
        below.add(name)
        waiting += [other for other in crates.get(name, []) if other in crates and other not in below]
    table = content(TOP, "docs/proving.md").split("| of processor: proof |\n")[1].split("\n\n")[0]
    return below - {line.split("`")[1] for line in table.splitlines() if "`" in line}, set()


def tells_how_far_it_is(_, folder):
    """Each `sleep 30` of the launcher takes 0.3 s here. Without a table nothing is said of the time left."""
    copy(folder)
    put(folder, "bin/sleep", "#!/bin/sh\n[ \"$1\" = 30 ] && exec /bin/sleep 0.3\n", 0o755)
    lines = call(folder, TAKES="1.6")[2].splitlines()[1:-1]
    return (1 <= len(lines) <= 60, {line.split(" seconds; ", 1)[-1] for line in lines}), (
        True, {"2 of 3 crates begun; so far: 7 of 8 functions checked"})


def several(folder, count, **more):
    """Calls at once. A later one begins when the first is proving."""
    made = []
    for number in range(count):
        made.append(subprocess.Popen([os.path.join(folder, "gvis"), f"{number}"], env=environment(folder, ENDS="0", **more), text=True,
                                     stdout=subprocess.PIPE, stderr=subprocess.PIPE, stdin=subprocess.DEVNULL))
        end = time.monotonic() + 20
        while not runs(folder) and time.monotonic() < end:
            time.sleep(0.05)
    return [(*p.communicate(timeout=60), p.returncode) for p in made]


@needs("flock")
def first_calls_at_once(_, folder):
    copy(folder)
    got = several(folder, 3, TAKES="4")
    return ([(g[0][:3], g[2]) for g in got], got[1][1], got[2][1], runs(folder)), ([("<0>", 0), ("<1>", 0), ("<2>", 0)], WAITS, WAITS, 1)


@needs("flock")
def who_waited_for_a_failure_tries_itself(_, folder):
    copy(folder)
    got = several(folder, 2, TAKES="4", PROVES="no")
    return ([g[2] for g in got], got[1][1].startswith(WAITS), "no proof:" in got[1][1], runs(folder)), ([125, 125], True, True, 2)


@needs("flock")
def a_call_that_was_ended_leaves_no_lock(_, folder):
    copy(folder)
    with subprocess.Popen([os.path.join(folder, "gvis")], env=environment(folder, TAKES="1"), stdout=subprocess.DEVNULL, stderr=subprocess.DEVNULL) as first:
        while not runs(folder):
            time.sleep(0.05)
        first.kill()
    got = call(folder, "x", ENDS="1")
    return (got[0], got[1][:3], WAITS in got[2], sorted(os.listdir(os.path.join(folder, "crates/gvis/out")))), (
        1, "<x>", False, ["gvis", "gvis.built", "gvis.lock", "gvis.log"])


def words_are_shown_on_a_terminal_after_status_2(_, folder):
    copy(folder)
    call(folder)
    words = call(folder, "--help")[1]
    launcher = [os.path.join(folder, "gvis"), "x"]
    two, one = (on_terminal(launcher, env=environment(folder, ENDS=n)) for n in "21")
    return (two[0], two[1].endswith("gvis: bad command line\n" + words), one[0], "--certs" in one[1], "--certs" in call(folder, ENDS="2")[2]), (
        2, True, 1, False, False)


def ends_by_the_programs_signal_on_a_terminal(_, folder):
    copy(folder)
    call(folder)
    return on_terminal([os.path.join(folder, "gvis")], env=environment(folder, ENDS_BY="TERM"))[0], -signal.SIGTERM


CASES = [
    help_is_answered_without_a_program, help_names_a_manual_that_is_there, version_before_and_after, other_words_are_the_programs,
    signal_of_large_files_is_held_back, builds_once, builds_where_what_it_is_made_of_is_newer, builds_nothing_where_a_test_is_newer, status_of_the_program_stays, no_toolchain, no_lock_command,
    a_file_where_its_folder_has_to_be, no_leave_to_write, what_is_not_proved_is_shown, a_failure_of_another_form_is_shown,
    a_first_call_builds_without_proofs, a_proof_is_asked_for, what_is_newer_is_built_without_proofs_too, a_kit_that_tries_otherwise, a_linker_that_fails,
    a_call_beside_a_proof_builds_without_proofs, time_left, each_crate_has_its_minutes, tells_how_far_it_is, first_calls_at_once, who_waited_for_a_failure_tries_itself, a_call_that_was_ended_leaves_no_lock,
    words_are_shown_on_a_terminal_after_status_2, ends_by_the_programs_signal_on_a_terminal,
]
