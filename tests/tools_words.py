"""The words of the program: what its definitions and the program itself say, and what help and manual say."""
import hashlib
import os
import re
import shutil

from common import TOP, content, needs, put, run

OUTSIDE = ["--help", "-h", "help", "--version", "--prove"]


def definitions(*path):
    return content(TOP, "crates", *path)


def section(text, begin):
    """The equations of a definition: the lines from the one that begins so up to an empty one."""
    return text[text.index(begin):].split("\n\n", 1)[0]


def named(text, begin):
    return dict(re.findall(r'codes "([\w-]+)"\) then Some (?:parts\.)?(\w+)', section(text, begin)))


class Words:
    """The table of the command line, as `gv_words` defines it; of its commands those that the program takes."""

    def __init__(self, binary):
        table = definitions("gv_words/specs/Table.antt")
        self.flags, self.options = named(table, "flag_named word ="), named(table, "option_named word =")
        names = {part: "--" + name for name, part in {**self.flags, **self.options}.items()}
        rows = re.findall(r"^row (\w+) = record \{ must = (.*?)\[\]; may = (.*?)\[\] \}", table, re.M)
        parts = {kind: [[names.get(p, p) for p in re.findall(r"parts\.(\w+)", side)] for side in sides] for kind, *sides in rows}
        self.all = {name: parts[kind] for name, kind in named(table, "command_named word =").items()}
        self.taken = {name: sides for name, sides in self.all.items() if self.takes(binary, name)}
        self.values = {"--" + name for name in self.options}
        keywords = definitions("gv_report/specs/Keyword.antt")
        self.keywords = re.findall(r'^keyword_text .* = codes "(\w+)"', keywords, re.M)
        takers = dict(it.split(" =", 1) for it in section(keywords, "taken_by Judging").split("taken_by ")[1:])
        self.of_scan, self.of_lint = (re.findall(r"keywords\.(\w+)", takers[name]) for name in ("Judging", "Linting"))
        values = definitions("gv_words/specs/Values.antt")
        self.budget = re.search(r"budget_of None = Some (\d+)\nbudget_of .* = number_in (\d+) (\d+)", values).groups()
        endings = definitions("gv_ending/specs/Endings.antt")
        self.statuses = sorted({int(n) for n in re.findall(r"^refusal_status .* = (\d+)$", endings, re.M)} | {0, 1})

    def words(self, name, root="/nowhere"):
        """The least words of a command: a number is a root as well."""
        must = self.all[name][0]
        return [name, "7" if name == "demo" else root] + [w for part in must if part != "Plain" for w in (part, {"--of": "3", "--repo": "N"}.get(part, "/dev/null"))]

    def takes(self, binary, name):
        return run([binary, *self.words(name)])[0] != 2

    def keywords_of(self, name):
        """The kinds of reports that a command tells."""
        return self.of_lint if name == "lint" else self.of_scan

    def behind(self, name):
        """The options of a command."""
        return {part for side in self.all[name] for part in side if part != "Plain"}


def example(option, words, name):
    """A good value of an option of a command, or none for a flag."""
    return {"--keywords": words.keywords_of(name)[:1], "--profiles": ["a/b"], "--budget": ["7"], "--part": ["2/3"], "--of": ["3"], "--repo": ["N"]}.get(option, ["/dev/null"] if option in words.values else [])


def the_table_is_read(binary, _):
    words = Words(binary)
    return (list(words.all), "scan" in words.taken, words.of_scan + words.of_lint, len(words.of_lint), len(words.behind("scan")), words.statuses), (
        ["scan", "overlay", "verify", "session", "demo", "merge", "lint"], True, words.keywords, 3, 7, [*range(9), 10])


def the_program_takes_what_the_table_has(binary, _):
    """Each option of a command that is taken, and no other one."""
    words = Words(binary)
    got, want = {}, {}
    for name in words.taken:
        for option in sorted({o for n in words.all for o in words.behind(n)}):
            must = option in words.all[name][0]
            got[name, option] = run([binary, *words.words(name), *([] if must else [option, *example(option, words, name)])])[0] != 2
            want[name, option] = option in words.behind(name)
        if "--keywords" in words.behind(name):
            for keyword in words.keywords + ["Nothing"]:
                got[name, keyword] = run([binary, *words.words(name), "--keywords", keyword])[0] != 2
                want[name, keyword] = keyword in words.keywords_of(name)
        for option, good, bad in (("--part", ["1/1", "1000/1000"], ["0/1", "2/1", "1/1001", "01/2", "1/02", "1", "1/2/3", "/2", "1/", "+1/2", "1/ 2"]),
                                  ("--of", ["1", "1000"], ["0", "1001", "01", "x"]), ("--from", ["a", "a,a"], [",a", "a,", "a,,a"])):
            if option in words.behind(name):
                at = words.words(name).index(option) if option in words.all[name][0] else None
                rest = words.words(name) if at is None else words.words(name)[:at] + words.words(name)[at + 2:]
                for value in good + bad:
                    got[name, option, value] = run([binary, *rest, f"{option}={value}"])[0] != 2
                    want[name, option, value] = value in good
        if "--budget" in words.behind(name):
            _, least, most = map(int, words.budget)
            for n in (least - 1, least, most, most + 1):
                got[name, n] = run([binary, *words.words(name), f"--budget={n}"])[0] != 2
                want[name, n] = least <= n <= most
    return got, want


def help_has_the_words(binary, _):
    words = Words(binary)
    shown = run([os.path.join(TOP, "gvis"), "--help"])[1]
    lines = {name: set(re.findall(r"--\w+", "".join(re.findall(rf"^  gvis {name} .*\n(?:       .*\n)*", shown, re.M)))) for name in re.findall(r"^  gvis (\w+)", shown, re.M)}
    told = re.search(r"(\d) to (\d), (\d+): no", shown).groups()
    statuses = {int(n) for n in re.findall(r"\b([0-9]):", shown)} | set(range(int(told[0]), int(told[1]) + 1)) | {int(told[2])}
    return (lines, sorted(statuses), words.budget[0] in shown, len(shown.splitlines()) <= 17), (
        {name: words.behind(name) for name in words.taken}, words.statuses, True, True)


def manual():
    return content(TOP, "share/man/gvis.1")


def part(name):
    return re.search(rf"^\.Sh {name}\n(.*?)(?=^\.Sh |\Z)", manual(), re.M | re.S)[1]


def synopsis_has_the_words(binary, _):
    words = Words(binary)
    got = {}
    for form in part("SYNOPSIS").split(".Nm\n")[1:]:
        command = re.match(r"\.Cm (\w+)\n", form)
        if command:
            got[command[1]] = sorted("-" + o for o in re.findall(r"^\.Fl (-\w+)", form, re.M)), sorted("-" + o for o in re.findall(r"^\.Op Fl (-\w+)", form, re.M))
    rest = set(re.findall(r"(?:Fl|Cm) (\S+)", part("SYNOPSIS").split(".Nm\n")[-1]))
    return (got, rest), ({n: tuple(sorted(p for p in side if p != "Plain") for side in sides) for n, sides in words.taken.items()}, {word[1:] if word[0] == "-" else word for word in OUTSIDE})


def manual_has_each_word_once(binary, _):
    words = Words(binary)
    commands, options = part("COMMANDS").split(".Ss Options\n")
    got = (re.findall(r"^\.It Cm (\w+)", commands, re.M), sorted("-" + o for o in re.findall(r"^\.It Fl (-\w+)", options, re.M)),
           re.findall(r"^\.It Sy (\w+)", part("KINDS OF REPORTS"), re.M), [int(n) for n in re.findall(r"^\.It (\d+)", part("EXIT STATUS"), re.M)])
    return got, (list(words.taken), sorted({o for n in words.taken for o in words.behind(n)}), words.keywords, words.statuses + [125])


def manual_tells_the_budget(binary, _):
    text = re.search(r"^\.It Fl -budget.*?^\.Bd", part("COMMANDS"), re.M | re.S)[0]
    return set(re.findall(r"\d+", text)) - {"4"}, set(Words(binary).budget)


def examples():
    """Each example of the manual that calls the program: its words, and the rest of its line."""
    lines = "\n".join(re.findall(r"^\.Bd[^\n]*\n(.*?)^\.Ed", manual(), re.M | re.S)).replace("\\e\n", "")
    return [(re.split("[|<>]", line)[0].split(), line) for line in lines.splitlines() if line.startswith("gvis ")]


def each_word_has_an_example(binary, _):
    words = Words(binary)
    shown = {w.split("=")[0] for example, _ in examples() for w in example}
    return {n for n in list(words.taken) + [o for n in words.taken for o in words.behind(n)] if n not in shown}, set()


def examples_are_commands(binary, folder):
    """Each example ends with 0 or 1 on the small repository, its certificates and its report, and on an overlay over it."""
    shutil.copytree(os.path.join(TOP, "examples/repo"), os.path.join(folder, "repo"))
    shutil.copytree(os.path.join(TOP, "examples/repo"), os.path.join(folder, "repos/gentoo"))
    put(folder, "repos/my-overlay/metadata/layout.conf", "masters = gentoo\n")
    put(folder, "report", run([binary, "scan", "repo", "--certs", "C"], cwd=folder)[1])
    shutil.copy2(os.path.join(folder, "C"), os.path.join(folder, "whole"))
    got = {}
    for words, line in examples():
        if words[1] != "demo":
            words[2] = "repos" if words[1] == "overlay" else "repo"
        for option, file in (("--certs", "C"), ("--report", "report"), ("--from", "whole")):
            words = [file if before == option else option + "=" + file if word.startswith(option + "=") else word for before, word in zip([""] + words, words)]
        given = {"stdin": None, "input": "report\nend\n"} if words[1] == "session" else {}
        got[line] = run([binary, *words[1:]], cwd=folder, **given)[0] in (0, 1)
    return (got, len(got) > 6), ({line: True for _, line in examples()}, True)


def statuses_are_as_told(binary, folder):
    """Each status but that of want of memory."""
    shutil.copytree(os.path.join(TOP, "examples/repo"), os.path.join(folder, "repo"))
    put(folder, "large/profiles/profiles.desc", b"#" * 16_777_217)
    put(folder, "large/profiles/categories", "")
    put(folder, "two/profiles/profiles.desc", "amd64 base stable\n")
    put(folder, "two/profiles/categories", "a\n")
    put(folder, "two/profiles/base/eapi", "8\n")
    put(folder, "two/a/b/b-1.ebuild", "")
    entry = "EAPI=8\nSLOT=0\nKEYWORDS=amd64\nIUSE=c d e\nREQUIRED_USE=%s\n_md5_="
    never = " ".join(f"|| ( {c}c {d}d {e}e )" for c in ("", "!") for d in ("", "!") for e in ("", "!"))
    put(folder, "two/metadata/md5-cache/a/b-1", entry % never + hashlib.md5(b"").hexdigest() + "\n")
    got = [run([binary, "scan", *words, "--certs=" + file], cwd=folder)[0] for words, file in [
        (["repo", "--keywords", "StaleCache"], "C"), (["repo"], "C"), (["repo", "--fresh=1"], "C"), (["repo"], "gone/C"),
        (["two", "--budget", "2"], "C"), (["gone"], "C"), (["large"], "C")]]
    return got + [run([binary, *words], cwd=folder)[0] for words in (["session", "repo"], ["merge", "repo", "--certs=M", "--from=none", "--of=2"])], [0, 1, 2, 3, 4, 6, 7, 8, 10]


@needs("mandoc")
def mandoc_is_silent(*_):
    return run(["mandoc", "-Tlint", os.path.join(TOP, "share/man/gvis.1")]), (0, "", "")


@needs("mandoc")
def manual_is_shown(*_):
    status, shown, said = run(["mandoc", "-Tascii", os.path.join(TOP, "share/man/gvis.1")])
    shown = re.sub(r".\x08", "", shown)
    return (status, said, "     gvis scan root --certs file [--fresh]" in shown, "     125     There is no program" in shown), (0, "", True, True)


CASES = [
    the_table_is_read, the_program_takes_what_the_table_has, help_has_the_words, synopsis_has_the_words, manual_has_each_word_once,
    manual_tells_the_budget, each_word_has_an_example, examples_are_commands, statuses_are_as_told, mandoc_is_silent, manual_is_shown,
]
