#!/usr/bin/env python3
"""Trees that cost a careless program hours, and how long gvis takes over them.

    hostile.py make KIND FOLDER                writes the tree of a kind, which has to be one of those that `hostile.py list` prints
    hostile.py list
    hostile.py measure GVIS SECONDS [KIND ..]  scans each (a session where the kind says so), and prints a row of a table

A row has the bytes of the files, the status, the seconds of the processor and the peak memory. A run that takes more than SECONDS of the
processor, or more than MEMORY, is ended and told.
"""
import hashlib
import os
import resource
import subprocess
import sys
import tempfile

EMPTY = hashlib.md5(b"").hexdigest()
MEMORY = 4 << 30


def profiles(lines="amd64 base stable\n", categories="app\nx\n"):
    return {"profiles/profiles.desc": lines, "profiles/categories": categories, "profiles/base/eapi": "8\n"}


def package(name, version="1", **keys):
    category, name = name.split("/")
    values = {"EAPI": "8", "SLOT": "0", "KEYWORDS": "amd64", "_md5_": EMPTY, **keys}
    return {f"{category}/{name}/{name}-{version}.ebuild": "",
            f"metadata/md5-cache/{category}/{name}-{version}": "".join(f"{key}={value}\n" for key, value in values.items())}


def versions(count, **keys):
    """So many versions of one name."""
    return {path: text for number in range(count) for path, text in package("x/y", str(number), **keys).items()}


def flags(count, name="f"):
    return [f"{name}{number:04}" for number in range(count)]


# Versions and atoms

def versions_that_ask_for_the_greatest():
    """3,000 versions, each of which asks for the greatest."""
    return {**profiles(), **versions(3000, RDEPEND=">=x/y-2999")}


def many_versions_under_a_hundred_atoms():
    """100,000 versions of a name, and a package with a hundred atoms that match the last alone."""
    return {**profiles(), **versions(100_000), **package("app/p", RDEPEND=" ".join(f">=x/y-{99_999 - n}" for n in range(100)))}


def atoms_that_match_all():
    """1,000 versions of a name, and a package whose 1,990 atoms match each of them."""
    return {**profiles(), **versions(1000), **package("app/p", RDEPEND=" ".join(["x/y"] * 1990))}


def flags_above_equal_atoms(count=1024, atoms=1850):
    """1,024 flags in one `||`, and 1,850 equal atoms of a thousand versions before one that fails."""
    names = flags(count)
    return {**profiles(), **versions(1000), **package("app/p", IUSE=" ".join(names), REQUIRED_USE=f"|| ( {' '.join(names)} )",
                                                     RDEPEND=" ".join(["x/y"] * atoms + ["x/none"]))}


def more_flags_above_equal_atoms():
    """The same with 4,000 flags."""
    return flags_above_equal_atoms(4000)


# Expressions

def no_assignment_meets_it():
    """REQUIRED_USE of 2,000 groups over twenty flags, and two that contradict each other."""
    names = flags(20)
    body = " ".join([f"|| ( {' '.join(names)} )"] * 2000)
    return {**profiles(), **package("app/p", IUSE=" ".join(names), REQUIRED_USE=f"{body} {names[0]} !{names[0]}",
                                    **dict.fromkeys(("DEPEND", "BDEPEND", "RDEPEND", "PDEPEND", "IDEPEND"), "x/none"))}


def groups_in_groups():
    """Sixty open groups, a hundred times, with twelve conditionals in the innermost."""
    inside = " ".join(f"{flag}? ( x/y )" for flag in flags(12))
    body = " ".join(["|| ( " * 60 + inside + " x/y" + " )" * 60] * 100)
    return {**profiles(), **versions(1), **package("app/p", IUSE=" ".join(flags(12)), RDEPEND=body)}


def exactly_one_of_many():
    """`^^` over 4,000 flags."""
    return {**profiles(), **package("app/p", IUSE=" ".join(flags(4000)), REQUIRED_USE=f"^^ ( {' '.join(flags(4000))} )", RDEPEND="x/none")}


def pigeons(holes=8):
    """Nine pigeons in eight holes: a REQUIRED_USE whose refutations are long."""
    names = [[f"p{pigeon}h{hole}" for hole in range(holes)] for pigeon in range(holes + 1)]
    each = [f"|| ( {' '.join(row)} )" for row in names]
    most = [f"?? ( {' '.join(row[hole] for row in names)} )" for hole in range(holes)]
    return {**profiles(), **package("app/p", IUSE=" ".join(flag for row in names for flag in row), REQUIRED_USE=" ".join(each + most))}


def more_pigeons():
    """Ten pigeons in nine holes."""
    return pigeons(9)


def most_pigeons():
    """Eleven pigeons in ten holes, which need nearly the default budget."""
    return pigeons(10)


def equal_tokens():
    """100,000 tokens, a bad one at the end."""
    return {**profiles(), **package("app/p", RDEPEND="( ) " * 49_999 + "x/y )")}


# Profiles

def values_that_double():
    """A make.defaults of forty lines, each twice the one before."""
    return {**profiles(), "profiles/base/make.defaults": "A0=aaaaaaaaaaaaaaaa\n" + "".join(f'A{n + 1}="$A{n}$A{n}"\n' for n in range(40))}


def values_within_their_room():
    """A make.defaults whose values double up to 128 MiB together."""
    return {**profiles(), "profiles/base/make.defaults": "A0=aaaaaaaaaaaaaaaa\n" + "".join(f'A{n + 1}="$A{n}$A{n}"\n' for n in range(22))}


def parents_twice(depth=12):
    """Directories each of which names the next one twice: 4,095 visits."""
    files = {**profiles("amd64 d0 stable\n")}
    for number in range(depth):
        files[f"profiles/d{number}/eapi"] = "8\n"
        if number + 1 < depth:
            files[f"profiles/d{number}/parent"] = f"../d{number + 1}\n" * 2
    return files


def parents_twice_above_many_lines():
    """The same, the last directory with 8 MiB of flags in its use.mask, and a package."""
    lines = "".join(f"m{number}\n" for number in range(1_100_000))
    return {**parents_twice(), "profiles/d11/use.mask": lines, **package("app/p", IUSE="m1 a", RDEPEND="m1? ( x/none )")}


def visits_of_many_lines():
    """A directory of 16 MiB of flags that is visited 4,095 times."""
    lines = "".join(f"m{number:07}\n" for number in range(16_777_216 // 9))
    return {**profiles(), "profiles/base/parent": "../many\n" * 4095, "profiles/many/eapi": "8\n", "profiles/many/use.mask": lines,
            **package("app/p", IUSE="m0000001 a", RDEPEND="m0000001? ( x/none )")}


def visits_of_many_masks():
    """The same with 16 MiB of masks."""
    lines = "".join(f"a/m{number:07}\n" for number in range(16_777_216 // 11))
    return {**profiles(), "profiles/base/parent": "../many\n" * 4095, "profiles/many/eapi": "8\n", "profiles/many/package.mask": lines,
            **package("app/p")}


def lines_above_many_flags():
    """1,000 lines of profiles.desc with one folder, and 20,000 flags in its use.mask."""
    return {**profiles("".join(f"a{n} base stable\n" for n in range(1000))), "profiles/base/use.mask": "".join(f"m{n}\n" for n in range(20_000)),
            **package("app/p", IUSE="m1 a", RDEPEND="m1? ( x/none )")}


def values_at_each_visit():
    """A directory that is visited 2,048 times, with values of 128 MiB in its make.defaults."""
    return {**parents_twice(), "profiles/d11/make.defaults": values_within_their_room()["profiles/base/make.defaults"]}


def chain_of_parents():
    """A chain of 20,000 parents."""
    files = profiles("amd64 d0 stable\n")
    for number in range(20_000):
        files[f"profiles/d{number}/parent"] = f"../d{number + 1}\n"
    return {**files, "profiles/d20000/eapi": "8\n"}


def masks_taken_away():
    """100,000 masks, and as many lines that take one away."""
    return {**profiles(), "profiles/package.mask": "".join(f"x/p{n}\n" for n in range(100_000)),
            "profiles/base/package.mask": "".join(f"-x/p{n}\n" for n in range(100_000))}


def lines_of_one_folder():
    """3,000 lines of profiles.desc with one folder, and fifty packages."""
    files = profiles("".join(f"a{n} base stable\n" for n in range(3000)))
    for number in range(50):
        files.update(package(f"x/y{number}", IUSE="a", KEYWORDS=" ".join(f"a{n}" for n in range(0, 3000, 3)), RDEPEND=f"a? ( x/y{number + 1} )"))
    return files


def packages_by_lines():
    """1,000 packages in each of 5,000 profiles."""
    files = profiles("".join(f"amd64 d{n} dev\n" for n in range(5000)))
    files.update({f"profiles/d{n}/eapi": "" for n in range(5000)})
    for number in range(1000):
        files.update(package(f"x/y{number}", RDEPEND=f"x/y{(number + 1) % 1000}"))
    return files


def rules_that_name_one_flag():
    """50,000 lines of package.use.mask on one flag, each of another package, and 2,000 packages that have it."""
    files = {**profiles(), "profiles/base/package.use.mask": "".join(f"x/n{n} a\n" for n in range(50_000))}
    for number in range(2000):
        files.update(package(f"x/y{number}", IUSE="a", RDEPEND="a? ( x/none )"))
    return files


# Names

def names_that_are_no_package():
    """50,000 names in a folder of the cache that are no PF."""
    return {**profiles(), **{f"metadata/md5-cache/x/no{n}": "" for n in range(50_000)}}


def categories_without_a_folder():
    """100,000 categories without a folder."""
    return profiles(categories="".join(f"c{n}\n" for n in range(100_000)))


# Links: the files, the links, the script of a session or none, and files that the links stand in the place of

def self_links_below_a_cut():
    """A folder with two links to itself, and a session that cuts a path below it and reports. Its search passes over 2^40 paths."""
    return profiles(), {"profiles/base/a": ".", "profiles/base/b": "."}, "cut profiles/base/zzz\nreport\nend\n", ["profiles/base/eapi"]


def self_links():
    """The same tree as a scan reads it."""
    return profiles(), {"profiles/base/a": ".", "profiles/base/b": "."}, None, []


KINDS = {kind.__name__.replace("_", "-"): kind for kind in (
    versions_that_ask_for_the_greatest, many_versions_under_a_hundred_atoms, atoms_that_match_all, flags_above_equal_atoms,
    more_flags_above_equal_atoms, no_assignment_meets_it, groups_in_groups, exactly_one_of_many, pigeons, more_pigeons, most_pigeons,
    equal_tokens, values_that_double,
    values_within_their_room, parents_twice, parents_twice_above_many_lines, visits_of_many_lines, visits_of_many_masks, lines_above_many_flags,
    values_at_each_visit, chain_of_parents, masks_taken_away, lines_of_one_folder,
    packages_by_lines, rules_that_name_one_flag, names_that_are_no_package, categories_without_a_folder, self_links, self_links_below_a_cut)}


def make(kind, folder):
    """Writes the tree of a kind, and answers the bytes of its files and its session, if it has one."""
    made = KINDS[kind]()
    files, links, script, taken = made if isinstance(made, tuple) else (made, {}, None, [])
    for path, text in files.items():
        if path not in taken:
            full = os.path.join(folder, path)
            os.makedirs(os.path.dirname(full), exist_ok=True)
            with open(full, "w") as file:
                file.write(text)
    for path, target in links.items():
        os.makedirs(os.path.join(folder, os.path.dirname(path)), exist_ok=True)
        os.symlink(target, os.path.join(folder, path))
    return sum(map(len, files.values())), script


def bounded(seconds):
    def before():
        resource.setrlimit(resource.RLIMIT_CPU, (seconds, seconds + 1))
        resource.setrlimit(resource.RLIMIT_AS, (MEMORY, MEMORY))
    return before


def measure(binary, seconds, kind):
    """The row of a kind."""
    with tempfile.TemporaryDirectory() as folder:
        size, script = make(kind, os.path.join(folder, "R"))
        words = ["session", "R"] if script else ["scan", "R", "--certs", "C"]
        with open(os.path.join(folder, "script"), "w") as file:
            file.write(script or "")
        with open(os.path.join(folder, "script")) as given, open(os.path.join(folder, "out"), "wb") as out:
            child = subprocess.Popen([binary, *words], cwd=folder, stdin=given, stdout=out, stderr=subprocess.PIPE, preexec_fn=bounded(seconds))
            err = child.stderr.read().decode().strip()
            _, status, used = os.wait4(child.pid, 0)
        code = os.waitstatus_to_exitcode(status)
        end = str(code) if code >= 0 else f"ended by signal {-code}"
        return f"| {kind} | {size:,} | {end}{': ' + err[:100] if err else ''} | {used.ru_utime + used.ru_stime:.2f} | {used.ru_maxrss // 1024:,} |"


def main(words):
    if words == ["list"]:
        print("\n".join(f"{kind}: {made.__doc__}" for kind, made in KINDS.items()))
    elif len(words) == 3 and words[0] == "make" and words[1] in KINDS:
        make(*words[1:])
    elif len(words) > 2 and words[0] == "measure" and words[2].isdecimal() and set(words[3:]) <= set(KINDS):
        print("| Kind | Bytes of files | Status | Seconds | MB |\n|---|---|---|---|---|", flush=True)
        for kind in words[3:] or KINDS:
            print(measure(os.path.abspath(words[1]), int(words[2]), kind), flush=True)
    else:
        sys.exit(__doc__)


if __name__ == "__main__":
    main(sys.argv[1:])
