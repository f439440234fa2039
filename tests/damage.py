#!/usr/bin/env python3
"""A repository of 60 files with lines of all kinds, damaged at each byte: the built program beside the plain one of tests/plain.py.

    tests/damage.py --all [BINARY [FIRST BEHIND]]

Damages each file at each byte in each way, in an order that is always the same, from the number FIRST to one in front of BEHIND; inside the
gate some drawn ones are tried, once by a scan each and once as edits of one session. Status, output and errors have to be those of the plain program, and no scan may take more than a second of the processor.
"""
import functools
import hashlib
import os
import random
import resource
import sys
import tempfile

sys.dont_write_bytecode = True
import plain  # noqa: E402
from common import TOP, called, named, put, put_files  # noqa: E402

WORDS = ["scan", "R", "--certs", "C"]
DRAWN, PARTS, LONGEST, HANGING = 2000, 4, 1.0, 300

PROFILES = {
    "profiles/profiles.desc": "# arch path status\namd64 base stable\namd64\ttop/inner/ dev more\nx86 other exp # x86\n\n"
                              "amd64 base dev\narm gone stable\nppc loop exp\namd64 top\narm ../x stable\nx86 far/./away dev\n",
    "profiles/categories": "app\nx # the others\n\tzz\r\nx y\n-bad\n",
    "profiles/package.mask/10": "<x/y-1.1\n-<x/y-1.1\n=x/z-2*\n",
    "profiles/package.mask/9": "app/gone\n!x/y\n-\n",
    "profiles/package.mask/.hidden": "x/y\n",
    "profiles/base/eapi": "8\n",
    "profiles/base/make.defaults": '# all\nUSE_EXPAND="K U" USE_EXPAND_IMPLICIT=\'K U\'\nUSE_EXPAND_UNPREFIXED=U\nX=b\n'
                                   'USE_EXPAND_VALUES_K="a ${X}"\nUSE_EXPAND_VALUES_U="d $X\\\n e\\$"\nIUSE_IMPLICIT=v\\ w\nA=1#x\n',
    "profiles/base/use.mask": "c\n-c\nm # hidden\n-d\n",
    "profiles/base/use.force": "k_a\n-k_a\nd\na b\n",
    "profiles/base/use.stable.mask": "e\n",
    "profiles/base/use.stable.force": "b\n",
    "profiles/base/package.mask": "~x/z-1.0\n-app/gone\n>=x/y-9:0\n",
    "profiles/base/package.use.mask": "x/y -c a\n>=app/p-1 m\nzz/w:3 g -g\n<zz/w-2_p20 a\n",
    "profiles/base/package.use.force": "=x/y-1* a\nx/z:1 -b b\nx/z\nzz/w e -e # both\n",
    "profiles/base/package.use.stable.mask": "app/q b *\n",
    "profiles/base/package.use.stable.force": "app/p:0/2 c\n",
    "profiles/other/eapi": "5 # old\n",
    "profiles/other/parent": "# up\n../base\n:main\n",
    "profiles/other/make.defaults": 'ARCH="x86"\nACCEPT_KEYWORDS="${ARCH} ~${ARCH}"\nIUSE_IMPLICIT="-* w"\nexport A=1\n',
    "profiles/other/use.mask/1": "a\n-a\nm\n",
    "profiles/other/package.use.mask/a": "<=x/y-1.10:0 -a\n",
    "profiles/top/eapi": "7\n",
    "profiles/top/parent": "../base\n../base\n",
    "profiles/top/make.defaults": 'ACCEPT_KEYWORDS="~amd64"\nUSE_EXPAND="-K"\nUSE_EXPAND_VALUES_K="${USE_EXPAND_VALUES_K} f" _x=\'$X\'"y"z\n',
    "profiles/top/inner/eapi": "6\n",
    "profiles/top/inner/parent": "..\n../../other/\n",
    "profiles/top/inner/make.defaults": "ACCEPT_KEYWORDS='-~amd64'\nUSE_EXPAND=K\nB=\"open\n",
    "profiles/top/inner/package.mask": "-=x/z-2*\nx/y:1\n",
    "profiles/loop/parent": "../far/away\n",
    "profiles/far/away/parent": "../../loop\n",
    "eclass/one.eclass": "# one\n",
    "eclass/two.eclass": "",
}

# The keys of each entry; of a list of eclasses the names.
ENTRIES = {
    "x/y-1": dict(DESCRIPTION="A=B of all kinds", EAPI="8", SLOT="0", KEYWORDS="amd64 x86", IUSE="a +b -c", RDEPEND="c? ( x/z:1=[b(+)=] )",
                  _eclasses_="one"),
    "x/y-1.10": dict(EAPI="7", SLOT="1/1", KEYWORDS="~amd64 x86", IUSE="a k_a", REQUIRED_USE="k_a? ( a ) ?? ( a )",
                     DEPEND="x/z[a(+)?]", BDEPEND="x/y:0= !<app/q-2", IDEPEND="none here"),
    "x/y-1.2_rc3-r2": dict(EAPI="6", SLOT="0/2", KEYWORDS="amd64", IUSE="+a b", REQUIRED_USE="|| ( a? ( b ) )",
                           RDEPEND="!!x/z ( a? ( || ( ) ) ) || ( b? ( >=x/y-1.10-r0 ) )"),
    "x/z-1.0": dict(EAPI="8", SLOT="1", KEYWORDS="amd64 ~x86 arm", IUSE="b d", DEPEND="x/y[b(-),-a(+)] <=x/y-1.2_rc3",
                    RDEPEND="~x/z-1.0 || ( x/y:1 x/none )"),
    "x/z-2a": dict(EAPI="5", SLOT="0", KEYWORDS="amd64", IUSE="e", PDEPEND="|| ( e? ( x/none ) )", BDEPEND="not read (",
                   REQUIRED_USE="^^ ( e )"),
    "app/p-1": dict(EAPI="8", SLOT="0/2", KEYWORDS="amd64 x86", IUSE="a b +c d v", REQUIRED_USE="^^ ( a b ) ?? ( b c )",
                    DEPEND="a? ( =x/y-1*[-b] ) !c? ( x/z )", RDEPEND="x/y[a=,!b?,-c(-)] || ( x/z:1 ( app/q x/none ) )"),
    "app/p-2": dict(EAPI="8", SLOT="0", KEYWORDS="~amd64", PROPERTIES="live", IUSE="m", IDEPEND="m? ( x/y ) q? ( x/z )",
                    BDEPEND="m? ( x/none:3 ) !m? ( x/y[m?] )"),
    "app/q-1-r1": dict(EAPI="7", SLOT="0", KEYWORDS="amd64", IUSE="b f", REQUIRED_USE="b !b", BDEPEND=">x/y-1:*",
                       PDEPEND="app/p[-b=] f? ( app/q )", _eclasses_="one two"),
    "app/q-2": dict(EAPI="8", SLOT="0", KEYWORDS="x86 -*", IUSE="w u", DEPEND="w? ( <x/z-2[d=] ) u? ( x/y )", PDEPEND="app/q:2"),
    "app/r-1": dict(EAPI="8", SLOT="0", KEYWORDS="amd64"),
    "app/s-1": dict(EAPI="8", SLOT="bad slot", KEYWORDS="~~x", IUSE="=", RDEPEND="|| ( x/y"),
    "zz/t-9999": dict(EAPI="8", SLOT="0", KEYWORDS="x86", IUSE="a", DEFINED_PHASES="-", DEPEND="a? ( =x/z-2*:0 )",
                       RDEPEND="!a? ( x/y[a!] ) x/z:2="),
    "zz/w-2_p20": dict(EAPI="8", SLOT="3/3.1", KEYWORDS="amd64 ~x86", IUSE="+a b c -e g", REQUIRED_USE="|| ( ^^ ( a b ) ( !e ) )",
                       DEPEND="|| ( g? ( x/none ) ( x/y x/z ) )", RDEPEND="c? ( app/p:0/2[a,-b(-)] ) zz/w:3/3.1="),
}


def digest(text):
    return hashlib.md5(text.encode()).hexdigest()


@functools.cache
def repository():
    """The 60 files: those of the profiles, entries with ebuilds, one that is stale, an ebuild and an entry that stand alone."""
    files = dict(PROFILES)
    for cpv, keys in ENTRIES.items():
        category, pf = cpv.split("/")
        ebuild = f"# {pf}\n" if category == "x" else ""
        files[f"{category}/{plain.split_pf(pf)[0]}/{pf}.ebuild"] = ebuild
        eclasses = [part for name in keys.get("_eclasses_", "").split() for part in (name, digest(PROFILES[f"eclass/{name}.eclass"]))]
        files["metadata/md5-cache/" + cpv] = "".join(
            f"{key}={value}\n" for key, value in {**keys, "_eclasses_": "\t".join(eclasses), "_md5_": digest(ebuild)}.items())
    files["metadata/md5-cache/app/r-1"] = files["metadata/md5-cache/app/r-1"].replace(digest(""), digest("r"))
    return {path: text.encode() for path, text in {**files, "x/z/z-3.ebuild": "", "metadata/md5-cache/x/v-1": "EAPI=8\n"}.items()}


def inserted(byte):
    return lambda content, at: content[:at] + byte + content[at:]


def replaced(byte):
    return lambda content, at: content[:at] + byte + content[at + 1:]


DAMAGES = {
    "raised by one": lambda content, at: content[:at] + bytes([(content[at] + 1) % 256]) + content[at + 1:],
    "cut": lambda content, at: content[:at],
    "doubled": lambda content, at: content[:at + 1] + content[at:],
    "left out": lambda content, at: content[:at] + content[at + 1:],
    "zero": replaced(b"\0"),
    "past ASCII": replaced(b"\xe4"),
    **{f"{byte!r} in its place": replaced(byte.encode()) for byte in "\n /0a"},
    **{f"{byte!r} in front": inserted(byte.encode()) for byte in "\n\t\r#\"'\\$-+!?*=~():,[]/1x"},
}


def damages():
    """Each damage that changes something: a path, a place and how."""
    return [(path, at, how) for path, content in repository().items() for at in range(len(content)) for how, damage in DAMAGES.items()
            if damage(content, at) != content]


def damaged(path, at, how):
    return DAMAGES[how](repository()[path], at)


# What the plain program has to say; what a damage leaves as it was is read and judged once.

def package_parts(files):
    told = []
    return plain.read_packages(files, told), told


@functools.cache
def unchanged():
    files = plain.Files(repository())
    return plain.profiles_of(files), package_parts(files)


def key_of(thing):
    """All of a package or a profile that its reports rest on, as a text; made once."""
    if "key" not in thing:
        texts = {what: [rule["atom"] and rule["atom"]["text"] if "atom" in rule else rule["text"] for rule in thing.get(what, [])] for what in ("masks", "rules")}
        rules = [[value for part, value in rule.items() if part != "atom"] for rule in thing.get("rules", [])]
        left_out = {"masks", "rules", "variables", "REQUIRED_USE", *plain.CLASSES}
        rest = [(what, sorted(value) if isinstance(value, set) else value) for what, value in thing.items() if isinstance(what, str) and what not in left_out]
        thing["key"] = repr((rest, texts, rules))
    return thing["key"]


JUDGED = {}


def judged_once(package, profile, level, visible):
    """The reports of a package in a profile, as they were told of the same package, with the same packages of the names that it asks for."""
    atoms = [atom for key in plain.CLASSES if package[key] for atom in plain.wanted_atoms(package[key])]
    found = tuple(key_of(other) for name in sorted({atom["name"] for atom in atoms}) for other in visible.get(name, []))
    key = key_of(package), key_of(profile), level, found
    if key not in JUDGED:
        if len(JUDGED) == 100_000:
            JUDGED.clear()
        JUDGED[key] = list(plain.case_reports(package, profile, level, visible))
    return JUDGED[key]


@functools.lru_cache(maxsize=DRAWN)
def said(path, content):
    """What a scan has to say of the repository with this content at a path."""
    files = plain.Files({**repository(), path: content})
    (profiles, notes), (packages, told) = unchanged()
    if path.startswith("profiles/"):
        profiles, notes = plain.profiles_of(files)
    if not path.startswith("profiles/") or path == "profiles/categories":
        packages, told = package_parts(files)
    out = plain.text_of_reports(notes + told + plain.judging(packages, profiles, judged_once))
    return (1 if out else 0), out.encode("latin-1"), b""


def spent():
    used = resource.getrusage(resource.RUSAGE_CHILDREN)
    return used.ru_utime + used.ru_stime


def tried(binary, folder, path, content):
    """What a scan of the repository with this content at a path says, whether it took no more than a second of the processor, and what
    has to come."""
    put(os.path.join(folder, "R"), path, content)
    got, is_quick = None, False
    for _ in range(3):
        # (a busy machine counts more seconds for the same work: one quick run of three shows that it takes few)
        begin = spent()
        got = called([binary, *WORDS], cwd=folder, timeout=HANGING)
        is_quick = spent() - begin <= LONGEST
        if is_quick:
            break
    put(os.path.join(folder, "R"), path, repository()[path])
    return (*got, is_quick), (*said(path, content), True)


@functools.cache
def drawn():
    return random.Random(60).sample(damages(), DRAWN)


COUNT = {"damaged trees": 0}


def told():
    return ", ".join(f"{count} {what}" for what, count in COUNT.items())


def scans(part, binary, folder):
    """A part of the drawn trees, each by a scan of its own."""
    got, want = {}, {}
    put_files(os.path.join(folder, "R"), repository())
    for damage in drawn()[part::PARTS]:
        got[damage], want[damage] = tried(binary, folder, damage[0], damaged(*damage))
        COUNT["damaged trees"] += 1
    return got, want


def session(part, binary, folder):
    """A part of them as edits of one session, each taken back behind its report; it has the reports of those that are repositories."""
    script, want = b"", b""
    put_files(os.path.join(folder, "R"), repository())
    for damage in drawn()[part::PARTS]:
        path, content = damage[0], damaged(*damage)
        status, out, _ = said(path, content)
        assert status < 2
        script += b"".join(b"put %s %d\n%s\n%s" % (path.encode(), len(it), it, then) for it, then in ((content, b"report\n"), (repository()[path], b"")))
        want += b"report %d\n%s" % (len(out), out)
    return called([binary, "session", "R"], cwd=folder, input=script + b"end\n", timeout=HANGING), (0, want, b"")


def kinds(_, __):
    """The repository has 60 files, and reports of all kinds."""
    files = repository()
    out = plain.scan(files)[1]
    return (len(files), [keyword for keyword in plain.KEYWORDS if f": {keyword}" not in out]), (60, [])


def judged_alike(*_):
    """What is judged once says what the plain program says that judges all anew."""
    got, want = {}, {}
    for path, at, how in drawn()[:60]:
        content = damaged(path, at, how)
        got[path, at, how], (status, out, err) = said(path, content), plain.scan({**repository(), path: content})
        want[path, at, how] = status, out.encode("latin-1"), err.encode("latin-1")
    return got, want


CASES = [kinds, judged_alike, *(named(f"{case.__name__}, part {part} of {PARTS}", case, part) for case in (scans, session) for part in range(PARTS))]


def main(binary, first=0, behind=None):
    """Tries all damages, or those of these numbers, prints each that goes wrong, and how far it is; answers how many went wrong."""
    files, wrong, longest = repository(), 0, 0.0
    every = damages()
    random.Random(61).shuffle(every)
    print(f"{len(files)} files, {sum(map(len, files.values()))} bytes, {len(every)} trees", flush=True)
    every = every[first:behind]
    with tempfile.TemporaryDirectory() as folder:
        put_files(os.path.join(folder, "R"), files)
        for number, damage in enumerate(every, 1):
            begin = spent()
            try:
                got, want = tried(binary, folder, damage[0], damaged(*damage))
            except Exception as fault:
                put_files(os.path.join(folder, "R"), files)
                got, want = repr(fault), "an answer"
            longest = max(longest, spent() - begin)
            if got != want:
                wrong += 1
                print(f"{damage}: {got}\n  wanted: {want}", flush=True)
            if number % 5000 == 0:
                print(f"{first + number} tried, {wrong} wrong, the longest {longest:.3f} s", flush=True)
    print(f"{len(every)} tried, {wrong} wrong, the longest {longest:.3f} s of the processor")
    return wrong


if __name__ == "__main__":
    if len(sys.argv) not in (2, 3, 5) or sys.argv[1] != "--all":
        sys.exit(__doc__)
    sys.exit(1 if main(os.path.abspath((sys.argv[2:] or [os.path.join(TOP, "crates/gvis/out/gvis")])[0]), *map(int, sys.argv[3:])) else 0)
