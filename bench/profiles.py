#!/usr/bin/env python3
"""Measures how a profile's stack is folded, on a program made for that alone.

    profiles.py

Four stacks: 40 directories with 600 masks and 5,000 rules on flags; 1,000 directories, one of which has 100,000 masks and
then as many lines that take one away; twelve directories that are visited 4,095 times; a chain of 100,000 directories, each
the parent of the one before, which is refused behind 4,096 of them. It prints what the profile has and how long the fold
took in microseconds. The numbers are compared with those of a plain program, by the rules alone.
"""
import random
import sys
import tempfile

from programs import INPUT, build, timed

PROGRAM = """//! Times `fold` on directories that come in, with `|` between them: the path of one, and then lines with the name of a
//! file and a line of it. Whatever is wrong with the input ends the program.
#![tactic(auto)]

use gv_base::Text;
use gv_facts::{Profile, Status};
use gv_profile::{DescLine, DirFiles, Dirs, NamedFile, NamedFiles, ProfileFault, fold};
use std::alloc::Global;
use std::io::Read;
use std::process::Abort;
use std::time::Instant;

""" + INPUT + """
/// The texts of a directory's files, so far.
#[derive(Drop)]
struct Texts {
    parent: Text,
    defaults: Text,
    use_mask: Text,
    use_force: Text,
    package_mask: Text,
    package_use_mask: Text,
    package_use_force: Text,
}

fn none<R: Abort>(rt: &R, alloc: Global) -> Texts {
    Texts {
        parent: text(rt, alloc, ""),
        defaults: text(rt, alloc, ""),
        use_mask: text(rt, alloc, ""),
        use_force: text(rt, alloc, ""),
        package_mask: text(rt, alloc, ""),
        package_use_mask: text(rt, alloc, ""),
        package_use_force: text(rt, alloc, ""),
    }
}

fn add<R: Abort>(rt: &R, text: &mut Text, line: &str) {
    text.append(line.as_bytes()).expect(rt, "memory");
    text.append(b"\\n").expect(rt, "memory");
}

fn take<R: Abort>(rt: &R, texts: &mut Texts, name: &str, line: &str) {
    match name {
        "parent" => add(rt, &mut texts.parent, line),
        "make.defaults" => add(rt, &mut texts.defaults, line),
        "use.mask" => add(rt, &mut texts.use_mask, line),
        "use.force" => add(rt, &mut texts.use_force, line),
        "package.mask" => add(rt, &mut texts.package_mask, line),
        "package.use.mask" => add(rt, &mut texts.package_use_mask, line),
        "package.use.force" => add(rt, &mut texts.package_use_force, line),
        _ => rt.abort(),
    }
}

fn named<R: Abort>(rt: &R, alloc: Global, bytes: Text) -> NamedFiles {
    let mut files = NamedFiles::new(alloc);
    let path = text(rt, alloc, "file");
    files.add(NamedFile { path, bytes }).expect(rt, "memory");
    files
}

fn files_of<R: Abort>(rt: &R, alloc: Global, texts: Texts) -> DirFiles {
    DirFiles {
        eapi: Some(text(rt, alloc, "8")),
        parent: Some(texts.parent),
        defaults: Some(texts.defaults),
        use_mask: named(rt, alloc, texts.use_mask),
        use_force: named(rt, alloc, texts.use_force),
        use_stable_mask: NamedFiles::new(alloc),
        use_stable_force: NamedFiles::new(alloc),
        package_mask: named(rt, alloc, texts.package_mask),
        package_use_mask: named(rt, alloc, texts.package_use_mask),
        package_use_force: named(rt, alloc, texts.package_use_force),
        package_use_stable_mask: NamedFiles::new(alloc),
        package_use_stable_force: NamedFiles::new(alloc),
    }
}

// One directory: its path, and then its lines.
fn put<R: Abort>(rt: &R, alloc: Global, dirs: &mut Dirs, lines: &str) {
    let mut texts = none(rt, alloc);
    let mut path = text(rt, alloc, "");
    for line in lines.lines() {
        match line.split_once(' ') {
            Some((name, rest)) => take(rt, &mut texts, name, rest),
            None => path.append(line.as_bytes()).expect(rt, "memory"),
        }
    }
    let files = files_of(rt, alloc, texts);
    dirs.put(&path, files).expect(rt, "memory");
}

fn put_all<R: Abort>(rt: &R, alloc: Global, input: &str) -> Dirs {
    let mut dirs = Dirs::new(alloc);
    for lines in input.split('|') {
        put(rt, alloc, &mut dirs, lines);
    }
    dirs
}

fn count_on(profile: &Profile) -> u64 {
    let mut on: u64 = 0;
    for rule in profile.rules.items() {
        if rule.on {
            on = on.wrapping_add(1);
        }
    }
    on
}

fn main(rt: HostRuntime) {
    let alloc = rt.alloc();
    let bytes = bytes_in(&rt).expect(&rt, "the input");
    let input = text_of(&rt, &bytes);
    let dirs = put_all(&rt, alloc, input);
    let line = DescLine {
        number: 1,
        arch: text(&rt, alloc, "amd64"),
        path: text(&rt, alloc, "d0"),
        status: Status::Stable,
    };
    let first = NamedFiles::new(alloc);
    let start = Instant::now(&rt).ok().expect(&rt, "a clock");
    let folded = fold(alloc, &dirs, &line, &first);
    let took = start.elapsed(&rt).ok().expect(&rt, "a clock").as_micros();
    match folded {
        Ok(profile) => {
            let masks = profile.masks.items().len();
            let rules = profile.rules.items().len();
            let on = count_on(&profile);
            let words = profile.iuse_implicit.items().len();
            let _ = println!(&rt; "masks {masks} rules {rules} on {on} words {words}: {took} microseconds");
        }
        Err(ProfileFault::TooMany) => {
            let _ = println!(&rt; "too many visits: {took} microseconds");
        }
        Err(_) => {
            let _ = println!(&rt; "another fault: {took} microseconds");
        }
    }
}
"""


class Dir:
    def __init__(self, parents=()):
        self.files = {"parent": [f"../{parent}" for parent in parents]}

    def add(self, name, line):
        self.files.setdefault(name, []).append(line)


def written(dirs):
    """The input: for each directory its path, then each line behind the name of its file."""
    blocks = []
    for name, made in dirs.items():
        lines = [f"profiles/{name}"]
        for file, rest in made.files.items():
            lines += [f"{file} {line}" for line in rest]
        blocks.append("\n".join(lines))
    return "|".join(blocks).encode()


def plain(dirs):
    """The same by the rules alone."""
    masks, rules, on, words = {}, 0, 0, []
    way = [("d0", iter(dirs["d0"].files["parent"]))]
    visits = 1
    while way:
        name, rest = way[-1]
        parent = next(rest, None)
        if parent is not None:
            visits += 1
            if visits > 4096:
                return "too many visits"
            parent = parent[3:]
            way.append((parent, iter(dirs[parent].files["parent"])))
            continue
        way.pop()
        files = dirs[name].files
        for line in files.get("package.mask", []):
            if line.startswith("-"):
                masks.pop(line[1:], None)
            else:
                masks[line] = masks.get(line, 0) + 1
        for file in ("use.mask", "use.force"):
            for line in files.get(file, []):
                rules, on = rules + 1, on + (not line.startswith("-"))
        for file in ("package.use.mask", "package.use.force"):
            for line in files.get(file, []):
                for word in line.split()[1:]:
                    rules, on = rules + 1, on + (not word.startswith("-"))
        for line in files.get("make.defaults", []):
            for word in line.split('"')[1].split():
                if word == "-*":
                    words = []
                elif word.startswith("-"):
                    words = [other for other in words if other != word[1:]]
                elif word not in words:
                    words.append(word)
    return f"masks {sum(masks.values())} rules {rules} on {on} words {len(words)}"


def forty(draw):
    """600 masks and 5,000 rules in 40 directories, of which each has the next as parent."""
    dirs = {f"d{n}": Dir([f"d{n + 1}"] if n < 39 else []) for n in range(40)}
    names = list(dirs)
    for n in range(600):
        atom = draw.choice(["cat{0}/name{1}", "=cat{0}/name{1}-2*", "<cat{0}/name{1}-3_rc1"]).format(n % 50, n)
        dirs[draw.choice(names)].add("package.mask", atom)
    for n in range(1000):
        flag = draw.choice(["", "", "", "-"]) + f"flag{draw.randrange(300)}"
        dirs[draw.choice(names)].add(draw.choice(["use.mask", "use.force"]), flag)
    for n in range(2000):
        flags = " ".join(draw.choice(["", "", "-"]) + f"flag{draw.randrange(300)}" for _ in range(2))
        dirs[draw.choice(names)].add(draw.choice(["package.use.mask", "package.use.force"]), f"cat{n % 50}/name{n} {flags}")
    for n, name in enumerate(names):
        dirs[name].add("make.defaults", f'IUSE_IMPLICIT="word{n} -word{n + 2} word{n % 7}"')
    return dirs


def taken(draw):
    """1,000 directories, the last of which has 100,000 masks and then as many lines that take one away."""
    dirs = {f"d{n}": Dir([f"d{n + 1}"] if n < 999 else []) for n in range(1000)}
    for n in range(100_000):
        dirs["d0"].add("package.mask", f"cat/name{n}")
    for n in range(100_000):
        dirs["d0"].add("package.mask", f"-cat/name{draw.randrange(100_000)}")
    return dirs


def twins():
    """Twelve directories, each but the last with the next one twice as parent."""
    dirs = {f"d{n}": Dir([f"d{n + 1}"] * 2 if n < 11 else []) for n in range(12)}
    for n in range(12):
        dirs[f"d{n}"].add("use.mask", f"flag{n}")
    return dirs


def chain():
    return {f"d{n}": Dir([f"d{n + 1}"] if n < 99_999 else []) for n in range(100_000)}


def main():
    draw = random.Random(1)
    with tempfile.TemporaryDirectory() as folder:
        program = build(folder, PROGRAM, {}, "gv_base gv_version gv_atom gv_defaults gv_facts gv_profile")
        for what, dirs in (
            ("40 directories, 600 masks, 5,000 rules", forty(draw)),
            ("1,000 directories, 100,000 masks and as many lines that take one away", taken(draw)),
            ("4,095 visits of 12 directories", twins()),
            ("a chain of 100,000 directories", chain()),
        ):
            said = timed(program, written(dirs))[0]
            print(f"{what}: {said}")
            wanted = plain(dirs)
            if not said.startswith(wanted + ":"):
                sys.exit(f"by the rules alone: {wanted}")


if __name__ == "__main__":
    if sys.argv[1:]:
        sys.exit(__doc__)
    main()
