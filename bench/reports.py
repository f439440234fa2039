#!/usr/bin/env python3
"""Measures how reports are put in order and written, on a program made for that alone.

    reports.py [COUNT]

So many reports of all kinds (a million unless given), a tenth of them a second time, in no order. The program puts them in
order and writes them, once as lines and once as JSON objects. Both texts are compared with those of a plain program, and
each JSON line is read back by Python's `json`. It prints how long each part took in microseconds.
"""
import json
import random
import subprocess
import sys
import tempfile

from programs import INPUT, OPTIONS, build

PROGRAM = """//! Orders and writes reports that come in, each a line `KEYWORD|SUBJECT|CLASS|CONTEXT|WITNESS|DETAIL`, where an empty part
//! isn't there. The first line says in which form. Whatever is wrong with the input ends the program.
#![tactic(auto)]

use gv_base::Text;
use gv_facts::{Class, Level, class_text};
use gv_report::{ContextName, Emitter, Keyword, Keywords, Options, Report, Reports, Subject, Takers, ordered, selected};
use gv_version::read_version;
use std::alloc::Global;
use std::io::Read;
use std::process::Abort;
use std::time::Instant;

""" + OPTIONS + """
const CLASSES: [Class; 6] = [
    Class::Required,
    Class::Depend,
    Class::Bdepend,
    Class::Rdepend,
    Class::Pdepend,
    Class::Idepend,
];

""" + INPUT + """
fn some_text<R: Abort>(rt: &R, alloc: Global, bytes: &str) -> Option<Text> {
    if bytes.is_empty() { None } else { Some(text(rt, alloc, bytes)) }
}

fn number<R: Abort>(rt: &R, digits: &str) -> u32 {
    digits.parse().expect(rt, "a number")
}

fn keyword<R: Abort>(rt: &R, name: &str) -> Keyword {
    for keyword in Takers::Judging.keywords() {
        if keyword.text() == name.as_bytes() {
            return *keyword;
        }
    }
    rt.abort()
}

fn class(name: &str) -> Option<Class> {
    for class in CLASSES {
        if class_text(class) == name.as_bytes() {
            return Some(class);
        }
    }
    None
}

fn piece<'a>(line: &'a str, separator: char, at: usize) -> &'a str {
    line.split(separator).nth(at).unwrap_or("")
}

fn subject<R: Abort>(rt: &R, alloc: Global, words: &str) -> Subject {
    match words.split_once(':') {
        Some((path, line)) => Subject::Place {
            path: text(rt, alloc, path),
            line: number(rt, line),
        },
        None => Subject::Package {
            category: text(rt, alloc, piece(words, '/', 0)),
            name: text(rt, alloc, piece(words, '/', 1)),
            version: read_version(alloc, piece(words, '/', 2).as_bytes()).expect(rt, "a version"),
            pf: text(rt, alloc, piece(words, '/', 3)),
        },
    }
}

fn context<R: Abort>(rt: &R, alloc: Global, words: &str) -> Option<ContextName> {
    if words.is_empty() {
        return None;
    }
    Some(ContextName {
        line: number(rt, piece(words, ' ', 0)),
        arch: text(rt, alloc, piece(words, ' ', 1)),
        path: text(rt, alloc, piece(words, ' ', 2)),
        level: if piece(words, ' ', 3) == "stable" { Level::Stable } else { Level::Testing },
    })
}

fn report<R: Abort>(rt: &R, alloc: Global, line: &str) -> Report {
    Report {
        subject: subject(rt, alloc, piece(line, '|', 1)),
        keyword: keyword(rt, piece(line, '|', 0)),
        class: class(piece(line, '|', 2)),
        context: context(rt, alloc, piece(line, '|', 3)),
        witness: some_text(rt, alloc, piece(line, '|', 4)),
        detail: some_text(rt, alloc, piece(line, '|', 5)),
    }
}

fn emitted<R: Abort>(rt: &R, alloc: Global, options: &Options, reports: &Reports) -> Text {
    assert!(rt; reports.are_printable());
    let test = |report: &Report| selected(options, report);
    Emitter::new(options, test).emit(alloc, reports).expect(rt, "memory")
}

fn main(rt: HostRuntime) {
    let alloc = rt.alloc();
    let bytes = bytes_in(&rt).expect(&rt, "the input");
    let input = text_of(&rt, &bytes);
    let (form, lines) = input.split_once('\\n').expect(&rt, "a form");
    let options = options(&rt, alloc, form == "json");
    let mut reports = Reports::new(alloc);
    for line in lines.lines() {
        reports.add(report(&rt, alloc, line)).expect(&rt, "memory");
    }
    let start = Instant::now(&rt).ok().expect(&rt, "a clock");
    let in_order = ordered(alloc, reports).expect(&rt, "memory");
    let sorted = start.elapsed(&rt).ok().expect(&rt, "a clock").as_micros();
    let start = Instant::now(&rt).ok().expect(&rt, "a clock");
    let text = emitted(&rt, alloc, &options, &in_order);
    let written = start.elapsed(&rt).ok().expect(&rt, "a clock").as_micros();
    let text = std::str::from_utf8(text.bytes()).ok().expect(&rt, "a text");
    let _ = println!(&rt; "ordered: {sorted} microseconds, emit: {written} microseconds");
    let _ = print!(&rt; "{text}");
}
"""

KEYWORDS = (
    "ProfileError ProfileNote MetadataError StaleCache OrphanCache MissingCache NonexistentDeps NonsolvableDepsInStable "
    "NonsolvableDepsInDev NonsolvableDepsInExp UnsatisfiableRequiredUse UnstatedIuse VisibleVcsPkg"
).split()
CLASSES = "REQUIRED_USE DEPEND BDEPEND RDEPEND PDEPEND IDEPEND".split()
DETAILS = ["cycle", "bad flag", "x/y[f?]", 'a "quoted" text', "back\\slash", "DEPEND: token 3: depth"]


def made(draw):
    """A report: keyword, subject, class, context, witness, detail."""
    keyword = draw.choice(KEYWORDS)
    number = KEYWORDS.index(keyword) + 1
    if number <= 2:
        subject = (f"profiles/{draw.choice('abc')}{draw.randrange(300)}/use.mask", draw.randrange(1, 200))
    else:
        name = f"{draw.choice('pqr')}{draw.randrange(400)}"
        version = ".".join(str(draw.randrange(1, 12)) for _ in range(draw.randrange(1, 4)))
        subject = (f"cat-{draw.randrange(100)}", name, version, f"{name}-{version}")
    named = draw.choice(CLASSES) if number in (7, 8, 9, 10, 12) else ""
    context = ""
    if number >= 8:
        line = draw.randrange(1, 20)
        context = (line, "amd64", f"profile{line}", draw.choice(["stable", "testing"]))
    witness = " ".join(draw.choice(["", "-"]) + flag for flag in ("a", "b", "c")) if number in (8, 9, 10) else ""
    detail = draw.choice(DETAILS) if number not in (5, 6, 13) else ""
    return keyword, subject, named, context, witness, detail


def input_line(report):
    keyword, subject, named, context, witness, detail = report
    words = "/".join(subject) if len(subject) == 4 else f"{subject[0]}:{subject[1]}"
    return "|".join((keyword, words, named, " ".join(map(str, context)), witness, detail))


def key(report):
    keyword, subject, named, context, witness, detail = report
    number = KEYWORDS.index(keyword)
    if len(subject) == 2:
        return (0, subject, number, detail)
    category, name, version, pf = subject
    order = [int(part) for part in version.split(".")]
    return (1, category, name, order, pf, number, CLASSES.index(named) if named else -1, context[0] if context else -1, detail)


def line(report):
    keyword, subject, named, context, witness, detail = report
    parts = [f"{subject[0]}/{subject[3]}" if len(subject) == 4 else f"{subject[0]}:{subject[1]}", keyword]
    parts += [named] * bool(named) + [" ".join(context[1:])] * bool(context)
    return ": ".join(parts + [f'USE="{witness}"'] * bool(witness) + [detail] * bool(detail))


def members(report):
    keyword, subject, named, context, witness, detail = report
    out = {"keyword": keyword}
    if len(subject) == 4:
        out["package"] = f"{subject[0]}/{subject[3]}"
    else:
        out["path"], out["line"] = subject
    if named:
        out["class"] = named
    if context:
        _, out["arch"], out["profile"], out["level"] = context
    if witness:
        out["use"] = witness
    if detail:
        out["detail"] = detail
    return out


def main(count):
    draw = random.Random(1)
    reports = [made(draw) for _ in range(count)]
    reports += draw.sample(reports, count // 10)
    draw.shuffle(reports)
    wanted = sorted(dict.fromkeys(reports), key=key)
    lines = "\n".join(map(input_line, reports))
    with tempfile.TemporaryDirectory() as folder:
        program = build(folder, PROGRAM, {}, "gv_base gv_version gv_atom gv_facts gv_report")
        for form, text in (("line", line), ("json", lambda report: json.dumps(members(report), sort_keys=True, separators=(",", ":")))):
            done = subprocess.run([program], input=f"{form}\n{lines}\n", capture_output=True, text=True)
            said, _, rest = done.stdout.partition("\n")
            print(f"{form}: {len(reports):,} reports, {len(wanted):,} written: {said}{done.stderr}")
            got = rest.splitlines()
            if got != [text(report) for report in wanted]:
                sys.exit("another text than by the rules alone")
            if form == "json" and [json.loads(part) for part in got] != [members(report) for report in wanted]:
                sys.exit("an object is read back as another one")


if __name__ == "__main__":
    if len(sys.argv) > 2 or not all(word.isdigit() for word in sys.argv[1:]):
        sys.exit(__doc__)
    main(int(sys.argv[1]) if sys.argv[1:] else 1_000_000)
