"""What the measurements share: a program made for one of them, over a copy of the crates, and parts of its text."""
import os
import shutil
import subprocess
import sys
import time

TOP = os.path.dirname(os.path.dirname(os.path.abspath(__file__)))

# reads the input, whose parts stand between `@`, and makes texts of it
INPUT = """fn bytes_in(rt: &HostRuntime) -> Option<Vec<u8>> {
    let mut bytes = Vec::new(rt.alloc());
    rt.reader().read_to_end(&mut bytes).ok()?;
    Some(bytes)
}

fn text_of<'a, R: Abort>(rt: &R, bytes: &'a [u8]) -> &'a str {
    std::str::from_utf8(bytes).ok().expect(rt, "a text")
}

fn part<'a, R: Abort>(rt: &R, input: &'a str, number: usize) -> &'a str {
    input.split('@').nth(number).expect(rt, "a part")
}

fn text<R: Abort>(rt: &R, alloc: Global, bytes: &str) -> Text {
    Text::of(alloc, bytes.as_bytes()).expect(rt, "memory")
}
"""

# options that select all reports
OPTIONS = """fn options<R: Abort>(rt: &R, alloc: Global, json: bool) -> Options {
    let mut keywords = Keywords::new(alloc);
    for keyword in Takers::Judging.keywords() {
        keywords.add(*keyword).expect(rt, "memory");
    }
    Options {
        keywords,
        profiles: None,
        json,
        budget: 65536,
    }
}
"""


def build(folder, source, proof, deps, top=TOP):
    """Copies the crates of a checkout and a crate `measure` with this source into a folder, has it proved and built, and
    answers where the program is. `proof` has the texts of proof files by their paths, `deps` the crates that it stands on."""
    shutil.copytree(os.path.join(top, "crates"), os.path.join(folder, "crates"), ignore=shutil.ignore_patterns("out", "must-fail"))
    with open(os.path.join(top, "crates.txt")) as f:
        lines = f.read()
    crate = os.path.join(folder, "crates", "measure")
    with open(os.path.join(folder, "crates.txt"), "w") as f:
        f.write(lines + f"measure: {deps}\n")
    for path, text in {"src/main.rt": source, **proof}.items():
        os.makedirs(os.path.dirname(os.path.join(crate, path)), exist_ok=True)
        with open(os.path.join(crate, path), "w") as f:
            f.write(text)
    done = subprocess.run(["rt", "run"], cwd=crate, stdin=subprocess.DEVNULL, capture_output=True, text=True)
    program = os.path.join(crate, "out/measure")
    if not os.path.exists(program):
        sys.exit(done.stdout + done.stderr)
    return program


def timed(program, given):
    """What a program says to this input, and how many seconds passed."""
    start = time.perf_counter()
    done = subprocess.run([program], input=given, capture_output=True)
    took = time.perf_counter() - start
    return done.stdout.decode().strip() + done.stderr.decode().strip(), took
