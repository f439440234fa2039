#!/usr/bin/env python3
"""Measures the core by which answers are checked, on programs made for that alone.

    core.py check      `check` on a log of 100,000 steps over 100,000 clauses
    core.py encode     `values` and `encode` on 100,000 gates of two operands
    core.py solve      the solver on a query of 42 inputs, on 10,000 small ones, and on a random one of 60 inputs
    core.py large [CHECKOUT ..]   the solver on random queries of 80 to 400 inputs, 20 seeds each, beside the solver of
                       other checkouts and those of Debian's packages, in one run
    core.py beside PROGRAM .. [--seconds N] [--sizes INPUTS,GROUPS ..]
                       the same of programs that were built of `solve`'s source before; with other limits and sizes

It copies the crates and a program that calls them into a folder of its own, has `rt run` prove and build that, runs it
and prints what it says: microseconds, or for `solve` how many queries were refuted, found and spent. The queries
are the same at each run. `large` prints a row for each size and solver: how many of the 20 ended within five seconds
of the processor, their median and greatest time of the processor, median conflicts, and for gvis median steps of the log;
and of the queries that all programs of gvis ended, the seconds and the steps together.
"""
import argparse
import os
import random
import re
import resource
import shutil
import subprocess
import sys
import tempfile
import time

from programs import build, timed

CHECK = """//! Times `check` on a chain of implications: variable 0 is on, and each is on where the one before is.
#![tactic(auto)]

ghost use Rattle.std.specs.Prelude.{◌≡◌, IfOk};

use gv_base::NoMemory;
use gv_logic::{Clause, Clauses, Lit};
use gv_refute::{Hints, Log, Marks, Step, check};
use std::alloc::Global;
use std::io;
use std::time::Instant;

const COUNT: u32 = 100_000;

fn chain(alloc: Global) -> Result<Clauses, NoMemory> {
    let mut clauses = Clauses::new(alloc, COUNT);
    clauses.add(&[Lit(0)])?;
    for k in 1..COUNT {
        clauses.add(&[Lit(2 * k - 1), Lit(2 * k)])?;
    }
    Ok(clauses)
}

// Step k says that variable k is on, by the step before and one clause.
fn steps(alloc: Global) -> Result<Log, NoMemory> {
    let mut log = Log::new(alloc);
    log.add(Step { clause: Clause::of(alloc, &[Lit(0)])?, hints: Hints::of(alloc, &[0])? })?;
    for k in 1..COUNT {
        let clause = Clause::of(alloc, &[Lit(2 * k)])?;
        let hints = Hints::of(alloc, &[COUNT + k - 1, k])?;
        log.add(Step { clause, hints })?;
    }
    Ok(log)
}

fn timed(alloc: Global, rt: &HostRuntime) -> io::Result<()> {
    let (Ok(clauses), Ok(log)) = (chain(alloc), steps(alloc)) else {
        return Ok(());
    };
    let Ok(mut marks) = Marks::new(alloc, clauses.variables()) else {
        return Ok(());
    };
    let start = Instant::now(rt)?;
    let verdict = check(&clauses, &log, &mut marks);
    let took = start.elapsed(rt)?;
    println!(rt; "{verdict:?}: {} microseconds", took.as_micros())?;
    Ok(())
}

fn main(rt: HostRuntime) -> io::Result<()> {
    timed(rt.alloc(), &rt)
}
"""

CHECK_PROOF = """use Rattle.std.proofs.Common.{◌≡◌}
use Rattle.measure.proofs.chain.Given as goal

abbrev pub invariant-loop-k : goal.invariant-loop-k
invariant-loop-k l = l.clauses.variables ≡ 100000
"""

ENCODE = """//! Times `read_gates`, `values` and `encode` on gates that come in.
#![tactic(auto)]

use anyhow::{Context, Error};
use gv_encode::encode;
use gv_logic::{Bits, Gates, read_gates, values};
use std::alloc::Global;
use std::io::Read;
use std::time::Instant;

fn all_on(alloc: Global, gates: &Gates) -> Result<Bits, Error> {
    let mut bits = Bits::new(alloc);
    for _ in 0..gates.inputs() {
        bits.add(true).ok().context("memory")?;
    }
    Ok(bits)
}

fn main(rt: HostRuntime) -> Result<(), Error> {
    let alloc = rt.alloc();
    let mut bytes = Vec::new(alloc);
    rt.reader().read_to_end(&mut bytes)?;
    let start = Instant::now(&rt)?;
    let read = read_gates(alloc, &bytes).ok().context("memory")?;
    let gates = read.context("no gates")?;
    println!(rt; "read_gates: {} microseconds", start.elapsed(&rt)?.as_micros())?;
    let bits = all_on(alloc, &gates)?;
    if bits.items().len() == gates.inputs() as usize {
        let start = Instant::now(&rt)?;
        let _values = values(alloc, &gates, &bits).ok().context("memory")?;
        println!(rt; "values: {} microseconds", start.elapsed(&rt)?.as_micros())?;
    }
    let start = Instant::now(&rt)?;
    let _clauses = encode(alloc, &gates).ok().context("memory")?;
    println!(rt; "encode: {} microseconds", start.elapsed(&rt)?.as_micros())?;
    Ok(())
}
"""

SOLVE = """//! Solves the queries that come in, each its length in four bytes and the gates' bytes, and prints how many were
//! refuted, found and spent, with the steps of all logs, the kept sets of those that were spent, and the inputs that
//! are on where bits were found.
#![tactic(auto)]

ghost use Rattle.std.specs.Prelude.{◌≡◌};

use anyhow::{Context, Error};
use gv_base::{Ledger, Steps};
use gv_encode::encode;
use gv_logic::{Bits, read_gates};
use gv_solver::{Answer, solve};
use std::alloc::Global;
use std::io::Read;
use std::marker::Brand;
use std::sync::ledger::Blank;

fn on(bits: &Bits) -> u64 {
    let mut count: u64 = 0;
    for bit in bits.items() {
        if *bit {
            count = count.wrapping_add(1);
        }
    }
    count
}

// 0 refuted, 1 found, 2 spent; steps; sets; inputs that are on.
fn one<L: Ledger>(alloc: Global, query: &[u8], steps: &mut Steps<L>) -> Result<[u64; 4], Error> {
    let read = read_gates(alloc, query).ok().context("memory")?;
    let gates = read.context("no gates")?;
    let clauses = encode(alloc, &gates).ok().context("memory")?;
    let answer = solve(alloc, &gates, &clauses, 65536, steps).ok().context("memory")?;
    Ok(match &answer {
        Answer::Refuted { log } => [0, log.items().len() as u64, 0, 0],
        Answer::Found { bits, log } => [1, log.items().len() as u64, 0, on(bits)],
        Answer::Spent { log, sets } => [2, log.items().len() as u64, sets.items().len() as u64, 0],
    })
}

fn number(bytes: &[u8], at: usize) -> usize {
    let mut number: usize = 0;
    for k in 0..4 {
        let byte = bytes.get(at.wrapping_add(k)).copied().unwrap_or(0);
        number = number.wrapping_mul(256).wrapping_add(byte as usize);
    }
    number
}

fn part(bytes: &[u8], from: usize, to: usize) -> &[u8] {
    if from <= to && to <= bytes.len() { &bytes[from..to] } else { &[] }
}

fn run<L: Ledger>(rt: &HostRuntime, blank: Blank) -> Result<(), Error>
    requires name { blank.name ≡ L.name }
    requires parts { blank.parts ≡ L.parts }
    requires two { blank.parts ≡ 2 }
{
    let alloc = rt.alloc();
    let mut steps = Steps::<L>::open(blank);
    let mut bytes = Vec::new(alloc);
    rt.reader().read_to_end(&mut bytes)?;
    let mut at: usize = 0;
    let mut kinds = [0u64; 3];
    let mut logged: u64 = 0;
    let mut kept: u64 = 0;
    let mut ons: u64 = 0;
    for _ in 0..u64::MAX {
        if at >= bytes.len() {
            break;
        }
        let from = at.wrapping_add(4);
        let to = from.wrapping_add(number(&bytes, at));
        let [kind, length, sets, on] = one(alloc, part(&bytes, from, to), &mut steps)?;
        for k in 0..3 {
            if kind == k as u64 {
                kinds[k] = kinds[k].wrapping_add(1);
            }
        }
        logged = logged.wrapping_add(length);
        kept = kept.wrapping_add(sets);
        ons = ons.wrapping_add(on);
        at = to;
    }
    let [refuted, found, spent] = kinds;
    println!(rt; "refuted {refuted} found {found} spent {spent} steps {logged} sets {kept} on {ons}")?;
    Ok(())
}

fn main(rt: HostRuntime) -> Result<(), Error> {
    run::<Brand>(&rt, Blank::new(2))
}
"""

SOLVE_PROOF = """use Rattle.measure.proofs.main.Given as goal

abbrev pub ghosts-run : goal.ghosts-run
ghosts-run a = record { name = a.blank.name; parts = a.blank.parts }
"""


def number(n):
    return n.to_bytes(4, "big")


def circuit(inputs, gates, root):
    """The canonical bytes of gates, each an operation (0 And, 1 Or) and its operands."""
    out = number(inputs) + number(len(gates))
    for op, operands in gates:
        out += bytes([op]) + number(len(operands)) + b"".join(number(lit) for lit in operands)
    return out + number(root)


def all_of(inputs, groups):
    """An And of Ors."""
    gates = [(1, group) for group in groups]
    gates.append((0, [2 * (inputs + n) for n in range(len(groups))]))
    return circuit(inputs, gates, 2 * (inputs + len(groups)))


def pairs():
    """Twenty pairs of which one has to be on, and four groups over two more inputs that contradict one another."""
    a, b = 80, 82
    groups = [[4 * n, 4 * n + 2] for n in range(20)]
    return all_of(42, groups + [[a, b], [a, b + 1], [a + 1, b], [a + 1, b + 1]])


def random_groups(draw, inputs, count):
    """So many groups of three different inputs, each as it is or its opposite."""
    return all_of(inputs, [[2 * i + draw.randrange(2) for i in draw.sample(range(inputs), 3)] for _ in range(count)])


def query(gates):
    return number(len(gates)) + gates


def dimacs(gates):
    """The clauses of gates in the form that other solvers read; variables are places, from 1."""
    at = 0

    def take():
        nonlocal at
        at += 4
        return int.from_bytes(gates[at - 4 : at], "big")

    def word(lit):
        return str(-(lit // 2 + 1) if lit % 2 else lit // 2 + 1)

    inputs, count = take(), take()
    clauses = []
    for place in range(inputs, inputs + count):
        op, at = gates[at], at + 1
        operands = [take() for _ in range(take())]
        one = 2 * place + (1 - op)
        clauses += [[one, lit ^ op] for lit in operands]
        clauses.append([one ^ 1] + [lit ^ 1 ^ op for lit in operands])
    clauses.append([take()])
    lines = [f"p cnf {inputs + count} {len(clauses)}"]
    return "\n".join(lines + [" ".join(word(lit) for lit in clause) + " 0" for clause in clauses]) + "\n"


def beside(gates):
    """The same clauses by the solvers of Debian's packages, where they are installed."""
    for solver in ("minisat", "picosat"):
        if shutil.which(solver):
            with tempfile.NamedTemporaryFile("w", suffix=".cnf") as f:
                f.write(dimacs(gates))
                f.flush()
                start = time.perf_counter()
                status = subprocess.run([solver, f.name], capture_output=True).returncode
                said = {10: "satisfiable", 20: "unsatisfiable"}.get(status, f"status {status}")
                print(f"  {solver}: {said}: {time.perf_counter() - start:.3f} s")


# seconds of the processor for one query
LIMIT = 5

# inputs and groups of three: at the threshold of 4.3 groups an input, and below
SIZES = (
    (80, 344), (100, 430), (120, 516), (150, 645),
    (100, 350), (150, 480), (200, 640), (300, 900), (400, 1200),
)


def ended(command, limit, given=None):
    """What a program says, and its time of the processor; None where it doesn't end within so many seconds."""

    def limited():
        resource.setrlimit(resource.RLIMIT_CPU, (limit, limit))

    before = resource.getrusage(resource.RUSAGE_CHILDREN)
    done = subprocess.run(command, input=given, capture_output=True, preexec_fn=limited)
    if done.returncode < 0:
        return None
    after = resource.getrusage(resource.RUSAGE_CHILDREN)
    took = after.ru_utime + after.ru_stime - before.ru_utime - before.ru_stime
    return done.stdout.decode() + done.stderr.decode(), took


def by_gvis(program, gates, limit):
    out = ended([program], limit, query(gates))
    if out is None:
        return None
    word = out[0].split()
    steps, on = int(word[7]), int(word[11])
    return "found" if word[3] == "1" else "refuted" if word[1] == "1" else "spent", out[1], None, steps - on


def by_others(solver, gates, limit):
    with tempfile.NamedTemporaryFile("w", suffix=".cnf") as f:
        f.write(dimacs(gates))
        f.flush()
        out = ended([solver, *(["-v"] if solver == "picosat" else []), f.name], limit)
    if out is None:
        return None
    conflicts = re.search(r"conflicts *: *(\d+)|(\d+) conflicts", out[0])
    said = "refuted" if "UNSATISFIABLE" in out[0] else "found" if "SATISFIABLE" in out[0] else "nothing"
    return said, out[1], int(conflicts.group(1) or conflicts.group(2)) if conflicts else None, None


def median(numbers):
    return sorted(numbers)[len(numbers) // 2] if numbers else "-"


def large(folder, checkouts):
    deps = "gv_base gv_logic gv_encode gv_refute gv_solver anyhow"
    proof = {"proofs/main/Invariants.antt": SOLVE_PROOF}
    programs = [(f"gvis of {os.path.basename(os.path.abspath(top))}", build(os.path.join(folder, str(n)), SOLVE, proof, deps, top)) for n, top in enumerate(checkouts)]
    compare(programs + [("gvis", build(os.path.join(folder, "own"), SOLVE, proof, deps))])


def compare(programs, sizes=SIZES, limit=LIMIT):
    solvers = [(name, lambda gates, program=program: by_gvis(program, gates, limit)) for name, program in programs]
    for solver in ("minisat", "picosat"):
        if shutil.which(solver):
            solvers.append((solver, lambda gates, solver=solver: by_others(solver, gates, limit)))
    print("| Inputs, groups | Solver | Ended | Found | Median, greatest seconds | Conflicts | Steps |")
    print("|---|---|---|---|---|---|---|")
    for inputs, groups in sizes:
        draw = random.Random(inputs * 10_000 + groups)
        queries = [random_groups(draw, inputs, groups) for _ in range(20)]
        said, own = {}, {}
        for name, solve in solvers:
            answers = [solve(gates) for gates in queries]
            if name in dict(programs):
                own[name] = answers
            for k, answer in enumerate(answers):
                if answer and said.setdefault(k, answer[0]) != answer[0]:
                    print(f"query {k} of {inputs} inputs: {name} says {answer[0]} and another {said[k]}")
            there = [a for a in answers if a]
            times = [a[1] for a in there]
            conflicts, steps = ([a[n] for a in there if a[n] is not None] for n in (2, 3))
            took = f"{median(times):.3f}, {max(times):.3f}" if times else "-"
            found = sum(a[0] == "found" for a in there)
            print(f"| {inputs}, {groups} | {name} | {len(there)} | {found} | {took} | {median(conflicts)} | {median(steps)} |", flush=True)
        both = [k for k in range(len(queries)) if all(answers[k] for answers in own.values())]
        for name, answers in own.items():
            seconds, steps = (sum(answers[k][n] for k in both) for n in (1, 3))
            print(f"{inputs}, {groups}: {name}: {len(both)} that all ended: {seconds:.2f} seconds, {steps} steps", flush=True)


def main(what, checkouts):
    draw = random.Random(1)
    with tempfile.TemporaryDirectory() as folder:
        if what == "check":
            proof = {"proofs/chain/Invariants.antt": CHECK_PROOF}
            print(timed(build(folder, CHECK, proof, "gv_base gv_logic gv_refute"), b"")[0])
        elif what == "encode":
            gates = [(draw.randrange(2), [2 * n, 2 * n + 3]) for n in range(100_000)]
            print(timed(build(folder, ENCODE, {}, "gv_base gv_logic gv_encode anyhow"), circuit(2, gates, 2 * 100_001))[0])
        elif what == "large":
            large(folder, checkouts)
        elif what == "beside":
            options = argparse.ArgumentParser()
            options.add_argument("--seconds", type=int, default=LIMIT)
            options.add_argument("--sizes", nargs="+", type=lambda size: tuple(map(int, size.split(","))), default=SIZES)
            options.add_argument("programs", nargs="+")
            given = options.parse_args(checkouts)
            compare([(os.path.basename(program), program) for program in given.programs], given.sizes, given.seconds)
        else:
            deps = "gv_base gv_logic gv_encode gv_refute gv_solver anyhow"
            program = build(folder, SOLVE, {"proofs/main/Invariants.antt": SOLVE_PROOF}, deps)
            small = b"".join(query(random_groups(draw, 6, 5)) for _ in range(10_000))
            hard = random_groups(draw, 60, 258)
            for name, queries, gates in (
                ("42 inputs", query(pairs()), pairs()),
                ("10,000 queries of 6 inputs and 5 groups", small, None),
                ("60 inputs, 258 groups", query(hard), hard),
            ):
                said, took = timed(program, queries)
                print(f"{name}: {said}: {took:.3f} s")
                if gates:
                    beside(gates)


if __name__ == "__main__":
    if sys.argv[1:] not in (["check"], ["encode"], ["solve"]) and sys.argv[1:2] not in (["large"], ["beside"]):
        sys.exit(__doc__)
    main(sys.argv[1], sys.argv[2:])
