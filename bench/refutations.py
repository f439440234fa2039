#!/usr/bin/env python3
"""Has other programs judge the refutations of gvis's solver.

    refutations.py [FOLDER [PROGRAM]]

Solves the twenty pairs and random queries of 40 to 100 inputs, and writes the clauses of each that is refuted as
DIMACS and its log as DRAT and as LRAT (into FOLDER, else into one that is removed again). PROGRAM, if it is named, was
built of the source below before. The LRAT is judged by the
checker that is proved in ACL2 (Debian's packages acl2 and acl2-books), the DRAT by `drat-trim`, each where it is on
PATH. Besides, each step is judged here by unit propagation over all clauses, without the log's hints, and the hints one
by one as LRAT wants them; and `minisat` says whether the clauses are unsatisfiable. ACL2's checker is also given a log
without its first step, which it has to refuse.
"""
import os
import random
import shutil
import subprocess
import sys
import tempfile

import core
from programs import build

SOURCE = """//! Solves the query that comes in and writes the steps of its refutation, each number in four bytes.
#![tactic(auto)]

ghost use Rattle.std.specs.Prelude.{◌≡◌};

use anyhow::{Context, Error};
use gv_base::{Ledger, Steps};
use gv_encode::encode;
use gv_logic::read_gates;
use gv_refute::{Log, Step};
use gv_solver::{Answer, solve};
use std::io::{Read, Write};
use std::marker::Brand;
use std::sync::ledger::Blank;

fn put(bytes: &mut Vec<u8>, number: u32) {
    let _room = bytes.extend_from_slice(&number.to_be_bytes());
}

// The number of literals and the literals, the number of hints and the hints.
fn put_step(bytes: &mut Vec<u8>, step: &Step) {
    put(bytes, step.clause.items().len() as u32);
    for lit in step.clause.items() {
        put(bytes, lit.0);
    }
    put(bytes, step.hints.items().len() as u32);
    for hint in step.hints.items() {
        put(bytes, *hint);
    }
}

fn put_log(bytes: &mut Vec<u8>, log: &Log) {
    for step in log.items() {
        put_step(bytes, step);
    }
}

fn run<L: Ledger>(rt: &HostRuntime, blank: Blank) -> Result<(), Error>
    requires name { blank.name ≡ L.name }
    requires parts { blank.parts ≡ L.parts }
    requires two { blank.parts ≡ 2 }
{
    let alloc = rt.alloc();
    let mut steps = Steps::<L>::open(blank);
    let mut bytes = Vec::new(alloc);
    rt.reader().read_to_end(&mut bytes)?;
    let read = read_gates(alloc, &bytes).ok().context("memory")?;
    let gates = read.context("no gates")?;
    let clauses = encode(alloc, &gates).ok().context("memory")?;
    let answer = solve(alloc, &gates, &clauses, 65536, &mut steps).ok().context("memory")?;
    let mut told = Vec::new(alloc);
    match &answer {
        Answer::Refuted { log } => put_log(&mut told, log),
        _ => {}
    }
    rt.stdout().write_all(&told)?;
    Ok(())
}

fn main(rt: HostRuntime) -> Result<(), Error> {
    run::<Brand>(&rt, Blank::new(2))
}
"""


def signed(lit):
    return -(lit // 2 + 1) if lit % 2 else lit // 2 + 1


def steps_in(told):
    numbers = [int.from_bytes(told[at : at + 4], "big") for at in range(0, len(told), 4)]
    steps, at = [], 0
    while at < len(numbers):
        hints = at + 1 + numbers[at]
        end = hints + 1 + numbers[hints]
        steps.append(([signed(lit) for lit in numbers[at + 1 : hints]], numbers[hints + 1 : end]))
        at = end
    return steps


def clauses_of(dimacs):
    return [[int(word) for word in line.split()[:-1]] for line in dimacs.splitlines()[1:]]


def by_propagation(clauses, clause):
    """Whether unit propagation over the clauses refutes that all literals of the clause are false."""
    where = {}
    for n, c in enumerate(clauses):
        for lit in c:
            where.setdefault(-lit, []).append(n)
    true = {-lit for lit in clause}
    queue = list(true)
    looks = list(range(len(clauses)))
    while True:
        for n in looks:
            left = {lit for lit in clauses[n] if -lit not in true}
            if not left:
                return True
            if len(left) == 1 and not left & true:
                lit = left.pop()
                true.add(lit)
                queue.append(lit)
        if not queue:
            return False
        looks = where.get(queue.pop(), [])


def by_hints(clauses, clause, hints):
    """The same by the clauses that the hints name, each of which has one literal left, and the last none."""
    true = {-lit for lit in clause}
    for n, hint in enumerate(hints):
        left = {lit for lit in clauses[hint] if -lit not in true}
        if n + 1 == len(hints):
            return not left
        if len(left) != 1 or left & true:
            return False
        true |= left
    return False


def by_acl2(cnf, lrat):
    """Whether the checker that is proved in ACL2 accepts the steps."""
    book = '(include-book "projects/sat/lrat/stobj-based/run" :dir :system)'
    words = f'{book}\n(lrat::lrat-check "{os.path.abspath(cnf)}" "{os.path.abspath(lrat)}")\n'
    return "s VERIFIED" in subprocess.run(["acl2"], input=words, capture_output=True, text=True).stdout


def by_drat_trim(cnf, drat):
    return "s VERIFIED" in subprocess.run(["drat-trim", cnf, drat], capture_output=True, text=True).stdout


def write(base, dimacs, steps):
    count = dimacs.count("\n") - 1
    with open(base + ".cnf", "w") as cnf, open(base + ".drat", "w") as drat, open(base + ".lrat", "w") as lrat:
        cnf.write(dimacs)
        for n, (clause, hints) in steps:
            text = " ".join(str(lit) for lit in [*clause, 0])
            drat.write(text + "\n")
            lrat.write(f"{count + n + 1} {text} {' '.join(str(hint + 1) for hint in hints)} 0\n")


def by_others(base):
    """What the programs say that are there: their names, each with its answer."""
    said = {}
    if shutil.which("acl2"):
        said["acl2"] = by_acl2(base + ".cnf", base + ".lrat")
    if shutil.which("drat-trim"):
        said["drat-trim"] = by_drat_trim(base + ".cnf", base + ".drat")
    return said


def judge(folder, name, dimacs, steps):
    clauses = clauses_of(dimacs)
    base = os.path.join(folder, name)
    write(base, dimacs, list(enumerate(steps)))
    told = []
    good = any(not clause for clause, _ in steps)
    for clause, hints in steps:
        good = good and by_propagation(clauses, clause) and by_hints(clauses, clause, hints)
        clauses.append(clause)
    told.append("every step follows" if good else "A STEP DOESN'T FOLLOW")
    for program, accepted in by_others(base).items():
        told.append(f"{program}: {'verified' if accepted else 'NOT VERIFIED'}")
    if shutil.which("minisat"):
        status = subprocess.run(["minisat", base + ".cnf"], capture_output=True).returncode
        told.append("minisat: " + ("unsatisfiable" if status == 20 else "SATISFIABLE"))
    print(f"{name}: {len(steps)} steps: {', '.join(told)}", flush=True)
    return not any(text.isupper() or "NOT" in text or "A STEP" in text or "SATISFIABLE" in text for text in told)


def main(folder=None, program=None):
    deps = "gv_base gv_logic gv_encode gv_refute gv_solver anyhow"
    good = True
    with tempfile.TemporaryDirectory() as made:
        program = program or build(made, SOURCE, {"proofs/main/Invariants.antt": core.SOLVE_PROOF}, deps)
        queries = [("pairs", core.pairs())]
        for inputs, groups in ((40, 172), (60, 258), (80, 344), (100, 430)):
            draw = random.Random(inputs)
            queries += [(f"random-{inputs}-{n}", core.random_groups(draw, inputs, groups)) for n in range(8)]
        refuted = 0
        cut = os.path.join(made, "cut")
        for name, gates in queries:
            steps = steps_in(subprocess.run([program], input=gates, capture_output=True).stdout)
            if steps and not refuted and shutil.which("acl2"):
                write(cut, core.dimacs(gates), list(enumerate(steps))[1:])
                accepted = by_acl2(cut + ".cnf", cut + ".lrat")
                print(f"acl2 {'ACCEPTS' if accepted else 'refuses'} the log of {name} without its first step")
                good = good and not accepted
            if steps:
                refuted += 1
                good = judge(folder or made, name, core.dimacs(gates), steps) and good
    print(f"{refuted} refuted, {'all accepted' if good else 'NOT ALL ACCEPTED'}")
    return 0 if good else 1


if __name__ == "__main__":
    if len(sys.argv) > 3 or sys.argv[1:2] == ["--help"]:
        sys.exit(__doc__)
    sys.exit(main(*sys.argv[1:]))
