#!/usr/bin/env python3
"""Measures certificate files, by a program made for that alone.

    certs.py

Files of 100 MB: a million records of different queries, in order and out of it; a million records of one query; a
hundred thousand queries that differ in their last four bytes alone. The program reads the file, finds each record from
its own number on, and writes the records again; it prints how many there were and found, whether the same bytes came,
and how long each part took in microseconds.
"""
import random
import sys
import tempfile

from programs import build, timed

PROGRAM = """//! Times `read_known`, a `find` for each record, and `write_known`, on a certificate file that comes in.
#![tactic(auto)]

use anyhow::{Context, Error};
use gv_cert::{Known, read_known, write_known};
use std::io::Read;
use std::time::Instant;

// How many records are found from their own number on.
fn found(known: &Known) -> u64 {
    let mut found: u64 = 0;
    for number in 0..known.count() {
        if known.find(known.query(number), number) == Some(number) {
            found = found.wrapping_add(1);
        }
    }
    found
}

fn main(rt: HostRuntime) -> Result<(), Error> {
    let alloc = rt.alloc();
    let mut bytes = Vec::new(alloc);
    rt.reader().read_to_end(&mut bytes)?;
    let start = Instant::now(&rt)?;
    let known = read_known(alloc, &bytes).ok().context("memory")?;
    let took = start.elapsed(&rt)?.as_micros();
    println!(rt; "  read_known: {} records: {took}", known.count())?;
    let start = Instant::now(&rt)?;
    let found = found(&known);
    let took = start.elapsed(&rt)?.as_micros();
    println!(rt; "  find: {found} found: {took}")?;
    let start = Instant::now(&rt)?;
    let written = write_known(alloc, &known).ok().context("memory")?;
    let took = start.elapsed(&rt)?.as_micros();
    println!(rt; "  write_known: same {}: {took}", written.bytes() == bytes.as_slice())?;
    Ok(())
}
"""


def run(piece):
    return len(piece).to_bytes(8, "big") + piece


def file(queries, answer):
    return b"gviscert2\n" + b"".join(run(query) + run(answer) for query in queries)


def main():
    draw = random.Random(1)
    numbers = list(range(1_000_000))
    in_order = [n.to_bytes(40, "big") for n in numbers]
    draw.shuffle(numbers)
    cases = (
        ("a million queries, in order", in_order, bytes(44)),
        ("a million queries, out of order", [draw.randbytes(40) for _ in numbers], bytes(44)),
        ("one query a million times", [bytes(40)] * 1_000_000, bytes(44)),
        ("a hundred thousand queries of a common front", [bytes(936) + n.to_bytes(4, "big") for n in numbers[:100_000]], bytes(44)),
    )
    with tempfile.TemporaryDirectory() as folder:
        program = build(folder, PROGRAM, {}, "gv_base gv_cert anyhow")
        for name, queries, answer in cases:
            bytes_in = file(queries, answer)
            said, took = timed(program, bytes_in)
            print(f"{name}, {len(bytes_in)} bytes: {took:.2f} s\n{said}")


if __name__ == "__main__":
    if len(sys.argv) != 1:
        sys.exit(__doc__)
    main()
