#!/usr/bin/env python3
"""How the time of a convolution grows with its pairs of pieces: gates whose cycles have no divisor in common,
of about 1,000, 100,000 and 1,000,000 pairs, from time 0 on and a little later (there the number of periods is
looked for as well). Printed are the seconds, and how many times as long a pair takes as in the row before; that is
to grow no faster than the logarithm of the pairs.

Usage: python3 bench/convolutions.py

It writes a program over the proved crates into a new folder outside the repository, has `rt run` prove,
build and run it, and removes the folder. The first run takes minutes."""

import os
import shutil
import subprocess
import sys
import tempfile
from math import log

PROGRAM = r"""
#![tactic(auto)]
ghost use Rattle.std.specs.Prelude.{◌≡◌, ◌<◌};

use curve_conv::convolve;
use curve_call::call_window;
use fraction128::Frac;
use rational::Extended;
use std::alloc::Global;
use std::io;
use std::marker::Brand;
use std::sync::ledger::{Blank, Ledger};
use std::time::Instant;
use outcomes::Steps;
use upp_curve::affine_segment::{Line, Piece};
use upp_curve::{Curve, Tail};
use upp_limits::{OpFault, OpKind, tally_over};
use upp_normal::{RawCurve, normalise};

fn whole(n: i128) -> Frac {
    match Frac::new(n, 1) {
        Ok(f) => f,
        Err(_) => Frac::zero(),
    }
}

fn piece(x: i128, slope: i128) -> Piece {
    let icept = match i128::checked_mul(x, slope) {
        Some(v) => v,
        None => 0,
    };
    Piece {
        x: whole(x),
        at: Extended::Fin(Frac::zero()),
        line: Some(Line {
            icept: Frac::sub(Frac::zero(), whole(icept)).unwrap_or(Frac::zero()),
            slope: whole(slope),
        }),
    }
}

// 0 up to `open`, and then 10 a unit of time up to `last`, over and over from `rank` on.
fn gate(alloc: Global, rank: i128, open: i128, last: i128, rise: i128) -> Result<Curve, OpFault> {
    let list = [piece(0, 0), piece(open, 10)];
    let Ok(pieces) = Vec::from_slice(alloc, &list) else {
        return Err(OpFault::NoMemory);
    };
    let tail = Tail::Periodic {
        rank: whole(rank),
        period: Frac::sub(whole(last), whole(rank)).unwrap_or(Frac::one()),
        rise: whole(rise),
    };
    let raw = RawCurve { pieces, tail };
    if raw.is_raw() {
        normalise(raw)
    } else {
        Err(OpFault::TooMany)
    }
}

// How many pairs of pieces are looked at, where no more periods are needed.
fn pairs(f: &Curve, g: &Curve) -> u64 {
    match call_window(&OpKind::Convolve, f, g, 0, 0) {
        Some(window) => tally_over(&OpKind::Convolve, f, g, window.end),
        None => 0,
    }
}

fn convolved<L: Ledger>(alloc: Global, blank: Blank, f: &Curve, g: &Curve) -> usize
    requires name { blank.name ≡ L.name }
    requires parts { blank.parts ≡ L.parts }
    requires one { 0 < blank.parts }
{
    let mut steps = Steps::<L>::new(blank);
    match convolve(alloc, f, g, &mut steps) {
        Ok(c) => c.pieces().len(),
        Err(_) => 0,
    }
}

fn counted(alloc: Global, f: &Curve, g: &Curve) -> usize {
    convolved::<Brand>(alloc, Blank::new(1), f, g)
}

fn main(rt: HostRuntime) -> io::Result<()> {
    for (name, (rank, open, last, rise), (first, second, end, gain)) in [
ROWS    ] {
        let slow = gate(rt.alloc(), rank, open, last, rise);
        let fast = gate(rt.alloc(), first, second, end, gain);
        if let (Ok(f), Ok(g)) = (slow, fast) {
            let tally = pairs(&f, &g);
            let start = Instant::now(&rt)?;
            let count = counted(rt.alloc(), &f, &g);
            let time = start.elapsed(&rt)?;
            println!(rt; "{name} {tally} {} {count}", time.as_nanos())?;
        }
    }
    Ok(())
}
"""

# when the first gate is late, and both cycles
CYCLES = [
    ("gates", 0, 7, 10),
    ("gates", 0, 79, 80),
    ("gates", 0, 250, 251),
    ("late", 1, 7, 8),
    ("late", 1, 77, 78),
    ("late", 1, 246, 247),
]

GHOSTS = """use Rattle.bench.proofs.counted.Given as goal

abbrev pub ghosts-convolved : goal.ghosts-convolved
ghosts-convolved a = record { name = a.blank.name; parts = a.blank.parts }
"""


def gate(rank, cycle, closed):
    """The rank, when the gate opens, its end and what it lets through in a cycle."""
    return f"({rank}, {rank + closed}, {rank + cycle}, {10 * (cycle - closed)})"


def row(name, rank, p, q):
    return f'        ("{name}", {gate(rank, p, p // 2)}, {gate(rank, q, q // 4)}),\n'


def below(top, wanted):
    """The lines of crates.txt of a crate and of those that it stands on."""
    lines = {}
    for line in open(os.path.join(top, "crates.txt"), encoding="utf-8"):
        name, _, deps = line.strip().partition(":")
        if name:
            lines[name] = deps.split()
    found, left = [], list(wanted)
    while left:
        name = left.pop()
        if name in lines and name not in found:
            found.append(name)
            left += lines[name]
    return [(name, lines[name]) for name in found]


def measured():
    """The lines that the proved program prints."""
    top = os.path.dirname(os.path.dirname(os.path.abspath(__file__)))
    folder = tempfile.mkdtemp(prefix="convolution_bench_")
    try:
        uses = ["curve_conv", "curve_call", "fraction128", "outcomes", "rational", "upp_curve", "upp_limits", "upp_normal"]
        crates = below(top, uses)
        for name, _ in crates:
            shutil.copytree(os.path.join(top, "crates", name), os.path.join(folder, "crates", name))
        bench = os.path.join(folder, "crates", "bench")
        os.makedirs(os.path.join(bench, "src"))
        os.makedirs(os.path.join(bench, "proofs", "counted"))
        with open(os.path.join(bench, "src", "main.rt"), "w", encoding="utf-8") as out:
            out.write(PROGRAM.lstrip().replace("ROWS", "".join(row(*c) for c in CYCLES)))
        with open(os.path.join(bench, "proofs", "counted", "Invariants.antt"), "w", encoding="utf-8") as out:
            out.write(GHOSTS)
        with open(os.path.join(folder, "crates.txt"), "w", encoding="utf-8") as out:
            for name, deps in crates:
                out.write(f"{name}: {' '.join(deps)}\n")
            out.write(f"bench: {' '.join(uses)}\n")
        with open(os.path.join(folder, "HANDLES"), "w", encoding="utf-8") as out:
            out.write("Handles allowed: none.\n")
        print("building (the first time takes minutes)", file=sys.stderr)
        run = subprocess.run(["rt", "run"], cwd=bench, capture_output=True, text=True)
        rows = [line.split() for line in run.stdout.splitlines()]
        rows = [row for row in rows if len(row) == 4 and row[0] in ("gates", "late")]
        if len(rows) != len(CYCLES) or any(row[3] == "0" for row in rows):
            sys.exit(run.stdout + run.stderr)
        return rows
    finally:
        shutil.rmtree(folder)


def main():
    print(f"{'curves':<8}{'pairs':>10}{'seconds':>10}{'us a pair':>11}{'a pair takes':>14}{'logarithm':>11}")
    before = None
    for name, tally, nanoseconds, _ in measured():
        pairs, seconds = int(tally), int(nanoseconds) / 1e9
        each = seconds / pairs
        grown = steps = ""
        if before and before[0] == name:
            grown = f"{each / before[2]:.2f}x"
            steps = f"{log(pairs) / log(before[1]):.2f}x"
        print(f"{name:<8}{pairs:>10}{seconds:>10.3f}{each * 1e6:>11.2f}{grown:>14}{steps:>11}")
        before = (name, pairs, each)


if __name__ == "__main__":
    main()
