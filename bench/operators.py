#!/usr/bin/env python3
"""How many pieces of two curves their sum and their minimum go through in a second, with 1,000, 10,000 and 100,000
pieces each; microseconds a piece, how many times as long that is as in the row before (it is to stay about 1), and
how many times as long Python's own fractions take for the same pieces.

Usage: python3 bench/operators.py [thousands of pieces to go through at each size, default 100]

The two curves turn at 0, 1, 2, .. and at 1/2, 3/2, 5/2, .., between the slopes 1 and 2, and cross once in each unit
of time. The script writes a program over the proved crates into a new folder outside the repository, has `rt run`
prove, build and run it, and removes the folder. The first run takes minutes, or longer where the crates have not
been checked before."""

import os
import shutil
import subprocess
import sys
import tempfile
import time
from fractions import Fraction

BENCH = {
    "bench_curves": "rational fraction128 upp_curve upp_limits upp_normal",
    "bench": "fraction128 upp_curve upp_limits outcomes plain_operators bench_curves",
}

LIBRARY = r"""
//! Two curves of many pieces.
#![tactic(auto)]

ghost use Rattle.upp_curve.specs.affine_segment.Pieces.{Each};
ghost use Rattle.upp_curve.specs.Shapes.{IsFinitePiece};

use fraction128::Frac;
use rational::Extended;
use std::alloc::{AllocError, Global};
use upp_curve::affine_segment::{Line, Piece};
use upp_curve::{Curve, Tail};
use upp_limits::OpFault;
use upp_normal::{RawCurve, normalise};

fn ratio(n: i128, d: i128) -> Frac {
    match Frac::new(n, d) {
        Ok(f) => f,
        Err(_) => Frac::zero(),
    }
}

fn piece(x: Frac, at: Frac, icept: Frac, slope: i128) -> Piece
    ensures { IsFinitePiece result }
{
    Piece {
        x,
        at: Extended::Fin(at),
        line: Some(Line {
            icept,
            slope: ratio(slope, 1),
        }),
    }
}

// From k on: the slope is 1 where k is even, and 2 where it is odd.
fn whole_piece(k: u32) -> Piece
    ensures { IsFinitePiece result }
{
    let k = i128::from(k);
    let j = k / 2;
    if k % 2 == 0 {
        piece(ratio(k, 1), ratio(3 * j, 1), ratio(j, 1), 1)
    } else {
        piece(ratio(k, 1), ratio(3 * j + 1, 1), ratio(-j - 1, 1), 2)
    }
}

// The same, 1/2 earlier and 3/4 lower; the first piece starts at 0.
fn half_piece(k: u32) -> Piece
    ensures { IsFinitePiece result }
{
    let k = i128::from(k);
    let j = k / 2;
    if k == 0 {
        piece(Frac::zero(), ratio(-1, 4), ratio(-1, 4), 1)
    } else if k % 2 == 0 {
        piece(ratio(2 * k - 1, 2), ratio(12 * j - 3, 4), ratio(4 * j - 1, 4), 1)
    } else {
        piece(ratio(2 * k - 1, 2), ratio(12 * j + 1, 4), ratio(-4 * j - 3, 4), 2)
    }
}

fn piece_of(halves: bool, k: u32) -> Piece
    ensures { IsFinitePiece result }
{
    if halves { half_piece(k) } else { whole_piece(k) }
}

// The first piece, and n - 1 more.
fn pieces_after(alloc: Global, first: &[Piece], halves: bool, n: u32) -> Result<Vec<Piece>, AllocError>
    requires { Each IsFinitePiece first.now }
{
    let mut pieces = Vec::from_slice(alloc, first)?;
    for k in 1..n {
        pieces.push(piece_of(halves, k))?;
    }
    Ok(pieces)
}

/// The curve of n pieces that turns at each whole number, or half a unit earlier.
pub fn turning(alloc: Global, halves: bool, n: u32) -> Result<Curve, OpFault> {
    let pieces = pieces_after(alloc, &[piece_of(halves, 0)], halves, n)?;
    let rank = match pieces.last() {
        Some(p) => p.x,
        None => Frac::zero(),
    };
    let raw = RawCurve {
        pieces,
        tail: Tail::Affine { rank },
    };
    if raw.is_raw() {
        normalise(raw)
    } else {
        Err(OpFault::TooMany)
    }
}
"""

PROGRAM = r"""
#![tactic(auto)]

ghost use Rattle.std.specs.Prelude.{◌≡◌, ◌<◌};

use bench_curves::turning;
use plain_operators::pointwise::{min, sum};
use std::alloc::Global;
use std::io;
use std::marker::Brand;
use std::sync::ledger::{Blank, Ledger};
use std::time::Instant;
use outcomes::Steps;
use upp_curve::Curve;
use upp_limits::OpFault;

// How many pieces the sum has, or the minimum.
fn made<L: Ledger>(alloc: Global, blank: Blank, least: bool, f: &Curve, g: &Curve) -> Result<u64, OpFault>
    requires name { blank.name ≡ L.name }
    requires parts { blank.parts ≡ L.parts }
    requires one { 0 < blank.parts }
{
    let mut steps = Steps::<L>::new(blank);
    let c = if least {
        min(alloc, f, g, &mut steps)?
    } else {
        sum(alloc, f, g, &mut steps)?
    };
    Ok(c.piece_count())
}

// The same, so many times; 0 where a call is refused.
fn repeated(alloc: Global, least: bool, f: &Curve, g: &Curve, times: u32) -> u64 {
    let mut last: u64 = 0;
    for _ in 0..times {
        match made::<Brand>(alloc, Blank::new(1), least, f, g) {
            Ok(n) => last = n,
            Err(_) => return 0,
        }
    }
    last
}

fn main(rt: HostRuntime) -> io::Result<()> {
    let alloc = rt.alloc();
    for (n, times) in [(1_000, TIMES_1000), (10_000, TIMES_10000), (100_000, TIMES_100000)] {
        let Ok(f) = turning(alloc, false, n) else {
            return Ok(());
        };
        let Ok(g) = turning(alloc, true, n) else {
            return Ok(());
        };
        let start = Instant::now(&rt)?;
        let found = repeated(alloc, false, &f, &g, times);
        let time = start.elapsed(&rt)?;
        println!(rt; "sum {n} {} {found}", time.as_nanos())?;
        let start = Instant::now(&rt)?;
        let found = repeated(alloc, true, &f, &g, times);
        let time = start.elapsed(&rt)?;
        println!(rt; "min {n} {} {found}", time.as_nanos())?;
    }
    Ok(())
}
"""

INVARIANTS = """
use Rattle.bench.proofs.repeated.Given as goal

abbrev pub ghosts-made : goal.ghosts-made
ghosts-made a = record { name = a.blank.name; parts = a.blank.parts }
"""

SIZES = (1_000, 10_000, 100_000)


def curve(n, halves):
    """The pieces as (start, value there, intercept, slope)."""
    pieces = []
    for k in range(n):
        j = k // 2
        x, icept, slope = Fraction(k), Fraction(j if k % 2 == 0 else -j - 1), 1 + k % 2
        if halves:
            icept += Fraction(slope, 2) - Fraction(3, 4)
            x = max(x - Fraction(1, 2), Fraction(0))
        pieces.append((x, icept + slope * x, icept, slope))
    return pieces


def stretches(f, g):
    """The two curves' pieces side by side, and where each stretch starts and ends."""
    i = j = 0
    x = Fraction(0)
    while True:
        ends = [c[k + 1][0] for c, k in ((f, i), (g, j)) if k + 1 < len(c)]
        end = min(ends) if ends else None
        yield x, end, f[i], g[j]
        if end is None:
            return
        i += i + 1 < len(f) and f[i + 1][0] == end
        j += j + 1 < len(g) and g[j + 1][0] == end
        x = end


def added(pieces, x, icept, slope):
    """Append a piece, unless the line goes on."""
    if not pieces or pieces[-1][2:] != (icept, slope):
        pieces.append((x, icept + slope * x, icept, slope))


def summed(f, g):
    pieces = []
    for x, _, p, q in stretches(f, g):
        added(pieces, x, p[2] + q[2], p[3] + q[3])
    return pieces


def least(f, g):
    pieces = []
    for x, end, p, q in stretches(f, g):
        low, high = ((p, q), (q, p))[(q[2] + q[3] * x, q[3]) < (p[2] + p[3] * x, p[3])]
        added(pieces, x, *low[2:])
        if low[3] > high[3]:
            cross = (high[2] - low[2]) / Fraction(low[3] - high[3])
            if x < cross and (end is None or cross < end):
                added(pieces, cross, *high[2:])
    return pieces


PYTHON = {"sum": summed, "min": least}


def below(top, wanted):
    """The repository's crates by name, with their dependencies: the wanted ones and all below them."""
    lines = {}
    with open(os.path.join(top, "crates.txt"), encoding="utf-8") as file:
        for line in file:
            name, colon, deps = line.partition("#")[0].partition(":")
            if colon:
                lines[name.split()[0]] = deps.split()
    found, left = {}, list(wanted)
    while left:
        name = left.pop()
        if name in lines and name not in found:
            found[name] = lines[name]
            left += lines[name]
    return found


def built(thousands):
    """The lines that the proved program prints."""
    top = os.path.dirname(os.path.dirname(os.path.abspath(__file__)))
    folder = tempfile.mkdtemp(prefix="operators_bench_")
    try:
        crates = below(top, " ".join(BENCH.values()).split())
        for name in crates:
            shutil.copytree(os.path.join(top, "crates", name), os.path.join(folder, "crates", name))
        program = PROGRAM
        for n in reversed(SIZES):
            program = program.replace(f"TIMES_{n}", str(max(thousands * 1_000 // n, 1)))
        written = {
            "crates/bench_curves/src/lib.rt": LIBRARY,
            "crates/bench/src/main.rt": program,
            "crates/bench/proofs/repeated/Invariants.antt": INVARIANTS,
            "crates.txt": "".join(f"{name}: {' '.join(needs)}\n" for name, needs in crates.items())
            + "".join(f"{name}: {needs}\n" for name, needs in BENCH.items()),
            "HANDLES": "Handles allowed: none.\n",
        }
        for path, text in written.items():
            whole = os.path.join(folder, path)
            os.makedirs(os.path.dirname(whole), exist_ok=True)
            with open(whole, "w", encoding="utf-8") as out:
                out.write(text.lstrip())
        print("building (the first time takes minutes)", file=sys.stderr)
        run = subprocess.run(["rt", "run"], cwd=os.path.join(folder, "crates", "bench"), capture_output=True, text=True)
        if run.returncode != 0:
            sys.exit(run.stdout + run.stderr)
        rows = [line.split() for line in run.stdout.splitlines() if line.split()[:1] and line.split()[0] in PYTHON]
        if len(rows) != len(PYTHON) * len(SIZES):
            sys.exit(run.stdout + run.stderr)
        return rows
    finally:
        shutil.rmtree(folder)


def main():
    thousands = int(sys.argv[1]) if len(sys.argv) > 1 else 100
    last = {}
    print(
        f"{'operator':<10}{'pieces':>8}{'of answer':>11}{'pieces a s':>12}{'us a piece':>12}{'a piece takes':>15}"
        f"{'Python takes':>14}"
    )
    for name, pieces, nanoseconds, found in built(thousands):
        n = int(pieces)
        ours = int(nanoseconds) / max(thousands * 1_000 // n, 1)
        each = ours / (2 * n)
        f, g = curve(n, False), curve(n, True)
        start = time.perf_counter()
        wanted = PYTHON[name](f, g)
        theirs = (time.perf_counter() - start) * 1e9
        if len(wanted) != int(found):
            sys.exit(f"{name} of {n} pieces: {found} pieces, and Python's has {len(wanted)}")
        growth = f"{each / last[name]:.2f}x" if name in last else ""
        last[name] = each
        print(
            f"{name:<10}{n:>8}{found:>11}{1e9 / each:>12.0f}{each / 1e3:>12.2f}{growth:>15}{theirs / ours:>13.1f}x"
        )


if __name__ == "__main__":
    main()
