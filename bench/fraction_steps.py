#!/usr/bin/env python3
"""How fast the checked fractions are: nanoseconds a step, for operands of few and of many digits, and
how many times as long Python's own fractions take for the same steps.

Usage: python3 bench/fraction_steps.py [millions of steps, default 1]

It writes a program over the proved crates into a new folder outside the repository, has `rt run` prove,
build and run it, and removes the folder. The first run takes minutes."""

import os
import shutil
import subprocess
import sys
import tempfile
import time
from fractions import Fraction
from math import gcd

PROGRAM = r"""
#![tactic(auto)]
use fraction128::{Frac, gcd_of};
use std::cmp::Ordering;
use std::io;
use std::time::Instant;

// x + y and back, n times.
fn add_sub(x: Frac, y: Frac, n: u32) -> Frac {
    let mut x = x;
    for _ in 0..n {
        let Ok(sum) = Frac::add(x, y) else { return x; };
        let Ok(back) = Frac::sub(sum, y) else { return x; };
        x = back;
    }
    x
}

// x times y + z less y z: a line's value and back, n times.
fn mul_mul(x: Frac, y: Frac, z: Frac, n: u32) -> Frac {
    let mut x = x;
    for _ in 0..n {
        let Ok(product) = Frac::mul(x, y) else { return x; };
        let Ok(back) = Frac::mul(product, z) else { return x; };
        x = back;
    }
    x
}

fn compared(x: Frac, y: Frac, z: Frac, n: u32) -> u32 {
    let mut less: u32 = 0;
    let (mut a, mut b) = (x, y);
    for _ in 0..n {
        if a.cmp(&b) == Ordering::Less {
            less = less.wrapping_add(1);
            a = z;
        } else {
            a = x;
        }
        (a, b) = (b, a);
    }
    less
}

fn divisors(a: u128, b: u128, n: u32) -> u128 {
    let mut found: u128 = 0;
    for k in 0..n {
        found ^= gcd_of(a ^ (k as u128), b);
    }
    found
}

fn number(text: &[u8]) -> Frac {
    match Frac::parse(text) {
        Ok(f) => f,
        Err(_) => Frac::zero(),
    }
}

fn main(rt: HostRuntime) -> io::Result<()> {
    let n: u32 = STEPS;
    let short = (number(b"SHORT_X"), number(b"SHORT_Y"), number(b"SHORT_Z"));
    let long = (number(b"LONG_X"), number(b"LONG_Y"), number(b"LONG_Z"));
    let even = (number(b"EVEN_X"), number(b"EVEN_Y"), number(b"EVEN_Z"));
    for (name, (x, y, z)) in [("whole", even), ("short", short), ("long", long)] {
        let start = Instant::now(&rt)?;
        let found = add_sub(x, y, n);
        let time = start.elapsed(&rt)?;
        println!(rt; "{name} add_sub {} {}", time.as_nanos(), found.numerator())?;
        let start = Instant::now(&rt)?;
        let found = mul_mul(x, y, z, n);
        let time = start.elapsed(&rt)?;
        println!(rt; "{name} mul_mul {} {}", time.as_nanos(), found.numerator())?;
        let start = Instant::now(&rt)?;
        let found = compared(x, y, z, n);
        let time = start.elapsed(&rt)?;
        println!(rt; "{name} cmp {} {}", time.as_nanos(), found)?;
        let start = Instant::now(&rt)?;
        let found = divisors(x.denominator(), y.denominator(), n);
        let time = start.elapsed(&rt)?;
        println!(rt; "{name} gcd {} {}", time.as_nanos(), found)?;
    }
    Ok(())
}
"""

OPERANDS = {
    "EVEN": (Fraction(12000), Fraction(64), Fraction(1, 64)),
    "SHORT": (Fraction(12000, 7), Fraction(355, 113), Fraction(113, 355)),
    "LONG": (
        Fraction(2**61 - 1, 3**38),
        Fraction(5**25, 3**20 * 2**27),
        Fraction(3**20 * 2**27, 5**25),
    ),
}


def add_sub(x, y, z, n):
    for _ in range(n):
        x = (x + y) - y
    return x


def mul_mul(x, y, z, n):
    for _ in range(n):
        x = (x * y) * z
    return x


def compared(x, y, z, n):
    a, b, less = x, y, 0
    for _ in range(n):
        if a < b:
            less += 1
            a = z
        else:
            a = x
        a, b = b, a
    return less


def divisors(x, y, z, n):
    a, b, found = x.denominator, y.denominator, 0
    for k in range(n):
        found ^= gcd(a ^ k, b)
    return found


PYTHON = {"add_sub": (add_sub, 2), "mul_mul": (mul_mul, 2), "cmp": (compared, 1), "gcd": (divisors, 1)}
KINDS = {"whole": "EVEN", "short": "SHORT", "long": "LONG"}


def built(steps):
    """The lines that the proved program prints."""
    top = os.path.dirname(os.path.dirname(os.path.abspath(__file__)))
    folder = tempfile.mkdtemp(prefix="fraction_bench_")
    try:
        for name in ("rational", "fraction128"):
            shutil.copytree(os.path.join(top, "crates", name), os.path.join(folder, "crates", name))
        os.makedirs(os.path.join(folder, "crates", "bench", "src"))
        text = PROGRAM.replace("STEPS", str(steps))
        for name, values in OPERANDS.items():
            for letter, value in zip("XYZ", values):
                text = text.replace(f"{name}_{letter}", str(value))
        with open(os.path.join(folder, "crates", "bench", "src", "main.rt"), "w") as out:
            out.write(text.lstrip())
        with open(os.path.join(folder, "crates.txt"), "w") as out:
            out.write("rational:\nfraction128: rational itoa\nbench: fraction128\n")
        with open(os.path.join(folder, "HANDLES"), "w") as out:
            out.write("Handles allowed: none.\n")
        print("building (the first time takes minutes)", file=sys.stderr)
        run = subprocess.run(["rt", "run"], cwd=os.path.join(folder, "crates", "bench"), capture_output=True, text=True)
        if run.returncode != 0:
            sys.exit(run.stdout + run.stderr)
        return [line.split() for line in run.stdout.splitlines() if line.split()[:1] and line.split()[0] in KINDS]
    finally:
        shutil.rmtree(folder)


def main():
    steps = int(float(sys.argv[1]) * 1_000_000) if len(sys.argv) > 1 else 1_000_000
    print(f"{'operands':<9}{'step':<9}{'ns a step':>10}{'Python takes':>14}")
    for kind, step, nanoseconds, found in built(steps):
        function, calls = PYTHON[step]
        ours = int(nanoseconds) / steps / calls
        few = max(steps // 50, 1)
        operands = OPERANDS[KINDS[kind]]
        start = time.perf_counter()
        function(*operands, few)
        theirs = (time.perf_counter() - start) * 1e9 / few / calls
        print(f"{kind:<9}{step:<9}{ours:>10.1f}{theirs / ours:>13.0f}x")


if __name__ == "__main__":
    main()
