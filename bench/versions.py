#!/usr/bin/env python3
"""How much memory versions of a table take, beside the number of cells that were set in them.

    python3 bench/versions.py NETCALC

NETCALC is the program. First a table of 1,048,576 cells, each of which is set at first: so many times it is marked and one cell is set, each time
another one, and then it goes back through all versions. A program over the proved tables of `version_table` does it; it is
written into a new folder outside the repository, with what is kept in the out/ folders of the crates below it, `rt run` proves, builds and
runs it, and the folder is removed. That takes some minutes, or much longer where those crates have not been checked before. Then
`netcalc edit` on four servers in a row with eight flows: so many rates of the last server, and as many undos.

A line a run: the versions, the cells that were set in them, the memory that the process took (the most that it held; for edits the least
address space with which it ends as it should, which is found by halves), and how many bytes that is for each cell that was set, over the run
without a version. Where memory is in proportion to the cells that were set, the last column stays about the same. It asserts nothing.
"""

import os
import resource
import shutil
import subprocess
import sys
import tempfile
from pathlib import Path

TOP = Path(__file__).resolve().parent.parent
RUNS = (0, 500, 1000, 2000, 4000)
EDITS = (0, 125, 250, 500)

PROGRAM = """//! Marks a table and sets a cell, as many times as the first word says, and goes back through all versions.
#![tactic(auto)]

ghost use Rattle.std.specs.Prelude.{◌≡◌, ◌<◌, [], IfOk};

use std::alloc::{AllocError, Global};
use std::env;
use std::process::ExitCode;
use std::rc::Rc;
use version_table::Versions;

// A table of so many cells, each of them set.
fn filled(alloc: Global, cells: u32) -> Result<Versions<u32>, AllocError>
    ensures cells { IfOk result (λ t. t.cells ≡ cells) }
    ensures none { IfOk result (λ t. t.kept ≡ []) }
{
    let mut table: Versions<u32> = Versions::new(alloc, cells)?;
    let zero = Rc::new(alloc, 0u32)?;
    for cell in 0..cells {
        table.set(cell, Some(zero.clone()?))?;
    }
    Ok(table)
}

// As many versions more, with a cell set in each, which is another one each time.
fn marked(alloc: Global, table: &mut Versions<u32>, cells: u32, count: u32) -> Result<(), AllocError>
    requires cells { table.old.cells ≡ cells }
    requires some { 0 < cells }
    requires none { table.old.kept ≡ [] }
{
    for number in 0..count {
        table.mark()?;
        let cell = number.wrapping_mul(262_139) % cells;
        table.set(cell, Some(Rc::new(alloc, number)?))?;
    }
    Ok(())
}

// How many of so many versions were given up.
fn back(table: &mut Versions<u32>, count: u32) -> u32 {
    let mut given_up: u32 = 0;
    for _ in 0..count {
        if table.undo().is_some() {
            given_up = given_up.wrapping_add(1);
        }
    }
    given_up
}

fn there_and_back(alloc: Global, cells: u32, count: u32) -> Result<u32, AllocError>
    requires { 0 < cells }
{
    let mut table = filled(alloc, cells)?;
    marked(alloc, &mut table, cells, count)?;
    Ok(back(&mut table, count))
}

fn main(rt: HostRuntime) -> ExitCode {
    let Ok(words) = env::args(&rt) else {
        return ExitCode::from(1);
    };
    let count = match words.len() {
COUNTS
        _ => 0,
    };
    match there_and_back(rt.alloc(), 1_048_576, count) {
        Ok(given_up) => {
            if given_up == count {
                ExitCode::from(0)
            } else {
                ExitCode::from(2)
            }
        }
        Err(_) => ExitCode::from(5),
    }
}
"""

# the invariant of each function's loop
INVARIANTS = {
    "filled": """use Rattle.std.proofs.Common.{◌≡◌, []}
use Rattle.bench.proofs.filled.Given as goal

abbrev pub invariant-loop-cell : goal.invariant-loop-cell
invariant-loop-cell l = record { cells : l.table.cells ≡ l.cells; none : l.table.kept ≡ []; }
""",
    "marked": """use Rattle.std.proofs.Common.{◌≡◌, length}
use Rattle.bench.proofs.marked.Given as goal

abbrev pub invariant-loop-number : goal.invariant-loop-number
invariant-loop-number l = record { cells : l.table.cells ≡ l.cells; kept : length l.table.kept ≡ l.number; }
""",
}

def network(servers: int, flows: int) -> str:
    """Servers in a row, and flows that go through all of them."""
    row = [f"s{number}" for number in range(1, servers + 1)]
    path = ", ".join(f'"{name}"' for name in row)
    return "".join(
        f'[[server]]\nname = "{name}"\nrate = 1000\nservice = {{ kind = "latency", latency = 10 }}\n' for name in row
    ) + "".join(
        f'[[flow]]\nname = "f{number}"\npacket = 12000\narrival = {{ kind = "bucket", burst = 12000, rate = 10 }}\npath = [{path}]\n'
        for number in range(1, flows + 1)
    )


def below(wanted: str) -> dict[str, list[str]]:
    """The lines of crates.txt of a crate and of those that it stands on."""
    rows = (line.partition("#")[0].partition(":") for line in (TOP / "crates.txt").read_text().splitlines())
    lines = {name.strip(): needs.split() for name, colon, needs in rows if colon}
    found, left = {}, [wanted]
    while left:
        name = left.pop()
        if name in lines and name not in found:
            found[name] = lines[name]
            left += lines[name]
    return {name: found[name] for name in lines if name in found}


def built(folder: Path) -> Path:
    """The program over versions of a table. How many it makes is told by the number of its words."""
    crates = below("version_table")
    for name in crates:
        shutil.copytree(TOP / "crates" / name, folder / "crates" / name)
    crate = folder / "crates" / "bench"
    (crate / "src").mkdir(parents=True)
    counts = "\n".join(f"        {place + 1} => {count}," for place, count in enumerate(RUNS) if count)
    (crate / "src" / "main.rt").write_text(PROGRAM.replace("COUNTS", counts))
    for function, invariant in INVARIANTS.items():
        (crate / "proofs" / function).mkdir(parents=True)
        (crate / "proofs" / function / "Invariants.antt").write_text(invariant)
    lines = "".join(f"{name}: {' '.join(needs)}\n" for name, needs in crates.items())
    (folder / "crates.txt").write_text(f"{lines}bench: version_table\n")
    (folder / "HANDLES").write_text("Handles allowed: none.\n")
    print("building (the first time takes minutes)", file=sys.stderr)
    run = subprocess.run(["rt", "run"], cwd=crate, capture_output=True, text=True, check=False)
    if run.returncode != 0:
        sys.exit(run.stdout + run.stderr)
    return crate / "out" / "bench"


def held(words: list[str], cwd: Path) -> tuple[int, str]:
    """The most bytes that the process held, and what it wrote."""
    with tempfile.TemporaryFile("w+") as out:
        child = subprocess.Popen(words, cwd=cwd, stdout=out)
        _, status, usage = os.wait4(child.pid, 0)
        child.returncode = os.waitstatus_to_exitcode(status)
        if child.returncode != 0:
            sys.exit(f"{words} ended with {child.returncode}")
        out.seek(0)
        return usage.ru_maxrss * 1024, out.read()


def needed(words: list[str], cwd: Path) -> tuple[int, str]:
    """The least address space in bytes with which the process ends as it does without a limit, and what it wrote."""

    def run(size: int) -> tuple[int, bytes]:
        def limit() -> None:
            resource.setrlimit(resource.RLIMIT_AS, (size, size))

        child = subprocess.run(words, cwd=cwd, stdout=subprocess.PIPE, stderr=subprocess.DEVNULL, preexec_fn=limit, check=False)
        return child.returncode, child.stdout

    page = 4096
    wanted = run(2**33)
    low, high = 0, 2**33 // page
    while low < high:
        middle = (low + high) // 2
        low, high = (low, middle) if run(middle * page) == wanted else (middle + 1, high)
    return low * page, wanted[1].decode()


def line(versions: int, cells: int, most: int, least: int) -> None:
    each = f"{(most - least) / cells:,.0f}" if cells else ""
    print(f"{versions:>10}{cells:>10}{most / 2**20:>10.1f}{each:>16}")


def main() -> None:
    if len(sys.argv) != 2:
        sys.exit(__doc__)
    program = str(Path(sys.argv[1]).resolve())
    head = f"{'versions':>10}{'cells':>10}{'MiB':>10}{'bytes a cell':>16}"
    with tempfile.TemporaryDirectory(prefix="versions_bench_") as name:
        folder = Path(name)
        print(f"a table of 1,048,576 cells, one cell set in each version\n{head}")
        table = str(built(folder))
        least = 0
        for place, count in enumerate(RUNS):
            most, _ = held([table] + ["x"] * place, folder)
            least = least or most
            line(count, count, most, least)
        print(f"edits of the rate of the last of four servers in a row with eight flows, and as many undos\n{head}")
        (folder / "n.toml").write_text(network(4, 8))
        least = 0
        for count in EDITS:
            rows = [f"rate,s4,{rate}" for rate in range(1001, 1001 + count)] + ["undo"] * count
            (folder / "e.csv").write_text("".join(f"{row}\n" for row in rows))
            most, report = needed([program, "edit", "n.toml", "e.csv"], folder)
            cells = sum(int(said.split()[-1]) for said in report.splitlines() if " ok cells " in said)
            least = least or most
            line(count, cells, most, least)


if __name__ == "__main__":
    main()
