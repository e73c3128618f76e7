#!/usr/bin/env python3
"""How many times as many instructions the program takes as the same in plain Rust, unproved.

    python3 bench/speed.py NETCALC [WORD] [quick]

NETCALC is the program. The other one, bench/twin, is built with cargo into a new folder outside the repository; where there is no cargo only the
program is measured. Both work on the same files, those of bench/shapes.py; with WORD those alone whose name has it (and with
`late` the ones that take long). Instructions are counted by
valgrind (callgrind), so a busy machine changes nothing, and each is run once; where there is no valgrind, processor time stands in their place, in
milliseconds, the least of five runs, and the first line says so. With `quick` behind WORD (which may be empty) they are counted by valgrind's exp-bbv, five
times as fast, some thousandths lower, and without what takes most.

A line a shape, as a row of a table: the program's status, millions of instructions of both, how many times the second the first is (none where the
program refuses), thousands a cell, and the operators that take most of the program's instructions, all that they call with them. Some are within
others, as the number of a convolution's periods is within convolutions, so the shares may come to more than 100 in 100. Then both work out single
operators on two stairs that turn n and n + 1 times up to where both turn: instructions for each piece that is looked at.

Of the file that is read alone more is told where Debian's packages librust-toml-dev, in its version 0.5, and librust-serde-derive-dev are installed: what
plain Rust takes with Rust's own crate `toml` (bench/twin_toml) in place of the reader of bench/twin, which is written for these files. These are no
ratios of a shape.

First the other one answers the cases of tests/ that it covers: those of `analyse`, `simulate` and `check` that have a report, but for runs that
break a service curve, of which it says no more than that. The last lines tell the mean of the ratios, the largest, and how many are above 2. It ends
with 1 where the two answer unlike each other, or plain Rust says of the file that is read alone what it should not, and asserts nothing about time.
"""

import re
import resource
import shutil
import subprocess
import sys
import tempfile
import tomllib
from dataclasses import dataclass, field
from pathlib import Path

import callgrind
from shapes import Shape, all_shapes

FOLDER = Path(__file__).resolve().parent
TESTS = FOLDER.parent / "tests"
COMMANDS = ("analyse", "simulate", "check")
REGISTRY = Path("/usr/share/cargo/registry")  # where Debian's packages lay crates
VERSIONS = {"toml": "0.5.*", "serde_derive": "1.*"}  # those that bench/twin_toml is written for
READ_ALONE = "0.8 MB in a ring, read alone"
IS_LEFT_OUT = 3  # the twin's status where a service is broken
HAS_VALGRIND = shutil.which("valgrind") is not None
IS_QUICK = sys.argv[3:] == ["quick"]
UNIT = "million instructions" if HAS_VALGRIND else "ms"
TIMES = 5

# What takes instructions, by the beginnings of the names of its functions.
LABELS = {
    "convolutions": ("curve_conv::",),
    "numbers of periods": ("curve_conv::number::", "curve_conv::bounds::", "curve_conv::rises::"),
    "deconvolutions": ("curve_deconv::",),
    "delays": ("curve_deviation::horizontals",),
    "backlogs": ("curve_deviation::verticals",),
    "what a hop leaves": ("residuals::fifo",),
    "what a queue leaves": ("residuals::priority", "residuals::deficit"),
    "sums": ("plain_operators::pointwise::sums",),
    "lesser ones": ("plain_operators::pointwise::lattice",),
    "levels": ("plain_operators::pointwise::levels",),
    "shifts": ("plain_operators::pointwise::shifts",),
    "closures": ("subadd_closure::",),
    "gauges": ("upp_limits::call_sizes::", "upp_limits::curve_numbers::", "upp_limits::own_limits::"),
    "who is at a queue": ("cell_numbers::found::", "cell_eval::counted::"),
    "TOML": ("toml::de", "toml_parser::"),
    "the network's tables": ("net_text::reading",),
    "the network's order": ("net_model::net_graph",),
    "rows": ("input_texts::", "csv::", "commands::input_texts"),
    "the run": ("sim_servers::", "sim_loop::", "simulation::"),
    "the law of runs": ("run_check::", "commands::check"),
    "promises": ("run_watch::", "arrival_watch::"),
}


@dataclass(frozen=True)
class Measured:
    """What a run took, in millions of instructions or in milliseconds."""

    took: float
    status: int
    report: bytes
    shares: dict[str, float] = field(default_factory=dict)


def twin(folder: Path) -> str | None:
    """The other program, or none where it cannot be built."""
    if shutil.which("cargo") is None:
        print("no cargo: the program alone", file=sys.stderr)
        return None
    return built("twin", folder, [])


def built(name: str, folder: Path, words: list[str]) -> str:
    """A program of bench/, built in a copy."""
    copy = folder / name
    shutil.copytree(FOLDER / name, copy, ignore=shutil.ignore_patterns("target"))
    subprocess.run(["cargo", "build", "--release", "--offline", "--quiet", *words], cwd=copy, check=True)
    return str(copy / "target" / "release" / name)


def version_of(crate: str) -> str | None:
    """The version of a crate of Debian's, or none where none is installed that bench/twin_toml can be built with."""
    found = [path.name.removeprefix(f"{crate}-") for path in REGISTRY.glob(f"{crate}-{VERSIONS[crate]}")]
    return found[0] if found else None


def measure_crate(program: str, other: str, folder: Path) -> bool:
    """What reading a file alone takes in plain Rust by its own reader, and by Rust's crate; beside the twin's copy, whose modules it has. Whether each
    says what it should: only then its row is printed."""
    versions = [version_of(crate) for crate in VERSIONS]
    if None in versions:
        print("\nno crate toml 0.5: what reading takes with it is left out (Debian 12: librust-toml-dev librust-serde-derive-dev)")
        return True
    debian = ['source.crates-io.replace-with="debian"', f'source.debian.directory="{REGISTRY}"']
    crate = built("twin_toml", folder, [word for line in debian for word in ("--config", line)])
    path = folder / "n"
    text = next(shape.files["n"] for shape in all_shapes() if shape.name == READ_ALONE)
    path.write_text(text)
    network = tomllib.loads(text)
    counts = f"servers {len(network['server'])} flows {len(network['flow'])}"
    print(f"\n| {READ_ALONE}, in plain Rust | {UNIT} | Times as many in the program |\n|---|---|---|")
    ours = measured([program, "analyse", str(path)], folder).took
    unlike = []
    for told, words, status, said in (
        ("by a reader that is written for these files", [other, "analyse"], 8, "twin: cycle"),
        (f"by values of the crate toml {versions[0]}, with the same checks", [crate, "values"], 0, "twin_toml: cycle"),
        (f"by structs over it that serde {versions[1]} derives, without the checks", [crate, "structs"], 0, f"twin_toml: {counts}"),
    ):
        its = measured([*words, str(path)], folder)
        if (its.status, its.report) == (status, f"{said}\n".encode()):
            print(f"| {told} | {its.took:,.1f} | {ours / its.took:.2f} |", flush=True)
        else:
            unlike.append(told)
    for told in unlike:
        print(f"{READ_ALONE}, {told}: plain Rust answers otherwise")
    return not unlike


def text_in(path: Path) -> str:
    return path.read_text() if path.exists() else ""


def answers_cases(other: str) -> bool:
    """Whether the other program answers the cases of tests/ as they want."""
    alike, left_out, unlike = 0, 0, []
    for told in sorted(TESTS.glob("*/*/words")):
        words, status = told.read_text().split(), int(text_in(told.parent / "status") or 0)
        if not words or words[0] not in COMMANDS or "--json" in words or status not in (0, 9):
            continue
        run = subprocess.run([other, *words], cwd=told.parent, capture_output=True, text=True, check=False)
        if run.returncode == IS_LEFT_OUT:
            left_out += 1
        elif (run.returncode, run.stdout) == (status, text_in(told.parent / "stdout")):
            alike += 1
        else:
            unlike.append(told.parent.name)
    print(f"Plain Rust answers {alike} cases of tests/ as they want, and leaves out {left_out}.")
    for name in unlike:
        print(f"{name}: plain Rust answers otherwise")
    return not unlike


def timed(words: list[str]) -> Measured:
    best, run = float("inf"), None
    for _ in range(TIMES):
        before = resource.getrusage(resource.RUSAGE_CHILDREN)
        run = subprocess.run(words, stdout=subprocess.PIPE, stderr=subprocess.DEVNULL, check=False)
        after = resource.getrusage(resource.RUSAGE_CHILDREN)
        best = min(best, after.ru_utime + after.ru_stime - before.ru_utime - before.ru_stime)
    return Measured(best * 1e3, run.returncode, run.stdout)


def counted(words: list[str], folder: Path) -> Measured:
    profile = folder / "callgrind.out"
    tool = ["valgrind", "--tool=callgrind", "--quiet", f"--callgrind-out-file={profile}", f"--log-file={folder / 'log'}"]
    run = subprocess.run(tool + words, stdout=subprocess.PIPE, stderr=subprocess.DEVNULL, check=False)
    total, shares = callgrind.entered(profile, LABELS)
    return Measured(total / 1e6, run.returncode, run.stdout, {label: cost / total for label, cost in shares.items()})


def counted_alone(words: list[str], folder: Path) -> Measured:
    log = folder / "log"
    tool = ["valgrind", "--tool=exp-bbv", "--instr-count-only=yes", f"--bb-out-file={folder / 'bb'}", f"--pc-out-file={folder / 'pc'}", f"--log-file={log}"]
    run = subprocess.run(tool + words, stdout=subprocess.PIPE, stderr=subprocess.DEVNULL, check=False)
    total = re.search(r"Total instructions: (\d+)", log.read_text())
    return Measured(int(total.group(1)) / 1e6 if total else 0, run.returncode, run.stdout)


def measured(words: list[str], folder: Path) -> Measured:
    if not HAS_VALGRIND:
        return timed(words)
    return counted_alone(words, folder) if IS_QUICK else counted(words, folder)


def cells(text: str) -> int:
    """Five kinds a hop, three a hop but the last, four a queue, one more of a priority queue, four a path."""
    network = tomllib.loads(text)
    count = 0
    for server in network.get("server", []):
        queues = server.get("queues", len(server.get("quanta", [0])))
        count += queues * (5 if server.get("discipline") == "priority" else 4)
    return count + sum(8 * len(flow["path"]) + 1 for flow in network.get("flow", []))


def lines(report: bytes) -> list[bytes]:
    """The lines of a report, but for those of the digests of the inputs."""
    return [line for line in report.splitlines() if line.split()[:1] != [b"input"]]


def heaviest(shares: dict[str, float]) -> str:
    most = sorted(shares.items(), key=lambda share: -share[1])[:3]
    return ", ".join(f"{label} {100 * share:.0f}" for label, share in most if share >= 0.005)


def row(shape: Shape, ours: Measured, its: Measured | None) -> float | None:
    """Prints the row of a shape, and tells its ratio."""
    is_answer = ours.status in (0, 8, 9) and its is not None
    ratio = ours.took / its.took if is_answer and its.took else None
    count = cells(shape.analysed()) if shape.analysed() and ours.status == 0 else 0
    each = f"{ours.took * 1e3 / count:.1f}" if count else ""
    told = f"{ratio:.2f}" if ratio is not None else ""
    theirs = f"{its.took:,.1f}" if is_answer else ""
    print(f"| {shape.name} | {ours.status} | {ours.took:,.1f} | {theirs} | {told} | {each} | {heaviest(ours.shares)} |", flush=True)
    return ratio


def measure_shapes(program: str, other: str | None, folder: Path, word: str) -> bool:
    print(f"| Shape | Status | {UNIT} | In plain Rust | Times as many | Thousands a cell | What takes most, in 100 |")
    print("|---|---|---|---|---|---|---|")
    ratios, unlike = [], []
    for shape in all_shapes():
        if word not in shape.name or not word and shape.name.startswith("late"):
            continue
        paths = {key: folder / key for key in shape.files}
        for key, path in paths.items():
            path.write_text(shape.files[key])
        words = [str(paths.get(part, part)) for part in shape.words.split()]
        ours = measured([program, *words], folder)
        its = None if other is None else measured([other, *words], folder)
        ratio = row(shape, ours, its)
        if ratio is not None:
            ratios.append(ratio)
            if not shape.may_differ and (ours.status != its.status or lines(ours.report) != lines(its.report)):
                unlike.append(shape.name)
    if ratios:
        above = sum(ratio > 2 for ratio in ratios)
        print(f"{len(ratios)} shapes: {sum(ratios) / len(ratios):.2f} times in the mean, {max(ratios):.2f} at most, {above} above 2")
    for name in unlike:
        print(f"{name}: the two answer unlike each other")
    return not unlike


# An operator, n, and how often it is worked out.
OPERATORS = [("sum", 1_000, 10), ("sum", 10_000, 1), ("min", 1_000, 10), ("min", 10_000, 1)]
OPERATORS += [("conv", 10, 10), ("conv", 30, 2), ("conv", 100, 1)]


def script(name: str, n: int, times: int) -> str:
    statements = ["let a = stair(1, 1, 0)", f"let b = stair(1, {n}/{n + 1}, 0)"]
    return "\n".join(statements + [f"value {name}(a, b) at 0"] * times) + "\n"


def measure_operators(program: str, other: str | None, folder: Path) -> None:
    print(f"\n| Operator | {UNIT.split()[-1]} a piece | In plain Rust | Times as many |\n|---|---|---|---|")
    path = folder / "s.curve"
    for name, n, times in OPERATORS:
        took = []
        for count in (0, times):
            path.write_text(script(name, n, count))
            ours = measured([program, "curve", str(path)], folder).took
            its = 0.0 if other is None else measured([other, "operator", name, str(n), str(count)], folder).took
            took.append((ours, its))
        ours, its = (1e6 * (end - start) / times / (2 * n + 1) for start, end in zip(*took))
        ratio = f"{ours / its:.2f}" if its > 0 else ""
        print(f"| {name} of stairs, n = {n:,} | {ours:,.0f} | {its:,.0f} | {ratio} |", flush=True)


def main() -> None:
    if len(sys.argv) not in (2, 3) and not IS_QUICK:
        sys.exit(__doc__)
    program = str(Path(sys.argv[1]).resolve())
    word = sys.argv[2] if len(sys.argv) > 2 else ""
    if not HAS_VALGRIND:
        print("no valgrind: milliseconds of processor time in place of instructions")
    with tempfile.TemporaryDirectory() as folder:
        other = twin(Path(folder))
        is_alike = other is None or answers_cases(other)
        is_alike &= measure_shapes(program, other, Path(folder), word)
        if other is not None and word in READ_ALONE:
            is_alike &= measure_crate(program, other, Path(folder))
        if not word:
            measure_operators(program, other, Path(folder))
    sys.exit(0 if is_alike else 1)


if __name__ == "__main__":
    main()
