#!/usr/bin/env python3
"""How long an analysis of virtual links takes, by the longest gap that they are cut to.

    python3 bench/gaps.py [NETCALC] [--seconds S]

The networks are made here from a seed: a switch in the middle with others around it, or all in a row; two end systems
at each but the one in the middle, lines of 100 Mbit/s, two priorities at the ports of switches. Links have gaps of 2,
4, .. 128 milliseconds and frames of 84 to 512 bytes, and lead from one switch to another: in a star over four ports,
in a row of eight over up to nine. The files are what `netcalc import` makes of their tables: stairs of version 2 with
each of some longest gaps, and buckets on a grid of quarters. A line of the table is one run, with at most S seconds of
a processor (60)."""

import argparse
import os
import pathlib
import random
import resource
import subprocess
import sys
import tempfile

TOP = pathlib.Path(__file__).resolve().parent.parent
NETWORKS = [(60, 3, "star"), (120, 5, "star"), (256, 9, "star"), (40, 8, "row"), (120, 8, "row")]  # links, switches
WAYS = [["--version", "2", "--longest-gap", str(gap)] for gap in (128, 8, 4, 2)] + [["--buckets", "--grid", "4"]]
IMPORT = TOP / "tools/import_icd.py"


def way(start, end, shape):
    """The switches from one to another."""
    if shape == "star":
        return [start, 0, end]
    return list(range(start, end + 1)) if start < end else list(range(start, end - 1, -1))


def tables(links, switches, shape):
    """The tables of links and of ports."""
    draw = random.Random(links)
    rows, ports = ["name,bag,largest_frame,jitter,priority,path"], {}
    for number in range(links):
        start, end = draw.sample(range(shape == "star", switches), 2)
        first, last = (2 * switch + draw.randrange(2) for switch in (start, end))
        passed = way(start, end, shape)
        lines = [f"sw{before}-sw{after}" for before, after in zip(passed, passed[1:])]
        path = [f"es{first}", *lines, f"sw{end}-es{last}"]
        ports |= dict.fromkeys(path)
        gap, frame = draw.choice([2, 4, 8, 16, 32, 64, 128]), draw.choice([84, 164, 256, 512])
        rows.append(f"v{number},{gap},{frame},,{draw.randrange(2)},{' '.join(path)}")
    made = (f"{port},100,,0.1," if port.startswith("es") else f"{port},100,16,0.1,priority 2" for port in ports)
    return "\n".join(rows), "\n".join(["name,rate,latency,link,discipline", *made])


def analysed(program, network, seconds):
    """The status of an analysis, its seconds of a processor, its MiB, and what it prints; the status is `late` where it
    takes longer."""
    hold = lambda: resource.setrlimit(resource.RLIMIT_CPU, (seconds, seconds))
    with tempfile.TemporaryFile("w+") as answer:
        child = subprocess.Popen([program, "analyse", network], stdout=answer, preexec_fn=hold)
        _, status, used = os.wait4(child.pid, 0)
        child.returncode = os.waitstatus_to_exitcode(status)
        answer.seek(0)
        told = "late" if child.returncode < 0 else child.returncode
        return told, used.ru_utime + used.ru_stime, used.ru_maxrss / 1024, answer.read()


def line_of(program, folder, network, how, seconds):
    """A line of the table."""
    for name, text in zip(("links.csv", "ports.csv"), tables(*network)):
        (folder / name).write_text(text + "\n")
    words = [*how, folder / "links.csv", folder / "ports.csv"]
    made = subprocess.run([sys.executable, IMPORT, *words], capture_output=True, check=True)
    (folder / "n.toml").write_bytes(made.stdout)
    status, took, memory, told = analysed(program, folder / "n.toml", seconds)
    without = sum(line.startswith("flow ") and line.endswith(" unbounded") for line in told.splitlines())
    ports = (folder / "ports.csv").read_text().count("\n") - 1
    cells = [*network, ports, " ".join(how), status, without, f"{took:.2f}", f"{memory:.0f}"]
    return f"| {' | '.join(map(str, cells))} |"


def main():
    parser = argparse.ArgumentParser(description=__doc__, formatter_class=argparse.RawDescriptionHelpFormatter)
    parser.add_argument("program", nargs="?", default=TOP / "bin/x86_64-linux/netcalc")
    parser.add_argument("--seconds", type=int, default=60)
    words = parser.parse_args()
    print("| Links | Switches | Shape | Ports | Imported with | Status | Flows without a bound | Seconds | MiB |")
    print("|---|---|---|---|---|---|---|---|---|")
    with tempfile.TemporaryDirectory() as folder:
        for network in NETWORKS:
            for how in WAYS:
                print(line_of(words.program, pathlib.Path(folder), network, how, words.seconds), flush=True)


if __name__ == "__main__":
    main()
