"""Writes traces, and times the measuring of their least arrival curves.

    python3 bench/measure.py NETCALC

NETCALC is the program. A flow has 256, 512 or 1,024 packets, the most that are measured, of one of three kinds: a packet
a period, whose windows have few lengths; packets of any sizes at any times, drawn from a fixed seed; and packets of
which each pair makes a step of its own, the most steps that there can be. A line a trace: its kind, its packets, the
steps of its curve, the status, the seconds of the best of three runs, and how many windows a second. Nothing is
asserted about time. Where the program has no command `measure`, one line says so.
"""

import random
import subprocess
import sys
import tempfile
import time
from pathlib import Path

NETWORK = """[[server]]
name = "s1"
rate = 100

[[flow]]
name = "f1"
packet = 16777216
arrival = { kind = "bucket", burst = 16777216, rate = 10 }
path = ["s1"]
"""
RATE = "10"
USAGE = 2
RUNS = 3


def periodic(packets: int) -> list[tuple[int, int]]:
    return [(1000 * packet, 12000) for packet in range(packets)]


def drawn(packets: int) -> list[tuple[int, int]]:
    draw = random.Random(7)
    times = sorted(draw.randrange(1_000_000) for _ in range(packets))
    return [(at, draw.randrange(1, 12_001)) for at in times]


def pairwise(packets: int) -> list[tuple[int, int]]:
    return [(10_000_000 * packet + packet * packet, 1_000_000 + packet) for packet in range(packets)]


KINDS = {"periodic": periodic, "drawn": drawn, "pairwise": pairwise}


def timed(command: list[str]) -> tuple[subprocess.CompletedProcess, float]:
    """The last of some runs, and the seconds of the best."""
    best = float("inf")
    for _ in range(RUNS):
        began = time.monotonic()
        run = subprocess.run(command, capture_output=True, text=True)
        best = min(best, time.monotonic() - began)
    return run, best


def main() -> None:
    program = sys.argv[1]
    with tempfile.TemporaryDirectory() as folder:
        net = Path(folder) / "n.toml"
        trace = Path(folder) / "t.csv"
        net.write_text(NETWORK)
        for kind, make in KINDS.items():
            for packets in (256, 512, 1024):
                trace.write_text("".join(f"packet,{at},f1,{bits}\n" for at, bits in make(packets)))
                run, took = timed([program, "measure", str(net), str(trace), "f1", RATE])
                if run.returncode == USAGE:
                    print("the program has no command measure")
                    return
                steps = sum(line.startswith("step ") for line in run.stdout.splitlines())
                windows = packets * (packets + 1) // 2
                print(
                    f"{kind}, {packets} packets, {steps} steps: status {run.returncode}, {took:.3f} s, "
                    f"{windows / took:.0f} windows a second"
                )


if __name__ == "__main__":
    main()
