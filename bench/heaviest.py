#!/usr/bin/env python3
"""Times the heaviest accepted files of each command that are known, and tells how much memory they take.

    python3 bench/heaviest.py NETCALC [SECONDS] [WORD]

NETCALC is the program. Each case is made here, runs with a limit of SECONDS of processor time (300) and of 4 GiB of memory, and is within all limits
of files: what is heavy is the number of cells, of pieces, of packets, of edits or of statements. With WORD only the cases run whose name has it.

A line a case, as a row of a table: the command, what the files hold, their bytes, the status (`late` where the time limit ended it; 5 where 4 GiB were
not enough), the seconds of processor time, and the most memory in MiB. The last line says how many cases there were, and which took over 512 MiB.
Nothing is asserted.
"""

import sys
import tempfile
from pathlib import Path

from hostile import bucket, flow, gate, run_files, server, stair

LIMIT = 512  # MiB


def in_a_row(ports: int, flows: list[tuple[str, int]], rate: int = 65536) -> str:
    """Ports in a row, all of which each flow passes; of a flow the arrival curve and the packet."""
    path = [f"s{port}" for port in range(ports)]
    return "".join(server(name, str(rate)) for name in path) + "".join(
        flow(f"f{number}", arrival, path, packet) for number, (arrival, packet) in enumerate(flows)
    )


def constants(flows: int, ports: int) -> str:
    """The most cells: flows that send one packet each."""
    return in_a_row(ports, [(bucket(1, 0), 1)] * flows)


def stairs(flows: int, period: int) -> str:
    """The most pieces: flows at one port, of two periods in turn that have no common divisor."""
    return in_a_row(1, [(stair(period + number % 2), 1) for number in range(flows)])


def rates(count: int) -> str:
    """Edits of which each makes all cells anew."""
    return "".join(f"rate,s0,{65536 + 65536 * (number % 2 == 0)}\n" for number in range(count))


def packets(count: int, bits: int, step) -> str:
    return "".join(f"packet,{step(number)},f0,{bits}\n" for number in range(count))


def recorded(count: int, bits: int, period: int) -> str:
    """Packets that are worked off as they come, at a rate of 100: three rows each."""
    rows = []
    for number in range(count):
        enter, leave = number * period, number * period + bits // 100
        rows.append(f"enter,{enter},f0,{bits}\nwork,s0,{number},{enter},{leave},{bits}\nleave,{leave},s0,{number}\n")
    return "".join(rows) + f"end,{count * period}\n"


def one_recorded(turns: int) -> str:
    """One packet that a gate of cycle 10 works off, a bit in each slot."""
    works = "".join(f"work,s0,0,{10 * turn},{100 * turn + 1}/10,1\n" for turn in range(turns))
    return f"enter,0,f0,{turns}\n{works}leave,{100 * (turns - 1) + 1}/10,s0,0\nend,{10 * turns}\n"


def at_one_gate(turns: int) -> dict[str, str]:
    return {"n": server("s0", "10", gate(10, "1/10")) + flow("f0", bucket(turns, "1/100"), ["s0"], turns), "r": one_recorded(turns)}


def of_stairs(statement: str, period: int) -> dict[str, str]:
    """A statement of two stairs a and b, whose periods differ by 1."""
    return {"c": f"let a = stair(1, {period}, 0)\nlet b = stair(2, {period + 1}, 0)\nlet s = sum(a, stair(1, {period + 1}, 0))\n{statement}\n"}


def sums(count: int, period: int) -> str:
    """Statements that each keep one more curve of many pieces."""
    lines = [f"let a{number} = sum(stair(1, {period}, 0), stair({number + 1}, {period + 1}, 0))\n" for number in range(count)]
    return "".join(lines) + "".join(f"rate a{number}\n" for number in range(count))


def distant(count: int) -> str:
    """Packets no two pairs of which are as far apart: the most steps of a measured curve."""
    return "".join(f"packet,{10_000_000 * number + number * number},f0,{1_000_000 + number}\n" for number in range(count))


ONE_STAIR = in_a_row(1, [(stair(120), 12000)], 100)
ONE_BUCKET = in_a_row(1, [(bucket(12000, 100), 12000)], 100)
ONE_GATE = server("s0", "100", gate(1000, 250)) + flow("f0", bucket(12000, 25), ["s0"], 12000)

LONGEST = "packet,0,f0,16777216\n"

# The words, what the files hold, and the files.
CASES = [
    ("analyse n", "256 flows of one packet over 16 ports", {"n": constants(256, 16)}),
    ("analyse n", "2 stairs of periods 100,000 and 100,001", {"n": stairs(2, 100_000)}),
    ("analyse n", "2 stairs of periods 170,000 and 170,001", {"n": stairs(2, 170_000)}),
    ("analyse n", "8 stairs of periods 100,000 and 100,001", {"n": stairs(8, 100_000)}),
    ("analyse n", "8 stairs of periods 10,000 and 10,001", {"n": stairs(8, 10_000)}),
    ("edit n e", "8 flows of one packet over 4 ports, 1,000 rates", {"n": constants(8, 4), "e": rates(1_000)}),
    ("edit n e", "256 flows of one packet over 16 ports, 10 rates", {"n": constants(256, 16), "e": rates(10)}),
    ("edit n e", "64 flows of one packet over 16 ports, 120 rates", {"n": constants(64, 16), "e": rates(120)}),
    ("simulate n t", "9,999 packets over 16 ports", {
        "n": in_a_row(16, [(bucket(12000, 100), 12000)], 100), "t": packets(9_999, 12000, lambda number: 120 * number)}),
    ("simulate n t", "9,999 packets of half a step of a stair", {"n": ONE_STAIR, "t": packets(9_999, 6000, lambda number: 120 * (number // 2))}),
    ("simulate n t", "9,999 packets at a stair with a jitter of half a period", {
        "n": in_a_row(1, [(stair(120, 60), 12000)], 100), "t": packets(9_999, 6000, lambda number: 120 * (number // 2))}),
    ("simulate n t", "two packets of one flow, 10^7 periods of its stair apart", {
        "n": ONE_STAIR, "t": packets(2, 12000, lambda number: 120 * 10**7 * number)}),
    ("simulate n t", "9,999 packets at a gate that stalls once", {
        "n": ONE_GATE, "t": packets(9_999, 12000, lambda number: 480 * number) + "stall,s0,500,501\n"}),
    ("simulate n t", "a packet of 2^24 bits at a gate that opens for 5 bits a cycle", {
        "n": server("s0", "10", gate(1, "1/2")) + flow("f0", bucket(1, 0), ["s0"]), "t": LONGEST}),
    ("simulate n t", "a packet of 2^24 bits at a queue of quantum 1", {
        "n": server("s0", "10", more='discipline = "drr"\nquanta = [1]\n') + flow("f0", bucket(1, 0), ["s0:0"]), "t": LONGEST}),
    ("exercise 8", "the workload 8", {}),
    ("check n r", "3,333 packets that keep a bucket", {"n": ONE_BUCKET, "r": recorded(3_333, 12000, 120)}),
    ("check n r", "3,333 packets that keep a stair", {"n": ONE_STAIR, "r": recorded(3_333, 6000, 60)}),
    *(("check n r", f"one packet that a gate works off in {turns:,} cycles", at_one_gate(turns)) for turns in (1_000, 4_000, 9_997)),
    ("measure n t f0 10", "1,024 packets no two pairs of which are as far apart", {
        "n": in_a_row(1, [(bucket(2**24, 10), 2**24)], 100), "t": distant(1_024)}),
    ("curve c", "a sum of stairs of periods 130,000 and 130,001", {"c": sums(1, 130_000)}),
    ("curve c", "8 such sums kept", {"c": sums(8, 130_000)}),
    *(("curve c", f"stairs of periods 100,000 and 100,001, `{statement}`", of_stairs(statement, 100_000)) for statement in (
        "rate min(a, b)", "rate posdiff(a, b)", "below a, b", "rate shift(s, 5)", "rate runsup(s)", "delay s, latency(1, 10)",
        "backlog s, latency(1, 10)", "show s")),
    *(("curve c", f"stairs of periods {period} and {period + 1}, `{statement}`", of_stairs(statement, period)) for statement, period in (
        ("rate conv(a, b)", 100), ("rate conv(a, b)", 300), ("rate deconv(a, b)", 300), ("rate deconv(a, b)", 1_000))),
    *(("curve c", f"`rate close(max(gate(1, 2, 1), latency(1, {time})))`", {"c": f"rate close(max(gate(1, 2, 1), latency(1, {time})))\n"})
      for time in (250, 500)),
]


def main() -> None:
    if len(sys.argv) not in (2, 3, 4):
        sys.exit(__doc__)
    program = str(Path(sys.argv[1]).resolve())
    seconds = int(sys.argv[2]) if len(sys.argv) > 2 else 300
    word = sys.argv[3] if len(sys.argv) > 3 else ""
    print("| Command | Files | Bytes | Status | Seconds | MiB |\n|---|---|---|---|---|---|")
    tried, over = 0, []
    for words, what, files in CASES:
        if word not in what:
            continue
        with tempfile.TemporaryDirectory(prefix="heaviest_") as folder:
            came, time, memory, _ = run_files(program, words.split(), files, Path(folder), seconds)
        size = sum(map(len, files.values()))
        print(f"| `{words.split()[0]}` | {what} | {size:,} | {came} | {time:.2f} | {memory:,.0f} |", flush=True)
        tried += 1
        over += [what] if memory > LIMIT else []
    print(f"{tried} cases; over {LIMIT} MiB: {'; '.join(over) or 'none'}")


if __name__ == "__main__":
    main()
