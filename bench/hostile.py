#!/usr/bin/env python3
"""How long small files take that were written to be slow, and how much memory.

    python3 bench/hostile.py NETCALC [SECONDS] [WORD]

NETCALC is the program. Each case is a file of at most a few kilobytes whose numbers have large common periods, prime
denominators, infinite curves or long closures. It is run with a limit of SECONDS of processor time (20), and of 4 GiB
of memory. Behind them come those of bench/climbed.json, which bench/climb.py found, with 1 GiB. With WORD only the cases run whose name has it.

A line a case: what it is, its bytes, the status that is wanted (? where nobody has worked it out) and the one that
came, the seconds of processor time, the most memory in MiB, and the first line that was written where it is a
refusal. A case that was ended by the limit has the status `late`. At the end: how many cases there were, how many had
another status than the wanted one, how many were late, and how many took over a second. It ends with 1 where a status
differs, and asserts nothing about time.
"""

import json
import os
import random
import re
import resource
import subprocess
import sys
import tempfile
from pathlib import Path

GIB = 2**30
CLIMBED = Path(__file__).resolve().parent / "climbed.json"


def server(name: str, rate="100", service='{ kind = "latency", latency = 0 }', more: str = "") -> str:
    return f'[[server]]\nname = "{name}"\nrate = {quoted(rate)}\nservice = {service}\n{more}\n'


def flow(name: str, arrival: str, path: list[str], packet: int = 1) -> str:
    hops = ", ".join(f'"{hop}"' for hop in path)
    return f'[[flow]]\nname = "{name}"\npacket = {packet}\narrival = {arrival}\npath = [{hops}]\n'


def quoted(number) -> str:
    return f'"{number}"'


def gate(cycle, slot) -> str:
    return f'{{ kind = "gate", cycle = {quoted(cycle)}, slot = {quoted(slot)} }}'


def latency(time) -> str:
    return f'{{ kind = "latency", latency = {quoted(time)} }}'


def stair(period, jitter=0) -> str:
    return f'{{ kind = "stair", period = {quoted(period)}, jitter = {quoted(jitter)} }}'


def bucket(burst, rate) -> str:
    return f'{{ kind = "bucket", burst = {quoted(burst)}, rate = {quoted(rate)} }}'


def listed(pieces, tail=None, close=False) -> str:
    texts = ", ".join(piece_text(*piece) for piece in pieces)
    text = f'{{ kind = "list", piece = [{texts}]'
    if tail:
        rank, period, rise = tail
        text += f", tail = {{ rank = {quoted(rank)}, period = {quoted(period)}, rise = {quoted(rise)} }}"
    return text + (", close = true }" if close else " }")


def piece_text(x, at, after=None, slope=None) -> str:
    text = f"{{ x = {quoted(x)}, at = {quoted(at)}"
    text += f", after = {quoted(after)}" if after is not None else ""
    text += f", slope = {quoted(slope)}" if slope is not None else ""
    return text + " }"


PRIORITY = 'discipline = "priority"\nqueues = 2\n'
DEFICIT = 'discipline = "drr"\nquanta = [16, 16]\n'
DIVISORS = (1, 2, 3, 4, 6, 8, 12, 16, 24, 32)


def gate_beside_stair(period: str, more: str = PRIORITY) -> str:
    """A gate of cycle 1000 whose queue 0 has a stair of nearly that period."""
    return (
        server("s1", "100", gate(1000, 250), more)
        + flow("f0", stair(period), ["s1:0"])
        + flow("f1", bucket(1, "1/100"), ["s1:1"])
    )


def shared_fifo(period: str) -> str:
    """The same two curves in one first-in first-out queue: what is left for the other flow."""
    return server("s1", "100", gate(1000, 250)) + flow("f0", stair(period), ["s1"]) + flow("f1", bucket(1, "1/100"), ["s1"])


def two_gates(first: tuple, second: tuple, rates: tuple, burst: int = 1) -> str:
    """A path over two gates: their convolution."""
    return (
        server("s1", rates[0], gate(*first))
        + server("s2", rates[1], gate(*second))
        + flow("f0", bucket(burst, "1/1000"), ["s1", "s2"], burst)
    )


def gate_above_bucket() -> str:
    """A gate whose queue 0 has a listed curve of a tail of nearly its cycle, above a bucket."""
    return (
        server("s1", "819201/8192", gate(1000, 250), PRIORITY)
        + flow("f0", listed([(0, 0, 1)], (0, "1000000001/1000000", 1)), ["s1:0"])
        + flow("f1", bucket(1, "1/100"), ["s1:1"])
    )


def waiting_gate(latency_time: int) -> str:
    """Its closure is the zero curve, since it is 0 at first."""
    return f"show close(max(gate(1, 2, 1), latency(1, {latency_time})))\n"


def closed_steps(n: int) -> str:
    pieces = [(0, 20, 20), (1, 20, 31), (3, 31, 50), (5, 50, 1000), (f"{5 * n + 1}/{n}", 1000, 1001)]
    return server("s1", "1000") + flow("f0", listed(pieces, close=True), ["s1"])


def closed_walk(n: int) -> str:
    """Steps of 1 to 9 at distances of 1 to 3, drawn once for all."""
    drawn, x, y, pieces = random.Random(5), 0, 20, []
    for number in range(n):
        at, y = y, y + drawn.randint(1, 9)
        pieces.append((x, at if number else 8, y))
        x += drawn.randint(1, 3)
    return server("s1", "1000") + flow("f0", listed(pieces, close=True), ["s1"])


def closed_late(rank: int) -> str:
    return server("s1", "1000") + flow("f0", listed([(0, 8)], (rank, 16, 1), True), ["s1"])


def many_stairs(flows: int, hops: int, periods) -> str:
    path = [f"s{hop}" for hop in range(hops)]
    return "".join(server(name, "1000") for name in path) + "".join(
        flow(f"f{number}", stair(periods(number)), path) for number in range(flows)
    )


def stairs_pair(first: str, second: str, jitter=0) -> str:
    return server("s1", "100") + flow("f0", stair(first, jitter), ["s1"]) + flow("f1", stair(second, jitter), ["s1"])


def deficit_gate(period: str) -> str:
    return gate_beside_stair(period, DEFICIT)


def industrial(which: int) -> str:
    """The line of examples/industrial, with the jitter of one of its stairs far longer than its period."""
    text = (Path(__file__).parent.parent / "examples/industrial/line.toml").read_text()
    places = [found.start() for found in re.finditer("jitter = ", text)]
    before, after = text[: places[which]], text[places[which] :]
    return before + re.sub("jitter = [0-9]+", "jitter = 1743149743", after, count=1)


EIGHT = 'discipline = "priority"\nqueues = 8\n'


def three_stairs() -> str:
    """Stairs whose periods have 3,996,000 in common, over a bucket of the last queue."""
    return (
        "version = 2\n"
        + server("s0", "100", latency(16), EIGHT)
        + flow("f0", stair(96, 200), ["s0:3"], 1600)
        + flow("f1", stair(1000, "1000/3"), ["s0:2"], 1600)
        + flow("f2", bucket(12, "3/500"), ["s0:3"], 12)
        + flow("f3", stair(3996), ["s0:1"], 1600)
        + flow("f4", bucket(12, "3/500"), ["s0:7"], 12)
    )


def stairs_above_a_closure() -> str:
    steps = [(0, 0, 1600, 0), (1998, 1600, 3200, 0)]
    return (
        "version = 2\n"
        + server("s0", "100", latency("1998/125"), EIGHT + 'link = "1/2"\n')
        + flow("f0", stair(1000), ["s0:1"])
        + flow("f1", listed(steps, (99900, 1998, 1600), True), ["s0:2"], 1600)
        + flow("f2", stair(2000, "2000/3"), ["s0:7"])
        + flow("f3", stair(4000, "4000/3"), ["s0:5"], 12)
    )


def gate_before_a_late_list() -> str:
    """A gate of cycle 1001/100, and behind it a list that repeats after 1000 of its periods."""
    late = listed([(0, 0, 0, 0), (500, 0, 0, 999)], (10**6, 1000, 999000))
    quanta = [LARGE, LARGE, LARGE - 1, LARGE - 1, 16384, 1600, 16384, 1600]
    return (
        server("s0", "1000", gate("1001/100", "1001/400"), EIGHT)
        + server("s1", "999", late, EIGHT)
        + server("s2", "1000", latency(16), f'discipline = "drr"\nquanta = {quanta}\n')
        + flow("f0", stair(2000), ["s0:3", "s1:5"], 1538)
        + flow("f1", listed([(0, 0, 1538, 0)], (4000, 4000, 1538)), ["s1:1", "s2:2"], 1538)
    )


def gate_of_odd_numbers(cycle: str, slot: str) -> str:
    """A gate whose cycle and slot have large denominators, with a stair above a bucket, and a second server."""
    return (
        "version = 2\n"
        + server("s0", "100", gate(cycle, slot), EIGHT)
        + server("s1")
        + flow("f0", stair(2000), ["s0:1", "s1"])
        + flow("f1", bucket(12, "3/50000"), ["s0:2", "s1"], 12)
    )


LARGE = 2**24
CASES = {
    # name: (word, text, wanted status)
    "priority gate, stair 1000001/1000": ("analyse", gate_beside_stair("1000001/1000"), 7),
    "priority gate, stair 10000001/10000": ("analyse", gate_beside_stair("10000001/10000"), 7),
    "priority gate, stair 1000000001/1000000": ("analyse", gate_beside_stair("1000000001/1000000"), 7),
    "priority gate, stair of a large prime": ("analyse", gate_beside_stair("1000000007/1000003"), 7),
    "priority gate, stair near 1000, too wide": ("analyse", gate_beside_stair("1000000000000000000001/1000000000000000000"), 6),
    "round robin gate, stair 1000001/1000": ("analyse", deficit_gate("1000001/1000"), 7),
    "first in first out gate, stair 1000001/1000": ("analyse", shared_fifo("1000001/1000"), 7),
    "first in first out gate, stair 10000001/10000": ("analyse", shared_fifo("10000001/10000"), 7),
    "closure of steps, n = 20": ("analyse", closed_steps(20), 0),
    "closure of steps, n = 45": ("analyse", closed_steps(45), 7),
    "closure of steps, n = 70": ("analyse", closed_steps(70), 7),
    "closure of steps, n = 150": ("analyse", closed_steps(150), 7),
    "closure of 20 steps at drawn times": ("analyse", closed_walk(20), 0),
    "closure of 28 steps at drawn times": ("analyse", closed_walk(28), 0),
    "closure of 64 steps at drawn times": ("analyse", closed_walk(64), 7),
    "closure with a tail at 103": ("analyse", closed_late(103), 0),
    "closure with a tail at 203": ("analyse", closed_late(203), 7),
    "closure with a tail at 1003": ("analyse", closed_late(1003), 7),
    "closure with a tail at 5003": ("analyse", closed_late(5003), 7),
    "closure with a tail at 2^63 - 1": ("analyse", closed_late(2**63 - 1), 7),
    "gates of cycles 1000 and 1001, wide rates": (
        "analyse", two_gates((1000, 250), (1001, 250), ("1000001/100000", "2000001/100000")), 7),
    "gates of cycles 300 and 301, rates over 1024": (
        "analyse", two_gates((300, 100), (301, 100), ("1025/1024", "2049/1024")), 7),
    "gates of cycles 300 and 301, rates close to each other": (
        "analyse", two_gates((300, 100), (301, 100), ("100", "100001/1000")), 7),
    "gates of cycles 1000 and 1001": ("analyse", two_gates((1000, 250), (1001, 250), ("10", "20")), 7),
    "16 stairs of periods 1 to 32, powers of 2, over 4 hops": ("analyse", many_stairs(16, 4, lambda number: 2 ** (5 - number % 6)), 7),
    "16 stairs of periods 1 to 32 that divide 96 over 4 hops": ("analyse", many_stairs(16, 4, lambda number: DIVISORS[number % 10]), 7),
    "16 stairs of even periods 2 to 32 over 4 hops": ("analyse", many_stairs(16, 4, lambda number: 2 * number + 2), 7),
    "16 stairs of odd periods over 4 hops": ("analyse", many_stairs(16, 4, lambda number: 2 * number + 1), 7),
    "256 stairs of one period over 4 hops": ("analyse", many_stairs(256, 4, lambda number: 1000), 7),
    "256 stairs of periods 1000 to 1255": ("analyse", many_stairs(256, 1, lambda number: 1000 + number), 7),
    "stairs 1 and 1048577": ("analyse", stairs_pair("1", "1048577"), 7),
    "examples/industrial, the first jitter of its stairs 1743149743": ("analyse", industrial(0), 7),
    "examples/industrial, the last jitter of its stairs 1743149743": ("analyse", industrial(-1), 7),
    "stairs of 96, 1000 and 3996 above a bucket of a priority server": ("analyse", three_stairs(), 0),
    "stairs of a priority server, and a closure with a tail at 99900": ("analyse", stairs_above_a_closure(), 7),
    "a gate, and behind it a list with a tail at 10^6": ("analyse", gate_before_a_late_list(), 7),
    "a gate of cycle 11988/125, a stair above a bucket": ("analyse", gate_of_odd_numbers("11988/125", "2999997/125000"), 6),
    "a gate of cycle 9970/991, a stair above a bucket": ("analyse", gate_of_odd_numbers("9970/991", "997/8388608"), 6),
    "stairs with a jitter of 2^100": ("analyse", stairs_pair("1", "3", 2**100), 7),
    "stairs with a jitter of 10^9": ("analyse", stairs_pair("1", "3", 10**9), 7),
    "script: below stair(1, 1, 0), stair(1, 1048577, 0)": ("curve", "below stair(1, 1, 0), stair(1, 1048577, 0)\n", 7),
    "script: a gate's lesser with a gate": ("curve", "show min(gate(1, 1000, 250), gate(1, 1000001/1000, 250))\n", 7),
    "script: a bend and a gate of nearly its rate": (
        "curve",
        "let a = conv(sum(gate(1000, 1000, 1), min(bucket(0, 8), bucket(500, 0))), gate(8396996609/8388608, 1001, 1))\n",
        7,
    ),
    "script: a stair's lesser with a gate of another period": (
        "curve", "rate min(shift(stair(11690711, 680291/596, 0), 17179869185/17179869184), gate(1/1024, 3/7, 3/28))\n", 7),
    "script: a closure of a closure": ("curve", "show close(conv(stair(1, 7, 0), stair(1, 11, 3)))\n", 0),
    "script: a stair less a number, and a gate of nearly its rate": (
        "curve", "rate conv(posminus(stair(1, 8388609/8388608, 0), 501), gate(6, 2001, 2001/4))\n", 7),
    "script: a bucket and a sum of two long stairs": ("curve", "rate conv(bucket(1, 1), sum(stair(1, 150000, 0), stair(1, 150001, 0)))\n", 0),
    "script: the closure of a gate that waits, wide rates": (
        "curve",
        "let a = close(sum(bucket(1/3, 0), sum(latency(12, 1024), min(shift(latency(12, 726), 676572/731), "
        "conv(gate(1/1024, 3/7, 3/28), bucket(0, 967628/19))))))\n",
        7,
    ),
    "script: the closure of a gate that waits, 250": ("curve", waiting_gate(250), 0),
    "script: the closure of a gate that waits, 1000": ("curve", waiting_gate(1000), 0),
    "script: the closure of a gate that waits, 2000": ("curve", waiting_gate(2000), 0),
    "gates of cycles 10000001/10000 and 1000": ("analyse", two_gates(("10000001/10000", 250), (1000, 250), ("100", "101"), 10), 7),
    "gates of cycles 1000000000039/1000000000 and 999": (
        "analyse", two_gates(("1000000000039/1000000000", 250), (999, 250), ("100", "101"), 10), 7),
    # 750 bits have arrived when the slot begins, so a period is needed, and with one the values are too wide
    "priority gate, a list of tail 1000000001/1000000 above a bucket": ("analyse", gate_above_bucket(), 6),
}


def one_gate(rate, cycle, slot, packet: int, arrival: str) -> str:
    return server("s0", rate, gate(cycle, slot)) + flow("f0", arrival, ["s0"], packet)


def packets(count: int, gap: int, bits: int) -> str:
    return "".join(f"packet,{gap * number},f0,{bits}\n" for number in range(count))


def odd_packets(count: int) -> str:
    """Packets of 1 bit, 5,000 and 2^20, drawn once for all."""
    drawn, time, rows = random.Random(1), 0, []
    for _ in range(count):
        time += drawn.randint(0, 3)
        rows.append(f"packet,{time},f0,{drawn.choice([1, 2**20, 5000])}\n")
    return "".join(rows)


def worked_off(cycles: int) -> str:
    """One packet that a gate of cycle 10 works off, a bit in each slot of 1/10."""
    works = "".join(f"work,s0,0,{10 * turn},{100 * turn + 1}/10,1\n" for turn in range(cycles))
    return f"enter,0,f0,{cycles}\n{works}leave,{100 * (cycles - 1) + 1}/10,s0,0\nend,{10 * cycles}\n"


def stalled_gate(cycles: int) -> dict[str, str]:
    """A gate of cycle 10 that stalls for its first two, and a packet so many cycles later: its curve is written out up to there."""
    net = "version = 2\n" + one_gate(10, 10, 5, 1, bucket(10, 1))
    return {"n": net, "t": f"packet,0,f0,1\npacket,{10 * cycles},f0,1\nstall,s0,0,20\n"}


STALL = "stall,s0,2000,2300\n"

RUNS = {
    # name: (words, files, wanted status)
    "a gate, packets of 1 and 2^24 bits, one stall": ("simulate n t", {
        "n": one_gate(96, 96, 32, LARGE, bucket(10**9, 1)), "t": f"packet,0,f0,1\npacket,1,f0,{LARGE}\n{STALL}"}, 9),
    "a gate of 1 ms, a packet each ms for 10 s, a stall of 2 ms": ("simulate n t", {
        "n": one_gate(1000, 1000, 250, 12000, bucket(12000, 12)), "t": packets(9_999, 1000, 12000) + "stall,s0,5000000,5002000\n"}, 9),
    "a gate of 1 ms that each packet keeps busy, a stall of 2 ms": ("simulate n t", {
        "n": one_gate(1000, 1000, 250, 1_200_000, bucket(12_000_000, 250)),
        "t": packets(9_999, 1000, 249_000) + "stall,s0,5000000,5002000\n"}, 9),
    "a gate, 40 odd packets, the first two crowded, a stall": ("simulate n t", {
        "n": one_gate(96, 96, 32, LARGE, bucket(10, 1)), "t": odd_packets(40) + STALL}, 9),
    "a gate, 84 odd packets, the first two crowded, a stall": ("simulate n t", {
        "n": one_gate(96, 96, 32, LARGE, bucket(10, 1)), "t": odd_packets(84) + STALL}, 9),
    "a gate that stalls, and a packet 10^6 cycles later": ("simulate n t", stalled_gate(10**6), 9),
    "a gate that stalls, and a packet 10^7 cycles later": ("simulate n t", stalled_gate(10**7), 9),
    "a lawful run, a bit a cycle for 4,000 cycles of a gate": ("check n r", {
        "n": one_gate(10, 10, "1/10", 4000, bucket(4000, "1/100")), "r": worked_off(4000)}, 0),
}


def run_files(program: str, words: list[str], files: dict[str, str], folder: Path, seconds: int, gib: int = 4) -> tuple[str, float, float, str]:
    """The status of a call where these files lie, its seconds of processor time, its MiB at most, and the line of a refusal."""
    for name, text in files.items():
        (folder / name).write_text(text, encoding="latin-1")
    out = folder / "out"
    with open(out, "wb") as out_file:
        child = subprocess.Popen([program, *words], cwd=folder, stdout=out_file, preexec_fn=lambda: limits(seconds, gib))
        _, status, usage = os.wait4(child.pid, 0)
        child.returncode = os.waitstatus_to_exitcode(status)
    ended = "late" if child.returncode in (-24, -9) else str(child.returncode)
    said = [line for line in out.read_text(errors="replace").splitlines()[:1] if line.startswith("netcalc:")]
    return ended, usage.ru_utime + usage.ru_stime, usage.ru_maxrss / 1024, said[0] if said else ""


def run(program: str, words: list[str], files: dict[str, str], seconds: int, gib: int = 4) -> tuple[str, float, float, str]:
    with tempfile.TemporaryDirectory(prefix="hostile_") as folder:
        return run_files(program, words, files, Path(folder), seconds, gib)


def limits(seconds: int, gib: int) -> None:
    resource.setrlimit(resource.RLIMIT_CPU, (seconds, seconds + 1))
    resource.setrlimit(resource.RLIMIT_AS, (gib * GIB, gib * GIB))


def climbed() -> list[tuple[str, list[str], dict[str, str], str | None, int]]:
    """What climbs found, with the status that it had."""
    found = json.loads(CLIMBED.read_text()) if CLIMBED.exists() else {}
    return [
        (f"climbed: {kind} {place}", it["words"], it["files"], None if it["status"] == "late" else it["status"], 1)
        for kind, cases in found.items()
        for place, it in enumerate(cases)
    ]


def main() -> None:
    if len(sys.argv) not in (2, 3, 4):
        sys.exit(__doc__)
    program = str(Path(sys.argv[1]).resolve())
    seconds = int(sys.argv[2]) if len(sys.argv) > 2 else 20
    word = sys.argv[3] if len(sys.argv) > 3 else ""
    print(f"{'case':<64}{'bytes':>7}{'wanted':>8}{'came':>6}{'seconds':>9}{'MiB':>8}  line")
    tried = others = late = slow = 0
    cases = [(name, [command, "file"], {"file": text}, wanted, 4) for name, (command, text, wanted) in CASES.items()]
    cases += [(name, words.split(), files, wanted, 4) for name, (words, files, wanted) in RUNS.items()]
    for name, words, files, wanted, gib in cases + climbed():
        if word not in name:
            continue
        came, time, memory, line = run(program, words, files, seconds, gib)
        size = sum(map(len, files.values()))
        print(f"{name:<64}{size:>7}{'?' if wanted is None else wanted:>8}{came:>6}{time:>9.2f}{memory:>8.0f}  {line}", flush=True)
        tried += 1
        others += wanted is not None and came not in (str(wanted), "late")
        late += came == "late"
        slow += time > 1
    print(f"{tried} cases, {others} with another status, {late} late, {slow} over a second")
    sys.exit(1 if others else 0)


if __name__ == "__main__":
    main()
