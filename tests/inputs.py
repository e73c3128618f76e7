#!/usr/bin/env python3
"""Inputs at the edges of what is taken, recorded runs, traces, and one file cut after each of its bytes, as whole commands.

    python3 tests/inputs.py [PROGRAM]

PROGRAM is that of bin/ where none is named. What is wanted of a cut comes from Python's own reader of TOML: M1 exactly where that reads no text, and
else what is said below of the few cuts that are whole. Of traces at random over a stair it comes from a look at all pairs of
packets. It prints each answer that is another one, and how many were tried, and ends with 1 where one was.
"""

import fcntl
import os
import random
import subprocess
import sys
import tempfile
import tomllib
from pathlib import Path

TOP = Path(__file__).resolve().parent.parent
ONE_FLOW = (TOP / "tests/bounds/one_flow/n.toml").read_text()
REPORT = "servers 1 flows 1\nqueue s1 0 delay 130 backlog 13300\nflow f1 tfa 130 sfa 130 bound 130\n"
LARGEST = 2**127 - 1


LONGEST = 2**20  # bytes of a file
ODD = os.fsdecode(b"\xe9.toml")  # a name that is not UTF-8
USAGE = (
    "netcalc: usage: netcalc analyse NET [--json], edit NET EDITS [--json], simulate NET TRACE, exercise N, check NET RUN, "
    "measure NET TRACE FLOW RATE, curve FILE\n"
)


def of_bytes(count: int) -> str:
    """The file of one flow behind a comment, of so many bytes in all."""
    return "#" * (count - 1 - len(ONE_FLOW)) + "\n" + ONE_FLOW


def with_rate(rate: str) -> str:
    return ONE_FLOW.replace("rate = 100", f'rate = "{rate}"', 1)


def servers(count: int) -> str:
    return "".join(f'[[server]]\nname = "s{number}"\nrate = 1\n' for number in range(count))


def flow(name: str, path: list[str]) -> str:
    hops = ", ".join(f'"{hop}"' for hop in path)
    return f'[[flow]]\nname = "{name}"\npacket = 1\narrival = {{ kind = "bucket", burst = 0, rate = 0 }}\npath = [{hops}]\n'


def hops(count: int) -> list[str]:
    return [f"s{number}" for number in range(count)]


# What is tried: the words, the files, the status, and what is written.
INPUTS = {
    "a rate of 2^127": (["analyse", "n"], {"n": with_rate(str(LARGEST + 1))}, 1, "netcalc: n: M5 server[0].rate\n"),
    "a rate of 2^127 - 1": (["analyse", "n"], {"n": with_rate(str(LARGEST))}, 6, "netcalc: too wide: curve server[0].service\n"),
    "a rate of 1/0": (["analyse", "n"], {"n": with_rate("1/0")}, 1, "netcalc: n: M5 server[0].rate\n"),
    "65 servers": (["analyse", "n"], {"n": servers(65)}, 1, "netcalc: n: M11 server\n"),
    "257 flows": (
        ["analyse", "n"], {"n": servers(1) + "".join(flow(f"f{number}", ["s0"]) for number in range(257))}, 1, "netcalc: n: M11 flow\n"),
    "17 path entries": (["analyse", "n"], {"n": servers(17) + flow("f", hops(17))}, 1, "netcalc: n: M11 flow[0].path\n"),
    "16 path entries": (["analyse", "n"], {"n": servers(16) + flow("f", hops(16))}, 0, None),
    "64 servers": (["analyse", "n"], {"n": servers(64)}, 0, None),
    "10,001 rows of a trace, a byte 0 in the last": (
        ["simulate", "n", "t"], {"n": ONE_FLOW, "t": "packet,0,f1,1\n" * 10_000 + "packet,0,f1,\0\n"}, 1, "netcalc: t: T7 row 10001\n"),
    "1,001 edits": (["edit", "n", "e"], {"n": ONE_FLOW, "e": "undo\n" * 1_001}, 1, "netcalc: e: T7 row 1001\n"),
    "a bucket past the limits": (
        ["edit", "n", "e"], {"n": ONE_FLOW, "e": f"bucket,f1,12000,1/{2**120}\n"}, 0, "edit 1 refused too-wide queue-delay s1 0\n" + REPORT),
    "a file that is missing": (["analyse", "m"], {}, 3, "netcalc: cannot read m\n"),
    "a trace that is missing": (["simulate", "n", "t"], {"n": ONE_FLOW}, 3, "netcalc: cannot read t\n"),
    "a recorded run that is missing": (["check", "n", "r"], {"n": ONE_FLOW}, 3, "netcalc: cannot read r\n"),
    "a recorded run that is too long": (
        ["check", "n", "r"], {"n": ONE_FLOW, "r": "#" * (2**20 + 1)}, 1, "netcalc: r: too long\n"),
    "edits that are missing": (["edit", "n", "e"], {"n": ONE_FLOW}, 3, "netcalc: cannot read e\n"),
    "edits that are missing, and no network": (["edit", "n", "e"], {"n": "x"}, 3, "netcalc: cannot read e\n"),
    "a file without UTF-8 in its name": (["analyse", ODD], {ODD: ONE_FLOW}, 3, "netcalc: cannot read \ufffd.toml\n"),
    "a file that is not there, beside one that is named as it is told": (
        ["analyse", ODD], {"\ufffd.toml": ONE_FLOW}, 3, "netcalc: cannot read \ufffd.toml\n"),
    "a file with U+FFFD in its name": (["analyse", "\ufffd.toml"], {"\ufffd.toml": ONE_FLOW}, 3, "netcalc: cannot read \ufffd.toml\n"),
    "a file with other signs in its name": (["analyse", "\u00e9\ufffc.toml"], {"\u00e9\ufffc.toml": ONE_FLOW}, 0, REPORT),
    "a trace without UTF-8 in its name": (["simulate", "n", ODD], {"n": ONE_FLOW, ODD: ""}, 3, "netcalc: cannot read \ufffd.toml\n"),
    "a long name without UTF-8": (["analyse", "n" * 300 + ODD], {}, 3, f"netcalc: cannot read {'n' * 300}\ufffd.toml\n"),
    "a flow without UTF-8": (
        ["measure", "n", "t", ODD, "1"], {"n": ONE_FLOW, "t": "packet,0,f1,1\n"}, 1, "netcalc: unknown flow \ufffd.toml\n"),
    "a command without UTF-8": (["analyse" + ODD, "n"], {"n": ONE_FLOW}, 2, USAGE),
    "a folder in place of a file": (["analyse", "."], {}, 3, "netcalc: cannot read .\n"),
    "a network of 4,096 bytes": (["analyse", "n"], {"n": of_bytes(4096)}, 0, REPORT),
    "a network of 4,097 bytes": (["analyse", "n"], {"n": of_bytes(4097)}, 0, REPORT),
    "the longest network": (["analyse", "n"], {"n": of_bytes(LONGEST)}, 0, REPORT),
    "a network a byte too long": (["analyse", "n"], {"n": of_bytes(LONGEST + 1)}, 1, "netcalc: n: too long\n"),
    "a network three times too long": (["analyse", "n"], {"n": "#" * (3 * LONGEST)}, 1, "netcalc: n: too long\n"),
    "a comment of one byte": (["analyse", "n"], {"n": "#"}, 0, "servers 0 flows 0\n"),
    "the longest script": (["curve", "n"], {"n": "#" * LONGEST}, 0, ""),
    "a script a byte too long": (["curve", "n"], {"n": "#" * (LONGEST + 1)}, 1, "netcalc: n: too long\n"),
    "a script in JSON": (["curve", "n", "--json"], {"n": "#"}, 2, USAGE),
    "a file without a name": (["analyse", ""], {}, 2, USAGE),
    "1,024 packets that are measured": (
        ["measure", "n", "t", "f1", "1"], {"n": ONE_FLOW, "t": "packet,0,f1,1\n" * 1024}, 0,
        "flow f1 packets 1024\nstep 0 1024\nburst 1024 rate 1\n"),
    "1,025 packets that are measured": (
        ["measure", "n", "t", "f1", "1"], {"n": ONE_FLOW, "t": "packet,0,f1,1\n" * 1025}, 7, "netcalc: too many: measure\n"),
}


# Places of a network's file: what is replaced, by what (N is the number), where that is, and what is said of 2^127 - 1, which is still a number.
UNBOUNDED = "servers 1 flows 1\nqueue s1 0 delay unbounded backlog unbounded\nflow f1 tfa unbounded sfa unbounded bound unbounded\n"
BUCKET = 'kind = "bucket", burst = 12000, rate = 10'
STAIR_OF = 'kind = "stair", period = '
PLACES = {
    "latency": ("latency = 10", 'latency = "N"', "server[0].service.latency", "too wide: curve server[0].service"),
    "cycle": ('"latency", latency = 10', '"gate", cycle = "N", slot = 1', "server[0].service.cycle", "too wide: curve server[0].service"),
    "link": ("rate = 100", 'rate = 100\nlink = "N"', "server[0].link", "too wide: tfa f1"),
    "bucket's rise": ("rate = 10 }", 'rate = "N" }', "flow[0].arrival.rate", None),
    "burst": ("burst = 12000", 'burst = "N"', "flow[0].arrival.burst", "too wide: queue-delay s1 0"),
    "period": (BUCKET, f'{STAIR_OF}"N"', "flow[0].arrival.period", "too wide: curve flow[0].arrival"),
    "jitter": (BUCKET, f'{STAIR_OF}1000, jitter = "N"', "flow[0].arrival.jitter", "too wide: curve flow[0].arrival"),
}
# Rows: the words, the row, and what is said of 2^127 - 1: of an edit the first line, else the line of the refusal.
ROWS = {
    "packet's time": ("simulate n t", "packet,N,f1,1", "too wide: simulation"),
    "packet's time that is measured": ("measure n t f1 1", "packet,N,f1,1", "too wide: measure"),
    "packet's bits": ("simulate n t", "packet,0,f1,N", "t: T4 row 1"),
    "stall's end": ("simulate n t", "stall,s1,0,N", "too wide: simulation"),
    "recorded time": ("check n t", "enter,N,f1,1\nend,N", "too wide: check"),
    "recorded work": ("check n t", "work,s1,0,0,1,N\nend,1", "too wide: check"),
    "rate of an edit": ("edit n t", "rate,s1,N", "edit 1 refused too-wide queue-service s1 0"),
    "latency of an edit": ("edit n t", "latency,s1,N", "edit 1 refused too-wide queue-service s1 0"),
    "link of an edit": ("edit n t", "link,s1,N", "edit 1 refused too-wide tfa f1"),
    "burst of an edit": ("edit n t", "bucket,f1,N,0", "edit 1 refused too-wide queue-delay s1 0"),
    "period of an edit": ("edit n t", "stair,f1,N,0", "edit 1 refused too-wide in f1 0"),
    "packet of an edit": ("edit n t", "packet,f1,N", "t: T4 row 1"),
    "rate of a new flow": ("edit n t", "add,f2,1,1,N,s1", "edit 1 refused too-wide total s1 0"),
    "latency of a script": ("curve t", "show latency(1, N)", "too wide: line 1"),
    "period of a script": ("curve t", "show stair(1, N, 0)", "too wide: line 1"),
    "packet of a script": ("curve t", "show stair(N, 1, 0)", "t: C7 line 1"),
    "time of a script": ("curve t", "value zero at N", "too wide: line 1"),
}


def refusal(said: str) -> tuple[int, str]:
    """The status and the text of a refusal."""
    return 6 if said.startswith("too wide") else 1, f"netcalc: {said}\n"


def large_numbers() -> dict:
    """Numbers at 2^127 and past it, above and below 0 and as a denominator, which are none, and 2^127 - 1 in each place."""
    cases = {}
    for name, (old, new, place, at_last) in PLACES.items():
        for number in (f"{LARGEST + 1}", f"-{LARGEST + 1}", f"1/{LARGEST + 1}", f"{2**128}"):
            cases[f"a {name} of {number}"] = (["analyse", "n"], {"n": ONE_FLOW.replace(old, new.replace("N", number), 1)}, *refusal(f"n: M5 {place}"))
        said = (0, UNBOUNDED) if at_last is None else refusal(at_last)
        cases[f"a {name} of 2^127 - 1"] = (["analyse", "n"], {"n": ONE_FLOW.replace(old, new.replace("N", str(LARGEST)), 1)}, *said)
    for name, (words, row, at_last) in ROWS.items():
        for number in (LARGEST, LARGEST + 1, 2**128):
            files = {"n": ONE_FLOW, "t": row.replace("N", str(number)) + "\n"}
            of_row = "C3 line" if words.startswith("curve") else "T4 row"
            said = refusal(at_last) if number == LARGEST else refusal(f"t: {of_row} 1")
            if number == LARGEST and at_last.startswith("edit"):
                said = 0, f"{at_last}\n{REPORT}"
            cases[f"a {name} of {number}"] = (words.split(), files, *said)
    for name, length, fault in (("an integer", LARGEST + 1, "M1"), ("a text", f'"{LARGEST + 1}"', "M4 flow[0].packet"), ("2^63 - 1", 2**63 - 1, "M6 flow[0].packet")):
        cases[f"a packet as {name}"] = (["analyse", "n"], {"n": ONE_FLOW.replace("packet = 12000", f"packet = {length}")}, *refusal(f"n: {fault}"))
    return cases


INPUTS |= large_numbers()
ROUND = (TOP / "tests/checks/deficits_as_simulated/n.toml").read_text()
TWO_HOPS = (TOP / "tests/checks/two_hops_as_simulated/n.toml").read_text()
SIDE_BY_SIDE = "".join(f'[[server]]\nname = "s{number}"\nrate = 100\n' for number in (1, 2)) + "".join(
    f'[[flow]]\nname = "f{number}"\npacket = 12000\narrival = {{ kind = "bucket", burst = 12000, rate = 10 }}\npath = ["s{number}"]\n'
    for number in (1, 2)
)
FIRST_HOP = ["enter,0,f1,12000", "work,s1,0,0,120,12000", "leave,120,s1,0"]

# Recorded runs: the network, the rows, the status, and the last line.
RUNS = {
    "servers in any order": (SIDE_BY_SIDE, [
        "enter,0,f2,12000", "work,s2,0,0,120,12000", "leave,120,s2,0",
        "enter,0,f1,12000", "work,s1,1,0,120,12000", "leave,120,s1,1", "end,120"], 0, "verdict admissible"),
    "work after the packet's own leave": (
        ONE_FLOW, ["enter,0,f1,12000", "work,s1,0,10,130,12000", "leave,130,s1,0", "work,s1,0,130,131,5", "end,140"], 9, "verdict unlawful row 4 L4"),
    "a gauge below its limit": (ONE_FLOW, [f"enter,1/{2**92},f1,1", "end,1"], 0, "verdict admissible"),
    "a gauge at its limit": (ONE_FLOW, [f"enter,1/{2**93},f1,1", "end,1"], 6, "netcalc: too wide: check"),
    "10,000 rows and one more": (ONE_FLOW, ["enter,0,f1,1"] * 10_000 + ["\x01"], 1, "netcalc: r: T7 row 10001"),
    "an end too many behind 9,999 rows": (ONE_FLOW, ["enter,0,f1,1"] * 9_999 + ["end,0", "end,0"], 1, "netcalc: r: T7 row 10001"),
    "10,000 rows without an end": (ONE_FLOW, ["enter,0,f1,1"] * 10_000, 1, "netcalc: r: T8 row 10001"),
    "a flow that is not there and no bits": (ONE_FLOW, ["enter,0,f9,0", "end,0"], 1, "netcalc: r: T4 row 1"),
    "a server that is not there and too few fields": (ONE_FLOW, ["work,s9,0,0,1", "end,0"], 1, "netcalc: r: T3 row 1"),
    "an end below 0": (ONE_FLOW, ["end,-1"], 1, "netcalc: r: T4 row 1"),
    "a visit made twice for a packet too long": (ROUND, [
        "enter,0,f1,12001", "visit,0,s1,0", "visit,0,s1,0", "work,s1,0,0,120,12001", "leave,120,s1,0", "end,120"], 9, "verdict breach size f1 0"),
    "a third packet without a visit": (ROUND, [
        "enter,0,f1,6000", "enter,0,f1,6000", "enter,0,f1,1", "visit,0,s1,0", "work,s1,0,0,60,6000", "leave,60,s1,0",
        "work,s1,1,60,120,6000", "leave,120,s1,1", "work,s1,2,120,121,1", "end,200"], 9, "verdict unlawful row 9 L5"),
    "a visit of an empty round": (ROUND, ["visit,0,s1,0", "end,0"], 9, "verdict unlawful row 1 L7"),
    "a visit of a queue that is not there": (ROUND, ["enter,0,f1,1", "visit,0,s1,9", "end,0"], 9, "verdict unlawful row 2 L7"),
    "a reach at the server that was left": (TWO_HOPS, [*FIRST_HOP, "reach,125,s1,0", "end,300"], 9, "verdict unlawful row 4 L3"),
    "a reach of a packet that has not entered": (TWO_HOPS, [*FIRST_HOP, "reach,125,s2,1", "end,300"], 9, "verdict unlawful row 4 L2"),
    "work without a reach": (TWO_HOPS, [*FIRST_HOP, "work,s2,0,125,126,1", "end,300"], 9, "verdict unlawful row 4 L5"),
}

STAIR = ONE_FLOW.replace("{ kind = \"bucket\", burst = 12000, rate = 10 }", '{ kind = "stair", period = 1000 }')
GATE = """
[[server]]
name = "g"
rate = 100
service = { kind = "gate", cycle = 1000, slot = 250 }
[[flow]]
name = "f1"
packet = 25000
arrival = { kind = "stair", period = 1000, jitter = 4000 }
path = ["g"]
"""


def at_times(bits: int, *times: int) -> list[str]:
    return [f"packet,{time},f1,{bits}" for time in times]


def worked_at_once(*times: int) -> list[str]:
    """Packets of 12,000 bits that enter at these times of a run that ends with the last, each worked off as it can be."""
    rows, free = [], 0
    for number, time in enumerate(times):
        rows.append((time, 0, f"enter,{time},f1,12000"))
        start, free = max(time, free), max(time, free) + 120
        if free <= times[-1]:
            rows += [(start, 1, f"work,s1,{number},{start},{free},12000"), (free, 2, f"leave,{free},s1,{number}")]
    return [row for _, _, row in sorted(rows, key=lambda it: it[:2])] + [f"end,{times[-1]}"]


# Traces of stairs and gates: the network, the rows, the status, and the last line.
TRACES = {
    "a stair broken at a later pair": (STAIR, at_times(12000, 0, 1000, 2000, 2999), 9, "breach arrival f1 0 3"),
    "a stair kept with a pause": (STAIR, at_times(12000, 0, 1000, 2000, 3500, 4500), 0, "breach none"),
    "a stair kept by half packets": (STAIR, at_times(6000, 0, 0, 1000, 1000, 2000, 2000, 3000, 3000), 0, "breach none"),
    "a stair kept by parts of steps": (STAIR, at_times(7000, 0) + at_times(5000, 0, 1000) + at_times(7000, 1000, 2000), 0, "breach none"),
    "a stair broken by one bit": (STAIR, at_times(7000, 0) + at_times(5000, 0) + at_times(7000, 1000) + at_times(5001, 1000), 9, "breach arrival f1 0 3"),
    "a gate that stalls early": (GATE, at_times(25000, 0, 0, 0, 0, 0) + ["stall,g,0,100"], 9, "breach service g 0 1000"),
    "a gate that stalls late": (GATE, at_times(25000, 0, 0, 0, 0, 0) + ["stall,g,4000,4100"], 9, "breach service g 100 4100"),
}


def first_crowd(period: int, jitter: int, step: int, packets: list[tuple[int, int]]) -> tuple[int, int] | None:
    """The first pair of packets between which more bits come than the stair has, looked for pair by pair."""
    for last, (end, _) in enumerate(packets):
        for first in range(last + 1):
            bits = sum(bits for _, bits in packets[first : last + 1])
            if bits > step * ((end - packets[first][0] + jitter) // period + 1):
                return first, last
    return None


def stair_traces() -> dict:
    """Flows at random over stairs of 12,000 bits, about as fast as they may be, each with what a look at all pairs finds."""
    number = random.Random(25)
    cases = {}
    for case in range(60):
        jitter = number.choice([0, 0, 500, 1000, 3700])
        packets, now = [], 0
        for _ in range(number.randint(2, 24)):
            bits = number.choice([6000, 4000, 12000, number.randint(1, 12000)])
            packets.append((now, bits))
            now += number.choice([0, 0, 500, 1000, bits * 1000 // 12000, number.randint(0, 1500)])
        net = STAIR.replace("period = 1000", f"period = 1000, jitter = {jitter}")
        pair = first_crowd(1000, jitter, 12000, packets)
        status, last = (0, "breach none") if pair is None else (9, f"breach arrival f1 {pair[0]} {pair[1]}")
        cases[f"a stair at random, {case}"] = (net, [f"packet,{time},f1,{bits}" for time, bits in packets], status, last)
    return cases


TRACES |= stair_traces()
RUNS["a packet too early at the run's very end"] = (STAIR, worked_at_once(0, 1000, 1999), 9, "verdict breach arrival f1 0 2")
RUNS["a packet in time at the run's very end"] = (STAIR, worked_at_once(0, 1000, 2000), 0, "verdict admissible")


def run(program: str, words: list[str], folder: Path) -> tuple[int, str]:
    child = subprocess.run([program, *words], cwd=folder, capture_output=True, check=False)
    return child.returncode, (child.stdout + child.stderr).decode(errors="replace")


def tried_inputs(program: str, folder: Path) -> int:
    wrong = 0
    for name, (words, files, status, said) in INPUTS.items():
        for file in folder.iterdir():
            file.unlink()
        for file, text in files.items():
            (folder / file).write_text(text)
        came, wrote = run(program, words, folder)
        if came != status or said not in (None, wrote):
            wrong += 1
            print(f"tests/inputs.py: {name}: status {came}, wanted {status}; it wrote {wrote[:200]!r}")
    return wrong


def tried_runs(program: str, word: str, cases: dict, folder: Path) -> int:
    wrong = 0
    for name, (net, rows, status, last) in cases.items():
        (folder / "n").write_text(net)
        (folder / "r").write_text("".join(f"{row}\n" for row in rows))
        came, wrote = run(program, [word, "n", "r"], folder)
        if came != status or not wrote.endswith(last + "\n"):
            wrong += 1
            print(f"tests/inputs.py: {name}: status {came}, wanted {status} with {last!r}; it wrote {wrote[:300]!r}")
    return wrong


def wanted_of_cut(text: str) -> tuple[int, str] | None:
    """What a front of the file gives; nothing where it is a text of TOML of which this script does not know the answer."""
    try:
        tree = tomllib.loads(text)
    except tomllib.TOMLDecodeError:
        return 1, "netcalc: n: M1\n"
    if tree == tomllib.loads(ONE_FLOW):
        return 0, REPORT
    if not tree:
        return 0, "servers 0 flows 0\n"
    server = tree["server"][0]
    if "flow" not in tree and set(server) == {"name", "rate"}:
        return 0, "servers 1 flows 0\nqueue s1 0 delay 0 backlog 0\n"
    return None


def tried_cuts(program: str, folder: Path) -> tuple[int, int]:
    """How many cuts have a known answer, and how many of them another one."""
    known = wrong = 0
    for length in range(len(ONE_FLOW) + 1):
        text = ONE_FLOW[:length]
        (folder / "n").write_text(text)
        came = run(program, ["analyse", "n"], folder)
        wanted = wanted_of_cut(text)
        known += wanted is not None
        if came != wanted if wanted is not None else came[0] not in (0, 1) or "M1\n" in came[1]:
            wrong += 1
            print(f"tests/inputs.py: cut after {length} bytes: {came}, wanted {wanted}")
    return known, wrong


def tried_narrow_output(program: str, folder: Path) -> int:
    """Whether a report breaks off with status 4, and a front of it is written, where the output takes no more."""
    (folder / "n").write_text(servers(1) + "".join(flow(f"f{number}", ["s0"]) for number in range(256)))
    words = [program, "analyse", "n", "--json"]
    whole = subprocess.run(words, cwd=folder, capture_output=True, check=False).stdout
    taken, given = os.pipe()
    os.set_blocking(given, False)
    room = fcntl.fcntl(given, fcntl.F_SETPIPE_SZ, 4096)
    came = subprocess.run(words, cwd=folder, stdout=given, check=False).returncode
    os.close(given)
    with open(taken, "rb") as written:
        front = written.read()
    if room < len(whole) and came == 4 and 0 < len(front) < len(whole) and whole.startswith(front):
        return 0
    print(f"tests/inputs.py: an output with room for {room} bytes: status {came}, wanted 4; {len(front)} of {len(whole)} bytes")
    return 1


def main() -> None:
    program = str(Path(sys.argv[1] if len(sys.argv) > 1 else TOP / "bin/x86_64-linux/netcalc").resolve())
    with tempfile.TemporaryDirectory(prefix="inputs_") as name:
        wrong = tried_inputs(program, Path(name))
        wrong += tried_runs(program, "check", RUNS, Path(name)) + tried_runs(program, "simulate", TRACES, Path(name))
        wrong += tried_narrow_output(program, Path(name))
        known, others = tried_cuts(program, Path(name))
    print(f"inputs: {len(INPUTS)} inputs, {len(RUNS)} recorded runs, {len(TRACES)} traces and {len(ONE_FLOW) + 1} cuts, {known} of them with a known answer; {wrong + others} wrong")
    sys.exit(1 if wrong + others else 0)


if __name__ == "__main__":
    main()
