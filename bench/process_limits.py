#!/usr/bin/env python3
"""What a program does where its process is short of something.

    python3 bench/process_limits.py PROGRAM [LIMITS] [WORD]

PROGRAM is netcalc, or netbound where its file is called so. netcalc is tried on calls of all seven commands, netbound on tables, small ones and one
of real size; with reports, reports as JSON and refusals, small ones and such as need some memory; with WORD on those alone whose name has it. A line for each call:

- **Output**: to a closed one, a full device, a pipe whose reader has gone, with the signal of a broken pipe ignored and as a shell leaves it. Wanted:
  status 4 and no signal. With a limit on the size of files the system sends SIGXFSZ by itself, which is wanted.
- **Memory**: under limits of its address space, from what the program needs to be loaded at all to what the call needs, LIMITS (200) or a few more of
  them, a page or more apart; a small call needs no more than the loading. Wanted: status 5 and no output, or the right answer.
- **Stack**: the least stack in KiB with which a call ends as it does without a limit. Nothing is asserted of it.

It ends with 1 where something else came.
"""

import os
import resource
import signal
import subprocess
import sys
import tempfile
from pathlib import Path

import real_size
from heaviest import ONE_BUCKET, ONE_GATE, ONE_STAIR, constants, distant, rates, recorded, stairs, sums

TOP = Path(__file__).resolve().parent.parent
KIB = 1024
MIB = 1024 * KIB
PAGE = 4 * KIB


def deep_keys() -> bytes:
    """A dotted key 80 deep, and the same in brackets."""
    return (".".join(["a"] * 80) + " = 1\n").encode()


def deepest() -> bytes:
    """A head 80 deep, and below it a key 80 deep of tables 80 deep in one another, each by a key 80 deep: 6,560 tables."""
    key = ".".join(["a"] * 80)
    return f"[{key}]\n{key} = {('{' + key + ' = ') * 80}1{'}' * 80}\n".encode()


def long_file() -> bytes:
    """A file of 1 MiB: one server, and flows as many as there may be, between comments."""
    head = '[[server]]\nname = "s1"\nrate = 1000000\n'
    bucket = '{ kind = "bucket", burst = 1, rate = 1 }'
    flows = "".join(
        f'[[flow]]\nname = "f{number}"\npacket = 1\narrival = {bucket}\npath = ["s1"]\n' for number in range(256)
    )
    text = head + flows
    return (text + "#" * (MIB - len(text) - 1) + "\n").encode()


def nested() -> bytes:
    return ("a = " + "[" * 80 + "]" * 80 + "\n").encode()


def heavy_closure() -> bytes:
    return (
        '[[server]]\nname = "s1"\nrate = 1000\n[[flow]]\nname = "f0"\npacket = 1\npath = ["s1"]\n'
        '[flow.arrival]\nkind = "list"\nclose = true\n'
        "piece = [{ x = 0, at = 20, after = 20 }, { x = 1, at = 20, after = 31 }, { x = 3, at = 31, after = 50 }]\n"
    ).encode()


def trace(rows: int) -> bytes:
    return "".join(f"packet,{number},a,1000\n" for number in range(rows)).encode()


def stall(rows: int) -> bytes:
    """Packets at a gate that stalls, so that its service is looked at window by window."""
    return "".join(f"packet,{480 * number},f0,12000\n" for number in range(rows)).encode() + b"stall,s0,500,501\n"


def small_calls() -> dict[str, tuple[list[str], dict[str, bytes]]]:
    examples = TOP / "examples"
    one_flow, two_flows = ((examples / f"{name}.toml").read_bytes() for name in ("one_flow", "two_flows"))
    edits = (examples / "two_flows_edits.csv").read_bytes()
    four_packets = b"packet,0,f1,4000\npacket,10,f1,4000\npacket,10,f1,2000\npacket,30,f1,6000\n"
    return {
        "analyse, two flows": (["analyse", "n"], {"n": two_flows}),
        "analyse --json, two flows": (["analyse", "n", "--json"], {"n": two_flows}),
        "analyse, rates over links": (["analyse", "n"], {"n": (examples / "shared/version2.toml").read_bytes()}),
        "analyse, a key 80 deep": (["analyse", "n"], {"n": deep_keys()}),
        "analyse, brackets 80 deep": (["analyse", "n"], {"n": nested()}),
        "analyse, a closure": (["analyse", "n"], {"n": heavy_closure()}),
        "analyse, a cycle": (["analyse", "n"], {"n": (TOP / "tests/limits/a_cycle/n.toml").read_bytes()}),
        "analyse, a total too many": (["analyse", "n"], {"n": (TOP / "tests/limits/a_total_too_many/n.toml").read_bytes()}),
        "edit, two flows": (["edit", "n", "e"], {"n": two_flows, "e": edits}),
        "edit --json, two flows": (["edit", "--json", "n", "e"], {"n": two_flows, "e": edits}),
        "check, one packet": (["check", "n", "r"], {"n": one_flow, "r": (examples / "one_flow_recorded.csv").read_bytes()}),
        "check, an unknown flow": (["check", "n", "r"], {"n": one_flow, "r": b"enter,0,f9,1\nend,1\n"}),
        "measure, four packets": (["measure", "n", "t", "f1", "100"], {"n": one_flow, "t": four_packets}),
        "measure, an unknown flow": (["measure", "n", "t", "f9", "1"], {"n": one_flow, "t": four_packets}),
        "curve, the textbook": (["curve", "c"], {"c": (examples / "textbook.curve").read_bytes()}),
        "curve, a fault": (["curve", "c"], {"c": b"let a = 1/0\n"}),
        "a call without words": ([], {}),
    }


def deep_calls() -> dict[str, tuple[list[str], dict[str, bytes]]]:
    """Such as need much of the stack, of which that alone is looked for: it is address space too, so under a limit of that it ends by a signal."""
    nest = f"show {'close(' * 64}zero{')' * 64}\n".encode()
    return {
        "analyse, keys 80 deep in tables 80 deep": (["analyse", "n"], {"n": deepest()}),
        "check, keys 80 deep in tables 80 deep": (["check", "n", "n"], {"n": deepest()}),
        "curve, an expression 64 deep": (["curve", "c"], {"c": nest}),
    }


def large_calls() -> dict[str, tuple[list[str], dict[str, bytes]]]:
    """Such as need more memory than to be loaded."""
    avionics = (TOP / "examples/avionics.toml").read_bytes()
    return {
        "exercise, the workload 8": (["exercise", "8"], {}),
        "curve, a sum of 26,000 pieces": (["curve", "c"], {"c": sums(1, 13_000).encode()}),
        "check, 3,333 packets": (["check", "n", "r"], {"n": ONE_STAIR.encode(), "r": recorded(3_333, 6000, 60).encode()}),
        "measure, 200 packets": (["measure", "n", "t", "f0", "10"], {"n": ONE_BUCKET.encode(), "t": distant(200).encode()}),
        "edit, 40 rates": (["edit", "n", "e"], {"n": constants(8, 4).encode(), "e": rates(40).encode()}),
        "edit --json, 40 rates": (["edit", "n", "e", "--json"], {"n": constants(8, 4).encode(), "e": rates(40).encode()}),
        "simulate, a gate that stalls": (["simulate", "n", "t"], {"n": ONE_GATE.encode(), "t": stall(500)}),
        "analyse, stairs of 5,000 pieces": (["analyse", "n"], {"n": stairs(2, 5_000).encode()}),
        "simulate, 9,999 packets": (["simulate", "n", "t"], {"n": avionics, "t": trace(9_999)}),
        "analyse, 1 MiB and 256 flows": (["analyse", "n"], {"n": long_file()}),
    }


def table_calls() -> dict[str, tuple[list[str], dict[str, bytes]]]:
    """Those of netbound."""
    calls = {}
    for name in ("a_fork_behind_two_ports", "json_with_deadlines", "a_ring_of_three_ports", "two_priorities", "two_quanta"):
        folder = TOP / "tests/netbound" / name
        words = (folder / "words").read_text().split()
        calls[name.replace("_", " ")] = (words, {file: (folder / file).read_bytes() for file in words if file.endswith(".csv")})
    ports, links = (table.encode() for table in real_size.tables(1, 1, real_size.SHORT))
    words = ["ports.csv", "links.csv"]
    some = b"".join(links.splitlines(keepends=True)[:2000])
    return calls | {
        "help": (["--help"], {}),
        "two files of other columns": (words, {"ports.csv": links, "links.csv": ports}),
        "a fault in the last line": (words, {"ports.csv": ports, "links.csv": some + b"v,1\n"}),
        "2,000 branches": (words, {"ports.csv": ports, "links.csv": some}),
        "6,795 branches": (words, {"ports.csv": ports, "links.csv": links}),
        "6,795 branches in JSON": ([*words, "--json"], {"ports.csv": ports, "links.csv": links}),
        "a table that is too long": (words, {"ports.csv": b"\n" * (2**24 + 1), "links.csv": links}),
        "a call without words": ([], {}),
    }


def run(program: str, words: list[str], folder: Path, kind: int | None = None, size: int = 0) -> tuple[int, bytes]:
    def limit() -> None:
        if kind is not None:
            resource.setrlimit(kind, (size, size))

    child = subprocess.run(
        [program, *words], cwd=folder, stdout=subprocess.PIPE, stderr=subprocess.DEVNULL, preexec_fn=limit, check=False
    )
    return child.returncode, child.stdout


def outputs(program: str, words: list[str], folder: Path) -> list[str]:
    """The ends of the output that were not as wanted."""
    came = {}
    call = [program, *words]
    with open("/dev/full", "wb") as full:
        came["a full device"] = subprocess.run(call, cwd=folder, stdout=full, check=False).returncode
    came["closed"] = subprocess.run(call, cwd=folder, preexec_fn=lambda: os.close(1), check=False).returncode
    reader, writer = os.pipe()
    os.close(reader)
    came["no reader"] = subprocess.run(call, cwd=folder, stdout=writer, restore_signals=False, check=False).returncode
    came["no reader, and the signal as a shell leaves it"] = subprocess.run(call, cwd=folder, stdout=writer, check=False).returncode
    os.close(writer)
    others = [f"output to {end}: status {status}" for end, status in came.items() if status != 4]
    with open(folder / "out", "wb") as out:
        short = subprocess.run(call, cwd=folder, stdout=out, preexec_fn=short_files, check=False).returncode
    return others + ([] if short == -signal.SIGXFSZ else [f"output of 10 bytes at most: status {short}"])


def short_files() -> None:
    resource.setrlimit(resource.RLIMIT_FSIZE, (10, 10))


def memory(program: str, words: list[str], folder: Path, loads: int, count: int) -> tuple[str, dict[str, int]]:
    """What came under limits on memory, and how many limits were tried by what came."""
    wanted = run(program, words, folder)
    needs = max(loads, least(lambda size: run(program, words, folder, resource.RLIMIT_AS, size) == wanted, 512 * MIB, PAGE))
    step = max(PAGE, (needs - loads) // count // PAGE * PAGE)
    counts = {"right": 0, "out of memory": 0, "another": 0}
    for size in range(loads, needs + step, step):
        came = run(program, words, folder, resource.RLIMIT_AS, size)
        counts["right" if came == wanted else "out of memory" if came == (5, b"") else "another"] += 1
    return f"needs {needs // KIB:,} KiB; limits tried: {counts}", counts


def least(holds, most: int, step: int) -> int:
    """The least multiple of a step, up to a most, from which on something holds; by halves."""
    low, high = 0, most // step
    while low < high:
        middle = (low + high) // 2
        if holds(middle * step):
            high = middle
        else:
            low = middle + 1
    return low * step


def main() -> None:
    if len(sys.argv) not in (2, 3, 4):
        sys.exit(__doc__)
    program = str(Path(sys.argv[1]).resolve())
    count = int(sys.argv[2]) if len(sys.argv) > 2 else 200
    word = sys.argv[3] if len(sys.argv) > 3 else ""
    loads = least(lambda size: run(program, [], TOP, resource.RLIMIT_AS, size)[0] == 2, 64 * MIB, PAGE)
    print(f"the program is loaded with {loads // KIB:,} KiB")
    tried = wrong = limits = deepest = 0
    is_netbound = Path(program).name.startswith("netbound")
    deep = {} if is_netbound else deep_calls()
    for what, (words, files) in (table_calls() if is_netbound else small_calls() | deep | large_calls()).items():
        if word not in what:
            continue
        with tempfile.TemporaryDirectory(prefix="process_limits_") as name:
            folder = Path(name)
            for file, text in files.items():
                (folder / file).write_bytes(text)
            others = outputs(program, words, folder)
            said, counts = ("", {"another": 0}) if what in deep else memory(program, words, folder, loads, count)
            wanted = run(program, words, folder)
            stack = least(lambda size: run(program, words, folder, resource.RLIMIT_STACK, size) == wanted, 8 * MIB, PAGE)
        print("; ".join(filter(None, [f"{what}: status {wanted[0]}", said, f"stack {stack // KIB} KiB", *others])), flush=True)
        tried += 1
        wrong += len(others) + counts["another"]
        limits += sum(counts.values())
        deepest = max(deepest, stack)
    print(f"{tried} calls, each with five ends of its output; {limits:,} limits of memory; {deepest // KIB} KiB of stack at most; {wrong} ends not wanted")
    sys.exit(1 if wrong else 0)


if __name__ == "__main__":
    main()
