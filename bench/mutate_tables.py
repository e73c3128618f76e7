#!/usr/bin/env python3
"""Runs netbound on tables that were changed at random, and compares each answer with the plain program of its rules.

    python3 bench/mutate_tables.py NETBOUND [CASES] [SEED] [FOLDER]

CASES (1000) times two tables are drawn: of tests/netbound, of the refused ones of tests/netbound_cases.py, or odd ones made at
random, with numbers at the edges of what is taken, each discipline, gates, trees and rings. Half of them are then
changed one to eight times, as bench/mutate.py changes a file, or in a cell. netbound runs on them with a limit of 10 seconds of processor
time and 2 GiB of memory. Wanted: no signal, nothing on standard error, and the status and the bytes of bench/plain_document.py.

What is not wanted is printed with the number of its case, and kept in FOLDER where one is named. The last line says how many cases there were and
how many of each status. It ends with 1 where something was not as wanted.
"""

import random
import sys
import tempfile
from collections import Counter
from pathlib import Path

import plain_document
from mutate import CHANGES, Came, Case, keep, spliced

TOP = Path(__file__).resolve().parent.parent
sys.path.insert(0, str(TOP / "tests"))
import netbound_cases  # noqa: E402

FILES = ["ports.csv", "links.csv"]
CELLS = """
    0 1 00 1.5 3/2 1/0 0/5 -1 +1 1e3 .5 5. 1/3 7/8 999999999999999999 1000000000000000000 1/999999999999999999 1000000000 1000000000.1 1000001
    0.000001 0.0000009 0.000000001 0.0000000009 1048576 1048577 2097152 2097153 fifo priority drr FIFO none a b c d v
""".split() + ["", " ", "priority 1", "priority 8", "priority 9", "drr 2000 2000", "drr 125", "1000 100", "1 1", "1 2", "a b", "a a", "b c d", '"']


def known() -> list[dict[str, bytes]]:
    found = []
    for folder in sorted({words.parent for words in TOP.glob("tests/netbound/*/words")}):
        if all((folder / name).is_file() for name in FILES):
            found.append({name: (folder / name).read_bytes() for name in FILES})
    pairs = [(ports, netbound_cases.LINKS) for ports, _ in netbound_cases.BAD_PORTS]
    pairs += [(ports, links) for ports, links, _ in netbound_cases.BAD_LINKS]
    return found + [{"ports.csv": ports.encode(), "links.csv": links.encode()} for ports, links in pairs if len(ports) < 10_000]


def odd_number(draw: random.Random, least: float, most: float) -> str:
    """A number of about the range, often one of its ends."""
    kind = draw.randrange(6)
    if kind == 0:
        return f"{most:.12g}"
    if kind == 1:
        return f"{draw.randint(1, 10**9)}/{draw.randint(1, 10**9)}"
    if kind == 2:
        return f"{max(least, 0.5):.9f}"[:18]
    return f"{draw.uniform(least, draw.choice([most, min(most, 1000), min(most, 20)])):.{draw.choice([0, 1, 3, 6])}f}"[:18]


def usual_or_odd(draw: random.Random, usual: list[str], least: float, most: float) -> str:
    return draw.choice(usual) if draw.random() < 0.95 else odd_number(draw, least, most)


def odd_port(draw: random.Random, name: str) -> str:
    rate = usual_or_odd(draw, ["10", "100", "100", "1000"], 0.000001, 10**6)
    times = [usual_or_odd(draw, ["", "0", "16", "2.5"], 0, 10**9 if draw.random() < 0.1 else 100) for _ in range(2)]
    quanta = " ".join(str(draw.choice([1538, 2000, 4000, 2097152])) for _ in range(draw.randint(3, 8)))
    discipline = draw.choice(["", "fifo", f"priority {draw.randint(2, 8)}", f"drr {quanta}"])
    cycle = draw.choice([200, 1000, 1000000000])
    gate = draw.choice(["", "", "", "", f"{cycle} {draw.randint(1, 10) * cycle // 10}", f"{cycle} 0.000001"])
    return ",".join([name, rate, *times, discipline, gate])


def odd_rows(draw: random.Random, names: list[str], link: str) -> list[str]:
    """The branches of a link: paths in the order of the names, rarely in another one."""
    bag = usual_or_odd(draw, ["1", "2", "4", "16", "128"], 0.000000001, 10**6)
    frame = draw.choice([64, 105, 1000, 1518, draw.randint(1, 1518), 1048576 if draw.random() < 0.05 else 84])
    jitter = usual_or_odd(draw, ["", "0", "500"], 0, 10**9 if draw.random() < 0.1 else 1000)
    priority = draw.choice(["", "0", "0", "1", "2" if draw.random() < 0.8 else "7"])
    chosen = [name for name in names if draw.random() < 0.6] or names[:1]
    if draw.random() < 0.05:
        draw.shuffle(chosen)
    rows = []
    for _ in range(draw.choice([1, 1, 2, 3])):
        path = " ".join(chosen[: draw.randint(1, len(chosen))])
        deadline = usual_or_odd(draw, ["", "", str(draw.randint(0, 3000)), "1/3"], 0, 2000)
        rows.append(f"{link},{bag},{frame},{jitter},{priority},{path},{deadline}")
    return rows


def odd(draw: random.Random) -> dict[str, bytes]:
    names = [chr(ord("a") + number) for number in range(draw.randint(1, 6))]
    ports = [odd_port(draw, name) for name in names]
    rows = [row for number in range(draw.randint(0, 10)) for row in odd_rows(draw, names, f"v{number}")]
    if draw.random() < 0.3:
        draw.shuffle(rows)
    texts = [netbound_cases.PORTS + "\n".join(ports) + "\n", netbound_cases.LINKS + "\n".join(rows) + "\n"]
    return {name: text.encode() for name, text in zip(FILES, texts)}


def changed_cell(draw: random.Random, text: bytes) -> bytes:
    """Another text in a cell."""
    lines = text.split(b"\n")
    place = draw.randrange(len(lines))
    cells = lines[place].split(b",")
    cells[draw.randrange(len(cells))] = draw.choice(CELLS).encode()
    lines[place] = b",".join(cells)
    return b"\n".join(lines)


def drawn(draw: random.Random, tables: list[dict[str, bytes]]) -> Case:
    files = dict(draw.choice(tables)) if draw.random() < 0.2 else odd(draw)
    if draw.random() < 0.5:
        for _ in range(draw.choice([1, 1, 1, 2, 3, 8])):
            name = draw.choice(FILES)
            if draw.random() < 0.1:
                files[name] = spliced(draw, files[name], draw.choice(tables)[draw.choice(FILES)])
            else:
                files[name] = draw.choice([changed_cell] * 5 + CHANGES)(draw, files[name])[:200_000]
    words = [*FILES]
    if draw.random() < 0.3:
        words += ["--overhead", str(draw.choice([0, 1, 20, 24, 1048576]))]
    if draw.random() < 0.3:
        words.insert(draw.randrange(len(words) + 1) if len(words) == 2 else 0, "--json")
    return Case(words, files)


def wanted(case: Case) -> tuple[int, bytes]:
    words = [word for word in case.words if word != "--json"]
    overhead = int(words[3]) if len(words) > 2 else 20
    try:
        lines, status = plain_document.answer(FILES, [case.files[name] for name in FILES], overhead, "--json" in case.words)
    except plain_document.Fault as fault:
        return fault.status, f"netbound: {fault}\n".encode()
    return status, "".join(line + "\n" for line in lines).encode()


def unwanted(came: Came, case: Case) -> str:
    """Why what came is not wanted; nothing where it is."""
    if came.status is None or came.status < 0:
        return f"ended by {'time' if came.status is None else f'the signal {-came.status}'}"
    if came.err:
        return "wrote on standard error"
    status, text = wanted(case)
    if came.status != status:
        return f"status {came.status}, wanted {status}"
    return "" if came.out == text else f"wrote {came.out[:200]!r}, wanted {text[:200]!r}"


def main() -> None:
    if len(sys.argv) not in (2, 3, 4, 5):
        sys.exit(__doc__)
    program = str(Path(sys.argv[1]).resolve())
    count, seed = [int(word) for word in sys.argv[2:4]] + [1000, 1][len(sys.argv[2:4]) :]
    kept = Path(sys.argv[4]) if len(sys.argv) > 4 else None
    tables, others, statuses = known(), 0, Counter()
    with tempfile.TemporaryDirectory(prefix="mutate_tables_") as name:
        for number in range(count):
            case = drawn(random.Random(seed * 1_000_003 + number), tables)
            came = Came(program, case, Path(name))
            statuses[came.status] += 1
            said = unwanted(came, case)
            if said:
                others += 1
                print(f"case {number} of seed {seed}: {' '.join(case.words)}: {said}", flush=True)
                keep(kept, f"{seed}_{number}", case)
    told = ", ".join(f"{statuses[status]} with status {status}" for status in sorted(statuses, key=str))
    print(f"{count} pairs of tables of seed {seed}: {told}; {others} not as wanted")
    sys.exit(1 if others else 0)


if __name__ == "__main__":
    main()
