#!/usr/bin/env python3
"""The cases of tests/netbound, and tables that are refused, a row each, against a program.

    python3 tests/netbound_cases.py PROGRAM [WORD ..]

PROGRAM with its first words is tried, as `python3 bench/plain_document.py` for the plain one beside it; that one refuses
no words, so cases of words are left out there.
"""

import os
import subprocess
import sys
import tempfile
from pathlib import Path

HERE = Path(__file__).resolve().parent
PORTS = "name,rate,latency,link,discipline,gate\n"
LINKS = "name,bag,largest_frame,jitter,priority,path,deadline\n"
A = PORTS + "a,100,,,\n"
P2 = PORTS + "a,100,,,priority 2\nb,100,,,drr 125 250\nc,100,,,\n"
MANY = "\n".join(f"a{n},1,,," for n in range(4097)) + "\n"
PATH = " ".join(f"a{n}" for n in range(65))
NUMBER = "write a number as 12, 1.5 or 3/2, of at most 18 digits in all, or on each side of the slash"
TIME = "write microseconds, from 0 to 1000000000"
PICOSECONDS = "write microseconds with at most 6 digits behind the point"
NAME = "write 1 to 32 letters, digits, _ or -"
RATE = "write Mbit/s, from 0.000001 to 1000000"
BAG = "write milliseconds, from 0.000000001 to 1000000"
FRAME = "write bytes, a whole number from 1 to 1048576"
KIND = "write fifo, priority N (1 to 8) or drr Q0 Q1 .. (1 to 8 quanta of 1 to 2097152 bytes)"
GATE = "write CYCLE SLOT in microseconds, the slot from 0.000001 to the cycle, the cycle to 1000000000"


def port(cells):
    return PORTS + cells + "\n"


def link(cells):
    return LINKS + cells + "\n"


# A table of ports, and what is said of it behind the name of the file.
BAD_PORTS = [
    ("", "line 1 column name: the head line lacks it: add the column"),
    ("\n\n,,\n", "line 1 column name: the head line lacks it: add the column"),
    ("name,rate,latency,link\n", "line 1 column discipline: the head line lacks it: add the column"),
    ("\nname,rate,latency,rate,link\n", "line 2 column rate: the head line has it twice: keep one"),
    ("gate,name,rate,latency,link,discipline,gate\n", "line 1 column gate: the head line has it twice: keep one"),
    (port("a,1,,,,,x"), "line 2 column name: more cells than the head line: put a cell with a comma into double quotes"),
    (PORTS + MANY, "line 4098 column name: one row too many: write at most 4096 ports and 131072 branches"),
    (port(",1,,,"), f"line 2 column name: empty: {NAME}"),
    (port("a b,1,,,"), f"line 2 column name: no name: {NAME}"),
    (port("n" * 33 + ",1,,,"), f"line 2 column name: no name: {NAME}"),
    (port("a,1,,,\n\n a ,x,,,"), "line 4 column name: an earlier row has this name: give each port a name of its own"),
    (port("a,,,,"), f"line 2 column rate: empty: {RATE}"),
    (port("a,+1,,,"), f"line 2 column rate: no number: {NUMBER}"),
    (port("a,1e3,,,"), f"line 2 column rate: no number: {NUMBER}"),
    (port("a,1/0,,,"), f"line 2 column rate: no number: {NUMBER}"),
    (port("a,1.234567890123456789,,,"), f"line 2 column rate: no number: {NUMBER}"),
    (port("a,0,,,"), f"line 2 column rate: below the least: {RATE}"),
    (port("a,0.00000099,,,"), f"line 2 column rate: below the least: {RATE}"),
    (port("a,1000000.1,,,"), f"line 2 column rate: above the most: {RATE}"),
    (port("a,1,1000000000.1,,"), f"line 2 column latency: above the most: {TIME}"),
    (port("a,1,,-1,"), f"line 2 column link: no number: {NUMBER}"),
    (port("a,1,,0.0000001,"), f"line 2 column link: no whole number of picoseconds: {PICOSECONDS}"),
    (port("a,1,,1/3,"), f"line 2 column link: no whole number of picoseconds: {PICOSECONDS}"),
    (port("a,1,,1000000000.1,"), f"line 2 column link: above the most: {TIME}"),
    (port("a,1,,,FIFO"), f"line 2 column discipline: no discipline: {KIND}"),
    (port("a,1,,,fifo 1"), f"line 2 column discipline: no discipline: {KIND}"),
    (port("a,1,,,priority"), f"line 2 column discipline: no discipline: {KIND}"),
    (port("a,1,,,priority 9"), f"line 2 column discipline: no discipline: {KIND}"),
    (port("a,1,,,drr"), f"line 2 column discipline: no discipline: {KIND}"),
    (port("a,1,,,drr 1 0"), f"line 2 column discipline: no discipline: {KIND}"),
    (port("a,1,,,drr 2097153"), f"line 2 column discipline: no discipline: {KIND}"),
    (port("a,1,,,drr 1 1 1 1 1 1 1 1 1"), f"line 2 column discipline: no discipline: {KIND}"),
    (port("a,1,,,,1"), f"line 2 column gate: no gate: {GATE}"),
    (port("a,1,,,,1 1 1"), f"line 2 column gate: no gate: {GATE}"),
    (port("a,1,,,,1 x"), f"line 2 column gate: no number: {NUMBER}"),
    (port("a,1,,,,1 0.0000009"), f"line 2 column gate: below the least: {GATE}"),
    (port("a,1,,,,1 1.1"), f"line 2 column gate: the slot is longer than the cycle: {GATE}"),
    (port("a,1,,,,1000000001 1"), f"line 2 column gate: above the most: {GATE}"),
]

# Ports, a table of links over them, and what is said of that.
BAD_LINKS = [
    (A, "", "line 1 column name: the head line lacks it: add the column"),
    (A, "name,bag,largest_frame,jitter,path\n", "line 1 column priority: the head line lacks it: add the column"),
    (A, LINKS[:-1] + ",path\n", "line 1 column path: the head line has it twice: keep one"),
    (A, link("v,1,105,,,a,,x"), "line 2 column name: more cells than the head line: put a cell with a comma into double quotes"),
    (A, link("v.,1,105,,,a"), f"line 2 column name: no name: {NAME}"),
    (A, link("v,,105,,,a"), f"line 2 column bag: empty: {BAG}"),
    (A, link("v,0.0000000009,105,,,a"), f"line 2 column bag: below the least: {BAG}"),
    (A, link("v,1000001,105,,,a"), f"line 2 column bag: above the most: {BAG}"),
    (A, link("v,1,,,,a"), f"line 2 column largest_frame: empty: {FRAME}"),
    (A, link("v,1,1.5,,,a"), f"line 2 column largest_frame: no whole number: {FRAME}"),
    (A, link("v,1,0,,,a"), f"line 2 column largest_frame: below the least: {FRAME}"),
    (A, link("v,1,1048577,,,a"), f"line 2 column largest_frame: above the most: {FRAME}"),
    (A, link("v,1,105,x,,a"), f"line 2 column jitter: no number: {NUMBER}"),
    (A, link("v,1,105,,8,a"), "line 2 column priority: above the most: write a whole number from 0 to 7"),
    (A, link("v,1,105,,, "), "line 2 column path: empty: write 1 to 64 names of ports with spaces between them"),
    (A, link(f"v,1,105,,,{PATH}"), "line 2 column path: more than 64 ports: write 1 to 64 names of ports with spaces between them"),
    (A, link("v,1,105,,,b,x"), f"line 2 column deadline: no number: {NUMBER}"),
    (A, link("v,1,105,,,a b"), "line 2 column path: port 2 has no row in the table of ports: write a name of the table of ports"),
    (A, link("v,1,105,,,a b.c"), "line 2 column path: port 2 has no row in the table of ports: write a name of the table of ports"),
    (P2, link("v,1,105,,,a c a"), "line 2 column path: port 3 stands in the path before: pass each port once"),
    (
        P2,
        link("v,1,105,,2,c a"),
        "line 2 column path: port 2 has no queue of this priority: write a lower priority, or give the port more queues",
    ),
    (
        P2,
        link("v,1,105,,,b\nw,1,106,,,b"),
        "line 3 column path: port 1 has a quantum shorter than the frame: make the quantum as long as the frame with the overhead",
    ),
    (P2, link("v,1,105,,,a c\nv,2/2,105,0,0,c"), "line 3 column path: begins at another port than the link: begin the paths of a link at one port"),
    (
        P2,
        link("v,1,105,,,a c\nw,1,105,,,c\nv,1,105,,,a b c"),
        "line 4 column path: port 3 comes after another port than in an earlier path: let it come after one port in all paths of the link",
    ),
    *[
        (P2, link(f"v,1,105,,,a c\nv,{cells},a b"), f"line 3 column {column}: {WHAT}")
        for cells, column in [("2,106,1,1", "bag"), ("1,106,1,1", "largest_frame"), ("1,105,1,1", "jitter"), ("1,105,,1", "priority")]
        for WHAT in ["another one than in the first row of the link: write the same in each row of the link"]
    ],
    (A, link(",1,105,,,a"), f"line 2 column name: empty: {NAME}"),
    (A, link("v,1,105,1000000000.1,,a"), f"line 2 column jitter: above the most: {TIME}"),
    (A, link("v,1,105,,x,a"), "line 2 column priority: no whole number: write a whole number from 0 to 7"),
    (A, link("v,1,105,,,a,1000000000.1"), f"line 2 column deadline: above the most: {TIME}"),
    (A, LINKS + "".join(f"v{number},1,105,,,a\n" for number in range(16385)), "line 16386 column name: one link too many: write at most 16384 links"),
    (
        A,
        LINKS + "v,1,105,,,a\n" * 131073,
        "line 131074 column name: one row too many: write at most 4096 ports and 131072 branches",
    ),
    # A cell in quotes may hold ends of lines; lines count from 1.
    (A, 'name,bag,largest_frame,jitter,priority,path,"a\nnote"\n\nv,1,105,,,"a\n b",\n', "line 4 column path: port 2 has no row in the table of ports: write a name of the table of ports"),
]


def run(program, folder, words):
    ended = subprocess.run([*program, *words], cwd=folder, stdin=subprocess.DEVNULL, capture_output=True, check=False)
    return ended.returncode, ended.stdout


def in_folders(program, plain):
    """Each folder: its name, what is wanted, what came."""
    for folder in sorted(path.parent for path in (HERE / "netbound").glob("*/words")):
        words = (folder / "words").read_text().split()
        status = int((folder / "status").read_text()) if (folder / "status").exists() else 0
        wanted = status, (folder / "stdout").read_bytes()
        if plain and (status == 2 or "--" in words or not words[0].startswith(("ports", "--o", "--j"))):
            continue
        got = run(program, folder, words)
        yield folder.name, wanted, got


def in_rows(program):
    """The same of each row of refused tables."""
    bad_ports = [(ports, LINKS, "ports.csv " + said) for ports, said in BAD_PORTS]
    for ports, links, said in bad_ports + [(ports, links, "links.csv " + said) for ports, links, said in BAD_LINKS]:
        with tempfile.TemporaryDirectory() as folder:
            (Path(folder) / "ports.csv").write_text(ports)
            (Path(folder) / "links.csv").write_text(links)
            yield said, (1, f"netbound: {said}\n".encode()), run(program, folder, ["ports.csv", "links.csv"])


def too_long(program):
    """A table of 2^24 bytes is read, and one of a byte more is not."""
    for more, wanted in [(0, (0, b"ports 0 links 0 branches 0\n")), (1, (1, b"netbound: ports.csv: too long\n"))]:
        with tempfile.TemporaryDirectory() as folder:
            (Path(folder) / "ports.csv").write_text(PORTS + "\n" * (2**24 - len(PORTS) + more))
            (Path(folder) / "links.csv").write_text(LINKS)
            yield f"{more} bytes more than a table may have", wanted, run(program, folder, ["ports.csv", "links.csv"])


def odd_names(program):
    """A table by a name that is not UTF-8, or that has U+FFFD, is told as one that cannot be read."""
    with tempfile.TemporaryDirectory() as folder:
        (Path(folder) / "ports.csv").write_text(PORTS)
        for name in (b"\xe9.csv", "\ufffd.csv".encode()):
            (Path(folder) / os.fsdecode(name)).write_text(LINKS)
            yield f"a table by the name {name}", (3, "netbound: cannot read \ufffd.csv\n".encode()), run(program, folder, ["ports.csv", name])


def main(program):
    program = [str(Path(word).resolve()) if Path(word).exists() else word for word in program]
    plain = any(word.endswith("plain_document.py") for word in program)
    passed = failed = 0
    names = [] if plain else odd_names(program)
    for name, wanted, got in [*in_folders(program, plain), *in_rows(program), *too_long(program), *names]:
        passed += got == wanted
        if got != wanted:
            failed += 1
            print(f"{name}: wanted {wanted}, got {got}", file=sys.stderr)
    print(f"cases of netbound: {passed} passed, {failed} failed")
    return failed > 0


if __name__ == "__main__":
    sys.exit(main(sys.argv[1:]))
