#!/usr/bin/env python3
"""Networks of the shape of a real avionics network, and what netbound and the plain program of its rules take for them.

    python3 bench/real_size.py [--short] NETBOUND [SEED [SIZE ..]]    times and memory, a line a size (1, 4 and 10)
    python3 bench/real_size.py [--short] --write FOLDER [SEED [SIZE]]    writes the two tables alone

A size of 1 has 104 end systems at 8 switches with 12 cables between them: 232 ports of 100 Mbit/s, 974 multicast links
of 6,795 branches, gaps of 2 to 128 milliseconds, frames of 84 to 1,538 bytes on the wire, and a deadline of
28.7 milliseconds for each branch. A size of k has k such clusters, each with one of its cables to the next one, and a tenth
of the branches go over. No path goes up and then down again in the order of the switches, so that there is no cycle.

Names have 15 to 29 characters (own choice), as many at each size: the tables of 974 links take 0.8 MB. With --short they are
as short as can be, and longer in larger networks: 10 times the branches are then 11.9 times the bytes, else 10.5 times.
examples/avionics_real has the tables of seed 1 and size 1 with short names. Paths of larger networks are longer, since
branches go over: 10 times the branches are 10.9 times the nodes of trees.

Each child asks for large pages, as the launcher has netbound do, unless GLIBC_TUNABLES is set (set to nothing, none does). Processor
time is that of each child, the least of twenty runs, taken in turn at each size, of the Python one run. The largest
memory is that which /usr/bin/time tells of a run by itself (where there is none it is not told: what the system tells of a child begins with
what its parent has). The branches a second are those of netbound, and the last lines say how much longer a larger network takes. Where there
is a cargo, the same is timed in plain Rust (bench/twin, src/tables.rs). It ends with 1 where they print unlike lines.
"""

import os
import random
import shutil
import subprocess
import sys
import tempfile
import time
from dataclasses import dataclass
from pathlib import Path

TWIN = Path(__file__).resolve().parent / "plain_document.py"
SYSTEMS, SWITCHES, CABLES, LINKS, BRANCHES = 104, 8, 12, 974, 6795
DEADLINE = 28_700
RUNS = 20
GAPS = {2: 1, 4: 2, 8: 4, 16: 8, 32: 16, 64: 24, 128: 45}


@dataclass(frozen=True)
class Names:
    """How links are named, and the ports of an end system, of a cable from switch to switch, and of one to an end system."""

    link: str
    system: str
    cable: str
    last: str


LONG = Names("virtual_link_{:05}", "end_system_{:04}", "switch_{:03}_to_switch_{:03}", "switch_{:03}_to_end_system_{:04}")
SHORT = Names("v{}", "e{}", "s{}_s{}", "s{}_e{}")


def cables_of(draw, size):
    """Pairs of switches, the lower number first: each cluster is connected, and has one cable to the next."""
    found = set()
    for cluster in range(size):
        first = cluster * SWITCHES
        mine = {(first + draw.randrange(k), first + k) for k in range(1, SWITCHES)}
        wanted = CABLES - (1 if cluster + 1 < size else 0)
        while len(mine) < wanted:
            mine.add(tuple(sorted(first + k for k in draw.sample(range(SWITCHES), 2))))
        found |= mine
        if cluster + 1 < size:
            found.add((first, first + SWITCHES))
    return sorted(found)


def ways_from(start, near):
    """For each switch the path to it: to lower numbers first, then to higher ones."""
    before, queue = {(start, "down"): None}, [(start, "down")]
    for at, way in queue:
        for other in near[at]:
            now = "down" if other < at else "up"
            if (way, now) != ("up", "down") and (other, now) not in before:
                before[other, now] = (at, way)
                queue.append((other, now))
    ends = {}
    for state in queue:
        ends.setdefault(state[0], state)
    return {switch: path_to(state, before) for switch, state in ends.items()}


def path_to(state, before):
    path = []
    while state is not None:
        path.append(state[0])
        state = before[state]
    return path[::-1]


def ports_of(systems, cables, names):
    for system in systems:
        yield names.system.format(system)
        yield names.last.format(systems[system], system)
    for a, b in cables:
        yield names.cable.format(a, b)
        yield names.cable.format(b, a)


def ports_table(systems, cables, names):
    yield "name,rate,latency,link,discipline"
    for name in ports_of(systems, cables, names):
        yield f"{name},100,16,1,fifo"


def counts_of(draw, links, branches):
    """How many branches each link has."""
    counts = [1] * links
    weights = [draw.expovariate(1) for _ in range(links)]
    for place in draw.choices(range(links), weights, k=branches * 2):
        if sum(counts) < branches and counts[place] < 60:
            counts[place] += 1
    return counts


def links_table(draw, size, systems, ways, names):
    yield "name,bag,largest_frame,jitter,priority,path,deadline"
    counts = [count for _ in range(size) for count in counts_of(draw, LINKS, BRANCHES)]
    for number, count in enumerate(counts):
        cluster = number // LINKS
        source = draw.randrange(cluster * SYSTEMS, (cluster + 1) * SYSTEMS)
        gap = draw.choices(list(GAPS), list(GAPS.values()))[0]
        usual = draw.choice([64, 128, 200, 300, 400, 500, 1000, 1518])
        frame = usual if draw.random() < 0.8 else draw.randint(64, 1518)
        jitter = draw.choice([0, 0, 500])
        ends = set()
        while len(ends) < count:
            near = size == 1 or draw.random() < 0.9
            home = cluster if near else draw.randrange(max(cluster - 1, 0), min(cluster + 2, size))
            end = draw.randrange(home * SYSTEMS, (home + 1) * SYSTEMS)
            ends |= {end} - {source}
        for end in sorted(ends):
            switches = ways[systems[source]][systems[end]]
            hops = [names.cable.format(a, b) for a, b in zip(switches, switches[1:])]
            path = " ".join([names.system.format(source), *hops, names.last.format(systems[end], end)])
            yield f"{names.link.format(number)},{gap},{frame},{jitter},0,{path},{DEADLINE}"


def tables(seed, size, names=LONG):
    draw = random.Random(seed)
    systems = {number: number // SYSTEMS * SWITCHES + number % SYSTEMS % SWITCHES for number in range(SYSTEMS * size)}
    cables = cables_of(draw, size)
    near = {switch: [] for switch in range(SWITCHES * size)}
    for a, b in cables:
        near[a].append(b)
        near[b].append(a)
    ways = {switch: ways_from(switch, near) for switch in near}
    ports = "\n".join(ports_table(systems, cables, names)) + "\n"
    return ports, "\n".join(links_table(draw, size, systems, ways, names)) + "\n"


def write(folder, seed, size, names):
    for name, text in zip(["ports.csv", "links.csv"], tables(seed, size, names)):
        (Path(folder) / name).write_text(text)


def measured(words, folder, name):
    """The status and the bytes; seconds of processor time and of the clock."""
    with open(Path(folder) / name, "wb") as out:
        began = time.monotonic()
        child = os.posix_spawnp(words[0], words, os.environ, file_actions=[(os.POSIX_SPAWN_DUP2, out.fileno(), 1)])
        _, status, used = os.wait4(child, 0)
    clock = time.monotonic() - began
    answer = os.waitstatus_to_exitcode(status), (Path(folder) / name).read_bytes()
    return answer, used.ru_utime + used.ru_stime, clock


def memory_of(words, folder):
    """The most memory of a call in MiB, or none where there is no /usr/bin/time."""
    if not Path("/usr/bin/time").exists():
        return None
    told = Path(folder) / "memory"
    subprocess.run(["/usr/bin/time", "-o", told, "-f", "%M", *words], stdout=subprocess.DEVNULL)
    return int(told.read_text().split()[-1]) / 1024


def plain_rust(folder):
    """The program in plain Rust, or none where it cannot be built."""
    if shutil.which("cargo") is None:
        return None
    copy = Path(folder) / "twin"
    shutil.copytree(TWIN.parent / "twin", copy, ignore=shutil.ignore_patterns("target"))
    subprocess.run(["cargo", "build", "--release", "--offline", "--quiet", "--bin", "tables"], cwd=copy, check=True)
    return str(copy / "target" / "release" / "tables")


class Network:
    """A network's tables, and the best of the runs on them so far."""

    def __init__(self, folder, seed, size, names):
        self.folder = Path(folder) / str(size)
        self.folder.mkdir()
        write(self.folder, seed, size, names)
        self.files = [str(self.folder / name) for name in ["ports.csv", "links.csv"]]
        self.least = {}

    def run(self, words):
        came = measured([*words, *self.files], self.folder, "out")
        self.least[words[-1]] = min(self.least.get(words[-1], came), came, key=lambda run: run[1])

    def told(self, program, rust):
        """Prints a line, and tells whether all print the same, the seconds, and the branches."""
        ours, plain, twin = (self.least.get(word) for word in [program, str(TWIN), rust])
        same = ours[0] == plain[0] and (twin is None or twin[0] == plain[0])
        sizes = " and ".join(f"{Path(file).stat().st_size / 1e6:.1f}" for file in self.files)
        head = plain[0][1].split(b"\n")[0].decode()
        none, missed = (plain[0][1].count(word) for word in (b" none", b" missed"))
        branches = int(head.split()[-1])
        took = max(ours[1], 0.001)
        memory = memory_of([program, *self.files], self.folder)
        print(
            f"{head} ({sizes} MB, {none} none, {missed} missed):",
            f"netbound {ours[1]:.4f} s ({ours[2]:.3f} s by the clock), {branches / took:,.0f} branches a second,",
            f"{memory:.0f} MiB;" if memory else "memory not told;",
            f"in plain Rust {twin[1]:.4f} s, so {ours[1] / max(twin[1], 0.001):.1f} times as long;" if twin else "no cargo;",
            f"in Python {plain[1]:.2f} s;",
            "the same" if same else "NOT the same",
            flush=True,
        )
        return same, took, branches


def main(words):
    if not words or "--help" in words:
        print(__doc__.strip())
        return 0 if words else 2
    os.environ.setdefault("GLIBC_TUNABLES", "glibc.malloc.hugetlb=1")  # as the launcher does
    names = SHORT if words[:1] == ["--short"] else LONG
    words = words[1:] if names is SHORT else words
    if words[:1] == ["--write"]:
        seed, size = [int(word) for word in words[2:]] + [1, 1][len(words[2:]) :]
        write(words[1], seed, size, names)
        return 0
    seed, *sizes = [int(word) for word in words[1:]] or [1]
    with tempfile.TemporaryDirectory() as folder:
        rust = plain_rust(folder)
        networks = [Network(folder, seed, size, names) for size in sizes or [1, 4, 10]]
        for network in networks:
            network.run([sys.executable, str(TWIN)])
        for _ in range(RUNS):
            for network in networks:
                for program in [words[0], rust] if rust else [words[0]]:
                    network.run([program])
        found = [network.told(words[0], rust) for network in networks]
    for _, seconds, branches in found[1:]:
        _, first, few = found[0]
        print(f"{branches / few:.1f} times the branches: {seconds / first:.1f} times the time")
    return 0 if all(same for same, _, _ in found) else 1


if __name__ == "__main__":
    sys.exit(main(sys.argv[1:]))
