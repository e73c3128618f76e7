#!/usr/bin/env python3
"""What edits and undos cost beside a fresh analysis of the whole network.

    python3 bench/edits.py NETCALC [instructions]

NETCALC is the program. Two networks of 64 servers and 96 flows of stairs: a row, with paths of up to four servers anywhere in it (that of
bench/analysis.py), and 16 islands of four servers each, with paths in one of them. Of each a link, the rate of the last server and of the
first, a bucket, a packet, one flow more and one less, each with its undo.

A line an edit, as a row of a table: the cells that it touches; the share of their work in that of all cells (operators on curves, counted here by a
model of the network); its cost, and that as a share of a fresh analysis; this share over that of the work; what its undo costs; and how many times as
much a fresh analysis does. It stops where the program touches other cells than the model; nothing is asserted about costs.

With `instructions` a cost is in millions of instructions, which valgrind counts in one run, from one line of the report on edits to the next: the mean
of some edits of the kind, each with its undo behind it. There is one column more, what of an edit's cost is for its cells. A fresh analysis is a run up to the first of these lines, and behind the last one, less a
run whose edit list is refused, so that the files are only read. A busy machine does not change that.

Else a cost is processor time in milliseconds, the least of several runs. A fresh analysis is a run without edits less one whose edit list is refused.
An undo is a run of edits and undos of all of them less one of these edits, which leave the network as it was, since behind each comes one that takes it
back, so that both runs write the same report (a flow that is dropped comes back by no edit: there the report has a flow more after each undo). An edit is
a run of edits, each with its undo behind it, less a run without edits and the undos. An undo takes about as long as such runs differ by, so the two
least of them count against it. A busy machine makes the times of short edits worthless.
"""

import os
import re
import subprocess
import sys
import tempfile
from pathlib import Path

from analysis import DISCIPLINES, QUEUES, flow_text, paths, server_text

SERVERS = 64
RUNS = 9
REPEATS = 4
# as flow_text and server_text write them
STAIR, LATENCY = "stair", 10


class Net:
    """What the cells of a network read: servers by number; flows by number, those that were dropped as None."""

    def __init__(self, all_paths: list[list[int]]) -> None:
        self.service = [(100, LATENCY)] * SERVERS
        self.link = [0] * SERVERS
        self.discipline = [DISCIPLINES[server % len(DISCIPLINES)] for server in range(SERVERS)]
        self.packet: list[int | None] = [1000 * (1 + flow % 12) for flow in range(len(all_paths))]
        self.arrival = [(STAIR, flow) for flow in range(len(all_paths))]
        self.path = [[(server, self.queue(server, flow)) for server in way] for flow, way in enumerate(all_paths)]

    def queue(self, server: int, flow: int) -> int:
        return 0 if QUEUES[self.discipline[server]] == 1 else flow % 2

    def live(self) -> list[int]:
        return [flow for flow, packet in enumerate(self.packet) if packet is not None]

    def cells(self) -> dict[tuple, tuple[object, list[tuple], int]]:
        """What each cell is made of beside other cells, those cells, and its work."""
        here: dict[tuple[int, int], list[tuple[int, int]]] = {}
        for flow in self.live():
            for hop, place in enumerate(self.path[flow]):
                here.setdefault(place, []).append((flow, hop))
        made: dict[tuple, tuple[object, list[tuple], int]] = {}
        for server, name in enumerate(self.discipline):
            for queue in range(QUEUES[name]):
                self.at_queue(made, here, server, queue)
        for flow in self.live():
            for hop in range(len(self.path[flow])):
                self.at_hop(made, here, flow, hop)
            self.along(made, flow)
        return made

    def longest(self, visits: list[tuple[int, int]]) -> int:
        return max((self.packet[flow] for flow, _ in visits), default=0)

    def at_queue(self, made: dict, here: dict, server: int, queue: int) -> None:
        name, visits = self.discipline[server], here.get((server, queue), [])
        service, total = ("queue service", server, queue), ("total", server, queue)
        lanes = [here.get((server, lane), []) for lane in range(QUEUES[name])]
        made[total] = None, [("in", *visit) for visit in visits], max(len(visits) - 1, 0)
        if name == "priority":
            made["higher", server, queue] = None, [("total", server, lane) for lane in range(queue)], max(queue - 1, 0)
            lower = max(map(self.longest, lanes[queue + 1 :]), default=0)
            made[service] = (self.service[server], lower), [("higher", server, queue)], 3
        elif name == "drr":
            made[service] = (self.service[server], *map(self.longest, lanes)), [], 2
        else:
            made[service] = self.service[server], [], 0
        made["queue delay", server, queue] = None, [total, service], 1
        made["queue backlog", server, queue] = self.longest(visits), [total, service], 2

    def at_hop(self, made: dict, here: dict, flow: int, hop: int) -> None:
        def cell(kind: str) -> tuple:
            return kind, flow, hop

        place = self.path[flow][hop]
        service = ("queue service", *place)
        others = [("in", *visit) for visit in here[place] if visit[0] != flow]
        made[cell("in")] = (None, [("out", flow, hop - 1)], 0) if hop else (self.arrival[flow], [], 0)
        made[cell("cross")] = None, others, max(len(others) - 1, 0)
        made[cell("theta")] = None, [cell("cross"), service], 1
        made[cell("residual")] = None, [service, cell("cross"), cell("theta")], 1
        made[cell("hop delay")] = None, [("queue delay", *place), cell("in"), cell("residual")], 1
        if hop + 1 < len(self.path[flow]):
            made[cell("shift out")] = None, [cell("in"), cell("hop delay")], 1
            made[cell("deconv out")] = self.packet[flow], [cell("in"), cell("residual")], 2
            made[cell("out")] = None, [cell("shift out"), cell("deconv out")], 1

    def along(self, made: dict, flow: int) -> None:
        hops = range(len(self.path[flow]))
        links = [self.link[server] for server, _ in self.path[flow]]
        packet = self.packet[flow] if len(hops) > 1 else None
        made["path", flow] = packet, [("residual", flow, hop) for hop in hops], 2 * (len(hops) - 1)
        made["tfa", flow] = links, [("hop delay", flow, hop) for hop in hops], 0
        made["sfa", flow] = links, [("in", flow, 0), ("path", flow)], 1
        made["bound", flow] = None, [("tfa", flow), ("sfa", flow)], 0


def touched(old: dict, new: dict) -> set[tuple]:
    """The cells that the old network has not or makes of other things, and those that are made of such cells."""
    readers: dict[tuple, list[tuple]] = {}
    for cell, (_, parts, _) in new.items():
        for part in parts:
            readers.setdefault(part, []).append(cell)
    found = {cell for cell in new if old.get(cell) != new[cell]}
    left = list(found)
    while left:
        for reader in readers.get(left.pop(), []):
            if reader not in found:
                found.add(reader)
                left.append(reader)
    return found


class Kind:
    """A kind of edit: its row, the network that it makes, and the row that takes it back, or else rows of the kind that can stand behind each other."""

    def __init__(self, name: str, row: str, back: str, net: Net, rows: list[str] | None = None) -> None:
        self.name, self.row, self.back, self.net, self.rows = name, row, back, net, rows


def on_servers(all_paths: list[list[int]], middle: int) -> list[Kind]:
    kinds = []
    for name, server in (("link", middle), ("rate, last server", SERVERS - 1), ("rate, first server", 0)):
        net = Net(all_paths)
        if name == "link":
            net.link[server] = 1
            kinds.append(Kind(name, f"link,s{server},1", f"link,s{server},0", net))
        else:
            net.service[server] = (101, LATENCY)
            kinds.append(Kind(name, f"rate,s{server},101", f"rate,s{server},100", net))
    return kinds


def on_flows(all_paths: list[list[int]], flow: int) -> list[Kind]:
    bucket, packet, add, drop = (Net(all_paths) for _ in range(4))
    length = packet.packet[flow]
    bucket.arrival[flow] = ("bucket", 9000, 1)
    packet.packet[flow] = 11400
    add.path.append([(server, add.queue(server, 1)) for server in all_paths[flow]])
    add.packet.append(8000)
    add.arrival.append(("bucket", 8000, 1))
    drop.packet[flow] = None
    others = [other for other in range(len(all_paths)) if other != flow]
    hops = " ".join(f"s{at}" if QUEUES[add.discipline[at]] == 1 else f"s{at}:{queue}" for at, queue in add.path[-1])
    return [
        Kind("bucket", f"bucket,f{flow},9000,1", f"stair,f{flow},{8000 * 2 ** (flow % 3)},0", bucket),
        Kind("packet", f"packet,f{flow},11400", f"packet,f{flow},{length}", packet),
        Kind("add", f"add,more,8000,8000,1,{hops}", "drop,more", add),
        Kind("drop", f"drop,f{flow}", "", drop, [f"drop,f{other}" for other in [flow] + others[:49]]),
    ]


# where the paths of the flows of an island begin, and how many servers they have
SPANS = ((0, 4), (0, 2), (1, 3), (2, 2), (0, 3), (1, 2))


def islands() -> list[list[int]]:
    """Six paths for each four servers."""
    count = SERVERS // 4
    spans = [(4 * (flow % count) + SPANS[flow // count][0], SPANS[flow // count][1]) for flow in range(count * len(SPANS))]
    return [list(range(first, first + hops)) for first, hops in spans]


class Program:
    """The program on one network, with one edit list or another."""

    def __init__(self, program: str, folder: Path) -> None:
        self.words, self.folder = [program, "edit", "n.toml", "e.csv"], folder

    def run(self, rows: list[str], before: list[str]) -> tuple[float, list[str]]:
        """Milliseconds of processor time, and the lines that were written."""
        (self.folder / "e.csv").write_text("".join(f"{row}\n" for row in rows))
        with (self.folder / "out").open("w") as out:
            child = subprocess.Popen([*before, *self.words], cwd=self.folder, stdout=out, stderr=subprocess.DEVNULL)
            _, status, usage = os.wait4(child.pid, 0)
            child.returncode = os.waitstatus_to_exitcode(status)
        return 1e3 * (usage.ru_utime + usage.ru_stime), (self.folder / "out").read_text().splitlines()


class Timed:
    """What edits of one network cost in time."""

    def __init__(self, program: Program, kinds: list[Kind]) -> None:
        self.program = program
        self.none = self.took([])[0]
        self.fresh = self.none - self.took(["no such edit"])[0]

    def took(self, rows: list[str]) -> tuple[float, float, str]:
        """What a run takes at least, how far the next one was from it, and what it wrote first."""
        runs = sorted(self.program.run(rows, []) for _ in range(RUNS))
        return runs[0][0], runs[1][0] - runs[0][0], runs[0][1][0]

    def of(self, kind: Kind, share: float) -> tuple[float, float, str]:
        """What an edit and its undo take, and what is said of the first; as many as take about as long as three fresh analyses."""
        times = min(200, max(5, int(3 / share)))
        edits = kind.rows[:times] if kind.rows else [kind.row, kind.back] * times
        edited, spread, _ = self.took(edits)
        gone_back, other_spread, _ = self.took(edits + ["undo"] * len(edits))
        undo = max(0.0, gone_back - edited) / len(edits)
        cost, _, said = self.took([kind.row, "undo"] * times)
        return (cost - self.none) / times - undo, undo + (spread + other_spread) / len(edits), said


class Counted:
    """What edits of one network cost in instructions."""

    def __init__(self, program: Program, kinds: list[Kind]) -> None:
        self.program = program
        # The row that is refused stands between the analysis and the first edit.
        costs, self.lines = self.counted(["undo"] + [row for kind in kinds for row in [kind.row, "undo"] * REPEATS])
        # the last part is written last, without a number
        read = sum(cost for cost, _ in self.counted(["no such edit"])[0])
        self.fresh = costs[0][0] + costs[-1][0] - read
        self.places = {kind.name: 1 + 2 * REPEATS * number for number, kind in enumerate(kinds)}
        self.costs = [cost for cost, _ in costs]
        self.for_cells = [cells for _, cells in costs]

    def counted(self, rows: list[str]) -> tuple[list[tuple[float, float]], list[str]]:
        """The millions of instructions up to each line on an edit, and behind the last, with those for cells."""
        for file in self.program.folder.glob("counts*"):
            file.unlink()
        counter = ["valgrind", "--tool=callgrind", "--callgrind-out-file=counts", "--dump-after=commands::edit_report::said::said_of"]
        _, lines = self.program.run(rows, counter)
        count = sum(line.startswith("edit ") for line in lines)
        names = [f"counts.{number}" for number in range(1, count + 1)] + ["counts"]
        texts = [(self.program.folder / name).read_text() for name in names]
        return [(int(re.search("^totals: ([0-9]+)", text, re.MULTILINE)[1]) / 1e6, in_cells(text)) for text in texts], lines

    def of(self, kind: Kind, share: float) -> tuple[float, float, str]:
        """What an edit and its undo cost in the mean, and what is said of the first."""
        place = self.places[kind.name]
        costs = self.costs[place : place + 2 * REPEATS]
        return sum(costs[::2]) / REPEATS, sum(costs[1::2]) / REPEATS, self.lines[place].replace(f"edit {place + 1} ", "edit 1 ")

    def cells_of(self, kind: Kind) -> float:
        """What of an edit's cost is for its cells."""
        place = self.places[kind.name]
        return sum(self.for_cells[place : place + 2 * REPEATS : 2]) / REPEATS


def in_cells(text: str) -> float:
    """The millions of instructions that cells take which are made anew: of the calls of that function in a file of callgrind."""
    name = re.search(r"^c?fn=(\(\d+\)) cell_rules::cell_values::anew::made_anew", text, re.MULTILINE)
    calls = re.findall(rf"^cfn={re.escape(name[1])}.*\ncalls=.*\n\S+ (\d+)$", text, re.MULTILINE) if name else []
    return sum(map(int, calls)) / 1e6


def measure(program: Program, costs: type, title: str, all_paths: list[list[int]]) -> None:
    text = "".join(map(server_text, range(SERVERS)))
    (program.folder / "n.toml").write_text(text + "".join(flow_text(flow, hops) for flow, hops in enumerate(all_paths)))
    old = Net(all_paths).cells()
    all_work = sum(work for _, _, work in old.values())
    # one of the longest paths, from the middle on
    flow = max(range(len(all_paths)), key=lambda flow: (len(all_paths[flow]), flow >= len(all_paths) // 2, -flow))
    kinds = on_servers(all_paths, all_paths[flow][1]) + on_flows(all_paths, flow)
    measured = costs(program, kinds)
    unit = "ms" if costs is Timed else "million instructions"
    print(f"{title}: {len(old):,} cells, {all_work:,} operators, a fresh analysis takes {measured.fresh:.0f} {unit}\n")
    more = ["Of these for its cells"] if costs is Counted else []
    heads = ["Edit", "Cells touched", "Share of the work", unit.capitalize(), *more]
    heads += ["Share of a fresh analysis", "The second share over the first", "Its undo", "A fresh analysis over that"]
    print(f"| {' | '.join(heads)} |\n|{'---|' * len(heads)}")
    for kind in kinds:
        new = kind.net.cells()
        found = touched(old, new)
        share = sum(new[cell][2] for cell in found) / all_work
        edit, undo, said = measured.of(kind, share)
        if said != f"edit 1 ok cells {len(found)}":
            sys.exit(f"{kind.row}: the program says {said}, the model {len(found)} cells")
        cells = [f"{measured.cells_of(kind):.2f}"] if costs is Counted else []
        of_fresh = edit / measured.fresh
        said = [f"{of_fresh:.2%}", f"{of_fresh / share:.2f}", f"{undo:.4f}", f"{measured.fresh / max(undo, 1e-9):,.0f}"]
        row = [kind.name, str(len(found)), f"{share:.2%}", f"{edit:.2f}", *cells, *said]
        print(f"| {' | '.join(row)} |".replace("%", " %"), flush=True)
    print()


def main() -> None:
    if len(sys.argv) not in (2, 3) or sys.argv[2:] not in ([], ["instructions"]):
        sys.exit(__doc__)
    program = str(Path(sys.argv[1]).resolve())
    costs = Counted if len(sys.argv) == 3 else Timed
    with tempfile.TemporaryDirectory(prefix="edits_bench_") as name:
        for title, all_paths in (("64 servers in a row", paths(SERVERS)), ("16 islands of four servers", islands())):
            measure(Program(program, Path(name)), costs, title, all_paths)


if __name__ == "__main__":
    main()
