#!/usr/bin/env python3
"""Makes a network file of two tables of an interface control document: virtual links and ports.

    ./netcalc import --version 2 --longest-gap 8 LINKS.csv PORTS.csv > network.toml

Both are CSV with a head line; the tables stand in any order, and the columns too; the table with a column `path` is
that of links, and other columns are left alone. Numbers are decimal or fractions ("1.5", "3/2"), and stay exact. The
file is in microseconds and bits, so a rate in Mbit/s is the number of its bits in a microsecond.

LINKS.csv, a line a virtual link, or a line a branch of one:
    name           a name of 1 to 32 letters, digits, _ and -
    bag            the bandwidth allocation gap in milliseconds: at most one frame in each
    largest_frame  the bytes of the longest frame, header and check sequence included
    jitter         how late a frame may be at the first port, in microseconds (0 where it is empty)
    priority       the queue at ports with more than one, 0 goes first (0 where it is empty)
    path           the output ports that the link passes, in order, separated by spaces

PORTS.csv, a line an output port (also those of end systems):
    name           a name
    rate           in Mbit/s
    latency        what the port may lose before it takes up work, once in each stretch of work, in microseconds (0
                   where it is empty); a delay that a switch gives each frame is no such latency
    link           the delay of the cable behind it, in microseconds (0 where it is empty)
    delay          how long the switch holds each frame before it comes to this port, always the same, in microseconds
                   (0 where it is empty); the column may be missing
    gate           `CYCLE SLOT` in microseconds: the port sends for the slot of each cycle, and has no latency then;
                   always where it is empty; the column may be missing
    discipline     `fifo` (also where it is empty), `priority N` with N queues, or
                   `drr Q0 Q1 ..` with the quantum of each queue in bytes

These are the tables of netbound too, but that it takes a `link` in whole picoseconds alone (at most 6 digits behind the
point), takes a gate with a latency, and leaves a column `delay` alone. Lines of one name are the branches of a
multicast link, and agree in all but path and deadline. A network file has no branches, so each becomes a flow of its
own, NAME_1, NAME_2 .. in the order of the lines: ports that branches share then count the link once a branch, and the
bounds there are greater than need be, of which it notes. netbound counts the link once.

A `delay` is added to the links of the ports that come right before on the paths: all ports behind a link have one and
the same, and a first port has none. A delay that varies from frame to frame is outside of what a network file can say:
with its greatest value as `delay` and as much more `jitter` the bounds are those that are often written for it, and
nothing is proved of them; never with `--version 2`, since frames may follow one another closer than on their line then.

`--version 2` says that no port sends faster than its rate, as a line does: links that come over one line are cut
together then, and the bounds are lower. `--longest-gap G` cuts each gap above G milliseconds to G. That is safe, since
a link that sends less often keeps the shorter gap too; it costs little, and the curves of all links repeat together
after G milliseconds, if the other gaps divide it. Where a port would be loaded above 1 by it alone, it warns.

`--buckets` describes each link by the token bucket above its stair (burst of one frame, and of what the jitter adds;
rate of one frame a gap) in place of the stair itself. The bounds are greater, and over more than two ports the
fractions soon get too wide, of which it warns. `--grid N` rounds every number to a multiple of 1/N, links to more and
ports to less, as round.py does with a file: each bound stays a bound. With `--version 2` a rate has to be such a
multiple already.

The file begins with a comment that names both tables and how they were read.

A frame occupies the wire for longer than its bytes: preamble, start of frame and the gap behind it are 20 bytes on
Ethernet, which `--overhead` sets. Tables are UTF-8. A fault ends it with status 1 and says the file, the line and what
is wrong there. What the rules of network files ask for beyond a line (that servers exist, that a quantum is as long as
a packet) is looked at here too, since a line of a table is easier to mend than a place of a made file.
"""

import argparse
import contextlib
import csv
import io
import re
import sys
from collections import Counter
from fractions import Fraction

import loads
import round as rounding
from networks import NAME, Fault, dump, ended, number, shortened, text_in, written

NUMERAL = re.compile(r"-?[0-9]+(\.[0-9]*|/[0-9]+)?")


def rows(path, columns, others=()):
    """The lines of a table with their numbers, from 2 on, as dictionaries of stripped texts. Of `others` a column may
    be missing, and is empty then."""
    reader = csv.reader(io.StringIO(text_in(path), newline=""), skipinitialspace=True, strict=True)
    head = None
    try:
        for cells in reader:
            cells = [cell.strip() for cell in cells]
            if not any(cells):
                continue
            if head is None:
                head = head_of(cells, [*columns, *(column for column in others if column in cells)])
            else:
                if len(cells) > len(head):
                    raise Fault(
                        f"{len(cells)} cells under a head line of {len(head)}: a cell with a comma stands in quotes"
                    )
                cells += [""] * (len(head) - len(cells))
                yield reader.line_num, dict.fromkeys(others, "") | dict(zip(head, cells))
        if head is None:
            raise Fault("no head line")
    except (csv.Error, Fault) as fault:
        raise Fault(f"{path} line {max(1, reader.line_num)}: {fault}") from None


def head_of(cells, columns):
    """The names of a table's columns, those that are wanted among them and none of these twice."""
    for column in columns:
        if cells.count(column) != 1:
            raise Fault(f"no column {column}" if column not in cells else f"two columns {column}")
    return cells


def name_of(text, taken):
    """A name that is well formed and not taken yet."""
    if not NAME.fullmatch(text):
        raise Fault(f"{shortened(text)!r} is no name of 1 to 32 letters, digits, _ and -")
    if text in taken:
        raise Fault(f"{text} stands twice")
    return text


def amount(column, text, least, default=None):
    """An exact number of a column that is at least `least`, or above 0 where that is None."""
    if text == "":
        if default is None:
            raise Fault(f"{column} is empty")
        return Fraction(default)
    if not NUMERAL.fullmatch(text):
        raise Fault(f"{column} {shortened(text)!r} is no number, as 12, 1.5 or 3/2")
    # As a fraction over a power of ten: so a number that is too large is told as in a network file.
    front, _, after = text.partition(".")
    text = front + after + (f"/1{'0' * len(after)}" if after else "")
    try:
        value = number(text)
    except Fault as fault:
        raise Fault(f"{column}: {fault}") from None
    if value <= 0 if least is None else value < least:
        raise Fault(f"{column} {value} is {'not above 0' if least is None else f'below {least}'}")
    return value


def whole(column, text, least, most):
    """A whole number of a column from `least` to `most`."""
    if not re.fullmatch("[0-9]{1,20}", text) or not least <= int(text) <= most:
        raise Fault(
            f"{column} {shortened(text)!r} is no whole number from {least} to {most}" if text else f"{column} is empty"
        )
    return int(text)


def discipline_of(text):
    """The keys of a discipline."""
    words = text.split() or ["fifo"]
    if words == ["fifo"]:
        return {}
    if words[0] == "priority" and len(words) == 2:
        return {"discipline": "priority", "queues": whole("queues", words[1], 1, 8)}
    if words[0] == "drr" and 2 <= len(words) <= 9:
        return {"discipline": "drr", "quanta": [8 * whole("quantum", word, 1, 2**21) for word in words[1:]]}
    raise Fault(f"discipline {shortened(text)!r} is none of fifo, priority N, drr Q0 Q1 ..")


def service_of(row):
    """The service of a line of ports; None where it is that of its rate at once."""
    latency = amount("latency", row["latency"], 0, default=0)
    gate = row["gate"].split()
    if not gate:
        return {"kind": "latency", "latency": written(latency)} if latency else None
    if len(gate) != 2:
        raise Fault(f"gate {shortened(row['gate'])!r} is no CYCLE SLOT, as 1000 250")
    cycle, slot = (amount(what, text, None) for what, text in zip(("the gate's cycle", "the gate's slot"), gate))
    if slot > cycle:
        raise Fault(f"the gate's slot of {slot} is longer than its cycle of {cycle}")
    if latency:
        raise Fault("a gate and a latency: a network file has one of the two; take the latency off the slot")
    return {"kind": "gate", "cycle": written(cycle), "slot": written(slot)}


def port(row, taken, words):
    """The server of a line of ports."""
    rate = written(amount("rate", row["rate"], None))
    server = {"name": name_of(row["name"], taken), "rate": rate}
    words.delays[server["name"]] = amount("delay", row["delay"], 0, default=0)
    service = service_of(row)
    if service:
        server["service"] = service
    link = amount("link", row["link"], 0, default=0)
    if link:
        server["link"] = written(link)
    if words.grid:
        rounding.round_server(server, words.grid)
        if words.version == 2 and server["rate"] != rate:
            raise Fault(
                f"rate {rate} is no multiple of 1/{words.grid}, and in version 2 a rate may not be rounded down"
            )
    return server | discipline_of(row["discipline"])


def queues_of(server):
    """How many queues a server has."""
    return server.get("queues") or len(server.get("quanta", [0]))


def hop(name, priority, packet, servers):
    """A path entry at the port of that name."""
    if name not in servers:
        raise Fault(f"no port {shortened(name)}")
    server = servers[name]
    queues = queues_of(server)
    if queues == 1:
        return name
    if priority >= queues:
        raise Fault(f"port {name} has no queue {priority}")
    if "quanta" in server and server["quanta"][priority] < packet:
        raise Fault(f"port {name}: the quantum of queue {priority} is shorter than a packet of {packet} bits")
    return f"{name}:{priority}"


def arrival_of(packet, period, jitter, buckets):
    """A frame a period, late by the jitter at most; or the token bucket above that."""
    if buckets:
        return {"kind": "bucket", "burst": written(packet * (1 + jitter / period)), "rate": written(packet / period)}
    return {"kind": "stair", "period": written(period), "jitter": written(jitter)}


def counts_of(path, column, others=()):
    """How many lines of a table have each name, up to the first with a fault, which is told when it is read again."""
    counts = Counter()
    with contextlib.suppress(Fault):
        counts.update(row[column] for _, row in rows(path, [column, *others]))
    return counts


def branch_name(name, counts, before):
    """The flow of the next line of a name, where a table has so many lines of each, and so many were before; it is
    NAME_K for the K-th of several."""
    before[name] += 1
    return name if counts[name] < 2 else f"{name}_{before[name]}"


def flow_name(row, taken, words):
    """The name of the flow of a line of links; lines of one name agree."""
    name = name_of(row["name"], ())
    flow = branch_name(name, words.counts, words.before)
    if flow == name:
        return name_of(name, taken)
    if len(flow) > 32:
        raise Fault(f"{flow}, as this branch of {name} would be called, is longer than 32 characters")
    if flow in taken or flow in words.counts:
        raise Fault(f"{flow}, as this branch of {name} would be called, stands in the table too: give it another name")
    cells = {column: branch_value(column, row[column]) for column in ["bag", "largest_frame", "jitter", "priority"]}
    for column, value in words.links_read.setdefault(name, cells).items():
        if value != cells[column]:
            raise Fault(f"{column} is another one than in the first line of {name}")
    return flow


def branch_value(column, text):
    """A number of a branch, that is compared with the one of the first branch."""
    if column in ("jitter", "priority"):
        text = text or "0"
    return amount(column, text, None if column == "bag" else 0)


def virtual_link(row, taken, servers, words):
    """The flow of a line of links."""
    flow = {"name": flow_name(row, taken, words)}
    packet = 8 * (whole("largest_frame", row["largest_frame"], 1, 2**21 - 1) + words.overhead)
    if packet > 2**24:
        raise Fault(f"a frame of {row['largest_frame']} bytes and {words.overhead} more is longer than 2^24 bits")
    flow["packet"] = packet
    gap = words.gaps[flow["name"]] = amount("bag", row["bag"], None)
    if words.longest_gap is not None and gap > words.longest_gap:
        gap = words.longest_gap
        words.cut += 1
    period = 1000 * gap
    jitter = amount("jitter", row["jitter"], 0, default=0)
    flow["arrival"] = arrival_of(packet, period, jitter, words.buckets)
    if words.grid:
        rounding.round_flow(flow, words.grid)
    priority = whole("priority", row["priority"] or "0", 0, 7)
    path = row["path"].split()
    if not 1 <= len(path) <= 16:
        raise Fault("a path has 1 to 16 ports")
    if len(set(path)) < len(path):
        raise Fault("a path passes a port twice")
    flow["path"] = [hop(name, priority, packet, servers) for name in path]
    note_delays(path, words)
    return flow


def note_delays(path, words):
    """Notes what the switch behind each port of a path adds to its link: all ports there hold a frame as long."""
    if words.delays[path[0]]:
        raise Fault(f"port {path[0]} has a delay: it is the first of its path; leave it out, and add it to the bounds")
    for before, after in zip(path, path[1:]):
        noted, delay = words.behind.setdefault(before, (after, words.delays[after]))
        if words.delays[after] != delay:
            raise Fault(f"ports {noted} and {after} have unlike delays, and both stand behind {before}")


def add_delays(servers, words):
    """Adds to the links what the switches behind them hold each frame."""
    for name, (_, delay) in words.behind.items():
        if delay:
            servers[name]["link"] = written(number(servers[name].get("link", 0)) + delay)
            if words.grid:
                rounding.round_server(servers[name], words.grid)


def read_table(path, columns, others, make, most):
    """The tables of a file's lines, by name; each fault with its line."""
    made = {}
    for line, row in rows(path, columns, others):
        try:
            if len(made) == most:
                raise Fault(f"more than {most} lines: netbound reads the same tables, and longer ones")
            table = make(row, made)
        except Fault as fault:
            raise Fault(f"{path} line {line}: {fault}") from None
        made[table["name"]] = table
    return made


def is_of_links(path):
    """Whether the head line of a table has the column of paths."""
    head = next((line for line in text_in(path).splitlines() if line.strip(" ,\t")), "")
    return "path" in [cell.strip().strip('"') for cell in head.split(",")]


def network_of(words):
    """The network of two files."""
    if is_of_links(words.ports) and not is_of_links(words.links):
        words.links, words.ports = words.ports, words.links
    servers = read_table(
        words.ports,
        ["name", "rate", "latency", "link", "discipline"],
        ["delay", "gate"],
        lambda row, taken: port(row, taken, words),
        64,
    )
    words.counts = counts_of(words.links, "name")
    flows = read_table(
        words.links,
        ["name", "bag", "largest_frame", "jitter", "priority", "path"],
        [],
        lambda row, taken: virtual_link(row, taken, servers, words),
        256,
    )
    add_delays(servers, words)
    version = {"version": 2} if words.version == 2 else {}
    return version | {"server": list(servers.values()), "flow": list(flows.values())}


def branches_told(words):
    """What is told of links with branches."""
    flows = sum(words.counts[name] for name in words.links_read)
    told = f"{len(words.links_read)} links of several branches are {flows} flows, NAME_1 and so on"
    return f"{told}; ports that branches share count the link once a branch"


def head_of_file(words):
    """The comment at the head of the file: what was read, and how."""
    kind = "token buckets" if words.buckets else "stairs"
    grid = f", on a grid of 1/{words.grid}: arrivals up, services down" if words.grid else ""
    lines = [
        f"Made by import_icd.py of {words.links} and {words.ports}, in microseconds and bits;",
        f"frames as {kind}, with {words.overhead} bytes of the wire beside their own{grid}.",
    ]
    if words.longest_gap is not None:
        lines.append(
            f"{words.cut} gaps above {words.longest_gap} ms are cut to it: who sends less often keeps that too."
        )
    if words.links_read:
        lines.append(branches_told(words) + ".")
    if any(words.delays.values()):
        lines.append("What the switches hold each frame is a part of the links that lead to them.")
    if words.version == 2:
        lines.append("No port sends faster than its rate.")
    return "\n".join(lines)


def crowded_by_cuts(network, words):
    """The queues of ports that are asked for more than they are promised only since gaps are cut."""
    flows = network["flow"]
    kept = [flow | {"arrival": {"kind": "stair", "period": 1000 * words.gaps[flow["name"]]}} for flow in flows]
    for server in network["server"]:
        for queue in range(queues_of(server)):
            cut, whole = (loads.load_of_queue(server, queue, found) for found in (flows, kept))
            if cut is not None and whole is not None and cut > 1 >= whole:
                yield f"{server['name']}:{queue}", cut


def warn(network, words):
    """Warns of what may be refused, may have no bound, or a greater one than need be."""
    if words.links_read:
        print(f"import_icd: {branches_told(words)}, and netbound once", file=sys.stderr)
    crowded = dict(crowded_by_cuts(network, words)) if words.cut else {}
    if crowded:
        most = max(crowded, key=crowded.get)
        told = f"as cut, the gaps ask for {loads.rounded_up(crowded[most])} of what {most} is promised"
        more = f", and too much at {len(crowded) - 1} queues more" if len(crowded) > 1 else ""
        print(f"import_icd: {told}{more}, so there is no bound: take a greater --longest-gap", file=sys.stderr)
    far = sum(len(flow["path"]) > 2 for flow in network["flow"])
    if words.buckets and far:
        told = f"{far} links pass more than two ports as buckets, whose fractions may get too wide"
        print(f"import_icd: {told}: take stairs with --longest-gap in place of --buckets", file=sys.stderr)


def milliseconds(text):
    """A gap of the command line."""
    try:
        return amount("the longest gap", text, None)
    except Fault as fault:
        raise argparse.ArgumentTypeError(str(fault)) from None


def main():
    parser = argparse.ArgumentParser(description=__doc__, formatter_class=argparse.RawDescriptionHelpFormatter)
    parser.add_argument("links")
    parser.add_argument("ports")
    parser.add_argument(
        "--version", type=int, choices=[1, 2], default=1, help="2: no port sends faster than its rate (1)"
    )
    parser.add_argument(
        "--longest-gap", type=milliseconds, metavar="MS", help="longer gaps are cut to so many milliseconds"
    )
    parser.add_argument(
        "--overhead", type=int, default=20, metavar="BYTES", help="bytes on the wire beside a frame's own (20)"
    )
    parser.add_argument("--buckets", action="store_true", help="describe each link by a token bucket")
    parser.add_argument("--grid", type=int, metavar="N", help="numbers become multiples of 1/N, in the safe direction")
    words = parser.parse_args()
    if not 0 <= words.overhead < 2**21:
        parser.error("the overhead is from 0 bytes on, and below 2^21")
    if words.grid is not None and not 1 <= words.grid <= rounding.FINEST:
        parser.error(f"the grid is a whole number from 1 to {rounding.FINEST}")
    words.cut, words.gaps, words.delays, words.behind = 0, {}, {}, {}
    words.before, words.links_read = Counter(), {}
    network = network_of(words)
    warn(network, words)
    sys.stdout.write(dump(network, head_of_file(words)))
    return 0


if __name__ == "__main__":
    ended("import_icd", main)
