#!/usr/bin/env python3
"""The table of a network of ports and multicast links, plainly, in whole numbers: what crates/tree_bounds has, proved. Nothing in the gate
compares this one with the crate.

Times are picoseconds, rates grains of 1/1024 bit a second, bursts grains, frames and quanta bits. What bounds arrivals is rounded up, what a port does is rounded
down. A network is a dictionary of `ports` and `links`, as random_network below makes it; table(network) tells each queue's delay in
picoseconds and backlog in bits, and each node's bound, or None where nothing is promised.

    python3 bench/plain_bounds.py [NETWORKS [SEED]]    prints random small networks and their tables, a line of JSON each
"""

import json
import random
import sys
from fractions import Fraction

SECOND = 10**12
GRAINS = 1024
BURST_LIMIT = 1 << 58
LINE_RATE_LIMIT = 1 << 64
QUEUE_RATE_LIMIT = 1 << 50  # no port is as fast
DELAY_LIMIT = 1 << 50


def up(a, b):
    """The quotient, rounded up."""
    return -(-a // b)


# ---- lines: pairs of a burst and a rate
def link_rate(link):
    return up(link["frame"] * GRAINS * SECOND, link["gap"])


def link_line(link):
    rate = link_rate(link)
    return checked((link["frame"] * GRAINS + up(rate * link["jitter"], SECOND), rate))


def checked(line):
    """The line, where its burst and rate are below their limits."""
    return line if line and line[0] < BURST_LIMIT and line[1] < LINE_RATE_LIMIT else None


def onward(line, delay):
    return checked((line[0] + up(line[1] * delay, SECOND), line[1]))


# ---- parts: a line of sums, and the line of a pace or None
def picked(part, now):
    """The one of a part's lines that is the lesser just after a time."""
    total, pace = part
    if pace is None:
        return total
    return total if (total[0] + total[1] * now, total[1]) <= (pace[0] + pace[1] * now, pace[1]) else pace


def meetings(part):
    """The times from 0 on at which a part's lines meet."""
    total, pace = part
    if pace is None or pace[1] == total[1]:
        return []
    now = Fraction(total[0] - pace[0], pace[1] - total[1])
    return [now] if now >= 0 else []


def steps(parts):
    """The sums of the lines that are the lesser ones just after each time, in the order of time: bursts rise, rates fall."""
    times = {Fraction(0)} | {now for part in parts for now in meetings(part)}
    lines = []
    for now in sorted(times):
        lesser = [picked(part, now) for part in parts]
        line = (sum(line[0] for line in lesser), sum(line[1] for line in lesser))
        if lines[-1:] != [line]:
            lines.append(line)
    return lines


def excess(lines, rate):
    """By how many grains the least of the lines is above the rate at most, rounded up."""
    before = None
    for line in lines:
        if line[1] <= rate:
            if before is None:
                return line[0]
            above, below = before[1] - rate, rate - line[1]
            return up(before[0] * below + line[0] * above, above + below)
        before = line
    return None


# ---- services: pairs of a rate and a debt
def own_service(port):
    rate, debt = port["rate"], up(port["rate"] * port["latency"], SECOND)
    if port["gate"]:
        cycle, slot = port["gate"]
        rate = rate * slot // cycle
        debt += up(rate * (cycle - slot), SECOND)
    return rate, debt


def left(service, parts, packet):
    """What is left of the service by each step of the parts, and by a packet."""
    if parts is None:
        return []
    return [(service[0] - rate, service[1] + burst + packet) for burst, rate in steps(parts) if rate < service[0]]


def joined(queues):
    """The parts of all the queues; None where nothing bounds one of them."""
    if any(queue["parts"] is None for queue in queues):
        return None
    return [part for queue in queues for part in queue["parts"]]


def services(port, queues, q):
    own = own_service(port)
    longest = [queue["longest"] for queue in queues]
    kind = port["discipline"][0]
    if kind == "fifo":
        return [own]
    if kind == "priority":
        return left(own, joined(queues[:q]), max([0] + longest[q + 1 :]) * GRAINS)
    quanta = port["discipline"][1]
    quantum, whole, mine = quanta[q], sum(quanta), longest[q]
    owed = (quantum * (sum(longest) - mine) + (whole - quantum) * (quantum + mine)) * GRAINS
    share = quantum * own[0] // whole, up(quantum * own[1] + owed, whole)
    return [share] + left(own, joined(queues[:q] + queues[q + 1 :]), 0)


# ---- queues
def promise(lines, service, longest):
    """The delay in picoseconds and the backlog in bits at one service, or None."""
    rate, debt = service
    above = excess(lines, rate)
    if rate == 0 or above is None:
        return None
    waiting = Fraction(above + debt + longest * GRAINS)
    for burst, slope in lines:
        if slope <= rate:
            waiting = min(waiting, burst + Fraction(slope * (debt + longest * GRAINS), rate))
    return up((above + debt) * SECOND, rate), up(waiting.numerator, waiting.denominator * GRAINS)


def row(port, queues, q):
    if queues[q]["longest"] == 0:
        return 0, 0
    if queues[q]["parts"] is None:
        return None
    lines = steps(queues[q]["parts"])
    found = [promise(lines, service, queues[q]["longest"]) for service in services(port, queues, q)]
    found = [answer for answer in found if answer]
    if not found or min(delay for delay, _ in found) >= DELAY_LIMIT:
        return None
    return min(delay for delay, _ in found), min(backlog for _, backlog in found)


# ---- networks
def queue_count(port):
    return {"fifo": lambda: 1, "priority": lambda: port["discipline"][1], "drr": lambda: len(port["discipline"][1])}[
        port["discipline"][0]
    ]()


def nodes_by_port(network):
    """The nodes at each port: the link's number, the node's, the queue, and the number of the node before or None."""
    found = [[] for _ in network["ports"]]
    for i, link in enumerate(network["links"]):
        for k, (port, queue, above) in enumerate(link["nodes"]):
            found[port].append((i, k, queue, above))
    return found


def queue_at(network, lines, nodes, q):
    """What arrives at a queue of the port of these nodes: its parts by the port from which they come, and its longest frame."""
    groups, known, longest = {}, True, 0
    for i, k, queue, above in nodes:
        if queue != q:
            continue
        link = network["links"][i]
        source = -1 if above is None else link["nodes"][above][0]
        line = lines.get((i, k))
        longest = max(longest, link["frame"])
        known = known and line is not None
        group = groups.setdefault(source, [0, 0, 0])
        if line:
            group[0], group[1] = group[0] + line[0], group[1] + line[1]
        group[2] = max(group[2], link["frame"])
    parts = [
        ((g[0], g[1]), None if source < 0 else (g[2] * GRAINS, network["ports"][source]["pace"]))
        for source, g in sorted(groups.items())
    ]
    bounded = known and together(parts, 0) < BURST_LIMIT and together(parts, 1) < QUEUE_RATE_LIMIT
    return {"parts": parts if bounded else None, "longest": longest}


def together(parts, which):
    """The bursts (0) or the rates (1) of the parts' links together."""
    return sum(total[which] for total, _ in parts)


class Ring(Exception):
    """The ports of the ring that is told, from one of them on to it again."""


def ports_before(network):
    """Of each port those from which links come to it."""
    before = [set() for _ in network["ports"]]
    for link in network["links"]:
        for port, _, above in link["nodes"]:
            if above is not None:
                before[port].add(link["nodes"][above][0])
    return before


def order(network):
    """The ports, each after those from which links come to it."""
    before = ports_before(network)
    placed, done, left_over = [], set(), range(len(before))
    while len(placed) < len(before):
        ready = [s for s in left_over if before[s] <= done]
        if not ready:
            raise Ring(ring_among(left_over, before))
        placed += ready
        done.update(ready)
        left_over = [s for s in left_over if s not in done]
    return placed


def ring_among(left_over, before):
    """From the least port back, each time to the least before it, until one comes again; then the other way round."""
    walk, port = [], min(left_over)
    while port not in walk:
        walk.append(port)
        port = min(before[port] & set(left_over))
    return [port] + walk[: walk.index(port) - 1 if walk.index(port) else None : -1]


def arrived(network, lines, rows, nodes):
    """Makes the lines of the links at a port, of what the ports before it have."""
    for i, k, _, above in nodes:
        if above is not None:
            port, queue, _ = network["links"][i]["nodes"][above]
            line, found = lines.get((i, above)), rows[port][queue]
            lines[i, k] = onward(line, found[0]) if line and found else None


def table(network):
    """The rows of the queues by port, and the bounds of the nodes by link."""
    lines = {(i, 0): link_line(link) for i, link in enumerate(network["links"])}
    rows = [None] * len(network["ports"])
    nodes = nodes_by_port(network)
    for s in order(network):
        port = network["ports"][s]
        arrived(network, lines, rows, nodes[s])
        queues = [queue_at(network, lines, nodes[s], q) for q in range(queue_count(port))]
        rows[s] = [row(port, queues, q) for q in range(len(queues))]
    return rows, [bounds(network, rows, link) for link in network["links"]]


def bounds(network, rows, link):
    """How long a frame takes at most from its entry to the end of the link behind each node."""
    found = []
    for port, queue, above in link["nodes"]:
        before = 0 if above is None else found[above]
        here = rows[port][queue]
        found.append(None if before is None or here is None else before + here[0] + network["ports"][port]["link"])
    return found


def loads(network, s, nodes):
    """The rates of the links of each queue at port s, whose nodes these are, over the port's, in thousandths, rounded up."""
    port, rates = network["ports"][s], {}
    for i, _, queue, _ in nodes:
        rates[queue] = rates.get(queue, 0) + link_rate(network["links"][i])
    whole = own_service(port)[0]
    return [
        0 if rates.get(q, 0) == 0 else (up(rates[q] * 1000, whole) if whole else None) for q in range(queue_count(port))
    ]


# ---- random networks
def random_port(draw):
    rate = draw.choice([10, 100, 1000]) * 1024 * 10**6
    cycle = draw.choice([200, 1000]) * 10**6
    kind = draw.choice(["fifo", "priority", "drr"])
    queues = draw.randint(1, 3)
    disciplines = {"fifo": ("fifo",), "priority": ("priority", queues)}
    quanta = [draw.randint(2000, 8000) * 8 for _ in range(queues)]
    return {
        "rate": rate,
        "pace": rate + draw.randint(0, 1),
        "latency": draw.choice([0, 16 * 10**6, 40 * 10**6 + 1]),
        "link": draw.choice([0, 10**6]),
        "discipline": disciplines.get(kind, ("drr", quanta)),
        "gate": draw.choice([None, None, None, (cycle, cycle * draw.randint(1, 9) // 10)]),
    }


def random_link(draw, ports):
    """A tree over ports of rising numbers, so that there is no cycle."""
    chosen = sorted(draw.sample(range(len(ports)), draw.randint(1, len(ports))))
    nodes = []
    for place, s in enumerate(chosen):
        above = draw.randrange(place) if place else None
        nodes.append((s, draw.randrange(queue_count(ports[s])), above))
    return {
        "frame": draw.randint(64, 1538) * 8,
        "gap": draw.choice([1, 2, 4, 8, 128]) * 10**9 + draw.choice([0, 0, 7]),
        "jitter": draw.choice([0, 500 * 10**6]),
        "nodes": nodes,
    }


def random_network(draw):
    ports = [random_port(draw) for _ in range(draw.randint(1, 5))]
    return {"ports": ports, "links": [random_link(draw, ports) for _ in range(draw.randint(1, 12))]}


def main(words):
    count, seed = [int(word) for word in words] + [10, 1][len(words) :]
    draw = random.Random(seed)
    for _ in range(count):
        network = random_network(draw)
        rows, bounds_of = table(network)
        every_load = [loads(network, s, nodes) for s, nodes in enumerate(nodes_by_port(network))]
        print(json.dumps({"network": network, "rows": rows, "loads": every_load, "bounds": bounds_of}))


if __name__ == "__main__":
    main(sys.argv[1:])
