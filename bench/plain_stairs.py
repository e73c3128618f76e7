#!/usr/bin/env python3
"""The table of bench/plain_bounds.py with stairs in place of lines for the excess of each queue, plainly, in whole numbers.

A link keeps its stair: frame, gap and jitter so far. A part of a queue is its links' stairs, at most its pace line; what arrives at the queue is
the sum of its parts. Between two jumps of its stairs a part brings at most the lesser of a number and its pace, so the greatest excess
over a rate is at a jump or where a part turns from its pace to its number. The walk goes over the jumps up to a time from which on
the lines of the same links are no further ahead than the greatest so far; of more than 4,096 jumps up to there it takes the first 4,096, and
the lines stand in from there.

    python3 bench/plain_stairs.py                   random queues against a search over all times, and random networks against lines
    python3 bench/plain_stairs.py PORTS LINKS [N]   the bounds of two tables by lines and by stairs, and what the walks cost, where
                                                    N bytes of overhead (20) go with each frame
"""

import random
import sys
import time
from fractions import Fraction

import plain_bounds as lines_of
from plain_bounds import DELAY_LIMIT, GRAINS, SECOND, up

JUMP_LIMIT = 4096
LATE = 1 << 62  # no time of so many picoseconds is walked to
JUMPS = []


# ---- stairs: frame in grains, gap and jitter in picoseconds
def value(stairs, now):
    return sum(frame * ((now + jitter) // gap + 1) for frame, gap, jitter in stairs)


def count(stairs, end):
    """How often they jump after 0, up to a time."""
    return sum((end + jitter) // gap - jitter // gap for _, gap, jitter in stairs)


def jumps(parts, end):
    """The times, parts and heights of the jumps after 0, up to a time, in order."""
    found = []
    for p, (stairs, _) in enumerate(parts):
        for frame, gap, jitter in stairs:
            number = jitter // gap + 1
            while number * gap - jitter <= end:
                found.append((number * gap - jitter, p, frame))
                number += 1
    return sorted(found)


# ---- levels: a number and a pace line or None
def height(levels, over, under):
    """What they come to at the time over / under in seconds, times under."""
    return sum(
        level * under if pace is None else min(level * under, pace[0] * under + pace[1] * over)
        for level, pace in levels
    )


def ahead(levels, rate, over, under):
    """By how much they are above the rate then, rounded up; at least 0."""
    return up(max(0, height(levels, over, under) - rate * over), under)


def greatest_between(levels, rate, begin, end):
    """The greatest excess of the levels from the one time to the other."""
    most = max(ahead(levels, rate, begin, SECOND), ahead(levels, rate, end, SECOND))
    for level, pace in levels:
        if pace and begin * pace[1] < (level - pace[0]) * SECOND < end * pace[1]:
            most = max(most, ahead(levels, rate, level - pace[0], pace[1]))
    return most


def walk(parts, rate, end):
    """The greatest excess of the parts from 0 to a time."""
    levels = [(value(stairs, 0), pace) for stairs, pace in parts]
    most, begin = 0, 0
    for now, p, frame in jumps(parts, end):
        if now > begin:
            most = max(most, greatest_between(levels, rate, begin, now))
            begin = now
        levels[p] = (levels[p][0] + frame, levels[p][1])
    return max(most, greatest_between(levels, rate, begin, end))


def tail(steps, rate, most, end):
    """The greatest excess of the lines from a time on."""
    for burst, slope in steps:
        if slope <= rate:
            most = min(most, up(max(0, burst * SECOND - (rate - slope) * end), SECOND))
    return most


def last_turn(levels):
    return max([up((level - pace[0]) * SECOND, pace[1]) for level, pace in levels if pace and level > pace[0]] + [0])


def horizon(parts, steps, rate):
    """A time from which on the lines are no further ahead than the stairs are before."""
    levels = [(value(stairs, 0), pace) for stairs, pace in parts]
    turn = last_turn(levels)
    known = max(0, height(levels, turn, SECOND) - rate * turn)
    ends = [up(max(0, burst * SECOND - known), rate - slope) for burst, slope in steps if slope < rate]
    return max(turn, min(ends)) if ends else 0


def shortened(parts, end):
    """The last time up to the end until which there are no more jumps than the limit."""
    low, high = 0, end
    while low < high:
        middle = (low + high + 1) // 2
        if sum(count(stairs, middle) for stairs, _ in parts) <= JUMP_LIMIT:
            low = middle
        else:
            high = middle - 1
    return low


def line_parts(parts):
    return [(line_sum(stairs), pace) for stairs, pace in parts]


def line_sum(stairs):
    all_of = [line(stair) for stair in stairs]
    return sum(burst for burst, _ in all_of), sum(rate for _, rate in all_of)


def line(stair):
    frame, gap, jitter = stair
    rate = up(frame * SECOND, gap)
    return frame + up(rate * jitter, SECOND), rate


def excess(parts, steps, rate):
    most = lines_of.excess(steps, rate)
    if most is None:
        return None
    end = shortened(parts, min(horizon(parts, steps, rate), LATE - 1))
    JUMPS.append((sum(len(s) for s, _ in parts), sum(count(s, end) for s, _ in parts), len(parts)))
    return max(walk(parts, rate, end), tail(steps, rate, most, end))


# ---- queues and networks: as in plain_bounds, with the excess of the stairs
def promise(parts, steps, service, longest):
    rate, debt = service
    above = excess(parts, steps, rate) if rate else None
    if above is None:
        return None
    waiting = Fraction(above + debt + longest * GRAINS)
    for burst, slope in steps:
        if slope <= rate:
            waiting = min(waiting, burst + Fraction(slope * (debt + longest * GRAINS), rate))
    return up((above + debt) * SECOND, rate), up(waiting.numerator, waiting.denominator * GRAINS)


def row(port, queues, q):
    if queues[q]["longest"] == 0:
        return 0, 0
    if queues[q]["parts"] is None:
        return None
    steps = lines_of.steps(queues[q]["parts"])
    found = [
        promise(queues[q]["stairs"], steps, service, queues[q]["longest"])
        for service in lines_of.services(port, queues, q)
    ]
    found = [answer for answer in found if answer]
    if not found or min(delay for delay, _ in found) >= DELAY_LIMIT:
        return None
    return min(delay for delay, _ in found), min(backlog for _, backlog in found)


def stair(network, jitters, i, k):
    """The stair of the link at its node; None where nothing bounds it."""
    link, jitter = network["links"][i], jitters.get((i, k))
    return None if jitter is None else (link["frame"] * GRAINS, link["gap"], jitter)


def stairs_at(network, jitters, nodes, q):
    """The stairs of a queue of the port of these nodes, by the port from which they come."""
    groups, longest = {}, {}
    for i, k, queue, above in nodes:
        if queue == q:
            link = network["links"][i]
            source = -1 if above is None else link["nodes"][above][0]
            groups.setdefault(source, []).append(stair(network, jitters, i, k))
            longest[source] = max(longest.get(source, 0), link["frame"])
    return [
        (stairs, None if source < 0 else (longest[source] * GRAINS, network["ports"][source]["pace"]))
        for source, stairs in sorted(groups.items())
    ]


def arrived(network, jitters, rows, nodes):
    """Makes the jitters of the links at a port, of what the ports before it have."""
    for i, k, _, above in nodes:
        if above is not None:
            port, queue, _ = network["links"][i]["nodes"][above]
            jitter, found = jitters.get((i, above)), rows[port][queue]
            jitters[i, k] = early(None if jitter is None or found is None else jitter + found[0])


def early(jitter):
    """The jitter, where it is below its limit."""
    return jitter if jitter is not None and jitter < LATE else None


def lines_at(network, jitters, nodes):
    """The lines of the stairs at a port, where these are within their limits."""
    stairs = {(i, k): stair(network, jitters, i, k) for i, k, _, _ in nodes}
    return {node: lines_of.checked(line(one)) for node, one in stairs.items() if one}


def table(network):
    """The rows of the queues by port, and the bounds of the nodes by link."""
    jitters = {(i, 0): early(link["jitter"]) for i, link in enumerate(network["links"])}
    rows = [None] * len(network["ports"])
    nodes = lines_of.nodes_by_port(network)
    for s in lines_of.order(network):
        port = network["ports"][s]
        arrived(network, jitters, rows, nodes[s])
        lines = lines_at(network, jitters, nodes[s])
        queues = [lines_of.queue_at(network, lines, nodes[s], q) for q in range(lines_of.queue_count(port))]
        for q, queue in enumerate(queues):
            queue["stairs"] = stairs_at(network, jitters, nodes[s], q) if queue["parts"] is not None else None
        rows[s] = [row(port, queues, q) for q in range(len(queues))]
    return rows, [lines_of.bounds(network, rows, link) for link in network["links"]]


# ---- against a search
def searched(parts, rate, end):
    """The supremum from 0 to a time, exactly: at each jump, and before it where each part turns, in fractions of a second."""
    times = sorted({0, end} | {now for now, _, _ in jumps(parts, end)})
    most = Fraction(0)
    for begin, after in zip(times, times[1:]):
        here = [Fraction(begin, SECOND), Fraction(after, SECOND)]
        levels = [(value(stairs, begin), pace) for stairs, pace in parts]
        for level, pace in levels:
            if pace and pace[1]:
                turn = Fraction(level - pace[0], pace[1])
                if here[0] < turn < here[1]:
                    here.append(turn)
        for now in here:
            arrived = sum(min([level] + ([pace[0] + pace[1] * now] if pace else [])) for level, pace in levels)
            most = max(most, arrived - rate * now)
    return most


def random_queue(draw):
    parts = []
    for _ in range(draw.randint(1, 4)):
        stairs = [
            (draw.randint(1, 40), draw.randint(3, 40) * SECOND // 10, draw.randint(0, 60) * SECOND // 10)
            for _ in range(draw.randint(1, 4))
        ]
        longest = max(frame for frame, _, _ in stairs)
        parts.append((stairs, draw.choice([None, (longest, draw.randint(1, 300))])))
    return parts, draw.randint(20, 500)


def check_queues(tries, draw):
    exact = lesser = skipped = 0
    for _ in range(tries):
        parts, rate = random_queue(draw)
        steps = lines_of.steps(line_parts(parts))
        most = lines_of.excess(steps, rate)
        if most is None or steps[-1][1] >= rate:
            skipped += 1
            continue
        found = excess(parts, steps, rate)
        end = up(steps[-1][0] * SECOND, rate - steps[-1][1]) + SECOND
        wanted = searched(parts, rate, end)
        assert up(wanted.numerator, wanted.denominator) == found <= most, (parts, rate, found, wanted, most)
        exact += 1
        lesser += found < most
    print(f"{exact} random queues: each as searched, {lesser} below their lines ({skipped} without an end left out)")


def check_cut(tries, draw):
    """With a lower limit of jumps: never below the search, never above the lines."""
    global JUMP_LIMIT
    cut = 0
    for JUMP_LIMIT in [0, 1, 3, 10] * tries:
        parts, rate = random_queue(draw)
        steps = lines_of.steps(line_parts(parts))
        most = lines_of.excess(steps, rate)
        if most is None or steps[-1][1] >= rate:
            continue
        found = excess(parts, steps, rate)
        wanted = searched(parts, rate, up(steps[-1][0] * SECOND, rate - steps[-1][1]) + SECOND)
        assert wanted <= found <= most, (parts, rate, found, wanted, most)
        cut += found > up(wanted.numerator, wanted.denominator)
    JUMP_LIMIT = 4096
    print(f"{4 * tries} random queues with few jumps allowed: never below the search, {cut} above it")


def check_networks(tries, draw):
    sums = [0, 0]
    for _ in range(tries):
        network = lines_of.random_network(draw)
        by_lines, by_stairs = lines_of.table(network)[1], table(network)[1]
        for before, after in zip(by_lines, by_stairs):
            for one, other in zip(before, after):
                assert one is None or other <= one, network
                if one:
                    sums = [sums[0] + one, sums[1] + other]
    print(f"{tries} random networks: no bound above that of lines; in all {sums[1] / sums[0]:.4f} of them")


# ---- two tables
def compare(ports_path, links_path, overhead):
    import plain_document  # it reads tables, and names this file

    contents = list(plain_document.contents_of([ports_path, links_path]))
    ports = plain_document.read_ports(ports_path, contents[0])
    links, _ = plain_document.read_links(links_path, contents[1], ports, overhead)
    network = plain_document.network_of(ports, links, overhead)
    begin = time.process_time()
    by_lines = [bound for bounds in lines_of.table(network)[1] for bound in bounds]
    middle = time.process_time()
    by_stairs = [bound for bounds in table(network)[1] for bound in bounds]
    end = time.process_time()
    both = [(one, other) for one, other in zip(by_lines, by_stairs) if one and other]
    print(f"{len(network['links'])} links, {len(by_lines)} nodes, {len(both)} bounds; lines {middle - begin:.2f} s, stairs {end - middle:.2f} s")
    print(f"in all {sum(other for _, other in both) / sum(one for one, _ in both):.4f}, each {sum(other / one for one, other in both) / len(both):.4f}, least {min(other / one for one, other in both):.4f} of the bound of lines")
    print(f"{len(JUMPS)} walks; links {sum(j[0] for j in JUMPS)}, jumps {sum(j[1] for j in JUMPS)}, at most {max(j[1] for j in JUMPS)}, parts {sum(j[2] for j in JUMPS)}; jumps times parts {sum((j[1] + 1) * j[2] for j in JUMPS)}")


def main(words):
    if words:
        compare(words[0], words[1], int(words[2]) if words[2:] else 20)
        return
    draw = random.Random(1)
    check_queues(2000, draw)
    check_cut(500, draw)
    check_networks(100, draw)


if __name__ == "__main__":
    main(sys.argv[1:])
