#!/usr/bin/env python3
"""Puts a network on a grid, so that its numbers stay within the limits of the analysis, and says what that costs.

    ./netcalc round NET.toml --grid N > rounded.toml

Every number becomes a multiple of 1/N, in the direction that is safe: bursts, arrival rates, jitters, latencies, cycles
and links up; rates of servers, periods of stairs and slots of gates down. So who keeps the curves of the file keeps
those of the rounded one (a run of the one is a run of the other but for the times of its links), every bound of the
rounded file bounds the runs of the file, and sums of its numbers have small denominators. Listed curves stay as they
are, and a line on the standard error names them. A file of version 2 says that no server works faster than its rate;
where a rate is rounded down, that is no longer so, and the rounded file is of version 1, whose bounds hold for the runs
of both: a line on the standard error tells it.

With `--compare` it runs the program on the file and on the rounded one, and prints three tables: each flow's bound,
each queue's delay and each queue's backlog, of both files, and how much the rounded one's is greater (`-` where one of
them is `unbounded`). A queue is SERVER:QUEUE. Where the file itself is refused, as too wide or too many, it is told so
and only the new bounds stand there.

A file that is no network at all (no TOML, a float for a number, a key that rounding needs and that is missing) is
refused with status 1 and a line.

A coarse grid gives looser bounds and fewer refusals. Try a grid of 1 first, in the file's own units, and refine it by
factors (10, 100) while the bounds still fall.
"""

import argparse
import copy
import math
import sys
import tempfile
from fractions import Fraction

from networks import PROGRAM, Fault, analyse, dump, ended, load, member, number, written

FINEST = 10**9  # a finer grid keeps no number short


def up(value, grid):
    """The least multiple of 1/grid that is not below the number."""
    return written(Fraction(math.ceil(value * grid), grid))


def down(value, grid):
    """The greatest multiple of 1/grid that is not above a number, which must stay above 0."""
    if value <= 0:
        raise Fault(f"{value} is not above 0")
    rounded = Fraction(math.floor(value * grid), grid)
    if rounded == 0:
        raise Fault(f"{value} would become 0: take a grid of at least {math.ceil(1 / value)}")
    return written(rounded)


def from_zero_on(value):
    """A number that is not below 0."""
    if value < 0:
        raise Fault(f"{value} is below 0")
    return value


def put(table, key, whose, to):
    """Rounds the number of a key, where the table has it."""
    if key in table:
        try:
            table[key] = to(number(table[key]))
        except Fault as fault:
            raise Fault(f"the {key} of {whose}: {fault}") from None


def kind_of(table, what, known):
    """The kind of a curve."""
    kind = member(table, f"{what}: ", "kind", str)
    if kind not in known:
        raise Fault(f"{what}: kind {kind!r} is none of {', '.join(known)}")
    return kind


def round_server(server, grid):
    """Rounds the numbers of a server in place: it gets slower. Says whether its service is a list, which stays."""
    name = server["name"]
    lower = lambda value: down(value, grid)
    higher = lambda value: up(from_zero_on(value), grid)
    if "rate" not in server:
        raise Fault(f"the rate of {name} is missing")
    put(server, "rate", name, lower)
    put(server, "link", name, higher)
    service = member(server, f"{name}: ", "service", dict, {"kind": "latency"})
    kind = kind_of(service, f"the service of {name}", ("latency", "gate", "list"))
    put(service, "latency", name, higher)
    # A longer cycle with a shorter slot serves less in every stretch of time.
    put(service, "cycle", name, higher)
    put(service, "slot", name, lower)
    return kind == "list"


def round_flow(flow, grid):
    """Rounds the numbers of a flow in place: it may send more. Says whether its arrival is a list, which stays."""
    name = flow["name"]
    arrival = member(flow, f"{name}: ", "arrival", dict)
    kind = kind_of(arrival, f"the arrival of {name}", ("bucket", "stair", "list"))
    for key in ("burst", "rate", "jitter"):
        put(arrival, key, name, lambda value: up(from_zero_on(value), grid))
    put(arrival, "period", name, lambda value: down(value, grid))
    return kind == "list"


def rounded(network, grid):
    """The network on the grid, and what of it stays as it is."""
    network = copy.deepcopy(network)
    listed = [f"the service of {server['name']}" for server in network.get("server", []) if round_server(server, grid)]
    listed += [f"the arrival of {flow['name']}" for flow in network.get("flow", []) if round_flow(flow, grid)]
    return network, listed


def paces(network):
    """The rates that no server of a file of version 2 works above; none of another file."""
    return [number(server["rate"]) for server in network.get("server", [])] if network.get("version") == 2 else []


def table(what, number_of, before, after):
    """A table of both files' numbers of one name, and how much the second is greater; where nothing is known of the
    first, a `-`."""
    yield f"{what} {number_of} rounded greater"
    for name, numbers in after.items():
        new = numbers[number_of]
        old = before[name][number_of] if name in before else None
        words = ["unbounded" if value is None else str(value) for value in (old, new)]
        greater = "-" if None in (old, new) else new - old
        told = name if what == "flow" else f"{name[0]}:{name[1]}"
        yield f"{told} {words[0] if name in before else '-'} {words[1]} {greater}"


def compared(path, network, program):
    """The lines of the tables of both files' bounds."""
    with tempfile.NamedTemporaryFile("w", suffix=".toml", encoding="utf-8") as file:
        file.write(dump(network))
        file.flush()
        after = analyse(file.name, program)
    before = analyse(path, program)
    if after.status:
        return [f"the rounded file is refused too: {after.text.strip()}"]
    lines = [] if before.status == 0 else [f"the file itself is refused: {before.text.strip()}"]
    lines += table("flow", "bound", before.flows, after.flows)
    lines += table("queue", "delay", before.queues, after.queues)
    lines += table("queue", "backlog", before.queues, after.queues)
    return lines


def main():
    parser = argparse.ArgumentParser(description=__doc__, formatter_class=argparse.RawDescriptionHelpFormatter)
    parser.add_argument("network")
    parser.add_argument("--grid", type=int, default=1, metavar="N", help="numbers become multiples of 1/N (1)")
    parser.add_argument("--compare", action="store_true", help="print bounds before and after, in place of the file")
    parser.add_argument("--program", default=str(PROGRAM), help="the program to ask")
    words = parser.parse_args()
    if not 1 <= words.grid <= FINEST:
        parser.error(f"the grid is a whole number from 1 to {FINEST}")
    given = load(words.network)
    try:
        network, listed = rounded(given, words.grid)
    except Fault as fault:
        raise Fault(f"{words.network}: {fault}") from None
    for what in listed:
        print(f"round: {what} is a listed curve, and stays as it is", file=sys.stderr)
    if paces(network) != paces(given):
        network["version"] = 1
        print("round: a rate changes, so the rounded file is of version 1", file=sys.stderr)
    if words.compare:
        print("\n".join(compared(words.network, network, words.program)))
    else:
        sys.stdout.write(dump(network, f"{words.network} on a grid of 1/{words.grid}: arrivals up, services down."))
    return 0


if __name__ == "__main__":
    ended("round", main)
