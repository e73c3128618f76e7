#!/usr/bin/env python3
"""Tells what in a network's file is lawful and hardly meant.

    ./netcalc lint NET

A line for each finding: the file, the line, the server or flow, and what is odd. The status is 0 where nothing is found
and 1 where something is. A file that is not lawful is refused as by the program, with the words of `./netcalc explain`.

What is looked for: an arrival curve that lets in less at once than the flow's longest packet; more load than a server
or a queue is promised; a packet longer than a gate's slot; a listed service that is ahead of its server's rate in
version 2; a network without a server or a flow; packets and bursts that look like bytes; times far below 1; a flow
whose priority changes on its way."""

import argparse
import subprocess
import sys
from fractions import Fraction

import explain
import loads
from networks import PROGRAM, TEXT, Fault, ended, load, number, text_in, the_program
from places import Places

NOBODY = "no flow"  # no name of a flow has a space
SHORTEST = 512  # bits of the shortest Ethernet frame
LONGEST = 1542  # bytes of a long Ethernet frame with its tag, preamble and gap


def hold_lawful(path, program):
    """Refuses a file that the program refuses for its rules, with the words of it. Asked for a flow that cannot be
    there, the program reads the file and analyses nothing."""
    words = ["measure", str(path), "/dev/null", NOBODY, "1"]
    run = subprocess.run([the_program(program), *words], capture_output=True, **TEXT, check=False)
    if run.stdout != f"netcalc: unknown flow {NOBODY}\n":
        told = run.stdout.strip() or f"netcalc ended with status {run.returncode}"
        raise Fault("\n".join([told, *explain.explain(run.stdout, words)]))


def of_flow(flow, servers):
    """What is odd at a flow: keys of its table with words."""
    packet, arrival = flow["packet"], flow["arrival"]
    at_once = loads.bits_within(flow, 0)
    if at_once < packet:
        told = f"its curve lets in {at_once} bits at once, less than its packet of {packet}"
        yield "arrival", f"{told}: no packet of that length keeps it"
    if arrival["kind"] == "bucket" and 8 * at_once == packet:
        yield "arrival", f"its burst of {at_once} is an eighth of its packet: bytes in place of bits?"
    if packet <= LONGEST and (packet % 8 or packet < SHORTEST):
        yield "packet", f"a packet of {packet} bits: bytes? A frame of {packet} bytes has {8 * packet} bits"
    if arrival["kind"] == "stair" and number(arrival["period"]) < Fraction(1, 100):
        yield "arrival", f"a period of {arrival['period']} is far below 1: take a smaller unit of time"
    yield from of_priorities(flow, servers)


def of_priorities(flow, servers):
    """A queue of a priority server that is another one than at an earlier server of as many queues."""
    seen = {}
    for name, queue in loads.hops_of(flow):
        count = servers[name].get("queues", 1)
        before, first = seen.setdefault(count, (name, queue))
        if count > 1 and first != queue:
            yield "path", f"its priority changes on the way: queue {first} at {before}, and {queue} at {name}"
            return


def of_gate(server, flows):
    """Packets that do not fit into a gate's slot."""
    service = server.get("service", {})
    if service.get("kind") != "gate":
        return
    room = number(server["rate"]) * number(service["slot"])
    for flow in flows:
        if flow["packet"] > room and server["name"] in [name for name, _ in loads.hops_of(flow)]:
            told = f"a slot has {room} bits, and a packet of {flow['name']} {flow['packet']}"
            yield "service", f"{told}: a real time-aware port would never send it"
    if number(service["cycle"]) < Fraction(1, 100):
        yield "service", f"a cycle of {service['cycle']} is far below 1: take a smaller unit of time"


def ahead_of(curve, rate):
    """A time at which a listed curve is above `rate` times the time, with its value there; None where there is none.
    Between its pieces it is continuous, and from period to period it gains on the rate or falls behind."""
    pieces = [(number(piece["x"]), number(piece["at"]), number(piece.get("slope", 0))) for piece in curve["piece"]]
    start, value, slope = pieces[-1]
    tail = curve.get("tail")
    if tail:
        period, rise = number(tail["period"]), number(tail["rise"])
        end = number(tail["rank"]) + period
    else:
        period, rise, end = Fraction(1), slope, start + 1
    places = [(time, at) for time, at, _ in pieces] + [(end, value + slope * (end - start))]
    for time, at in places:
        if at > rate * time:
            return time, at
    if rise > rate * period:
        time, at = places[-1]
        turns = (rate * time - at) // (rise - rate * period) + 1
        return time + turns * period, at + turns * rise
    return None


def of_load(server, flows):
    """Loads above 1, of the server or else of a queue's own share."""
    whole = loads.load_of_server(server, flows)
    if whole is None or whole > 1:
        told = "none is promised" if whole is None else f"{loads.rounded_up(whole)} of what its service promises"
        yield "name", f"its load is above 1: {told} in the long run, so its bounds are unbounded"
        return
    for queue in range(loads.queues_of(server)):
        share = loads.load_of_queue(server, queue, flows)
        if share is None or share > 1:
            told = "none is promised" if share is None else f"it is {loads.rounded_up(share)} of its share"
            yield "name", f"the load of queue {queue} is above 1: {told}; take longer quanta for it"


def of_server(server, flows, version):
    """What is odd at a server: keys of its table with words."""
    yield from of_load(server, flows)
    yield from of_gate(server, flows)
    service = server.get("service", {})
    ahead = ahead_of(service, number(server["rate"])) if version == 2 and service.get("kind") == "list" else None
    if ahead:
        time, bits = ahead
        told = f"in version 2 no server works faster than its rate of {server['rate']}"
        yield "service", f"it promises {bits} bits within {time}, and {told}"


def findings(network, places):
    """All that is odd: lines, the words for servers and flows, and what is said of them."""
    servers, flows = network.get("server", []), network.get("flow", [])
    for kind, found in (("server", servers), ("flow", flows)):
        if not found:
            yield 1, "the network", f"it has no {kind}: nothing is bounded"
    by_name = {server["name"]: server for server in servers}
    for place, server in enumerate(servers):
        for key, told in of_server(server, flows, network.get("version", 1)):
            yield places.line(f"server[{place}].{key}"), f"server {server['name']}", told
    for place, flow in enumerate(flows):
        for key, told in of_flow(flow, by_name):
            yield places.line(f"flow[{place}].{key}"), f"flow {flow['name']}", told


def lint(path, program=PROGRAM):
    """The lines of findings of a file that the program accepts."""
    hold_lawful(path, program)
    network, places = load(path), Places(text_in(path))
    return [f"{path} line {line}: {whose}: {told}" for line, whose, told in findings(network, places)]


def main():
    parser = argparse.ArgumentParser(description=__doc__, formatter_class=argparse.RawDescriptionHelpFormatter)
    parser.add_argument("network")
    parser.add_argument("--program", default=str(PROGRAM), help="the program to ask")
    words = parser.parse_args()
    found = lint(words.network, words.program)
    for line in found:
        print(line)
    if not found:
        print(f"{words.network}: nothing odd found", file=sys.stderr)
    return 1 if found else 0


if __name__ == "__main__":
    ended("lint", main)
