"""The shapes of networks, runs and traces that bench/speed.py measures: of each its words and what its files hold.

A network of a shape has servers in a row, of one rate, service and discipline, and flows over some servers that follow one another, whose first
servers are spread evenly. Packets are 1,000 to 12,000 bits, and so are bursts; stairs take their periods in turn.
"""

from dataclasses import dataclass
from pathlib import Path

import analysis
import hostile
import network_files
import simulation

EXAMPLES = Path(__file__).resolve().parent.parent / "examples"
DOUBLED = (8000, 16000, 32000)
MIXED = (8000, 12000, 20000)  # together they repeat after 120,000
LATENCY = '{ kind = "latency", latency = 10 }'
GATE = '{ kind = "gate", cycle = 1000, slot = 500 }'
RAMP = '{ kind = "list", piece = [{ x = 0, at = 0 }, { x = 10, at = 0, slope = 100 }, { x = 30, at = 2000, slope = 200 }] }'


@dataclass(frozen=True)
class Shape:
    """`words` are those of the call, in which a key of `files` stands for the file that holds its text."""

    name: str
    words: str
    files: dict[str, str]
    may_differ: bool = False  # where the twin says no more than that there is a cycle

    def analysed(self) -> str:
        """The text of the network, where the shape is one that is analysed alone."""
        return self.files["n"] if self.words == "analyse n" else ""


@dataclass(frozen=True)
class Row:
    """Servers in a row and the flows over them."""

    servers: int
    flows: int
    hops: int
    discipline: str = "fifo"
    queues: int = 1
    service: str = LATENCY
    periods: tuple[int, ...] = ()  # none: token buckets
    rates: tuple[int, ...] = (1, 2, 3)  # of the buckets, in turn
    jitter: int = 0
    version: int = 1

    def rate(self) -> int:
        return 200 if self.periods else max(100, self.flows * self.hops // self.servers * 4 + 10)

    def rule(self) -> str:
        quanta = ", ".join(["12000"] * self.queues)
        return {"fifo": "", "priority": f"queues = {self.queues}\n", "drr": f"quanta = [{quanta}]\n"}[self.discipline]

    def server(self, number: int) -> str:
        return (
            f'[[server]]\nname = "s{number}"\nrate = {self.rate()}\nservice = {self.service}\ndiscipline = "{self.discipline}"\n{self.rule()}'
        )

    def arrival(self, number: int) -> str:
        if not self.periods:
            return f'{{ kind = "bucket", burst = {1000 * (1 + number % 12)}, rate = {self.rates[number % len(self.rates)]} }}'
        period = self.periods[number % len(self.periods)]
        return f'{{ kind = "stair", period = {period}, jitter = {self.jitter * (number % 4)} }}'

    def flow(self, number: int) -> str:
        hops = min(self.hops, self.servers)
        first = number * 7 % (self.servers - hops + 1)
        queue = f":{number % self.queues}" if self.queues > 1 else ""
        path = ", ".join(f'"s{place}{queue}"' for place in range(first, first + hops))
        return f'[[flow]]\nname = "f{number}"\npacket = {1000 * (1 + number % 12)}\narrival = {self.arrival(number)}\npath = [{path}]\n'

    def text(self) -> str:
        servers = "".join(map(self.server, range(self.servers)))
        return f"version = {self.version}\n{servers}{''.join(map(self.flow, range(self.flows)))}"


def stairs(servers: int, **other) -> Row:
    return Row(servers, 3 * servers // 2, other.pop("hops", 4), periods=other.pop("periods", DOUBLED), **other)


def rows() -> dict[str, Row]:
    """The networks in a row, by name; n servers and 3 n / 2 flows of 4 hops where nothing else is said."""
    found = {}
    for servers in (4, 16, 64):
        found[f"first in first out, {servers} servers"] = stairs(servers)
        found[f"gates, {servers} servers"] = stairs(servers, service=GATE)
        found[f"priority, 4 queues, {servers} servers"] = stairs(servers, discipline="priority", queues=4)
        found[f"round robin, 4 queues, {servers} servers"] = stairs(servers, discipline="drr", queues=4)
    for servers in (16, 64):
        found[f"version 2, {servers} servers"] = stairs(servers, version=2)
        for flows in (64, 256):
            found[f"bursts, {flows} flows of 16 hops, {servers} servers"] = Row(servers, flows, 16, rates=(0,))
    found["version 2, gates, 16 servers"] = stairs(16, version=2, service=GATE)
    for flows in (64, 256):
        found[f"version 2, buckets, {flows} flows of 16 hops, 16 servers"] = Row(16, flows, 16, version=2)
    found["buckets, 64 flows of 16 hops, 16 servers"] = Row(16, 64, 16)
    found["periods 8000, 12000, 20000, 16 servers"] = stairs(16, periods=MIXED)
    found["periods 8000, 12000, 20000, round robin, 16 servers"] = stairs(16, periods=MIXED, discipline="drr", queues=4)
    found["jitter, 16 servers"] = stairs(16, jitter=3000)
    found["listed services of two slopes, 16 servers"] = stairs(16, service=RAMP)
    for discipline, name in (("priority", "priority"), ("drr", "round robin")):
        row = Row(16, 64, 8, discipline=discipline, queues=8, rates=(0,))
        found[f"bursts, {name}, 8 queues, 64 flows of 8 hops, 16 servers"] = row
    return found


def late() -> dict[str, Row]:
    """Networks that take long; they are measured only where their name is asked for."""
    return {
        "late: 96 stairs of 16 hops, 64 servers": stairs(64, hops=16),
        "late: 256 stairs of 6 hops, 64 gates": Row(64, 256, 6, periods=DOUBLED, service=GATE),
    }


def mixed(servers: int) -> str:
    flows = enumerate(analysis.paths(servers))
    return "".join(map(analysis.server_text, range(servers))) + "".join(analysis.flow_text(flow, hops) for flow, hops in flows)


def recorded(packets: int) -> str:
    """Packets that are worked off as they come, at a rate of 100, over one server: three rows each."""
    rows = []
    for number in range(packets):
        enter, leave = 120 * number, 120 * number + 120
        rows.append(f"enter,{enter},f0,12000\nwork,s0,{number},{enter},{leave},12000\nleave,{leave},s0,{number}\n")
    return "".join(rows) + f"end,{120 * packets}\n"


def one_server(arrival: str) -> str:
    return (
        f'[[server]]\nname = "s0"\nrate = 100\n[[flow]]\nname = "f0"\npacket = 12000\narrival = {arrival}\npath = ["s0"]\n'
    )


def runs() -> list[Shape]:
    """Simulations of 10,000 packets, but for one row, and recorded runs of 10,000 steps."""
    bucket, stair = '{ kind = "bucket", burst = 12000, rate = 100 }', '{ kind = "stair", period = 120 }'
    found = []
    for name, arrival in (("buckets", "kept buckets"), ("stairs", "kept stairs")):
        files = {"n": simulation.network_text(simulation.ARRIVALS[arrival]), "t": simulation.trace_text(9_999)}
        found.append(Shape(f"simulate, 9,999 packets over five servers, {name}", "simulate n t", files))
    for name, arrival in (("a bucket", bucket), ("a stair", stair)):
        files = {"n": one_server(arrival), "t": recorded(3_333)}
        found.append(Shape(f"check, 10,000 steps at one server, {name}", "check n t", files))
    return found


def examples() -> list[Shape]:
    """The networks of examples/."""
    paths = sorted(path for path in EXAMPLES.rglob("*.toml") if path.parent.name != "tutorial")
    return [Shape(f"examples/{path.relative_to(EXAMPLES)}", "analyse n", {"n": path.read_text()}) for path in paths]


def all_shapes() -> list[Shape]:
    found = [Shape(name, "analyse n", {"n": row.text()}) for name, row in (rows() | late()).items()]
    found += [Shape(f"all disciplines, {servers} servers", "analyse n", {"n": mixed(servers)}) for servers in (4, 16, 64)]
    found += [Shape(f"a closure, segment of 1/{parts}", "analyse n", {"n": network_files.closed(parts)}) for parts in (20, 40, 80)]
    found += [Shape(f"a closure, {steps} steps at drawn times", "analyse n", {"n": hostile.closed_walk(steps)}) for steps in (12, 20)]
    most = network_files.MOST_BYTES
    for name, told in (("in a ring", "0.8 MB in a ring, read alone"), ("alike names", "1 MiB, names alike, 256 flows of 16 hops")):
        found.append(Shape(told, "analyse n", {"n": network_files.FILES[name](most)}, name == "in a ring"))
    return found + examples() + runs()
