"""What the tools beside the program reckon of a network's file by themselves: loads, the bits that a flow may bring at
once, and decimals that are rounded to the safe side. The bounds are those of the program alone.

The network is one that the program accepts, as `networks.load` reads it.
"""

import math
from fractions import Fraction

from networks import Fault, number

DIGITS = 3  # of a decimal


def decimal(units, digits):
    """A number of units of the last digit as a decimal."""
    sign, units = ("-" if units < 0 else ""), abs(units)
    return f"{sign}{units // 10**digits}.{units % 10**digits:0{digits}}" if digits else f"{sign}{units}"


def rounded_up(value, digits=DIGITS):
    """The least decimal of so many digits that is not below a number: so a bound is shown."""
    return decimal(-(-value.numerator * 10**digits // value.denominator), digits)


def rounded_down(value, digits=DIGITS):
    """The greatest decimal of so many digits that is not above a number: so a slack is shown."""
    return decimal(value.numerator * 10**digits // value.denominator, digits)


def hops_of(flow):
    """The servers of a flow's path with the queues there."""
    return [(name, int(queue or 0)) for name, _, queue in (entry.partition(":") for entry in flow["path"])]


def queues_of(server):
    """How many queues a server has."""
    return server.get("queues") or len(server.get("quanta", [0]))


def slope_of_list(curve):
    """How fast a listed curve rises in the long run."""
    if "tail" in curve:
        return number(curve["tail"]["rise"]) / number(curve["tail"]["period"])
    return number(curve["piece"][-1].get("slope", 0))


def rate_of_flow(flow):
    """The bits that a flow sends in a unit of time at most, in the long run."""
    arrival = flow["arrival"]
    if arrival["kind"] == "bucket":
        return number(arrival["rate"])
    return (
        Fraction(flow["packet"]) / number(arrival["period"]) if arrival["kind"] == "stair" else slope_of_list(arrival)
    )


def rate_of_server(server):
    """The bits that a server's service promises in a unit of time, in the long run."""
    service = server.get("service", {"kind": "latency"})
    if service["kind"] == "gate":
        return number(server["rate"]) * number(service["slot"]) / number(service["cycle"])
    return number(server["rate"]) if service["kind"] == "latency" else slope_of_list(service)


def value_of_list(curve, time):
    """The value of a listed curve at a time from 0 on."""
    pieces = [
        (number(p["x"]), number(p["at"]), number(p.get("after", p["at"])), number(p.get("slope", 0)))
        for p in curve["piece"]
    ]
    risen = Fraction(0)
    if "tail" in curve and time >= number(curve["tail"]["rank"]):
        rank, period, rise = (number(curve["tail"][key]) for key in ("rank", "period", "rise"))
        turns = math.floor((time - rank) / period)
        time, risen = time - turns * period, turns * rise
    start, at, after, slope = max(piece for piece in pieces if piece[0] <= time)
    return risen + (at if time == start else after + slope * (time - start))


def bits_within(flow, time):
    """The bits that a flow's arrival curve lets in within a closed window of a length: of the length 0 those that come
    at once."""
    arrival = flow["arrival"]
    if arrival["kind"] == "bucket":
        return number(arrival["burst"]) + number(arrival["rate"]) * time
    if arrival["kind"] == "stair":
        return flow["packet"] * (math.floor((time + number(arrival.get("jitter", 0))) / number(arrival["period"])) + 1)
    return value_of_list(arrival, time)


def load_of_server(server, flows):
    """The share of its long-run service that the flows over a server ask for; None where it promises none."""
    rate = rate_of_server(server)
    asked = sum(
        (rate_of_flow(flow) for flow in flows if any(name == server["name"] for name, _ in hops_of(flow))), Fraction(0)
    )
    return asked / rate if rate else (Fraction(0) if not asked else None)


def load_of_queue(server, queue, flows):
    """The share of its long-run service that the flows of a queue ask for: at a deficit round robin server of the
    queue's own share, at a priority server with the flows of the queues before it; None where it is promised none."""
    rate = rate_of_server(server)
    first = 0 if server.get("discipline") == "priority" else queue
    if server.get("discipline") == "drr":
        rate *= Fraction(server["quanta"][queue], sum(server["quanta"]))
    asked = sum(
        (
            rate_of_flow(flow)
            for flow in flows
            for name, at in hops_of(flow)
            if name == server["name"] and first <= at <= queue
        ),
        Fraction(0),
    )
    return asked / rate if rate else (Fraction(0) if not asked else None)


def time_of(text, what):
    """A time of a table, as a decimal or a fraction, exact."""
    front, point, after = text.partition(".")
    plain = f"{front}{after}/1{'0' * len(after)}" if point and after.isdigit() else text
    try:
        return number(plain)
    except Fault as fault:
        raise Fault(
            f"{what}: {fault}" if "/1" not in plain or "/" in text else f"{what} {text!r} is no number"
        ) from None
