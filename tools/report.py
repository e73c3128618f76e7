#!/usr/bin/env python3
"""A table to sign: the bounds of a network beside deadlines, the ports with their loads and buffers, and where each
delay comes from.

    ./netcalc report NET [--deadlines D.csv] [--html OUT] [--csv OUT]

NET is a network's file in microseconds and bits. D.csv has a head line with a column `flow` (or `name`) and one
`deadline` in microseconds, decimal or a fraction; other columns are left alone, and lines without a deadline are
skipped, so a table of links with a column of deadlines will do: the branches of a link are its flows NAME_1, NAME_2 ...

The program's exact bounds are shown as decimals of three digits, **rounded up**, beside the fractions; a slack is
rounded down; PASS and FAIL compare exactly. A buffer is the backlog bound in bytes, rounded up. A load is what the
flows ask for in the long run over what is promised: at a priority server with the queues before, at a deficit round
robin server over the queue's own share. A flow's delay is shared out by the delay bounds of its ports and its links;
`brings most` names the flows that may bring most bits at once to that queue (at a priority server: to it and those
before it), by their curves and the delay bounds on their way so far. The findings of lint.py stand on top. `--html`
writes the report as one page that needs no other file, `--csv` the flows alone, for a spreadsheet.

NET may also be what `netbound --json` writes (`branches` and `ports`), whose bounds are decimals already and which tells
its own deadlines, and whether they are met; it has no paths, so no delay is shared out.

The status is 0 where each flow has a bound and no deadline fails, else 1; flows without a deadline are counted. A
network that the program refuses is refused in its words and those of `./netcalc explain`."""

import argparse
import csv
import hashlib
import math
import pathlib
import sys
from collections import Counter
from dataclasses import dataclass, field
from fractions import Fraction
from functools import cached_property

import explain
import lint
import loads
import networks
import report_page
from import_icd import branch_name, counts_of, rows
from loads import rounded_down, rounded_up
from networks import PROGRAM, Fault, analyse, cell, ended, load, number, shortened, text_in, the_program

MOST = 3  # flows that are named at a port


@dataclass
class Flow:
    """A flow, or a branch of a link, with its bound and its deadline; None where there is none."""

    name: str
    bound: Fraction | None
    deadline: Fraction | None = None
    hops: list = field(default_factory=list)
    met: bool | None = None  # what is told of the deadline by who compared it exactly

    @cached_property
    def slack(self):
        if None in (self.bound, self.deadline):
            return None
        return max(self.deadline - self.bound, 0) if self.met else self.deadline - self.bound

    @property
    def verdict(self):
        """PASS or FAIL of the deadline; a flow without a bound fails, and one without a deadline has no verdict."""
        if self.bound is None or self.met is False:
            return "FAIL"
        if self.met is None and self.slack is not None and self.slack < 0:
            return "FAIL"
        return "PASS" if self.deadline is not None else ""


@dataclass
class Port:
    """A queue of a server: load, delay and bytes, None where there is no bound."""

    name: str
    load: Fraction | None
    delay: Fraction | None
    bytes: int | None


@dataclass
class Hop:
    """A part of a flow's delay: that of a port, or of all its links; and the flows that bring most there."""

    place: str
    delay: Fraction | None
    share: Fraction | None = None
    most: list = field(default_factory=list)


@dataclass
class Report:
    """All that is shown."""

    head: list
    findings: list
    flows: list
    ports: list
    has_deadlines: bool = False  # whether a table of them was given

    def failed(self):
        return [flow for flow in self.flows if flow.verdict == "FAIL"]

    def told(self):
        """The line that says how the deadlines stand."""
        asked = [flow for flow in self.flows if flow.deadline is not None]
        missing = [flow for flow in self.flows if flow.bound is None]
        kept = sum(flow.verdict == "PASS" for flow in asked)
        words = f"{kept} of {len(asked)} deadlines kept"
        words += f", {len(asked) - kept} not" if kept < len(asked) else ""
        words += f"; {len(self.flows)} flows" + (f", {len(missing)} without a bound" if missing else "")
        free = len(self.flows) - len(asked)
        return words + (f", {free} without a deadline" if free and self.has_deadlines else "")


def deadlines_of(path, names):
    """The deadlines of a table, by the names of flows."""
    head = text_in(path).partition("\n")[0]
    columns = [cell.strip().strip('"') for cell in head.split(",")]
    if head.strip() and not {"flow", "name"} & set(columns):
        hint = ": write commas in place of the semicolons" if ";" in head else ""
        raise Fault(f"{path} line 1: no column flow, and none name{hint}")
    column = "flow" if "flow" in columns else "name"
    found, before = {}, Counter()
    counts = counts_of(path, column) if "path" in columns else Counter()
    for line, row in rows(path, [column, "deadline"]):
        try:
            name = branch_name(row[column], counts, before)
            if row["deadline"]:
                add_deadline(found, name, row["deadline"], names)
        except Fault as fault:
            raise Fault(f"{path} line {line}: {fault}") from None
    return found


def add_deadline(found, name, text, names):
    """Takes a deadline of a table."""
    if name not in names:
        raise Fault(f"no flow {shortened(name)}{explain.near(name, names)}")
    time = loads.time_of(text, "deadline")
    if time <= 0:
        raise Fault(f"deadline {shortened(text)} is not above 0")
    if found.setdefault(name, time) != time:
        raise Fault(f"{name} has another deadline in an earlier line")


def share_out(flow, answer, servers):
    """The parts of a flow's delay: its ports', and its links' together."""
    hops, links = [], Fraction(0)
    for name, queue in loads.hops_of(flow):
        hops.append(Hop(f"{name}:{queue}", answer.queues[name, queue]["delay"]))
        links += number(servers[name].get("link", 0))
    if links:
        hops.append(Hop("links", links))
    whole = None if any(hop.delay is None for hop in hops) else sum(hop.delay for hop in hops)
    for hop in hops:
        hop.share = hop.delay / whole if whole else None
    return hops


def brought(network, answer):
    """The bits that each flow may bring at once to each queue that it passes: by its curve, which the delays so far let
    it gather. None where a delay has no bound."""
    found = {}
    for flow in network.get("flow", []):
        waited = Fraction(0)
        for name, queue in loads.hops_of(flow):
            bits = None if waited is None else loads.bits_within(flow, waited)
            found.setdefault((name, queue), []).append((flow["name"], bits))
            delay = answer.queues[name, queue]["delay"]
            waited = None if None in (waited, delay) else waited + delay
    return found


def most_at(server, queue, gathered):
    """The flows that bring most to a queue, with their shares of all that comes at once."""
    first = 0 if server.get("discipline") == "priority" else queue
    flows = [entry for at in range(first, queue + 1) for entry in gathered.get((server["name"], at), [])]
    if any(bits is None for _, bits in flows):
        return []
    whole = sum(bits for _, bits in flows)
    flows.sort(key=lambda entry: -entry[1])
    return [(name, bits / whole) for name, bits in flows[:MOST]] if whole else []


def hold_answer(words, answer):
    """Refuses what the program refuses of some words, in its own words and those of the explanation."""
    if answer.status:
        told = answer.text.strip() or f"netcalc ended with status {answer.status}"
        raise Fault("\n".join([told, *explain.explain(answer.text, words)]))


def sum_of(path):
    return hashlib.sha256(pathlib.Path(path).read_bytes()).hexdigest()


def of_network(path, deadlines, program):
    """The report of a network's file."""
    program = the_program(program)
    findings = lint.lint(path, program)
    answer = analyse(path, program)
    hold_answer(["analyse", str(path)], answer)
    network = load(path)
    servers = {server["name"]: server for server in network.get("server", [])}
    gathered = brought(network, answer)
    wanted = deadlines_of(deadlines, list(answer.flows)) if deadlines else {}
    flows = []
    for flow in network.get("flow", []):
        name = flow["name"]
        flows.append(Flow(name, answer.flows[name]["bound"], wanted.get(name), share_out(flow, answer, servers)))
        for hop, (server, queue) in zip(flows[-1].hops, loads.hops_of(flow)):
            hop.most = most_at(servers[server], queue, gathered)
    ports = [
        Port(
            f"{name}:{queue}",
            loads.load_of_queue(servers[name], queue, network.get("flow", [])),
            numbers["delay"],
            None if numbers["backlog"] is None else math.ceil(numbers["backlog"] / 8),
        )
        for (name, queue), numbers in answer.queues.items()
    ]
    head = [f"network {path}, SHA-256 {sum_of(path)}", f"bounds by netcalc, SHA-256 {sum_of(program)}"]
    if deadlines:
        head.append(f"deadlines {deadlines}, SHA-256 {sum_of(deadlines)}")
    return Report(head, findings, flows, ports, bool(deadlines))


def known(text, what):
    """A decimal of a report in JSON, or None for `none`."""
    return None if text == "none" else loads.time_of(text, what)


def met_of(branch):
    """Whether a branch of a report in JSON meets its deadline, as it says itself: the numbers there are rounded."""
    met = branch.get("met")
    if met is not None and not isinstance(met, bool):
        raise Fault("met is neither true nor false")
    return met


def of_json(path):
    """The report of a report in JSON, with its branches and ports."""
    try:
        found = networks.value_of_json(text_in(path))
        flows = [
            Flow(
                f"{branch['link']} to {branch['port']}",
                known(branch["bound"], "bound"),
                loads.time_of(branch["deadline"], "deadline") if "deadline" in branch else None,
                met=met_of(branch),
            )
            for branch in found["branches"]
        ]
        ports = [
            Port(
                f"{port['name']}:{port['queue']}",
                known(port["load"], "load"),
                known(port["delay"], "delay"),
                None if port["backlog"] == "none" else math.ceil(known(port["backlog"], "backlog") / 8),
            )
            for port in found["ports"]
        ]
    except Fault as fault:
        raise Fault(f"{path}: {fault}") from None
    except (ValueError, KeyError, TypeError, AttributeError) as fault:
        raise Fault(f"{path}: no report in JSON with branches and ports: {type(fault).__name__} {fault}") from None
    return Report([f"report {path}, SHA-256 {sum_of(path)}"], [], flows, ports)


def shown(value, how=rounded_up):
    """A number as a decimal, or a word where there is none."""
    return "none" if value is None else how(value)


def by_slack(flow):
    """The order of flows: what fails first, then by slack, then those without a deadline by their bounds. The exact number is looked at
    only where those of the machine are the same: two fractions take long to compare."""
    if flow.bound is None:
        return (0, 0, 0)
    kind, number = (1, flow.slack) if flow.slack is not None else (2, -flow.bound)
    return kind, float(number), number


def by_delay(port):
    """The order of ports: those without a bound first, then by delay."""
    return (0, 0) if port.delay is None else (1, -port.delay)


def aligned(head, lines):
    """The lines of a table, with its columns below one another; the first to the left, the others to the right."""
    widths = [max(len(row[place]) for row in [head, *lines]) for place in range(len(head))]
    for row in [head, *lines]:
        cells = [row[0].ljust(widths[0]), *(cell.rjust(width) for cell, width in zip(row[1:], widths[1:]))]
        yield "  ".join(cells).rstrip()


def flow_cells(flow):
    """The cells of a flow's line."""
    deadline = "" if flow.deadline is None else rounded_down(flow.deadline)
    slack = "" if flow.slack is None else rounded_down(flow.slack)
    return [flow.name, shown(flow.bound), deadline, flow.verdict, slack, shown(flow.bound, str)]


def hop_words(hop):
    """The words for a part of a delay."""
    most = ", ".join(f"{name} {percent(share)}" for name, share in hop.most)
    return [f"  {hop.place}", shown(hop.delay), percent(hop.share), f"  brings most: {most}" if most else ""]


def percent(share):
    """A share as percent, to the nearest; it is no bound."""
    return "" if share is None else f"{round(100 * share)} %"


def text_of(report):
    """The report as lines."""
    yield from report.head
    yield report.told()
    yield from [f"odd: {line}" for line in report.findings]
    yield ""
    flows = sorted(report.flows, key=by_slack)
    yield from aligned(["flow", "bound us", "deadline us", "", "slack us", "exact bound"], list(map(flow_cells, flows)))
    yield ""
    ports = [[p.name, shown(p.load), shown(p.delay), shown(p.bytes, str)] for p in sorted(report.ports, key=by_delay)]
    yield from aligned(["port", "load", "delay us", "buffer bytes"], ports)
    for flow in flows:
        if flow.hops:
            yield ""
            table = list(
                aligned([flow.name, "delay us", "share", ""], [[*hop_words(hop)[:3], ""] for hop in flow.hops])
            )
            yield table[0]
            yield from (line + hop_words(hop)[3] for line, hop in zip(table[1:], flow.hops))


def write_csv(path, report):
    """The flows as a table for a spreadsheet."""
    with open(path, "w", newline="", encoding="utf-8") as file:
        table = csv.writer(file)
        table.writerow(["flow", "bound_us", "deadline_us", "verdict", "slack_us", "exact_bound"])
        table.writerows(map(cell, flow_cells(flow)) for flow in sorted(report.flows, key=by_slack))


def main():
    parser = argparse.ArgumentParser(description=__doc__, formatter_class=argparse.RawDescriptionHelpFormatter)
    parser.add_argument("network")
    parser.add_argument("--deadlines", metavar="D.csv", help="a table of flows and deadlines")
    parser.add_argument("--html", metavar="OUT", help="write the report as a page too")
    parser.add_argument("--csv", metavar="OUT", help="write the flows as a table too")
    parser.add_argument("--program", default=str(PROGRAM), help="the program to ask")
    words = parser.parse_args()
    if text_in(words.network).lstrip().startswith("{"):
        if words.deadlines:
            parser.error("a report in JSON tells its own deadlines")
        report = of_json(words.network)
    else:
        report = of_network(words.network, words.deadlines, words.program)
    if words.csv:
        write_csv(words.csv, report)
    if words.html:
        pathlib.Path(words.html).write_text(
            report_page.page(report), encoding="utf-8", errors="surrogateescape"
        )
    for line in text_of(report):
        print(line)
    return 1 if report.failed() else 0


if __name__ == "__main__":
    ended("report", main)
