#!/usr/bin/env python3
"""What changes of a network would do to its bounds and deadlines, as tables.

    ./netcalc what-if NET EDITS [--deadlines D.csv] [--write OUT.toml] [--csv OUT]
        a line for each row of an edit list: what the program says of it, how many bounds fell and rose, by how much the
        worst of each, and which deadlines turned; then each flow's bound before and after all rows
    ./netcalc what-if NET --greatest-load [FLOW] --deadlines D.csv
        the largest factor on the rates of a flow, or of all flows, that still keeps all deadlines, by halving

NET is in microseconds and bits; EDITS is an edit list as `netcalc edit` reads it, D.csv a table of deadlines as
report.py reads it. Bounds are shown as decimals, rounded up, deadlines rounded down. `--csv` writes each flow's bound
before all rows and after each, a column a row. `--write` writes the network after all rows as a file, with the same
bounds; a stair that a row `packet` leaves as it was, with its former packet, is written as a list.

The bounds between are those of `netcalc analyse` of the network that is made here after each row, the last ones are
held to what `netcalc edit` tells of the whole list.

The factor is a multiple of 1/64, at most 64. A stair's period is divided by it and rounded down, so the load is at
least that large; periods that divide one another go on doing so, or nearly so where one flow alone is faster. A
bucket's rate is multiplied, a list goes faster in time. A network that the program refuses counts as one that keeps no
deadline, and is told. Between two factors that were tried bounds may still go up and down: a factor above the one that
is told may keep all deadlines too.

The status is 1 where a deadline fails: after all rows, or already with no load.
"""

import argparse
import concurrent.futures
import copy
import csv
import io
import math
import os
import pathlib
import subprocess
import sys
import tempfile
from fractions import Fraction

import explain
import lint
import report
from loads import rounded_down, rounded_up
from networks import PROGRAM, TEXT, Answer, Fault, analyse, cell, dump, ended, load, number, text_in, the_program, written

PARTS = 64  # a factor is a multiple of one in so many
GREATEST = 64  # the largest factor that is tried


def rows_of(path):
    """The rows of an edit list, each as it stands there and with its cells."""
    reader = csv.reader(io.StringIO(text_in(path), newline=""))
    try:
        return [cells for cells in reader if cells]
    except csv.Error as fault:
        raise Fault(f"{path} line {reader.line_num}: {fault}") from None


def said_of(path, edits, rows, program):
    """What `edit` says of the rows of a list, a line each, and the bounds after them all; a Fault where it refuses the
    list."""
    words = ["edit", str(path), str(edits)]
    run = subprocess.run([the_program(program), *words], capture_output=True, **TEXT, check=False)
    report.hold_answer(words, Answer(run.returncode, run.stdout))
    said = [line.split(" ", 2)[2] for line in run.stdout.splitlines() if line.startswith("edit ")]
    if len(said) != len(rows):
        raise Fault(f"{edits}: {len(rows)} rows are read here, and {len(said)} by netcalc")
    return said, bounds_of(run.stdout)


def bounds_after(networks, program):
    """The bounds of each network by the program, of several at a time and of equal ones once."""
    texts = [dump(network) for network in networks]
    with tempfile.TemporaryDirectory() as folder, concurrent.futures.ThreadPoolExecutor(os.cpu_count()) as pool:
        paths = {text: pathlib.Path(folder, f"{place}.toml") for place, text in enumerate(dict.fromkeys(texts))}
        for text, path in paths.items():
            path.write_text(text, encoding="utf-8")
        answers = dict(zip(paths, pool.map(lambda path: analyse(path, program), paths.values())))
        for text, answer in answers.items():
            report.hold_answer(["analyse", str(paths[text])], answer)
    return [bounds_of(answers[text].text) for text in texts]


def bounds_of(text):
    """The bounds of an answer, by flow."""
    return {name: numbers["bound"] for name, numbers in Answer(0, text).flows.items()}


def difference(old, new):
    """By how much a bound is greater; None where one of them is missing."""
    return None if None in (old, new) else new - old


def is_kept(bound, deadline):
    """Whether a deadline is kept; None where there is none."""
    return None if deadline is None else bound is not None and bound <= deadline


def changes(before, after, deadlines):
    """What a row changed: words for the bounds that fell and rose, for flows that came and went, and for deadlines."""
    both = [name for name in after if name in before]
    moved = {name: difference(before[name], after[name]) for name in both if before[name] != after[name]}
    fell = {name: -by for name, by in moved.items() if by is not None and by < 0}
    rose = {name: by for name, by in moved.items() if by is not None and by > 0}
    for word, found in (("fell", fell), ("rose", rose)):
        if found:
            most = max(found, key=found.get)
            yield f"{len(found)} {word}, {most} most, by {rounded_up(found[most])}"
    yield from (
        f"{name} {'now' if after[name] is None else 'no longer'} unbounded" for name, by in moved.items() if by is None
    )
    yield from (f"{name} is new: {report.shown(after[name])}" for name in after if name not in before)
    yield from (f"{name} is gone" for name in before if name not in after)
    for name in both:
        was, now = (is_kept(bounds[name], deadlines.get(name)) for bounds in (before, after))
        if was != now:
            yield f"{name} now {'PASS' if now else 'FAIL'}"


def table_of(rows, said, found, deadlines):
    """The lines of all rows, with the bounds that were found before and after each."""
    for place, row in enumerate(rows):
        taken = said[place].startswith("ok")
        told = changes(found[place], found[place + 1], deadlines) if taken else []
        yield f"{place + 1}  {','.join(row)}: {'; '.join(['taken' if taken else said[place], *told])}"


def write_csv(path, found, deadlines):
    """The bounds of each flow before all rows and after each, as a table for a spreadsheet; an empty cell where the
    flow is not there."""
    names = list(dict.fromkeys(name for bounds in found for name in bounds))
    with open(path, "w", newline="", encoding="utf-8") as file:
        table = csv.writer(file)
        table.writerow(["flow", "deadline_us", "before_us", *(f"after_{row}_us" for row in range(1, len(found)))])
        for name in names:
            deadline = rounded_down(deadlines[name]) if name in deadlines else ""
            cells = (report.shown(bounds[name]) if name in bounds else "" for bounds in found)
            table.writerow(map(cell, [name, deadline, *cells]))


def flows_of(before, after, deadlines):
    """The table of all flows, before and after."""
    lines = []
    for name, new in after.items():
        old = before.get(name)
        greater = difference(old, new) if name in before else None
        kept = is_kept(new, deadlines.get(name))
        lines.append(
            [
                name,
                report.shown(old) if name in before else "-",
                report.shown(new),
                "-" if greater is None else rounded_up(greater),
                "" if name not in deadlines else rounded_down(deadlines[name]),
                "" if kept is None else ("PASS" if kept else "FAIL"),
            ]
        )
    return report.aligned(["flow", "before us", "after us", "greater us", "deadline us", ""], lines)


def listed(flow, packet):
    """The curve of a flow's stair of a packet, as a list."""
    period, jitter = number(flow["arrival"]["period"]), number(flow["arrival"].get("jitter", 0))
    early = jitter % period
    pieces = [{"x": 0, "at": written(packet * (jitter // period + 1))}]
    if early:
        pieces.append({"x": written(period - early), "at": written(packet * (jitter // period + 2))})
    tail = {"rank": pieces[-1]["x"], "period": written(period), "rise": packet}
    return {"kind": "list", "piece": pieces, "tail": tail}


def path_of(text):
    return text.split(" ")


def by_name(network, kind, name):
    return next(table for table in network[kind] if table["name"] == name)


def make(network, row):
    """Makes an edit that the program took."""
    what, name, *values = row
    numbers = [written(number(value)) for value in values] if what not in ("route", "add") else []
    if what == "add":
        packet, burst, rate = (written(number(value)) for value in values[:3])
        arrival = {"kind": "bucket", "burst": burst, "rate": rate}
        network.setdefault("flow", []).append(
            {"name": name, "packet": packet, "arrival": arrival, "path": path_of(values[3])}
        )
    elif what == "drop":
        network["flow"] = [flow for flow in network["flow"] if flow["name"] != name]
    elif what in ("rate", "link"):
        by_name(network, "server", name)[what] = numbers[0]
    elif what == "latency":
        by_name(network, "server", name)["service"] = {"kind": "latency", "latency": numbers[0]}
    elif what == "quantum":
        by_name(network, "server", name)["quanta"][numbers[0]] = numbers[1]
    else:
        make_of_flow(by_name(network, "flow", name), what, values, numbers)


def make_of_flow(flow, what, values, numbers):
    """Makes an edit of a flow."""
    if what == "bucket":
        flow["arrival"] = {"kind": "bucket", "burst": numbers[0], "rate": numbers[1]}
    elif what == "stair":
        flow["arrival"] = {"kind": "stair", "period": numbers[0], "jitter": numbers[1]}
    elif what == "route":
        flow["path"] = path_of(values[0])
    elif what == "packet":
        if flow["arrival"]["kind"] == "stair":
            flow["arrival"] = listed(flow, flow["packet"])
        flow["packet"] = numbers[0]


def copied(network, name):
    """A network that shares all tables with another one but those of a name, so that long lists fit the memory."""
    own = lambda tables: [copy.deepcopy(table) if table["name"] == name else table for table in tables]
    return network | {kind: own(network[kind]) for kind in ("server", "flow") if kind in network}


def networks_of(network, rows, said):
    """The networks before all rows and after each; one that was not taken leaves the network as it is."""
    past, every = [], [network]
    for row, words in zip(rows, said):
        if words.startswith("ok") and row[0] == "undo":
            network = past.pop()
        elif words.startswith("ok"):
            past.append(network)
            network = copied(network, row[1])
            make(network, row)
        every.append(network)
    return every


def faster(flow, factor, period_of):
    """A flow whose rate is greater by a factor; `period_of` gives the new period of a stair."""
    flow = copy.deepcopy(flow)
    arrival = flow["arrival"]
    if arrival["kind"] == "bucket":
        arrival["rate"] = written(number(arrival["rate"]) * factor)
    elif arrival["kind"] == "stair":
        arrival["period"] = written(period_of(number(arrival["period"])))
    else:
        for table in [*arrival["piece"], *([arrival["tail"]] if "tail" in arrival else [])]:
            for key in {"x", "rank", "period"} & table.keys():
                table[key] = written(number(table[key]) / factor)
            if "slope" in table:
                table["slope"] = written(number(table["slope"]) * factor)
    return flow


def divisor_of(flows):
    """The greatest number of which the periods of all stairs are multiples; 1 where there is no stair."""
    periods = [number(flow["arrival"]["period"]) for flow in flows if flow["arrival"]["kind"] == "stair"]
    common = math.lcm(1, *(period.denominator for period in periods))
    return Fraction(math.gcd(*(int(period * common) for period in periods)) or common, common)


def with_factor(network, parts, name):
    """The network with the rates of a flow, or of all, times a number of parts. Periods stay multiples of one number:
    of all flows together of what their divisor becomes, of one flow of a part of that."""
    factor, divisor = Fraction(parts, PARTS), divisor_of(network["flow"])
    grid = divisor / PARTS if name or divisor < PARTS else Fraction(1, PARTS)
    lower = lambda time: math.floor(time / factor / grid) * grid
    period_of = lower if name else lambda period: period / divisor * lower(divisor)
    flows = [faster(flow, factor, period_of) if name in (None, flow["name"]) else flow for flow in network["flow"]]
    return network | {"flow": flows}


def broken(network, deadlines, program):
    """Why a network does not keep all deadlines; None where it does."""
    with tempfile.NamedTemporaryFile("w", suffix=".toml", encoding="utf-8") as file:
        file.write(dump(network))
        file.flush()
        answer = analyse(file.name, program)
    if answer.status:
        return f"it is refused: {answer.text.strip().replace(file.name, 'the network')}"
    late = [name for name, deadline in deadlines.items() if not is_kept(answer.flows[name]["bound"], deadline)]
    if not late:
        return None
    worst = max(
        late,
        key=lambda name: (answer.flows[name]["bound"] is None, (answer.flows[name]["bound"] or 0) - deadlines[name]),
    )
    more = f", and {len(late) - 1} more" if len(late) > 1 else ""
    return f"{worst} has {report.shown(answer.flows[worst]['bound'])} of {rounded_down(deadlines[worst])}{more}"


def greatest(network, deadlines, program, name):
    """The largest number of parts that keeps all deadlines, and why one more does not; None for that where none is
    tried."""
    low, high, why = 0, None, None
    parts = PARTS
    while high is None and low < GREATEST * PARTS or high is not None and high - low > 1:
        found = broken(with_factor(network, parts, name), deadlines, program)
        if found is None:
            low = parts
        else:
            high, why = parts, found
        parts = 2 * low if high is None else (low + high) // 2
    return low, why


def tell_load(words, network, deadlines):
    """Tells the greatest load."""
    name = words.greatest_load or None
    names = [flow["name"] for flow in network.get("flow", [])]
    if name and name not in names:
        raise Fault(f"{words.network}: no flow {name}{explain.near(name, names)}")
    if not network.get("flow"):
        raise Fault(f"{words.network}: no flow")
    parts, why = greatest(network, deadlines, words.program, name)
    whose = f"the rate of {name}" if name else "all rates"
    if parts == 0:
        print(f"no factor on {whose} keeps all deadlines: with the least, {why}")
        return 1
    print(f"{whose} times {Fraction(parts, PARTS)} ({report.rounded_down(Fraction(parts, PARTS))}): all deadlines kept")
    if why:
        print(f"times {Fraction(parts + 1, PARTS)} not: {why}")
    return 0


def odd_after(made, program):
    """What is odd in the network after all rows."""
    with tempfile.NamedTemporaryFile("w", suffix=".toml", encoding="utf-8") as file:
        file.write(made)
        file.flush()
        return [line.partition(": ")[2] for line in lint.lint(file.name, program)]


def tell_edits(words, network, deadlines):
    """Tells what the rows do."""
    rows = rows_of(words.edits)
    said, told = said_of(words.network, words.edits, rows, words.program)
    networks = networks_of(network, rows, said)
    found = bounds_after(networks, words.program)
    if found[-1] != told:
        raise Fault(f"{words.edits}: the network that is made here of all rows has other bounds than `edit` tells")
    made = dump(networks[-1], f"{words.network} after the edits of {words.edits}.")
    if words.write:
        pathlib.Path(words.write).write_text(made, encoding="utf-8")
    if words.csv:
        write_csv(words.csv, found, deadlines)
    for line in table_of(rows, said, found, deadlines):
        print(line)
    print()
    for line in flows_of(found[0], found[-1], deadlines):
        print(line)
    for line in odd_after(made, words.program):
        print(f"odd after all rows: {line}")
    return 1 if any(is_kept(bound, deadlines.get(name)) is False for name, bound in found[-1].items()) else 0


def main():
    parser = argparse.ArgumentParser(description=__doc__, formatter_class=argparse.RawDescriptionHelpFormatter)
    parser.add_argument("network")
    parser.add_argument("edits", nargs="?")
    parser.add_argument("--deadlines", metavar="D.csv", help="a table of flows and deadlines")
    parser.add_argument("--write", metavar="OUT.toml", help="write the network after all rows")
    parser.add_argument("--csv", metavar="OUT", help="write the bounds before all rows and after each as a table")
    parser.add_argument("--greatest-load", nargs="?", const="", metavar="FLOW", help="the largest factor on rates")
    parser.add_argument("--program", default=str(PROGRAM), help="the program to ask")
    words = parser.parse_args()
    if (words.edits is None) == (words.greatest_load is None):
        parser.error("an edit list, or --greatest-load")
    if words.greatest_load is not None and not words.deadlines:
        parser.error("--greatest-load wants --deadlines")
    if (words.write or words.csv) and not words.edits:
        parser.error("--write and --csv want an edit list")
    report.hold_answer(["analyse", words.network], analyse(words.network, words.program))
    network = load(words.network)
    names = [flow["name"] for flow in network.get("flow", [])]
    deadlines = report.deadlines_of(words.deadlines, names) if words.deadlines else {}
    return (tell_edits if words.edits else tell_load)(words, network, deadlines)


if __name__ == "__main__":
    ended("what_if", main)
