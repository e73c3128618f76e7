#!/usr/bin/env python3
"""Holds netcalc's runs to those of ns-3, to the nanosecond.

    exact.py --kind fifo --seeds 0-149 --want 100 --out runs/exact [--nc ./netcalc] [--random 3] [--limit 60]
    exact.py --summary runs/exact [runs/other ..]

No command of netcalc prints when a packet leaves, so two commands are asked of each run that ns-3 made.

- `check` reads ns-3's run row by row: each packet's entry, its work from the first bit to the last at each server, its
  leave, its arrival behind the link. The file is of version 2 and no server has a latency, so a server with work does
  exactly its rate: a run with a leave one nanosecond sooner or later is unlawful or breaks a service. `admissible` says
  that each leave of ns-3 is the one that netcalc's definitions ask for. In one run of each network the last packet is
  then moved by 1 ns, and `check` must refuse that.
- `simulate` runs the same packets itself (first in first out alone): each flow's worst delay, each queue's greatest
  backlog and the end of the run must be ns-3's.

Packets that come to a server at one time join in the order that docs/FORMATS.md gives: over links first, then by the
trace. `rank listed` asks that of the harness. At priority servers ns-3 starts the first that joins, and `simulate`
looks at all of them first; so there `check` alone is asked.
"""
import argparse
import json
import os
import random
import subprocess
import sys
from collections import Counter
from fractions import Fraction

import convert
import gen
import run as campaign
import sources

ROWS = 10_000  # the most rows of a trace and of a recorded run


def listed(flows, sends):
    """All sends in the order of a trace: time, flow, bits."""
    return sorted(((t, i, bits) for i, packets in enumerate(sends) for t, bits in packets), key=lambda send: send[:2])


def rows_of(flows, order):
    """How many rows a recorded run of these packets has."""
    return sum(3 * len(flows[i]["path"]) for _, i, _ in order) + 1


def fitting(flows, make, until):
    """Sends that are few enough for a recorded run."""
    while True:
        order = listed(flows, make(until))
        if rows_of(flows, order) <= ROWS:
            return order
        until = int(until * 0.7)


def scenario(flows, name, order):
    """The simulator's lines for one run."""
    lines = [f"scenario {name}", "rank listed"]
    lines += [f"send {flows[i]['name']} {t} {bits // 8}" for t, i, bits in order]
    return "\n".join([*lines, "end"]) + "\n"


def steps_of(flows, order, seen):
    """What ns-3 saw, as rows of a recorded run in an order of steps that its servers took: at one time a server's
    leave, the start of a packet that waited, then each packet that comes, and its start where it starts at once."""
    counts = Counter()
    steps = []
    for number, (_, i, bits) in enumerate(order):
        name = flows[i]["name"]
        place = counts[name]
        counts[name] += 1
        for hop in range(len(flows[i]["path"])):
            record = seen["hops"][name, place, hop]
            server, (arrive, start, leave, _) = record["server"], record["times"]
            assert record["bits"] == bits
            comes = (arrive, 2, hop == 0, number)
            steps.append(
                (comes, 0, f"enter,{arrive},{name},{bits}" if hop == 0 else f"reach,{arrive},{server},{number}")
            )
            starts = comes if start == arrive else (start, 1, False, number)
            steps.append((starts, 1, f"work,{server},{number},{start},{leave},{bits}"))
            steps.append(((leave, 0, False, number), 0, f"leave,{leave},{server},{number}"))
    return [row for _, _, row in sorted(steps)]


def ends_of(flows, seen):
    """The last leave of a last server, and the end of the last link."""
    last = [
        record["times"]
        for (name, _, hop), record in seen["hops"].items()
        if hop == len(flows_by_name(flows)[name]["path"]) - 1
    ]
    return max(times[2] for times in last), max(times[3] for times in last)


def flows_by_name(flows):
    return {flow["name"]: flow for flow in flows}


def moved(rows, end):
    """The rows with the last work of the run one nanosecond later, and its leave."""
    rows = list(rows)
    place = max(
        (k for k, row in enumerate(rows) if row.startswith("leave,")), key=lambda k: (int(rows[k].split(",")[1]), k)
    )
    _, time, server, number = rows[place].split(",")
    work = next(k for k, row in enumerate(rows) if row.startswith(f"work,{server},{number},"))
    start, stop, bits = rows[work].split(",")[3:]
    rows[place] = f"leave,{int(time) + 1},{server},{number}"
    rows[work] = f"work,{server},{number},{int(start) + 1},{int(stop) + 1},{bits}"
    return rows, end + 1


def ask(args, *words):
    """The status and the lines of a command."""
    done = subprocess.run([args.nc, *words], capture_output=True, text=True, timeout=args.limit)
    return done.returncode, done.stdout.splitlines()


def numbers_of(lines):
    """The numbers of a report on a run: by flow, by queue, and its end."""
    words = [line.split() for line in lines]
    worst = {w[1]: Fraction(w[2]) for w in words if w[0] == "worst"}
    peak = {(w[1], int(w[2])): Fraction(w[3]) for w in words if w[0] == "peak"}
    end = [Fraction(w[4]) for w in words if w[0] == "run"]
    return worst, peak, end


def differences(lines, seen, end):
    """Which numbers of a report are not those of ns-3."""
    worst, peak, ends = numbers_of(lines)
    wanted = {name: flow["delay"] for name, flow in seen["flows"].items()}
    held = {place: queue["backlog"] for place, queue in seen["queues"].items()}
    bad = [
        f"worst {name} {worst.get(name)} in place of {wanted[name]}"
        for name in wanted
        if worst.get(name) != wanted[name]
    ]
    bad += [
        f"peak {place} {peak.get(place)} in place of {held[place]}" for place in held if peak.get(place) != held[place]
    ]
    return bad + ([] if ends == [end] else [f"end {ends} in place of {end}"]), len(wanted) + len(held) + 1


def write(folder, name, lines):
    path = os.path.join(folder, name)
    with open(path, "w") as file:
        file.write("\n".join(lines) + "\n")
    return path


def one_run(args, folder, flows, order, seen, result, spoil):
    """Compares one run; tells what differs."""
    leave, due = ends_of(flows, seen)
    rows = steps_of(flows, order, seen)
    net = os.path.join(folder, "net2.toml")
    status, lines = ask(args, "check", net, write(folder, "run.csv", [*rows, f"end,{due}"]))
    if status in (6, 7):
        result["left out by check"] += 1
    else:
        bad, compared = differences(lines, seen, due)
        if status or lines[-1] != "verdict admissible":
            bad.append(f"{status} {lines[-1:]}")
        result["differences"] += [f"check {seen['name']}: {what}" for what in bad]
        result["runs checked"] += 1
        result["leaves"] += len(seen["hops"])
        result["numbers of check"] += compared
        if spoil:
            later, end = moved(rows, due)
            status, lines = ask(args, "check", net, write(folder, "moved.csv", [*later, f"end,{end}"]))
            result["moved runs"] += 1
            if status != 9:
                result["differences"].append(f"moved {seen['name']}: {status} {lines[-1:]}")
    if args.kind != "fifo":
        return
    trace = [f"packet,{t},{flows[i]['name']},{bits}" for t, i, bits in order]
    status, lines = ask(args, "simulate", os.path.join(folder, "net.toml"), write(folder, "trace.csv", trace))
    if status in (6, 7):
        result["left out by simulate"] += 1
        return
    bad, compared = differences(lines, seen, leave)
    if status or lines[-1] != "breach none":
        bad.append(f"{status} {lines[-1:]}")
    result["differences"] += [f"simulate {seen['name']}: {what}" for what in bad]
    result["runs simulated"] += 1
    result["numbers of simulate"] += compared


def one(seed, args):
    """All runs of one network."""
    net = gen.make(seed, args.kind)
    flows = net["flows"]
    folder = os.path.join(args.out, str(seed))
    os.makedirs(folder, exist_ok=True)
    text = convert.to_toml(net, f"{args.kind} {seed}: ")
    write(folder, "net.toml", [text])
    write(folder, "net2.toml", [text.replace("version = 1", "version = 2")])
    status, lines = ask(args, "analyse", os.path.join(folder, "net.toml"))
    if status:
        return {"skipped": lines[0] if lines else str(status)}
    rng = random.Random(f"exact-{args.kind}-{seed}")
    until = campaign.horizon(net)
    orders = [fitting(flows, lambda end: [sources.greedy(flow, 0, end) for flow in flows], until)]
    orders += [
        fitting(flows, lambda end: [sources.random_sends(flow, rng, end) for flow in flows], until)
        for _ in range(args.random)
    ]
    orders = [order for order in orders if order]
    sim = convert.to_sim_head(net) + "".join(scenario(flows, f"r{k}", order) for k, order in enumerate(orders))
    result = Counter(packets=sum(map(len, orders))) | {"differences": []}
    result = {
        **dict.fromkeys(
            (
                "runs checked",
                "leaves",
                "numbers of check",
                "moved runs",
                "runs simulated",
                "numbers of simulate",
                "left out by check",
                "left out by simulate",
            ),
            0,
        ),
        **result,
    }
    for k, seen in enumerate(campaign.simulate(folder, "exact", sim, trace=True)):
        one_run(args, folder, flows, orders[k], seen, result, spoil=k == 0)
    os.remove(os.path.join(folder, "exact.out"))
    return result


def summary(folders):
    for top in folders:
        total, networks, why = Counter(), 0, Counter()
        differences = []
        for name in sorted(os.listdir(top)):
            path = os.path.join(top, name, "result.json")
            if not os.path.exists(path):
                continue
            with open(path) as file:
                result = json.load(file)
            if "skipped" in result:
                why[" ".join(result["skipped"].split()[:3])] += 1
                continue
            networks += 1
            differences += [f"{path}: {what}" for what in result.pop("differences")]
            total.update(result)
        print(f"== {top}: networks {networks}, left out {dict(why)}")
        print(", ".join(f"{key} {value}" for key, value in total.items()))
        print(f"differences {len(differences)}")
        print("\n".join(differences[:20]))


def main():
    parser = argparse.ArgumentParser(description=__doc__, formatter_class=argparse.RawDescriptionHelpFormatter)
    parser.add_argument("--kind", choices=["fifo", "priority"], default="fifo")
    parser.add_argument("--seeds", default="0-9")
    parser.add_argument("--want", type=int, default=10**9)
    parser.add_argument("--out")
    parser.add_argument("--nc", default="./netcalc")
    parser.add_argument("--random", type=int, default=3)
    parser.add_argument("--limit", type=float, default=60)
    parser.add_argument("--summary", nargs="+")
    args = parser.parse_args()
    if args.summary:
        summary(args.summary)
        return 0
    first, last = map(int, args.seeds.split("-"))
    done = bad = 0
    for seed in range(first, last + 1):
        if done >= args.want:
            break
        try:
            result = one(seed, args)
        except subprocess.TimeoutExpired:
            result = {"skipped": f"over {args.limit} seconds"}
        write(os.path.join(args.out, str(seed)), "result.json", [json.dumps(result, indent=1)])
        if "skipped" not in result:
            done += 1
            bad += len(result["differences"])
        print(
            seed,
            result.get("skipped") or f"leaves {result['leaves']} differences {result['differences'][:3]}",
            flush=True,
        )
    print(f"networks {done} differences {bad}")
    return 1 if bad else 0


if __name__ == "__main__":
    sys.exit(main())
