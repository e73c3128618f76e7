#!/usr/bin/env python3
"""Runs random networks of multicast links through netbound and through ns-3, and compares.

    trees.py --kind fifo|priority|drr|mixed --seeds 0-99 --out FOLDER [--nb PROGRAM] [--random 20] [--jobs 2] [--wrong branches|jitter|frames]
    trees.py --summary FOLDER [FOLDER ..]

For each network a folder OUT/SEED: ports.csv and links.csv, report.json (netbound), sim.txt (all runs with their sends) and result.json. In ns-3
a port that has several ports behind it sends one packet, and where that comes to the end of the link a copy goes to each. Of each run, no packet's
way to the end of a branch may take longer than the branch's bound, and no queue's delay and backlog may pass the printed ones. Rates are such
that a byte takes whole nanoseconds; ports have no latency and no gate, which ns-3's devices have not either. With --wrong the tables are not those of
the network: they lack all branches of a link but the first, or all jitters, or have frames a tenth shorter, and bounds should be passed.
"""

import argparse
import csv
import json
import os
import random
import subprocess
import sys
from concurrent.futures import ThreadPoolExecutor
from fractions import Fraction

import gen
import run
import sources

NS = 1000  # nanoseconds in a microsecond
LEAST_BAG = 125_000  # nanoseconds


def port(draw, number, kind, base):
    rate = base if draw.random() < 0.6 else draw.choice(gen.RATES)
    link = draw.choice([0, 0, draw.randrange(1, 1000), draw.randrange(1, 20_000), 1000 * draw.randrange(1, 50)])
    made = {"name": f"s{number}", "rate": rate * 10**6, "link": link, "discipline": "fifo"}
    wanted = draw.choice(["priority", "drr", "fifo"]) if kind == "mixed" else kind
    if wanted != "fifo" and draw.random() < 0.8:
        made |= {"discipline": wanted, "queues" if wanted == "priority" else "quanta": draw.randint(2, 3)}
    return made


def queue_of(server, priority):
    return priority if server["discipline"] != "fifo" else 0


def link(draw, number, servers):
    """A tree over ports of rising numbers."""
    chosen = sorted(draw.sample(range(len(servers)), draw.randint(1, min(len(servers), 6))))
    above = [None] + [draw.choice([place - 1, draw.randrange(place), draw.randrange(place)]) for place in range(1, len(chosen))]
    priority = draw.randrange(2)
    return {
        "name": f"v{number}",
        "packet": 8 * draw.choice([64, 100, 125, 250, 500, 1000, 1500, draw.randint(8, 1500)]),
        "arrival": {"kind": "stair", "period": LEAST_BAG << draw.randrange(6), "jitter": draw.choice([0, 0, 500_000, draw.randrange(1, 10**6)])},
        "path": [[servers[s]["name"], queue_of(servers[s], priority)] for s in chosen],
        "above": above,
        "priority": priority,
    }


def loads(net):
    """The greatest load of a port."""
    found = {server["name"]: Fraction(0) for server in net["servers"]}
    for flow in net["flows"]:
        for name, _ in flow["path"]:
            found[name] += Fraction(flow["packet"], flow["arrival"]["period"])
    return max(found[server["name"]] * 10**9 / server["rate"] for server in net["servers"])


def make(seed, kind):
    draw = random.Random(f"trees-{kind}-{seed}")
    base = draw.choice(gen.RATES)
    servers = [port(draw, number, kind, base) for number in range(draw.randint(3, 8))]
    net = {"seed": seed, "kind": kind, "servers": servers, "flows": [link(draw, number, servers) for number in range(draw.randint(3, 12))]}
    for server in servers:
        if server["discipline"] == "drr":
            server["quanta"] = [quantum(draw, net, server["name"], q) for q in range(server["quanta"])]
    most = draw.choice([0.3, 0.6, 0.9, 1])
    while loads(net) > most:
        for flow in net["flows"]:
            flow["arrival"]["period"] *= 2
    return net


def quantum(draw, net, name, queue):
    longest = max([flow["packet"] for flow in net["flows"] if [name, queue] in flow["path"]], default=512)
    return longest + 8 * draw.choice([0, 0, longest // 16, longest // 8])


def branches(flow):
    """The paths to the ends of a link's tree, as numbers of nodes."""
    for end in range(len(flow["path"])):
        if end not in flow["above"]:
            path = [end]
            while flow["above"][path[0]] is not None:
                path.insert(0, flow["above"][path[0]])
            yield path


def decimal(nanoseconds, unit):
    """So many nanoseconds as a decimal of a unit, exactly."""
    digits = len(str(unit)) - 1
    return f"{nanoseconds // unit}.{nanoseconds % unit:0{digits}}"


def discipline(server):
    if server["discipline"] == "priority":
        return f"priority {server['queues']}"
    return "drr " + " ".join(str(quantum // 8) for quantum in server["quanta"]) if server["discipline"] == "drr" else "fifo"


def written_link(flow, wrong):
    """The cells of a link and its paths, as they are or on purpose not."""
    jitter = 0 if wrong == "jitter" else flow["arrival"]["jitter"]
    frame = flow["packet"] // 8
    cells = [decimal(flow["arrival"]["period"], 10**6), frame - (frame // 10 if wrong == "frames" else 0), decimal(jitter, NS), flow["priority"]]
    return cells, list(branches(flow))[: 1 if wrong == "branches" else None]


def write(net, folder, wrong=None):
    with open(os.path.join(folder, "ports.csv"), "w", newline="") as file:
        table = csv.writer(file)
        table.writerow(["name", "rate", "latency", "link", "discipline"])
        table.writerows([it["name"], it["rate"] // 10**6, 0, decimal(it["link"], NS), discipline(it)] for it in net["servers"])
    with open(os.path.join(folder, "links.csv"), "w", newline="") as file:
        table = csv.writer(file)
        table.writerow(["name", "bag", "largest_frame", "jitter", "priority", "path"])
        for flow in net["flows"]:
            cells, paths = written_link(flow, wrong)
            for path in paths:
                table.writerow([flow["name"], *cells, " ".join(flow["path"][node][0] for node in path)])


def bounds(net, folder, program):
    """What netbound prints, in nanoseconds and bits: of the queues, and of the branches by their last ports."""
    words = [program, *(os.path.join(folder, name) for name in ("ports.csv", "links.csv")), "--overhead", "0", "--json"]
    ended = subprocess.run(words, capture_output=True, text=True, check=False)
    if ended.returncode:
        raise RuntimeError(f"{folder}: status {ended.returncode}: {ended.stdout[:200]}")
    with open(os.path.join(folder, "report.json"), "w") as file:
        file.write(ended.stdout)
    report = json.loads(ended.stdout)
    value = lambda text: None if text == "none" else Fraction(text)
    queues, ends = {}, {}
    for row in report["ports"]:
        delay = value(row["delay"])
        queues[row["name"], row["queue"]] = {"delay": None if delay is None else delay * NS, "backlog": value(row["backlog"])}
    for row in report["branches"]:
        bound = value(row["bound"])
        ends[row["link"], row["port"]] = None if bound is None else bound * NS
    return queues, ends


def scenarios(net, count):
    draw = random.Random(f"sends-{net['kind']}-{net['seed']}")
    flows, until = net["flows"], run.horizon(net)
    together = [sources.greedy(flow, 0, until) for flow in flows]
    yield "sync", together, None
    for number, flow in enumerate(flows):
        yield f"sync-last-{flow['name']}", together, run.rank_for(net, number)
    for number in range(count):
        ranks = [None, draw.sample(range(len(flows)), len(flows)), run.rank_for(net, draw.randrange(len(flows)))]
        yield f"random-{number}", [sources.random_sends(flow, draw, until) for flow in flows], draw.choice(ranks)


def one(net, folder, args):
    os.makedirs(folder, exist_ok=True)
    write(net, folder, args.wrong)
    queues, ends = bounds(net, folder, args.nb)
    text, tried = run.convert.to_sim_head(net), list(scenarios(net, args.random))
    for _, sends, _ in tried:
        assert all(sources.conforms(flow, packets) for flow, packets in zip(net["flows"], sends)), folder
    text += "".join(run.convert.to_sim_scenario(net, *scenario) for scenario in tried)
    runs = run.simulate(folder, "sim", text)
    os.remove(os.path.join(folder, "sim.out"))
    assert len(runs) == len(tried), folder
    found = {"runs": len(runs), "packets": 0, "checks": 0, "none": 0, "above": [], "forks": sum(len(list(branches(flow))) > 1 for flow in net["flows"])}
    worst = {}

    def compare(what, name, seen, bound, scenario):
        if bound is None:
            found["none"] += 1
            return
        found["checks"] += 1
        if seen > bound:
            found["above"].append([what, name, seen, str(bound), scenario])
        worst[what, name] = max(worst.get((what, name), 0), seen / bound if bound else 0)

    for seen in runs:
        found["packets"] += sum(flow["packets"] for flow in seen["flows"].values())
        for (name, at), delay in seen["nodes"].items():
            if (name, at) in ends:
                compare("branch", f"{name} {at}", delay, ends[name, at], seen["name"])
        for (name, queue), of in seen["queues"].items():
            for what in ("delay", "backlog"):
                compare(what, f"{name} {queue}", of[what], queues[name, queue][what], seen["name"])
    found["worst"] = {what: [float(ratio) for (kind, _), ratio in worst.items() if kind == what] for what in ("branch", "delay", "backlog")}
    with open(os.path.join(folder, "result.json"), "w") as file:
        json.dump(found, file)
    return found


def summary(folders):
    for top in folders:
        results = []
        for seed in sorted(os.listdir(top)):
            path = os.path.join(top, seed, "result.json")
            if os.path.exists(path):
                with open(path) as file:
                    results.append(json.load(file))
        sums = {key: sum(result[key] for result in results) for key in ("runs", "packets", "checks", "none", "forks")}
        print(f"== {top}: networks {len(results)}, {sums}, above a bound {sum(len(result['above']) for result in results)}, in {sum(bool(result['above']) for result in results)} networks")
        for result in results:
            for above in result["above"][:5]:
                print(f"  ABOVE {above}")
        for what in ("branch", "delay", "backlog"):
            ratios = [ratio for result in results for ratio in result["worst"][what] if ratio]
            if ratios:
                reached = sum(ratio > 0.999 for ratio in ratios)
                print(f"{what}: {len(ratios)} numbers, mean {sum(ratios) / len(ratios):.3f} of the bound, most {max(ratios):.6f}, above 0.999 {reached}")


def main():
    parser = argparse.ArgumentParser(description=__doc__, formatter_class=argparse.RawDescriptionHelpFormatter)
    parser.add_argument("--kind", default="fifo", choices=["fifo", "priority", "drr", "mixed"])
    parser.add_argument("--seeds", default="0-59")
    parser.add_argument("--out")
    parser.add_argument("--nb", default="./netbound")
    parser.add_argument("--random", type=int, default=20)
    parser.add_argument("--jobs", type=int, default=2)
    parser.add_argument("--wrong", choices=["branches", "jitter", "frames"])
    parser.add_argument("--summary", nargs="+")
    args = parser.parse_args()
    if args.summary:
        summary(args.summary)
        return 0
    first, last = map(int, args.seeds.split("-"))
    above = 0

    def work(seed):
        return one(make(seed, args.kind), os.path.join(args.out, str(seed)), args)

    with ThreadPoolExecutor(args.jobs) as pool:
        for found in pool.map(work, range(first, last + 1)):
            above += len(found["above"])
    summary([args.out])
    return 1 if above else 0


if __name__ == "__main__":
    sys.exit(main())
