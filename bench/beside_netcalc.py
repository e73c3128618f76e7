#!/usr/bin/env python3
"""How far netbound's bounds are from those of netcalc, on networks that netcalc answers.

    python3 bench/beside_netcalc.py NETCALC NETBOUND [NETWORKS [SEED]]

NETWORKS (200) random pairs of tables of each kind are drawn: 2 to 6 ports of 10, 100 or 1,000 Mbit/s and 3 to 12 links without branches over up to
three ports. tools/import_icd.py makes a network file of version 2 with token buckets of them, which is what netbound reads in them, and netcalc
answers it or refuses it as too wide. Of those that it answers, each queue's delay by netbound is divided by the exact one, and each link's bound by
the same sum of delays (`tfa`) and by the lesser of both analyses (`bound`). netbound prints nanoseconds, rounded up.

A line a kind: the networks that were answered, and of each ratio how many there were, the least, the mean, the greatest, how many were below 0.999 and above
1.001, and of how many numbers one of the two alone has a bound. `entry` has the delays at ports at which all links begin. It ends with 1 where a ratio of
these at first in first out is above 1.001; behind them netcalc has a second curve of what leaves a port (`deconv-out`), which netbound has not.
"""

import json
import random
import re
import subprocess
import sys
import tempfile
from fractions import Fraction
from pathlib import Path

IMPORT = Path(__file__).resolve().parent.parent / "tools/import_icd.py"
KINDS = ["first in first out", "gates", "priority", "deficit round robin"]


def port(draw, name, kind):
    discipline, latency, gate = "fifo", draw.choice([0, 0, 16, 40]), ""
    if kind == "gates" and draw.random() < 0.7:
        cycle = draw.choice([200, 1000])
        latency, gate = 0, f"{cycle} {cycle * draw.randint(4, 9) // 10}"
    if kind == "priority":
        discipline = f"priority {draw.randint(2, 3)}"
    if kind == "deficit round robin":
        discipline = "drr " + " ".join(str(draw.choice([1538, 2000, 4000])) for _ in range(3))
    return [name, draw.choice([10, 100, 100, 100, 1000]), latency, draw.choice([0, 1]), discipline, gate]


def link(draw, number, names, kind):
    path = sorted(draw.sample(names, draw.randint(1, min(3, len(names)))))
    gap = draw.choice([2, 4, 8, 16])
    frame = draw.choice([84, 200, 500, 1000, 1518, draw.randint(64, 1518)])
    queue = draw.randrange(2) if kind in ("priority", "deficit round robin") else 0
    return [f"v{number}", gap, frame, draw.choice([0, 0, 500]), queue, " ".join(path)]


def table(head, rows):
    return "\n".join(",".join(map(str, row)) for row in [head, *rows]) + "\n"


def tables(draw, kind):
    names = [f"p{number}" for number in range(draw.randint(2, 6))]
    ports = [port(draw, name, kind) for name in names]
    links = [link(draw, number, names, kind) for number in range(draw.randint(3, 12))]
    ports_head = ["name", "rate", "latency", "link", "discipline", "gate"]
    return table(ports_head, ports), table(["name", "bag", "largest_frame", "jitter", "priority", "path"], links)


def by_netcalc(program, files, folder):
    """The delays of the queues and the bounds of the links, exactly; nothing where it refuses."""
    made = subprocess.run([sys.executable, IMPORT, "--version", "2", "--buckets", *files], capture_output=True, check=True)
    (folder / "n.toml").write_bytes(made.stdout)
    ended = subprocess.run([program, "analyse", folder / "n.toml"], capture_output=True, text=True, check=False)
    if ended.returncode:
        return None
    queues = dict(re.findall(r"(?m)^queue (\S+ \d) delay (\S+)", ended.stdout))
    return queues, {name: (tfa, bound) for name, tfa, bound in re.findall(r"(?m)^flow (\S+) tfa (\S+) sfa \S+ bound (\S+)", ended.stdout)}


def by_netbound(program, files):
    ended = subprocess.run([program, *files, "--json"], capture_output=True, text=True, check=True)
    report = json.loads(ended.stdout)
    queues = {f"{row['name']} {row['queue']}": row["delay"] for row in report["ports"]}
    return queues, {row["link"]: row["bound"] for row in report["branches"]}


class Ratios:
    """Ratios of one kind, and how often one of the two alone had a bound."""

    def __init__(self):
        self.found, self.alone, self.exact_alone = [], 0, 0

    def take(self, ours, exact):
        """A time of netbound and one of netcalc, as their texts."""
        if "none" in (ours, exact) or exact == "unbounded":
            self.alone += ours != "none"
            self.exact_alone += exact != "unbounded"
        elif Fraction(exact):
            self.found.append(Fraction(ours) / Fraction(exact))

    def __str__(self):
        if not self.found:
            return "none"
        mean = sum(map(float, self.found)) / len(self.found)
        low, high = sum(it < Fraction(999, 1000) for it in self.found), sum(it > Fraction(1001, 1000) for it in self.found)
        ends = f"{float(min(self.found)):.4f} to {float(max(self.found)):.6f}, mean {mean:.4f}"
        alone = f"; bounded by netbound alone {self.alone}, by netcalc alone {self.exact_alone}"
        return f"{len(self.found)}: {ends}; {low} below 0.999, {high} above 1.001{alone}"


def compared(netcalc, netbound, kind, count, seed):
    ratios = {what: Ratios() for what in ("entry", "delay", "tfa", "bound")}
    answered = 0
    with tempfile.TemporaryDirectory() as name:
        folder = Path(name)
        files = [folder / "ports.csv", folder / "links.csv"]
        for number in range(count):
            ports, links = tables(random.Random(f"{kind} {seed} {number}"), kind)
            files[0].write_text(ports)
            files[1].write_text(links)
            later = {port for row in links.splitlines()[1:] for port in row.split(",")[5].split()[1:]}
            exact = by_netcalc(netcalc, files, folder)
            if exact is None:
                continue
            answered += 1
            queues, bounds = by_netbound(netbound, files)
            for queue, delay in queues.items():
                ratios["delay"].take(delay, exact[0][queue])
                if queue.split()[0] not in later:
                    ratios["entry"].take(delay, exact[0][queue])
            for link_name, bound in bounds.items():
                for what, other in zip(("tfa", "bound"), exact[1][link_name]):
                    ratios[what].take(bound, other)
    print(f"{kind}: {answered} of {count} networks", *(f"    {what} {found}" for what, found in ratios.items()), sep="\n", flush=True)
    return kind != KINDS[0] or all(it <= Fraction(1001, 1000) for it in ratios["entry"].found)


def main(words):
    if len(words) not in (2, 3, 4):
        sys.exit(__doc__)
    netcalc, netbound = (str(Path(word).resolve()) for word in words[:2])
    count, seed = [int(word) for word in words[2:]] + [200, 1][len(words) - 2 :]
    return 0 if all([compared(netcalc, netbound, kind, count, seed) for kind in KINDS]) else 1


if __name__ == "__main__":
    sys.exit(main(sys.argv[1:]))
