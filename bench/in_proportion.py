#!/usr/bin/env python3
"""What netbound takes for tables of one shape at a size and at ten times the size: at most twelve times the instructions, and
fifteen where most of them sort.

    python3 bench/in_proportion.py NETBOUND

Shapes that would show a part that is quadratic: one port with all links; one link with all branches, over few ports and
over many; many ports with a link each; the same, with two frames at once, into one port; the same with jitters spread
over the gap, into a port that is half full, so that half as many jumps count as links come; many ports of 8 queues with a
link each; and paths of 64 ports. Instructions are counted by valgrind (callgrind); where there is none, it is the user's
processor time. It prints a line a shape, and ends with 1 where one takes more.
"""

import re
import resource
import shutil
import subprocess
import sys
import tempfile
from pathlib import Path

MOST = 12
MOST_TO_SORT = 15


def ports(count, discipline=""):
    return "name,rate,latency,link,discipline\n" + "".join(f"p{number},1000000,1,1,{discipline}\n" for number in range(count))


def links(rows):
    return "name,bag,largest_frame,jitter,priority,path\n" + "".join(f"{name},128,64,0,{''.join(queue)},{path}\n" for name, path, *queue in rows)


def one_port_with_all_links(size):
    return ports(1), links((f"v{number}", "p0") for number in range(16 * size))


def one_link_with_all_branches(size):
    return ports(400), links(("v", f"p0 p{number % 399 + 1}") for number in range(131 * size))


def one_link_over_all_ports(size):
    return ports(4 * size), links(("v", f"p0 p{number}") for number in range(1, 4 * size))


def ports_with_a_link_each(size):
    return ports(4 * size), links((f"v{number}", f"p{number}") for number in range(4 * size))


def ports_with_a_link_each_into_one(size):
    head = "name,bag,largest_frame,jitter,priority,path\n"
    rows = (f"v{number},128,{64 + number % 512},128000,0,p{number} p0\n" for number in range(1, 4 * size))
    return ports(4 * size), head + "".join(rows)


def jitters_spread_into_one_port(size):
    sources = 4 * size
    head = "name,bag,largest_frame,jitter,priority,path\n"
    rows = (f"v{number},100,1230,{number * 7919 % 100000},0,p{number} sink\n" for number in range(sources))
    return ports(sources) + f"sink,{sources // 5},1,1,\n", head + "".join(rows)


def queues_with_a_link_each(size):
    return ports(2 * size, "priority 8"), links((f"v{number}", f"p{number // 8}", str(number % 8)) for number in range(16 * size))


def paths_of_64_ports(size):
    path = " ".join(f"p{number}" for number in range(64))
    return ports(64), links((f"v{number}", path) for number in range(2 * size))


SHAPES = [
    one_port_with_all_links,
    one_link_with_all_branches,
    one_link_over_all_ports,
    ports_with_a_link_each,
    ports_with_a_link_each_into_one,
    jitters_spread_into_one_port,
    queues_with_a_link_each,
    paths_of_64_ports,
]


def instructions(program, folder):
    words = [program, "ports.csv", "links.csv"]
    if shutil.which("valgrind"):
        tool = ["valgrind", "--tool=callgrind", "--callgrind-out-file=/dev/null"]
        ended = subprocess.run(tool + words, cwd=folder, capture_output=True, text=True, check=True)
        return int(re.search(r"Collected : (\d+)", ended.stderr).group(1))
    before = resource.getrusage(resource.RUSAGE_CHILDREN).ru_utime
    subprocess.run(words, cwd=folder, stdout=subprocess.DEVNULL, check=True)
    return resource.getrusage(resource.RUSAGE_CHILDREN).ru_utime - before


def taken(program, shape, size):
    with tempfile.TemporaryDirectory() as folder:
        for name, text in zip(["ports.csv", "links.csv"], shape(size)):
            (Path(folder) / name).write_text(text)
        return instructions(program, folder)


def main(program):
    program, late = str(Path(program).resolve()), 0
    for shape in SHAPES:
        few, many = taken(program, shape, 100), taken(program, shape, 1000)
        late += many > (MOST_TO_SORT if shape is jitters_spread_into_one_port else MOST) * few
        print(f"{shape.__name__.replace('_', ' ')}: {few} {many} ratio {many / few:.2f}")
    return late > 0


if __name__ == "__main__":
    if len(sys.argv) != 2:
        sys.exit(__doc__)
    sys.exit(main(sys.argv[1]))
