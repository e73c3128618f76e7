"""Writes growing networks, and times their analysis.

    python3 bench/analysis.py NETCALC

NETCALC is the program. Each network has 4, 16 or 64 servers in a row, of all three disciplines, and flows of stairs
over up to four of them. A line a network: servers, flows, cells, the status, the seconds that the run took, the
microseconds a cell, and how many times as long as a cell of the network before it. Nothing is asserted about time.
"""

import subprocess
import sys
import tempfile
import time
from pathlib import Path

QUEUES = {"fifo": 1, "priority": 2, "drr": 2}
RULES = {"fifo": "", "priority": "queues = 2\n", "drr": "quanta = [12000, 12000]\n"}
DISCIPLINES = list(QUEUES)


def discipline(server: int) -> str:
    return DISCIPLINES[server % 3]


def server_text(server: int) -> str:
    name = discipline(server)
    return (
        f'[[server]]\nname = "s{server}"\nrate = 100\nservice = {{ kind = "latency", latency = 10 }}\n'
        f'discipline = "{name}"\n{RULES[name]}'
    )


def hop_text(server: int, queue: int) -> str:
    name = f"s{server}"
    return f'"{name}"' if QUEUES[discipline(server)] == 1 else f'"{name}:{queue}"'


def flow_text(flow: int, path: list[int]) -> str:
    packet = 1000 * (1 + flow % 12)
    period = 8000 * 2 ** (flow % 3)
    hops = ", ".join(hop_text(server, flow % 2) for server in path)
    return (
        f'[[flow]]\nname = "f{flow}"\npacket = {packet}\n'
        f'arrival = {{ kind = "stair", period = {period}, jitter = 0 }}\npath = [{hops}]\n'
    )


def paths(servers: int) -> list[list[int]]:
    """Three flows for two servers, with paths of 1 to 4 servers in a row."""
    all_paths = []
    for flow in range(3 * servers // 2):
        first = flow * 5 % servers
        all_paths.append(list(range(first, min(servers, first + 1 + flow % 4))))
    return all_paths


def cell_count(servers: int, all_paths: list[list[int]]) -> int:
    """Five kinds a hop, three a hop but the last, four a queue, one a queue of priority, four a path."""
    hops = sum(map(len, all_paths))
    queues = sum(QUEUES[discipline(server)] for server in range(servers))
    levels = sum(2 for server in range(servers) if discipline(server) == "priority")
    return 5 * hops + 3 * (hops - len(all_paths)) + 4 * queues + levels + 4 * len(all_paths)


def main() -> None:
    program = sys.argv[1]
    before = None
    with tempfile.TemporaryDirectory() as folder:
        path = Path(folder) / "n.toml"
        for servers in (4, 16, 64):
            all_paths = paths(servers)
            text = "".join(map(server_text, range(servers)))
            text += "".join(flow_text(flow, hops) for flow, hops in enumerate(all_paths))
            path.write_text(text)
            began = time.monotonic()
            run = subprocess.run([program, "analyse", str(path)], capture_output=True, text=True)
            took = time.monotonic() - began
            cells = cell_count(servers, all_paths)
            each = 1e6 * took / cells
            ratio = "" if before is None else f", {each / before:.2f} times a cell of the one before"
            print(
                f"{servers} servers, {len(all_paths)} flows, {cells} cells: status {run.returncode}, "
                f"{took:.3f} s, {each:.1f} us a cell{ratio}"
            )
            before = each


if __name__ == "__main__":
    main()
