"""Writes growing traces, and times their simulation.

    python3 bench/simulation.py NETCALC

NETCALC is the program. The network has 5 servers in a row with links between them, of all three disciplines, the last
of them a gate, and four flows over all of them; a trace has 1,000 or 9,999 packets, one row less than a trace may
have, which come at about the rate of the servers. Its flows keep their arrival curves, in one network stairs and in
another token buckets, and in one more each second one breaks its stair: so what the look for the first breach takes
is seen apart, in the difference. With token buckets the gate is also looked at, which is passed over else: it stalls
once, while it is closed, and so keeps its curve still. A line a trace: the curves, its packets, the steps of its run,
the status (0 where all curves are kept, 9 where not), the seconds that the run took, the steps a second, and how many
times as long as a step of the trace before it. The steps are an entry, and at each of the 5 servers a work, a leaving
and, but for the first, an arrival; turns to a queue are not counted, nor that a gate may close on a work. Nothing is
asserted about time. Where the program has no command `simulate`, one line says so.
"""

import subprocess
import sys
import tempfile
import time
from pathlib import Path

HOPS = 5
FLOWS = 4
QUEUES = {"fifo": 1, "priority": 2, "drr": 2}
RULES = {"fifo": "", "priority": "queues = 2\n", "drr": "quanta = [12000, 12000]\n"}
DISCIPLINES = list(QUEUES)
# each flow sends a packet of up to 12,000 bits every 180 to 340 units of time
ARRIVALS = {
    "kept stairs": '{ kind = "stair", period = 180, jitter = 0 }',
    "kept buckets": '{ kind = "bucket", rate = "12000/180", burst = 12000 }',
    "broken stairs": '{ kind = "stair", period = 1000, jitter = 0 }',
}
# the curves of each case, and the rows that come after its packets
CASES = {
    "kept stairs": ("kept stairs", ""),
    "kept buckets": ("kept buckets", ""),
    "kept buckets, a gate looked at": ("kept buckets", f"stall,s{HOPS - 1},990,1000\n"),
    "broken stairs": ("broken stairs", ""),
}
USAGE = 2


def discipline(server: int) -> str:
    return DISCIPLINES[server % 3]


def service_text(server: int) -> str:
    if server == HOPS - 1:
        return '{ kind = "gate", cycle = 1000, slot = 990 }'
    return '{ kind = "latency", latency = 10 }'


def server_text(server: int) -> str:
    name = discipline(server)
    return (
        f'[[server]]\nname = "s{server}"\nrate = 100\nservice = {service_text(server)}\nlink = 1\n'
        f'discipline = "{name}"\n{RULES[name]}'
    )


def hop_text(server: int, queue: int) -> str:
    name = f"s{server}"
    return f'"{name}"' if QUEUES[discipline(server)] == 1 else f'"{name}:{queue}"'


def flow_text(flow: int, arrival: str) -> str:
    hops = ", ".join(hop_text(server, flow % 2) for server in range(HOPS))
    return (
        f'[[flow]]\nname = "f{flow}"\npacket = 12000\n'
        f"arrival = {arrival}\npath = [{hops}]\n"
    )


def trace_text(packets: int) -> str:
    """Packets of 1,000 to 12,000 bits, of which each comes when a server of rate 100 has worked off the one before."""
    rows = []
    now = 0
    for packet in range(packets):
        bits = 1000 * (1 + packet * 7 % 12)
        rows.append(f"packet,{now},f{packet % FLOWS},{bits}\n")
        now += bits // 100
    return "".join(rows)


def network_text(arrival: str) -> str:
    servers = "".join(map(server_text, range(HOPS)))
    return servers + "".join(flow_text(flow, arrival) for flow in range(FLOWS))


def time_traces(program: str, net: Path, trace: Path, curves: str, stalls: str) -> bool:
    """A line for each trace; false where the program has no such command."""
    before = None
    for packets in (1_000, 9_999):
        trace.write_text(trace_text(packets) + stalls)
        began = time.monotonic()
        run = subprocess.run([program, "simulate", str(net), str(trace)], capture_output=True, text=True)
        took = time.monotonic() - began
        if run.returncode == USAGE:
            return False
        steps = packets * 3 * HOPS
        each = took / steps
        ratio = "" if before is None else f", {each / before:.2f} times a step of the one before"
        print(
            f"{curves}: {packets} packets, {steps} steps: status {run.returncode}, {took:.3f} s, "
            f"{1 / each:.0f} steps a second{ratio}"
        )
        before = each
    return True


def main() -> None:
    program = sys.argv[1]
    with tempfile.TemporaryDirectory() as folder:
        net = Path(folder) / "n.toml"
        trace = Path(folder) / "t.csv"
        for case, (curves, stalls) in CASES.items():
            net.write_text(network_text(ARRIVALS[curves]))
            if not time_traces(program, net, trace, case, stalls):
                print("the program has no command simulate")
                return


if __name__ == "__main__":
    main()
