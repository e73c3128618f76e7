"""Times the look for the first breach of a run: of kept stairs, of one that the last packet breaks, and of a gate that stalls.

    python3 bench/stairs.py NETCALC

NETCALC is the program. The network is one flow over one server. Of a stair the flow sends 1,000, 2,000, 4,000 or 9,999
packets (a trace has at most 10,000 rows), over a server of kind latency, which keeps its curve without a look:

- a packet of a whole step each period;
- two packets of half a step each period;
- packets of 7 sizes, as many in each period as a step holds;
- as these, but up to three periods late, over a stair with a jitter of three periods;
- halves over a stair with a jitter of half a period;
- all packets within one period, over a stair whose jitter lets in all but the last step at once, so that two of its pieces are read;
- packets of one bit, one a period, so that all of them fit in one step;
- packets of a whole step, ten thousand periods apart;
- halves, of which the last packet breaks the stair, so that each pair that ends with it is looked at;
- all that a curve of two unlike steps a period lets in, which is no stair: each of its two pieces is looked at by itself;
- all that a curve of a ramp and a level in each period lets in, so that each pair is looked at;
- a packet of a whole step each period, and one more with the last: of a token bucket, of a list of two lines, and of a list of ten
  steps and a last line, each of which the last packet breaks.

Over a gate the first half of the packets come one a cycle, each worked off at once, and the others keep it busy, a cycle
of its slot for each. It stalls once, late in that work, while it would be open: the first look finds a window that ends
there, and the second one takes the turns of the whole run up to it, moved by the starts of the curve's pieces. In one
case the single packets come at one time of the cycle, so that most of the moved turns are equal; in another each comes
at a time of its own. A line a trace: the case, the packets, the status (0 where all is kept, 9 where not), the seconds
of a processor, and how many times as many as for the trace before it. Nothing is asserted about time.
"""

import resource
import subprocess
import sys
import tempfile
from pathlib import Path

STEP = 12_000
PERIOD = 120
COUNTS = (1_000, 2_000, 4_000, 9_999)
GATE_COUNTS = (100, 200, 400)
SMALL = 601
CYCLE = 10_007
SLOT = 9_000
RATE = 100
USAGE = 2


def stair(period: int, jitter: int) -> str:
    return f'{{ kind = "stair", period = {period}, jitter = {jitter} }}'


def network_text(arrival: str, service: str, packet: int = STEP) -> str:
    return (
        f'[[server]]\nname = "s"\nrate = {RATE}\nservice = {service}\nlink = 0\ndiscipline = "fifo"\n'
        f'[[flow]]\nname = "f"\npacket = {packet}\n'
        f'arrival = {arrival}\npath = ["s"]\n'
    )


LATENCY = '{ kind = "latency", latency = 10 }'
GATE = f'{{ kind = "gate", cycle = {CYCLE}, slot = {SLOT} }}'


def row(time: int, bits: int) -> str:
    return f"packet,{time},f,{bits}\n"


def wholes(count: int) -> list[str]:
    return [row(PERIOD * packet, STEP) for packet in range(count)]


def halves(count: int) -> list[str]:
    return [row(PERIOD * (packet // 2), STEP // 2) for packet in range(count)]


def sizes(count: int, late: int) -> list[str]:
    """In each period as many packets as a step holds, each as late as its number tells and none before another."""
    rows = []
    now = period = left = 0
    for packet in range(count):
        bits = 1_000 + 577 * (packet * 5 % 7)
        if bits > left:
            period, left = period + 1, STEP
        left -= bits
        now = max(now, PERIOD * period + packet * 37 % (late + 1))
        rows.append(row(now, bits))
    return rows


def at_once(count: int) -> list[str]:
    return [row(100 * packet // count, SMALL) for packet in range(count)]


def at_once_network(count: int) -> str:
    """A stair that lets in all steps but the last at once, and that one 50 units of time later."""
    steps = (count * SMALL - 1) // STEP
    return network_text(stair(10**6, 10**6 * steps - 50), LATENCY)


def single_bits(count: int) -> list[str]:
    return [row(PERIOD * packet, 1) for packet in range(count)]


def far_apart(count: int) -> list[str]:
    return [row(10_000 * PERIOD * packet, STEP) for packet in range(count)]


def unlike_steps() -> str:
    """A curve that rises by a third of a step and by two thirds in each period, in halves of it."""
    pieces = f'[{{ x = 0, at = {STEP} }}, {{ x = {PERIOD // 2}, at = {STEP + STEP // 3} }}]'
    return f'{{ kind = "list", piece = {pieces}, tail = {{ rank = 0, period = {PERIOD}, rise = {STEP} }} }}'


def all_let_in(count: int) -> list[str]:
    """A step at once, and what those unlike steps let in."""
    later = [row(PERIOD // 2 * packet, STEP // 3 * (2 - packet % 2)) for packet in range(1, count)]
    return [row(0, STEP), *later]


def ramp() -> str:
    """A step at once, and in each period one more: at an even pace in its first half, and nothing in the second."""
    half = PERIOD // 2
    pieces = f'[{{ x = 0, at = {STEP}, slope = {STEP // half} }}, {{ x = {half}, at = {2 * STEP} }}]'
    return f'{{ kind = "list", piece = {pieces}, tail = {{ rank = 0, period = {PERIOD}, rise = {STEP} }} }}'


def ramped(count: int) -> list[str]:
    """A step at once, and then what that ramp lets in, in two packets a period."""
    half = PERIOD // 2
    later = [row(PERIOD * (packet // 2) + half // 2 * (packet % 2 + 1), STEP // 2) for packet in range(count - 1)]
    return [row(0, STEP), *later]


def two_lines() -> str:
    """A step, and twice its pace for half a period; then its pace."""
    half = PERIOD // 2
    pieces = f'[{{ x = 0, at = {STEP}, slope = {2 * STEP // PERIOD} }}, {{ x = {half}, at = {2 * STEP}, slope = {STEP // PERIOD} }}]'
    return f'{{ kind = "list", piece = {pieces} }}'


def ten_steps() -> str:
    """A step more each period, for ten periods; then their pace."""
    steps = [f"{{ x = {PERIOD * step}, at = {STEP * (step + 1)} }}" for step in range(10)]
    return f'{{ kind = "list", piece = [{", ".join(steps)}, {{ x = {10 * PERIOD}, at = {11 * STEP}, slope = {STEP // PERIOD} }}] }}'


def one_more(count: int) -> list[str]:
    rows = wholes(count - 1)
    return [*rows, rows[-1]]


def broken(count: int) -> list[str]:
    rows = halves(count - 1)
    return [*rows, row(PERIOD * ((count - 2) // 2), STEP)]


def gated(count: int, apart: int) -> list[str]:
    """Single packets, then as many that keep the gate busy for a cycle each, then the stall."""
    single = count // 2
    rows = [row(CYCLE * packet + packet * apart % (SLOT - 10), RATE) for packet in range(single)]
    start = CYCLE * single
    rows += [row(start, SLOT * RATE) for _ in range(count - single)]
    stall = start + CYCLE * (9 * (count - single) // 10) + SLOT // 2
    return [*rows, f"stall,s,{stall},{stall + 30}\n"]


def seconds(program: str, net: Path, trace: Path) -> tuple[int, float]:
    """The status of a run, and the seconds of a processor that it took."""
    before = resource.getrusage(resource.RUSAGE_CHILDREN)
    status = subprocess.run([program, "simulate", str(net), str(trace)], capture_output=True).returncode
    after = resource.getrusage(resource.RUSAGE_CHILDREN)
    return status, after.ru_utime - before.ru_utime + after.ru_stime - before.ru_stime


def main() -> None:
    program = sys.argv[1]
    kept = network_text(stair(PERIOD, 0), LATENCY)
    late = network_text(stair(PERIOD, 3 * PERIOD), LATENCY)
    bucket = f'{{ kind = "bucket", rate = {STEP // PERIOD}, burst = {STEP} }}'
    gate = network_text('{ kind = "bucket", rate = 1, burst = 10000000000 }', GATE, SLOT * RATE)
    cases = [
        ("whole steps", lambda _: kept, wholes, COUNTS),
        ("half steps", lambda _: kept, halves, COUNTS),
        ("seven sizes", lambda _: kept, lambda count: sizes(count, 0), COUNTS),
        ("seven sizes, late", lambda _: late, lambda count: sizes(count, 3 * PERIOD), COUNTS),
        ("half a period late", lambda _: network_text(stair(PERIOD, PERIOD // 2), LATENCY), halves, COUNTS),
        ("two pieces", at_once_network, at_once, COUNTS),
        ("a bit a period", lambda _: kept, single_bits, COUNTS),
        ("far apart", lambda _: kept, far_apart, COUNTS),
        ("broken by the last packet", lambda _: kept, broken, COUNTS),
        ("two unlike steps a period", lambda _: network_text(unlike_steps(), LATENCY), all_let_in, COUNTS),
        ("a ramp a period", lambda _: network_text(ramp(), LATENCY), ramped, COUNTS),
        ("a broken bucket", lambda _: network_text(bucket, LATENCY), one_more, COUNTS),
        ("a broken list of lines", lambda _: network_text(two_lines(), LATENCY), one_more, COUNTS),
        ("a broken list of steps", lambda _: network_text(ten_steps(), LATENCY), one_more, COUNTS),
        ("gate, turns alike", lambda _: gate, lambda count: gated(count, 0), GATE_COUNTS),
        ("gate, turns unlike", lambda _: gate, lambda count: gated(count, 37), GATE_COUNTS),
    ]
    with tempfile.TemporaryDirectory() as folder:
        net = Path(folder) / "n.toml"
        trace = Path(folder) / "t.csv"
        for name, network, rows, counts in cases:
            before = None
            for count in counts:
                net.write_text(network(count))
                trace.write_text("".join(rows(count)))
                status, took = seconds(program, net, trace)
                if status == USAGE:
                    print("the program has no command simulate")
                    return
                ratio = "" if before is None else f", {took / before:.1f} times the one before"
                print(f"{name}: {count} packets: status {status}, {took:.3f} s{ratio}", flush=True)
                before = max(took, 0.001)


if __name__ == "__main__":
    main()
