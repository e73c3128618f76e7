"""Files that are odd and valid, or all but valid, drawn by a seed: for bench/mutate.py and bench/climb.py.

Numbers are near one another (cycles and periods a part in a million apart), have denominators near 2^127, or stand at a limit; slots are tiny,
ranks far out; servers have 8 queues with the least and the greatest quanta; files are of version 2 half of the time; edits undo each other;
recorded runs keep all laws but for one step, or all of them. `KINDS` has a maker for each kind of file: it gives the words and the files.
"""

import random
from fractions import Fraction

from hostile import bucket, flow, gate, latency, listed, server, stair

LARGEST = 2**127 - 1
PACKET = 2**24


def near(draw: random.Random, value) -> Fraction:
    """A number that differs a little: by a part in ten to a part in 10^9."""
    part = draw.choice([10, 1000, 1000, 10**6, 10**9])
    return Fraction(value) * Fraction(part + draw.choice([-1, 0, 1]), part)


def odd(draw: random.Random, value) -> Fraction:
    """A number of about the size, or one at a limit."""
    value = Fraction(value)
    return draw.choice(
        [
            lambda: value,
            lambda: near(draw, value),
            lambda: value * draw.choice([2, 3, 7, Fraction(1, 2), Fraction(1, 3), Fraction(1, 1024)]),
            lambda: Fraction(int(value * 997) or 1, draw.choice([997, 991, 8388608, 8388609])),
            lambda: Fraction(int(value * (LARGEST >> 20)) % LARGEST or 1, LARGEST - draw.randint(0, 9)),
            lambda: Fraction(draw.choice([1, 2**20, 2**24, 2**32, 2**63]), draw.choice([1, 2**20, 10**9 + 7])),
        ]
    )()


def usual(draw: random.Random, value) -> Fraction:
    """A number that is odd now and then, so that most files are worked out."""
    return odd(draw, value) if draw.random() < 0.04 else near(draw, value) if draw.random() < 0.2 else Fraction(value)


def cycles(draw: random.Random) -> tuple[Fraction, Fraction]:
    """A cycle or period, and a slot of it."""
    cycle = usual(draw, draw.choice([1, 10, 96, 250, 1000, 1000, 1000]))
    return cycle, cycle * Fraction(1, draw.choice([1, 2, 3, 4, 4, 10, 1000, 10**6, 2**24]))


def service(draw: random.Random, rate: Fraction) -> str:
    kind = draw.random()
    if kind < 0.4:
        return latency(usual(draw, 16))
    if kind < 0.8:
        return gate(*cycles(draw))
    period = usual(draw, 1000)
    pieces = [(0, 0, 0, 0), (period / 2, 0, 0, rate)]
    rank = period * draw.choice([0, 0, 1, 3, 1000])
    return listed(pieces, (rank, period, period * rate / (1 if rank else 2)))


def arrival(draw: random.Random, packet: int) -> str:
    kind = draw.random()
    if kind < 0.4:
        return bucket(max(Fraction(packet), usual(draw, packet)), usual(draw, Fraction(packet, 2000)))
    period = usual(draw, draw.choice([1000, 2000, 4000, 96]))
    if kind < 0.8:
        return stair(period, draw.choice([0, 0, period / 3, usual(draw, 200)]))
    rise = Fraction(packet)
    tail = draw.choice([None, (period, period, rise), (period * draw.choice([2, 50, 2**20]), period, rise)])
    pieces = [(0, 0, packet, 0), *([(period, packet, 2 * packet, 0)] if tail and tail[0] > period else [])]
    return listed(pieces, tail, draw.random() < 0.2)


def discipline(draw: random.Random) -> tuple[int, str]:
    """How many queues a server has, and its lines of the file."""
    queues = draw.choice([2, 3, 8, 8])
    kind = draw.random()
    if kind < 0.4:
        return 1, ""
    if kind < 0.7:
        return queues, f'discipline = "priority"\nqueues = {queues}\n'
    quanta = [draw.choice([1600, PACKET, PACKET - 1, 16384]) for _ in range(queues)]
    return queues, f'discipline = "drr"\nquanta = {quanta}\n'


def network(draw: random.Random) -> str:
    """A network of some servers in a row, with flows over parts of it."""
    base = Fraction(draw.choice([100, 100, 1000]))
    queues, text = [], draw.choice(["", "version = 2\n"])
    for number in range(draw.randint(1, 4)):
        rate = usual(draw, base)
        count, more = discipline(draw)
        queues.append(count)
        link = f'link = "{usual(draw, Fraction(1, 2))}"\n' if draw.random() < 0.3 else ""
        text += server(f"s{number}", str(rate), service(draw, rate), more + link)
    for number in range(draw.randint(1, 5)):
        packet = draw.choice([1, 12, 1600, 1600, 1538])
        first = draw.randrange(len(queues))
        hops = range(first, draw.randint(first + 1, len(queues)))
        path = [f"s{hop}:{draw.randrange(queues[hop])}" if queues[hop] > 1 else f"s{hop}" for hop in hops]
        text += flow(f"f{number}", arrival(draw, packet), path, packet)
    return text


def edit_list(draw: random.Random) -> str:
    """Edits, each followed by one that undoes it, by `undo` or by its former value, at once or all in the end."""
    rows, backs = [], []
    for number in range(draw.randint(1, 20)):
        edit, back = draw.choice(
            [
                (f"rate,s0,{usual(draw, 100)}", "undo"),
                (f"rate,s0,{near(draw, 100)}", "rate,s0,100"),
                (f"link,s0,{usual(draw, 1)}", "link,s0,0"),
                (f"latency,s0,{usual(draw, 16)}", "undo"),
                (f"packet,f0,{draw.choice([1, 12, 1600, PACKET])}", "undo"),
                (f"bucket,f0,{usual(draw, 1600)},{usual(draw, 1)}", "undo"),
                (f"stair,f0,{usual(draw, 1000)},{usual(draw, 10)}", "undo"),
                (f"add,g{number},12,{usual(draw, 12)},{usual(draw, 1)},s0", f"drop,g{number}"),
                ("drop,f0", "undo"),
                ("quantum,s0,0,1600", "undo"),
            ]
        )
        rows.append(edit)
        if draw.random() < 0.5:
            rows.append(back)
        else:
            backs.insert(0, back)
    return "\n".join(rows + backs) + "\n"


def trace(draw: random.Random) -> str:
    """Packets in the order of their times, near a period, and stalls."""
    period, time, rows = usual(draw, draw.choice([96, 1000, 12])), Fraction(0), []
    for _ in range(draw.choice([2, 10, 40, 200])):
        rows.append(f"packet,{time},f0,{draw.choice([1, 12, 1600, 1600, PACKET] if draw.random() < 0.1 else [1, 12])}")
        time += draw.choice([0, period, period, near(draw, period), period / 3])
    for _ in range(draw.choice([0, 1, 1, 3])):
        begun = usual(draw, time * Fraction(draw.randint(0, 8), 4) + 1)
        rows.insert(draw.randrange(len(rows) + 1), f"stall,s0,{begun},{begun + usual(draw, draw.choice([1, 250, 2000]))}")
    return "\n".join(rows) + "\n"


def recorded(draw: random.Random, rate: Fraction) -> tuple[str, str]:
    """A network of a server and a flow, and a run of it that keeps all laws, or breaks them by one step."""
    cycle, slot = cycles(draw)
    bits = max(1, min(PACKET, int(rate * slot)))
    kind = draw.choice([gate(cycle, slot), latency(cycle)])
    net = draw.choice(["", "version = 2\n"]) + server("s0", str(rate), kind) + flow("f0", bucket(bits, bits / cycle), ["s0"], bits)
    rows, begun = [], Fraction(0)
    for number in range(draw.choice([1, 3, 20, 100])):
        ends = begun + bits / rate
        middle = near(draw, (begun + ends) / 2)
        works = [(begun, ends, Fraction(bits))] if draw.random() < 0.7 else [
            (begun, middle, (middle - begun) * rate), (middle, ends, (ends - middle) * rate)]  # fmt: skip
        rows.append(f"enter,{begun},f0,{bits}")
        rows += [f"work,s0,{number},{one},{two},{part}" for one, two, part in works]
        rows.append(f"leave,{ends},s0,{number}")
        begun = max(ends, begun + cycle)
    if draw.random() < 0.6:
        place = draw.randrange(len(rows))
        cells = rows[place].split(",")
        which = draw.choice([at for at, cell in enumerate(cells) if cell[:1].isdigit()])
        cells[which] = str(near(draw, Fraction(cells[which])) if "/" in cells[which] or draw.random() < 0.5 else int(Fraction(cells[which])) + 1)
        rows[place] = ",".join(cells)
    return net, "\n".join(rows) + f"\nend,{begun}\n"


def expression(draw: random.Random, depth: int) -> str:
    """An expression of curves whose periods are near one another."""
    if depth == 0:
        cycle, slot = cycles(draw)
        rate = usual(draw, draw.choice([1, 100]))
        return draw.choice([f"bucket({rate}, {usual(draw, 1)})", f"stair({draw.choice([1, 12, 1600])}, {cycle}, {draw.choice([0, slot])})",
                            f"latency({rate}, {cycle})", f"gate({rate}, {cycle}, {slot})"])  # fmt: skip
    one = expression(draw, depth - 1)
    if draw.random() < 0.3:
        word = draw.choice(["close", "runsup", "runinf", "posminus", "shift", "scale"])
        return f"{word}({one}, {usual(draw, 10)})" if word in ("posminus", "shift", "scale") else f"{word}({one})"
    return f"{draw.choice(['sum', 'min', 'max', 'conv', 'posdiff', 'deconv'])}({one}, {expression(draw, draw.randrange(depth))})"


def script(draw: random.Random) -> str:
    one, two = (expression(draw, draw.choice([0, 1, 1, 2, 3])) for _ in range(2))
    statements = [f"rate {one}", f"value {one} at {usual(draw, 1000)}", f"delay {one}, {two}", f"backlog {one}, {two}", f"below {one}, {two}"]
    return f"{draw.choice(statements)}\n{draw.choice(statements)}\n"


def of_check(draw: random.Random) -> tuple[list[str], dict[str, str]]:
    net, run = recorded(draw, usual(draw, draw.choice([1, 10, 100])))
    return ["check", "n", "r"], {"n": net, "r": run}


KINDS = {
    "analyse": lambda draw: (["analyse", "n", *(["--json"] if draw.random() < 0.2 else [])], {"n": network(draw)}),
    "edit": lambda draw: (["edit", "n", "e"], {"n": network(draw), "e": edit_list(draw)}),
    "simulate": lambda draw: (["simulate", "n", "t"], {"n": network(draw), "t": trace(draw)}),
    "check": of_check,
    "curve": lambda draw: (["curve", "c"], {"c": script(draw)}),
}


def drawn(draw: random.Random, kind: str = "") -> tuple[list[str], dict[str, bytes]]:
    """The words and files of a case, of a kind or of any."""
    words, files = KINDS[kind or draw.choice(sorted(KINDS))](draw)
    return words, {name: text.encode() for name, text in files.items()}
