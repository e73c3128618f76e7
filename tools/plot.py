#!/usr/bin/env python3
"""Draws what netcalc printed. Needs matplotlib (Debian: python3-matplotlib).

    ./netcalc plot bounds ANSWER.txt -o OUT.svg
        bars of an answer of `netcalc analyse` or `edit`: a flow's bounds by total-flow and by separate-flow analysis,
        each queue's delay and backlog; or of `netcalc simulate` or `check`: the worst of the run beside the bound;
        flows or queues alone, where an answer has no others; of more than 200 those with the largest numbers
    ./netcalc plot curves ANSWER.txt -o OUT.svg
        two curves, an arrival curve and a service curve, with their horizontal and vertical deviation: of an answer of
        `netcalc curve` that has `show A`, `show B`, `delay A, B` and `backlog A, B`
    ./netcalc plot run RUN.csv --net NET [--ports A,B] [--from T] [--to T] -o OUT.svg
        a time line of a recorded run, as `netcalc check NET RUN.csv` reads it: at each server the works with the
        numbers of their packets, and the bits that each queue holds; of some servers alone, between two times

ANSWER.txt and RUN.csv may be `-`, for the standard input. OUT ends with .svg or .png. An `unbounded` number is drawn as
a bar to the edge, with the word. Of an answer only the printed numbers are read, so a picture shows what was proved of
it and nothing else. A time line shows the rows that stand in the file: whether they are a run of the network `check`
alone says. Drawing rounds lengths to the screen; the numbers at bars are rounded up, to six digits. No picture has more
than 4,000 pixels in a row or a column."""

import argparse
import bisect
import colorsys
import csv
import itertools
import math
import re
from fractions import Fraction

from networks import NAME, Fault, ended, hold_picture, load, member, shortened, text_in

BLUE, RED, GREY, GREEN = "#4477aa", "#cc3311", "#bbbbbb", "#228833"
FLOWS = [BLUE, RED, GREEN, "#aa3377", "#ccbb44", "#66ccee"]  # colours of the first flows
QUEUES = ["#ee7733", "#000000", "#009988", "#777777", "#882255", "#999933", "#0077bb", "#ee3377"]
MOST = 2000  # pieces of a curve that are drawn
ROWS = 200  # bars below one another
TALLEST = 38  # inches of a picture's rows, of 100 pixels each


def exact(word):
    """A printed number."""
    if not re.fullmatch("-?[0-9]{1,60}(/(?=[0-9]*[1-9])[0-9]{1,60})?", word):
        raise Fault(f"{shortened(word)!r} is no number")
    return Fraction(word)


def number(word):
    """A printed number, or None for `unbounded`."""
    return None if word == "unbounded" else exact(word)


def name_in(word):
    """A name of an answer."""
    if not NAME.fullmatch(word):
        raise Fault(f"{shortened(word)!r} is no name")
    return word


def queue_in(server, word):
    """A queue of an answer by its server and number."""
    if not re.fullmatch("[0-9]{1,3}", word):
        raise Fault(f"{shortened(word)!r} is no number of a queue")
    return f"{name_in(server)}:{word}"


def rounded_up(value, digits=6):
    """The least number of so many digits that is not below a number from 0 on, as it is written."""
    if value == 0:
        return "0"
    place = digits - len(str(math.floor(value))) if value >= 1 else digits
    units = math.ceil(value * Fraction(10) ** place)
    whole, rest = divmod(units, 10**place) if place > 0 else (units * 10**-place, 0)
    return f"{whole}.{rest:0{place}}".rstrip("0") if rest else str(whole)


def colour_of(place):
    """The colour of a flow by its place: the first have chosen ones, the others their own, each far from the one
    before."""
    if place < len(FLOWS):
        return FLOWS[place]
    return colorsys.hsv_to_rgb(place * 0.618034 % 1, 0.55 + 0.15 * (place % 3), 0.85 - 0.15 * (place % 2))


def read_lines(text, read):
    """Reads the words of each line that is not empty; a fault is told with its line."""
    for place, line in enumerate(text.splitlines(), 1):
        try:
            if line.split():
                read(line.split())
        except Fault as fault:
            raise Fault(f"line {place}: {fault}") from None


def drawing():
    """matplotlib's figures, drawn without a screen; letters stay letters in an SVG, so it can be searched."""
    try:
        import matplotlib
    except ImportError:
        raise Fault("drawing needs matplotlib (Debian: python3-matplotlib)") from None

    matplotlib.use("Agg")
    matplotlib.rcParams["svg.fonttype"] = "none"
    matplotlib.rcParams["svg.hashsalt"] = "netcalc"
    import matplotlib.pyplot as plot

    return plot


def save(figure, path):
    """Writes a picture, without the time at which it was drawn."""
    figure.savefig(path, metadata={"Date": None} if path.endswith(".svg") else None)


def read_run(text):
    """The flows and queues of an answer of `simulate` or `check`, as lists of names with the worst of the run and the
    bound."""
    flows, queues = [], []

    def read(words):
        match words:
            case ["worst", name, seen, "bound", most]:
                flows.append((name_in(name), number(seen), number(most)))
            case ["peak", server, queue, seen, "bound", most]:
                queues.append((queue_in(server, queue), number(seen), number(most)))
            case ["servers" | "run" | "breach" | "verdict", *_]:
                pass
            case _:
                raise Fault(f"no line of an answer: {shortened(' '.join(words))}")

    read_lines(text, read)
    return flows, queues


def read_answer(text):
    """The flows and queues of an answer of `analyse` or `edit`, as lists of names with their printed numbers."""
    flows, queues = [], []

    def read(words):
        match words:
            case ["flow", name, "tfa", tfa, "sfa", sfa, "bound", _]:
                flows.append((name_in(name), number(tfa), number(sfa)))
            case ["queue", server, queue, "delay", delay, "backlog", backlog]:
                queues.append((queue_in(server, queue), number(delay), number(backlog)))
            case ["servers" | "edit", *_]:
                pass
            case _:
                raise Fault(f"no line of an answer: {shortened(' '.join(words))}")

    read_lines(text, read)
    return flows, queues


def bars(axes, names, columns, label):
    """Horizontal bars of one or two columns; those of nothing known reach to the edge."""
    known = [float(value) for column in columns for value in column[1] if value is not None]
    edge = 1.15 * max(known, default=1.0) or 1.0
    height = 0.8 / len(columns)
    for place, (what, values, colour) in enumerate(columns):
        ys = [row + place * height for row in range(len(names))]
        lengths = [edge if value is None else float(value) for value in values]
        axes.barh(ys, lengths, height=height, color=colour, label=what)
        for y, value, length in zip(ys, values, lengths):
            word = "unbounded" if value is None else rounded_up(value)
            axes.text(
                length,
                y,
                f" {word}",
                va="center",
                ha="right" if value is None else "left",
                fontsize=7,
            )
    axes.set_yticks(
        [row + height * (len(columns) - 1) / 2 for row in range(len(names))], names, fontsize=8, family="monospace"
    )
    axes.set_xlim(0, edge * 1.1)
    axes.margins(y=min(0.05, 1 / max(1, len(names))))
    axes.locator_params(axis="x", nbins=4)
    axes.invert_yaxis()
    axes.set_xlabel(label)
    axes.grid(axis="x", alpha=0.3)
    if len(columns) > 1:
        axes.legend(fontsize=8, ncol=len(columns), loc="lower center", bbox_to_anchor=(0.5, 1.0), frameon=False)


def largest_rows(names, columns, label):
    """A panel of its largest rows, where it has too many to draw."""
    if len(names) <= ROWS:
        return names, columns, label
    size = lambda row: max(math.inf if values[row] is None else values[row] for _, values, _ in columns)
    rows = sorted(sorted(range(len(names)), key=size, reverse=True)[:ROWS])
    kept = [(what, [values[row] for row in rows], colour) for what, values, colour in columns]
    return [names[row] for row in rows], kept, f"{label}: the largest {ROWS} of {len(names)}"


def draw_panels(panels, width, path):
    """The picture of panels beside one another, each with names, columns and a label, and of one width; a panel without
    a name is left out."""
    panels = [largest_rows(*panel) for panel in panels if panel[0]]
    if not panels:
        raise Fault("the answer has no flow and no queue: nothing to draw")
    plot = drawing()

    rows = max(len(names) for names, _, _ in panels)
    size = width * len(panels), 1.2 + min(0.32 * rows, TALLEST)
    figure, all_axes = plot.subplots(1, len(panels), figsize=size, squeeze=False, layout="constrained")
    for axes, panel in zip(all_axes[0], panels):
        bars(axes, *panel)
    save(figure, path)


class Curve:
    """A curve as `show` prints it: pieces, and a tail."""

    def __init__(self):
        self.pieces, self.tail, self.graphs = [], None, {}

    def unrolled(self, end):
        """Its pieces up to `end`: time, value there, value just after (None where infinite), slope."""
        found = list(self.pieces)
        if self.tail[0] == "periodic":
            rank, period, rise = self.tail[1:]
            if (end - rank) / period * len(found) > MOST:
                raise Fault(f"more than {MOST} pieces up to {float(end):g}: too many to draw")
            own = [piece for piece in self.pieces if piece[0] >= rank]
            turns = 1
            while rank + turns * period <= end:
                found += [
                    (time + turns * period, at + turns * rise, None if after is None else after + turns * rise, slope)
                    for time, at, after, slope in own
                ]
                turns += 1
        return [piece for piece in found if piece[0] <= end]

    def line(self, end):
        """Times and values of its graph up to `end`, jumps upright; it stops where it is infinite."""
        pieces = self.unrolled(end)
        times, values = [], []
        for (time, at, after, slope), later in zip(pieces, [*[piece[0] for piece in pieces[1:]], end]):
            times.append(time)
            values.append(at)
            if after is None:
                break
            times += [time, later]
            values += [after, after + slope * (later - time)]
        return times, values

    def graph(self, end):
        """Its graph up to `end`, made once."""
        if end not in self.graphs:
            self.graphs[end] = Graph(*self.line(end))
        return self.graphs[end]


class Graph:
    """The graph of a curve up to a time: its corners, and the greatest value up to each."""

    def __init__(self, times, values):
        self.times, self.values = times, values
        self.tops = list(itertools.accumulate(values, max))

    def near(self, time):
        """Its values at a time, just before and just after it, where it is finite there."""
        first, last = bisect.bisect_left(self.times, time), bisect.bisect_right(self.times, time)
        if first < last or not 0 < first < len(self.times):
            return self.values[first:last]
        share = (time - self.times[first - 1]) / (self.times[first] - self.times[first - 1])
        return [self.values[first - 1] + share * (self.values[first] - self.values[first - 1])]

    def first_at(self, level):
        """The first time at which it is at least `level`, or None."""
        place = bisect.bisect_left(self.tops, level)
        if place == len(self.tops):
            return None
        if not place or self.values[place - 1] == self.values[place] or self.times[place - 1] == self.times[place]:
            return self.times[place]
        return self.passed(place, level)

    def first_above(self, level):
        """The first time from which on the curve is above a level: the right end of a stretch at that level."""
        place = bisect.bisect_right(self.tops, level)
        if place == len(self.tops):
            return None
        if not place or self.times[place - 1] == self.times[place]:
            return self.times[place]
        return self.passed(place, max(level, self.values[place - 1]))

    def passed(self, place, level):
        """The time at which the line that ends at a corner passes a level."""
        before, low = self.times[place - 1], self.values[place - 1]
        return before + (level - low) * (self.times[place] - before) / (self.values[place] - low)


def read_curves(text):
    """The curves and numbers of an answer of `curve`."""
    curves, numbers, pieces = [], {}, []

    def read(words):
        match words:
            case ["piece", start, "at", at, "after", "unbounded", *_]:
                pieces.append((exact(start), exact(at), None, Fraction(0)))
            case ["piece", start, "at", at, "after", after, "slope", slope]:
                pieces.append((exact(start), exact(at), exact(after), exact(slope)))
            case ["tail", kind, *rest]:
                curves.append(curve_of(pieces, kind, [exact(word) for word in rest]))
                pieces.clear()
            case ["delay" | "backlog" as name, value]:
                numbers[name] = value if value == "unbounded" else str(exact(value))
            case ["equal" | "below" | "value" | "rate", *_]:
                pass
            case _:
                raise Fault(f"no line of an answer of `curve`: {shortened(' '.join(words))}")

    read_lines(text, read)
    if len(curves) != 2 or not {"delay", "backlog"} <= numbers.keys():
        raise Fault("an answer with two curves shown, their delay and their backlog is wanted")
    return curves, numbers


def curve_of(pieces, kind, numbers):
    """A curve of its pieces and its tail."""
    starts = [piece[0] for piece in pieces]
    if not starts or starts[0] != 0 or starts != sorted(set(starts)):
        raise Fault("the pieces before a tail begin at 0 and rise")
    if kind == "periodic" and not (len(numbers) == 3 and numbers[0] >= 0 and numbers[1] > 0):
        raise Fault("a periodic tail has a start, a period above 0 and a rise")
    curve = Curve()
    curve.pieces, curve.tail = list(pieces), (kind, *numbers)
    return curve


def widest(arrival, service, end):
    """A level of the curves up to `end` at which the service comes latest after the arrivals, with both times."""
    arrivals, served = arrival.graph(end), service.graph(end)
    levels = sorted({*arrivals.values, *served.values})
    best = None
    for level in levels:
        # Where a curve stays at the level, the service may be latest for what comes just above it.
        for start, reached in (
            (arrivals.first_at(level), served.first_at(level)),
            (arrivals.first_above(level), served.first_above(level)),
        ):
            if start is not None and reached is not None and (best is None or reached - start > best[2] - best[1]):
                best = (level, start, reached)
    return best


def highest(arrival, service, end):
    """The time up to `end` at which the arrivals are highest above the service, with both values there; the earliest."""
    arrivals, served = arrival.graph(end), service.graph(end)
    best = Fraction(0), Fraction(0), Fraction(0)
    for time in sorted({*arrivals.times, *served.times}):
        tops, lows = arrivals.near(time), served.near(time)
        if tops and lows and max(tops) - min(lows) > best[2] - best[1]:
            best = time, min(lows), max(tops)
    return best


def draw_curves(text, path):
    """The picture of two curves."""
    (arrival, service), numbers = read_curves(text)
    plot = drawing()

    delay, backlog = numbers["delay"], numbers["backlog"]
    breaks = [piece[0] for curve in (arrival, service) for piece in curve.pieces]
    periods = [curve.tail[2] for curve in (arrival, service) if curve.tail[0] == "periodic"]
    own = 2 * (max([*breaks, *periods]) + (Fraction(delay) if delay != "unbounded" else 0))
    end = own or Fraction(10)
    figure, axes = plot.subplots(figsize=(8, 5), layout="constrained")
    for curve, name, colour in ((arrival, "arrival curve", BLUE), (service, "service curve", RED)):
        graph = curve.graph(end)
        axes.plot([*map(float, graph.times)], [*map(float, graph.values)], color=colour, label=name)
    if delay != "unbounded" and (found := widest(arrival, service, end)):
        level, start, reached = found
        axes.annotate(
            "",
            (float(start), float(level)),
            (float(reached), float(level)),
            arrowprops={"arrowstyle": "<->", "color": GREEN},
        )
        axes.text(
            float((start + reached) / 2),
            float(level),
            f"delay {delay}",
            ha="center",
            va="bottom",
            color=GREEN,
            fontsize=9,
        )
    if backlog != "unbounded":
        time, low, top = highest(arrival, service, end)
        axes.annotate(
            "",
            (float(time), float(low)),
            (float(time), float(top)),
            arrowprops={"arrowstyle": "<->", "color": GREY},
        )
        axes.text(
            float(time),
            float((low + top) / 2),
            f" backlog {backlog}",
            va="center",
            color="black",
            fontsize=9,
        )
    axes.set_xlabel("time")
    axes.set_ylabel("bits")
    axes.set_xlim(0, float(end))
    axes.set_ylim(0)
    axes.grid(alpha=0.3)
    axes.legend(loc="lower right")
    save(figure, path)


def draw_run(text, path):
    """The picture of an answer of `simulate`: what the run showed beside what no run passes."""
    flows, queues = read_run(text)

    def panel(found, label):
        columns = [
            ("worst of the run", [seen for _, seen, _ in found], GREY),
            ("bound", [bound for _, _, bound in found], BLUE),
        ]
        return [name for name, _, _ in found], columns, label

    draw_panels(
        [panel(flows, "delay of a flow, end to end"), panel(queues, "backlog of a queue, in bits")], 11 / 2, path
    )


class Server:
    """What a recorded run did at one server: its works, its visits, and when bits came to a queue or left it."""

    def __init__(self):
        self.works, self.visits, self.moves = [], [], {}

    def holds(self, queue, end):
        """The times at which the queue's bits changed, and how many it held from each on, up to the run's end."""
        times, held = [0.0], [0]
        for time, bits in sorted(self.moves[queue]):
            times.append(float(time))
            held.append(held[-1] + bits)
        return [*times, float(end)], [*held, held[-1]]


def read_paths(path):
    """The servers of a network's file in their order, and of each flow its servers with the queues there."""
    net = load(path)
    for table in [*net.get("server", []), *net.get("flow", [])]:
        name_in(table["name"])
    names = [server["name"] for server in net.get("server", [])]
    paths = {}
    for flow in net.get("flow", []):
        hops = [str(hop).partition(":") for hop in member(flow, f"{path}: {flow['name']}: ", "path", list)]
        for name, _, queue in hops:
            if name not in names or not re.fullmatch("[0-9]{0,3}", queue):
                raise Fault(f"{path}: {flow['name']} has no path entry {shortened(name + ':' + queue)}")
        if not hops:
            raise Fault(f"{path}: {flow['name']} has an empty path")
        paths[flow["name"]] = {name: int(queue or 0) for name, _, queue in hops}
    return names, paths


def known(what, name, names):
    """A name that is one of some."""
    if name not in names:
        raise Fault(f"no {what} {shortened(name)}")
    return name


class Recorded:
    """A recorded run as its rows are read: the servers, the flow of each packet, and the run's end."""

    def __init__(self, names, paths):
        self.servers, self.paths = {name: Server() for name in names}, paths
        self.packets, self.end = [], Fraction(0)

    def packet(self, text):
        """The number of a packet that has entered."""
        if not re.fullmatch("[0-9]{1,9}", text) or int(text) >= len(self.packets):
            raise Fault(f"no packet {shortened(text)} has entered")
        return int(text)

    def move(self, server, packet, time, sign):
        """A packet comes to a server of its path, or leaves it."""
        flow, bits = self.packets[packet]
        if server not in self.paths[flow]:
            raise Fault(f"packet {packet} of {flow} does not pass {shortened(server)}")
        self.servers[server].moves.setdefault(self.paths[flow][server], []).append((exact(time), sign * bits))

    def read(self, row):
        """Takes a row."""
        match row:
            case ["enter", time, flow, bits]:
                self.packets.append((known("flow", flow, self.paths), float(exact(bits))))
                self.move(next(iter(self.paths[flow])), len(self.packets) - 1, time, 1)
            case ["reach" | "leave" as what, time, server, packet]:
                self.move(
                    known("server", server, self.servers), self.packet(packet), time, 1 if what == "reach" else -1
                )
            case ["work", server, packet, start, stop, _]:
                work = self.packet(packet), exact(start), exact(stop)
                self.servers[known("server", server, self.servers)].works.append(work)
            case ["visit", time, server, queue] if re.fullmatch("[0-9]{1,3}", queue):
                self.servers[known("server", server, self.servers)].visits.append((exact(time), queue))
            case ["end", time]:
                self.end = exact(time)
            case _:
                raise Fault(f"no row of a recorded run: {shortened(','.join(row))}")


def read_recorded(text, names, paths):
    """The servers of a recorded run, the flow of each packet, and the run's end."""
    run = Recorded(names, paths)
    reader = csv.reader(text.splitlines(), strict=True)
    try:
        for row in reader:
            if row:
                run.read(row)
    except (csv.Error, Fault) as fault:
        raise Fault(f"line {reader.line_num}: {fault}") from None
    return run.servers, [flow for flow, _ in run.packets], run.end


def draw_works(axes, server, flows, colours, span):
    """The strip of a server's works in a span of time, with the numbers of their packets where there is room, and its
    visits: `v1` of queue 1."""
    first, last = span
    for packet, start, stop in server.works:
        start, stop = max(start, first), min(stop, last)
        if start >= stop:
            continue
        axes.broken_barh([(float(start), float(stop - start))], (0, 1), color=colours[flows[packet]], edgecolor="white")
        if stop - start > (last - first) / 60:
            axes.text(float(start + stop) / 2, 0.5, str(packet), ha="center", va="center", color="white", fontsize=7)
    for time, queue in server.visits:
        if first <= time <= last:
            axes.text(float(time), 0.04, f" v{queue}", ha="left", va="bottom", fontsize=6)
    axes.set_ylim(0, 1)
    axes.set_yticks([])
    axes.tick_params(axis="x", length=0)


def draw_queues(axes, server, end):
    """The bits that each queue of a server holds over time; one that no packet came to is left out."""
    queues = sorted(server.moves)
    for queue in queues:
        times, held = server.holds(queue, end)
        if len(queues) > 1:
            axes.step(times, held, where="post", color=QUEUES[queue % len(QUEUES)], label=f"queue {queue}")
        else:
            axes.fill_between(times, held, step="post", color=GREY)
    axes.set_ylim(0)
    axes.set_ylabel("bits", fontsize=7)
    axes.tick_params(labelsize=7)
    axes.grid(alpha=0.3)
    if len(queues) > 1:
        axes.legend(fontsize=7, loc="upper right")


def chosen(servers, ports, path):
    """The servers that are drawn: those that are asked for, else those that a packet reached."""
    if ports is None:
        return {name: server for name, server in servers.items() if server.moves} or servers
    return {known(f"server of {path}", name, servers): servers[name] for name in ports}


def draw_recorded(text, net, path, ports=None, start=Fraction(0), stop=None):
    """The time line of a recorded run of the network's file `net`, of some ports alone, between two times."""
    names, paths = read_paths(net)
    servers, flows, end = read_recorded(text, names, paths)
    if not flows:
        raise Fault("no packet enters: nothing to draw")
    stop = end if stop is None else min(stop, end)
    if start >= stop and stop > 0:
        raise Fault(f"nothing to draw from {start} to {stop}")
    used = chosen(servers, ports, net)
    plot = drawing()
    colours = {flow: colour_of(place) for place, flow in enumerate(paths)}
    figure, all_axes = plot.subplots(
        2 * len(used),
        1,
        figsize=(10, 0.6 + min(1.3 * len(used), TALLEST)),
        sharex=True,
        height_ratios=[1, 2.6] * len(used),
        squeeze=False,
        layout="constrained",
    )
    for place, (name, server) in enumerate(used.items()):
        works, queues = all_axes[2 * place][0], all_axes[2 * place + 1][0]
        draw_works(works, server, flows, colours, (start, stop))
        works.set_title(name, fontsize=8, family="monospace", loc="left", pad=2)
        draw_queues(queues, server, end)
    all_axes[-1][0].set_xlim(float(start), float(stop) or 1)
    all_axes[-1][0].set_xlabel("time", fontsize=8)
    works = [work for server in used.values() for work in server.works]
    seen = {flows[packet] for packet, begin, until in works if begin < stop and until > start} or set(flows)
    handles = [
        plot.Rectangle((0, 0), 1, 1, color=colours[flow], label=f"works of {flow}") for flow in paths if flow in seen
    ]
    columns = 6 if max(map(len, seen), default=0) <= 12 else 3
    all_axes[0][0].legend(
        handles=handles, fontsize=8, ncol=columns, loc="lower right", bbox_to_anchor=(1.0, 1.0), frameon=False
    )
    save(figure, path)


def draw_bounds(text, path):
    """The picture of an answer."""
    if any(line.startswith("worst ") or line.startswith("run ") for line in text.splitlines()):
        draw_run(text, path)
        return
    flows, queues = read_answer(text)
    columns = [
        ("total-flow", [tfa for _, tfa, _ in flows], BLUE),
        ("separate-flow", [sfa for _, _, sfa in flows], GREY),
    ]
    names = [name for name, _, _ in queues]
    panels = [
        ([name for name, _, _ in flows], columns, "delay bound of a flow, end to end"),
        (names, [("delay", [delay for _, delay, _ in queues], BLUE)], "delay bound of a queue"),
        (names, [("backlog", [bits for _, _, bits in queues], RED)], "backlog bound of a queue, in bits"),
    ]
    draw_panels(panels, 13 / 3, path)


def main():
    parser = argparse.ArgumentParser(description=__doc__, formatter_class=argparse.RawDescriptionHelpFormatter)
    parser.add_argument("what", choices=["bounds", "curves", "run"])
    parser.add_argument("answer")
    parser.add_argument("-o", "--output", required=True, metavar="OUT")
    parser.add_argument("--net", metavar="NET", help="of `run`: the network's file")
    parser.add_argument(
        "--ports", metavar="A,B", type=lambda text: text.split(","), help="of `run`: these servers alone"
    )
    parser.add_argument("--from", dest="start", metavar="T", help="of `run`: from this time on")
    parser.add_argument("--to", dest="stop", metavar="T", help="of `run`: up to this time")
    words = parser.parse_args()
    if (words.what == "run") != (words.net is not None):
        parser.error("`run` alone wants the network's file, by --net")
    if words.what != "run" and (words.ports or words.start or words.stop):
        parser.error("--ports, --from and --to are for `run` alone")
    hold_picture(words.output)
    text = text_in("/dev/stdin" if words.answer == "-" else words.answer)
    try:
        if words.what == "run":
            span = exact(words.start or "0"), words.stop and exact(words.stop)
            draw_recorded(text, words.net, words.output, words.ports, *span)
        else:
            (draw_bounds if words.what == "bounds" else draw_curves)(text, words.output)
    except Fault as fault:
        raise Fault(f"{words.answer}: {fault}") from None
    return 0


if __name__ == "__main__":
    ended("plot", main)
