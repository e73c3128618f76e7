#!/usr/bin/env python3
"""Draws docs/port.svg: two flows through one port, and the two distances between the curves that netcalc prints; and
docs/crates.svg: the groups of crates (the comments of crates.txt) with their crates, and which group stands on which."""

import pathlib
import re
import textwrap

DOCS = pathlib.Path(__file__).resolve().parent

WIDTH, HEIGHT = 720, 430
LEFT, RIGHT, TOP, BOTTOM = 70, 24, 24, 50
TIMES, BITS = 300, 30000


def x(time):
    return LEFT + (WIDTH - LEFT - RIGHT) * time / TIMES


def y(bits):
    return HEIGHT - BOTTOM - (HEIGHT - TOP - BOTTOM) * bits / BITS


def line(points, colour, width=2.5, dashes=""):
    path = " ".join(f"{x(t):.1f},{y(b):.1f}" for t, b in points)
    dashed = f' stroke-dasharray="{dashes}"' if dashes else ""
    return f'<polyline points="{path}" fill="none" stroke="{colour}" stroke-width="{width}"{dashed}/>'


def words(time, bits, text, colour="#222", anchor="start"):
    return f'<text x="{x(time):.1f}" y="{y(bits):.1f}" fill="{colour}" text-anchor="{anchor}">{text}</text>'


def arrow(start, end, colour):
    (t0, b0), (t1, b1) = start, end
    return (
        f'<line x1="{x(t0):.1f}" y1="{y(b0):.1f}" x2="{x(t1):.1f}" y2="{y(b1):.1f}" stroke="{colour}" stroke-width="2" '
        f'marker-start="url(#{colour[1:]})" marker-end="url(#{colour[1:]})"/>'
    )


def head(colour):
    return (
        f'<marker id="{colour[1:]}" viewBox="0 0 10 10" refX="9" refY="5" markerWidth="7" markerHeight="7" orient="auto-start-reverse">'
        f'<path d="M0,1 L10,5 L0,9 z" fill="{colour}"/></marker>'
    )


def picture():
    arrivals, service, packets, delay, backlog = "#1b5e9c", "#2e7d32", "#7cb342", "#c62828", "#6a1b9a"
    ticks = []
    for time in range(0, TIMES + 1, 50):
        ticks.append(f'<line x1="{x(time):.1f}" y1="{y(0):.1f}" x2="{x(time):.1f}" y2="{y(0) + 5:.1f}" stroke="#222"/>')
        ticks.append(f'<text x="{x(time):.1f}" y="{y(0) + 20:.1f}" text-anchor="middle">{time}</text>')
    for bits in range(0, BITS + 1, 6000):
        ticks.append(f'<line x1="{x(0) - 5:.1f}" y1="{y(bits):.1f}" x2="{x(0):.1f}" y2="{y(bits):.1f}" stroke="#222"/>')
        ticks.append(f'<text x="{x(0) - 9:.1f}" y="{y(bits) + 4:.1f}" text-anchor="end">{bits}</text>')
    parts = [
        f'<svg xmlns="http://www.w3.org/2000/svg" viewBox="0 0 {WIDTH} {HEIGHT}" font-family="sans-serif" font-size="13">',
        f'<rect width="{WIDTH}" height="{HEIGHT}" fill="white"/>',
        "<defs>" + head(delay) + head(backlog) + "</defs>",
        line([(0, BITS), (0, 0), (TIMES, 0)], "#222", 1.2),
        *ticks,
        words(TIMES / 2, -3700, "time", anchor="middle"),
        words(4, BITS - 900, "bits"),
        line([(0, 18000), (TIMES, 18000 + 15 * TIMES)], arrivals),
        line([(0, 0), (10, 0), (300, 29000)], service),
        line([(0, 0), (130, 0), (TIMES, 100 * (TIMES - 130))], packets, 2, "7 4"),
        arrow((0, 18000), (190, 18000), delay),
        arrow((130, 0), (130, 19950), backlog),
        words(12, 20900, "arrival curve of both flows: 18000 + 15 t", arrivals),
        words(212, 18700, "service curve: 100 (t - 10)", service),
        words(176, 2800, "for whole packets: 12000 less", packets),
        words(52, 16900, "delay 190", delay),
        words(135, 7200, "backlog 19950", backlog),
        "</svg>",
    ]
    return "\n".join(parts) + "\n"


def read_groups():
    """The crates of each group, lowest first, and the groups that each group stands on."""
    groups, group_of, below = {}, {}, {}
    for row in (DOCS.parent / "crates.txt").read_text().splitlines():
        crate, colon, libraries = row.partition(":")
        if row.startswith("#"):
            heading = row[2:3].upper() + row[3:]
        elif colon:
            groups.setdefault(heading, []).append(crate)
            group_of[crate], below[crate] = heading, libraries.split()
    stands_on = {heading: set() for heading in groups}
    for crate, libraries in below.items():
        stands_on[group_of[crate]] |= {group_of[library] for library in libraries if library in group_of} - {group_of[crate]}
    return groups, stands_on


def ways(stands_on, upper):
    """All groups that a group stands on, over others too."""
    found = set(stands_on[upper])
    for lower in stands_on[upper]:
        found |= ways(stands_on, lower)
    return found


# What stands in the right column; the rest is in the left one, and what stands on nothing is as wide as both.
RIGHT_COLUMN = ("Laws of runs", "Networks", "The simulator", "Breaches of a run", "The calculator")
COLUMN, GAP, ROW, MARGIN = 470, 60, 30, 20


def ranks(stands_on):
    """How many groups lie below each at most, and one more where its column has a group there."""
    rank, taken = {}, set()
    for heading in stands_on:
        level = max((rank[lower] + 1 for lower in stands_on[heading]), default=0)
        column = heading.startswith(RIGHT_COLUMN)
        while (level, column) in taken:
            level += 1
        taken.add((level, column))
        rank[heading] = level
    return rank


def place(groups, stands_on):
    """Where each group's box is: left, top, width, height, and its lines."""
    rank = ranks(stands_on)
    lines = {heading: textwrap.wrap("  ".join(crates), 62 if rank[heading] else 120) for heading, crates in groups.items()}
    boxes, top = {}, MARGIN
    for level in sorted(set(rank.values()), reverse=True):
        row = [heading for heading in groups if rank[heading] == level]
        height = max(34 + 18 * len(lines[heading]) for heading in row)
        for heading in row:
            left = MARGIN + (COLUMN + GAP if heading.startswith(RIGHT_COLUMN) else 0)
            boxes[heading] = (left, top, COLUMN if level else 2 * COLUMN + GAP, height, lines[heading])
        top += height + ROW
    return boxes, top - ROW + MARGIN


def group_box(heading, box):
    left, top, width, height, lines = box
    dashes = ' stroke-dasharray="6 4"' if "being built" in heading else ""
    parts = [
        f'<rect x="{left}" y="{top}" width="{width}" height="{height}" rx="6" fill="#eef4fa" stroke="#1b5e9c"{dashes}/>',
        f'<text x="{left + 12}" y="{top + 21}" font-weight="bold" fill="#1b5e9c">{heading}</text>',
    ]
    for number, text in enumerate(lines):
        parts.append(f'<text x="{left + 12}" y="{top + 41 + 18 * number}" font-family="monospace" font-size="12">{text}</text>')
    return parts


def group_arrow(upper, lower, lane, is_over):
    """Straight down in one column, or round its outer side where that is over a box; else by a lane between the columns."""
    high, low = upper[1] + 0.72 * upper[3], lower[1] + 0.3 * lower[3]
    if is_over:
        side, outer = (upper[0] + COLUMN, 10) if upper[0] > MARGIN else (upper[0], -10)
        points = [(side, high), (side + outer, high), (side + outer, low), (side, low)]
    elif lower[2] > COLUMN or upper[0] == lower[0]:
        middle = upper[0] + upper[2] / 2
        points = [(middle, upper[1] + upper[3]), (middle, lower[1])]
    else:
        start, end = (upper[0] + COLUMN, lower[0]) if upper[0] < lower[0] else (upper[0], lower[0] + COLUMN)
        between = MARGIN + COLUMN + GAP / 2 + 12 * (lane % 3 - 1)
        points = [(start, high), (between, high), (between, low), (end, low)]
    path = " ".join(f"{a:.0f},{b:.0f}" for a, b in points)
    return f'<polyline points="{path}" fill="none" stroke="#555555" stroke-width="1.6" marker-end="url(#555555)"/>'


def is_over(upper, lower, boxes):
    """Whether a third box lies between two of one column, or between one and the box that is as wide as both."""
    return (upper[0] == lower[0] or lower[2] > COLUMN) and any(box[0] == upper[0] and upper[1] < box[1] < lower[1] for box in boxes)


def crates_picture():
    groups, stands_on = read_groups()
    boxes, height = place(groups, stands_on)
    width = 2 * MARGIN + 2 * COLUMN + GAP
    parts = [
        f'<svg xmlns="http://www.w3.org/2000/svg" viewBox="0 0 {width} {height}" font-family="sans-serif" font-size="14">',
        f'<rect width="{width}" height="{height}" fill="white"/>',
        "<defs>" + head("#555555") + "</defs>",
    ]
    arrows = []
    for upper, lowers in stands_on.items():
        over_others = set().union(*(ways(stands_on, lower) for lower in lowers))
        arrows += [(boxes[upper], boxes[lower]) for lower in groups if lower in lowers - over_others]
    across = [arrow for arrow in arrows if arrow[0][0] != arrow[1][0] and arrow[1][2] == COLUMN]
    for upper, lower in arrows:
        lane = across.index((upper, lower)) if (upper, lower) in across else 0
        parts.append(group_arrow(upper, lower, lane, is_over(upper, lower, boxes.values())))
    for heading, box in boxes.items():
        parts += group_box(heading, box)
    return "\n".join([*parts, "</svg>"]) + "\n"


if __name__ == "__main__":
    (DOCS / "port.svg").write_text(picture())
    (DOCS / "crates.svg").write_text(crates_picture())
