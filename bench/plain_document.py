#!/usr/bin/env python3
"""What netbound answers, plainly: reads two tables, bounds the network by plain_stairs.py, and prints the same lines
with the same status.

Nothing here is shared with the program but the rules. Each number is read exactly, and rounded to its safe side: what a
port does down, what arrives and how long it takes up.

    python3 bench/plain_document.py PORTS.csv LINKS.csv [--overhead N] [--json]
"""

import json
import re
import sys
from fractions import Fraction

import plain_bounds
import plain_stairs
from plain_bounds import GRAINS, own_service, queue_count, up

MOST_BYTES = 1 << 24
PICOSECONDS = 10**6
PORT_COLUMNS = ["name", "rate", "latency", "link", "discipline"]
LINK_COLUMNS = ["name", "bag", "largest_frame", "jitter", "priority", "path"]
BLANKS = " \t\n\r\x0c"
NAME = re.compile(r"[A-Za-z0-9_-]{1,32}\Z", re.ASCII)
DIGITS = re.compile(r"[0-9]{1,18}\Z", re.ASCII)

MENDS = {
    "name": "write 1 to 32 letters, digits, _ or -",
    "rate": "write Mbit/s, from 0.000001 to 1000000",
    "discipline": "write fifo, priority N (1 to 8) or drr Q0 Q1 .. (1 to 8 quanta of 1 to 2097152 bytes)",
    "gate": "write CYCLE SLOT in microseconds, the slot from 0.000001 to the cycle, the cycle to 1000000000",
    "bag": "write milliseconds, from 0.000000001 to 1000000",
    "largest_frame": "write bytes, a whole number from 1 to 1048576",
    "priority": "write a whole number from 0 to 7",
    "path": "write 1 to 64 names of ports with spaces between them",
}
TIME_MEND = "write microseconds, from 0 to 1000000000"
OWN_MENDS = {
    "the head line lacks it": "add the column",
    "the head line has it twice": "keep one",
    "more cells than the head line": "put a cell with a comma into double quotes",
    "one row too many": "write at most 4096 ports and 131072 branches",
    "one link too many": "write at most 16384 links",
    "an earlier row has this name": "give each port a name of its own",
    "no number": "write a number as 12, 1.5 or 3/2, of at most 18 digits in all, or on each side of the slash",
    "no whole number of picoseconds": "write microseconds with at most 6 digits behind the point",
    "another one than in the first row of the link": "write the same in each row of the link",
    "has no row in the table of ports": "write a name of the table of ports",
    "stands in the path before": "pass each port once",
    "has no queue of this priority": "write a lower priority, or give the port more queues",
    "has a quantum shorter than the frame": "make the quantum as long as the frame with the overhead",
    "begins at another port than the link": "begin the paths of a link at one port",
    "comes after another port than in an earlier path": "let it come after one port in all paths of the link",
}


class Fault(Exception):
    """A line that ends the call, and its status."""

    def __init__(self, text, status=1):
        super().__init__(text)
        self.status = status


class Wrong(Exception):
    """What is wrong with a cell: its column, what, and the number of a port of a path or None."""


def wrong(column, what, port=None):
    return Wrong(column, what, port)


def told(file, line, fault):
    column, what, port = fault.args
    mend = OWN_MENDS.get(what) or MENDS.get(column, TIME_MEND)
    at = f"port {port} " if port else ""
    return Fault(f"{file} line {line} column {column}: {at}{what}: {mend}")


# ---- rows
def records(text):
    """The rows of a table with the lines on which they begin. A doubled quote in quotes is one."""
    row, cell, line, began, place = [], [], 1, None, "start"
    for byte in text:
        if byte in "\r\n" and place != "quoted":
            if began:
                yield began, row + ["".join(cell)]
            row, cell, began, place = [], [], None, "start"
        else:
            began = began or line
            if byte == '"' and place != "plain":
                cell += ['"'] if place == "after" else []
                place = "after" if place == "quoted" else "quoted"
            elif byte == "," and place != "quoted":
                row, cell, place = row + ["".join(cell)], [], "start"
            else:
                cell.append(byte)
                place = "quoted" if place == "quoted" else "plain"
        line += byte == "\n"
    if began:
        yield began, row + ["".join(cell)]


def plain_records(text):
    """The same where nothing is quoted."""
    for number, line in enumerate(text.split("\n")):
        for part in line.split("\r"):
            if part:
                yield number + 1, part.split(",")


def rows_of(content):
    text = content.decode("latin-1")
    if content.startswith(b"\xef\xbb\xbf"):
        text = text[3:]
    found = records(text) if '"' in text else plain_records(text)
    rows = ((line, [cell.strip(BLANKS) for cell in row]) for line, row in found)
    return [(line, row) for line, row in rows if any(row)]


# ---- cells
def amount(text):
    """The number that a text writes, or None."""
    top, slash, bottom = text.partition("/")
    if slash:
        if not (DIGITS.match(top) and DIGITS.match(bottom)) or int(bottom) == 0:
            return None
        return Fraction(int(top), int(bottom))
    whole, _, after = text.partition(".")
    if not DIGITS.match(whole) or (after and not DIGITS.match(after)) or len(whole + after) > 18:
        return None
    return Fraction(int(whole + after), 10 ** len(after))


def number(cell, column):
    if not cell:
        raise wrong(column, "empty")
    found = amount(cell)
    if found is None:
        raise wrong(column, "no number")
    return found


def within(found, least, most, column):
    if found < least:
        raise wrong(column, "below the least")
    if found > most:
        raise wrong(column, "above the most")
    return found


def time(cell, column):
    return within(number(cell, column), 0, 10**9, column)


def time_or_zero(cell, column):
    return time(cell, column) if cell else Fraction(0)


def link_time(cell):
    found = time_or_zero(cell, "link")
    if (found * PICOSECONDS).denominator != 1:
        raise wrong("link", "no whole number of picoseconds")
    return found


def whole(cell, least, most, column):
    if not cell:
        raise wrong(column, "empty")
    if not DIGITS.match(cell):
        raise wrong(column, "no whole number")
    return within(int(cell), least, most, column)


def words(cell):
    return [word for word in re.split(f"[{BLANKS}]+", cell) if word]


def is_whole(word, least, most):
    return bool(DIGITS.match(word)) and least <= int(word) <= most


def discipline(cell):
    kind, *rest = words(cell) or ["fifo"]
    if kind == "fifo" and not rest:
        return ("fifo",)
    if kind == "priority" and len(rest) == 1 and is_whole(rest[0], 1, 8):
        return ("priority", int(rest[0]))
    if kind == "drr" and 1 <= len(rest) <= 8 and all(is_whole(word, 1, 1 << 21) for word in rest):
        return ("drr", [int(word) * 8 for word in rest])
    raise wrong("discipline", "no discipline")


def gate(cell):
    found = words(cell)
    if not found:
        return None
    if len(found) != 2:
        raise wrong("gate", "no gate")
    cycle, slot = [time(word, "gate") for word in found]
    if slot * PICOSECONDS < 1:
        raise wrong("gate", "below the least")
    if slot > cycle:
        raise wrong("gate", "the slot is longer than the cycle")
    return up_to(cycle, PICOSECONDS), slot * PICOSECONDS // 1


def up_to(found, times):
    return -(-found * times // 1)


# ---- tables
def head_of(row, needed, optional):
    """Where each column stands."""
    found = {}
    for column in needed + [optional]:
        places = [place for place, word in enumerate(row) if word == column]
        if len(places) > 1:
            raise wrong(column, "the head line has it twice")
        if not places and column != optional:
            raise wrong(column, "the head line lacks it")
        found[column] = places[0] if places else None
    return found


def name_of(row, head, width):
    if len(row) > width:
        raise wrong("name", "more cells than the head line")
    name = row[head["name"]] if head["name"] < len(row) else ""
    if not name:
        raise wrong("name", "empty")
    if not NAME.match(name):
        raise wrong("name", "no name")
    return name


def table_of(file, content, needed, optional, add):
    """Reads a table: `add` takes the name of a row, then the rest of it."""
    rows = rows_of(content)
    if not rows:
        raise told(file, 1, wrong("name", "the head line lacks it"))
    line, first = rows[0]
    try:
        head = head_of(first, needed, optional)
        for line, row in rows[1:]:
            add(lambda: name_of(row, head, len(first)), lambda column: cell_of(row, head[column]))
    except Wrong as fault:
        raise told(file, line, fault) from None


def cell_of(row, place):
    return "" if place is None or place >= len(row) else row[place]


def read_ports(file, content):
    ports = {}

    def add(name_in, cell):
        if len(ports) >= 4096:
            raise wrong("name", "one row too many")
        name = name_in()
        if name in ports:
            raise wrong("name", "an earlier row has this name")
        rate = within(number(cell("rate"), "rate"), Fraction(1, 10**6), 10**6, "rate") * GRAINS * 10**6
        ports[name] = {
            "rate": rate // 1,
            "pace": up_to(rate, 1),
            "latency": up_to(time_or_zero(cell("latency"), "latency"), PICOSECONDS),
            "link": up_to(link_time(cell("link")), PICOSECONDS),
            "discipline": discipline(cell("discipline")),
            "gate": gate(cell("gate")),
        }

    table_of(file, content, PORT_COLUMNS, "gate", add)
    return ports


def path_of(cell, ports, priority, frame):
    """The ports of a path, by name, each with its queue."""
    found = words(cell)
    path = []
    for place, name in enumerate(found):
        if name not in ports:
            raise wrong("path", "has no row in the table of ports", place + 1)
        if any(name == port for port, _ in path):
            raise wrong("path", "stands in the path before", place + 1)
        port = ports[name]
        queue = 0 if queue_count(port) == 1 else priority
        if queue >= queue_count(port):
            raise wrong("path", "has no queue of this priority", place + 1)
        if port["discipline"][0] == "drr" and port["discipline"][1][queue] < frame:
            raise wrong("path", "has a quantum shorter than the frame", place + 1)
        path.append((name, queue))
    return path


def keys_of(cell):
    gap = within(number(cell("bag"), "bag"), Fraction(1, 10**9), 10**6, "bag")
    return {
        "bag": gap,
        "largest_frame": whole(cell("largest_frame"), 1, 1 << 20, "largest_frame"),
        "jitter": time_or_zero(cell("jitter"), "jitter"),
        "priority": whole(cell("priority") or "0", 0, 7, "priority"),
    }


def grow(link, path):
    """Puts a path into the link's tree: the ports with the one after which each comes."""
    after = link["after"]
    for place, (name, queue) in enumerate(path):
        before = path[place - 1][0] if place else None
        if place == 0 and after and name not in [port for port, (above, _) in after.items() if above is None]:
            raise wrong("path", "begins at another port than the link")
        if after.setdefault(name, (before, queue))[0] != before:
            raise wrong("path", "comes after another port than in an earlier path", place + 1)


def read_links(file, content, ports, overhead):
    links, branches = {}, []

    def add(name_in, cell):
        if len(branches) >= 131072:
            raise wrong("name", "one row too many")
        name = name_in()
        if name not in links and len(links) >= 16384:
            raise wrong("name", "one link too many")
        keys = keys_of(cell)
        if not words(cell("path")):
            raise wrong("path", "empty")
        if len(words(cell("path"))) > 64:
            raise wrong("path", "more than 64 ports")
        deadline = time(cell("deadline"), "deadline") if cell("deadline") else None
        link = links.setdefault(name, {"keys": keys, "after": {}})
        for column, value in keys.items():
            if link["keys"][column] != value:
                raise wrong(column, "another one than in the first row of the link")
        path = path_of(cell("path"), ports, keys["priority"], (keys["largest_frame"] + overhead) * 8)
        grow(link, path)
        branches.append((name, path[-1][0], deadline))

    table_of(file, content, LINK_COLUMNS, "deadline", add)
    return links, branches


def link_on_grid(link, numbers, overhead):
    places = {name: place for place, name in enumerate(link["after"])}
    keys = link["keys"]
    return {
        "frame": (keys["largest_frame"] + overhead) * 8,
        "gap": keys["bag"] * 10**9 // 1,
        "jitter": up_to(keys["jitter"], PICOSECONDS),
        "nodes": [(numbers[name], queue, places.get(above)) for name, (above, queue) in link["after"].items()],
    }


# ---- reports
def thousandths(found):
    return f"{found // 1000}.{found % 1000:03}"


def exact(deadline):
    """Three digits behind the point, or as many more as it takes, up to 18; else a fraction in lowest terms."""
    for digits in range(3, 19):
        tens = 10**digits
        if deadline * tens % 1 == 0:
            whole = int(deadline * tens)
            return f"{whole // tens}.{whole % tens:0{digits}}"
    return f"{deadline.numerator}/{deadline.denominator}"


def or_none(found, text):
    return "none" if found is None else text(found)


def microseconds(found):
    return thousandths(up(found, 1000))


def queue_rows(network, names, rows):
    nodes = plain_bounds.nodes_by_port(network)
    for s, name in enumerate(names):
        loads = plain_bounds.loads(network, s, nodes[s])
        for q, row in enumerate(rows[s]):
            delay, backlog = row or (None, None)
            yield {
                "name": name,
                "queue": q,
                "load": or_none(loads[q], thousandths),
                "delay": or_none(delay, microseconds),
                "backlog": or_none(backlog, str),
            }


def branch_rows(links, branches, bounds):
    numbers = {name: number for number, name in enumerate(links)}
    places = {name: {port: place for place, port in enumerate(link["after"])} for name, link in links.items()}
    for name, port, deadline in branches:
        bound = bounds[numbers[name]][places[name][port]]
        row = {"link": name, "port": port, "bound": or_none(bound, microseconds)}
        if deadline is not None:
            row["deadline"] = exact(deadline)
            row["met"] = bound is not None and bound <= deadline * PICOSECONDS
        yield row


def report_lines(counts, queues, branches):
    yield "ports {} links {} branches {}".format(*counts)
    for row in queues:
        yield "port {name} {queue} load {load} delay {delay} backlog {backlog}".format(**row)
    for row in branches:
        deadline = f" deadline {row['deadline']} {'met' if row['met'] else 'missed'}" if "met" in row else ""
        yield "branch {link} {port} bound {bound}".format(**row) + deadline


def network_of(ports, links, overhead):
    numbers = {name: number for number, name in enumerate(ports)}
    return {
        "ports": list(ports.values()),
        "links": [link_on_grid(link, numbers, overhead) for link in links.values()],
    }


def answer(files, contents, overhead, as_json):
    """The lines and the status."""
    for file, content in zip(files, contents):
        if len(content) > MOST_BYTES:
            raise Fault(f"{file}: too long")
    ports = read_ports(files[0], contents[0])
    links, branches = read_links(files[1], contents[1], ports, overhead)
    network = network_of(ports, links, overhead)
    try:
        rows, bounds = plain_stairs.table(network)
    except plain_bounds.Ring as found:
        walk = [list(ports)[port] for port in found.args[0]]
        raise Fault("cycle " + " ".join(walk), 8) from None
    queues = list(queue_rows(network, list(ports), rows))
    ends = list(branch_rows(links, branches, bounds))
    status = 9 if any(row.get("met") is False for row in ends) else 0
    if as_json:
        return [json.dumps({"branches": ends, "ports": queues}, sort_keys=True, separators=(",", ":"))], status
    return list(report_lines((len(ports), len(links), len(branches)), queues, ends)), status


def contents_of(files):
    for file in files:
        try:
            with open(file, "rb") as opened:
                yield opened.read()
        except OSError:
            raise Fault(f"cannot read {file}", 3) from None


def main(given):
    as_json = "--json" in given
    overhead, files = 20, [word for word in " ".join(given).replace("=", " ").split() if word != "--json"]
    if "--overhead" in files:
        at = files.index("--overhead")
        overhead = int(files[at + 1])
        del files[at : at + 2]
    try:
        lines, status = answer(files, list(contents_of(files)), overhead, as_json)
    except Fault as fault:
        lines, status = [f"netbound: {fault}"], fault.status
    print("\n".join(lines))
    return status


if __name__ == "__main__":
    sys.exit(main(sys.argv[1:]))
