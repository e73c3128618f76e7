#!/usr/bin/env python3
"""Says what a refusal of netcalc means: the file, the line and the name that its place means, the rule in words, and
how to mend it.

    ./netcalc explain analyse NET        runs the words behind it, and explains what is refused
    ./netcalc analyse NET | ./netcalc explain
                                         explains the refusal that it reads

What netcalc prints goes on to the standard output as it is, the words to the standard error, and of words that were run
the status is that of netcalc. The rules and how to mend them are read in docs/FORMATS.md and docs/CALCULATOR.md, so
they stand in one place. Read alone, a refusal names its file or none: then the line is known of a file that is there.
Rows of an edit list that were refused are explained too."""

import csv
import difflib
import io
import math
import pathlib
import re
import subprocess
import sys
import tomllib
from fractions import Fraction

from networks import PROGRAM, TOP, Fault, ended, number, shortened, the_program
from places import Places

FORMATS, CALCULATOR = TOP / "docs/FORMATS.md", TOP / "docs/CALCULATOR.md"
CELLS = (
    "in|cross|total|higher|queue-service|theta|residual|queue-delay|queue-backlog|hop-delay|shift-out|deconv-out|out"
)
CELL = re.compile(rf"({CELLS}|path-service|tfa|sfa|bound) (\S+)(?: ([0-9]+))?")
READS = {  # the files that the words name, by what is told of them
    "analyse": ["network"],
    "edit": ["network", "rows"],
    "simulate": ["network", "rows"],
    "check": ["network", "rows"],
    "measure": ["network", "rows"],
    "curve": ["script"],
}


def tables(path):
    """The rows of all tables of a page, each with the cells of its head; a sign for code is no part of a cell."""
    head = None
    for line in path.read_text(encoding="utf-8").splitlines():
        cells = [cell.strip() for cell in line.strip().strip("|").split("|")] if line.startswith("|") else None
        if cells is None or head is None:
            head = cells
        elif not set(line) <= set("|- "):
            yield tuple(head), cells


def sentences():
    """What each code or word of a refusal means, and how to mend it, by the code."""
    heads = {
        ("Fault", "What it means", "How to mend it"),
        ("Cause of M9", "What it means", "How to mend it"),
        ("Fault", "What is wrong", "To mend it"),
        ("Refusal", "What it means", "How to mend it"),
        ("After `edit N`", "Says", "To mend it"),
        ("Law", "Is broken by", "Usual cause"),
    }
    found = {}
    for head, cells in [*tables(CALCULATOR), *tables(FORMATS)]:
        if head in heads:
            for code in re.findall("`([^`]*)`", cells[0]) or [cells[0]]:
                found[re.sub(r" (CELL|NAMES?|C)$", "", code)] = cells[1], cells[2]
        elif head == ("Word", "After it", "Is"):
            for code in re.findall("`([^`]*)`", cells[0]):
                found[f"cell {code}"] = cells[2], cells[1]
    return found


class Files:
    """The files that a refusal may mean, as they are read for its line; what cannot be read is none."""

    def __init__(self, words):
        kinds = READS.get(words[0], []) if words else []
        operands = [word for word in words[1:] if word != "--json"]
        self.names = dict(zip(kinds, operands))
        self.rows_are_edits = bool(words) and words[0] == "edit"
        self.made = None

    def name(self, kind, told=None):
        """The name of a file: that of the words, else the one that the refusal tells."""
        return self.names.get(kind) or told

    def text(self, name):
        """The text of a file; None where it cannot be read."""
        try:
            return pathlib.Path(name).read_bytes().decode("utf-8", "replace") if name else None
        except (OSError, ValueError):
            return None

    def places(self, told=None):
        """The places of the network's file."""
        if self.made is None:
            self.made = Places(self.text(self.name("network", told)) or "")
        return self.made


def shown_line(text, line):
    """A line of a file, as it stands there, not too long to be shown."""
    lines = (text or "").splitlines()
    if line is None or not 1 <= line <= len(lines):
        return []
    found = "".join(sign if sign.isprintable() else "?" for sign in lines[line - 1]).strip()
    return [f"    {found if len(found) <= 100 else found[:97] + '..'}"]


def near(name, names):
    """A hint at a name that is alike."""
    alike = difflib.get_close_matches(name, names, 1, 0.5)
    return f" (is it `{alike[0]}`?)" if alike else ""


def names_of(places, kind):
    """The names of all servers, or of all flows, of a file."""
    return [text for place, text in places.texts.items() if re.fullmatch(rf"{kind}\[[0-9]+\]\.name", place)]


def rule(code, known, hint=""):
    """The lines of a rule in words and how to mend it; none of a code that there is not."""
    if code not in known:
        return []
    means, mend = known[code]
    return [f"  {code}: {means}", f"  to mend it: {mend}{hint}"] if mend else [f"  {code}: {means}"]


def no_toml(text):
    """Why a text is no TOML, with line and column as the reader of TOML tells them."""
    if "\ufffd" in text:
        return f"line {text[: text.index(chr(0xFFFD))].count(chr(10)) + 1} has bytes that are not UTF-8"
    try:
        tomllib.loads(text)
    except (tomllib.TOMLDecodeError, RecursionError, ValueError) as fault:
        return str(fault) or "brackets are nested too deep"
    for place, found in Places(text).texts.items():
        if re.fullmatch("[-+]?[0-9_]{19,}", found) and not -(2**63) <= int(found) < 2**63:
            return f"line {Places(text).line(place)}: {place} has more than 64 bits"
    return "a reader of TOML 1.0 takes it: look for brackets or dotted keys more than 80 deep"


def of_network(name, code, place, cause, files, known):
    """The explanation of a fault of a network's file."""
    text = files.text(name) or ""
    if code == "M1":
        return [f"{name}: {no_toml(text)}", *rule(code, known)]
    if not place:  # netcalc names one
        return []
    places = files.places(name)
    line, owner = places.line(place), places.owner(place)
    where = f"{name} line {line}" if line else name
    about = re.sub(r"^(server|flow)\[[0-9]+\]\.?", "", place) if owner else place
    hint = ""
    if code == "M8":
        hint = near(places.texts.get(place, "").partition(":")[0], names_of(places, "server"))
    if code == "M3":
        kind = re.match("(server|flow)?", place)[0]
        hint = near(place.rpartition(".")[2], KEYS[kind])
    lines = [f"{where}: {', '.join(word for word in (owner, about) if word)}", *shown_line(text, line)]
    if cause in known:
        return lines + rule(code, known)[:1] + rule(cause, known)
    return lines + rule(code, known, hint)


KEYS = {  # of tables, for a key that is misspelt
    "": ["version", "server", "flow"],
    "server": "name rate service link discipline queues quanta kind latency cycle slot piece tail".split(),
    "flow": "name packet arrival path kind burst rate period jitter piece tail close".split(),
}


def line_of_row(text, row):
    """The line of a row, counted from 1 without empty lines, and its cells; None where it has no such row."""
    reader = csv.reader(io.StringIO(text.removeprefix("\ufeff"), newline=""))
    count = 0
    try:
        for cells in reader:
            count += bool(cells)
            if count == row and cells:
                return reader.line_num, cells
    except csv.Error:
        pass
    return None, []


def of_row(name, code, row, files, known):
    """The explanation of a fault of a row."""
    text = files.text(name) or ""
    line, cells = line_of_row(text, row)
    hint = ""
    if code == "T5" and len(cells) > 2:
        named = [names_of(files.places(), kind) for kind in ("server", "flow")]
        hint = next((told for cell in cells[1:4] if (told := near(cell, named[0] + named[1]))), "")
        hint = "" if any(cell in named[0] + named[1] for cell in cells[1:4]) else hint
    return [f"{name} {f'line {line}' if line else f'row {row}'}", *shown_line(text, line), *rule(code, known, hint)]


def known_at(places, kind, name, told):
    """The words for a server or flow, with its line in the file where that is there."""
    line = places.line(places.named(kind, name) or "")
    return f"{kind} {name}" + (f" ({told} line {line})" if line and told else "")


def periods_at(places, server):
    """The line that tells the periods of the stairs that pass a server, the shortest first, and when they repeat
    together; none where there are not two."""
    periods = set()
    for place, text in places.texts.items():
        found = re.fullmatch(r"(flow\[[0-9]+\])\.path\[[0-9]+\]", place)
        if found and text.partition(":")[0] == server:
            try:
                periods.add(number(places.texts.get(f"{found[1]}.arrival.period", "")))
            except Fault:
                pass  # no stair
    if len(periods) < 2 or min(periods) <= 0:
        return []
    common = math.lcm(*(period.denominator for period in periods))
    together = Fraction(math.lcm(*(int(period * common) for period in periods)), common)
    told = ", ".join(map(str, sorted(periods)[:8])) + (", .." if len(periods) > 8 else "")
    return [f"    periods of the stairs at {server}: {told}; together after {shortened(str(together))}"]


def of_cell(why, cell, files, known):
    """The explanation of a cell that is over a limit."""
    word, name, place = cell.groups()
    means, after = known[f"cell {word}"]
    told, places = files.name("network"), files.places()
    server = name
    if after == "server, queue":
        where = f"queue {place} of {known_at(places, 'server', name, told)}"
    else:
        where = known_at(places, "flow", name, told)
        hop = places.texts.get(f"{places.named('flow', name)}.path[{place}]") if place else None
        where += f", hop {place}" if place else ""
        server = hop.partition(":")[0] if hop else ""
        where += f": {known_at(places, 'server', server, told)}" if hop else ""
    periods = periods_at(places, server) if why == "too many" else []
    return [where, *periods, f"  {word}: {means}", *rule(why, known)]


def of_cycle(names, files, known):
    """The explanation of a cycle: a flow for each of its steps."""
    places, told = files.places(), files.name("network")
    lines = [f"{told or 'the network'}: the paths go round over {' '.join(names)}"]
    paths = {}
    for place, text in places.texts.items():
        if found := re.fullmatch(r"(flow\[[0-9]+\])\.path\[[0-9]+\]", place):
            paths.setdefault(found[1], []).append(text.partition(":")[0])
    for before, after in zip(names, names[1:]):
        for place, hops in paths.items():
            if (before, after) in zip(hops, hops[1:]):
                line = places.line(f"{place}.path")
                lines.append(f"    {before} to {after}: {places.owner(place)}, line {line}")
                break
    return lines + rule("cycle", known)


def of_edit(row, why, files, known):
    """The explanation of a row of an edit list that was refused."""
    word, _, rest = why.partition(" ")
    name = files.name("rows")
    text = files.text(name) or ""
    line, _ = line_of_row(text, int(row))
    lines = [f"{name or 'the edit list'} {f'line {line}' if line else f'row {row}'}", *shown_line(text, line)]
    if word in ("too-many", "too-wide") and (cell := CELL.fullmatch(rest)):
        return [lines[0], *lines[1:], *of_cell(word.replace("-", " "), cell, files, known)]
    places = files.places()
    hint = near(rest, names_of(places, "server") + names_of(places, "flow")) if word == "unknown-name" else ""
    return lines + rule(f"refused {word}", known, hint)


def of_limit(why, what, files, known):
    """The explanation of a curve, a cell or another thing that is over a limit."""
    if found := re.fullmatch("curve (.+)", what):
        places, told = files.places(), files.name("network")
        line, owner = places.line(found[1]), places.owner(found[1])
        where = f"{told} line {line}" if told and line else (told or "the network")
        return [f"{where}: {owner or found[1]}", *rule(f"{why}: curve", known)]
    if found := re.fullmatch("line ([0-9]{1,9})", what):
        name = files.name("script")
        line = int(found[1])
        return [
            f"{name or 'the script'} line {line}",
            *shown_line(files.text(name), line),
            *rule(f"{why}: line", known),
        ]
    if cell := CELL.fullmatch(what):
        return of_cell(why, cell, files, known)
    return rule(f"{why}: {what}", known) if f"{why}: {what}" in known else []


def explanation(line, files, known):
    """The lines that explain a line of netcalc; none where it refuses nothing."""
    told = line.removeprefix("netcalc: ")
    if found := re.fullmatch(r"edit ([0-9]{1,9}) refused (.+)", line):
        return of_edit(found[1], found[2], files, known)
    if found := re.fullmatch(r"verdict unlawful row ([0-9]{1,9}) (L[0-9])", line):
        return of_row(files.name("rows") or "the recorded run", found[2], int(found[1]), files, known)
    if told == line:
        return []
    if found := re.fullmatch(r"(too many|too wide): (.+)", told):
        return of_limit(found[1], found[2], files, known)
    if found := re.fullmatch(r"cycle (.+)", told):
        return of_cycle(found[1].split(" "), files, known)
    if found := re.fullmatch(r"(cannot read|unknown flow) (.+)", told):
        hint = near(found[2], names_of(files.places(), "flow")) if found[1] == "unknown flow" else ""
        return [found[2], *rule(found[1], known, hint)]
    if found := re.fullmatch(r"(.+): (M[0-9]+)(?: (\S+)(?: (\S+))?)?", told):
        return of_network(*found.groups(), files, known)
    if found := re.fullmatch(r"(.+): (T[0-9]) row ([0-9]{1,9})", told):
        return of_row(found[1], found[2], int(found[3]), files, known)
    if found := re.fullmatch(r"(.+): (C[0-9]) line ([0-9]{1,9})", told):
        place = int(found[3])
        return [f"{found[1]} line {place}", *shown_line(files.text(found[1]), place), *rule(found[2], known)]
    if found := re.fullmatch(r"(.+): too long", told):
        return [found[1], *rule("too long", known)]
    return []


def explain(text, words):
    """The lines that explain what netcalc printed for some words."""
    files, known = Files(words), sentences()
    lines = [line for told in text.splitlines() for line in explanation(told, files, known)]
    return [line.replace("`", "'") if line.startswith("  ") else line for line in lines]


def hand_on(data):
    """Writes what the program printed, byte for byte."""
    sys.stdout.buffer.write(data)
    sys.stdout.flush()


def main():
    words = sys.argv[1:]
    if words in (["--help"], ["-h"]):
        print(__doc__)
        return 0
    status = 0
    if words[:1] == ["--told"]:
        words, data = words[1:], sys.stdin.buffer.read()
    elif words:
        run = subprocess.run([the_program(PROGRAM), *words], stdout=subprocess.PIPE, check=False)
        status, data = run.returncode, run.stdout
        hand_on(data)
    else:
        data = sys.stdin.buffer.read()
        hand_on(data)
    for line in explain(data.decode("utf-8", "replace"), words):
        print(line, file=sys.stderr)
    return status


if __name__ == "__main__":
    ended("explain", main)
