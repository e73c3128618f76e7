#!/usr/bin/env python3
"""Holds docs/network.schema.json to the examples, to the cases of tests/ and to a list of small faults.

Each example names the schema in its first line. A file that the program accepts, or refuses only for what no schema can
tell, must be valid; a file with a fault that a schema can tell must not be. Needs Python 3.11 with jsonschema (Debian:
python3-jsonschema); without it nothing is tried, and it says so.
"""

import json
import pathlib
import re
import sys

try:
    import tomllib

    import jsonschema
except ImportError as missing:
    print(f"schema: not tried here, since {missing.name} is missing")
    sys.exit(0)

TOP = pathlib.Path(__file__).resolve().parent.parent
SCHEMA = json.loads((TOP / "docs/network.schema.json").read_text())
CHECK = jsonschema.Draft202012Validator(SCHEMA)

SERVER = '[[server]]\nname = "s1"\nrate = 100\n'
FLOW = '[[flow]]\nname = "f1"\npacket = 12000\narrival = { kind = "bucket", burst = 12000, rate = 10 }\npath = ["s1"]\n'

# Faults that a schema can tell: what is wrong, and the file.
FAULTS = {
    "M2, a server without a rate": '[[server]]\nname = "s1"\n',
    "M2, a gate without a slot": SERVER + 'service = { kind = "gate", cycle = 10 }\n',
    "M2, a priority server without queues": SERVER + 'discipline = "priority"\n',
    "M2, a flow without a path": FLOW.replace('path = ["s1"]\n', ""),
    "M3, a key that no server has": SERVER + "speed = 3\n",
    "M3, queues at a first in, first out server": SERVER + "queues = 2\n",
    "M3, quanta at a priority server": SERVER + 'discipline = "priority"\nqueues = 2\nquanta = [1000]\n',
    "M3, a burst of a stair": FLOW.replace('kind = "bucket", burst', 'kind = "stair", period = 4, burst'),
    "M4, a float (a schema takes 100.0 for an integer)": SERVER.replace("100", "100.5"),
    "M4, one table for an array": SERVER.replace("[[server]]", "[server]"),
    "M5, a denominator 0": SERVER.replace("100", '"1/0"'),
    "M5, a decimal point": SERVER.replace("100", '"1.5"'),
    "M5, a path entry without digits": SERVER + FLOW.replace('"s1"]', '"s1:"]'),
    "M6, a rate of 0": SERVER.replace("100", "0"),
    "M6, a negative link": SERVER + "link = -1\n",
    "M6, a packet of 2^24 + 1": FLOW.replace("packet = 12000", "packet = 16777217"),
    "M6, nine queues": SERVER + 'discipline = "priority"\nqueues = 9\n',
    "M6, a word that is no discipline": SERVER + 'discipline = "edf"\n',
    "M6, a name with a space": SERVER.replace("s1", "s 1"),
    "M6, another version": "version = 7\n",
    "M6, an empty path": FLOW.replace('["s1"]', "[]"),
    "M9 negative, a latency": SERVER + 'service = { kind = "latency", latency = -1 }\n',
    "M9 zero-period, a stair": FLOW.replace('"bucket", burst = 12000, rate = 10', '"stair", period = 0'),
    "M10, the same entry twice": SERVER + FLOW.replace('["s1"]', '["s1", "s1"]'),
    "M11, 65 servers": "".join(SERVER.replace("s1", f"s{number}") for number in range(65)),
    "M11, 65 pieces": FLOW.replace(
        '"bucket", burst = 12000, rate = 10',
        '"list", piece = [' + ", ".join(f"{{ x = {x}, at = {x} }}" for x in range(65)) + "]",
    ),
}

# Files that no schema can refuse, for the rules that stand between tables.
ACCEPTED = {
    "nothing at all": "",
    "one flow": SERVER + FLOW,
    "numbers as strings": SERVER.replace("100", '"201/2"')
    + 'link = "0/5"\nservice = { kind = "latency", latency = "-0" }\n',
    "M7, a name twice": SERVER + SERVER,
    "M8, an unknown server": FLOW,
    "M10, a server twice, with and without its queue": SERVER + FLOW.replace('["s1"]', '["s1", "s1:0"]'),
}


def is_told(line):
    """Whether a refusal of the program is one that a schema can tell; None where the writing of the file decides."""
    told = re.match(r"netcalc: \S+: (M\d+)(?: (\S+))?(?: (\S+))?", line)
    if not told:
        return False
    rule, place, cause = told.groups()
    if rule == "M10":
        return None
    if rule == "M6":
        return ".path[" not in place
    if rule == "M9":
        return cause in ("negative", "zero-period")
    return rule in ("M2", "M3", "M4", "M5", "M11")


def main():
    failed = 0
    tried = 0

    def hold(what, text, wanted):
        nonlocal failed, tried
        tried += 1
        if CHECK.is_valid(tomllib.loads(text)) != wanted:
            failed += 1
            print(f"schema: {what}: {'refused' if wanted else 'accepted'}", file=sys.stderr)

    for path in sorted(TOP.glob("examples/**/*.toml")):
        text = path.read_text()
        hold(path.relative_to(TOP), text, True)
        named = re.match("#:schema (.*)\n", text)
        if not named or (path.parent / named[1]).resolve() != TOP / "docs/network.schema.json":
            failed += 1
            print(f"schema: {path.relative_to(TOP)}: its first line does not name the schema", file=sys.stderr)
    for path in sorted(TOP.glob("tests/*/*/*.toml")):
        try:
            tomllib.loads(path.read_text())
        except (tomllib.TOMLDecodeError, UnicodeDecodeError):
            continue
        answer = (path.parent / "stdout").read_text()
        told = is_told(answer)
        if told is not None:
            hold(path.relative_to(TOP), path.read_text(), not told)
    for what, text in FAULTS.items():
        hold(what, text, False)
    for what, text in ACCEPTED.items():
        hold(what, text, True)
    print(f"schema: {tried - failed} passed, {failed} failed")
    return 1 if failed else 0


if __name__ == "__main__":
    sys.exit(main())
