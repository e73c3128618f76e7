"""Network files as Python values, their text, and the program's answers: what the tools beside it share. Needs Python
3.11."""

import datetime
import functools
import hashlib
import io
import json
import os
import pathlib
import re
import subprocess
import sys
import tomllib
from fractions import Fraction

TOP = pathlib.Path(__file__).resolve().parent.parent
PROGRAM = TOP / "netcalc"
NAME = re.compile(r"[A-Za-z0-9_-]{1,32}")
DEEPEST = 160  # keys and arrays in one another, of which the program takes 80 of each
LARGEST = 2**127 - 1  # no numerator and no denominator of a network file is above
NUMBER = re.compile(r"-?[0-9]+(/[0-9]+)?")
TEXT = {"encoding": "utf-8", "errors": "surrogateescape"}  # of what is read and written, whatever the locale is
KINDS = {list: "an array", str: "a text", int: "an integer", dict: "a table"}


class Fault(Exception):
    """What is wrong with a file, in words for its writer."""


def number(value):
    """A number of a network file, an integer or a text "p" or "p/q", as a Fraction; a Fault where it is none."""
    if isinstance(value, Fraction):
        return value
    if isinstance(value, float):
        raise Fault(f'{value} is a float, which is not exact: write "p/q"')
    if isinstance(value, int) and not isinstance(value, bool):
        return Fraction(value)
    if not isinstance(value, str) or not NUMBER.fullmatch(value):
        raise Fault(f'{value!r} is no number: write an integer, or a text "p" or "p/q"')
    parts = [part.lstrip("-0") or "0" for part in value.split("/")]
    if any(len(part) > 39 or int(part) > LARGEST for part in parts):
        raise Fault(f"{shortened(value)} is above 2^127 - 1")
    if parts[1:] == ["0"]:
        raise Fault(f"{shortened(value)} has the denominator 0")
    return Fraction(int(parts[0]) * (-1 if value[0] == "-" else 1), int(parts[1]) if parts[1:] else 1)


def shortened(text):
    """A text that is not too long to be told."""
    return text if len(text) <= 60 else f"{text[:40]}.. ({len(text)} characters)"


def written(value):
    """A Fraction as a network file writes it: an integer of 64 bits where it is one, else a text; a Fault where it does
    not fit."""
    value = Fraction(value)
    if max(abs(value.numerator), value.denominator) > LARGEST:
        raise Fault("a number would be above 2^127 - 1")
    if value.denominator == 1 and abs(value.numerator) < 2**63:
        return value.numerator
    return str(value)


def text_in(path):
    """The text of a file in UTF-8; a Fault with the line where it is not."""
    data = pathlib.Path(path).read_bytes()
    try:
        return data.decode("utf-8-sig")
    except UnicodeDecodeError as fault:
        line = data[: fault.start].count(b"\n") + 1
        raise Fault(f"{path} line {line}: byte {data[fault.start]:#04x} is not UTF-8: save the file as UTF-8") from None


def value_of_json(text):
    """The value of a text in JSON; a ValueError where it is none, or has half a sign, which no text of a file has."""
    try:
        value = json.loads(text)
        json.dumps(value, ensure_ascii=False).encode(**TEXT)
    except RecursionError:
        raise ValueError("it is nested too deep") from None
    return value


def load(path):
    """The tables of a network file, with a name for each server and flow; a Fault where it is no TOML or no network at
    all."""
    try:
        network = tomllib.loads(text_in(path))
    except (tomllib.TOMLDecodeError, RecursionError) as fault:
        raise Fault(f"{path}: no TOML: {fault}") from None
    except ValueError:
        # What Python says of digits that are too many for it: thousands.
        raise Fault(f"{path}: an integer is above 2^127 - 1") from None
    try:
        hold_values(network, "")
        for kind in ("server", "flow"):
            for place, table in enumerate(member(network, "", kind, list, [])):
                if not isinstance(table, dict):
                    raise Fault(f"{kind}[{place}] is not a table")
                member(table, f"{kind}[{place}].", "name", str)
    except Fault as fault:
        raise Fault(f"{path}: {fault}") from None
    return network


def hold_values(value, place, depth=0):
    """Refuses a value of a kind that no network file has."""
    if depth > DEEPEST:
        raise Fault(f"a value is nested more than {DEEPEST} deep, which no network file has")
    if isinstance(value, float):
        raise Fault(f'{place}: {value} is a float, which is not exact: write "p/q"')
    if isinstance(value, int) and abs(value) > LARGEST:
        raise Fault(f"{place}: an integer is above 2^127 - 1")
    if isinstance(value, (datetime.date, datetime.time)):
        raise Fault(f"{place}: no value of a network file is a date or a time")
    if isinstance(value, dict):
        for key, entry in value.items():
            hold_values(entry, f"{place}.{key}" if place else key, depth + 1)
    if isinstance(value, list):
        for number_of_entry, entry in enumerate(value):
            hold_values(entry, f"{place}[{number_of_entry}]", depth + 1)


def member(table, place, key, kind, without=None):
    """The value of a table's key, which has to be of a kind; a Fault where it is not, or is missing with nothing to
    stand for it."""
    value = table.get(key, without)
    if value is None:
        raise Fault(f"{place}{key} is missing")
    if not isinstance(value, kind):
        raise Fault(f"{place}{key} is not {KINDS[kind]}")
    return value


def quoted(text):
    """A text as TOML writes it in a line."""
    escapes = {'"': '\\"', "\\": "\\\\"}
    return (
        '"' + "".join(escapes.get(sign, sign if sign.isprintable() else f"\\U{ord(sign):08X}") for sign in text) + '"'
    )


def text_of(value):
    """A value as TOML writes it in a line."""
    if isinstance(value, bool):
        return "true" if value else "false"
    if isinstance(value, int):
        return str(value)
    if isinstance(value, str):
        return quoted(value)
    if isinstance(value, list):
        return "[" + ", ".join(text_of(entry) for entry in value) + "]"
    return "{ " + ", ".join(f"{key_of(key)} = {text_of(entry)}" for key, entry in value.items()) + " }"


def key_of(key):
    """A key as TOML writes it."""
    return key if re.fullmatch(r"[A-Za-z0-9_-]+", key) else quoted(key)


def dump(network, head=""):
    """The text of a network file: a comment, and a block of lines for each server and flow."""
    lines = ["# " + "".join(sign if sign.isprintable() else "?" for sign in line) for line in head.splitlines()]
    others = {key: value for key, value in network.items() if key not in ("server", "flow")}
    if others:
        lines += ["", *(f"{key_of(key)} = {text_of(value)}" for key, value in others.items())]
    for kind in ("server", "flow"):
        for table in network.get(kind, []):
            lines += ["", f"[[{kind}]]"]
            lines += [f"{key_of(key)} = {text_of(value)}" for key, value in table.items()]
    return "\n".join(lines).lstrip("\n") + "\n"


class Answer:
    """What a run of the program says: its status, its text, and the numbers of a report, None for `unbounded`."""

    def __init__(self, status, text):
        self.status = status
        self.text = text
        self.flows = {}
        self.queues = {}
        for line in text.splitlines() if status == 0 else []:
            words = line.split()
            if words[0] == "flow":
                self.flows[words[1]] = {
                    key: bound(words[place]) for key, place in (("tfa", 3), ("sfa", 5), ("bound", 7))
                }
            if words[0] == "queue":
                self.queues[words[1], int(words[2])] = {"delay": bound(words[4]), "backlog": bound(words[6])}


def bound(word):
    """A number of a report, or None for `unbounded`."""
    return None if word == "unbounded" else Fraction(word)


@functools.lru_cache(None)
def the_program(program):
    """The program that runs behind a name: of the launcher the one that it would run, built where it has to be, so that
    each call does not look at all sources again; another program is itself."""
    if pathlib.Path(program).resolve() != PROGRAM.resolve():
        return str(program)
    run = subprocess.run([str(program), "--program"], stdout=subprocess.PIPE, check=False)
    if run.returncode:
        raise Fault(f"{program} has no program to run")
    return os.fsdecode(run.stdout.removesuffix(b"\n"))


def analyse(path, program=PROGRAM, seconds=None):
    """The answer of `netcalc analyse PATH`; subprocess.TimeoutExpired where it takes longer than `seconds`."""
    words = [the_program(program), "analyse", str(path)]
    run = subprocess.run(words, capture_output=True, **TEXT, timeout=seconds, check=False)
    return Answer(run.returncode, run.stdout)


def cell(text):
    """A text as a cell of a table: with a `'` before it where a spreadsheet would take it for a formula and run it. A
    number stays as it is."""
    text = str(text)
    # Some spreadsheets take the wide signs for the narrow ones.
    is_formula = text.lstrip()[:1] in tuple("=+-@＝＋－＠") or text[:1] in ("\t", "\r")
    return f"'{text}" if is_formula and not re.fullmatch("-?[0-9]+([./][0-9]+)?", text) else text


def hold_picture(path):
    """Refuses a picture of another kind than these two, before it is drawn."""
    if not str(path).endswith((".svg", ".png")):
        raise Fault(f"{path}: a picture ends with .svg or .png")


def mark_of(program):
    """What stands for a program in a journal: a hash of its file."""
    return hashlib.sha256(pathlib.Path(program).read_bytes()).hexdigest()


def ended(tool, main):
    """Ends a tool with the status of its `main`, or with 1 and a line on the standard error that says why."""
    for stream in (sys.stdout, sys.stderr):
        # Names of files need not be UTF-8: they are written as they are.
        if isinstance(stream, io.TextIOWrapper):
            stream.reconfigure(**TEXT)
    try:
        status = main()
        sys.stdout.flush()
    except BrokenPipeError:
        # Whoever reads the output has gone: so that nothing more is written to it at the end.
        os.dup2(os.open(os.devnull, os.O_WRONLY), sys.stdout.fileno())
        status = 1
    except (Fault, OSError) as fault:
        told = f"{fault.filename}: {fault.strerror}" if isinstance(fault, OSError) and fault.filename else fault
        print(f"{tool}: {told}", file=sys.stderr)
        status = 1
    except KeyboardInterrupt:
        print(f"{tool}: stopped", file=sys.stderr)
        status = 130
    sys.exit(status)
