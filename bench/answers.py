"""Whether what the program wrote is an answer, as docs/FORMATS.md and docs/CALCULATOR.md say what an answer is.

`fault(words, files, status, text)` tells what is wrong with an answer, and nothing where it is one: each report is read to its last line by the
form of its command, each refusal by the lines that its status has. Nothing is worked out but what lines say of each other: as many lines as the head
line counts, the lesser of two bounds, an answer for each statement of a script.
"""

import json
import re
from fractions import Fraction

USAGE = (
    "netcalc: usage: netcalc analyse NET [--json], edit NET EDITS [--json], simulate NET TRACE, exercise N, check NET RUN,"
    " measure NET TRACE FLOW RATE, curve FILE\n"
)
NAME = r"[A-Za-z0-9_-]{1,32}"
NUMBER = r"\d+(?:/\d+)?"
BOUND = rf"(?:{NUMBER}|unbounded)"
ANY = r"(?:-?\d+(?:/\d+)?|unbounded)"
CELL = (
    rf"(?:(?:in|cross|theta|residual|hop-delay|shift-out|deconv-out|out) {NAME} \d+"
    rf"|(?:total|higher|queue-service|queue-delay|queue-backlog) {NAME} \d|(?:path-service|tfa|sfa|bound) {NAME})"
)
CYCLE = rf"cycle(?: {NAME}){{2,}}"
HEAD = re.compile(r"servers (\d+) flows (\d+)")
QUEUE = re.compile(rf"queue ({NAME}) (\d) delay ({BOUND}) backlog ({BOUND})")
FLOW = re.compile(rf"flow ({NAME}) tfa ({BOUND}) sfa ({BOUND}) bound ({BOUND})")
EDIT = re.compile(
    rf"edit (\d+) (?:ok cells \d+|refused (?:unknown-name .*|name-taken {NAME}|bad-value|limit|{CYCLE}|too-many {CELL}|too-wide {CELL}|nothing-to-undo))"
)
RUN = re.compile(rf"run packets \d+ end {NUMBER}")
WORST = re.compile(rf"worst {NAME} {NUMBER} bound {BOUND}")
PEAK = re.compile(rf"peak ({NAME}) (\d) {NUMBER} bound {BOUND}")
BREACH = rf"breach (?:size {NAME} \d+|arrival {NAME} \d+ \d+|service {NAME} {NUMBER} {NUMBER})"
STEP = re.compile(rf"step ({NUMBER}) ({NUMBER})")
PIECE = re.compile(rf"piece {NUMBER} at {ANY} after (?:unbounded|{ANY} slope {ANY})")
TAIL = re.compile(rf"tail (?:periodic {NUMBER} {NUMBER} {ANY}|affine {NUMBER}|infinite {NUMBER})")
TRUTH = {word: re.compile(rf"{word} (?:true|false)") for word in ("equal", "below")}
VALUE = {word: re.compile(rf"{word} {ANY}") for word in ("value", "rate", "delay", "backlog")}
# What stands behind `netcalc: ` in the line of a status; FILE is a word of the call, and a place may have any byte, since it has keys of the file.
REFUSALS = {
    1: rf"FILE: (?:too long|M1|M(?:[2-8]|1[0-2]) .+|M9 .* (?:negative|zero-period|not-rising|not-continuous|not-zero-at-start)"
    rf"|T[1-8] row \d+|C[1-8] line \d+)|unknown flow FILE",
    3: r"cannot read FILE",
    6: rf"too wide: (?:curve .+|{CELL}|simulation|check|measure|burst|line \d+)",
    7: rf"too many: (?:curve .+|{CELL}|measure|burst|line \d+)",
    8: CYCLE,
}


def lesser(first: str, second: str) -> str:
    return min((first, second), key=lambda bound: (bound == "unbounded", Fraction(bound if bound != "unbounded" else 0)))


def all_match(pattern: re.Pattern, lines: list[str]) -> bool:
    return all(map(pattern.fullmatch, lines))


def queues_fault(form: re.Pattern, lines: list[str], servers: int) -> str:
    """Of the lines of queues: each server has one for each of its queues, from 0 on."""
    if not all_match(form, lines):
        return "a line of a queue is of another form"
    queues = [(queue[1], int(queue[2])) for queue in map(form.fullmatch, lines)]
    for (name, number), (server, last) in zip(queues, [("", 0), *queues]):
        if number != (last + 1 if name == server else 0):
            return "a queue has no line"
    return "" if len(dict(queues)) == servers else "a server has no line"


def bounds_fault(lines: list[str]) -> str:
    """Of the report on bounds."""
    head = HEAD.fullmatch(lines[0]) if lines else None
    if not head:
        return "no head line"
    flows = len(lines) - int(head[2])
    if flows < 1 or not all_match(FLOW, lines[flows:]):
        return "a line of a flow is of another form, or one is missing"
    said = queues_fault(QUEUE, lines[1:flows], int(head[1]))
    if said:
        return said
    told = [FLOW.fullmatch(line) for line in lines[flows:]]
    return "" if all(flow[4] == lesser(flow[2], flow[3]) for flow in told) else "a bound is not the lesser of the two"


def row_count(table: bytes) -> int | None:
    """How many rows a table has; nothing where a quoted field may have a line break."""
    lines = table.removeprefix(b"\xef\xbb\xbf").replace(b"\r", b"\n").split(b"\n")
    return None if b'"' in table else sum(map(bool, lines))


def edits_fault(lines: list[str], rows: int | None) -> str:
    """Of the report on edits: a line for each row, and the bounds behind them."""
    edits = [line for line in lines if line.startswith("edit ")]
    numbers = [EDIT.fullmatch(line) for line in edits]
    if lines[: len(edits)] != edits or not all(numbers) or [int(it[1]) for it in numbers] != list(range(1, len(edits) + 1)):
        return "a line of an edit is of another form, or one is missing"
    return bounds_fault(lines[len(edits) :]) if rows in (None, len(edits)) else "another number of edits than of rows"


def run_fault(lines: list[str], last: str, without: str | None = None) -> str:
    """Of the report on a run whose last line is of one of two forms; without worst values and peaks where it is of the second."""
    head = HEAD.fullmatch(lines[0]) if lines else None
    if not head or len(lines) < 3 or not RUN.fullmatch(lines[1]):
        return "no head line, or no line of the run"
    if without is not None and re.fullmatch(without, lines[-1]):
        return "" if len(lines) == 3 else "lines too many"
    flows = 2 + int(head[2])
    if flows >= len(lines) or not all_match(WORST, lines[2:flows]):
        return "a line of worst values is of another form, or one is missing"
    said = queues_fault(PEAK, lines[flows:-1], int(head[1]))
    return said if said or re.fullmatch(last, lines[-1]) else "another last line"


def exercise_fault(lines: list[str], last: str) -> str:
    forms = (r"exercise \d+", r"servers 16 flows 24 packets \d+", rf"largest bound {BOUND}", rf"largest worst {NUMBER}", last)
    return "" if len(lines) == 5 and all(map(re.fullmatch, forms, lines)) else "a line of the summary is of another form, or one is missing"


def measure_fault(lines: list[str]) -> str:
    steps = [STEP.fullmatch(line) for line in lines[1:-1]]
    if len(lines) < 3 or not re.fullmatch(rf"flow {NAME} packets \d+", lines[0]) or not all(steps) or steps[0][1] != "0":
        return "a line of the curve is of another form, or one is missing"
    numbers = [(Fraction(step[1]), Fraction(step[2])) for step in steps]
    if not all(low[0] < high[0] and low[1] < high[1] for low, high in zip(numbers, numbers[1:])):
        return "a step does not rise"
    return "" if re.fullmatch(rf"burst {NUMBER} rate {NUMBER}", lines[-1]) else "no burst"


def script_fault(lines: list[str], script: bytes) -> str:
    """Of the answers to a script: one for each statement but `let`, in their order."""
    left = list(lines)
    for line in script.decode("latin-1").split("\n"):
        word = re.match(r" *([a-z]*)", line)[1]
        if word == "show":
            pieces = next((number for number, said in enumerate(left) if not PIECE.fullmatch(said)), len(left))
            if pieces == 0 or pieces == len(left) or not TAIL.fullmatch(left[pieces]):
                return "a shown curve is of another form"
            del left[: pieces + 1]
        elif word in VALUE or word in TRUTH:
            if not left or not (VALUE.get(word) or TRUTH[word]).fullmatch(left.pop(0)):
                return f"no answer to {word}, or one of another form"
    return "" if not left else "an answer too many"


def has_kinds(value: object, kinds: dict[str, type]) -> bool:
    return isinstance(value, dict) and {key: type(item) for key, item in value.items()} == kinds


def json_fault(command: str, text: str, rows: int | None) -> str:
    """Of a report as JSON."""
    try:
        report = json.loads(text)
    except ValueError:
        return "no JSON"
    members = ["edits", "flows", "queues"] if command == "edit" else ["flows", "queues"]
    if not isinstance(report, dict) or sorted(report) != members:
        return "JSON with other members"
    if json.dumps(report, sort_keys=True, separators=(",", ":"), ensure_ascii=False) + "\n" != text:
        return "JSON that is not compact"
    kinds = (
        ("flows", [{"bound": str, "name": str, "sfa": str, "tfa": str}]),
        ("queues", [{"backlog": str, "delay": str, "queue": int, "server": str}]),
        ("edits", [{"cells": int, "ok": bool}, {"ok": bool, "refused": str}]),
    )
    if not all(any(has_kinds(item, kind) for kind in forms) for member, forms in kinds for item in report.get(member, [])):
        return "JSON with an entry of another form"
    return "" if command != "edit" or rows in (None, len(report["edits"])) else "another number of edits than of rows"


def report_fault(words: list[str], files: dict[str, bytes], status: int, text: str) -> str:
    """Of a report, which has status 0, or 9 with a breach."""
    command, lines = words[0] if words else "", text.split("\n")
    if lines.pop() != "":
        return "no newline at its end"
    last_file = files.get([word for word in ["", *words] if word != "--json"][-1], b"")
    rows = row_count(last_file)
    if status == 9:
        forms = {
            "simulate": lambda: run_fault(lines, BREACH),
            "check": lambda: run_fault(lines, f"verdict {BREACH}", r"verdict unlawful row \d+ L[1-9]"),
            "exercise": lambda: exercise_fault(lines, BREACH),
        }
    else:
        forms = {
            "analyse": lambda: bounds_fault(lines) if "--json" not in words else json_fault(command, text, None),
            "edit": lambda: edits_fault(lines, rows) if "--json" not in words else json_fault(command, text, rows),
            "simulate": lambda: run_fault(lines, "breach none"),
            "check": lambda: run_fault(lines, "verdict admissible"),
            "exercise": lambda: exercise_fault(lines, "breach none"),
            "measure": lambda: measure_fault(lines),
            "curve": lambda: script_fault(lines, last_file),
        }
    return forms[command]() if command in forms else "a report with a status that this command does not have"


def fault(words: list[str], files: dict[str, bytes], status: int, out: bytes) -> str:
    """What is wrong with an answer; nothing where it is one."""
    try:
        text = out.decode()
    except UnicodeDecodeError:
        return "an answer that is no UTF-8"
    if status in (0, 9):
        return report_fault(words, files, status, text)
    if status == 2:
        return "" if text == USAGE else "another line than the usage"
    if status in (4, 5):
        return "" if not text or status == 4 else "out of memory, with output"
    if status not in REFUSALS:
        return f"a status of {status}"
    form = REFUSALS[status].replace("FILE", f"(?:{'|'.join(map(re.escape, words))})")
    return "" if re.fullmatch(f"netcalc: (?:{form})\n", text, re.DOTALL) else "no line of a refusal"
