#!/usr/bin/env python3
"""Runs the program on files that were changed at random or drawn as odd ones, and prints each answer that is none.

    python3 bench/mutate.py NETCALC [CASES] [SEED] [FOLDER] [odd [TWIN]]

NETCALC is the program. CASES (1000) times, half of them, a file of bench/odd_cases.py is drawn, odd and valid or all but valid, and
every fourth of these is changed once; of edits that undo each other the last bounds have to be those of the network itself. The other half, a
case of tests/ or a file of examples/ is drawn, and one to eight changes
are made to one of its files, or to its words: bytes and bits changed, put in, taken out; a number in place of another
one, long ones too; keys, words, lines and fields left out, doubled, exchanged or moved; a front of the file alone; a
part of another file in its place. The program runs on it with a limit of 10 seconds of processor time and 2 GiB of
memory. With the word `odd` behind FOLDER, all cases are odd ones. With TWIN, the program that cargo builds of bench/twin, what `analyse`,
`simulate` and `check` answer with status 0 or 9 is held to its answer too, byte for byte; what it does not answer with such a status
itself (it has no limits, but numbers of 128 bits) is counted as left out.

What is not wanted is printed with the number of its case, and with FOLDER its files are kept there: an end by a signal, a status that has no cause
here or outside 0 to 9, anything on standard error, a report or a refusal that is not as docs/FORMATS.md says (bench/answers.py), want of memory at
2 GiB, an end by the limit of processor time (`late`), and no end within ten minutes (`hangs`). The last lines say how many cases there were, of
which commands and statuses, and what was not wanted; so they do where an interrupt (Ctrl-C, SIGINT) ends it early. It ends with 1 where something was not.
"""

import contextlib
import random
import re
import resource
import signal
import subprocess
import sys
import tempfile
from collections import Counter
from pathlib import Path

import odd_cases
from answers import fault

TOP = Path(__file__).resolve().parent.parent
SECONDS = 10
# of the clock: a process that waits takes no processor time
HANGS = 600
NUMBERS = """
    0 1 -1 2 1/0 1/2 3/7 00 1e3 1.5 0x10 inf nan 64 65 256 257 16777216 16777217 4294967295 4294967296
    9223372036854775807 9223372036854775808 18446744073709551615 18446744073709551616 -9223372036854775808
    170141183460469231731687303715884105727 170141183460469231731687303715884105728
    340282366920938463463374607431768211456 1/170141183460469231731687303715884105727
    1/1329227995784915872903807060280344576 1000000007/1000003
""".split()
BYTES = [
    b"\0", b"\xff", b"\xc3\x28", b"\n", b"\r\n", b"\r", b"\t", b'"', b"'", b",", b"=", b"[", b"]", b"{", b"}", b"#", b":",
    b"/", b"-", b" ", b"\xef\xbb\xbf", b"\\u0000", b'"""',
]
COMMANDS = ("analyse", "edit", "simulate", "exercise", "check", "measure", "curve")
NUMBER = re.compile(rb"-?\d+(?:/\d+)?")
WORD = re.compile(rb"[A-Za-z_][A-Za-z0-9_-]*")


class Case:
    """Words of a call, and the files that they name."""

    def __init__(self, words: list[str], files: dict[str, bytes]):
        self.words = words
        self.files = files


def cases() -> list[Case]:
    found = []
    for words in sorted(TOP.glob("tests/*/*/words")):
        if words.parent.parent.name == "netbound":
            continue  # bench/mutate_tables.py has those
        told = words.read_text().split()
        files = {name: (words.parent / name).read_bytes() for name in told if (words.parent / name).is_file()}
        if files or told[:1] == ["exercise"]:
            found.append(Case(told, files))
    for net in sorted(TOP.glob("examples/**/*.toml")):
        found.append(Case(["analyse", net.name], {net.name: net.read_bytes()}))
    return found


def near(draw: random.Random, number: bytes) -> bytes:
    """A number of about the size, so that more of what is changed goes on to be worked out."""
    whole = int(number.split(b"/")[0][:200])
    return str(draw.choice([whole + 1, whole - 1, 2 * whole, 3 * whole + 1, whole // 2, draw.randint(0, 2 * abs(whole) + 2)])).encode()


def far(draw: random.Random) -> str:
    """Any number, or a text that is nearly one."""
    number = draw.choice(NUMBERS) if draw.random() < 0.7 else str(draw.getrandbits(draw.randint(1, 140)))
    return number + (f"/{draw.getrandbits(draw.randint(1, 130)) + 1}" if draw.random() < 0.2 else "")


def changed_number(draw: random.Random, text: bytes) -> bytes:
    places = list(NUMBER.finditer(text))
    if not places:
        return text
    place = draw.choice(places)
    if draw.random() < 0.3:
        return text[:place.start()] + near(draw, place.group()) + text[place.end():]
    number = far(draw).encode()
    stands_in_quotes = text[max(0, place.start() - 1):place.start()] == b'"'
    if not stands_in_quotes and draw.random() < 0.5:
        number = b'"' + number + b'"'
    return text[:place.start()] + number + text[place.end():]


def changed_word(draw: random.Random, text: bytes) -> bytes:
    places = list(WORD.finditer(text))
    if not places:
        return text
    place = draw.choice(places)
    other = draw.choice(places).group() if draw.random() < 0.7 else draw.choice(BYTES)
    return text[:place.start()] + other + text[place.end():]


def changed_lines(draw: random.Random, text: bytes) -> bytes:
    lines = text.splitlines(keepends=True)
    if not lines:
        return text
    first, second = draw.randrange(len(lines)), draw.randrange(len(lines))
    kind = draw.randrange(4)
    if kind == 0:
        del lines[first]
    elif kind == 1:
        lines.insert(second, lines[first])
    elif kind == 2:
        lines[first], lines[second] = lines[second], lines[first]
    else:
        lines[second:second] = lines[first:first + draw.randint(1, 5)] * draw.choice([1, 2, 300])
    return b"".join(lines)


def changed_fields(draw: random.Random, text: bytes) -> bytes:
    parts = text.split(b",")
    place = draw.randrange(len(parts))
    if draw.random() < 0.5:
        parts.insert(draw.randrange(len(parts) + 1), parts[place])
    else:
        del parts[place]
    return b",".join(parts)


def changed_bytes(draw: random.Random, text: bytes) -> bytes:
    place = draw.randrange(len(text) + 1)
    kind = draw.randrange(4)
    if kind == 0:
        return text[:place] + draw.choice(BYTES) + text[place:]
    if kind == 1:
        return text[:place] + text[place + draw.randint(1, 12):]
    if kind == 2 and place < len(text):
        return text[:place] + bytes([text[place] ^ (1 << draw.randrange(8))]) + text[place + 1:]
    return text[:place] + bytes(draw.randrange(256) for _ in range(draw.randint(1, 4))) + text[place:]


def cut(draw: random.Random, text: bytes) -> bytes:
    return text[:draw.randrange(len(text) + 1)]


def spliced(draw: random.Random, text: bytes, other: bytes) -> bytes:
    first, second = draw.randrange(len(text) + 1), draw.randrange(len(other) + 1)
    return text[:first] + other[second:second + draw.randint(1, 400)] + (text[first:] if draw.random() < 0.5 else b"")


CHANGES = [changed_number, changed_number, changed_word, changed_lines, changed_fields, changed_bytes, cut]


def odd(draw: random.Random) -> Case:
    """An odd case; every fourth has a change."""
    words, files = odd_cases.drawn(draw)
    if draw.random() < 0.25:
        name = draw.choice(sorted(files))
        files[name] = draw.choice(CHANGES)(draw, files[name])
    return Case(words, files)


def drawn(draw: random.Random, known: list[Case]) -> Case:
    case = draw.choice(known)
    files = dict(case.files)
    words = list(case.words)
    if not files:
        words[draw.randrange(len(words))] = str(draw.getrandbits(64)) if draw.random() < 0.7 else far(draw)
        return Case(words, files)
    for _ in range(draw.choice([1, 1, 1, 2, 3, 8])):
        name = draw.choice(sorted(files))
        if draw.random() < 0.1:
            other = draw.choice([other for other in known if other.files])
            files[name] = spliced(draw, files[name], other.files[draw.choice(sorted(other.files))])
        else:
            files[name] = draw.choice(CHANGES)(draw, files[name])[:2_000_000]
    if draw.random() < 0.05:
        place = draw.randrange(len(words))
        words[place:place + draw.randint(0, 1)] = [draw.choice(words + NUMBERS + ["", "--json", "-", "edit", "é"])]
    return Case(words, files)


def limits() -> None:
    resource.setrlimit(resource.RLIMIT_CPU, (SECONDS, SECONDS + 1))
    resource.setrlimit(resource.RLIMIT_AS, (2**31, 2**31))


class Came:
    """What came of a case: the status of its process, what was written, and the seconds of processor time that it took."""

    def __init__(self, program: str, case: Case, folder: Path):
        for file in folder.iterdir():
            file.unlink()
        for file, text in case.files.items():
            (folder / file).write_bytes(text)
        before = processor_time()
        try:
            child = subprocess.run(
                [program, *case.words], cwd=folder, capture_output=True, preexec_fn=limits, check=False, timeout=HANGS
            )
            self.status, self.out, self.err = child.returncode, child.stdout, child.stderr
        except subprocess.TimeoutExpired:
            self.status, self.out, self.err = None, b"", b""
        self.seconds = processor_time() - before


def processor_time() -> float:
    """That of all processes that have ended."""
    usage = resource.getrusage(resource.RUSAGE_CHILDREN)
    return usage.ru_utime + usage.ru_stime


def unwanted(came: Came, case: Case) -> str:
    """Why what came is not wanted; nothing where it is."""
    if came.status is None:
        return "hangs"
    if came.status == -signal.SIGXCPU or came.status == -signal.SIGKILL and came.seconds >= SECONDS:
        return "late"
    if came.status < 0:
        return f"ended by the signal {-came.status}"
    if came.err:
        return "wrote on standard error"
    said = fault(case.words, case.files, came.status, came.out)
    # nothing refuses memory below 2 GiB here, nor a write
    return said or {4: "a write fault", 5: "out of memory"}.get(came.status, "")


def not_undone(program: str, case: Case, came: Came, folder: Path) -> str:
    """Whether edits that undo each other left other bounds than those of the network itself."""
    rows = case.files.get("e", b"").decode("latin-1").splitlines()
    if case.words != ["edit", "n", "e"] or came.status or "undo" not in rows or any(row != "undo" for row in rows[len(rows) // 2 :]):
        return ""
    lines = came.out.decode().splitlines(keepends=True)
    if any(" refused " in line for line in lines) or rows.count("undo") != len(rows) / 2:
        return ""
    itself = Came(program, Case(["analyse", "n"], case.files), folder)
    return "" if itself.out.decode() == "".join(lines[len(rows) :]) else "edits that are undone left other bounds"


def beside(twin: str, case: Case, came: Came, folder: Path) -> str:
    """Whether the twin answers so too; nothing where it is not asked."""
    if came.status not in (0, 9) or case.words[0] not in ("analyse", "simulate", "check") or "--json" in case.words:
        return ""
    there = Came(twin, case, folder)
    if there.status not in (0, 9):
        return "left out"
    return "alike" if (there.status, there.out) == (came.status, came.out) else "another answer than the twin's"


def main() -> None:
    if len(sys.argv) < 2 or sys.argv[5:6] not in ([], ["odd"]) or len(sys.argv) > 7:
        sys.exit(__doc__)
    program = str(Path(sys.argv[1]).resolve())
    count = int(sys.argv[2]) if len(sys.argv) > 2 else 1000
    seed = int(sys.argv[3]) if len(sys.argv) > 3 else 1
    kept = Path(sys.argv[4]) if len(sys.argv) > 4 else None
    share = 1 if sys.argv[5:] else 0.5
    twin = str(Path(sys.argv[6]).resolve()) if len(sys.argv) > 6 else ""
    known = cases()
    statuses: Counter = Counter()
    kinds: Counter = Counter()
    others: Counter = Counter()
    twins: Counter = Counter()
    signal.signal(signal.SIGINT, signal.default_int_handler)  # also where it was begun in the background
    tried = 0
    with tempfile.TemporaryDirectory(prefix="mutate_") as name, contextlib.suppress(KeyboardInterrupt):
        for number in range(count):
            draw = random.Random(seed * 1_000_003 + number)
            case = odd(draw) if draw.random() < share else drawn(draw, known)
            came = Came(program, case, Path(name))
            said = unwanted(came, case) or not_undone(program, case, came, Path(name))
            if twin and not said:
                said = beside(twin, case, came, Path(name))
                twins[said] += said != ""
                said = "" if said in ("alike", "left out") else said
            tried += 1
            statuses[came.status] += 1
            kinds.update(kinds_of(case))
            if said:
                others[said] += 1
                print(f"case {number} of seed {seed}: {said}: {' '.join(case.words)}", flush=True)
                keep(kept, f"{seed}_{number}", case)
    print("; ".join(f"{kinds[kind]} of {kind}" for kind in sorted(kinds)))
    if twin:
        print(f"beside the twin: {twins['alike']} alike, {twins['left out']} left out, {sum(twins.values()) - twins['alike'] - twins['left out']} other")
    told = ", ".join(f"{statuses[status]} with status {status}" for status in sorted(statuses, key=str))
    print(f"{tried} cases of seed {seed}: {told}; {sum(others.values())} not wanted {dict(others)}")
    sys.exit(1 if others else 0)


def kinds_of(case: Case) -> list[str]:
    """What a case tries: its command, and whether by JSON or by a file of version 2."""
    version2 = any(re.search(rb"^version = 2", text, re.MULTILINE) for text in case.files.values())
    command = case.words[0] if case.words and case.words[0] in COMMANDS else "no command"
    return [command, *(["--json"] if "--json" in case.words else []), *(["version 2"] if version2 else [])]


def keep(kept: Path | None, name: str, case: Case) -> None:
    if kept is None:
        return
    folder = kept / name
    folder.mkdir(parents=True, exist_ok=True)
    (folder / "words").write_text(" ".join(case.words) + "\n")
    for file, text in case.files.items():
        (folder / file).write_bytes(text)


if __name__ == "__main__":
    main()
