#!/usr/bin/env python3
"""Looks for small files that take long, by hill climbing, and prints the slowest that it found.

    python3 bench/climb.py NETCALC [MINUTES] [SEED] [FILE] [COMMAND..]

NETCALC is the program. For MINUTES (5) in all, in turn for each of five kinds of files (or for the commands that are named): the network of
`analyse`, the edit list of `edit`, the trace of `simulate`, the recorded run of `check`, the script of `curve`, a climb begins at an odd file
of bench/odd_cases.py. Each step changes one or two numbers or lines of its files; a step that takes no less processor time is kept. Each call has 10
seconds of processor time and 1 GiB. A climb ends after 40 steps that gained nothing, or with a call that was ended by the limit (`late`).

All is drawn by SEED (1), so others find the same files with the same program where the times do not decide otherwise. Of each kind the five slowest
are printed: seconds, status, bytes and the climb. FILE then has the twenty slowest of each kind, with those that it had before: bench/climbed.json was
made so, and bench/hostile.py runs it. What a climb found is there as soon as it has ended, so several of these may run at a time over one FILE, each with a
seed of its own, and one that an interrupt (Ctrl-C, SIGINT) ends has written it. It ends with 1 where one was late.
"""

import contextlib
import fcntl
import json
import os
import random
import re
import resource
import signal
import sys
import tempfile
import time
from collections.abc import Iterator
from fractions import Fraction
from pathlib import Path

import mutate
import odd_cases

MOST = 3000  # bytes of a file, so that what is slow is no large file
STALE = 40  # steps without a gain that end a climb
SHOWN, KEPT = 5, 20  # how many of a kind are printed, and kept
NUMBER = re.compile(rb"(?<![\w/])\d+(?:/\d+)?(?![\w/])")


def limits() -> None:
    resource.setrlimit(resource.RLIMIT_CPU, (mutate.SECONDS, mutate.SECONDS + 1))
    resource.setrlimit(resource.RLIMIT_AS, (2**30, 2**30))


def other_number(draw: random.Random, text: bytes) -> bytes:
    """A number of the text in place of itself: another one of about its size, near another of the text, or odd."""
    places = list(NUMBER.finditer(text))
    if not places:
        return text
    place = draw.choice(places)
    known = draw.choice(places if draw.random() < 0.3 else [place]).group()
    if int(known.split(b"/")[-1]) == 0 and b"/" in known:
        return text
    number = odd_cases.near(draw, Fraction(known.decode())) if draw.random() < 0.4 else odd_cases.odd(draw, Fraction(known.decode()))
    if b"/" not in place.group() and draw.random() < 0.5:
        number = Fraction(int(number))
    return text[: place.start()] + str(number).encode() + text[place.end() :]


def step(draw: random.Random, case: mutate.Case) -> mutate.Case:
    """A case with one or two changes; most are of numbers, since a file that is refused is soon answered."""
    files = dict(case.files)
    for _ in range(draw.choice([1, 1, 2])):
        name = draw.choice(sorted(files))
        change = other_number if draw.random() < 0.8 else draw.choice([mutate.changed_lines, mutate.changed_word, mutate.changed_number])
        changed = change(draw, files[name])
        files[name] = changed if len(changed) <= MOST else files[name]
    return mutate.Case(case.words, files)


class Found:
    """A case with the seconds of its call and how it ended."""

    def __init__(self, program: str, case: mutate.Case, climb: str, folder: Path):
        came = mutate.Came(program, case, folder)
        self.case, self.climb, self.seconds = case, climb, came.seconds
        self.late = came.status is None or came.status == -signal.SIGXCPU or came.status == -signal.SIGKILL
        self.status = "late" if self.late else str(came.status)


def climb(program: str, kind: str, seed: str, until: float, folder: Path) -> Iterator[Found]:
    """One climb: the slowest case so far, each time that there is another one."""
    draw = random.Random(seed)
    words, files = odd_cases.drawn(draw, kind)
    best = Found(program, mutate.Case(words, files), seed, folder)
    yield best
    stale = 0
    while stale < STALE and not best.late and time.monotonic() < until:
        tried = Found(program, step(draw, best.case), seed, folder)
        stale = 0 if tried.seconds > 1.1 * best.seconds else stale + 1
        if tried.seconds >= best.seconds:
            best = tried
            yield best


def told(kind: str, slowest: list[Found], climbs: int) -> None:
    print(f"{kind}: {climbs} climbs; the slowest:")
    for found in slowest[:SHOWN]:
        size = sum(map(len, found.case.files.values()))
        print(f"    {found.seconds:6.2f} s, status {found.status}, {size} bytes, climb {found.climb}", flush=True)


def keep(kept: Path, kind: str, found: Found) -> None:
    """The file with this among those that it had, a kind's slowest first. Another one takes its place, so it is there whole at each time."""
    mine = {
        "climb": found.climb,
        "seconds": round(found.seconds, 2),
        "status": found.status,
        "words": found.case.words,
        "files": {name: text.decode("latin-1") for name, text in found.case.files.items()},
    }
    lock = os.open(kept.parent, os.O_RDONLY)  # of the folder, since the file is another one each time
    try:
        fcntl.flock(lock, fcntl.LOCK_EX)  # till it is closed
        had = json.loads(kept.read_text(encoding="utf-8") or "{}") if kept.exists() else {}
        of_climb: dict[str, dict] = {}
        for it in sorted([*had.get(kind, []), mine], key=lambda it: -it["seconds"]):
            of_climb.setdefault(it["climb"], it)
        had[kind] = list(of_climb.values())[:KEPT]
        made = kept.with_name(f"{kept.name}.new")
        made.write_text(json.dumps(dict(sorted(had.items())), indent=1) + "\n", encoding="utf-8")
        os.replace(made, kept)
    finally:
        os.close(lock)


def ended(climb_of: Iterator[Found], kind: str, found: list[Found], kept: Path | None) -> None:
    """Goes through a climb; its slowest case is found and kept, also where an interrupt ends it."""
    best = None
    try:
        for best in climb_of:
            pass
    finally:
        signal.pthread_sigmask(signal.SIG_BLOCK, {signal.SIGINT})  # another one waits until it is kept
        if best:
            found.append(best)
        if best and kept:
            keep(kept, kind, best)
        signal.pthread_sigmask(signal.SIG_UNBLOCK, {signal.SIGINT})


def main() -> None:
    if len(sys.argv) < 2:
        sys.exit(__doc__)
    program = str(Path(sys.argv[1]).resolve())
    minutes = float(sys.argv[2]) if len(sys.argv) > 2 else 5
    seed = int(sys.argv[3]) if len(sys.argv) > 3 else 1
    kept = Path(sys.argv[4]) if len(sys.argv) > 4 else None
    kinds = sys.argv[5:] or sorted(odd_cases.KINDS)
    mutate.limits = limits
    signal.signal(signal.SIGINT, signal.default_int_handler)  # also where it was begun in the background
    late = 0
    with tempfile.TemporaryDirectory(prefix="climb_") as folder, contextlib.suppress(KeyboardInterrupt):
        for kind in kinds:
            found: list[Found] = []
            until = time.monotonic() + 60 * minutes / len(kinds)
            try:
                while time.monotonic() < until:
                    ended(climb(program, kind, f"{seed} {kind} {len(found)}", until, Path(folder)), kind, found, kept)
            finally:
                late += sum(it.late for it in found)
                told(kind, sorted(found, key=lambda it: -it.seconds), len(found))
    print(f"{late} climbs ended late")
    sys.exit(1 if late else 0)


if __name__ == "__main__":
    main()
