#!/usr/bin/env python3
"""Runs the analysis on many variants of a network, and gathers their bounds in one table.

    ./netcalc sweep TEMPLATE.toml PARAMETERS.csv --table OUT.csv
        a line of PARAMETERS.csv is a variant: each $NAME or ${NAME} of the template becomes the text of the column NAME
    ./netcalc sweep FOLDER --table OUT.csv
        each *.toml of the folder is a variant

Each variant is one run of the program, on all processors of this machine, or with `--scheduler ADDRESS` on the workers
of a Dask scheduler (Debian: python3-distributed), which need the program at the same path. A variant that takes longer
than `--seconds` is ended, and the table says `time`. Every answer is written down at once in OUT.csv.journal: started
again, the study goes on with the variants that are missing there. An answer of another text of the variant or of
another program does not count, nor one that a signal ended, and one that ran out of time only where there is no more
time now. Two studies do not write one journal: the second is refused.

The table has a line a variant, in their order: its name, the parameters, `status` (a status of the program, `time`, or
`signal N`), `refusal` (its line), `seconds`, `largest` (the largest bound), and a column `bound FLOW` for each flow.
Bounds are exact fractions. A cell that a spreadsheet would run as a formula has a `'` before it.

`--plot COLUMN OUT.svg` draws the largest bound of each variant over a parameter, with the front of those that no other
variant beats in both (needs matplotlib).

It calls the program, and not the launcher before it, which looks at all sources each time. Of the network of
examples/tutorial/study.template on four processors:

- Here, on 29 November 2026: 1,000 variants in 2.5 to 2.9 s, 344 to 407 a second in four studies, though other work ran
  beside them. Where it kept all four processors busy, 27 to 39 s, 25 to 37 a second in three studies, for each process
  waits for a turn; 20 s with `--workers 16`. A variant takes 4.5 ms of a processor: 3.0 in its process (one that does
  nothing takes 0.8) and 1.5 in this one, for its file, the start of the process and the line of the journal.
- On a scheduler of Dask 2022.12 with two workers on that machine, on 28 November 2026, 10,000 variants by the launcher:
  with one thread each, stopped by Ctrl-C after 1,056; started again with four threads each, 8,944 in 740.1 s, though
  one worker was ended by SIGKILL after 5,004. Table and journal had each variant once, and but for the seconds the
  table was the same as here. What the worker had under way, and one variant whose answer went with it, was run again.

Plan long studies by a trial of a hundred: the bar and the last line say how many a second there are.
"""

import argparse
import concurrent.futures
import csv
import fcntl
import hashlib
import io
import json
import os
import pathlib
import re
import string
import sys
import time
from fractions import Fraction

from networks import PROGRAM, TEXT, Fault, cell, ended, hold_picture, mark_of, shortened, text_in, the_program, value_of_json


DRAWN = re.compile(r"-?[0-9]{1,60}(/(?=[0-9]*[1-9])[0-9]{1,60}|(\.[0-9]{1,60})?(e[+-]?[0-9]{1,2})?)")
BOUND = re.compile(r"unbounded|[0-9]{1,60}(/(?=[0-9]*[1-9])[0-9]{1,60})?")


def answer_of(program, text, seconds):
    """What the program says of a network file: status, refusal, seconds, and the bound of each flow as it is printed.

    It stands alone, with its imports inside, since workers on other machines get it without this file.
    """
    import os
    import subprocess
    import tempfile
    import time

    text_of = {"encoding": "utf-8", "errors": "surrogateescape"}
    folder = tempfile.mkdtemp()
    path = os.path.join(folder, "n.toml")
    start = time.monotonic()
    try:
        with open(path, "w", encoding="utf-8") as file:
            file.write(text)
        run = subprocess.run(
            [program, "analyse", "n.toml"], cwd=folder, capture_output=True, **text_of, timeout=seconds, check=False
        )
        status = str(run.returncode) if run.returncode >= 0 else f"signal {-run.returncode}"
        lines = [line.split() for line in run.stdout.splitlines()]
        refusal = run.stdout.strip() if run.returncode else ""
        bounds = {line[1]: line[7] for line in lines if run.returncode == 0 and line[0] == "flow"}
    except subprocess.TimeoutExpired:
        status, refusal, bounds = "time", "", {}
    finally:
        if os.path.exists(path):
            os.remove(path)
        os.rmdir(folder)
    return {"status": status, "refusal": refusal, "seconds": round(time.monotonic() - start, 3), "bounds": bounds}


def rows_of(path):
    """The rows of a table of parameters by their numbers from 1 on, each with a cell for each column."""
    reader = csv.reader(io.StringIO(text_in(path), newline=""), skipinitialspace=True, strict=True)
    rows = {}
    try:
        head = next(reader, None)
        if head is None or len(set(head)) < len(head):
            raise Fault("no head line" if head is None else "a column stands twice")
        for cells in reader:
            if cells and len(cells) != len(head):
                raise Fault(f"{len(cells)} cells under a head line of {len(head)}")
            if cells:
                rows[str(len(rows) + 1)] = dict(zip(head, cells))
    except (csv.Error, Fault) as fault:
        raise Fault(f"{path} line {max(1, reader.line_num)}: {fault}") from None
    if not rows:
        raise Fault(f"{path}: no variant")
    return rows


def variants_of(source, parameters):
    """The variants by name, each with its parameters, and a function from a name to the text of its file."""
    source = pathlib.Path(source)
    if source.is_dir():
        paths = {path.stem: path for path in sorted(source.glob("*.toml"))}
        if not paths:
            raise Fault(f"{source}: no variant")
        return dict.fromkeys(paths, {}), lambda name: text_in(paths[name])
    rows = rows_of(parameters)
    template = string.Template(text_in(source))
    try:
        template.substitute(next(iter(rows.values())))  # A name without a column is told before anything runs.
    except KeyError as missing:
        raise Fault(f"{parameters}: no column {missing.args[0]}, which {source} asks for") from None
    except ValueError as fault:
        raise Fault(f"{source}: {fault}") from None
    return rows, lambda name: template.substitute(rows[name])


def still_holds(entry, mark, seconds):
    """Whether an entry of the journal is of the same file and program, and of a program that ended by itself or had no
    less time."""
    ended_by_itself = entry["status"] != "time" and not entry["status"].startswith("signal")
    return entry["asked"] == mark and (ended_by_itself or entry["status"] == "time" and entry["limit"] >= seconds)


def is_answer(entry):
    """Whether an entry of a journal is of the form in which answers are written there."""
    kinds = {"variant": str, "asked": str, "limit": (int, float), "status": str, "refusal": str, "seconds": (int, float)}
    return (
        isinstance(entry, dict)
        and all(isinstance(entry.get(key), kind) for key, kind in kinds.items())
        and isinstance(entry.get("bounds"), dict)
        and all(isinstance(bound, str) and BOUND.fullmatch(bound) for bound in entry["bounds"].values())
    )


def journal_of(text):
    """The answers that a journal holds, the latest of each variant; a line that is none, as a last one that was cut off,
    does not count."""
    answers = {}
    for line in text.split("\n"):
        try:
            entry = value_of_json(line)
        except ValueError:
            continue
        if is_answer(entry):
            answers[entry["variant"]] = entry
    return answers


class Progress:
    """A bar on the standard error."""

    def __init__(self, total, done):
        self.total = total
        self.done = done
        self.fresh = 0
        self.start = time.monotonic()

    def step(self):
        self.done += 1
        self.fresh += 1
        pace = self.fresh / max(time.monotonic() - self.start, 0.001)
        filled = 30 * self.done // self.total
        left = int((self.total - self.done) / pace)
        if sys.stderr.isatty() or self.done == self.total:
            end = "\n" if self.done == self.total else "\r"
            bar = "#" * filled + "." * (30 - filled)
            print(f"[{bar}] {self.done}/{self.total} {pace:.1f}/s {left} s left ", end=end, file=sys.stderr, flush=True)


def local(tasks, words):
    """The answers of tasks as they come, from programs on this machine."""
    with concurrent.futures.ThreadPoolExecutor(words.workers) as pool:
        waiting = {}
        for name, text in tasks:
            waiting[pool.submit(answer_of, words.program, text, words.seconds)] = name
            if len(waiting) >= 4 * words.workers:
                done, _ = concurrent.futures.wait(waiting, return_when=concurrent.futures.FIRST_COMPLETED)
                for future in done:
                    yield waiting.pop(future), future.result()
        for future in concurrent.futures.as_completed(list(waiting)):
            yield waiting[future], future.result()


def distributed(tasks, words):
    """The answers of tasks as they come, from the workers of a Dask scheduler; a task whose worker is gone is given to
    another."""
    try:
        from distributed import Client, as_completed
    except ImportError:
        raise Fault("--scheduler needs distributed (Debian: python3-distributed)") from None

    with Client(words.scheduler) as client:
        window = 8 * max(1, sum(client.nthreads().values()))
        names = {}
        waiting = as_completed()

        def answered(future):
            name = names.pop(future.key)
            try:
                return name, future.result()
            except Exception as fault:
                # As where each worker that had it is gone, or has no program at that path. What other variants gave is
                # kept.
                raise Fault(f"variant {name}: {type(fault).__name__}: {fault}") from None

        for name, text in tasks:
            future = client.submit(answer_of, words.program, text, words.seconds, pure=False)
            names[future.key] = name
            waiting.add(future)
            if len(names) >= window:
                yield answered(next(waiting))
        for future in waiting:
            yield answered(future)


def study(words):
    """Runs what is missing, and gives the variants and all answers."""
    variants, text_of = variants_of(words.source, words.parameters)
    program = mark_of(words.program)
    marks = {name: hashlib.sha256((program + text_of(name)).encode()).hexdigest() for name in variants}
    with open(words.table + ".journal", "a+", encoding="utf-8", errors="replace") as file:
        try:
            fcntl.flock(file, fcntl.LOCK_EX | fcntl.LOCK_NB)
        except BlockingIOError:
            raise Fault(f"{file.name}: another study writes it") from None
        file.seek(0)
        text = file.read()
        kept = journal_of(text).items()
        answers = {
            name: entry for name, entry in kept if name in marks and still_holds(entry, marks[name], words.seconds)
        }
        if text and not text.endswith("\n"):
            file.write("\n")
        tasks = [(name, text_of(name)) for name in variants if name not in answers]
        progress = Progress(len(variants), len(answers))
        for name, answer in (distributed if words.scheduler else local)(tasks, words):
            answers[name] = answer | {"variant": name, "asked": marks[name], "limit": words.seconds}
            file.write(json.dumps(answers[name]) + "\n")
            file.flush()
            progress.step()
    if progress.fresh:
        seconds = max(time.monotonic() - progress.start, 0.001)
        print(f"{progress.fresh} variants in {seconds:.1f} s, {progress.fresh / seconds:.0f} a second", file=sys.stderr)
    return variants, answers


def value_of(text):
    """A bound as a number that can be compared; `unbounded` is above all."""
    return float("inf") if text == "unbounded" else Fraction(text)


def largest(bounds):
    """The largest of some bounds, as it is printed."""
    return max(bounds.values(), key=value_of) if bounds else ""


def write_table(path, variants, answers):
    """The table of all variants."""
    parameters = list(dict.fromkeys(column for row in variants.values() for column in row))
    flows = list(dict.fromkeys(flow for name in variants for flow in answers[name]["bounds"]))
    head = ["variant", *parameters, "status", "refusal", "seconds", "largest", *(f"bound {flow}" for flow in flows)]
    with open(path, "w", newline="", **TEXT) as file:
        table = csv.writer(file)
        table.writerow(map(cell, head))
        for name, row in variants.items():
            answer = answers[name]
            bounds = answer["bounds"]
            known = [answer["status"], answer["refusal"], answer["seconds"], largest(bounds)]
            cells = [name, *(row.get(column, "") for column in parameters), *known]
            table.writerow(map(cell, [*cells, *(bounds.get(flow, "") for flow in flows)]))


def front_of(points):
    """The points that no other point beats in both coordinates, from left to right."""
    front = []
    for x, y in sorted(points):
        if not front or y < front[-1][1]:
            front.append((x, y))
    return front


def points_of(column, variants, answers):
    """The parameter and the largest bound of each variant that has a bound."""
    points = []
    for name, row in variants.items():
        most = value_of(largest(answers[name]["bounds"]) or "unbounded")
        if most == float("inf"):
            continue
        if not DRAWN.fullmatch(row[column]):
            raise Fault(f"variant {name}: {column} is {shortened(row[column])!r}, and no number to draw")
        points.append((float(Fraction(row[column])), float(most)))
    if not points:
        raise Fault("no variant has a bound: nothing to draw")
    return points


def draw(column, path, variants, answers):
    """The largest bound of each variant over a parameter, and their front."""
    import matplotlib

    matplotlib.use("Agg")
    import matplotlib.pyplot as plot

    points = points_of(column, variants, answers)
    figure, axes = plot.subplots(figsize=(7, 4.5), layout="constrained")
    axes.scatter(*zip(*points), s=14, color="#4477aa", alpha=0.6, label="variants")
    front = front_of(points)
    axes.step(*zip(*front), where="post", color="#cc3311", label="front")
    axes.set_xlabel(column)
    axes.set_ylabel("largest delay bound")
    axes.grid(alpha=0.3)
    axes.legend()
    figure.savefig(path)


def hold_plot(words):
    """Refuses a plot that could not be drawn, before anything runs."""
    hold_picture(words.plot[1])
    try:
        import matplotlib  # noqa: F401
    except ImportError:
        raise Fault("--plot needs matplotlib (Debian: python3-matplotlib)") from None
    if pathlib.Path(words.source).is_dir():
        raise Fault("--plot wants parameters, and a folder of files has none")
    if words.plot[0] not in next(iter(rows_of(words.parameters).values()), {}):
        raise Fault(f"--plot: {words.parameters} has no column {words.plot[0]}")


def main():
    parser = argparse.ArgumentParser(description=__doc__, formatter_class=argparse.RawDescriptionHelpFormatter)
    parser.add_argument("source", help="a template, or a folder of files")
    parser.add_argument("parameters", nargs="?", help="a CSV file with a head line, for a template")
    parser.add_argument("--table", required=True, metavar="OUT.csv")
    parser.add_argument("--program", default=str(PROGRAM), help="the program to run")
    parser.add_argument("--seconds", type=float, default=60, help="the time limit of a variant (60)")
    parser.add_argument(
        "--workers", type=int, default=os.cpu_count(), help="programs at a time on this machine (its processors)"
    )
    parser.add_argument("--scheduler", metavar="ADDRESS", help="a Dask scheduler, as tcp://host:8786")
    parser.add_argument("--plot", nargs=2, metavar=("COLUMN", "OUT.svg"))
    words = parser.parse_args()
    words.program = os.path.abspath(the_program(words.program))
    if not pathlib.Path(words.source).is_dir() and words.parameters is None:
        parser.error("a template needs a file of parameters")
    if not words.seconds > 0 or words.workers < 1:
        parser.error("the seconds are above 0, and there is at least one worker")
    if words.plot:
        hold_plot(words)
    variants, answers = study(words)
    write_table(words.table, variants, answers)
    if words.plot:
        draw(*words.plot, variants, answers)
    return 0


if __name__ == "__main__":
    ended("sweep", main)
