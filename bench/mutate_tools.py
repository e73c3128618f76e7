#!/usr/bin/env python3
"""Runs the tools of tools/ on files that were changed at random, and prints each call that ends as none should.

    python3 bench/mutate_tools.py NETCALC [CASES] [SEED] [TOOL..]

NETCALC is the program that the tools ask. CASES (500) times for each tool (or for those that are named) a call is drawn of files of examples/
and tests/ and of answers to them, and one to eight changes are made to its files: those of bench/mutate.py, and what is hard on such tools:
numerals of 5,000 digits, names of 100,000 letters, 400 tables or arrays in one another, long zeros, quotes and control signs, cells
that a spreadsheet would run. Each call is a process of its own with a limit of 20 seconds of processor time, 600 of the clock and 3 GiB.

What is not wanted is printed with the number of its case: an end by a signal, another status than 0, 1 and 2, status 1 without a word, a traceback,
and a cell of a table that a spreadsheet would run. The tools are called in turn; a last line of each says how many calls there were by status, also where
an interrupt (Ctrl-C, SIGINT) ends it early. It ends with 1 where something was not wanted. Where matplotlib is not installed, no picture is drawn.
"""

import contextlib
import csv
import gc
import io
import itertools
import os
import random
import re
import resource
import signal
import subprocess
import sys
import tempfile
import traceback
from collections import Counter
from pathlib import Path

import mutate

TOP = Path(__file__).resolve().parent.parent
sys.path.insert(0, str(TOP / "tools"))
import explain  # noqa: E402  (from tools/, as the others)
import import_icd  # noqa: E402
import lint  # noqa: E402
import networks  # noqa: E402
import plot  # noqa: E402
import report  # noqa: E402
import round as rounding  # noqa: E402
import sweep  # noqa: E402
import what_if  # noqa: E402

SECONDS, CLOCK, MEMORY = 20, 600, 3 * 2**30
FAULT = 70  # the status of a call that raised what its tool does not tell
RUN = "examples/one_flow_recorded.csv"
NETWORKS = [str(path.relative_to(TOP)) for path in sorted([*TOP.glob("examples/**/*.toml"), *TOP.glob("tests/bounds/*/*.toml")])]
REPORTS = [f"tests/netbound/{name}/stdout" for name in ("json", "json_twice", "json_with_deadlines")]
TEMPLATE = """[[server]]
name = "s1"
rate = "$rate"

[[flow]]
name = "f1"
packet = 100
arrival = { kind = "bucket", burst = 100, rate = "$load" }
path = ["s1"]
"""
SCRIPT = "let a = bucket(100, 1)\nlet b = gate(10, 7, 3)\nshow a\nshow b\ndelay a, b\nbacklog a, b\n"
ODD = [
    b"9" * 5000, b"1/" + b"0" * 5000 + b"1", b"0." + b"9" * 5000, b"a" * 100_000, b"[" * 400 + b"]" * 400, b".".join([b"a"] * 400) + b" = 1\n",
    b'{"a":' * 400, b"=1+1", b"@SUM(A1)", b"-A1", b"\\ud800", b'"', b"\x00", b"\x85", b"\xe2\x80\xa8", b"\x1b[31m", b"-" * 40, b"1e999999999",
    b"unbounded", b"$x", b"${", b"1/0", b"-1", b"nan", b"\xed\xa0\x80", b" " * 5000, b"\n" * 5000, b"," * 5000,
]  # fmt: skip


class Calls:
    """The calls that are drawn: texts of the tree, and the program's answers to them."""

    def __init__(self, program: str):
        self.program = program
        self.kept: dict[tuple[str, ...], bytes] = {}

    def file(self, path: str) -> bytes:
        return (TOP / path).read_bytes()

    def answer(self, *words: str) -> bytes:
        """What the program says of files of the tree; each is asked once."""
        if words not in self.kept:
            self.kept[words] = subprocess.run([self.program, *words], cwd=TOP, stdout=subprocess.PIPE, check=False).stdout
        return self.kept[words]

    def network(self, draw: random.Random) -> bytes:
        return self.file(draw.choice(NETWORKS))

    def deadlines(self, network: bytes) -> bytes:
        names = re.findall(rb'\[\[flow\]\]\nname = "([^"\n]*)"', network) or [b"f1"]
        return b"flow,deadline\n" + b"".join(b"%s,%d.5\n" % (name, 100 * place + 90) for place, name in enumerate(names[:50]))

    def of_import(self, draw: random.Random) -> tuple:
        folder = draw.choice(["afdx", "aircraft"])
        files = {name: self.file(f"examples/{folder}/{name}") for name in ("links.csv", "ports.csv")}
        return import_icd, [*draw.choice([[], ["--buckets"], ["--grid", "4"], ["--longest-gap", "1.5"]]), *files], files

    def of_lint(self, draw: random.Random) -> tuple:
        return lint, ["n.toml", "--program", self.program], {"n.toml": self.network(draw)}

    def of_round(self, draw: random.Random) -> tuple:
        words = draw.choice([[], ["--grid", "10"], ["--compare", "--program", self.program]])
        return rounding, ["n.toml", *words], {"n.toml": self.network(draw)}

    def of_report(self, draw: random.Random) -> tuple:
        out = ["--csv", "o.csv", "--html", "o.html", "--program", self.program]
        if draw.random() < 0.3:
            return report, ["r.json", *out], {"r.json": self.file(draw.choice(REPORTS))}
        network = self.network(draw)
        return report, ["n.toml", "--deadlines", "d.csv", *out], {"n.toml": network, "d.csv": self.deadlines(network)}

    def of_what_if(self, draw: random.Random) -> tuple:
        files = {"n.toml": self.file("examples/two_flows.toml"), "e.csv": self.file("examples/two_flows_edits.csv")}
        files["d.csv"] = self.deadlines(files["n.toml"])
        edits = ["e.csv", "--csv", "o.csv"]
        words = draw.choice([[*edits, "--write", "o.toml"], [*edits, "--deadlines", "d.csv"], ["--greatest-load", "--deadlines", "d.csv"]])
        return what_if, ["n.toml", *words, "--program", self.program], files

    def of_sweep(self, draw: random.Random) -> tuple:
        files = {"t.toml": TEMPLATE.encode(), "p.csv": b"rate,load\n10,1\n20,5/2\n1,2\n"}
        if draw.random() < 0.5:
            entry = b'{"status":"0","refusal":"","seconds":0.1,"bounds":{"f1":"10"},"variant":"1","asked":"x","limit":60}\n'
            files["o.csv.journal"] = draw.choice([entry, 3 * entry])
        drawn = draw.choice([[], ["--plot", "rate", "o.svg"]])
        return sweep, ["t.toml", "p.csv", "--table", "o.csv", "--workers", "2", "--program", self.program, *drawn], files

    def of_plot(self, draw: random.Random) -> tuple:
        out = ["-o", draw.choice(["o.svg", "o.png"])]
        kind = draw.randrange(4)
        if kind == 0:
            run, net = self.file(RUN), self.file("examples/one_flow.toml")
            words = draw.choice([[], ["--from", "1"], ["--ports", "s1"]])
            return plot, ["run", "r.csv", "--net", "n.toml", *words, *out], {"r.csv": run, "n.toml": net}
        if kind == 1:
            (self.folder / "c").write_text(SCRIPT)
            return plot, ["curves", "a", *out], {"a": self.answer("curve", str(self.folder / "c"))}
        words = ("check", "examples/one_flow.toml", RUN) if kind == 2 else ("analyse", draw.choice(NETWORKS))
        return plot, ["bounds", "a", *out], {"a": self.answer(*words)}

    def of_explain(self, draw: random.Random) -> tuple:
        """Of a call that is refused, whose answer and files are changed."""
        case = draw.choice(self.refused)
        answer = subprocess.run([self.program, *case.words], cwd=self.folder_of(case), stdout=subprocess.PIPE, check=False).stdout
        words = draw.choice([[], ["--told", *case.words]])
        return explain, words, case.files | {"stdin": answer}

    def folder_of(self, case: mutate.Case) -> Path:
        for name, text in case.files.items():
            (self.folder / name).write_bytes(text)
        return self.folder

    def prepare(self, folder: Path) -> None:
        """A folder for the program's own files."""
        self.folder = folder
        self.refused = [case for case in mutate.cases() if case.files]


TOOLS = {name: getattr(Calls, f"of_{name}") for name in ("import", "lint", "round", "report", "what_if", "sweep", "plot", "explain")}


def changed(draw: random.Random, text: bytes, other: bytes) -> bytes:
    """A text with one change."""
    kind = draw.random()
    if kind < 0.1:
        return mutate.spliced(draw, text, other)
    if kind < 0.3:
        place = draw.choice([0, draw.randrange(len(text) + 1), text.find(b"\n") + 1])
        return text[:place] + draw.choice(ODD) + text[place:]
    if kind < 0.5:
        places = list(draw.choice([mutate.NUMBER, mutate.WORD]).finditer(text))
        if places:
            place = draw.choice(places)
            return text[: place.start()] + draw.choice(ODD) + text[place.end() :]
    return draw.choice(mutate.CHANGES)(draw, text)


def in_child(tool, words: list[str], folder: Path) -> None:
    """Runs a tool in the process of a call, and ends it."""
    status = FAULT
    try:
        os.chdir(folder)
        signal.alarm(CLOCK)
        resource.setrlimit(resource.RLIMIT_CPU, (SECONDS, SECONDS + 1))
        resource.setrlimit(resource.RLIMIT_AS, (MEMORY, MEMORY))
        for number, name in ((1, "out"), (2, "err")):
            os.dup2(os.open(f"said_{name}", os.O_WRONLY | os.O_CREAT | os.O_TRUNC), number)
        os.dup2(os.open("stdin" if os.path.exists("stdin") else os.devnull, os.O_RDONLY), 0)
        for name, number, mode in (("stdin", 0, "r"), ("stdout", 1, "w"), ("stderr", 2, "w")):
            setattr(sys, name, os.fdopen(number, mode, encoding="ascii"))  # as where the locale knows no more
        sys.argv = [tool.__name__ + ".py", *words]
        networks.ended(tool.__name__, tool.main)
    except SystemExit as end:
        status = end.code if isinstance(end.code, int) else int(end.code is not None)
    except BaseException:
        with contextlib.suppress(BaseException):
            traceback.print_exc()
    with contextlib.suppress(BaseException):
        sys.stdout.flush()
        sys.stderr.flush()
    os._exit(status)


def runs_formula(folder: Path) -> bool:
    """Whether a table that was written has a cell that a spreadsheet would run."""
    path = folder / "o.csv"
    if not path.exists():
        return False
    with open(path, newline="", encoding="utf-8") as file:
        cells = [cell for row in csv.reader(file) for cell in row]
    return any(cell[:1] in ("=", "+", "-", "@", "\t", "\r") and not re.fullmatch(r"-[0-9]+([./][0-9]+)?", cell) for cell in cells)


def unwanted(status: int, folder: Path) -> str:
    """Why an end is not wanted; nothing where it is."""
    told = (folder / "said_err").read_text(errors="replace")
    if os.WIFSIGNALED(status):
        return f"ended by the signal {os.WTERMSIG(status)}"
    code = os.WEXITSTATUS(status)
    if "Traceback (most recent" in told or code == FAULT:
        return "a traceback: " + told.strip().splitlines()[-1][:150]
    if code not in (0, 1, 2):
        return f"a status of {code}"
    if code and not told and not (folder / "said_out").stat().st_size:
        return "a status without a word"
    return "a cell that a spreadsheet would run" if runs_formula(folder) else ""


def call(calls: Calls, name: str, draw: random.Random, folder: Path) -> tuple[int, str, list[str]]:
    """Draws a call and runs it: its status as the system tells it, what is not wanted of it, and its words."""
    tool, words, files = TOOLS[name](calls, draw)
    for _ in range(draw.choice([1, 1, 1, 2, 3, 8])):
        which = draw.choice(sorted(files))
        files[which] = changed(draw, files[which], files[draw.choice(sorted(files))])[:1_000_000]
    for path in folder.iterdir():
        path.unlink()
    for which, text in files.items():
        (folder / which).write_bytes(text)
    child = os.fork()
    if not child:
        in_child(tool, words, folder)
    status = os.waitpid(child, 0)[1]
    return status, unwanted(status, folder), words


def load_drawing() -> None:
    """Draws a picture of each form, so that not every call has to load what does so, with the fonts."""
    pictures = plot.drawing()
    figure, axes = pictures.subplots()
    axes.plot([0, 1], [0, 1], label="a")
    axes.legend()
    for form in ("svg", "png"):
        figure.savefig(io.BytesIO(), format=form)
    pictures.close(figure)


def main() -> None:
    if len(sys.argv) < 2:
        sys.exit(__doc__)
    count = int(sys.argv[2]) if len(sys.argv) > 2 else 500
    seed = int(sys.argv[3]) if len(sys.argv) > 3 else 1
    calls = Calls(str(Path(sys.argv[1]).resolve()))
    tools = sys.argv[4:] or list(TOOLS)
    if {"plot", "sweep"} & set(tools):
        with contextlib.suppress(networks.Fault):
            load_drawing()
    gc.collect()
    gc.freeze()  # so that no collection in a call writes on all that it shares with this process, which would be copied
    others = 0
    with tempfile.TemporaryDirectory(prefix="mutate_tools_") as name:
        folder, own = Path(name, "call"), Path(name, "own")
        folder.mkdir(), own.mkdir()
        calls.prepare(own)
        signal.signal(signal.SIGINT, signal.default_int_handler)  # also where it was begun in the background
        came: dict[str, Counter] = {tool: Counter() for tool in tools}
        with contextlib.suppress(KeyboardInterrupt):
            for number, tool in itertools.product(range(count), came):
                status, said, words = call(calls, tool, random.Random(f"{seed} {tool} {number}"), folder)
                came[tool][os.waitstatus_to_exitcode(status)] += 1
                if said:
                    others += 1
                    print(f"{tool}: case {number} of seed {seed}: {said}: {' '.join(words)}", flush=True)
        for tool, statuses in came.items():
            print(f"{tool}: {sum(statuses.values())} calls of seed {seed} by status: {dict(sorted(statuses.items()))}", flush=True)
    sys.exit(1 if others else 0)


if __name__ == "__main__":
    main()
