#!/usr/bin/env python3
"""Runs each command that docs/TUTORIAL.md and the pages of examples/ show: an indented line that begins with `$ `,
whose answer stands below it, up to the next command or the end of the block; files in /tmp are in a folder of their own
here. Then it runs each network, edit list, trace, recorded run and script of examples/ that has its answer beside it, and
the tables that have one of netbound, bounds.txt.
Each network in a folder of examples/ has a trace, an edit list and their answers. Last it holds the lines at the head
of the page of min_plus_algebra to the test that they are."""

import concurrent.futures
import importlib.util
import os
import pathlib
import re
import shlex
import subprocess
import sys
import tempfile

TOP = pathlib.Path(__file__).resolve().parent.parent
PAGES = [TOP / "docs/TUTORIAL.md", *sorted(TOP.glob("examples/*/README.md"))]


def blocks(text):
    """The commands of a page with the answers that it shows."""
    for block in re.findall(r"(?:^    .*\n|^\n(?=    ))+", text, re.M):
        lines = [line[4:] for line in block.strip("\n").split("\n")]
        starts = [place for place, line in enumerate(lines) if line.startswith("$ ")]
        for start, end in zip(starts, [*starts[1:], len(lines)]):
            yield lines[start][2:], "".join(line + "\n" for line in lines[start + 1 : end])


def beside(command, pattern, suffix, network_of, answer_of):
    """The command on each file of examples/ that fits, of its network where it is not one itself, with the answer that
    stands beside."""
    for path in sorted(TOP.glob(f"examples/**/{pattern}")):
        stem = path.name.removesuffix(suffix)
        words = [path.with_name(network_of(stem)), path] if network_of else [path]
        names = " ".join(str(word.relative_to(TOP)) for word in words)
        answer = path.with_name(answer_of(stem))
        if answer.exists() or network_of:
            yield [("examples", f"./netcalc {command} {names}", answer.read_text())]


def wanted():
    """Lists of commands with what they must print; those of one list are run one after the other."""
    for page in PAGES:
        yield [(page.relative_to(TOP), command, shown) for command, shown in blocks(page.read_text())]
    network = "{}.toml".format
    yield from beside("analyse", "*.toml", ".toml", None, "{}.txt".format)
    yield from beside("simulate", "*_trace.csv", "_trace.csv", network, "{}_run.txt".format)
    yield from beside("check", "*_recorded.csv", "_recorded.csv", network, "{}_recorded.txt".format)
    yield from beside("edit", "*_edits.csv", "_edits.csv", network, "{}_edits.txt".format)
    yield from beside("curve", "*.curve", ".curve", None, "{}.txt".format)
    for answer in sorted(TOP.glob("examples/*/bounds.txt")):
        tables = " ".join(str(answer.with_name(name).relative_to(TOP)) for name in ("ports.csv", "links.csv"))
        yield [("examples", f"./netbound {tables}", answer.read_text())]


def lacking():
    """What an example's network lacks of its answer, its trace, its edits and the answers of these; the tutorial shows
    its own on its page."""
    for network in sorted(TOP.glob("examples/*/*.toml")):
        for ending in (".txt", "_trace.csv", "_run.txt", "_edits.csv", "_edits.txt"):
            path = network.with_name(network.stem + ending)
            if network.parent.name != "tutorial" and not path.exists():
                yield f"{path.relative_to(TOP)} is not there"


def is_a_test(page, test):
    """Whether the first block of a crate's page stands, line by line, in a test."""
    block = re.search(r"(?:^    .+\n)+", page.read_text(), re.M)
    return block is not None and block.group() in test.read_text()


def tell(commands, folder, netcalc, netbound):
    """Runs commands one after the other, with their files of /tmp in a folder; a line for each that printed something
    else. The programs' own words run them without the launcher, which looks at all sources each time."""
    told = []
    for place, command, shown in commands:
        # The folder of /tmp first: the programs may stand below /tmp.
        moved = command.replace("/tmp/", f"{folder}/")
        moved = re.sub(r"\./netcalc (?=(analyse|edit|simulate|exercise|check|measure|curve) )", f"{netcalc} ", moved)
        moved = moved.replace("./netbound ", f"{netbound} ")
        run = subprocess.run(moved, shell=True, cwd=TOP, capture_output=True, text=True, timeout=300, check=False)
        if run.stdout != shown or lacks_files(moved, folder, shown):
            told.append(f"{place}: {command}\n{run.stdout}{run.stderr}")
    return told


def lacks_files(command, folder, shown):
    """Whether a command that shows nothing leaves one of its files away, or empty; of pictures that is not asked where
    matplotlib is not installed."""
    if shown or " plot " in command and not importlib.util.find_spec("matplotlib"):
        return False
    files = [pathlib.Path(name) for name in re.findall(rf"{re.escape(folder)}/\S+", command)]
    return not all(path.exists() and path.stat().st_size for path in files)


def program_of(name):
    """The program that the launcher runs by a name, as a word of a shell."""
    launcher = subprocess.run([TOP / name, "--program"], stdout=subprocess.PIPE, text=True, check=True)
    return shlex.quote(launcher.stdout.removesuffix("\n"))


def main():
    told = list(lacking())
    page, test = "crates/min_plus_algebra/README.md", "crates/curve_tests/src/algebra.rt"
    if not is_a_test(TOP / page, TOP / test):
        told.append(f"{page}: its first lines are not those of {test}")
    lists = list(wanted())
    programs = [program_of(name) for name in ("netcalc", "netbound")]
    with tempfile.TemporaryDirectory() as folder, concurrent.futures.ThreadPoolExecutor(os.cpu_count()) as pool:
        for faults in pool.map(lambda commands: tell(commands, folder, *programs), lists):
            told += faults
    print("\n".join(told), end="\n" if told else "", file=sys.stderr)
    print(f"pages: {sum(map(len, lists))} commands, {len(told)} faults")
    return 1 if told else 0


if __name__ == "__main__":
    sys.exit(main())
