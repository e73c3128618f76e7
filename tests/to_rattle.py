#!/usr/bin/env python3
"""Writes the worked examples of this folder as a test of the top call, so that one list is the source of the quick check and of the gate's.

`tests/to_rattle.py` writes crates/netcalc/src/cases.rt, one text for each case that tests/worked names, and one for each that tests/failing names, in
which a fetch or the put fails; `tests/to_rattle.py --check` ends with 1 where that file is not what it would write. The quick check runs these
cases (with no call that fails) and all others.
"""

import pathlib
import re
import sys

HERE = pathlib.Path(__file__).resolve().parent
TARGET = HERE.parent / "crates" / "netcalc" / "src" / "cases.rt"
HEAD = """//! The cases that tests/worked and tests/failing name, written by tests/to_rattle.py: change them there.

/// Each case, with a `~` between two, as `worked::check` reads it: its name, which fetches fail and which puts, the words, the status, what is
/// written, and the name and the text of each file.
"""
# What stands between the parts of a case, and between two cases: no part has either.
BETWEEN, BEHIND = "|", "~"


def written(text):
    """A part of a literal of Rattle, on one line: the gate takes a crate's memory from its lines, and checks fewer crates beside one of many."""
    for plain, escaped in (("\\", "\\\\"), ('"', '\\"'), ("\n", "\\n"), ("\t", "\\t"), ("\r", "\\r")):
        text = text.replace(plain, escaped)
    return text


def bare(text):
    """The text without what a formatter may change: white space, and a comma before a bracket."""
    return re.sub(r",(?=[)\]])", "", re.sub(r"\s+", "", text))


def row(folder, call=None):
    """A case as one text; with a call, such as `fetch 0` or `put`, as it is answered where that call fails."""
    words = f"netcalc {(folder / 'words').read_text().rstrip()}".rstrip()
    files = sorted(it for it in folder.iterdir() if it.name not in ("words", "status", "stdout"))
    status = (folder / "status").read_text().strip() if (folder / "status").exists() else "0"
    wanted = (folder / "stdout").read_text()
    name = folder.name
    # A fetch past those of the files would fail, and so would a second put.
    fetches, puts = "".join(str(number) for number in range(len(files), 10)), "1"
    if call == "put":
        name, puts, status, wanted = f"{name}, {call}", "0", "4", ""
    elif call:
        name, fetches = f"{name}, {call}", call.split()[1]
        status, wanted = "3", f"netcalc: cannot read {words.split()[2 + int(fetches)]}\n"
    parts = [name, fetches, puts, words, status, wanted]
    for file in files:
        parts += [file.name, file.read_text()]
    if any(mark in part for part in parts for mark in (BETWEEN, BEHIND)):
        sys.exit(f"tests/to_rattle.py: {folder.name} has a {BETWEEN} or a {BEHIND}, which part the cases")
    return f"    {written(BETWEEN.join(parts))}"


def lines(name):
    """The lines of a list of this folder: for each the folder of the case, and what stands behind it."""
    for line in (HERE / name).read_text().splitlines():
        if line and not line.startswith("#"):
            case, _, call = line.partition(" ")
            if not (HERE / case / "words").exists():
                sys.exit(f"tests/{name}: {case} is no case")
            yield HERE / case, call


def text():
    behind = f"{BEHIND}\\\n"
    rows = [row(folder) for folder, _ in sorted(lines("worked"))] + [row(*it) for it in lines("failing")]
    return f'{HEAD}pub const CASES: &str = "\\\n{behind.join(rows)}";\n'


def main():
    made = text()
    if sys.argv[1:] == ["--check"]:
        if not TARGET.exists() or bare(TARGET.read_text()) != bare(made):
            print(f"{TARGET.name} is not what tests/to_rattle.py writes: run it", file=sys.stderr)
            return 1
        return 0
    TARGET.write_text(made)
    return 0


if __name__ == "__main__":
    sys.exit(main())
