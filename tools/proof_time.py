#!/usr/bin/env python3
"""What the proof of a crate takes its time with, by the times at which a check wrote what it had proved.

    tools/proof_time.py [--most N] CRATE..     looks at crates/CRATE/out/incremental

A module's time is that since the file before it was written. So the check has to be one from nothing, without a stop and with one
job: `rm -rf crates/CRATE/out; cd crates/CRATE; rt check --jobs 1`, its libraries built before. Prints the seconds of each kind of
module, and the modules that took most:

    Lts       the steps of a function's code; grows with each `?`, `match` and call while values are owned that it would drop
    Proof     the goals of a function that no file answers, and what joins the answers
    Answers   the goals that a file answers
    lemmas    files of proofs/ that are none of a function's
    specs     files of specs/, and the contracts
"""

import argparse
import collections
import pathlib
import sys

TOP = pathlib.Path(__file__).resolve().parent.parent
OF_FUNCTION = {"Lts", "Proof", "Answers", "Goals", "Tie", "Code", "Met", "Statement", "Invariants", "Notes"}


def modules(folder):
    """The modules that a check proved, each with the seconds since the one before."""
    files = sorted(
        (path.stat().st_mtime, path.name.removesuffix(".oantt"))
        for path in folder.rglob("*.oantt")
        if not path.name.endswith(".decls.oantt")
    )
    return [(time - before, name) for (before, _), (time, name) in zip(files, files[1:])]


def kind_of(crate, name):
    """What a module of a crate is."""
    own = name.removeprefix(f"Rattle-{crate}")
    if own.startswith("-proofs"):
        last = [part for part in own.split(".") if part in OF_FUNCTION]
        return last[-1] if last else "lemmas"
    return "specs" if own.startswith("-specs") else "libraries"


def told(crate, most):
    """The lines for a crate."""
    found = modules(TOP / "crates" / crate / "out/incremental")
    if not found:
        return [f"{crate}: nothing is kept of a check"]
    whole = sum(seconds for seconds, _ in found)
    kinds = collections.Counter()
    for seconds, name in found:
        kinds[kind_of(crate, name)] += seconds
    lines = [f"{crate}: {whole:.0f} s, {len(found)} modules"]
    lines += [f"{seconds:8.1f} s {100 * seconds / whole:3.0f} %  {kind}" for kind, seconds in kinds.most_common()]
    lines += [f"{seconds:8.1f} s  {name}" for seconds, name in sorted(found, reverse=True)[:most]]
    return lines


def main():
    parser = argparse.ArgumentParser(description=__doc__, formatter_class=argparse.RawDescriptionHelpFormatter)
    parser.add_argument("--most", type=int, default=20, metavar="N", help="how many modules are named (20)")
    parser.add_argument("crates", nargs="+", metavar="CRATE")
    given = parser.parse_args()
    for crate in given.crates:
        if not (TOP / "crates" / crate).is_dir():
            print(f"proof_time.py: there is no crate {crate}", file=sys.stderr)
            return 1
        print("\n".join(told(crate, given.most)))
    return 0


if __name__ == "__main__":
    sys.exit(main())
