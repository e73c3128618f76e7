#!/usr/bin/env python3
"""Draws the pictures of docs/ and examples/ again and holds the kept ones to them.

docs/port.svg and docs/crates.svg are compared byte for byte. The others are drawn by matplotlib (Debian:
python3-matplotlib), by the first of this Python and /usr/bin/python3 that has it; where neither has, they are left out,
and it says so. By the version that a kept picture names they are compared byte for byte; by another, which sets letters
a little elsewhere, what is compared is the words that they show, in their order. `tests/drawn.py --write` puts the new
ones in their places; `tests/drawn.py --quick` looks at the two alone that need no matplotlib."""

import importlib.util
import os
import pathlib
import re
import subprocess
import sys
import tempfile

TOP = pathlib.Path(__file__).resolve().parent.parent
sys.path += [str(TOP / "tools"), str(TOP / "docs")]
import pages  # noqa: E402  (beside this file)
import pictures  # noqa: E402  (from docs/)
import plot  # noqa: E402  (from tools/)

SIMULATED = "./netcalc simulate examples/tutorial/stair.toml examples/tutorial/trace.csv"
ANSWERS = {"afdx": "grid", "automotive": "zones", "industrial": "line", "router": "classes", "shared": "version2"}


def kept(name):
    """The text of a file of the repository."""
    return (TOP / name).read_text()


def draw_all(folder):
    """Draws all pictures of matplotlib into a folder, by their names in the repository."""

    def path(name):
        place = folder / name
        place.parent.mkdir(parents=True, exist_ok=True)
        return str(place)

    plot.draw_curves(kept("examples/tutorial/path.txt"), path("docs/path.svg"))
    plot.draw_bounds(dict(pages.blocks(kept("docs/TUTORIAL.md")))[SIMULATED], path("docs/run.svg"))
    plot.draw_recorded(
        kept("examples/tutorial/meeting.csv"), TOP / "examples/tutorial/stair.toml", path("docs/recorded.svg")
    )
    for example, answer in ANSWERS.items():
        plot.draw_bounds(kept(f"examples/{example}/{answer}.txt"), path(f"examples/{example}/bounds.svg"))


def version_of(svg):
    """The version of matplotlib that drew a picture."""
    return re.findall("<dc:title>Matplotlib v([^,]*)", svg)


def words_of(svg):
    """The words that a picture shows."""
    return re.findall(r"<text[^>]*>([^<]*)", svg)


def is_same(old, new):
    """Whether a picture shows what it is to show."""
    return old == new or version_of(old) != version_of(new) and words_of(old) == words_of(new)


def with_matplotlib():
    """Goes on with a Python that has matplotlib; says whether this one has."""
    if importlib.util.find_spec("matplotlib"):
        return True
    other = "/usr/bin/python3"
    if sys.executable != other and os.path.exists(other):
        if (
            subprocess.run(
                [other, "-c", "import matplotlib, tomllib"], stderr=subprocess.DEVNULL, check=False
            ).returncode
            == 0
        ):
            sys.stdout.flush()
            os.execv(other, [other, *sys.argv])
    return False


def main():
    quick = "--quick" in sys.argv[1:]
    drawable = not quick and with_matplotlib()
    faults = []
    with tempfile.TemporaryDirectory() as name:
        folder = pathlib.Path(name)
        (folder / "docs").mkdir()
        (folder / "docs/port.svg").write_text(pictures.picture())
        (folder / "docs/crates.svg").write_text(pictures.crates_picture())
        if drawable:
            draw_all(folder)
        drawn = sorted(path.relative_to(folder) for path in folder.glob("**/*.svg"))
        for path in drawn:
            new, place = (folder / path).read_text(), TOP / path
            if "--write" in sys.argv[1:]:
                place.write_text(new)
            elif not place.exists() or not is_same(place.read_text(), new):
                faults.append(f"{path} is not what is drawn today: tests/drawn.py --write")
    every = sorted(path.relative_to(TOP) for kind in ("docs", "examples") for path in (TOP / kind).glob("**/*.svg"))
    left = [path for path in every if path not in drawn]
    if drawable:
        faults += [f"{path}: nothing draws it" for path in left]
    print("\n".join(faults), end="\n" if faults else "", file=sys.stderr)
    print(
        f"pictures: {len(drawn) - len(faults)} as kept, {len(faults)} faults"
        + ("" if drawable else f", {len(left)} not tried, " + ("as --quick asks" if quick else "since matplotlib is missing"))
    )
    return 1 if faults else 0


if __name__ == "__main__":
    sys.exit(main())
