#!/usr/bin/env python3
"""Writes the lists of docs/DEFINITIONS.md anew, below its first two sections: a line for each module of specs/, by the parts of crates.txt, from the
comment at the head of the module: its first sentence, and each later one that names a source. Modules of laws, whose names end in Laws, stand there
only where they name a source. Run it at the top of the repository."""

import pathlib
import re

PAGE = pathlib.Path("docs/DEFINITIONS.md")
SOURCE = re.compile("Le Boudec|Bouillard|Shreedhar|textbook")


def modules():
    """Every module of specs/, but for each crate's Lib and each file beside a folder of its name, which only list modules."""
    paths = pathlib.Path("crates").glob("*/specs/**/*.antt")
    defining = (path.with_suffix("") for path in paths if path.stem != "Lib" and not path.with_suffix("").is_dir())
    return sorted(str(module.relative_to("crates")) for module in defining)


def head(module):
    """The comment at the head of a module, without its mark of own choice."""
    words = []
    for line in pathlib.Path(f"crates/{module}.antt").read_text().splitlines():
        if not line.startswith("--"):
            break
        words.append(line[2:].strip())
    return re.sub(r" \(?Own choice\.\)?", "", " ".join(words)).strip()


def closed(sentence):
    """A sentence, with its parenthesis closed where that goes on behind it."""
    return sentence + ")" * max(0, sentence.count("(") - sentence.count(")"))


def line_of(module):
    """The line of a module."""
    first, *others = re.split(r"(?<=\.)\s+(?=[A-Z(`])", head(module))
    return f"- `{module}`: {' '.join(map(closed, [first, *filter(SOURCE.search, others)]))}"


def is_listed(module):
    """Whether a module has a line: laws without a source are told in the README of their crate alone."""
    return not module.endswith("Laws") or SOURCE.search(head(module)) is not None


def parts():
    """The parts of crates.txt: the comment above each, as a heading, and its crates."""
    found = []
    for line in pathlib.Path("crates.txt").read_text().splitlines():
        if line.startswith("#"):
            title = line[1:].strip()
            found.append((title[:1].upper() + title[1:], []))
        elif line.strip():
            found[-1][1].append(line.split(":")[0].split()[0])
    return found


def main():
    there = modules()
    page = PAGE.read_text()
    lists = []
    for title, crates in parts():
        lines = [line_of(module) for crate in crates for module in there if module.split("/")[0] == crate and is_listed(module)]
        if lines:
            lists.append("\n".join([f"## {title}", "", *lines, ""]))
    kept = page.split("\n## ")[:2]
    PAGE.write_text("\n## ".join(kept).rstrip("\n") + "\n\n" + "\n".join(lists))


if __name__ == "__main__":
    main()
