#!/usr/bin/env python3
"""How long the gate sums up libraries, and which names in crates.txt cost most of it.

    tools/paths.py [ROWS]

Before and after it proves a library, `rt` sums up its texts and those of each library that it lists, and so on down,
once for each path (kits before 13f; later ones once in all). Prints about how many seconds that takes for all of them, then ROWS
(20) names that could go over another library that is listed (a `pub use` of what is needed there, by its name), in the order in which they would save most, each after those before
it: the crate, the library, the seconds saved, and the seconds left."""
import functools
import pathlib
import sys

TOP = pathlib.Path(__file__).resolve().parent.parent
SECONDS_A_BYTE, SECONDS_A_FILE = 4.0e-9, 6.1e-6  # measured in a whole gate of 29 November 2026: 66 s in all of 71 crates
SUMS = 2  # of each library, one before its proof and one after


def listed():
    """The libraries of crates.txt that each crate lists."""
    rows = {}
    for line in (TOP / 'crates.txt').read_text().split('\n'):
        name, colon, names = line.split('#')[0].partition(':')
        if colon:
            rows[name.split()[0]] = names.split()
    return {name: [other for other in names if other in rows] for name, names in rows.items()}


def own_seconds(name):
    files = [file for part in ('src', 'specs', 'proofs') for file in (TOP / 'crates' / name / part).rglob('*') if file.is_file()]
    return sum(file.stat().st_size for file in files) * SECONDS_A_BYTE + len(files) * SECONDS_A_FILE


def seconds_of(rows, own):
    """The seconds of one sum of each crate."""
    @functools.lru_cache(None)
    def of(name):
        return own[name] + sum(of(other) for other in rows[name])
    return {name: of(name) for name in rows}


def below_of(rows):
    @functools.lru_cache(None)
    def of(name):
        return frozenset().union(*({other} | of(other) for other in rows[name]))
    return {name: of(name) for name in rows}


def best_cut(rows, own, libraries):
    """The name that could go over another one with the most saved, and the seconds."""
    below, seconds = below_of(rows), seconds_of(rows, own)
    ways = {name: float(name in libraries) for name in rows}
    for name in sorted(rows, key=lambda name: -len(below[name])):
        for other in rows[name]:
            ways[other] += ways[name]
    cuts = [
        (ways[name] * seconds[other], name, other)
        for name in rows for other in rows[name]
        if any(other in below[third] for third in rows[name] if third != other)
    ]
    return max(cuts, default=None)


def main(words):
    rows = listed()
    own = {name: own_seconds(name) for name in rows}
    libraries = {other for names in rows.values() for other in names}

    def whole():
        seconds = seconds_of(rows, own)
        return SUMS * sum(seconds[name] for name in libraries)

    print(f'{whole():.0f} seconds for {len(libraries)} libraries')
    for _ in range(int(words[0]) if words else 20):
        cut = best_cut(rows, own, libraries)
        if cut is None:
            break
        _, name, other = cut
        before = whole()
        rows[name].remove(other)
        print(f'{name} lists {other}: saves {before - whole():.0f}, leaves {whole():.0f}')


if __name__ == '__main__':
    main(sys.argv[1:])
