#!/usr/bin/env python3
"""What the gate's processor time goes to: libraries and programs, proved tests, must-fail edits, and rt's own sums.

    tools/gate_time.py [--all] COMMAND..     runs the command (`bash .ci/run`, `rt ci`) and ends with its status
    tools/gate_time.py [--all] --of PID      looks at a run that has begun, until it ends

Looks at the processes below it every half second, and adds up the time of each as it was last seen: what a process takes after
the last look is lost, so the sum is some hundredths too low. Writes to standard error: wall time, processor minutes of each kind,
and the crates that took most, by `--all` each crate."""
import collections
import os
import pathlib
import subprocess
import sys
import time

TICK = os.sysconf('SC_CLK_TCK')
BETWEEN = 0.5  # seconds


def processes():
    """For each process its parent and its seconds of processor time so far."""
    found = {}
    for folder in pathlib.Path('/proc').iterdir():
        if folder.name.isdigit():
            try:
                rest = (folder / 'stat').read_text().rpartition(')')[2].split()
            except OSError:
                continue
            found[int(folder.name)] = int(rest[1]), (int(rest[11]) + int(rest[12])) / TICK
    return found


def below(root, found):
    """The process `root` and all that it has started, directly or not."""
    children = collections.defaultdict(list)
    for number, (parent, _) in found.items():
        children[parent].append(number)
    seen, left = [], [root] if root in found else []
    while left:
        number = left.pop()
        seen.append(number)
        left += children[number]
    return seen


def kind_of(number):
    """What a process does for the gate, and the crate that it does it for; None where it is gone."""
    try:
        words = pathlib.Path(f'/proc/{number}/cmdline').read_bytes().decode(errors='replace').split('\0')
        place = os.readlink(f'/proc/{number}/cwd')
    except OSError:
        return None
    name = os.path.basename(words[0])
    if name.startswith('python') and any(os.path.basename(word) == 'rt' for word in words[1:3]):
        return 'sums', ''
    crate = words[words.index('--crate-name') + 1] if '--crate-name' in words else ''
    if not crate:
        return 'other', ''
    if 'rt-edit' in place:
        return 'edits', crate
    return ('tests' if '--test' in words else 'libraries'), crate


def watch(root, is_over):
    """Adds up the seconds of the process `root` and of those below it, by kind and crate, until it is over."""
    last, kinds = {}, {}
    while not is_over():
        found = processes()
        for number in below(root, found):
            if number not in kinds or kinds[number] == ('other', ''):
                kind = kind_of(number)
                if kind:
                    kinds[number] = kind
            last[number] = max(last.get(number, 0), found[number][1])
        time.sleep(BETWEEN)
    sums = collections.Counter()
    for number, seconds in last.items():
        sums[kinds.get(number, ('other', ''))] += seconds
    return sums


def tell(sums, wall, shown):
    by_kind = collections.Counter()
    for (kind, _), seconds in sums.items():
        by_kind[kind] += seconds
    parts = ', '.join(f'{kind} {by_kind[kind] / 60:.1f}' for kind in ('libraries', 'tests', 'edits', 'sums', 'other'))
    lines = [f'gate: {wall / 60:.1f} minutes; processor minutes {sum(by_kind.values()) / 60:.1f}: {parts}']
    for kind in ('libraries', 'tests', 'edits'):
        most = sorted(((seconds, crate) for (one, crate), seconds in sums.items() if one == kind), reverse=True)[:shown]
        lines.append(f'{kind}: ' + ', '.join(f'{crate} {seconds:.0f} s' for seconds, crate in most))
    print('\n'.join(lines), file=sys.stderr)


def main(words):
    begun, shown = time.time(), 12
    if words[:1] == ['--all']:
        words, shown = words[1:], None
    if words[:1] == ['--of'] and len(words) == 2:
        tell(watch(int(words[1]), lambda: not os.path.exists(f'/proc/{words[1]}')), time.time() - begun, shown)
        return 0
    if not words or words[0].startswith('-'):
        print(__doc__, file=sys.stderr)
        return 2
    run = subprocess.Popen(words)
    tell(watch(run.pid, lambda: run.poll() is not None), time.time() - begun, shown)
    return run.returncode


if __name__ == '__main__':
    sys.exit(main(sys.argv[1:]))
