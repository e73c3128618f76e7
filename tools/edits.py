#!/usr/bin/env python3
"""Looks at, and tries, the edits that a check must refuse: those of crates/NAME/must-fail, which the gate tries, and those of
crates/NAME/more-edits, which it does not, since each costs a check of its crate.

    tools/edits.py [NAME ..]                looks whether each edit of these crates (without a name: of all) can be applied
    tools/edits.py --try NAME ..            tries those of more-edits too, in a copy of the tree, by `rt must-fail` (the kit is needed)
    tools/edits.py --since COMMIT           the same as with the names of the crates that changed since a commit (which is `HEAD`, `main` or
    tools/edits.py --try --since COMMIT     what else git takes for one): what is not committed counts, and crates above them do not

An edit is a file NAME.edit: a line `file: PATH`, and below it pairs of a line `old: TEXT`, which stands once in that file, and a
line `new: TEXT` in its place. Prints each that cannot be applied; the status is 1 where there is one, or where `rt` refuses."""
import argparse
import pathlib
import shutil
import subprocess
import sys
import tempfile

TOP = pathlib.Path(__file__).resolve().parent.parent
FOLDERS = ('must-fail', 'more-edits')
# What an edit of a crate is tried on, and the edits.
CHANGING = ('src', 'specs', 'proofs', *FOLDERS)


def fault_of(edit, crate):
    """Why this edit of the crate's folder cannot be applied; None where it can."""
    path, old, texts, pairs = None, None, {}, 0
    for line in edit.read_text().split('\n'):
        word, _, rest = line.partition(':')
        rest = rest.removeprefix(' ')
        if word == 'file':
            path = rest.strip()
            if not (crate / path).is_file():
                return f'there is no file {path}'
            texts.setdefault(path, (crate / path).read_text())
        elif word == 'old':
            old = rest
        elif word == 'new':
            if path is None or not old:
                return 'a new text stands before a file or an old text'
            found = texts[path].count(old)
            if found != 1:
                return f'an old text is in {path} {found} times, and not once'
            texts[path], old, pairs = texts[path].replace(old, rest), None, pairs + 1
    if not pairs:
        return 'it has no old and no new text'
    return None if any(text != (crate / path).read_text() for path, text in texts.items()) else 'it changes nothing'


def edits_of(crate):
    return sorted(edit for folder in FOLDERS for edit in (crate / folder).glob('*.edit'))


def look(crates):
    """Whether each edit of the crates can be applied, and how many there are."""
    faults = [(edit, fault) for crate in crates for edit in edits_of(crate) if (fault := fault_of(edit, crate))]
    for edit, fault in faults:
        print(f'{edit.relative_to(TOP)}: {fault}')
    gate, more = (sum(len([*(crate / folder).glob('*.edit')]) for crate in crates) for folder in FOLDERS)
    print(f'{gate} edits that the gate tries, {more} more, {len(faults)} that cannot be applied')
    return not faults


def try_all(names):
    """Whether rt refuses each edit of the crates, those of more-edits beside those of must-fail, in a copy."""
    with tempfile.TemporaryDirectory(prefix='netcalc-edits-') as room:
        copy = pathlib.Path(room) / 'tree'
        shutil.copytree(TOP, copy, ignore=shutil.ignore_patterns('out', '.git'))
        for name in names:
            for edit in (copy / 'crates' / name / 'more-edits').glob('*.edit'):
                (copy / 'crates' / name / 'must-fail').mkdir(exist_ok=True)
                edit.rename(copy / 'crates' / name / 'must-fail' / edit.name)
        return subprocess.run(['rt', 'must-fail', *names], cwd=copy).returncode == 0


def paths_told(verb, *words):
    """The paths of crates/ that a call of git tells; ends where git refuses the call."""
    told = subprocess.run(['git', verb, '-z', *words, '--', 'crates'], cwd=TOP, capture_output=True, text=True)
    if told.returncode:
        sys.exit(f'tools/edits.py: git {verb}: {told.stderr.strip()}')
    return [pathlib.PurePosixPath(path) for path in told.stdout.split('\0') if path]


def changed_since(commit):
    """The names of the crates of which a source, a definition, a proof or an edit is not as it was in the commit."""
    paths = [*paths_told('diff', '--name-only', '--no-renames', '--end-of-options', commit), *paths_told('ls-files', '--others', '--exclude-standard')]
    names = {path.parts[1] for path in paths if len(path.parts) > 3 and path.parts[2] in CHANGING}
    return sorted(name for name in names if (TOP / 'crates' / name).is_dir())


def main(words):
    parser = argparse.ArgumentParser(description=__doc__, formatter_class=argparse.RawDescriptionHelpFormatter)
    parser.add_argument('--try', dest='is_tried', action='store_true')
    parser.add_argument('--since', metavar='COMMIT')
    parser.add_argument('names', nargs='*', metavar='NAME')
    given = parser.parse_args(words)
    if given.is_tried and not given.names and given.since is None:
        sys.exit('tools/edits.py --try: which crates?')
    names = given.names
    if given.since is not None:
        names = sorted({*names, *changed_since(given.since)})
        print(f'changed since {given.since}, or named: {" ".join(names) or "no crate"}', flush=True)
        if not names:
            return 0
    crates = [TOP / 'crates' / name for name in names] or sorted(path for path in (TOP / 'crates').iterdir() if path.is_dir())
    for crate in crates:
        if not crate.is_dir():
            sys.exit(f'tools/edits.py: {crate.name} is no crate')
    is_well = look(crates)
    tried = [crate.name for crate in crates if edits_of(crate)] if given.is_tried else []
    return 0 if is_well and (not tried or try_all(tried)) else 1


if __name__ == '__main__':
    sys.exit(main(sys.argv[1:]))
