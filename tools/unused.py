#!/usr/bin/env python3
"""Finds what proofs do not need: imports that nothing in their file names, and lemmas and records of proofs/ that nothing
reaches from the sources, the specs, and the answers to the prover.

Two lemmas of one name count as one, and a name within a comment does not count. A lemma that only lemmas without a use
name has no use either.

    tools/unused.py [--drop] [FOLDER ..]    folders below crates/, as curve_call; without one, all

Prints each as FILE:LINE: NAMES, and how many there are; the status is 1 where something is found. With --drop they are
taken out, over and over until nothing is left (then `rt fmt` and `rt ci`, since a tactic may need an import that no line
names)."""
import pathlib
import re
import sys

TOP = pathlib.Path(__file__).resolve().parent.parent / 'crates'
GIVEN = {'Answers.antt', 'Invariants.antt', 'Lib.antt'}  # files whose names the prover gives
GROUP = re.compile(r'^(use [^{]*?)\{([^}]*)\}[ ]*$')
DECLARATION = re.compile(r'^(?:abbrev |unfoldable )?(?:pub )?(?:(?:record|data) ([^\s(){}.,;:◌]+)|([^\s(){}.,;:◌]+) : )')
ANTT_WORD, RT_WORD = re.compile(r'[^\s(){}.,;@"]+'), re.compile(r"[^\W\d][\w'≢≡≤₁₂₃-]*|[^\s\w]+")
COMMENT = re.compile(r'(^|\s)--(\s.*|$)')


def words_of(line):
    return ANTT_WORD.findall(COMMENT.sub('', line))


def blocks_of(lines):
    """The declarations of a file: the name (none for what stands between them), the first line, the one after the last."""
    name, first = None, 0
    for at, line in enumerate(lines):
        if not line[:1].strip() or line[0] in '}])':
            continue
        found = DECLARATION.match(line)
        if found or (name and not re.match(r'(pub )?' + re.escape(name) + r'(\s|$)', line)):
            yield name, first, at
            name, first = (found[1] or found[2] if found else None), at
    yield name, first, len(lines)


def is_named(name, words):
    """Whether a name stands in the words: an operator whole, with its places, or part by part."""
    return name in words or all(part in words for part in name.split('◌') if part)


def unused_imports(lines):
    """The lines with an import that no other line names: the place, those names, and the line without them."""
    words = {word for line in lines if not line.startswith('use ') for word in words_of(line)}
    for at, line in enumerate(lines):
        group = GROUP.match(line)
        names = [name.strip() for name in group[2].split(',')] if group else []
        kept = [name for name in names if is_named(name.split(' as ')[-1], words)]
        if len(kept) < len(names):
            yield at, [name for name in names if name not in kept], [f'{group[1]}{{{", ".join(kept)}}}'] if kept else []


def reached(texts):
    """The names that are reached."""
    waiting, inside = set(), {}
    for path, lines in texts.items():
        if path.suffix == '.rt':
            waiting.update(RT_WORD.findall('\n'.join(lines)))
            continue
        is_root = 'proofs' not in path.parts or path.name in GIVEN
        for name, first, end in blocks_of(lines):
            words = {word for line in lines[first:end] if not line.startswith('use ') for word in words_of(line)}
            if is_root or not name:
                waiting |= words
            else:
                inside.setdefault(name, set()).update(words)
    seen = set()
    while waiting:
        name = waiting.pop()
        if name not in seen:
            seen.add(name)
            waiting |= inside.get(name, set()) - seen
    return seen


def begin_with_comment(lines, first):
    """Where the comment of a declaration begins; the title of a section is none."""
    while first and lines[first - 1].startswith('-- ') and not lines[first - 1].startswith('-- ----'):
        first -= 1
    return first


def findings(path, lines, seen):
    """What a file of proofs does not need: the first line, the one after the last, its names, and what is left."""
    for at, names, left in unused_imports(lines):
        yield at, at + 1, ', '.join(names), left
    if path.name not in GIVEN:
        for name, first, end in blocks_of(lines):
            if name and name not in seen:
                yield begin_with_comment(lines, first), end, f'{name}, which nothing reaches', []


def drop(path, lines, found):
    for first, end, _, left in sorted(found, reverse=True):
        lines[first:end] = left
    # a file of imports and comments alone goes; what a `module _` holds stands further in
    if path.name in GIVEN or any(words_of(line) and not line.startswith('use ') for line in lines):
        path.write_text('\n'.join(lines))
        return
    path.unlink()
    library = path.parent / 'Lib.antt' if path.parent.name == 'proofs' else path.parent.with_suffix('.antt')
    library.write_text(re.sub(rf'^(pub )?mod {path.stem}\n', '', library.read_text(), flags=re.M))


def look(folders, drops):
    texts = {path: path.read_text().split('\n') for kind in ('antt', 'rt') for path in sorted(TOP.glob(f'*/*/**/*.{kind}'))}
    seen, count = reached(texts), 0
    for path, lines in texts.items():
        parts = path.relative_to(TOP).parts
        if parts[1] != 'proofs' or folders and parts[0] not in folders:
            continue
        found = list(findings(path, lines, seen))
        count += len(found)
        for first, _, names, _ in found:
            print(f'{path.relative_to(TOP.parent)}:{first + 1}: {names}')
        if drops and found:
            drop(path, lines, found)
    return count


def main(arguments):
    folders = [argument for argument in arguments if argument != '--drop']
    count = found = look(folders, len(folders) < len(arguments))
    while found and len(folders) < len(arguments):
        found = look(folders, True)
        count += found
    print(f'{count} lines of imports and declarations without a use')
    return 1 if count else 0


if __name__ == '__main__':
    sys.exit(main(sys.argv[1:]))
