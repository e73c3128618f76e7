#!/usr/bin/env python3
"""contracts.py BEFORE AFTER [NAMES]: compares each public contract and definition of two checkouts.

BEFORE and AFTER are folders of the repository; NAMES is a file of lines 'old new', one for each name that was changed on
purpose. Compared are the signature and clauses of each public function of crates/*/src, and of each method of an impl
of a trait, and each public definition of crates/*/specs; imports and bodies are not. Texts are compared as words, so a
line break is no change. CHANGED is a text under the same name, GONE one whose name is there no more, NEW a name that
was not there before. Each CHANGED and GONE line wants an answer by hand: why it says no less than before.
"""
import pathlib
import re
import sys

DEFINITION = re.compile(r'^\s*(abbrev pub|unfoldable pub|pub record|pub data|pub define|infix\w*)\s+([^\s:({]+)')
LEMMA = re.compile(r'^(?:pub )?(\S+) : ')
NO_TEXT = re.compile(r'^\s*(--|use |pub use |pub mod |mod |module )')
NO_CODE = re.compile(r'^\s*(//|ghost use|use )')
OWNER = re.compile(r'^(?:pub )?(?:impl|trait)\b[^{]*')
FUNCTION = re.compile(r'^\s*(pub )?(?:const )?fn (\w+)')
BODY = re.compile(r'^\s*\{\}?\s*$')
NEXT = re.compile(r'^\s*(pub )?fn ')


def squeezed(text, names):
    """The text with its names renamed, and one space between its words."""
    for old, new in names:
        text = re.sub(rf'(?<![\w.]){re.escape(old)}(?!\w)', new, text)
    return ' '.join(text.split())


def definitions(path):
    """Each public definition of a file of specs/, with its name; lemmas that stand there are left out."""
    name, body = None, []
    for line in path.read_text().splitlines():
        if NO_TEXT.match(line) or not line.strip():
            continue
        found, lemma = DEFINITION.match(line), LEMMA.match(line)
        if found or lemma:
            if name:
                yield name, '\n'.join(body)
            name, body = (found[2], [line]) if found else (None, [])
        elif name:
            body.append(line)
    if name:
        yield name, '\n'.join(body)


def signature(lines, start):
    """The lines of a function from its name up to its body."""
    text = []
    for number in range(start, len(lines)):
        if BODY.match(lines[number]) or (text and NEXT.match(lines[number])):
            break
        text.append(lines[number])
        if text[-1].rstrip().endswith(';'):
            break
    return '\n'.join(text)


def contracts(path):
    """The signature and clauses of each public function of a file of src/, and of each method of a trait."""
    lines = [line for line in path.read_text().splitlines() if not NO_CODE.match(line)]
    owner = ''
    for number, line in enumerate(lines):
        block = OWNER.match(line)
        if block:
            owner = ' '.join(block[0].split())
        if line.startswith('}'):
            owner = ''
        in_trait = owner.startswith(('trait', 'pub trait')) or ' for ' in owner
        found = FUNCTION.match(line)
        if found and (found[1] or in_trait):
            yield f'{owner} fn {found[2]}', signature(lines, number)


def gathered(root, names):
    """By name the texts of a checkout, each with the place where it stands."""
    out = {}
    for path in sorted(pathlib.Path(root, 'crates').rglob('*')):
        part = path.relative_to(root).parts
        if path.suffix == '.antt' and part[2] == 'specs':
            items = definitions(path)
        elif path.suffix == '.rt' and part[2] == 'src' and 'tests' not in path.name:
            items = contracts(path)
        else:
            continue
        for name, text in items:
            out.setdefault(squeezed(name, names), []).append((squeezed(text, names), '/'.join(part[1:])))
    return out


def compare(old, new):
    """Prints what differs, and how much does not."""
    same = moved = 0
    for name, forms in sorted(old.items()):
        here = {}
        for text, path in new.get(name, []):
            here.setdefault(text, set()).add(path)
        for text, path in forms:
            if text in here:
                same += path in here[text]
                moved += path not in here[text]
            elif here:
                print('CHANGED', path, name, '\n  -', text, *('\n  + ' + other for other in here))
            else:
                print('GONE', path, name, '\n  -', text)
    for name in sorted(new.keys() - old.keys()):
        print('NEW', new[name][0][1], name)
    print(f'{same} the same, {moved} the same in another file')


def main():
    if len(sys.argv) not in (3, 4):
        sys.exit(__doc__)
    names = []
    if len(sys.argv) == 4:
        names = [tuple(line.split()) for line in open(sys.argv[3], encoding='utf-8') if line.strip()]
    compare(gathered(sys.argv[1], names), gathered(sys.argv[2], []))


if __name__ == '__main__':
    main()
