#!/usr/bin/env python3
"""Finds what stands twice in this repository: functions of the same contract and body but for names, and statements of
specs and proofs that say the same.

Of a function the names are compared that come from outside (types, fields, called functions, words of the specs); its
own name, its parameters, its variables and the names of its clauses are not, and a word of a clause counts by its
definition, under whatever name it came in. Of a statement (the type of a lemma, also of one that only an answer to the prover uses; an
abbreviation with its equations; a record with its fields) the bound names and its own name are not compared.

Left out are words of specs/ that say the same under different names, since each is the word of another notion there (a
number that may be printed, and one that fits); what tests use in the crates below the one that has it for the tests of
all others, and lemmas in the answers of crates of tests; proofs by hand, whose statements the prover gives, and what a
function says of its own loops; and the pairs of APART.

    tools/doubles.py [FOLDER ..]    folders below crates/, as curve_call; without one, all

Prints each group with file and line, and how many there are; the status is 1 where something is found."""
import pathlib
import re
import sys

TOP = pathlib.Path(__file__).resolve().parent.parent / 'crates'
SHORT_FUNCTION = 18  # words of a function, and of a statement, below which nothing is compared
SHORT_STATEMENT = 9

# what reads the same and is not
APART = [
    {'late_value', 'soon_value'},  # the two functions of a gap: of one type, and not of one value
    {'first_later', 'second_later'},  # two ways to make a split later: by its first side, and by its second
    {'ReachTime', 'IsTime'},  # a time up to the reach of a deconvolution, and a time that a watch marks
    {'RiseParts', 'IsKey'},  # the numbers of one rise of a curve, and of one key of a watch
    {'at', 'quantum_of'},  # a list read as a function, and the quantum of a queue
    {'other_count', 'one_other'},  # how often a queue stands in a list, and a packet among places
    {'own_count', 'one_same'},  # the same
    {'Texts', 'Row'},  # some texts, and the fields of a row
    {'over_paths', 'has_paths'},  # paths as the laws of networks walk them, and as a recorded run is walked
]
LOOPS_OWN = ('invariant-', 'decreases-', 'ghosts-')  # what a function says of its own loops and calls
TEST_LIBRARY = 'curve_tests'  # what the tests of the crates above it share

WORD = re.compile(r"[^\W\d]['\w≢≡≤-]*|\d+|\S", re.U)
KEYWORDS = set('fn let mut match if else for in while loop return pub crate self Self as ref move true false break '
               'continue where impl requires ensures ghost λ'.split())


class Names:
    """Gives the names of one text the same new names in the order in which they come."""

    def __init__(self):
        self.known = {}

    def bind(self, name):
        if name not in KEYWORDS and name != '_':
            self.known.setdefault(name, f'#{len(self.known)}')

    def of(self, word):
        return self.known.get(word, word)


# ---- functions
FUNCTION = re.compile(r'^[ ]*(?:pub(?:\(crate\))? )?fn (\w+)', re.M)
CLAUSE = re.compile(r'\b(requires|ensures)\s+(?:\w+\s+)?\{')
BOUND = [
    re.compile(r'\blet (?:mut )?(\w+)\b'),
    re.compile(r'\b(?:let|for|Some|Ok|Err|Fin)\s*\(?\s*\(?([\w, ]+)\)'),
    re.compile(r'\bfor (\w+) in'),
    re.compile(r'\|([\w, ]+)\|'),
    re.compile(r'\bλ ([\w ]+)\.'),
    re.compile(r'\((?:mut )?([a-z]\w*(?: \w+)*) :'),
    re.compile(r'[{,]\s*([a-z]\w*)(?=\s*[,}])'),
    re.compile(r'\b[a-z]\w*:\s+([a-z]\w*)\s*[,}]'),
]
IN_CLAUSES = [
    re.compile(r'\blet (\w+)\b'),
    re.compile(r'\bλ ([\w ]+)\.'),
    re.compile(r'\(([a-z]\w*(?: \w+)*) :'),
]
RT_MODULE = re.compile(r'^\s*ghost use Rattle\.([\w.]+) as (\w+);', re.M)
RT_IMPORT = re.compile(r'^\s*(ghost )?use (?:Rattle\.)?([\w.:]+?)(?:\.|::)\{([^}]*)\};', re.M)


def without_comments(text):
    return re.sub(r'//[^\n]*', lambda m: ' ' * len(m.group(0)), text)


def closing(text, start, pair):
    """Where the bracket that opens at `start` closes."""
    depth = 0
    for i in range(start, len(text)):
        if text[i] == pair[0]:
            depth += 1
        elif text[i] == pair[1]:
            depth -= 1
            if depth == 0:
                return i + 1
    return len(text)


def body_start(text, i):
    """Where the body of a function begins: the first brace that no clause has."""
    while i < len(text):
        clause = CLAUSE.match(text, i)
        if clause:
            i = closing(text, clause.end() - 1, '{}')
        elif text[i] == '{':
            return i
        elif text[i] == ';':
            return None
        else:
            i += 1
    return None


class Meanings:
    """What the words of a file stand for: those of its clauses by their definitions, those of its code by the names that
    they have where they stand."""

    def __init__(self, text, defined):
        self.modules = {new: defined.get(module, {}) for module, new in RT_MODULE.findall(text)}
        self.cited, self.named = {}, {}
        for ghost, module, group in RT_IMPORT.findall(text):
            for old, new in re.findall(r'([\w≢≡◌-]+)(?: as (\w+))?', group):
                if ghost:
                    self.cited[new or old] = defined.get(module, {}).get(old, old)
                elif new:
                    self.named[new] = old

    def of(self, text, in_clause):
        words, known = WORD.findall(text), self.cited if in_clause else self.named
        out = []
        for i, word in enumerate(words):
            if word in self.modules and words[i + 1:i + 2] == ['.']:
                continue
            before = words[i - 2] if words[max(i - 1, 0)] == '.' and i > 1 else None
            if before in self.modules:
                out[-1:] = [self.modules[before].get(word, word)]
            else:
                out.append(word if before or words[i - 1] == '.' else known.get(word, word))
        return out


def bind_all(names, text, patterns):
    for pattern in patterns:
        for found in pattern.findall(text):
            for word in re.findall(r'\b[a-z]\w*\b', found):
                names.bind(word)


def renamed(words, names):
    fields = [i > 0 and words[i - 1] == '.' for i in range(len(words))]
    return [w if field else names.of(w) for w, field in zip(words, fields) if w != ',']


def function_key(name, head, body, meanings):
    names = Names()
    for parameter in re.findall(r'(?:[(,<]|\n)\s*(?:mut )?([a-z]\w*)\s*:(?!:)', head):
        names.bind(parameter)
    bind_all(names, head, IN_CLAUSES)
    clauses = renamed(meanings.of(CLAUSE.sub(r'\1 {', head), True), names)
    # a function and its variables may have the name of a word that the clauses cite
    names.bind(name)
    bind_all(names, body, BOUND)
    return tuple(clauses + renamed(meanings.of(body, False), names))


def functions(path, defined):
    text = without_comments(path.read_text())
    meanings = Meanings(text, defined)
    for found in FUNCTION.finditer(text):
        start = body_start(text, found.end())
        if start is None or '#[test]' in text[max(0, found.start() - 60):found.start()]:
            continue
        head, body = text[found.end():start], text[start:closing(text, start, '{}')]
        key = function_key(found.group(1), head, body, meanings)
        if len(key) >= SHORT_FUNCTION:
            yield key, found.group(1), text.count('\n', 0, found.start(1)) + 1


# ---- statements
SIGNATURE = re.compile(r'^(?:pub )?([^\s:()]+) : ')
ABBREV = re.compile(r'^(?:abbrev|unfoldable) (?:pub )?(\S+) : ')
RECORD = re.compile(r'^(?:pub )?record (\S+)')
BINDER = re.compile(r'[({]([^\W\d][^\s(){}:]*(?: [^\s(){}:]+)*) : ')
IMPORT = re.compile(r'^(?:pub )?use Rattle\.([\w.]+)\.\{([^}]*)\}', re.M)
HANDED_ON = re.compile(r'^pub use Rattle\.([\w.]+)\.\{([^}]*)\}', re.M)
LAMBDA = re.compile(r'λ ([^.()]+)\.')


def blocks(path):
    """The top level entries of a file with the lines that go on with them, and where each begins."""
    block, first = [], 0
    for number, line in enumerate(path.read_text().split('\n'), 1):
        line = re.sub(r'(^|\s)--.*', '', line).rstrip()
        if line and not line[0].isspace() and line[0] not in ')]}':
            if block:
                yield '\n'.join(block), first
            block, first = [line], number
        elif line:
            block.append(line)
    if block:
        yield '\n'.join(block), first


def statement_key(name, text, bound=()):
    text = text.replace('{', '(').replace('}', ')')
    # one group a name: (x y : A) is (x : A) (y : A), and an arrow after a group says nothing
    names = Names()
    names.bind(name)
    for word in bound:
        names.bind(word)
    for pattern in (BINDER, LAMBDA):
        for found in pattern.findall(text):
            for word in found.split():
                names.bind(word)
    text = re.sub(r'\)\s*→\s*(?=\([^()]* : )', ') ', text)
    words = re.findall(r"[().,;:=]|[^\s().,;:=]+", text)
    order = Names()
    out = []
    for word, before in zip(words, [''] + words):
        if before != '.' and word in names.known:
            order.bind(word)
            word = order.of(word)
        out.append(word)
    return tuple(out)


def equations(entries, i, name):
    """The equations of an abbreviation, which stand below its type."""
    lines = []
    for text, _ in entries[i + 1:]:
        first = text.split()[0]
        if first not in (name, 'unfolding') or re.match(r'^\S+ : ', text):
            break
        if first == name:
            lines.append(text)
    return lines


def module_of(path):
    """The name of a file of specs or proofs, as an import gives it."""
    return '.'.join(path.relative_to(TOP).with_suffix('').parts)


def definitions(paths):
    """What each definition of each module says."""
    said = {module_of(path): {name: hash(key) for key, name, line, kind in named_statements(path) if kind == 'definition'}
            for path in paths}
    for path in paths:  # what a module hands on
        for module, names in HANDED_ON.findall(path.read_text()):
            for name in names.replace('\n', ' ').split(','):
                if name.strip() in said.get(module, {}):
                    said[module_of(path)].setdefault(name.strip(), said[module][name.strip()])
    return said


def statements(path, defined):
    """The statements of a file; a word that is defined here counts by its definition, and not by its name."""
    known = dict(defined.get(module_of(path), {}))
    for module, names in IMPORT.findall(path.read_text()):
        for name in names.replace('\n', ' ').split(','):
            word, _, other = name.strip().partition(' as ')
            if word in defined.get(module, {}):
                known[other or word] = defined[module][word]
    for key, name, line, kind in named_statements(path):
        key = tuple(known.get(word, word) for word in key)
        if len(key) >= SHORT_STATEMENT:
            yield key, name, line


def named_statements(path):
    entries = list(blocks(path))
    for i, (text, line) in enumerate(entries):
        kind = 'definition'
        abbrev, record, lemma = ABBREV.match(text), RECORD.match(text), SIGNATURE.match(text)
        if abbrev and abbrev.group(1).startswith(LOOPS_OWN):
            continue
        if abbrev:
            name = abbrev.group(1)
            lines = equations(entries, i, name)
            bound = [w for l in lines for w in re.findall(r"\b[a-z]\w*\b", re.split(r'\s=\s', l, maxsplit=1)[0])]
            key = statement_key(name, '\n'.join([text[abbrev.end():]] + lines), bound)
            if text.startswith('unfoldable'):  # a name that stays shut is there to be shut
                key += ('unfoldable',)
        elif record:
            name = record.group(1)
            key = statement_key(name, text[record.end(1):])
        elif lemma and 'goal.' not in text.split('\n')[0] and not lemma.group(1).startswith(LOOPS_OWN):
            name, kind = lemma.group(1), 'lemma'
            key = statement_key(name, text[lemma.end():])
        else:
            continue
        yield key, name, line, kind


def is_alone(path):
    """Whether a file's lemmas are its own by its form: a proof by hand, whose statement the prover gives, and a test's answer."""
    return path.name == 'Proof.antt' or path.name == 'Answers.antt' and path.relative_to(TOP).parts[0].endswith('_tests')


def crates_below_test_library():
    """The crates whose tests cannot use the library of the tests: it stands on them."""
    lines = (TOP.parent / 'crates.txt').read_text().split('\n')
    names = [line.split(':')[0] for line in lines if ':' in line and not line.startswith('#')]
    return set(names[:names.index(TEST_LIBRARY)]) if TEST_LIBRARY in names else set()


def is_apart(kind, places, below):
    """Whether a group says of nothing that it stands twice."""
    files, names = zip(*((place.split(':')[0], place.split(' ')[1]) for place in places))
    if kind == '.rt':
        return sum(not (file.endswith('tests.rt') and file.split('/')[0] in below) for file in files) < 2
    in_specs = all(file.split('/')[1] == 'specs' for file in files)
    return in_specs and len(set(names)) == len(names) or set(names) in APART


def main():
    chosen = sys.argv[1:]
    below = crates_below_test_library()
    groups = {}
    paths = [p for p in sorted(TOP.glob('**/*')) if p.suffix in ('.rt', '.antt')
             and 'out' not in p.relative_to(TOP).parts and not is_alone(p)]
    defined = definitions([p for p in paths if p.suffix == '.antt'])
    for path in paths:
        place = path.relative_to(TOP)
        if chosen and place.parts[0] not in chosen:
            continue
        found = functions(path, defined) if path.suffix == '.rt' else statements(path, defined)
        for key, name, line in found:
            groups.setdefault((path.suffix, key), []).append(f'{place}:{line} {name}')
    counts = {'.rt': 0, '.antt': 0}
    for (kind, key), places in sorted(groups.items(), key=lambda g: (g[0][0] == '.antt', g[1])):
        if len(places) > 1 and not is_apart(kind, places, below):
            counts[kind] += 1
            print('\n'.join(places), end='\n\n')
    print(f'{counts[".rt"]} functions and {counts[".antt"]} statements stand more than once')
    return 1 if any(counts.values()) else 0


if __name__ == '__main__':
    sys.exit(main())
