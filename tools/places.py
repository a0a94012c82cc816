#!/usr/bin/env python3
"""Lists the places of the design pass (docs/DESIGN-PASS.md) in the code: python3 tools/places.py [--list] [FOLDER]

FOLDER is a checkout, this one if none is given. It prints how many places of each point there are, with --list each of them. It reads the
.rt files of src/ as text; what it finds is a place to look at, and not yet a fault.
"""
import re
import sys
from collections import defaultdict
from pathlib import Path

ITEM = re.compile(r'^( *)(?:pub )?(?:const )?(?:unsafe )?(?:extern "C" )?fn (\w+)', re.M)
STRUCT = re.compile(r'^(?:pub )?struct (\w+)(?:<[^>]*>)? \{\n(.*?)^\}', re.M | re.S)
FLAG = re.compile(r'^\s*(?:pub )?(ok|more|returned|passed|follows): bool,', re.M)
CODE = re.compile(r'^\s*(?:pub )?(number|kind|refused|outcome|operation): u32,', re.M)
NUMBERED = re.compile(r'\b(number|answer|\w+_number|\w+_answer|words_for|answer_beside)\b')
WORD = re.compile(r'[A-Za-z_]\w*|\d+|"[^"]*"|\'[^\']*\'|\S')


class Function:
    """A function's head, clauses and body, with the place where it stands."""

    def __init__(self, place, name, text):
        self.place, self.name, self.text = place, name, text
        head, _, rest = text.partition('{')
        contract = re.match(r'.*?(?=^ *\{\n)', text, re.S | re.M)
        self.head = contract.group(0) if contract else head
        self.body = text[len(self.head):]
        signature = re.split(r'\n\s+(?:requires|ensures)', self.head)[0]
        self.parameters = re.findall(r'(\w+): ([^,)]+)', signature)
        result = re.search(r'-> ([^\n{]+)', signature)
        self.result = result.group(1).strip() if result else ''
        self.clauses = re.findall(r'(?:requires|ensures)(?: \w+)? \{(.*?)\}\n', self.head + '\n', re.S)

    def shape(self):
        """The body with its own names and numbers left out."""
        keep = {'if', 'else', 'while', 'for', 'in', 'return', 'let', 'mut', 'match', 'as', 'fn'}
        return ' '.join(w if w in keep or not re.match(r'\w', w) else 'x' for w in WORD.findall(self.body))


def functions(folder):
    for path in sorted(Path(folder).glob('crates/*/src/**/*.rt')):
        text = path.read_text()
        for start in ITEM.finditer(text):
            end = re.compile(r'^' + start.group(1) + r'\}', re.M).search(text, start.end())
            yield Function(f'{path.relative_to(folder)}', start.group(2), text[start.start():end.end()])


def structs(folder):
    for path in sorted(Path(folder).glob('crates/*/src/**/*.rt')):
        for found in STRUCT.finditer(path.read_text()):
            yield f'{path.relative_to(folder)} {found.group(1)}', found.group(2)


def coded(every, every_struct):
    """Point 1: fields that are a flag or a number code; results that are a number code; parameters that are one, or a flag for a value."""
    for place, fields in every_struct:
        for field in FLAG.findall(fields) + CODE.findall(fields):
            yield f'{place}: field {field}'
    for f in every:
        result = ' '.join(c for c in f.clauses if re.search(r'\bresult\s+≡', c))
        if f.result == 'u32' and NUMBERED.search(result):
            yield f'{f.place} {f.name}: a number answers'
        for name, kind in f.parameters:
            if (name, kind.strip()) in {('kind', 'u32'), ('operation', 'u32'), ('phase', 'u32'), ('res', 'u32'), ('outcome', 'u32'),
                                        ('has', 'bool'), ('given', 'bool'), ('phased', 'bool'), ('returned', 'bool'),
                                        ('number', 'u32'), ('seals', 'u32')}:
                yield f'{f.place} {f.name}: parameter {name}'


def twins(every):
    """Point 2: bodies of one shape, of four lines or more."""
    groups = defaultdict(list)
    for f in every:
        if f.body.count('\n') >= 4:
            groups[f.shape()].append(f'{f.place} {f.name}')
    for group in groups.values():
        if len(group) > 1:
            yield ' = '.join(group)


def loops(every):
    """Point 3: loops that count by hand."""
    for f in every:
        for line in re.findall(r'^\s*(while .*)\{', f.body, re.M):
            yield f'{f.place} {f.name}: {line.strip()}'


def by_hand(every):
    """Point 4: copying, comparing, converting and printing by hand, by what a function is called or does."""
    name = re.compile(r'^(print_\w+|copy_\w+|clear|load_value|store_value|read_number|write_number|write_heading|big_endian|wide|flag|'
                      r'length_field|digit|last_digit|digit_count|by_flags|starts_with|find|is_written|parse_number)$')
    for f in every:
        if name.match(f.name):
            yield f'{f.place} {f.name}'


def together(every):
    """Point 5: a fact that stands in the requires of three functions or more, and three parameters or more that travel together in as many."""
    facts, sets = defaultdict(set), []
    for f in every:
        for clause in re.findall(r'requires(?: \w+)? \{(.*?)\}\n', f.head + '\n', re.S):
            for fact in re.split(r' × ', clause):
                words = re.sub(r'[(){}]', ' ', fact).split()
                facts[' '.join(re.sub(r'\.(now|old)$', '', w) for w in words)].add(f'{f.place} {f.name}')
        sets.append(frozenset(name for name, _ in f.parameters) - {'self', 'rt'})
    groups = {a & b for a in sets for b in sets if len(a & b) > 2}
    for fact, places in sorted(facts.items()):
        if fact and len(places) > 2:
            yield f'{fact}: {len(places)} functions'
    for group in sorted(sorted(g) for g in groups):
        count = sum(set(group) <= names for names in sets)
        if count > 2:
            yield f'{", ".join(group)}: {count} functions'


def buffers(every, every_struct):
    """Point 6: structs and functions with two arrays side by side, and slices with a place or a length beside them."""
    for place, fields in every_struct:
        if len(re.findall(r': \[u32; 12\]', fields)) > 1:
            yield f'{place}: parallel arrays'
    for f in every:
        names = {name for name, _ in f.parameters}
        if len(re.findall(r'\[(?:usize|u32); 12\]', f.head)) > 1 or len(re.findall(r'let mut \w+ = \[0; 12\]', f.body)) > 1:
            yield f'{f.place} {f.name}: parallel arrays'
        if {'out', 'at'} <= names or {'kept', 'count'} <= names:
            yield f'{f.place} {f.name}: a slice and a place in it'


def switches(every):
    """Point 7: functions that choose a step by three tests or more of one number."""
    for f in every:
        tests = defaultdict(int)
        for name in re.findall(r'if (\w+) [!=]= (?:[A-Z]\w*(?:::\w+)?|\d+)', f.body):
            tests[name] += 1
        for name, count in tests.items():
            if count > 2:
                yield f'{f.place} {f.name}: {count} tests of {name}'


def answers(folder):
    """Point 8: files that answer goals, and their lines."""
    for path in sorted(Path(folder).glob('crates/*/proofs/*/**/Answers.antt')):
        yield f'{path.relative_to(folder)}: {path.read_text().count(chr(10))}'


def main():
    words = [w for w in sys.argv[1:] if w != '--list']
    folder = Path(words[0] if words else Path(__file__).resolve().parent.parent)
    every, every_struct = list(functions(folder)), list(structs(folder))
    points = [coded(every, every_struct), twins(every), loops(every), by_hand(every), together(every), buffers(every, every_struct),
              switches(every), answers(folder)]
    for point, places in enumerate(points, 1):
        places = list(places)
        lines = f', {sum(int(p.rsplit(": ", 1)[1]) for p in places)} lines' if point == 8 else ''
        print(f'point {point}: {len(places)}{lines}')
        if '--list' in sys.argv:
            print(''.join(f'  {p}\n' for p in places), end='')


if __name__ == '__main__':
    main()
