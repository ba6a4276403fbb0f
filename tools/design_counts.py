#!/usr/bin/env python3
"""Counts the places in crates/*/src that docs/DESIGN-PASS.md speaks of, point by point.

    python3 tools/design_counts.py             the counts
    python3 tools/design_counts.py --list N    the places of point N, one on a line

Each count is of text, so it finds candidates: what stays of them is judged on the page."""
import collections
import glob
import re
import sys

FAILING = {'Wrong', 'None', 'Lone', 'Short', 'Refused', 'Fails', 'Failed', 'Implicit', 'Left', 'Usual'}
KINDS = r'\b(kind|place|operator|effect|turn|last|which): (u32|usize)'
BY_HAND = (r'\bfn (same_text|same_key|is_text|is_number|is_list|is_object|copy|wide|number|place|operator_number'
           r'|add|add_number|add_refusal|say_refused|say_line|say_result|past_of|put_eight|moved|put_bytes'
           r'|put_starred|clear|is_zero|begins|shared|read_full|numbers|told|of_\w+)\(')


def sources():
    for name in sorted(glob.glob('crates/*/src/*.rt')):
        with open(name, encoding='utf-8') as file:
            text = file.read()
        # Comments are no code; a line stays a line.
        yield name, re.sub(r'//[^\n]*', '', text)


def line_of(text, at):
    return text.count('\n', 0, at) + 1


def matches(pattern, flags=re.M):
    for name, text in sources():
        for m in re.finditer(pattern, text, flags):
            yield f'{name}:{line_of(text, m.start())}', m


def enums():
    """1a. enums of the shape of Option or Result: one variant says that there is nothing, or why."""
    for where, m in matches(r'^(?:pub )?enum (\w+) \{(.*?)^\}', re.M | re.S):
        body = re.sub(r'\{[^}]*\}', '', m.group(2))
        variants = re.findall(r'(\w+)(?:\([^)]*\))?\s*,', body)
        if FAILING & set(variants):
            yield f'{where} {m.group(1)}: {", ".join(variants)}'


def functions():
    for name, text in sources():
        for m in re.finditer(r'^( *)(?:pub )?(?:extern "C" )?fn (\w+).*?^\1\}', text, re.M | re.S):
            yield f'{name}:{line_of(text, m.start())}', m.group(2), m.group(0)


def sentinels():
    """1b. functions that answer 0 for nothing."""
    for where, name, body in functions():
        if re.search(r'-> (usize|u32|u64)', body) and re.search(r'return 0;|=> 0,|^    0\n\}', body, re.M):
            yield f'{where} {name}'


def kinds():
    """1c. parameters and fields that are a number for a kind."""
    for where, m in matches(KINDS):
        yield f'{where} {m.group(0)}'


def twins():
    """2. functions of one name, or of one shape but for names and numbers, in two places."""
    shapes = collections.defaultdict(list)
    for where, name, body in functions():
        code = re.sub(r'(requires|ensures)\b[^\n]*\n', '', body)
        shape = re.sub(r'\b[a-z_]\w*\b|\d+|b?"[^"]*"', '_', code)
        shape = re.sub(r'\b[A-Z]\w*', 'T', re.sub(r'\s+', ' ', shape))
        if shape.count(';') + shape.count('_') > 24:
            shapes[shape].append(f'{where} {name}')
    for places in shapes.values():
        if len(places) > 1:
            yield ' ~ '.join(places)


def loops():
    """3. loops that count an index by hand."""
    for where, m in matches(r'^\s*while [^\n]*\{$'):
        yield f'{where} {m.group(0).strip()}'


def by_hand():
    """4. equality, order, copying, conversion and printing by hand."""
    for where, m in matches(BY_HAND):
        yield f'{where} {m.group(1)}'


def facts():
    """5a. a fact in the requires of three or more functions of a crate."""
    seen = collections.Counter()
    for where, m in matches(r'^\s*requires(?: \w+)? \{(.*)\}\s*$'):
        for part in re.split(r'\) × \(|× ', m.group(1)):
            fact = re.sub(r'\b(at|v|i|from|to|p|first|n)\b', '_', part.strip(' ()'))
            seen[(where.split('/')[1], fact)] += 1
    for (crate, fact), count in sorted(seen.items(), key=lambda x: (-x[1], x[0])):
        if count >= 3:
            yield f'{crate}: {fact} ({count})'


def together():
    """5b. two or more parameters that go together through three or more functions of a crate."""
    seen = collections.Counter()
    for where, name, body in functions():
        head = body.split('{', 1)[0].split('requires')[0].split('ensures')[0]
        params = re.findall(r'(\w+): ([^,()]+(?:\([^)]*\))?)', head)
        for a, b in zip(params, params[1:]):
            seen[(where.split('/')[1], f'{a[0]}: {a[1].strip()}, {b[0]}: {b[1].strip()}')] += 1
    for (crate, pair), count in sorted(seen.items(), key=lambda x: (-x[1], x[0])):
        if count >= 3:
            yield f'{crate}: {pair} ({count})'


def buffers():
    """6. arrays of a fixed size, with or without a length beside."""
    for where, m in matches(r'\[[\w]+; \w+\]'):
        yield f'{where} {m.group(0)}'


def switches():
    """7. ladders that choose a step or a word by a number or a letter."""
    for where, name, body in functions():
        tests = collections.Counter(re.findall(r'\bif (\w+)(?:\[\w+\])? == (?:\d+|\w+::[A-Z]+) \{\s*return', body))
        if any(count > 1 for count in tests.values()):
            yield f'{where} {name}'


def answers():
    """8. files of answers, and answers."""
    files = glob.glob('crates/*/proofs/**/Answers.antt', recursive=True)
    count = 0
    for name in files:
        with open(name, encoding='utf-8') as file:
            count += len(re.findall(r'^pub [^\s:]+ : goal\.', file.read(), re.M))
    yield f'{len(files)} files, {count} answers'


POINTS = [('1a', enums), ('1b', sentinels), ('1c', kinds), ('2', twins), ('3', loops), ('4', by_hand), ('5a', facts),
          ('5b', together), ('6', buffers), ('7', switches), ('8', answers)]


def main():
    wanted = sys.argv[2] if len(sys.argv) == 3 and sys.argv[1] == '--list' else None
    for number, places in POINTS:
        found = list(places())
        if wanted is None:
            said = found[0] if number == '8' else len(found)
            print(f'{number:3} {places.__doc__.split(". ", 1)[1].rstrip(".")}: {said}')
        elif wanted == number:
            print('\n'.join(found))


if __name__ == '__main__':
    main()
