#!/usr/bin/env python3
"""Counts, in crates/*/src, places that may have a plainer form, and lists them with -l.

usage: tools/places.py [-l] [FOLDER]     (FOLDER: the top of a checkout, here by default)
"""
import collections, glob, os, re, sys

args = [a for a in sys.argv[1:] if a != '-l']
listed = '-l' in sys.argv[1:]
top = args[0] if args else os.path.join(os.path.dirname(os.path.abspath(__file__)), '..')


def sources():
    for path in sorted(glob.glob(os.path.join(top, 'crates/*/src/*.rt'))):
        crate = path.split('/crates/')[1].split('/')[0]
        name = os.path.basename(path)
        if name == 'tests.rt' or crate == 'samples':
            continue
        text = open(path).read().split('#[cfg(test)]\nmod tests {')[0]
        yield f'{crate}/{name}', text


FILES = list(sources())


def grep(pattern):
    found = []
    for name, text in FILES:
        for m in re.finditer(pattern, text, re.M):
            line = text.count('\n', 0, m.start()) + 1
            found.append((f'{name}:{line}', ' '.join(m.group(0).split())[:90]))
    return found


def functions():
    for name, text in FILES:
        for m in re.finditer(r'^( *)(pub(?:\(crate\))? )?(?:const )?fn (\w+)(?:<[^>]*>)?\(([^)]*)\)(.*?)^\1[{]', text, re.M | re.S):
            line = text.count('\n', 0, m.start()) + 1
            yield f'{name}:{line}', m.group(3), m.group(4), m.group(5)


def repeated_facts():
    """Facts of contracts, without the names of their values, that three or more functions have."""
    where = collections.defaultdict(set)
    for place, fn, params, clauses in functions():
        for fact in re.findall(r'(?:requires|ensures)(?: \w+)? \{ (.*) \}', clauses):
            for part in re.split(r' × ', re.sub(r'[()]', ' ', fact)):
                words = part.split()
                if len(words) < 2:
                    continue
                if words[0] in ('Ranged', 'Within', 'Filled', 'Sound', 'There', 'OnRows', 'Room', 'Score', 'Ordered', 'Tame', 'SoundNear', 'Blank', 'Fitting'):
                    where[words[0]].add(f'{place} {fn}')
                elif '≤' in part and ('≡' not in part):
                    key = re.sub(r'\.(old|now|new|entry)', '', ' '.join(words))
                    where[key].add(f'{place} {fn}')
    return {k: sorted(v) for k, v in where.items() if len(v) >= 3}


def travellers():
    """Pairs of parameters that four or more functions take one after the other."""
    where = collections.defaultdict(list)
    for place, fn, params, clauses in functions():
        names = [p.strip() for p in params.replace('\n', ' ').split(',') if ':' in p]
        for a, b in zip(names, names[1:]):
            key = re.sub(r"'\w+ ", '', f'{a}, {b}')
            where[key].append(f'{place} {fn}')
    return {k: v for k, v in where.items() if len(v) >= 4}


POINTS = [
    ('1 options and results taken apart by hand',
     r'None => (?:return )?None\b|Err\((\w+)\) => (?:return )?Err\(\1\)|Some\((\w+)\) => (?:Ok|Some)\(\2[,.)\w]|else \{\s*return (?:None|Err\(|Ok\(|0|EMPTY\w*)\b|Err\(_\) => None|Ok\((\w+|\(\))\) => Ok\(\3\)'),
    ('1 faults written out', r'\bFault \{\n'),
    ('1 kinds as numbers, kinds with a value beside them', r'pub kind: Kind,'),
    ('3 loops that count or use an index', r'while .*<.*\{$|for \w+ in .*\.\..*\{$|^ +(\w+) \+= 1;$'),
    ('3 loops over the pieces of a list', r'while let Some\(\(piece, more\)\)'),
    ('4 compared, converted or printed by hand',
     r'fn (?:is|is_less|is_lower|larger|own|layer_name|side_name|turn_name|first_turn|key_named|score_of|put_natural|put_integer)\(|=> \d\d,$'),
    ('4 what belongs to a side, picked by hand', r'match (?:side|self) \{\n *Side::Left => [^{}]*?,\n *Side::Right => [^{}]*?,\n *\}'),
    ('6 buffers with a length beside them, parallel arrays', r'^ +(?:pub )?(?:bytes|list|parts|row_starts|corner_starts|shapes|figures|corners|rows): \[(?:u\d+|Shape|Figures|PartLines);.*\],|let mut (?:lefts|rights) = \['),
    ('7 switches on which step to run', r'(?:apply|step|run)\(\w+::\w+,'),
]

for name, pattern in POINTS:
    found = grep(pattern)
    print(f'{len(found):4}  {name}')
    if listed:
        for place, text in found:
            print(f'        {place}  {text}')
for name, found in (('5 facts in three contracts or more', repeated_facts()), ('5 parameters that travel together', travellers())):
    print(f'{len(found):4}  {name}')
    if listed:
        for key, places in sorted(found.items()):
            print(f'        {key}: {len(places)}')
            for place in places:
                print(f'            {place}')
answers = glob.glob(os.path.join(top, 'crates/*/proofs/**/Answers.antt'), recursive=True)
lines = sum(open(p).read().count('\n') for p in glob.glob(os.path.join(top, 'crates/*/proofs/**/*.antt'), recursive=True))
goals = sum(len(re.findall(r'^pub \w', open(p).read(), re.M)) for p in answers)
print(f'{len(answers):4}  8 files of answers, with {goals} answers; {lines} lines of proofs in all')
