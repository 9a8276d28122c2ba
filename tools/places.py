#!/usr/bin/env python3
"""Lists the places in src/ where a newer form of Rattle may be plainer, by kind. `tools/places.py [-v]` at the top; -v prints each place."""
import collections
import glob
import re
import sys

FN = re.compile(r'^(\s*)(?:pub(?:\([a-z]+\))? )?(?:const )?fn (\w+)')


def functions(path):
    """Each function: its line, name, header with clauses, and body."""
    lines = open(path).read().split('\n')
    i = 0
    while i < len(lines):
        m = FN.match(lines[i])
        if not m:
            i += 1
            continue
        start, indent, head = i, m.group(1), []
        while not re.search(r'(\{|\{\}|;)\s*$', lines[i]) or re.match(r'\s*(requires|ensures)\b', lines[i]):
            head.append(lines[i])
            i += 1
        head.append(lines[i])
        body = []
        if not lines[i].rstrip().endswith(('{}', ';')):
            i += 1
            while lines[i] != indent + '}':
                body.append(lines[i])
                i += 1
        yield start + 1, m.group(2), '\n'.join(head), '\n'.join(body)
        i += 1


def normal(text):
    """A body without what twins differ in: numbers, number types, capitalized names, text, comments."""
    text = re.sub(r'//[^\n]*', '', text)
    text = re.sub(r'"[^"]*"', 'S', text)
    text = re.sub(r'\b(u8|u16|u32|u64|u128|usize|i8|i16|i32|i64|i128)\b', 'T', text)
    text = re.sub(r'\b-?(0x[0-9a-fA-F_]+|\d[\d_]*)(T|u\d+)?\b', 'N', text)
    text = re.sub(r'\b[A-Z]\w*(::[A-Z]\w*)*\b', 'C', text)
    return ' '.join(text.split())


KINDS = [
    ('1a', 'a number beside a value in place of a Result', r'-> \(\[u8; \d\], u8\)'),
    ('1b', 'a refusal turned into a number or a tuple', r'\be(?:rror)?\.(?:reason\.|reason\(\)\.)?number\(\)'),
    ('1c', 'Ok, Err or None passed on by hand', r'(?:Err\((\w+)\) => (?:return )?Err\(|Ok\((\w+)\) => Ok\(\2\)|None => None\b|None => (?:return )?Err\(|None => \{\}|Err\(_\) => \{\}|Err\(_\) => (?:return )?Err\()'),
    ('1d', 'Some or Ok judged by hand', r'(?:None|Err\(_\)|Ok\(\(\)\)|Ok\(_\)|Ok\(None\)) => (?:true|false|\d+|i64::MAX)\b'),
    ('1e', 'unreachable()', r'\bunreachable\(\)'),
    ('1f', 'a kind that is a number', r'\bkind: u8\b'),
    ('1g', 'an own variant for nothing or a refusal', r'^\s+(?:Nothing|Refused\(u8\)),'),
    ('3a', 'a loop that counts an index', r'^\s*for \w+ in [^{]*\.\.[^{]*\{'),
    ('3b', 'a while loop', r'^\s*while\b'),
    ('4a', 'a comparison through numbers', r'\.number\(\) == '),
    ('4b', 'a type that is compared nowhere or by hand', r'^#\[derive\(Clone, Copy(?:, Debug)?\)\]'),
    ('4c', 'an arm that is true or false', r'(?<!\|) (?!_ =>)\b[A-Z]\w*::?\w*(?:\([\w, ]*\)|\s\{[^}]*\})? => (?:true|false),'),
    ('4d', 'a register made by hand', r'class: RegClass::(?:Int|Float),\s*$'),
    ('6a', 'a table by the number of an enum', r'^const \w+: \[\w+; 37\]'),
    ('6b', 'a buffer with a length beside it', r'^\s*pub (?:bytes: \[u8; 6\]|number: u64),'),
    ('6c', 'a first and a second', r'^\s*(?:pub )?second: Option<'),
    ('6d', 'a Vec with a limit in its facts', r'^\s*ghost room: \{ \d+ ≤ vec_capacity'),
    ('7a', 'an arm that is a command', r'^\s*"[a-z]\w*"(?: \| "\w+")* => '),
]


def main():
    found = collections.defaultdict(list)
    groups = collections.defaultdict(list)
    single = collections.defaultdict(set)
    pairs = collections.defaultdict(set)
    facts = collections.defaultdict(set)
    searching = re.compile(r'for (\w+) in [^\n]*\{\n\s*if [^\n]*\{\n\s*return (?:true|false|Some\([^\n]*\));\n\s*\}\n\s*\}')
    for path in sorted(glob.glob('crates/*/src/**/*.rt', recursive=True)):
        text = open(path).read()
        for n, line in enumerate(text.split('\n'), 1):
            for key, _, pattern in KINDS:
                if re.search(pattern, line):
                    found[key].append((path, n, line.strip()))
        for m in searching.finditer(text):
            found['3c'].append((path, text[:m.start()].count('\n') + 1, m.group(0).split('\n')[0]))
        for line, name, head, body in functions(path):
            if len(body.split()) >= 6:
                groups[normal(body)].append((path, line, name))
            signature = head[head.index('('):].split('\n    ensures')[0].split('\n    requires')[0]
            params = [p for p in re.findall(r'(\w+): (&?(?:mut )?[\w<>\[\]; ]+)', signature)]
            crate = path.split('/')[1]
            for a in params:
                single[(crate, a)].add((path, line, name))
                for b in params:
                    if a < b:
                        pairs[(crate, a, b)].add((path, line, name))
            for fact in re.findall(r'requires (?:\w+ )?\{ (.*) \}', head):
                for part in fact.split(') × ('):
                    facts[part.strip('() ')].add((path, line, name))
    for members in groups.values():
        if len(members) > 1:
            found['2a'] += [(p, n, f'{name}, one of {len(members)}') for p, n, name in members]
    for (crate, a, b), members in pairs.items():
        if len(members) > 2 and len(members) == min(len(single[(crate, a)]), len(single[(crate, b)])):
            found['5a'].append((sorted(members)[0][0], sorted(members)[0][1], f'{a[0]}: {a[1]}, {b[0]}: {b[1]} in {len(members)} functions'))
    for fact, members in facts.items():
        if len(members) > 2:
            found['5b'].append((sorted(members)[0][0], sorted(members)[0][1], f'{fact} in {len(members)} functions'))
    names = {key: what for key, what, _ in KINDS}
    names |= {'2a': 'a function whose body is another one but for types, numbers and capitalized names', '3c': 'a loop that searches',
              '5a': 'two parameters, one of which never comes without the other, in three functions of a crate or more', '5b': 'a fact required by three functions or more'}
    for key in sorted(names):
        print(f'{key} {len(found[key]):4}  {names[key]}')
        if '-v' in sys.argv:
            for path, n, what in found[key]:
                print(f'        {path}:{n}: {what}')


main()
