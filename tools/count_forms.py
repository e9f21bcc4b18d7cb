#!/usr/bin/env python3
"""Counts, in the sources, the places of each point of docs/DESIGN-PASS.md; with a point's number, as `1` or `3`, lists them.
Reads crates/*/src/*.rt, and for point 8 crates/*/proofs. Run at the top of the repository."""
import glob
import re
import sys
from collections import defaultdict

KINDS = ('FREE WAITING FILLING PLAYING DRAINING BETWEEN SWEEPING ONCE LOOP PAIRS STRAIGHT MEASURED').split()


def functions():
    """Each function: file, name, parameters, answer, clauses, body lines."""
    for path in sorted(glob.glob('crates/*/src/*.rt')):
        text = open(path).read()
        for m in re.finditer(r'^( *)(?:pub )?fn (\w+)(?:<[^(]*>)?\(', text, re.M):
            rest = text[m.end():]
            depth, end = 1, 0
            while depth:
                depth += {'(': 1, ')': -1}.get(rest[end], 0)
                end += 1
            params = ' '.join(rest[:end - 1].split())
            body_at = re.search(r'^%s\{$|\{$|\{\}$' % m.group(1), rest[end:], re.M)
            head = rest[end:end + body_at.start()] if body_at else ''
            answer = re.match(r'\s*->\s*([^\n]*)', head)
            close = re.search(r'^%s\}' % m.group(1), rest[end:], re.M)
            body = rest[end + (body_at.start() if body_at else 0):end + (close.start() if close else 0)]
            yield path, m.group(2), params, answer.group(1).rstrip(' {') if answer else '', head, body


def structs():
    for path in sorted(glob.glob('crates/*/src/*.rt')):
        for m in re.finditer(r'^(?:pub )?(struct|enum) (\w+)[^\n]*\{\n(.*?)^\}', open(path).read(), re.M | re.S):
            yield path, m.group(1), m.group(2), m.group(3)


def loops():
    """Each loop that is no `for`, with the lines that step a number by one."""
    for path in sorted(glob.glob('crates/*/src/*.rt')):
        lines = open(path).read().split('\n')
        name = ''
        for k, line in enumerate(lines):
            m = re.match(r'\s*(?:pub )?fn (\w+)', line)
            name = m.group(1) if m else name
            if re.match(r'\s*(while|loop)\b', line):
                indent = len(line) - len(line.lstrip())
                end = k + 1
                while not lines[end].startswith(' ' * indent + '}'):
                    end += 1
                yield path, name, line.strip(), [x.strip() for x in lines[k + 1:end] if re.search(r'\b\w+ [+-]= 1;', x)]


def point_1():
    rows = defaultdict(list)
    for path, kind, name, body in structs():
        if kind == 'enum' and re.search(r'^\s+(Refused|Other|CutOff|Malformed|Wrong|Told|Bad|Number|None)\b', body, re.M) and '(' in body:
            rows['enums of the shape of Option or Result'].append((path, name))
        if kind == 'struct' and re.search(r': (bool|Verdict),', body) and body.count(': ') > 1:
            rows['structs with a flag or a verdict beside values'].append((path, name))
    for path, name, params, answer, head, body in functions():
        if answer == 'u32' and re.search(r'fault|Judges|refusal|wrong_', head + name):
            rows['functions that answer a refusal as a number'].append((path, name))
        if answer == 'Verdict':
            rows['functions that answer a verdict'].append((path, name))
        if re.search(r'\blisted: bool', params):
            rows['functions with the flag `listed` beside the leads'].append((path, name))
        if re.search(r'\b(kind|showing|phase): u32', params):
            rows['functions that are given a kind, a showing or a phase as a number'].append((path, name))
    return rows


def point_3():
    rows = defaultdict(list)
    for path, name, line, steps in loops():
        rows['loops that step an index by hand' if steps else 'other loops'].append((path, name, line))
    return rows


def point_4():
    rows = defaultdict(list)
    for path, name, params, answer, head, body in functions():
        if name in ('same', 'put_text', 'lesser', 'wide', 'number_at', 'put_word') and path.split('/')[1] in ('lines', 'card_cases', 'walk', 'words'):
            rows['equality, copying and conversion by hand'].append((path, name))
        if name.startswith(('print', 'say', 'show')):
            rows['functions that print'].append((path, name))
        for m in re.finditer(r'^\s+(\w+): \1,$', body, re.M):
            rows['fields given by their own name twice'].append((path, name, m.group(1)))
    return rows


def point_5():
    rows = defaultdict(list)
    facts = defaultdict(set)
    groups = defaultdict(set)
    for path, name, params, answer, head, body in functions():
        for m in re.finditer(r'requires (?:\w+ )?\{ (.*?) \}\s*$', head, re.M | re.S):
            for fact in m.group(1).split('×'):
                facts[' '.join(fact.strip(' ()').split())].add((path, name))
        named = re.findall(r'(\w+): (?:&\'a |&)?(?:mut )?\[?\w', params)
        if len(named) >= 6:
            rows['functions of six parameters or more'].append((path, name, len(named)))
        for group in (('sizes', 'times'), ('positions', 'leads'), ('showing', 'total', 'blocks')):
            if all(g in named for g in group):
                groups[group].add((path, name))
    for fact, where in sorted(facts.items()):
        if len(where) >= 3:
            rows['facts that three functions or more require'].append((fact, len(where)))
    for group, where in groups.items():
        if len(where) >= 3:
            rows['parameters that travel together'].append((', '.join(group), len(where)))
    return rows


def point_6():
    rows = defaultdict(list)
    for path, kind, name, body in structs():
        if kind == 'struct' and re.search(r'\[\w+; ', body) and re.search(r'(length|len|count|size|end|at|zones|films): (usize|u32),', body):
            rows['arrays with a length beside them'].append((path, name))
    return rows


def point_7():
    rows = defaultdict(list)
    for path, name, params, answer, head, body in functions():
        for m in re.finditer(r'\b(\w+): bool\b', params):
            if m.group(1) != 'listed':
                rows['functions that a flag switches'].append((path, name, m.group(1)))
        if re.search(r'\bfn\(|dyn ', params):
            rows['tables of functions'].append((path, name))
    return rows


def point_8():
    rows = defaultdict(list)
    for path in sorted(glob.glob('crates/*/proofs/**/*.antt', recursive=True)):
        title = {'Proof.antt': 'walks by hand', 'Answers.antt': 'files of answers', 'Invariants.antt': 'files of invariants'}.get(path.split('/')[-1])
        if title:
            rows[title].append((path,))
    lines = sum(len(open(p).readlines()) for p in glob.glob('crates/*/proofs/**/*.antt', recursive=True))
    rows['lines of proofs'] = [()] * lines
    return rows


POINTS = {'1': point_1, '3': point_3, '4': point_4, '5': point_5, '6': point_6, '7': point_7, '8': point_8}
asked = sys.argv[1:]
for point, count in POINTS.items():
    for title, places in sorted(count().items()):
        print(f'{point}  {len(places):5}  {title}')
        if point in asked:
            for place in places:
                print('       ', *place)
