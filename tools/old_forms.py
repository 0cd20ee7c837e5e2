#!/usr/bin/env python3
"""Counts the places of src/ that are written in an older form, point by point (docs/DESIGN-PASS.md has the points).

Run at the top of the repository: tools/old_forms.py [POINT ..] [--at FOLDER]. Without --list it prints a number for each question; with --list each place."""
import re, sys, pathlib

args = sys.argv[1:]
listing = '--list' in args
top = pathlib.Path(args[args.index('--at') + 1]) if '--at' in args else pathlib.Path('.')
points = [a for a in args if re.fullmatch(r'[1-8]', a)]
sources = sorted(top.glob('crates/*/src/**/*.rt'))


def functions(text):
    """name, signature, body and line of each function"""
    for m in re.finditer(r'^[ ]*(?:#\[[^\n]*\]\n[ ]*)*(?:pub(?:\(\w+\))? )?(?:extern "C" )?fn (\w+)', text, re.M):
        depth, i = 0, m.end()
        while i < len(text):
            c = text[i]
            if c == '{' and depth == 0:
                line = text[text.rfind('\n', 0, i) + 1:i]
                if not re.match(r'\s*(ensures|requires|ghost)\b', line):
                    break
            depth += c in '{(['
            depth -= c in '})]'
            i += 1
        k, j = 0, i
        while j < len(text):
            k += text[j] == '{'
            k -= text[j] == '}'
            j += 1
            if k == 0:
                break
        yield m.group(1), text[m.start():i], text[i:j], text.count('\n', 0, m.start()) + 1


def parameters(signature):
    i = re.search(r'fn \w+', signature).end()
    if signature[i] == '<':
        depth = 1
        while depth:
            i += 1
            depth += signature[i] == '<'
            depth -= signature[i] == '>' and signature[i - 1] != '-'
        i += 1
    depth, i, out = 1, i + 1, ''
    while depth:
        c = signature[i]
        depth += c in '(<['
        depth -= c in ')>]' and signature[i - 1] != '-'
        out += c
        i += 1
    parts, depth, part = [], 0, ''
    for c in out[:-1]:
        depth += c in '(<['
        depth -= c in ')>]'
        if c == ',' and depth == 0:
            parts.append(part.strip()); part = ''
        else:
            part += c
    parts.append(part.strip())
    return [p for p in parts if p and p not in ('self', '&self', '&mut self')]


texts = {p: p.read_text() for p in sources}
code = {p: re.sub(r'//[^\n]*', '', t) for p, t in texts.items()}
every = [(p, *f) for p, t in code.items() for f in functions(t)]
found = {}


def lines(question, pattern, where=lambda p: True):
    hits = []
    for p, t in code.items():
        if where(p):
            for i, l in enumerate(t.split('\n'), 1):
                if re.search(pattern, l):
                    hits.append((p, i, l.strip()))
    found.setdefault(question[0], []).append((question, hits))


def enums(question):
    hits = []
    for p, t in code.items():
        for m in re.finditer(r'^(?:pub )?enum (\w+) \{(.*?)^\}', t, re.M | re.S):
            variants = re.findall(r'^    (\w+)', m.group(2), re.M)
            with_value = [v for v in variants if re.search(r'^    ' + v + r'\b\s*[({]', m.group(2), re.M)]
            if len(variants) <= 3 and with_value and len(with_value) < len(variants) or 'Refused' in variants or 'Accepted' in variants:
                hits.append((p, t.count('\n', 0, m.start()) + 1, 'enum ' + m.group(1)))
    found.setdefault(question[0], []).append((question, hits))


enums('1 own enums of the shape of Option or Result')
lines('1 flags beside a value (fields)', r'^\s*(pub )?(refusal: (u8|Refusal)|right: bool|stop: bool|low: u8),')
lines('1 numbers for kinds, operators and refusals (parameters, fields and results)', r'\b(kind|kinds|refusal|tag|op|level|low|q): (u8|u64|&\[u8\]|\[u8; 8\])|fn \w*(kind|tag|refusal|number_of|low)\w*\([^)]*\) -> (u8|u64)|Refused\(u8\)')
lines('3 loops by hand (while, loop)', r'^\s*(while|loop)\b')
lines('3 of them: the index is counted by one at the end of the turn', r'^\s*(i|j|k|m|f|c|at|n|b|r) (\+|-)= 1;')
lines('4 conversions by a function of their own', r'^\s*(pub )?fn (wide|index|number|refusal_by|answer_by|one_if|found_refusal|digit|modal_kind|binary_kind|next_tag|join_tag|unit_tag|plain_tag|strong_tag|kind_of)\b')
lines('4 equality and search by a function of their own', r'^\s*(pub )?fn (same_text|same_words|begins_with|begins|has_byte|has_word|equal|find|find_plain)\b')
lines('6 a count beside a buffer (fields)', r'^\s*pub (count|symbols|formulas|lines|width|globals|names|values): usize,')
found.setdefault('6', []).append(('6 a table and how much of it is used, as two parameters', [(p, l, n) for p, n, s, b, l in every if re.search(r'(tab|store|out|lean|ns): &(mut )?\[u\w+\],\s*(n|m|at|r|used): usize', s)]))
lines('6 parts packed into one number', r'(/|%) (32|1024|32768|16|65536|1048576|268435456|68719476736)\b')
lines('7 a step chosen by a number or a word', r'match (op|g|tag|t|kind|q) \{|same_text\(operation')
found.setdefault('5', []).append(('5 functions with seven parameters or more', [(p, l, n) for p, n, s, b, l in every if len(parameters(s)) >= 7]))
clauses = {}
for p, n, s, b, l in every:
    for c in re.findall(r'^\s*requires(?: \w+)? \{(.*)\}\s*$', s, re.M):
        for part in re.split(r' × ', re.sub(r'[()]', '', c)):
            clauses.setdefault(part.strip(), set()).add((p, l, n))
often = {c: f for c, f in clauses.items() if len(f) >= 3}
found.setdefault('5', []).append(('5 facts that are demanded by three functions or more', [(next(iter(f))[0], len(f), c) for c, f in sorted(often.items())]))
shapes = {}
for p, n, s, b, l in every:
    t = re.sub(r'\b' + n + r'\b', 'F', b)
    t = re.sub(r'\b(u8|u16|u32|u64|usize)\b', 'T', t)
    t = re.sub(r'\b(0x[0-9A-F_]+|\d+)(u8|u16|u32|u64|usize)?\b', '0', t)
    t = re.sub(r'b?"[^"]*"', '""', t)
    names = {}
    t = re.sub(r'[A-Za-z_]\w*', lambda m: names.setdefault(m.group(0), 'v%d' % len(names)), t)
    t = re.sub(r'\s+', ' ', t)
    if t.count(';') + t.count(',') >= 2:
        shapes.setdefault(t, []).append((p, l, n))
found.setdefault('2', []).append(('2 functions whose bodies have the same shape as another one\'s', [x for g in shapes.values() if len(g) > 1 for x in g]))
answers = [(p, t.count('\n', 0, m.start()) + 1, m.group(1)) for p in sorted(top.glob('crates/*/proofs/**/Answers.antt')) for t in [p.read_text()] for m in re.finditer(r'^pub (\S+) : goal\.', t, re.M)]
found.setdefault('8', []).append(('8 answers', answers))
found['8'].append(('8 of them: nothing but arithmetic, refl or a search', [(p, l, n) for p, l, n in answers if re.search(r'^' + re.escape(n) + r' (?:\w+ )*= (omega arith|refl|search rules|search|\(omega arith(, omega arith)*\))\s*$', p.read_text(), re.M)]))

for point in sorted(found):
    if points and point not in points:
        continue
    for question, hits in found[point]:
        print(f'{len(hits):5}  {question}')
        if listing:
            for p, l, n in hits:
                print(f'         {p.relative_to(top)}:{l}: {n}')
