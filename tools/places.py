#!/usr/bin/env python3
"""places.py [ROOT] [--list POINT]: counts the places of older forms in crates/*/src, point by point, as docs/DESIGN-PASS.md has them.

With --list it prints the places of one point, a line each: file:line: what stands there."""
import collections
import glob
import re
import sys

POINTS = [
    ('1a', 'an own enum with two variants of which one holds a fault or nothing'),
    ('1b', 'a parameter, field or result that is a refusal\'s number'),
    ('1c', 'a comment that a number says "none"'),
    ('2', 'functions whose bodies differ in names and numbers alone'),
    ('3a', 'while, loop'),
    ('3b', 'for over a range, to index with'),
    ('4a', 'a match of which every arm is true or false'),
    ('4b', 'order, equality, conversion, minimum by hand'),
    ('5a', 'a fact that three or more contracts ask for'),
    ('5b', 'two or more parameters that travel together through six or more functions'),
    ('6', 'a length beside a slice, a slice of one length'),
    ('7', 'an enum or a flag that says which test or step to run'),
    ('8', 'files of answers and invariants of functions'),
]


def functions(root):
    for path in sorted(glob.glob(f'{root}/crates/*/src/**/*.rt', recursive=True)):
        text = open(path, encoding='utf-8').read()
        for m in re.finditer(r'(?m)^( *)(?:pub )?(?:extern "C" )?fn (\w+)(?:<[^>(]*>)?\(([^)]*)\)', text):
            end = text.find('\n' + m.group(1) + '}', m.end())
            whole = text[m.start():end + 2 + len(m.group(1))]
            brace = whole.find('\n' + m.group(1) + '{')
            head, body = (whole[:brace], whole[brace:]) if brace >= 0 else (whole, '')
            line = text.count('\n', 0, m.start()) + 1
            yield path[len(root) + 1:], line, m.group(2), m.group(3), head, body


def lines(root):
    for path in sorted(glob.glob(f'{root}/crates/*/src/**/*.rt', recursive=True)):
        for n, line in enumerate(open(path, encoding='utf-8'), 1):
            yield path[len(root) + 1:], n, line.rstrip('\n')


def parameters(text):
    return [p for p in (re.sub(r'\s+', ' ', p).strip() for p in re.split(r',(?![^\[(<]*[\])>])', text)) if p]


def facts(head):
    m = re.search(r'(?s)requires(?: \w+)? \{(.*?)\}\s*(?=ensures|requires|$)', head)
    if not m:
        return []
    return [re.sub(r'^\((.*)\)$', r'\1', re.sub(r'\s+', ' ', p).strip()) for p in re.split(r' × |\n\s*× ', m.group(1)) if p.strip()]


def shape(body):
    body = re.sub(r'//[^\n]*', '', body)
    tokens = re.findall(r'\w+|[^\w\s]', body)
    words = {'let', 'mut', 'if', 'else', 'for', 'in', 'while', 'loop', 'match', 'return', 'true', 'false', 'as', 'u8', 'u16', 'u32', 'u64', 'usize', 'bool'}
    return tuple(t if t in words or not re.match(r'\w', t) else 'x' for t in tokens)


def places(root):
    found = collections.defaultdict(list)
    all_lines = list(lines(root))
    all_functions = list(functions(root))
    for path, n, line in all_lines:
        if re.match(r'\s*(while |loop\b|\'\w+: (while|loop))', line):
            found['3a'].append((path, n, line.strip()))
        if re.match(r'\s*for \w+ in [\w.]+\.\.', line):
            found['3b'].append((path, n, line.strip()))
        if re.search(r'\b(number: u16|UNSOUND|SETS|STOPPED|SHORT_AREA|NO_ROOM)\b', line) and not line.strip().startswith('//'):
            found['1b'].append((path, n, line.strip()))
        if re.match(r'\s*//.*\b(0|nothing|length|count) (where|if|when)\b', line) or re.match(r'\s*//.*\(0: ', line):
            found['1c'].append((path, n, line.strip()))
        if re.search(r'std::num::wrapping|fn (smaller|larger|is_at|order_of|by_number|by_length|alike|same)\b', line):
            found['4b'].append((path, n, line.strip()))
    by_path = collections.defaultdict(list)
    for path, n, line in all_lines:
        by_path[path].append(line)
    for path, ls in by_path.items():
        for i, line in enumerate(ls):
            m = re.match(r'\s*(?:pub )?enum (\w+)', line)
            if not m:
                continue
            variants = []
            for v in ls[i + 1:]:
                if v.strip() == '}':
                    break
                if v.strip() and not v.strip().startswith('//'):
                    variants.append(v.strip())
            if len(variants) == 2 and any(re.search(r'[({]', v) for v in variants):
                found['1a'].append((path, i + 1, f'{m.group(1)}: ' + ' '.join(variants)))
    twins = collections.defaultdict(list)
    asked = collections.Counter()
    travel = collections.Counter()
    for path, n, name, ps, head, body in all_functions:
        s = shape(body)
        if len(s) >= 14:
            twins[s].append((path, n, name))
        for f in set(facts(head)):
            asked[re.sub(r'\b[a-z]\w*\.(now|old|new)\b', '_', re.sub(r'\b[a-z]\b', '_', f))] += 1
        p = parameters(ps)
        for k in range(2, len(p) + 1):
            for i in range(len(p) - k + 1):
                travel[tuple(p[i:i + k])] += 1
        arms = re.findall(r'=> (\w+),', body)
        if arms and re.search(r'\bmatch\b', body) and set(arms) <= {'true', 'false'} and len(arms) == body.count('=>'):
            found['4a'].append((path, n, f'fn {name}'))
        if re.search(r': &(mut )?\[\w+\]', ps) and re.search(r'length \w+\.(now|old) ≡ \d+', head):
            found['6'].append((path, n, f'fn {name}'))
        if re.search(r'\b(look: Look|rule: Rule|letter: Letter|has: bool|removal: bool, named: bool)', ps):
            found['7'].append((path, n, f'fn {name}'))
    for s, fs in twins.items():
        if len(fs) > 1:
            for f in fs[1:]:
                found['2'].append((f[0], f[1], f'fn {f[2]}, like {fs[0][0]} fn {fs[0][2]}'))
    for f, c in asked.most_common():
        if c >= 3 and not re.fullmatch(r'[\w .+*≤<≡()\d/%-]{1,14}', f):
            found['5a'].append(('', 0, f'{c} contracts: {f}'))
    for p, c in travel.most_common():
        if c >= 6:
            found['5b'].append(('', 0, f'{c} functions: ' + ', '.join(p)))
    for pattern in ('Answers', 'Invariants'):
        for path in glob.glob(f'{root}/crates/*/proofs/**/{pattern}.antt', recursive=True):
            found['8'].append((path[len(root) + 1:], 0, pattern))
    return found


def main():
    args = sys.argv[1:]
    wanted = None
    if '--list' in args:
        i = args.index('--list')
        wanted = args[i + 1]
        del args[i:i + 2]
    found = places(args[0] if args else '.')
    if wanted:
        for path, n, what in found[wanted]:
            print(f'{path}:{n}: {what}' if path else what)
        return
    for point, what in POINTS:
        print(f'{point:3} {len(found[point]):5}  {what}')


main()
