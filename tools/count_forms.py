#!/usr/bin/env python3
"""Counts the places in crates/*/src that read like the older language, point by point (docs/DESIGN-PASS.md).

    tools/count_forms.py [-v] [COMMIT]

Without COMMIT it reads the checkout, with it that commit. -v prints each place.
"""
import collections
import re
import subprocess
import sys

verbose = '-v' in sys.argv
commits = [a for a in sys.argv[1:] if a != '-v']


def git(*args):
    return subprocess.run(['git', *args], capture_output=True, text=True, check=True).stdout


def sources():
    names = git('ls-tree', '-r', '--name-only', commits[0] if commits else 'HEAD').split('\n')
    for name in names:
        if re.fullmatch(r'crates/\w+/src/\w+\.rt', name):
            yield name, git('show', f'{commits[0]}:{name}') if commits else open(name).read()


def plain(text):
    text = re.sub(r'//[^\n]*', '', text)
    return re.sub(r'^ghost use [^\n]*\n', '', text, flags=re.M)


def functions(text):
    """Each function: its name, parameters, clauses and body."""
    for head in re.finditer(r'^( *)(?:pub(?:\(crate\))? )?(?:extern "C" )?fn (\w+)(?:<[^>]*>)?\(', text, re.M):
        close = f'\n{head.group(1)}}}'
        end = text.find(close, head.end())
        whole = text[head.start():end + len(close)]
        start = whole.find(f'\n{head.group(1)}{{')
        top, body = whole[:start], whole[start:]
        yield head.group(2), top, body


def clauses(top):
    for clause in re.findall(r'requires (?:\w+ )?\{(.*?)\}(?=\s*(?:requires|ensures|$))', top, re.S):
        for part in re.split(r' × ', ' '.join(clause.split())):
            yield part.strip(' ()')


def shape(body):
    """A body with its types, numbers, constants and names taken away: bodies of one shape may be twins."""
    body = re.sub(r'\b[ui](?:8|16|32|64|size)\b', 'T', ' '.join(body.split()))
    body = re.sub(r'\b[A-Z][A-Z_0-9]+\b|\b\d[\d_]*\b', 'N', body)
    names = {}
    return re.sub(r'\b[A-Za-z_]\w*(?:(?:::|\.)\w+)*',
                  lambda m: m.group() if m.group() in KEPT else names.setdefault(m.group(), f'v{len(names)}'), body)


KEPT = set('let mut if else while loop return match for in as true false break len'.split())
found = collections.defaultdict(list)
clauses_in = collections.defaultdict(set)
shapes = collections.defaultdict(list)

for path, text in sources():
    crate = path.split('/')[1]
    text = plain(text)
    for enum in re.finditer(r'^pub(?:\(crate\))? enum (\w+) \{\n(.*?)^\}', text, re.M | re.S):
        variants = re.findall(r'^    (\w+)(\(.*\))?,', enum.group(2), re.M)
        if len(variants) == 2 and (any(v[1] for v in variants)):
            found['1 enum like Option or Result'].append(f'{path}: {enum.group(1)}')
    for beside in re.finditer(r'^    (?:pub(?:\(crate\))? )?(fault|listed|found|number): (Fault|Listed|bool|u8|Result.*),$', text, re.M):
        found['1 refusal or flag beside a value'].append(f'{path}: {beside.group(1)}: {beside.group(2)}')
    for kind in re.finditer(r'^    (?:pub(?:\(crate\))? )?(side|right|style|market|settlement|paid|kind|table): u8,$', text, re.M):
        found['1 number for a kind'].append(f'{path}: {kind.group(1)}')
    for name, top, body in functions(text):
        where = f'{path}: {name}'
        for arm in re.findall(r'(?:Fault::Is|\w+::Refused|Err)\((\w+)\) => (?:return )?(?:\w+::Refused|Fault::Is|Err)\(\1\)', body):
            found['1 refusal handed on by a match'].append(where)
        if len(body) > 90:
            shapes[shape(body)].append(where)
        for loop in re.finditer(r"(?:while|loop)\b", body):
            found['3 loop that counts by hand'].append(where)
        if re.fullmatch(r'(same_\w+|smaller|larger|equal|\w+_number|side_of|wide)', name):
            found['4 equality, order or conversion by hand'].append(where)
        for clause in set(clauses(top)):
            clauses_in[crate, re.sub(r'\b(old|new)\b', 'now', clause)].add(where)
        slices = re.findall(r'(\w+): &(?:mut )?\[', top)
        for pair in (('placement', 'members'), ('holdings', 'placement'), ('indices', 'numbers'), ('lows', 'highs'),
                     ('strike_column', 'unit_column')):
            if all(p in slices for p in pair):
                point = '5 parameters that travel together' if pair[0] in ('placement', 'holdings') else '6 parallel lists'
                found[point].append(f'{where} ({", ".join(pair)})')
        for pick in re.findall(r'match (?:kind|side|form|number) \{', body):
            found['7 switch on a kind'].append(where)

for (crate, clause), users in clauses_in.items():
    if len(users) >= 3:
        found['5 fact asked by three or more functions'] += [f'{w}: {clause}' for w in sorted(users)]
for same in shapes.values():
    if len(same) > 1:
        found['2 twin'] += same
names = git('ls-tree', '-r', '--name-only', commits[0] if commits else 'HEAD')
walks = re.findall(r'^crates/\w+/proofs/.*/Proof\.antt$', names, re.M)
answers = re.findall(r'^crates/\w+/proofs/.*/Answers\.antt$', names, re.M)
found['8 proof that walks through the whole function'] = walks
for point in sorted(found):
    print(f'{len(found[point]):5}  {point}')
    if verbose:
        for place in found[point]:
            print(f'         {place}')
print(f'{len(answers):5}  (proof by answers)')
