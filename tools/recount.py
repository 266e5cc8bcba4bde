#!/usr/bin/env python3
"""Counts the older forms in crates/*/src a second way: python3 tools/recount.py [POINT].

It reads the files as tokens and takes no pattern from tools/forms.py, which names what it looks for; here a place is told by its form
alone, so the list is wider: it says where to look, and docs/DESIGN-PASS.md what was found there. A place is printed as
FILE:LINE: point N: what stands there. Tests are left out.
"""
import collections
import itertools
import pathlib
import sys

SIGNS = ('..=', '->', '=>', '::', '..', '==', '!=', '<=', '>=', '&&', '||', '+=', '-=')
PAIRS = {'(': ')', '[': ']', '{': '}'}
KEPT = {'if', 'else', 'while', 'for', 'in', 'let', 'mut', 'return', 'match', 'as', 'true', 'false', 'move', 'loop', 'break', 'continue'}
WIDTHS = {'u8', 'u16', 'u32', 'u64'}
NUMBERS = ('kind', 'code', 'refusal', 'status', 'least')


def tokens(text):
    """The words and signs of a file, each with its line; comments are left out, a text is one word."""
    at, line, out = 0, 1, []
    while at < len(text):
        c = text[at]
        end = at + 1
        if c == '\n':
            line += 1
        elif text.startswith('//', at):
            end = text.find('\n', at)
            end = len(text) if end < 0 else end
        elif c == '"':
            while text[end] != '"':
                end += 2 if text[end] == '\\' else 1
            end += 1
            out.append((text[at:end], line))
        elif c.isalnum() or c == '_':
            while end < len(text) and (text[end].isalnum() or text[end] == '_'):
                end += 1
            out.append((text[at:end], line))
        elif not c.isspace():
            end = at + next((len(s) for s in SIGNS if text.startswith(s, at)), 1)
            out.append((text[at:end], line))
        at = end
    return out


def close(toks, at):
    """Behind the bracket that closes the one here."""
    deep = 0
    for i in range(at, len(toks)):
        deep += (toks[i][0] in PAIRS) - (toks[i][0] in PAIRS.values())
        if deep == 0:
            return i + 1
    return len(toks)


def words(toks):
    return [t for t, _ in toks]


def split(toks):
    """Parts between the commas that stand in no bracket and in no type's arguments."""
    parts, deep = [[]], 0
    for t in toks:
        deep += (t[0] in '([{<') - (t[0] in ')]}>')
        if t[0] == ',' and deep == 0:
            parts.append([])
        else:
            parts[-1].append(t)
    return [p for p in parts if p]


def until(toks, at, ends):
    """The next token of these that stands outside brackets."""
    while at < len(toks) and toks[at][0] not in ends:
        at = close(toks, at) if toks[at][0] in PAIRS else at + 1
    return at


Item = collections.namedtuple('Item', 'file line kind name head parts body')


def items(name, toks):
    """The functions, structs, enums and constants of a file."""
    for i, (word, line) in enumerate(toks):
        if word not in ('fn', 'struct', 'enum', 'const'):
            continue
        if word == 'fn':
            start = until(toks, i + 2, ('(',))
            end = close(toks, start)
            body = until(toks, end, ('{', ';'))
            while toks[body][0] == '{' and {'requires', 'ensures'} & set(words(toks[body - 2:body])):
                body = until(toks, close(toks, body), ('{', ';'))
            yield Item(name, line, 'fn', toks[i + 1][0], toks[end:body], split(toks[start + 1:end - 1]), toks[body:close(toks, body)])
        elif word == 'const':
            end = until(toks, i, (';',))
            yield Item(name, line, 'const', toks[i + 1][0], toks[i + 2:end], [], [])
        else:
            at = until(toks, i, ('{', ';'))
            end = close(toks, at)
            yield Item(name, line, word, toks[i + 1][0], toks[i + 1:at], split(toks[at + 1:end - 1]), toks[at:end])


def renamed(toks):
    """A body with each name by its order and each number alike."""
    seen = {}
    return tuple('0' if t[0].isdigit() else t if t in KEPT or not t[0].isalpha() else seen.setdefault(t, len(seen)) for t in words(toks))


def field(part):
    """Name and type of a field or of a parameter."""
    said = [w for w in words(part) if w not in ('pub', 'crate', 'mut')]
    at = said.index(':') if ':' in said else len(said)
    return (said[at - 1] if at else '', ' '.join(said[at + 1:]))


def point_1(all_items):
    for x in all_items:
        if x.kind == 'enum':
            bare = [p[-1][0] for p in x.parts if not any(t in PAIRS for t in words(p)) and '=' not in words(p)]
            if bare and len(x.parts) - len(bare) == 1:
                yield x, f'enum {x.name}: {", ".join(bare)} beside one case with a value'
            for p in x.parts:
                if 'u16' in words(p) and (words(p)[1:] == ['(', 'u16', ')'] or set(NUMBERS) & set(words(p))):
                    yield x, f'enum {x.name}: a number in {p[0][0]}'
        if x.kind == 'struct':
            for name, kind in map(field, x.parts):
                if kind == 'bool' or (kind in WIDTHS and name in NUMBERS):
                    yield x, f'struct {x.name}: {name}: {kind}'
        if x.kind == 'fn':
            result = words(x.head)[1:2] if x.head[:1] and x.head[0][0] == '->' else []
            names = [n for n, k in map(field, x.parts) if k in WIDTHS and n in NUMBERS]
            if names or (result and result[0] in WIDTHS and any(w in x.name for w in NUMBERS)):
                yield x, f'fn {x.name}: a number for {" ".join(names) or "its result"}'


def point_2(all_items):
    groups = collections.defaultdict(list)
    for x in all_items:
        if x.kind == 'fn' and len(x.body) > 24:
            groups[renamed(x.body)].append(x)
        if x.kind == 'const':
            groups['const', x.name].append(x)
    for key, group in groups.items():
        if len(group) > 1 and (key[0] != 'const' or len({tuple(words(x.head)) for x in group}) == 1):
            for x in group:
                yield x, f'{x.kind} {x.name}: as {", ".join(f"{y.file}:{y.line}" for y in group if y is not x)}'


def point_3(all_items):
    for x in all_items:
        said = words(x.body) if x.kind == 'fn' else []
        for i, word in enumerate(said):
            if word == 'while' and said[i + 1] != 'let':
                yield x._replace(line=x.body[i][1]), f'fn {x.name}: while'
            if word == 'for' and said[i + 2:i + 3] == ['in']:
                at = until(x.body, i, ('{',))
                inside = said[at:close(x.body, at)]
                if {'..', '..='} & set(said[i:at]) and any(inside[k:k + 3] == ['[', said[i + 1], ']'] for k in range(len(inside))):
                    yield x._replace(line=x.body[i][1]), f'fn {x.name}: for over indices'


def point_4(all_items):
    for x in all_items:
        shape = [field(p)[1].lstrip('& ') for p in x.parts]
        if x.kind == 'fn' and words(x.head)[:2] == ['->', 'bool'] and len(shape) == 2 and shape[0] == shape[1]:
            yield x, f'fn {x.name}: a test of two {shape[0]}'
        arms = words(x.body)
        if x.kind == 'fn' and x.parts and arms[:2] == ['{', 'match'] and arms.count('=>') > 2 and '(' not in arms:
            yield x, f'fn {x.name}: a match that only converts'
        if x.kind == 'fn' and {'%', '/'} & set(arms) and any(w.startswith('10') for w in arms):
            yield x, f'fn {x.name}: digits by hand'


def point_5(all_items):
    pairs = collections.defaultdict(list)
    for x in all_items:
        if x.kind == 'fn':
            for pair in itertools.combinations([f for f in map(field, x.parts) if f[1]], 2):
                pairs[tuple(sorted(pair))].append(x)
    for (one, two), group in sorted(pairs.items()):
        if len(group) > 2:
            takers = ', '.join(sorted({x.name for x in group}))
            yield group[0], f'{len(group)} functions take {one[0]}: {one[1]} and {two[0]}: {two[1]}: {takers}'


def point_6(all_items):
    for x in all_items:
        if x.kind in ('struct', 'fn'):
            found = list(map(field, x.parts))
            if any(k.startswith('[') and ';' in k for _, k in found) and any(k == 'usize' for _, k in found):
                yield x, f'{x.kind} {x.name}: an array and a usize'


def arms_of(toks):
    """What each arm of a match is for, and what it does."""
    at = 0
    while at < len(toks):
        arrow = until(toks, at, ('=>',))
        block = arrow + 1 < len(toks) and toks[arrow + 1][0] == '{'
        end = close(toks, arrow + 1) if block else until(toks, arrow, (',',))
        if arrow + 1 < end:
            yield words(toks[at:arrow]), words(toks[arrow + 1:end])
        at = end + (end < len(toks) and toks[end][0] == ',')


def point_7(all_items):
    own = {x.name for x in all_items if x.kind == 'enum'}
    for x in all_items:
        said = words(x.body) if x.kind == 'fn' else []
        for i, word in enumerate(said):
            if word == 'match':
                at = until(x.body, i, ('{',))
                arms = list(arms_of(x.body[at + 1:close(x.body, at) - 1]))
                kinds = [said for said, _ in arms if said[0] in own and said[1:2] == ['::']]
                calls = ['(' in does for _, does in arms]
                if kinds and len(arms) > 1 and any(calls) and all(call or len(arm[1]) < 3 for call, arm in zip(calls, arms)):
                    yield x._replace(line=x.body[i][1]), f'fn {x.name}: a match on {kinds[0][0]} of calls'


def main():
    every = []
    for path in sorted(pathlib.Path('crates').glob('*/src/**/*.rt')):
        if path.name != 'tests.rt' and 'tests' not in path.parts:
            every += items(str(path), tokens(path.read_text()))
    for number, find in enumerate((point_1, point_2, point_3, point_4, point_5, point_6, point_7), 1):
        if not sys.argv[1:] or sys.argv[1] == str(number):
            found = [f'{x.file}:{x.line}: point {number}: {what}' for x, what in find(every)]
            print('\n'.join(found + [f'point {number}: {len(found)}']))


main()
