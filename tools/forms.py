#!/usr/bin/env python3
"""Lists the places of the older forms in crates/*/src: python3 tools/forms.py [COMMIT] [POINT].

docs/DESIGN-PASS.md says what each point is. A place is printed as FILE:LINE and what stands there; a line `point N: K` ends each point.
Without a commit the files on disk are read. Tests (src/tests) are left out.
"""
import collections
import glob
import re
import subprocess
import sys


def sources(commit):
    """The source files, as pairs of path and text."""
    if commit:
        names = subprocess.run(['git', 'ls-tree', '-r', '--name-only', commit, 'crates'], capture_output=True, text=True, check=True).stdout.split()
        names = [n for n in names if re.fullmatch(r'crates/[^/]+/src/.+\.rt', n)]
        pairs = [(n, subprocess.run(['git', 'show', f'{commit}:{n}'], capture_output=True, text=True, check=True).stdout) for n in names]
    else:
        pairs = [(n, open(n).read()) for n in sorted(glob.glob('crates/*/src/**/*.rt', recursive=True))]
    return [(n, t) for n, t in pairs if not n.endswith('/tests.rt') and '/tests/' not in n]


def bare(text):
    """The text with its comments blanked out, so that lines keep their numbers."""
    return re.sub(r'//[^\n]*', lambda m: ' ' * len(m.group(0)), text)


def line_of(text, at):
    return text.count('\n', 0, at) + 1


def matches(files, pattern, label):
    for name, text in files:
        for m in re.finditer(pattern, bare(text), re.M):
            yield f'{name}:{line_of(text, m.start())}: {label}: ' + ' '.join(m.group(0).split())


def items(files, word):
    """Each struct or enum: its place, its name and its body."""
    for name, text in files:
        for m in re.finditer(rf'^(?:pub(?:\(crate\))? )?{word} (\w+)(?:<[^>]*>)? \{{\n(.*?)^\}}', bare(text), re.M | re.S):
            yield f'{name}:{line_of(text, m.start())}', m.group(1), m.group(2)


def functions(files):
    """Each function: its place, its name, what stands between name and body, and its body."""
    for name, text in files:
        plain = bare(text)
        for m in re.finditer(r'^( *)(?:pub(?:\(crate\))? )?fn (\w+)(.*?)^\1\}', plain, re.M | re.S):
            rest = m.group(3)
            body = re.search(rf'(?:^{m.group(1)}|\) (?:-> [^\n]+ )?)\{{\n', rest, re.M)
            cut = body.start() if body else len(rest)
            yield f'{name}:{line_of(text, m.start())}', m.group(2), rest[:cut], rest[cut:]


NOTHING = {'None', 'Nothing', 'Unknown', 'Unreadable', 'Missing', 'Bad', 'Other', 'Used', 'Failed', 'Never'}


def point_1(files):
    for place, name, body in items(files, 'enum'):
        units = set(re.findall(r'^    (\w+),$', body, re.M))
        if units & NOTHING and name not in ('Status', 'Effect'):
            yield f'{place}: an own Option or Result: enum {name}'
    for place, name, body in items(files, 'struct'):
        for flag in re.findall(r'^    (?:pub )?(\w+): bool,$', body, re.M):
            yield f'{place}: a flag beside a value: {name}.{flag}'
        for code in re.findall(r'^    (?:pub )?(refusal|kind|code|least): u16,$', body, re.M):
            yield f'{place}: a number for a kind or a refusal: {name}.{code}'
    for place, name, body in items(files, 'enum'):
        for code in re.findall(r'(\w+) ?(?:\{\s*kind: u16\b|(?<=Refused)\(u16\))', body):
            yield f'{place}: a number for a kind or a refusal: {name}::{code}'
    for place, name, head, _ in functions(files):
        if re.search(r'-> u16\b', head) and re.search(r'refus|code|kind_of|kind$', name):
            yield f'{place}: a number for a kind or a refusal: fn {name}'
        if re.search(r'\bcode: u16', head):
            yield f'{place}: a number for a kind: fn {name}'
        if re.search(r'-> usize', head) and re.search(r'\bposition\b|cond \(|place_in|next_event', head):
            yield f'{place}: a number where there is none: fn {name}'
    refusals = ('CONTENTS|PACKING|BELIEFS|PLANS|NO_SUCH_PLAN|NO_NUMBER_LEFT|UNREADABLE|NOT_WAITING|NOT_WELL_FORMED|NOT_FORMED|TOO_SHORT|TOO_LONG'
                '|TOO_MANY|NO_IMAGE|MALFORMED|SPENT|QUEUE_FULL|TABLE_FULL|NOWHERE')
    yield from matches(files, rf'^(?:pub(?:\(crate\))? )?const (?:{refusals}): u(?:16|size) = \d+;', 'a number for a refusal')
    yield from matches(files, r'^(?:pub(?:\(crate\))? )?const (?:ACTION|ACHIEVE|TOLD|DIVIDE|EXTERNAL|REMOVE|LAST_\w+): u16 = \d+;', 'a number for a kind')


def shape(text):
    """A body with its names numbered in order and its numbers blanked out."""
    seen = {}
    keep = {'if', 'else', 'while', 'for', 'in', 'let', 'mut', 'return', 'match', 'usize', 'bool', 'true', 'false', 'as', 'u16', 'u32', 'u8', 'u64', 'fn', 'move', 'len'}

    def number(m):
        word = m.group(0)
        return word if word in keep else seen.setdefault(word, f'x{len(seen)}')

    text = re.sub(r'\b\d\w*\b', '0', text)
    return ' '.join(re.sub(r'\b[A-Za-z_]\w*\b', number, text).split())


def point_2(files):
    groups = collections.defaultdict(list)
    for place, name, _, body in functions(files):
        if body.count('\n') >= 5:
            groups[shape(body)].append(f'{place}: fn {name}')
    for number, group in enumerate(sorted(g for g in groups.values() if len(g) > 1), 1):
        for place in group:
            yield place.replace(': fn', f': twins {number}: fn')
    for place, name, _, body in functions(files):
        if re.search(r'if [\w.]+ < ([A-Z_]+) \{\s*return [\w.]+;\s*\}\s*\1\s*\}', body):
            yield f'{place}: the lesser of two numbers: fn {name}'
    consts = collections.defaultdict(list)
    for name, text in files:
        for m in re.finditer(r'^(?:pub(?:\(crate\))? )?const (\w+): \w+ = ([^;]+);', bare(text), re.M):
            consts[m.group(1)].append((f'{name}:{line_of(text, m.start())}', m.group(2)))
    for word, found in sorted(consts.items()):
        if len(found) > 1 and len({value for _, value in found}) == 1:
            for place, _ in found:
                yield f'{place}: a number said twice: {word}'


def point_3(files):
    yield from matches(files, r"^ *(?:'\w+: )?while (?!let)[^\n]*", 'loop')
    for name, text in files:
        plain = bare(text)
        for m in re.finditer(r"^( *)(?:'\w+: )?for (\w+) in ([^\n]*?)\.\.[^\n]*\{\n(.*?)^\1\}", plain, re.M | re.S):
            if '[' not in m.group(3) and re.search(rf'\[{m.group(2)}\]', m.group(4)):
                yield f'{name}:{line_of(text, m.start())}: for over the indices of a slice'


def point_4(files):
    words = r'is_same\w*|same_\w+|is_name|\w+_code|origin_of|kind_of|status_of|is_suspended|is_waiting|is_goal|put_decimal|put_wide|put_short|put_two|put_four'
    yield from matches(files, rf'^ *(?:pub(?:\(crate\))? )?fn (?:{words})\(', 'by hand')


def point_5(files):
    pairs = collections.defaultdict(list)
    facts = collections.defaultdict(list)
    for place, name, head, _ in functions(files):
        plain = re.sub(r'^<.*?>(?=\()', '', head.strip(), flags=re.S)
        own = [p.strip() for p in re.split(r',\s*(?![^\[]*\])', re.sub(r'^\(|\).*$', '', plain, flags=re.S)) if ':' in p]
        for one, other in zip(own, own[1:]):
            pairs[(one, other)].append(f'{place}: fn {name}')
        for clause in re.findall(r'requires[^{]*\{ ([^{}]*) \}', head):
            for fact in re.split(r' × ', clause.replace('(', '').replace(')', '')):
                facts[' '.join(fact.split())].append(f'{place}: fn {name}')
    for (one, other), found in sorted(pairs.items()):
        if len(found) > 2:
            yield f'{found[0].split(": fn")[0]}: {len(found)} functions take ({one}, {other})'
    for fact, found in sorted(facts.items()):
        if len(found) > 2:
            yield f'{found[0].split(": fn")[0]}: {len(found)} contracts require {fact}'


def point_6(files):
    for place, name, body in items(files, 'struct'):
        if re.search(r': \[[^;]+; ?\w+\]', body) and re.search(r'\b(?:count|length|size|depth|queued|stacked): usize', body):
            yield f'{place}: an array with a length beside it: struct {name}'
    for place, name, head, _ in functions(files):
        if re.search(r': \[[^;\]]+; ?\w+\]', head) and re.search(r'\b(?:n|count|queued|stacked): usize', head):
            yield f'{place}: an array with a length beside it: fn {name}'


def point_7(files):
    for name, text in files:
        for m in re.finditer(r'^ *match \w+ \{\s*(Look|QueueMove|StackMove|Numbering|Decision|Outcome|Form)::', bare(text), re.M):
            yield f'{name}:{line_of(text, m.start())}: a switch on {m.group(1)}'


def main():
    args = sys.argv[1:]
    point = next((a for a in args if re.fullmatch(r'[1-7]', a)), None)
    commit = next((a for a in args if a != point), None)
    files = sources(commit)
    for number, find in enumerate((point_1, point_2, point_3, point_4, point_5, point_6, point_7), 1):
        if point and point != str(number):
            continue
        found = list(find(files))
        for place in found:
            print(place)
        print(f'point {number}: {len(found)}')


main()
