#!/usr/bin/env python3
"""Sets what changed since a commit side by side: python3 tools/changes.py COMMIT [NEWER].

Public items of src/, definitions of specs/, theorems of proofs/ whose names README or docs/ have as a word, and must-fail edits.
A line that begins with `-` is the older text, one with `+` the newer; without NEWER it is the files on disk. By text alone: a reader judges.
It prints the lists of docs/DESIGN-PASS-CHANGES.md.
"""
import glob
import re
import subprocess
import sys

# mathlib's words of the older files, and std's, which have the same clauses.
WORDS = {'none': 'None', 'some': 'Some', 'all': 'list_all', 'any': 'list_any'}
MODIFIERS = r'(?:(?:abbrev|unfoldable|pub|opaque|private) )*'
OWN_PAGES = ('docs/DESIGN-PASS-CHANGES.md', 'docs/PORT.md')


def files(commit, pattern):
    """Paths and texts of a commit, or of the disk."""
    if commit is None:
        names = [n for n in glob.glob('**/*', recursive=True) if re.fullmatch(pattern, n)]
        return [(n, open(n, encoding='utf-8').read()) for n in sorted(names)]
    listed = subprocess.run(['git', 'ls-tree', '-r', '--name-only', commit], capture_output=True, text=True, check=True).stdout.split('\n')
    names = [n for n in listed if re.fullmatch(pattern, n)]
    return [(n, subprocess.run(['git', 'show', f'{commit}:{n}'], capture_output=True, text=True, check=True).stdout) for n in names]


def one_line(text):
    return ' '.join(text.split())


def closing(text, at):
    """The place behind the bracket that closes the one at a place."""
    depth = 0
    for i in range(at, len(text)):
        depth += text[i] in '{([' or -(text[i] in '})]')
        if depth == 0:
            return i + 1
    return len(text)


def signature_end(text, at):
    """Where a function's body begins: the first brace that no clause has before it."""
    while True:
        brace = text.find('{', at)
        if brace < 0:
            return len(text)
        line = text[text.rfind('\n', 0, brace) + 1:brace]
        if re.search(r'(?:requires|ensures)\*?(?: \w+)?\s*$', line):
            at = closing(text, brace)
            continue
        return brace


def public_items(commit):
    """Public functions with their clauses, structs, enums and constants, by crate and name."""
    found = {}
    for name, text in files(commit, r'crates/\w+/src/.*\.rt'):
        if name.endswith('/tests.rt') or '/tests/' in name:
            continue
        crate = name.split('/')[1]
        text = re.sub(r'//[^\n]*', '', text)
        types = [(m.start(), closing(text, m.end() - 1), m.group(1)) for m in re.finditer(r"^impl(?:<[^\n]*?>)? (?:\w+(?:<[^\n]*>)? for )?(\w+)[^\n]*\{", text, re.M)]
        for m in re.finditer(r'^ *(?:#\[derive[^\n]*\]\n)?( *)pub (?:const )?(fn|struct|enum|const|trait|type) (\w+)', text, re.M):
            owner = next((f'{t}::' for a, b, t in types if a < m.start() < b), '')
            word = m.group(2)
            if word == 'fn':
                end = signature_end(text, m.start())
            elif word in ('const', 'type'):
                end = text.find(';', m.start()) + 1
            else:
                semi, brace = text.find(';', m.start()), text.find('{', m.start())
                end = semi + 1 if 0 <= semi < brace or brace < 0 else closing(text, brace)
            found.setdefault((crate, owner + m.group(3)), []).append(one_line(text[m.start():end]))
        for m in re.finditer(r'^impl(?:<[^\n]*?>)? (\S[^\n]* for \S[^\n]*?) \{', text, re.M):
            for f in re.finditer(r'^    fn (\w+)', text[m.end():closing(text, m.end() - 1)], re.M):
                at = m.end() + f.start()
                found.setdefault((crate, f'{m.group(1)}::{f.group(1)}'), []).append(one_line(text[at:signature_end(text, at)]))
    return {key: ' / '.join(texts) for key, texts in found.items()}


def blocks(text):
    """Each definition or theorem of a file: its name, the parameters of its modules, its signature and its equations."""
    lines = [re.sub(r'(^|\s)-- .*$', '', line).rstrip() for line in text.split('\n')]
    modules = []
    i = 0
    while i < len(lines):
        line = lines[i]
        indent = len(line) - len(line.lstrip())
        if not line.strip():
            i += 1
            continue
        while modules and indent <= modules[-1][0]:
            modules.pop()
        depth = modules[-1][0] + 2 if modules else 0
        if re.match(r'\s*module _ ', line):
            head = line
            while not head.rstrip().endswith('where') and i + 1 < len(lines):
                i += 1
                head += ' ' + lines[i]
            modules.append((indent, one_line(re.sub(r'^\s*module _ | where$', '', head.rstrip()))))
            i += 1
            continue
        m = re.match(rf'\s*{MODIFIERS}(?:(?:data|record) ([^\s:]+)|([^\s:(){{}}]+) :(?:\s|$))', line)
        if not m or indent != depth:
            i += 1
            continue
        name = m.group(1) or m.group(2)
        body = [line]
        i += 1
        while i < len(lines):
            nxt = lines[i]
            own = len(nxt) - len(nxt.lstrip())
            if nxt.strip() and own <= indent and not re.match(rf'\s*(?:unfolding\b|{re.escape(name)}\b|\.\.\.)', nxt):
                break
            if not nxt.strip() and not any(l.strip() and len(l) - len(l.lstrip()) > indent for l in lines[i + 1:i + 2]):
                break
            body.append(nxt)
            i += 1
        params = ' '.join(p for _, p in modules)
        equation = next((k for k, l in enumerate(body) if k and re.match(rf'\s*(?:unfolding\b|{re.escape(name)}(?:\s|$))', l) and len(l) - len(l.lstrip()) == indent), len(body))
        yield name, params, one_line('\n'.join(body[:equation])), one_line('\n'.join(body))


def definitions(commit):
    found = {}
    for path, text in files(commit, r'crates/\w+/specs/.*\.antt'):
        if path.endswith('/Lib.antt'):
            continue
        for name, params, _, whole in blocks(text):
            found.setdefault((path.split('/')[1], name), []).append(f'{params} ⊢ {whole}' if params else whole)
    return {key: ' / '.join(sorted(texts)) for key, texts in found.items()}


def theorems(commit, pages):
    found = {}
    for path, text in files(commit, r'crates/\w+/proofs/.*\.antt'):
        if path.endswith(('/Lib.antt', '/Answers.antt', '/Invariants.antt')):
            continue
        for name, params, signature, _ in blocks(text):
            if name in pages and re.match(r'(?:abbrev |unfoldable )*pub ', signature):
                found.setdefault((path.split('/')[1], name), []).append(f'{params} ⊢ {signature}' if params else signature)
    return {key: ' / '.join(sorted(texts)) for key, texts in found.items()}


def page_words(commit):
    text = '\n'.join(t for n, t in files(commit, r'README\.md|docs/.*\.md') if n not in OWN_PAGES and n != 'docs/DESIGN-PASS.md')
    return set(re.findall(r"[A-Za-z_][A-Za-z0-9_'\-]*", text))


def edits(commit):
    return {(n.split('/')[1], n.split('/')[-1][:-5]): t for n, t in files(commit, r'crates/\w+/must-fail/.*\.edit')}


def respelled(text):
    return re.sub(r"(?<![\w-])(none|some|all|any)(?![\w-])", lambda m: WORDS[m.group(1)], text)


def moved(gone, new, across=False):
    """Items that are gone where another place of the crate, or across crates another crate, has one of the same last name: as pairs of keys."""
    pairs = {}
    for key in sorted(gone):
        last = key[1].split('::')[-1]
        for fits in ((lambda k: k[0] == key[0] and k[1].split('::')[-1] == last), (lambda k: across and k[1] == key[1])):
            places = [k for k in new if fits(k) and k not in pairs.values()]
            if len(places) == 1:
                pairs[key] = places[0]
                break
    return pairs


def show(title, old, new):
    print(f'## {title}\n')
    gone, fresh = set(old) - set(new), set(new) - set(old)
    pairs = moved(gone, fresh)
    both = {key: key for key in set(old) & set(new)} | pairs
    same = [k for k in both if old[k] == new[both[k]]]
    spelled = [k for k in both if k not in same and respelled(old[k]) == respelled(new[both[k]])]
    changed = sorted(k for k in both if k not in same and k not in spelled)
    gone, fresh = sorted(gone - set(pairs)), sorted(fresh - set(pairs.values()))
    print(f'{len(old)} at the beginning, {len(new)} now: {len(same)} the same, {len(spelled)} the same but for `None`, `Some`, `list_all` and `list_any`, '
          f'{len(changed)} changed, {len(gone)} gone, {len(fresh)} new.\n')
    for head, keys, text in (('Changed', changed, lambda k: f'- {old[k]}\n+ {new[both[k]]}'), ('Gone', gone, lambda k: f'- {old[k]}'), ('New', fresh, lambda k: f'+ {new[k]}')):
        if keys:
            print(f'### {head}\n')
        for k in keys:
            place = '' if both.get(k, k) == k else f', now {both[k][0]} `{both[k][1]}`'
            print(f'{k[0]} `{k[1]}`{place}\n\n```text\n{text(k)}\n```\n')


def show_edits(old, new):
    print('## Must-fail edits\n')
    pairs = moved(set(old) - set(new), set(new) - set(old), across=True)
    both = {key: key for key in set(old) & set(new)} | pairs

    def lines(text):
        return [l for l in text.strip().split('\n') if re.match(r'(?:file|old|new):', l)]

    another = sorted(k for k in both if lines(old[k]) != lines(new[both[k]]))
    fresh = sorted(set(new) - set(old) - set(pairs.values()))
    gone = sorted(set(old) - set(new) - set(pairs))
    print(f'{len(old)} at the beginning, {len(new)} now: {len(both) - len(another)} have the same text, {len(another)} another text (for the same wrong program, '
          f'but for those that DESIGN-PASS.md names), {len(pairs)} of all these stand in the crate that has their code now, {len(fresh)} are new, {len(gone)} gone.\n')
    print('### Another text\n')
    for k in another:
        place = '' if both[k] == k else f', now {both[k][0]}'
        print(f'{k[0]} `{k[1]}`{place}\n\n```text')
        print('\n'.join('- ' + l for l in lines(old[k])))
        print('\n'.join('+ ' + l for l in lines(new[both[k]])))
        print('```\n')
    print('### New\n')
    for k in fresh:
        first = new[k].strip().split('\n')[0]
        print(f'- {k[0]} `{k[1]}`: ' + first.lstrip('# ').rstrip())
    for k in gone:
        print(f'- gone: {k[0]} `{k[1]}`')


def main():
    old = sys.argv[1]
    new = sys.argv[2] if len(sys.argv) > 2 else None
    pages = page_words(old)
    show('Public items of src/', public_items(old), public_items(new))
    show('Definitions of specs/', definitions(old), definitions(new))
    show('Theorems of proofs/ that README or docs/ name', theorems(old, pages), theorems(new, pages))
    show_edits(edits(old), edits(new))


main()
