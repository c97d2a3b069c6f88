#!/usr/bin/env python3
"""A law stands once. said_once.py: prints the laws in specs/ and proofs/ that say the same but for the names of what they bind and the
order of what they ask for, and fails. What a module binds is bound by its laws. Definitions and fields of records are no laws."""
import collections
import glob
import os
import re
import sys

ROOT = os.path.dirname(os.path.dirname(os.path.abspath(__file__)))
# a projection is written behind its term, `w.heap`, and is a token of its own
TOKEN = re.compile(r'«[^»]*»|[(){};,λ]|\.[^\s(){};,λ.]+|[^\s(){};,λ.]+\.?(?![^\s(){};,λ.])|[^\s(){};,λ.]+|\.')
LAW = re.compile(r' *(?:pub )?([^\s(){}:=]+) : (.*)')
MORE = re.compile(r' +([→×≡≤<∙+(]|- |\|\||&&)')
BINDER = re.compile(r'[({] ([^(){}]*?) : (.*) [)}]')


def laws(text):
    """name, line, and the type with what the modules around it bind; not what is under a record, a definition or a proof"""
    lines, modules, under, i = text.split('\n'), [], None, 0
    while i < len(lines):
        line, number, indent = lines[i], i + 1, len(lines[i]) - len(lines[i].lstrip())
        i += 1
        if not line.strip() or line.lstrip().startswith('--') or under is not None and indent > under:
            continue
        modules, under = [m for m in modules if m[0] < indent], None
        law = LAW.match(line)
        while (law or 'module _' in line) and i < len(lines) and MORE.match(lines[i]):
            line, i = line + ' ' + lines[i].strip(), i + 1
        if line.lstrip().startswith('module _ '):
            modules.append((indent, line.strip()[len('module _ '):-len(' where')]))
        elif law:
            yield law[1], number, ' '.join([m for _, m in modules] + [LAW.match(line)[2]])
        else:
            under = indent


def pieces(tokens):
    """what a type asks for, one by one, and at last what it says"""
    out, depth = [[]], 0
    for t in tokens:
        depth += (t in '({') - (t in ')}')
        if t == '→' and depth == 0:
            out.append([])
        else:
            out[-1].append(t)
            if t in ')}' and depth == 0 and BINDER.fullmatch(' '.join(out[-1])):
                out.append([])
    return [' '.join(p) for p in out if p]


def normal(law):
    """the law with its names numbered as they come in what it says, then in what it asks for"""
    *asked, said = pieces(TOKEN.findall(law))
    bound, facts, names = {}, [], {}
    for k, piece in enumerate(asked):
        binder = BINDER.fullmatch(piece)
        later = set(re.findall(r'[^\s.]+', ' '.join(asked[k + 1:] + [said])))
        for n in binder[1].split() if binder else [piece]:
            kind = binder[2] if binder else piece
            if binder and (n in later or ' ' not in kind or not set(kind.split()) & (set(bound) | set('≡≤<⊎×'))):
                bound[n] = kind
            else:
                facts.append(kind)
    inner = {n for group in re.findall(r'(?:[({](?=[^(){}λ.]* :)|λ) ([^(){}λ.:]*[^(){}λ.:\s])', ' '.join(asked + [said])) for n in group.split()}

    def numbered(piece):
        return ' '.join(names.setdefault(t.rstrip('.'), f'#{len(names)}') if t.rstrip('.') in bound or t.rstrip('.') in inner else t for t in piece.split())

    said = numbered(said)
    asked = sorted(map(numbered, sorted(facts, key=lambda f: ['#' if t in bound else t for t in f.split()])))
    return said, tuple(asked), tuple(sorted(numbered(n) + ' ' + numbered(kind) for n, kind in bound.items() if n in names))


def main():
    seen = collections.defaultdict(list)
    for path in sorted(found for part in ('specs', 'proofs') for found in glob.glob(os.path.join(ROOT, 'crates/*', part, '**/*.antt'), recursive=True)):
        where = os.path.relpath(path, ROOT).split(os.sep)
        # the proof of a function, in a folder of its own, says what rattle asks of it and no law
        if where[2] == 'specs' or len(where) == 4:
            for name, line, law in laws(open(path, encoding='utf-8').read()):
                key = normal(law)
                if re.search('[a-z#]', key[0]):
                    seen[key].append(f'{os.path.relpath(path, ROOT)}:{line}: {name}')
    twice = [places for places in seen.values() if len(places) > 1]
    for places in twice:
        print('said more than once: ' + '; '.join(places))
    print(f'said once: {len(seen)} laws, {len(twice)} more than once')
    sys.exit(len(twice) > 0)


main()
