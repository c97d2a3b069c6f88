#!/usr/bin/env python3
"""The must-fail edits and docs/MUST-FAIL.md, held to each other: every edit has one row and every row an edit, each `old:` text stands
exactly once in the file that it names, and what a row says refuses the edit is there (a function of the crate's code, or a law of its
definitions or proofs). Seconds, no proof.

What `rt ci` or `rt must-fail` wrote, kept in a file, says what refused each edit first:
    tests/edits.py --said FILE          compares the table's last column with it
    tests/edits.py --said FILE --write  writes that column anew, of the edits that FILE has
"""
import glob
import os
import re
import sys

ROOT = os.path.dirname(os.path.dirname(os.path.abspath(__file__)))
TABLE = os.path.join(ROOT, 'docs', 'MUST-FAIL.md')
ROW = re.compile(r'^\| (?P<about>[^|]+) \| (?P<promise>[^|]+) \| `(?P<edit>[a-z_]+/[A-Za-z0-9_-]+)` \| (?P<by>[^|]*) \|$')
# the files of a function's proof
PROOF = ('Answers', 'Invariants', 'Proof')
# what an error says of a proof that no longer fits the code, which shows nothing
MISFIT = re.compile(r'has no `|has no field|no module|not found|unknown name|was not admitted')


def edits():
    found = {}
    for path in sorted(glob.glob(os.path.join(ROOT, 'crates', '*', 'must-fail', '*.edit'))):
        crate = path.split(os.sep)[-3]
        found[crate + '/' + os.path.basename(path)[:-len('.edit')]] = path
    return found


def misplaced(path):
    """What is wrong with an edit's texts, or nothing."""
    crate = os.path.dirname(os.path.dirname(path))
    texts, name, old, pairs = {}, None, None, 0
    with open(path, encoding='utf-8') as lines:
        for line in lines.read().split('\n'):
            if line.startswith('file: '):
                name = line[len('file: '):]
            elif line.startswith('old: '):
                old = line[len('old: '):]
            elif line.startswith('new:'):
                new = re.sub('^ ', '', line[len('new:'):])
                if name not in texts:
                    full = os.path.join(crate, name or '')
                    if not os.path.isfile(full):
                        return 'names no file of the crate'
                    with open(full, encoding='utf-8') as source:
                        texts[name] = source.read()
                if not old or texts[name].count(old) != 1:
                    return 'an `old:` text stands %d times in %s' % (texts[name].count(old) if old else 0, name)
                texts[name] = texts[name].replace(old, new)
                old, pairs = None, pairs + 1
    return None if pairs else 'has no `old:` and `new:` pair'


def refusers(said):
    """By what `rt ci` or `rt must-fail` said of each edit, by its name: what refuses it, a function of the code or a law with its file, or nothing
    where it was not refused; and whether the proof only no longer fits, which rt says or the words of the error show."""
    found = {}
    for edit, told in re.findall(r'^rt: must-fail ([\w-]+/[\w.-]+)\.edit: (.*)', said, re.M):
        crate = edit.split('/')[0]
        law = re.search(r'(?:^|[ /])(proofs|specs)/([^ :]*)\.antt:\d+:\d+: error: `([^`]*)`', told)
        code = re.search(r'(?:^|[ /])src/([^ :]*)\.rt:(\d+):\d+:', told)
        by = None
        if told.startswith('refused') and law:
            part, where, name = law.groups()
            *function, file = where.split('/')
            by = '`%s`' % '::'.join(p for p in function if p[0] != '+') if part == 'proofs' and function and file in PROOF else '`%s` (`%s`)' % (name, where)
        elif told.startswith('refused') and code:
            by = '`%s`' % function_at(crate, code[1], int(code[2]))
        found[edit] = by, by is None or '(only because' in told or bool(MISFIT.search(told))
    return found


def function_at(crate, module, line):
    """The function of the code in which a line stands."""
    with open(os.path.join(ROOT, 'crates', crate, 'src', module + '.rt'), encoding='utf-8') as source:
        text = source.read().split('\n')
    # an attribute above a function is its own
    while line < len(text) and text[line - 1].lstrip().startswith('#['):
        line += 1
    text = text[:line]
    of, name = '', '?'
    for row in text:
        head = re.match(r'(?:unsafe )?impl(?:<[^>]*>)? (?:[\w:<>, ]+ for )?(\w+)', row)
        function = re.match(r'(\s*)(?:pub(?:\([^)]*\))? )?(?:const |unsafe |extern "C" )*fn (\w+)', row)
        if head:
            of = head[1] + '::'
        if function:
            name = (of if function[1] else '') + function[2]
    return name if module in ('lib', 'main') else module + '::' + name


def named(crate, by):
    """Whether every name of a row's last column is there, in the crate that the edit changes."""
    text = ''
    for part in ('src/**/*.rt', 'specs/**/*.antt', 'proofs/**/*.antt'):
        for path in glob.glob(os.path.join(ROOT, 'crates', crate, part), recursive=True):
            with open(path, encoding='utf-8') as source:
                text += source.read()
    names = re.findall(r'`([^`]+)`', by)
    return bool(names) and all(re.search(r'(?<![\w-])%s(?![\w-])' % re.escape(n.split('::')[-1].split('/')[-1]), text)
                               or os.path.exists(os.path.join(ROOT, 'crates', crate, 'specs', n + '.antt'))
                               or os.path.exists(os.path.join(ROOT, 'crates', crate, 'proofs', n + '.antt')) for n in names)


def main(words):
    wrong, rows, lines = [], {}, []
    found, said = edits(), None
    if '--said' in words:
        with open(words[words.index('--said') + 1], encoding='utf-8', errors='replace') as file:
            said = refusers(file.read())
    with open(TABLE, encoding='utf-8') as table:
        for line in table.read().split('\n'):
            row = ROW.match(line)
            if row:
                edit = row['edit']
                crate = edit.split('/')[0]
                if edit in rows:
                    wrong.append('%s: two rows' % edit)
                rows[edit] = row['by']
                if edit not in found:
                    wrong.append('%s: a row, and no such edit' % edit)
                elif said is not None and (edit in said or '--write' not in words):
                    by, misfit = said.get(edit, (None, True))
                    if misfit:
                        wrong.append('%s: the first error is no fact' % edit)
                    if by and '--write' in words:
                        line = '| %s | %s | `%s` | %s |' % (row['about'], row['promise'], edit, by)
                    elif by != row['by']:
                        wrong.append('%s: refused at %s, the row says %s' % (edit, by, row['by']))
                elif not named(crate, row['by']):
                    wrong.append('%s: %s is not in the crate' % (edit, row['by'] or 'what refuses it'))
            lines.append(line)
    for edit, path in found.items():
        if edit not in rows:
            wrong.append('%s: no row' % edit)
        fault = misplaced(path)
        if fault:
            wrong.append('%s: %s' % (edit, fault))
    if '--write' in words:
        with open(TABLE, 'w', encoding='utf-8') as table:
            table.write('\n'.join(lines))
    for line in wrong:
        print('edits: ' + line)
    if wrong:
        return 1
    print('edits: %d must-fail edits, each with its row' % len(found))
    return 0


if __name__ == '__main__':
    sys.exit(main(sys.argv[1:]))
