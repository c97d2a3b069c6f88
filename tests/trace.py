#!/usr/bin/env python3
"""Every name that docs/TRACE.md and docs/THEOREMS.md give must be there, and in the place that is said.

    `crate::module::f`    crates/CRATE/src/MODULE.rt; without a module lib.rt, which may pass it on (`pub use`)
    `module::f`, `T::f`   a module of that name; the file that declares the type T
    `crate/Module`        crates/CRATE/specs/Module.antt and proofs/Module.antt, of which one may be missing; `crate/Module.x`: x stands in one
    `Module.x`            in that module of the page's own crates, the first that has one; else of the one crate that has one
    `Record.x`            a field of a record of the page's own crates
    `crate/label`         crates/CRATE/must-fail/LABEL.edit
    `x`, `y a` (`Module`) both stand in that module, whatever y is given; so do `x`, `y` in `Module`
    `Module.x`, `y`       a name behind a comma stands where the one before it does; `crate::f`, `g` and `crate/label`, `label` too
    `x`                   in the page's own crates, or in one that its section names

trace.py prints each name that is not, with its line, and fails.
"""
import functools
import glob
import os
import re
import sys

ROOT = os.path.dirname(os.path.dirname(os.path.abspath(__file__)))
# a page, and the crates whose names it gives without their crate
PAGES = {
    'docs/TRACE.md': ['rules', 'disk_location', 'checksum', 'numbers', 'theory', 'history_theory', 'maintenance_theory', 'worked_out', 'marble', 'pinned',
                      'orders'],
    'docs/THEOREMS.md': ['theory', 'history_theory', 'maintenance_theory', 'worked_out', 'rules'],
}
WORDS = {'requires'}
NAME = re.compile(r'[A-Za-z][\w·]*(?:(?:::|[-./])[\w*]+)*')
SPAN = re.compile(r'`([^`\n]+)`')
# what may stand between two names of one list
COMMA = re.compile(r',\s+(?:and\s+)?|\s+and\s+')


def read(path):
    with open(path, encoding='utf-8') as source:
        return source.read()


def found(pattern):
    return sorted(glob.glob(os.path.join(ROOT, pattern), recursive=True))


CRATES = {os.path.basename(c): c for c in found('crates/*')}
# a module's definitions stand in specs/, its laws there or in proofs/
SPECS = {c: {} for c in CRATES}
for c in CRATES:
    for f in found(f'crates/{c}/specs/*.antt') + found(f'crates/{c}/proofs/*.antt'):
        SPECS[c].setdefault(os.path.basename(f)[:-5], '')
        SPECS[c][os.path.basename(f)[:-5]] += read(f)
SOURCES = {c: {os.path.relpath(f, os.path.join(p, 'src'))[:-3].replace(os.sep, '/'): read(f) for f in found(f'crates/{c}/src/**/*.rt')}
           for c, p in CRATES.items()}
EDITS = {c: {os.path.basename(f)[:-5].replace('-', '_') for f in found(f'crates/{c}/must-fail/*.edit')} for c in CRATES}
SCRIPTS = {os.path.basename(f) for f in found('tests/**/*')}


@functools.lru_cache(maxsize=None)
def definitions(where):
    """definitions, laws, records and their fields, constructors; what is passed on"""
    passed = re.findall(r'(?m)^pub use [^{\n]+\{([^}\n]*)\}', where)
    return set(re.findall(r'(?m)^\s*(?:(?:pub|abbrev|unfoldable|record|data)\s+)*(\S+)\s+[:({]', where)) | set(', '.join(passed).split(', '))


def defined(name, where):
    return name in definitions(where)


def declared(name, where):
    """a function, a type or a module; a field or a variant; what is passed on"""
    n = re.escape(name)
    return re.search(r'(?m)\b(fn|struct|enum|const|mod) ' + n + r'\b|^ +(pub )?' + n + r'(:|,|\()|^pub use [\w:]+::(' + n + r'|\{([^}]*[\s{,])?' + n + r'[,}\s][^;]*);', where) is not None


class Page:
    def __init__(self, path):
        self.path, self.crates = path, PAGES[path]
        fenced, lines = False, []
        for line in read(os.path.join(ROOT, path)).split('\n'):
            fence = line.lstrip().startswith('```')
            lines.append('' if fenced or fence else line)
            fenced ^= fence
        self.text = '\n'.join(lines)
        # where each section begins, and the crates that it names
        starts = [0] + [m.start() for m in re.finditer(r'(?m)^##+ ', self.text)]
        self.sections = [(a, set(re.findall(r'`(?:crates/)?(\w+)', self.text[a:b])) & set(CRATES)) for a, b in zip(starts, starts[1:] + [len(self.text)])]

    def module(self, name):
        """the modules that a name without its crate may mean"""
        for crate in self.crates:
            if name in SPECS[crate]:
                return [SPECS[crate][name]]
        others = [modules[name] for modules in SPECS.values() if name in modules]
        return others if len(others) == 1 else []

    def place(self, name):
        """of a name that says a place: how to look, for what, in which texts"""
        if '::' in name:
            *path, last = name.split('::')
            if path[0] in CRATES:
                sources = SOURCES[path[0]]
                modules = ['/'.join(path[1:])] if path[1:] else ['lib', 'main']
                return declared, last, [sources[m] for m in modules if m in sources]
            return declared, last, [s for sources in SOURCES.values() for m, s in sources.items()
                                    if m == '/'.join(path) or re.search(r'\b(struct|enum) ' + path[-1] + r'\b', s)]
        module = name.replace('crates/', '', 1).split('.')[0]
        if '/' in module:
            crate, rest = module.split('/', 1)
            if crate in CRATES and rest in SPECS[crate]:
                return defined, name.split('.', 1)[1] if '.' in name else None, [SPECS[crate][rest]]
        elif '.' in name and module[0].isupper():
            records = [s for c in self.crates for s in SPECS[c].values() if re.search(r'(?m)^(pub )?record ' + module + r'\b', s)]
            return defined, name.split('.', 1)[1], self.module(module) or records
        return None

    def bare(self, name, at):
        """a name that says no place"""
        near = set(self.crates) | [crates for start, crates in self.sections if start <= at][-1]
        return (name in CRATES or name in SCRIPTS or bool(self.module(name))
                or any(defined(name, s) for c in near for s in SPECS[c].values())
                or any(declared(name, s) for c in near for s in SOURCES[c].values())
                or any(name.replace('-', '_') in EDITS[c] for c in near))

    def missing(self):
        """each name that is not where it is said to be, with its line"""
        spans = [(m.start(), m.end(), m[1]) for m in SPAN.finditer(self.text)]
        carried, self.seen = None, 0
        for k, (start, _, name) in enumerate(spans):
            line = self.text.count('\n', 0, start) + 1
            between = self.text[spans[k - 1][1]:start] if k else ''
            if not COMMA.fullmatch(between):
                carried = None
            said = self.said_behind(spans, k)
            if said is not None:
                name = name.split()[0]  # with what it is given
            if not NAME.fullmatch(name) or len(name) < 3 or name in WORDS or name.endswith('.rs'):
                continue
            self.seen += 1
            place = self.place(name)
            crate, _, label = name.partition('/')
            if said is not None and place is None:
                if not any(defined(name, s) for s in said[1]):
                    yield line, f'{name} is not in {said[0]}'
            elif crate in CRATES and label and label.replace('-', '_') in EDITS[crate]:
                carried = (crate, lambda n, c=crate: n.replace('-', '_') in EDITS[c])
            elif '/' in name and place is None:
                if not os.path.exists(os.path.join(ROOT, name)):
                    yield line, f'{name} is not there'
            elif place is not None:
                how, last, texts = place
                if not texts or last is not None and not any(how(last, s) for s in texts):
                    yield line, f'{name} is not there'
                if last is not None:
                    carried = (name, lambda n, how=how, texts=texts: any(how(n, s) for s in texts))
            elif carried is not None and name not in CRATES:
                if not carried[1](name):
                    yield line, f'{name} is not where {carried[0]} is'
            elif not self.bare(name, start):
                yield line, f'{name} is not there'

    def said_behind(self, spans, k):
        """the module in which the list of names that this one is in is said to stand"""
        while k + 1 < len(spans):
            between = self.text[spans[k][1]:spans[k + 1][0]]
            if re.fullmatch(r'\s+\(|\s+in\s+', between):
                module = spans[k + 1][2]
                crate, _, rest = module.partition('/')
                if rest and crate in CRATES and rest in SPECS[crate]:
                    return module, [SPECS[crate][rest]]
                if not rest and module[0].isupper() and '.' not in module and self.module(module):
                    return module, self.module(module)
                return None
            if not COMMA.fullmatch(between):
                return None
            k += 1
        return None


def main():
    missing = seen = 0
    for path in PAGES:
        page = Page(path)
        for line, what in page.missing():
            missing += 1
            print(f'{path}:{line}: {what}')
        seen += page.seen
    print(f'trace: {seen} names, {missing} not there')
    sys.exit(missing > 0)


main()
