#!/usr/bin/env python3
"""What we wrote in Rust (oracle/) needs no more than rustc 1.63, Debian 12's. A build with that rustc shows it whole; this refuses, where a
newer one is installed, what it can tell from the text.

    rust_version.py                  the check
    rust_version.py --names LIBRARY  the lists of rust_younger.txt from the standard library's sources (Debian: rust-src)

Refused: a manifest that does not say edition 2021 and rust-version 1.63, or that has a dependency without a path; the syntax below;
a name that the standard library has only since 1.64, up to 1.97.1; a name that some items bear since 1.64 and others before, but for
those that OLD grants, each with its old owner. Not seen: a trait implemented later for an old type, an old function called in a
constant before it could be, a bound on an associated type, a granted name on another type, and what came after 1.97.1."""
import collections
import pathlib
import re
import sys

ROOT = pathlib.Path(__file__).resolve().parent.parent
NAMES = ROOT / 'tests/rust_younger.txt'

# names of both ages that stand in what we wrote: whose they are there
OLD = {
    'BITS': 'usize', 'MAX': 'our trait Maximum', 'MIN': 'our trait Minimum', 'contains': 'str', 'flatten': 'Iterator',
    'get': 'BTreeMap, PageTable', 'inspect': 'our module', 'is_empty': 'slice, str', 'iter': 'slice, Vec, map', 'leading_zeros': 'usize',
    'len': 'str, Vec, map', 'lock': 'Mutex, Stdin, Stdout', 'map': 'Iterator, Option, Result', 'new': 'Mutex, RwLock, Arc, Box, String',
    'panic': 'the module', 'range': 'BTreeMap', 'read': 'std::fs, RwLock', 'set': 'our driver', 'swap': 'AtomicBool', 'take': 'Option',
    'write': 'std::fs, RwLock',
}

SYNTAX = {  # since and what: its form, on code without comments and strings, and a sample that must be refused
    '1.65 let .. else': (r'\blet\b[^;{}]*=[^;{}]*\belse\b', 'let Some(y) = x else { return 0 };'),
    '1.65 a generic associated type': (r'^\s+type\s+\w+\s*<', "trait T {\n    type Part<'a>;\n}"),
    '1.65 a labelled block': (r"'\w+\s*:\s*\{", "let x = 'done: { break 'done 1 };"),
    '1.66 a pattern up to a value': (r'(?:[{,|(]|\blet)\s*\.\.=', 'match x { ..=9 => 1, _ => 2 }'),
    '1.75 async or impl in a trait': (r'\btrait\b[^{;]*\{[^}]*(?:\basync\s+fn\b|->\s*impl\b)', 'trait T { fn f(&self) -> impl Iterator<Item = u8>; }'),
    '1.77 a C string': (r'\bcr?#*"', 'let s = c"text";'),
    '1.78 a diagnostic attribute': (r'#\[\s*diagnostic\b', '#[diagnostic::on_unimplemented(message = "no")]'),
    '1.79 a constant block': (r'\bconst\s*\{', 'let x = const { 1 + 1 };'),
    '1.80 an exclusive range pattern': (r"^\s*[\w']+\s*\.\.\s*[\w']+\s*(?:=>|\|)", 'match x {\n    0..9 => 1,\n    _ => 2,\n}'),
    '1.81 an expected lint': (r'#!?\[\s*expect\s*\(', '#[expect(unused)]'),
    '1.82 a raw borrow': (r'&\s*raw\s+(?:const|mut)\b', 'let p = &raw const x;'),
    '1.82 precise capturing': (r'\buse\s*<', "fn f<'a>(x: &'a u8) -> impl Copy + use<'a> { x }"),
    '1.82 an unsafe extern block or attribute': (r'\bunsafe\s+extern\s*(?:"[^"]*")?\s*\{|#\[\s*unsafe\s*\(', 'unsafe extern "C" { fn f(); }'),
    '1.85 an async closure': (r'\basync\s+(?:move\s*)?\|', 'let f = async |x: u8| x;'),
    '1.88 if let .. && let': (r'\b(?:if|while)\s+let\b[^{;]*&&\s*let\b', 'if let Some(x) = a && let Some(y) = b { f(x, y) }'),
    '1.88 cfg of true or false': (r'\bcfg(?:_attr)?!?\s*\(\s*(?:true|false)\b', '#[cfg(false)]'),
}

NAMED = {  # and names: of an old type, in a path, of a number
    'try_lock': 'fn f(file: &File) -> io::Result<()> { Ok(file.try_lock()?) }',
    'OnceLock': 'static S: std::sync::OnceLock<u8> = std::sync::OnceLock::new();',
    'div_ceil': 'fn f(x: u64) -> u64 { x.div_ceil(8) }',
}


def code(text):
    """without comments, and strings empty (a C string keeps its first quote)"""
    pattern = r'//[^\n]*|/\*.*?\*/|r#*"(?:.*?)"#*|"(?:\\.|[^"\\])*"|\'(?:\\.|[^\'\\])\''
    return re.sub(pattern, lambda m: '""' if '"' in m[0][:3] and not m[0].startswith('/') else ' ', text, flags=re.S)


def faults(text, younger, shared, own):
    """what the text has that rustc 1.63 has not"""
    text = code(text)
    found = [what for what, (form, _) in SYNTAX.items() if re.search(form, text, re.M)]
    words = set(re.findall(r'[A-Za-z_]\w*', text)) - own
    found += [f'{younger[w]} {w}' for w in sorted(words & younger.keys())]
    return found + [f'{shared[w]} {w}, or an older one that OLD has to grant' for w in sorted(words & shared.keys()) if w not in OLD]


def names():
    younger, shared = {}, {}
    for line in NAMES.read_text().splitlines():
        if line and not line.startswith('#'):
            since, kind, *listed = line.split()
            (younger if kind == 'only' else shared).update({name: since for name in listed})
    return younger, shared


def manifest_faults(text):
    if '[package]' not in text:
        return []
    said = dict(re.findall(r'^([\w-]+) = (.*)$', text.split('[dependencies]')[0], re.M))
    found = [f'{key} is not {value}' for key, value in (('edition', '"2021"'), ('rust-version', '"1.63"')) if said.get(key) != value]
    return found + [f'{line}: no path' for line in text.partition('[dependencies]')[2].split('\n') if '=' in line and 'path = ' not in line]


def check():
    younger, shared = names()
    for what, sample in [(what, sample) for what, (_, sample) in SYNTAX.items()] + list(NAMED.items()):
        if not any(what in fault for fault in faults(sample, younger, shared, set())):
            raise SystemExit(f'rust_version: {what} is not refused in: {sample}')
    wrote = [p for p in sorted((ROOT / 'oracle').rglob('*')) if not {'build', 'target'} & set(p.relative_to(ROOT / 'oracle').parts)]
    sources = {p: p.read_text() for p in wrote if p.suffix == '.rs'}
    manifests = {p: p.read_text() for p in wrote if p.name == 'Cargo.toml'}
    own = set(re.findall(r'\b(?:fn|struct|trait|mod)\s+(\w+)', '\n'.join(map(code, sources.values()))))
    bad = [(p, fault) for p, text in sources.items() for fault in faults(text, younger, shared, own - shared.keys())]
    bad += [(p, fault) for p, text in manifests.items() for fault in manifest_faults(text)]
    for path, fault in bad:
        print(f'{path.relative_to(ROOT)}: not in rustc 1.63: {fault}')
    if bad:
        raise SystemExit(1)
    print(f'rust_version: {len(sources)} files and {len(manifests)} manifests, nothing younger than rustc 1.63 in {len(younger)} names, '
          f'{len(shared)} of both ages and {len(SYNTAX)} forms')


# ---- the lists -----------------------------------------------------------------------------------

ATTRIBUTE = re.compile(r'#!?\[stable\(\s*feature\s*=\s*[^,]*,\s*since\s*=\s*"([^"]+)"\s*,?\s*\)\]')
ITEM = re.compile(r'\s*(?:pub(?:\([a-z ]+\))?\s+)?(?:(?:default|const|async|unsafe|safe|extern\s+"[\w-]+")\s+)*'
                  r'(?:(?:fn|struct|enum|trait|type|mod|const|static|union|macro_rules!|macro)\s+(?:mut\s+)?(\w+)'
                  r'|use\s+([^;]*);|([A-Z]\w*)\s*[,({=])')


def after_attributes(text):
    """what follows further attributes and comments"""
    while True:
        begun = re.match(r'\s*(//[^\n]*\n|#\[)', text)
        if not begun:
            return text
        at, depth = begun.end(), begun[1] == '#['
        while depth:
            depth += {'[': 1, ']': -1}.get(text[at], 0)
            at += 1
        text = text[at:]


def declared(text):
    """(minor version, name) of each stable item in a file of the standard library"""
    for mark in ATTRIBUTE.finditer(text):
        item = ITEM.match(after_attributes(text[mark.end():]))
        version = re.match(r'1\.(\d+)', mark[1])
        if item and version:
            for name in [item[1] or item[3]] if not item[2] else re.findall(r'\w+(?=\s*(?:,|\}|$))', item[2]):
                yield int(version[1]), name


def list_names(library):
    ages = collections.defaultdict(set)
    for part in ('core', 'alloc', 'std'):
        for path in (library / part / 'src').rglob('*.rs'):
            if 'tests' not in path.parts and path.name != 'tests.rs':
                for version, name in declared(path.read_text()):
                    ages[name].add(version)
    groups = collections.defaultdict(list)
    for name, versions in sorted(ages.items()):
        if max(versions) > 63:
            groups[min(v for v in versions if v > 63), 'only' if min(versions) > 63 else 'both'].append(name)
    print('# Names in the standard library since 1.64: VERSION only, where no older item bears the name, or VERSION both. Made by rust_version.py.')
    for (version, kind), listed in sorted(groups.items()):
        for at in range(0, len(listed), 8):
            print(f'1.{version} {kind} ' + ' '.join(listed[at:at + 8]))


if __name__ == '__main__':
    list_names(pathlib.Path(sys.argv[2])) if sys.argv[1:2] == ['--names'] else check()
