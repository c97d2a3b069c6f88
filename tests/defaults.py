#!/usr/bin/env python3
"""The default settings stand in one place, `defaults` of crates/limits, and whatever else has them is held to it. defaults.py [CONSOLE]

    crates/rules/specs/Settings.antt   the definition, which the contract of `defaults` cites
    include/marble.h                   MARBLE_DEFAULTS, in the order of marble_settings
    the console                        its first screen; and by calls what it starts with: these settings are those of its first reopening,
                                       and a reopening with any one of them changed is another
    tests/oracle/model.py              what the independent model of the console starts with

Fails where one has another number. Without CONSOLE it is compiled here, with no proof."""
import os
import re
import subprocess
import sys

ROOT = os.path.dirname(os.path.dirname(os.path.abspath(__file__)))
sys.path.insert(0, os.path.join(ROOT, 'tests', 'oracle'))
from model import Store  # noqa: E402
from port import Port, console_command  # noqa: E402

FIELDS = ['slot_bytes', 'file_compaction_percent', 'min_compaction_files', 'target_file_size', 'small_file_cleanup_threshold', 'max_object_size']


def part(path, pattern):
    """what the pattern's group is in a file"""
    with open(os.path.join(ROOT, path), encoding='utf-8') as source:
        found = re.search(pattern, source.read(), re.S)
    if not found:
        raise SystemExit(f'defaults: {path} has no defaults')
    return found[1]


def numbers(text):
    return [int(n) for n in re.findall(r'\d+', text)]


def by_name(path, pattern, equals):
    """each field's number, where the fields are named, in the order of FIELDS"""
    given = dict(re.findall(r'(\w+)»?' + equals + r'(\d+)', part(path, pattern)))
    return [int(given.get(field, -1)) for field in FIELDS]


def in_header():
    order = re.findall(r'uint64_t (\w+);', part('include/marble.h', r'typedef struct marble_settings \{([^}]*)\}'))
    given = numbers(part('include/marble.h', r'#define MARBLE_DEFAULTS \{([^}]*)\}'))
    return [dict(zip(order, given)).get(field, -1) for field in FIELDS]


def on_first_screen(console):
    said = subprocess.run(console_command(console), input='', capture_output=True, text=True, check=True).stdout
    return numbers((re.search(r'^# Settings ([\d ]+),', said, re.M) or ['', ''])[1])


def started_with(console, settings):
    """whether the console's first reopening had these settings"""
    *_, answer = Port(console).run(['reopen', 'settings ' + ' '.join(map(str, settings)), 'counts'])
    if not answer[0].startswith('ok') and answer != ['refused 1']:
        raise SystemExit(f'defaults: the console answered counts with {answer}')
    return answer[0].startswith('ok')


def main(words):
    console = words[0] if words else os.path.join(ROOT, 'target', 'tests', 'console')
    if not words:
        subprocess.run([os.path.join(ROOT, 'tests', 'unproved'), 'console', console], check=True)
    library = by_name('crates/limits/src/lib.rt', r'pub fn defaults\(\) -> Settings.*?Settings \{([^}]*)\}', ': ')
    others = {
        'crates/rules/specs/Settings.antt': by_name('crates/rules/specs/Settings.antt', r'\ndefaults = record \{([^}]*)\}', ' = '),
        'MARBLE_DEFAULTS in include/marble.h': in_header(),
        "the console's first screen": on_first_screen(console),
        'tests/oracle/model.py': list(Store().given),
    }
    wrong = [f'{place} has {given}' for place, given in others.items() if given != library]
    if not started_with(console, library):
        wrong.append('the console starts with other settings')
    for k, field in enumerate(FIELDS):
        if started_with(console, [2 * n if i == k else n for i, n in enumerate(library)]):
            wrong.append(f'the console starts with another {field}, or does not look at it')
    for line in wrong:
        print(f'defaults: {line}, where crates/limits has {library}')
    if wrong:
        return 1
    print(f'defaults: {" ".join(map(str, library))} in the library, its definition, the header, the console and the model')
    return 0


if __name__ == '__main__':
    sys.exit(main(sys.argv[1:]))
