#!/usr/bin/env python3
"""What stores into the heap copies by loops of its own, from the first byte on: no copy of the library's in these crates. Such a copy may go down from
the last byte, or become a call of the host's memmove, and no contract says in which order bytes are stored (docs/requests/P8.md). This looks at the
source alone, not at what a compiler makes of a loop."""
import pathlib
import re
import sys

ROOT = pathlib.Path(__file__).resolve().parent.parent
CRATES = ('numbers', 'byte_parts', 'stores', 'trailer', 'slot_writer', 'batch_file', 'writepath', 'gc_writer', 'gc_install', 'prune', 'losses', 'salvage')
COPY = re.compile(r'\.(copy_within|copy_from_slice|clone_from_slice|swap|swap_with_slice|rotate_left|rotate_right|reverse|fill|fill_with)\(')

wrong, files = [], 0
for crate in CRATES:
    sources = sorted((ROOT / 'crates' / crate / 'src').rglob('*.rt'))
    if not sources:
        wrong.append(f'forward: no sources of {crate}')
    for path in sources:
        files += 1
        for number, line in enumerate(path.read_text(encoding='utf-8').split('\n'), 1):
            found = COPY.search(line.split('//')[0])
            if found:
                wrong.append(f'forward: {path.relative_to(ROOT)}:{number}: {found[1]}')
if wrong:
    sys.exit('\n'.join(wrong))
print(f'forward: no copy of the library\'s in {files} files of the {len(CRATES)} crates that store into the heap')
