#!/usr/bin/env python3
# same_sections.py ONE OTHER: each section that is linked into a program, a function of code or its constants, is the same in both: bytes,
# and places that the linker fills in. In which order they stand does not matter.
import sys
from archive import Archive

one, other = (Archive(path).sections for path in sys.argv[1:3])
differ = sorted(name for name in one.keys() | other.keys() if one.get(name) != other.get(name))
for name in differ:
    print(f'tests/c: {name} is not the same in both archives')
if differ or not one:
    sys.exit(1)
code = [name for name in one if name.startswith('.text')]
print(f'tests/c: {len(one)} sections, {len(code)} of them code, {sum(len(part) for part, _ in one.values())} bytes, are the same in both archives')
