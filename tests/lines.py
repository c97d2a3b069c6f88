#!/usr/bin/env python3
"""Code that a person reads. lines.py: prints the lines of src/*.rt with more than 140 characters and the functions there with more than 8
parameters, and fails if there are any. lines.py FILE ..: those of these files."""
import glob
import os
import re
import sys

ROOT = os.path.dirname(os.path.dirname(os.path.abspath(__file__)))
LIMIT, MOST = 140, 8


def functions(text):
    """Each function: its name, its line, and how many parameters it has, `self` among them."""
    code = re.sub('//.*', '', text)
    for head in re.finditer(r'\bfn\s+(\w+)\s*(?:<[^>]*>)?\s*\(', code):
        depth, count, some = 1, 0, False
        for c in code[head.end():]:
            if depth == 1 and c in ',)':
                count, some = count + some, False
            elif not c.isspace():
                some = True
            depth += (c in '([{<') - (c in ')]}>')
            if depth == 0:
                break
        yield head.group(1), code.count('\n', 0, head.start()) + 1, count


def main():
    longest, wrong, largest, many = 0, 0, 0, 0
    for path in sys.argv[1:] or sorted(glob.glob(os.path.join(ROOT, 'crates/*/src/**/*.rt'), recursive=True)):
        with open(path, encoding='utf-8') as source:
            text = source.read()
        where = os.path.relpath(path, ROOT)
        for number, line in enumerate(text.split('\n'), 1):
            longest = max(longest, len(line))
            if len(line) > LIMIT:
                wrong += 1
                print(f'lines: {where}:{number} has {len(line)} characters')
        for name, number, count in functions(text):
            largest = max(largest, count)
            if count > MOST:
                many += 1
                print(f'lines: {where}:{number} {name} has {count} parameters')
    print(f'lines: {wrong} of over {LIMIT} characters in src/*.rt, the longest has {longest}; {many} functions of over {MOST} parameters, the most has {largest}')
    sys.exit(wrong + many > 0)


main()
