#!/usr/bin/env python3
"""How long the calls of the C library take, and how that grows: growth.py [--table]. tests/c/times.c measures, linked with the archive that is
compiled here with no proof: processor time of one call, the least of five or more, at each row's sizes; beside it the same work in plain C
(tests/c/plain.h), which must answer and leave the same. Two kinds of figures have a limit:
- at twice the size: how many times as long the call takes, worked out from each step to the next size, also where that is tenfold; the greatest;
- beside rising ids: a write of ids in another order, at its largest size, by one of the same ids rising.
How many times as long as plain C a call takes is printed and not judged: it is another figure on another processor.
Fails where a figure is over its limit; as others may use the machine, which then can be twice as slow at one size as at the next, only if it is also by
the middle one of twenty-one more measurements of its row, a second apart. With --table every figure is printed, as a table in Markdown, and nothing is
judged: ARCHITECTURE, "What a call costs", has it."""
import math
import os
import statistics
import subprocess
import sys
import time

HERE = os.path.dirname(os.path.abspath(__file__))
sys.path.insert(0, os.path.join(HERE, 'oracle'))
from port import console_command  # noqa: E402

ARCHIVE, PROGRAM = (os.path.join(os.path.dirname(HERE), 'target', 'tests', name) for name in ('libmarble_c.a', 'times'))
TWICE, RISING = 'at twice the size', 'beside rising ids'
LIMIT = {TWICE: 3, RISING: 5}
AGAIN = 21
IN_ORDER = 'write, held ids rising, table of 1,024'
OTHER_ORDERS = ('write, held ids in any order, table of 1,024', 'write, held ids falling, table of 1,024')


class Row:
    """sizes, nanoseconds of one call at each, and of the same work in plain C"""

    def __init__(self, unit):
        self.unit, self.sizes, self.times, self.plain = unit, [], [], []

    def growth(self):
        """from each size to the next, as if that were twice the size"""
        steps = zip(self.sizes, self.sizes[1:], self.times, self.times[1:])
        return [(later / sooner) ** (1 / math.log2(large / small)) for small, large, sooner, later in steps]

    def ratios(self):
        return [ours / plain for ours, plain in zip(self.times, self.plain)]


def measured(*numbers):
    """rows by their names: those of these numbers, or all"""
    said = subprocess.run(console_command(PROGRAM) + [str(number) for number in numbers], capture_output=True, text=True)
    if said.returncode != 0:
        sys.exit(f'growth: {said.stdout}{said.stderr}')
    rows = {}
    for line in said.stdout.splitlines():
        name, unit, size, took, plain = line.split('\t')
        row = rows.setdefault(name, Row(unit))
        row.sizes.append(int(size))
        row.times.append(float(took))
        row.plain.append(float(plain))
    return rows


def figures(name, *measurements):
    """kind -> measured, of a row: of each step and ratio the middle one of these measurements"""
    steps = zip(*(rows[name].growth() for rows in measurements))
    found = {TWICE: max(statistics.median(step) for step in steps)}
    if name in OTHER_ORDERS:
        found[RISING] = statistics.median(rows[name].times[-1] / rows[IN_ORDER].times[-1] for rows in measurements)
    return found


def over(found):
    """those over their limits"""
    return {kind: figure for kind, figure in found.items() if figure > LIMIT[kind]}


def again(*numbers):
    """rows of these numbers, measured once more"""
    time.sleep(1)
    return measured(*sorted(set(numbers)))


def judged():
    rows = measured()
    numbers = {name: number for number, name in enumerate(rows)}
    wrong = []
    for name in rows:
        first = figures(name, rows)
        if over(first):
            middle = figures(name, *(again(numbers[name], numbers[IN_ORDER]) for _ in range(AGAIN)))
            for kind in {**over(first), **over(middle)}:
                print(f'growth: {name}: {kind} {first[kind]:.1f}, its limit {LIMIT[kind]}; the middle one of {AGAIN} more: {middle[kind]:.1f}')
            if over(middle):
                wrong.append(name)
    if wrong:
        sys.exit('growth: over a limit: ' + '; '.join(wrong))
    print(f'growth: {len(rows)} rows, {sum(len(figures(name, rows)) for name in rows)} figures within their limits')


def in_words(times):
    """by one unit, the greatest time's"""
    unit, name = (1e6, 'ms') if max(times) >= 1e6 else (1e3, 'µs')
    return ' / '.join(f'{time / unit:.2g}' if time < 10 * unit else f'{time / unit:,.0f}' for time in times) + f' {name}'


def factors(numbers):
    return ' / '.join(f'{number:.1f}' if number < 10 else f'{number:,.0f}' for number in numbers)


def table():
    print('| call | size | time | at twice the size | beside plain C |\n|---|---|---|---|---|')
    rows = measured()
    for name, row in rows.items():
        sizes = ' / '.join(f'{size:,}' for size in row.sizes)
        print(f'| {name} | {sizes} {row.unit} | {in_words(row.times)} | {factors(row.growth())} | {factors(row.ratios())} |')
    beside = (f'{name}, {figures(name, rows)[RISING]:.1f} times' for name in OTHER_ORDERS)
    print(f'\nBeside rising ids at {rows[IN_ORDER].sizes[-1]:,} operations: {"; ".join(beside)}.')


def main():
    if sys.argv[1:] not in ([], ['--table']):
        sys.exit(__doc__)
    subprocess.run([os.path.join(HERE, 'unproved'), 'marble_c', ARCHIVE], check=True)
    build = os.path.join(os.path.dirname(HERE), 'host', 'build')
    subprocess.run([build, os.path.join(HERE, 'c', 'times.c'), ARCHIVE, PROGRAM], check=True)
    table() if sys.argv[1:] else judged()


main()
