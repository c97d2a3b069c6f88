#!/usr/bin/env python3
"""The order of each call's refusals: the cases of crates/orders/specs/Orders.antt, run by the model and by the console.

    orders.py [--console PATH]

Each row of that table has its cases here, in the same order and with the same worlds; what is answered must be the row's `paper`."""
import argparse
import pathlib
import re
import zlib

from hostile import RESET
from known import trailer
from model import BATCH_BIT, DELETED, NEVER, OBJECT, label_bytes, object_bytes, object_sum
from port import Model, Port

TABLE = pathlib.Path(__file__).resolve().parents[2] / 'crates/orders/specs/Orders.antt'
SETTINGS = '128 0 1 1048576 0 17'
OTHER = '128 1 1 1048576 0 17'  # not the state's
LAST = 2 ** 64 - 1
KINDS = NEVER, DELETED, OBJECT


# ---- the worlds, as in crates/orders/specs/Worlds.antt -------------------------------------------

def u64(n, width=8):
    return n.to_bytes(width, 'little')


def summed(data):
    return u64(zlib.crc32(data), 4) + data


def mis_summed(data):
    return u64(zlib.crc32(data) + 1, 4) + data


def bad_header(ident, size):
    return u64(object_sum(ident, b'') + 1, 4) + u64(ident) + u64(size)


def slot(label, file):
    return (label_bytes(label) + file).ljust(128, b'\0')


def label_of(lsn, present, objects, trail):
    return lsn, len(objects), len(objects) + len(trail), present, 0


def lent(heap, table, given=SETTINGS):
    """settings, heap and the table, which is a list of entries"""
    lines = RESET + ['claims 0 0 0 0', f'settings {given}', f'heap {len(heap)}', f'poke 0 {heap.hex()}', f'table {2 * len(table)}']
    return lines + [f'entry {k} {ident} {raw}' for k, (ident, raw) in enumerate(table)]


def holding(records, after, heap, table, given=SETTINGS):
    """a world of records, each a label and a live count, its mark set, and a next position"""
    return (lent(heap, table, given) + [f'state {SETTINGS} {len(heap)} {len(table)} {after}']
            + [f'record {k} {" ".join(map(str, label))} {live} 1' for k, (label, live) in enumerate(records)])


def busy(after, given=SETTINGS):
    return holding([((10, 20, 48, 1, 0), 1)], after, bytes(128), [(1, 20)], given)


def idle(after):
    return holding([((10, 20, 48, 1, 0), 1)], after, bytes(256), [(1, 20)])


def filed(obj, location, given=SETTINGS):
    trail = trailer((5, 0))
    label = label_of(10, 1, obj, trail)
    return holding([(label, 1)], 100, slot(label, obj + trail), [(5, location)], given)


def alone(objects, trail, given=SETTINGS):
    label = label_of(1, 1, objects, trail)
    return holding([(label, 1)], 100, slot(label, objects + trail) + bytes(128), [(1, 2)], given)


def pair(first, second, after):
    a, b = label_of(1, 1, object_bytes(1, b''), first), label_of(100, 1, object_bytes(2, b''), second)
    heap = slot(a, object_bytes(1, b'') + first) + slot(b, object_bytes(2, b'') + second)
    return holding([(a, 1), (b, 1)], after, heap, [(1, 2), (2, 200)])


def moving(more, after):
    trail = trailer((1, 0))
    label = label_of(1, 1, object_bytes(1, b''), trail)
    return holding([(label, 1)], after, slot(label, object_bytes(1, b'') + trail) + more, [(1, 2)])


def trailing(lsn, present, trail):
    return slot((lsn, 0, len(trail), present, 0), trail)


def deleting(lsn, ident):
    return trailing(lsn, 1, trailer((ident, 1)))


TWICE = trailing(50, 2, trailer((3, 1), (3, 1)))
CUT_HEADER = u64(0, 4) + u64(9) + u64(17, 7)
NO_FORM = [(0, 0), (5, 40)]
TOO_LARGE = '020111' + '41' * 17
TOO_GREAT = trailer((9, LAST))


def closed(*slots):
    return lent(b''.join(slots), [(0, 0)])


def behind(first):
    return closed(first, TWICE, deleting(50, 4))


def one_put(ident):
    return f'{ident:02x}0100'


# ---- the rows: a world and a call for each case --------------------------------------------------

def tables(call, *cases):
    """table calls: the entries, and what the call is given"""
    return [(lent(bytes(128), entries), f'{call} {" ".join(map(str, given))}') for entries, given in cases]


HELD, NONE = [(5, 40)], [(0, 0)]
COUNT_1 = u64(1)
ROWS = [
    tables('load', (NO_FORM, [5]), (HELD, [6]), (HELD, [5]), ([(5, 41)], [5])),
    tables('store', (NO_FORM, [6, 0]), (HELD, [6, 0]), (HELD, [6, 42]), (HELD, [5, 42])),
    tables('cas', (NO_FORM, [6, 0, 0]), (HELD, [6, 0, 42]), (HELD, [6, 40, 0]), (HELD, [6, 40, 42]), (HELD, [5, 41, 42]), (HELD, [5, 40, 42])),
    tables('max', (NO_FORM, [6, 0]), (HELD, [6, 0]), (HELD, [5, 40]), (HELD, [6, 42]), (HELD, [5, 38]), (HELD, [5, 42]), (NONE, [5, 42])),
    [(busy(BATCH_BIT, OTHER), f'write {TOO_LARGE}8000'), (busy(BATCH_BIT), f'write {TOO_LARGE}8000'), (busy(BATCH_BIT), f'write {TOO_LARGE}'),
     (busy(BATCH_BIT), 'write 020100030100'), (busy(BATCH_BIT), f'write {one_put(2)}')],
    [(idle(BATCH_BIT), f'write {one_put(2)}'), (idle(BATCH_BIT - 20), f'write {one_put(1)}'), (idle(BATCH_BIT - 21), f'write {one_put(1)}')],
    [(idle(100), 'write 01020141'), (idle(100), 'write 810000'), (idle(100), 'write 01010241')],
    [(busy(BATCH_BIT), 'write -')],
    [(filed(bad_header(6, 100), 18, OTHER), 'read 5'), (filed(bad_header(6, 100), 18), 'read 5'), (filed(bad_header(6, 100), 80), 'read 5'),
     (filed(bad_header(6, 100), 20), 'read 5'), (filed(bad_header(6, 0), 20), 'read 5'), (filed(object_bytes(6, b''), 20), 'read 5'),
     (filed(object_bytes(5, b''), 20), 'read 5')],
    [(filed(bad_header(6, 100), 18), 'read 6'), (filed(bad_header(6, 100), 19), 'read 5')],
    [(busy(1, OTHER), 'claim 1'), (busy(1), 'claim 1'), (busy(1), 'claim 0'), (busy(1) + ['claim 0'], 'claim 0')],
    [(busy(1, OTHER), 'release 0'), (busy(1), 'release 0'), (busy(1) + ['claim 0'], 'release 0'), (idle(1), 'release 1')],
    [(world, 'maintain') for world in (
        alone(CUT_HEADER, mis_summed(COUNT_1 + bytes(7)), OTHER), alone(CUT_HEADER, mis_summed(COUNT_1 + bytes(7))),
        alone(CUT_HEADER, mis_summed(COUNT_1 + bytes(8))), alone(CUT_HEADER, summed(COUNT_1 + bytes(8))))],
    [(alone(objects, TOO_GREAT), 'maintain') for objects in (CUT_HEADER, bad_header(9, 17), bad_header(9, 16), bad_header(1, 16), bad_header(1, 0))],
    [(alone(object_bytes(1, b''), trailer(entry)), 'maintain') for entry in ((9, LAST), (9, LAST - 2), (1, LAST - 2))],
    [(alone(bad_header(1, 0) + bytes(5), trailer((1, 0))), 'maintain'), (pair(trailer((1, 0), (9, 41)), bytes(19), 200), 'maintain')],
    [(pair(trailer((1, 0), (9, 41)), trailer((2, 0)), BATCH_BIT), 'maintain'), (pair(trailer((1, 0)), trailer((2, 0)), BATCH_BIT), 'maintain'),
     (moving(b'', BATCH_BIT), 'maintain')],
    [(moving(bytes(128), BATCH_BIT - 20), 'maintain'), (moving(bytes(128), BATCH_BIT - 21), 'maintain')],
    [(lent(trailing(BATCH_BIT, 1, bytes(19)), []) + ['table 3'], 'reopen')] + [(behind(trailing(*first)), 'reopen') for first in (
        (BATCH_BIT, 1, bytes([1]) * 19), (10, 2, mis_summed(COUNT_1 + bytes(7))), (10, 2, mis_summed(COUNT_1 + bytes(8))),
        (10, 2, summed(COUNT_1 + bytes(8))), (10, 2, trailer((5, 0))), (10, 2, trailer((5, 1))))],
    [(behind(deleting(10, 5)), 'reopen'), (closed(deleting(10, 5), TWICE, deleting(60, 4)), 'reopen'),
     (closed(deleting(10, 5), deleting(60, 4)), 'reopen'), (closed(deleting(10, 5), deleting(60, 5)), 'reopen')],
    [(closed(trailing(10, 2, trailer((5, 1))), trailing(BATCH_BIT, 1, bytes([1]) * 19)), 'reopen')],
]


# ---- what is answered ----------------------------------------------------------------------------

def numbers(call, answer):
    """the refusal number or 0, then the values: of a read and a load first the kind, of what a read finds its place in these worlds and its length"""
    first, *words = answer.split()
    if call.startswith('read') and first == OBJECT:
        words = [84, len(bytes.fromhex(words[0].replace('-', '')))]
    if call.split()[0] in ('read', 'load') and first in KINDS:
        return [0, KINDS.index(first)] + [int(w) for w in words]
    values = [int(w) for w in words if w != 'nothing']
    return values if first == 'refused' else [0] + values


def papers():
    """each row's numbers; 2 ^ 62 and the like do not stand there"""
    return [[int(n) for n in row.split('∷') if n.strip() != '[]'] for row in re.findall(r'paper = ([^;]*);', TABLE.read_text(encoding='utf-8'))]


def main():
    parser = argparse.ArgumentParser()
    parser.add_argument('--console')
    given = parser.parse_args()
    expected = papers()
    if len(expected) != len(ROWS):
        raise SystemExit(f'{len(expected)} rows in {TABLE.name}, {len(ROWS)} here')
    for side in [Model()] + ([Port(given.console)] if given.console else []):
        lines, asked = [], []
        for row, cases in enumerate(ROWS):
            for world, call in cases:
                lines += world + [call]
                asked.append((row, call, len(lines) - 1))
        answers, got = side.run(lines), [[] for _ in ROWS]
        for row, call, at in asked:
            got[row] += numbers(call, answers[at][0])
        for row, (ours, paper) in enumerate(zip(got, expected)):
            if ours != paper:
                raise SystemExit(f'{side.name}: row {row + 1}: {ours}, where the table has {paper}')
        print(f'orders: {side.name}: {len(asked)} cases in {len(ROWS)} rows as the table has them')


if __name__ == '__main__':
    main()
