#!/usr/bin/env python3
"""The cases of the program store_cases on the model of document 01: what it prints is stored as crates/store_cases/stdout.

Two slots of 256 bytes, objects under 32 bytes, a table of four; each call and what it left on a line."""
import zlib

from model import Console, label_bytes

SETTINGS = '256 75 2 2048 64 32'
P10 = b'\x07\x01\x01A\x09\x00'
BIT = 1 << 62


class Case:
    def __init__(self, heap=bytes(512), table=4):
        self.console = Console()
        for line in (f'settings {SETTINGS}', f'heap {len(heap)}', f'poke 0 {heap.hex()}', f'table {2 * table}'):
            self.ask(line)

    def ask(self, line):
        return self.console.line(line)[0]

    def left(self):
        """next position, files, table, checksum of the heap"""
        s = self.console.store
        files = ''.join(' file %d %d %d %d %d %d %d %d' % (slot, *record) for slot, record in s.files())
        ids, locations = ' '.join(map(str, s.ids())), ' '.join(map(str, s.locations()))
        return f'next {s.next}{files} ids {ids} locations {locations} heap {zlib.crc32(s.heap)}'

    def reopen(self):
        print('reopen', self.ask('reopen'), self.left())

    def write(self, batch):
        print('write', batch.hex() or '-', self.ask(f'write {batch.hex() or "-"}'), self.left())

    def read(self, ident):
        print('read', ident, self.ask(f'read {ident}'))


def p10():
    case = Case()
    case.reopen()
    case.write(P10)
    for ident in (7, 9, 5):
        case.read(ident)
    case.reopen()
    case.read(7)


def alone(batch):
    case = Case()
    case.ask('reopen')
    case.write(batch)
    case.reopen()
    case.read(7)


def three(next_position, *batches):
    case = Case()
    case.ask('reopen')
    case.ask(f'state {SETTINGS} 512 4 {next_position}')
    for batch in batches:
        case.write(batch)
    case.read(7)
    case.reopen()
    case.read(7)


def put(ident, body):
    """one operation; ids and lengths below 128"""
    return bytes([ident, 1, len(body)]) + body


def delete(ident):
    return bytes([ident, 0])


def writes():
    a, b, c = b'A', b'B', b'C'
    # the last operation on an id counts
    alone(put(7, a) + put(7, b'BC'))
    alone(put(7, a) + delete(7))
    alone(delete(7) + put(7, a))
    alone(put(7, a) + put(5, b) + put(7, c) + delete(5) + delete(3))
    # small batches
    alone(b'')
    alone(delete(5))
    alone(b'\xff' * 9 + b'\x01\x00')
    alone(put(7, b''))
    alone(put(5, b'') + put(7, b'') + put(9, a))
    # cut short
    whole = b'\xac\x02\x01\x02AB' + put(7, c) + b'\xac\x02\x00'
    for length in range(len(whole) + 1):
        alone(whole[:length])
    # wrong bytes
    alone(b'\x07\x02')
    alone(b'\x87\x00\x00')
    alone(b'\x07\x01\x81\x00A')
    alone(b'\x07\x01' + b'\x80' * 4 + b'\x10A')
    alone(b'\x07\x01' + b'\x80' * 9 + b'\x01A')
    alone(b'\x07\x01' + b'\xff' * 9 + b'\x01A')
    alone(b'\xff' * 9 + b'\x02\x00')
    alone(b'\x07\x01' + b'\x80' * 9 + b'\x02A')
    # object sizes
    upper = b'ABCDEFGHIJKLMNOPQRSTUVWXYZ012345'
    alone(put(7, upper[:31]))
    alone(put(7, upper))
    alone(put(7, upper) + delete(7))
    alone(put(7, upper) + b'\x07')
    # slot room
    lower = b'abcdefghijklmnopqrstuvwxyz56789'
    alone(put(5, upper[:31]) + put(7, lower) + put(9, b'0123456789'))
    alone(put(5, upper[:31]) + put(7, lower) + put(9, b'0123456789A'))
    # a full heap, a full table, the last positions
    three(1, P10, put(7, b) + delete(5), delete(7))
    three(1, P10, delete(7) + put(9, c), b'')
    three(1, delete(1) + delete(2) + delete(3) + put(7, a), delete(7) + delete(5), delete(7) + put(2, b))
    alone(b''.join(map(delete, range(1, 6))))
    for next_position in (BIT - 22, BIT - 21, 2 ** 64 - 1, 0):
        three(next_position, P10, delete(5), b'')


def every_byte():
    case = Case()
    case.ask('reopen')
    case.ask(f'write {P10.hex()}')
    heap = bytes(case.console.store.heap)
    for at in [*range(64), *range(84, 130)]:
        answers = []
        for byte in ((heap[at] + 1) % 256, 255 - heap[at]):
            case = Case(heap[:at] + bytes([byte]) + heap[at + 1:])
            answers.append(case.ask('reopen'))
        print('byte', at, *answers)


def made(lsn, count, *entries):
    """a slot: T 21, two entries whatever the count says"""
    print('file', lsn, count, *[n for entry in entries for n in entry])
    listed = count.to_bytes(8, 'little') + b''.join(n.to_bytes(8, 'little') for entry in entries for n in entry)
    trailer = zlib.crc32(listed).to_bytes(4, 'little') + listed
    return (label_bytes((lsn, 21, 65, 2, 0)) + bytes(21) + trailer).ljust(256, b'\0')


def trailers():
    for count, first, second in ((1, (7, 0), (9, 43)), (2, (7, 0), (9, 43)), (3, (7, 0), (9, 43)), (2, (7, 0), (9, 44)),
                                 (2, (7, 0), (7, 42)), (2, (7, 0), (9, 4)), (2, (7, 0), (9, 45)), (2, (7, 0), (7, 2)), (2, (7, 2), (7, 0)),
                                 (2, (7, 2), (7, 3)), (2, (9, 0), (7, 2))):
        Case(made(1, count, first, second) + bytes(256)).reopen()


def pair(first, second, table=4):
    Case(made(first, 2, (7, 0), (9, 43)) + made(second, 2, (5, 1), (7, 2)), table).reopen()


def overlaps():
    for first, second in ((1, 1), (1, 22), (1, 23), (23, 1), (22, 1), (BIT + 1, 22), (BIT + 1, 23), (BIT + 101, 205),
                          (205, BIT + 101)):
        pair(first, second)


def stale_bytes():
    slot = b'\0' + b'\xee' * 255
    case = Case(slot + slot)
    case.reopen()
    case.write(P10)
    case.reopen()
    case.read(7)


def main():
    p10()
    writes()
    every_byte()
    trailers()
    overlaps()
    pair(1, 30, 3)
    pair(1, 30, 2)
    stale_bytes()


if __name__ == '__main__':
    main()
