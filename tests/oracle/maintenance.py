#!/usr/bin/env python3
"""The cases of the program maintenance_cases on the model of document 01: what it prints is stored as crates/maintenance_cases/stdout.

Eight slots of 1,024 bytes, a table of eight; four batches, what is changed by hand, the maintenance, a reopening."""
import zlib

from model import Console

DELETE = None
HEAP = 8192
SHARDS = [(1, 256), (2, 255), (3, 60), (4, 1), (5, 0), (6, 5)]


def operation(ident, length):
    """the body is that many bytes of the id's number; ids below 128"""
    if length is DELETE:
        return bytes([ident, 0])
    size = [length] if length < 128 else [length % 128 + 128, length // 128]
    return bytes([ident, 1, *size]) + bytes([ident]) * length


class Case:
    def __init__(self, percent, least, target, threshold, slot=1024):
        self.settings = f'{slot} {percent} {least} {target} {threshold} 512'
        self.console = Console()
        for line in (f'settings {self.settings}', f'heap {HEAP}', 'table 16', 'reopen'):
            self.ask(line)

    def ask(self, line):
        return self.console.line(line)[0]

    def show(self, word):
        """next position, files, table, checksum of the heap"""
        s = self.console.store
        files = ''.join(' file %d %d %d %d %d %d %d %d' % (slot, *record) for slot, record in s.files())
        ids, locations = ' '.join(map(str, s.ids())), ' '.join(map(str, s.locations()))
        print(f'{word} next {s.next}{files} ids {ids} locations {locations} heap {zlib.crc32(s.heap)}')

    def reads(self):
        """length and checksum; nothing and a refusal give an empty part"""
        print('reads', end='')
        for ident in range(1, 8):
            answer = self.ask(f'read {ident}').split()
            body = bytes.fromhex(answer[1]) if answer[0] == 'ok' and answer[1] != '-' else b''
            print(f' id {ident} {len(body)} {zlib.crc32(body)}', end='')
        print()

    def by_hand(self, generations, damaged, sealed, sizes, next_position, claimed):
        """sealed: a slot whose trailer's checksum is made good after the damage; sizes: file_size of a slot's record"""
        s = self.console.store
        if damaged is not None:
            self.ask(f'poke {damaged} {255 - s.heap[damaged]:02x}')
        if sealed is not None:
            _, total, size, *_ = s.records[sealed]
            start = sealed * 1024 + 64
            listed = bytes(s.heap[start + total + 4:start + size])
            self.ask(f'poke {start + total} {zlib.crc32(listed).to_bytes(4, "little").hex()}')
        for slot, size in sizes:
            lsn, total, _, present, generation, live, synced = s.records[slot]
            self.ask(f'record {slot} {lsn} {total} {size} {present} {generation} {live} {synced}')
        for slot, generation in enumerate(generations):
            if generation:
                lsn, total, size, present, _, live, synced = s.records[slot]
                self.ask(f'record {slot} {lsn} {total} {size} {present} {generation} {live} {synced}')
        if next_position:
            self.ask(f'state {self.settings} {HEAP} 8 {next_position}')
        self.ask(f'claims {claimed} 0 0 0')

    def run(self, *batches, generations=(), damaged=None, sealed=None, sizes=(), next_position=0, claimed=0):
        for batch in batches:
            self.ask('write ' + (b''.join(operation(*pair) for pair in batch).hex() or '-'))
        self.by_hand(generations, damaged, sealed, sizes, next_position, claimed)
        self.show('before')
        self.reads()
        self.show('maintain ' + self.ask('maintain'))
        print('counts', self.ask('counts').removeprefix('ok '))
        self.reads()
        self.ask('reopen')
        self.show('reopened')
        self.reads()


def three_files(case, length=5, **by_hand):
    case.run([(1, 5), (2, length), (7, 5)], [(3, 5), (4, DELETE), (7, 6)], [(5, 5), (6, 5), (7, 7)], [(7, 8)], **by_hand)


def paper():
    print('P6 3 of 4')
    Case(75, 1, 1024, 256).run([(1, 5), (2, 5), (3, 5), (4, 5)], [(4, 6)])
    print('P6 2 of 3')
    Case(75, 1, 1024, 256).run([(1, 5), (2, 5), (3, 5)], [(3, 6)])
    for generation in (0, 3, 255):
        print('P7', generation)
        Case(75, 1, 1024, 256).run([(1, 5), (2, 5), (3, 5)], [(3, 6)], generations=(generation,))
    print('P8')
    Case(100, 1, 1024, 256).run(SHARDS, [(6, 6)])
    print('P9')
    Case(100, 1, 100, 256).run([(1, 60), (2, 60), (3, 60), (4, 5)], [(4, 6)])


def groups():
    print('one group')
    three_files(Case(75, 2, 1024, 256))
    print('three groups')
    three_files(Case(75, 1, 1024, 256), generations=(0, 1, 2))
    print('three skipped')
    three_files(Case(75, 2, 1024, 256), generations=(0, 1, 2))
    print('claimed')
    three_files(Case(75, 1, 1024, 256), generations=(0, 1, 2), claimed=1)
    print('one of two')
    three_files(Case(75, 2, 1024, 256), generations=(0, 0, 1))


def small_files():
    for name, target, threshold in (('threshold 4', 1024, 4), ('threshold 5', 1024, 5), ('file size at the target', 106, 4)):
        print(name)
        Case(75, 2, target, threshold).run([(1, 5)], [(2, 6)], [(3, 7)], [(4, DELETE)])


def damaged():
    for name, at in (('10 in the second group', 1108), ('10 in the first group', 84), ('length', 83), ('length, small', 76), ('id', 68)):
        print(name)
        three_files(Case(75, 1, 1024, 256), generations=(0, 1, 2), damaged=at)


def trailers():
    for name, size in (('9 in the second group', 70), ('trailer of 20 bytes', 71)):
        print(name)
        three_files(Case(75, 1, 1024, 256), generations=(0, 1, 2), sizes=[(1, size)])
    for name, at in (('11 in the second group', 1143), ('20 in the second group', 1182)):
        print(name)
        three_files(Case(75, 1, 1024, 256), generations=(0, 1, 2), damaged=at, sealed=1)


def refused():
    print('4')
    Case(75, 2, 1048576, 1).run([(1, 256), (2, 256)], [(3, 256), (4, 256)])
    print('5')
    Case(100, 1, 1024, 256).run(SHARDS, [(6, 6)], [(7, 5)], [(7, 6)])
    print('5 in the third group')
    three_files(Case(75, 1, 1024, 256), 9, generations=(0, 1, 2))
    for name, next_position in (('7', 4611686018427387854), ('7 in the second group', 4611686018427387853)):
        print(name)
        three_files(Case(75, 1, 1024, 256), generations=(0, 1, 2), next_position=next_position)
    print('1')
    Case(75, 1, 1024, 256, slot=100).run([(1, 5)])


if __name__ == '__main__':
    paper()
    groups()
    small_files()
    damaged()
    trailers()
    refused()
