#!/usr/bin/env python3
"""Scenarios within the oracle's domain (document 01: file sets in its limits, 8 to 15 clear, 12 as request P2 mends it) as console scripts.

    scenarios.py SEED NUMBER      prints one"""
import random
import sys
import zlib

from model import BATCH_BIT, HEADER, LABEL, MAX_RECORDS, file_bytes, label_bytes, misplaced, object_bytes, raw_location, to_groups

STRANGE_IDS = [0, 127, 128, 16383, 16384, 2 ** 32, 2 ** 63, 2 ** 64 - 1]


def operation(ident, body):
    """batch bytes of one operation"""
    return to_groups(ident) + (b'\0' if body is None else b'\1' + to_groups(len(body)) + body)


class Maker:
    def __init__(self, seed, number, small=False):
        self.r = random.Random(f'{seed} {number}')
        self.marks = random.Random(f'{seed} {number} marks')
        self.small = small
        self.one_shard = self.r.random() < 0.25  # bodies of about one size: shards are cut
        self.ids = list(range(1, self.r.randint(3, 8 if small else 14))) + self.r.sample(STRANGE_IDS, self.r.randint(0, 3))

    def settings(self, slot_bytes):
        r = self.r
        percent, least = r.choice([0, 30, 50, 75, 75, 100, 100, 100]), r.choice([1, 1, 2, 2, 3])
        target = r.choice([1, 30, 60, 100, 300, 2048, 1048576, 1048576, 1048576])
        if self.one_shard:
            percent, target = 100, r.choice([1, 30, 60, 100])
        threshold = r.choice([0, 0, 0, 2, 4, 64])
        longest = r.choice([2, 16, 40, 100, 100, slot_bytes, slot_bytes, 1048576])
        return f'settings {slot_bytes} {percent} {least} {target} {threshold} {longest}'

    def body(self, longest):
        r = self.r
        usual = min(longest - 1, 20 if self.small else 60)
        length = r.choice([0, 1, 2, r.randint(0, usual), r.randint(0, usual), r.randint(0, usual)])
        if self.one_shard:
            length = r.choice([0, r.randint(8, 15), r.randint(8, 15), r.randint(8, 15)])
        if r.random() < 0.03:
            length = r.choice([longest - 1, longest, longest + 1])
        return r.randbytes(max(0, min(length, 4000)))

    def batch(self, longest):
        r = self.r
        idents = [r.choice(self.ids) for _ in range(r.choice([0, 1, 1, 2, 2, 3, 4, 6]))]
        data = b''.join(operation(i, None if r.random() < 0.25 else self.body(longest)) for i in idents)
        return data.hex() or '-'

    def start(self):
        """settings, heap and table for a store of own calls"""
        r = self.r
        slot_bytes, slots = r.choice([256, 300, 512] if self.small else [256, 300, 512, 1024, 4096]), r.choice([3, 8, 12, 20, 30, 40])
        table = r.choice([len(self.ids), len(self.ids), 64, max(1, len(self.ids) - 2)])
        return slot_bytes, [self.settings(slot_bytes), 'claims 0 0 0 0', f'heap {slots * slot_bytes}', f'table {2 * table}']

    def calls(self, slot_bytes, slots, settings, count):
        """a run of calls after a reopening"""
        r, lines, held = self.r, [], []
        for _ in range(count):
            longest = int(settings.split()[6])
            what = r.random()
            if what < 0.56:
                lines.append('write ' + self.batch(longest))
            elif what < 0.74:
                lines.append('maintain')
            elif what < 0.79:
                lines.append('prune')
            elif what < 0.85:
                held.append(r.randrange(min(slots, 6) + 1))
                lines.append(f'claim {held[-1]}')
            elif what < 0.89:
                lines.append(f'release {held.pop() if held else r.randrange(slots + 1)}')
            elif what < 0.95:
                lines.append('reopen')
            else:
                settings = self.settings(slot_bytes)
                lines += [settings, 'reopen']
            if self.marks.random() < 0.15:
                lines.append('sync')
        return lines

    def own(self):
        """a store that our own calls leave"""
        slot_bytes, lines = self.start()
        slots = int(lines[2].split()[1]) // slot_bytes
        return lines + ['reopen'] + self.calls(slot_bytes, slots, lines[0], self.r.randint(4, 12 if self.small else 40))

    # file sets made by hand

    def crafted_file(self, damaged):
        """objects in any order, deletes anywhere up to T, repeated ids, unlisted objects, bytes behind the entries;
        damaged: also wrong sums, wrong ids, entries between objects, a last object whose body passes T; no object's header does (request P2)"""
        r, objects, entries, last = self.r, b'', [], {}
        for _ in range(r.randint(1, 5)):
            ident, at = r.choice(self.ids), len(objects)
            delete = r.random() < 0.3
            if not delete:
                data = bytearray(object_bytes(ident, r.randbytes(r.choice([0, 1, 5, 20]))))
                if damaged and r.random() < 0.2:
                    data[r.randrange(len(data))] ^= r.randint(1, 255)
                objects += bytes(data)
            if last.get(ident, -1) < at and r.random() < 0.9:
                entries.append((ident, raw_location(at, delete)))
                last[ident] = at
        if damaged and r.random() < 0.5:
            ident, delete = r.choice(self.ids), r.random() < 0.3
            at = r.randint(0, len(objects) if delete else max(0, len(objects) - HEADER))
            if last.get(ident, -1) < at and not misplaced(len(objects), raw_location(at, delete)):
                entries.append((ident, raw_location(at, delete)))
                last[ident] = at
        crossing = damaged and r.random() < 0.3 and self.ids[0] not in last
        if crossing:
            entries.append((self.ids[0], raw_location(len(objects), False)))
        if not entries:
            return file_bytes([(self.ids[0], b'x')])[:2] + (1,)
        listed = len(entries).to_bytes(8, 'little')
        listed += b''.join(i.to_bytes(8, 'little') + p.to_bytes(8, 'little') for i, p in entries)
        listed += r.randbytes(r.choice([0, 0, 1, 16]))
        trailer = zlib.crc32(listed).to_bytes(4, 'little') + listed
        if crossing:
            whole = object_bytes(self.ids[0], r.randbytes(3) + trailer[:r.randint(1, 16)])
            objects += whole[:r.choice([HEADER + 3, HEADER + 3, HEADER + 1, HEADER])]
        return objects + trailer, len(objects), len(entries)

    def crafted(self, damaged=False):
        r = self.r
        slot_bytes, lines = self.start()
        slot_bytes = max(slot_bytes, 512)
        slots = r.randint(6, 24)
        settings = self.settings(slot_bytes)
        lines = [settings, 'claims 0 0 0 0', f'heap {slots * slot_bytes}', f'table {2 * len(self.ids)}']
        at, order = r.choice([1, 1, 77, 2 ** 40, BATCH_BIT - 2 ** 22, BATCH_BIT - 5000]), r.sample(range(slots), r.randint(1, min(6, slots)))
        for slot in order:
            data, trailer_offset, present = self.crafted_file(damaged)
            lsn = at + r.choice([0, 0, 5]) + r.choice([0, BATCH_BIT])
            label = label_bytes((lsn, trailer_offset, len(data), present, r.choice([0, 0, 1, 2, 3, 4, 16, 255])))
            lines.append(f'poke {slot * slot_bytes} {(label + data).hex()}')
            at = (lsn & ~BATCH_BIT) + trailer_offset + 1
        return lines + ['reopen'] + self.calls(slot_bytes, slots, settings, r.randint(2, 8))


    def table_calls(self):
        """the four table calls alone, on an empty store"""
        r = self.r
        slot_bytes, lines = self.start()
        lines.append('reopen')
        for _ in range(r.randint(10, 30)):
            raw = lambda: r.choice([1, 2, 3, 10, 11, 2 ** 63, 2 ** 64 - 1])
            call = r.choice(['load {0}', 'store {0} {1}', 'cas {0} {1} {2}', 'cas {0} {1} {2}', 'max {0} {1}', 'max {0} {1}'])
            lines.append(call.format(r.choice(self.ids), raw(), raw()))
        return lines


def pokes(at, data, most=65000):
    """in pieces that a line of the console takes"""
    return [f'poke {at + k} {data[k:k + most].hex()}' for k in range(0, len(data), most)]


def scenario(seed, number, small=False):
    maker = Maker(seed, number, small)
    kind = number % 6
    return maker.own() if kind < 3 else maker.table_calls() if kind == 5 else maker.crafted(damaged=kind == 4)


def from_files(seed, number, files, settings, table):
    """a scenario on files that the original wrote: (name, bytes); labels made from names, slots shuffled. Not where they are too many"""
    r = random.Random(f'{seed} {number} files')
    words = settings.split()
    slot_bytes = max([128] + [LABEL + len(data) for _, data in files])
    slots = min(MAX_RECORDS, max(4, len(files) + len(files) // 2))
    if not 0 < len(files) <= slots:
        return None
    lines = [' '.join([words[0], str(slot_bytes)] + words[2:]), 'claims 0 0 0 0', f'heap {slots * slot_bytes}', f'table {2 * table}']
    for slot, (name, data) in zip(r.sample(range(slots), len(files)), files):
        lsn, trailer_offset, present, generation = (int(part, 16) for part in name.split('-'))
        label = label_bytes((lsn, trailer_offset, len(data), present, generation))
        lines += pokes(slot * slot_bytes, label + data)
    return lines + ['reopen', 'maintain', 'reopen']


if __name__ == '__main__':
    print('\n'.join(scenario(sys.argv[1], int(sys.argv[2]))))
