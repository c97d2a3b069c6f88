#!/usr/bin/env python3
"""Damaged, spliced and foreign heaps for the checker of document 02's request P5, as console scripts.

    damaged.py [--model | --console PATH] [--seed S] [--from K] [--count N]

    tests/oracle/damaged.py --count 100000    the long run; without --console the console is compiled first, with no proof

A heap's files come from calls of the model's own, from a life of another store, or from nobody's writer: ids in any order, repeats, deletes
anywhere, bytes behind the entries, no entries, any generation. Most heaps are then damaged: labels, trailers with their checksum mended or
not, entries, object headers, ranges. The table is about as long as it must be, or shorter.

Checked without a second implementation: the list's form and order; that it is as long as its room, and a shorter room gives its front;
that it changes nothing; that a reopening is accepted exactly if every line has a position; that a heap whose list is empty has an empty
list behind any calls. And as a second opinion: the model's answers, line by line. A run that did not meet each kind of fault, and each case
of MUST_MEET, fails."""
import argparse
import os
import random
import re
import subprocess
import time
from collections import Counter

from hostile import EDGES, NUMBER, RESET, first_word
from known import trailer
from model import (BATCH_BIT, HEADER, LABEL, Refused, Settings, Store, label_bytes, label_numbers, le, masked, object_bytes, object_sum,
                   raw_location, trailer_entries)
from port import Difference, Model, Port
from scenarios import operation

ROOT = os.path.dirname(os.path.dirname(os.path.dirname(os.path.abspath(__file__))))
LISTED = re.compile(f'fault {NUMBER} {NUMBER}( {NUMBER})?$')
TOTAL = re.compile(f'ok {NUMBER}$')
WITHOUT_POSITION, WITH_POSITION = {6, 8, 9, 10, 11, 12, 13, 14, 15}, {10, 16, 17}
FULL = 4096  # lines of room: more faults than any heap here has

FAULTS = ['8 of a slot', '9 of a slot', '10 of a slot', '11 of a slot', '12 of a slot', '13 of a slot', '15 of a slot', '10 of an object',
          '16 of an object', '17 of an object', '17 of an entry', '14 of a range', '6 of the table']
CASES = [
    'refused with 1', 'a bad line', 'a list longer than its room', 'no room', 'no slot in use', 'a table not in form',
    'a clean heap', 'a clean foreign heap', 'a foreign heap that maintenance moved', 'calls behind a clean list', 'accepted, with faults',
    '8 by fill', '8 by form or generation', '8 by file_size', '8 by T', '8 by masked lsn 0', '8 by lsn of 2^63', '8 by a range past 2^62',
    '11, which wraps', 'an object at T, 12', 'several faults in a slot', '10 and 17 of one object', '16, and 17 of its own entry',
    '16 of a header', '16 of a body', 'a length of 2^64 - 1', 'a length that wraps',
    '14 behind other faults of the slot', '14 by a slot that 14 struck', '14 at one shared position', 'ranges one apart',
    '6 by ids of slots with faults', 'no 6, but by ids of unsound slots', 'a full table', 'over 256 ids', 'over 512 ids', '6 of over 256 ids',
    'a full table of over 256', 'a delete at T', 'a delete in the middle of an object', 'a repeated id, rising', 'ids not ascending',
    'no entries', 'bytes behind the entries', 'generation 255', 'a next position over 2^62', 'a body of max_object_size or more',
    'a first byte of 0 before others', 'the last slot of 256',
]
MUST_MEET = FAULTS + CASES


class Parts:
    """a file taken apart, so that one thing can be wrong and the rest mended"""

    def __init__(self, lsn, generation, objects, entries, more=b''):
        self.lsn, self.generation, self.objects, self.entries, self.more = lsn, generation, bytearray(objects), list(entries), more
        self.label, self.form, self.count, self.bad_sum = {}, None, None, 0  # what the label and the trailer say otherwise

    @staticmethod
    def of(slot):
        """of a slot with a label and a trailer"""
        lsn, trailer_offset, file_size, _, generation = label_numbers(slot[:LABEL])
        data = slot[LABEL:LABEL + file_size]
        entries = trailer_entries(data[trailer_offset:])
        return Parts(lsn, generation, data[:trailer_offset], entries, data[trailer_offset + 12 + 16 * len(entries):])

    def bytes(self):
        listed = trailer(*self.entries, more=self.more, count=self.count)
        listed = bytes([listed[0] ^ self.bad_sum]) + listed[1:]
        numbers = {'lsn': self.lsn, 't': len(self.objects), 'size': len(self.objects) + len(listed), 'present': len(self.entries),
                   'generation': self.generation, **self.label}
        label = label_bytes([min(n, 2 ** 64 - 1) for n in numbers.values()])
        return (self.form(label)[:LABEL] if self.form else label) + self.objects + listed

    def places(self):
        """where the objects start, walked as far as they go"""
        at, found = 0, []
        while at + HEADER <= len(self.objects):
            found.append(at)
            at += HEADER + le(self.objects, at + 12)
        return found

    def mend(self, at):
        """the checksum of the object at a position, if it is whole"""
        end = at + HEADER + le(self.objects, at + 12)
        if end <= len(self.objects):
            total = object_sum(le(self.objects, at + 4), bytes(self.objects[at + HEADER:end]))
            self.objects[at:at + 4] = total.to_bytes(4, 'little')


class Maker:
    """one heap, and the script that has the console look at it"""

    def __init__(self, seed, number):
        self.r = random.Random(f'{seed} damaged {number}')
        self.met, self.foreign, self.damaged = set(), False, False

    def chance(self, of_a_hundred):
        return self.r.randrange(100) < of_a_hundred

    def edge(self):
        r = self.r
        return r.choice([r.choice(EDGES), r.randrange(200), max(0, min(2 ** 64 - 1, r.choice(EDGES) + r.randint(-3, 3)))])

    def make(self):
        r = self.r
        self.slot_bytes, self.slots = r.choice([128, 160, 200, 256, 256, 300, 512]), r.choice([1, 2, 3, 4, 5, 6, 8, 10])
        self.many = self.chance(4)
        if self.many:
            self.slot_bytes, self.slots = r.choice([3000, 4096, 8192]), r.choice([2, 3, 4])
        elif self.chance(2):
            self.slot_bytes, self.slots = 128, 256
        self.settings = Settings([self.slot_bytes, r.choice([0, 75, 100, 100]), r.choice([1, 1, 2]), r.choice([1, 100, 600, 2048]),
                                  r.choice([0, 0, 3, 64]), r.choice([8, 30, 64, 1024])])
        self.ids = sorted(r.sample(range(1, 30), r.randint(1, 8)) + r.choice([[], [], [0], [2 ** 64 - 1]]))
        if self.many:
            self.ids = r.sample(range(r.choice([600, 2000])), r.choice([255, 256, 257, 300, 511, 512, 513, 590])) + r.choice([[], [2 ** 64 - 1]])
        self.heap, self.chained = [bytes(self.slot_bytes)] * self.slots, self.chance(5)  # chained: each file begins where the last one ends
        self.fill()
        self.files = {k: self.heap[k] for k in range(self.slots) if self.heap[k][0] != 0}
        if self.chance(70):
            for _ in range(r.choice([1, 1, 1, 2, 3, 5])):
                self.damage()
        self.judge()
        self.script()
        return self

    # ---- files

    def fill(self):
        kind = self.r.choice(['own', 'own', 'foreign', 'foreign', 'spliced', 'mixed'])
        if kind in ('own', 'spliced', 'mixed'):
            self.heap = self.life()
        if kind == 'spliced':
            for slot, other in enumerate(self.life()):
                if self.chance(40):
                    self.heap[slot] = other
        if self.many:
            self.foreign, self.heap = True, [bytes(self.slot_bytes)] * self.slots
            self.dealt()
        elif kind in ('foreign', 'mixed'):
            self.foreign, base = True, self.r.choice([1, 1, 50, 1000, BATCH_BIT - 200 * self.slots, BATCH_BIT - 100])
            for slot in range(self.slots):
                if self.chance(60 if kind == 'foreign' else 20) and self.slots < 256 or self.slots == 256 and (slot == 255 or self.chance(3)):
                    base = self.put(slot, self.nobodys(base))

    def life(self):
        """the slots as some calls of the model leave them"""
        r, store = self.r, Store()
        store.given, store.heap = self.settings, bytearray(self.slots * self.slot_bytes)
        store.words = [0] * 32
        store.reopen()
        for _ in range(r.choice([0, 2, 4, 6, 9])):
            try:
                r.choice([store.maintain, store.prune, store.reopen] + 5 * [lambda: store.write(self.batch(40))])()
            except Refused:
                pass
        size = self.slot_bytes
        slots = [bytes(store.heap[k * size:(k + 1) * size]) for k in range(self.slots)]
        empty = [k for k in range(self.slots) if slots[k][0] == 0]
        if empty and self.chance(10):  # power gone in a write
            made = Parts(store.next | BATCH_BIT, 0, object_bytes(7, r.randbytes(9)), [(7, 0)]).bytes()[:size]
            slots[empty[0]] = bytes(1) + made[1:] + slots[empty[0]][len(made):]
        return slots

    def batch(self, most):
        r = self.r
        return b''.join(operation(r.choice(self.ids), None if self.chance(30) else r.randbytes(r.choice([0, 1, 2, 7, 20, most])))
                        for _ in range(r.choice([1, 1, 2, 3])))

    def nobodys(self, base):
        """a file that no writer of ours made"""
        r, room = self.r, self.slot_bytes - LABEL - 12
        p = Parts(base | r.choice([0, BATCH_BIT]), r.choice([0, 0, 1, 2, 3, 4, 255]), b'', [])
        for _ in range(r.choice([0, 1, 1, 2, 3, 4, 6])):
            ident, delete = r.choice(self.ids), self.chance(30)
            body = b'' if delete else r.randbytes(r.choice([0, 0, 1, 5, 9, 30, 64]))
            if ident in [i for i, _ in p.entries] and self.chance(50):
                continue
            if len(p.objects) + HEADER + len(body) + 16 * (len(p.entries) + 1) > room:
                continue
            p.entries.append((ident, raw_location(len(p.objects), delete)))
            if not delete:
                p.objects += object_bytes(ident, body)
        if self.chance(40):
            r.shuffle(p.entries)
        for k, (ident, raw) in enumerate(p.entries):
            if raw % 2 == 1 and self.chance(40):  # a delete anywhere up to T
                p.entries[k] = (ident, raw_location(r.choice([0, len(p.objects), r.randint(0, len(p.objects))]), True))
        left = room - len(p.objects) - 16 * len(p.entries)
        if left >= 8 and (not p.entries or self.chance(25)):  # no entries need 8 bytes behind them
            p.more = r.randbytes(r.choice([8, r.randint(8, left)]))
        return p

    def dealt(self):
        """every id once, and some again, over the slots in any order, most of them deletes: more ids than a pass of a counter may hold"""
        r, room, base = self.r, self.slot_bytes - LABEL - 12, 1
        left = r.sample(self.ids, len(self.ids)) + r.sample(self.ids, 20)
        for slot in range(self.slots):
            p = Parts(base, 0, b'', [])
            share = left[:-(-len(left) // (self.slots - slot))]
            if self.chance(50):
                share.sort()
            for ident in share:
                if len(p.objects) + HEADER + 16 * (len(p.entries) + 1) <= room and ident not in [i for i, _ in p.entries]:
                    delete = len(p.objects) > room // 4 or self.chance(50)
                    p.entries.append((ident, raw_location(len(p.objects), delete)))
                    p.objects += b'' if delete else object_bytes(ident, b'')
            left = left[len(share):]
            base = self.put(slot, p)

    def put(self, slot, p):
        """the file into its slot, over what was there; gives the next base, sometimes one that the file takes"""
        made = p.bytes()[:self.slot_bytes]
        self.heap[slot] = made + self.heap[slot][len(made):]
        after = masked(p.lsn) + len(p.objects)
        return min(after + (0 if self.chained else self.r.choice([1] * 9 + [2, 40, 0])), BATCH_BIT - 1) or 1

    # ---- damage

    def damage(self):
        self.damaged = True
        slots = [k for k in self.files if self.heap[k][0] != 0]
        slot = self.r.choice(slots or [0])
        try:
            p = Parts.of(self.heap[slot]) if slots else None
        except (Refused, TypeError):  # damaged before: its bytes alone are changed
            p = None
        if p is None or self.chance(8):
            self.scratch(slot)
            return
        wrong = self.r.choice([self.wrong_label, self.wrong_label, self.wrong_trailer, self.wrong_trailer, self.wrong_entry, self.wrong_entry,
                               self.wrong_entry, self.wrong_object, self.wrong_object, self.wrong_object, self.wrong_range, self.wrong_end])
        wrong(p, slot)
        self.put(slot, p)

    def scratch(self, slot):
        """some bytes, whatever they are"""
        r, data = self.r, bytearray(self.heap[slot])
        for _ in range(r.choice([1, 1, 2, 8])):
            data[r.choice([r.randrange(len(data)), r.randrange(24), LABEL + r.randrange(64)])] = r.choice([0, 1, 127, 128, 255, r.randrange(256)])
        self.heap[slot] = bytes(data)

    def wrong_label(self, p, slot):
        r = self.r
        name = r.choice(['lsn', 'lsn', 't', 'size', 'present', 'generation', 'form'])
        if name == 'form':  # bytes behind the numbers; a number one group longer, past 64 bits, or with no end
            at = r.choice([25, 63, r.randrange(25, 64)])
            p.form = r.choice([lambda label: label[:at] + b'\1' + label[at + 1:], lambda label: bytes([label[0] | 128]) + b'\x80\x00' + label[1:],
                               lambda label: b'\xff' * 9 + b'\x02' + label[9:], lambda label: b'\x81' * LABEL])
            return
        held = {'lsn': p.lsn, 't': len(p.objects), 'size': self.slot_bytes - LABEL, 'present': len(p.entries), 'generation': p.generation}[name]
        p.label[name] = r.choice([self.edge(), max(0, held + r.choice([-1, 1, -20, 20, 1 << 62]))])
        if name == 'generation':
            p.label[name] = r.choice([255, 256, self.edge()])
        elif name == 'lsn' and self.chance(50):
            p.label[name] = r.choice([BATCH_BIT, 2 ** 63 + p.lsn % BATCH_BIT, 2 ** 63 + p.lsn, BATCH_BIT - len(p.objects), BATCH_BIT - len(p.objects) - 1])

    def wrong_trailer(self, p, slot):
        r = self.r
        kind = r.choice(['sum', 'count', 'count', 'short', 'short', 'less'])
        if kind == 'sum':
            p.bad_sum = r.randrange(1, 256)
        elif kind == 'count':
            p.count = r.choice([self.edge(), len(p.entries) + 1, max(0, len(p.entries) - 1), (1 << 60) - 1, 1 << 60, 2 ** 64 - 1])
            if self.chance(50):
                p.label['present'] = p.count
        elif kind == 'short':
            p.label['size'] = len(p.objects) + r.choice([0, 1, 12, 19, 20])
        else:
            p.entries = []
            p.more = r.randbytes(r.choice([0, 7, 8]))

    def wrong_entry(self, p, slot):
        r, t = self.r, len(p.objects)
        if not p.entries:
            return
        k = r.randrange(len(p.entries))
        ident, raw = p.entries[k]
        kind = r.choice(['position', 'position', 'near T', 'near T', 'id', 'mark', 'swap', 'repeat', 'drop', 'taken'])
        if kind == 'position':
            p.entries[k] = (ident, r.choice([self.edge(), (raw + 2 * r.choice([-20, -1, 1, 20])) % 2 ** 64, raw_location(r.randint(0, t), False)]))
        elif kind == 'near T':
            delete = self.chance(40)
            p.entries[k] = (ident, raw_location(max(0, t + r.choice([-21, -20, -19, -1, 0, 0, 1] if not delete else [-1, 0, 0, 1])), delete))
        elif kind == 'id':
            p.entries[k] = (r.choice(self.ids + [ident ^ 1, self.edge()]), raw)
        elif kind == 'mark':
            p.entries[k] = (ident, raw ^ 1)
        elif kind == 'swap':
            j = r.randrange(len(p.entries))
            p.entries[k], p.entries[j] = p.entries[j], p.entries[k]
        elif kind == 'repeat':
            p.entries.insert(r.randint(0, len(p.entries)), (ident, r.choice([raw, raw ^ 1, raw_location(t, True), raw_location(t // 2, True)])))
        elif kind == 'drop':
            del p.entries[k]
        else:  # the object is gone, its entry stays
            at = r.choice(p.places() or [0])
            del p.objects[at:at + HEADER + min(le(p.objects, at + 12), t)]

    def wrong_object(self, p, slot):
        r, places = self.r, p.places()
        if not places:
            return
        at = r.choice(places)
        kind = r.choice(['length', 'length', 'length', 'id', 'sum', 'body', 'swap', 'more', 'both'])
        if kind == 'length':
            held = le(p.objects, at + 12)
            length = r.choice([2 ** 64 - 1, 2 ** 64 - 1, 2 ** 64 - HEADER, 2 ** 64 - HEADER - at, 2 ** 63, self.edge(), held + 1, max(0, held - 1), 0,
                               held + HEADER, len(p.objects) - at - HEADER, len(p.objects) - at - HEADER + 1])
            p.objects[at + 12:at + 20] = (length % 2 ** 64).to_bytes(8, 'little')
        elif kind == 'id':
            p.objects[at + 4:at + 12] = r.choice(self.ids + [self.edge()]).to_bytes(8, 'little')
        elif kind == 'sum':
            p.objects[at + r.randrange(4)] ^= r.randrange(1, 256)
        elif kind == 'body':
            where = at + r.choice([0, 4, 12, HEADER])
            if where < len(p.objects):
                p.objects[r.randrange(where, len(p.objects))] ^= r.randrange(1, 256)
        elif kind == 'swap':  # two objects exchanged, their entries not
            cut = r.choice(places)
            p.objects = p.objects[cut:] + p.objects[:cut]
            return
        elif kind == 'more':  # one that is listed nowhere
            p.objects += object_bytes(r.choice(self.ids), r.randbytes(r.choice([0, 3])))
            return
        else:  # another id under another checksum
            p.objects[at + 4] ^= r.randrange(1, 256)
            p.objects[at] ^= r.randrange(1, 256)
            return
        if self.chance(50):
            p.mend(at)

    def wrong_range(self, p, slot):
        """at another file's place, or the file a second time"""
        r = self.r
        others = [k for k in self.files if k != slot]
        if self.chance(30):
            self.heap[r.randrange(self.slots)] = self.heap[slot]
        elif others:
            numbers = label_numbers(self.heap[r.choice(others)][:LABEL]) or (1, 0)
            start, end = masked(numbers[0]), masked(numbers[0]) + min(numbers[1], 1 << 20)
            base = r.choice([start, end, end + 1, start - len(p.objects), start - len(p.objects) - 1, r.randint(start, end)])
            if 0 < base < BATCH_BIT:
                p.lsn = base | r.choice([0, BATCH_BIT])

    def wrong_end(self, p, slot):
        """bytes behind the last object, or too few"""
        r = self.r
        if self.chance(50):
            p.objects += r.choice([bytes(r.randint(1, 40)), r.randbytes(r.randint(1, 40)), bytes(HEADER)])
        else:
            del p.objects[len(p.objects) - min(len(p.objects), r.choice([1, 1, 2, 20, 21])):]

    # ---- what the model says of it

    def judge(self):
        """the table's length, the faults, and what was met"""
        r, store = self.r, Store()
        store.given, store.heap = self.settings, bytearray(b''.join(self.heap))
        store.words = [0] * 131072
        sound, unsound, files = set(), set(), {}
        for fault in store.check():
            files.setdefault(fault.slot, []).append(fault)
        bad = {k for k, faults in files.items() if faults[0].of == 'a slot'}
        for slot in [k for k in range(self.slots) if self.heap[k][0] != 0]:
            numbers = label_numbers(self.heap[slot][:LABEL])
            if slot not in bad:
                entries = store.labelled(slot, numbers)[1]
                sound |= {i for i, _ in entries}
                self.look(slot, numbers, entries, files.get(slot, []))
            elif numbers and numbers[1] < self.slot_bytes:
                unsound |= self.listed(slot, numbers)
        near = len(sound)
        self.met |= {f'over {n} ids' for n in (256, 512) if near > n}
        self.table = max(1, r.choice([near, near, near, near, near - 1, near + 1, near + 5, len(sound | unsound) - 1, r.randint(1, 10)]))
        if self.many:
            self.table = max(1, near + r.choice([-1, -1, 0, 0, 1]))
        store.words = [0] * (2 * self.table)
        self.faults = store.check()
        self.tell(store, sound, unsound, bad, files)

    def listed(self, slot, numbers):
        """ids that a careless count would take from a slot with a fault of its own"""
        data = self.heap[slot][LABEL + numbers[1]:LABEL + numbers[2]]
        return {le(data, at) for at in range(12, len(data) - 15, 16)}

    def look(self, slot, numbers, entries, faults):
        """a sound slot"""
        lsn, t, size, present, generation = numbers
        objects = self.heap[slot][LABEL:LABEL + t]
        walked = [(f.number, f.position) for f in faults if f.of == 'an object']
        idents = [i for i, _ in entries]
        passed = [p for n, p in walked if n == 16]
        objects_at = {raw for _, raw in entries if raw % 2 == 0}
        self.met |= {name for name, holds in {
            'several faults in a slot': len(faults) > 1,
            '10 and 17 of one object': any((10, p) in walked and n == 17 for n, p in walked),
            '16 of a header': any(p + HEADER > t for p in passed),
            '16 of a body': any(p + HEADER <= t for p in passed),
            '16, and 17 of its own entry': any(p + HEADER <= t and (le(objects, p + 4), 2 * p) in entries for p in passed),
            '14 behind other faults of the slot': len(faults) > 1 and faults[-1].number == 14,
            'a length that wraps': any(p + HEADER <= t and (p + HEADER + le(objects, p + 12)) % 2 ** 64 <= t for p in passed),
            'a length of 2^64 - 1': any(p + HEADER <= t and le(objects, p + 12) == 2 ** 64 - 1 for p in passed),
            'a delete at T': any(raw == 2 * t + 1 for _, raw in entries),
            'a delete in the middle of an object': any(raw % 2 == 1 and raw // 2 < t and raw - 1 not in objects_at for _, raw in entries),
            'a repeated id, rising': len(set(idents)) < len(idents),
            'ids not ascending': idents != sorted(idents),
            'no entries': not entries,
            'bytes behind the entries': size > t + 12 + 16 * present,
            'generation 255': generation == 255,
            'a next position over 2^62': masked(lsn) + size + 1 > BATCH_BIT,
            'a body of max_object_size or more': any(raw % 2 == 0 and le(objects, raw // 2 + 12) >= self.settings.max_object for _, raw in entries),
            'the last slot of 256': slot == 255,
        }.items() if holds}

    def tell(self, store, sound, unsound, bad, files):
        """the whole heap"""
        used = [k for k in range(self.slots) if self.heap[k][0] != 0]
        for fault in self.faults:
            self.met.add(f'{fault.number} of {fault.of}')
        spans = {}
        for k in used:
            if k not in bad:
                numbers = label_numbers(self.heap[k][:LABEL])
                spans[k] = (masked(numbers[0]), masked(numbers[0]) + numbers[1])
        struck = {f.slot for f in self.faults if f.number == 14}
        for k in spans:
            meets = [j for j in spans if j < k and spans[j][0] <= spans[k][1] and spans[k][0] <= spans[j][1]]
            self.met |= {'14 by a slot that 14 struck'} if meets and set(meets) <= struck else set()
            self.met |= {'14 at one shared position'} if any(spans[j][1] == spans[k][0] or spans[k][1] == spans[j][0] for j in meets) else set()
            self.met |= {'ranges one apart'} if any(spans[j][1] + 1 == spans[k][0] or spans[k][1] + 1 == spans[j][0] for j in spans) else set()
        flawless = {i for k in spans if k not in files for i, _ in store.labelled(k, label_numbers(self.heap[k][:LABEL]))[1]}
        closing = any(f.number == 6 for f in self.faults)
        at_t = [k for k in bad if files[k][0].number == 12 and self.object_at_t(k)]
        for k in bad:
            if files[k][0].number == 8:
                self.met.update(f'8 by {ground}' for ground in self.grounds(k))
            if files[k][0].number == 11:
                _, t, size, *_ = label_numbers(self.heap[k][:LABEL])
                if 12 + 16 * le(self.heap[k], LABEL + t + 4) % 2 ** 64 <= size - t:
                    self.met.add('11, which wraps')
        self.clean = not self.faults
        self.met |= {name for name, holds in {
            'no slot in use': not used,
            'a first byte of 0 before others': any(data[0] == 0 and any(data) for data in self.heap),
            'a clean heap': self.clean and used,
            'a clean foreign heap': self.clean and used and self.foreign and not self.damaged,
            'accepted, with faults': self.faults and all(f.position is not None for f in self.faults),
            '6 by ids of slots with faults': closing and len(flawless) <= self.table,
            'no 6, but by ids of unsound slots': not closing and len(sound | unsound) > self.table,
            'a full table': len(sound) == self.table,
            'a full table of over 256': len(sound) == self.table > 256,
            '6 of over 256 ids': closing and self.table > 256,
            'an object at T, 12': bool(at_t),
        }.items() if holds}

    def grounds(self, slot):
        """why 8"""
        label = self.heap[slot][:LABEL]
        if label_numbers(label) is None:
            # with the fill cleared, is it a label?
            return ['fill'] if any(label_numbers(label[:at].ljust(LABEL, b'\0')) for at in range(5, LABEL)) else ['form or generation']
        lsn, t, size, *_ = label_numbers(label)
        return [ground for ground, holds in {
            'file_size': size > self.slot_bytes - LABEL, 'T': t > size, 'masked lsn 0': masked(lsn) == 0, 'lsn of 2^63': lsn >= 1 << 63,
            'a range past 2^62': masked(lsn) + t >= BATCH_BIT}.items() if holds]

    def object_at_t(self, slot):
        """12 by document 02's request P2 alone"""
        numbers = label_numbers(self.heap[slot][:LABEL])
        entries = trailer_entries(self.heap[slot][LABEL + numbers[1]:LABEL + numbers[2]])
        return all(raw // 2 <= numbers[1] for _, raw in entries)

    # ---- the script

    def script(self):
        r, size = self.r, self.slot_bytes
        given, heap, words = list(self.settings), self.slots * size, 2 * self.table
        if self.chance(3):  # refused with 1
            k = r.randrange(8)
            if k < 6:
                given[k] = r.choice([2 ** 64 - 1, 1048577, 0, 101, 127])
            elif k == 6:
                heap += r.choice([-1, 1, -heap, 64])
            else:
                words = r.choice([0, 2 * self.table + 1, 2 * self.table - 1])
        self.lines = RESET + [f'settings {" ".join(map(str, given))}', f'heap {heap}', f'table {words}']
        self.lines += [f'poke {k * size} {data.hex()}' for k, data in enumerate(self.heap) if any(data) and (k + 1) * size <= heap]
        if self.chance(10):  # neither table nor state matters
            self.lines += [f'entry {r.randrange(self.table)} {self.edge()} {self.edge()}' for _ in range(3 if words == 2 * self.table else 0)]
            self.lines += [f'record {r.randrange(256)}' + ''.join(f' {self.edge()}' for _ in range(6)) + f' {r.randrange(2)}', f'state{" 7" * 9}', 'claims 1 2 3 4']
            self.met.add('a table not in form')
        faults = len(self.faults)
        rooms = [FULL, r.choice([0, 1, 2, 3, max(0, faults - 1), faults, faults + 1, 2 * faults, FULL])]
        r.shuffle(rooms)
        self.lines += ['dump'] + [f'check {room}' for room in rooms] + ['dump', 'reopen']
        if self.chance(3):
            self.lines.append(r.choice(['check 4097', 'check', 'check x', 'check -1', 'check 1 2', 'check 18446744073709551616', 'check 4096 #']))
        if self.clean and (self.foreign or self.chance(60)):
            for _ in range(r.choice([1, 2, 4])):
                self.lines += [r.choice(['maintain', 'maintain', 'maintain', 'plan', f'rewrite {r.randint(1, 3)} {2 ** 64 - 1} 256', 'prune', 'reopen',
                                         f'claim {r.randrange(self.slots)}', f'write {self.batch(90).hex()}', f'write {self.batch(9).hex()}']), 'check 8']


# ---- what must hold ------------------------------------------------------------------------------

def wrong(maker, line, answer, why):
    return Difference(f'{why}\n    at: {line[:200]}\n    answer: {answer}\n\n' + '\n'.join(maker.lines))


def faults_of(maker, line, answer):
    """the list of one check: (slot, number, position or None) each, and its length; None where it was refused"""
    if answer == ['refused 1']:
        return None, None
    if not TOTAL.match(answer[-1]) or not all(LISTED.match(a) for a in answer[:-1]):
        raise wrong(maker, line, answer, 'not the form of a list of faults')
    listed = [tuple(map(int, a.split()[1:])) for a in answer[:-1]]
    listed = [(f + (None,))[:3] for f in listed]
    total, room = int(answer[-1].split()[1]), int(line.split()[1])
    if len(listed) != min(room, total):
        raise wrong(maker, line, answer, 'not as many lines as there is room for')
    for k, (slot, number, position) in enumerate(listed):
        if number not in (WITHOUT_POSITION if position is None else WITH_POSITION):
            raise wrong(maker, line, answer, 'a number that has no such line')
        if (number == 6) != (slot == maker.slots) or number == 6 and k != total - 1 or slot > maker.slots or k and slot < listed[k - 1][0]:
            raise wrong(maker, line, answer, 'not ascending by slot')
    return listed, total


def check(maker, answers):
    """what a list must be, whatever the store; gives what was met"""
    met, before, full, accepted, clean = set(), None, None, None, False
    for line, answer in [*zip(maker.lines, answers)][len(RESET):]:
        word = first_word(line)
        if answer == ['bad line']:
            if word != 'check' or re.fullmatch(r'check \d{1,4} ?#?', line) and int(line.split()[1]) <= FULL:
                raise wrong(maker, line, answer, 'the console does not take a line that it must take')
            met.add('a bad line')
        elif word == 'dump':
            if before is not None and answer != before:
                raise wrong(maker, line, answer, f'a check changed something: before it {before}')
            before = answer
        elif word == 'check':
            listed, total = faults_of(maker, line, answer)
            if listed is None:
                met.add('refused with 1')
                continue
            room = int(line.split()[1])
            met |= {'a list longer than its room'} if total > room else set()
            met |= {'no room'} if room == 0 else set()
            if accepted is None:
                if total > FULL:
                    raise SystemExit('a heap with more faults than a list has room for')
                if full is not None and (total, listed[:full[2]]) != (full[1], full[0][:room]):
                    raise wrong(maker, line, answer, 'two lists of one heap, and neither is the front of the other')
                if full is None or room > full[2]:
                    full = (listed, total, room)
            elif clean and total != 0:
                raise wrong(maker, line, answer, 'calls on a clean heap left faults')
            elif clean:
                met.add('calls behind a clean list')
        elif word == 'reopen' and accepted is None:
            accepted = answer == ['ok']
            if full is None:
                if answer != ['refused 1']:
                    raise wrong(maker, line, answer, 'check is refused and reopen is not')
            elif accepted != all(position is not None for _, _, position in full[0]):
                raise wrong(maker, line, answer, f'a reopening is accepted exactly if every line has a position: {full[0]}')
            clean = accepted and full[1] == 0
        elif word == 'maintain' and clean and maker.foreign and answer[0].startswith('ok') and answer != ['ok 0']:
            met.add('a foreign heap that maintenance moved')
    return met


def opinion(maker, said):
    """the model's answers"""
    for line, port, model in zip(maker.lines, said, Model().run(maker.lines)):
        if port != model:
            raise wrong(maker, line, port, f'the model answers {model}')


def run(port, seed, numbers):
    """one round; gives how many heaps met what, and the number of faults"""
    makers = [Maker(seed, k).make() for k in numbers]
    answers = iter(port.run([line for m in makers for line in m.lines]))
    tally, faults = Counter(), Counter()
    for k, maker in zip(numbers, makers):
        said = [next(answers) for _ in maker.lines]
        try:
            tally.update(maker.met | check(maker, said))
            if port.name != 'model':
                opinion(maker, said)
        except Difference as d:
            raise Difference(f'heap {k}: {d}')
        faults.update(f.number for f in maker.faults)
    return tally, faults


def main():
    parser = argparse.ArgumentParser()
    parser.add_argument('--model', action='store_true', help="the model in the port's place")
    parser.add_argument('--console')
    parser.add_argument('--seed', default='1')
    parser.add_argument('--from', dest='start', type=int, default=0)
    parser.add_argument('--count', type=int, default=3000, help='far fewer do not meet each case of MUST_MEET')
    options = parser.parse_args()
    if not options.console and not options.model:
        options.console = os.path.join(ROOT, 'target', 'tests', 'console')
        subprocess.run([os.path.join(ROOT, 'tests', 'unproved'), 'console', options.console], check=True)
    port = Model() if options.model else Port(options.console)
    began, heaps, tally, faults = time.time(), 0, Counter(), Counter()
    try:
        for at in range(options.start, options.start + options.count, 100):
            numbers = range(at, min(at + 100, options.start + options.count))
            t, f = run(port, options.seed, numbers)
            heaps, tally, faults = heaps + len(numbers), tally + t, faults + f
    except Difference as d:
        raise SystemExit(f'DIFFERENCE (seed {options.seed}) {d}')
    missing = [case for case in MUST_MEET if tally[case] == 0]
    if missing:
        raise SystemExit(f'damaged heaps: {heaps} of seed {options.seed} met no case of: {"; ".join(missing)}')
    print(f'{port.name} on damaged heaps: {heaps} heaps, {tally["a clean heap"]} of them clean, {sum(faults.values())} faults ('
          + ', '.join(f'{n}: {faults[n]}' for n in sorted(faults)) + f'), seed {options.seed}, {time.time() - began:.0f} s')
    print('  met: ' + '; '.join(f'{case} {tally[case]}' for case in MUST_MEET))


if __name__ == '__main__':
    main()
