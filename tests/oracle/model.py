#!/usr/bin/env python3
"""Document 01 as plain Python, read from the paper alone: a second opinion beside the port. Of document 02: request P1's
kinds, request P3's read through a batch, request P5's checker, request P6's mark, request P7's plan and rewrite, request P9's salvage.

Reads the console's script on standard input and prints its answers. Nothing here is taken from crates/;
where the paper leaves a choice, the reading D1..D15 of docs/DECISIONS.md is named at the line. 12 is as document 02's request P2 mends it."""
import re
import struct
import sys
import zlib
from collections import Counter, namedtuple
from operator import itemgetter, lt

U64 = 1 << 64
BATCH_BIT = 1 << 62
LABEL = 64
HEADER = 20
MAX_RECORDS = 256
NEVER, DELETED, OBJECT = 'never', 'deleted', 'ok'  # what a read or a load tells of an id
EMPTY = (0, 0, 0, 0, 0, 0, 0)  # lsn, trailer_offset, file_size, present_objects, generation, live, synced
# a line of the checker's list; position is None where it has none; of: what the fault is of, which the call does not give
Fault = namedtuple('Fault', 'slot number position of')
Loss = namedtuple('Loss', 'slot number')  # a line of the salvage's report
# what a plan gives; groups: the slots of each generation; files, bytes: what comes out before the refusal foretold; 0 and 0 where none is
Plan = namedtuple('Plan', 'mark count groups files bytes number generation')
GENERATIONS = (1, 2, 3)  # those that a rewrite makes


class Refused(Exception):
    def __init__(self, number, generation=0, moved=0):
        self.number, self.generation, self.moved = number, generation, moved


def refuse_if(condition, number):
    if condition:
        raise Refused(number)


# ---- numbers -------------------------------------------------------------------------------------

def le(data, at, width=8):
    return int.from_bytes(data[at:at + width], 'little')


def to_groups(n):
    """seven-bit groups, low group first, top bit set on all but the last"""
    out = bytearray()
    while n >= 128:
        out.append(n & 127 | 128)
        n >>= 7
    return bytes(out) + bytes([n])


def from_groups(data, at):
    """(number, place behind it), or None: cut short, not the shortest form, or over 64 bits"""
    n = 0
    for k in range(10):
        if at + k >= len(data):
            return None
        byte = data[at + k]
        n |= (byte & 127) << 7 * k
        if byte < 128:
            shortest = k == 0 or byte != 0
            return (n, at + k + 1) if shortest and n < U64 else None
    return None


def masked(position):
    return position & ~BATCH_BIT


def raw_location(position, delete):
    return 2 * position + (1 if delete else 0)


def shard(body):
    """how many bits the length needs; 0 for a delete"""
    return 0 if body is None else len(body).bit_length()


# ---- file bytes ----------------------------------------------------------------------------------

def label_bytes(numbers):
    return b''.join(map(to_groups, numbers)).ljust(LABEL, b'\0')


def label_numbers(label):
    """lsn, trailer_offset, file_size, present_objects, generation, or None: not as the paper has it"""
    numbers, at = [], 0
    for _ in range(5):
        got = from_groups(label, at)
        if got is None:
            return None
        number, at = got
        numbers.append(number)
    if numbers[4] > 255 or any(label[at:]):
        return None
    return tuple(numbers)


def outside_bounds(slot_bytes, lsn, trailer_offset, file_size, generation):
    """refusal 8 but for the label's form; D12: generation is one of the bounds"""
    return (generation > 255 or file_size > slot_bytes - LABEL or trailer_offset > file_size or masked(lsn) == 0
            or lsn >= 1 << 63 or masked(lsn) + trailer_offset >= BATCH_BIT)


def object_bytes(ident, body):
    length, name = len(body).to_bytes(8, 'little'), ident.to_bytes(8, 'little')
    return zlib.crc32(length + name + body).to_bytes(4, 'little') + name + length + body


def object_sum(ident, body):
    return zlib.crc32(len(body).to_bytes(8, 'little') + ident.to_bytes(8, 'little') + body)


def file_bytes(entries):
    """entries: (id, body or None for a delete), ids ascending. Gives bytes, T and (id, raw relative location)"""
    objects, places = bytearray(), []
    for ident, body in entries:
        places.append((ident, raw_location(len(objects), body is None)))  # D1: a delete has the object bytes before it
        if body is not None:
            objects += object_bytes(ident, body)
    listed = len(places).to_bytes(8, 'little')
    listed += b''.join(i.to_bytes(8, 'little') + r.to_bytes(8, 'little') for i, r in places)
    return bytes(objects) + zlib.crc32(listed).to_bytes(4, 'little') + listed, len(objects), places


def spans(files):
    """how far the next position grows by these files"""
    return sum(file_bytes(f)[1] + 1 for f in files)


def trailer_entries(trailer):
    """(id, raw relative location) in entry order; 9, 10, 11"""
    refuse_if(len(trailer) < 20, 9)
    refuse_if(zlib.crc32(trailer[4:]) != le(trailer, 0, 4), 10)
    count = le(trailer, 4)
    refuse_if(12 + 16 * count > len(trailer), 11)
    return list(struct.iter_unpack('<QQ', trailer[12:12 + 16 * count]))


def misplaced(trailer_offset, relative):
    """12, of one entry: its position over T; of an object, request P2: its position + 20 over T"""
    return relative // 2 + (0 if relative % 2 == 1 else HEADER) > trailer_offset


def batch_operations(batch):
    """(id, body or None) as they come; 2"""
    operations, at = [], 0
    while at < len(batch):
        got = from_groups(batch, at)
        refuse_if(got is None or got[1] >= len(batch) or batch[got[1]] > 1, 2)
        ident, tag_at = got
        body, at = None, tag_at + 1
        if batch[tag_at] == 1:
            got = from_groups(batch, at)
            refuse_if(got is None or got[0] > len(batch) - got[1], 2)
            length, at = got
            body, at = bytes(batch[at:at + length]), at + length
        operations.append((ident, body))
    return operations


# ---- the store -----------------------------------------------------------------------------------

class Settings(tuple):
    slot_bytes = property(lambda s: s[0])
    percent = property(lambda s: s[1])
    min_files = property(lambda s: s[2])
    target = property(lambda s: s[3])
    threshold = property(lambda s: s[4])
    max_object = property(lambda s: s[5])

    def in_range(self):
        return (128 <= self.slot_bytes <= 1048576 and 0 <= self.percent <= 100 and 1 <= self.min_files <= 256
                and 1 <= self.target <= 1048576 and 0 <= self.threshold <= 256 and 1 <= self.max_object <= 1048576)


class Store:
    """what the host lends and keeps: settings it gives, heap, table, state, claims"""

    def __init__(self):
        self.given = Settings((4096, 50, 2, 2048, 64, 1024))
        self.heap = bytearray(16 * 4096)
        self.words = [0] * 2048  # the table's one buffer: id and location by turns
        self.settings, self.heap_len, self.table_len, self.next = Settings([0] * 6), 0, 0, 0
        self.records = [EMPTY] * MAX_RECORDS
        self.claims = 0

    # -- small questions

    def slots(self):
        return len(self.heap) // self.given.slot_bytes

    def files(self):
        return [(k, r) for k, r in enumerate(self.records) if r is not EMPTY and r != EMPTY]

    def claimed(self, slot):
        return self.claims >> slot & 1 == 1

    def file_part(self, slot, start, end):
        at = slot * self.given.slot_bytes + LABEL
        return bytes(self.heap[at + start:at + end])

    def entries(self):
        return len(self.words) // 2

    def ids(self):
        return self.words[:2 * self.entries():2]

    def locations(self):
        return self.words[1::2]

    def table(self):
        return dict(filter(itemgetter(1), zip(self.ids(), self.locations())))

    def set_table(self, table):
        used = [word for pair in sorted(table.items()) for word in pair]
        self.words[:] = used + [0] * (len(self.words) - len(used))

    def found(self, raw):
        """the slot with the greatest own raw location not above the one sought, the lowest of equals; or None"""
        below = [(2 * r[0], -k) for k, r in self.files() if 2 * r[0] <= raw]
        return -max(below)[1] if below else None

    def empty_slots(self):
        return [k for k in range(self.slots()) if self.records[k] == EMPTY]

    # -- refusal 1

    def table_lengths(self):
        return len(self.words) % 2 == 0 and 1 <= self.entries() <= 65536  # request P12

    def lengths_in_range(self):
        s = self.given
        return (s.in_range() and len(self.heap) % s.slot_bytes == 0 and 1 <= len(self.heap) // s.slot_bytes <= 256
                and self.table_lengths())

    def table_in_form(self):
        ids, locations = self.ids(), self.locations()
        used = locations.index(0) if 0 in locations else len(locations)
        rising = all(map(lt, ids[:used - 1], ids[1:used]))
        return rising and not any(ids[used:]) and not any(locations[used:])

    def record_wrong(self, slot, record):
        lsn, trailer_offset, file_size, present, generation, live, synced = record
        return (slot >= self.slots() or outside_bounds(self.given.slot_bytes, lsn, trailer_offset, file_size, generation)
                or present > file_size or live > self.entries() or synced > 1)

    def check_state(self):
        refuse_if(not self.lengths_in_range(), 1)
        refuse_if(self.given != self.settings or len(self.heap) != self.heap_len or self.entries() != self.table_len, 1)
        refuse_if(not self.table_in_form() or self.next == 0, 1)
        refuse_if(any(self.record_wrong(k, r) for k, r in self.files()), 1)

    def check_table(self):
        refuse_if(not self.table_lengths() or not self.table_in_form(), 1)  # D3

    # -- write

    def write(self, batch):
        self.check_state()
        operations = batch_operations(batch)
        refuse_if(any(b is not None and len(b) >= self.given.max_object for _, b in operations), 3)
        if not operations:
            return
        entries = sorted(dict(operations).items())
        self.check_room([entries])
        table = self.table()
        refuse_if(len(table.keys() | {i for i, _ in entries}) > self.entries(), 6)
        self.check_next([entries], self.next)
        self.install(entries, 0, BATCH_BIT)

    def check_room(self, files, taken=0):
        """taken: so many of the empty slots are spoken for"""
        refuse_if(any(LABEL + len(file_bytes(f)[0]) > self.given.slot_bytes for f in files), 4)
        refuse_if(len(self.empty_slots()) - taken < len(files), 5)

    @staticmethod
    def check_next(files, base):
        refuse_if(files and base + spans(files) > BATCH_BIT, 7)

    def install(self, entries, generation, batch_bit):
        """one new file in the lowest empty slot: heap, table, live counts, record, next"""
        data, trailer_offset, places = file_bytes(entries)
        slot, lsn = self.empty_slots()[0], self.next | batch_bit
        table = self.table()
        for ident, _ in places:
            loser = self.found(table[ident]) if ident in table else None  # D5: once for each id
            if loser is not None:
                *kept, live, synced = self.records[loser]
                self.records[loser] = (*kept, max(live - 1, 0), synced)
        numbers = (lsn, trailer_offset, len(data), len(entries), generation)
        at = slot * self.given.slot_bytes
        self.heap[at:at + LABEL + len(data)] = label_bytes(numbers) + data
        self.records[slot] = numbers + (len(entries), 0)  # clear on writing
        self.set_table({**table, **{i: r + 2 * lsn for i, r in places}})
        self.next += trailer_offset + 1

    # -- read

    def told(self, ident):
        """the kind, never written, deleted or an object, and the raw location"""
        raw = self.table().get(ident)
        return NEVER if raw is None else DELETED if raw % 2 == 1 else OBJECT, raw

    def read(self, ident):
        """the kind, and an object's body"""
        self.check_state()
        kind, raw = self.told(ident)
        if kind != OBJECT:
            return kind, None
        slot = self.found(raw)
        refuse_if(slot is None, 18)
        lsn, _, file_size, *_ = self.records[slot]
        at = raw // 2 - lsn
        refuse_if(at + HEADER > file_size, 16)
        header = self.file_part(slot, at, at + HEADER)
        stored, length = le(header, 4), le(header, 12)
        refuse_if(at + HEADER + length > file_size, 16)
        body = self.file_part(slot, at + HEADER, at + HEADER + length)
        refuse_if(object_sum(stored, body) != le(header, 0, 4), 10)
        refuse_if(stored != ident, 17)
        return kind, body

    def through(self, ident, batch):
        """request P3: whose bytes they are, the batch's or the heap's, and the body; or the kind"""
        self.check_state()
        bodies = [body for i, body in batch_operations(batch) if i == ident]
        if not bodies:
            kind, body = self.read(ident)
            return 'heap' if kind == OBJECT else kind, body
        return DELETED if bodies[-1] is None else 'batch', bodies[-1]

    # -- claims, prune, counts

    def claim(self, slot, wanted):
        """wanted: the claim bit asked for; 21 where it stands already"""
        self.check_state()
        refuse_if(slot >= self.slots() or self.records[slot] == EMPTY or self.claimed(slot) == wanted, 21)
        self.claims ^= 1 << slot

    def prune(self):
        self.check_state()
        self.drop_dead()

    def drop_dead(self):
        for slot, record in self.files():
            if record[5] == 0 and not self.claimed(slot):
                self.heap[slot * self.given.slot_bytes] = 0
                self.records[slot] = EMPTY

    def counts(self):
        self.check_state()
        files = [r for _, r in self.files()]
        return len(files), sum(r[2] for r in files), sum(r[3] for r in files), sum(r[5] for r in files)

    # -- marks (document 02, request P6)

    def unsynced(self):
        """how many of the files aren't synced"""
        return sum(record[6] == 0 for _, record in self.files())

    def sync(self):
        """has them marked; gives whether any mark changed"""
        changed = self.unsynced() > 0
        for slot, record in self.files():
            self.records[slot] = record if record[6] else (*record[:6], 1)
        return changed

    # -- maintenance

    def candidates(self, mark, count):
        """slots by new generation, of the files below the mark, the threshold against the count given (document 02, request P7)"""
        s, groups = self.given, {}
        for slot, (lsn, _, file_size, present, generation, live, _) in self.files():
            sparse = live * 100 // max(present, 1) < s.percent
            small = count >= s.threshold and file_size * s.min_files < s.target
            if masked(lsn) < mark and live != 0 and not self.claimed(slot) and (sparse or small):
                groups.setdefault(min(generation + 1, 3), []).append(slot)
        return groups

    def group(self, generation, mark, count):
        """the slots that a rewrite of the generation takes: none where they are too few"""
        slots = self.candidates(mark, count).get(generation, [])
        return slots if len(slots) >= self.given.min_files else []

    def survivors(self, slot, table):
        """what the file has at its id's current location, as found; D8: the file's checks in order"""
        lsn, trailer_offset, file_size, *_ = self.records[slot]
        data = self.file_part(slot, 0, file_size)
        entries = trailer_entries(data[trailer_offset:])
        kept, at = {}, 0
        while at < trailer_offset:
            refuse_if(at + HEADER > trailer_offset, 16)
            ident, length = le(data, at + 4), le(data, at + 12)
            refuse_if(length >= self.given.max_object, 3)
            refuse_if(ident not in table, 18)
            refuse_if(at + HEADER + length > trailer_offset, 16)
            body = data[at + HEADER:at + HEADER + length]
            refuse_if(object_sum(ident, body) != le(data, at, 4), 10)
            if table[ident] == raw_location(lsn + at, False):
                kept[ident] = body
            at += HEADER + length
        for ident, relative in entries:
            if relative % 2 == 1:
                refuse_if(lsn + relative // 2 >= 1 << 63, 20)
                refuse_if(ident not in table, 18)
                if table[ident] == relative + 2 * lsn:
                    kept[ident] = None
        return kept

    def split(self, entries):
        """files of a rewrite: what is left of every shard, ascending, then the fragments as cut (D6)"""
        shards, sizes, fragments = {}, {}, []
        for ident, body in entries:
            n = shard(body)
            if sizes.get(n, 0) > self.given.target:
                fragments.append(shards.pop(n))
                sizes[n] = 0
            shards.setdefault(n, []).append((ident, body))
            sizes[n] = sizes.get(n, 0) + (0 if body is None else HEADER + len(body))
        return [shards[n] for n in sorted(shards)] + fragments

    def files_of(self, slots):
        """the files that come out of a group; all of it is checked first"""
        kept, table = {}, self.table()
        for slot in slots:
            kept.update(self.survivors(slot, table))  # D9: as last found
        return self.split(sorted(kept.items()))

    def rewritten(self, slots, generation):
        """one group; gives the count of ids moved"""
        files = self.files_of(slots)
        self.check_room(files)  # D15: 4 before 5
        self.check_next(files, self.next)
        for entries in files:
            self.install(entries, generation, 0)
        return sum(map(len, files))

    def plan(self):
        """what rewrites of 1, 2, 3 will do with nothing between: each group as the store stands, slots and base as those before it leave them"""
        self.check_state()
        mark, count, made = self.next, len(self.files()), []  # D7: all files count for the threshold
        groups = {generation: self.group(generation, mark, count) for generation in GENERATIONS}
        number = stopped = 0
        for generation in filter(groups.get, GENERATIONS):
            try:
                files = self.files_of(groups[generation])
                self.check_room(files, len(made))
                self.check_next(files, self.next + spans(made))
            except Refused as refusal:
                number, stopped = refusal.number, generation
                break
            made += files
        return Plan(mark, count, groups, len(made), sum(len(file_bytes(f)[0]) for f in made), number, stopped)

    def rewrite(self, generation, mark, count):
        """one named generation; gives the count of ids moved, and prunes nothing"""
        self.check_state()
        refuse_if(generation not in GENERATIONS, 22)
        slots = self.group(generation, mark, count)
        return self.rewritten(slots, generation) if slots else 0

    def maintain(self):
        """the nightly job: plan, rewrite 1, 2, 3, prune, until one is refused; its answer is document 01's"""
        planned, moved = self.plan(), 0
        for generation in GENERATIONS:
            try:
                moved += self.rewrite(generation, planned.mark, planned.count)
            except Refused as refusal:
                raise Refused(refusal.number, generation, moved)
        self.prune()
        return moved

    def maintain_01(self):
        """document 01's one call, whose candidates are fixed as it starts"""
        self.check_state()
        moved = 0
        for generation, slots in sorted(self.candidates(U64, len(self.files())).items()):
            if len(slots) < self.given.min_files:
                continue
            try:
                moved += self.rewritten(slots, generation)
            except Refused as refusal:
                raise Refused(refusal.number, generation, moved)
        self.drop_dead()
        return moved

    # -- reopen

    def reopen(self):
        refuse_if(not self.lengths_in_range(), 1)
        self.settings, self.heap_len, self.table_len = self.given, len(self.heap), self.entries()
        self.records, self.claims, self.next = [EMPTY] * MAX_RECORDS, 0, 1
        self.set_table({})
        records, table, next_position = self.rebuilt()  # D4: refused, the store stands empty
        self.records, self.next = records, next_position
        self.set_table(table)

    def rebuilt(self):
        """records, table and next from labels and trailers; 8 to 15 and 6"""
        found = {}
        for slot in range(self.slots()):
            at = slot * self.given.slot_bytes
            if self.heap[at] != 0:
                found[slot] = self.labelled(slot, label_numbers(bytes(self.heap[at:at + LABEL])))
        ranges = sorted((masked(n[0]), masked(n[0]) + n[1]) for n, _ in found.values())
        refuse_if(any(a[1] >= b[0] for a, b in zip(ranges, ranges[1:])), 14)
        refuse_if(any(self.not_rising(entries) for _, entries in found.values()), 15)
        best = {}
        for slot, (numbers, entries) in found.items():
            for ident, relative in entries:
                here = (masked(numbers[0]) + relative // 2, relative + 2 * numbers[0], slot)
                best[ident] = max(best.get(ident, here), here)
        refuse_if(len(best) > self.entries(), 6)
        records, live = [EMPTY] * MAX_RECORDS, Counter(b[2] for b in best.values())
        for slot, (numbers, _) in found.items():
            records[slot] = numbers + (live[slot], 1)  # set on reopening
        heads = [n for n, _ in found.values()]
        next_position = max(masked(n[0]) for n in heads) + max(n[2] for n in heads) + 1 if heads else 1
        return records, {i: b[1] for i, b in best.items()}, next_position

    def labelled(self, slot, numbers):
        """the slot's five numbers and entries; 8 to 13"""
        refuse_if(numbers is None, 8)
        lsn, trailer_offset, file_size, present, generation = numbers
        refuse_if(outside_bounds(self.given.slot_bytes, lsn, trailer_offset, file_size, generation), 8)
        entries = trailer_entries(self.file_part(slot, trailer_offset, file_size))
        refuse_if(any(misplaced(trailer_offset, relative) for _, relative in entries), 12)
        refuse_if(present != len(entries), 13)
        return numbers, entries

    @staticmethod
    def not_rising(entries):
        last = {}
        for ident, relative in entries:
            if ident in last and relative // 2 <= last[ident]:  # D11: positions, not raw locations
                return True
            last[ident] = relative // 2
        return False

    def judged(self, slot):
        """a slot by itself: nothing where it is empty, else the five numbers and entries; the first of 8 to 13 and 15"""
        at = slot * self.given.slot_bytes
        if self.heap[at] == 0:
            return None
        numbers, entries = self.labelled(slot, label_numbers(bytes(self.heap[at:at + LABEL])))
        refuse_if(self.not_rising(entries), 15)
        return numbers, entries

    # -- check (document 02, request P5)

    def check(self):
        """everything wrong with the heap, by labels and trailers alone; of the table only the length matters"""
        refuse_if(not self.lengths_in_range(), 1)
        faults, ranges, distinct = [], [], set()
        for slot in range(self.slots()):
            try:
                held = self.judged(slot)
            except Refused as first:
                faults.append(Fault(slot, first.number, None, 'a slot'))
                continue
            if held is None:
                continue
            numbers, entries = held  # a sound slot
            faults += self.object_faults(slot, numbers[1], entries)
            start, end = masked(numbers[0]), masked(numbers[0]) + numbers[1]
            if any(start <= e and s <= end for s, e in ranges):
                faults.append(Fault(slot, 14, None, 'a range'))
            ranges.append((start, end))
            distinct.update(ident for ident, _ in entries)
        if len(distinct) > self.entries():
            faults.append(Fault(self.slots(), 6, None, 'the table'))
        return faults

    def object_faults(self, slot, trailer_offset, entries):
        """a sound slot's objects walked from 0 by their lengths; then its object entries, each against the walked objects"""
        data, faults, walked, at = self.file_part(slot, 0, trailer_offset), [], set(), 0
        listed = {(ident, relative // 2) for ident, relative in entries if relative % 2 == 0}
        while at < trailer_offset:
            if at + HEADER > trailer_offset or at + HEADER + le(data, at + 12) > trailer_offset:
                faults.append(Fault(slot, 16, at, 'an object'))
                break
            ident, length = le(data, at + 4), le(data, at + 12)
            if object_sum(ident, data[at + HEADER:at + HEADER + length]) != le(data, at, 4):
                faults.append(Fault(slot, 10, at, 'an object'))
            if (ident, at) not in listed:
                faults.append(Fault(slot, 17, at, 'an object'))
            walked.add((ident, at))
            at += HEADER + length
        return faults + [Fault(slot, 17, relative // 2, 'an entry') for ident, relative in entries
                         if relative % 2 == 0 and (ident, relative // 2) not in walked]

    # -- salvage (document 02, P9)

    def salvage(self):
        """empties the slots that make reopening refuse, by their first label byte; gives them in the order emptied"""
        refuse_if(not self.lengths_in_range(), 1)
        report, rest = [], []
        for slot in range(self.slots()):
            try:
                held = self.judged(slot)
            except Refused as first:
                report.append(Loss(slot, first.number))
                continue
            if held is not None:
                lsn, trailer_offset, *_ = held[0]
                rest.append((masked(lsn), slot, masked(lsn) + trailer_offset))
        end_of_last_kept = 0  # 8 has ruled out a masked lsn of 0
        for start, slot, end in sorted(rest):
            if start > end_of_last_kept:
                end_of_last_kept = end
            else:
                report.append(Loss(slot, 14))
        for loss in report:
            self.heap[loss.slot * self.given.slot_bytes] = 0
        return report

    # -- table calls (D3: its buffer alone)

    def load(self, ident):
        self.check_table()
        return self.told(ident)

    def store(self, ident, raw):
        self.check_table()
        refuse_if(raw == 0, 20)
        self.put(ident, raw)

    def put(self, ident, raw):
        table = self.table()
        refuse_if(ident not in table and len(table) == self.entries(), 6)
        self.set_table({**table, ident: raw})

    def compare_and_store(self, ident, old, new):
        """None, or the current location that differs"""
        self.check_table()
        refuse_if(old == 0 or new == 0, 20)  # D13
        current = self.table().get(ident)
        refuse_if(current is None, 18)
        if current != old:
            return current
        self.put(ident, new)
        return None

    def store_if_greater(self, ident, raw):
        """the location held before, or None"""
        self.check_table()
        refuse_if(raw == 0, 20)
        current = self.table().get(ident)
        refuse_if(current == raw, 19)
        if current is None or current < raw:
            self.put(ident, raw)
        return current


# ---- the console's script ------------------------------------------------------------------------

class BadLine(Exception):
    pass


def number(word, limit=U64):
    """a decimal number below limit"""
    digits = word.lstrip('0') or '0'
    if not (word.isascii() and word.isdigit()) or len(digits) > 20 or int(digits) >= limit:
        raise BadLine
    return int(digits)


def hex_bytes(word):
    if word != '-' and (len(word) % 2 == 1 or not re.fullmatch('[0-9a-fA-F]+', word)):
        raise BadLine
    return bytes.fromhex(word.replace('-', ''))


class Console:
    """what the console answers; wide: with the room that host.c has"""
    MAX_LINE, MAX_HEAP, MAX_TABLE, MAX_ROOM, MAX_BYTES = 131200, 1048576, 131072, 4096, 65536

    def __init__(self, wide=False):
        self.store = Store()
        if wide:
            self.MAX_LINE, self.MAX_HEAP = 1 << 23, 1 << 28

    def line(self, text):
        """the answer's lines; none for a comment and for help, whose lines are for people"""
        if len(text) > self.MAX_LINE:
            return ['bad line']
        words = re.findall('[^ \t\r]+', text.split('#')[0])
        if not words:
            return [] if '#' in text else ['bad line']
        try:
            call = getattr(self, 'do_' + words[0], None)
            count = call.__code__.co_argcount - 1 if call else -1
            if count != len(words) - 1 and not (call and call.__code__.co_flags & 4):
                raise BadLine
            answer = call(*words[1:])
            return answer if isinstance(answer, list) else [answer or 'ok']
        except BadLine:
            return ['bad line']
        except Refused as r:
            return [f'refused {r.number} {r.generation} {r.moved}' if words[0] == 'maintain' else f'refused {r.number}']

    # by hand

    def do_settings(self, *words):
        numbers = [number(w) for w in words]
        if len(numbers) != 6:
            raise BadLine
        self.store.given = Settings(numbers)

    def do_heap(self, size):
        self.store.heap = bytearray(number(size, self.MAX_HEAP + 1))

    def do_table(self, words):
        self.store.words = [0] * number(words, self.MAX_TABLE + 1)

    def do_poke(self, offset, data):
        offset, data = number(offset), hex_bytes(data)
        if offset + len(data) > len(self.store.heap):
            raise BadLine
        self.store.heap[offset:offset + len(data)] = data

    def do_entry(self, place, ident, raw):
        place, ident, raw = number(place), number(ident), number(raw)
        if 2 * place + 1 >= len(self.store.words):
            raise BadLine
        self.store.words[2 * place:2 * place + 2] = ident, raw

    def do_state(self, *words):
        numbers = [number(w) for w in words]
        if len(numbers) != 9:
            raise BadLine
        s = self.store
        s.settings, s.heap_len, s.table_len, s.next = Settings(numbers[:6]), *numbers[6:]

    def do_record(self, *words):
        numbers = tuple(number(w) for w in words)
        if len(numbers) != 8 or numbers[0] >= MAX_RECORDS or numbers[7] > 1:
            raise BadLine
        self.store.records[numbers[0]] = numbers[1:]

    def do_claims(self, a, b, c, d):
        self.store.claims = sum(number(w) << 64 * k for k, w in enumerate((a, b, c, d)))

    # calls

    def do_reopen(self):
        self.store.reopen()

    def do_write(self, batch):
        self.store.write(hex_bytes(batch))

    def do_claim(self, slot):
        self.store.claim(number(slot), True)

    def do_release(self, slot):
        self.store.claim(number(slot), False)

    def do_prune(self):
        self.store.prune()

    def do_read(self, ident):
        return self.piece(*self.store.read(number(ident)))

    def do_through(self, ident, batch):
        return self.piece(*self.store.through(number(ident), hex_bytes(batch)))

    @staticmethod
    def piece(word, body):
        return word if body is None else f'{word} {body.hex() or "-"}'

    def do_plan(self):
        p = self.store.plan()
        lines = [' '.join(map(str, ['group', generation, *slots])) for generation, slots in p.groups.items() if slots]
        lines += [f'foretold {p.number} {p.generation}'] if p.number else []
        return lines + [f'ok {p.mark} {p.count} {p.files} {p.bytes}']

    def do_rewrite(self, generation, mark, count):
        return f'ok {self.store.rewrite(number(generation), number(mark), number(count))}'

    def do_maintain(self):
        return f'ok {self.store.maintain()}'

    def do_counts(self):
        return 'ok %d %d %d %d' % self.store.counts()

    def do_unsynced(self):
        return f'ok {self.store.unsynced()}'

    def do_sync(self):
        return f'ok {int(self.store.sync())}'

    def do_load(self, ident):
        kind, raw = self.store.load(number(ident))
        return kind if raw is None else f'{kind} {raw}'

    def do_store(self, ident, raw):
        self.store.store(number(ident), number(raw))

    def do_cas(self, ident, old, new):
        current = self.store.compare_and_store(number(ident), number(old), number(new))
        return None if current is None else f'differs {current}'

    def do_max(self, ident, raw):
        held = self.store.store_if_greater(number(ident), number(raw))
        return 'ok nothing' if held is None else f'ok {held}'

    def do_check(self, room):
        room = number(room, self.MAX_ROOM + 1)
        faults = self.store.check()
        lines = [f'fault {f.slot} {f.number}' + ('' if f.position is None else f' {f.position}') for f in faults[:room]]
        return lines + [f'ok {len(faults)}']

    def do_salvage(self):
        report = self.store.salvage()
        return [f'gave {loss.slot} {loss.number}' for loss in report] + [f'ok {len(report)}']

    # looking

    def do_bytes(self, offset, count):
        offset, count = number(offset), number(count, self.MAX_BYTES + 1)
        if offset + count > len(self.store.heap):
            raise BadLine
        return f'ok {self.store.heap[offset:offset + count].hex() or "-"}'

    def do_help(self):
        return []

    def do_list(self):
        rows = [f'{k} {r[0]} {r[4]} {r[3]} {r[5]} {r[2]}' for k, r in self.store.files()]
        used = (self.store.locations() + [0]).index(0)  # used entries come first
        return ['slot lsn gen present live size'] + rows + [f'ids {used}']

    def do_dump(self):
        s = self.store
        lines = [f'next {s.next}']
        lines += ['record %d %d %d %d %d %d %d %d' % (k, *r) for k, r in s.files()]
        lines += [f'claimed {k}' for k in range(MAX_RECORDS if s.claims else 0) if s.claimed(k)]
        lines += [f'entry {k} {i} {r}' for k, (i, r) in enumerate(zip(s.ids(), s.locations())) if (i, r) != (0, 0)]
        return lines + [f'heap {zlib.crc32(s.heap)}', 'end']


def main():
    console = Console()
    for text in sys.stdin.buffer:
        for answer in console.line(text.decode('latin-1').rstrip('\n')):
            print(answer)


if __name__ == '__main__':
    main()
