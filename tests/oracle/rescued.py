#!/usr/bin/env python3
"""Heaps that the original wrote, damaged, rescued by the port, and opened by the original again.

    rescued.py [--model | --console PATH] [--rust PATH | --stored FILE] [--seed S] [--count N] [--store FILE]

The original makes two stores by writes and maintenances of its own. Files of both are labelled and put into slots; then bytes are scratched,
and a file may stand there twice. The port rescues the heap and reopens it. What it left is renamed to the original's files, which the original
opens: next position, records, table and every id's read must be the port's, and again after a put on both sides. Each answer of the port is
held to the model's too. A run that did not meet each case of MUST_MEET fails."""
import argparse
import random
import time
from collections import Counter

from compare import File
from known import READ_FAILURES
from model import LABEL, label_bytes, label_numbers
from port import Difference, Model, Port, Rust, Stored, in_the_originals_words, store_answers
from scenarios import operation

SETTINGS = ('file_compaction_percent', 'min_compaction_files', 'target_file_size', 'small_file_cleanup_threshold', 'max_object_size')
MUST_MEET = ['8 given up', '10 given up', '13 given up', '14 given up', 'nothing given up', 'files of both stores kept', 'a rewritten file kept',
             'an older version reads', 'a refused read', 'an empty heap left', 'a put behind it']


class Heap:
    """one heap of the original's files in slots"""

    def __init__(self, seed, number, rust):
        self.r, self.rust, self.met, self.number = random.Random(f'{seed} rescued {number}'), rust, set(), number
        self.settings = [self.r.choice([75, 100]), self.r.choice([1, 2]), self.r.choice([100, 2048]), self.r.choice([0, 64]), 1024]
        self.ids = sorted(self.r.sample(range(1, 40), self.r.randint(2, 9)))

    def ask(self, command):
        return self.rust.ask(command)

    # ---- the original's side

    def life(self):
        """the files that some calls of the original leave: (label's numbers, bytes)"""
        r = self.r
        self.ask('wipe')
        for name, value in zip(SETTINGS, self.settings):
            self.ask(f'set {name} {value}')
        self.ask('open')
        for _ in range(r.randint(2, 8)):
            words = [f'{i}' if r.random() < 0.25 else f'{i}={r.randbytes(r.choice([1, 2, 9, 30])).hex()}' for i in r.sample(self.ids, r.randint(1, 2))]
            self.ask('maintain' if r.random() < 0.2 else ' '.join(['write', *words]))
        files = []
        for line in self.ask('files')[:-1]:
            _, name, data = line.split()
            lsn, trailer_offset, present, generation = (int(part, 16) for part in name.split('-'))
            files.append(((lsn, trailer_offset, len(data) // 2, present, generation), bytes.fromhex(data)))
        return files

    def opened(self, heap):
        """what the port left, as the original's files: next position, records, table, reads"""
        self.ask('wipe')
        for at in range(0, len(heap), self.slot_bytes):
            if heap[at] != 0:
                lsn, trailer_offset, size, present, generation = label_numbers(heap[at:at + LABEL])
                self.ask(f'raw {lsn:016x}-{trailer_offset:016x}-{present:016x}-{generation:x} {heap[at + LABEL:at + LABEL + size].hex()}')
        opened = self.ask('open')[0]
        if not opened.startswith('ok '):
            raise Difference(f'the original does not open the rescued heap: {opened}')
        records = [File(*map(int, line.split()[1:])) for line in self.ask('records')[:-1]]
        return int(opened.split()[1]), records, self.ask('loads ' + ' '.join(map(str, self.ids)))[0].split(','), self.reads()

    def reads(self):
        return self.ask('read ' + ' '.join(map(str, self.ids)))[0].split(',')

    # ---- damage

    def make(self):
        r = self.r
        ours, others = self.life(), self.life() if r.random() < 0.5 else []
        files = ours + [file for file in others if r.random() < 0.5]
        self.own, self.other = {data for _, data in ours}, {data for _, data in others}
        self.slot_bytes = max([128] + [LABEL + len(data) for _, data in files])
        slots = len(files) + 2
        self.slots = [bytes(self.slot_bytes)] * slots
        for slot, (numbers, data) in zip(r.sample(range(slots), len(files)), files):
            self.slots[slot] = (label_bytes(numbers) + data).ljust(self.slot_bytes, b'\0')
        self.whole = list(self.slots)
        for _ in range(r.choice([0, 1, 1, 2, 3])):
            self.scratch()
        if self.number % 13 == 12:  # every label
            self.slots = [slot[:LABEL - 1] + b'\1' + slot[LABEL:] for slot in self.slots]
        return self

    def scratch(self):
        """a byte of a file's label, trailer or objects; or the file a second time"""
        r, labels = self.r, {k: label_numbers(slot[:LABEL]) for k, slot in enumerate(self.slots) if slot[0] != 0}
        used = [k for k, numbers in labels.items() if numbers and numbers[1] < numbers[2] <= self.slot_bytes - LABEL]
        if not used:
            return
        slot = r.choice(used)
        data, (_, trailer_offset, size, *_) = bytearray(self.slots[slot]), labels[slot]
        kind = r.choice(['label', 'label', 'count', 'trailer', 'trailer', 'object', 'twice'])
        if kind == 'twice':
            self.slots[r.randrange(len(self.slots))] = bytes(data)
            return
        if kind == 'count':  # the label's number of entries
            at = next(k for k in range(LABEL) if data[k] < 128 and sum(b < 128 for b in data[:k + 1]) == 4)
        else:
            first, last = {'label': (0, 30), 'trailer': (LABEL + trailer_offset, LABEL + size), 'object': (LABEL, LABEL + max(1, trailer_offset))}[kind]
            at = r.randrange(first, last)
        data[at] ^= r.choice([1, 1, 2, 64, 255])
        self.slots[slot] = bytes(data)

    # ---- the port's side

    def lent(self, slots):
        """the heap of these slots, with room for more ids than a damaged trailer may invent"""
        size, table = self.slot_bytes, len(self.ids) + 300
        lines = [f'settings {size} {" ".join(map(str, self.settings))}', 'claims 0 0 0 0', f'heap {len(slots) * size}', f'table {2 * table}']
        return lines + [f'poke {k * size} {data.hex()}' for k, data in enumerate(slots)]

    def script(self):
        reads, self.put = [f'read {i}' for i in self.ids], (self.r.choice(self.ids), self.r.randbytes(2))
        self.lines = self.lent(self.slots) + ['salvage', 'reopen', 'dump', f'bytes 0 {len(self.slots) * self.slot_bytes}', *reads,
                                              f'write {operation(*self.put).hex()}', *reads]
        return self.lines

    def look(self, said):
        """report, dump, heap, reads, the put's answer and the reads behind it"""
        at, count = self.lines.index('salvage'), len(self.ids)
        report, reopened, dump, heap, *reads = said[at:]
        if reopened != ['ok']:
            raise Difference(f'a reopening behind the salvage: {reopened}')
        reads = [answer[0] for answer in reads]
        return report, dump, bytes.fromhex(heap[0].split()[1]), reads[:count], reads[count], reads[count + 1:]

    def compare(self, said):
        report, dump, heap, reads, wrote, again = self.look(said)
        records = sorted(File(*map(int, line.split()[2:]), 0) for line in dump if line.startswith('record '))
        entries = {int(line.split()[2]): int(line.split()[3]) for line in dump if line.startswith('entry ')}
        loads = [f'ok {entries[i]}' if i in entries else 'nothing' for i in self.ids]
        rust = self.opened(heap)
        same('next position', int(dump[0].split()[1]), rust[0])
        same('records', records, rust[1])
        same('table', loads, rust[2])
        same_reads(self.ids, reads, rust[3])
        if wrote == 'ok':
            ident, body = self.put
            got = self.ask(f'write {ident}={body.hex()}')[0]
            if not got.startswith('ok '):
                raise Difference(f'a put behind the rescue: the original answers {got}')
            same_reads(self.ids, again, self.reads())
            self.met.add('a put behind it')
        self.tell(report, heap, reads)

    def tell(self, report, heap, reads):
        kept = [heap[at:at + self.slot_bytes] for at in range(0, len(heap), self.slot_bytes) if heap[at] != 0]
        bodies = {slot[LABEL:LABEL + label_numbers(slot[:LABEL])[2]] for slot in kept}
        self.met |= {f'{line.split()[2]} given up' for line in report[:-1]} | {name for name, holds in {
            'nothing given up': report == ['ok 0'] and kept,
            'files of both stores kept': bodies & self.own and bodies & self.other,
            'a rewritten file kept': any(label_numbers(slot[:LABEL])[4] > 0 for slot in kept),
            'a refused read': any(read.startswith('refused') for read in reads),
            'an empty heap left': not kept and len(report) > 1,
        }.items() if holds}
        if len(report) > 1 and not self.other:
            before = Model().run(self.lent(self.whole) + ['reopen'] + [f'read {i}' for i in self.ids])[-len(self.ids):]
            if any(b[0].startswith('ok') and a.startswith('ok') and a != b[0] for a, b in zip(reads, before)):
                self.met.add('an older version reads')


def same(what, port, rust):
    if port != rust:
        raise Difference(f'{what}\n    port: {port}\n    Rust: {rust}')


def same_reads(ids, port, rust):
    for ident, mine, theirs in zip(ids, port, rust):
        if theirs not in READ_FAILURES.get(mine, ()):
            same(f'read {ident}', in_the_originals_words(mine), theirs)


def rescue(port, rust, seed, number):
    """one heap, there and back"""
    rust.begin(f'{number:03}')
    heap = Heap(seed, number, rust).make()
    lines = heap.script()
    said = port.run(lines)
    try:
        for line, mine, model in zip(lines, said, Model().run(lines)):
            same(f'the model at: {line[:200]}', mine, model)
        heap.compare(said)
    except Difference as d:
        raise Difference(f'heap {number}: {d}\n\n' + '\n'.join(lines))
    return heap.met


def main():
    parser = argparse.ArgumentParser()
    parser.add_argument('--model', action='store_true', help="the model in the port's place")
    parser.add_argument('--console', default='target/tests/console')
    parser.add_argument('--rust', default='oracle/target/release/oracle')
    parser.add_argument('--stored', help='replay the answers of this file instead of running the original')
    parser.add_argument('--store', help="write the original's answers into this file")
    parser.add_argument('--seed', default='1')
    parser.add_argument('--count', type=int, default=400)
    options = parser.parse_args()
    port = Model() if options.model else Port(options.console)
    rust = Stored(options.stored) if options.stored else Rust(options.rust, keep=options.store is not None)
    if options.stored:
        options.seed, options.count = '1', len(rust.scenarios)
    began, tally = time.time(), Counter()
    try:
        for number in range(options.count):
            tally.update(rescue(port, rust, options.seed, number))
    except Difference as d:
        raise SystemExit(f'DIFFERENCE (seed {options.seed}) {d}')
    finally:
        rust.close()
    if options.store:
        store_answers(options.store, {}, rust.transcripts)
    missing = [case for case in MUST_MEET if tally[case] == 0]
    if missing:
        raise SystemExit(f'rescued: {options.count} heaps of seed {options.seed} met no case of: {"; ".join(missing)}')
    against = 'by its stored answers' if options.stored else f'seed {options.seed}'
    print(f'{port.name} and original: {options.count} heaps that the original wrote, damaged, rescued and opened by it again, {against}, '
          f'{time.time() - began:.0f} s')
    print('  met: ' + '; '.join(f'{case} {tally[case]}' for case in MUST_MEET))


if __name__ == '__main__':
    main()
