#!/usr/bin/env python3
"""Arbitrary states, heaps, labels, trailers, tables and batches, as console scripts.

    hostile.py [--model | --console PATH] [--seed S] [--from K] [--count N] [--seconds T]

Checked without a second implementation: every line is answered in its form; a refused call leaves everything as it was, except
as document 01 says of maintenance and reopening; a call changes no heap byte outside the slots that its dump shows as changed
(the old bytes are poked back there, and the heap's checksum must be the old one). And as a second opinion: the model's answers,
line by line."""
import argparse
import random
import re
import time
import zlib

from known import trailer
from model import BATCH_BIT, LABEL, label_bytes, object_bytes, raw_location
from port import Difference, Model, Port
from scenarios import operation

EDGES = [0, 1, 2, 20, 63, 64, 127, 128, 255, 256, 65536, 2 ** 20, BATCH_BIT - 1, BATCH_BIT, BATCH_BIT + 1,
         2 ** 63 - 1, 2 ** 63, 2 ** 64 - 1]
NUMBER = r'(0|[1-9][0-9]{0,19})'
REFUSED = r'refused ([1-9]|1[0-9]|2[0-2])'
FORMS = {word: re.compile(f'({form})$') for words, form in {
    'settings heap table poke entry state record claims': 'ok',
    'reopen write claim release prune store': f'ok|{REFUSED}',
    'read': f'ok (-|([0-9a-f][0-9a-f])+)|deleted|never|{REFUSED}',
    'through': f'(batch|heap) (-|([0-9a-f][0-9a-f])+)|deleted|never|{REFUSED}',
    'maintain': f'ok {NUMBER}|{REFUSED} [0-3] {NUMBER}',
    'rewrite': f'ok {NUMBER}|{REFUSED}',
    'counts': f'ok {NUMBER} {NUMBER} {NUMBER} {NUMBER}|{REFUSED}',
    'unsynced': f'ok {NUMBER}',
    'sync': 'ok [01]',
    'load': f'ok {NUMBER}|deleted {NUMBER}|never|{REFUSED}',
    'cas': f'ok|differs {NUMBER}|{REFUSED}',
    'max': f'ok {NUMBER}|ok nothing|{REFUSED}',
}.items() for word in words.split()}
DUMP = re.compile(f'(next {NUMBER}|record{f" {NUMBER}" * 7} [01]|claimed {NUMBER}|entry{f" {NUMBER}" * 3}|heap {NUMBER}|end)$')
PLAN = re.compile(f'(group [123]( {NUMBER})+|foretold {NUMBER} [123]|ok( {NUMBER}){{4}})$')
LIST = re.compile(f'({NUMBER}{f" {NUMBER}" * 5}|ids {NUMBER})$')
# scripts follow each other in one process: an accepted reopening empties map and claims, then the state is as before the first one
RESET = ['settings 128 0 1 1 0 1', 'heap 128', 'table 2', 'reopen', f'state{" 0" * 9}']
STATE_CALLS = ('reopen', 'write', 'claim', 'release', 'prune', 'plan', 'rewrite', 'maintain', 'read', 'through', 'counts', 'unsynced', 'sync', 'list',
               'load', 'store', 'cas', 'max')


def first_word(line):
    return (line.split() or [''])[0]


class Maker:
    """one script: a store by hand, then calls, each followed by a dump"""

    def __init__(self, seed, number):
        self.r = random.Random(f'{seed} hostile {number}')
        self.lines, self.chunks = [], []  # chunks: (offset, bytes) poked
        self.after, self.lsns = 1, [1]  # next position, and the lsns of the files by hand

    def rarely(self, usual, strange, chance=0.02):
        return strange if self.r.random() < chance else usual

    def edge(self):
        r = self.r
        return r.choice([r.choice(EDGES), r.randrange(200), max(0, min(2 ** 64 - 1, r.choice(EDGES) + r.randint(-3, 3)))])

    def make(self):
        r = self.r
        self.slot_bytes, self.slots, self.room = r.choice([128, 160, 256, 300, 512, 512]), r.choice([1, 4, 6, 8, 10, 12]), r.randint(1, 8)
        self.settings = [self.slot_bytes, r.choice([0, 75, 100, 100]), r.choice([1, 1, 1, 2, 3]), r.choice([1, 100, 600, 1048576, 1048576, 1048576]),
                         r.choice([0, 0, 0, 3, 256]), r.choice([8, 64, 65, 1048576, 1048576, 1048576])]
        given = [self.rarely(n, self.edge(), 0.007) for n in self.settings]
        self.ids = sorted(r.sample(range(40), r.randint(1, self.room)) + ([] if r.random() < 0.8 else [2 ** 64 - 1]))
        self.heap_bytes = self.rarely(self.slots * self.slot_bytes, r.randrange(4000))
        self.words = self.rarely(2 * self.room, r.choice([0, 1, 2 * self.room - 1, 2 * self.room + 1, 2 * self.room + 2, 131072]), 0.03)
        self.lines = RESET + [f'settings {" ".join(map(str, given))}', f'heap {self.heap_bytes}',
                      f'table {self.words}']
        self.by_hand()
        self.lines.append('dump')
        for _ in range(r.randint(1, 6)):
            self.lines += [self.call(), 'dump']
        return self

    def poke(self, offset, data):
        if offset + len(data) <= self.heap_bytes:
            self.chunks.append((offset, data))
            self.lines.append(f'poke {offset} {data.hex() or "-"}')

    # a store by hand

    def by_hand(self):
        r = self.r
        places = {i: [] for i in self.ids}
        base = r.choice([1, 1, 100, BATCH_BIT - 300, BATCH_BIT - 2000])
        records = []
        for slot in range(self.slots):
            if r.random() < 0.4:
                continue
            base = self.file(slot, base, places, records)
        self.lines.append('claims ' + ' '.join(str(self.rarely(r.choice([0, 0, 0, 0, 1, 5]), self.edge())) for _ in range(4)))
        if r.random() < 0.2:
            self.lines.append('reopen')
            return
        sizes = self.rarely(f'{self.slots * self.slot_bytes} {self.room}', f'{self.edge()} {self.edge()}')
        self.lsns = [l & ~BATCH_BIT for l in records] or [1]
        self.after = self.rarely(max(1, base, *self.lsns) + r.randrange(3), r.choice([self.edge(), r.choice(self.lsns)]), 0.15)
        self.lines.append(f'state {" ".join(map(str, self.settings))} {sizes} {self.after}')
        for k, ident in enumerate(self.ids[:self.room]):
            raw = r.choice(places[ident]) if places[ident] and r.random() < 0.95 else max(1, self.edge())
            self.lines.append(f'entry {k} {self.rarely(ident, self.edge(), 0.01)} {self.rarely(raw, self.edge())}')
        if r.random() < 0.03:
            self.lines.append(f'entry {r.randrange(self.room)} {self.edge()} {self.edge()}')

    def file(self, slot, base, places, records):
        """pokes a file into the slot, writes its record, notes where its ids stand; gives the next base"""
        r = self.r
        room, objects, entries = self.slot_bytes - LABEL, b'', []
        lsn = base + r.choice([0, BATCH_BIT])
        if records and r.random() < 0.07:
            lsn = r.choice(records)  # two files at one location
        for _ in range(self.rarely(r.randint(1, 5), 0, 0.03)):
            ident = r.choice(self.ids)
            ident = self.rarely(ident, r.randrange(50), 0.01)
            at, delete = len(objects), r.random() < 0.3
            body = r.randbytes(r.choice([0, 1, 2, 7, 8, 20, 64]))
            if ident in [i for i, _ in entries] and r.random() < 0.9:
                continue
            if len(objects) + 20 + len(body) + 16 * (len(entries) + 1) + 12 > room:
                continue
            if not delete:
                objects += object_bytes(ident, body)
            at = self.rarely(at, self.edge() % 2 ** 63, 0.02)
            entries.append((ident, raw_location(at, delete)))
            if ident in places and at + lsn < 2 ** 63:
                places[ident].append(raw_location(at + lsn, delete))
        data = objects + trailer(*entries, more=r.randbytes(r.choice([0, 0, 0, 8, 16])), count=self.rarely(None, self.edge(), 0.03))
        t, size, generation, present = len(objects), len(data), r.choice([0, 0, 1, 2, 3, 255]), len(entries)
        data = bytearray(data[:room])
        if r.random() < 0.05 and data:
            data[r.randrange(len(data))] ^= 1 << r.randrange(8)
        numbers = [self.rarely(n, self.edge(), 0.01) for n in (lsn, t, size, present, generation)]
        label = bytearray(label_bytes(numbers))
        if r.random() < 0.03:
            label[r.randrange(LABEL)] = r.choice([0, 1, 128, 255])
        self.poke(slot * self.slot_bytes, bytes(label) + bytes(data))
        live = r.randint(0, max(present, 1)) if r.random() < 0.5 else r.randint(1, self.room)
        live = min(live, self.room)
        fields = [self.rarely(n, self.edge(), 0.005) for n in (lsn, t, size, present, generation, live)]
        fields.append(self.rarely(r.randrange(2), 2, 0.005))
        self.lines.append(f'record {self.rarely(slot, r.randrange(260), 0.01)} {" ".join(map(str, fields))}')
        records.append(lsn)
        return max(1, min((lsn & ~BATCH_BIT) + t + r.choice([1] * 14 + [5, 5, 0, 0, -20, -20]), BATCH_BIT - 1))  # some ranges meet

    # calls

    def batch(self):
        r = self.r
        data = b''.join(operation(r.choice(self.ids + [r.randrange(60)]), None if r.random() < 0.3 else r.randbytes(r.choice([0, 1, 5, 7, 8, 40, 90])))
                        for _ in range(r.choice([0, 1, 1, 2, 3])))
        if r.random() < 0.2:
            data += r.choice([b'\x80\x00\x00', b'\x01\x02', b'\x01\x01\x05ab', b'\xff' * 9 + b'\x01\x00', b'\xff' * 9 + b'\x02\x00', b'\x01',
                              b'\x01\x01', b'\x81', b'\x01\x01' + b'\xff' * 9 + b'\x01', b'\x01\x01\x80\x00'])
        if r.random() < 0.05:
            data = r.randbytes(r.randrange(12))
        return data.hex() or '-'

    def through(self, ident):
        """a read through a batch, which often has several operations on the id"""
        r, batch = self.r, self.batch()
        more = b''.join(operation(ident, None if r.random() < 0.3 else r.randbytes(r.choice([0, 1, 5]))) for _ in range(r.choice([0, 0, 1, 2, 3])))
        return f'through {ident} {(more.hex() + batch.replace("-", "")) or "-"}'

    def rewrite(self):
        """generation, mark and count: as a plan would have them, and at their limits"""
        r, threshold = self.r, self.settings[4]
        mark = r.choice([self.after] * 6 + [0, 1, self.after + 1, BATCH_BIT, 2 ** 64 - 1, r.choice(self.lsns), r.choice(self.lsns) + 1, self.edge()])
        count = r.choice([len(self.lsns)] * 4 + [0, max(0, threshold - 1), threshold, threshold + 1, self.edge()])
        return f'rewrite {r.choice([1, 2, 3] * 4 + [0, 4, 2 ** 64 - 1, self.edge()])} {min(mark, 2 ** 64 - 1)} {count}'

    def call(self):
        r = self.r
        ident = r.choice(self.ids + [r.randrange(60)])
        slot, raw = self.rarely(r.randrange(self.slots + 1), self.edge(), 0.1), r.choice([1, 2, 3, self.edge()])
        calls = ['maintain'] * 5 + [f'write {self.batch()}'] * 5 + [f'read {i}' for i in self.ids]
        calls += [self.through(ident)] * 3 + ['plan'] * 3 + [self.rewrite()] * 5
        calls += ['prune', 'counts', 'unsynced', 'sync', 'sync', 'list', 'reopen', f'claim {slot}', f'claim {slot}', f'release {slot}', f'load {ident}', f'store {ident} {raw}',
                  f'cas {ident} {raw} {self.edge()}', f'max {ident} {raw}', self.bad_line()]
        return r.choice(calls)

    def bad_line(self):
        big = 2 ** 64 + self.r.randrange(5)
        return self.r.choice(['nonsense', '', ' \t', 'read', 'read x', f'read {big}', 'through 1', 'through x -', 'through 1 0', 'write 0', 'write xy', 'heap 1048577', 'table 131073', 'table 2 2',
                              'table', f'poke {self.heap_bytes} 00', f'entry {self.words // 2} 1 1', f'entry {2 ** 63} 1 1', 'record 256 1 1 1 1 1 1 0', 'record 0 1 1 1 1 1 1', 'record 0 1 1 1 1 1 1 2', 'sync 1', 'unsynced 0', 'plan 1', 'rewrite 1 2', 'rewrite 1 2 x', 'rewrite 1 2 3 4', f'rewrite 1 {big} 0', 'claims 1 2 3', 'reopen now', 'settings 1 2 3 4 5', 'read -1'])


# ---- what must hold ------------------------------------------------------------------------------

def wrong(maker, line, answer, why):
    return Difference(f'{why}\n    at: {line[:200]}\n    answer: {answer}\n\n' + '\n'.join(maker.lines))


def heap_sum(dump):
    return dump[-2]


def of(dump, word):
    """a dump's lines of one kind, by their first number"""
    return {line.split()[1]: line for line in dump if line.startswith(word + ' ')}


def check(maker, answers):
    """forms, and what a call may change. Gives, of the first call that wrote: the number of lines up to its dump and the slots written"""
    before, wrote = None, None
    for k, (line, answer) in enumerate(zip(maker.lines, answers)):
        word = first_word(line)
        if word == 'dump':
            if not all(DUMP.match(a) for a in answer) or not heap_sum(answer).startswith('heap '):
                raise wrong(maker, line, answer, 'not the form of a dump')
            slots = check_call(maker, maker.lines[k - 1], answers[k - 1][0], before, answer) if before else []
            wrote = wrote or (slots and (k + 1, slots))
            before = answer
        elif word == 'list':
            if answer[0] != 'slot lsn gen present live size' or not all(LIST.match(a) for a in answer[1:]):
                raise wrong(maker, line, answer, 'not the form of a listing')
        elif word == 'plan':
            check_plan(maker, line, answer)
        elif answer != ['bad line'] and not (word in FORMS and len(answer) == 1 and FORMS[word].match(answer[0])):
            raise wrong(maker, line, answer, 'not in its form')
    return wrote


def check_plan(maker, line, answer):
    """groups ascending, slots ascending, each slot once; at most one refusal; then the numbers"""
    kinds = [first_word(a) for a in answer]
    groups = [[int(n) for n in a.split()[1:]] for a in answer if a.startswith('group')]
    named = [g[0] for g in groups], [slot for g in groups for slot in g[1:]]
    in_order = groups == sorted(groups) and all(g[1:] == sorted(g[1:]) for g in groups) and all(len(set(n)) == len(n) for n in named)
    in_turn = kinds[len(groups):] in (['ok'], ['foretold', 'ok'])
    if answer not in (['bad line'], ['refused 1']) and not (all(PLAN.match(a) for a in answer) and in_turn and in_order):
        raise wrong(maker, line, answer, 'not the form of a plan')


def check_call(maker, line, answer, before, after):
    """one call between two dumps; gives the slots whose heap bytes it may have changed"""
    word = first_word(line)
    refused, number = answer.startswith('refused'), answer.split()[1] if answer.startswith('refused') else ''
    if answer == 'bad line' or word in ('read', 'through', 'counts', 'unsynced', 'load', 'list', 'plan') or refused and (number == '1' or word not in ('reopen', 'maintain')):
        if before != after:
            raise wrong(maker, line, answer, 'a call that changes nothing changed the dump')
        return []
    if word == 'reopen' and refused and after != ['next 1', heap_sum(before), 'end']:
        raise wrong(maker, line, answer, 'a refused reopening leaves an empty store')
    if word in ('reopen', 'sync', 'claim', 'release', 'store', 'cas', 'max') and heap_sum(before) != heap_sum(after):
        raise wrong(maker, line, answer, 'the heap changed')
    if word in ('prune', 'rewrite', 'maintain', 'write') and of(before, 'claimed') != of(after, 'claimed'):
        raise wrong(maker, line, answer, 'claims changed')
    if word in ('claim', 'release'):
        if len(of(before, 'claimed').items() ^ of(after, 'claimed').items()) != 1:
            raise wrong(maker, line, answer, 'not one claim changed')
        if [l for l in before if not l.startswith('claimed')] != [l for l in after if not l.startswith('claimed')]:
            raise wrong(maker, line, answer, 'more than a claim changed')
    if word in ('store', 'cas', 'max') and [l for l in before if not l.startswith('entry')] != [l for l in after if not l.startswith('entry')]:
        raise wrong(maker, line, answer, 'more than the table changed')
    if word == 'sync':
        marked = [re.sub('^(record.*) 0$', r'\1 1', l) for l in before]
        if after != marked or answer != ('ok 0' if before == marked else 'ok 1'):
            raise wrong(maker, line, answer, 'sync sets the marks that are clear, says whether there were any, and changes nothing else')
    if word == 'reopen' and any(l.endswith(' 0') for l in of(after, 'record').values()):
        raise wrong(maker, line, answer, 'a reopening leaves no file unsynced')
    if word == 'prune':
        gone = of(before, 'record').items() - of(after, 'record').items()
        if of(after, 'record').items() - of(before, 'record').items() or any(g[1].split()[-2] != '0' or g[0] in of(before, 'claimed') for g in gone):
            raise wrong(maker, line, answer, 'prune takes unclaimed files with live 0')
    if word == 'rewrite' and of(before, 'record').keys() - of(after, 'record').keys():
        raise wrong(maker, line, answer, 'a rewrite prunes nothing')
    if word in ('write', 'prune', 'rewrite', 'maintain'):
        # by everything but the live count and the mark
        mine, theirs = ({k: l.rsplit(' ', 2)[0] for k, l in of(d, 'record').items()} for d in (before, after))
        slots = {int(k) for k in mine.keys() | theirs.keys() if mine.get(k) != theirs.get(k)}
        if word == 'maintain' and slots:  # a file can be written and pruned in one call
            slots |= {k for k in range(maker.slots) if str(k) not in mine}
        return sorted(slots)
    return []


def undoing(maker, lines, slots):
    """the lines, then the slots' old bytes poked back; and the sum that the heap must have again: before them only pokes wrote"""
    heap = bytearray(maker.heap_bytes)
    for offset, data in maker.chunks:
        heap[offset:offset + len(data)] = data
    size = maker.slot_bytes
    back = [f'poke {k * size} {bytes(heap[k * size:(k + 1) * size]).hex()}' for k in slots]
    return maker.lines[:lines] + back + ['dump'], f'heap {zlib.crc32(heap)}'


def run(port, seed, numbers):
    """one round; gives the calls made, and how many had the bytes outside looked at"""
    makers = [Maker(seed, k).make() for k in numbers]
    answers = iter(port.run([line for m in makers for line in m.lines]))
    calls, undo = 0, []
    for k, maker in zip(numbers, makers):
        said = [next(answers) for _ in maker.lines]
        calls += sum(first_word(line) in STATE_CALLS for line in maker.lines)
        try:
            wrote = check(maker, said)
            if port.name != 'model':
                opinion(maker, said)
        except Difference as d:
            raise Difference(f'script {k}: {d}')
        if wrote:
            undo.append((k, *undoing(maker, *wrote)))
    answers = iter(port.run([line for _, lines, _ in undo for line in lines]))
    for k, lines, wanted in undo:
        said = [next(answers) for _ in lines]
        if heap_sum(said[-1]) != wanted:
            raise Difference(f'script {k}: bytes changed outside the slots that the dump shows\n' + '\n'.join(lines))
    return calls, len(undo)


def opinion(maker, said):
    """the model's answers"""
    for line, port, model in zip(maker.lines, said, Model().run(maker.lines)):
        if port != model:
            raise wrong(maker, line, port, f'the model answers {model}')


def main():
    parser = argparse.ArgumentParser()
    parser.add_argument('--model', action='store_true', help="the model in the port's place")
    parser.add_argument('--console', default='target/bin/console')
    parser.add_argument('--seed', default='1')
    parser.add_argument('--from', dest='start', type=int, default=0)
    parser.add_argument('--count', type=int, default=500)
    parser.add_argument('--seconds', type=float, default=1e9, help='begin no round after so long')
    options = parser.parse_args()
    port = Model() if options.model else Port(options.console)
    began, scripts, calls, undone = time.time(), 0, 0, 0
    try:
        for at in range(options.start, options.start + options.count, 100):
            if time.time() - began > options.seconds:
                break
            numbers = range(at, min(at + 100, options.start + options.count))
            c, u = run(port, options.seed, numbers)
            scripts, calls, undone = scripts + len(numbers), calls + c, undone + u
    except Difference as d:
        raise SystemExit(f'DIFFERENCE (seed {options.seed}) {d}')
    print(f'{port.name} on arbitrary states: {scripts} scripts, {calls} calls, {undone} with the bytes outside looked at, seed {options.seed}, '
          f'{time.time() - began:.0f} s')


if __name__ == '__main__':
    main()
