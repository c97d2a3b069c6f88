#!/usr/bin/env python3
"""Damaged and spliced heaps for the salvage of document 02's P9, as console scripts.

    salvaged.py [--model | --console PATH] [--seed S] [--from K] [--count N]

    tests/oracle/salvaged.py --count 100000    the long run; without --console the console is compiled first, with no proof

The heaps are those of damaged.py, and more whose ranges meet: files of several stores in one heap, nobody's files crowded into few
positions or chained end to end, equal masked lsns, the labels' two kinds of lsn, all of 256 slots in use or given up.

Checked without a second implementation: the report's form and order; that no byte but the first of each reported slot changes, neither table nor
state nor claims; that nothing is reported where a reopening accepts; that a reopening is then accepted or refused with 6, as the checker
says; that a second salvage reports nothing; that with power gone after the first k stores a second one reports the rest and ends in the
same heap; that a heap whose list is then empty keeps its reads, and an empty list, behind any calls. The same of the model, and that each
slot given up for 14 meets one that is kept. And as a second opinion: the model's answers, line by line. A run that did not meet each case of
MUST_MEET fails."""
import argparse
import os
import re
import subprocess
import time
import zlib
from collections import Counter

import damaged
from damaged import FULL, ROOT, TOTAL, Parts, faults_of, opinion, wrong
from hostile import NUMBER, RESET, first_word
from model import BATCH_BIT, LABEL, Refused, Settings, Store, label_bytes, label_numbers, masked, object_bytes, outside_bounds
from port import Difference, Model, Port
from scenarios import operation

GAVE = re.compile(f'gave {NUMBER} {NUMBER}$')
FIRST_KIND = (8, 9, 10, 11, 12, 13, 15)
TAKEN = ('salvage', 'dump', 'check', 'reopen', 'read', 'write')
NEW, BAD_LINES = b'new', ['salvage 1', 'salvage x', 'salvage salvage', 'salvag', 'Salvage', 'salvage -']
MUST_MEET = [f'{n} given up' for n in (*FIRST_KIND, 14)] + [
    'refused with 1', 'a bad line', 'no slot in use', 'a table not in form', 'nothing given up', 'accepted before, with faults', 'both kinds',
    'accepted before', '6 before and after', '6 after, another before', '15 before and given up', '14 before, and none given up for it',
    'equal masked lsns, the lower slot kept', 'equal masked lsns, with the batch bit and without', 'three equal masked lsns',
    'kept, though it meets one that was given up before it', 'kept, though it meets a slot of the first kind',
    'given up in a lower slot than the kept one', 'the checker strikes another slot', 'given up in another order than by slot',
    'given up at the end of the last kept', 'kept one above the end of the last kept', 'given up by T alone', 'T 0 of a kept file',
    'masked order is not the order by lsn', 'every slot in use given up', '256 given up', '255 given up for 14', 'the last slot of 256 given up',
    'a first byte of 0 before others', 'power gone before the first store', 'power gone in the first kind', 'power gone in the second kind',
    'power gone between the kinds', 'clean afterwards', 'faults left afterwards', 'calls behind a rescue', 'a put behind a rescue',
    'a foreign heap that maintenance moved', 'an older version reads', 'a delete undone', 'a repeated id, rising', 'ids not ascending',
    'bytes behind the entries', 'no entries', 'generation 255', 'a next position over 2^62',
]


class Maker(damaged.Maker):
    """one heap, and the script that has the console rescue it"""

    def __init__(self, seed, number):
        super().__init__(f'{seed} salvaged', number)
        self.number, self.spared = number, False  # spared from damage

    # ---- files whose ranges meet

    def fill(self):
        kind = self.r.choice(['damaged', 'damaged', 'stores', 'stores', 'crowd', 'chain', 'pair'])
        if self.number % 200 == 0:
            self.all(self.number // 200 % 3)
        elif kind == 'damaged' or self.many or self.slots == 256:
            super().fill()
        else:
            self.foreign = kind != 'stores'
            getattr(self, kind)()

    def stores(self):
        """slots of two to four stores"""
        lives = [self.life() for _ in range(self.r.choice([2, 2, 3, 4]))]
        self.heap = [self.r.choice(slots) for slots in zip(*lives)]

    def crowd(self):
        """anywhere in few positions"""
        r, most = self.r, self.r.choice([3, 20, 60, 200])
        base = r.choice([1, 1, 50, BATCH_BIT - 600])
        for slot in range(self.slots):
            if self.chance(80):
                self.put(slot, self.nobodys(base + r.randrange(most)))

    def chain(self):
        """each about where the one before it ends, in any slots"""
        base = self.r.choice([1, 30, 2 ** 40])
        for slot in self.r.sample(range(self.slots), self.r.randint(1, self.slots)):
            p = self.nobodys(base)
            self.put(slot, p)
            base = max(1, base + len(p.objects) + self.r.choice([0, 0, 0, 1, 1, -1, -20]))

    def pair(self):
        """the one of slot 0 begins where that of slot 1 ends: the checker strikes slot 1, a salvage gives up slot 0"""
        if self.slots < 2:
            self.slots, self.heap = 2, [bytes(self.slot_bytes)] * 2
        for slot, lsn in ((0, 30), (1, 10)):
            data = object_bytes(self.ids[slot % len(self.ids)], b'')
            bit = self.r.choice([0, BATCH_BIT])
            self.put(slot, Parts(lsn + self.r.choice([0, 0, 1]) | bit, 0, data, [(self.ids[slot % len(self.ids)], 0)]))

    def all(self, kind):
        """256 slots: all with a bad label, all at one position, or some of each and damaged"""
        r = self.r
        self.slot_bytes, self.slots, self.foreign, self.spared = 128, 256, True, kind < 2
        self.settings = Settings((128, *self.settings[1:]))
        good = Parts(r.choice([1, BATCH_BIT + 1]), 0, object_bytes(self.ids[0], b''), [(self.ids[0], 0)]).bytes()
        bad = label_bytes((5, 0, 128, 0, 0))
        self.heap = [[bad, good, r.choice([good, bad, b''])][kind].ljust(128, b'\0') for _ in range(256)]

    def damage(self):
        if not self.spared:
            super().damage()

    # ---- what the model says of it

    def judge(self):
        super().judge()
        self.met &= set(MUST_MEET)
        self.after = self.model()
        self.before = self.reopening(self.model())
        self.report = self.after.salvage()
        self.laws()
        self.see()

    def model(self, heap=None):
        """the heap in the model's hands"""
        store = Store()
        store.given, store.heap = self.settings, bytearray(b''.join(self.heap) if heap is None else heap)
        store.words = [0] * (2 * self.table)
        return store

    @staticmethod
    def reopening(store):
        """0, or the refusal's number"""
        try:
            store.reopen()
            return 0
        except Refused as refusal:
            return refusal.number

    def cut(self, stores):
        """the heap after the first so many stores"""
        heap = bytearray(b''.join(self.heap))
        for loss in self.report[:stores]:
            heap[loss.slot * self.slot_bytes] = 0
        return heap

    def spans(self):
        """of each slot that is sound by itself: masked lsn and end"""
        found, store = {}, self.model()
        own = {loss.slot for loss in self.report if loss.number != 14}
        for slot in range(self.slots):
            if self.heap[slot][0] != 0 and slot not in own:
                numbers = store.judged(slot)[0]
                found[slot] = (masked(numbers[0]), masked(numbers[0]) + numbers[1])
        return found

    def laws(self):
        """of the model"""
        def must(holds, why):
            if not holds:
                raise Difference(f'the model: {why}: {self.report}\n    heap: {b"".join(self.heap).hex()}')

        after, spans = self.reopening(self.model(self.after.heap)), self.spans()
        lost = [loss.slot for loss in self.report]
        kept = [k for k in spans if k not in lost]
        must(after in (0, 6), f'a reopening behind the salvage is refused with {after}')
        must(self.before != 0 or not self.report, 'something is given up that a reopening accepts')
        must(self.before in (0, 6) or self.report, f'nothing is given up, and a reopening is refused with {self.before}')
        must(self.before == 0 or after == 6 or self.report, 'refused before, accepted after, and nothing is given up')
        must(not self.model(self.after.heap).salvage(), 'a second salvage gives up more')
        must(self.after.heap == self.cut(len(self.report)), 'more changed than the first bytes')
        must(len(set(lost)) == len(lost) <= 256, 'a slot given up twice')
        for stores in range(len(lost) + 1) if len(lost) < 9 else (0, 1, len(lost) // 2, len(lost) - 1, len(lost)):
            store = self.model(self.cut(stores))
            must(store.salvage() == self.report[stores:] and store.heap == self.after.heap, f'power gone after {stores} stores')
        for slot, number in self.report:
            must(number != 14 or any(spans[slot][0] <= spans[k][1] and spans[k][0] <= spans[slot][1] for k in kept), f'{slot} meets none that is kept')
        must(all(spans[j][1] < spans[k][0] or spans[k][1] < spans[j][0] for j in kept for k in kept if j < k), 'two that are kept meet')

    def see(self):
        """what was met"""
        spans, heap = self.spans(), self.heap
        second = [loss.slot for loss in self.report if loss.number == 14]
        first = [loss.slot for loss in self.report if loss.number != 14]
        order = sorted(spans, key=lambda k: (spans[k][0], k))
        kept = [k for k in order if k not in second]
        used = [k for k in range(self.slots) if heap[k][0] != 0]
        after = self.model(self.after.heap)
        refused_after = self.reopening(after)
        struck = {f.slot for f in self.faults if f.number == 14}
        last, so_far = {}, None  # the last kept before each, if there is one
        for k in order:
            last[k] = so_far
            so_far = k if k in kept else so_far
        lsns = {k: label_numbers(heap[k][:LABEL])[0] for k in spans}
        equal = [[k for k in spans if spans[k][0] == start] for start, n in Counter(s for s, _ in spans.values()).items() if n > 1]
        unsound = []
        for k in first:
            numbers = label_numbers(heap[k][:LABEL])
            if numbers and not outside_bounds(self.slot_bytes, *numbers[:3], numbers[4]):
                unsound.append((masked(numbers[0]), masked(numbers[0]) + numbers[1]))

        def meets(a, b):
            return a[0] <= b[1] and b[0] <= a[1]

        left = self.model(self.after.heap).check()
        self.clean = not left
        self.met |= {f'{n} given up' for _, n in self.report} | {name for name, holds in {
            'nothing given up': not self.report and used,
            'accepted before': self.before == 0 and used,
            'accepted before, with faults': self.before == 0 and self.faults,
            'both kinds': first and second,
            '6 before and after': self.before == refused_after == 6,
            '6 after, another before': self.before not in (0, 6) and refused_after == 6,
            '15 before and given up': self.before == 15,
            '14 before, and none given up for it': self.before == 14 and not second,  # 15 comes behind 14 in a reopening
            'equal masked lsns, the lower slot kept': any(e[0] in kept and e[1] in second for e in equal),
            'equal masked lsns, with the batch bit and without': any(len({lsns[k] for k in e}) > 1 for e in equal),
            'three equal masked lsns': any(len(e) > 2 for e in equal),
            'kept, though it meets one that was given up before it': any(
                meets(spans[k], spans[j]) for k in kept for j in second if order.index(j) < order.index(k)),
            'kept, though it meets a slot of the first kind': any(meets(spans[k], u) for k in kept for u in unsound),
            'given up in a lower slot than the kept one': any(k < last[k] for k in second),
            'the checker strikes another slot': struck != set(second),
            'given up in another order than by slot': second != sorted(second),
            'given up at the end of the last kept': any(spans[last[k]][1] == spans[k][0] for k in second),
            'kept one above the end of the last kept': any(last[k] is not None and spans[last[k]][1] + 1 == spans[k][0] for k in kept),
            'given up by T alone': any(spans[last[k]][0] < spans[k][0] for k in second),
            'T 0 of a kept file': any(spans[k][0] == spans[k][1] for k in kept),
            'masked order is not the order by lsn': [*sorted(spans, key=lambda k: (lsns[k], k))] != order,
            'every slot in use given up': used and len(used) == len(self.report),
            '256 given up': len(self.report) == 256,
            '255 given up for 14': len(second) == 255,
            'the last slot of 256 given up': any(loss.slot == 255 for loss in self.report),
            'clean afterwards': self.clean and used and self.report,
            'faults left afterwards': any(f.position is not None for f in left) and self.report,
        }.items() if holds}
        if refused_after == 0 and second:
            self.outlived(after, second)

    def outlived(self, after, second):
        """what ids of slots given up for 14 read now"""
        table = after.table()
        for slot in second:
            lsn, entries = label_numbers(self.heap[slot][:LABEL])[0], self.model().judged(slot)[1]
            for ident, relative in entries:
                if ident in table and masked(table[ident] // 2) < masked(lsn) + relative // 2:
                    self.met.add('a delete undone' if relative % 2 == 1 and table[ident] % 2 == 0 else 'an older version reads')

    # ---- the script

    def script(self):
        r, size = self.r, self.slot_bytes
        super().script()
        at = self.lines.index('dump')
        self.lines = self.lines[:at]
        given = self.lines[len(RESET):len(RESET) + 3]
        refused = given != [f'settings {" ".join(map(str, self.settings))}', f'heap {self.slots * size}', f'table {2 * self.table}']
        if 'a table not in form' not in self.met:
            self.lines.append('reopen')
        self.lines += ['dump', 'salvage', 'dump', 'salvage', 'dump', f'check {FULL}', 'reopen']
        if self.chance(3):
            self.lines.append(r.choice(BAD_LINES + ['salvage #']))
        if refused:
            return
        if self.clean and self.report and (self.foreign or self.chance(40)):
            reads = [f'read {i}' for i in self.ids[:12]]
            self.lines += reads
            for _ in range(r.choice([1, 2, 3])):
                call = r.choice(['maintain', 'maintain', 'maintain', 'plan', f'rewrite {r.randint(1, 3)} {2 ** 64 - 1} 256', 'prune', 'reopen', 'salvage',
                                 f'claim {r.randrange(self.slots)}'])
                self.lines += [call, *reads, 'check 8']
            self.wrote = r.choice(self.ids)
            self.lines += [f'write {operation(self.wrote, NEW).hex()}', f'read {self.wrote}', 'check 8']
        if self.report:
            lost, own = len(self.report), sum(loss.number != 14 for loss in self.report)
            for stores in sorted({r.randrange(lost + 1), r.choice([0, own, lost - 1])}):
                heap = self.cut(stores)
                self.lines += [f'heap {len(heap)}']
                self.lines += [f'poke {k * size} {heap[k * size:(k + 1) * size].hex()}' for k in range(self.slots) if any(self.heap[k])]
                self.lines += [f'# power gone after {stores} stores', 'salvage', 'dump']
                self.met |= {name for name, holds in {
                    'power gone before the first store': stores == 0, 'power gone in the first kind': 0 < stores < own,
                    'power gone between the kinds': stores == own and 0 < own < lost, 'power gone in the second kind': own < stores < lost}.items() if holds}


# ---- what must hold ------------------------------------------------------------------------------

def report_of(maker, line, answer):
    """(slot, number) each; None where it was refused"""
    if answer == ['refused 1']:
        return None
    if not TOTAL.match(answer[-1]) or not all(GAVE.match(a) for a in answer[:-1]) or int(answer[-1].split()[1]) != len(answer) - 1:
        raise wrong(maker, line, answer, 'not the form of a report')
    report = [tuple(map(int, a.split()[1:])) for a in answer[:-1]]
    own = [slot for slot, number in report if number != 14]
    if any(number not in FIRST_KIND for _, number in report[:len(own)]) or own != sorted(set(own)) or any(n != 14 for _, n in report[len(own):]):
        raise wrong(maker, line, answer, 'not first the first kind, ascending by slot, and then 14')
    second = [(masked((label_numbers(maker.heap[slot][:LABEL]) or [0])[0]), slot) for slot, _ in report[len(own):]]
    if second != sorted(set(second)):
        raise wrong(maker, line, answer, 'the second kind is not by ascending masked lsn, equal ones by ascending slot')
    return report


class Rescue:
    """what a salvage must do, whatever the store, said by the answers to one script"""

    def __init__(self, maker):
        self.maker, self.met, self.reads = maker, set(), {}
        self.accepted = self.report = self.listed = self.reopened = None
        self.stores = None  # power gone after so many
        self.dump_wanted = self.heap = None

    def take(self, line, answer):
        word = first_word(line)
        if answer == ['bad line']:
            self.must(line in BAD_LINES, 'the console does not take a line that it must take')
            self.met.add('a bad line')
        elif word == '#':
            self.stores = int(line.split()[-2])
        elif word in TAKEN:
            getattr(self, word)(line, answer)
        elif self.report is not None and word in ('plan', 'rewrite', 'maintain', 'prune', 'claim'):
            self.met.add('calls behind a rescue')
            if word == 'maintain' and self.maker.foreign and answer[0].startswith('ok') and answer != ['ok 0']:
                self.met.add('a foreign heap that maintenance moved')

    def run(self, answers):
        for self.line, self.answer in [*zip(self.maker.lines, answers)][len(RESET):]:
            self.take(self.line, self.answer)
        return self.met

    def must(self, holds, why):
        if not holds:
            raise wrong(self.maker, self.line, self.answer, why)

    def salvage(self, line, answer):
        if answer == ['refused 1']:
            self.met.add('refused with 1')
            return
        said = report_of(self.maker, line, answer)
        if self.stores is not None:
            self.must(said == self.report[self.stores:], f'power gone after {self.stores} stores: not the rest of {self.report}')
        elif self.report is not None:
            self.must(not said, f'a salvage behind another, which reported {self.report}')
        else:
            self.must(not (self.accepted and said), 'something is given up that a reopening accepts')
            self.report, heap = said, bytearray(b''.join(self.maker.heap))
            for slot, _ in said:
                heap[slot * self.maker.slot_bytes] = 0
            self.heap = [f'heap {zlib.crc32(heap)}', 'end']
            self.dump_wanted = self.dump_wanted[:-2] + self.heap

    def dump(self, line, answer):
        if self.stores is not None:
            self.must(answer[-2:] == self.heap, f'power gone after {self.stores} stores: a second salvage ends in another heap')
        elif self.dump_wanted is None:
            self.dump_wanted = answer
        else:
            self.must(answer == self.dump_wanted, f'other changes than the first bytes of the slots reported: wanted {self.dump_wanted}')

    def check(self, line, answer):
        listed, _ = faults_of(self.maker, line, answer)
        if listed is None:
            return
        self.must(not self.reads or not listed, 'calls on a clean heap left faults')
        self.must(all(position is not None or number == 6 for _, number, position in listed), 'listed, and makes a reopening refuse')
        self.listed = listed

    def reopen(self, line, answer):
        if self.dump_wanted is None:
            self.accepted = answer == ['ok']
        elif self.report is not None and not self.reopened:
            six = any(number == 6 for _, number, _ in self.listed)
            self.must(answer == (['refused 6'] if six else ['ok']), f'a reopening behind the salvage, where the checker lists {self.listed}')
            self.must(six or self.accepted is not False or self.report, 'refused before, nothing given up, and accepted')
            self.reopened = True

    def read(self, line, answer):
        self.must(not answer[0].startswith('refused'), 'a read of a clean heap is refused')
        self.must(self.reads.setdefault(line, answer) == answer, f'before it was {self.reads[line]}')

    def write(self, line, answer):
        if answer == ['ok']:
            self.met.add('a put behind a rescue')
            self.reads[f'read {self.maker.wrote}'] = [f'ok {NEW.hex()}']


def run(port, seed, numbers):
    """one round; gives how many heaps met what, and the numbers given up"""
    makers = [Maker(seed, k).make() for k in numbers]
    answers = iter(port.run([line for m in makers for line in m.lines]))
    tally, given_up = Counter(), Counter()
    for k, maker in zip(numbers, makers):
        said = [next(answers) for _ in maker.lines]
        try:
            tally.update(maker.met | Rescue(maker).run(said))
            if port.name != 'model':
                opinion(maker, said)
        except Difference as d:
            raise Difference(f'heap {k}: {d}')
        given_up.update(loss.number for loss in maker.report)
    return tally, given_up


def main():
    parser = argparse.ArgumentParser()
    parser.add_argument('--model', action='store_true', help="the model in the port's place")
    parser.add_argument('--console')
    parser.add_argument('--seed', default='1')
    parser.add_argument('--from', dest='start', type=int, default=0)
    parser.add_argument('--count', type=int, default=3000, help='far fewer do not meet each case of MUST_MEET')
    options = parser.parse_args()
    if not options.console and not options.model:
        options.console = os.path.join(ROOT, 'target', 'tests', 'console')
        subprocess.run([os.path.join(ROOT, 'tests', 'unproved'), 'console', options.console], check=True)
    port = Model() if options.model else Port(options.console)
    began, heaps, tally, given_up = time.time(), 0, Counter(), Counter()
    try:
        for at in range(options.start, options.start + options.count, 100):
            numbers = range(at, min(at + 100, options.start + options.count))
            t, g = run(port, options.seed, numbers)
            heaps, tally, given_up = heaps + len(numbers), tally + t, given_up + g
    except Difference as d:
        raise SystemExit(f'DIFFERENCE (seed {options.seed}) {d}')
    missing = [case for case in MUST_MEET if tally[case] == 0]
    if missing:
        raise SystemExit(f'rescued heaps: {heaps} of seed {options.seed} met no case of: {"; ".join(missing)}')
    print(f'{port.name} on heaps to rescue: {heaps} heaps, {tally["accepted before"]} of them accepted, {sum(given_up.values())} slots given up ('
          + ', '.join(f'{n}: {given_up[n]}' for n in sorted(given_up)) + f'), seed {options.seed}, {time.time() - began:.0f} s')
    print('  met: ' + '; '.join(f'{case} {tally[case]}' for case in MUST_MEET))


if __name__ == '__main__':
    main()
