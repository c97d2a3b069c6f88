#!/usr/bin/env python3
"""Request P7, maintenance in two calls: stores left by their own calls, as console scripts.

    planned.py [--model | --console PATH] [--seed S] [--from K] [--count N]

From a blank heap, or from files of any writer where the checker lists nothing; then writes, plans, rewrites with the last plan's mark and
count or with any numbers, prunes, claims, reopenings, syncs and the nightly job, a dump behind each. Every line is held to the model. Of the model
itself, on copies of the store before each plan, rewrite and job: the job answers and leaves what document 01's one call does; so do plan,
rewrite 1, 2, 3 and prune by themselves; what the plan said is what happens, slots, files, bytes and refusal; a rewrite with any numbers empties
its group, moves its live entries, changes no other file and no read, and prunes nothing. A run that did not meet each case of MUST_MEET fails.
Before them stores with room for some of their groups, generations, marks and counts at their limits, each with each, and states by hand on
which the job is not document 01's call."""
import argparse
import copy
import random
import time
from collections import Counter

from hostile import RESET
from known import trailer
from model import BATCH_BIT, EMPTY, GENERATIONS, LABEL, U64, Console, Refused, label_bytes, masked, object_bytes, raw_location
from port import Difference, Model, Port
from scenarios import operation

ROUND = 50
MUST_MEET = [f'a job refused with {n} in {g}' for n in (3, 4, 5, 7) for g in GENERATIONS] + [
    f'{n} groups in a job' for n in GENERATIONS] + [f'a rewrite refused with {n}' for n in (3, 4, 5, 7, 22)] + [
    '5 by what comes out before', '7 by what comes out before', 'groups finished before the refusal', 'a group behind the refused one',
    'a group of too few files', 'a claimed file left out', 'a file of live 0', 'a file kept out by the mark', 'a file taken in by a later mark',
    'the threshold met by the given count alone', 'the threshold met by the present count alone', 'no group', 'a write since the plan',
    'a reopening since the plan', 'a prune since the plan', 'a slot that the plan did not name', 'a slot of the plan left out',
    'dead files that a rewrite left', 'a next position over 2^62', 'generation 255', 'a repeated id', 'a shard cut', 'several files',
]


class Maker:
    """one script; the model goes along, so that a rewrite can have the last plan's numbers"""

    def __init__(self, seed, number):
        self.r = random.Random(f'{seed} planned {number}')
        self.console, self.lines, self.answers, self.met = Console(), [], [], set()
        self.planned, self.named = None, 0  # the last plan, and its line

    def chance(self, of_a_hundred):
        return self.r.randrange(100) < of_a_hundred

    def say(self, line):
        self.lines.append(line)
        self.answers.append(self.console.line(line))
        return self.answers[-1][0]

    def make(self):
        r = self.r
        slot_bytes = r.choice([128, 128, 160, 200, 256, 512])
        slots, least = r.choice([4, 6, 8, 10, 14, 20]), r.choice([1, 1, 1, 2, 2, 3])
        self.longest = r.choice([2, 10, 24, 64, 64, 1024])
        self.settings = [slot_bytes, r.choice([0, 75, 100, 100]), least, r.choice([1, 60, 300, 1048576, 1048576]), r.choice([0, 0, 4, 6, 256]),
                         self.longest]
        self.ids = r.sample(range(1, 60), r.randint(2, 12))
        for line in RESET + [f'settings {" ".join(map(str, self.settings))}', f'heap {slots * slot_bytes}',
                             f'table {2 * len(self.ids)}', 'claims 0 0 0 0']:
            self.say(line)
        if self.chance(70):
            self.foreign(slot_bytes, slots)
        if self.say('reopen') != 'ok' or self.console.store.check():
            raise Difference('not a clean heap\n' + '\n'.join(self.lines))
        for _ in range(r.choice([3, 6, 10, 16])):
            self.call()
            self.say('dump')
        return self

    # ---- files of any writer

    def foreign(self, slot_bytes, slots):
        """in any slots, of any generation, ids in any order and again, deletes anywhere up to T, bytes behind the entries, none at all, bodies longer
        than the setting, positions near 2^62"""
        r = self.r
        longest, generations = r.choice([self.longest, self.longest, 40]), r.choice([[0, 0, 1, 1, 2, 2, 3, 255], [0, 1, 2], [0], [1], [1, 255]])
        files, at = [], 0
        for slot in r.sample(range(slots), r.randint(1, max(1, slots - r.choice([0, 1, 2, 4])))):
            objects, entries, last = b'', [], {}
            for ident in [r.choice(self.ids) for _ in range(r.choice([0, 1, 1, 2, 2, 3, 4]))]:
                body = None if self.chance(30) else r.randbytes(r.randrange(longest))
                more, least = b'' if body is None else object_bytes(ident, body), last.get(ident, -1) + 1
                if LABEL + len(objects + more) + 28 + 16 * len(entries) > slot_bytes or least > len(objects):
                    continue
                last[ident] = len(objects) if body is not None else r.randint(least, len(objects))
                self.met |= {'a repeated id'} if ident in dict(entries) else set()
                entries.append((ident, raw_location(last[ident], body is None)))
                objects += more
            if len(last) == len(entries):
                r.shuffle(entries)
            left = slot_bytes - LABEL - len(objects) - 12 - 16 * len(entries)
            listed = trailer(*entries, more=r.randbytes(8) if not entries or left >= 8 and self.chance(20) else b'')
            files.append((slot, at, objects, objects + listed, len(entries)))
            at += len(objects) + r.choice([1, 1, 1, 7])
        size = max(len(file[3]) for file in files)
        base = BATCH_BIT - r.randint(0, at) - files[-1][1] - size - 1 if self.chance(40) else r.choice([1, 50, 2 ** 40, BATCH_BIT - at])
        for slot, place, objects, data, present in files:
            generation, lsn = r.choice(generations), base + place | r.choice([0, BATCH_BIT])
            self.say(f'poke {slot * slot_bytes} {(label_bytes((lsn, len(objects), len(data), present, generation)) + data).hex()}')
            self.met |= {'generation 255'} if generation == 255 else set()

    # ---- calls

    def batch(self):
        r = self.r
        return b''.join(operation(r.choice(self.ids), None if self.chance(25) else r.randbytes(r.randrange(min(self.longest, 24))))
                        for _ in range(r.choice([1, 1, 1, 2, 3]))).hex()

    def any_rewrite(self):
        """generation, mark, count: at their limits and anywhere between"""
        r, store = self.r, self.console.store
        threshold, next_position = store.given.threshold, store.next
        lsns = [masked(record[0]) for _, record in store.files()] or [1]
        generation = r.choice([*GENERATIONS, *GENERATIONS, *GENERATIONS, 0, 4, U64 - 1])
        mark = r.choice([0, 1, next_position, next_position, next_position + 1, BATCH_BIT, U64 - 1, r.choice(lsns), r.choice(lsns) + 1])
        count = r.choice([0, max(threshold - 1, 0), threshold, threshold + 1, len(store.files()), 256, U64 - 1])
        return generation, mark, count

    def call(self):
        r, store, what = self.r, self.console.store, self.r.randrange(100)
        if what < 36:
            self.say(f'write {self.batch()}')
        elif what < 46:
            self.plan()
        elif what < 68:
            self.rewrite(60)
        elif what < 76:
            self.laws()
            self.say('maintain')
        elif what < 80:
            self.say('prune')
        elif what < 86:
            self.say(f'{r.choice(["claim", "claim", "release"])} {r.randrange(store.slots())}')
        elif what < 92:
            self.say('reopen')
        elif what < 96:
            self.say('sync')
        else:  # a plan, and its rewrites between other calls
            self.plan()
            for _ in range(3):
                self.say(r.choice([f'write {self.batch()}', f'write {self.batch()}', 'prune', f'claim {r.randrange(store.slots())}', 'reopen']))
                self.rewrite(100)

    def plan(self):
        self.laws()
        self.say('plan')
        self.planned, self.named = self.console.store.plan(), len(self.lines)

    def rewrite(self, of_a_hundred):
        """so often with the last plan's mark and count"""
        asked = self.any_rewrite()
        if self.planned and self.chance(of_a_hundred):
            asked = (self.r.choice(GENERATIONS), self.planned.mark, self.planned.count)
            self.seen_since(asked)
        self.rewrite_law(asked)
        self.say('rewrite %d %d %d' % asked)

    # ---- what holds of the model

    def must(self, holds, why):
        if not holds:
            raise Difference(f'the model: {why}\n' + '\n'.join(self.lines))

    def laws(self):
        """of a plan and the job, on the store as it stands"""
        store = self.console.store
        old, job, steps = (copied(store) for _ in range(3))
        planned = steps.plan()
        self.must(kept(steps) == kept(store), 'a plan changes something')
        told, wanted = outcome(job.maintain), outcome(old.maintain_01)
        self.must(told == wanted, f'the job answers {told}, the one call {wanted}')
        self.must(kept(job) == kept(old), 'the job leaves another store than the one call')
        fixed = store.candidates(U64, len(store.files()))
        for generation in GENERATIONS:
            slots = fixed.get(generation, [])
            wanted = slots if len(slots) >= store.given.min_files else []
            self.must(planned.groups[generation] == wanted, f'the plan names {planned.groups[generation]}, the one call takes {wanted}')
        made, refusal = [], (0, 0)
        for generation in GENERATIONS:
            before = copied(steps)
            try:
                moved = steps.rewrite(generation, planned.mark, planned.count)
            except Refused as refused:
                refusal = refused.number, generation
                self.must(kept(steps) == kept(before), 'a refused rewrite changes something')
                break
            changed = [k for k, record in before.files() if record != steps.records[k]]
            self.must(changed == planned.groups[generation], f'files {changed} changed, not those that the plan named')
            self.must(moved == sum(before.records[k][5] for k in changed), 'not each live entry moved')
            made += [k for k in before.empty_slots() if steps.records[k] != EMPTY]
        else:
            steps.prune()
        sizes = [steps.records[k][2] for k in made]
        self.must(kept(steps) == kept(old), 'the three calls leave another store than the one call')
        self.must((len(made), sum(sizes), *refusal) == (planned.files, planned.bytes, planned.number, planned.generation),
                  f'{len(made)} files and {sum(sizes)} bytes came out, then {refusal}, where the plan was {planned}')
        self.must(reads(job) == reads(store) and not job.check(), 'the job changes a read, or leaves a heap that is not clean')
        self.seen(store, planned)

    def rewrite_law(self, asked):
        """of one rewrite with any numbers"""
        store = self.console.store
        after, group = copied(store), store.group(*asked)
        told = outcome(after.rewrite, *asked)
        if told[0] == 'refused':
            self.must(kept(after) == kept(store), 'a refused rewrite changes something')
            self.met.add(f'a rewrite refused with {told[1]}')
            return
        changed = [k for k, record in store.files() if record != after.records[k]]
        self.must(changed == group and all(after.records[k] == (*store.records[k][:5], 0, store.records[k][6]) for k in changed),
                  f'a rewrite of {group} changes {changed}')
        self.must(told[1] == sum(store.records[k][5] for k in group), 'not each live entry moved')
        made = [after.records[k] for k in store.empty_slots() if after.records[k] != EMPTY]
        self.must(all(r[0] >= store.next and r[3] == r[5] and r[4] == asked[0] for r in made), 'a new file not as it must be')
        self.must(sum(r[3] for r in made) == told[1], 'not each moved entry in a new file')
        self.must(reads(after) == reads(store) and not after.check(), 'a rewrite changes a read, or leaves a heap that is not clean')
        generation, mark, count = asked
        with_present = store.group(generation, mark, len(store.files()))
        later = store.group(generation, U64, count)
        small = [k for k in group if not sparse(store, k)]
        self.met |= {name for name, holds in {
            'no group': not group,
            'a file kept out by the mark': group and set(later) - set(group),
            'a file taken in by a later mark': group and self.planned and any(masked(store.records[k][0]) >= self.planned.mark for k in group),
            'the threshold met by the given count alone': small and len(store.files()) < store.given.threshold,
            'the threshold met by the present count alone': set(with_present) - set(group),
            'dead files that a rewrite left': group and after.records[group[0]] != EMPTY,
            'several files': len(made) > 1,
        }.items() if holds}

    def seen_since(self, asked):
        """of a rewrite with the last plan's numbers"""
        group, named = set(self.console.store.group(*asked)), set(self.planned.groups[asked[0]])
        self.met |= {name for name, holds in {
            'a write since the plan': group and any(line.startswith('write') for line in self.lines[self.named:]),
            'a reopening since the plan': group and 'reopen' in self.lines[self.named:],
            'a prune since the plan': group and 'prune' in self.lines[self.named:],
            'a slot that the plan did not name': group - named,
            'a slot of the plan left out': group and named - group,
        }.items() if holds}

    def seen(self, store, planned):
        """of a plan"""
        groups = [g for g in GENERATIONS if planned.groups[g]]
        all_of = store.candidates(U64, planned.count)
        files = [f for g in groups if not planned.generation or g < planned.generation for f in store.files_of(planned.groups[g])]
        stopped = store.files_of(planned.groups[planned.generation]) if planned.number in (4, 5, 7) else []
        alone = outcome(lambda: (store.check_room(stopped), store.check_next(stopped, store.next)))[0] == 'ok'
        released = copied(store)
        released.claims = 0
        self.met |= {name for name, holds in {
            f'a job refused with {planned.number} in {planned.generation}': planned.number,
            f'{len(groups)} groups in a job': not planned.number,
            'groups finished before the refusal': planned.number and planned.files,
            f'{planned.number} by what comes out before': stopped and alone,
            'a group behind the refused one': planned.number and groups[-1] > planned.generation,
            'a group of too few files': any(0 < len(slots) < store.given.min_files for slots in all_of.values()),
            'a claimed file left out': released.candidates(U64, planned.count) != all_of,
            'a file of live 0': any(record[5] == 0 for _, record in store.files()),
            'a next position over 2^62': planned.mark > BATCH_BIT,
            'a shard cut': len(files) > 1 and len({len(b).bit_length() if b else 0 for f in files for _, b in f}) < len(files),
        }.items() if holds}


# ---- at the limits, and by hand ------------------------------------------------------------------

def started(settings, slots, table):
    maker = Maker('', 0)
    for line in RESET + [f'settings {settings}', f'heap {slots * int(settings.split()[0])}', f'table {2 * table}', 'claims 0 0 0 0']:
        maker.say(line)
    return maker


def five(base):
    """slots with a file each, of every generation; gives the next position behind them too"""
    files = []
    for ident, generation in enumerate((0, 0, 1, 2, 255), 1):
        objects, listed = object_bytes(ident, b'x'), trailer((ident, 0))
        lsn = base + 30 * (ident - 1) | BATCH_BIT * (ident % 2)
        files.append(label_bytes((lsn, len(objects), len(objects + listed), 1, generation)) + objects + listed)
    return files, base + 120 + len(files[0]) - LABEL + 1


def numbers_at_their_limits():
    """each generation, mark and count with each, on files that are candidates for their size alone"""
    files, next_position = five(30)
    for generation in (0, *GENERATIONS, 4, 2 ** 32 + 1, U64 - 1):
        maker = started('256 0 1 1048576 4 1024', 12, 8)
        for line in ('plan', f'rewrite {generation} {U64 - 1} 256', 'maintain', 'dump'):  # 1, before 22: the state is of no reopening
            maker.say(line)
        for mark in (0, 1, 30, 31, 60, 150, 151, next_position, next_position + 1, BATCH_BIT, BATCH_BIT + 1, U64 - 1):
            for count in (0, 3, 4, 5, 256, 2 ** 32, U64 - 1):
                for slot in range(12):
                    maker.say(f'poke {256 * slot} {files[slot].hex() if slot < len(files) else "00"}')
                maker.say('reopen')
                maker.must(maker.console.store.next == next_position, 'not the next position')
                maker.say(f'rewrite {generation} {mark} {count}')
                maker.say('dump')
        yield maker


def little_room():
    """slots and positions for all groups, the first two, the first, or none"""
    for slots in range(5, 9):
        for left in (0, 42, 43, 44, 64, 65, 66, 107, 108, 109):
            maker = started('256 0 1 1048576 4 1024', slots, 8)
            files, next_position = five(BATCH_BIT - left - five(0)[1])
            for slot, file in enumerate(files):
                maker.say(f'poke {256 * slot} {file.hex()}')
            maker.say('reopen')
            maker.must(maker.console.store.next == next_position == BATCH_BIT - left, 'not the next position')
            maker.laws()
            for line in ('plan', 'maintain', 'dump'):
                maker.say(line)
            yield maker


# name, next position, files, table; a file: lsn, generation, objects, entries
BY_HAND = [
    ('a record at the next position', 100, [(100, 0, object_bytes(1, b''), [(1, 0)])], [(1, 200)]),
    ('a record above it', 99, [(100, 0, object_bytes(1, b''), [(1, 0)])], [(1, 200)]),
    ('two records of one lsn', 200, [(10, 1, object_bytes(1, b''), [(1, 0)]), (10, 0, object_bytes(2, b''), [(2, 0)])], [(1, 20), (2, 20)]),
    ('ranges that meet', 200, [(10, 0, object_bytes(1, b'') + object_bytes(2, b''), [(1, 0), (2, 40)]), (25, 1, object_bytes(3, b''), [(3, 0)])],
     [(1, 20), (2, 60), (3, 50)]),
    ('an entry past T', 200, [(10, 0, b'', [(4, 61)]), (40, 1, object_bytes(3, b''), [(3, 0)])], [(3, 80), (4, 81)]),
]


def by_hand():
    """states that no reopening gives, on which the job is not document 01's one call: a file that the mark keeps out, or a moved entry that is
    counted off a file of a later group"""
    for name, next_position, files, table in BY_HAND:
        settings = '256 100 1 1048576 0 1024'
        maker = started(settings, 6, 4)
        maker.say(f'state {settings} 1536 4 {next_position}')
        for slot, (lsn, generation, objects, entries) in enumerate(files):
            data = objects + trailer(*entries)
            maker.say(f'poke {256 * slot + LABEL} {data.hex()}')
            maker.say(f'record {slot} {lsn} {len(objects)} {len(data)} {len(entries)} {generation} {len(entries)} 1')
        for place, (ident, raw) in enumerate(table):
            maker.say(f'entry {place} {ident} {raw}')
        job, old = copied(maker.console.store), copied(maker.console.store)
        maker.must(outcome(job.maintain) != outcome(old.maintain_01), f"{name}: the job answers as document 01's call")
        for line in ('plan', 'dump', 'maintain', 'dump'):
            maker.say(line)
        yield maker


# ---- small things --------------------------------------------------------------------------------

def sparse(store, slot):
    *_, present, _, live, _ = store.records[slot]
    return live * 100 // max(present, 1) < store.given.percent


def copied(store):
    other = copy.copy(store)
    other.heap, other.words, other.records = bytearray(store.heap), list(store.words), list(store.records)
    return other


def kept(store):
    """all of a store"""
    return store.given, store.heap, store.words, store.settings, store.heap_len, store.table_len, store.next, store.records, store.claims


def reads(store):
    return {ident: store.read(ident) for ident in store.table()}


def outcome(call, *words):
    try:
        return 'ok', call(*words)
    except Refused as refusal:
        return 'refused', refusal.number, refusal.generation, refusal.moved


def hold(port, makers, calls):
    """the port's answers to the makers' scripts against the model's"""
    said = iter([answer for maker in makers for answer in maker.answers] if port.name == 'model'
                else port.run([line for maker in makers for line in maker.lines]))
    for maker in makers:
        for k, (line, wanted) in enumerate(zip(maker.lines, maker.answers)):
            answer = next(said)
            if answer != wanted:
                raise Difference(f'the model answers {wanted}, not {answer}\n    at: {line}\n' + '\n'.join(maker.lines[:k + 1]))
            calls[line.split()[0]] += 1


def main():
    parser = argparse.ArgumentParser()
    parser.add_argument('--model', action='store_true', help="the model's laws alone")
    parser.add_argument('--console', default='target/bin/console')
    parser.add_argument('--seed', default='1')
    parser.add_argument('--from', dest='start', type=int, default=0)
    parser.add_argument('--count', type=int, default=3000, help='far fewer do not meet each case of MUST_MEET')
    options = parser.parse_args()
    port = Model() if options.model else Port(options.console)
    began, met, calls = time.time(), Counter(), Counter()
    try:
        for makers in ([*little_room()], [*by_hand()], [*numbers_at_their_limits()]):
            hold(port, makers, calls)
            met.update(case for maker in makers for case in maker.met)
        for at in range(options.start, options.start + options.count, ROUND):
            makers = [Maker(options.seed, k).make() for k in range(at, min(at + ROUND, options.start + options.count))]
            hold(port, makers, calls)
            met.update(case for maker in makers for case in maker.met)
    except Difference as d:
        raise SystemExit(f'DIFFERENCE (seed {options.seed}) {d}')
    missed = [case for case in MUST_MEET if not met[case]]
    if missed:
        raise SystemExit(f'plans and rewrites: {options.count} stores of seed {options.seed} met no case of: {"; ".join(missed)}')
    made = ', '.join(f'{calls[word]} {word}' for word in ('plan', 'rewrite', 'maintain', 'write', 'prune', 'claim', 'reopen'))
    print(f'{port.name} with plans and rewrites: {options.count} stores, {made}, seed {options.seed}, {time.time() - began:.0f} s')
    print('  met: ' + '; '.join(f'{case} {met[case]}' for case in MUST_MEET))


if __name__ == '__main__':
    main()
