#!/usr/bin/env python3
"""Compares the port with the original Rust by running both on the same scenarios.

    compare.py [--model | --console PATH --host PATH] [--rust PATH | --stored FILE] [--seed S].. [--calls N] [--number FILE]
    compare.py .. [--seed S] [--limit KIND].. [--from K] [--count N] [--small] [--store FILE]

The nightly job stands against the original's maintenance, and every second time plan, rewrite 1, 2, 3 and prune do, call by call; then also the
plan's files and bytes against those that came out. After every call: each id's read, the answer, the growth of the next position, counts, each
file's numbers, live count, synced mark and claim, and how many are not synced;
after reopenings and rewrites also each file as a set of entries. At a scenario's end the heap that the port wrote is renamed to the
original's files, opened and read by it, and every number must be the same; the files that the original wrote until then are labelled,
put into slots, reopened and read by the port. A difference that is not in known.py fails. The port's bytes are the model's bytes: the console shows the heap's
checksum, and every answer of it, that checksum among them, must be the model's."""
import argparse
import collections
import itertools
import os
import random
import time
import zlib

from foreseen import replacing, rewriting
from known import FAILS, GROUP_FAILURES, KNOWN, NOT_MADE, READ_FAILURES, TABLE_FAILURES, WRITE_DIFFERS, directed
from limits import OFTEN, RARELY, SELDOM, limit
from model import BATCH_BIT, GENERATIONS, HEADER, LABEL, Console, batch_operations, label_numbers, le, masked, trailer_entries, Refused
from port import Difference, Ended, Model, Port, Rust, Stored, in_the_originals_words, store_answers
from scenarios import from_files, scenario

File = collections.namedtuple('File', 'lsn trailer_offset file_size present generation live synced claimed')


def shape(file):
    """what is compared of a file whatever its place: everything but the position"""
    return (file.lsn & BATCH_BIT, *file[1:])


def contents(trailer_offset, data):
    """the file as a set of entries: (id, body), body None for a delete, ('cut', ..) for an object that is not whole"""
    entries = set()
    for ident, relative in trailer_entries(data[trailer_offset:]):
        if relative % 2:
            entries.add((ident, None))
            continue
        at = relative // 2
        length = le(data, at + 12)
        whole = at + HEADER + length <= len(data)
        entries.add((ident, data[at:at + HEADER + length] if whole else ('cut', at)))
    return frozenset(entries)


# ---- the port's side: a script, and what the port answers to it -----------------------------------

class Step:
    """one line of a scenario, with the model's bytes behind it. rewrite: of a maintenance; differs: a known difference of a write; mixed: in a
    scenario with table calls among writes; asked: the port's lines for it, a maintenance's call by call"""

    def __init__(self, line, store, imported=False, rewrite=None, differs=None, mixed=False, asked=()):
        self.line, self.imported, self.rewrite, self.differs, self.mixed = line, imported, rewrite, differs, mixed
        self.asked = asked or [line]
        self.given, self.heap_len, self.table_len = store.given, len(store.heap), store.entries()
        word = line.split()[0]
        self.heap_sum = zlib.crc32(store.heap) if word in CALLS else None
        self.heap = bytes(store.heap) if word in LOOKED_AT else None

    def label_files(self):
        """(label's numbers, bytes) of each slot that is not empty"""
        size = self.given.slot_bytes
        for at in range(0, len(self.heap), size):
            if self.heap[at] != 0:
                numbers = label_numbers(self.heap[at:at + LABEL])
                yield numbers, self.heap[at + LABEL:at + LABEL + numbers[2]]

    def bytes_of(self, slot, file):
        at = slot * self.given.slot_bytes + LABEL
        return self.heap[at:at + file.file_size]


CALLS = ('reopen', 'write', 'claim', 'release', 'prune', 'maintain', 'sync')
TABLE_CALLS = ('load', 'store', 'cas', 'max')
LOOKED_AT = ('reopen', 'claim', 'release', 'prune', 'maintain')  # after these the files' bytes are compared


def plan(lines, wide):
    """the scenario's steps; every second maintenance is made call by call. Where the two sides cannot stay alike, and at the end, a reopening
    is put in for which the original takes over the port's heap"""
    console, steps, by_hand, nights = Console(wide), [], False, len(lines) % 2
    words = {line.split()[0] for line in lines}
    mixed = 'write' in words and not words.isdisjoint(TABLE_CALLS)
    for line in lines:
        word, store, rewrite, differs = line.split()[0], console.store, None, None
        if word == 'maintain':
            rewrite, nights = rewriting(store), nights + 1
        elif word == 'write' and mixed:
            differs = replacing(store, bytes.fromhex(line.split()[1].replace('-', '')))
        asked, answers = call_by_call(console) if rewrite and nights % 2 == 0 else ([line], [console.line(line)])
        answer = answer_of(asked, answers)[0]
        if answer == 'bad line':
            raise Difference(f'not a line of the console: {line[:200]}')
        by_hand = by_hand or word in ('heap', 'poke')
        differs = differs if answer == 'ok' else None
        steps.append(Step(line, store, word == 'reopen' and by_hand, rewrite, differs, mixed, asked))
        if word == 'reopen':
            by_hand = False
            if answer != 'ok':
                raise Difference(f'reopening outside the domain: {answer}')
        if differs or rewrite and (rewrite.cut or mixed or answer.startswith('refused')):
            steps.append(taken_over(console))
    return steps + [taken_over(console)]


def call_by_call(console):
    """a maintenance as a host makes it: plan, rewrite 1, 2, 3 with its mark and count, prune, up to the one that is refused. Calls and answers"""
    calls, answers = ['plan'], [console.line('plan')]
    mark, count = (answers[0][-1].split() + [''])[1:3]
    for call in [f'rewrite {generation} {mark} {count}' for generation in GENERATIONS] + ['prune']:
        if answers[-1][0].startswith('refused'):
            break
        calls.append(call)
        answers.append(console.line(call))
    return calls, answers


def answer_of(calls, answers):
    """the answer to a step: a maintenance call by call answers as the job does"""
    if calls[0] != 'plan':
        return answers[0]
    moved = sum(int(answer[0].split()[1]) for call, answer in zip(calls, answers) if call.startswith('rewrite') and answer[0].startswith('ok'))
    if not answers[-1][0].startswith('refused'):
        return [f'ok {moved}']
    return [f'{answers[-1][0]} {len(calls) - 1} {moved}']


def taken_over(console):
    answer = console.line('reopen')
    if answer != ['ok']:
        raise Difference(f"the port's own heap is not reopened: {answer}")
    return Step('reopen', console.store, imported=True)


def script(steps, ids):
    """the console's lines: after each call a dump, the counts, how many files are not synced and every id's read"""
    lines = []
    for step in steps:
        lines += step.asked
        if step.line.split()[0] in CALLS:
            lines += ['dump', 'counts', 'unsynced'] + [f'read {i}' for i in ids]
    return lines


class PortView:
    """what the port said after a call"""

    def __init__(self, answer, dump, counts, unsynced, reads):
        self.answer, self.counts, self.unsynced, self.reads = answer[0], counts[0], unsynced[0], [r[0] for r in reads]
        self.files, self.entries, claimed = {}, {}, set()
        self.planned = None  # files and bytes that a plan said, of a maintenance call by call
        for line in dump:
            word, *numbers = line.split()
            numbers = [int(n) for n in numbers]
            if word == 'next':
                self.next = numbers[0]
            elif word == 'record':
                self.files[numbers[0]] = File(*numbers[1:], 0)
            elif word == 'claimed':
                claimed.add(numbers[0])
            elif word == 'entry':
                self.entries[numbers[1]] = numbers[2]
            elif word == 'heap':
                self.heap_sum = numbers[0]
        for slot in claimed & self.files.keys():
            self.files[slot] = self.files[slot]._replace(claimed=1)


def views(steps, answers, ids):
    """for each step that is a call a PortView, for a table call its answer, None for the others"""
    said, out = iter(answers), []
    for step in steps:
        answers, word = [next(said) for _ in step.asked], step.line.split()[0]
        answer = answer_of(step.asked, answers)
        if word in CALLS:
            out.append(PortView(answer, next(said), next(said), next(said), [next(said) for _ in ids]))
            if step.asked[0] == 'plan' and len(answers) > 1:
                out[-1].planned = tuple(map(int, answers[0][-1].split()[3:]))
        else:
            out.append(answer[0] if word in TABLE_CALLS else None)
    return out


# ---- the comparison ------------------------------------------------------------------------------

def must(same, what, port, rust):
    if not same:
        raise Difference(f'{what}\n    port: {str(port)[:5000]}\n    Rust: {str(rust)[:5000]}')


class Comparison:
    def __init__(self, rust):
        self.rust = rust
        self.left = []
        self.known = collections.Counter()
        self.calls = collections.Counter()
        self.reached = collections.defaultdict(int)
        self.shards = set()

    def alike_calls(self):
        return sum(self.calls.values()) - self.port_alone()

    def port_alone(self):
        return sum(self.known[name] for name in NOT_MADE)

    def reach(self, name, value):
        self.reached[name] = max(self.reached[name], value)

    def met(self, name, times=1):
        """a known difference"""
        if name not in KNOWN:
            raise Difference(f'{name} is not on the list')
        self.known[name] += times

    def ask(self, command):
        return self.rust.ask(command)

    def one(self, command):
        return self.ask(command)[0]

    def rust_files(self):
        self.last_files = [File(*map(int, line.split()[1:])) for line in self.ask('records')[:-1]]
        return self.last_files

    def rust_contents(self):
        """file -> set of entries, in the order of positions"""
        data = {}
        for line in self.ask('files')[:-1]:
            _, name, body = line.split()
            lsn, trailer_offset = (int(part, 16) for part in name.split('-')[:2])
            data[lsn] = contents(trailer_offset, bytes.fromhex(body))
        return data

    def run(self, steps, port_views, ids, all_ids):
        """leaves in self.left the files (name, bytes) that the original had before it took over the port's heap at the end"""
        self.ids, self.all_ids = ids, all_ids
        self.port_next = self.rust_next = 0
        self.last_files = []  # as the original last said them
        self.one('wipe')
        for k, (step, view) in enumerate(zip(steps, port_views)):
            if k == len(steps) - 1:
                self.left = [(line.split()[1], bytes.fromhex(line.split()[2])) for line in self.ask('files')[:-1]]
            try:
                self.take(step, view)
            except Difference as d:
                raise Difference(f'step {k}: {step.line[:200]}\n  {d}')

    def take(self, step, view):
        """one step, on the original's side"""
        word, *words = step.line.split()
        if word in TABLE_CALLS:
            self.table_call(step, view)
        elif view is not None:
            must(view.heap_sum == step.heap_sum, "the heap's bytes are not the model's", view.heap_sum, step.heap_sum)
            self.calls[word if step.asked[0] != 'plan' else 'maintain call by call'] += 1
            getattr(self, word)(step, view, *words)
            self.measure(step, view)

    def measure(self, step, view):
        """how far the step went"""
        full = sum(LABEL + f.file_size == step.given.slot_bytes for f in view.files.values())
        for name, value in (('S', step.given.slot_bytes), ('N', step.heap_len // step.given.slot_bytes), ('table', step.table_len),
                            ('files', len(view.files)), ('ids', len(view.entries)), ('heap', step.heap_len),
                            ('slots full to the last byte', full),
                            ('file_size', max((f.file_size for f in view.files.values()), default=0)),
                            ('generation', max((f.generation for f in view.files.values()), default=0)),
                            ('body read', max(len(r) // 2 - 1 for r in view.reads))):
            self.reach(name, value)
        if step.rewrite and view.answer.startswith('ok') and step.rewrite.groups:
            rewrite, given = step.rewrite, step.given
            self.shards |= rewrite.shards
            self.reach('shards in one maintenance', len(rewrite.shards))
            self.reach('groups in one maintenance', len(rewrite.groups))
            self.reach('min_compaction_files met', given.min_files)
            if rewrite.shards:
                self.reach('files in a rewritten group', max(rewrite.groups))
                self.reach('ids in a maintenance', len(view.entries))
            if rewrite.small:
                self.reach('threshold met', given.threshold)
            if rewrite.longest == given.max_object - 1:
                self.reach('max_object_size - 1 rewritten', rewrite.longest)

    # one method for each call

    def reopen(self, step, view):
        for name, value in zip(('file_compaction_percent', 'min_compaction_files', 'target_file_size',
                                'small_file_cleanup_threshold', 'max_object_size'), step.given[1:]):
            self.one(f'set {name} {value}')
        if step.imported:
            self.one('wipe')
            for (lsn, trailer_offset, _, present, generation), data in step.label_files():
                self.one(f'raw {lsn:016x}-{trailer_offset:016x}-{present:016x}-{generation:x} {data.hex()}')
        opened = self.one('open' if step.imported else 'reopen')
        must(view.answer == 'ok' and opened.startswith('ok '), 'reopen', view.answer, opened)
        rust_next, rust = int(opened.split()[1]), self.rust_files()
        formula = max(masked(f.lsn) for f in rust) + max(f.file_size for f in rust) + 1 if rust else 1
        must(rust_next == formula, "next position after the original's reopening", formula, rust_next)
        if step.imported:
            must(view.next == rust_next, 'next position', view.next, rust_next)
            must(sorted(view.files.values()) == rust, 'records', sorted(view.files.values()), rust)
            self.tables(view)
        elif {f.lsn for f in rust} == {f.lsn for f in view.files.values()}:
            must(view.next == rust_next, 'next position', view.next, rust_next)
        else:
            self.met('order')
        self.port_next, self.rust_next = view.next, rust_next
        self.alike(step, view, entries=True)

    def write(self, step, view, batch):
        if view.answer in ('refused 4', 'refused 5', 'refused 6', 'refused 7'):
            self.met('limits')
        elif view.answer == 'refused 2':
            self.met('batch bytes')
        else:
            operations = batch_operations(bytes.fromhex(batch.replace('-', '')))
            last, longest = dict(operations), step.given.max_object
            words = [f'{i}' if b is None else f'{i}={b.hex() or "-"}' for i, b in operations]
            too_long = view.answer == 'refused 3'
            if too_long and not any(b is not None and len(b) > longest for b in last.values()):
                exactly = any(b is not None and len(b) == longest for b in last.values())
                self.met('put of exactly max_object_size' if exactly else 'oversize put overridden')
            else:
                got = self.one(' '.join(['write'] + words))
                if step.differs:
                    self.met(step.differs)
                    must(view.answer == 'ok' and got.startswith(WRITE_DIFFERS[step.differs]), 'write', view.answer, got)
                    read = dict(zip(self.ids, view.reads))
                    for ident, body in last.items():
                        wanted = 'deleted' if body is None else f'ok {body.hex() or "-"}'
                        must(read[ident] == wanted, f'read {ident} after the write of {wanted}', read[ident], 'known to differ')
                    return
                if too_long:
                    must(got == 'err Unsupported', 'write', view.answer, got)
                else:
                    must(view.answer == 'ok' and got.startswith('ok '), 'write', view.answer, got)
                    self.grown(view, int(got.split()[1]))
                    if any(b is not None and len(b) == longest - 1 for b in last.values()):
                        self.reach('max_object_size - 1 written', longest - 1)
        self.alike(step, view)

    def maintain(self, step, view):
        number = view.answer.split()[1] if view.answer.startswith('refused') else None
        if number in ('4', '5', '7'):
            self.met('limits')
            self.reads(view)
            return
        got = self.one('maintain')
        if number is not None:
            self.met('16 in maintenance' if number == '16' else 'damaged file in maintenance')
            must(number == '16' or got in GROUP_FAILURES, 'maintain', view.answer, got)
            self.reads(view)
            return
        if step.rewrite.sunk:
            self.met('live count at 0')
            must(got in WRITE_DIFFERS['live count at 0'], 'maintain', view.answer, got)
            return
        must(got.startswith('ok ') and got.split()[1] == view.answer.split()[1], 'count moved', view.answer, got)
        if step.rewrite.cut:
            self.met('cut')
            self.reads(view)
        else:
            before = {f.lsn for f in self.last_files}
            self.grown(view, int(got.split()[2]))
            self.alike(step, view, entries=True)
            made = [f.file_size for f in self.last_files if f.lsn not in before]
            must(view.planned in (None, (len(made), sum(made))), 'files and bytes that the plan said', view.planned, made)

    def prune(self, step, view):
        got = self.one('prune')
        must(view.answer == 'ok' == got, 'prune', view.answer, got)
        self.alike(step, view, entries=True)

    def sync(self, step, view):
        got = self.one('sync')
        must(view.answer == got, 'whether a mark changed', view.answer, got)
        self.alike(step, view)

    def claim(self, step, view, slot):
        self.claimed(step, view, 'claim', int(slot))

    def release(self, step, view, slot):
        self.claimed(step, view, 'release', int(slot))

    def claimed(self, step, view, word, slot):
        if view.answer != 'ok':
            must(view.answer == 'refused 21', word, view.answer, 'accepted')
            self.met('claim refused')
        else:
            mine = view.files[slot]
            twins = [f for k, f in view.files.items() if self.same(step, k, f, slot, mine)]
            rank = sorted(masked(f.lsn) for f in twins).index(masked(mine.lsn))
            wanted = contents(mine.trailer_offset, step.bytes_of(slot, mine))
            theirs = [lsn for lsn, c in sorted(self.rust_contents().items(), key=lambda e: masked(e[0])) if c == wanted]
            got = self.one(f'{word} {theirs[rank]}' if rank < len(theirs) else 'claim 0')
            must(got == 'ok', word, view.answer, got)
        self.alike(step, view)

    def same(self, step, slot, file, other, mine):
        return contents(file.trailer_offset, step.bytes_of(slot, file)) == contents(mine.trailer_offset, step.bytes_of(other, mine))

    def table_call(self, step, answer):
        self.calls['table call'] += 1
        if answer in ('refused 6', 'refused 20'):
            self.met('limits')
            return
        got = self.one(step.line)
        must(in_the_originals_words(answer) == got or got in TABLE_FAILURES.get(answer, ()), step.line, answer, got)
        self.reached['table calls among writes'] += step.mixed

    # what must be alike

    def grown(self, view, rust_next):
        must(view.next - self.port_next == rust_next - self.rust_next, 'growth of the next position',
             view.next - self.port_next, rust_next - self.rust_next)
        self.port_next, self.rust_next = view.next, rust_next

    def tables(self, view):
        loads = ['ok %d' % view.entries[i] if i in view.entries else 'nothing' for i in self.all_ids]
        must(loads == self.one('loads ' + ' '.join(map(str, self.all_ids))).split(','), 'table', loads, 'another')

    def alike(self, step, view, entries=False):
        self.reads(view)
        if step.mixed and not step.rewrite:  # a rewrite gives other locations (row 3), and both go on from the port's heap
            self.tables(view)
        must(view.counts == self.one('counts'), 'counts', view.counts, 'another')
        rust = self.rust_files()
        must(view.unsynced == f'ok {sum(f.synced == 0 for f in rust)}', 'files not synced', view.unsynced, rust)
        mine, theirs = sorted(map(shape, view.files.values())), sorted(map(shape, rust))
        must(mine == theirs, 'files', mine, theirs)
        if entries:
            by_lsn = self.rust_contents()
            mine = collections.Counter((shape(f), contents(f.trailer_offset, step.bytes_of(k, f))) for k, f in view.files.items())
            theirs = collections.Counter((shape(f), by_lsn[f.lsn]) for f in rust)
            must(mine == theirs, 'files as sets of entries', mine - theirs, theirs - mine)
            self.met('delete position', sum(i[1] is None for _, c in mine.elements() for i in c))

    def reads(self, view):
        got = self.one('read ' + ' '.join(map(str, self.ids))).split(',')
        for ident, port, rust in zip(self.ids, view.reads, got):
            self.calls['read'] += 1
            must(in_the_originals_words(port) == rust or rust in READ_FAILURES.get(port, ()), f'read {ident}', port, rust)


def ids_of(steps):
    """every id that a scenario mentions, and one that it does not"""
    found = {77777}
    for step in steps:
        word, *words = step.line.split()
        if word == 'write':
            try:
                found |= {i for i, _ in batch_operations(bytes.fromhex(words[0].replace('-', '')))}
            except Refused:
                pass
        if step.imported:
            for numbers, data in step.label_files():
                found |= {i for i, _ in trailer_entries(data[numbers[1]:])}
    return sorted(found)


def sample(ids):
    """of many ids so many that each can be read after every call: the least, the greatest, the one that no scenario mentions, some others"""
    return ids if len(ids) <= 60 else sorted({ids[0], ids[-1], 77777} | set(random.Random(len(ids)).sample(ids, 5 if len(ids) > 1000 else 20)))


class Job:
    """a scenario, planned. wide: with more room than the console has"""

    def __init__(self, name, lines):
        self.name, self.lines = name, lines
        heaps = [int(line.split()[1]) for line in lines if line.startswith('heap ')]
        self.wide = max(heaps) > Console.MAX_HEAP or max(map(len, lines)) > Console.MAX_LINE
        self.steps = plan(lines, self.wide)
        self.all_ids = ids_of(self.steps)
        self.ids = sample(self.all_ids)
        self.script = script(self.steps, self.ids)


class Ports:
    """the console, and the C library behind host.c for what the console has no room for; or the model for both"""

    def __init__(self, console=None, host=None):
        self.model = console is None
        self.name = 'model' if self.model else 'console' if host is None else 'console and C library'
        self.console, self.host = (Model(), Model(wide=True)) if self.model else (Port(console), Port(host) if host else None)

    def run(self, jobs):
        """each job's answers: one process for all that the console takes"""
        narrow = [job for job in jobs if not job.wide]
        answers = iter(self.console.run([line for job in narrow for line in job.script]))
        for job in jobs:
            job.answers = self.host.run(job.script) if job.wide else [next(answers) for _ in job.script]
            if not self.model:
                for line, said, wanted in zip(job.script, job.answers, Model(job.wide).run(job.script)):
                    if said != wanted:
                        raise Difference(f'scenario {job.name}: {line[:200]}\n    port: {str(said)[:2000]}\n    model: {str(wanted)[:2000]}')


def compare_jobs(comparison, jobs):
    """compares each job; gives the original's files and the last reads of each"""
    left = {}
    for job in jobs:
        comparison.rust.begin(job.name)
        job_views = views(job.steps, job.answers, job.ids)
        try:
            comparison.run(job.steps, job_views, job.ids, job.all_ids)
        except Difference as d:
            raise Difference(f'scenario {job.name}, {d}\n\n' + '\n'.join(line[:1000] for line in job.lines))
        left[job.name] = comparison.left, [v for v in job_views if isinstance(v, PortView)][-1].reads
    return left


class Generated:
    """scenarios from a seed, and from the files that the original left of one"""

    def __init__(self, seed, small=False):
        self.seed, self.small, self.scenarios = seed, small, {}

    def first(self, number):
        return self.kept(f'{number:03}', number, scenario(self.seed, number, self.small))

    def limit(self, kind, number):
        return self.kept(f'{kind} {number}', f'{kind} {number}', limit(self.seed, kind, number))

    def carried(self, job, files, settings, table):
        """None where there is nothing to carry, more than 256 slots take, or more ids than the model moves in seconds"""
        lines = from_files(self.seed, job.number, files, settings, table) if len(job.all_ids) < 20000 else None
        return lines and self.kept(f'{job.name}r', job.number, lines)

    def kept(self, name, number, lines):
        self.scenarios[name] = lines
        job = Job(name, lines)
        job.number = number
        return job


class Kept:
    """the stored scenarios"""

    def __init__(self, stored):
        self.scenarios = stored.scenarios

    def first(self, number):
        return Job(f'{number:03}', self.scenarios[f'{number:03}'])

    def carried(self, job, files, settings, table):
        name = f'{job.name}r'
        return Job(name, self.scenarios[name]) if name in self.scenarios else None


def compare(ports, comparison, source, jobs):
    """one round: scenarios, then the original's files of each carried to the port. Gives how many of both"""
    ports.run(jobs)
    left = compare_jobs(comparison, jobs)
    carried = []
    for job in jobs:
        files, reads = left[job.name]
        settings = [line for line in job.lines if line.startswith('settings')][-1]
        again = source.carried(job, files, settings, min(65536, 4 + len(job.all_ids)))
        if again:
            again.want = dict(zip(job.ids, reads))
            carried.append(again)
    ports.run(carried)
    for job in carried:
        first = next(v for v in views(job.steps, job.answers, job.ids) if isinstance(v, PortView))
        for ident, got in zip(job.ids, first.reads):
            if got != job.want.get(ident, got):
                raise Difference(f"scenario {job.name}: read {ident} of the original's own files\n    before: {job.want[ident]}\n    port: {got}")
    compare_jobs(comparison, carried)
    return len(jobs), len(carried)


def last_answer(rust, commands):
    """the original's answer to the last of the commands; `ended` where its process did at that one"""
    for command in commands[:-1]:
        rust.ask(command)
    try:
        return rust.ask(commands[-1])[0]
    except Ended:
        rust.again(commands[-1])
        return 'ended'


def compare_directed(port, rust):
    """the smallest inputs of known.py: each side says what the list has"""
    cases = directed()
    for k, (row, name, lines, port_says, commands, rust_says) in enumerate(cases):
        rust.begin(f'smallest input {k}')
        said, answer = port.run(lines)[-1][0], last_answer(rust, commands)
        failed = FAILS in rust_says and answer.split()[0] in ('err', 'panic', 'ended')
        if said != port_says or answer not in rust_says and not failed:
            raise Difference(f'smallest input {name}, row {row}\n    port: {said}, wanted {port_says}\n    Rust: {answer}, '
                             f'wanted {" or ".join(rust_says)}\n\n' + '\n'.join(lines + [''] + commands))
    return len(cases)


# ---- which scenarios, and how far they must go ---------------------------------------------------

ROUND = 25
# a run of so many calls must get so far with its first seed
MUST_REACH = {
    'S': 1048576, 'N': 256, 'heap': 24 * 1048576, 'table': 65536, 'ids': 65536, 'ids in a maintenance': 40000, 'files': 256, 'file_size': 1048512, 'slots full to the last byte': 256, 'generation': 255,
    'body read': 1048464, 'max_object_size - 1 written': 1048464, 'max_object_size - 1 rewritten': 1048464, 'shards in one maintenance': 21,
    'groups in one maintenance': 3, 'files in a rewritten group': 255, 'min_compaction_files met': 256, 'threshold met': 256,
    'table calls among writes': 100,
}


def rounds(source, start, count):
    """so many scenarios of the usual kind"""
    for at in range(start, start + count, ROUND):
        yield [source.first(k) for k in range(at, min(at + ROUND, start + count))]


def rounds_to_the_limits(source, turn):
    """without end: scenarios of the usual kind, and among them those at document 01's limits, the large ones by themselves: all of them with the
    first seed, with another three at a time"""
    for k in itertools.count():
        large = SELDOM + (RARELY if k % 60 == 0 else [])
        for kind in (large if turn == 0 else random.Random(f'{source.seed} {k}').sample(SELDOM, 3)) if k % 20 == 0 else []:
            yield [source.limit(kind.__name__, k)]
        often = [source.limit(kind.__name__, len(OFTEN) * k + j) for j, kind in enumerate(OFTEN)]
        yield [source.first(n) for n in range(ROUND * k, ROUND * (k + 1))] + often


def say_how_far(comparison, seed, asked):
    """the tally, and a failure where a limit was not reached"""
    far = comparison.reached
    print(f'  seed {seed} reached: ' + ', '.join(f'{name} {far[name]}' for name in MUST_REACH) + f', shards rewritten {sorted(comparison.shards)}')
    short = [f'{name} {far[name]} of {least}' for name, least in MUST_REACH.items() if far[name] < least]
    if asked and short:
        raise Difference('limits not reached: ' + ', '.join(short))


def main():
    parser = argparse.ArgumentParser()
    parser.add_argument('--model', action='store_true', help="the model in the port's place")
    parser.add_argument('--console', default='target/tests/console')
    parser.add_argument('--host', help='host.c, built: for scenarios that the console has no room for')
    parser.add_argument('--rust', default='oracle/target/release/oracle')
    parser.add_argument('--stored', help='replay the answers of this file instead of running the original')
    parser.add_argument('--store', help="write the original's answers into this file")
    parser.add_argument('--seed', action='append', help='more than one share the calls')
    parser.add_argument('--calls', type=int, help='to the limits, and until so many calls were compared')
    parser.add_argument('--limit', action='append', default=[], help='one scenario of this kind at the limits')
    parser.add_argument('--from', dest='start', type=int, default=0)
    parser.add_argument('--count', type=int, default=100, help='without --calls: so many scenarios of the usual kind')
    parser.add_argument('--small', action='store_true')
    parser.add_argument('--number', help='write the number of calls into this file')
    options = parser.parse_args()
    ports = Ports() if options.model else Ports(options.console, options.host)
    rust = Stored(options.stored) if options.stored else Rust(options.rust, keep=options.store is not None)
    seeds = ['of the stored answers'] if options.stored else options.seed or ['1']
    if options.stored:
        options.count = sum(name.isdigit() for name in rust.scenarios)
    began, comparison, done, carried, seed = time.time(), Comparison(rust), 0, 0, ''
    try:
        cases = compare_directed(ports.console, rust)
        for turn, seed in enumerate(seeds):
            source = Kept(rust) if options.stored else Generated(seed, options.small)
            if options.calls:
                jobs = rounds_to_the_limits(source, turn)
            else:
                jobs = itertools.chain([[source.limit(kind, 0)] for kind in options.limit], rounds(source, options.start, options.count))
            share = options.calls and options.calls * (turn + 1) / len(seeds)
            while not share or comparison.alike_calls() < share:
                round_of = next(jobs, None)
                if round_of is None:
                    break
                n, c = compare(ports, comparison, source, round_of)
                done, carried = done + n, carried + c
            if options.calls:
                say_how_far(comparison, seed, turn == 0)
    except Difference as d:
        raise SystemExit(f'DIFFERENCE (seed {seed}) {d}')
    finally:
        rust.close()
    if options.store:
        store_answers(options.store, source.scenarios, rust.transcripts)
    against = 'stored answers of the original' if options.stored else 'original'
    calls = comparison.alike_calls()
    if calls < (options.calls or 1):
        raise SystemExit(f'only {calls} calls were compared')
    spent = os.times()
    print(f"{ports.name} and {against}: {cases} smallest inputs, {done} scenarios and {carried} on the original's files, {done + carried} heaps of the port "
          f'opened by the original, {calls} calls alike and {comparison.port_alone()} made by the port alone, seed {" and ".join(seeds)}, '
          f'{time.time() - began:.0f} s, {sum(spent[:4]):.0f} s of processor time')
    print('  calls: ' + ', '.join(f'{n} {w}' for w, n in sorted(comparison.calls.items())))
    print('  known: ' + ', '.join(f'{w} {n}' for w, n in sorted(comparison.known.items())))
    if options.number:
        with open(options.number, 'w') as out:
            out.write(f'{calls}\n')


if __name__ == '__main__':
    main()
