#!/usr/bin/env python3
"""Does the comparison notice a wrong store? Each slip is put into a copy of the model, which then takes the port's place.

    slips.py [--rust PATH | --stored FILE]      beside the original, or its stored answers

The copy plans and mirrors itself, so what compare.py notices it notices by the original alone. A slip that is not noticed fails."""
import argparse
import os
import shutil
import subprocess
import sys
import tempfile
import time

HERE = os.path.dirname(os.path.abspath(__file__))
SLIPS = {  # name: (text of the model, the wrong text)
    'rebuilt by raw location': ('here = (masked(numbers[0]) + relative // 2, relative + 2 * numbers[0], slot)',
                                'here = (relative + 2 * numbers[0], relative + 2 * numbers[0], slot)'),
    'files looked up by masked location': ('below = [(2 * r[0], -k) for k, r in self.files() if 2 * r[0] <= raw]',
                                           'below = [(2 * masked(r[0]), -k) for k, r in self.files() if 2 * masked(r[0]) <= raw & ~(1 << 63)]'),
    'deletes left out of live counts': ('Counter(b[2] for b in best.values())', 'Counter(b[2] for b in best.values() if b[1] % 2 == 0)'),
    'only the first group moved': ('                moved += self.rewrite(generation, planned.mark, planned.count)\n', '''                moved += self.rewrite(generation, planned.mark, planned.count)
                if moved:
                    break
'''),
    'an invented moved count': ('return sum(map(len, files))', 'return sum(map(len, files)) + 1'),
    'the first operation counts': ('sorted(dict(operations).items())', 'sorted(dict(reversed(operations)).items())'),
    'percentage not strict': ('live * 100 // max(present, 1) < s.percent', 'live * 100 // max(present, 1) <= s.percent'),
    'claimed files rewritten': ('live != 0 and not self.claimed(slot) and (sparse or small)', 'live != 0 and (sparse or small)'),
    'claimed files pruned': ('if record[5] == 0 and not self.claimed(slot)', 'if record[5] == 0'),
    'generation not held at 3': ('min(generation + 1, 3)', 'generation + 1'),
    'rewritten file with the batch bit': ('self.install(entries, generation, 0)', 'self.install(entries, generation, BATCH_BIT)'),
    'next grows by T': ('self.next += trailer_offset + 1', 'self.next += trailer_offset'),
    'live count kept on replacing': ('max(live - 1, 0)', 'live'),
    'one shard for all': ('return 0 if body is None else len(body).bit_length()', 'return 0'),
    'checksum over id, length, body': ("return zlib.crc32(len(body).to_bytes(8, 'little') + ident.to_bytes(8, 'little') + body)",
                                       "return zlib.crc32(ident.to_bytes(8, 'little') + len(body).to_bytes(8, 'little') + body)"),
    'a lower location stored by store-if-greater': ('if current is None or current < raw:', 'if current != raw:'),
    'a delete told as never written': ('DELETED if raw % 2 == 1', 'NEVER if raw % 2 == 1'),
    'never written told as deleted': ('NEVER if raw is None', 'DELETED if raw is None'),
    'a delete loaded as an object': ('return self.told(ident)\n', 'kind, raw = self.told(ident)\n        return OBJECT if kind == DELETED else kind, raw\n'),
    'the first operation of a batch read through': ("'batch', bodies[-1]\n", "'batch', bodies[0]\n"),
    'a put of no bytes read through': ('if not bodies:\n', 'if not any(bodies):\n'),
    "a batch's delete read through": ("return DELETED if bodies[-1] is None else 'batch', bodies[-1]\n",
                                      "return ('batch', bodies[-1]) if bodies[-1] is not None else self.read(ident)\n"),
    'a read through a batch refused with 3': ('        bodies = [body for i, body in batch_operations(batch) if i == ident]\n', '''        bodies = [body for i, body in batch_operations(batch) if i == ident]
        refuse_if(any(b is not None and len(b) >= self.given.max_object for b in bodies), 3)
'''),
    'a malformed batch read through': ('        bodies = [body for i, body in batch_operations(batch) if i == ident]\n', '''        try:
            bodies = [body for i, body in batch_operations(batch) if i == ident]
        except Refused:
            bodies = []
'''),
    'empty records counted as not synced': ('sum(record[6] == 0 for _, record in self.files())', 'sum(record[6] == 0 for record in self.records)'),
    'a mark kept where its slot is written again': ('''        self.heap[at:at + LABEL + len(data)] = label_bytes(numbers) + data
        self.records[slot] = numbers + (len(entries), 0)  # clear on writing
''', '''        kept = int(any(self.heap[at + 1:at + LABEL]))
        self.heap[at:at + LABEL + len(data)] = label_bytes(numbers) + data
        self.records[slot] = numbers + (len(entries), kept)
'''),
    'sync answers the count': ('changed = self.unsynced() > 0', 'changed = self.unsynced()'),
    'a reopening leaves the marks clear': ('numbers + (live[slot], 1)  # set on reopening', 'numbers + (live[slot], 0)'),
    'next after reopening by trailer_offset': ('max(n[2] for n in heads) + 1', 'max(n[1] for n in heads) + 1'),
}
# these need a store at a limit: name: (text, wrong text, kind of limits.py)
AT_A_LIMIT = {
    'a threshold that is just met is not': ('count >= s.threshold', 'count > s.threshold', 'least_254'),
    'a group of min_compaction_files is too small': ('len(slots) >= self.given.min_files', 'len(slots) > self.given.min_files', 'least_254'),
    'a file just small enough is not': ('file_size * s.min_files < s.target', 'file_size * s.min_files + 1 < s.target', 'least_254'),
    'shards 18 and 19 are one': ('else len(body).bit_length()', 'else {19: 18}.get(len(body).bit_length(), len(body).bit_length())', 'all_shards'),
    'the longest body refused in maintenance': ('length >= self.given.max_object, 3', 'length + 1 >= self.given.max_object, 3', 'two_slots'),
    'a third group left out': ('moved += self.rewrite(generation, planned.mark, planned.count)',
                               'moved += self.rewrite(generation, planned.mark, planned.count) if generation < 3 else 0', 'three_groups'),
    'a lower location not taken': ('{**table, **{i: r + 2 * lsn for i, r in places}}',
                                   '{**table, **{i: max(r + 2 * lsn, table.get(i, 0)) for i, r in places}}', 'table_calls_among_writes'),
}
# these are the checker's, which the original does not have: noticed beside the right model on damaged heaps
IN_THE_CHECKER = {
    '17 before 10 of one object': ("""            if object_sum(ident, data[at + HEADER:at + HEADER + length]) != le(data, at, 4):
                faults.append(Fault(slot, 10, at, 'an object'))
            if (ident, at) not in listed:
                faults.append(Fault(slot, 17, at, 'an object'))
""", """            if (ident, at) not in listed:
                faults.append(Fault(slot, 17, at, 'an object'))
            if object_sum(ident, data[at + HEADER:at + HEADER + length]) != le(data, at, 4):
                faults.append(Fault(slot, 10, at, 'an object'))
"""),
    'an object that passes T counts as walked': ("faults.append(Fault(slot, 16, at, 'an object'))\n",
                                                 "faults.append(Fault(slot, 16, at, 'an object'))\n                walked.add((le(data, at + 4), at))\n"),
    'the walk goes on behind a 16': ("Fault(slot, 16, at, 'an object'))\n                break\n",
                                     "Fault(slot, 16, at, 'an object'))\n                at += HEADER\n                continue\n"),
    'a delete stands for an object entry': ('listed = {(ident, relative // 2) for ident, relative in entries if relative % 2 == 0}',
                                            'listed = {(ident, relative // 2) for ident, relative in entries}'),
    'an entry satisfied by an object of another id': ('(ident, relative // 2) not in walked]', 'relative // 2 not in {at for _, at in walked}]'),
    '14 only by slots that 14 does not strike': ('            ranges.append((start, end))\n', '            else:\n                ranges.append((start, end))\n'),
    'ranges that share one position are apart': ('start <= e and s <= end', 'start < e and s < end'),
    'ranges by unmasked lsn': ('start, end = masked(numbers[0]), masked(numbers[0]) + numbers[1]', 'start, end = numbers[0], numbers[0] + numbers[1]'),
    'ids of unsound slots counted': ("faults.append(Fault(slot, first.number, None, 'a slot'))\n", """faults.append(Fault(slot, first.number, None, 'a slot'))
                if first.number == 15:
                    at = slot * self.given.slot_bytes
                    distinct.update(i for i, _ in self.labelled(slot, label_numbers(bytes(self.heap[at:at + LABEL])))[1])
"""),
    'a full table is too small': ('if len(distinct) > self.entries():', 'if len(distinct) >= self.entries():'),
    'the closing 6 with the last slot': ('Fault(self.slots(), 6, None', 'Fault(self.slots() - 1, 6, None'),
    'only what fits is counted': ("lines + [f'ok {len(faults)}']", "lines + [f'ok {len(lines)}']"),
}
# these are the salvage's: noticed beside the right model on heaps to rescue
IN_THE_SALVAGE = {
    'ends that forget T': ('rest.append((masked(lsn), slot, masked(lsn) + trailer_offset))', 'rest.append((masked(lsn), slot, masked(lsn)))'),
    'the end of the last taken, kept or not': ("""            else:
                report.append(Loss(slot, 14))
""", """            else:
                report.append(Loss(slot, 14))
                end_of_last_kept = end
"""),
    'one at the end of the last kept is kept': ('if start > end_of_last_kept:', 'if start >= end_of_last_kept:'),
    'equal ones by descending slot': ('in sorted(rest):', 'in sorted(rest, key=lambda taken: (taken[0], -taken[1])):'),
    'taken by slot': ('in sorted(rest):', 'in rest:'),
    'taken by lsn with the batch bit': ('rest.append((masked(lsn), slot, masked(lsn) + trailer_offset))', 'rest.append((lsn, slot, lsn + trailer_offset))'),
    'equal ones by their ends': ('in sorted(rest):', 'in sorted(rest, key=lambda taken: (taken[0], taken[2])):'),
    '14 ascending by slot': ('        for loss in report:\n', '        report.sort(key=lambda loss: (loss.number == 14, loss.slot))\n        for loss in report:\n'),
    'all ascending by slot': ('        for loss in report:\n', '        report.sort()\n        for loss in report:\n'),
    'the second kind first': ('                report.append(Loss(slot, 14))\n', '                report.insert(0, Loss(slot, 14))\n'),
    'a slot of the first kind still in the way': ("""                report.append(Loss(slot, first.number))
                continue
""", """                report.append(Loss(slot, first.number))
                if first.number != 15:
                    continue
                at = slot * self.given.slot_bytes
                lsn, trailer_offset, *_ = label_numbers(bytes(self.heap[at:at + LABEL]))
                rest.append((masked(lsn), slot, masked(lsn) + trailer_offset))
                continue
"""),
    'the whole label emptied': ('self.heap[loss.slot * self.given.slot_bytes] = 0\n        return report',
                                'at = loss.slot * self.given.slot_bytes\n            self.heap[at:at + LABEL] = bytes(LABEL)\n        return report'),
    'only what a list of eight takes is emptied': ('        for loss in report:\n', '        for loss in report[:8]:\n'),
    'claims released': ('        return report\n\n    # -- table calls', '        self.claims = 0\n        return report\n\n    # -- table calls'),
    'the last slot left out': ("""        report, rest = [], []
        for slot in range(self.slots()):""", """        report, rest = [], []
        for slot in range(min(self.slots(), 255)):"""),
}
# these are of the plan and the rewrite, which the original does not have: noticed beside the right model on stores with both
IN_TWO_CALLS = {
    'no mark': ('if masked(lsn) < mark and live != 0', 'if live != 0'),
    'a file at the mark taken': ('if masked(lsn) < mark and', 'if masked(lsn) <= mark and'),
    'the mark against the lsn with its batch bit': ('if masked(lsn) < mark and', 'if lsn < mark and'),
    'the threshold against the present count': ('small = count >= s.threshold', 'small = len(self.files()) >= s.threshold'),
    'a rewrite that prunes': ('return sum(map(len, files))', 'self.drop_dead()\n        return sum(map(len, files))'),
    'a rewrite of a group that is too small': ('return slots if len(slots) >= self.given.min_files else []', 'return slots'),
    "a plan's later groups in the first one's slots": ('self.check_room(files, len(made))', 'self.check_room(files)'),
    "a plan's later groups at the first one's base": ('self.check_next(files, self.next + spans(made))', 'self.check_next(files, self.next)'),
    'a plan that goes on behind a refusal': ('''                number, stopped = refusal.number, generation
                break
''', '''                number, stopped = refusal.number, generation
                continue
'''),
    'the groups from the refused one on not shown': ('return Plan(mark, count, groups,',
                                                    'return Plan(mark, count, {g: s for g, s in groups.items() if not number or g < stopped},'),
    'bytes of T in a plan': ('sum(len(file_bytes(f)[0]) for f in made), number', 'sum(file_bytes(f)[1] for f in made), number'),
    'dead files not in the count': ('mark, count, made = self.next, len(self.files()), []', 'mark, count, made = self.next, sum(r[5] > 0 for _, r in self.files()), []'),
    'a job that heeds a refusal foretold': ('        planned, moved = self.plan(), 0\n', '''        planned, moved = self.plan(), 0
        if planned.number:
            raise Refused(planned.number, planned.generation, 0)
'''),
    'a refused job that prunes': ('''                raise Refused(refusal.number, generation, moved)
        self.prune()
''', '''                self.prune()
                raise Refused(refusal.number, generation, moved)
        self.prune()
'''),
    'generation 0 rewritten': ('refuse_if(generation not in GENERATIONS, 22)', 'refuse_if(generation > 3, 22)'),
    'generation 4 rewritten': ('refuse_if(generation not in GENERATIONS, 22)', 'refuse_if(not 1 <= generation <= 4, 22)'),
    'generation 3 refused': ('refuse_if(generation not in GENERATIONS, 22)', 'refuse_if(generation not in (1, 2), 22)'),
    'a generation by its low 32 bits': ('refuse_if(generation not in GENERATIONS, 22)', 'generation %= 1 << 32\n        refuse_if(generation not in GENERATIONS, 22)'),
    '22 before 1': ('''        self.check_state()
        refuse_if(generation not in GENERATIONS, 22)
''', '''        refuse_if(generation not in GENERATIONS, 22)
        self.check_state()
'''),
}
# masked ranges are disjoint in the oracle's domain and every location is in a file, so both lookups find the same file there: this one is
# noticed beside the right model on arbitrary states; so are the kinds of a read and a load, of which the original has fewer, and a read through a batch, of which it has none
ON_ARBITRARY_STATES = {name: ['--count', '300'] for name in (
    'files looked up by masked location', 'a delete told as never written', 'never written told as deleted', 'a delete loaded as an object',
    'the first operation of a batch read through', 'a put of no bytes read through', "a batch's delete read through",
    'a read through a batch refused with 3', 'a malformed batch read through')}

# the stored scenarios do not show this one: without the original it is noticed beside the right model, by the job
NOT_BY_THE_STORED = {'only the first group moved'}


def noticed(folder, name, words):
    """a difference is found: anything else that ends the run is not taken for one. The original's process may have said something before it"""
    done = subprocess.run([sys.executable, os.path.join(folder, name)] + words, capture_output=True, text=True)
    if done.returncode != 0 and not any(line.startswith('DIFFERENCE') for line in done.stderr.split('\n')):
        raise SystemExit(f'{name} ended with {done.stderr[-500:]}')
    return done.returncode != 0


def main():
    parser = argparse.ArgumentParser()
    parser.add_argument('--rust', default='oracle/target/release/oracle')
    parser.add_argument('--stored')
    options = parser.parse_args()
    beside = ['--model'] + (['--stored', options.stored] if options.stored else ['--rust', options.rust])
    slips = [(*slip, ['--seed', '56', '--small', '--count', '300']) for slip in SLIPS.items()]
    if not options.stored:  # no scenario at the limits is stored
        slips += [(name, slip[:2], ['--seed', '56', '--limit', slip[2], '--count', '0']) for name, slip in AT_A_LIMIT.items()]
    slips += [(*slip, None) for slip in [*IN_THE_CHECKER.items(), *IN_THE_SALVAGE.items(), *IN_TWO_CALLS.items()]]
    began, missed = time.time(), []
    with open(os.path.join(HERE, 'model.py')) as file:
        model = file.read()
    for name, (right, slip), words in slips:
        if model.count(right) != 1:
            raise SystemExit(f'{name}: its text stands {model.count(right)} times in the model')
        with tempfile.TemporaryDirectory() as folder:
            copy = os.path.join(folder, 'oracle')
            shutil.copytree(HERE, copy)
            with open(os.path.join(copy, 'model.py'), 'w') as out:
                out.write(model.replace(right, slip))
            if name in IN_THE_CHECKER:
                found = noticed(HERE, 'damaged.py', ['--console', os.path.join(copy, 'model.py')])
            elif name in IN_THE_SALVAGE:
                found = noticed(HERE, 'salvaged.py', ['--console', os.path.join(copy, 'model.py')])
            elif name in IN_TWO_CALLS or options.stored and name in NOT_BY_THE_STORED:
                found = noticed(HERE, 'planned.py', ['--console', os.path.join(copy, 'model.py')])
            elif name in ON_ARBITRARY_STATES:
                found = noticed(HERE, 'hostile.py', ['--console', os.path.join(copy, 'model.py')] + ON_ARBITRARY_STATES[name])
            else:
                found = noticed(copy, 'compare.py', beside + words)
        missed += [] if found else [name]
    for name in missed:
        print(f'slip NOT noticed: {name}')
    print(f'slips: {len(slips) - len(missed)} of {len(slips)} noticed, {time.time() - began:.0f} s')
    sys.exit(bool(missed))


if __name__ == '__main__':
    main()
