#!/usr/bin/env python3
"""Request P3: what a read through a batch shows is what a read gives once the batch is written.

    unsaved.py [--model | --console PATH] [--seed S] [--count N]

Stores left by their own calls (scenarios.py); then batches, each read through for every id, written, and every id read. Where the write is
accepted, kind and bytes must be those shown. Every line is held to the model too."""
import argparse
import time
from collections import Counter

from port import Difference, Model, Port
from scenarios import Maker

MET = ('batch', 'batch -', 'heap', 'heap -', 'deleted', 'never')


def script(seed, number):
    """the lines, and for each batch: the place of its first line, the ids asked for"""
    maker = Maker(f'{seed} unsaved', number, small=True)
    slot_bytes, lines = maker.start()
    settings, slots = lines[0], int(lines[2].split()[1]) // slot_bytes
    lines += ['reopen'] + maker.calls(slot_bytes, slots, settings, maker.r.randrange(12))
    batches = []
    for _ in range(4):
        settings = [line for line in lines if line.startswith('settings')][-1]
        batch = maker.batch(int(settings.split()[6]))
        ids = maker.ids + [max(maker.ids) - 1, 77]
        batches.append((len(lines), ids))
        lines += [f'through {i} {batch}' for i in ids] + [f'write {batch}'] + [f'read {i}' for i in ids]
    return lines, batches


def as_read(shown):
    """what a read of the same bytes says"""
    return 'ok' + shown[len(shown.split()[0]):] if shown.startswith(('batch ', 'heap ')) else shown


def check(lines, batches, answers, met):
    for at, ids in batches:
        shown, wrote, read = (answers[at:at + len(ids)], answers[at + len(ids)], answers[at + len(ids) + 1:at + 2 * len(ids) + 1])
        if wrote != ['ok']:
            met['a write refused'] += 1
            continue
        met['a write accepted'] += 1
        for ident, one, other in zip(ids, shown, read):
            if as_read(one[0]) != other[0]:
                raise Difference(f'{ident} read through as {one}, after the write as {other}\n' + '\n'.join(lines[:at + 2 * len(ids) + 1]))
            word = one[0].split()[0]
            met[word + ' -' if one[0].endswith(' -') else word] += 1


def main():
    parser = argparse.ArgumentParser()
    parser.add_argument('--model', action='store_true', help="the model in the port's place")
    parser.add_argument('--console', default='target/bin/console')
    parser.add_argument('--seed', default='1')
    parser.add_argument('--count', type=int, default=200)
    options = parser.parse_args()
    port = Model() if options.model else Port(options.console)
    began, met, reads = time.time(), Counter(), 0
    try:
        for number in range(options.count):
            lines, batches = script(options.seed, number)
            answers = port.run(lines)
            for line, said, wanted in zip(lines, answers, answers if options.model else Model().run(lines)):
                if said != wanted:
                    raise Difference(f'the model answers {wanted}, not {said}\n    at: {line}\n' + '\n'.join(lines))
            check(lines, batches, answers, met)
            reads += sum(len(ids) for _, ids in batches)
    except Difference as d:
        raise SystemExit(f'DIFFERENCE (seed {options.seed}) {d}')
    missed = [word for word in MET if not met[word]]
    if missed:
        raise SystemExit(f'DIFFERENCE (seed {options.seed}) never met: {", ".join(missed)}')
    print(f'{port.name} through batches: {options.count} stores, {reads} reads, seed {options.seed}, {time.time() - began:.0f} s')
    print('  met: ' + '; '.join(f'{word} {met[word]}' for word in (*MET, 'a write accepted', 'a write refused')))


if __name__ == '__main__':
    main()
