#!/usr/bin/env python3
"""Scenarios at document 01's limits, as console scripts. Some take a heap or a line that the console has no room for: host.c runs them.

    limits.py SEED KIND NUMBER      prints one"""
import random
import sys

from foreseen import replacing
from model import BATCH_BIT, HEADER, LABEL, Console, file_bytes, label_bytes, object_bytes
from known import trailer
from scenarios import operation, pokes

MIB = 1 << 20
ALONE = LABEL + HEADER + 28  # what a slot has besides the one body in it
LONGEST_LINE_BODY = (Console.MAX_LINE - len('write ')) // 2 - 5  # id, tag, three groups of the length


def settings(slot_bytes, percent=100, least=1, target=MIB, threshold=0, longest=MIB):
    return f'settings {slot_bytes} {percent} {least} {target} {threshold} {longest}'


def store(settings_line, slots, table):
    return [settings_line, 'claims 0 0 0 0', f'heap {slots * int(settings_line.split()[1])}', f'table {2 * table}']


def put(*operations):
    return 'write ' + b''.join(operation(i, b) for i, b in operations).hex()


def poked(slot_bytes, files, first=1):
    """files by hand, one behind the other: (slot, entries, generation, batch bit)"""
    lines, at = [], first
    for slot, entries, generation, bit in files:
        data, trailer_offset, _ = file_bytes(entries)
        lines += pokes(slot * slot_bytes, label_bytes((at | bit, trailer_offset, len(data), len(entries), generation)) + data)
        at += trailer_offset + 1
    return lines


def one_slot(r):
    """S of 1 MiB: the longest body that a slot takes, then the longest that a line of the console takes, of max_object_size - 1"""
    ident = r.choice([1, 2 ** 64 - 1])
    whole = poked(MIB, [(0, [(ident, r.randbytes(MIB - ALONE))], r.choice([0, 3, 255]), BATCH_BIT)])
    lines = store(settings(MIB), 1, 65536) + whole + ['reopen', 'claim 0', put((ident, b'x')), 'release 0', 'maintain', 'prune', 'reopen']
    lines += store(settings(MIB, longest=LONGEST_LINE_BODY), 1, 65536) + ['reopen']
    return lines + [put((5, r.randbytes(LONGEST_LINE_BODY - k))) for k in (0, 1)] + ['reopen']


def two_slots(r):
    """a body of max_object_size - 1 that fills half the console's heap: rewritten, and no longer once the setting is one lower"""
    length = MIB // 2 - ALONE
    lines = store(settings(MIB // 2, longest=length + 1), 2, 4) + poked(MIB // 2, [(r.randrange(2), [(7, r.randbytes(length))], 0, BATCH_BIT)])
    return lines + ['reopen', 'maintain', settings(MIB // 2, longest=length), 'reopen', 'maintain', 'reopen']


def all_shards(r):
    """one maintenance that rewrites every shard from 0 to 20, a body to the slot's end, of max_object_size - 1"""
    length = MIB - ALONE
    bodies = [(k + 1, r.randbytes(r.choice([1 << k, (1 << k + 1) - 1]) >> 1)) for k in range(19)] + [(20, r.randbytes(1 << 18)), (30, None)]
    lines = store(settings(MIB, longest=length + 1), 24, 100) + ['reopen', put(*r.sample(bodies, len(bodies))), put((21, r.randbytes(length)))]
    return lines + [put((99, r.randbytes(length + 1))), 'maintain']


def full_heap(r):
    """256 slots of 4,096 bytes, every byte of them in use, of any generation; some files are dead"""
    body = lambda: r.randbytes(4096 - ALONE)
    made, dead = r.randint(248, 253), r.sample(range(100), r.randint(1, 4))
    files = [(slot, [(1 + r.randrange(60), body())], r.choice([0, 1, 2, 3, 200, 255]), r.choice([0, BATCH_BIT])) for slot in r.sample(range(256), made)]
    lines = store(settings(4096, r.choice([0, 75, 100]), r.choice([1, 2, 3])), 256, 64) + poked(4096, files, r.choice([1, 2 ** 40]))
    lines += ['reopen'] + [put((1 + r.randrange(60), body())) for _ in range(256 - made)]
    lines += ['sync', 'reopen', put((61, b'no room')), 'claim 255', 'maintain', 'prune', 'release 255']
    lines += [put((1 + r.randrange(60), body())) for _ in dead]
    return lines + ['maintain', 'reopen', 'prune']


def small_files(r, slot_bytes, count, deletes):
    """a group of so many small files of 256 slots, min_compaction_files and threshold just met; with one file fewer neither is"""
    largest = HEADER + 1 + 28
    chosen = settings(slot_bytes, 0, count, largest * count + 1, count, 64)
    made = [(slot, [(slot + 1, None if slot < deletes else b'x')], 0, BATCH_BIT) for slot in range(count)]
    lines = store(chosen, 256, 300) + poked(slot_bytes, made[1:]) + ['reopen', 'maintain', put(made[0][1][0]), 'maintain', 'reopen']
    return lines + [put((k, b'yy')) for k in r.sample(range(1, count), 3)] + ['maintain']


def least_254(r):
    """254 files become two: more of them would not fit into what is left of the console's heap"""
    return small_files(r, 4096, 254, r.randint(190, 220))


def least_255(r):
    """255 files become one"""
    return small_files(r, 16384, 255, 0)


def least_256(r):
    """256 files, every slot: a group of them can be rewritten only where nothing is kept, here because each entry stands one byte past its object"""
    size = HEADER + 1
    lines = store(settings(4096, 0, 256, (size + 28) * 256 + 1, 256, 64), 256, 256)
    for slot, ident in enumerate(r.sample(range(1, 257), 256)):
        data = object_bytes(ident, b'x') + trailer((ident, 2))
        lines += pokes(slot * 4096, label_bytes((1 + slot * (size + 1) | BATCH_BIT, size, len(data), 1, 0)) + data)
    return lines + ['reopen', 'maintain', put((1, b'x')), 'claim 255', 'maintain', 'reopen']


def many_files(r):
    """a store that its own writes fill up to 256 files, the threshold and min_compaction_files in the hundreds"""
    least, slot_bytes = r.choice([60, 100, 200]), r.choice([256, 512])
    lines = store(settings(slot_bytes, 0, least, 60 * least, r.choice([230, 256]), 100), 256, 16) + ['reopen']
    for k in range(300):
        lines.append(put(*((r.randint(1, 12), r.choice([None, b'', r.randbytes(r.randint(1, 12))])) for _ in range(r.choice([1, 1, 2])))))
        if r.random() < 0.02:
            lines.append(r.choice(['maintain', 'prune', 'reopen']))
    chosen = settings(slot_bytes, 100, r.choice([1, 2]), MIB, 256, 100)
    return lines + ['sync', 'maintain', chosen, 'reopen', 'maintain', 'prune'] + [put((k, b'again')) for k in range(1, 4)] + ['maintain']


def three_groups(r):
    """files of every new generation in one maintenance"""
    slots, slot_bytes, least = r.choice([40, 100]), 1024, r.choice([1, 2, 3])
    kinds = [[0], [1], [2, 3, 4, 16, 254, 255]]
    generations = [r.choice(kind) for kind in kinds for _ in range(r.randint(least, least + 2))]
    ids, files = list(range(1, 1 + 3 * len(generations))), []
    for slot, generation in zip(r.sample(range(slots), len(generations)), r.sample(generations, len(generations))):
        entries = [(ids.pop(r.randrange(len(ids))), None if r.random() < 0.2 else r.randbytes(r.choice([0, 1, 9, 9, 60]))) for _ in range(r.randint(1, 3))]
        files.append((slot, sorted(entries), generation, r.choice([0, BATCH_BIT])))
    lines = store(settings(slot_bytes, r.choice([0, 75, 100]), least), slots, 64) + poked(slot_bytes, files) + ['reopen']
    for _ in range(r.randint(1, 3)):
        lines += [put((r.randint(1, 40), r.randbytes(r.randint(0, 60)))) for _ in range(r.randint(0, 4))] + ['maintain']
    return lines + ['reopen', 'maintain']


def many_ids(r):
    """over 40,000 ids in 200 files and more; of each new generation one file becomes sparse and is rewritten"""
    each, left, files = 206, r.sample(range(1, 1 << 21), 256 * 206), []
    for slot in r.sample(range(256), 200):
        mine = sorted(left.pop() for _ in range(each))
        putting = set(r.sample(mine, r.randint(0, 30)))
        files.append((slot, [(i, b'x' if i in putting else None) for i in mine], r.choice([0, 1, 2, 255]), r.choice([0, BATCH_BIT])))
    lines = store(settings(4096, 75, threshold=256), 256, 65536) + poked(4096, files) + ['reopen']
    for kind in ([0], [1], [2, 255]):
        entries = r.choice([entries for _, entries, generation, _ in files if generation in kind])
        batch = [(i, r.randbytes(1)) for i, _ in r.sample(entries, 60)] + [(left.pop(), None) for _ in range(40)]
        lines.append(put(*r.sample(batch, len(batch))))
    return lines + ['maintain']


def full_table(r):
    """a table of 65,536 entries: all that a heap of the console brings, and the rest by table calls"""
    most = (MIB - LABEL - 12) // 16
    ids = sorted(r.sample(range(1, 1 << 40), most))
    lines = store(settings(MIB), 1, 65536) + poked(MIB, [(0, [(i, None) for i in ids], r.choice([0, 255]), BATCH_BIT)]) + ['reopen']
    for k in range(65536 - most):
        lines.append(f'{r.choice(["store", "max"])} {r.randrange(1 << 40, 1 << 41) * 8 + k} {r.randrange(1, 1 << 63)}')
    for call in ('store {0} {1}', 'max {0} {1}', 'store {2} {1}', 'cas {2} {1} 9', 'max {2} 18446744073709551615', 'load {2}', 'load {0}'):
        lines.append(call.format(1 << 50, r.randrange(1, 1 << 63), r.choice(ids)))
    return lines + ['prune']


def table_calls_among_writes(r):
    """the four table calls between the others, with locations that are held, were held, will be and never are; one operation to a batch, so that
    both sides have the same locations"""
    slot_bytes = r.choice([256, 512])
    lines = store(settings(slot_bytes, r.choice([0, 75, 100]), r.choice([1, 2]), r.choice([60, MIB])), 30, 12) + ['reopen']
    console, seen = Console(), [1, 2, 11, 2 ** 63, 2 ** 64 - 1]
    for line in lines:
        console.line(line)

    def said(line):
        lines.append(line)
        console.line(line)
        seen.extend(console.store.table().values())

    for _ in range(r.randint(15, 40)):
        ident, raw = r.randint(1, 9), r.choice([seen[-1], r.choice(seen[-20:]), r.choice(seen), 2 * (console.store.next | BATCH_BIT)])
        what = r.random()
        if what < 0.4:
            body = None if r.random() < 0.25 else r.randbytes(r.randint(0, 20))
            differs = replacing(console.store, operation(ident, body))
            said(put((ident, body)))
            if differs:
                said('reopen')
        elif what < 0.8:
            said(r.choice(['load {0}', 'store {0} {1}', 'cas {0} {2} {1}', 'max {0} {1}']).format(ident, raw, console.store.table().get(ident, 1)))
        elif what < 0.87:
            said('prune')
        elif what < 0.94:
            said('maintain')
            said('reopen')
        else:
            said('reopen')
    return lines


OFTEN = [three_groups] + 3 * [table_calls_among_writes]
SELDOM = [one_slot, two_slots, all_shards, full_heap, least_254, least_255, least_256, many_files]
RARELY = [many_ids, full_table]
KINDS = {kind.__name__: kind for kind in OFTEN + SELDOM + RARELY}


def limit(seed, kind, number):
    return KINDS[kind](random.Random(f'{seed} {kind} {number}'))


if __name__ == '__main__':
    print('\n'.join(limit(sys.argv[1], sys.argv[2], sys.argv[3])))
