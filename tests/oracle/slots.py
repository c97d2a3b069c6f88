#!/usr/bin/env python3
"""Slots with files that the original wrote, and damaged copies of each, and slots with entries around T, for the program slot_vectors.

slots.py FOLDER writes FOLDER/stdin (the slots, 192 bytes each) and appends to FOLDER/stdout what the model of document 01 says of each.
Labels are made here: the original has file names. Needs oracle/target/release/oracle (oracle/prepare.sh)."""
import os
import sys

from known import trailer
from model import Console, label_bytes, object_bytes
from port import Rust

SIZE = 192
ORACLE = os.path.join(os.path.dirname(__file__), '..', '..', 'oracle', 'target', 'release', 'oracle')


def original_files():
    """(label's numbers, bytes) of files that the original wrote: a batch with a delete, one object, a rewritten file"""
    rust = Rust(ORACLE)
    for command in ('wipe', 'set file_compaction_percent 100', 'set min_compaction_files 1', 'set small_file_cleanup_threshold 0',
                    'open', 'write 7=41 9', 'write 5=0102030405', 'write 6=- 7=42'):
        rust.ask(command)
    files = rust.ask('files')[:-1]
    rust.ask('maintain')
    files += rust.ask('files')[:-1]
    rust.close()
    for line in dict.fromkeys(files):
        _, name, body = line.split()
        lsn, trailer_offset, present, generation = (int(part, 16) for part in name.split('-'))
        data = bytes.fromhex(body)
        yield (lsn, trailer_offset, len(data), present, generation), data


def slots():
    """each file in its slot, then a copy with one bit changed at each byte of the label's numbers and of the trailer"""
    for numbers, data in original_files():
        slot = (label_bytes(numbers) + data).ljust(SIZE, b'\0')
        yield slot
        label = len(label_bytes(numbers).rstrip(b'\0')) + 1
        for at in [*range(label), *range(64 + numbers[1], 64 + numbers[2])]:
            yield slot[:at] + bytes([slot[at] ^ 1]) + slot[at + 1:]


# T, and entries' raw locations (twice the position, 1 more for a delete)
AROUND_T = [
    (40, 80), (40, 42), (40, 40), (40, 81), (40, 83),  # an object at T, T - 19 and T - 20, a delete at T and T + 1
    (40, 0, 40, 81), (40, 81, 80), (40, 81, 81),  # a whole file; an object at T behind a delete there; two deletes
    (20, 0), (20, 2), (19, 0), (19, 1), (19, 39), (0, 1), (0, 0), (0, 3),  # a body of no bytes; T below 20; T 0
    (40, 2 ** 64 - 42), (40, 2 ** 64 - 40), (40, 2 ** 64 - 2), (40, 2 ** 64 - 1),  # positions to 2^63 - 1: no sum wraps
]


def around_t():
    """T bytes of objects without a body, and these entries, of ids 1, 2 ..; then an object whose body is the trailer's first 4 bytes"""
    files = [((object_bytes(1, b'') + object_bytes(2, b''))[:t], trailer(*enumerate(raws, 1)), len(raws)) for t, *raws in AROUND_T]
    listed = trailer((7, 0))
    files.append((object_bytes(7, listed[:4])[:20], listed, 1))
    for objects, listed, present in files:
        yield (label_bytes((1, len(objects), len(objects + listed), present, 0)) + objects + listed).ljust(SIZE, b'\0')


def said(slot):
    """what slot_vectors must say of a slot, by the model"""
    if slot[0] == 0:
        return 'empty'
    console = Console()
    lines = [f'settings {SIZE} 75 2 2048 64 1024', f'heap {SIZE}', 'table 128', f'poke 0 {slot.hex()}', 'reopen', 'dump']
    answers = [console.line(line) for line in lines]
    if answers[4][0] != 'ok' and int(answers[4][0].split()[1]) <= 13:
        return 'damaged ' + answers[4][0].split()[1]
    record = [line for line in answers[5] if line.startswith('record 0 ')]
    return 'holds ' + ' '.join(record[0].split()[2:7])


def main():
    folder = sys.argv[1]
    made = [*slots(), *around_t()]
    with open(os.path.join(folder, 'stdin'), 'wb') as out:
        out.write(b''.join(made))
    with open(os.path.join(folder, 'stdout'), 'a') as out:
        out.write(''.join(said(slot) + '\n' for slot in made))
    print(len(made), 'slots')


main()
