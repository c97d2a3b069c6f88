#!/usr/bin/env python3
"""./bench check, ./bench map and ./bench rescue on heap images. images.py [--program PATH] [--seed S] [--count N]

Damaged and foreign heaps (tests/oracle/damaged.py), each written to a file and looked at: every line is held to the model's list, every row
of the map to the model's records, table and entries, and the file stays as it was. Damaged and spliced ones (tests/oracle/salvaged.py), each
rescued: every line is held to the model's report, reopening and reads, the new file to the model's heap, and the image stays as it was. Then
what is no image, and what cannot be written: each has its message on standard error and status 2, nothing on standard output where nothing was
found out, and no file is left. Colours stand on a terminal alone. Without --program it is compiled here, with no proof."""
import argparse
import hashlib
import os
import pty
import resource
import struct
import subprocess
import sys
import tempfile
from collections import Counter

ROOT = os.path.dirname(os.path.dirname(os.path.abspath(__file__)))
sys.path.insert(0, os.path.join(ROOT, 'tests', 'oracle'))
from damaged import Maker  # noqa: E402
from salvaged import Maker as Spliced  # noqa: E402
from known import trailer  # noqa: E402
from model import BATCH_BIT, HEADER, LABEL, Refused, Settings, Store, label_bytes, label_numbers, le, masked, object_bytes  # noqa: E402
from port import console_command  # noqa: E402

MEANING = {
    8: 'label', 9: 'trailer under 20 bytes', 10: 'checksum of the trailer', 11: 'more entries than the trailer has room for',
    12: 'an entry stands behind the last object', 13: 'the label counts other than the trailer', 14: 'overlaps the range of an earlier slot',
    15: 'a repeated id whose positions do not rise', 16: 'bytes cut short', 17: 'object and entry do not agree on the id',
}
WARNING = 'warning: with a slot given up any id may read as an older version than it had, and a delete may be undone'
WORDS = {  # what a rescue says of an id
    'nothing reads now', 'a newer version is kept', 'kept in another slot, at the same position', 'an older delete counts now', 'an older version reads now',
    'an older version is kept, and its read is refused with', 'which ids it had cannot be told', 'its trailer is damaged, and so may be these ids',
}
CELLS, NOBODY = 32, 65534


def fail(why, said):
    raise SystemExit(f'images: {why}\n{said.stdout if said else ""}{said.stderr if said else ""}')


def in_words(fault, table):
    """a fault without its slot"""
    if fault.number == 6:
        return f'more distinct ids than its {table} entries (6)'
    if fault.position is None:
        return f'{MEANING[fault.number]} ({fault.number})'
    word = 'checksum' if fault.number == 10 else MEANING[fault.number]
    return f'{word} ({fault.number}) at object position {fault.position}'


def closing(path, faults):
    return f'{path}: nothing wrong' if not faults else f'{path}: {len(faults)} fault{"" if len(faults) == 1 else "s"}'


def lent(heap, slot_bytes, table):
    """an image in the model's hands"""
    s = Store()
    s.given, s.heap, s.words = Settings((slot_bytes, *s.given[1:])), bytearray(heap), [0] * (2 * table)
    return s


def refusal_of(call, *words):
    """a call's refusal, or None"""
    try:
        call(*words)
        return None
    except Refused as refusal:
        return refusal.number


class Looked:
    """one image: what the model says of it"""

    def __init__(self, path, heap, slot_bytes, table):
        self.path, self.size, self.table, self.store = path, slot_bytes, table, lent(heap, slot_bytes, table)
        self.faults = self.store.check()
        self.refused = refusal_of(self.store.reopen)

    def list(self):
        lines = [('table: ' if f.number == 6 else f'slot {f.slot}: ') + in_words(f, self.table) for f in self.faults]
        return lines + [closing(self.path, self.faults)]

    def live_bytes(self):
        live, s = {}, self.store
        for raw in s.table().values():
            slot = s.found(raw)
            lsn, t, file_size, *_ = s.records[slot]
            at, entry = raw // 2 - lsn, 16 + (12 if slot not in live else 0)
            if raw % 2 == 0:
                entry += min(HEADER + le(s.file_part(slot, at, at + HEADER), 12), t - at)
            live[slot] = min(live.get(slot, 0) + entry, file_size)
        return live

    def rows_held(self, said):
        """the map, row by row"""
        lines, slots, live = said.stdout.split('\n')[:-1], len(self.store.heap) // self.size, {} if self.refused else self.live_bytes()
        if not lines[0].startswith('slot ') or len(lines) != slots + 3 + any(f.number == 6 for f in self.faults):
            fail('not a row for each slot', said)
        after = lines[0].index(' lsn ') + 5  # behind the column whose width is the longest lsn's
        for slot, line in enumerate(lines[1:slots + 1]):
            mine = [f for f in self.faults if f.slot == slot]
            wrong = '  ' + in_words(mine[0], self.table) + (f', {len(mine) - 1} more' if len(mine) > 1 else '') if mine else ''
            lsn, *rest = self.columns(slot, mine)
            wanted = f'{slot:4} {lsn:>{after - 6}} ' + '{:9} {:>3} {:>7} {:>5}  '.format(*rest)
            bar = line[len(wanted):len(wanted) + CELLS]
            if line != wanted + bar + wrong or len(bar) != CELLS:
                fail(f'row {slot} is\n{line} and not\n{wanted}{bar}{wrong}', said)
            self.bar_held(slot, mine, bar, live, said)
        rest = ['reopening: accepted, %d ids in a table of %d' % (len(self.store.table()), self.table) if self.refused is None
                else f'reopening: refused with {self.refused}, so what is live is not known']
        rest += [f'table: {in_words(f, self.table)}' for f in self.faults if f.number == 6]
        if lines[slots + 1:] != rest + [closing(self.path, self.faults)]:
            fail(f'the last lines are not {rest}', said)

    def label(self, slot):
        return label_numbers(bytes(self.store.heap[slot * self.size:slot * self.size + LABEL]))

    def columns(self, slot, mine):
        if self.store.heap[slot * self.size] == 0:
            return ['', 'empty', '', '', '']
        if mine and mine[0].number == 8:
            return ['?', '?', '?', '?', '?']
        lsn, _, _, present, generation = self.label(slot)
        live = '?' if self.refused else str(self.store.records[slot][5])
        return [str(masked(lsn)), 'batch' if lsn & BATCH_BIT else 'rewritten', str(generation), str(present), live]

    def bar_held(self, slot, mine, bar, live, said):
        whole, used = self.size - LABEL, self.store.heap[slot * self.size] != 0
        file_size = (whole if mine and mine[0].number == 8 else self.label(slot)[2]) if used else 0
        alive = live.get(slot, 0)
        parts = {'#': alive, '-': 0 if self.refused else file_size - alive, '?': file_size if self.refused else 0, '.': whole - file_size}
        if bar != ''.join(c * bar.count(c) for c in parts):
            fail(f'slot {slot}: bar {bar} is not in order', said)
        for c, part in parts.items():
            if (part > 0) != (c in bar) or abs(bar.count(c) - part * CELLS / whole) > 3:
                fail(f'slot {slot}: bar {bar} for {parts}', said)


class Rescued:
    """one image: what the model makes of it"""

    def __init__(self, path, to, heap, slot_bytes, table):
        self.path, self.to, self.heap, self.size, self.table, self.store = path, to, heap, slot_bytes, table, lent(heap, slot_bytes, table)
        self.report = self.store.salvage()
        self.saved = bytes(self.store.heap)
        self.refused = refusal_of(self.store.reopen)
        self.status = 3 if self.refused else 1 if self.report else 0

    def lines(self):
        out = []
        for loss in self.report:
            meaning = 'overlaps the range of a kept file' if loss.number == 14 else MEANING[loss.number]
            out.append(f'slot {loss.slot}: given up, {meaning} ({loss.number})')
            out += [] if self.refused else self.ids_of(loss)
        out += [WARNING] if self.report else []
        lost = '%d slot%s given up' % (len(self.report), '' if len(self.report) == 1 else 's') if self.report else 'nothing given up'
        if self.refused is None:
            return out + [f'reopening: accepted, {len(self.store.table())} ids in a table of {self.table}', f'{self.path}: {lost}, saved as {self.to}']
        wide = lent(self.saved, self.size, 65536)
        room, saved = 'none would do, 65536 entries are the most', 'nothing saved'
        if refusal_of(wide.reopen) is None:
            room, saved = f'one of {len(wide.table())} would do', 'nothing saved: give a larger table, and write nothing before'
        return out + [f'reopening: refused with 6, more distinct ids than a table of {self.table} takes', f'table: {room}', f'{self.path}: {lost}, {saved}']

    def ids_of(self, loss):
        """what a slot that was given up lists, and what its ids read now"""
        if loss.number in (8, 9):
            return ['  which ids it had cannot be told']
        slot = self.heap[loss.slot * self.size:(loss.slot + 1) * self.size]
        lsn, t, size, present, _ = label_numbers(slot[:LABEL])
        trailer_bytes, damaged = slot[LABEL + t:LABEL + size], loss.number in (10, 11)
        entries = [*struct.iter_unpack('<QQ', trailer_bytes[12:len(trailer_bytes) - (len(trailer_bytes) - 12) % 16])]
        newest = {}
        for ident, raw in entries[:present if damaged else le(trailer_bytes, 4)]:
            newest[ident] = max(newest.get(ident, (0, 0)), (masked(lsn) + min(raw // 2, t), raw % 2))
        told = ['  its trailer is damaged, and so may be these ids'] if damaged else []
        return told + [f'  id {ident}: {self.fate(ident, *newest[ident])}' for ident in sorted(newest)]

    def fate(self, ident, position, deletes):
        was, raw = 'deleted here' if deletes else 'put here', self.store.table().get(ident)
        if raw is None:
            return f'{was}, nothing reads now'
        now, refused = masked(raw // 2), refusal_of(self.store.read, ident)
        if now >= position:
            return 'a newer version is kept' if now > position else 'kept in another slot, at the same position'
        if raw % 2 == 1:
            return f'{was}, an older delete counts now'
        return f'{was}, an older version ' + ('reads now' if refused is None else f'is kept, and its read is refused with {refused}')


def run(command, *words, user=None, **how):
    return subprocess.run(command + [str(w) for w in words], capture_output=True, text=True, stdin=subprocess.DEVNULL, user=user, **how)


def image_file(folder, name, heap):
    """an image that may only be read"""
    path = os.path.join(folder, f'{name}.bin')
    with open(path, 'wb') as out:
        out.write(heap)
    os.chmod(path, 0o444)
    return path


def stayed(path, heap, why='the image changed'):
    with open(path, 'rb') as left:
        if hashlib.sha256(left.read()).digest() != hashlib.sha256(heap).digest():
            fail(why, None)


def rescued(command, folder, number, heap, words, slot_bytes, table, show):
    """the rescue of one image into a new file"""
    path, to = image_file(folder, f'{number} returned', heap), os.path.join(folder, f'{number} rescued.bin')
    image = Rescued(path, to, heap, slot_bytes, table)
    said = run(command, 'rescue', path, to, *words)
    if said.returncode != image.status or said.stderr or '\033' in said.stdout:
        fail(f'rescue ended with {said.returncode}', said)
    if said.stdout.split('\n')[:-1] != image.lines():
        fail('the rescue does not say ' + '\n'.join(image.lines()), said)
    stayed(path, heap)
    if os.path.exists(to) != (image.refused is None):
        fail('a file where nothing is saved, or none', said)
    if image.refused is None:
        stayed(to, image.saved, "the new file is not the model's heap")
        os.remove(to)
    if show:
        print(said.stdout)
    return image, {words for words in WORDS if words in said.stdout}


def looked_at(command, folder, number, heap, words, slot_bytes, table, show):
    """check and map of one image, by these words behind its path"""
    path = image_file(folder, number, heap)
    image = Looked(path, heap, slot_bytes, table)
    for what in ('check', 'map'):
        said = run(command, what, path, *words)
        if said.returncode != (1 if image.faults else 0) or said.stderr or '\033' in said.stdout:
            fail(f'{what} ended with {said.returncode}', said)
        if what == 'check' and said.stdout.split('\n')[:-1] != image.list():
            fail('the list is not ' + '\n'.join(image.list()), said)
        if what == 'map':
            image.rows_held(said)
            drawn = said.stdout
            if show:
                print(said.stdout)
    stayed(path, heap)
    return image.faults, drawn


def crowded(command, folder, show):
    """more faults than the program first has room for: a slot of objects that no entry lists"""
    objects = object_bytes(7, b'') * 5000
    data = objects + trailer((9, 1))
    slot = label_bytes((1, len(objects), len(data), 1, 0)) + data
    return len(looked_at(command, folder, 'many', slot.ljust(131072, b'\0'), [131072, 1], 131072, 1, show)[0])


def told(command, what, words, message, silent=True, **how):
    """message, status 2, nothing on standard output"""
    said = run(command, what, *words, **how)
    if said.returncode != 2 or silent and said.stdout or message not in said.stderr:
        fail(f'{what} {words} ended with {said.returncode}, wanted: {message}', said)


def reached_by_nobody(command):
    try:
        return 'usage: ' in run(command, 'check', user=NOBODY).stderr
    except PermissionError:
        return False


def refused(command, folder):
    """what is no image, or no number"""
    def file(name, size):
        path = os.path.join(folder, name)
        with open(path, 'wb') as out:
            out.truncate(size)
        return path

    good, empty, odd = file('good', 8192), file('empty', 0), file('odd', 4097)
    cases = [
        ([os.path.join(folder, 'none')], 'No such file or directory'), ([folder], 'Is a directory'), ([empty], 'is empty: there is no slot in it'),
        ([odd], 'has 4097 bytes, which is no multiple of the slot\'s 4096'), ([good, 3000], 'has 8192 bytes, which is no multiple of the slot\'s 3000'),
        ([file('slots', 257 * 128), 128], 'has 257 slots of 128 bytes, and 256 are the most'),
        ([file('long', (16 << 20) + 1), 1 << 20], 'is longer than 16777216 bytes'), (['/dev/zero', 1 << 20], 'is longer than 16777216 bytes'),
        ([good, 'x'], 'S is no number: x'), ([good, ''], 'S is no number: '), ([good, '-128'], 'S is no number: -128'), ([good, '0x80'], 'S is no number'),
        ([good, 127], 'S is 127, and must be 128 to 1048576'), ([good, 1048577], 'and must be 128 to 1048576'), ([good, 2 ** 64 + 4096], 'and must be 128'),
        ([good, 4096, 'many'], 'TABLE is no number: many'), ([good, 4096, 0], 'TABLE is 0, and must be 1 to 65536'),
        ([good, 4096, 65537], 'and must be 1 to 65536'), ([good, '4096 '], 'S is no number'), ([good, 4096, 16, 16], 'usage: '), ([], 'usage: '),
    ]
    os.chmod(file('closed', 4096), 0)
    os.mkdir(os.path.join(folder, 'shut'), 0o555)
    os.chmod(folder, 0o755)
    unread, unmade = ([os.path.join(folder, 'closed')], 'Permission denied'), ([good, os.path.join(folder, 'shut', 'rescued')], 'Permission denied', False)
    if os.geteuid() != 0:
        told(command, 'check', *unread)
        told(command, 'rescue', *unmade)
    elif reached_by_nobody(command):  # root may read and write every file, and so tries these as nobody
        told(command, 'check', *unread, user=NOBODY)
        told(command, 'rescue', *unmade, user=NOBODY)
    else:
        print('images: run as root, in a folder that nobody else reaches: what may not be read or written is not tried')
    tried = [told(command, what, words, message) for what in ('check', 'map') for words, message in cases]
    to = os.path.join(folder, 'rescued')
    tried += [told(command, 'rescue', [*words[:1], to, *words[1:]], message) for words, message in cases if words]
    tried += unwritten(command, folder, good, to)
    if os.path.lexists(to):
        fail('a refused rescue left a file', None)
    said = subprocess.run(command + ['map', good], stdout=open('/dev/full', 'w'), stderr=subprocess.PIPE, text=True)
    if said.returncode != 2 or 'could not be written' not in said.stderr:
        fail('a full standard output is not told', said)
    for words in ([good], [good, 8192], [good, '04096', '0065536'], [file('longest', 16 << 20), 65536], [file('one', 1 << 20), 1 << 20]):
        if run(command, 'check', *words).returncode != 0:
            fail(f'{words} is taken for no image', run(command, 'check', *words))
    return len(tried)


def unwritten(command, folder, good, to):
    """a rescued image that cannot be written"""
    there, link, missing = os.path.join(folder, 'there'), os.path.join(folder, 'link'), os.path.join(folder, 'none', 'rescued')
    with open(there, 'wb') as out:
        out.write(b'kept')
    os.symlink(to, link)
    cases = [([good, there], 'is there already, and is not written over', True), ([good, good], 'is there already', True),
             ([good, folder], 'is there already', True), ([good, '/dev/full'], 'is there already', True), ([good], 'usage: ', True),
             ([good, link], 'File exists', False), ([good, missing], 'No such file or directory', False), ([good, ''], 'No such file', False)]
    for words, message, silent in cases:
        told(command, 'rescue', words, message, silent)
    # a medium that is full half way
    half = {'preexec_fn': lambda: resource.setrlimit(resource.RLIMIT_FSIZE, (4096, 4096)), 'restore_signals': False}
    told(command, 'rescue', [good, to], 'File too large', False, **half)
    said = subprocess.run(command + ['rescue', good, to], stdout=open('/dev/full', 'w'), stderr=subprocess.PIPE, text=True)
    if said.returncode != 2 or 'could not be written' not in said.stderr:
        fail('a full standard output is not told', said)
    stayed(there, b'kept')
    stayed(good, bytes(8192))
    return cases + ['a full medium', 'a full standard output']


def full_tables(command, folder, show):
    """as many ids as the largest table takes, and one more"""
    slots = []
    for first, count in ((0, 65000), (65000, 536), (65536, 1)):
        data = trailer(*[(ident, 1) for ident in range(first, first + count)])
        slots.append((label_bytes((1 + first, 0, len(data), count, 0)) + data).ljust(1 << 20, b'\0'))
    for name, used, table in (('one too many', 3, 4), ('too small', 2, 4), ('full', 2, 65536)):
        rescued(command, folder, name, b''.join(slots[:used]), [1 << 20, table], 1 << 20, table, show)


def coloured(command, least, *words):
    """on a terminal: red, and so many colours"""
    ours, theirs = pty.openpty()
    done = subprocess.Popen(command + [*words, '256', '6'], stdout=theirs, stdin=subprocess.DEVNULL)
    os.close(theirs)
    said = b''
    while True:
        try:
            part = os.read(ours, 65536)
        except OSError:
            break
        if not part:
            break
        said += part
    os.close(ours)
    done.wait()
    if b'\033[31m' not in said or said.count(b'\033[0m') < least:
        raise SystemExit(f'images: no colours on a terminal: {said!r}')


def main():
    parser = argparse.ArgumentParser()
    parser.add_argument('--program')
    parser.add_argument('--seed', default='1')
    parser.add_argument('--count', type=int, default=400)
    parser.add_argument('--show', action='store_true', help='each map, to look at')
    options = parser.parse_args()
    if not options.program:
        archive, options.program = (os.path.join(ROOT, 'target', 'tests', name) for name in ('libmarble_c.a', 'image'))
        subprocess.run([os.path.join(ROOT, 'tests', 'unproved'), 'marble_c', archive], check=True)
        subprocess.run([os.path.join(ROOT, 'host', 'build'), os.path.join(ROOT, 'host', 'image.c'), archive, options.program], check=True)
    command = console_command(options.program)
    numbers, cells, given_up, statuses, fates = Counter(), set(), Counter(), Counter(), set()
    with tempfile.TemporaryDirectory() as folder:
        for number in range(options.count):
            m = Maker(f'{options.seed} image', number).make()
            faults, drawn = looked_at(command, folder, number, b''.join(m.heap), [m.slot_bytes, m.table], m.slot_bytes, m.table, options.show)
            numbers.update((fault.number, fault.position is not None) for fault in faults)
            cells.update(*drawn.split('\n')[1:-3])
        for number in range(options.count):
            m = Spliced(f'{options.seed} image', number).make()
            image, words = rescued(command, folder, number, b''.join(m.heap), [m.slot_bytes, m.table], m.slot_bytes, m.table, options.show)
            given_up.update(loss.number for loss in image.report)
            statuses.update([image.status])
            fates |= words
        looked_at(command, folder, 'default', bytes(2 * 4096), [], 4096, 1024, options.show)
        rescued(command, folder, 'default', bytes(2 * 4096), [], 4096, 1024, options.show)
        full_tables(command, folder, options.show)
        many = crowded(command, folder, options.show)
        cases = refused(command, folder)
        script = os.path.join(ROOT, 'examples', 'scratched.out')
        with open(script) as said, open(os.path.join(folder, 'scratched'), 'wb') as out:
            out.write(bytes.fromhex(said.read().split()[-1]))
        path = os.path.join(folder, 'scratched')
        coloured(command, 6, 'map', path)
        coloured(command, 4, 'rescue', path, path + ' rescued')
    missing = {(n, p) for n, p in [(n, False) for n in (6, *range(8, 16))] + [(n, True) for n in (10, 16, 17)]} - numbers.keys()
    if missing or not cells >= set('#-?.'):
        raise SystemExit(f'images: no image had {missing or "each kind of bytes"}')
    missing = [*({8, 9, 10, 11, 12, 13, 14, 15} - given_up.keys()), *({0, 1, 3} - statuses.keys()), *(WORDS - fates)]
    if missing:
        raise SystemExit(f'images: no rescue had {missing}')
    print(f'images: {options.count} heaps looked at and drawn, {sum(numbers.values())} faults, one with {many}; {options.count} rescued, '
          f'{sum(given_up.values())} slots given up, {statuses[3]} not saved for their table; {cases} that are no image or cannot be written told so')


if __name__ == '__main__':
    main()
