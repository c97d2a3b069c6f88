#!/usr/bin/env python3
"""What is known to differ between document 01 and the original, and what cannot be compared: the one list. Each with its reason, the
place in the Rust and, in directed, the smallest inputs that show it on both sides, each with its row of docs/DIFFERENCES.md; compare.py
runs them.

    known.py    each row has a smallest input here, and each input's row is there"""
import pathlib
import re
import zlib

from model import BATCH_BIT, label_bytes, object_bytes

KNOWN = {
    'delete position': "document 01 (line P10) has the object bytes before it, writepath.rs:172 stores 0; entries are compared as (id, body or delete)",
    'order': "ids, and shards of a rewrite, follow hash buckets (lib.rs:168): files are compared as sets, and where a rewrite gave several "
             "files neither their positions nor the next position after a reopening is",
    'cut': "where a shard could be cut in some order (writepath.rs:84) every id's read and the count moved are compared, then both sides go "
           "on from the port's heap",
    'limits': "4, 5, 6 and 7 come from slots, table and positions, which the original does not limit, and its types have no raw 0 (20): the "
              "call is not made there",
    'put of exactly max_object_size': "3; writepath.rs:176 accepts it, and gc.rs:77 then fails on it",
    'oversize put overridden': "3; the original looks at the last operation on an id only",
    'batch bytes': "2; the original takes a list and no bytes",
    'claim refused': "21; the original has no such call: only accepted claims and releases are made there",
    'damaged file in maintenance': "which of several faults is met first differs (descending location there, ascending slot here): any "
                                   "failure there will do, then both go on from the port's heap",
    '16 in maintenance': "a header or body past T: the original reads on into the trailer (gc.rs:69, gc.rs:97) and may succeed",
    # of a table that its own calls changed; after each both sides go on from the port's heap
    'greater location kept': "row 16: writepath.rs:300 stores a new location only over a lower one; an equal one is a panic",
    'live one lost by the new file': "row 17: the file is found before the new one is added, file_map.rs:300 asserts that it is not the new one",
    'live count at 0': "row 17: 0 stays 0, file_map.rs:308 asserts",
    'no file to lose a live one': "row 29: none does, file_map.rs:298 unwraps",
}

# of these the call is not made on the original's side
NOT_MADE = ('limits', 'put of exactly max_object_size', 'oversize put overridden', 'batch bytes', 'claim refused')

# refusal: the original's answers that mean the same
READ_FAILURES = {
    'refused 10': {'err InvalidData'},
    'refused 16': {'err UnexpectedEof', 'err Uncategorized', 'panic lib.rs:215'},  # the last two: a huge length is allocated first (lib.rs:215)
    'refused 17': {'panic readpath.rs:65'},
    'refused 18': {'panic file_map.rs:125'},
}
TABLE_FAILURES = {
    'refused 18': {'panic location_table.rs:37'},
    'refused 19': {'panic location_table.rs:53'},
}
WRITE_DIFFERS = {
    'greater location kept': ('ok ', 'panic location_table.rs:53'),
    'live one lost by the new file': ('panic file_map.rs:300',),
    'live count at 0': ('panic file_map.rs:308',),
    'no file to lose a live one': ('panic file_map.rs:298',),
}
GROUP_FAILURES = ('err InvalidData', 'err UnexpectedEof', 'panic gc.rs:89', 'panic gc.rs:148')


# ---- the smallest inputs -------------------------------------------------------------------------

FAILS = 'a failure'  # any error, any panic, or the end of the process: the standard library words it, and its versions differ


def trailer(*entries, more=b'', count=None):
    listed = (len(entries) if count is None else count).to_bytes(8, 'little')
    listed += b''.join(i.to_bytes(8, 'little') + p.to_bytes(8, 'little') for i, p in entries) + more
    return zlib.crc32(listed).to_bytes(4, 'little') + listed


class Made:
    """files by hand, both as pokes into slots and as the original's files"""

    def __init__(self, *files, percent=100, least=1, target=2048, threshold=0, longest=64, slot=256, slots=4, table=4):
        self.slot = slot
        self.port = [f'settings {slot} {percent} {least} {target} {threshold} {longest}', 'claims 0 0 0 0', f'heap {slot * slots}',
                     f'table {2 * table}']
        self.rust = ['wipe', f'set file_compaction_percent {percent}', f'set min_compaction_files {least}', f'set target_file_size {target}',
                     f'set small_file_cleanup_threshold {threshold}', f'set max_object_size {longest}']
        for slot, file in enumerate(files):
            self.port.append(self.poke(slot, file))
            self.rust.append(self.raw(file))
        self.port.append('reopen')
        self.rust.append('open')

    def poke(self, slot, file):
        """the port's line for a file: (lsn, T, bytes, present, generation)"""
        lsn, t, data, present, generation = file
        return f'poke {self.slot * slot} {(label_bytes((lsn, t, len(data), present, generation)) + data).hex()}'

    @staticmethod
    def raw(file):
        """the driver's command for it"""
        lsn, t, data, present, generation = file
        return f'raw {lsn:016x}-{t:016x}-{present:016x}-{generation:x} {data.hex()}'


def case(row, name, made, port, port_says, rust, *rust_says):
    """the row of DIFFERENCES or None; after made's files: the lines and the last answer, on both sides, of which the original may have
    several"""
    return row, name, made.port + port, port_says, made.rust + rust, rust_says


def directed():
    nothing = Made()
    body = object_bytes(1, b'A')  # 21 bytes
    listed = trailer((1, 0))
    crossing = object_bytes(1, b'A' + listed[:1])[:21]
    one = lambda lsn=1: (lsn, 21, body + listed, 1, 0)
    two = lambda lsn, generation=0: (lsn, 21, object_bytes(2, b'B') + trailer((2, 0)), 1, generation)
    counted = lambda count: Made((1, 21, body + trailer((1, 0), count=count), 1, 0))
    high = Made(one(BATCH_BIT + 5), two(BATCH_BIT - 50))
    unlisted = (1, 21, body + trailer((2, 0)), 1, 0)
    flipped = (23, 21, object_bytes(2, b'B')[:20] + b'C' + trailer((3, 0)), 1, 0)
    deleted = lambda ident, raw: (1, 21, body + trailer((ident, raw)), 1, 0)
    half = Made(one(), (23, 21, object_bytes(2, b'B') + bytes(20), 1, 0))
    first = 2 * (BATCH_BIT + 1)  # raw location of a fresh store's first object
    greatest = 'store 1 18446744073709551615'
    cut = Made(target=100, threshold=256, slot=512)  # ids 1, 2, 4 of 60 bytes, and 9, which is deleted next
    three = 'write ' + ''.join(f'{i:02x}013c' + '41' * 60 for i in (1, 2, 4)) + '090100'
    three_there = 'write ' + ' '.join(f'{i}=' + '41' * 60 for i in (1, 2, 4)) + ' 9=-'
    return [
        # both sides the same: positions and table, document 01's lines P1 to P3; claims
        case(None, 'line P1', nothing, ['store 1 11', 'load 1'], 'deleted 11', ['absolute 5 1'], 'ok 11'),
        case(None, 'line P3', nothing, ['store 1 18446744073709551615', 'load 1'], 'deleted 18446744073709551615',
             ['absolute 9223372036854775807 1'], 'ok 18446744073709551615'),
        case(None, 'maintenance', Made(one()), ['maintain'], 'ok 1', ['maintain'], 'ok 1 73'),
        case(None, '.. on a claimed file', Made(one()), ['claim 0', 'maintain'], 'ok 0', ['claim 1', 'maintain'], 'ok 0 51'),
        case(None, 'prune', Made(one()), ['write 01010142', 'prune', 'counts'], 'ok 1 49 1 1', ['write 1=42', 'prune', 'counts'], 'ok 1 49 1 1'),
        case(None, '.. of a claimed file', Made(one()), ['write 01010142', 'claim 0', 'prune', 'counts'], 'ok 2 98 2 1',
             ['write 1=42', 'claim 1', 'prune', 'counts'], 'ok 2 98 2 1'),
        # inside the domain
        case(1, 'delete position', nothing, ['write 070101410900', 'load 9'], f'deleted {2 * (BATCH_BIT + 22) + 1}',
             ['write 7=41 9', 'load 9'], f'ok {first + 1}'),
        case(2, 'order of ids', nothing, ['write 0101014104010142', 'load 1'], f'ok {first}',
             ['write 1=41 4=42', 'load 1'], f'ok {first + 42}', f'ok {first}'),
        case(2, '.. which no read tells', nothing, ['write 0101014104010142', 'read 1'], 'ok 41', ['write 1=41 4=42', 'read 1'], 'ok 41'),
        case(3, 'where a shard is cut', cut, [three, 'write 0900', 'maintain', 'load 2'], 'ok 848',
             [three_there, 'write 9', 'maintain', 'load 2'], 'ok 526', 'ok 688', 'ok 848'),
        case(3, '.. which no count tells', cut, [three, 'write 0900', 'maintain', 'counts'], 'ok 3 340 4 4',
             [three_there, 'write 9', 'maintain', 'counts'], 'ok 3 340 4 4'),
        case(4, 'shards', nothing, ['write 010101410201024242', 'maintain', 'counts'], 'ok 2 99 2 2',
             ['write 1=41 2=4242', 'maintain', 'counts'], 'ok 2 99 2 2'),
        case(4, ".. by the original's own default", nothing, ['write 010101410201024242', 'maintain', 'counts'], 'ok 2 99 2 2',
             ['set partition_function 1', 'close', 'open', 'write 1=41 2=4242', 'maintain', 'set partition_function 0', 'counts'], 'ok 1 87 2 2'),
        case(5, 'put of exactly max_object_size', Made(longest=1), ['write 01010141'], 'refused 3', ['write 1=41'], 'ok 23'),
        case(5, '.. and maintenance on it', Made(longest=1), ['write 01010141', 'maintain'], 'ok 0', ['write 1=41', 'maintain'], 'err InvalidData'),
        case(6, 'oversize put overridden', Made(longest=1), ['write 01010241410100'], 'refused 3', ['write 1=4141 1'], 'ok 2'),
        case(7, 'two damaged files', Made(unlisted, flipped, least=2), ['maintain'], 'refused 18 1 0', ['maintain'], 'err InvalidData'),
        case(7, 'two damaged groups', Made((*unlisted[:4], 1), flipped), ['maintain'], 'refused 10 1 0', ['maintain'], 'err InvalidData', 'panic gc.rs:89'),
        case(8, 'body past T in maintenance', Made((1, 21, crossing + listed, 1, 0)), ['maintain'], 'refused 16 1 0', ['maintain'], 'ok 1 74'),
        case(8, '.. which both can read', Made((1, 21, crossing + listed, 1, 0)), ['read 1'], f'ok 41{listed[:1].hex()}',
             ['read 1'], f'ok 41{listed[:1].hex()}'),
        case(8, 'header past T in maintenance', Made((1, 1, b'\0' + trailer((1, 1)), 1, 0)), ['maintain'], 'refused 16 1 0',
             ['maintain'], 'err InvalidData'),
        case(9, 'unmapped object in maintenance', Made(unlisted), ['maintain'], 'refused 18 1 0', ['maintain'], 'panic gc.rs:89'),
        case(9, '.. and delete, of a trailer changed after the open', Made(one()), [nothing.poke(0, deleted(5, 1)), 'maintain'], 'refused 18 1 0',
             [Made.raw(deleted(5, 1)), 'maintain'], 'panic gc.rs:148'),
        case(10, 'another stored id', Made(unlisted), ['read 2'], 'refused 17', ['read 2'], 'panic readpath.rs:65'),
        case(11, 'length of 2^63', Made((1, 20, bytes(19) + b'\x80' + listed, 1, 0)), ['read 1'], 'refused 16', ['read 1'], FAILS),
        case(12, 'near 2^62', high, ['write 01010142'], 'refused 7', ['write 1=42'], f'ok {BATCH_BIT + 22}'),
        case(12, '.. where the original loses what it accepted', high, ['write 01010142', 'read 1'], 'ok 41', ['write 1=42', 'read 1'], 'ok 41'),
        case(13, 'file over the slot', Made(slot=128), ['write 010120' + '41' * 32], 'refused 4', ['write 1=' + '41' * 32], 'ok 54'),
        case(13, 'no empty slot', Made(slots=1), ['write 01010141', 'write 01010142'], 'refused 5', ['write 1=41', 'write 1=42'], 'ok 45'),
        case(13, 'full table', Made(table=1), ['write 0101014102010142'], 'refused 6', ['write 1=41 2=42'], 'ok 44'),
        case(14, 'what a refusal carries', Made((1, 21, body[:20] + b'C' + listed, 1, 0)), ['maintain'], 'refused 10 1 0',
             ['maintain'], 'err InvalidData'),
        case(15, 'a lower store-if-greater', nothing, ['store 5 10', 'max 5 8'], 'ok 10', ['store 5 10', 'max 5 8'], 'ok 10'),
        case(15, '.. which stores nothing', nothing, ['store 5 10', 'max 5 8', 'load 5'], 'ok 10', ['store 5 10', 'max 5 8', 'load 5'], 'ok 10'),
        case(16, 'a greater location in the table', nothing, [greatest, 'write 01010141'], 'ok', [greatest, 'write 1=41'], 'ok 23'),
        case(16, '.. where the original loses what it accepted', nothing, [greatest, 'write 01010141', 'read 1'], 'ok 41',
             [greatest, 'write 1=41', 'read 1'], 'nothing'),
        case(16, '.. counts it dead', nothing, [greatest, 'write 01010141', 'counts'], 'ok 1 49 1 1',
             [greatest, 'write 1=41', 'counts'], 'ok 1 49 1 0'),
        case(16, '.. and finds it after a reopening', nothing, [greatest, 'write 01010141', 'reopen', 'read 1'], 'ok 41',
             [greatest, 'write 1=41', 'reopen', 'read 1'], 'ok 41'),
        case(16, '.. unless it was pruned', nothing, [greatest, 'write 01010141', 'prune', 'reopen', 'read 1'], 'ok 41',
             [greatest, 'write 1=41', 'prune', 'reopen', 'read 1'], 'nothing'),
        case(16, 'the new location in the table', nothing, [f'store 1 {first}', 'write 01010141'], 'ok',
             [f'store 1 {first}', 'write 1=41'], 'panic location_table.rs:53'),
        case(17, 'a replaced location in the new file', nothing, [f'store 1 {first}', 'write 0100'], 'ok',
             [f'store 1 {first}', 'write 1'], 'panic file_map.rs:300'),
        case(17, 'a replaced location in a dead file', nothing, ['write 01010141', 'write 01010142', f'store 1 {first}', 'write 01010143'], 'ok',
             ['write 1=41', 'write 1=42', f'store 1 {first}', 'write 1=43'], 'panic file_map.rs:308'),
        # a close is no reopening: it unlinks the dead files, claimed ones too
        case(18, 'close and open', Made(one()), ['write 01010142', 'claim 0', 'reopen', 'counts'], 'ok 2 98 2 1',
             ['write 1=42', 'claim 1', 'close', 'open', 'counts'], 'ok 1 49 1 1'),
        case(19, 'a read', nothing, ['write 070101410900', 'read 7'], 'ok 41', ['write 7=41 9', 'read 7'], 'ok 41'),
        case(20, 'next position after reopening', nothing, ['write 070101410900', 'reopen', 'dump'], 'next 67', ['write 7=41 9', 'reopen'], 'ok 67'),
        # outside the domain: refusals of reopening
        case(21, '8: T over file_size', Made((1, 100, body + listed, 1, 0)), ['reopen'], 'refused 8', [], FAILS),
        case(21, '8: generation over 255', Made(one(), two(23, 256)), ['reopen'], 'refused 8', [], 'ok 51'),
        case(21, '8: masked lsn 0', Made(one(BATCH_BIT)), ['reopen'], 'refused 8', [], 'ok 50'),
        case(21, '8: lsn of 2^63', Made(one(2 * BATCH_BIT)), ['reopen'], 'refused 8', [], 'panic disk_location.rs:4'),
        case(21, '8: masked lsn + T of 2^62', Made(one(BATCH_BIT - 21)), ['reopen'], 'refused 8', [], f'ok {BATCH_BIT + 29}'),
        case(22, 'a failed open', half, ['reopen'], 'refused 10', [], 'err InvalidData'),
        case(22, '.. unlinks the sound file', half, [half.poke(1, two(23)), 'reopen', 'read 1'], 'ok 41',
             [half.raw(two(23)), 'open', 'read 1'], 'nothing'),
        case(23, '11', counted(2), ['reopen'], 'refused 11', [], FAILS),
        case(23, '.. 2^60, which wraps to 0', counted(2 ** 60), ['reopen'], 'refused 11', ['counts'], 'ok 1 49 1 0'),
        case(23, '.. 2^60 + 1, which wraps to 1', counted(2 ** 60 + 1), ['reopen'], 'refused 11', ['read 1'], 'ok 41'),
        case(24, '12', Made((1, 21, body + trailer((1, 44)), 1, 0)), ['reopen'], 'refused 12', [], 'ok 51'),
        case(24, '.. an object at T', Made((1, 21, body + trailer((1, 42)), 1, 0)), ['reopen'], 'refused 12', [], 'ok 51'),
        case(24, '.. which the original reads from the trailer', Made((1, 21, body + trailer((1, 42)), 1, 0)), ['reopen', 'read 1'], 'never', ['read 1'], 'err InvalidData'),
        case(24, '.. an object whose header passes T', Made((1, 21, body + trailer((1, 4)), 1, 0)), ['reopen'], 'refused 12', [], 'ok 51'),
        case(24, '.. a delete at T, which is none', Made((1, 21, body + trailer((1, 43)), 1, 0)), ['reopen'], 'ok', [], 'ok 51'),
        case(24, '13', Made((1, 21, body + listed, 2, 0)), ['reopen'], 'refused 13', [], 'ok 51'),
        case(25, '14', Made(one(1), one(22)), ['reopen'], 'refused 14', [], 'ok 72'),
        case(25, '14: equal lsns', Made(one(), two(1, 1)), ['reopen'], 'refused 14', [], 'panic recovery.rs:102'),
        case(26, '15', Made((1, 21, body + trailer((1, 0), (1, 0)), 2, 0)), ['reopen'], 'refused 15', [], 'panic recovery.rs:73'),
        case(27, 'line P2: absolute raw 0', nothing, ['store 1 0'], 'refused 20', ['absolute 0 0'], 'panic disk_location.rs:62'),
        case(27, 'sum of 2^63, of a trailer changed after the open', Made(one()), [nothing.poke(0, deleted(1, 2 ** 64 - 1)), 'maintain'], 'refused 20 1 0',
             [Made.raw(deleted(1, 2 ** 64 - 1)), 'maintain'], 'panic disk_location.rs:4'),
        case(27, 'sum of 2^64', Made((2 ** 64 - 1, 21, body + trailer((1, 2)), 1, 0)), ['reopen'], 'refused 8', [], 'panic disk_location.rs:41'),
        case(28, 'compare-and-store, unmapped', nothing, ['cas 1 2 3'], 'refused 18', ['cas 1 2 3'], 'panic location_table.rs:37'),
        case(28, 'store-if-greater, equal', nothing, ['store 1 2', 'max 1 2'], 'refused 19', ['store 1 2', 'max 1 2'], 'panic location_table.rs:53'),
        case(29, 'no file to read', nothing, ['store 7 10', 'read 7'], 'refused 18', ['store 7 10', 'read 7'], 'panic file_map.rs:125'),
        case(29, 'no file to lose a live one', nothing, ['store 7 10', 'write 07010141'], 'ok',
             ['store 7 10', 'write 7=41'], 'panic file_map.rs:298'),
        # records by hand: the original takes them from names that 13 and 14 refuse here
        case(30, 'live and no present', Made(one()), ['record 0 1 21 49 0 0 1 0', 'maintain'], 'ok 1',
             ['wipe', Made.raw((1, 21, body + listed, 0, 0)), 'open', 'maintain'], 'panic file_map.rs:96'),
        case(31, 'two files with one location', Made(one()), [nothing.poke(1, two(1)), 'record 1 1 21 49 1 0 1 0', 'read 1'], 'ok 41',
             [Made.raw(two(1, 1)), 'reopen'], 'panic recovery.rs:102'),
        case(31, '.. by writes near 2^62', Made(one(BATCH_BIT + 22), two(BATCH_BIT - 50)), ['write 01010142', 'write 01010142'], 'refused 7',
             ['write 1=42', 'write 1=42'], 'panic file_map.rs:164'),
        case(32, 'deleted', nothing, ['write 0900', 'read 9'], 'deleted', ['write 9', 'read 9'], 'nothing'),
        case(32, '.. and never written', nothing, ['write 0900', 'read 8'], 'never', ['write 9', 'read 8'], 'nothing'),
        case(32, '.. as the table has them', nothing, ['store 9 11', 'load 9'], 'deleted 11', ['store 9 11', 'load 9'], 'ok 11'),
        case(32, '.. and has not', nothing, ['store 9 11', 'load 8'], 'never', ['store 9 11', 'load 8'], 'nothing'),
    ]


def main():
    differences = (pathlib.Path(__file__).resolve().parents[2] / 'docs/DIFFERENCES.md').read_text()
    rows = [int(n) for n in re.findall(r'^\*\*(\d+)\. ', differences, re.M)]
    run = [row for row, *_ in directed() if row is not None]
    if rows != list(range(1, len(rows) + 1)) or set(rows) != set(run):
        raise SystemExit(f'known: rows without a smallest input: {sorted(set(rows) - set(run))}, inputs without a row: {sorted(set(run) - set(rows))}')
    print(f'known: {len(run)} smallest inputs for {len(rows)} rows of docs/DIFFERENCES.md')


if __name__ == '__main__':
    main()
