#!/usr/bin/env python3
"""The list that the program vectors replays: a script, and what the original answered to it.

    vectors.py FOLDER [--seed S] [--count N]      writes FOLDER/stdin and FOLDER/stdout

First checksums known from outside, then small scenarios, each followed by one on the files that the original left of it, labelled and
put into slots. After every call each id's read and the counts. The answers are the original's, in the console's words (TOLD), and where it
has one word for never written and deleted the model's; `ok` to what changes settings, buffers and heap by hand. A call that the original
is not asked (known.py) is left out: refused, it changes nothing. Needs oracle/target/release/oracle (oracle/prepare.sh)."""
import argparse
import os
import zlib

from compare import CALLS, TABLE_CALLS, Comparison, Generated, Ports, compare
from known import READ_FAILURES, TABLE_FAILURES
from port import Rust, in_the_originals_words

ORACLE = os.path.join(os.path.dirname(__file__), '..', '..', 'oracle', 'target', 'release', 'oracle')
# text and CRC-32 as published: the check value, RFC 1321's test texts, 32 bytes of zeros and of ones
CHECKSUMS = [(b'123456789', 0xcbf43926), (b'', 0), (b'a', 0xe8b7be43), (b'abc', 0x352441c2), (b'message digest', 0x20159d7f),
             (b'abcdefghijklmnopqrstuvwxyz', 0x4c2750bd), (b'1234567890' * 8, 0x7ca94a72), (bytes(32), 0x190a55ad), (b'\xff' * 32, 0xff6cab0b)]
TOLD = {rust: port for failures in (READ_FAILURES, TABLE_FAILURES) for port, rusts in failures.items() for rust in rusts}


def told(answer, model):
    """the original's answer in the console's words; the model's where it says the same and tells a delete apart"""
    return model if in_the_originals_words(model) == answer else TOLD.get(answer, answer)


class Recorder(Comparison):
    """a comparison that keeps what the original was asked and said, as lines of script and answer"""

    def __init__(self, rust):
        super().__init__(rust)
        self.asked, self.ended, self.list = {}, False, []

    def ask(self, command):
        answer = self.rust.ask(command)
        self.asked[command.split()[0]] = answer[0]
        return answer

    def run(self, steps, port_views, ids, all_ids):
        self.ended = False
        super().run(steps, port_views, ids, all_ids)

    def take(self, step, view):
        self.asked = {}
        super().take(step, view)
        word = step.line.split()[0]
        # a refused maintenance may have moved groups that the original did not: what follows is left out
        self.ended = self.ended or word == 'maintain' and view.answer.startswith('refused')
        if not self.ended:
            self.list += self.lines(step.line, word, view)

    def lines(self, line, word, view):
        if word not in CALLS + TABLE_CALLS:
            return [(line, 'ok')]
        said = self.asked.get('open' if 'open' in self.asked else word)
        lines = [] if said is None else [(line, call_told(word, said, view))]
        if 'read' in self.asked:
            lines += [(f'read {i}', told(answer, model)) for i, answer, model in zip(self.ids, self.asked['read'].split(','), view.reads)]
        if 'counts' in self.asked:
            lines.append(('counts', self.asked['counts']))
        return lines


def call_told(word, said, view):
    """what the original said to a call: the port has no next position in it, and refuses a too long put with 3"""
    if word in TABLE_CALLS:
        return told(said, view)  # of a table call the answer alone
    if said == 'err Unsupported':
        return 'refused 3'
    return ' '.join(said.split()[:2]) if word in ('maintain', 'sync') else said.split()[0]


def checksums():
    for text, crc in CHECKSUMS:
        assert zlib.crc32(text) == crc
        yield from [(f'heap {len(text)}', 'ok'), (f'poke 0 {text.hex() or "-"}', 'ok'), ('dump', f'next 0\nheap {crc}\nend')]


def main():
    parser = argparse.ArgumentParser()
    parser.add_argument('folder')
    parser.add_argument('--seed', default='1')
    parser.add_argument('--count', type=int, default=100)
    options = parser.parse_args()
    rust = Rust(ORACLE)
    recorder = Recorder(rust)
    source = Generated(options.seed, small=True)
    done, carried = compare(Ports(), recorder, source, [source.first(k) for k in range(options.count)])
    rust.close()
    title = f'# made from the original by tests/oracle/vectors.py, seed {options.seed}: {done} scenarios and {carried} on its files'
    made = [(title, title)] + list(checksums()) + recorder.list
    with open(os.path.join(options.folder, 'stdin'), 'w') as out:
        out.write(''.join(line + '\n' for line, _ in made))
    with open(os.path.join(options.folder, 'stdout'), 'w') as out:
        out.write(''.join(answer + '\n' for _, answer in made))
    print(f"{done} scenarios and {carried} on the original's files, {len(made)} lines, {len(CHECKSUMS)} checksums")


if __name__ == '__main__':
    main()
