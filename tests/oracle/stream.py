#!/usr/bin/env python3
"""Arbitrary bytes on the console's standard input: damaged scripts, random bytes, lines about as long as the longest, no last line end.

    stream.py [--console PATH] [--seed S] [--count N] [--seconds T]

Each stream is one process. It must end by itself with status 0, and write for its lines, its lines for people left out, exactly what
the model answers: so every line has its answer, in its order, whatever stands before it."""
import argparse
import random
import subprocess
import time

from hostile import Maker
from model import Console
from port import console_command

LONGEST = Console.MAX_LINE
LENGTHS = [LONGEST - 1, LONGEST, LONGEST, LONGEST + 1, LONGEST + 2, 65535, 65536, 65537, 2 * LONGEST, 1 << 20]
BYTES = [b'\0', b'\n', b'\r', b'\r\n', b'\t', b' ', b'#', b'-', b'\x0b', b'\x0c', b'\x1c', b'\x85', b'\xa0', b'\xff', b'0', b'9', b':', b'g', b'G']


def damaged(r, text):
    """a script with some bytes changed, put in, taken out or repeated"""
    for _ in range(r.choice([1, 3, 10, 40])):
        at = r.randrange(len(text) + 1)
        end = min(len(text), at + r.choice([0, 1, 1, 2, 8]))
        put = r.choice([b'', r.choice(BYTES), r.choice(BYTES), r.randbytes(r.randint(1, 4)), text[at:end] * 2, text[at:end].upper()])
        text = text[:at] + put + text[end:]
    return text


def long_line(r):
    """a line whose length is near the longest, or near that of the console's input buffer"""
    length = r.choice(LENGTHS)
    front, filler, back = r.choice([
        (b'load ', b'0', b'5'), (b'load ', b'9', b''), (b'load 5', b' ', b''), (b'', b' ', b'load 5'), (b'', b'\t', b'settings 1 1 1 1 1 1'),
        (b'poke 0 ', b'a', b''), (b'poke 1 ', b'F0', b''), (b'write ', b'00', b''), (b'write 01', b'0', b''), (b'# ', b'x', b''), (b'load 5 #', b'\xff', b''),
        (b'', b'a', b''), (b'', b'\0', b''), (b'claims', b' 1', b''), (b'read', b'\r', b'7')])
    room = max(0, length - len(front) - len(back))
    return front + (filler * room)[:room] + back + b'\n'


def stream(seed, number):
    """pieces of all kinds, behind each other"""
    r, pieces = random.Random(f'{seed} stream {number}'), []
    for k in range(6):
        script = '\n'.join(Maker(f'{seed} stream {number}', k).make().lines).encode() + b'\n'
        pieces += [damaged(r, script), r.choice(BYTES) * r.randint(0, 9) + b'\n', r.randbytes(r.choice([0, 1, 50, 3000]))]
        pieces += [b'\nheap 131072\n', long_line(r), b'\ndump\ncounts\n']
    return b''.join(pieces) + r.choice([b'', b'load 5', b'dump', b'#', b' ', b'\r', b'lo', long_line(r)[:-1]])


def lines_of(data):
    """as the console cuts its input: a last line without its end counts unless it is empty"""
    lines = data.decode('latin-1').split('\n')
    return lines if lines[-1] else lines[:-1]


def check(command, data):
    """gives the number of lines and of answers"""
    console, lines = Console(), lines_of(data)
    wanted = [answer for line in lines for answer in console.line(line)]
    done = subprocess.run(command, input=data, capture_output=True, timeout=300)
    said = [line for line in done.stdout.decode('latin-1').split('\n')[:-1] if not line.startswith('#')]
    if done.returncode != 0:
        raise SystemExit(f'the console ended with {done.returncode}: {done.stderr[-300:]}')
    for k, (port, model) in enumerate(zip(said + ['no answer'], wanted + ['no answer'])):
        if port != model:
            raise SystemExit(f'answer {k}\n    console: {port[:200]}\n    model: {model[:200]}')
    return len(lines), len(wanted)


def main():
    parser = argparse.ArgumentParser()
    parser.add_argument('--console', default='target/bin/console')
    parser.add_argument('--seed', default='1')
    parser.add_argument('--count', type=int, default=10)
    parser.add_argument('--seconds', type=float, default=1e9, help='begin no stream after so long')
    options = parser.parse_args()
    began, streams, lines, answers, command = time.time(), 0, 0, 0, console_command(options.console)
    for number in range(options.count):
        if time.time() - began > options.seconds:
            break
        try:
            n, a = check(command, stream(options.seed, number))
        except SystemExit as end:
            raise SystemExit(f'DIFFERENCE (seed {options.seed}) stream {number}: {end}')
        streams, lines, answers = streams + 1, lines + n, answers + a
    print(f'console on arbitrary bytes: {streams} streams, {lines} lines, {answers} lines of answer, seed {options.seed}, {time.time() - began:.0f} s')


if __name__ == '__main__':
    main()
