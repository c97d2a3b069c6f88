#!/usr/bin/env python3
"""A search by halving beside one from the front, by the clock: halving.py [RUNS], 5 where nothing is said. For each number of entries the
program `search_cases`, compiled without proof, seeks 1,000 ids by one search alone, over and over; a time is processor time, the difference of
a run with rounds and one without, and the least of all runs. No pre-test: it fails by no time. That the answers are the same, and at how many
places each search looks, is the program's stored output."""
import os
import resource
import subprocess
import sys

HERE = os.path.dirname(os.path.abspath(__file__))
sys.path.insert(0, os.path.join(HERE, 'oracle'))
from port import console_command  # noqa: E402

PROGRAM = os.path.join(os.path.dirname(HERE), 'target', 'tests', 'search_cases')
ENTRIES, SOUGHT = [1000, 4096, 16384, 40000, 65536], 1000
# so many rounds take some tenths of a second
PLACES = {'halving': 20_000_000, 'front': 200_000_000}


def spent(command, search, entries, rounds):
    """processor seconds of the program"""
    before = resource.getrusage(resource.RUSAGE_CHILDREN)
    subprocess.run(command, input=f'{search} {entries} {rounds}'.encode(), capture_output=True, check=True)
    after = resource.getrusage(resource.RUSAGE_CHILDREN)
    return after.ru_utime - before.ru_utime + after.ru_stime - before.ru_stime


def nanoseconds(command, search, entries, runs):
    """for one id"""
    looks = entries.bit_length() if search == 'halving' else entries // 2
    rounds = PLACES[search] // (looks * SOUGHT) + 1
    least = min(spent(command, search, entries, rounds) for _ in range(runs)) - min(spent(command, search, entries, 0) for _ in range(runs))
    return least / rounds / SOUGHT * 1e9


def main():
    runs = int(sys.argv[1]) if len(sys.argv) > 1 else 5
    subprocess.run([os.path.join(HERE, 'unproved'), 'search_cases', PROGRAM], check=True)
    command = console_command(PROGRAM)
    for entries in ENTRIES:
        halving, front = (nanoseconds(command, search, entries, runs) for search in PLACES)
        print(f'halving: {entries} entries, one id: {halving:.0f} ns by halving, {front:.0f} ns from the front, {front / halving:.0f} times as long')


main()
