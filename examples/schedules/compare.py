#!/usr/bin/env python3
"""Makes schedules at random, and compares what `replay` writes with what the second World of
model.py does.

    examples/schedules/compare.py PROGRAM [--count N] [--from SEED] [--workers K ..]
    examples/schedules/compare.py --write FOLDER [--count N] [--from SEED]

PROGRAM is the path of the built program, or ./pitch. Schedule number SEED is the same in each run;
N of them are made, 600 where it isn't given, and one in three is run with several workers. With
`--workers` each is run with each of these numbers of workers. A schedule in which the two differ is
left in the current folder as different-SEED.txt. `--write` runs nothing, and leaves each schedule
as FOLDER/SEED and what it has to write as FOLDER/SEED.stdout. The last line is `N passed, M
failed`; the exit status is 0 only where none failed.
"""
import argparse
import os
import random
import subprocess
import sys

import model

IDS = [1, 2, 3, 4, 5, 6, 7, 8, 9, 2 ** 64 - 1]
QUANTITIES = [0, 1, 5, 100, 65535, 65536, 4294967295]
SYMBOLS = ['IBM', 'A', 'ABCDEFG', 'ABCDEFGH', 'ZVZZT+P']
STATUS_BYTES = ['H', 'T', '0', '1', '!', '~']
PRICES = ['1', '10.01', '655.35', '655.36', '0.0001', '3.1400', '184467440737095.1615']
# Lengths of blocks that sessions carry, and some that cut them.
PIECES = [0, 1, 5, 8, 11, 13, 14, 17, 18, 19, 26, 30, 60, 200]


class Schedule:
    """A schedule of one to three units, as it grows line by line."""

    def __init__(self, seed):
        self.chance = random.Random(seed)
        self.units = self.chance.sample(range(1, 65), self.chance.choice([1, 1, 1, 2, 3]))
        self.ids = {unit: [] for unit in self.units}
        self.sent = dict.fromkeys(self.units, 0)
        self.begun = set()
        self.lines = []
        for _ in range(self.chance.choice([40, 120, 250])):
            self.goes_on(self.chance.choice(self.units))

    def text(self):
        return ''.join(line + '\n' for line in self.lines)

    def often(self, share):
        return self.chance.random() < share

    def says(self, unit, *words):
        self.lines.append(' '.join([str(unit), *map(str, words)]))

    def goes_on(self, unit):
        if unit not in self.begun:
            self.begun.add(unit)
            if self.often(0.8):
                return self.says(unit, 'open', *self.limits())
        kind = self.chance.choices(
            ['command', 'flush', 'beat', 'line', 'open', 'cut', 'carry', 'advertise', 'tick', 'show', 'quote'],
            [18, 12, 3, 17, 6, 1.5, 20.5, 5, 11, 3, 3])[0]
        getattr(self, 'says_' + kind)(unit)

    def limits(self):
        choices = [('hold', 0.9, [1, 1, 2, 2, 3, 8]), ('kept', 0.6, [1, 2, 3, 8, 100]), ('second', 0.4, [1]),
                   ('minute', 0.5, [1, 2, 5]), ('day', 0.5, [1, 3, 9])]
        return ['%s=%d' % (name, self.chance.choice(values)) for name, share, values in choices if self.often(share)]

    # ---- The venue
    def says_command(self, unit):
        words = self.adds(unit) if self.often(0.5) or not self.ids[unit] else self.changes(unit)
        if words[0] != 'time' and self.often(0.1):
            words.append('at=%d' % self.chance.choice([0, 999999999]))
        self.says(unit, *words)

    def adds(self, unit):
        id = self.chance.choice(IDS)
        self.ids[unit].append(id)
        words = ['add', id] + [self.chance.choice(values) for values in ('BS', QUANTITIES, SYMBOLS, PRICES)]
        return words + ['hidden'] * self.often(0.2) + ['mpid=' + self.chance.choice(['A', 'ABCD'])] * self.often(0.2)

    def changes(self, unit):
        id, shares = self.chance.choice(self.ids[unit]), self.chance.choice([1, 2, 5, 70000])
        return self.chance.choices([
            ['exec', id, shares, 7], ['reduce', id, shares], ['modify', id, shares, '2.50'],
            ['modify', id, shares, 700, 'hidden'], ['delete', id], ['execat', id, 1, self.chance.choice([0, 3]), 5, '9.99'],
            ['clear'], ['time', self.chance.randrange(86400)], ['trade', id, 'B', 5, 'IBM', 3, 4], ['break', 5], ['end'],
            self.status(),
        ], [13, 13, 13, 13, 17, 8, 5, 9, 5, 3, 1, 12])[0]

    def status(self):
        return ['status'] + [self.chance.choice(values) for values in (SYMBOLS, STATUS_BYTES, STATUS_BYTES)]

    def says_flush(self, unit):
        self.sent[unit] += 1
        self.says(unit, 'flush')

    def says_beat(self, unit):
        self.sent[unit] += 1
        self.says(unit, 'beat')

    # ---- The lines
    def says_line(self, unit):
        which = 'rest' if self.often(0.3) else self.chance.randint(1, self.sent[unit] + 1)
        self.says(unit, self.chance.choice('aabbg'), which)

    # ---- Sessions
    def session(self):
        return self.chance.choice(['grp', 'spin'])

    def says_open(self, unit):
        session = self.session()
        self.says(unit, session, 'open')
        if self.often(0.8):
            self.carries_all(unit, session)

    def says_cut(self, unit):
        self.says(unit, self.session(), 'cut')

    def says_carry(self, unit):
        count = 'all' if self.often(0.75) else self.chance.choice(PIECES)
        self.says(unit, self.session(), self.chance.choice(['up', 'down']), count)

    def carries_all(self, unit, session):
        self.says(unit, session, 'up all')
        self.says(unit, session, 'down all')

    def says_advertise(self, unit):
        self.says(unit, 'advertise')

    def says_tick(self, unit):
        # more than five in a row close an end that hears nothing
        for _ in range(self.chance.randint(2, 8) if self.often(0.15) else 1):
            self.says(unit, 'tick')
        if self.often(0.5):
            self.carries_all(unit, 'grp')
            self.carries_all(unit, 'spin')
            if self.often(0.5):
                self.says(unit, 'g rest')

    # ---- What is printed
    def says_show(self, unit):
        self.says(unit, 'show')

    def says_quote(self, unit):
        self.says(unit, 'quote', self.chance.choice(['IBM', 'A', 'ABCDEFGH']))


def words_of(seed, workers):
    """The words after `replay` of each run of a schedule, where these workers are given."""
    if not workers:
        workers = [seed % 5 + 1] if seed % 3 == 0 else [None]
    return [[] if k is None else ['--workers', str(k)] for k in workers]


def fault_of(program, words, schedule, wanted):
    """What is wrong with the run of a schedule; None where nothing is."""
    command = [program, 'replay'] + words
    done = subprocess.run(command, input=schedule, capture_output=True, text=True)
    if done.returncode != 0 or done.stderr:
        return 'status %d, standard error %r' % (done.returncode, done.stderr.strip())
    for mine, theirs in zip(done.stdout.split('\n'), wanted.split('\n')):
        if mine != theirs:
            return '%r, and the second World writes %r' % (mine, theirs)
    return None if done.stdout == wanted else 'one writes more than the other'


def write(folder, name, text):
    with open(os.path.join(folder, name), 'w') as file:
        file.write(text)


def main():
    usage = 'compare.py (PROGRAM | --write FOLDER) [--count N] [--from SEED] [--workers K ..]'
    parser = argparse.ArgumentParser(usage=usage)
    parser.add_argument('program', nargs='?')
    parser.add_argument('--count', type=int, default=600)
    parser.add_argument('--from', type=int, default=0, dest='first')
    parser.add_argument('--workers', type=int, nargs='+', metavar='K')
    parser.add_argument('--write')
    given = parser.parse_args()
    if (given.program is None) == (given.write is None):
        parser.error('a program or --write FOLDER')
    if given.program and not os.access(given.program, os.X_OK):
        sys.exit('compare.py: %s is no program' % given.program)
    failed = runs = lines = 0
    for seed in range(given.first, given.first + given.count):
        schedule = Schedule(seed).text()
        wanted = model.replayed(schedule)
        lines += schedule.count('\n')
        if given.write:
            write(given.write, '%d' % seed, schedule)
            write(given.write, '%d.stdout' % seed, wanted)
            continue
        for words in words_of(seed, given.workers):
            fault = fault_of(given.program, words, schedule, wanted)
            runs += 1
            if fault:
                failed += 1
                write('.', 'different-%d.txt' % seed, schedule)
                print('FAIL %s: %s' % (' '.join([str(seed)] + words), fault))
    print('%d schedules, %d lines' % (given.count, lines))
    if given.write is None:
        print('%d passed, %d failed' % (runs - failed, failed))
    sys.exit(1 if failed else 0)


if __name__ == '__main__':
    main()
