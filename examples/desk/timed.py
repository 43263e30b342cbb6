#!/usr/bin/env python3
"""Best bid and best offer of symbols over the day as CSV, with the times of each change.

    examples/desk/timed.py PROGRAM FEED [SYMBOL..] > quotes.csv

FEED is a file of blocks, or a classic capture, of the lines alone. A row stands for each message
that changed a best price or the shares at it: the best of both sides after the message, empty where
a side has no order. `time` is the venue's, from midnight Eastern: the second of the unit's last Time
message, and the offset of the message where it has one; empty before the first Time. `packet` is the
time of the packet with which `quotes` could write the row, in the time zone of TZ; that is the one
that filled the gap where messages were missing before. Of blocks it is empty.

Where a unit lacks messages at the end, its rows end before the first of them: standard error says
after which time nothing is told, and the exit status is 1.
"""
import bisect
import csv
import os
import subprocess
import sys
import tempfile

from desk import FORMATS, Fault, Words, blocks_of, clock, datagrams_of, run


def feed_of(path, folder):
    """A file of the blocks of a feed and, of a capture, the time of each block."""
    with open(path, 'rb') as file:
        if file.read(4).hex() not in FORMATS:
            return path, None
        file.seek(0)
        bare, times = os.path.join(folder, 'feed'), []
        with open(bare, 'wb') as out:
            for now, _, _, data in datagrams_of(file):
                for block in blocks_of(data):
                    times.append(now)
                    out.write(block)
        return bare, times


def lines_of(program, form, path):
    """The lines that a form of the program writes, as they come."""
    with open(path, 'rb') as feed:
        words = [program, form]
        with subprocess.Popen(words, stdin=feed, stdout=subprocess.PIPE, text=True) as process:
            yield from process.stdout
    if process.returncode:
        raise Fault('%s ended with status %d' % (form, process.returncode))


class Reaches:
    """How far each unit came with each block, by what `follow` writes."""

    def __init__(self, program, path, times):
        self.numbers, self.times, self.behind = {}, {}, {}
        for line in lines_of(program, 'follow', path):
            words = line.split()
            if words[0] != 'block':
                continue
            status = line.rstrip('\n').split('; ')[1]
            unit, kind, *numbers = words[3], *status.split()
            reach = int(numbers[0]) if numbers else 0
            self.behind[unit] = status if kind == 'behind' else None
            if times and reach > self.numbers.setdefault(unit, [0])[-1]:
                self.numbers[unit].append(reach)
                self.times.setdefault(unit, [None]).append(times[int(words[1]) - 1])

    def packet(self, unit, at):
        """The time of the packet with which a unit came to a message."""
        if unit not in self.times:
            return ''
        return clock(*self.times[unit][bisect.bisect_left(self.numbers[unit], int(at))])


def messages_of(lines):
    """The unit, the number and the venue's time of each message that `show` prints; the time in
    nanoseconds from midnight."""
    unit, seconds = None, {}
    for line in lines:
        words = line.split()
        if words[0] == 'block':
            unit = words[3]
            continue
        offset = 0
        if words[1] == 'time':
            seconds[unit] = int(words[2].split('=')[1])
        elif len(words) > 2 and words[2].startswith('offset='):
            offset = int(words[2].split('=')[1])
        yield unit, words[0], seconds[unit] * 10**9 + offset if unit in seconds else None


def time_of_day(time):
    if time is None:
        return ''
    second, nanosecond = divmod(time, 10**9)
    return '%02d:%02d:%02d.%09d' % (second // 3600, second // 60 % 60, second % 60, nanosecond)


def bests_of(lines, symbols):
    """The unit, the number and the symbol of each message that changed a best, with both sides."""
    best, key = {}, None
    for line in lines:
        _, _, unit, _, at, symbol, side, price, quantity = line.split()
        if symbols and symbol not in symbols:
            continue
        if key and key != (unit, at, symbol):
            yield *key, *sides['B'], *sides['S']
        key, sides = (unit, at, symbol), best.setdefault((unit, symbol), {'B': ('', ''), 'S': ('', '')})
        sides[side] = ('', '') if price == '-' else (price, quantity)
    if key:
        yield *key, *sides['B'], *sides['S']


def write_rows(program, clean, symbols, reaches):
    """Writes the rows, and answers the time of the last message of each unit."""
    out, last, told = csv.writer(sys.stdout, lineterminator='\n'), {}, None
    sides = ('bid', 'bid_quantity', 'offer', 'offer_quantity')
    out.writerow(('time', 'packet', 'unit', 'at', 'symbol', *sides))
    # Each message stands in it once and in order, so `show` and `quotes` tell of them in one order.
    messages = messages_of(lines_of(program, 'show', clean))
    for unit, at, *rest in bests_of(lines_of(program, 'quotes', clean), symbols):
        while told != (unit, at):
            *told, time = next(messages)
            told = tuple(told)
            last[told[0]] = time
        out.writerow((time_of_day(time), reaches.packet(unit, at), unit, at, *rest))
    last.update((unit, time) for unit, _, time in messages)
    return last


def main():
    words = Words(__doc__)
    words.add_argument('PROGRAM')
    words.add_argument('FEED')
    words.add_argument('SYMBOL', nargs='*')
    given, status = words.parse_args(), 0
    program = os.path.abspath(given.PROGRAM)
    with tempfile.TemporaryDirectory() as folder:
        feed, times = feed_of(given.FEED, folder)
        reaches, clean = Reaches(program, feed, times), os.path.join(folder, 'clean')
        with open(feed, 'rb') as source, open(clean, 'wb') as out:
            subprocess.run([program, 'relay'], stdin=source, stdout=out, check=True)
        last = write_rows(program, clean, set(given.SYMBOL), reaches)
    for unit, behind in reaches.behind.items():
        if behind:
            status, end = 1, time_of_day(last.get(unit)) or 'the start'
            print('timed.py: unit %s is %s: nothing is told after %s' % (unit, behind, end), file=sys.stderr)
    return status


if __name__ == '__main__':
    run(main)
