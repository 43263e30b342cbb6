#!/usr/bin/env python3
"""What each line of a capture lost, what all of them lost, and when, as CSV.

    examples/desk/losses.py [--gap PORT].. < FILE.pcap

A row is messages of a unit that follow one another. `line` is the group and port on which they did
not come, or `all` where they came on none before a later message did. `after` is the time of the
packet before them, `seen` of the first one behind them, and `filled` of the one that brought the
last of them after all, empty where none did. Times are those of the packets, in the time zone of
TZ. A port given by --gap is a gap line: what it lacks is no loss, and it has no rows, but what it
brings fills those of `all`. Messages after the last that a line tells of are not known to be lost.
"""
import bisect
import csv
import sys

from desk import Words, blocks_of, clock, datagrams_of, header_of, run


class Line:
    """The messages of a unit on a line: the next one, and the runs that were passed over, rising."""

    def __init__(self):
        self.next, self.last, self.open, self.rows = 1, None, [], []

    def hear(self, first, count, now):
        end = first + count
        if first > self.next:
            self.open.append((self.next, first - 1, self.last, now))
        elif count and first < self.next:
            self.fill(first, end - 1, now)
        self.next, self.last = max(self.next, end), now

    def fill(self, first, last, now):
        """Takes what came after all out of the open runs, of which the rest stays open."""
        at = bisect.bisect_left(self.open, (first,))
        if at and self.open[at - 1][1] >= first:
            at -= 1
        end, left = at, []
        while end < len(self.open) and self.open[end][0] <= last:
            low, high, after, seen = self.open[end]
            self.rows.append((max(low, first), min(high, last), after, seen, now))
            rests = ((low, first - 1), (last + 1, high))
            left += [(begin, stop, after, seen) for begin, stop in rests if begin <= stop]
            end += 1
        self.open[at:end] = left

    def all_rows(self):
        """The rows by their messages; those of one gap that stand side by side are one, where all
        of it was filled or nothing."""
        rows = []
        for row in sorted(self.rows + [it + (None,) for it in self.open], key=lambda it: it[0]):
            last = rows[-1] if rows else None
            joins = last and last[1] + 1 == row[0] and last[2:4] == row[2:4]
            if joins and bool(last[4]) == bool(row[4]):
                filled = max(last[4], row[4]) if row[4] else None
                rows[-1] = (last[0], row[1], *row[2:4], filled)
            else:
                rows.append(row)
        return rows


def lines_of(file, gaps):
    """What was heard of each unit on each line of a capture."""
    lines = {}
    for now, group, port, data in datagrams_of(file):
        name = '%d.%d.%d.%d:%d' % (*group, port)
        for unit, first, count in map(header_of, blocks_of(data)):
            if first:
                for line in ['all'] if port in gaps else ['all', name]:
                    lines.setdefault((unit, line), Line()).hear(first, count, now)
    return lines


def main():
    words = Words(__doc__)
    words.add_argument('--gap', type=int, action='append', default=[])
    lines = lines_of(sys.stdin.buffer, words.parse_args().gap)
    out = csv.writer(sys.stdout, lineterminator='\n')
    out.writerow(('unit', 'line', 'first', 'last', 'messages', 'after', 'seen', 'filled'))
    for (unit, line), told in sorted(lines.items()):
        for first, last, *times in told.all_rows():
            shown = (clock(*it) if it else '' for it in times)
            out.writerow((unit, line, first, last, last - first + 1, *shown))


if __name__ == '__main__':
    run(main)
