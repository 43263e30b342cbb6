#!/usr/bin/env python3
"""Every wrong line of a report as CSV, where `pitch audit` names the first.

    examples/desk/wrong.py PROGRAM STREAM REPORT > wrong.csv

STREAM is what ../audit/make_input.py reads. For each book of the report `follow` is given the
messages up to the number that the book names; what it prints is the book that is right. Orders are
compared by their ids and statuses by their symbols. `line` is the number in the report. `what` is

    missing   the book has the line, and the report does not
    extra     the report has it, and the book does not
    other     both have it, and a field is another
    order     the lines are right, and from here on in another order
    book      the line of the book itself
    far       the log does not reach the number that the book names
    stray     a line that is in no book

The exit status is 1 where a line is wrong, and 3 where the report has no book, so that nothing was
compared.
"""
import csv
import os
import re
import subprocess
import sys

from desk import Words, run

sys.path.insert(0, os.path.join(os.path.dirname(os.path.abspath(__file__)), '..', 'audit'))
from make_input import contents, from_the_first, messages, packed, warn_of

BOOK = re.compile(r'book unit (\d+) at (\d+) second (\d+|-) orders (\d+)$')


def key_of(line):
    """`order 100` or `status ACME`."""
    return ' '.join(line.split(' ')[:2])


def books_of(report):
    """For each book its line's number, the line, and the lines behind it with their numbers; a
    first one of no book."""
    books, between = [(0, '', [])], []
    for number, line in enumerate(report, 1):
        if line.startswith('book '):
            books.append((number, line, []))
            between = []
        elif not line.startswith(('order ', 'status ')):
            between.append((number, line))
        else:
            # Inside a book no other line may stand.
            books[-1][2].extend((between if len(books) > 1 else []) + [(number, line)])
            between = []
    return books


def right_book(program, unit, raws):
    """The lines of the book that the messages leave."""
    feed = b''.join(packed(unit, raws)) or bytes((8, 0, 0, unit, 1, 0, 0, 0))
    done = subprocess.run([program, 'follow'], input=feed, stdout=subprocess.PIPE, check=True)
    return [line for line in done.stdout.decode().splitlines() if not line.startswith('block ')]


def wrong_of(program, units, book):
    """The rows of one book: unit, number, what, line, found, right."""
    number, head, lines = book
    named = BOOK.match(head)
    if not named or int(named[1]) not in range(256):
        for at, line in ([(number, head)] if head else []) + lines:
            yield '', '', 'stray', at, line, ''
        return
    unit, reach = int(named[1]), int(named[2])
    raws = units.get(unit, [])
    if reach > len(raws):
        yield unit, reach, 'far', number, head, 'the log has %d messages of the unit' % len(raws)
        return
    right = right_book(program, unit, raws[:reach])
    if right[0] != head:
        yield unit, reach, 'book', number, head, right[0]
    for row in wrong_lines(lines, right[1:]):
        yield unit, reach, *row


def wrong_lines(lines, right):
    """The rows of the lines behind the book's own."""
    found = [line for _, line in lines]
    if found != right and sorted(found) == sorted(right):
        (at, line), wanted = next(it for it in zip(lines, right) if it[0][1] != it[1])
        yield 'order', at, line, wanted
    left = {key_of(line): line for line in right}
    for at, line in lines:
        wanted = left.pop(key_of(line), None)
        if wanted is None:
            yield 'extra', at, line, ''
        elif wanted != line:
            yield 'other', at, line, wanted
    for wanted in left.values():
        yield 'missing', '', '', wanted


def main():
    words = Words(__doc__)
    for word in ('PROGRAM', 'STREAM', 'REPORT'):
        words.add_argument(word)
    given = words.parse_args()
    known, report = messages(contents(given.STREAM)), contents(given.REPORT)
    warn_of(report)
    units = {unit: from_the_first(unit, of_unit) for unit, of_unit in known.items()}
    books = books_of(report.decode('utf-8', 'backslashreplace').split('\n'))
    out = csv.writer(sys.stdout, lineterminator='\n')
    out.writerow(('unit', 'at', 'what', 'line', 'found', 'right'))
    count = 0
    for book in books:
        for row in wrong_of(os.path.abspath(given.PROGRAM), units, book):
            count += 1
            out.writerow(row)
    print('wrong.py: books %d wrong lines %d' % (len(books) - 1, count), file=sys.stderr)
    return 1 if count else 0 if len(books) > 1 else 3


if __name__ == '__main__':
    run(main)
