#!/usr/bin/env python3
"""Carries the books of a piece of a day over to the next piece, for a day above the limit of one
input.

    examples/desk/carry.py BOOKS [--number TEXT] [--told PIECE]

    ./pitch follow < PIECE1 > BOOKS1
    (examples/desk/carry.py BOOKS1; cat PIECE2) | ./pitch relay | ./pitch follow > TEXT2
    examples/desk/carry.py BOOKS1 --number TEXT2 > BOOKS2
    examples/desk/carry.py BOOKS2 --told PIECE2

With one file it writes each book of it as a Spin Server sends an image (docs/FEED.md, "Images"),
which `relay` takes before the blocks that follow. `follow` then numbers the messages of the relay;
with --number the books of its text are written under the venue's numbers, and BOOKS2 can be carried
over in turn. With --told it says for each unit whether its book has all that the piece tells of,
as `current N` or `behind N of TOP`, and the exit status is 1 where one is behind.

What a unit held above a gap at the end of a piece is in no book: let PIECE2 begin some minutes
before the end of PIECE1. A message that was heard before is passed over. Pieces are whole blocks;
of a capture, blocks.py makes them.
"""
import re
import struct
import sys

from desk import Fault, Words, blocks_of, header_of, run

BOOK = re.compile(r'book unit (\d+) at (\d+) second (\d+|-) orders (\d+)$')
# Of a block, which counts its messages in a byte.
MOST_MESSAGES = 250


def name(text, width):
    """The bytes of a printed name."""
    return re.sub(r'\\x(..)', lambda it: chr(int(it[1], 16)), text).encode('latin-1').ljust(width)


def add_order(words):
    """Add Order, expanded, of the words of an order line."""
    more = words[6:]
    mpid = next((word[5:] for word in more if word.startswith('mpid=')), '')
    dollars, fraction = words[5].split('.')
    return struct.pack('<BBIQcI8sQB4s', 40, 0x2f, 0, int(words[1]), words[2].encode(),
                       int(words[3]), name(words[4], 8), int(dollars) * 10000 + int(fraction),
                       0 if 'hidden' in more else 1, name(mpid, 4))


def trading_status(words):
    return struct.pack('<BBI8s1s1s2s', 18, 0x31, 0, *map(name, words[1:4], (8, 1, 1)), b'  ')


MESSAGES = {'order': add_order, 'status': trading_status}


class Book:
    """A printed book: its unit, its number, how many orders it has, and its image's messages."""

    def __init__(self, named):
        self.unit, self.at, self.orders = int(named[1]), int(named[2]), int(named[4])
        self.raws = [] if named[3] == '-' else [struct.pack('<BBI', 6, 0x20, int(named[3]))]

    def block(self, raws):
        body = b''.join(raws)
        return struct.pack('<HBBI', 8 + len(body), len(raws), self.unit, 0) + body

    def image(self):
        """The blocks in which a Spin Server sends it."""
        yield self.block([struct.pack('<BBI', 6, 0x80, self.at)])
        yield self.block([struct.pack('<BBIIc', 11, 0x82, self.at, self.orders, b'A')])
        for first in range(0, len(self.raws), MOST_MESSAGES):
            yield self.block(self.raws[first:first + MOST_MESSAGES])
        yield self.block([struct.pack('<BBI', 6, 0x83, self.at)])


def books_of(path):
    """The books of a text that `follow` wrote."""
    books = []
    with open(path, encoding='latin-1') as file:
        for number, line in enumerate(file, 1):
            words = line.split()
            try:
                if named := BOOK.match(line.rstrip('\n')):
                    books.append(Book(named))
                elif words and words[0] in MESSAGES:
                    books[-1].raws.append(MESSAGES[words[0]](words))
            except (IndexError, TypeError, ValueError, struct.error):
                raise Fault('%s: line %d is no line of a book' % (path, number)) from None
    if not books:
        raise Fault('%s has no book: did `follow` end with status 0?' % path)
    return books


def numbered(books, path):
    """The lines of a text of the relay under the venue's numbers, without those of its blocks."""
    # The relay sent a Unit Clear and the image; the venue's next message is its next one.
    before = {it.unit: it.at - 1 - len(it.raws) for it in books if it.at}
    with open(path, encoding='latin-1') as file:
        for line in file:
            if named := BOOK.match(line.rstrip('\n')):
                at = int(named[2]) + before.get(int(named[1]), 0)
                yield 'book unit %s at %d second %s orders %s\n' % (named[1], at, *named.group(3, 4))
            elif not line.startswith('block '):
                yield line


def tell(books, path):
    """Says of each unit how far its book is behind what a piece tells of."""
    tops, reaches = {}, {it.unit: it.at for it in books}
    with open(path, 'rb') as file:
        piece = file.read()
    place = 0
    for block in blocks_of(piece):
        unit, first, count = header_of(block)
        if first:
            tops[unit] = max(tops.get(unit, 0), first + count - 1)
        place += len(block)
    if place < len(piece):
        raise Fault('%s: at byte %d stands no whole block' % (path, place))
    behind = {unit for unit, top in tops.items() if top > reaches.get(unit, 0)}
    for unit in sorted(tops.keys() | reaches.keys()):
        reach = reaches.get(unit, 0)
        print('unit %d %s' % (unit, 'behind %d of %d' % (reach, tops[unit]) if unit in behind
                              else 'current %d' % reach))
    return 1 if behind else 0


def main():
    words = Words(__doc__)
    words.add_argument('BOOKS')
    words.add_argument('--number', metavar='TEXT')
    words.add_argument('--told', metavar='PIECE')
    given = words.parse_args()
    books = books_of(given.BOOKS)
    if given.told:
        return tell(books, given.told)
    if given.number:
        sys.stdout.writelines(numbered(books, given.number))
    else:
        sys.stdout.buffer.writelines(piece for it in books if it.at for piece in it.image())


if __name__ == '__main__':
    run(main)
