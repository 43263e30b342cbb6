#!/usr/bin/env python3
"""Makes the input of `pitch audit` of a block stream and a printed report.

    examples/audit/make_input.py STREAM REPORT > INPUT

STREAM is a file of blocks as `follow` reads them, of any units, repeated, late or out of order. The
log has the messages of each unit in their order, from sequence 1 on, in blocks as a venue packs them,
and ends before the first that no block of the stream has; a line on standard error says where that
is. Blocks with sequence 0 and heartbeats have nothing for it. REPORT is a file with what was printed;
it is copied as it stands; where `audit` would read no book in it, a line on standard error says so.
INPUT is the number of the log's bytes in 8 bytes, the log, and the report.

A stream that does not end with a whole block, or that has two messages with one sequence, is no day
of one venue: nothing is written, and the exit status is 1. Whatever is wrong is one line.
"""
import os
import struct
import sys

DATAGRAM_SIZE = 1400
MOST_MESSAGES = 255
CAPTURES = ('d4c3b2a1', '4d3cb2a1', 'a1b2c3d4', 'a1b23c4d', '0a0d0d0a')


def say(text):
    print('%s: %s' % (os.path.basename(sys.argv[0]), text), file=sys.stderr)


def fail(text):
    say(text)
    sys.exit(1)


def blocks(stream):
    """The unit, the first sequence and the messages of each block."""
    at = 0
    if stream[:4].hex() in CAPTURES:
        fail('the stream is a capture: examples/desk/blocks.py takes its blocks out')
    while at < len(stream):
        if len(stream) - at < 8:
            fail('byte %d: the stream ends inside a block' % at)
        length, count, unit, first = struct.unpack_from('<HBBI', stream, at)
        if length < 8 or len(stream) - at < length:
            fail('byte %d: no whole block' % at)
        raws, place = [], at + 8
        for _ in range(count):
            size = stream[place] if place < at + length else 0
            if size < 2 or place + size > at + length:
                fail('byte %d: no whole message' % place)
            raws.append(stream[place:place + size])
            place += size
        yield unit, first, raws
        at += length


def messages(stream):
    """For each unit the messages by their sequences."""
    units = {}
    for unit, first, raws in blocks(stream):
        if first:
            known = units.setdefault(unit, {})
            for sequence, raw in enumerate(raws, first):
                if known.setdefault(sequence, raw) != raw:
                    fail('unit %d: two messages have sequence %d' % (unit, sequence))
    return units


def from_the_first(unit, known):
    """The messages from sequence 1 up to the first that is missing."""
    raws = []
    while len(raws) + 1 in known:
        raws.append(known[len(raws) + 1])
    if len(raws) < len(known):
        say('unit %d: the log ends before message %d, which no block has' % (unit, len(raws) + 1))
    return raws


def block(unit, first, raws):
    body = b''.join(raws)
    return struct.pack('<HBBI', 8 + len(body), len(raws), unit, first) + body


def packed(unit, raws):
    """Blocks of messages from sequence 1 on, each within a datagram."""
    first = 0
    while first < len(raws):
        last, size = first, 8
        while last < len(raws) and last - first < MOST_MESSAGES and size + len(raws[last]) <= DATAGRAM_SIZE:
            size += len(raws[last])
            last += 1
        yield block(unit, first + 1, raws[first:last])
        first = last


def log_of(stream):
    units = messages(stream)
    return b''.join(b''.join(packed(unit, from_the_first(unit, units[unit]))) for unit in sorted(units))


def input_of(log, report):
    return struct.pack('<Q', len(log)) + log + report


def contents(name):
    try:
        with open(name, 'rb') as file:
            return file.read()
    except OSError as error:
        fail('%s: %s' % (name, error.strerror))


def warn_of(report):
    """Says where `audit` would take no line of a report for a book's."""
    if b'\r\n' in report:
        say("the report's lines end in a carriage return, which no line of a book has: tr -d '\\r'")
    if not report.startswith(b'book ') and b'\nbook ' not in report:
        say('no line of the report begins with `book `, so nothing is checked')


def main():
    if len(sys.argv) != 3:
        fail('usage: make_input.py STREAM REPORT')
    log, report = log_of(contents(sys.argv[1])), contents(sys.argv[2])
    warn_of(report)
    try:
        sys.stdout.buffer.write(input_of(log, report))
        sys.stdout.flush()
    except BrokenPipeError:
        # Its reader is gone, and has said why.
        os.dup2(os.open(os.devnull, os.O_WRONLY), 1)
        sys.exit(141)


if __name__ == '__main__':
    main()
