#!/usr/bin/env python3
"""Writes sample.pitch, beside this file: what a follower of two units reads from its lines A and B.

    examples/make_sample.py

All numbers are little endian. docs/FEED.md has the tables of blocks and messages.
"""
import os
import struct


def text(word, width):
    """ASCII, padded with spaces on the right."""
    return word.encode('ascii').ljust(width)


def message(kind, fields):
    """A message begins with its length and its type."""
    return struct.pack('<BB', 2 + len(fields), kind) + fields


def block(unit, sequence, messages):
    """A header of eight bytes (length, count, unit, sequence), and the messages."""
    body = b''.join(messages)
    return struct.pack('<HBBI', 8 + len(body), len(messages), unit, sequence) + body


def time(second):
    # second
    return message(0x20, struct.pack('<I', second))


def add_long(order, side, quantity, symbol, price, flags=1):
    # offset, id, side, quantity (4), symbol (6), price in ten-thousandths (8), flags (bit 0: displayed)
    return message(0x21, struct.pack('<IQcI', 0, order, side, quantity) + text(symbol, 6) + struct.pack('<QB', price, flags))


def add_short(order, side, quantity, symbol, cents, flags=1):
    # offset, id, side, quantity (2), symbol (6), price in hundredths (2), flags
    return message(0x22, struct.pack('<IQcH', 0, order, side, quantity) + text(symbol, 6) + struct.pack('<HB', cents, flags))


def add_expanded(order, side, quantity, symbol, price, flags, participant, more=b''):
    # offset, id, side, quantity (4), symbol (8), price (8), flags, participant (4); `more` is what a later edition
    # of the feed may append, which is ignored
    return message(0x2F, struct.pack('<IQcI', 0, order, side, quantity) + text(symbol, 8)
                   + struct.pack('<QB', price, flags) + text(participant, 4) + more)


def executed(order, quantity, execution):
    # offset, id, executed, execution
    return message(0x23, struct.pack('<IQIQ', 0, order, quantity, execution))


# Unit 1: the clock shows 9:30:00, and an order to buy is added at a price that is no whole number of cents.
OPEN = block(1, 1, [time(34200), add_long(100, b'B', 500, 'ACME', 123456)])
# An order to sell, in the short form.
OFFER = block(1, 3, [add_short(101, b'S', 200, 'ACME', 1240)])
# Part of the order to buy is executed.
TRADE = block(1, 4, [executed(100, 200, 9001)])
# Nothing more was sent so far: a heartbeat names the sequence of the next message.
BEAT = block(1, 5, [])

# Unit 2: a hidden order of a named participant, in a message that has grown by two bytes.
HIDDEN = block(2, 1, [time(34200), add_expanded(7, b'S', 1000, 'ZVZZT+P', 105000, 0, 'ABCD', b'\xaa\xbb')])
# A message of a type that is in no table: it has a sequence, and changes nothing.
UNKNOWN = block(2, 3, [message(0x99, b'\x07')])

STREAM = [
    OPEN,     # line A
    HIDDEN,   # line A
    # OFFER was lost on line A
    TRADE,    # line A: comes too early, and is held
    UNKNOWN,  # line A
    BEAT,     # line A
    OFFER,    # line B: fills the gap
    UNKNOWN,  # line B: is known already
]


def main():
    path = os.path.join(os.path.dirname(os.path.abspath(__file__)), 'sample.pitch')
    with open(path, 'wb') as file:
        file.write(b''.join(STREAM))


if __name__ == '__main__':
    main()
