#!/usr/bin/env python3
"""Merges what tshark tells of a capture of lines and of a Spin Server into blocks, for `pitch relay`.

    tshark -r FILE -Y 'udp.dstport == 30501 or (tcp.srcport == 30601 and tcp.len > 0)' \\
        -T fields -e udp.payload -e tcp.stream -e tcp.seq -e tcp.payload \\
        | examples/desk/merge.py | ./pitch relay > clean.pitch

The blocks of a Spin Server are put together from its segments, whatever comes twice or out of order,
and stand where the last byte of each came. A connection has to be captured from its start. Of the
images that were advertised only those are kept whose request was accepted: a relay takes the first
that is advertised to it, and whoever was captured may have asked for a later one.
"""
import sys

from desk import Fault, run

AVAILABLE, RESPONSE = 0x80, 0x82


class Stream:
    """The bytes of a connection, from its first segment on."""

    def __init__(self):
        self.next, self.early, self.bytes = 1, {}, b''

    def take(self, first, data):
        """The blocks that a segment completes."""
        self.early[first] = max(self.early.get(first, b''), data, key=len)
        while early := [k for k in self.early if k <= self.next]:
            piece = self.early.pop(early[0])[self.next - early[0]:]
            self.bytes, self.next = self.bytes + piece, self.next + len(piece)
        while len(self.bytes) >= 8 and len(self.bytes) >= (size := int.from_bytes(self.bytes[:2], 'little')) >= 8:
            yield self.bytes[:size]
            self.bytes = self.bytes[size:]


def messages(block):
    """The messages of a block."""
    at = 8
    while at < len(block):
        yield block[at:at + block[at]]
        at += block[at]


def sequence(message):
    return int.from_bytes(message[2:6], 'little')


def is_accepted(message):
    return message[1] == RESPONSE and message[10:11] == b'A'


def without(block, passes):
    """The block without the messages that pass a test; nothing where none is left."""
    left = [message for message in messages(block) if not passes(message)]
    body = b''.join(left)
    return (len(body) + 8).to_bytes(2, 'little') + bytes([len(left)]) + block[3:8] + body if left else b''


def fields_of(number, line):
    """The datagram of a line of tshark, or else the connection, the place and the bytes of a segment."""
    try:
        udp, stream, first, tcp = line.rstrip('\n').split('\t')
        udp, tcp = (bytes.fromhex(it.replace(':', '')) for it in (udp, tcp))
        return udp, stream, 0 if udp else int(first), tcp
    except ValueError:
        raise Fault('line %d has not the four fields of tshark' % number) from None


def main():
    streams, lines_and_blocks, wanted = {}, [], set()
    for number, line in enumerate(sys.stdin, 1):
        udp, stream, first, tcp = fields_of(number, line)
        if udp:
            lines_and_blocks.append((False, udp))
            continue
        for block in streams.setdefault(stream, Stream()).take(first, tcp):
            lines_and_blocks.append((True, block))
            wanted |= {(block[3], sequence(it)) for it in messages(block) if is_accepted(it)}
    for is_spin, block in lines_and_blocks:
        if is_spin:
            block = without(block, lambda it: it[1] == AVAILABLE and (block[3], sequence(it)) not in wanted)
        sys.stdout.buffer.write(block)


if __name__ == '__main__':
    run(main)
