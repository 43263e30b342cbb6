#!/usr/bin/env python3
"""Writes what the client of a storm's unit gets from lines A and B, to try a feed handler with.

    examples/desk/storm_feed.py PROGRAM NUMBER UNIT STEPS [--filled] [--pcap]

The messages are those that PROGRAM packs of the storm's commands, each in a block of its own;
commands, losses and order are those of docs/FEED.md, "The plan" and "A storm". Without --pcap the
blocks stand back to back. With it each is a packet of a capture, which tcpreplay plays: to
233.218.133.80:30501 (line A), 233.218.133.96:31501 (line B) or 233.218.133.112:32501 (gap line).
With --filled what both lines lost comes on the gap line at the next tenth step, and the rest at the
end: a handler then ends with the orders and shares that `pitch storm` prints of the unit.
"""
import struct
import subprocess
import sys

from desk import Words, run

MASK = (1 << 64) - 1
LINE_A, LINE_B, GAP_LINE = 1, 2, 3
PORTS = {LINE_A: 30501, LINE_B: 31501, GAP_LINE: 32501}
HOSTS = {LINE_A: 80, LINE_B: 96, GAP_LINE: 112}


def mix(x):
    """The mixing of SplitMix64."""
    x = (x ^ (x >> 30)) * 0xBF58476D1CE4E5B9 & MASK
    x = (x ^ (x >> 27)) * 0x94D049BB133111EB & MASK
    return x ^ (x >> 31)


def is_lost(number, unit, i, line):
    """Whether the copy of message i on a line is lost."""
    return mix((number + 0x9E3779B97F4A7C15 * (1000000 * unit + 10 * i + line)) & MASK) % 20 == 0


def price(ten_thousandths):
    return '%d.%04d' % divmod(ten_thousandths, 10000)


def command(number, unit, i):
    """The command at place i of the plan."""
    round_number, place = divmod(i - 1, 8)
    quantity = 100 + (number + unit + 37 * i) % 400
    base = 100 * (1000 + (number + i) % 200)
    symbol = ('ALPHA', 'BETA', 'GAMMADLT')[i % 3]
    return ('time %d' % (34200 + round_number % 50000),
            'add %d B %d %s %s' % (i, quantity, symbol, price(base)),
            'add %d S %d %s %s' % (i, quantity, symbol, price(base + 10000)),
            'exec %d 50 %d' % (i - 2, i),
            'reduce %d 20' % (i - 2),
            'modify %d %d %s' % (i - 4, quantity, price(base)),
            'add %d B %d %s %s' % (i, quantity, symbol, price(base + 1)),
            'delete %d' % (i - 1) if round_number % 2 == 0
            else 'trade %d B %d %s %s %d' % (i, quantity, symbol, price(base), i))[place]


def messages(program, number, unit, steps):
    """The messages that a venue makes of the first commands."""
    text = ''.join(command(number, unit, i) + '\n' for i in range(1, steps + 1))
    feed = subprocess.run([program, 'pack', '--unit', str(unit)], input=text.encode(),
                          stdout=subprocess.PIPE, check=True).stdout
    place = 0
    while place < len(feed):
        end, count = place + struct.unpack_from('<H', feed, place)[0], feed[place + 2]
        place += 8
        for _ in range(count):
            yield feed[place:place + feed[place]]
            place += feed[place]
        assert place == end


def checked(head):
    """The head of an IP packet with its checksum, without which a host drops it."""
    total = sum(struct.unpack('>10H', head))
    while total > 0xffff:
        total = (total & 0xffff) + (total >> 16)
    return head[:10] + struct.pack('>H', total ^ 0xffff) + head[12:]


def packet(line, data, clock):
    """A record of a capture: a block in a UDP datagram to the line's group and port."""
    ip = struct.pack('>BBHHHBBH', 0x45, 0, 28 + len(data), 0, 0, 16, 17, 0)
    ip = checked(ip + bytes((10, 0, 0, 1, 233, 218, 133, HOSTS[line])))
    frame = bytes.fromhex('01005e5a85%02x0200000000010800' % HOSTS[line]) + ip
    frame += struct.pack('>HHHH', 5000, PORTS[line], 8 + len(data), 0) + data
    return struct.pack('<IIII', 1700000000 + clock // 1000000, clock % 1000000, len(frame), len(frame)) + frame


def arrivals(number, unit, steps, filled):
    """What arrives, in order: a line, and the number of a block."""
    heard = set()
    for i in range(1, steps + 1):
        copies = [(LINE_A, i)] + ([(LINE_B, i - 3)] if i > 3 else [])
        for line, copy in copies:
            if not is_lost(number, unit, copy, line):
                heard.add(copy)
                yield line, copy
        if filled and i % 10 == 0:
            for missing in sorted(set(range(1, i + 1)) - heard):
                heard.add(missing)
                yield GAP_LINE, missing
    # The heartbeat, which tells how many messages there are.
    yield LINE_A, steps + 1
    if filled:
        for missing in sorted(set(range(1, steps + 1)) - heard):
            yield GAP_LINE, missing


def main():
    words = Words(__doc__)
    words.add_argument('PROGRAM')
    for word in ('NUMBER', 'UNIT', 'STEPS'):
        words.add_argument(word, type=int)
    words.add_argument('--filled', action='store_true')
    words.add_argument('--pcap', action='store_true')
    given = words.parse_args()
    number, unit, steps = given.NUMBER, given.UNIT, given.STEPS
    blocks = [struct.pack('<HBBI', 8 + len(raw), 1, unit, i) + raw
              for i, raw in enumerate(messages(given.PROGRAM, number, unit, steps), 1)]
    blocks.append(struct.pack('<HBBI', 8, 0, unit, steps + 1))
    out = sys.stdout.buffer
    if given.pcap:
        out.write(bytes.fromhex('d4c3b2a1020004000000000000000000ffff000001000000'))
    for clock, (line, i) in enumerate(arrivals(number, unit, steps, given.filled), 1):
        out.write(packet(line, blocks[i - 1], 10 * clock) if given.pcap else blocks[i - 1])


if __name__ == '__main__':
    run(main)
