#!/usr/bin/env python3
"""Takes the blocks out of a classic capture, for the commands that read no capture.

    examples/desk/blocks.py [--port P].. [--until TIME] < FILE.pcap | ./pitch quotes

Without --port every port counts; it may be given for each line. TIME, as `2026-11-27 10:00:00`, is
of the packets, in the time zone of TZ: the first packet of that second or later ends it. It writes
the whole blocks at the start of each datagram that `follow --pcap` uses, so `follow` writes the
same of them as `follow --pcap`, but for its last line. That goes to standard error, with the times
of the first and the last packet.
"""
import sys
import time

from desk import Fault, Words, blocks_of, clock, datagram_of, records_of, run


def second_of(text):
    try:
        return time.mktime(time.strptime(text, '%Y-%m-%d %H:%M:%S'))
    except ValueError:
        raise Fault('--until wants a time as `2026-11-27 10:00:00`, and not `%s`' % text, 2) from None


def main():
    words = Words(__doc__)
    words.add_argument('--port', type=int, action='append', default=[])
    words.add_argument('--until', type=second_of, default=float('inf'))
    given = words.parse_args()
    packets = used = faulty = 0
    first = last = None
    for second, nanosecond, frame in records_of(sys.stdin.buffer):
        if second >= given.until:
            break
        packets, last = packets + 1, (second, nanosecond)
        first = first or last
        found = datagram_of(frame)
        if found and (not given.port or found[1] in given.port):
            blocks = b''.join(blocks_of(found[2]))
            used, faulty = used + 1, faulty + (not blocks or blocks != found[2])
            sys.stdout.buffer.write(blocks)
    span = ', from %s to %s' % (clock(*first), clock(*last)) if first else ''
    counts = (packets, used, faulty, span)
    print('blocks.py: packets %d used %d faulty %d%s' % counts, file=sys.stderr)


if __name__ == '__main__':
    run(main)
