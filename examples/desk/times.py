#!/usr/bin/env python3
"""Prints, for each block that `pitch follow --pcap` numbers, the time of its packet: `K SECONDS`.

    examples/desk/times.py [PORT] < FILE.pcap

Without PORT, or with 0, it is any, as where `--port` is left away. Beside the lines of `follow` (in
bash):

    paste -d' ' <(examples/desk/times.py < FILE.pcap) <(./pitch follow --pcap < FILE.pcap | grep ^block)
"""
import sys

from desk import Words, blocks_of, datagrams_of, run


def main():
    words = Words(__doc__)
    words.add_argument('PORT', type=int, nargs='?', default=0)
    port, number = words.parse_args().PORT, 0
    for (second, nanosecond), _, _, data in datagrams_of(sys.stdin.buffer, [port] if port else []):
        for _ in blocks_of(data):
            number += 1
            print('%d %d.%09d' % (number, second, nanosecond))


if __name__ == '__main__':
    run(main)
