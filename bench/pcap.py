#!/usr/bin/env python3
"""Measures `follow --pcap` beside `follow` on the same blocks.

    bench/pcap.py PROGRAM [--packets N] [--rounds R]

PROGRAM is the path of the built program: `crates/pitch/out/pitch` after `./pitch` or `rt run`. A feed of four units is made, of N
datagrams (1,000,000) with one block of one to four messages each: orders are added, executed and deleted, so that some 1,000 stay
open in each unit; each 97th datagram comes three datagrams late, as from line B. It is written as bare blocks, and as a capture in
which each datagram stands in a frame of its own. Both are followed in turn, R times (5). The capture's output has to end as that of
the blocks does, with the line of its packets.

Wanted are at most 1.25 times the processor time of `follow`, by medians, and as much memory for N packets as for a tenth.

Python 3, the standard library alone.
"""
import argparse
import os
import statistics
import struct
import sys
import tempfile

import replay

UNITS = 4
OPEN = 1000
PORT = 30501
WANTED = 1.25


def add_long(order):
    return struct.pack("<BBIQcI6sQB", 34, 0x21, 0, order, b"BS"[order & 1:][:1], 100, b"ACME  ", 120000 + order % 1000, 1)


def executed(order, execution):
    return struct.pack("<BBIQIQ", 26, 0x23, 0, order, 1, execution)


def deleted(order):
    return struct.pack("<BBIQ", 14, 0x29, 0, order)


def blocks(count):
    """The blocks of the feed in the order of their arrival, a datagram each."""
    sequences = [1] * UNITS
    orders = [1] * UNITS
    late = []
    for number in range(count):
        unit = number % UNITS
        order = orders[unit]
        orders[unit] += 1
        messages = [add_long(order)]
        if number % 3 and order > 1:
            messages.append(executed(order - 1, number))
        if order > OPEN:
            messages.append(deleted(order - OPEN))
        body = b"".join(messages)
        block = struct.pack("<HBBI", 8 + len(body), len(messages), 1 + unit, sequences[unit]) + body
        sequences[unit] += len(messages)
        if number % 97 == 96:
            late.append((number + 3, block))
            continue
        yield block
        while late and late[0][0] <= number:
            yield late.pop(0)[1]
    for _, block in late:
        yield block


def frame(datagram):
    """An Ethernet frame with an IPv4 packet and a UDP datagram; the checksums are not filled in."""
    udp = struct.pack(">HHHH", 5000, PORT, 8 + len(datagram), 0) + datagram
    ip = struct.pack(">BBHHHBBHII", 0x45, 0, 20 + len(udp), 0, 0, 64, 17, 0, 0x0A000001, 0xE9DA8550) + udp
    return b"\x01\x00\x5e\x5a\x85\x50\x02\x00\x00\x00\x00\x01\x08\x00" + ip


def write_feed(folder, count):
    """Writes the feed as bare blocks and as a capture, and answers both paths."""
    bare = os.path.join(folder, f"feed-{count}.pitch")
    capture = os.path.join(folder, f"feed-{count}.pcap")
    with open(bare, "wb") as stream, open(capture, "wb") as packets:
        packets.write(struct.pack("<IHHiIII", 0xA1B2C3D4, 2, 4, 0, 0, 65535, 1))
        for number, block in enumerate(blocks(count)):
            captured = frame(block)
            stream.write(block)
            packets.write(struct.pack("<IIII", number // 100000, number % 100000 * 10, len(captured), len(captured)) + captured)
    return bare, capture


def main():
    parser = argparse.ArgumentParser(description="`follow --pcap` beside `follow` on the same blocks")
    parser.add_argument("program")
    parser.add_argument("--packets", type=int, default=1000000)
    parser.add_argument("--rounds", type=int, default=5)
    options = parser.parse_args()
    follow = [options.program, "follow"]
    follow_capture = follow + ["--pcap", "--port", str(PORT)]
    with tempfile.TemporaryDirectory() as folder:
        bare, capture = write_feed(folder, options.packets)
        _, tenth = write_feed(folder, options.packets // 10)
        print(f"{os.path.getsize(bare):,} bytes of blocks, {os.path.getsize(capture):,} of capture")
        _, small, _ = replay.once(follow_capture, tenth)
        plain, packets, memory = [], [], 0
        counts = f"packets {options.packets} used {options.packets} faulty 0\n".encode()
        for _ in range(options.rounds):
            took, _, text = replay.once(follow, bare)
            plain.append(took)
            took, peak, of_capture = replay.once(follow_capture, capture)
            packets.append(took)
            memory = max(memory, peak)
            if of_capture != (text + counts)[-len(of_capture):]:
                sys.exit("the outputs differ")
        times = statistics.median(packets) / statistics.median(plain)
        print(f"follow {statistics.median(plain):.3f} s, follow --pcap {statistics.median(packets):.3f} s")
        replay.wanted("times the processor time of follow", times, WANTED)
        replay.wanted("times the memory of a tenth", memory / small, 1.1)
        return 1 if replay.exceeded else 0


if __name__ == "__main__":
    sys.exit(main())
