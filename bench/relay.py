#!/usr/bin/env python3
"""Measures `relay` beside `follow` on the same blocks.

    bench/relay.py PROGRAM [--packets N] [--rounds R]

PROGRAM is the path of the built program. The feed is that of `bench/pcap.py`: four units and N blocks
(1,000,000) with no images, of which each 97th comes late. It is followed and relayed in turn, R times
(5). What the relay writes is followed too, and has to end with the same books: nothing is lost, so
the relay's sequences are the venue's.

Wanted are at most 1.6 times the processor time of `follow`, by medians, and as much memory for N
blocks as for a tenth.

Python 3, the standard library alone.
"""
import argparse
import os
import statistics
import subprocess
import sys
import tempfile

import pcap
import replay

WANTED = 1.6


def write_blocks(folder, count):
    path = os.path.join(folder, f"feed-{count}.pitch")
    with open(path, "wb") as stream:
        stream.writelines(pcap.blocks(count))
    return path


def books(text):
    """What stands behind the lines of the blocks."""
    return text[text.rindex(b"\nbook unit 1 "):]


def main():
    parser = argparse.ArgumentParser(description="`relay` beside `follow` on the same blocks")
    parser.add_argument("program")
    parser.add_argument("--packets", type=int, default=1000000)
    parser.add_argument("--rounds", type=int, default=5)
    options = parser.parse_args()
    follow, relay = [options.program, "follow"], [options.program, "relay"]
    with tempfile.TemporaryDirectory() as folder:
        feed, tenth = write_blocks(folder, options.packets), write_blocks(folder, options.packets // 10)
        print(f"{os.path.getsize(feed):,} bytes of blocks")
        _, small, _ = replay.once(relay, tenth)
        plain, relayed, memory = [], [], 0
        for _ in range(options.rounds):
            plain.append(replay.once(follow, feed)[0])
            took, peak, _ = replay.once(relay, feed)
            relayed.append(took)
            memory = max(memory, peak)
        clean = os.path.join(folder, "clean.pitch")
        with open(feed, "rb") as source, open(clean, "wb") as out:
            subprocess.run(relay, stdin=source, stdout=out, check=True)
        ends = [subprocess.run(follow, stdin=open(path, "rb"), capture_output=True, check=True).stdout for path in (feed, clean)]
        if books(ends[0]) != books(ends[1]):
            sys.exit("the books differ")
        times = statistics.median(relayed) / statistics.median(plain)
        print(f"follow {statistics.median(plain):.3f} s, relay {statistics.median(relayed):.3f} s")
        replay.wanted("times the processor time of follow", times, WANTED)
        replay.wanted("times the memory of a tenth", memory / small, 1.1)
        return 1 if replay.exceeded else 0


if __name__ == "__main__":
    sys.exit(main())
