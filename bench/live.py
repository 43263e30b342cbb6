#!/usr/bin/env python3
"""Says whether `pitch` speaks at once: each block that comes down an open pipe has its text within a second.

    bench/live.py PROGRAM

PROGRAM is the path of the built program: `crates/pitch/out/pitch` after `./pitch` or `rt run`. The forms that read a stream,
`follow`, `show` and `follow --pcap`, are given three blocks, one after another, down a pipe that stays open meanwhile; the last
gets each in a packet of a capture. After each of them the program's text so far has to be there. The exit status is 0 where all of it came in time.

Python 3, the standard library alone.
"""
import os
import select
import struct
import subprocess
import sys
import time

import pcap

UNIT = 1
BLOCKS = 3
PATIENCE = 1.0  # seconds


def block(sequence):
    """A block of the unit with one Time Message, of a second that rises with the sequence."""
    message = struct.pack("<BBI", 6, 0x20, 34200 + sequence)
    return struct.pack("<HBBI", 8 + len(message), 1, UNIT, sequence) + message


def lines_within(pipe, count, patience):
    """The text of the next so many lines, or of fewer where the time ran out or the pipe was closed."""
    text = b""
    until = time.monotonic() + patience
    while text.count(b"\n") < count:
        left = until - time.monotonic()
        if left <= 0 or not select.select([pipe], [], [], left)[0]:
            break
        more = os.read(pipe.fileno(), 65536)
        if not more:
            break
        text += more
    return text


def packet(sequence):
    """The block in a packet of a capture, and before the first the capture's header."""
    frame = pcap.frame(block(sequence))
    head = struct.pack("<IHHiIII", 0xA1B2C3D4, 2, 4, 0, 0, 65535, 1) if sequence == 1 else b""
    return head + struct.pack("<IIII", 0, 0, len(frame), len(frame)) + frame


def is_live(program, form, lines, piece=block):
    """Whether each block has its lines within the time, `lines` of them for a block."""
    run = subprocess.Popen([program] + form.split(), stdin=subprocess.PIPE, stdout=subprocess.PIPE)
    try:
        for number in range(1, BLOCKS + 1):
            begun = time.monotonic()
            run.stdin.write(piece(number))
            run.stdin.flush()
            text = lines_within(run.stdout, lines, PATIENCE)
            took = time.monotonic() - begun
            if text.count(b"\n") != lines:
                print(f"{form}: block {number} has {text!r} after {took:.3f} s")
                return False
            print(f"{form}: block {number} after {took:.3f} s")
        run.stdin.close()
        return run.wait(PATIENCE) == 0
    finally:
        run.kill()


def main():
    if len(sys.argv) != 2:
        sys.exit(__doc__)
    program = sys.argv[1]
    answers = [is_live(program, "follow", 1), is_live(program, "show", 2), is_live(program, "follow --pcap", 1, packet)]
    sys.exit(0 if all(answers) else 1)


main()
