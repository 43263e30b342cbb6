#!/usr/bin/env python3
"""Tries `pitch audit` on what `pitch follow` printed, as it stands and altered.

    examples/audit/check.py PROGRAM

PROGRAM is the path of the built program. The lines that are wanted were worked out by hand. The last
line is `N passed, M failed`; the exit status is 0 only where none failed.
"""
import os
import struct
import subprocess
import sys

import make_input

HERE = os.path.dirname(os.path.abspath(__file__))
SAMPLE = make_input.contents(os.path.join(HERE, '..', 'sample.pitch'))

# ---- A stream of unit 1 whose messages 3 and 4 stand before 2, and whose first comes twice
CLOCK = struct.pack('<BBI', 6, 0x20, 34200)
ORDER = struct.pack('<BBIQcH6sHB', 26, 0x22, 0, 5, b'B', 100, b'IBM   ', 1000, 1)
HALT = struct.pack('<BBI8scc2s', 18, 0x31, 0, b'IBM     ', b'H', b'0', b'  ')
SOLD = struct.pack('<BBIQIQ', 26, 0x23, 0, 5, 30, 9)
STREAM = b''.join(make_input.block(1, first, raws)
                  for first, raws in ((1, [CLOCK]), (1, [CLOCK]), (3, [HALT, SOLD]), (5, []), (2, [ORDER])))


def run(words, given):
    return subprocess.run(words, input=given, stdout=subprocess.PIPE, stderr=subprocess.PIPE)


def follow(program, stream):
    return run([program, 'follow'], stream).stdout


def audit(program, log, report):
    """What is written, or else what is said."""
    ran = run([program, 'audit'], make_input.input_of(log, report))
    return (ran.stdout or ran.stderr).decode()


def cases(program):
    """The name of each case, what came and what is wanted."""
    log, report = make_input.log_of(SAMPLE), follow(program, SAMPLE)
    yield 'the sample', audit(program, log, report), 'audit yes books 2\n'
    yield 'an order altered', audit(program, log, report.replace(b'100 B 300', b'100 B 301')), 'audit no line 9\n'
    yield 'an order dropped', audit(program, log, report.replace(b'order 101 S 200 ACME 12.4000\n', b'')), 'audit no line 10\n'
    yield 'an order behind the book', audit(program, log, report + b'order 8 B 1 ACME 1.0000\n'), 'audit no line 13\n'
    yield 'a book cut off', audit(program, log, report[:report.index(b'order 7')]), 'audit no line 12\n'
    yield 'a number past the log', audit(program, log, report.replace(b'unit 2 at 3', b'unit 2 at 4')), 'audit no line 11\n'
    yield 'another second', audit(program, log, report.replace(b'34200', b'34201')), 'audit no line 8\n'
    yield 'no report', audit(program, log, b''), 'audit yes books 0\n'
    log, report = make_input.log_of(STREAM), follow(program, STREAM)
    yield 'a stream out of order', audit(program, log, report), 'audit yes books 1\n'
    yield 'its status altered', audit(program, log, report.replace(b'IBM H', b'IBM T')), 'audit no line 8\n'
    yield 'the books before', audit(program, log, BEFORE), 'audit yes books 3\n'
    late = make_input.block(1, 2, [CLOCK])
    yield 'a gap', audit(program, late, b''), 'pitch: bad input at byte 8: sequence 2 where 1 is next\n'
    ran = run([program, 'audit'], struct.pack('<Q', 15) + late)
    yield 'a log cut off', ran.stderr.decode(), 'pitch: bad input at byte 8: truncated, has 14 of 15\n'


# The books of that unit after its messages 3, 1 and 4.
BEFORE = b'''book unit 1 at 3 second 34200 orders 1
order 5 B 100 IBM 10.0000
status IBM H 0
book unit 1 at 1 second 34200 orders 0
book unit 1 at 4 second 34200 orders 1
order 5 B 70 IBM 10.0000
status IBM H 0
'''


def main():
    if len(sys.argv) != 2:
        sys.exit('usage: check.py PROGRAM')
    if not os.access(sys.argv[1], os.X_OK):
        sys.exit('check.py: %s is no program' % sys.argv[1])
    passed = failed = 0
    for name, got, wanted in cases(os.path.abspath(sys.argv[1])):
        if got == wanted:
            passed += 1
        else:
            failed += 1
            print('FAIL %s: %r, and not %r' % (name, got, wanted))
    print('%d passed, %d failed' % (passed, failed))
    sys.exit(1 if failed else 0)


if __name__ == '__main__':
    main()
