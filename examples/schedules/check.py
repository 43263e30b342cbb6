#!/usr/bin/env python3
"""Runs each schedule of this folder, NAME.txt, and compares what is written with NAME.out.

    examples/schedules/check.py PROGRAM

PROGRAM is the path of the built program, or ./pitch. The last line is `N passed, M failed`; the
exit status is 0 only where none failed.
"""
import os
import subprocess
import sys

HERE = os.path.dirname(os.path.abspath(__file__))


def bytes_of(name):
    with open(os.path.join(HERE, name), 'rb') as file:
        return file.read()


def difference(got, wanted):
    """The first line in which two texts differ."""
    got, wanted = got.decode('latin-1').split('\n'), wanted.decode('latin-1').split('\n')
    for number, (mine, theirs) in enumerate(zip(got, wanted), 1):
        if mine != theirs:
            return 'line %d is %r, and not %r' % (number, mine, theirs)
    return '%d lines, and not %d' % (len(got) - 1, len(wanted) - 1)


def fault_of(program, name):
    """What is wrong with the run of a schedule; None where nothing is."""
    done = subprocess.run([program, 'replay'], input=bytes_of(name + '.txt'), capture_output=True)
    if done.returncode != 0 or done.stderr:
        return 'status %d, standard error %r' % (done.returncode, done.stderr.decode('latin-1').strip())
    wanted = bytes_of(name + '.out')
    return None if done.stdout == wanted else difference(done.stdout, wanted)


def main():
    if len(sys.argv) != 2:
        sys.exit('usage: check.py PROGRAM')
    if not os.access(sys.argv[1], os.X_OK):
        sys.exit('check.py: %s is no program' % sys.argv[1])
    names = sorted(name[:-4] for name in os.listdir(HERE) if name.endswith('.txt'))
    failed = 0
    for name in names:
        fault = fault_of(sys.argv[1], name)
        if fault:
            failed += 1
            print('FAIL %s: %s' % (name, fault))
    print('%d passed, %d failed' % (len(names) - failed, failed))
    sys.exit(1 if failed else 0)


if __name__ == '__main__':
    main()
