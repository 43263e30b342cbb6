#!/usr/bin/env python3
"""Runs each storm of this folder, NAME.words, with 1, 2 and 7 workers, and compares what is written
with NAME.out.

    examples/storms/check.py PROGRAM

PROGRAM is the path of the built program, or ./pitch. The last line is `N passed, M failed`; the
exit status is 0 only where none failed.
"""
import os
import subprocess
import sys

HERE = os.path.dirname(os.path.abspath(__file__))


def text_of(name):
    with open(os.path.join(HERE, name)) as file:
        return file.read()


def fault_of(program, name, workers):
    """What is wrong with the run of a storm; None where nothing is."""
    words = text_of(name + '.words').split() + ['--workers', str(workers)]
    done = subprocess.run([program] + words, stdin=subprocess.DEVNULL, capture_output=True, text=True)
    if done.returncode != 0 or done.stderr:
        return 'status %d, standard error %r' % (done.returncode, done.stderr.strip())
    return None if done.stdout == text_of(name + '.out') else 'the text differs'


def main():
    if len(sys.argv) != 2:
        sys.exit('usage: check.py PROGRAM')
    if not os.access(sys.argv[1], os.X_OK):
        sys.exit('check.py: %s is no program' % sys.argv[1])
    names = sorted(name[:-6] for name in os.listdir(HERE) if name.endswith('.words'))
    failed = 0
    runs = [(name, workers) for name in names for workers in (1, 2, 7)]
    for name, workers in runs:
        fault = fault_of(sys.argv[1], name, workers)
        if fault:
            failed += 1
            print('FAIL %s with %d workers: %s' % (name, workers, fault))
    print('%d passed, %d failed' % (len(runs) - failed, failed))
    sys.exit(1 if failed else 0)


if __name__ == '__main__':
    main()
