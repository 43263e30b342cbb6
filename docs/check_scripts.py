#!/usr/bin/env python3
"""Runs the checks of the scripts beside the program: on the built program, and what needs none. Of
the program it also wants the exit status of five calls, and of `pitch_live` what it makes of
datagrams on 127.0.0.1.

    docs/check_scripts.py [PROGRAM [LIVE]]

PROGRAM is crates/pitch/out/pitch and LIVE crates/pitch_live/out/pitch_live where they are not
given. Where no program stands, a line says so, and what needs none is tried. The last line is
`N passed, M failed`; the exit status is 0 only where none failed.
"""
import os
import re
import subprocess
import sys

TOP = os.path.join(os.path.dirname(os.path.abspath(__file__)), '..')
BUILT = [os.path.join(TOP, 'crates', name, 'out', name) for name in ('pitch', 'pitch_live')]
# The folders with a check, and whether it has a part that needs no program.
FOLDERS = {'examples/desk': True, 'packages': True, 'examples/audit': False, 'examples/quotes': False,
           'examples/schedules': False, 'examples/storms': False}


def counts_of(words):
    """How many cases of a check passed and failed; one that ends in another way failed."""
    env = {**os.environ, 'PYTHONDONTWRITEBYTECODE': '1'}
    done = subprocess.run(words, stdin=subprocess.DEVNULL, capture_output=True, text=True, env=env)
    lines = (done.stdout + done.stderr).splitlines()
    found = re.fullmatch(r'(\d+) passed, (\d+) failed', lines[-1] if lines else '')
    passed, failed = map(int, found.groups()) if found else (0, 0)
    if failed or done.returncode or not found:
        print('\n'.join(lines))
    return passed, failed or int(done.returncode != 0 or not found)


# Runs of `pitch_live`, each of which is counted: against senders of datagrams, against a venue, and as
# one.
LIVE_RUNS = {'live_lines.py': ['--numbers', '1', '--count', '0'], 'live_net.py': ['--numbers', '1'],
             'live_serve.py': ['--numbers', '1']}

# What the shell gives the program, and the exit status that it has to end with.
STATUSES = {'follow < examples/sample.pitch': 0, '': 2, 'follow < examples/captures/sample.pcap': 3,
            'follow <&-': 4, 'follow < examples/sample.pitch > /dev/full': 5}


def statuses_of(program):
    """How many of these statuses the program ends with, and how many not."""
    wrong = 0
    for words, status in STATUSES.items():
        done = subprocess.run(['bash', '-c', '"$0" ' + words, program], cwd=TOP, capture_output=True)
        if done.returncode != status:
            print('pitch %s: status %d, and not %d' % (words, done.returncode, status))
            wrong += 1
    return len(STATUSES) - wrong, wrong


def is_built(program):
    return os.path.isfile(program) and os.access(program, os.X_OK)


def main():
    given = sys.argv[1:]
    if len(given) > 2:
        sys.exit('usage: check_scripts.py [PROGRAM [LIVE]]')
    program, live = map(os.path.abspath, given + BUILT[len(given):])
    passed, failed, left, stands = 0, 0, [], is_built(program)
    for folder, has_own in FOLDERS.items():
        if not stands and not has_own:
            left.append(folder)
            continue
        words = [os.path.join(TOP, folder, 'check.py')] + ([program] if stands else [])
        # Both programs are packed.
        words += [live] if folder == 'packages' and stands and is_built(live) else []
        counts = counts_of(words)
        print('%s: %d passed, %d failed' % (folder, *counts))
        passed, failed = passed + counts[0], failed + counts[1]
    if stands:
        counts = statuses_of(program)
        print('statuses: %d passed, %d failed' % counts)
        passed, failed = passed + counts[0], failed + counts[1]
    if stands and is_built(live):
        for name, words in LIVE_RUNS.items():
            counts = counts_of([os.path.join(TOP, 'bench', name), live, program, *words])
            print('%s: %d passed, %d failed' % (name, *counts))
            passed, failed = passed + counts[0], failed + counts[1]
    else:
        print('no programs stand at %s and %s, so what lines of datagrams come to was not tried'
              % (os.path.relpath(program, TOP), os.path.relpath(live, TOP)))
    if left:
        print('no program stands at %s, so these were not tried: %s, and what else needs it'
              % (os.path.relpath(program, TOP), ', '.join(left)))
    print('%d passed, %d failed' % (passed, failed))
    return 1 if failed else 0


if __name__ == '__main__':
    sys.exit(main())
