#!/usr/bin/env python3
"""Refuses memory and threads to the program, and lets its devices fail, one call at a time.

    bench/refusals.py PROGRAM [--most N] [--threads]

PROGRAM is the path of the built program. With `--threads` only threads are refused, which takes
less than a minute. A small run of each form is made once for each call of malloc or realloc that it
makes, and that call is refused (at most N of each form, evenly spread; 400 where it isn't given).
Each run has to end by itself, with status 0 and the whole text, or with status 6, `pitch: out of
memory` or nothing on standard error, and a prefix of the text. Then the same is done with each call
of a device: read and write, and of sockets those that open, connect, send and receive. There the
status is 4, 5 or 7.

Threads are refused to drills, and to `replay` and `storm` with workers: all, all from the n-th on, all
up to the n-th, and only the n-th, for each n. Each such run has to end by itself within ten seconds,
with status 0 and all of the text. So parties that wait for one another where no thread can be made
would be found here, as where the closures of a drill's joins were passed in the other order.

It needs a C compiler. The exit status is 0 where all was so.
"""
import argparse, os, struct, subprocess, sys, tempfile
import pcap, replay

HERE = os.path.dirname(os.path.abspath(__file__))
sys.path[:0] = [os.path.join(HERE, '..', 'examples', name) for name in ('audit', 'desk')]
import carry, make_input

COMMANDS = b'time 34200\nadd 1 B 100 IBM 10.00\nadd 2 S 50 IBM 10.05 hidden\nexec 1 30 9\n'


def schedule():
    with open(os.path.join(HERE, '..', 'examples', 'schedules', 'lost-packet.txt'), 'rb') as text:
        return text.read()


def sample():
    with open(os.path.join(HERE, '..', 'examples', 'sample.pitch'), 'rb') as stream:
        return stream.read()


def storm():
    """The schedule of a storm of four units."""
    return ''.join('%d %s\n' % line[:2] for line in replay.storm(4, 100)).encode()


def capture():
    """The blocks of the sample, each in a packet."""
    frames = [pcap.frame(make_input.block(unit, first, raws)) for unit, first, raws in make_input.blocks(sample())]
    header = struct.pack('<IHHiIII', 0xA1B2C3D4, 2, 4, 0, 0, 65535, 1)
    return header + b''.join(struct.pack('<IIII', 0, 0, len(it), len(it)) + it for it in frames)


def with_an_image():
    """The sample, and then a unit from its middle on: it is behind when an image comes."""
    book = carry.Book(carry.BOOK.match('book unit 9 at 99 second - orders 1'))
    book.raws = [pcap.add_long(1)]
    return sample() + make_input.block(9, 100, book.raws) + b''.join(book.image())


def audited(program):
    """The sample's log and its report."""
    report = subprocess.run([program, 'follow'], input=sample(), stdout=subprocess.PIPE, check=True).stdout
    return make_input.input_of(make_input.log_of(sample()), report)


def small_runs(program):
    """A small run of each form: its words, and what it is given to read."""
    return {
        'follow': sample(), 'follow --pcap': capture(), 'show': sample(), 'relay': with_an_image(), 'quotes': sample(), 'audit': audited(program),
        'pack --unit 1': COMMANDS, 'replay': schedule(), 'replay --workers 2': schedule(), 'replay --workers 4': storm(),
        'storm --number 1 --units 2 --steps 20': b'', 'storm --number 3 --units 4 --steps 20 --workers 3': b'',
        'drill --number 0 --units 2 --count 16': b'', 'demo --number 0 --count 16': b'',
    }


def run(program, shim, words, given, refused=0, failed=0, threads=(0, 0), seconds=60):
    """The status, what was written and said, and how many calls of the three kinds there were."""
    read, write = os.pipe()
    env = {'LD_PRELOAD': shim, 'REFUSED': str(refused), 'FAILED': str(failed), 'THREADS_FROM': str(threads[0]), 'THREADS_TO': str(threads[1])}
    def ready():
        os.dup2(write, 3)
    process = subprocess.Popen([program] + words.split(), stdin=subprocess.PIPE, stdout=subprocess.PIPE, stderr=subprocess.PIPE,
                               env=env, preexec_fn=ready, pass_fds=(3,) if write == 3 else (), close_fds=False)
    os.close(write)
    try:
        out, err = process.communicate(given, timeout=seconds)
    except subprocess.TimeoutExpired:
        process.kill()
        sys.exit('%s does not end where call %s is refused' % (words, refused or failed or 'of a thread %d to %d' % threads))
    with os.fdopen(read) as told:
        calls = told.read().split()
    return process.returncode, out, err, [int(it) for it in calls[-3:]] or [0, 0, 0]


def is_right(ran, whole, statuses):
    """All was done, or it ended with one of these statuses and a prefix of the text."""
    status, out, err, _ = ran
    if status == 0:
        return out == whole and not err
    return status in statuses and whole.startswith(out) and (not err or err.startswith(b'pitch: '))


def refuse_threads(program, shim):
    """Whether each run is whole where threads are refused."""
    right, last = True, 1 << 30
    forms = {
        'drill --number 0 --units 1 --count 16': b'', 'drill --number 0 --units 2 --count 400': b'', 'drill --number 7 --units 5 --count 1100': b'',
        'replay --workers 4': storm(), 'storm --number 3 --units 4 --steps 100 --workers 4': b'',
    }
    for words, given in forms.items():
        status, whole, err, calls = run(program, shim, words, given)
        if status != 0 or err:
            sys.exit('%s ends with status %d' % (words, status))
        parts = {(1, last)}
        for number in range(1, calls[2] + 2):
            parts |= {(number, last), (1, number), (number, number)}
        runs = [(part, run(program, shim, words, given, threads=part, seconds=10)) for part in sorted(parts)]
        right = tried('of threads', words, calls[2], runs, whole, ()) and right
    return right


def spread(calls, most):
    """The numbers of the calls that are tried."""
    return sorted({1 + i * calls // most for i in range(most)}) if calls > most else range(1, calls + 1)


def tried(name, words, calls, runs, whole, statuses):
    """Says how the runs ended, and whether each was right."""
    wrong = [number for number, ran in runs if not is_right(ran, whole, statuses)]
    ends = ', '.join('%d with status %d' % (sum(ran[0] == it for _, ran in runs), it) for it in (0, *statuses))
    print('  %-38s %5d calls %-10s %4d tried: %s; %d wrong %s' % (words, calls, name, len(runs), ends, len(wrong), wrong[:5] if wrong else ''))
    return not wrong


def main():
    parser = argparse.ArgumentParser()
    parser.add_argument('program')
    parser.add_argument('--most', type=int, default=400)
    parser.add_argument('--threads', action='store_true')
    a = parser.parse_args()
    with tempfile.TemporaryDirectory() as folder:
        shim = os.path.join(folder, 'refuse.so')
        subprocess.run(['cc', '-O1', '-shared', '-fPIC', '-o', shim, os.path.join(HERE, 'refuse.c'), '-ldl'], check=True)
        right = refuse_threads(a.program, shim)
        for words, given in () if a.threads else small_runs(a.program).items():
            status, whole, _, calls = run(a.program, shim, words, given)
            if status != 0:
                sys.exit('%s ends with status %d' % (words, status))
            memory = [(it, run(a.program, shim, words, given, refused=it)) for it in spread(calls[0], a.most)]
            right = tried('of memory', words, calls[0], memory, whole, (6,)) and right
            devices = [(it, run(a.program, shim, words, given, failed=it)) for it in spread(calls[1], a.most)]
            right = tried('of device', words, calls[1], devices, whole, (4, 5, 7)) and right
    sys.exit(0 if right else 1)


if __name__ == '__main__':
    main()
