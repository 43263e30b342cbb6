#!/usr/bin/env python3
"""Measures `pitch storm` beside `pack` and `follow` on the same messages.

    bench/storm.py PROGRAM [--rounds R] [--units N] [--steps M] [--workers K]

PROGRAM is the path of the built program. The storm is that of the number 7, with 16 units and
10,000 steps where nothing else is given. `pack` gets its commands in one text, with ids that tell
the units apart; `follow` gets each message in a datagram of its own, once on each line. A storm of
a tenth of the steps is run too. With `--workers K` the storm, and a `replay` of the schedule of the
number 1 with as many units and steps, are run with 1 worker and with K besides, and compared by the
clock: the machine has to have as many processors free.

All runs are made in turn, R times (3 where it isn't given). Compared are the medians of processor
time (user and system) and the greatest peaks of memory. The exit status is 0 where each run ended
with status 0, each unit of the storm was current at its last message, and no figure has `MORE`.
"""
import argparse, os, statistics, struct, subprocess, sys, tempfile, time
import replay

NUMBER = 7


def commands_of(units, steps):
    """The commands of all units, a step after the other, with ids that tell the units apart."""
    for i in range(1, steps + 1):
        for unit in range(1, units + 1):
            yield unit, replay.planned(unit, i, unit * 10 ** 8)


def make(program, units, steps, commands, stream):
    """Writes the text of commands, and the datagrams of both lines."""
    order = []
    with open(commands, 'w') as text:
        for unit, command in commands_of(units, steps):
            text.write(command + '\n')
            order.append(unit)
    with open(commands) as text:
        packed = subprocess.run([program, 'pack', '--unit', '1'], stdin=text, capture_output=True, check=True)
    last = {}
    with open(stream, 'wb') as out:
        for unit, raw in zip(order, replay.raws_of(packed.stdout)):
            last[unit] = last.get(unit, 0) + 1
            out.write(2 * (struct.pack('<HBBI', 8 + len(raw), 1, unit, last[unit]) + raw))


def by_clock(program, words, path, rounds, workers):
    """The medians of the times by the clock with 1 worker and with K, run in turn, and whether they wrote the same."""
    times, texts = {1: [], workers: []}, set()
    for _ in range(rounds):
        for k in times:
            start = time.perf_counter()
            texts.add(replay.once([program] + words.split() + ['--workers', str(k)], path)[2])
            times[k].append(time.perf_counter() - start)
    return statistics.median(times[1]), statistics.median(times[workers]), len(texts) == 1


def compare_workers(program, words, schedule, rounds, workers):
    right = True
    for name, command, path in (('storm', words, os.devnull), ('replay', 'replay', schedule)):
        one, many, same = by_clock(program, command, path, rounds, workers)
        print('  %-15s  by the clock %7.3f s with 1 worker, %7.3f s with %d: %.2f times as fast' % (name, one, many, workers, one / many))
        right = right and same
    if not right:
        print('  SOME BYTES ARE OTHERS')
    return right


def ends_current(text, units, steps):
    """The summary has a line for each unit, which says that it has all messages."""
    lines = text.decode().splitlines()[1:]
    return len(lines) == units and all(line.startswith('unit %d current %d orders ' % (unit, steps)) for unit, line in enumerate(lines, 1))


def main():
    parser = argparse.ArgumentParser()
    parser.add_argument('program')
    parser.add_argument('--rounds', type=int, default=3)
    parser.add_argument('--units', type=int, default=16)
    parser.add_argument('--steps', type=int, default=10000)
    parser.add_argument('--workers', type=int, default=1)
    a = parser.parse_args()
    replay.NUMBER = NUMBER
    words = 'storm --number %d --units %d --steps %d'
    with tempfile.TemporaryDirectory() as folder:
        commands, stream = os.path.join(folder, 'commands'), os.path.join(folder, 'pitch')
        # In a process of its own: the memory of the one that starts a program counts as the program's.
        maker = replay.multiprocessing.Process(target=make, args=(a.program, a.units, a.steps, commands, stream))
        maker.start()
        maker.join()
        if maker.exitcode != 0:
            sys.exit('the commands could not be made')
        runs = {
            'storm, a tenth': (words % (NUMBER, a.units, max(1, a.steps // 10)), os.devnull),
            'storm': (words % (NUMBER, a.units, a.steps), os.devnull),
            'pack': ('pack --unit 1', commands),
            'follow': ('follow', stream),
        }
        times, peaks, right = {key: [] for key in runs}, {key: 0 for key in runs}, True
        for _ in range(a.rounds):
            for key, (line, path) in runs.items():
                cpu, peak, end = replay.once([a.program] + line.split(), path)
                times[key].append(cpu)
                peaks[key] = max(peaks[key], peak)
                if key == 'storm':
                    right = right and ends_current(end, a.units, a.steps)
    cpu = {key: statistics.median(times[key]) for key in runs}
    for key in runs:
        print('  %-15s  cpu %7.3f s   peak %5d MB' % (key, cpu[key], peaks[key]))
    replay.wanted('time of the whole to that of the tenth', cpu['storm'] / cpu['storm, a tenth'], 10.5)
    replay.wanted('time to that of pack and follow together', cpu['storm'] / (cpu['pack'] + cpu['follow']), 4)
    if not right:
        print('  A UNIT IS NOT CURRENT AT ITS END')
    if a.workers > 1:
        with tempfile.NamedTemporaryFile('w') as schedule:
            replay.NUMBER = 1
            for line in replay.storm(a.units, a.steps):
                schedule.write('%d %s\n' % line[:2])
            schedule.flush()
            right = compare_workers(a.program, words % (NUMBER, a.units, a.steps), schedule.name, a.rounds, a.workers) and right
    sys.exit(0 if right and not replay.exceeded else 1)


if __name__ == '__main__':
    main()
