#!/usr/bin/env python3
"""Measures `pitch drill` by the clock, and beside `pitch storm`.

    bench/drill.py PROGRAM [--rounds R] [--units N] [--count C] [--repeat T]
    bench/drill.py PROGRAM --memory [--count C]

PROGRAM is the path of the built program. The drill is that of the number 7, with 4 units of 100,000
commands where nothing else is given. Beside it a storm of one unit is run with as many messages as
can be, 10,000, and its processor time is taken as many times as the drill has messages. Wanted are
at most 0.6 of the drill's processor time by the clock, where the machine has four processors free,
and at most 3 times the storm's processor time.

With `--repeat T` a drill of 4 units of 2,000 commands is run T times besides: each run has to end by
itself and to print the same.

With `--memory` nothing is timed: drills of 1, 4 and 16 units are run as they come, and once more
where only the threads of units can be made, so that each unit's client hears nothing before its
publisher has ended (a C compiler is needed for that). Wanted are at most 400 MB of 16 units. Then 4
units of 20,000 commands are run under limits of their address space (`ulimit -v`) from 16 MB to 1
GB: each has to end well, since the units played in turns fit there.

The runs are made in turn, R times (3 where it isn't given), and compared are the medians. The exit
status is 0 where each run ended with status 0, each unit was current at its last command, and no
figure has `MORE`.
"""
import argparse, os, resource, statistics, subprocess, sys, tempfile, time
import replay

HERE = os.path.dirname(os.path.abspath(__file__))
NUMBER = 7
LIMITS = (16, 32, 48, 64, 96, 128, 192, 256, 384, 512, 640, 768, 896, 1024)


def ends_current(text, units, count):
    """The text has a line for each unit, which says that it has all messages."""
    lines = text.decode().splitlines()
    return len(lines) == units and all(line.startswith('unit %d current %d orders ' % (unit, count)) for unit, line in enumerate(lines, 1))


def repeat(program, times):
    """Runs a small drill many times; answers whether each run printed the same."""
    words = [program] + ('drill --number %d --units 4 --count 2000' % NUMBER).split()
    texts, longest = set(), 0
    for _ in range(times):
        start = time.perf_counter()
        texts.add(subprocess.run(words, capture_output=True, check=True, timeout=120).stdout)
        longest = max(longest, time.perf_counter() - start)
    print('  %d runs of a small drill: %d texts, the longest took %.2f s' % (times, len(texts), longest))
    return len(texts) == 1 and ends_current(texts.pop(), 4, 2000)


def run(program, units, count, env=None, limit=0):
    """The status, the peak in MB and the text of a drill, its address space being limited to so many MB."""
    words = [program] + ('drill --number %d --units %d --count %d' % (NUMBER, units, count)).split()
    def ready():
        if limit > 0:
            resource.setrlimit(resource.RLIMIT_AS, (limit << 20, limit << 20))
    with tempfile.TemporaryFile() as out:
        process = subprocess.Popen(words, stdout=out, stderr=subprocess.DEVNULL, env=env, preexec_fn=ready)
        _, status, used = os.wait4(process.pid, 0)
        process.returncode = os.waitstatus_to_exitcode(status)
        out.seek(0)
        return process.returncode, used.ru_maxrss / 1024, out.read()


def measure_memory(program, count):
    """Whether each drill ended well, and how much it took."""
    right = True
    with tempfile.TemporaryDirectory() as folder:
        shim = os.path.join(folder, 'refuse.so')
        subprocess.run(['cc', '-O1', '-shared', '-fPIC', '-o', shim, os.path.join(HERE, 'refuse.c'), '-ldl'], check=True)
        for units in (1, 4, 16):
            # A drill of N units first makes the threads of all but one of them.
            late = {'LD_PRELOAD': shim, 'THREADS_FROM': str(units), 'THREADS_TO': str(1 << 30)}
            for how, env in ('as it comes', None), ('receivers come last', late):
                status, peak, text = run(program, units, count, env)
                right = right and status == 0 and ends_current(text, units, count)
                print('  %2d units of %d, %-20s peak %4d MB' % (units, count, how, peak))
    for limit in LIMITS:
        start = time.perf_counter()
        status, peak, text = run(program, 4, 20000, limit=limit)
        right = right and status == 0 and ends_current(text, 4, 20000)
        print('  4 units of 20000 in %4d MB: status %d, peak %3d MB, %.2f s' % (limit, status, peak, time.perf_counter() - start))
    return right


def main():
    parser = argparse.ArgumentParser()
    parser.add_argument('program')
    parser.add_argument('--rounds', type=int, default=3)
    parser.add_argument('--units', type=int, default=4)
    parser.add_argument('--count', type=int, default=100000)
    parser.add_argument('--repeat', type=int, default=0)
    parser.add_argument('--memory', action='store_true')
    a = parser.parse_args()
    if a.memory:
        sys.exit(0 if measure_memory(a.program, a.count) else 1)
    drill = 'drill --number %d --units %d --count %d' % (NUMBER, a.units, a.count)
    storm = 'storm --number %d --units 1 --steps 10000' % NUMBER
    clock, cpu, storms, peak, right = [], [], [], 0, True
    for _ in range(a.rounds):
        start = time.perf_counter()
        used, most, text = replay.once([a.program] + drill.split(), os.devnull)
        clock.append(time.perf_counter() - start)
        cpu.append(used)
        peak = max(peak, most)
        right = right and ends_current(text, a.units, a.count)
        storms.append(replay.once([a.program] + storm.split(), os.devnull)[0])
    clock, cpu = statistics.median(clock), statistics.median(cpu)
    alike = statistics.median(storms) * a.units * a.count / 10000
    print('  drill            cpu %7.3f s   by the clock %7.3f s   peak %5d MB' % (cpu, clock, peak))
    print('  storm, alike     cpu %7.3f s' % alike)
    replay.wanted('time by the clock to processor time', clock / cpu, 0.6)
    replay.wanted('processor time to that of storms with as many messages', cpu / alike, 3)
    if not right:
        print('  A UNIT IS NOT CURRENT AT ITS END')
    if a.repeat > 0:
        right = repeat(a.program, a.repeat) and right
    sys.exit(0 if right and not replay.exceeded else 1)


if __name__ == '__main__':
    main()
