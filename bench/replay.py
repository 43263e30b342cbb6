#!/usr/bin/env python3
"""Measures `pitch replay` beside `pack` and `follow` on the same commands and datagrams.

    bench/replay.py PROGRAM [--rounds R] [--only NAME]
    bench/replay.py PROGRAM --print NAME [--tenth]

PROGRAM is the path of the built program. There are five schedules, and a tenth of each:

    storm   16 units with 10,000 steps each, some 688,000 lines and 9 MB: a command and a flush a
            step; one datagram in 20 is lost on each line; gaps are asked for at every tenth step,
            and at the end an image, where a unit is still behind
    long    4 units, 5,120,000 lines and 65 MB: orders that are added, flushed and heard on
            both lines, and then deleted in the same way; no sessions. Its books grow to 160,000
            orders each, and those of its tenth to 16,000
    steady  the same units, and as many lines and orders: but each order is executed or deleted once
            1,000 more were added, so that the books of the whole are as large as those of the tenth
    pieces  an image of 100,000 orders, of which 20 bytes are carried at a line; some 230,000 lines
    turns   64 units with one short line each in turn, 2,560,000 lines and 22.7 MB

All runs are made in turn, R times (3 where it isn't given), those of a tenth five times as often.
Compared are the medians of processor time (user and system) and the greatest peaks of memory.
`pack` gets the schedule's commands in one text, with ids that tell the units apart; `follow` gets
the datagrams that are heard on lines A and B, in the schedule's order; of `pieces` and `turns`,
where none are, `replay` is run alone. `storm` and `turns` are then run with 1, 2, 4 and 64 workers:
what is written has to be the same. Printed is the least time of each, by the clock, of all threads
and of the busiest one, as the system counts it (/proc, each millisecond). On a machine that does
other work the last tells the most: no run can end sooner.

The exit status is 0 where each run ended with status 0, each unit was current at its end, and no
time or memory is above what is wanted of it, where `MORE` stands. `--print` writes a schedule and
measures nothing.
"""
import argparse, hashlib, multiprocessing, os, statistics, struct, subprocess, sys, tempfile, time

# What was made is kept there, as long as this script stays the same.
TAG = hashlib.sha256(open(__file__, 'rb').read()).hexdigest()[:8]
CACHE = os.path.join(tempfile.gettempdir(), 'pitch-replay-bench-%d-%s' % (os.getuid(), TAG))
MASK = 2 ** 64 - 1
# The storm's number, from which its commands and losses follow.
NUMBER = 1


# ---- The storm
def mix(x):
    """A number of 64 bits whose bits hang on all bits of x."""
    x = ((x ^ (x >> 30)) * 0xBF58476D1CE4E5B9) & MASK
    x = ((x ^ (x >> 27)) * 0x94D049BB133111EB) & MASK
    return x ^ (x >> 31)


def lost(unit, index, line):
    """Whether the copy of a datagram on line A (1) or B (2) is lost: one in 20 is."""
    return mix((NUMBER + 0x9E3779B97F4A7C15 * (1000000 * unit + 10 * index + line)) & MASK) % 20 == 0


def planned(unit, i, ids=0):
    """The command of step i, with ids from `ids` on."""
    j, k = divmod(i - 1, 8)
    quantity = 100 + (NUMBER + unit + 37 * i) % 400
    cents = 1000 + (NUMBER + i) % 200
    symbol = ('ALPHA', 'BETA', 'GAMMADLT')[i % 3]
    price = lambda more: '%d.%04d' % divmod(100 * cents + more, 10000)
    name = ids + i
    if k == 0:
        return 'time %d' % (34200 + j % 50000)
    if k == 1:
        return 'add %d B %d %s %s' % (name, quantity, symbol, price(0))
    if k == 2:
        return 'add %d S %d %s %s' % (name, quantity, symbol, price(10000))
    if k == 3:
        return 'exec %d 50 %d' % (name - 2, i)
    if k == 4:
        return 'reduce %d 20' % (name - 2)
    if k == 5:
        return 'modify %d %d %s' % (name - 4, quantity, price(0))
    if k == 6:
        return 'add %d B %d %s %s' % (name, quantity, symbol, price(1))
    return 'delete %d' % (name - 1) if j % 2 == 0 else 'trade %d B %d %s %s %d' % (name, quantity, symbol, price(0), i)


def storm(units, steps):
    """The schedule's lines: a unit and its words, and besides the command with ids that tell the units apart, or the
    number of the datagram that is heard."""
    every = range(1, units + 1)
    for u in every:
        for words in ('grp open', 'grp up all', 'grp down all'):
            yield u, words, None, None
    for i in range(1, steps + 1):
        for u in every:
            yield u, planned(u, i), planned(u, i, u * 10 ** 8), None
            yield u, 'flush', None, None
            if not lost(u, i, 1):
                yield u, 'a %d' % i, None, i
            if i >= 4 and not lost(u, i - 3, 2):
                yield u, 'b %d' % (i - 3), None, i - 3
            if i % 10 == 0:
                for words in ('tick', 'grp up all', 'grp down all', 'g rest'):
                    yield u, words, None, None
    for u in every:
        for words in ('beat', 'a %d' % (steps + 1), 'grp cut', 'spin open', 'spin up all', 'advertise',
                      'spin down all', 'tick', 'spin up all', 'spin down all'):
            yield u, words, None, None


# ---- The long text
def long_text(units, steps):
    """The same of orders that are added and then deleted."""
    for half in range(2):
        for i in range(1, steps + 1):
            number = half * steps + i
            for u in range(1, units + 1):
                command = 'add %d B 100 IBM 10.00' if half == 0 else 'delete %d'
                yield u, command % i, command % (u * 10 ** 8 + i), None
                yield u, 'flush', None, None
                for line in 'ab':
                    yield u, '%s %d' % (line, number), None, number


# ---- A text whose books keep their size
def steady(units, steps, most):
    """The same of orders of which no more than so many are open at a time."""
    number = 0
    for i in range(1, steps + most + 1):
        commands = []
        if i <= steps:
            commands.append(('add %d B 100 IBM 10.00', i, ''))
        if i > most:
            taken = i - most
            # One order in four is executed as a whole.
            commands.append(('exec %d 100', taken, ' %d' % taken) if taken % 4 == 0 else ('delete %d', taken, ''))
        for command, order, rest in commands:
            number += 1
            for u in range(1, units + 1):
                yield u, command % order + rest, command % (u * 10 ** 8 + order) + rest, None
                yield u, 'flush', None, None
                for line in 'ab':
                    yield u, '%s %d' % (line, number), None, number


# ---- An image in pieces
def pieces(orders):
    """The same of a client that takes an image 20 bytes at a time."""
    for i in range(1, orders + 1):
        command = 'add %d B 100 IBM 10.00' % i
        yield 1, command, command, None
    for words in ('flush', 'advertise', 'spin open', 'spin up all', 'spin down all', 'tick', 'spin up all'):
        yield 1, words, None, None
    # A block has at most 1,400 bytes, and so 53 adds of 26 bytes; a response and Spin Finished have 19 and 14.
    blocks = -(-orders // 53)
    for _ in range((19 + 8 * blocks + 26 * orders + 14) // 20):
        yield 1, 'spin down 20', None, None
    yield 1, 'spin down all', None, None


# ---- Units that take turns at each line
def turns(units, rounds):
    """The same of units that are current, and then have a flush each, one after another."""
    for words in ['beat', 'a 1'] + ['flush'] * rounds:
        for u in range(1, units + 1):
            yield u, words, None, None


SCHEDULES = {
    'storm': lambda part: storm(16, 10000 // part),
    'long': lambda part: long_text(4, 160000 // part),
    'steady': lambda part: steady(4, 160000 // part, 1000),
    'pieces': lambda part: pieces(100000 // part),
    'turns': lambda part: turns(64, 40000 // part),
}
# Those that are run with several workers, and how many.
PARTED = ('storm', 'turns')
WORKERS = (1, 2, 4, 64)


def lines_of(name, tenth):
    return SCHEDULES[name](10 if tenth else 1)


# ---- The texts and streams
def raws_of(stream):
    """The messages of a stream of blocks."""
    place, raws = 0, []
    while place < len(stream):
        length, = struct.unpack_from('<H', stream, place)
        at = place + 8
        while at < place + length:
            raws.append(stream[at:at + stream[at]])
            at += stream[at]
        place += length
    return raws


def make(program, name, tenth, paths):
    """Writes the schedule, its commands, and the datagrams that are heard."""
    parts = [path + '.part' for path in paths]
    heard, order = [], []
    with open(parts[0], 'w') as schedule, open(parts[1], 'w') as commands:
        for unit, words, command, number in lines_of(name, tenth):
            schedule.write('%d %s\n' % (unit, words))
            if command:
                commands.write(command + '\n')
                order.append(unit)
            if number:
                heard.append((unit, number))
    with open(parts[1]) as commands:
        packed = subprocess.run([program, 'pack', '--unit', '1'], stdin=commands, capture_output=True, check=True)
    messages = {}
    for unit, raw in zip(order, raws_of(packed.stdout)):
        messages.setdefault(unit, []).append(raw)
    with open(parts[2], 'wb') as stream:
        for unit, number in heard:
            raw = messages[unit][number - 1]
            stream.write(struct.pack('<HBBI', 8 + len(raw), 1, unit, number) + raw)
    for part, path in zip(parts, paths):
        os.rename(part, path)


def made(program, name, tenth):
    """The paths of the schedule, of its commands, and of the datagrams that are heard."""
    base = os.path.join(CACHE, name + ('-tenth' if tenth else ''))
    paths = [base + '.' + kind for kind in ('schedule', 'commands', 'pitch')]
    if not all(map(os.path.exists, paths)):
        # In a process of its own: the memory of the one that starts a program counts as the program's.
        maker = multiprocessing.Process(target=make, args=(program, name, tenth, paths))
        maker.start()
        maker.join()
        if maker.exitcode != 0:
            sys.exit('the texts could not be made')
    return paths


# ---- The runs
def once(command, path):
    """Processor time in seconds, peak memory in MB, and what was written last."""
    with open(path, 'rb') as source, tempfile.TemporaryFile() as out:
        process = subprocess.Popen(command, stdin=source, stdout=out)
        _, status, use = os.wait4(process.pid, 0)
        if status != 0:
            sys.exit('%s ended with status %d' % (' '.join(command), status >> 8))
        out.seek(max(0, out.seek(0, os.SEEK_END) - 65536))
        return use.ru_utime + use.ru_stime, use.ru_maxrss * 1024 / 1e6, out.read()


def busiest(command, path):
    """Seconds by the clock, of all threads and of the busiest thread, peak memory in MB, and a checksum of what was
    written. A thread's last millisecond may be missing."""
    with open(path, 'rb') as source, tempfile.TemporaryFile() as out:
        start = time.perf_counter()
        process = subprocess.Popen(command, stdin=source, stdout=out)
        base, took, ended = '/proc/%d/task' % process.pid, {}, 0
        while ended == 0:
            try:
                for thread in os.listdir(base):
                    with open('%s/%s/schedstat' % (base, thread)) as counts:
                        took[thread] = int(counts.read().split()[0]) / 1e9
            except (OSError, IndexError):
                pass
            time.sleep(0.001)
            ended, status, use = os.wait4(process.pid, os.WNOHANG)
        clock = time.perf_counter() - start
        if status != 0:
            sys.exit('%s ended with status %d' % (' '.join(command), status >> 8))
        out.seek(0)
        text = hashlib.sha256(out.read()).hexdigest()
        return clock, use.ru_utime + use.ru_stime, max(took.values()), use.ru_maxrss * 1024 / 1e6, text


def with_workers(program, path, rounds):
    """Prints what the schedule takes with several workers, and says whether all wrote the same."""
    least, peaks, texts = {}, dict.fromkeys(WORKERS, 0), set()
    for _ in range(rounds):
        for k in WORKERS:
            *times, peak, text = busiest([program, 'replay', '--workers', str(k)], path)
            least[k] = [min(pair) for pair in zip(times, least.get(k, times))]
            peaks[k] = max(peaks[k], peak)
            texts.add(text)
    for k in WORKERS:
        clock, cpu, thread = least[k]
        print('  %2d workers       clock %6.3f s   all threads %6.3f s   busiest %6.3f s   %.1f times as fast   peak %5d MB'
              % (k, clock, cpu, thread, least[1][2] / thread, peaks[k]))
    if len(texts) > 1:
        print('  SOME BYTES ARE OTHERS')
    return len(texts) == 1


def ends_current(text):
    """The last line of each unit says that it is current."""
    last = {line.split()[1]: line for line in text.splitlines()[1:]}
    return all(b'; current ' in line for line in last.values())


# The figures that were above what is wanted: a benchmark that has some ends with status 1.
exceeded = []


def wanted(what, value, most):
    if value > most:
        exceeded.append(what)
    print('  %-41s %6.2f   wanted: at most %s%s' % (what, value, most, '' if value <= most else '   MORE'))


def measure(program, name, rounds):
    whole, commands, stream = made(program, name, False)
    tenth = made(program, name, True)[0]
    runs = {
        'replay, a tenth': ('replay', tenth), 'replay': ('replay', whole), 'pack': ('pack --unit 1', commands),
        'follow': ('follow', stream),
    }
    if os.path.getsize(stream) == 0:
        del runs['pack'], runs['follow']
    times, peaks, right = {key: [] for key in runs}, {key: 0 for key in runs}, True
    for _ in range(rounds):
        for key, (words, path) in runs.items():
            # A tenth is over so soon that it is run more often.
            for _ in range(5 if path == tenth else 1):
                cpu, peak, end = once([program] + words.split(), path)
                times[key].append(cpu)
                peaks[key] = max(peaks[key], peak)
                right = right and (words != 'replay' or ends_current(end))
    size = os.path.getsize(whole) / 1e6
    with open(whole, 'rb') as text:
        count = sum(1 for _ in text)
    print('%s: %d lines, %.1f MB' % (name, count, size))
    cpu = {key: statistics.median(times[key]) for key in runs}
    for key in runs:
        print('  %-15s  cpu %7.3f s   peak %5d MB' % (key, cpu[key], peaks[key]))
    wanted('time of the whole to that of the tenth', cpu['replay'] / cpu['replay, a tenth'], 10.5)
    if 'follow' in runs:
        wanted('time to that of pack and follow together', cpu['replay'] / (cpu['pack'] + cpu['follow']), 3)
        wanted('peak of memory to the size of the text', peaks['replay'] / size, 12)
    if not right:
        print('  A UNIT IS NOT CURRENT AT ITS END')
    if name in PARTED:
        right = with_workers(program, whole, rounds) and right
    return right


def main():
    parser = argparse.ArgumentParser()
    parser.add_argument('program')
    parser.add_argument('--rounds', type=int, default=3)
    parser.add_argument('--only', choices=SCHEDULES)
    parser.add_argument('--print', choices=SCHEDULES, dest='shown')
    parser.add_argument('--tenth', action='store_true')
    a = parser.parse_args()
    if a.shown:
        sys.stdout.writelines('%d %s\n' % line[:2] for line in lines_of(a.shown, a.tenth))
        return
    os.makedirs(CACHE, exist_ok=True)
    right = [measure(a.program, name, a.rounds) for name in ([a.only] if a.only else SCHEDULES)]
    sys.exit(0 if all(right) and not exceeded else 1)


if __name__ == '__main__':
    main()
