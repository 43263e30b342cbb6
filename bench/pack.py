#!/usr/bin/env python3
"""Measures `pitch pack` beside a plain Rust program (pack_yardstick.rs) on the same text of commands.

    bench/pack.py PROGRAM [--megabytes M] [--rounds R]

PROGRAM is the path of the built program. A text of about M megabytes (60 where it isn't given) is made once: times, adds, executions,
reductions, modifications, deletions and trades, of some 50,000 orders that are open at a time. The two run in turn, R times each; the ratio
is that of the medians of processor time (user and system). The outputs must be the same bytes; then the exit status is 0.

Python 3 and `rustc`, which builds the yardstick on first use.
"""
import argparse, hashlib, os, random, statistics, subprocess, sys, tempfile

HERE = os.path.dirname(os.path.abspath(__file__))
CACHE = os.path.join(tempfile.gettempdir(), 'pitch-pack-bench-%d' % os.getuid())


def yardstick():
    source = os.path.join(HERE, 'pack_yardstick.rs')
    tag = hashlib.sha256(open(source, 'rb').read()).hexdigest()[:12]
    built = os.path.join(CACHE, 'yardstick-' + tag)
    if not os.path.exists(built):
        subprocess.run(['rustc', '--edition', '2021', '-O', source, '-o', built], check=True)
    return built


def commands(size, rng):
    """Lines of valid commands, until they have so many bytes."""
    shares, order, made, written = {}, [], 0, 0
    symbols = ['ALPHA', 'BETA', 'GAMMADLT', 'IBM', 'X']
    while written < size:
        made += 1
        chance = rng.random()
        if made % 1000 == 1:
            line = 'time %d' % (34200 + made // 1000 % 40000)
        elif len(order) < 50000 or chance < 0.45:
            quantity = rng.choice([100, 200, 70000])
            shares[made] = quantity
            order.append(made)
            price = '%d.%02d' % (rng.randrange(5, 900), rng.randrange(100))
            line = 'add %d %s %d %s %s' % (made, rng.choice('BS'), quantity, rng.choice(symbols), price)
        elif chance < 0.5:
            line = 'trade %d B 100 IBM 10.5000 %d' % (made, made)
        else:
            place = rng.randrange(len(order))
            name = order[place]
            if chance < 0.62 and shares[name] > 10:
                shares[name] -= 10
                line = 'exec %d 10 %d' % (name, made)
            elif chance < 0.72 and shares[name] > 20:
                shares[name] -= 20
                line = 'reduce %d 20' % name
            elif chance < 0.82:
                shares[name] = 300
                line = 'modify %d 300 %d.%02d' % (name, rng.randrange(5, 900), rng.randrange(100))
            else:
                order[place] = order[-1]
                order.pop()
                del shares[name]
                line = 'delete %d' % name
        written += len(line) + 1
        yield line


def text(megabytes):
    name = os.path.join(CACHE, 'text-%d.txt' % megabytes)
    if not os.path.exists(name):
        with open(name + '.part', 'w') as f:
            for line in commands(megabytes * 1000000, random.Random(1)):
                f.write(line + '\n')
        os.rename(name + '.part', name)
    return name


def once(command, name):
    with open(name, 'rb') as source, tempfile.TemporaryFile() as out:
        process = subprocess.Popen(command, stdin=source, stdout=out)
        _, status, use = os.wait4(process.pid, 0)
        if status != 0:
            sys.exit('%s ended with status %d' % (command[0], status >> 8))
        out.seek(0)
        digest = hashlib.sha256(out.read()).hexdigest()
        return use.ru_utime + use.ru_stime, use.ru_maxrss / 1024, digest


def main():
    parser = argparse.ArgumentParser()
    parser.add_argument('program')
    parser.add_argument('--megabytes', type=int, default=60)
    parser.add_argument('--rounds', type=int, default=5)
    a = parser.parse_args()
    os.makedirs(CACHE, exist_ok=True)
    plain, name = yardstick(), text(a.megabytes)
    runs = [(once([plain], name), once([a.program, 'pack', '--unit', '1'], name)) for _ in range(a.rounds)]
    for label, column in (('yardstick', 0), ('program', 1)):
        cpu = statistics.median(run[column][0] for run in runs)
        print('%-10s cpu %.3f s  peak %d MB' % (label, cpu, max(run[column][1] for run in runs)))
    ratio = statistics.median(run[1][0] for run in runs) / statistics.median(run[0][0] for run in runs)
    print('text %.1f MB, ratio %.2f' % (os.path.getsize(name) / 1e6, ratio))
    agree = len({digest for run in runs for _, _, digest in run}) == 1
    print('outputs agree' if agree else 'OUTPUTS DIFFER')
    sys.exit(0 if agree else 1)


if __name__ == '__main__':
    main()
