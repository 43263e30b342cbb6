#!/usr/bin/env python3
"""Runs each form in surroundings that are no fault of a device, and wants the whole text each time.

    bench/edges.py PROGRAM [--runs N] [--only NAME]

PROGRAM is the path of the built program. There are five kinds of surroundings, and N runs (500) in
each of the first four, over all forms in turn:

    broken-off   each second call of read, write, send, recv, accept4 and poll answers EINTR
    input        standard input is a pipe that does not block (O_NONBLOCK) and is filled bit by bit
    output       standard output and error are such pipes, full at first and emptied bit by bit
    stopped      the process is stopped and continued (SIGSTOP, SIGCONT) while its input comes
    closed       some of the descriptors 0 to 2 are closed at the start: of each form, each choice

Status, text and standard error have to be those of a run without all that; but of `closed`, where
the status has to be 4 where a form reads and 0 is closed, else 5 where 1 is, and no write may go to a
socket that took such a number. It needs a C compiler, and some three minutes. The exit status is 0
where all was so.
"""
import argparse, fcntl, itertools, os, random, signal, subprocess, sys, tempfile, threading, time
import pcap, refusals

F_SETPIPE_SZ = 1031
READS_NOTHING = ('storm', 'drill', 'demo')
PATIENCE = 30


def build(folder):
    """The library that is loaded before the C library."""
    shim = os.path.join(folder, 'edges.so')
    subprocess.run(['cc', '-O1', '-shared', '-fPIC', '-o', shim, os.path.join(refusals.HERE, 'edges.c'), '-ldl'], check=True)
    return shim


def cases(program):
    """Each form with a small input; those that read a stream also with a longer one, and with one that is cut off."""
    small = list(refusals.small_runs(program).items())
    feed = b''.join(pcap.blocks(1000))
    return small + [(words, feed) for words in ('follow', 'show', 'relay', 'quotes')] + [('follow', feed[:-1])]


class Process:
    """A run over pipes. What is read of it, and what is written to it, goes bit by bit."""

    def __init__(self, program, words, dice, env=(), slow=(), closed=()):
        self.dice, self.texts, self.filled = dice, {}, {}
        ends = [os.pipe() for _ in range(3)]
        theirs = [ends[0][0], ends[1][1], ends[2][1]]
        self.ours = [ends[0][1], ends[1][0], ends[2][0]]
        for number in slow:
            os.set_blocking(theirs[number], False)
            if number:
                fcntl.fcntl(theirs[number], F_SETPIPE_SZ, 4096)
                self.filled[number] = fill(theirs[number])
        self.run = subprocess.Popen([program, *words.split()], stdin=theirs[0], stdout=theirs[1], stderr=theirs[2], env=dict(env),
                                    preexec_fn=lambda: [os.close(it) for it in closed])
        for it in theirs:
            os.close(it)

    def give(self, given, pause):
        """Writes the input in pieces of any size."""
        try:
            at = 0
            while at < len(given):
                self.wait(pause)
                size = self.dice.randint(1, max(1, len(given) // 3))
                at += os.write(self.ours[0], given[at:at + size])
            self.wait(pause)
        except BrokenPipeError:
            pass
        os.close(self.ours[0])

    def take(self, number, pause):
        """Reads what the program writes to one of its ends, to the end."""
        text = b''
        self.wait(pause)
        while piece := os.read(self.ours[number], self.dice.randint(100, 9000)):
            text += piece
            self.wait(pause / 4)
        os.close(self.ours[number])
        self.texts[number] = text[self.filled.get(number, 0):]

    def wait(self, pause):
        if pause:
            time.sleep(self.dice.random() * pause)

    def stop(self):
        """Stops the process, and lets it go on, a few times."""
        for _ in range(6):
            self.wait(0.003)
            if self.run.poll() is not None:
                return
            self.run.send_signal(signal.SIGSTOP)
            self.wait(0.001)
            self.run.send_signal(signal.SIGCONT)

    def ended(self, given, giving=0, taking=0, stopping=False):
        """The status, and what was written to standard output and standard error."""
        work = [threading.Thread(target=self.give, args=(given, giving))]
        work += [threading.Thread(target=self.take, args=(number, taking)) for number in (1, 2)]
        for it in work:
            it.start()
        if stopping:
            self.stop()
        try:
            status = self.run.wait(PATIENCE)
        except subprocess.TimeoutExpired:
            self.run.kill()
            status = 'does not end'
        for it in work:
            it.join()
        return status, self.texts[1], self.texts[2]


def fill(pipe):
    """Fills a pipe that does not block, and answers how many bytes went in."""
    count = 0
    try:
        while True:
            count += os.write(pipe, bytes(4096))
    except BlockingIOError:
        return count


def disturbed(kind, program, shim, words, given, dice):
    if kind == 'broken-off':
        return Process(program, words, dice, {'LD_PRELOAD': shim, 'BROKEN_OFF': '2'}).ended(given)
    if kind == 'input':
        return Process(program, words, dice, slow=(0,)).ended(given, giving=0.004)
    if kind == 'output':
        return Process(program, words, dice, slow=(1, 2)).ended(given, taking=0.004)
    return Process(program, words, dice).ended(given, giving=0.004, stopping=True)


def tried(kind, program, shim, runs, wanted):
    """Whether runs of all cases in turn end as wanted."""
    wrong = {}
    for number in range(runs):
        words, given, want = wanted[number % len(wanted)]
        ran = disturbed(kind, program, shim, words, given, random.Random(number))
        if ran != want:
            wrong.setdefault(words, []).append((ran[0], len(ran[1]), len(want[1]), ran[2]))
    print('  %-11s %4d runs, %d wrong' % (kind, runs, sum(map(len, wrong.values()))))
    for words, ends in wrong.items():
        print('    %s: status %s with %d of %d bytes, and %r' % (words, *ends[0]))
    return not wrong


def closed(program, shim, wanted, folder):
    """Whether each choice of closed descriptors ends as it has to."""
    count, wrong, mark = 0, [], os.path.join(folder, 'low')
    choices = [it for size in (1, 2, 3) for it in itertools.combinations(range(3), size)]
    for (words, given, want), choice in itertools.product(wanted, choices):
        reads = words.split()[0] not in READS_NOTHING
        status = 4 if reads and 0 in choice else 5 if 1 in choice else want[0]
        env = {'LD_PRELOAD': shim, 'LOW_SOCKETS': mark}
        ran = Process(program, words, random.Random(count), env, closed=choice).ended(given)
        count += 1
        if ran[0] != status or (1 not in choice and status == 0 and ran[1] != want[1]) or os.path.exists(mark):
            wrong.append('%s without %s: status %s%s' % (words, choice, ran[0], ', wrote to a socket' if os.path.exists(mark) else ''))
        if os.path.exists(mark):
            os.remove(mark)
    print('  closed      %4d runs, %d wrong' % (count, len(wrong)))
    for it in wrong[:5]:
        print('    ' + it)
    return not wrong


def main():
    kinds = ('broken-off', 'input', 'output', 'stopped', 'closed')
    parser = argparse.ArgumentParser()
    parser.add_argument('program', type=os.path.abspath)
    parser.add_argument('--runs', type=int, default=500)
    parser.add_argument('--only', choices=kinds)
    a = parser.parse_args()
    right = True
    with tempfile.TemporaryDirectory() as folder:
        shim = build(folder)
        wanted = [(words, given, Process(a.program, words, random.Random(0)).ended(given)) for words, given in cases(a.program)]
        for kind in kinds if a.only is None else (a.only,):
            if kind == 'closed':
                right = closed(a.program, shim, wanted, folder) and right
            else:
                right = tried(kind, a.program, shim, a.runs, wanted) and right
    sys.exit(0 if right else 1)


if __name__ == '__main__':
    main()
