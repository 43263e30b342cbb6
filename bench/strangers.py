#!/usr/bin/env python3
"""Runs `pitch demo` among strangers who are the first at its ports, and where packets are lost.

    bench/strangers.py PROGRAM [--runs N] [--lost P]

PROGRAM is the path of the built program. The demo of the number 0 with 16 messages is run N times
(300). Each of its connections is held up by 30 ms, and meanwhile three strangers look over the ports
of its process: each connects to those that it listens at, sends bytes to them, closes at once or stays,
and sends datagrams to its UDP ports. Each run has to end with status 0, say nothing on standard error,
and write a line of the demo. Said is how often a stranger was at a listener first, and how many runs
were current at the last message. All of it stays in this machine, and concerns no other process.

With `--lost P` the strangers stay away, and of the packets that open a connection P in a hundred are
lost, by a filter of the system's at the listeners; with less than 40 nearly each run still opens them.

It needs a C compiler, and some minutes. The exit status is 0 where all was so.
"""
import argparse, os, random, socket, subprocess, sys, tempfile, threading
import demo, edges

HELD_UP = 30
STRANGERS = 3
LISTENS, COUNT = '0A', 16


def ports(process, table, states):
    """The ports of a process in a table of the system's, by their states."""
    try:
        fds = '/proc/%d/fd' % process
        own = {os.readlink(os.path.join(fds, it)) for it in os.listdir(fds)}
        with open('/proc/%d/net/%s' % (process, table)) as rows:
            fields = [row.split() for row in rows][1:]
    except OSError:
        return []
    return [int(it[1].split(':')[1], 16) for it in fields if it[3] in states and 'socket:[%s]' % it[9] in own]


class Stranger(threading.Thread):
    """Is at each port of a process as soon as it is there, until the process has ended."""

    def __init__(self, run, number):
        super().__init__()
        self.run_of, self.dice, self.met, self.kept = run, random.Random(number), set(), []

    def run(self):
        with socket.socket(socket.AF_INET, socket.SOCK_DGRAM) as out:
            while self.run_of.poll() is None:
                for port in set(ports(self.run_of.pid, 'tcp', LISTENS)) - self.met:
                    self.meet(port)
                for port in ports(self.run_of.pid, 'udp', ('07', '01')):
                    self.send(out, port)
        for it in self.kept:
            it.close()

    def meet(self, port):
        try:
            stream = socket.create_connection(('127.0.0.1', port), 1)
            self.met.add(port)
            if self.dice.random() < 0.5:
                stream.send(bytes(self.dice.choices(range(256), k=30)))
            if self.dice.random() < 0.5:
                stream.close()
            else:
                self.kept.append(stream)
        except OSError:
            pass

    def send(self, out, port):
        try:
            size = self.dice.choice((0, 8, 30, 1400))
            out.sendto(bytes(self.dice.choices(range(256), k=size)), ('127.0.0.1', port))
        except OSError:
            pass


def ended(program, env, strangers, number):
    """The run's end, and at how many ports a stranger was."""
    words = [program, 'demo', '--number', '0', '--count', str(COUNT)]
    run = subprocess.Popen(words, stdin=subprocess.DEVNULL, stdout=subprocess.PIPE, stderr=subprocess.PIPE, env=env)
    about = [Stranger(run, number * STRANGERS + k) for k in range(strangers)]
    for it in about:
        it.start()
    out, err = run.communicate(timeout=120)
    for it in about:
        it.join()
    return subprocess.CompletedProcess(words, run.returncode, out, err), len(set().union(*(it.met for it in about)))


def main():
    parser = argparse.ArgumentParser()
    parser.add_argument('program', type=os.path.abspath)
    parser.add_argument('--runs', type=int, default=300)
    parser.add_argument('--lost', type=int, default=0)
    a = parser.parse_args()
    wrong, current, met = [], 0, 0
    with tempfile.TemporaryDirectory() as folder:
        env = {'LD_PRELOAD': edges.build(folder), 'LOST': str(a.lost), 'CONNECT_AFTER': '0' if a.lost else str(HELD_UP)}
        for number in range(a.runs):
            ran, ports_met = ended(a.program, env, 0 if a.lost else STRANGERS, number)
            met += ports_met
            current += ran.stdout == demo.LINE[COUNT]
            if ran.returncode != 0 or not ran.stdout.startswith(b'unit 1 ') or ran.stderr:
                wrong.append((ran.returncode, ran.stdout, ran.stderr))
    print('  %d demos, %d wrong, %d current; a stranger was at %d of their %d listeners' % (a.runs, len(wrong), current, met, 2 * a.runs))
    for it in wrong[:5]:
        print('    status %d, %r, %r' % it)
    sys.exit(1 if wrong else 0)


if __name__ == '__main__':
    main()
