#!/usr/bin/env python3
"""Runs `pitch_live serve` with clients that are right, late or hostile, and compares the books that they get.

    live_serve.py LIVE PROGRAM [--numbers N]

LIVE is the built `pitch_live`, and PROGRAM the built `pitch`. For each of N (1) numbers a venue of two
units gets commands made from the number, cut into pieces anywhere. Beside it stand: examples/live/
handler.py, which drops every third datagram; a `pitch_live listen` that starts once half is sent, and
so needs an image; and 20 clients that send random bytes, never read, or log in wrongly. The books of
both are those that `pitch pack | pitch follow` makes of the commands. Then it is tried that who comes
to a door with 64 clients is closed; that a client of a venue which makes its own commands, loses,
repeats, swaps and cuts has the books of its report, and that what it asked is told; and what ends a
venue: a command that is refused, a unit that is not served, words that are no line, a port in use.
The last line is `N passed, M failed`.
"""
import argparse
import os
import random
import socket
import subprocess
import sys
import tempfile
import threading
import time

TOP = os.path.dirname(os.path.dirname(os.path.abspath(__file__)))
HOST = '127.0.0.1'
ACCOUNT = ['--sub', '0001', '--user', 'FEED', '--password', 'PITCH']
UNITS = (7, 1)


def free_port(kind):
    with socket.socket(socket.AF_INET, kind) as it:
        it.bind((HOST, 0))
        return it.getsockname()[1]


def commands_of(chance, count):
    """Commands that a venue accepts: adds, executions, modifications, deletions, a trade now and then."""
    open_orders, said = {}, ['time 34200']
    for number in range(1, count):
        act = chance.random()
        if act < 0.5 or not open_orders:
            quantity = chance.randint(1, 900)
            open_orders[number] = quantity
            said.append('add %d %s %d %s %d.%02d' % (number, chance.choice('BS'), quantity, chance.choice(['IBM', 'ACME', 'ZVZZT']),
                                                     chance.randint(1, 700), chance.randint(0, 99)))
        elif act < 0.7:
            order = chance.choice(list(open_orders))
            part = chance.randint(1, open_orders[order])
            open_orders[order] -= part
            if not open_orders[order]:
                del open_orders[order]
            said.append('exec %d %d %d' % (order, part, 9000 + number))
        elif act < 0.8:
            order = chance.choice(list(open_orders))
            open_orders[order] = chance.randint(1, 900)
            said.append('modify %d %d %d.%02d' % (order, open_orders[order], chance.randint(1, 900), chance.randint(0, 99)))
        elif act < 0.95:
            order = chance.choice(list(open_orders))
            del open_orders[order]
            said.append('delete %d' % order)
        else:
            said.append('status %s %s 0' % (chance.choice(['IBM', 'ACME']), chance.choice('TH')))
    return said


def book_of(program, unit, commands):
    feed = subprocess.run([program, 'pack', '--unit', str(unit)], input='\n'.join(commands).encode() + b'\n',
                          stdout=subprocess.PIPE, check=True).stdout
    text = subprocess.run([program, 'follow'], input=feed, stdout=subprocess.PIPE, check=True).stdout.decode()
    return text[text.index('book unit'):]


class Venue:
    """A venue of both units, with all its ports."""

    def __init__(self, live, after, *more):
        self.at = {unit: {name: '%s:%d' % (HOST, free_port(socket.SOCK_DGRAM if name in ('a', 'b', 'gap') else socket.SOCK_STREAM))
                          for name in ('a', 'b', 'gap', 'grp', 'spin')} for unit in UNITS}
        words = [word for unit in UNITS for name, at in self.at[unit].items() for word in ('--' + name, '%d@%s' % (unit, at))]
        self.process = subprocess.Popen([live, 'serve', *words, *ACCOUNT, '--second', '1000', '--minute', '9000',
                                         '--after', str(after), *more], stdin=subprocess.PIPE, stderr=subprocess.PIPE)

    def say(self, text):
        self.process.stdin.write(text)
        self.process.stdin.flush()

    def end(self):
        try:
            _, said = self.process.communicate(timeout=30)
        except subprocess.TimeoutExpired:
            self.process.kill()
            _, said = self.process.communicate()
        return self.process.returncode, said.decode()


def annoy(chance, at, until):
    """Clients that send random bytes, never read, or log in wrongly, until then."""
    kept = []
    while time.monotonic() < until:
        host, port = at.rsplit(':', 1)
        try:
            wire = socket.create_connection((host, int(port)), timeout=1)
            noise = bytes(chance.choices(range(256), k=chance.randint(1, 400)))
            wire.sendall(chance.choice([noise, b'\x1e\0\1\0\0\0\0\0\x16\x010001NONE  PITCH     ',
                                        b'\x1e\0\1\0\0\0\0\0\x16\x010001FEED  PITCH     ' + b'\x08\0\0\0\0\0\0\0' * 50]))
            kept.append(wire)
        except OSError:
            pass
        while len(kept) > 20:
            kept.pop(0).close()
        time.sleep(0.02)


def listener_of(live, venue, seconds):
    words = []
    for unit in UNITS:
        at = venue.at[unit]
        words += ['--a', at['a'], '--b', at['b'], '--gap', at['gap'], '--grp', '%d@%s' % (unit, at['grp']), '--spin', '%d@%s' % (unit, at['spin'])]
    return subprocess.Popen([live, 'listen', *words, *ACCOUNT, '--seconds', str(seconds)], stdin=subprocess.DEVNULL,
                            stdout=subprocess.PIPE, stderr=subprocess.DEVNULL)


def books_in(text):
    """The book of each unit in what a listener printed."""
    books = {}
    for part in text.split('book unit ')[1:]:
        books[int(part.split(' ', 1)[0])] = 'book unit ' + part
    return books


def run(live, program, number):
    chance = random.Random(number)
    commands = {unit: commands_of(chance, chance.randint(400, 2500)) for unit in UNITS}
    lines = [(unit, '%d %s\n' % (unit, line)) for unit in UNITS for line in commands[unit]]
    order = sorted(range(len(lines)), key=lambda at: (at - (0 if lines[at][0] == UNITS[0] else len(commands[UNITS[0]])),
                                                      lines[at][0]))
    text = ''.join(lines[at][1] for at in order).encode()
    venue = Venue(live, 15)
    until = time.monotonic() + 18
    noise = [threading.Thread(target=annoy, args=(random.Random(number * 100 + at), venue.at[UNITS[0]][name], until), daemon=True)
             for at, name in enumerate(('grp', 'spin'))]
    time.sleep(0.3)
    for it in noise:
        it.start()
    pieces, listener = [], None
    while text:
        size = chance.randint(1, 3000)
        pieces.append(text[:size])
        text = text[size:]
    for at, piece in enumerate(pieces):
        if at == len(pieces) // 2:
            listener = listener_of(live, venue, 17)
            time.sleep(0.5)
        venue.say(piece)
        time.sleep(0.002)
    venue.process.stdin.close()
    venue.process.stdin = None
    books = books_in(listener.communicate(timeout=40)[0].decode())
    status, said = venue.end()
    faults = [] if status == 0 else ['the venue ended with %d: %s' % (status, said)]
    for unit in UNITS:
        if books.get(unit) != book_of(program, unit, commands[unit]):
            faults.append('the book of unit %d: %s' % (unit, books.get(unit, '-').split('\n')[0]))
    return faults


def handled(live, program, number):
    """A handler that drops every third datagram."""
    chance = random.Random(number)
    commands = commands_of(chance, 300)
    venue = Venue(live, 5)
    at = venue.at[UNITS[0]]
    handler = subprocess.Popen([os.path.join(TOP, 'examples/live/handler.py'), '--unit', str(UNITS[0]), '--a', at['a'], '--b', at['b'],
                                '--gap', at['gap'], '--grp', at['grp'], '--drop', '3', '--seconds', '6'], stdout=subprocess.PIPE)
    time.sleep(0.5)
    for line in commands:
        venue.say(b'%d %s\n' % (UNITS[0], line.encode()))
        time.sleep(0.002)
    venue.process.stdin.close()
    venue.process.stdin = None
    book = handler.communicate(timeout=30)[0].decode()
    status, said = venue.end()
    return [] if status == 0 and book == book_of(program, UNITS[0], commands) else ['handler: %s %s %s' % (status, said, book[:60])]


def tries(live):
    """A venue that makes its own commands, on lines that lose and connections that are cut: a client has the
    books of its report, and what it asked is told."""
    with tempfile.TemporaryDirectory() as folder:
        report = os.path.join(folder, 'books')
        venue = Venue(live, 12, *('--plan 3 --count 600 --rate 200 --lose a:30 --lose b:30 --repeat a:10 --swap b:10 '
                                 '--cut 5 --report').split(), report)
        listener = listener_of(live, venue, 14)
        text = listener.communicate(timeout=40)[0].decode()
        status, said = venue.end()
        with open(report) as books, open(report + '.asked') as asked:
            books, asked = books.read(), asked.read()
    faults = [] if status == 0 else ['trying: the venue ended with %d: %s' % (status, said)]
    if not all('book unit %d at 600 ' % unit in books for unit in UNITS) or text[text.find('book unit'):] != books:
        faults.append('trying: the books are not those of the report: %s' % text[text.find('book unit'):][:80])
    if '; behind' not in text:
        faults.append('trying: nothing was lost')
    if not all('unit %d %s' % (unit, it) in asked for unit in UNITS for it in ('grp', 'spin')) or ' request ' not in asked:
        faults.append('trying: what was asked is %r' % asked[:200])
    return faults


def ends(live):
    """What ends a venue early, and what it says."""
    faults = []
    for text, wanted in ((b'7 add 1 B 1 IBM 1\n1 time 5\n7 add 1 B 1 IBM 1\n', 'refused at line 3: known-id'),
                         (b'# none\n3 time 5\n', 'bad input at line 2: no such unit'),
                         (b'7 time 5\n7 sell 1\n', 'bad input at line 2 column 3: bad-word'),
                         (b'7 time 5\n1 clear x', 'bad input at line 2 column 9: bad-word'),
                         (b'7 time 5\n' + b'7' * (2 ** 20 + 1), 'bad input at line 2: it has no end')):
        venue = Venue(live, 5)
        venue.say(text)
        venue.process.stdin.close()
        venue.process.stdin = None
        status, said = venue.end()
        if status != 3 or said != 'pitch_live: %s\n' % wanted:
            faults.append('%r: %d %s' % (text[:80], status, said))
    with socket.create_server((HOST, 0)) as taken:
        words = ['--a', '1@127.0.0.1:9', '--grp', '1@%s:%d' % taken.getsockname(), *ACCOUNT]
        done = subprocess.run([live, 'serve', *words], stdin=subprocess.DEVNULL, capture_output=True, timeout=20)
        if done.returncode != 7 or not done.stderr.startswith(b'pitch_live: grp of unit 1: '):
            faults.append('a port in use: %d %s' % (done.returncode, done.stderr))
    return faults


def has_ended(wire, seconds):
    """Whether the other end closes a connection within so many seconds."""
    until = time.monotonic() + seconds
    while (left := until - time.monotonic()) > 0:
        wire.settimeout(left)
        try:
            if not wire.recv(4096):
                return True
        except TimeoutError:
            return False
        except OSError:
            return True
    return False


def crowd(live):
    """At each door of a unit: of 70 clients the first 64 stay, and once one of them has left another does."""
    faults = []
    venue = Venue(live, 1)
    time.sleep(0.3)
    for name in ('grp', 'spin'):
        host, port = venue.at[UNITS[0]][name].rsplit(':', 1)
        door = (host, int(port))
        first = [socket.create_connection(door, timeout=2) for _ in range(64)]
        time.sleep(0.3)
        others = [socket.create_connection(door, timeout=2) for _ in range(6)]
        if not all(has_ended(wire, 1.5) for wire in others):
            faults.append('%s: a client beyond the 64th stays' % name)
        if any(has_ended(wire, 0.005) for wire in first):
            faults.append('%s: one of the first 64 is closed' % name)
        first.pop().close()
        time.sleep(0.3)
        first.append(socket.create_connection(door, timeout=2))
        if has_ended(first[-1], 0.3):
            faults.append('%s: a free place is not given' % name)
        for wire in first + others:
            wire.close()
    venue.process.stdin.close()
    venue.process.stdin = None
    status, said = venue.end()
    return faults if status == 0 else faults + ['crowd: the venue ended with %d: %s' % (status, said)]


def main():
    words = argparse.ArgumentParser(description=__doc__, formatter_class=argparse.RawDescriptionHelpFormatter)
    words.add_argument('LIVE')
    words.add_argument('PROGRAM')
    words.add_argument('--numbers', type=int, default=1)
    given = words.parse_args()
    live, program = os.path.abspath(given.LIVE), os.path.abspath(given.PROGRAM)
    passed = failed = 0
    tried = [lambda: ends(live), lambda: crowd(live), lambda: tries(live), lambda: handled(live, program, 1)]
    tried += [lambda number=number: run(live, program, number) for number in range(1, given.numbers + 1)]
    for act in tried:
        faults = act()
        passed, failed = passed + (not faults), failed + bool(faults)
        for fault in faults:
            print(fault)
    print('%d passed, %d failed' % (passed, failed))
    return 1 if failed else 0


if __name__ == '__main__':
    sys.exit(main())
