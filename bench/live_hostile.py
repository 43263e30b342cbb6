#!/usr/bin/env python3
"""Runs `pitch_live serve` for a long time beside hostile clients, and honest ones that have to stay current.

    bench/live_hostile.py LIVE PROGRAM [--seconds S] [--hostile H] [--honest L] [--units U] [--rate R] [--first F]

LIVE is the built `pitch_live`, PROGRAM the built `pitch`. The venue serves U units (4), and gets R
commands a second in all (100) for S seconds (600). L `pitch_live listen` (6) follow all units, each
with a connection to each proxy and each Spin Server, so 8 L/4 of them with 4 units. H hostile
connections (150) stand at the same doors all the while, each for 0.1 to 10 seconds before another one
takes its place: they send random bytes, or half a login, or a login and then requests out of range or
for other units, or log in and ask for images without ever reading, or close at once.

Wanted is: nothing ends early; each `listen` is `current` at the last message of each unit within two
seconds of it; its books are those of `pack | follow`, byte for byte; and what the venue's process has
in memory grows by at most 400 bytes a message from the first tenth of the run to its end. The last
line is `N passed, M failed`.
"""
import argparse
import random
import select
import socket
import struct
import subprocess
import sys
import threading
import time

import live_serve
from live_net import ACCOUNT, HOST, Listener, Ports, Stuck

LOGIN = b'\x1e\0\1\0\0\0\0\0\x16\x010001FEED  PITCH     '
BYTES_A_MESSAGE = 400


def block(message):
    return struct.pack('<HBBI', 8 + len(message), 1, 0, 0) + message


def gap_request(unit, first, count):
    return block(struct.pack('<BBBIH', 9, 3, unit, first, count))


def spin_request(sequence):
    return block(struct.pack('<BBI', 6, 0x81, sequence))


class Hostile:
    """A client that keeps to no rule, until its time is up."""

    def __init__(self, dice, port):
        self.until = time.monotonic() + dice.uniform(0.1, 10)
        self.wire = socket.socket()
        self.wire.setblocking(False)
        self.wire.connect_ex((HOST, port))
        self.dice, self.act = dice, dice.choice((self.noise, self.half, self.ask, self.never_read, self.close_at_once))
        self.sent = 0

    def noise(self):
        return bytes(self.dice.choices(range(256), k=self.dice.randint(1, 400)))

    def half(self):
        return LOGIN[:self.dice.randint(1, len(LOGIN) - 1)] if not self.sent else b''

    def ask(self):
        first, count = self.dice.choice((0, 1, 2 ** 32 - 1, self.dice.randrange(2 ** 32))), self.dice.choice((0, 1, 101, 65535))
        return LOGIN if not self.sent else gap_request(self.dice.randrange(256), first, count) * self.dice.randint(1, 50)

    def never_read(self):
        return LOGIN if not self.sent else spin_request(self.dice.randrange(1, 100)) * self.dice.randint(1, 50)

    def close_at_once(self):
        self.until = 0
        return b''

    def step(self):
        """Says something. Answers whether it goes on."""
        try:
            self.sent += self.wire.send(self.act()) or 0
        except BlockingIOError:
            pass
        except OSError:
            self.until = 0
        if time.monotonic() < self.until:
            return True
        self.wire.close()
        return False


class Crowd:
    """So many hostile clients at the doors, until they are stopped."""

    def __init__(self, count, ports, number):
        self.stop, self.made = threading.Event(), 0
        self.thread = threading.Thread(target=self.run, args=(count, ports, random.Random(number)))
        self.thread.start()

    def run(self, count, ports, dice):
        clients = []
        while not self.stop.wait(0.05):
            clients = [it for it in clients if it.step()]
            while len(clients) < count:
                clients.append(Hostile(dice, dice.choice(ports)))
                self.made += 1
        for it in clients:
            it.wire.close()

    def end(self):
        self.stop.set()
        self.thread.join()


def resident(process):
    with open(f'/proc/{process.pid}/status') as file:
        return next(int(line.split()[1]) * 1024 for line in file if line.startswith('VmRSS'))


def feed(venue, lines, rate):
    """Sends the commands, so many a second. Answers what the venue had in memory after a tenth of them, and at the end."""
    begun, early = time.monotonic(), 0
    for at, line in enumerate(lines):
        venue.stdin.write(line)
        venue.stdin.flush()
        wait = begun + (at + 1) / rate - time.monotonic()
        if wait > 0:
            time.sleep(wait)
        if at == len(lines) // 10:
            early = resident(venue)
    return early, resident(venue)


def run(given):
    units = range(1, given.units + 1)
    count = given.seconds * given.rate // given.units
    commands = {unit: live_serve.commands_of(random.Random(given.first * 256 + unit), count) for unit in units}
    lines = [b'%d %s\n' % (unit, commands[unit][at].encode()) for at in range(count) for unit in units]
    ports, faults, listeners, crowd = Ports(units), [], [], None
    names = ports.words(ports.venue, units)
    venue = subprocess.Popen([given.live, 'serve', *names, *ACCOUNT, '--after', '60'], stdin=subprocess.PIPE, stderr=subprocess.PIPE)
    try:
        time.sleep(0.3)
        # Only one process can have the lines' ports: each listener hears a copy of them.
        lines_at = [ports.venue[it] for it in ('a', 'b', 'gap')]
        copies = [Copies(lines_at, given.honest)]
        for at in range(given.honest):
            words = [word for name, port in zip(('a', 'b', 'gap'), copies[0].ports[at]) for word in ('--' + name, f'{HOST}:{port}')]
            words += [word for name, port in ports.venue.items() if not isinstance(name, str)
                      for word in ('--' + name[0], f'{name[1]}@{HOST}:{port}')]
            listeners.append(Listener(given.live, words + ACCOUNT))
        crowd = Crowd(given.hostile, [port for name, port in ports.venue.items() if not isinstance(name, str)], given.first)
        early, late = feed(venue, lines, given.rate)
        said = time.monotonic()
        for it in listeners:
            try:
                it.wait_until_current(units, count)
            except Stuck as stuck:
                faults.append(str(stuck))
        took = time.monotonic() - said
        if took > 2:
            faults.append(f'current {took:.1f} s after the last message')
        grown = (late - early) / (0.9 * len(lines))
        if grown > BYTES_A_MESSAGE:
            faults.append(f'the venue grew by {grown:.0f} bytes a message')
        wanted = ''.join(live_serve.book_of(given.program, unit, commands[unit]) for unit in units).encode()
        for it in listeners:
            status, text, _ = it.end()
            if status != 0 or text[text.find(b'book unit'):] != wanted:
                faults.append(f'a listener ended with {status}, or with another book')
        if venue.poll() is not None:
            faults.append(f'the venue ended with {venue.returncode}: {venue.stderr.read()}')
        print(f'{len(lines)} commands, {crowd.made} hostile connections, current after {took:.2f} s, '
              f'venue {early >> 10} KB after a tenth, {late >> 10} KB at the end, {grown:.0f} bytes a message')
    finally:
        if crowd:
            crowd.end()
        for it in listeners:
            it.run.kill()
        venue.kill()
        copies[0].end()
    return faults


class Copies:
    """Sends what comes to some ports on to so many listeners, each with ports of its own."""

    def __init__(self, ports, count):
        self.stop, self.ports, self.wires = threading.Event(), [], {}
        sender = socket.socket(socket.AF_INET, socket.SOCK_DGRAM)
        held = [[socket.socket(socket.AF_INET, socket.SOCK_DGRAM) for _ in ports] for _ in range(count)]
        for wires in held:
            for wire in wires:
                wire.bind((HOST, 0))
            self.ports.append([wire.getsockname()[1] for wire in wires])
        for wires in held:
            for wire in wires:
                wire.close()
        for at, port in enumerate(ports):
            wire = socket.socket(socket.AF_INET, socket.SOCK_DGRAM)
            wire.setsockopt(socket.SOL_SOCKET, socket.SO_RCVBUF, 1 << 22)
            wire.bind((HOST, port))
            self.wires[wire] = [(HOST, its[at]) for its in self.ports]
        self.thread = threading.Thread(target=self.run, args=(sender,))
        self.thread.start()

    def run(self, sender):
        while not self.stop.is_set():
            for wire in select.select(list(self.wires), [], [], 0.2)[0]:
                datagram = wire.recv(65536)
                for to in self.wires[wire]:
                    sender.sendto(datagram, to)

    def end(self):
        self.stop.set()
        self.thread.join()


def main():
    words = argparse.ArgumentParser(description=__doc__, formatter_class=argparse.RawDescriptionHelpFormatter)
    words.add_argument('live')
    words.add_argument('program')
    for name, default in (('--seconds', 600), ('--hostile', 150), ('--honest', 6), ('--units', 4), ('--rate', 100), ('--first', 1)):
        words.add_argument(name, type=int, default=default)
    given = words.parse_args()
    faults = run(given)
    for fault in faults:
        print(fault)
    print('%d passed, %d failed' % (not faults, bool(faults)))
    return 1 if faults else 0


if __name__ == '__main__':
    sys.exit(main())
