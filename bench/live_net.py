#!/usr/bin/env python3
"""Runs `pitch_live listen` against a venue that answers, over a net that loses, on 127.0.0.1.

    bench/live_net.py LIVE PROGRAM [--numbers N] [--first F] [--units U] [--steps M] [--rate R] [--serve]

LIVE is the path of the built `pitch_live`, PROGRAM that of `pitch`. In each of N runs (3), numbered
from F (1), examples/live/venue.py sends the feed of the units 1 to U (8), each with the first M
commands (300) of its plan (docs/FEED.md), R datagrams a second (150), and answers who asks.
Everything passes examples/live/relay.py: of a hundred datagrams of each line 20 are lost, 20 come
twice, 20 after the next one, and 5 are spoiled; each connection is cut after 1.5 to 4.5 s. The
listener begins late, so the units lack their first messages, of which the proxies keep the last
third alone. 64 senders of noise send to its lines all the while. It is ended when each unit is
`current` at its last message; then its books have to be those of `follow` of the whole feed, byte
for byte, and its status 0; and standard error has to have said of each server in turn `up` and `down`.

The last line is `N passed, M failed`, and the exit status is 0 where none failed. A run that is not
current after a minute fails.
"""
import argparse
import os
import random
import socket
import subprocess
import sys
import tempfile
import threading
import time

import live_lines
import live_serve
from live_lines import HOST, PATIENCE, Stuck, books_of, datagrams_of, followed, noise

LIVE_FOLDER = os.path.join(live_lines.HERE, '..', 'examples', 'live')
LATE = 0.7
SENDERS = 64
CURRENT_WITHIN = 60
ACCOUNT = '--sub 0001 --user FEED --password PITCH'.split()
HARM = '--lost 20 --repeated 20 --swapped 20 --spoiled 5 --cut 3'.split()


def free_ports(count):
    """So many ports of which none is taken, neither of UDP nor of TCP."""
    held = []
    while len(held) < count:
        tcp, udp = socket.socket(), socket.socket(socket.AF_INET, socket.SOCK_DGRAM)
        tcp.bind((HOST, 0))
        try:
            udp.bind((HOST, tcp.getsockname()[1]))
        except OSError:
            tcp.close()
            continue
        held.append((tcp, udp))
    ports = [tcp.getsockname()[1] for tcp, _ in held]
    for tcp, udp in held:
        tcp.close()
        udp.close()
    return ports


class Ports:
    """The ports of a run: of each line and each server one at the relay, and one behind it."""

    def __init__(self, units):
        names = ['a', 'b', 'gap'] + [(kind, unit) for kind in ('grp', 'spin') for unit in units]
        some = free_ports(2 * len(names))
        self.venue = dict(zip(names, some))
        self.listener = dict(zip(names, some[len(names):]))

    def words(self, ports, line_units=()):
        """The words that name these ports, which the venue and the listener have alike. `serve` wants
        each line once for each unit."""
        words = []
        for name, port in ports.items():
            if not isinstance(name, str):
                words += ['--' + name[0], f'{name[1]}@{HOST}:{port}']
            elif line_units:
                words += [word for unit in line_units for word in ('--' + name, f'{unit}@{HOST}:{port}')]
            else:
                words += ['--' + name, f'{HOST}:{port}']
        return words

    def relays(self):
        """Lines go from the venue's side to the listener's, and connections the other way."""
        words = []
        for name in self.venue:
            near, far = self.venue[name], self.listener[name]
            words += ['--udp', f'{near}:{far}'] if isinstance(name, str) else ['--tcp', f'{far}:{near}']
        return words


class Listener:
    """The program, and the last status of each unit."""

    def __init__(self, live, words):
        self.run = subprocess.Popen([live, 'listen', *words], stdin=subprocess.PIPE, stdout=subprocess.PIPE, stderr=subprocess.PIPE)
        self.text, self.statuses, self.images = [], {}, 0
        self.reader = threading.Thread(target=self.read)
        self.reader.start()

    def read(self):
        for line in self.run.stdout:
            self.text.append(line)
            if b'; ' in line:
                words = line.split()
                self.statuses[int(words[words.index(b'unit') + 1])] = line.split(b'; ')[1].strip().decode()
                self.images += words[2] == b'image'

    def wait_until_current(self, units, last):
        until = time.monotonic() + CURRENT_WITHIN
        while any(self.statuses.get(it) != f'current {last}' for it in units):
            if time.monotonic() > until or self.run.poll() is not None:
                raise Stuck(f'it is {self.statuses}, status {self.run.poll()}')
            time.sleep(0.02)

    def end(self):
        self.run.stdin.close()
        self.reader.join(PATIENCE)
        return self.run.wait(PATIENCE), b''.join(self.text), self.run.stderr.read().decode().split('\n')


class Noise:
    """Senders of noise to some ports, until they are stopped."""

    def __init__(self, ports, number):
        self.stop = threading.Event()
        self.thread = threading.Thread(target=self.run, args=(ports, random.Random(number)))
        self.thread.start()

    def run(self, ports, dice):
        senders = [socket.socket(socket.AF_INET, socket.SOCK_DGRAM) for _ in range(SENDERS)]
        while not self.stop.wait(0.002):
            dice.choice(senders).sendto(noise(dice), (HOST, dice.choice(ports)))

    def end(self):
        self.stop.set()
        self.thread.join()


def are_told(said, units):
    """Whether the lines say of each server in turn that it is up and that it is down, and nothing else."""
    told = {f'unit {unit} {name}': [] for unit in units for name in ('grp', 'spin')}
    for line in said:
        server, _, how = line.rpartition(' ')
        if how not in ('up', 'down') or told.get(server, [how])[-1:] == [how]:
            return False
        told[server].append(how)
    return all('up' in it for it in told.values())


class Sent:
    """A venue that sends a feed and answers by examples/live/venue.py, and the books of its feed."""

    def __init__(self, given, number, folder):
        dice = random.Random(number)
        self.given, self.units = given, range(1, given.units + 1)
        datagrams = [it for it in datagrams_of(given.program, number, given.steps, dice) if it]
        self.feed = os.path.join(folder, 'feed')
        with open(self.feed, 'wb') as file:
            file.write(b''.join(datagrams))
        self.right = books_of(followed(given.program, datagrams))

    def start(self, ports):
        words = [self.given.program, self.feed, *ports.words(ports.venue), '--rate', str(self.given.rate), '--kept', str(self.given.steps // 3)]
        return subprocess.Popen([sys.executable, os.path.join(LIVE_FOLDER, 'venue.py'), *words], stdout=subprocess.DEVNULL)


class Served:
    """A venue that is `pitch_live serve`, and the books of its commands."""

    def __init__(self, given, number, folder):
        self.given, self.units = given, range(1, random.Random(number).randint(1, given.units) + 1)
        commands = {unit: live_serve.commands_of(random.Random(number * 256 + unit), given.steps) for unit in self.units}
        self.lines = [b'%d %s\n' % (unit, commands[unit][at].encode()) for at in range(given.steps) for unit in self.units]
        self.right = ''.join(live_serve.book_of(given.program, unit, commands[unit]) for unit in self.units).encode()

    def start(self, ports):
        words = ports.words(ports.venue, self.units) + ACCOUNT + ['--kept', str(self.given.steps // 3)]
        # A second's allowance is one account's at a proxy, and no unit has to wait for another minute.
        process = subprocess.Popen([self.given.live, 'serve', *words, '--minute', '9000'], stdin=subprocess.PIPE)
        threading.Thread(target=self.say, args=(process,), daemon=True).start()
        return process

    def say(self, process):
        """Each command is a piece of its own, and so a datagram of its own."""
        try:
            for line in self.lines:
                process.stdin.write(line)
                process.stdin.flush()
                time.sleep(1 / self.given.rate)
        except OSError:
            pass


def run_once(given, number, folder):
    venue = (Served if given.serve else Sent)(given, number, folder)
    units, right = venue.units, venue.right
    ports, started = Ports(units), []

    begun, listener, noisy = time.monotonic(), None, None
    try:
        relay = subprocess.Popen([sys.executable, os.path.join(LIVE_FOLDER, 'relay.py'), *ports.relays(), '--seed', str(number), *HARM],
                                 stdout=subprocess.PIPE, text=True)
        started.append(relay)
        started.append(venue.start(ports))
        time.sleep(LATE)
        listener = Listener(given.live, ports.words(ports.listener) + ACCOUNT)
        noisy = Noise([ports.listener[it] for it in ('a', 'b', 'gap')], number)
        listener.wait_until_current(units, given.steps)
        took = time.monotonic() - begun
        status, text, said = listener.end()
        relay.terminate()
        is_so = status == 0 and right and books_of(text) == right and are_told(said[:-2], units)
        return is_so, f'{took:.1f} s, {listener.images} images; {said[-2]}; relay: {relay.communicate()[0].strip()}'
    finally:
        if noisy:
            noisy.end()
        if listener and listener.run.poll() is None:
            listener.run.kill()
        for it in started:
            it.kill()
            it.wait()


def main():
    words = argparse.ArgumentParser(description=__doc__, formatter_class=argparse.RawDescriptionHelpFormatter)
    words.add_argument('live')
    words.add_argument('program')
    for name, default in (('--numbers', 3), ('--first', 1), ('--units', 8), ('--steps', 300), ('--rate', 150)):
        words.add_argument(name, type=int, default=default)
    words.add_argument('--serve', action='store_true')
    given = words.parse_args()
    live_lines.UNITS = range(1, given.units + 1)
    passed, failed = 0, 0
    for number in range(given.first, given.first + given.numbers):
        with tempfile.TemporaryDirectory() as folder:
            try:
                is_so, said = run_once(given, number, folder)
            except (Stuck, subprocess.TimeoutExpired) as stuck:
                is_so, said = False, stuck
        print(f'{number}: {"right" if is_so else "WRONG"}; {said}', flush=True)
        passed, failed = passed + bool(is_so), failed + (not is_so)
    print(f'{passed} passed, {failed} failed')
    sys.exit(1 if failed else 0)


if __name__ == '__main__':
    main()
