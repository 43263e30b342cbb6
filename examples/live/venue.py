#!/usr/bin/env python3
"""A venue to try a live client with: sends a feed on two lines, and answers who asks for what was lost.

    venue.py PROGRAM FEED --a ADDR --b ADDR --gap ADDR [--grp U@ADDR].. [--spin U@ADDR]..
        [--sub S --user U --password P] [--rate R] [--kept K]

FEED is a block stream of any units as `pitch pack` writes it, and PROGRAM the built `pitch`; each
ADDR is HOST:PORT. Each block is sent as a datagram on A and on B, R a second (100). Each second a
heartbeat of each unit follows on both, and an image of its messages so far is advertised. A Gap
Request Proxy answers at each --grp for its unit, from the last K messages (65536), on the gap line;
a Spin Server at each --spin, from the last ten images. Both do what docs/FEED.md says, section 5,
but for the limits of requests. The account is 0001, FEED and PITCH, where it is not given. When all
is sent a line says so, and the venue answers on until it is ended (Ctrl-C or TERM).
"""
import argparse
import collections
import selectors
import signal
import socket
import struct
import subprocess
import sys
import time

LOGIN, LOGIN_REPLY, GAP_REQUEST, GAP_REPLY = 0x01, 0x02, 0x03, 0x04
AVAILABLE, SPIN_REQUEST, SPIN_REPLY, SPIN_FINISHED = 0x80, 0x81, 0x82, 0x83
NEEDED = {LOGIN: 22, GAP_REQUEST: 9, SPIN_REQUEST: 6}
ADDS = (0x21, 0x22, 0x2F)
MOST_ASKED, MOST_SILENT = 100, 5


class Closed(Exception):
    """The session ends: the peer is gone, or sent what closes it."""


# ---- Blocks and messages
def block(unit, sequence, messages=()):
    body = b''.join(messages)
    return struct.pack('<HBBI', 8 + len(body), len(messages), unit, sequence) + body


def message(kind, form, *fields):
    body = struct.pack('<' + form, *fields)
    return bytes([2 + len(body), kind]) + body


def messages_in(body):
    at = 0
    while at < len(body):
        yield body[at:at + body[at]]
        at += body[at]


def blocks_in(stream):
    at = 0
    while at < len(stream):
        end = at + struct.unpack_from('<H', stream, at)[0]
        yield stream[at:end]
        at = end


def packed(unit, sequence, messages):
    """Blocks of at most 1,400 bytes and 255 messages; with sequence 0 all have 0."""
    part = []
    for one in messages:
        if part and (8 + sum(map(len, part)) + len(one) > 1400 or len(part) == 255):
            yield block(unit, sequence, part)
            sequence, part = sequence and sequence + len(part), []
        part.append(one)
    if part:
        yield block(unit, sequence, part)


# ---- A unit
class Unit:
    def __init__(self, program, number, kept):
        self.program, self.number, self.kept = program, number, kept
        self.messages, self.advertised = [], collections.deque(maxlen=10)

    def run(self, words, text):
        return subprocess.run([self.program, *words], input=text, stdout=subprocess.PIPE, check=True).stdout

    def image(self, sequence):
        """The messages that rebuild the book which the first ones leave, as the program prints it."""
        feed = b''.join(packed(self.number, 1, self.messages[:sequence]))
        commands = []
        for line in self.run(['follow'], feed).decode().splitlines():
            words = line.split()
            if words[0] == 'book' and words[6] != '-':
                commands.append('time ' + words[6])
            elif words[0] == 'order':
                commands.append('add ' + ' '.join(words[1:]))
            elif words[0] == 'status':
                commands.append(line)
        image = self.run(['pack', '--unit', str(self.number)], '\n'.join(commands).encode() + b'\n')
        return [one for each in blocks_in(image) for one in messages_in(each[8:])]

    def gap_status(self, unit, first, count):
        last = len(self.messages)
        if unit != self.number:
            return b'I'
        if count > MOST_ASKED:
            return b'C'
        if not count or not first or first + count - 1 > last or first <= last - self.kept:
            return b'O'
        return b'A'


# ---- A session
class Session:
    """A connection with a client: what came of a block, and what was not taken yet."""

    def __init__(self, venue, unit, wire):
        self.venue, self.unit, self.wire = venue, unit, wire
        self.came, self.out = bytearray(), bytearray()
        self.is_logged, self.silent, self.heard, self.said = False, 0, False, False
        wire.setblocking(False)
        venue.selector.register(wire, selectors.EVENT_READ, self.ready)

    def say(self, kind, form, *fields):
        self.put(block(self.header_unit(), 0, [message(kind, form, *fields)]))

    def put(self, data):
        self.out += data
        self.said = True
        self.flush()

    def flush(self):
        try:
            while self.out:
                del self.out[:self.wire.send(self.out)]
        except BlockingIOError:
            pass
        wanted = selectors.EVENT_READ | (selectors.EVENT_WRITE if self.out else 0)
        self.venue.selector.modify(self.wire, wanted, self.ready)

    def ready(self):
        self.flush()
        try:
            data = self.wire.recv(65536)
        except BlockingIOError:
            return
        if not data:
            raise Closed
        self.heard = True
        self.came += data
        while len(self.came) >= 8:
            length, _, _, sequence = struct.unpack_from('<HBBI', self.came)
            if length < 8 or sequence:
                raise Closed
            if len(self.came) < length:
                break
            body = bytes(self.came[8:length])
            del self.came[:length]
            for one in messages_in(body):
                self.take(one)

    def take(self, one):
        if len(one) < NEEDED.get(one[1], 2):
            raise Closed
        if one[1] == LOGIN:
            self.log_in(one)
        elif one[1] == self.REQUEST:
            if not self.is_logged:
                raise Closed
            self.answer(one)

    def log_in(self, one):
        sub, user, password = self.venue.account
        status = b'A'
        if one[2:6] != sub:
            status = b'S'
        elif one[6:10] + one[12:22] != user + password:
            status = b'N'
        elif self.is_logged:
            status = b'B'
        self.say(LOGIN_REPLY, 'c', status)
        if status != b'A':
            raise Closed
        self.is_logged = True
        self.advertise()

    def advertise(self):
        """Tells of the newest image."""

    def second(self):
        self.silent = 0 if self.heard else self.silent + 1
        if self.silent == MOST_SILENT:
            raise Closed
        if not self.said:
            self.put(block(self.header_unit(), 0))
        self.heard = self.said = False


class Proxy(Session):
    REQUEST = GAP_REQUEST

    def header_unit(self):
        return 0

    def answer(self, one):
        unit, first, count = struct.unpack_from('<BIH', one, 2)
        status = self.unit.gap_status(unit, first, count)
        self.say(GAP_REPLY, 'BIHc', unit, first, count, status)
        if status == b'A':
            for part in packed(unit, first, self.unit.messages[first - 1:first - 1 + count]):
                self.venue.send('gap', part)


class SpinServer(Session):
    REQUEST = SPIN_REQUEST

    def header_unit(self):
        return self.unit.number

    def advertise(self):
        if self.is_logged and self.unit.advertised:
            self.say(AVAILABLE, 'I', self.unit.advertised[-1])

    def answer(self, one):
        sequence, = struct.unpack_from('<I', one, 2)
        if sequence not in self.unit.advertised:
            self.say(SPIN_REPLY, 'IIc', sequence, 0, b'O')
            return
        image = self.unit.image(sequence)
        self.say(SPIN_REPLY, 'IIc', sequence, sum(it[1] in ADDS for it in image), b'A')
        for part in packed(self.header_unit(), 0, image):
            self.put(part)
        self.say(SPIN_FINISHED, 'I', sequence)


# ---- The venue
def address(text):
    host, port = text.rsplit(':', 1)
    return host, int(port)


class Venue:
    def __init__(self, given):
        self.selector, self.sessions = selectors.DefaultSelector(), {}
        self.account = [text.encode().ljust(width) for text, width in
                        ((given.sub, 4), (given.user, 4), (given.password, 10))]
        self.wire = socket.socket(socket.AF_INET, socket.SOCK_DGRAM)
        self.to = {'a': given.a, 'b': given.b, 'gap': given.gap}
        with open(given.FEED, 'rb') as file:
            self.feed = collections.deque(blocks_in(file.read()))
        self.units = {number: Unit(given.PROGRAM, number, given.kept)
                      for number in sorted({it[3] for it in self.feed})}
        for kind, doors in ((Proxy, given.grp), (SpinServer, given.spin)):
            for door in doors:
                unit, at = door.split('@')
                self.listen(kind, self.units[int(unit)], address(at))

    def listen(self, kind, unit, at):
        door = socket.create_server(at)
        self.selector.register(door, selectors.EVENT_READ, lambda: self.accept(kind, unit, door))

    def accept(self, kind, unit, door):
        wire, _ = door.accept()
        self.sessions[wire] = kind(self, unit, wire)

    def send(self, line, datagram):
        self.wire.sendto(datagram, self.to[line])

    def send_both(self, datagram):
        self.send('a', datagram)
        self.send('b', datagram)

    def attempt(self, wire, act):
        """Does it; where it ends a session, that is closed."""
        try:
            act()
        except (Closed, OSError):
            if wire not in self.sessions:
                raise
            self.selector.unregister(wire)
            del self.sessions[wire]
            wire.close()

    def send_next(self):
        datagram = self.feed.popleft()
        self.units[datagram[3]].messages += messages_in(datagram[8:])
        self.send_both(datagram)

    def second(self):
        for unit in self.units.values():
            self.send_both(block(unit.number, len(unit.messages) + 1))
            if not unit.advertised or unit.advertised[-1] != len(unit.messages):
                unit.advertised.append(len(unit.messages))
                for wire, session in list(self.sessions.items()):
                    if session.unit is unit:
                        self.attempt(wire, session.advertise)
        for wire, session in list(self.sessions.items()):
            self.attempt(wire, session.second)

    def run(self, rate):
        sends = seconds = time.monotonic()
        while True:
            until = min(sends, seconds) if self.feed else seconds
            for key, _ in self.selector.select(max(0, until - time.monotonic())):
                self.attempt(key.fileobj, key.data)
            now = time.monotonic()
            while self.feed and now >= sends:
                self.send_next()
                sends += 1 / rate
                if not self.feed:
                    print('all is sent: %d messages' % sum(len(it.messages) for it in self.units.values()), flush=True)
            if now >= seconds:
                self.second()
                seconds += 1


def main():
    words = argparse.ArgumentParser(description=__doc__, formatter_class=argparse.RawDescriptionHelpFormatter)
    words.add_argument('PROGRAM')
    words.add_argument('FEED')
    for name in ('--a', '--b', '--gap'):
        words.add_argument(name, type=address, required=True)
    for name in ('--grp', '--spin'):
        words.add_argument(name, action='append', default=[])
    for name, default in (('--sub', '0001'), ('--user', 'FEED'), ('--password', 'PITCH')):
        words.add_argument(name, default=default)
    words.add_argument('--rate', type=float, default=100)
    words.add_argument('--kept', type=int, default=65536)
    signal.signal(signal.SIGTERM, lambda *_: sys.exit(0))
    given = words.parse_args()
    try:
        Venue(given).run(given.rate)
    except KeyboardInterrupt:
        pass
    except (OSError, KeyError, ValueError) as error:
        sys.exit('venue.py: %s' % error)


if __name__ == '__main__':
    main()
