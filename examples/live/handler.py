#!/usr/bin/env python3
"""A handler of one unit, as short as it can be: hears lines A, B and the gap line, asks for what it lacks, and keeps the book.

    handler.py --unit U --a ADDR --b ADDR --gap ADDR --grp ADDR --seconds N
        [--sub S --user U --password P] [--drop N]

Each ADDR is HOST:PORT: the lines are bound here, and the Gap Request Proxy is called. After N seconds
the book is printed as `pitch follow` prints it, so that `pitch audit` can judge it. With --drop it
forgets every N-th datagram of a line, to have something to ask for.
"""
import argparse
import selectors
import socket
import struct
import time

LOGIN, LOGIN_REPLY, GAP_REQUEST = 0x01, 0x02, 0x03
MOST_ASKED = 100
BUY_OR_SELL = (b'B', b'S')


def message(kind, form, *fields):
    body = struct.pack('<' + form, *fields)
    return bytes([2 + len(body), kind]) + body


def block(messages=b'', count=0):
    return struct.pack('<HBBI', 8 + len(messages), count, 0, 0) + messages


def messages_in(datagram):
    """The unit, the first sequence and the messages of each block."""
    while len(datagram) >= 8:
        length, count, unit, first = struct.unpack_from('<HBBI', datagram)
        body, raws = datagram[8:length], []
        while body:
            raws.append(body[:body[0]])
            body = body[body[0]:]
        yield unit, first, raws
        datagram = datagram[length:]


class Book:
    """The open orders by their ids, the trading statuses, and the second."""

    def __init__(self):
        self.orders, self.statuses, self.second = {}, {}, None

    def add(self, number, side, quantity, symbol, price, flags, participant=b''):
        if quantity and side in BUY_OR_SELL:
            self.orders[number] = [side, quantity, symbol.rstrip(), price, flags & 1, participant.rstrip()]

    def fill(self, number, quantity):
        if number in self.orders:
            self.keep(number, self.orders[number][1] - quantity)

    def keep(self, number, quantity, **changed):
        if number in self.orders:
            order = self.orders[number]
            order[1], order[3], order[4] = quantity, changed.get('price', order[3]), changed.get('shown', order[4])
            if quantity <= 0:
                del self.orders[number]

    def apply(self, raw):
        kind, fields = raw[1], lambda form: struct.unpack_from('<' + form, raw, 6)
        if kind == 0x20:
            self.second, = struct.unpack_from('<I', raw, 2)
        elif kind in (0x21, 0x2F):
            self.add(*fields('QcI6sQB' if kind == 0x21 else 'QcI8sQB4s'))
        elif kind == 0x22:
            number, side, quantity, symbol, cents, flags = fields('QcH6sHB')
            self.add(number, side, quantity, symbol, cents * 100, flags)
        elif kind in (0x23, 0x25, 0x26):
            self.fill(*fields('QH' if kind == 0x26 else 'QI'))
        elif kind == 0x24:
            number, _, left = fields('QII')
            self.keep(number, left)
        elif kind in (0x27, 0x28):
            number, quantity, price, flags = fields('QIQB' if kind == 0x27 else 'QHHB')
            self.keep(number, quantity, price=price if kind == 0x27 else price * 100, shown=flags & 1)
        elif kind == 0x29:
            self.orders.pop(fields('Q')[0], None)
        elif kind == 0x31:
            symbol, halt, sho = fields('8scc')
            self.statuses[symbol.rstrip()] = halt, sho
        elif kind == 0x97:
            self.orders.clear()


class Handler:
    def __init__(self, given):
        self.given, self.book, self.reach, self.told, self.held = given, Book(), 0, 0, {}
        self.heard, self.came = 0, b''
        self.selector = selectors.DefaultSelector()
        for at in (given.a, given.b, given.gap):
            line = socket.socket(socket.AF_INET, socket.SOCK_DGRAM)
            line.bind(at)
            self.selector.register(line, selectors.EVENT_READ, self.hear)
        self.proxy = socket.create_connection(given.grp)
        self.selector.register(self.proxy, selectors.EVENT_READ, lambda proxy: proxy.recv(65536))
        login = message(LOGIN, '4s4s2s10s', given.sub, given.user, b'  ', given.password)
        self.proxy.sendall(block(login, 1))

    def hear(self, line):
        datagram = line.recv(65536)
        self.heard += 1
        if self.given.drop and self.heard % self.given.drop == 0:
            return
        for unit, first, raws in messages_in(datagram):
            if unit == self.given.unit and first:
                self.told = max(self.told, first + len(raws) - 1)
                self.held.update((first + at, raw) for at, raw in enumerate(raws) if first + at > self.reach)
        while self.reach + 1 in self.held:
            self.reach += 1
            self.book.apply(self.held.pop(self.reach))

    def second(self):
        """Asks for the first messages that it lacks, or says that it is there."""
        ask = b''
        if self.told > self.reach:
            end = min(self.held, default=self.told + 1)
            count = min(end - self.reach - 1, MOST_ASKED)
            ask = message(GAP_REQUEST, 'BIH', self.given.unit, self.reach + 1, count)
        self.proxy.sendall(block(ask, 1 if ask else 0))

    def run(self, seconds):
        tick = time.monotonic()
        end = tick + seconds
        while time.monotonic() < end:
            for key, _ in self.selector.select(max(0, tick - time.monotonic())):
                key.data(key.fileobj)
            if time.monotonic() >= tick:
                self.second()
                tick += 1

    def show(self):
        second = '-' if self.book.second is None else self.book.second
        print('book unit %d at %d second %s orders %d' % (self.given.unit, self.reach, second, len(self.book.orders)))
        for number, (side, quantity, symbol, price, shown, participant) in sorted(self.book.orders.items()):
            mark = ('' if shown else ' hidden') + (' mpid=' + participant.decode() if participant else '')
            print('order %d %s %d %s %d.%04d%s' % (number, side.decode(), quantity, symbol.decode(), *divmod(price, 10000), mark))
        for symbol, (halt, sho) in sorted(self.book.statuses.items()):
            print('status %s %s %s' % (symbol.decode(), halt.decode(), sho.decode()))


def address(text):
    host, port = text.rsplit(':', 1)
    return host, int(port)


def main():
    words = argparse.ArgumentParser(description=__doc__, formatter_class=argparse.RawDescriptionHelpFormatter)
    words.add_argument('--unit', type=int, default=1)
    for name in ('--a', '--b', '--gap', '--grp'):
        words.add_argument(name, type=address, required=True)
    words.add_argument('--seconds', type=float, required=True)
    for name, default in (('--sub', '0001'), ('--user', 'FEED'), ('--password', 'PITCH')):
        words.add_argument(name, type=lambda text, wide=10 if name == '--password' else 4: text.encode().ljust(wide),
                           default=default)
    words.add_argument('--drop', type=int, default=0)
    handler = Handler(words.parse_args())
    handler.run(handler.given.seconds)
    handler.show()


if __name__ == '__main__':
    main()
