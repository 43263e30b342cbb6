#!/usr/bin/env python3
"""Stands between a venue and a live client on 127.0.0.1, and harms what passes.

    relay.py [--udp IN:OUT].. [--tcp IN:OUT].. [--seed N] [--lost P] [--repeated P] [--swapped P]
        [--spoiled P] [--cut SECONDS]

What comes to the port IN goes on to the port OUT. Of a hundred datagrams of each --udp about P are
lost, sent twice, held back until the next one was sent, or spoiled: cut, emptied, or replaced by
noise or by a block of unit 99. Which ones is drawn from the seed. Each connection of a --tcp is cut
after SECONDS, half of them more or less. Ctrl-C or TERM ends it, with a line of counts.
"""
import argparse
import collections
import random
import selectors
import signal
import socket
import struct
import sys
import time

HOST, OTHER_UNIT = '127.0.0.1', 99


def ports(text):
    inward, outward = map(int, text.split(':'))
    return inward, outward


class Line:
    """A line of datagrams: what comes to a port goes on to another one, or does not."""

    def __init__(self, relay, inward, outward):
        self.relay, self.to, self.held = relay, (HOST, outward), None
        self.dice = random.Random('%d %d' % (relay.given.seed, outward))
        self.wire = socket.socket(socket.AF_INET, socket.SOCK_DGRAM)
        self.wire.setsockopt(socket.SOL_SOCKET, socket.SO_RCVBUF, 1 << 22)
        self.wire.bind((HOST, inward))
        self.wire.setblocking(False)
        relay.selector.register(self.wire, selectors.EVENT_READ, self.ready)

    def falls(self, what):
        """Whether this one is harmed so."""
        does = self.dice.random() * 100 < getattr(self.relay.given, what)
        self.relay.counts[what] += does
        return does

    def spoil(self, datagram):
        return self.dice.choice((
            datagram[:self.dice.randrange(len(datagram) or 1)],
            b'',
            b'\xff\xff' + bytes(self.dice.choices(range(256), k=self.dice.randrange(200))),
            struct.pack('<HBBI', 8, 0, OTHER_UNIT, self.dice.randint(1, 9)),
        ))

    def ready(self):
        datagram = self.wire.recv(65536)
        self.relay.counts['came'] += 1
        if self.falls('lost'):
            return
        if self.falls('spoiled'):
            datagram = self.spoil(datagram)
        if self.held is None and self.falls('swapped'):
            self.held = datagram
            return
        for one in [datagram] * (2 if self.falls('repeated') else 1) + [self.held]:
            if one is not None:
                self.wire.sendto(one, self.to)
        self.held = None


class Door:
    """A port whose connections go on to another one, until they are cut."""

    def __init__(self, relay, inward, outward):
        self.relay, self.to = relay, (HOST, outward)
        self.door = socket.create_server((HOST, inward))
        relay.selector.register(self.door, selectors.EVENT_READ, self.accept)

    def accept(self):
        near, _ = self.door.accept()
        try:
            far = socket.create_connection(self.to, 2)
        except OSError:
            near.close()
            return
        cut = self.relay.given.cut
        until = time.monotonic() + cut * self.relay.dice.uniform(0.5, 1.5) if cut else None
        self.relay.join(near, far, until)


class Relay:
    def __init__(self, given):
        self.given, self.dice, self.counts = given, random.Random(given.seed), collections.Counter()
        self.selector, self.pairs = selectors.DefaultSelector(), []
        for kind, wanted in ((Line, given.udp), (Door, given.tcp)):
            for inward, outward in wanted:
                kind(self, inward, outward)

    def join(self, near, far, until):
        pair = (near, far, until)
        self.pairs.append(pair)
        for source, sink in ((near, far), (far, near)):
            source.settimeout(2)
            self.selector.register(source, selectors.EVENT_READ, lambda s=source, t=sink: self.carry(pair, s, t))

    def carry(self, pair, source, sink):
        if pair not in self.pairs:
            return
        try:
            data = source.recv(65536)
            sink.sendall(data)
        except OSError:
            data = b''
        if not data:
            self.part(pair)

    def part(self, pair):
        self.pairs.remove(pair)
        for end in pair[:2]:
            self.selector.unregister(end)
            end.close()

    def run(self):
        while True:
            for key, _ in self.selector.select(0.1):
                key.data()
            now = time.monotonic()
            for pair in [it for it in self.pairs if it[2] and it[2] < now]:
                self.counts['cut'] += 1
                self.part(pair)


def main():
    words = argparse.ArgumentParser(description=__doc__, formatter_class=argparse.RawDescriptionHelpFormatter)
    for name in ('--udp', '--tcp'):
        words.add_argument(name, type=ports, action='append', default=[])
    words.add_argument('--seed', type=int, default=1)
    for name in ('--lost', '--repeated', '--swapped', '--spoiled', '--cut'):
        words.add_argument(name, type=float, default=0)
    signal.signal(signal.SIGTERM, lambda *_: sys.exit(0))
    relay = Relay(words.parse_args())
    try:
        relay.run()
    except KeyboardInterrupt:
        pass
    finally:
        print(', '.join('%d %s' % (count, what) for what, count in relay.counts.items()), flush=True)


if __name__ == '__main__':
    main()
