#!/usr/bin/env python3
"""Joins multicast groups and writes the blocks of their datagrams as they come, for `pitch follow`.

    examples/desk/listen.py ADDRESS GROUP:PORT.. | (trap '' INT; exec ./pitch follow)

ADDRESS is that of the interface on which the feed comes. A datagram that is not whole blocks is
passed over. Ctrl-C ends it, and standard error then has how many datagrams were written and how
many were passed over.
"""
import select
import signal
import socket
import sys

from desk import Fault, blocks_of, run

# The largest receive buffer to ask for; the kernel's own limit (net.core.rmem_max) may be lower.
BUFFER = 64 << 20


def is_whole(data):
    """Whether a datagram is one or more blocks and nothing else."""
    return data != b'' and sum(map(len, blocks_of(data))) == len(data)


def joined(address, word):
    """A socket that hears a group and port, GROUP:PORT."""
    group, _, port = word.partition(':')
    if not port.isdigit() or not 0 < int(port) < 65536:
        raise Fault('%s is no GROUP:PORT' % word, 2)
    one = socket.socket(socket.AF_INET, socket.SOCK_DGRAM)
    try:
        member = socket.inet_aton(group) + socket.inet_aton(address)
        one.setsockopt(socket.SOL_SOCKET, socket.SO_REUSEADDR, 1)
        one.setsockopt(socket.SOL_SOCKET, socket.SO_RCVBUF, BUFFER)
        one.bind((group, int(port)))
        one.setsockopt(socket.IPPROTO_IP, socket.IP_ADD_MEMBERSHIP, member)
    except OSError as error:
        why = error.strerror or error
        raise Fault("%s can't be joined at %s: %s" % (word, address, why)) from None
    return one


def main():
    if len(sys.argv) < 3:
        raise Fault('usage: listen.py ADDRESS GROUP:PORT..', 2)
    sockets = [joined(sys.argv[1], word) for word in sys.argv[2:]]
    signal.signal(signal.SIGTERM, signal.default_int_handler)
    written = passed = 0
    try:
        while True:
            for one in select.select(sockets, [], [])[0]:
                data = one.recv(65536)
                if is_whole(data):
                    written += 1
                    sys.stdout.buffer.write(data)
                else:
                    passed += 1
            sys.stdout.buffer.flush()
    except (KeyboardInterrupt, BrokenPipeError):
        print('listen.py: datagrams %d passed over %d' % (written, passed), file=sys.stderr)


if __name__ == '__main__':
    run(main)
