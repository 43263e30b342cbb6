#!/usr/bin/env python3
"""Joins multicast groups, and runs a command with their sockets as its descriptors 9, 10, ..

    join.py GROUP:PORT[,GROUP:PORT].. ADDRESS COMMAND..

ADDRESS is that of the interface on which the feed comes.
"""
import os
import socket
import sys

FIRST = 9


def joined(place, address):
    """A socket that hears a group and port."""
    group, port = place.split(':')
    one = socket.socket(socket.AF_INET, socket.SOCK_DGRAM)
    one.setsockopt(socket.SOL_SOCKET, socket.SO_REUSEADDR, 1)
    one.setsockopt(socket.SOL_SOCKET, socket.SO_RCVBUF, 8 << 20)
    one.bind((group, int(port)))
    member = socket.inet_aton(group) + socket.inet_aton(address)
    one.setsockopt(socket.IPPROTO_IP, socket.IP_ADD_MEMBERSHIP, member)
    return one


def main(places, address, *command):
    for number, place in enumerate(places.split(','), FIRST):
        try:
            one = joined(place, address)
        except (OSError, ValueError) as error:
            sys.exit(f"join.py: {place} can't be joined at {address}: {error}")
        at = one.detach()
        os.dup2(at, number)
        os.set_inheritable(number, True)
        if at != number:
            os.close(at)
    os.execvp(command[0], command)


if __name__ == '__main__':
    if len(sys.argv) < 4:
        sys.exit('join.py: usage: join.py GROUP:PORT[,GROUP:PORT].. ADDRESS COMMAND..')
    main(*sys.argv[1:])
