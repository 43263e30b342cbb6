#!/usr/bin/env python3
"""Sends the blocks of a file as datagrams, 1,000 a second: send.py FILE HOST:PORT ADDRESS, of the interface to send on."""
import socket, struct, sys, time

host, port = sys.argv[2].split(':')
one = socket.socket(socket.AF_INET, socket.SOCK_DGRAM)
one.setsockopt(socket.IPPROTO_IP, socket.IP_MULTICAST_IF, socket.inet_aton(sys.argv[3]))
with open(sys.argv[1], 'rb') as file:
    feed, at = file.read(), 0
while at < len(feed):
    length = struct.unpack_from('<H', feed, at)[0]
    one.sendto(feed[at:at + length], (host, int(port)))
    at += length
    time.sleep(0.001)
