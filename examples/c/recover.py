#!/usr/bin/env python3
"""What recover.c plays, from Python: a lost packet that an end asks a Gap Request Proxy for.

    recover.py ./libpitch.so

Python 3, the standard library alone.
"""
import struct
import sys

from pitch_client import PROXY, End, PitchError


def message(n):
    """Message n of unit 7 adds an order: its id is n, buy 100 ABC at 1.00 and n hundredths."""
    add = struct.pack("<BBIQcH6sHB", 26, 0x22, 0, n, b"B", 100, b"ABC   ", 100 + n, 1)
    return struct.pack("<HBBI", 8 + len(add), 1, 7, n) + add


def dollars(price):
    return f"{price // 10000}.{price % 10000:04}"


def print_status(end, when):
    status = end.status()
    print(f"{when}: {status.word} at {status.reach} of {status.top}")


def log_in(end):
    """A connection with the proxy is made: it takes the login, and accepts it."""
    end.connected(PROXY)
    login = end.send(PROXY, 8) + end.send(PROXY)
    if len(login) != 30 or login[10:] != b"0001FEED  PITCH     ":
        sys.exit("another login")
    end.took(PROXY, bytes([11, 0, 1, 0, 0, 0, 0, 0, 3, 0x02]) + b"A")


def asked(end):
    """A second passes. Where the end asks for messages, the proxy says that it will send them."""
    end.second()
    request = end.send(PROXY)
    if len(request) != 17 or request[9:11] != bytes([0x03, 7]):
        sys.exit("nothing was asked for")
    end.took(PROXY, bytes([18, 0, 1, 0, 0, 0, 0, 0, 10, 0x04]) + request[10:] + b"A")
    return request[11]


def main(library):
    end = End(library, 7, "0001", "FEED", "PITCH", 16)
    for n in (1, 3):
        end.hear(message(n))
    print_status(end, "a message is lost")
    log_in(end)
    print(f"asked from {asked(end)} on")
    end.cut(PROXY)
    print_status(end, "connected" if end.connection(PROXY) else "cut off")
    log_in(end)
    first = asked(end)
    print(f"asked from {first} on again")
    end.hear(message(first))
    print_status(end, "it came on the gap line")
    price, shares = end.best("ABC", "B")
    print(f"bid {shares} at {dollars(price)}")
    for price, shares in end.levels("ABC", "B"):
        print(f"level {shares} at {dollars(price)}")
    for order in end.orders():
        print(f"order {order.id}: {order.quantity} at {dollars(order.price)}")
    end.close()


if __name__ == "__main__":
    if len(sys.argv) != 2:
        sys.exit("usage: recover.py LIBRARY")
    try:
        main(sys.argv[1])
    except (PitchError, OSError) as error:
        sys.exit(f"recover.py: {error}")
