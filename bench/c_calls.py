#!/usr/bin/env python3
"""Measures what the calls of libpitch_c.a cost, beside own_client.

    bench/c_calls.py [--megabytes M] [--rounds R] [--orders N] [--symbols S]

Wants `crates/pitch_c/out/libpitch_c.a` (`rt lib` there), `crates/own_client/out/own_client` (`rt
run` there) and a C compiler. A feed of M megabytes (40) is made: four units, blocks of 20 messages,
orders that are added and in part deleted again, so that about a tenth of them stays open. own_client
and examples/c/follow.c follow it in turn, R times (5), and have to write the same; c_calls.c then
hears it from memory, with and without price levels and with quotes, and asks. It does so again of a
feed that opens N orders (1,000,000) in one unit. Either feed has S symbols (2,000). Wanted are at
most 1.1 times the processor time of own_client for hearing the feed without price levels, and at
most 200 ns for a best price with N orders open. Processor times, medians. Python 3, the standard
library alone.
"""
import argparse
import os
import random
import re
import resource
import statistics
import struct
import subprocess
import sys
import tempfile

TOP = os.path.join(os.path.dirname(os.path.abspath(__file__)), "..")
LIBRARY = os.path.join(TOP, "crates/pitch_c/out/libpitch_c.a")
OWN_CLIENT = os.path.join(TOP, "crates/own_client/out/own_client")
EXAMPLES = os.path.join(TOP, "examples/c")
UNITS, IN_A_BLOCK = 4, 20
# The symbols of the feed, one of them in some orders more.
SYMBOLS = []


def add(order, side, symbol, price):
    return struct.pack("<BBIQcI6sQB", 34, 0x21, 0, order, side, 100, symbol, price, 1)


def delete(order):
    return struct.pack("<BBIQ", 14, 0x29, 0, order)


def messages(rnd):
    """Adds and deletes without end."""
    open_orders, order = [], 0
    while True:
        if open_orders and rnd.random() < 0.47:
            place = rnd.randrange(len(open_orders))
            open_orders[place], open_orders[-1] = open_orders[-1], open_orders[place]
            yield delete(open_orders.pop())
        else:
            order += 1
            open_orders.append(order)
            price = 100000 + rnd.randrange(2000)
            yield add(order, rnd.choice((b"B", b"S")), rnd.choice(SYMBOLS), price)


def write_feed(path, size):
    rnd = random.Random(1)
    units = [messages(rnd) for _ in range(UNITS)]
    sequence, written = 1, 0
    with open(path, "wb") as file:
        while written < size:
            for unit, source in enumerate(units, 1):
                body = b"".join(next(source) for _ in range(IN_A_BLOCK))
                head = struct.pack("<HBBI", 8 + len(body), IN_A_BLOCK, unit, sequence)
                written += file.write(head + body)
            sequence += IN_A_BLOCK


def write_deep(path, orders):
    """So many orders that stay open, in one unit."""
    rnd = random.Random(2)
    with open(path, "wb") as file:
        for first in range(1, orders + 1, IN_A_BLOCK):
            numbers = range(first, min(first + IN_A_BLOCK, orders + 1))
            adds = [add(it, rnd.choice((b"B", b"S")), rnd.choice(SYMBOLS), 100000 + rnd.randrange(2000))
                    for it in numbers]
            body = b"".join(adds)
            file.write(struct.pack("<HBBI", 8 + len(body), len(adds), 1, first) + body)


def calls(program, feed, rounds, *words):
    """The median of each time that c_calls.c prints, by what it is of."""
    times, units = {}, {}
    for _ in range(rounds):
        for line in run([program, feed, *words], feed)[0].decode().splitlines():
            if found := re.fullmatch(r"(.*) ([0-9.]+) (ns|s)", line):
                times.setdefault(found[1], []).append(float(found[2]))
                units[found[1]] = found[3]
    medians = {what: statistics.median(taken) for what, taken in times.items()}
    for what, taken in medians.items():
        print(f"{' '.join(words) or 'with levels'}: {what} {taken} {units[what]}")
    return medians


def run(command, feed):
    """The output and the processor time of a program that reads the feed."""
    before = resource.getrusage(resource.RUSAGE_CHILDREN)
    with open(feed, "rb") as file:
        done = subprocess.run(command, stdin=file, capture_output=True, check=True)
    after = resource.getrusage(resource.RUSAGE_CHILDREN)
    return done.stdout, sum(after[:2]) - sum(before[:2])


def main():
    parser = argparse.ArgumentParser()
    parser.add_argument("--megabytes", type=float, default=40)
    parser.add_argument("--rounds", type=int, default=5)
    parser.add_argument("--orders", type=int, default=1000000)
    parser.add_argument("--symbols", type=int, default=2000)
    args = parser.parse_args()
    SYMBOLS[:] = [f"S{k:04} ".encode() for k in range(args.symbols)] + [b"ACME  "] * 20
    for path in (LIBRARY, OWN_CLIENT):
        if not os.path.exists(path):
            sys.exit(f"no {os.path.relpath(path, TOP)}")
    with tempfile.TemporaryDirectory() as made:
        feed = os.path.join(made, "feed")
        write_feed(feed, args.megabytes * 1e6)
        programs = {}
        for name, source in (("follow", f"{EXAMPLES}/follow.c"), ("calls", f"{TOP}/bench/c_calls.c")):
            programs[name] = os.path.join(made, name)
            parts = [source, f"{EXAMPLES}/heap.c", LIBRARY]
            flags = ["-O2", f"-DSYMBOLS={args.symbols}"]
            subprocess.run(["cc", *flags, *parts, "-o", programs[name]], check=True)
        times = {"own_client": [], "follow.c": []}
        for _ in range(args.rounds):
            own, taken = run([OWN_CLIENT], feed)
            times["own_client"].append(taken)
            told, taken = run([programs["follow"]], feed)
            times["follow.c"].append(taken)
            if own != told:
                sys.exit("own_client and follow.c write different things")
        for name, taken in times.items():
            print(f"{name} {statistics.median(taken):.3f} s")
        plain = calls(programs["calls"], feed, args.rounds, "plain")["hearing"]
        share = plain / statistics.median(times["own_client"])
        print(f"hearing without levels: {share:.2f} times own_client")
        calls(programs["calls"], feed, args.rounds)
        calls(programs["calls"], feed, args.rounds, "quoted")
        write_deep(feed, args.orders)
        print(f"{args.orders:,} orders open:")
        deep = calls(programs["calls"], feed, args.rounds)
        print(f"a best price: {deep['best, with its symbol'] - deep['symbol']:.0f} ns")


if __name__ == "__main__":
    main()
