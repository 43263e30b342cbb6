#!/usr/bin/env python3
"""Measures `quotes` beside `follow`, or compares it with a plain model on random feeds.

    bench/quotes.py PROGRAM [--messages M] [--rounds R]
    bench/quotes.py PROGRAM --compare [--feeds N] [--number S]

PROGRAM is the path of the built program: `crates/pitch/out/pitch` after `./pitch` or `rt run`.

Without --compare two feeds are made. The first has M messages (2,000,000) of one unit, near the
best prices of three symbols: it is followed and quoted in turn, R times (5). Wanted are at most 2.5
times the processor time of `follow`, by medians. The second puts 1,000,000 orders on 10,000 price
levels of a symbol and takes them all away again, and a third has a quarter of that: wanted is a
straight line, at most 1.3 times the quarter's time for each message.

With --compare N feeds (1,000) are made from number S (1): orders of three symbols on few prices are
added, reduced, modified and deleted, ids are taken over, the unit is cleared, and blocks are lost,
repeated and late. The lines that the program writes have to be those of the model, which sums all
open orders anew after each message that the unit applies.

The exit status is 0 where what is wanted is met or all lines agree. Python 3, the standard library
alone.
"""
import argparse
import multiprocessing
import os
import random
import statistics
import struct
import subprocess
import sys
import tempfile

import replay

WANTED = 2.5
STRAIGHT = 1.3
IN_A_BLOCK = 30
SYMBOLS = (b"AAA   ", b"IBM   ", b"ZZZ   ")
UNIT_CLEAR = struct.pack("<BBI", 6, 0x97, 0)


# ---- Messages
def add(order, side, quantity, symbol, price):
    return struct.pack("<BBIQcI6sQB", 34, 0x21, 0, order, side, quantity, symbol, price, 1)


def reduce_by(order, quantity):
    return struct.pack("<BBIQI", 18, 0x25, 0, order, quantity)


def modify(order, quantity, price):
    return struct.pack("<BBIQIQB", 27, 0x27, 0, order, quantity, price, 1)


def delete(order):
    return struct.pack("<BBIQ", 14, 0x29, 0, order)


def block(sequence, messages, unit=1):
    body = b"".join(messages)
    return struct.pack("<HBBI", 8 + len(body), len(messages), unit, sequence) + body


def in_blocks(messages):
    for at in range(0, len(messages), IN_A_BLOCK):
        yield block(1 + at, messages[at:at + IN_A_BLOCK])


# ---- Feeds to measure
def busy(count):
    """Orders at the best price come, trade and go: most messages change a best."""
    random.seed(1)
    messages, open_orders, order = [], [], 0
    while len(messages) < count:
        if len(open_orders) < 1000 or random.random() < 0.4:
            order += 1
            side = b"BS"[order & 1:][:1]
            price = 100000 + (random.randrange(40) if side == b"S" else -random.randrange(1, 40))
            messages.append(add(order, side, 100, random.choice(SYMBOLS), price * 100))
            open_orders.append(order)
        elif random.random() < 0.5:
            messages.append(reduce_by(random.choice(open_orders[-100:]), 1))
        else:
            at = random.randrange(len(open_orders))
            open_orders[at], open_orders[-1] = open_orders[-1], open_orders[at]
            messages.append(delete(open_orders.pop()))
    return messages


def deep(orders, levels):
    """So many orders on so many levels come, in no order, and go again."""
    random.seed(2)
    numbers = list(range(1, orders + 1))
    random.shuffle(numbers)
    messages = [add(n, b"B", 100, b"IBM   ", 100 * (1 + n % levels)) for n in numbers]
    random.shuffle(numbers)
    return messages + [delete(n) for n in numbers]


def write_feed(path, messages_of, *given):
    with open(path, "wb") as stream:
        stream.writelines(in_blocks(messages_of(*given)))


def written(folder, name, messages_of, *given):
    """Writes a feed in a process of its own, whose memory would else count as the program's."""
    path = os.path.join(folder, name)
    maker = multiprocessing.Process(target=write_feed, args=(path, messages_of, *given))
    maker.start()
    maker.join()
    return path


def median_of(command, path, rounds):
    runs = [replay.once(command, path) for _ in range(rounds)]
    return statistics.median(took for took, _, _ in runs), max(peak for _, peak, _ in runs)


def measure(program, count, rounds):
    follow, quotes = [program, "follow"], [program, "quotes"]
    with tempfile.TemporaryDirectory() as folder:
        feed = written(folder, "busy", busy, count)
        plain, quoted, memory = [], [], 0
        for _ in range(rounds):
            plain.append(replay.once(follow, feed)[0])
            took, peak, _ = replay.once(quotes, feed)
            quoted.append(took)
            memory = max(memory, peak)
        plain, quoted = statistics.median(plain), statistics.median(quoted)
        print(f"{count:,} messages: follow {plain:.3f} s, quotes {quoted:.3f} s, {memory:.0f} MB")
        replay.wanted("times the processor time of follow", quoted / plain, WANTED)
        times = {}
        for orders in (250000, 1000000):
            path = written(folder, f"deep-{orders}", deep, orders, 10000)
            times[orders], memory = median_of(quotes, path, rounds)
            came = f"{orders:,} orders on 10,000 levels come and go"
            print(f"{came}: {times[orders]:.3f} s, {memory:.0f} MB")
        straight = times[1000000] / (4 * times[250000])
        replay.wanted("times a quarter's time a message", straight, STRAIGHT)
        return 1 if replay.exceeded else 0


# ---- The model
class Book:
    def __init__(self):
        self.orders = {}

    def apply(self, raw):
        kind = raw[1]
        if kind == 0x97:
            self.orders.clear()
        elif kind == 0x21:
            order, side, quantity, symbol, price = struct.unpack("<QcI6sQ", raw[6:33])
            if quantity:
                self.orders[order] = (symbol, side, price, quantity)
            else:
                self.orders.pop(order, None)
        elif kind == 0x29:
            self.orders.pop(struct.unpack("<Q", raw[6:14])[0], None)
        elif kind in (0x25, 0x27):
            order, quantity = struct.unpack("<QI", raw[6:18])
            if order in self.orders:
                symbol, side, price, left = self.orders.pop(order)
                if kind == 0x27:
                    price, left = struct.unpack("<Q", raw[18:26])[0], quantity
                else:
                    left = max(0, left - quantity)
                if left:
                    self.orders[order] = (symbol, side, price, left)

    def bests(self):
        """The best price and its shares of each symbol and side that has an order."""
        found = {}
        for symbol, side, price, quantity in self.orders.values():
            best = found.get((symbol, side))
            better = best is None or (price > best[0] if side == b"B" else price < best[0])
            if better:
                found[symbol, side] = (price, quantity)
            elif price == best[0]:
                found[symbol, side] = (price, best[1] + quantity)
        return found


def changes(old, new):
    """Each symbol and side whose best became another, with that."""
    for symbol, side in sorted(set(old) | set(new)):
        best = new.get((symbol, side))
        if best != old.get((symbol, side)):
            yield symbol, side, best


def lines_of(sequence, old, new):
    for symbol, side, best in changes(old, new):
        shown = "- -" if best is None else f"{best[0] // 10000}.{best[0] % 10000:04} {best[1]}"
        yield f"quote unit 1 at {sequence} {symbol.decode().rstrip()} {side.decode()} {shown}\n"


def model(arrived):
    """The lines of blocks in the order of their arrival; each is a sequence with its messages."""
    book, reach, held, lines = Book(), 0, {}, []
    for first, messages in arrived:
        for number, raw in enumerate(messages, first):
            if number > reach:
                held.setdefault(number, raw)
        while reach + 1 in held:
            reach += 1
            old = book.bests()
            book.apply(held.pop(reach))
            lines += lines_of(reach, old, book.bests())
    return "".join(lines)


def random_messages(rng):
    messages = []
    for _ in range(rng.randrange(1, 120)):
        order, price = rng.randrange(1, 12), 100000 + 100 * rng.randrange(5)
        kind = rng.random()
        if kind < 0.5:
            side, quantity = rng.choice((b"B", b"S")), rng.randrange(1, 4)
            messages.append(add(order, side, quantity, rng.choice(SYMBOLS), price))
        elif kind < 0.65:
            messages.append(reduce_by(order, rng.randrange(1, 4)))
        elif kind < 0.8:
            messages.append(modify(order, rng.randrange(0, 4), price))
        elif kind < 0.97:
            messages.append(delete(order))
        else:
            messages.append(UNIT_CLEAR)
    return messages


def random_arrivals(rng):
    """Blocks of a venue's messages, some of them lost, twice or later than others."""
    messages, arrived, at = random_messages(rng), [], 0
    while at < len(messages):
        count = rng.randrange(1, 6)
        for _ in range(rng.choice((0, 1, 2)) if rng.random() < 0.2 else 1):
            later = rng.choice((0, 0, 0, 1, 2, 5))
            arrived.insert(max(0, len(arrived) - later), (1 + at, messages[at:at + count]))
        at += count
    return arrived


def compare(program, feeds, number):
    rng, wrong = random.Random(number), 0
    for feed in range(feeds):
        arrived = random_arrivals(rng)
        stream = b"".join(block(*it) for it in arrived)
        done = subprocess.run([program, "quotes"], input=stream, capture_output=True)
        if (done.returncode, done.stdout.decode()) != (0, model(arrived)):
            wrong += 1
            print(f"feed {feed} of number {number} differs")
    print(f"{feeds} feeds, {wrong} with other lines than the model")
    return 1 if wrong else 0


def main():
    parser = argparse.ArgumentParser(description="`quotes` beside `follow` or a plain model")
    parser.add_argument("program")
    parser.add_argument("--messages", type=int, default=2000000)
    parser.add_argument("--rounds", type=int, default=5)
    parser.add_argument("--compare", action="store_true")
    parser.add_argument("--feeds", type=int, default=1000)
    parser.add_argument("--number", type=int, default=1)
    options = parser.parse_args()
    if options.compare:
        return compare(options.program, options.feeds, options.number)
    return measure(options.program, options.messages, options.rounds)


if __name__ == "__main__":
    sys.exit(main())
