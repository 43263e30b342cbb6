#!/usr/bin/env python3
"""Compares what libpitch_c.a answers after every block of random feeds with a plain model.

    bench/c_bests.py [--feeds N] [--number S] [--refuse K]

Wants `crates/pitch_c/out/libpitch_c.a` (`rt lib` there) and a C compiler. N feeds (1,000) are made
from number S (1), as `quotes.py --compare` makes them: orders of three symbols on few prices, ids
that are taken over, Unit Clears, and blocks that are lost, repeated and late. After each block the
reach, the best price of each symbol and side, and the list of the open orders have to be those of
the model, which sums all open orders anew, and so have the levels of each symbol and side, and the
shares at each price. Every other client is told with each block what it changed of the best prices,
and has to be told what the model has after each message. A list is asked for with too few places
too, and what stands behind it has to stay. Each fourth client keeps no price levels. And
examples/c/bests.c follows another feed, and has to print for each block what the model has then.

With --refuse one allocation in K is refused, at random. What is refused for want of memory is asked
for again; a best price and the shares at a price are never refused, also where the price levels
went. Where quotes were not told the block has to be heard, and the next block's to be told again.

The exit status is 0 where all answers agree. Python 3, the standard library alone.
"""
import argparse
import ctypes
import os
import random
import subprocess
import sys
import tempfile

import quotes

TOP = os.path.join(os.path.dirname(os.path.abspath(__file__)), "..")
sys.path.insert(0, os.path.join(TOP, "examples/c"))
import pitch_client as pitch  # noqa: E402

LIBRARY = os.path.join(TOP, "crates/pitch_c/out/libpitch_c.a")
NO_MEMORY = 3


def shared_object(folder):
    """The library as a shared object, over memory that may be refused."""
    made = os.path.join(folder, "libpitch.so")
    heap = os.path.join(TOP, "bench/c_heap.c")
    parts = ["-Wl,--whole-archive", LIBRARY, "-Wl,--no-whole-archive", "-o", made]
    subprocess.run(["cc", "-O2", "-fPIC", "-shared", heap, *parts], check=True)
    return made


class Model:
    """A unit that applies blocks in their order, and holds what comes early."""

    def __init__(self):
        self.book, self.reach, self.held = quotes.Book(), 0, {}

    def hear(self, first, messages):
        """Hears a block, and tells what each message that was applied changed of the bests."""
        for number, raw in enumerate(messages, first):
            if number > self.reach:
                self.held.setdefault(number, raw)
        quotes_told, before = [], self.book.bests()
        while self.reach + 1 in self.held:
            self.reach += 1
            self.book.apply(self.held.pop(self.reach))
            bests = self.book.bests()
            quotes_told += [(self.reach, *it) for it in quotes.changes(before, bests)]
            before = bests
        return quotes_told

    def levels(self, symbol, side):
        """The prices with their shares, the best first."""
        shares = {}
        for its_symbol, its_side, price, quantity in self.book.orders.values():
            if (its_symbol, its_side) == (symbol, side):
                shares[price] = shares.get(price, 0) + quantity
        return sorted(shares.items(), reverse=side == b"B")

    def orders(self):
        return [(number, *self.book.orders[number]) for number in sorted(self.book.orders)]


class Wrong(Exception):
    pass


def must(what, told, wanted):
    if told != wanted:
        raise Wrong(f"{what}: told {told}, wanted {wanted}")


def again(call, *given):
    """What a call answers once it has memory."""
    while True:
        try:
            return call(*given)
        except pitch.PitchError as error:
            if error.code != NO_MEMORY:
                raise


def few_orders(client, places):
    """The first orders in an array of so many places and one more, and how many there are."""
    array, number = (pitch.Order * (places + 1))(), pitch.U64()
    array[places].id = 77
    client._ask("orders", 1, array, places, number)
    must("the place behind", array[places].id, 77)
    return [array[k].id for k in range(min(places, number.value))], number.value


def compare_side(client, model, symbol, side, best, rng):
    name, letter = symbol.decode().strip(), side.decode()
    must(f"best of {name} {side}", client.best(1, name, letter), best)
    levels = model.levels(symbol, side)
    must(f"levels of {name} {side}", again(client.levels, 1, name, letter), levels)
    places = rng.randrange(4)
    few = again(client.levels, 1, name, letter, places)
    must(f"few levels of {name} {side}", few, levels[:places])
    for price, shares in [*levels, (1, 0)]:
        must(f"level {price} of {name} {side}", client.level(1, name, letter, price), shares)


def compare_answers(client, model, rng, tally):
    must("reach", client.status(1).reach, model.reach)
    bests = model.book.bests()
    for symbol in quotes.SYMBOLS:
        for side in (b"B", b"S"):
            compare_side(client, model, symbol, side, bests.get((symbol, side)), rng)
            tally["bests"] += 1
    told = again(client.orders, 1)
    wanted = model.orders()
    shown = [(it.id, bytes(it.symbol)[:6], bytes([it.side]), it.price, it.quantity) for it in told]
    must("orders", shown, wanted)
    places = rng.randrange(4)
    ids = [it[0] for it in wanted]
    must("few orders", again(few_orders, client, places), (ids[:places], len(ids)))


def hear_quoted(client, model, first, messages, rng, tally):
    """Has both hear a block, and compares what is told of the best prices."""
    before, wanted = model.reach, model.hear(first, messages)
    places = rng.choice((0, 1, 2, 1024))
    _, told, number = again(client.hear_quoted, quotes.block(first, messages), places)
    if told is None:
        must("quotes not told of nothing", model.reach == before, False)
        tally["untold"] += 1
        return
    shown = [(it.sequence, bytes(it.symbol)[:6], bytes([it.side]),
              (it.price, it.shares) if it.there else None) for it in told]
    must("quotes", (shown, number), (wanted[:places], len(wanted)))
    tally["quotes"] += number


def compare(library, feed, rng, tally):
    client, model = again(pitch.Client, library, 65536, feed % 4 > 0), Model()
    for first, messages in quotes.random_arrivals(rng):
        if feed % 2:
            hear_quoted(client, model, first, messages, rng, tally)
        else:
            again(client.hear, quotes.block(first, messages))
            model.hear(first, messages)
        compare_answers(client, model, rng, tally)
        tally["blocks"] += 1
    client.close()


def build_program(folder):
    """bests.c over the library."""
    made, given = os.path.join(folder, "bests"), os.path.join(TOP, "examples/c")
    sources = [os.path.join(given, it) for it in ("bests.c", "heap.c")]
    subprocess.run(["cc", "-std=c11", "-O2", *sources, LIBRARY, "-o", made], check=True)
    return made


def side_text(best):
    return f"{best[1]} at {best[0] // 10000}.{best[0] % 10000:04}" if best else "none"


def compare_program(program, rng, tally):
    """Has the program follow a feed, and compares its line for each block."""
    arrivals, symbol, model, top = quotes.random_arrivals(rng), rng.choice(quotes.SYMBOLS), Model(), 0
    lines = []
    for first, messages in arrivals:
        model.hear(first, messages)
        top, bests = max(top, first + len(messages) - 1), model.book.bests()
        word = "current" if model.reach == top else "behind"
        bid, offer = (side_text(bests.get((symbol, side))) for side in (b"B", b"S"))
        lines.append(f"unit 1 {word} at {model.reach}: bid {bid}, offer {offer}")
    stream = b"".join(quotes.block(*it) for it in arrivals)
    words = [program, symbol.decode().strip(), "65536"]
    told = subprocess.run(words, input=stream, capture_output=True, check=True).stdout.decode()
    must("the program's lines", told.splitlines(), lines + lines[-1:])
    tally["lines"] += len(lines)


def main():
    parser = argparse.ArgumentParser(description="libpitch_c.a beside a plain model")
    parser.add_argument("--feeds", type=int, default=1000)
    parser.add_argument("--number", type=int, default=1)
    parser.add_argument("--refuse", type=int, default=0)
    options = parser.parse_args()
    if not os.path.exists(LIBRARY):
        sys.exit(f"no {os.path.relpath(LIBRARY, TOP)}")
    rng, wrong = random.Random(options.number), 0
    tally = {"blocks": 0, "bests": 0, "quotes": 0, "untold": 0, "lines": 0}
    with tempfile.TemporaryDirectory() as folder:
        library, program = shared_object(folder), build_program(folder)
        memory = ctypes.CDLL(library)
        ctypes.c_ulong.in_dll(memory, "refuse_one_in").value = options.refuse
        for feed in range(options.feeds):
            try:
                compare(library, feed, rng, tally)
                compare_program(program, rng, tally)
            except Wrong as error:
                wrong += 1
                print(f"feed {feed} of number {options.number}: {error}")
        refused = ctypes.c_ulong.in_dll(memory, "refused").value
    print(f"{options.feeds} feeds, {tally['blocks']} blocks, {tally['bests']} sides with their levels, "
          f"{tally['quotes']} quotes, {tally['lines']} lines of bests.c, "
          f"{tally['untold']} blocks whose quotes were not told, "
          f"{refused} allocations refused, {wrong} feeds with other answers than the model's")
    return 1 if wrong else 0


if __name__ == "__main__":
    sys.exit(main())
