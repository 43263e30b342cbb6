#!/usr/bin/env python3
"""Feeds the program with streams and texts that could bring it to its knees, and says what each costs a byte.

    bench/robust.py PROGRAM [--rounds R] [--only NAME].. [--commands follow,quotes,relay,pack,replay]

PROGRAM is the path of the built program: `crates/pitch/out/pitch` after `./pitch` or `rt run`. A C compiler finds the ids of
`collide`. The streams, of `follow`, `quotes` and `relay`:

    usual      200,000 orders of 2,704 symbols are added, and deleted in random order: what the others are compared with
    many       1,000,000 orders are added, and stay open
    shifted    the same with the ids k * 2^40, which share their 40 low bits
    spaced     the same with the ids k * 2^32, which share their 32 low bits
    random     the same with ids without an order, to compare with the three above
    collide    100,000 orders are added whose ids collide in the map's hasher, which has no seed
    one        one order is modified 10,000,000 times
    rising     400,000 symbols get a trading status each, in the order of their names
    falling    the same from the last name to the first
    emptied    150,000 orders are added and deleted, and 100,000 Unit Clears follow
    cleared    150,000 orders are added and deleted, and 20,000 times an add and a Unit Clear follow
    reopened   200,000 orders are added and cleared, and 100,000 times an add and a Unit Clear follow
    renewed    100,000 times an add and a Unit Clear, with no order before
    million    1,000,000 orders are added, and 2,000 Unit Clears follow
    symbols    150,000 orders of as many symbols are added, and cleared by one Unit Clear
    backwards  60 times the hold is filled by blocks of 30 messages from the last to the first, and then the gap is filled
    single     the same in blocks of one message
    most       the same once, in blocks of one message, with the largest hold
    least      the same in the shortest blocks that there are, one message of 2 bytes
    middle     the largest hold is filled in those blocks from both ends, each in the middle of those before
    overflow   each block is beyond a gap, and the hold overflows again and again
    prices     524,288 orders at as many prices of one symbol are added and deleted in random order
    swing      one order is moved 400,000 times between two far prices, with 65,536 others between them
    takeover   seven ids are added 400,000 times, each time with another symbol
    units      256 units in turn, 400,000 blocks of one message
    blocks     one unit, 400,000 blocks of one message
    deletes    800,000 deletions of orders that are not open, 99 a block
    tiny       1,600,000 messages of 2 bytes, 255 a block
    heartbeats 1,200,000 blocks without a message
    old        400,000 messages that were heard before
    bytes      20,000 orders as in `usual`, but each read gives one byte

The texts:

    ordered    `pack`, 200,000 orders that are added, and deleted in random order: with it the next is compared
    repacked   `pack`, 100,000 orders and a clear, and 20,000 times an add and a clear
    heard      `replay`, 100,000 orders that are added, and deleted in random order, heard 30 at a time: with it the next are compared
    quote      `replay`, 20,000 orders are added, each is heard, and a `quote` follows
    asked      `replay`, 100,000 orders of one symbol are added and heard, and 500 times `quote` follows
    shows      `replay`, 64 units in turn, with a `show` at each fourth line

Each is run whole and at its tenth. For each a line says the processor time of the program (user and system, the least of R rounds), how
many nanoseconds a byte that is, how many times the cost a byte of the usual one by the same command, how many times the processor time of
the tenth, and the peak of memory. `MORE` stands where a byte costs more than 20 times the usual, and `LIMITS` where docs/LIMITS.md names
that. The number of orders and statuses that `follow` prints is compared with what the stream leaves. The exit status is 0 where all numbers
are right and nothing is `MORE`.

Python 3 and its standard library.
"""
import argparse
import multiprocessing
import os
import random
import socket
import struct
import subprocess
import sys
import tempfile
import threading

UNIT = 1
MOST = 250  # messages of a block
MASK = 2**64 - 1
HOLD = 4096  # messages that a client holds unless it is told otherwise
LARGEST = 65536
HERE = os.path.dirname(os.path.abspath(__file__))


def block(sequence, messages, unit=UNIT):
    """A block of a unit with these messages, from this sequence on."""
    body = b"".join(messages)
    return struct.pack("<HBBI", 8 + len(body), len(messages), unit, sequence) + body


def blocks(messages, most, first=1):
    """The messages in blocks of at most so many, from a sequence on."""
    for start in range(0, len(messages), most):
        yield block(first + start, messages[start : start + most])


def add(order_id):
    """An Add Order Message in the long form: buy 100 shares at 12.34."""
    return struct.pack("<BBIQBI6sQB", 34, 0x21, 0, order_id, ord("B"), 100, b"ACME  ", 123400, 1)


def add_at(order_id, price, symbol=b"ACME  ", side=b"B"):
    """The same at a price, for a symbol, on a side."""
    return struct.pack("<BBIQcI6sQB", 34, 0x21, 0, order_id, side, 100, symbol, price, 1)


def add_short(order_id):
    """An Add Order Message in the short form."""
    return struct.pack("<BBIQcH6sHB", 26, 0x22, 0, order_id, b"B", 100, b"ACME  ", 1234, 1)


def delete(order_id):
    """A Delete Order Message."""
    return struct.pack("<BBIQ", 14, 0x29, 0, order_id)


def modify(order_id, quantity):
    """A Modify Order Message in the short form."""
    return struct.pack("<BBIQHHB", 19, 0x28, 0, order_id, quantity, 1234, 1)


def move(order_id, price):
    """A Modify Order Message in the long form."""
    return struct.pack("<BBIQIQB", 27, 0x27, 0, order_id, 1, price, 1)


def status(number):
    """A Trading Status Message, of the symbol that is so far on in the order of the names."""
    name = f"{number:08d}".encode()
    return struct.pack("<BBI8sBB2s", 18, 0x31, 0, name, ord("H"), ord("0"), b"  ")


CLEAR = struct.pack("<BBI", 6, 0x97, 0)
TINY = b"\x02\x2d"


def shuffled(count):
    """The numbers from 1 to count, in random order."""
    numbers = list(range(1, count + 1))
    random.Random(3).shuffle(numbers)
    return numbers


def usual(count):
    """Orders of many symbols, added and deleted in random order."""
    symbols = [b"%c%c%c   " % (65 + k % 26, 65 + k // 26 % 26, 65 + k // 676 % 4) for k in range(2704)]
    ids = range(1, count + 1)
    made = [add_at(i, 1000000 + 100 * (i % 97), symbols[i % 2704], b"BS"[i & 1 :][:1]) for i in ids]
    return blocks(made + [delete(i) for i in shuffled(count)], 30)


def statuses(number_of):
    """A stream of so many statuses, of symbols whose numbers are those of a function."""
    return lambda count: blocks([status(number_of(k, count)) for k in range(count)], MOST)


def adds(id_of):
    """A stream that adds so many orders, whose ids are those of a function."""

    def stream(count):
        for start in range(0, count, MOST):
            ids = range(start, min(start + MOST, count))
            yield block(start + 1, [add(id_of(k + 1)) for k in ids])

    return stream


def collide(count):
    """A stream that adds so many orders, whose ids have the same place in the map's table."""
    with tempfile.TemporaryDirectory() as folder:
        found = os.path.join(folder, "collide")
        subprocess.run(["cc", "-O2", "-o", found, os.path.join(HERE, "collide.c")], check=True)
        ids = subprocess.run([found, str(count), "14"], check=True, capture_output=True).stdout
    return blocks([add_short(int(i)) for i in ids.split()], 30)


def modifications(count):
    """A stream that adds one order, and modifies it so many times."""
    yield block(1, [add(7)])
    body = b"".join(modify(7, 1 + k % 1000) for k in range(MOST))
    whole = struct.pack("<HBB", 8 + len(body), MOST, UNIT)
    for start in range(0, count - count % MOST, MOST):
        yield whole + struct.pack("<I", start + 2) + body
    if count % MOST:
        yield block(count - count % MOST + 2, [modify(7, 1)] * (count % MOST))


def emptied(count):
    """Orders are added and deleted, half as many again as there are clears after them."""
    ids = range(1, count * 3 // 2 + 1)
    return blocks([add_short(i) for i in ids] + [delete(i) for i in ids] + [CLEAR] * count, 200)


def cleared(count):
    """The same with an add before each clear, and 15 orders for two of them."""
    ids = range(1, count * 15 // 2 + 1)
    pairs = [each for i in range(count) for each in (add_short(i), CLEAR)]
    return blocks([add_short(i) for i in ids] + [delete(i) for i in ids] + pairs, 30)


def reopened(count):
    """Twice as many open orders and a clear, and then an add before each clear."""
    pairs = [each for i in range(count) for each in (add_short(i), CLEAR)]
    return blocks([add_short(i) for i in range(2 * count)] + [CLEAR] + pairs, 55)


def renewed(count):
    """An add before each clear, and no order before."""
    return blocks([each for i in range(count) for each in (add_short(i), CLEAR)], 30)


def million(count):
    """So many orders, and a clear for each 500 of them."""
    return blocks([add_short(i) for i in range(count)] + [CLEAR] * (count // 500), 53)


def symbols(count):
    """An order for each of so many symbols, and a clear."""
    return blocks([add_at(i, 100, b"%06d" % i) for i in range(1, count + 1)] + [CLEAR], 30)


def backwards(hold, most, message):
    """A stream of messages that fill a hold from the last to the first, and then its gap."""

    def stream(count):
        first = 1
        while first <= count:
            held = min(hold, count)
            made = list(blocks([message(first + 1 + k) for k in range(held)], most, first + 1))
            yield from reversed(made)
            yield block(first, [message(first)])
            first += held + 1

    return stream


def told_backwards(hold):
    """How many orders such a stream leaves."""
    return lambda count: sum(min(hold, count) + 1 for _ in range(1, count + 1, min(hold, count) + 1))


def middle(count):
    """A hold is filled in the shortest blocks, from both ends inwards, and then its gap."""
    for k in range(count):
        yield block(2 + (count - 1 - k // 2 if k & 1 else k // 2), [TINY])
    yield block(1, [TINY])


def overflow(count):
    """Blocks of 30 messages, all beyond a gap."""
    return blocks([delete(1)] * count, 30, 2)


def prices(count):
    """Orders at prices of their own, added and deleted in random order."""
    numbers = shuffled(count)
    return blocks([add_at(i, 100 * i) for i in numbers] + [delete(i) for i in reversed(numbers)], 30)


def swing(count):
    """An order that is moved to and fro over many prices."""
    between = min(65536, count // 6)
    made = [add_at(i + 2, 1000 + i, side=b"S") for i in range(between)] + [add_at(1, 1, side=b"S")]
    return blocks(made + [move(1, (1, 10**9)[k & 1]) for k in range(count)], 30)


def takeover(count):
    """Ids that are open are added again."""
    names = [b"%c     " % (65 + k) for k in range(26)]
    return blocks([add_at(1 + k % 7, 100 * (1 + k % 50), names[k % 26]) for k in range(count)], 30)


def units(count):
    """All units in turn, an order a block."""
    for k in range(count):
        yield block(k // 256 + 1, [add_short(k + 1)], k % 256)


def old(count):
    """A block that is heard again and again."""
    yield block(1, [add_short(1)] * 200)
    for _ in range(count // 30):
        yield block(1, [add_short(1)] * 30)


# Each with its greatest count and how many orders and statuses it leaves.
STREAMS = {
    "usual": (200_000, usual, lambda count: 0),
    "many": (1_000_000, adds(lambda k: k), lambda count: count),
    "shifted": (1_000_000, adds(lambda k: k << 40 & MASK), lambda count: count),
    "spaced": (1_000_000, adds(lambda k: k << 32), lambda count: count),
    "random": (1_000_000, adds(lambda k: k * 0x9E3779B97F4A7C15 & MASK), lambda count: count),
    "collide": (100_000, collide, lambda count: count),
    "one": (10_000_000, modifications, lambda count: 1),
    "rising": (400_000, statuses(lambda k, count: k), lambda count: count),
    "falling": (400_000, statuses(lambda k, count: count - 1 - k), lambda count: count),
    "emptied": (100_000, emptied, lambda count: 0),
    "cleared": (20_000, cleared, lambda count: 0),
    "reopened": (100_000, reopened, lambda count: 0),
    "renewed": (100_000, renewed, lambda count: 0),
    "million": (1_000_000, million, lambda count: 0),
    "symbols": (150_000, symbols, lambda count: 0),
    "backwards": (60 * (HOLD + 1), backwards(HOLD, 30, add), told_backwards(HOLD)),
    "single": (60 * (HOLD + 1), backwards(HOLD, 1, add), told_backwards(HOLD)),
    "most": (LARGEST, backwards(LARGEST, 1, add), told_backwards(LARGEST)),
    "least": (LARGEST, backwards(LARGEST, 1, lambda k: TINY), lambda count: 0),
    "middle": (LARGEST, middle, lambda count: 0),
    "overflow": (400_000, overflow, lambda count: 0),
    "prices": (1 << 19, prices, lambda count: 0),
    "swing": (400_000, swing, lambda count: min(65536, count // 6) + 1),
    "takeover": (400_000, takeover, lambda count: 7),
    "units": (400_000, units, lambda count: count),
    "blocks": (400_000, lambda count: blocks([add_short(k + 1) for k in range(count)], 1), lambda count: count),
    "deletes": (800_000, lambda count: blocks([delete(k + 1) for k in range(count)], 99), lambda count: 0),
    "tiny": (1_600_000, lambda count: blocks([TINY] * count, 255), lambda count: 0),
    "heartbeats": (1_200_000, lambda count: (block(1, []) for _ in range(count)), lambda count: 0),
    "old": (400_000, old, lambda count: 1),
    "bytes": (20_000, usual, lambda count: 0),
}
LARGE = ("most", "least", "middle")
# What docs/LIMITS.md says of some that a byte costs.
NAMED = ("collide", "middle", "bytes", "quote", "asked")
MOST_TIMES = 20


def left_in(text):
    """The number of orders and statuses in the books, which are printed last."""
    left, in_book = 0, False
    for line in text:
        if line.startswith(b"book "):
            in_book = True
        elif in_book:
            left += 1
    return left


def fed_by_bytes(path):
    """A socket of which each read gives the next byte of a file."""
    given, taken = socket.socketpair(socket.AF_UNIX, socket.SOCK_SEQPACKET)
    with open(path, "rb") as stream:
        whole = stream.read()

    def feed():
        for byte in whole:
            given.send(bytes([byte]))
        given.close()

    threading.Thread(target=feed).start()
    return taken


def run(program, words, stream, by_bytes):
    """Runs the program on a file: its processor time, its peak of memory in MB, and how many orders and statuses it printed."""
    with fed_by_bytes(stream) if by_bytes else open(stream, "rb") as given, tempfile.TemporaryFile() as out:
        child = subprocess.Popen([program, *words], stdin=given, stdout=out)
        _, ended, use = os.wait4(child.pid, 0)
        child.returncode = os.waitstatus_to_exitcode(ended)
        if child.returncode:
            sys.exit(f"{program} {words} ended with status {child.returncode}")
        out.seek(0)
        left = left_in(out) if words[0] == "follow" else None
        return use.ru_utime + use.ru_stime, use.ru_maxrss / 1024, left


# ---- The texts
def bought(k):
    """The add of an order, as `pack` reads it."""
    return "add %d B 100 ACME %d.00" % (k, k % 1000 + 1)


def ordered(count):
    """Adds, and deletions in random order."""
    return [bought(k) for k in range(1, count + 1)] + ["delete %d" % k for k in shuffled(count)]


def repacked(count):
    """A clear of five times as many orders, and then an add before each clear."""
    return [bought(k) for k in range(5 * count)] + ["clear"] + [each for k in range(count) for each in (bought(k), "clear")]


def heard(count):
    """The same adds and deletions as `ordered`, sent and heard."""
    commands = ordered(count)
    for start in range(0, len(commands), 30):
        yield from ("1 " + command for command in commands[start : start + 30])
        yield from ("1 flush", "1 a rest")


def quote(count):
    """A question for the best prices after each add."""
    for k in range(1, count + 1):
        yield from ("1 " + bought(k), "1 flush", "1 a rest", "1 quote ACME")


def asked(count):
    """So many orders, and a question for each 200 of them."""
    return ["1 " + bought(k) for k in range(count)] + ["1 flush", "1 a rest"] + ["1 quote ACME"] * (count // 200)


def shows(count):
    """All units in turn, each with an add that is heard, and shown."""
    for k in range(count):
        unit = k % 64 + 1
        yield from ("%d %s" % (unit, bought(k)), "%d flush" % unit, "%d a rest" % unit, "%d show" % unit)


def as_bytes(lines):
    """The lines of a text with their ends."""
    return ((line + "\n").encode() for line in lines)


# Each with its command and its greatest count; the first of a command is its usual one.
TEXTS = {
    "ordered": ("pack", 200_000, ordered),
    "repacked": ("pack", 20_000, repacked),
    "heard": ("replay", 100_000, heard),
    "quote": ("replay", 20_000, quote),
    "asked": ("replay", 100_000, asked),
    "shows": ("replay", 10_000, shows),
}
USUAL = {"pack": "ordered", "replay": "heard"}


# ---- The runs
def measure(program, words, pieces, rounds, by_bytes=False):
    """The least of so many runs on the pieces that a call makes, and how many bytes they have."""
    with tempfile.NamedTemporaryFile() as stream:
        # A child has the memory of its parent as its peak, so another process makes the pieces.
        maker = multiprocessing.get_context("fork").Process(target=lambda: stream.file.writelines(pieces()) or stream.flush())
        maker.start()
        maker.join()
        if maker.exitcode:
            sys.exit("the input was not made")
        size = os.path.getsize(stream.name)
        return min(run(program, words, stream.name, by_bytes) for _ in range(rounds)), size


class Table:
    """The lines, with what a byte costs of the usual input of each command."""

    def __init__(self):
        self.usual = {}
        self.right = True
        print(f"{'input':10} {'command':7} {'bytes':>10} {'cpu s':>7} {'ns/byte':>8} {'usual':>6} {'tenth':>6} {'peak MB':>7}")

    def row(self, name, command, size, least, tenth):
        """Prints a line; the first of a command is its usual one where a tenth is given."""
        time, peak, _ = least
        cost = time * 1e9 / size
        times = cost / self.usual[command] if command in self.usual else None
        if tenth is not None:
            self.usual.setdefault(command, cost)
        remark = ""
        if times is not None and times > MOST_TIMES:
            remark = "   LIMITS" if name in NAMED else "   MORE"
            self.right = self.right and name in NAMED
        said = "" if times is None else f"{times:6.1f}"
        grown = "" if tenth is None else f"{time / max(tenth, 1e-3):6.1f}"
        print(f"{name:10} {command:7} {size:10} {time:7.3f} {cost:8.1f} {said:>6} {grown:>6} {peak:7.0f}{remark}", flush=True)

    def count(self, printed, left):
        """Compares how many orders and statuses were printed with what is left."""
        if printed not in (None, left):
            print(f"WRONG: {printed} orders and statuses were printed, and {left} are left")
            self.right = False


def main():
    words = argparse.ArgumentParser(description=__doc__, formatter_class=argparse.RawDescriptionHelpFormatter)
    words.add_argument("program")
    words.add_argument("--rounds", type=int, default=3)
    words.add_argument("--only", choices=[*STREAMS, *TEXTS], action="append")
    words.add_argument("--commands", default="follow,quotes,relay,pack,replay")
    given = words.parse_args()
    commands, table = given.commands.split(","), Table()
    for name, (count, stream, left) in STREAMS.items():
        if given.only and name not in (*given.only, "usual"):
            continue
        for command in (each for each in commands if each not in USUAL):
            form, tenth = [command] + (["--hold", str(LARGEST)] if name in LARGE else []), None
            for messages in (count // 10, count):
                least, size = measure(given.program, form, lambda: stream(messages), given.rounds, name == "bytes")
                table.row(name, command, size, least, tenth)
                table.count(least[2], left(messages))
                tenth = least[0]
    for name, (command, count, text) in TEXTS.items():
        if command not in commands or given.only and name not in (*given.only, USUAL[command]):
            continue
        tenth = None
        for made in (count // 10, count):
            form = [command] + (["--unit", "1"] if command == "pack" else [])
            least, size = measure(given.program, form, lambda: as_bytes(text(made)), given.rounds)
            table.row(name, command, size, least, tenth)
            tenth = least[0]
    sys.exit(0 if table.right else 1)


main()
