#!/usr/bin/env python3
"""Compares `pitch audit` with a plain model of it on altered reports, or measures it on long ones.

    bench/audit.py PROGRAM [--reports N] [--number S]
    bench/audit.py PROGRAM --measure [--messages M] [--books K] [--rounds R]

PROGRAM is the path of the built program: `crates/pitch/out/pitch` after `./pitch` or `rt run`.

Without --measure N reports (1,000) are made from number S (1), of logs of up to three units with orders and trading statuses. Each has
the books of some units after some of their messages, rising, falling or mixed, with other lines between them. In each one byte is then
altered at random: one that stands there, one more or one less. The line that the program writes has to be that of the model, which
knows the rules of docs/FEED.md alone: it folds each named book from the first message on, and compares its lines.

With --measure a log of M messages (1,000,000) and a report of K books (10,000) without orders, at evenly spaced numbers, are made with
the numbers rising, falling and mixed, and each is audited R times (3) in turn. Wanted of falling and mixed numbers is at most ten times
the processor time of rising ones.

The exit status is 0 where all verdicts are right and what is wanted is met. Python 3, the standard library alone.
"""
import argparse
import os
import random
import re
import statistics
import struct
import subprocess
import sys
import tempfile

HERE = os.path.dirname(os.path.abspath(__file__))
sys.path[:0] = [os.path.join(HERE, "..", "examples", name) for name in ("audit", "desk", "schedules")]

import make_input
import model
import storm_feed

SYMBOLS = (b"ALPHA   ", b"BETA    ", b"GAMMADLT", b" \\\xff     ")
BOOK_LINE = re.compile(rb"book unit (0|[1-9][0-9]*) at (0|[1-9][0-9]*) second ")
WANTED = 10


# ---- The model
def shown(name):
    """A name as it is printed: its spaces at the end go, and bytes that are no printing ones are written in hexadecimal."""
    kept = name.rstrip(b" ") or b" "
    return "".join(chr(b) if 0x21 <= b <= 0x7E and b != 0x5C else "\\x%02x" % b for b in kept)


def order_line(order):
    participant = shown(order.participant) if order.participant.strip(b" ") else ""
    return "order %d %s %d %s %s%s%s" % (
        order.id, order.side.decode(), order.quantity, shown(order.symbol), model.price_text(order.price),
        "" if order.displayed else " hidden", " mpid=" + participant if participant else "")


def book_lines(unit, raws):
    """The lines of a unit's book after these messages."""
    book = model.Book(raws)
    second = "-" if book.second is None else book.second
    lines = ["book unit %d at %d second %s orders %d" % (unit, len(raws), second, len(book.orders))]
    lines += [order_line(book.orders[order]) for order in sorted(book.orders)]
    for symbol in sorted(book.statuses):
        halt, sho = book.statuses[symbol]
        lines.append("status %s %s %s" % (shown(symbol), shown(halt), shown(sho)))
    return [line.encode() for line in lines]


def lines_of(text):
    lines = text.split(b"\n")
    return lines if lines[-1] else lines[:-1]


def verdict(units, text):
    """The line that is written for a report."""
    lines, at, books = lines_of(text), 0, 0
    while at < len(lines):
        wanted = [lines[at]]
        if lines[at].startswith(b"book "):
            named = BOOK_LINE.match(lines[at])
            unit, n = map(int, named.groups()) if named else (256, 0)
            raws = units.get(unit, [])
            if unit > 255 or n > len(raws):
                return b"audit no line %d\n" % (at + 1)
            wanted, books = book_lines(unit, raws[:n]), books + 1
        elif lines[at].startswith((b"order ", b"status ")):
            return b"audit no line %d\n" % (at + 1)
        for line in wanted:
            if at == len(lines) or lines[at] != line:
                return b"audit no line %d\n" % (at + 1)
            at += 1
    return b"audit yes books %d\n" % books


# ---- Logs and reports
def with_statuses(dice, raws):
    """Messages with trading statuses among them."""
    for raw in raws:
        yield raw
        if dice.random() < 0.1:
            yield model.status_message(dice.choice(SYMBOLS), dice.choice([b"H", b"T", b" "]), b"0", 0)


def log_of(dice, units):
    """The blocks of all units, mixed, some without messages."""
    queues = [list(make_input.packed(unit, units[unit])) for unit in units]
    log = b""
    while any(queues):
        queue = dice.choice([queue for queue in queues if queue])
        log += queue.pop(0)
        if dice.random() < 0.2:
            log += make_input.block(dice.randrange(256), dice.randrange(9), [])
    return log


def report_of(dice, units):
    """Some books, and other lines between them."""
    places = [(unit, dice.randint(0, len(units[unit]))) for unit in units for _ in range(dice.randint(0, 4))]
    dice.shuffle(places)
    if dice.random() < 0.6:
        places.sort(key=lambda place: place[1], reverse=dice.random() < 0.5)
    lines = []
    for unit, n in places:
        lines += [dice.choice([b"", b"block 3 unit 1 first 4 count 1; behind 2 of 4", b"bookless", b"x"]) for _ in range(dice.randint(0, 2))]
        lines += book_lines(unit, units[unit][:n])
    return b"".join(line + b"\n" for line in lines)


def altered(dice, text):
    """A report of which one byte is another, is new or is gone."""
    at = dice.randrange(len(text) + 1)
    byte = bytes([dice.choice(b"\n \r0123456789bokunitrderswapBS.-xH\x00\xff")])
    kind = dice.randrange(4)
    if kind == 0:
        return text[:at] + byte + text[at:]
    if kind == 1:
        return text[:at] + text[at + 1:]
    return text[:at] + byte + text[at + 1:]


def compare(program, reports, number):
    dice = random.Random(number)
    messages = {unit: list(storm_feed.messages(program, number, unit, 400)) for unit in (1, 2, 255)}
    wrong = said_yes = 0
    for k in range(reports):
        units = {}
        for unit in dice.sample(sorted(messages), dice.randint(1, 3)):
            units[unit] = list(with_statuses(dice, messages[unit][:dice.randint(0, 120)]))
        text = report_of(dice, units)
        if k % 10:
            text = altered(dice, text)
        ran = subprocess.run([program, "audit"], input=make_input.input_of(log_of(dice, units), text), stdout=subprocess.PIPE, stderr=subprocess.PIPE)
        wanted = verdict(units, text)
        said_yes += wanted.startswith(b"audit yes")
        if (ran.returncode, ran.stdout) != (0, wanted):
            wrong += 1
            print("report %d: status %d, %r, and not %r; %r" % (k, ran.returncode, ran.stdout, wanted, text))
    print("%d reports, of which %d agree; %d verdicts are wrong" % (reports, said_yes, wrong))
    return wrong == 0


# ---- Time
def processor_time(program, path):
    """The verdict, the processor time and the peak of memory in megabytes."""
    read, write = os.pipe()
    child = os.fork()
    if child == 0:
        os.dup2(os.open(path, os.O_RDONLY), 0)
        os.dup2(write, 1)
        os.execv(program, [program, "audit"])
    os.close(write)
    with os.fdopen(read, "rb") as out:
        text = out.read()
    _, status, usage = os.wait4(child, 0)
    if status:
        sys.exit("the program ended with status %d" % status)
    return text, usage.ru_utime + usage.ru_stime, usage.ru_maxrss / 1024


def long_log(messages):
    """A unit whose messages add an order and take it away again, in turn; so the books after an even number are empty."""
    add = struct.pack("<BBIQcH6sHB", 26, 0x22, 0, 5, b"B", 100, b"IBM   ", 1000, 1)
    delete = struct.pack("<BBIQ", 14, 0x29, 0, 5)
    body, count = (add + delete) * 60, 120
    blocks = [struct.pack("<HBBI", 8 + len(body), count, 1, first + 1) + body for first in range(0, messages - count + 1, count)]
    rest = messages % count
    if rest:
        blocks.append(make_input.block(1, messages - rest + 1, ([add, delete] * 60)[:rest]))
    return b"".join(blocks)


def measure(program, messages, books, rounds):
    log = long_log(messages)
    step = max(2, messages // books // 2 * 2)
    rising = [step * (k + 1) for k in range(books) if step * (k + 1) <= messages]
    mixed = rising[:]
    random.Random(1).shuffle(mixed)
    medians = {}
    with tempfile.TemporaryDirectory() as folder:
        for name, numbers in (("rising", rising), ("falling", rising[::-1]), ("mixed", mixed)):
            report = b"".join(b"book unit 1 at %d second - orders 0\n" % n for n in numbers)
            path = os.path.join(folder, name)
            with open(path, "wb") as file:
                file.write(make_input.input_of(log, report))
            runs = [processor_time(program, path) for _ in range(rounds)]
            if any(text != b"audit yes books %d\n" % len(numbers) for text, _, _ in runs):
                sys.exit("%s: %r" % (name, runs[0][0]))
            medians[name] = statistics.median(time for _, time, _ in runs)
            print("%-8s %d messages, %d books: %.2f s, %.0f MB for %.0f MB" % (
                name, messages, len(numbers), medians[name], max(peak for _, _, peak in runs), os.path.getsize(path) / 1e6))
    return all(medians[name] <= WANTED * medians["rising"] for name in medians)


def main():
    parser = argparse.ArgumentParser(description=__doc__, formatter_class=argparse.RawDescriptionHelpFormatter)
    parser.add_argument("program", type=os.path.abspath)
    parser.add_argument("--reports", type=int, default=1000)
    parser.add_argument("--number", type=int, default=1)
    parser.add_argument("--measure", action="store_true")
    parser.add_argument("--messages", type=int, default=1_000_000)
    parser.add_argument("--books", type=int, default=10_000)
    parser.add_argument("--rounds", type=int, default=3)
    given = parser.parse_args()
    if given.measure:
        good = measure(given.program, given.messages, given.books, given.rounds)
    else:
        good = compare(given.program, given.reports, given.number)
    sys.exit(0 if good else 1)


if __name__ == "__main__":
    main()
