#!/usr/bin/env python3
"""Each line of `pitch follow` as a JSON object on a line of its own.

    ./pitch follow < FEED | examples/desk/book_json.py

Ids have 64 bits and prices four decimals, more than a number of JSON keeps, so both are texts.
"""
import json
import sys

from desk import run


def status_of(words):
    """`silent`, `current N` or `behind N of TOP`."""
    numbers = [int(word) for word in words[1:] if word != 'of']
    return {'status': words[0], 'reach': numbers[0] if numbers else 0, 'top': numbers[-1] if numbers else 0}


def block_of(words):
    """`block K unit U first F count C; STATUS`, or with ` overflow` before the semicolon."""
    overflow = words[8] == 'overflow;'
    fields = {'block': int(words[1]), 'unit': int(words[3]), 'first': int(words[5])}
    fields.update({'count': int(words[7].rstrip(';')), 'overflow': overflow})
    fields.update(status_of(words[9:] if overflow else words[8:]))
    return fields


def book_of(words):
    """`book unit U at N second S orders K`."""
    second = None if words[6] == '-' else int(words[6])
    return {'book': int(words[2]), 'at': int(words[4]), 'second': second, 'orders': int(words[8])}


def order_of(words):
    """`order ID SIDE QUANTITY SYMBOL PRICE`, then perhaps `hidden` and `mpid=NAME`."""
    mpid = words[-1][5:] if words[-1].startswith('mpid=') else None
    return {'order': words[1], 'side': words[2], 'quantity': int(words[3]), 'symbol': words[4],
            'price': words[5], 'hidden': 'hidden' in words[6:], 'mpid': mpid}


def packets_of(words):
    """`packets P used U faulty F`."""
    return {'packets': int(words[1]), 'used': int(words[3]), 'faulty': int(words[5])}


READERS = {'block': block_of, 'book': book_of, 'order': order_of, 'packets': packets_of}


def object_of(line):
    """What a line says; one that is no line of `follow` is a text."""
    words = line.split()
    try:
        return READERS[words[0]](words)
    except (IndexError, KeyError, ValueError):
        return {'text': line.rstrip('\n')}


def main():
    for line in sys.stdin:
        print(json.dumps(object_of(line)))


if __name__ == '__main__':
    run(main)
