#!/usr/bin/env python3
"""Writes an exchange's commands, in which the price of one symbol walks.

    walk.py [--steps N] [--number S] | ./pitch pack --unit 1 | ./pitch quotes

At each of N steps (400), made from number S (1), orders to buy and to sell of IBM come up to five
cents away from a price that goes up or down by a cent, and those go that the price has passed. So
best bid and best offer follow the price. Python 3, the standard library alone.
"""
import argparse
import random


def commands(steps, number):
    rng, price, order, open_orders = random.Random(number), 10000, 0, {}
    for _ in range(steps):
        price += rng.choice((-1, 0, 0, 1))
        for at, side in ((price - rng.randrange(1, 6), "B"), (price + rng.randrange(1, 6), "S")):
            order += 1
            open_orders[order] = (side, at)
            yield f"add {order} {side} {100 * rng.randrange(1, 6)} IBM {at // 100}.{at % 100:02}"
        for passed, (side, at) in list(open_orders.items()):
            is_behind = at >= price if side == "B" else at <= price
            if is_behind or rng.random() < 0.1:
                del open_orders[passed]
                yield f"delete {passed}"


def main():
    parser = argparse.ArgumentParser(description="an exchange's commands, as text")
    parser.add_argument("--steps", type=int, default=400)
    parser.add_argument("--number", type=int, default=1)
    options = parser.parse_args()
    print("\n".join(commands(options.steps, options.number)))


if __name__ == "__main__":
    main()
