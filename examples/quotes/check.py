#!/usr/bin/env python3
"""Tries `pitch quotes` with the scripts of this folder.

    examples/quotes/check.py PROGRAM

PROGRAM is the path of the built program. A walk is packed and quoted, and each quote has to be the
best of the orders that the walk's commands leave. The last line is `N passed, M failed`; the exit
status is 0 only where none failed.
"""
import os
import subprocess
import sys

import walk

HERE = os.path.dirname(os.path.abspath(__file__))
TABLE = """\
unit,at,symbol,side,price,quantity
1,1,IBM,B,10.0000,100
1,2,IBM,S,10.0500,5
1,3,IBM,B,,
1,3,IBM,S,,
"""


def run(words, given):
    return subprocess.run(words, input=given, capture_output=True, check=True).stdout


def quotes(program, commands):
    packed = run([program, "pack", "--unit", "1"], commands.encode())
    return run([program, "quotes"], packed).decode()


def table(lines):
    script = os.path.join(HERE, "quotes_csv.awk")
    return run(["awk", "-v", "unit=1", "-f", script], lines.encode()).decode()


def best(open_orders, side):
    """The best price of a side in cents with all its shares, as a quote shows them."""
    prices = [price for kind, price, _ in open_orders.values() if kind == side]
    if not prices:
        return "- -"
    price = max(prices) if side == "B" else min(prices)
    at_best = (shares for kind, at, shares in open_orders.values() if (kind, at) == (side, price))
    return f"{price // 100}.{price % 100:02}00 {sum(at_best)}"


def wanted(commands):
    """The quotes of a walk, by the orders that stand after each command."""
    lines, open_orders, before = [], {}, {"B": "- -", "S": "- -"}
    for number, command in enumerate(commands, 1):
        words = command.split()
        if words[0] == "add":
            open_orders[words[1]] = (words[2], round(float(words[5]) * 100), int(words[3]))
        else:
            del open_orders[words[1]]
        for side in "BS":
            now = best(open_orders, side)
            if now != before[side]:
                lines.append(f"quote unit 1 at {number} IBM {side} {now}\n")
                before[side] = now
    return "".join(lines)


def cases(program):
    steps = list(walk.commands(400, 1))
    yield "a walk", quotes(program, "\n".join(steps) + "\n"), wanted(steps)
    few = "add 1 B 100 IBM 10.00\nadd 2 S 5 IBM 10.05\nclear\n"
    yield "a table", table(quotes(program, few)), TABLE


def main():
    if len(sys.argv) != 2:
        sys.exit("usage: check.py PROGRAM")
    if not os.access(sys.argv[1], os.X_OK):
        sys.exit("check.py: %s is no program" % sys.argv[1])
    passed = failed = 0
    for name, got, right in cases(os.path.abspath(sys.argv[1])):
        if got == right:
            passed += 1
        else:
            failed += 1
            print(f"FAIL {name}")
    print(f"{passed} passed, {failed} failed")
    sys.exit(1 if failed else 0)


if __name__ == "__main__":
    main()
