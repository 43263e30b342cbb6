#!/usr/bin/env python3
"""Whether recovery ends: of schedules at random, under traffic that does not stop, and by gap
requests alone.

    bench/recovery.py PROGRAM [--schedules N] [--seed S] [--verbs V] [--finish F] [--keep FOLDER]
    bench/recovery.py PROGRAM --traffic [--hold H] [--rate R] [--seconds T] [--proxy] [--late]
    bench/recovery.py PROGRAM --figures
    bench/recovery.py PROGRAM --runs

Without a mode, schedules of all verbs at random: losses, repeats, cuts, bytes carried in parts,
holds, kept messages and limits of 1 to 3 and more, venues that end, silent ticks. Each is followed
by a finish, and the status of its last line is judged. F is one of these, or `all`:

  image   both connections are cut, and one round with a Spin Server. Wanted is `current` at all
          that was accepted; this is the law `recovery_ends` of `world_laws`
  gaps    the heartbeat comes, a new connection with the proxy, and rounds of tick, grp up all,
          grp down all, g rest. Wanted is that each round raises the reach by what was asked for,
          unless the request was refused
  fair    the heartbeat comes and nothing is cut; all that waits is carried, sessions are opened
          where none stands, the venue beats and advertises. Wanted is `current` in the end

With --keep the first schedules of each kind that did not end current are written to a folder.

With --traffic R messages come in each second, the venue advertises, and the client ticks; what it
asks for at a tick comes a second later. It lacks one message of the third second, or with --late
all before the first; with --proxy it has the proxy besides the Spin Server. --figures does this for
the figures that docs/LIMITS.md has.

With --runs every second of 1,000 messages is lost, and the client asks the proxy alone.
"""

import argparse
import collections
import os
import random
import subprocess
import sys
import time

SYMBOLS = ["ALPHA", "BETA", "GAMMADLT"]
# What `open` may set, a greatest value that is small and one that is larger.
LIMITS = [("hold", 3, 12), ("kept", 3, 60), ("second", 2, 5), ("minute", 3, 30), ("day", 4, 60)]
UNITS = 64

OPENED = {"grp": ["grp open", "grp up all", "grp down all"],
          "spin": ["spin open", "spin up all", "spin down all"]}
IMAGE = ["grp cut", "spin cut", "spin open", "spin up all", "advertise", "spin down all", "tick",
         "spin up all", "spin down all"]
ROUND = ["tick", "grp up all", "grp down all", "g rest"]
FAIR = ["beat", "a rest", "grp open", "spin open", "advertise", "tick", "grp up all",
        "grp down all", "spin up all", "spin down all", "g rest"]
FAIR_ROUNDS = 12
FINISHES = ["image", "gaps", "fair"]

Line = collections.namedtuple("Line", "number unit outcome status")
Status = collections.namedtuple("Status", "word reach")


def replayed(program, lines):
    """What `replay` prints of a schedule, without the books."""
    text = ("\n".join(lines) + "\n").encode()
    done = subprocess.run([program, "replay", "--workers", "2"], input=text, capture_output=True)
    if done.returncode:
        sys.exit(f"{program}: status {done.returncode}: {done.stderr.decode()}")
    printed = []
    for line in done.stdout.decode().split("\n"):
        if "; " in line:
            head, status = line.rsplit("; ", 1)
            number, unit, outcome = head.split(" ", 2)
            word, *rest = status.split()
            printed.append(Line(int(number), int(unit), outcome,
                                Status(word, int(rest[0]) if rest else 0)))
    return printed


def accepted_in(printed):
    """How many messages the venue accepted."""
    counts = [int(p.outcome.split()[1]) for p in printed if p.outcome.startswith("accepted ")]
    return counts[-1] if counts else 0


def sent_in(printed):
    """How many datagrams were sent on line A."""
    return sum(int(p.outcome.split()[1]) for p in printed if p.outcome.startswith("sent "))


# ---- Schedules at random
class Unit:
    """One unit's schedule, and what of its world must be known to write it."""

    def __init__(self, number, draw):
        self.number, self.draw = number, draw
        self.lines, self.open_ids, self.limits = [], [], {}
        self.next_id = 1

    def say(self, verb):
        self.lines.append(f"{self.number} {verb}")

    def set_up(self):
        if self.draw.random() >= 0.85:
            return
        for name, small, large in LIMITS:
            if self.draw.random() < 0.45:
                most = small if self.draw.random() < 0.6 else large
                self.limits[name] = self.draw.randint(1, most)
        self.say(" ".join(["open"] + [f"{name}={value}" for name, value in self.limits.items()]))

    def command(self):
        draw, roll = self.draw, self.draw.random()
        if roll < 0.55 or not self.open_ids:
            self.say(f"add {self.next_id} {draw.choice('BS')} {draw.randint(1, 500)} "
                     f"{draw.choice(SYMBOLS)} {draw.randint(1, 50)}.{draw.randint(0, 99):02}")
            self.open_ids.append(self.next_id)
            self.next_id += 1
        elif roll < 0.7:
            self.say(f"delete {self.open_ids.pop(draw.randrange(len(self.open_ids)))}")
        elif roll < 0.8:
            self.say(f"modify {draw.choice(self.open_ids)} {draw.randint(1, 900)} "
                     f"{draw.randint(1, 50)}.{draw.randint(0, 99):02}")
        elif roll < 0.9:
            self.say(f"exec {draw.choice(self.open_ids)} {draw.randint(1, 40)} "
                     f"{draw.randint(1, 10 ** 6)}")
        elif roll < 0.97:
            self.say(f"time {draw.randint(0, 86399)}")
        elif roll < 0.995:
            self.open_ids = []
            self.say("clear")
        else:
            self.say("end")

    def verb(self):
        draw, roll = self.draw, self.draw.random()
        session = draw.choice(["grp", "spin"])
        if roll < 0.30:
            self.command()
            if draw.random() < 0.8:
                self.say("flush")
        elif roll < 0.33:
            self.say("flush")
        elif roll < 0.37:
            self.say("beat")
        elif roll < 0.55:
            self.say(f"{draw.choice('aabg')} {draw.randint(1, max(1, self.next_id + 6))}")
        elif roll < 0.58:
            self.say(f"{draw.choice('abg')} rest")
        elif roll < 0.66:
            self.say(f"{session} open")
        elif roll < 0.69:
            self.say(f"{session} cut")
        elif roll < 0.80:
            self.say(f"{session} up {'all' if draw.random() < 0.7 else draw.randint(0, 40)}")
        elif roll < 0.91:
            self.say(f"{session} down {'all' if draw.random() < 0.6 else draw.randint(0, 200)}")
        elif roll < 0.94:
            self.say("advertise")
        else:
            for _ in range(1 if draw.random() < 0.9 else draw.randint(2, 7)):
                self.say("tick")


def batches(args):
    """The units of one text after another, each with its random verbs, flushed at the end."""
    for batch in range((args.schedules + UNITS - 1) // UNITS):
        units = []
        for number in range(1, min(UNITS, args.schedules - batch * UNITS) + 1):
            unit = Unit(number, random.Random(f"{args.seed}/{batch}/{number}"))
            unit.set_up()
            for _ in range(unit.draw.randint(3, args.verbs)):
                unit.verb()
            unit.say("flush")
            unit.say("beat")
            units.append(unit)
        yield batch, units


def by_unit(printed):
    found = collections.defaultdict(list)
    for line in printed:
        found[line.unit].append(line)
    return found


def finish_of(finish, printed):
    """The verbs of a finish, after what was printed of a unit."""
    if finish == "image":
        return IMAGE
    first = [f"a {sent_in(printed)}"]
    if finish == "fair":
        return first + FAIR * FAIR_ROUNDS
    missing = max(1, accepted_in(printed) - printed[-1].status.reach)
    return first + ["g rest", "spin cut", "grp cut"] + OPENED["grp"] + ROUND * missing


def is_current(printed, last):
    return printed[-1].status == Status("current", last)


def judged_rounds(unit, rounds, before, last):
    """Whether each round with the proxy raised the reach by what was asked for."""
    for at in range(0, len(rounds) - 3, 4):
        if before.word in ("current", "silent"):
            return before.word
        asked, after = rounds[at].outcome, rounds[at + 3]
        if not asked.startswith("asked gap"):
            return "asks nothing"
        first, count = map(int, asked.split()[2:])
        if after.status.reach < first + count - 1:
            if first <= last - unit.limits.get("kept", 65536):
                return "no longer kept"
            return "refused by a limit" if after.outcome == "heard 0" else "no progress"
        before = after.status
    return "current" if before.word == "current" else "behind after all rounds"


def judged(finish, unit, printed, finish_lines):
    last = accepted_in(printed)
    if finish != "gaps":
        return "current" if is_current(printed, last) else "not current"
    at = len(printed) - finish_lines + 7
    return judged_rounds(unit, printed[at:], printed[at - 1].status, last)


def keep(folder, name, unit, verbs):
    os.makedirs(folder, exist_ok=True)
    with open(os.path.join(folder, name), "w", encoding="utf-8") as file:
        file.write("\n".join(unit.lines + [f"{unit.number} {verb}" for verb in verbs]) + "\n")


def search(args):
    finishes = FINISHES if args.finish == "all" else [args.finish]
    kinds = {finish: collections.Counter() for finish in finishes}
    before, requests, begun = collections.Counter(), collections.Counter(), time.time()
    for batch, units in batches(args):
        at_first = by_unit(replayed(args.program, [l for unit in units for l in unit.lines]))
        for unit in units:
            printed = at_first[unit.number]
            before[printed[-1].status.word] += 1
            before["overflowed"] += any(" overflow" in p.outcome for p in printed)
        for finish in finishes:
            verbs = {u.number: finish_of(finish, at_first[u.number]) for u in units}
            lines = [line for u in units
                     for line in u.lines + [f"{u.number} {verb}" for verb in verbs[u.number]]]
            in_all = by_unit(replayed(args.program, lines))
            for unit in units:
                own = verbs[unit.number]
                kind = judged(finish, unit, in_all[unit.number], len(own))
                kinds[finish][kind] += 1
                if finish == "gaps" and kind == "current":
                    rounds = in_all[unit.number][-len(own):]
                    requests[sum(p.outcome.startswith("asked gap") for p in rounds)] += 1
                if args.keep and kind != "current" and kinds[finish][kind] <= 3:
                    name = f"{finish}-{kind.replace(' ', '-')}-{batch}-{unit.number}.txt"
                    keep(args.keep, name, unit, own)
    print(f"{args.schedules} schedules, seed {args.seed}, {time.time() - begun:.0f} s; "
          f"before the finish {dict(before)}")
    for finish in finishes:
        print(f"{finish}: {dict(kinds[finish])}")
    if "gaps" in finishes:
        print(f"gap requests of a unit that ended current: {dict(sorted(requests.items()))}")


# ---- Traffic that does not stop
def traffic_of(hold, rate, seconds, proxy, late):
    """The schedule, and the places of the lines after which a second is over."""
    lines, marks, sent = [f"1 open hold={hold}"], [], 0

    def send(is_heard):
        nonlocal sent
        sent += 1
        lines.extend([f"1 add {sent} B 10 IBM 10.00", "1 flush"])
        if is_heard:
            lines.append(f"1 a {sent}")

    for _ in range(20):
        send(not late)
    for session in ["spin"] + (["grp"] if proxy else []):
        lines.extend(f"1 {verb}" for verb in OPENED[session])
    for second in range(seconds):
        for index in range(rate):
            send(late or second != 2 or index != 0)
        lines.extend(["1 advertise", "1 spin down all"])
        if proxy:
            lines.extend(["1 grp down all", "1 g rest"])
        marks.append(len(lines))
        lines.extend(["1 tick", "1 spin up all"])
        if proxy:
            lines.append("1 grp up all")
    return lines, marks


def traffic(args, hold, rate, seconds, proxy, late):
    lines, marks = traffic_of(hold, rate, seconds, proxy, late)
    printed = replayed(args.program, lines)
    current = sum(printed[mark - 1].status.word == "current" for mark in marks)
    overflows = sum(" overflow" in p.outcome for p in printed)
    images = sum(p.outcome.startswith("asked spin") for p in printed)
    end = printed[marks[-1] - 1].status
    print(f"hold {hold}, {rate} a second, {'late join' if late else 'one message lost'}, "
          f"{'with' if proxy else 'without'} the proxy: current at {current} of {seconds} seconds, "
          f"overflows {overflows}, images {images}, last {end.word} {end.reach}", flush=True)


# hold, messages a second, seconds, whether the proxy is up, whether the client joined late
FIGURES = [
    (12, 12, 200, False, True), (11, 12, 200, False, True),
    (24, 12, 200, True, False), (12, 12, 200, False, False),
    (500, 400, 200, False, False), (500, 400, 200, True, False),
    (4096, 2000, 40, True, False), (4096, 3000, 40, True, False),
    (4096, 3500, 40, True, False), (4096, 4000, 40, True, False),
]


# ---- Gap requests alone
def runs(args, last=1000, ticks=700):
    """After how many ticks a client is current that lost every second message."""
    lines = [f"1 {verb}" for verb in OPENED["grp"]]
    for message in range(1, last + 1):
        lines.extend([f"1 add {message} B 10 IBM 10.00", "1 flush"])
        if message % 2 == 1:
            lines.append(f"1 a {message}")
    lines.extend(["1 beat", f"1 a {last + 1}"])
    start = len(lines)
    lines.extend(f"1 {verb}" for verb in ROUND * ticks)
    printed = replayed(args.program, lines)[start:]
    for at, line in enumerate(printed):
        if line.status == Status("current", last):
            print(f"current after {at // len(ROUND) + 1} ticks")
            return
    print(f"not current after {ticks} ticks: {printed[-1].status}")


def main():
    parser = argparse.ArgumentParser()
    parser.add_argument("program")
    parser.add_argument("--schedules", type=int, default=1000)
    parser.add_argument("--seed", type=int, default=1)
    parser.add_argument("--verbs", type=int, default=160)
    parser.add_argument("--finish", choices=FINISHES + ["all"], default="all")
    parser.add_argument("--keep")
    parser.add_argument("--traffic", action="store_true")
    parser.add_argument("--hold", type=int, default=4096)
    parser.add_argument("--rate", type=int, default=2000)
    parser.add_argument("--seconds", type=int, default=40)
    parser.add_argument("--proxy", action="store_true")
    parser.add_argument("--late", action="store_true")
    parser.add_argument("--figures", action="store_true")
    parser.add_argument("--runs", action="store_true")
    args = parser.parse_args()
    if args.traffic:
        traffic(args, args.hold, args.rate, args.seconds, args.proxy, args.late)
    elif args.figures:
        for figure in FIGURES:
            traffic(args, *figure)
    elif args.runs:
        runs(args)
    else:
        search(args)


if __name__ == "__main__":
    main()
