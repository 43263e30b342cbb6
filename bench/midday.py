#!/usr/bin/env python3
"""Tries the recipe for a capture that begins in the middle of the day (docs/CAPTURES.md).

    bench/midday.py PROGRAM [--messages M] [--number S]

PROGRAM is the path of the built program. A venue's day of M messages (20,000) is made from number S
(1). From the middle on its blocks are sent over UDP to port 30501 of the loopback interface, a
third of them twice, and then a client asks a Spin Server at TCP port 30601, which this script
plays, for an image. tshark captures both. What it tells is merged by `examples/desk/merge.py`,
relayed and followed, and the orders have to be those that `follow` of the whole day has.

It wants tshark, and the right to capture. The exit status is 0 where the orders are the same.
Python 3, the standard library alone.
"""
import argparse
import os
import random
import socket
import struct
import subprocess
import sys
import tempfile
import threading
import time

from quotes import IN_A_BLOCK, UNIT_CLEAR, add, block, delete, reduce_by

HERE = os.path.dirname(os.path.abspath(__file__))
MERGE = os.path.join(HERE, "..", "examples", "desk", "merge.py")
LINE, SPIN = ("127.0.0.1", 30501), ("127.0.0.1", 30601)
FIELDS = ["udp.payload", "tcp.stream", "tcp.seq", "tcp.payload"]
FILTER = f"udp.dstport == {LINE[1]} or (tcp.srcport == {SPIN[1]} and tcp.len > 0)"
LOGIN_BYTES, REQUEST_BYTES = 40, 14
PIECE = 333


class Day:
    """A venue's messages, and the open orders after one of them."""

    def __init__(self, messages, image_through, number):
        rng, orders, self.image = random.Random(number), {}, []
        self.messages = [UNIT_CLEAR]
        while len(self.messages) < messages:
            if len(orders) < 20 or rng.random() < 0.5:
                order = len(self.messages)
                at = (rng.choice((b"B", b"S")), rng.randrange(1, 500))
                orders[order] = at + (b"IBM   ", 100 * rng.randrange(900, 1100))
                self.messages.append(add(order, *orders[order]))
            elif rng.random() < 0.5:
                order = rng.choice(list(orders))
                del orders[order]
                self.messages.append(delete(order))
            else:
                order = rng.choice(list(orders))
                side, quantity, symbol, price = orders[order]
                less = rng.randrange(1, quantity + 1)
                orders[order] = (side, quantity - less, symbol, price)
                if less == quantity:
                    del orders[order]
                self.messages.append(reduce_by(order, less))
            if len(self.messages) == image_through:
                self.image = [add(order, *orders[order]) for order in sorted(orders)]

    def blocks(self, first):
        """The blocks from a sequence on."""
        for at in range(first - 1, len(self.messages), IN_A_BLOCK):
            yield block(1 + at, self.messages[at:at + IN_A_BLOCK])


def unsequenced(*messages):
    return block(0, messages)


def serve(listener, through, image):
    """Plays a Spin Server for one client: a login, what is available, a request, and its image."""
    client = listener.accept()[0]
    client.recv(LOGIN_BYTES, socket.MSG_WAITALL)
    client.sendall(unsequenced(struct.pack("<BBc", 3, 0x02, b"A")))
    client.sendall(unsequenced(struct.pack("<BBI", 6, 0x80, through)))
    client.recv(REQUEST_BYTES, socket.MSG_WAITALL)
    client.sendall(unsequenced(struct.pack("<BBIIc", 11, 0x82, through, len(image), b"A")))
    told = b"".join(unsequenced(*image[at:at + 7]) for at in range(0, len(image), 7))
    told += unsequenced(struct.pack("<BBI", 6, 0x83, through))
    for at in range(0, len(told), PIECE):
        client.sendall(told[at:at + PIECE])
    client.close()


def spin():
    """Asks for the image, and reads it to its end."""
    with socket.create_connection(SPIN) as link:
        link.sendall(bytes(LOGIN_BYTES))
        time.sleep(0.05)
        link.sendall(bytes(REQUEST_BYTES))
        while link.recv(65536):
            pass


def send(day, first, through):
    """Sends the lines, and spins once the image is one of the past."""
    rng, spins = random.Random(1), None
    with socket.socket(socket.AF_INET, socket.SOCK_DGRAM) as line:
        for number, data in enumerate(day.blocks(first)):
            for _ in range(rng.choice((1, 1, 2))):
                line.sendto(data, LINE)
            if spins is None and first + number * IN_A_BLOCK > through:
                spins = threading.Thread(target=spin)
                spins.start()
            time.sleep(0.001)
    spins.join()


def captured(path, day, first, through):
    """Lets tshark capture what is sent."""
    ports = f"port {LINE[1]} or port {SPIN[1]}"
    with socket.create_server(SPIN) as listener:
        threading.Thread(target=serve, args=(listener, through, day.image), daemon=True).start()
        silent = {"stdout": subprocess.DEVNULL, "stderr": subprocess.DEVNULL}
        tshark = subprocess.Popen(["tshark", "-i", "lo", "-w", path, "-f", ports], **silent)
        time.sleep(3)
        send(day, first, through)
        time.sleep(2)
        tshark.terminate()
        tshark.wait()


def orders_of(text):
    return [line for line in text.splitlines() if line.startswith(b"order ")]


def relayed(program, path):
    """What `follow` prints of what `relay` makes of a capture."""
    fields = [word for field in FIELDS for word in ("-e", field)]
    read = ["tshark", "-r", path, "-Y", FILTER, "-T", "fields", *fields]
    told = subprocess.run(read, capture_output=True, check=True).stdout
    merged = subprocess.run([sys.executable, MERGE], input=told, capture_output=True, check=True)
    relay = [program, "relay", "--hold", "65536"]
    clean = subprocess.run(relay, input=merged.stdout, capture_output=True, check=True).stdout
    return subprocess.run([program, "follow"], input=clean, capture_output=True, check=True).stdout


def main():
    parser = argparse.ArgumentParser(description="a day captured from its middle, with a spin")
    parser.add_argument("program")
    parser.add_argument("--messages", type=int, default=20000)
    parser.add_argument("--number", type=int, default=1)
    options = parser.parse_args()
    first = options.messages // 2 // IN_A_BLOCK * IN_A_BLOCK + 1
    through = first + 10 * IN_A_BLOCK
    day = Day(options.messages, through, options.number)
    with tempfile.TemporaryDirectory() as folder:
        path = os.path.join(folder, "midday.pcap")
        captured(path, day, first, through)
        size = os.path.getsize(path)
        found = relayed(options.program, path)
    whole, follow = b"".join(day.blocks(1)), [options.program, "follow"]
    wanted = orders_of(subprocess.run(follow, input=whole, capture_output=True, check=True).stdout)
    same = "the same" if orders_of(found) == wanted else "OTHERS"
    print(f"captured from message {first:,} of {options.messages:,}, {size:,} bytes; "
          f"image of {len(day.image):,} orders through {through:,}")
    print(f"{len(wanted):,} orders at the end, {same} as of the whole day")
    return 0 if same == "the same" else 1


if __name__ == "__main__":
    sys.exit(main())
