#!/usr/bin/env python3
"""Runs `pitch demo` over real sockets, and reads what crossed them.

    bench/demo.py PROGRAM [--repeat T] [--count C] [--capture]
    bench/demo.py PROGRAM --drills T [--together K] [--seed S]

PROGRAM is the path of the built program. The demo is that of the number 0, with 16 messages where
nothing else is given, and it is run T times (20 where it isn't given). Each run has to end with
status 0 and the line that a net which loses nothing leads to, or with status 7 and `net fault`.

With `--capture` one more run is recorded by tcpdump (which wants root) and read by tshark: each
datagram on the lines has to be well-formed UDP, `pitch follow --pcap` has to read it without a fault,
and each direction of both TCP sessions has to be whole blocks.

With `--drills` T demos of numbers and counts at random, K of them at a time, stand beside the drill of
unit 1 with the same number and count: a demo that is current at the last message has to write the
drill's line. Where the system delivers too late a demo may end before; these are counted, and shown.
The exit status is 0 where all was so.
"""
import argparse, concurrent.futures, os, random, signal, subprocess, sys, tempfile, time

LINE = {16: b'unit 1 current 16 orders 5 shares 1078\n', 200: b'unit 1 current 200 orders 62 shares 18219\n'}


def run(program, count):
    return subprocess.run([program, 'demo', '--number', '0', '--count', str(count)], capture_output=True, timeout=60)


def is_right(ran, count):
    """It wrote the line, or said that the net failed."""
    if ran.returncode == 0:
        return ran.stdout == LINE.get(count, ran.stdout) and ran.stdout.startswith(b'unit 1 ') and not ran.stderr
    return ran.returncode == 7 and not ran.stdout and ran.stderr == b'pitch: net fault\n'


def whole_blocks(stream):
    """How many Sequenced Unit Header blocks some bytes are, or None where they are none."""
    blocks = at = 0
    while at < len(stream):
        length = int.from_bytes(stream[at:at + 2], 'little')
        if length < 8 or at + length > len(stream):
            return None
        blocks, at = blocks + 1, at + length
    return blocks


def sessions(path):
    """The blocks of each direction of each session: a TCP stream of which one side begins with a Login of 30 bytes."""
    fields = ['-T', 'fields', '-e', 'tcp.stream', '-e', 'tcp.srcport', '-e', 'tcp.payload']
    told = subprocess.run(['tshark', '-r', path, '-Y', 'tcp.len > 0', *fields], capture_output=True, check=True).stdout.decode()
    sides = {}
    for line in told.splitlines():
        stream, port, payload = line.split('\t')
        sides.setdefault(stream, {}).setdefault(port, bytearray()).extend(bytes.fromhex(payload.replace(':', '')))
    mine = [side for side in sides.values() if any(it[:4] in (b'\x1e\x00\x01\x00', b'\x1e\x00\x01\x01') for it in side.values())]
    return [whole_blocks(it) for side in mine for it in side.values()]


def capture(program, count):
    """Records a run, and reads it by tshark and by `follow --pcap`."""
    with tempfile.TemporaryDirectory() as folder:
        path = os.path.join(folder, 'demo.pcap')
        watch = subprocess.Popen(['tcpdump', '-i', 'lo', '-U', '-w', path, 'host', '127.0.0.1'], stderr=subprocess.DEVNULL)
        time.sleep(2)
        ran = run(program, count)
        time.sleep(2)
        watch.send_signal(signal.SIGINT)
        watch.wait()
        fields = ['-T', 'fields', '-e', 'udp.length', '-e', '_ws.malformed']
        told = subprocess.run(['tshark', '-r', path, '-Y', 'udp', *fields], capture_output=True, check=True).stdout.decode().splitlines()
        malformed = [line for line in told if not line.split('\t')[0].isdigit() or line.split('\t')[1:] != ['']]
        with open(path, 'rb') as source:
            followed = subprocess.run([program, 'follow', '--pcap'], stdin=source, capture_output=True)
        last = followed.stdout.decode().splitlines()[-1:]
        print('  %d datagrams, %d malformed; follow --pcap: status %d, %s' % (len(told), len(malformed), followed.returncode, ' '.join(last)))
        blocks = sessions(path)
        print('  the directions of the sessions have %s blocks' % ', '.join(map(str, blocks)))
        return is_right(ran, count) and told and not malformed and followed.returncode == 0 and len(blocks) == 4 and None not in blocks


def beside_drill(program, number, count):
    """Whether the demo ends at the last message, and whether what it wrote is right."""
    words = ['--number', str(number), '--count', str(count)]
    demo = subprocess.run([program, 'demo', *words], capture_output=True, timeout=60)
    drill = subprocess.run([program, 'drill', '--units', '1', *words], capture_output=True, timeout=60)
    if demo.returncode or drill.returncode:
        print('  number %d count %d: status %d and %d' % (number, count, demo.returncode, drill.returncode))
        return False, False
    ended = b' current %d ' % count in demo.stdout
    if demo.stdout != drill.stdout:
        print('  number %d count %d: %s' % (number, count, demo.stdout.decode().strip()))
    return ended, demo.stdout == drill.stdout or not ended


def beside_drills(program, runs, together, seed):
    """Runs demos beside drills, some of them at a time."""
    choice = random.Random(seed)
    cases = [(choice.randrange(1 << 64), choice.randint(1, 1000)) for _ in range(runs)]
    start = time.perf_counter()
    with concurrent.futures.ThreadPoolExecutor(together) as pool:
        ends = list(pool.map(lambda case: beside_drill(program, *case), cases))
    print('  %d demos, %d at a time, in %.1f s: %d ended at the last message' % (
        runs, together, time.perf_counter() - start, sum(ended for ended, _ in ends)))
    return all(right for _, right in ends)


def main():
    parser = argparse.ArgumentParser()
    parser.add_argument('program')
    parser.add_argument('--repeat', type=int, default=20)
    parser.add_argument('--count', type=int, default=16)
    parser.add_argument('--capture', action='store_true')
    parser.add_argument('--drills', type=int, default=0)
    parser.add_argument('--together', type=int, default=1)
    parser.add_argument('--seed', type=int, default=1)
    a = parser.parse_args()
    if a.drills:
        right = beside_drills(a.program, a.drills, a.together, a.seed)
        print('  each is right' if right else '  A RUN IS NOT RIGHT')
        sys.exit(0 if right else 1)
    start = time.perf_counter()
    runs = [run(a.program, a.count) for _ in range(a.repeat)]
    faults = sum(ran.returncode == 7 for ran in runs)
    right = all(is_right(ran, a.count) for ran in runs)
    print('  %d runs in %.1f s, %d of them ended by the net' % (a.repeat, time.perf_counter() - start, faults))
    if a.capture:
        right = bool(capture(a.program, a.count)) and right
    if not right:
        print('  A RUN IS NOT RIGHT')
    sys.exit(0 if right else 1)


if __name__ == '__main__':
    main()
