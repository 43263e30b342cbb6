#!/usr/bin/env python3
"""Runs `pitch_live listen` against senders of datagrams on 127.0.0.1.

    bench/live_lines.py LIVE PROGRAM [--numbers N] [--steps M] [--rate R] [--only NAME] [--count C]

LIVE is the path of the built `pitch_live`, PROGRAM that of `pitch`. The feeds are those of
examples/desk/storm_feed.py, of the units 1 to 8 with M steps (300) each, mixed and cut into datagrams
at random. The runs but for `words` and `speed` are made N times (3), at R datagrams a second (2000)
or fewer: nothing is sent to a port at which more than a few datagrams wait, so that a machine that
is busy, or has small buffers (net.core.rmem_max), loses none.

    whole     one line, bound by the program, and no loss, while the process is stopped and continued
              now and then: the text is that of `follow` of the same datagrams, byte for byte
    lossy     lines A (bound) and B (a socket that is handed in). Each loses 20 of a hundred datagrams,
              has 20 twice, 20 after the next one, and 5 spoiled: cut, empty, noise, or of a unit that
              is not listened to. Each datagram comes whole on one of them: the books are those of
              `follow`
    rubbish   the same, and three senders beside, of noise, empty datagrams and blocks of other units
    from      a sender that is named, and one that is not, who is first with the same blocks of other
              messages: the text is that of `follow` of what the first one sends
    disagree  with a server to ask, other messages with sequences that came: status 8 with the first of
              them, after the lines of all that came before
    end       datagrams that are sent just before the end of the input: all are heard
    ended     each unit has an End of Session: the program ends by itself, once the datagram came that
              these overtook, and the text is that of `follow`
    prompt    a datagram is sent once the lines of the one before are written
    words     words that ask for nothing, and ports that can't be opened: status and standard error
    speed     C datagrams (300000) of 20 messages, at 100,000 a second: none is lost by the program; and
              2,000 at 1,000 a second: the time from the sending to the line. With 0 it is not run

The last line is `N passed, M failed`, and the exit status is 0 where none failed. Of `speed` the
figures are said, and nothing is wanted. A program that takes nothing, writes nothing or does not
end fails after a minute.
"""
import argparse, os, random, signal, socket, statistics, struct, subprocess, sys, tempfile, threading, time

HERE = os.path.dirname(os.path.abspath(__file__))
sys.path.insert(0, os.path.join(os.path.dirname(HERE), 'examples', 'desk'))
import storm_feed

HOST = '127.0.0.1'
UNITS = range(1, 9)
OTHER_UNIT = 99
END_OF_SESSION = b'\x06\x2d\0\0\0\0'
PATIENCE = 60
ROOM = 8 << 20
ACCOUNT = '--sub 0001 --user FEED --password PITCH'
HEARD_NOTHING = 'pitch_live: datagrams 0 faulty 0 blocks 0 stray 0'
STARTED = []


class Stuck(Exception):
    """The program does not do what is waited for."""


def block(unit, sequence, messages):
    body = b''.join(messages)
    return struct.pack('<HBBI', 8 + len(body), len(messages), unit, sequence) + body


def datagrams_of(program, number, steps, dice):
    """The datagrams of all units: blocks of one to eight messages, one to three of them a datagram."""
    waiting = []
    for unit in UNITS:
        messages = list(storm_feed.messages(program, number, unit, steps))
        blocks, at = [], 0
        while at < len(messages):
            count = dice.randint(1, 8)
            blocks.append(block(unit, at + 1, messages[at:at + count]))
            at += len(messages[at:at + count])
        waiting.append(blocks + [block(unit, len(messages) + 1, [])])
    made = []
    while waiting:
        part = b''
        for _ in range(dice.randint(1, 3)):
            if waiting:
                blocks = dice.choice(waiting)
                part += blocks.pop(0)
                waiting = [it for it in waiting if it]
        made.append(part)
    return made


def followed(program, datagrams):
    """What `follow` writes of the datagrams."""
    return subprocess.run([program, 'follow'], input=b''.join(datagrams), capture_output=True, check=True).stdout


def books_of(text):
    at = text.find(b'book unit ')
    return text[at:] if at >= 0 else b''


def free_port():
    with socket.socket(socket.AF_INET, socket.SOCK_DGRAM) as probe:
        probe.bind((HOST, 0))
        return probe.getsockname()[1]


def waiting_at(port):
    """How many bytes wait at a port of this machine, or None where nobody has bound it."""
    with open('/proc/net/udp') as table:
        rows = [it.split() for it in table][1:]
    counts = [int(it[4].split(':')[1], 16) for it in rows if int(it[1].split(':')[1], 16) == port]
    return max(counts, default=None)


def buffer_of(line):
    """Asks for a buffer. Returns how many bytes may wait in the one that the system grants."""
    line.setsockopt(socket.SOL_SOCKET, socket.SO_RCVBUF, ROOM)
    return line.getsockopt(socket.SOL_SOCKET, socket.SO_RCVBUF)


def few():
    """How many bytes may wait at a port, as the system counts them, when a datagram is sent."""
    with socket.socket(socket.AF_INET, socket.SOCK_DGRAM) as probe:
        return min(4096, buffer_of(probe) // 16)


def wait_until(is_so, what):
    until = time.monotonic() + PATIENCE
    while not is_so():
        if time.monotonic() > until:
            raise Stuck('after %d s %s' % (PATIENCE, what))
        time.sleep(0.0005)


def wait_for(port):
    """Waits until somebody has bound the port."""
    wait_until(lambda: waiting_at(port) is not None, 'nobody listens')


class Listener:
    """A run of the program over a pipe: line A is bound by it, and a line B is handed in."""

    def __init__(self, live, words=(), both=False):
        self.a, given, handed = free_port(), [], []
        self.b, self.room = None, few()
        if both:
            line = socket.socket(socket.AF_INET, socket.SOCK_DGRAM)
            self.room = buffer_of(line) // 2
            line.bind((HOST, 0))
            self.b = line.getsockname()[1]
            given, handed = [line], ['--b=fd:%d' % line.fileno()]
        self.out = tempfile.TemporaryFile()
        self.run = subprocess.Popen([live, 'listen', '--a', '%s:%d' % (HOST, self.a), *handed, *words], stdin=subprocess.PIPE,
                                    stdout=self.out, stderr=subprocess.PIPE, pass_fds=[it.fileno() for it in given])
        STARTED.append(self.run)
        for it in given:
            it.close()
        wait_for(self.a)

    def wrote(self):
        """What it has written so far."""
        return os.pread(self.out.fileno(), os.fstat(self.out.fileno()).st_size, 0)

    def end(self):
        """Ends its input. Returns its status, what it wrote, and what it counted."""
        try:
            _, said = self.run.communicate(timeout=PATIENCE)
        except subprocess.TimeoutExpired:
            raise Stuck('it does not end')
        return self.run.returncode, self.wrote(), said.decode().strip()


class Sender:
    """Sends to ports, at so many a second at most, and only where no more bytes wait than these."""

    def __init__(self, rate, most=None):
        self.socket = socket.socket(socket.AF_INET, socket.SOCK_DGRAM)
        self.most = few() if most is None else most
        self.rate, self.sent, self.begun = rate, 0, time.perf_counter()

    def send(self, port, datagram):
        wait_until(lambda: (waiting_at(port) or 0) <= self.most, 'datagrams still wait')
        self.socket.sendto(datagram, (HOST, port))
        self.sent += 1
        ahead = self.sent / self.rate - (time.perf_counter() - self.begun)
        if ahead > 0.001:
            time.sleep(ahead)


def random_bytes(dice, count):
    return bytes(dice.choices(range(256), k=count))


def spoiled(datagram, dice):
    return dice.choice((
        datagram[:dice.randrange(len(datagram))],
        b'',
        b'\xff\xff' + random_bytes(dice, dice.randrange(200)),
        block(OTHER_UNIT, dice.randint(1, 9), []),
    ))


def copies_of(datagrams, dice):
    """What each line carries: pairs of a datagram's number and its bytes."""
    lines = ([], [])
    for number, datagram in enumerate(datagrams):
        sure = dice.randrange(2)
        for side, line in enumerate(lines):
            copy = datagram
            if side != sure and dice.random() < 0.2:
                continue
            if side != sure and dice.random() < 0.1:
                copy = spoiled(datagram, dice)
            line.append((number, copy))
            if dice.random() < 0.2:
                line.append((number, copy))
    for line in lines:
        for at in range(len(line) - 1):
            if dice.random() < 0.2:
                line[at], line[at + 1] = line[at + 1], line[at]
    return lines


def run_whole(live, program, rate, number, datagrams, dice):
    listener = Listener(live)
    sender = Sender(rate)
    for at, datagram in enumerate(datagrams):
        sender.send(listener.a, datagram)
        if at % 20 == 0:
            listener.run.send_signal(signal.SIGSTOP)
            listener.run.send_signal(signal.SIGCONT)
    status, text, said = listener.end()
    return status == 0 and text == followed(program, datagrams), f'{len(datagrams)} datagrams, {len(text)} bytes; {said}'


def send_both(listener, rate, lines):
    sender = Sender(rate)
    for at in range(max(map(len, lines))):
        for port, line in zip((listener.a, listener.b), lines):
            if at < len(line):
                sender.send(port, line[at][1])


def run_lossy(live, program, rate, number, datagrams, dice):
    listener = Listener(live, [f'--unit={it}' for it in UNITS], both=True)
    lines = copies_of(datagrams, dice)
    send_both(listener, rate, lines)
    status, text, said = listener.end()
    right = books_of(followed(program, datagrams))
    return status == 0 and right and books_of(text) == right, f'{sum(map(len, lines))} copies; {said}'


def noise(dice):
    kind = dice.randrange(4)
    if kind == 0:
        return random_bytes(dice, dice.randrange(1400)).replace(b'\x01', b'\xfe')
    if kind == 1:
        return b''
    if kind == 2:
        return b'\x07\0' + random_bytes(dice, 40)
    return block(OTHER_UNIT + dice.randrange(100), dice.randint(1, 2 ** 32 - 1), [b'\x02\x2d'])


def rubbish(ports, stop, number):
    dice, sender = random.Random(number), Sender(500)
    try:
        while not stop.is_set():
            sender.send(dice.choice(ports), noise(dice))
    except Stuck:
        pass


def run_rubbish(live, program, rate, number, datagrams, dice):
    listener = Listener(live, [f'--unit={it}' for it in UNITS], both=True)
    stop = threading.Event()
    beside = [threading.Thread(target=rubbish, args=((listener.a, listener.b), stop, k)) for k in range(3)]
    for it in beside:
        it.start()
    try:
        send_both(listener, rate, copies_of(datagrams, dice))
    finally:
        stop.set()
        for it in beside:
            it.join()
    status, text, said = listener.end()
    right = books_of(followed(program, datagrams))
    return status == 0 and right and books_of(text) == right, said


def forged(datagram):
    """The same blocks, whose messages have zeros behind their types."""
    made, at = bytearray(len(datagram)), 0
    while at < len(datagram):
        end = at + struct.unpack_from('<H', datagram, at)[0]
        made[at:at + 8] = datagram[at:at + 8]
        at += 8
        while at < end:
            made[at:at + 2] = datagram[at:at + 2]
            at += datagram[at]
    return bytes(made)


def run_from(live, program, rate, number, datagrams, dice):
    """Only the sender that is named is heard."""
    listener = Listener(live, ['--from', '10.0.0.5', '--from', '127.0.0.2'])
    named, other = Sender(rate), Sender(rate)
    named.socket.bind(('127.0.0.2', 0))
    some = datagrams[:200]
    for datagram in some:
        other.send(listener.a, forged(datagram))
        named.send(listener.a, datagram)
    status, text, said = listener.end()
    return status == 0 and text == followed(program, some) and f'faulty {len(some)} ' in said, said


def messages_of(datagram):
    """Each message of its blocks: the unit, the sequence, and the bytes."""
    at = 0
    while at < len(datagram):
        length, _, unit, sequence = struct.unpack_from('<HBBI', datagram, at)
        end, at = at + length, at + 8
        while at < end:
            yield unit, sequence, datagram[at:at + datagram[at]]
            sequence, at = sequence + 1, at + datagram[at]


def run_disagree(live, program, rate, number, datagrams, dice):
    """A second venue is told apart at the first message that is another."""
    units = [word for unit in UNITS for word in ('--unit', str(unit))]
    listener = Listener(live, [*units, '--grp', f'1@{HOST}:{free_port()}', *ACCOUNT.split()])
    some, sender = datagrams[:200], Sender(rate)
    of_another = forged(some[-50])
    for datagram in [*some, of_another]:
        sender.send(listener.a, datagram)
    status, text, said = listener.end()
    pairs = zip(messages_of(some[-50]), messages_of(of_another))
    unit, sequence = next(one[:2] for one, other in pairs if one != other)
    lines = [line for line in followed(program, some).splitlines(True) if line.startswith(b'block ')]
    wanted = f'pitch_live: unit {unit} lines disagree at {sequence}'
    return status == 8 and text == b''.join(lines) and said.splitlines() == ['unit 1 grp down', wanted], said.splitlines()[-1]


def run_end(live, program, rate, number, datagrams, dice):
    """All at once, and then the end at once: nothing that was sent is missed."""
    listener = Listener(live, both=True)
    some = datagrams[:200]
    sender = Sender(10 ** 9, listener.room)
    listener.run.stdin.write(b'the input says something')
    for datagram in some:
        sender.send(listener.b, datagram)
    listener.run.stdin.write(b', and ends')
    listener.run.stdin.flush()
    status, text, said = listener.end()
    return status == 0 and text == followed(program, some), said


def run_ended(live, program, rate, number, datagrams, dice):
    """Its input goes on. A unit that is behind its End of Session keeps the program."""
    listener, sender = Listener(live, [f'--unit={it}' for it in UNITS]), Sender(rate)
    last = {unit: sequence for datagram in datagrams for unit, sequence, _ in messages_of(datagram)}
    late = next(it for it in reversed(datagrams) if any(messages_of(it)))
    some = [it for it in datagrams if it is not late]
    some += [block(unit, last[unit] + 1, [END_OF_SESSION]) for unit in UNITS]
    for datagram in some:
        sender.send(listener.a, datagram)
    lines = sum(map(blocks_in, some))
    wait_until(lambda: listener.wrote().count(b'\n') >= lines, 'a line is not written')
    sender.send(listener.a, late)
    listener.run.wait(PATIENCE)
    status, text, said = listener.end()
    return status == 0 and text == followed(program, [*some, late]), said


def blocks_in(datagram):
    count, at = 0, 0
    while at < len(datagram):
        count, at = count + 1, at + struct.unpack_from('<H', datagram, at)[0]
    return count


def run_prompt(live, program, rate, number, datagrams, dice):
    """The lines of a datagram are there while nothing else comes."""
    listener, lines, some = Listener(live), 0, datagrams[:50]
    sender = Sender(rate)
    for datagram in some:
        sender.send(listener.a, datagram)
        lines += blocks_in(datagram)
        wait_until(lambda: listener.wrote().count(b'\n') >= lines, 'a line is not written')
    status, text, said = listener.end()
    return status == 0 and text == followed(program, some), said


def has_host(host):
    """Whether ports of it can be bound here."""
    try:
        with socket.socket(socket.AF_INET6, socket.SOCK_DGRAM) as probe:
            probe.bind((host, 0))
        return True
    except OSError:
        return False


def check_words(live):
    """Words that ask for nothing, and ports that can't be opened."""
    with socket.socket(socket.AF_INET, socket.SOCK_DGRAM) as taken, tempfile.NamedTemporaryFile('w') as setup:
        setup.write(f'# a desk\n\n  --a {HOST}:0\n--hold=9\n--from 10.0.0.5\n')
        setup.flush()
        taken.bind((HOST, 0))
        port = taken.getsockname()[1]
        cases = [
            ('', 2, 'the words are'),
            ('listen', 2, 'the words are'),
            ('listen --a', 2, 'the words are'),
            ('listen --a 127.0.0.1:0 --hold 0', 2, 'the words are'),
            ('listen --a 127.0.0.1:0 --hold 65537', 2, 'the words are'),
            ('listen --a 127.0.0.1:0 --unit 256', 2, 'the words are'),
            ('listen --a 127.0.0.1:0 --seconds 0 --seconds 0', 2, 'the words are'),
            ('listen --a localhost:1', 2, 'the words are'),
            ('listen --a fd:2', 2, 'the words are'),
            ('listen --a 127.0.0.1:0 --from 10.0.0.5:1', 2, 'the words are'),
            ('listen --a 127.0.0.1:0 --grp 1@127.0.0.1:1', 2, 'the words are'),
            (f'listen --a 127.0.0.1:0 --spin 0@127.0.0.1:1 {ACCOUNT}', 2, 'the words are'),
            (f'listen --a 127.0.0.1:0 --grp 1@127.0.0.1 {ACCOUNT}', 2, 'the words are'),
            (f'listen --a 127.0.0.1:0 --grp 1@127.0.0.1:1 --grp 1@127.0.0.1:2 {ACCOUNT}', 2, 'the words are'),
            ('listen --a 127.0.0.1:0 --sub 1 --user 2', 2, 'the words are'),
            ('listen --a 127.0.0.1:0 --sub 1 --user 2 --password 12345678901', 2, 'the words are'),
            ('listen --setup', 2, 'the words are'),
            ('listen --setup=/nowhere/setup', 2, 'pitch_live: /nowhere/setup: No such file or directory'),
            ('listen --a 127.0.0.1:0 --', 2, 'the words are'),
            ('listen --help', 2, 'the words are'),
            ('serve', 2, 'the words are'),
            ('serve --b 7@127.0.0.1:1', 2, 'the words are'),
            ('serve --a 127.0.0.1:1', 2, 'the words are'),
            ('serve --a 7@127.0.0.1:1 --a 7@127.0.0.1:2', 2, 'the words are'),
            ('serve --a 7@127.0.0.1:1 --gap 8@127.0.0.1:2', 2, 'the words are'),
            ('serve --a 7@127.0.0.1:1 --grp 7@127.0.0.1:2', 2, 'the words are'),
            (f'serve --a 7@127.0.0.1:1 --grp 7@127.0.0.1:2 --grp 7@127.0.0.1:3 {ACCOUNT}', 2, 'the words are'),
            ('serve --a 7@127.0.0.1:1 --kept 0', 2, 'the words are'),
            ('serve --a 7@127.0.0.1:1 --day 1000001', 2, 'the words are'),
            ('serve --a 7@127.0.0.1:1 --after 1 --after 1', 2, 'the words are'),
            ('serve --a 7@127.0.0.1:1 --hold 1', 2, 'the words are'),
            ('serve --a 7@127.0.0.1:1 --plan 1', 2, 'the words are'),
            ('serve --a 7@127.0.0.1:1 --count 1', 2, 'the words are'),
            ('serve --a 7@127.0.0.1:1 --plan 1 --count 0', 2, 'the words are'),
            ('serve --a 7@127.0.0.1:1 --plan 1 --count 1000000001', 2, 'the words are'),
            ('serve --a 7@127.0.0.1:1 --rate 5', 2, 'the words are'),
            ('serve --a 7@127.0.0.1:1 --plan 1 --count 1 --rate 1000001', 2, 'the words are'),
            ('serve --a 7@127.0.0.1:1 --lose a', 2, 'the words are'),
            ('serve --a 7@127.0.0.1:1 --lose c:1', 2, 'the words are'),
            ('serve --a 7@127.0.0.1:1 --lose a:101', 2, 'the words are'),
            ('serve --a 7@127.0.0.1:1 --lose a:1 --lose a:2', 2, 'the words are'),
            ('serve --a 7@127.0.0.1:1 --swap A:1', 2, 'the words are'),
            ('serve --a 7@127.0.0.1:1 --repeat gap:-1', 2, 'the words are'),
            ('serve --a 7@127.0.0.1:1 --cut 0', 2, 'the words are'),
            ('serve --a 7@127.0.0.1:1 --number x', 2, 'the words are'),
            (f'listen --a {HOST}:{port}', 7, 'pitch_live: a: Address already in use'),
            (f'listen --a {HOST}:0 --b {HOST}:0 --gap={HOST}:{port}', 7, 'pitch_live: gap: Address already in use'),
            ('listen --a 192.0.2.1:0', 7, 'pitch_live: a: Cannot assign requested address'),
            ('listen --b fd:77', 7, 'pitch_live: b: Bad file descriptor'),
            (f'listen --a {HOST}:0 --seconds 0', 0, HEARD_NOTHING),
            (f'listen --setup {setup.name} --seconds 0', 0, HEARD_NOTHING),
            (f'listen --setup={setup.name} --seconds 0 --hold 1', 2, 'the words are'),
        ]
        if has_host('::1'):
            cases.append((f'listen --b [::1]:0 --gap={HOST}:0 --seconds=0', 0, HEARD_NOTHING))
        right = True
        for words, status, said in cases:
            done = subprocess.run([live, *words.split()], capture_output=True, text=True, timeout=PATIENCE, stdin=subprocess.DEVNULL)
            is_so = done.returncode == status and said in done.stderr and done.stderr.count('\n') == 1 and not done.stdout
            if not is_so:
                print(f'words: {words}: {done.returncode} {done.stderr!r} {done.stdout!r}')
            right = right and is_so
        return right, f'{len(cases)} command lines'


def fast_datagrams(count):
    """So many datagrams of 20 messages: ten orders are added, and deleted."""
    made, sequence = [], 1
    for at in range(count):
        ids = range(10 * at + 1, 10 * at + 11)
        adds = [struct.pack('<BBIQcH6sHB', 26, 0x22, 0, it, b'B', 100, b'ACME  ', 1234 + it % 50, 1) for it in ids]
        made.append(block(1, sequence, adds + [struct.pack('<BBIQ', 14, 0x29, 0, it) for it in ids]))
        sequence += 20
    return made


def run_speed(live, count):
    datagrams = fast_datagrams(count)
    listener = Listener(live)
    line = socket.socket(socket.AF_INET, socket.SOCK_DGRAM)
    line.connect((HOST, listener.a))
    begun = time.perf_counter()
    for at in range(0, count, 100):
        for datagram in datagrams[at:at + 100]:
            line.send(datagram)
        while (time.perf_counter() - begun) * 100000 < at:
            pass
    took = time.perf_counter() - begun
    used = os.times()
    status, text, said = listener.end()
    spent = os.times()
    heard = text.count(b'\n') - 1
    cost = spent.children_user + spent.children_system - used.children_user - used.children_system
    return f'{count} datagrams of 20 messages, {count / took:.0f} a second: {count - heard} lost; {cost:.2f} s of processor time; {said}'


def run_delay(live, count=2000):
    """How long it takes from the sending of a datagram to its line."""
    datagrams, port = fast_datagrams(count), free_port()
    run = subprocess.Popen([live, 'listen', '--a', f'{HOST}:{port}'], stdin=subprocess.PIPE, stdout=subprocess.PIPE, stderr=subprocess.DEVNULL)
    wait_for(port)
    line, times = socket.socket(socket.AF_INET, socket.SOCK_DGRAM), []
    for datagram in datagrams:
        begun = time.perf_counter()
        line.sendto(datagram, (HOST, port))
        run.stdout.readline()
        times.append((time.perf_counter() - begun) * 1e6)
        time.sleep(0.001)
    run.stdin.close()
    run.stdout.read()
    run.wait(PATIENCE)
    times.sort()
    return f'from the sending to the line: median {statistics.median(times):.0f} us, 99th {times[len(times) * 99 // 100]:.0f} us'


def main():
    words = argparse.ArgumentParser()
    words.add_argument('live')
    words.add_argument('program')
    for name, default in (('--numbers', 3), ('--steps', 300), ('--rate', 2000), ('--count', 300000)):
        words.add_argument(name, type=int, default=default)
    words.add_argument('--only')
    given = words.parse_args()
    runs = {'whole': run_whole, 'lossy': run_lossy, 'rubbish': run_rubbish, 'from': run_from,
            'disagree': run_disagree, 'end': run_end, 'ended': run_ended, 'prompt': run_prompt}
    passed, failed = 0, 0

    def tell(name, run, *more):
        nonlocal passed, failed
        try:
            is_so, said = run(given.live, *more)
        except (Stuck, subprocess.TimeoutExpired) as stuck:
            is_so, said = False, stuck
        print(f'{name}: {"right" if is_so else "WRONG"}; {said}', flush=True)
        passed, failed = passed + bool(is_so), failed + (not is_so)

    try:
        for number in range(1, given.numbers + 1):
            dice = random.Random(number)
            wanted = [it for it in runs if given.only in (None, it)]
            datagrams = datagrams_of(given.program, number, given.steps, dice) if wanted else []
            for name in wanted:
                tell(f'{name} {number}', runs[name], given.program, given.rate, number, datagrams, dice)
        if given.only in (None, 'words'):
            tell('words', check_words)
        if given.only in (None, 'speed') and given.count:
            print(f'speed: {run_speed(given.live, given.count)}', flush=True)
            print(f'speed: {run_delay(given.live)}', flush=True)
    finally:
        for it in STARTED:
            if it.poll() is None:
                it.kill()
    print(f'{passed} passed, {failed} failed')
    sys.exit(1 if failed else 0)


if __name__ == '__main__':
    main()
