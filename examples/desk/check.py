#!/usr/bin/env python3
"""Tries the scripts of this folder on the sample, on small captures and on storms.

    examples/desk/check.py [PROGRAM]

PROGRAM is the path of the built program; without it, what needs none is tried. What is wanted was
worked out by hand; of the storms it is what ../storms has. The last line is `N passed, M failed`;
the exit status is 0 only where none failed.
"""
import json
import os
import re
import subprocess
import sys
import tempfile

import storm_feed

HERE = os.path.dirname(os.path.abspath(__file__))
SAMPLE = os.path.join(HERE, '..', 'sample.pitch')
CAPTURE = os.path.join(HERE, '..', 'captures', 'sample.pcap')
MAKE_INPUT = os.path.join('..', 'audit', 'make_input.py')

# ---- What `follow` writes of the sample, and what the scripts make of it
FOLLOWED = b'''block 1 unit 1 first 1 count 2; current 2
block 2 unit 2 first 1 count 2; current 2
block 3 unit 1 first 4 count 1; behind 2 of 4
block 4 unit 2 first 3 count 1; current 3
block 5 unit 1 first 5 count 0; behind 2 of 4
block 6 unit 1 first 3 count 1; current 4
block 7 unit 2 first 3 count 1; current 3
book unit 1 at 4 second 34200 orders 2
order 100 B 300 ACME 12.3456
order 101 S 200 ACME 12.4000
book unit 2 at 3 second 34200 orders 1
order 7 S 1000 ZVZZT+P 10.5000 hidden mpid=ABCD
'''
COUNTS = b'packets 7 used 6 faulty 1\n'
GAPS = 'unit 1 behind from block 3 to 6, after 2, by at most 2\n'
HEAD = 'unit,at,second,id,side,quantity,symbol,price,hidden,mpid\n'
CSV = HEAD + '''1,4,34200,100,B,300,ACME,12.3456,0,
1,4,34200,101,S,200,ACME,12.4000,0,
2,3,34200,7,S,1000,ZVZZT+P,10.5000,1,ABCD
'''
CSV_OF_ONE = HEAD + '2,3,34200,7,S,1000,ZVZZT+P,10.5000,1,ABCD\n'
OBJECTS = [
    {'block': 3, 'unit': 1, 'first': 4, 'count': 1, 'overflow': False,
     'status': 'behind', 'reach': 2, 'top': 4},
    {'book': 2, 'at': 3, 'second': 34200, 'orders': 1},
    {'order': '7', 'side': 'S', 'quantity': 1000, 'symbol': 'ZVZZT+P', 'price': '10.5000',
     'hidden': True, 'mpid': 'ABCD'},
]
UNITS = ['unit 1 blocks 4, at the end current 4; behind after 2 blocks, overflows 0',
         'unit 2 blocks 3, at the end current 3; behind after 0 blocks, overflows 0']
# The book of unit 2 as an image: its clock, and order 7.
IMAGE = bytes.fromhex('0e000102 00000000 0680 03000000'
                      '13000102 00000000 0b82 03000000 01000000 41'
                      '36000202 00000000 0620 98850000'
                      '282f 00000000 0700000000000000 53 e8030000 5a565a5a542b5020 289a010000000000'
                      '00 41424344'
                      '0e000102 00000000 0683 03000000')

# ---- A Spin Server's connection and a line
# It advertises images through 2 and 4 of unit 1, and sends the latter: order 5, of IBM.
AVAILABLE = [bytes.fromhex('0e000101 00000000 0680 0%d000000' % sequence) for sequence in (2, 4)]
SPIN = bytes.fromhex('13000101 00000000 0b82 04000000 01000000 41'
                     '28000201 00000000 1a22 00000000 0500000000000000 42 6400 49424d202020 e803 01'
                     '0683 04000000')
# A line brings its deletion, message 5.
LINE = bytes.fromhex('16000101 05000000 0e29 00000000 0500000000000000')
MERGED = AVAILABLE[1] + SPIN + LINE
RELAYED = bytes.fromhex('28000201 01000000 0697 00000000'
                        '1a22 00000000 0500000000000000 42 6400 49424d202020 e803 01'
                        '16000101 03000000 0e29 00000000 0500000000000000')

# ---- Captures
# A datagram to port 30501 whose first two bytes could be the length of a block.
STRAY = bytes.fromhex('01000000 02000000 34000000 34000000 01005e5a8550 020000000001 0800'
                      '4500 0026 00000000 1011 0000 0a000001 e9da8550 1388 7725 0012 0000'
                      '0a000101 01000000 5858')
CAPTURE_HEAD = bytes.fromhex('d4c3b2a1020004000000000000000000ffff000001000000')
A, B, GAP = storm_feed.LINE_A, storm_feed.LINE_B, storm_feed.GAP_LINE
# The lines and the numbers of messages that came, ten microseconds apart.
CAME = ((A, 1), (B, 1), (A, 2), (A, 4), (B, 4), (GAP, 3), (A, 6), (B, 6))
# Lost are 3 and 5 on line A, 2, 3 and 5 on line B; of 3 and 5, lost on both, 3 came on the gap line.
LOSSES = '''unit,line,first,last,messages,after,seen,filled
1,233.218.133.80:30501,3,3,1,20.000030,20.000040,
1,233.218.133.80:30501,5,5,1,20.000040,20.000070,
1,233.218.133.96:31501,2,3,2,20.000020,20.000050,
1,233.218.133.96:31501,5,5,1,20.000050,20.000080,
1,all,3,3,1,20.000030,20.000040,20.000060
1,all,5,5,1,20.000060,20.000070,
'''
# Best prices with the times of the venue and of packets; message 2 comes after 3.
TIMED_COMMANDS = '''time 34200
add 1 B 100 IBM 10.00 at=5
add 2 S 5 IBM 10.05
time 34201
clear at=7
'''
TIMED_HEAD = 'time,packet,unit,at,symbol,bid,bid_quantity,offer,offer_quantity\n'
TIMED = TIMED_HEAD + '''09:30:00.000000005,,1,2,IBM,10.0000,100,,
09:30:00.000000000,,1,3,IBM,10.0000,100,10.0500,5
09:30:01.000000007,,1,5,IBM,,,,
'''
TIMED_PACKETS = TIMED_HEAD + '''09:30:00.000000005,20.000030,1,2,IBM,10.0000,100,,
09:30:00.000000000,20.000030,1,3,IBM,10.0000,100,10.0500,5
09:30:01.000000007,20.000050,1,5,IBM,,,,
'''
TIMED_BEHIND = 'timed.py: unit 1 is behind 1 of 3: nothing is told after 09:30:00.000000000\n'
CROSSED = TIMED_HEAD + '''09:30:00.000000005,,1,2,IBM,10.0000,100,,
09:30:00.000000006,,1,3,IBM,10.0600,100,10.0500,5
'''
WRONG = '''unit,at,what,line,found,right
1,4,other,9,order 100 B 301 ACME 12.3456,order 100 B 300 ACME 12.3456
1,4,missing,,,order 101 S 200 ACME 12.4000
'''


def script(name):
    return os.path.join(HERE, name)


def contents(name):
    with open(name, 'rb') as file:
        return file.read()


def tried(words, given=b'', **more):
    """How a program ends, and what it writes and says; standard input is the bytes given."""
    env = {**os.environ, 'TZ': 'UTC', **more}
    done = subprocess.run(words, input=given, capture_output=True, env=env, timeout=120)
    return done.returncode, done.stdout, done.stderr.decode()


def run(words, given=b''):
    """What a program writes, which ends well."""
    status, text, said = tried(words, given)
    if status:
        raise ValueError('%s ended with status %d: %s' % (words, status, said))
    return text


def follow(program, given, *words):
    return run([program, 'follow', *words], given)


def awk(name, text, *words):
    return run(['awk', *words, '-f', script(name)], text).decode()


def objects(text):
    return [json.loads(line) for line in run([script('book_json.py')], text).splitlines()]


class Files:
    """Files with some contents, for a script that takes names."""

    def __init__(self, **texts):
        self.folder = tempfile.TemporaryDirectory()
        for name, text in texts.items():
            with open(self.name(name), 'wb') as file:
                file.write(text if isinstance(text, bytes) else text.encode())

    def name(self, name):
        return os.path.join(self.folder.name, name)


# ---- Without the program
def heard(raws, came):
    """A capture of what came: lines and numbers of messages."""
    blocks = {i: (8 + len(raw)).to_bytes(2, 'little') + bytes((1, 1)) + i.to_bytes(4, 'little') + raw
              for i, raw in raws.items()}
    packets = (storm_feed.packet(line, blocks[i], 10 * at) for at, (line, i) in enumerate(came, 1))
    return CAPTURE_HEAD + b''.join(packets)


def short(text):
    """A text without the day, the hour, the minute and the nanoseconds of its packets' times."""
    return re.sub(r'2023-11-14 22:13:(\d\d\.\d{6})000', r'\1', text.decode())


def dissected():
    """What tshark tells of the connection, in segments of which one comes late and one twice, and
    of the line."""
    sent = b''.join(AVAILABLE) + SPIN
    ranges = ((0, 20), (40, 61), (20, 40), (40, 61), (61, len(sent)))
    lines = ['\t0\t%d\t%s\n' % (first + 1, sent[first:end].hex()) for first, end in ranges]
    return ''.join(lines + ['%s\t\t\t\n' % LINE.hex()]).encode()


def of_texts():
    yield 'gaps', awk('gaps.awk', FOLLOWED), GAPS
    yield 'csv', awk('book_csv.awk', FOLLOWED), CSV
    words = ('-v', 'unit=2', '-v', 'symbol=ZVZZT+P')
    yield 'csv of one unit', awk('book_csv.awk', FOLLOWED, *words), CSV_OF_ONE
    told = objects(FOLLOWED + COUNTS + b'block 9\n')
    yield 'json', [told[2], told[10], told[11]], OBJECTS
    yield 'json of counts', told[12], {'packets': 7, 'used': 6, 'faulty': 1}
    yield 'json of no line', told[13], {'text': 'block 9'}
    for name, lines, wanted in (
        ('current', FOLLOWED, (0, b'unit 1 current 4\nunit 2 current 3\n', '')),
        ('behind', b''.join(FOLLOWED.splitlines(True)[:5]),
         (1, b'unit 1 behind 2 of 4\nunit 2 current 3\n', '')),
        ('no text', b'', (3, b'', '')),
    ):
        yield 'behind.awk: ' + name, tried(['awk', '-f', script('behind.awk')], lines), wanted
    yield 'merge', run([script('merge.py')], dissected()), MERGED


def of_captures():
    stray = CAPTURE_HEAD + STRAY + contents(CAPTURE)[24:]
    for name, capture in ('', contents(CAPTURE)), (' where a datagram is no blocks', stray):
        times = run([script('times.py'), '30501'], capture).decode().splitlines()
        yield 'times' + name, [it.split()[0] for it in times], [str(k) for k in range(1, 8)]
        yield 'blocks' + name, run([script('blocks.py')], capture), contents(SAMPLE)
    blocks = [script('blocks.py'), '--port', '40000']
    yield 'blocks of a port', tried(blocks, contents(CAPTURE))[:2], (0, b'')
    raws = {i: b'\x06\x20' + i.to_bytes(4, 'little') for i in range(1, 7)}
    capture = heard(raws, CAME)
    got = tried([script('losses.py'), '--gap', '32501'], capture)
    yield 'losses', (got[0], short(got[1]), got[2]), (0, LOSSES, '')
    got = tried([script('blocks.py'), '--until', '2023-11-14 22:13:21'], capture)
    yield 'blocks until a later second', (got[0], len(got[1])), (0, 14 * len(CAME))
    got = tried([script('blocks.py'), '--until', '2023-11-14 22:13:20'], capture)
    yield 'blocks until the first second', got[:2], (0, b'')


def of_books():
    files = Files(books=FOLLOWED, second=FOLLOWED[FOLLOWED.index(b'book unit 2'):])
    carry = [script('carry.py'), files.name('second')]
    yield 'an image', run(carry), IMAGE
    # The relay sends a clear, the clock and the order, so its fourth message is the venue's fourth.
    text = Files(text=b'block 1 unit 2 first 1 count 3; current 3\nbook unit 2 at 4 second - orders 0\n')
    wanted = b'book unit 2 at 4 second - orders 0\n'
    yield 'numbers of the venue', run(carry + ['--number', text.name('text')]), wanted
    told = tried([script('carry.py'), files.name('books'), '--told', SAMPLE])
    yield 'told', told, (0, b'unit 1 current 4\nunit 2 current 3\n', '')
    told = tried(carry + ['--told', SAMPLE])
    yield 'told of a unit behind', told, (1, b'unit 1 behind 0 of 4\nunit 2 current 3\n', '')


def of_plots():
    """With a script in the place of gnuplot, which keeps what it is told."""
    files = Files(gnuplot='#!/bin/sh\ncat > "$0.told"\n')
    os.chmod(files.name('gnuplot'), 0o755)
    path = '%s:%s' % (files.folder.name, os.environ['PATH'])
    plot = [script('plot_day.sh'), 'x.png', 'IBM']
    said = 'plot_day.sh: IBM is crossed in 1 rows, first at 09:30:00.000000006\n'
    yield 'a crossed day', tried(plot, CROSSED.encode(), PATH=path), (0, b'', said)
    yield 'its output', b"set output 'x.png'" in contents(files.name('gnuplot.told')), True
    said = 'plot_day.sh: IBM has no row with a time\n'
    yield 'no day', tried(plot, TIMED_HEAD.encode(), PATH=path), (1, b'', said)
    two = CROSSED.replace('006,,1', '006,,2').encode()
    said = 'plot_day.sh: IBM is in units 1 and 2: take the rows of one, such as $3 == 1\n'
    yield 'a day of two units', tried(plot, two, PATH=path), (1, b'', said)


# ---- Whatever is wrong is one line
CUT = CAPTURE_HEAD + STRAY[:-3]
FAULTS = (
    ('times.py', 'x', b'', 2),
    ('times.py', '0', b'', 1),
    ('times.py', '0', contents(SAMPLE), 1),
    ('times.py', '0', b'\x0a\x0d\x0d\x0a' + bytes(40), 1),
    ('blocks.py', '--until noon', b'', 2),
    ('blocks.py', '--port x', b'', 2),
    ('blocks.py', '', CUT, 1),
    ('blocks.py', '', CAPTURE_HEAD[:20] + b'\x71' + bytes(3), 1),
    ('losses.py', '--gaps', b'', 2),
    ('losses.py', '', contents(SAMPLE), 1),
    ('merge.py', '', b'x\n', 1),
    ('merge.py', '', b'\t0\tx\t00\n', 1),
    ('listen.py', '127.0.0.1', b'', 2),
    ('listen.py', '127.0.0.1 233.218.133.80', b'', 2),
    ('listen.py', '127.0.0.1 300.1.1.1:30501', b'', 1),
    ('listen.py', '203.0.113.9 233.218.133.80:30501', b'', 1),
    ('listen.py', 'here 233.218.133.80:30501', b'', 1),
    ('carry.py', '', b'', 2),
    ('carry.py', 'NONE', b'', 1),
    ('carry.py', 'SAMPLE', b'', 1),
    ('carry.py', 'BAD', b'', 1),
    ('carry.py', 'BOOKS --told CAPTURE', b'', 1),
    ('storm_feed.py', 'NONE 1 1 10', b'', 1),
    ('storm_feed.py', 'NONE 1 one 10', b'', 2),
    ('timed.py', 'NONE', b'', 2),
    ('timed.py', 'NONE SAMPLE', b'', 1),
    ('timed.py', 'NONE NONE', b'', 1),
    ('wrong.py', 'NONE SAMPLE', b'', 2),
    ('wrong.py', 'NONE CAPTURE BAD', b'', 1),
    ('wrong.py', 'NONE SAMPLE BAD', b'', 1),
    ('report.sh', 'NONE', b'', 2),
    ('report.sh', 'NONE CAPTURE', b'', 2),
    ('report.sh', 'SCRIPT CAPTURE', b'', 2),
    ('plot_day.sh', 'x.png', b'', 2),
    ('../quotes/plot.sh', '1 IBM', b'', 2),
    ('../quotes/plot.sh', '1 IBM x.png', b'', 1),
    ('../audit/make_input.py', 'NONE', b'', 1),
    ('../audit/make_input.py', 'NONE NONE', b'', 1),
    ('../audit/make_input.py', 'CAPTURE SAMPLE', b'', 1),
)


def of_faults():
    files = Files(bad=b'book unit 1 at 1 second - orders 1\norder 1 B\n', books=FOLLOWED)
    names = {'NONE': files.name('none'), 'BAD': files.name('bad'), 'BOOKS': files.name('books'),
             'SAMPLE': SAMPLE, 'CAPTURE': CAPTURE, 'SCRIPT': script('report.sh')}
    for name, words, given, status in FAULTS:
        got = tried([script(name), *(names.get(it, it) for it in words.split())], given)
        lines = got[2].splitlines()
        is_one = len(lines) == 1 and lines[0].startswith(os.path.basename(name) + ': ')
        yield 'fault of %s %s' % (name, words), (got[0], is_one or got[2]), (status, True)


# ---- With the program
def orders_and_shares(text):
    """Of the one book that is printed."""
    orders = [line for line in text.decode().splitlines() if line.startswith('order ')]
    return len(orders), sum(int(line.split()[3]) for line in orders)


def storm(program, number, unit, steps, *words):
    words = [program, str(number), str(unit), str(steps), '--filled', *words]
    return run([script('storm_feed.py'), *words])


def books(text):
    return b''.join(line for line in text.splitlines(True) if not line.startswith(b'block '))


def block_places(feed):
    at = 0
    while at < len(feed):
        yield at
        at += int.from_bytes(feed[at:at + 2], 'little')


def carried(program, feed):
    """The books of a feed that is followed in two pieces, of which the second begins before the end
    of the first; and whether they have all that the second tells of."""
    half = [at for at in block_places(feed) if at < len(feed) // 2]
    files = Files(first=follow(program, feed[:half[-1]]), piece=feed[half[-100]:])
    first = [script('carry.py'), files.name('first')]
    relayed = run([program, 'relay'], run(first) + feed[half[-100]:])
    text = Files(text=follow(program, relayed))
    second = run(first + ['--number', text.name('text')])
    last = Files(books=second)
    told = tried([script('carry.py'), last.name('books'), '--told', files.name('piece')])
    return second, told[0]


def timed(program, feed):
    files = Files(feed=feed)
    status, text, said = tried([script('timed.py'), program, files.name('feed'), 'IBM'])
    return status, short(text), said


def of_times(program):
    feed = run([program, 'pack', '--unit', '1'], TIMED_COMMANDS.encode())
    yield 'timed', timed(program, feed), (0, TIMED, '')
    raws, at = {}, 8
    while at < len(feed):
        raws[len(raws) + 1] = feed[at:at + feed[at]]
        at += feed[at]
    capture = heard(raws, ((A, 1), (A, 3), (B, 2), (A, 4), (A, 5)))
    yield 'timed of a capture', timed(program, capture), (0, TIMED_PACKETS, '')
    yield 'timed behind', timed(program, heard(raws, ((A, 1), (A, 3)))), (1, TIMED_HEAD, TIMED_BEHIND)


def of_reports(program):
    altered = FOLLOWED.replace(b'100 B 300', b'100 B 301')
    altered = altered.replace(b'order 101 S 200 ACME 12.4000\n', b'')
    files = Files(right=FOLLOWED, wrong=altered, none=b'', lines=FOLLOWED.replace(b'\n', b'\r\n'))
    for name, wanted in (('right', (0, WRONG.splitlines()[:1])), ('wrong', (1, WRONG.splitlines())),
                         ('none', (3, WRONG.splitlines()[:1]))):
        status, text, _ = tried([script('wrong.py'), program, SAMPLE, files.name(name)])
        yield 'every wrong line, ' + name, (status, text.decode().splitlines()), wanted
    for name, said in ('none', 'no line of the report begins'), ('lines', "the report's lines end in"):
        status, _, text = tried([script(MAKE_INPUT), SAMPLE, files.name(name)])
        yield 'a word on a report, ' + name, (status, text.startswith('make_input.py: ' + said)), (0, True)
    told = run([script('report.sh'), program, CAPTURE, '30501']).decode().split('\n')
    yield 'report', told[4:6], UNITS


def of_storms(program):
    shares = {1: 181375, 2: 182000}
    for unit in (1, 2):
        feed = storm(program, 1, unit, 2000)
        whole = follow(program, feed)
        yield 'storm', orders_and_shares(whole), (625, shares[unit])
        yield 'carried over', carried(program, feed), (books(whole), 0)
    packets = storm(program, 1, 2, 2000, '--pcap')
    yield 'storm as a capture', orders_and_shares(follow(program, packets, '--pcap')), (625, 182000)
    text = run([script('losses.py'), '--gap', '32501'], packets).decode()
    rows = [it.split(',') for it in text.splitlines()[1:]]
    for line, port in (A, '233.218.133.80:30501'), (B, '233.218.133.96:31501'):
        found = [i for it in rows if it[1] == port for i in range(int(it[2]), int(it[3]) + 1)]
        # Line B ends three messages before the end.
        sent = range(1, 2001 if line == A else 1998)
        lost = [i for i in sent if storm_feed.is_lost(1, 2, i, line)]
        # What is lost at a line's end, nothing on the line tells of.
        yield 'losses of a storm', found, lost[:len(found)]
        yield 'all but the last of them', len(lost) - len(found) < 3, True
    yield 'all filled', [it for it in rows if it[1] == 'all' and not it[7]], []


def of_program(program):
    yield 'the sample', follow(program, contents(SAMPLE)), FOLLOWED
    captured = follow(program, contents(CAPTURE), '--pcap', '--port', '30501')
    yield 'the capture', captured, FOLLOWED + COUNTS
    yield 'relay of what was merged', run([program, 'relay'], MERGED), RELAYED
    for group in of_times, of_reports, of_storms:
        yield from group(program)


def cases(program):
    """The name of each case, what came and what is wanted."""
    for group in of_texts, of_captures, of_books, of_plots, of_faults:
        yield from group()
    if program:
        yield from of_program(program)


def main():
    if len(sys.argv) > 2:
        sys.exit('usage: check.py [PROGRAM]')
    if len(sys.argv) == 2 and not os.access(sys.argv[1], os.X_OK):
        sys.exit('check.py: %s is no program' % sys.argv[1])
    passed = failed = 0
    for name, got, wanted in cases(os.path.abspath(sys.argv[1]) if len(sys.argv) == 2 else None):
        if got == wanted:
            passed += 1
        else:
            failed += 1
            print('FAIL %s: %r, and not %r' % (name, got, wanted))
    print('%d passed, %d failed' % (passed, failed))
    sys.exit(1 if failed else 0)


if __name__ == '__main__':
    main()
