"""What the scripts of this folder share: how they end, and how a capture is read."""
import argparse
import os
import struct
import subprocess
import sys
import time

# The magic's bytes: the byte order, and how many nanoseconds a fraction counts.
FORMATS = {
    'd4c3b2a1': ('<', 1000),
    '4d3cb2a1': ('<', 1),
    'a1b2c3d4': ('>', 1000),
    'a1b23c4d': ('>', 1),
}
# How other files begin, and what makes a capture of each.
OTHERS = {
    '0a0d0d0a': 'pcapng: `editcap -F pcap` makes a classic capture of it',
    '1f8b': 'gzip: `zcat` unpacks it',
    '28b52ffd': 'zstd: `zstdcat` unpacks it',
    'fd377a58': 'xz: `xzcat` unpacks it',
}
MOST_CAPTURED = 262144
ETHERNET = 1


# ---- How a script ends
class Fault(Exception):
    """What is wrong, in one line, and the exit status that it gives."""

    def __init__(self, text, status=1):
        super().__init__(text)
        self.status = status


class Words(argparse.ArgumentParser):
    """The words of a script; where they are no form of it one line says so."""

    def __init__(self, doc):
        lines = doc.splitlines()
        super().__init__(description=doc, formatter_class=argparse.RawDescriptionHelpFormatter,
                         usage=next(line.strip() for line in lines if line.startswith('    ')))

    def error(self, message):
        raise Fault('%s. usage: %s' % (message, self.usage), 2)


def run(main):
    """Ends with what main answers, 0 where that is nothing. Whatever fails is one line."""
    name, status = os.path.basename(sys.argv[0]), 1
    try:
        status = main() or 0
        sys.stdout.flush()
    except BrokenPipeError:
        status = 141
    except KeyboardInterrupt:
        status = 130
    except Fault as fault:
        status = fault.status
        print('%s: %s' % (name, fault), file=sys.stderr)
    except subprocess.CalledProcessError as error:
        print('%s: %s ended with status %d' % (name, error.cmd[1], error.returncode), file=sys.stderr)
    except OSError as error:
        place = '' if error.filename is None else '%s: ' % error.filename
        print('%s: %s%s' % (name, place, error.strerror), file=sys.stderr)
    try:
        sys.stdout.flush()
    except OSError:
        # Whoever read it is gone: nothing is left to be written at the end.
        os.dup2(os.open(os.devnull, os.O_WRONLY), 1)
    sys.exit(status)


# ---- A capture
def format_of(head):
    """The byte order and the fraction of a capture whose first 24 bytes these are."""
    magic = head[:4].hex()
    for other, text in OTHERS.items():
        if magic.startswith(other):
            raise Fault('the input is %s' % text)
    if magic not in FORMATS or len(head) < 24:
        raise Fault('the input is no classic capture: it begins with `%s`' % magic)
    order, unit = FORMATS[magic]
    version, = struct.unpack_from(order + 'H', head, 4)
    link = struct.unpack_from(order + 'I', head, 20)[0] & 0xffff
    if version != 2 or link != ETHERNET:
        raise Fault('the capture has version %d and link type %d, and not 2 and 1' % (version, link))
    return order, unit


def records_of(file):
    """Each record of a capture: its second, its nanosecond, and its frame where all of it is there."""
    order, unit = format_of(file.read(24))
    while head := file.read(16):
        second, fraction, captured, original = struct.unpack(order + 'IIII', head.ljust(16, b'\0'))
        if captured > MOST_CAPTURED:
            raise Fault('the capture is damaged: a record of length %d' % captured)
        frame = file.read(captured)
        if len(head) < 16 or len(frame) < captured:
            raise Fault('the capture ends inside a packet; all before it counts')
        yield second, fraction * unit, frame if captured >= original else b''


def datagram_of(frame):
    """The group, the port and the bytes of the UDP datagram of a frame, by the rules of
    docs/FEED.md, "Captures"; None where there is none."""
    place = 16 if frame[12:14] == b'\x81\x00' else 12
    ip = frame[place + 2:]
    if frame[place:place + 2] != b'\x08\x00' or len(ip) < 20 or ip[0] >> 4 != 4:
        return None
    head, total = (ip[0] & 15) * 4, struct.unpack_from('>H', ip, 2)[0]
    fragment = struct.unpack_from('>H', ip, 6)[0] & 0x3fff
    udp = ip[head:total]
    if head < 20 or not head <= total <= len(ip) or fragment or ip[9] != 17 or len(udp) < 8:
        return None
    port, length = struct.unpack_from('>HH', udp, 2)
    if not 8 <= length <= len(udp):
        return None
    return ip[16:20], port, udp[8:length]


def datagrams_of(file, ports=()):
    """The time, the group, the port and the bytes of each datagram of a capture, to these ports
    or, without any, to all."""
    for second, nanosecond, frame in records_of(file):
        found = datagram_of(frame)
        if found and (not ports or found[1] in ports):
            yield ((second, nanosecond), *found)


# ---- Blocks
def end_of_block(data, place):
    """Where the whole block at a place ends, by "Faults of a block" of docs/FEED.md; or None."""
    if len(data) - place < 8:
        return None
    length, count, _, first = struct.unpack_from('<HBBI', data, place)
    end, at = place + length, place + 8
    if length < 8 or end > len(data) or first and count and first + count - 1 > 4294967294:
        return None
    for _ in range(count):
        if at >= end or data[at] < 2 or at + data[at] > end:
            return None
        at += data[at]
    return end if at == end else None


def blocks_of(data):
    """The whole blocks that some bytes begin with: of a datagram those that `follow` numbers."""
    place = 0
    while (end := end_of_block(data, place)) is not None:
        yield data[place:end]
        place = end


def header_of(block):
    """The unit, the first sequence and the number of messages of a block."""
    _, count, unit, first = struct.unpack_from('<HBBI', block)
    return unit, first, count


def clock(second, nanosecond):
    """A time of a capture, in the time zone of TZ."""
    return time.strftime('%Y-%m-%d %H:%M:%S', time.localtime(second)) + '.%09d' % nanosecond
