#!/usr/bin/env python3
"""A second World: what `replay` has to write for a schedule whose lines have no fault.

    examples/schedules/model.py < SCHEDULE

It was written from the rules alone, over plain lists, and shares nothing with the program or with
its definitions. Bytes of messages and blocks are made and cut here anew. It is slow: it folds the
book from the first message on, whenever it needs one. `compare.py` runs it beside the program.
"""
import struct
import sys

DEFAULTS = {'hold': 4096, 'kept': 65536, 'second': 10, 'minute': 100, 'day': 10000}
DATAGRAM_SIZE = 1400
MOST_ASKED = 100
SILENT_TICKS = 5
NO_PARTICIPANT = b'    '

# ---- Messages: what each type needs, by its number
TIME, ADD_LONG, ADD_SHORT, EXECUTED, EXECUTED_AT, REDUCE_LONG, REDUCE_SHORT = range(0x20, 0x27)
MODIFY_LONG, MODIFY_SHORT, DELETE, TRADE_LONG, TRADE_SHORT, TRADE_BREAK, END = range(0x27, 0x2e)
ADD_EXPANDED, TRADE_EXPANDED, STATUS, CLEAR = 0x2f, 0x30, 0x31, 0x97
ADDS = (ADD_LONG, ADD_SHORT, ADD_EXPANDED)

LOGIN, LOGIN_REPLY, GAP_REQUEST, GAP_REPLY = 1, 2, 3, 4
SPIN_AVAILABLE, SPIN_REQUEST, SPIN_REPLY, SPIN_FINISHED = 0x80, 0x81, 0x82, 0x83


def u16(number):
    return struct.pack('<H', number)


def u32(number):
    return struct.pack('<I', number)


def u64(number):
    return struct.pack('<Q', number)


def number_at(raw, at, width):
    return int.from_bytes(raw[at:at + width], 'little')


def message(kind, body):
    return bytes([len(body) + 2, kind]) + body


class Order:
    def __init__(self, id, side, quantity, symbol, price, displayed=True, participant=NO_PARTICIPANT):
        self.id, self.side, self.quantity, self.symbol = id, side, quantity, symbol
        self.price, self.displayed, self.participant = price, displayed, participant


def is_short(quantity, price):
    """Whether two bytes hold the quantity, and two the price in hundredths."""
    return quantity <= 0xffff and price % 100 == 0 and price // 100 <= 0xffff


def add_message(order, offset):
    head = u32(offset) + u64(order.id) + order.side
    flags = bytes([order.displayed])
    if order.symbol[6:] != b'  ' or order.participant != NO_PARTICIPANT:
        return message(ADD_EXPANDED, head + u32(order.quantity) + order.symbol + u64(order.price) + flags + order.participant)
    if is_short(order.quantity, order.price):
        return message(ADD_SHORT, head + u16(order.quantity) + order.symbol[:6] + u16(order.price // 100) + flags)
    return message(ADD_LONG, head + u32(order.quantity) + order.symbol[:6] + u64(order.price) + flags)


def trade_message(order, execution, offset):
    head = u32(offset) + u64(order.id) + order.side
    if order.symbol[6:] != b'  ':
        return message(TRADE_EXPANDED, head + u32(order.quantity) + order.symbol + u64(order.price) + u64(execution))
    if is_short(order.quantity, order.price):
        return message(TRADE_SHORT, head + u16(order.quantity) + order.symbol[:6] + u16(order.price // 100) + u64(execution))
    return message(TRADE_LONG, head + u32(order.quantity) + order.symbol[:6] + u64(order.price) + u64(execution))


def modify_message(id, quantity, price, displayed, offset):
    head = u32(offset) + u64(id)
    flags = bytes([displayed])
    if is_short(quantity, price):
        return message(MODIFY_SHORT, head + u16(quantity) + u16(price // 100) + flags)
    return message(MODIFY_LONG, head + u32(quantity) + u64(price) + flags)


def status_message(symbol, halt, sho, offset):
    return message(STATUS, u32(offset) + symbol + halt + sho + b'  ')


# ---- The book
class Book:
    def __init__(self, raws):
        self.second, self.orders, self.statuses = None, {}, {}
        for raw in raws:
            self.apply(raw)

    def apply(self, raw):
        kind = raw[1]
        if kind == TIME:
            self.second = number_at(raw, 2, 4)
        elif kind == CLEAR:
            self.orders = {}
        elif kind == STATUS:
            self.statuses[raw[6:14]] = raw[14:15], raw[15:16]
        elif kind in ADDS:
            order = self.added(raw)
            if order.quantity:
                self.orders[order.id] = order
        elif number_at(raw, 6, 8) in self.orders:
            self.change(self.orders[number_at(raw, 6, 8)], kind, raw)

    def added(self, raw):
        id, side = number_at(raw, 6, 8), raw[14:15]
        if raw[1] == ADD_SHORT:
            return Order(id, side, number_at(raw, 15, 2), raw[17:23] + b'  ', 100 * number_at(raw, 23, 2), raw[25] & 1)
        if raw[1] == ADD_LONG:
            return Order(id, side, number_at(raw, 15, 4), raw[19:25] + b'  ', number_at(raw, 25, 8), raw[33] & 1)
        return Order(id, side, number_at(raw, 15, 4), raw[19:27], number_at(raw, 27, 8), raw[35] & 1, raw[36:40])

    def change(self, order, kind, raw):
        if kind in (EXECUTED, REDUCE_LONG):
            order.quantity = max(0, order.quantity - number_at(raw, 14, 4))
        elif kind == REDUCE_SHORT:
            order.quantity = max(0, order.quantity - number_at(raw, 14, 2))
        elif kind == EXECUTED_AT:
            order.quantity = number_at(raw, 18, 4)
        elif kind == MODIFY_LONG:
            order.quantity, order.price, order.displayed = number_at(raw, 14, 4), number_at(raw, 18, 8), raw[26] & 1
        elif kind == MODIFY_SHORT:
            order.quantity, order.price, order.displayed = number_at(raw, 14, 2), 100 * number_at(raw, 16, 2), raw[18] & 1
        elif kind == DELETE:
            order.quantity = 0
        if order.quantity == 0:
            del self.orders[order.id]


def image(accepted, sequence):
    """The image through a sequence: the second, where one is known, each open order, and each status."""
    book = Book(accepted[:sequence])
    clock = [] if book.second is None else [message(TIME, u32(book.second))]
    orders = [add_message(book.orders[id], 0) for id in sorted(book.orders)]
    return clock + orders + [status_message(symbol, *book.statuses[symbol], 0) for symbol in sorted(book.statuses)]


# ---- Blocks
def block(unit, sequence, raws):
    body = b''.join(raws)
    return struct.pack('<HBBI', 8 + len(body), len(raws), unit, sequence) + body


def packed(unit, first, raws):
    """Blocks of at most a datagram's size and 255 messages; where the first sequence is 0, each has 0."""
    blocks, some, sequence = [], [], first
    for raw in raws:
        if some and (8 + sum(map(len, some)) + len(raw) > DATAGRAM_SIZE or len(some) == 255):
            blocks.append(block(unit, sequence, some))
            sequence += len(some) if first else 0
            some = []
        some.append(raw)
    return blocks + ([block(unit, sequence, some)] if some else [])


def cut(data):
    """The whole blocks at the beginning, each as its sequence and its messages; and what is left."""
    blocks = []
    while len(data) >= 8 and len(data) >= number_at(data, 0, 2):
        length, count, _, sequence = struct.unpack('<HBBI', data[:8])
        raws, at = [], 8
        for _ in range(count):
            raws.append(data[at:at + data[at]])
            at += data[at]
        blocks.append((sequence, raws))
        data = data[length:]
    return blocks, data


# ---- The client
class Client:
    def __init__(self, hold):
        self.hold = hold
        # what came since the hold last overflowed: where it begins, the images, the messages
        self.base, self.images, self.seen = 0, [], set()
        self.top = None
        self.grp_is_up = self.spin_is_up = False
        self.owed = False
        self.advertised = None
        # what became of the image that was asked for last: how many orders it has, of how many
        self.asked_image = self.running_image = None
        self.promised = self.came = 0
        # a gap was refused, or the hold overflowed, and the reach has not risen since
        self.wants_image = False

    def reach(self):
        reach = 0
        for anchor in [self.base] + self.images:
            while anchor + 1 in self.seen:
                anchor += 1
            reach = max(reach, anchor)
        return reach

    def held(self):
        reach = self.reach()
        return [sequence for sequence in self.seen if sequence > reach]

    def is_told_of(self, sequence):
        self.top = sequence if self.top is None else max(self.top, sequence)

    def status(self):
        if self.top is None:
            return 'silent'
        reach = self.reach()
        return 'current %d' % reach if reach == self.top else 'behind %d of %d' % (reach, self.top)

    def hears_message(self, sequence):
        """Whether the message is fresh, and whether the hold overflows with it."""
        before = self.reach()
        fresh = sequence > before and sequence not in self.seen
        self.is_told_of(sequence)
        self.seen.add(sequence)
        overflow = len(self.held()) > self.hold
        if overflow:
            self.base, self.images, self.seen = self.reach(), [], {sequence}
        if self.reach() > before:
            self.wants_image = False
        elif overflow:
            self.wants_image = True
        return fresh, overflow

    def hears_image_end(self, sequence):
        if self.running_image != sequence:
            return
        self.running_image = None
        assert self.came == self.promised, 'an image has other orders than was promised'
        before = self.reach()
        self.images.append(sequence)
        self.is_told_of(sequence)
        if self.reach() > before:
            self.wants_image = False

    def hears_spin_reply(self, sequence, orders, accepted):
        if self.asked_image != sequence:
            return
        self.asked_image = None
        if accepted and orders <= sequence:
            self.running_image, self.promised, self.came = sequence, orders, 0

    def hears_spin_down(self):
        self.spin_is_up, self.advertised = False, None
        self.asked_image = self.running_image = None

    def asks(self):
        """What the client asks for at a tick."""
        reach = self.reach()
        if self.top is None or self.top == reach:
            return None
        far = self.top - reach > 1000 or self.wants_image
        if (far or not self.grp_is_up) and self.can_ask_image(reach):
            return 'spin', self.advertised
        if self.grp_is_up and not self.owed:
            last = min(self.held(), default=self.top + 1) - 1
            return 'gap', reach + 1, min(MOST_ASKED, last - reach)
        return None

    def can_ask_image(self, reach):
        waits = self.asked_image is not None or self.running_image is not None
        return self.spin_is_up and not waits and self.advertised is not None and self.advertised > reach


# ---- Sessions
class End:
    """One end of a session: the bytes of a block that is not whole yet, silence and heartbeats."""

    def __init__(self, unit, has_sent):
        self.unit, self.has_sent = unit, has_sent
        self.rest, self.was_fed, self.silent = b'', False, 0
        self.is_closed = self.is_logged_in = False

    def messages(self, piece):
        """The messages of the blocks that end in a piece; none once this end is closed."""
        if self.is_closed:
            return []
        self.was_fed |= len(piece) > 0
        blocks, self.rest = cut(self.rest + piece)
        return [raw for _, raws in blocks for raw in raws]

    def says(self, kind, body):
        self.has_sent = True
        return block(self.unit, 0, [message(kind, body)])

    def ticks(self):
        """A heartbeat, where nothing was sent since the last tick; at the fifth silent tick the end closes."""
        if self.is_closed:
            return b''
        self.silent = 0 if self.was_fed else self.silent + 1
        self.was_fed = False
        self.is_closed = self.silent >= SILENT_TICKS
        idle = not self.has_sent and not self.is_closed
        self.has_sent = False
        return block(self.unit, 0, []) if idle else b''


class Connection:
    """Two ends and two pipes; the client's login waits for the server."""

    def __init__(self, unit):
        self.server, self.link = End(unit, False), End(unit, True)
        self.pipes = {'up': block(unit, 0, [message(LOGIN, b'0001' b'FEED' b'  ' b'PITCH     ')]), 'down': b''}


# ---- A unit's world
class World:
    def __init__(self, unit, limits):
        self.unit, self.limits = unit, limits
        self.accepted, self.flushed = [], 0
        # lines A and B have the same datagrams
        self.sent, self.replayed = [], []
        self.passed = {'a': 0, 'b': 0, 'g': 0}
        self.counts = {'a': [0, 0], 'b': [0, 0], 'g': [0, 0]}
        self.now, self.requests = 0, []
        self.advertised = []
        self.connections = {'grp': None, 'spin': None}
        self.client = Client(limits['hold'])
        self.has_begun = False

    def does(self, fields):
        """The outcome of a verb, whether the hold overflowed, and what `show` prints besides."""
        word, rest = fields[0], fields[1:]
        overflow, book = False, ''
        if word in COMMANDS:
            outcome = self.commanded(word, rest)
        elif word in 'abg':
            outcome, overflow = self.delivers(word, rest[0])
        elif word in self.connections:
            outcome = self.session(word, *rest)
        elif word == 'show':
            outcome, book = 'shown', self.shown()
        else:
            outcome = getattr(self, 'does_' + word)(*rest)
        self.has_begun = True
        return outcome, overflow, book

    def does_open(self, *limits):
        return 'already-open' if self.has_begun else 'opened'

    # -- The venue
    def commanded(self, word, rest):
        command = Command(word, rest)
        refusal = self.refusal(command)
        if refusal:
            return 'refused ' + refusal
        self.accepted.append(command.message())
        return 'accepted %d' % len(self.accepted)

    def refusal(self, command):
        orders = Book(self.accepted).orders
        if any(raw[1] == END for raw in self.accepted):
            return 'ended'
        if command.quantity == 0:
            return 'zero-quantity'
        if command.word == 'add' and command.id in orders:
            return 'known-id'
        if command.word in ('exec', 'execat', 'reduce', 'modify', 'delete') and command.id not in orders:
            return 'unknown-id'
        if command.word in ('exec', 'execat', 'reduce') and command.quantity > orders[command.id].quantity:
            return 'too-much %d %d' % (command.quantity, orders[command.id].quantity)
        return None

    def does_flush(self):
        datagrams = packed(self.unit, self.flushed + 1, self.accepted[self.flushed:])
        self.flushed = len(self.accepted)
        self.sent += datagrams
        return 'sent %d' % len(datagrams)

    def does_beat(self):
        self.sent.append(block(self.unit, self.flushed + 1, []))
        return 'sent 1'

    # -- The lines
    def delivers(self, line, which):
        datagrams = self.replayed if line == 'g' else self.sent
        if which == 'rest':
            wanted = range(self.passed[line], len(datagrams))
        elif int(which) > len(datagrams):
            return 'no-datagram', False
        else:
            wanted = range(int(which) - 1, int(which))
        overflows = [self.hears(line, datagrams[index]) for index in wanted]
        self.passed[line] = max(self.passed[line], wanted.stop)
        return 'heard %d' % len(wanted), any(overflows)

    def hears(self, line, datagram):
        """Whether the hold overflows with the datagram."""
        overflow = False
        for sequence, raws in cut(datagram)[0]:
            if not raws:
                self.client.is_told_of(sequence - 1)
            for index in range(len(raws)):
                fresh, over = self.client.hears_message(sequence + index)
                self.counts[line][0] += fresh
                self.counts[line][1] += 1
                overflow |= over
        return overflow

    # -- Sessions
    def session(self, which, verb, bytes='all'):
        connection = self.connections[which]
        if verb == 'open':
            if connection:
                return 'already-open'
            self.connections[which] = Connection(0 if which == 'grp' else self.unit)
            return 'opened'
        if connection is None:
            return 'not-open'
        if verb == 'cut':
            self.cuts(which)
            return 'cut'
        waiting = connection.pipes[verb]
        count = len(waiting) if bytes == 'all' else int(bytes)
        if count > len(waiting):
            return 'too-few %d %d' % (count, len(waiting))
        connection.pipes[verb] = waiting[count:]
        self.carries(which, connection, verb, waiting[:count])
        return 'carried %d' % count

    def carries(self, which, connection, verb, piece):
        if verb == 'up':
            serves = self.proxy_hears if which == 'grp' else self.spin_server_hears
            connection.pipes['down'] += serves(connection.server, piece)
            return
        hears = self.gap_link_hears if which == 'grp' else self.spin_link_hears
        for raw in connection.link.messages(piece):
            hears(raw)
        if connection.link.is_closed:
            self.cuts(which)

    def cuts(self, which):
        self.connections[which] = None
        if which == 'grp':
            self.client.grp_is_up = self.client.owed = False
        else:
            self.client.hears_spin_down()

    def proxy_hears(self, end, piece):
        said = b''
        for raw in end.messages(piece):
            if raw[1] == LOGIN:
                end.is_logged_in = True
                said += end.says(LOGIN_REPLY, b'A')
            elif raw[1] == GAP_REQUEST:
                unit, first, count = raw[2], number_at(raw, 3, 4), number_at(raw, 7, 2)
                status = self.gap_status(unit, first, count)
                said += end.says(GAP_REPLY, raw[2:9] + status)
                if status == b'A':
                    self.requests.append(self.now)
                    self.replayed += packed(unit, first, self.accepted[first - 1:first - 1 + count])
        return said

    def gap_status(self, unit, first, count):
        last_kept = len(self.accepted)
        minute = [tick for tick in self.requests if tick // 60 == self.now // 60]
        if unit != self.unit:
            return b'I'
        if count > MOST_ASKED:
            return b'C'
        if count == 0 or first <= max(0, last_kept - self.limits['kept']) or first + count - 1 > last_kept:
            return b'O'
        if len(self.requests) >= self.limits['day']:
            return b'D'
        if len(minute) >= self.limits['minute']:
            return b'M'
        if minute.count(self.now) >= self.limits['second']:
            return b'S'
        return b'A'

    def spin_server_hears(self, end, piece):
        said, running = b'', None
        for raw in end.messages(piece):
            if raw[1] == LOGIN:
                end.is_logged_in = True
                said += end.says(LOGIN_REPLY, b'A')
                if self.advertised:
                    said += end.says(SPIN_AVAILABLE, u32(self.advertised[-1]))
            elif raw[1] == SPIN_REQUEST:
                sequence = number_at(raw, 2, 4)
                if sequence not in self.advertised[-10:]:
                    said += end.says(SPIN_REPLY, u32(sequence) + u32(0) + b'O')
                elif running is not None:
                    said += end.says(SPIN_REPLY, u32(sequence) + u32(0) + b'S')
                else:
                    running = sequence
                    orders = sum(add[1] in ADDS for add in image(self.accepted, sequence))
                    said += end.says(SPIN_REPLY, u32(sequence) + u32(orders) + b'A')
        if running is not None:
            said += b''.join(packed(self.unit, 0, image(self.accepted, running)))
            said += end.says(SPIN_FINISHED, u32(running))
        return said

    def gap_link_hears(self, raw):
        if raw[1] == LOGIN_REPLY:
            self.client.grp_is_up = True
        elif raw[1] == GAP_REPLY:
            self.client.owed = False
            self.client.wants_image |= raw[9:10] != b'A'

    def spin_link_hears(self, raw):
        client, kind = self.client, raw[1]
        if kind == LOGIN_REPLY:
            client.spin_is_up = True
        elif kind == SPIN_AVAILABLE:
            sequence = number_at(raw, 2, 4)
            client.is_told_of(sequence)
            client.advertised = max(sequence, client.advertised or 0)
        elif kind == SPIN_REPLY:
            client.hears_spin_reply(number_at(raw, 2, 4), number_at(raw, 6, 4), raw[10:11] == b'A')
        elif kind == SPIN_FINISHED:
            client.hears_image_end(number_at(raw, 2, 4))
        elif kind in ADDS:
            client.came += 1

    def does_advertise(self):
        sequence = len(self.accepted)
        if sequence not in self.advertised:
            self.advertised.append(sequence)
        connection = self.connections['spin']
        if connection and connection.server.is_logged_in and not connection.server.is_closed:
            connection.pipes['down'] += connection.server.says(SPIN_AVAILABLE, u32(sequence))
        return 'advertised %d' % sequence

    # -- A tick: the budget, the servers, the links, and then the client
    def does_tick(self):
        self.now += 1
        standing = [(which, connection) for which, connection in self.connections.items() if connection]
        for _, connection in standing:
            connection.pipes['down'] += connection.server.ticks()
        for which, connection in standing:
            connection.pipes['up'] += connection.link.ticks()
            if connection.link.is_closed:
                self.cuts(which)
        return self.client_ticks()

    def client_ticks(self):
        asked = self.client.asks()
        if asked is None:
            return 'ticked'
        if asked[0] == 'gap':
            self.client.owed = True
            connection, said = self.connections['grp'], (GAP_REQUEST, bytes([self.unit]) + u32(asked[1]) + u16(asked[2]))
        else:
            self.client.asked_image = asked[1]
            connection, said = self.connections['spin'], (SPIN_REQUEST, u32(asked[1]))
        connection.pipes['up'] += connection.link.says(*said)
        return 'asked ' + ' '.join(map(str, asked))

    # -- The client's book
    def book(self):
        return Book(self.accepted[:self.client.reach()])

    def shown(self):
        book = self.book()
        second = '-' if book.second is None else book.second
        lines = ['book unit %d at %d second %s orders %d' % (self.unit, self.client.reach(), second, len(book.orders))]
        for id in sorted(book.orders):
            order = book.orders[id]
            name = order.participant.decode().rstrip()
            lines.append('order %d %s %d %s %s%s%s' % (
                id, order.side.decode(), order.quantity, order.symbol.decode().rstrip(), price_text(order.price),
                '' if order.displayed else ' hidden', ' mpid=' + name if name else ''))
        for symbol in sorted(book.statuses):
            words = [symbol.rstrip(), *book.statuses[symbol]]
            lines.append('status ' + ' '.join(word.decode() for word in words))
        lines.append('lines ' + ' '.join('%s %d/%d' % (line, *self.counts[line]) for line in 'abg'))
        return ''.join(line + '\n' for line in lines)

    def does_quote(self, symbol):
        outcome = 'quote ' + symbol
        orders = [order for order in self.book().orders.values() if order.symbol == padded(symbol, 8)]
        for side, best in (b'B', max), (b'S', min):
            prices = [order.price for order in orders if order.side == side]
            if prices:
                shares = sum(order.quantity for order in orders if order.side == side and order.price == best(prices))
                outcome += ' %s %d' % (price_text(best(prices)), shares)
            else:
                outcome += ' - -'
        return outcome


# ---- Texts
def padded(name, width):
    return name.encode().ljust(width)


def price_text(price):
    return '%d.%04d' % divmod(price, 10000)


def price_of(text):
    whole, _, part = text.partition('.')
    return int(whole) * 10000 + int(part.ljust(4, '0'))


# How many fields each command needs before its options.
COMMANDS = {'time': 1, 'add': 5, 'exec': 3, 'execat': 5, 'reduce': 2, 'modify': 3, 'delete': 1, 'trade': 6,
            'break': 1, 'status': 3, 'clear': 0, 'end': 0}


class Command:
    """A venue command, by its word and the fields that follow it."""

    def __init__(self, word, fields):
        self.word, self.fields = word, fields[:COMMANDS[word]]
        options = fields[COMMANDS[word]:]
        self.displayed = 'hidden' not in options
        values = dict(option.split('=', 1) for option in options if '=' in option)
        self.offset = int(values.get('at', 0))
        self.participant = padded(values.get('mpid', ''), 4)
        self.id = int(self.fields[0]) if self.fields and word != 'status' else None
        # the shares that are asked for, in commands that ask for some
        at = {'add': 2, 'trade': 2, 'exec': 1, 'execat': 1, 'reduce': 1, 'modify': 1}.get(word)
        self.quantity = None if at is None else int(self.fields[at])

    def order(self):
        _, side, _, symbol, price = self.fields[:5]
        return Order(self.id, side.encode(), self.quantity, padded(symbol, 8), price_of(price), self.displayed, self.participant)

    def message(self):
        """The bytes of the message that the venue makes of it."""
        word, offset = self.word, u32(self.offset)
        if word == 'time':
            return message(TIME, u32(self.id))
        if word == 'add':
            return add_message(self.order(), self.offset)
        if word == 'trade':
            return trade_message(self.order(), int(self.fields[5]), self.offset)
        if word == 'modify':
            return modify_message(self.id, self.quantity, price_of(self.fields[2]), self.displayed, self.offset)
        if word == 'exec':
            return message(EXECUTED, offset + u64(self.id) + u32(self.quantity) + u64(int(self.fields[2])))
        if word == 'execat':
            remaining, execution, price = int(self.fields[2]), int(self.fields[3]), price_of(self.fields[4])
            return message(EXECUTED_AT, offset + u64(self.id) + u32(self.quantity) + u32(remaining) + u64(execution) + u64(price))
        if word == 'reduce':
            short = self.quantity <= 0xffff
            return message(REDUCE_SHORT if short else REDUCE_LONG, offset + u64(self.id) + (u16 if short else u32)(self.quantity))
        if word in ('delete', 'break'):
            return message(DELETE if word == 'delete' else TRADE_BREAK, offset + u64(self.id))
        if word == 'status':
            symbol, halt, sho = self.fields
            return status_message(padded(symbol, 8), halt.encode(), sho.encode(), self.offset)
        return message(CLEAR if word == 'clear' else END, offset)


def limits_of(fields):
    """The limits of a unit whose first line is this."""
    said = dict(field.split('=') for field in fields[1:]) if fields[0] == 'open' else {}
    return {**DEFAULTS, **{name: int(value) for name, value in said.items()}}


def replayed(schedule):
    """What `replay` writes for a schedule."""
    worlds, written = {}, []
    for number, line in enumerate(schedule.split('\n'), 1):
        fields = line.split()
        if not fields or fields[0].startswith('#'):
            continue
        unit, fields = int(fields[0]), fields[1:]
        world = worlds.setdefault(unit, World(unit, limits_of(fields)))
        outcome, overflow, book = world.does(fields)
        mark = ' overflow' if overflow else ''
        written.append('%d %d %s%s; %s\n%s' % (number, unit, outcome, mark, world.client.status(), book))
    return ''.join(written)


if __name__ == '__main__':
    try:
        sys.stdout.write(replayed(sys.stdin.read()))
    except (IndexError, KeyError, ValueError) as error:
        # It is for schedules without a fault: what is wrong with one `replay` says.
        sys.exit('model.py: the schedule has a fault: %s' % error)
