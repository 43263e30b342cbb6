"""The clients of a feed, and an end with its sessions, from Python: over a shared object made of
libpitch_c.a.

    python3 pitch_client.py ./libpitch.so < FEED

prints of each unit how far its book is and the best prices of a symbol, whose shares have to be
those of the open orders there.
"""
import ctypes
import enum
import sys
import weakref

U8, U32, U64, SIZE = ctypes.c_uint8, ctypes.c_uint32, ctypes.c_uint64, ctypes.c_size_t
# ctypes takes any int, and passes the low bits of one that does not fit.
END_OF = {kind: 1 << 8 * ctypes.sizeof(kind) for kind in (U8, U32, U64, SIZE)}
ABI = 4
SILENT, CURRENT, BEHIND = 1, 2, 3
PROXY, SPIN_SERVER = 1, 2


class Code(enum.IntEnum):
    """Why a call had no answer: a pitch_code of the header."""
    CLOSED = 1
    IS_OPEN = 2
    NO_MEMORY = 3
    BAD_HOLD = 4
    TRUNCATED = 5
    NOT_A_BLOCK = 6
    NO_CLIENT = 7
    NO_SIDE = 8
    NULL = 9
    OTHER_ABI = 10
    BAD_UNIT = 11
    NO_SESSION = 12
    UNTOLD = 13


class Raw(ctypes.Structure):
    _fields_ = [("at", ctypes.c_void_p), ("mark", U64)]


class Status(ctypes.Structure):
    _fields_ = [("state", U32), ("reach", U32), ("top", U32), ("spare", U32 * 5)]

    @property
    def word(self):
        return {SILENT: "silent", CURRENT: "current", BEHIND: "behind"}[self.state]


class Best(ctypes.Structure):
    _fields_ = [("there", U64), ("price", U64), ("shares", U64), ("spare", U64 * 5)]


class Order(ctypes.Structure):
    _fields_ = [("there", U64), ("id", U64), ("price", U64), ("quantity", U32), ("side", U32),
                ("symbol", U8 * 8), ("display", U32), ("participant", U8 * 4), ("spare", U64 * 2)]


class State(ctypes.Structure):
    _fields_ = [("symbol", U8 * 8), ("halt", U32), ("sho", U32), ("spare", U64 * 2)]


class Level(ctypes.Structure):
    _fields_ = [("price", U64), ("shares", U64), ("spare", U64 * 2)]


class Quote(ctypes.Structure):
    _fields_ = [("sequence", U32), ("side", U32), ("symbol", U8 * 8), ("there", U64), ("price", U64),
                ("shares", U64), ("spare", U64 * 3)]


class Heard(ctypes.Structure):
    _fields_ = [("used", U32), ("unit", U32), ("sequence", U32), ("count", U32), ("fresh", U32),
                ("overflows", U32), ("after", Status), ("spare", U32 * 2)]


class RawEnd(ctypes.Structure):
    _fields_ = [("at", ctypes.c_void_p), ("mark", U64)]


class Datagram(ctypes.Structure):
    _fields_ = [("heard", U64), ("others", U64), ("rest", U64), ("spare", U64 * 5)]


class Sent(ctypes.Structure):
    _fields_ = [("count", U64), ("left", U64), ("spare", U64 * 2)]


def of(kind):
    return ctypes.POINTER(kind)


BYTES = ctypes.c_char_p
CALLS = {
    "pitch_c_abi": ([], U32),
    "pitch_c_open": ([of(Raw), U32, U32], U32),
    "pitch_c_close": ([of(Raw)], None),
    "pitch_c_hear": ([of(Raw), BYTES, SIZE, of(Heard)], U32),
    "pitch_c_hear_quoted": ([of(Raw), BYTES, SIZE, of(Heard), of(Quote), SIZE, of(U64)], U32),
    "pitch_c_reserve": ([of(Raw), U32, U32], U32),
    "pitch_c_status": ([of(Raw), U32, of(Status)], U32),
    "pitch_c_best": ([of(Raw), U32, BYTES, U8, of(Best)], U32),
    "pitch_c_order": ([of(Raw), U32, U64, of(Order)], U32),
    "pitch_c_orders": ([of(Raw), U32, of(Order), SIZE, of(U64)], U32),
    "pitch_c_states": ([of(Raw), U32, of(State), SIZE, of(U64)], U32),
    "pitch_c_levels": ([of(Raw), U32, BYTES, U8, of(Level), SIZE, of(U64)], U32),
    "pitch_c_level": ([of(Raw), U32, BYTES, U8, U64, of(Level)], U32),
}
END_CALLS = {
    "pitch_c_end_open": ([of(RawEnd), U32, BYTES, BYTES, BYTES, U32], U32),
    "pitch_c_end_close": ([of(RawEnd)], None),
    "pitch_c_end_hear": ([of(RawEnd), BYTES, SIZE, of(Datagram)], U32),
    "pitch_c_end_connected": ([of(RawEnd), U32], U32),
    "pitch_c_end_took": ([of(RawEnd), U32, BYTES, SIZE], U32),
    "pitch_c_end_cut": ([of(RawEnd), U32], U32),
    "pitch_c_end_second": ([of(RawEnd)], U32),
    "pitch_c_end_send": ([of(RawEnd), U32, of(U8), SIZE, of(Sent)], U32),
    "pitch_c_end_connection": ([of(RawEnd), U32, of(U32)], U32),
    "pitch_c_end_status": ([of(RawEnd), of(Status)], U32),
    "pitch_c_end_best": ([of(RawEnd), BYTES, U8, of(Best)], U32),
    "pitch_c_end_order": ([of(RawEnd), U64, of(Order)], U32),
    "pitch_c_end_orders": ([of(RawEnd), of(Order), SIZE, of(U64)], U32),
    "pitch_c_end_states": ([of(RawEnd), of(State), SIZE, of(U64)], U32),
    "pitch_c_end_levels": ([of(RawEnd), BYTES, U8, of(Level), SIZE, of(U64)], U32),
    "pitch_c_end_level": ([of(RawEnd), BYTES, U8, U64, of(Level)], U32),
}


class PitchError(Exception):
    """Its `code` is one of Code."""

    def __init__(self, code):
        name = next((it.name for it in Code if it == code), "another code")
        super().__init__(f"pitch code {code}: {name.lower().replace('_', ' ')}")
        self.code = code


def opened(library):
    """The library with its calls declared, where it is one of this file's."""
    # A PyDLL keeps the interpreter's lock in each call, so that calls of two threads take turns: a
    # client is for one at a time. A Python without that lock wants one of the caller's.
    lib = ctypes.PyDLL(library)
    for name, (given, told) in {**CALLS, **END_CALLS}.items():
        getattr(lib, name).argtypes = given
        getattr(lib, name).restype = told
    if lib.pitch_c_abi() != ABI:
        raise PitchError(Code.OTHER_ABI)
    return lib


def padded(text, size):
    """A text with spaces at its end."""
    if len(text) > size:
        raise ValueError(f"{text!r} is longer than {size}")
    return text.encode("ascii").ljust(size)


def as_bytes(data):
    """What is no `bytes`, as a bytearray or a memoryview, is copied."""
    return data if isinstance(data, bytes) else memoryview(data).tobytes()


class Handle:
    """A struct that the library fills. What it owns is freed by `close`, at the end of a `with`, or
    with the last reference."""

    def __init__(self, library, prefix, raw):
        self.lib, self.prefix, self.raw = opened(library), prefix, raw
        self.close = weakref.finalize(self, getattr(self.lib, prefix + "close"), raw)
        # A forked child ends too, and may make no call.
        self.close.atexit = False
        self._calls = {}

    def __enter__(self):
        return self

    def __exit__(self, *error):
        self.close()

    def _call(self, name):
        """A call, and the end of each number that it is given, by its place."""
        call = getattr(self.lib, self.prefix + name)
        given = enumerate(call.argtypes[1:])
        return call, [(at, END_OF[kind]) for at, kind in given if kind in END_OF]

    def _ask(self, name, *given):
        if name not in self._calls:
            self._calls[name] = self._call(name)
        call, ends = self._calls[name]
        for at, end in ends:
            if not 0 <= given[at] < end:
                raise OverflowError(f"{given[at]} does not fit in an argument of {name}")
        code = call(self.raw, *given)
        if code:
            raise PitchError(code)

    def _list(self, name, kind, *given, most=None):
        """All items of a list, or so many at most: how many there are is asked first."""
        number, items = U64(), (kind * (most or 0))()
        self._ask(name, *given, items, len(items), number)
        if most is None:
            items = (kind * number.value)()
            self._ask(name, *given, items, len(items), number)
        return items[: number.value]


class Client(Handle):
    """The clients of all units of a feed. A side is "B" or "S"."""

    def __init__(self, library, hold=4096, levels=True):
        super().__init__(library, "pitch_c_", Raw())
        self._quotes = (Quote * 0)()
        self._ask("open", hold, levels)

    def hear(self, block):
        """Hears the block at the start of some bytes, and tells what it has and changed."""
        told, block = Heard(), as_bytes(block)
        self._ask("hear", block, len(block), told)
        return told

    def hear_quoted(self, block, most=1024):
        """Hears a block, and tells what it has and its quotes: at most so many, and how many there
        are. In the place of the list is None where there was no memory to tell them."""
        told, number, block = Heard(), U64(), as_bytes(block)
        if len(self._quotes) < most:
            self._quotes = (Quote * most)()
        try:
            self._ask("hear_quoted", block, len(block), told, self._quotes, most, number)
        except PitchError as error:
            if error.code != Code.UNTOLD:
                raise
            return told, None, 0
        places = range(min(most, number.value))
        return told, [Quote.from_buffer_copy(self._quotes[at]) for at in places], number.value

    def reserve(self, unit, messages):
        """Takes memory ahead for so many messages of a unit, which gets a client."""
        try:
            self.status(unit)
        except PitchError as error:
            if error.code != Code.NO_CLIENT or unit > 255:
                raise
            self.hear(bytes([8, 0, 0, unit, 0, 0, 0, 0]))
        self._ask("reserve", unit, messages)

    def status(self, unit):
        """How far the client of a unit is."""
        told = Status()
        self._ask("status", unit, told)
        return told

    def best(self, unit, symbol, side):
        """The best price, in ten-thousandths of a dollar, with its shares; None where none is."""
        told = Best()
        self._ask("best", unit, padded(symbol, 8), ord(side), told)
        return (told.price, told.shares) if told.there else None

    def order(self, unit, order_id):
        """The open order of an id; None where none is."""
        told = Order()
        self._ask("order", unit, order_id, told)
        return told if told.there else None

    def orders(self, unit):
        """The open orders of a unit by rising id."""
        return self._list("orders", Order, unit)

    def states(self, unit):
        """The trading statuses of a unit by rising bytes of their symbols."""
        return self._list("states", State, unit)

    def levels(self, unit, symbol, side, most=None):
        """The prices with their shares, the best first: all, or so many at most."""
        items = self._list("levels", Level, unit, padded(symbol, 8), ord(side), most=most)
        return [(it.price, it.shares) for it in items]

    def level(self, unit, symbol, side, price):
        """The shares at a price, in ten-thousandths of a dollar."""
        told = Level()
        self._ask("level", unit, padded(symbol, 8), ord(side), price, told)
        return told.shares


class End(Handle):
    """The client's end of a unit with its sessions."""

    def __init__(self, library, unit, sub, user, password, hold=4096):
        super().__init__(library, "pitch_c_end_", RawEnd())
        self._bytes = (U8 * 0)()
        self._ask("open", unit, padded(sub, 4), padded(user, 4), padded(password, 10), hold)

    def hear(self, datagram):
        """A datagram came on a line."""
        told, datagram = Datagram(), as_bytes(datagram)
        self._ask("hear", datagram, len(datagram), told)
        return told

    def connected(self, session):
        """A connection was made: its login waits."""
        self._ask("connected", session)

    def took(self, session, data):
        """Bytes of a connection came. It is lost where there was no memory for them."""
        data = as_bytes(data)
        self._ask("took", session, data, len(data))

    def cut(self, session):
        """A connection has ended."""
        self._ask("cut", session)

    def second(self):
        """A second passed. Both connections are lost where there was no memory."""
        self._ask("second")

    def send(self, session, most=65536):
        """The first bytes that wait for a session: they wait no more."""
        told = Sent()
        if len(self._bytes) < most:
            self._bytes = (U8 * most)()
        self._ask("send", session, self._bytes, most, told)
        return ctypes.string_at(self._bytes, told.count)

    def connection(self, session):
        """Whether a connection stands."""
        told = U32()
        self._ask("connection", session, told)
        return bool(told.value)

    def status(self):
        """How far the client is."""
        told = Status()
        self._ask("status", told)
        return told

    def best(self, symbol, side):
        """The best price with its shares; None where none is."""
        told = Best()
        self._ask("best", padded(symbol, 8), ord(side), told)
        return (told.price, told.shares) if told.there else None

    def order(self, order_id):
        """The open order of an id; None where none is."""
        told = Order()
        self._ask("order", order_id, told)
        return told if told.there else None

    def orders(self):
        """The open orders by rising id."""
        return self._list("orders", Order)

    def states(self):
        """The trading statuses by rising bytes of their symbols."""
        return self._list("states", State)

    def levels(self, symbol, side, most=None):
        """The prices with their shares, the best first: all, or so many at most."""
        items = self._list("levels", Level, padded(symbol, 8), ord(side), most=most)
        return [(it.price, it.shares) for it in items]

    def level(self, symbol, side, price):
        """The shares at a price, in ten-thousandths of a dollar."""
        told = Level()
        self._ask("level", padded(symbol, 8), ord(side), price, told)
        return told.shares


def shown(best):
    return f"{best[1]} at {best[0] // 10000}.{best[0] % 10000:04}" if best else "none"


def main():
    client = Client(sys.argv[1])
    rest = memoryview(sys.stdin.buffer.read())
    while rest:
        length = int.from_bytes(rest[:2], "little")
        rest = rest[client.hear(rest[: max(length, 8)]).used :]
    for unit in range(256):
        try:
            status = client.status(unit)
        except PitchError:
            continue
        best = {side: client.best(unit, "ACME", side) for side in "BS"}
        for order in client.orders(unit):
            side, symbol = chr(order.side), bytes(order.symbol)
            if symbol == b"ACME    " and best[side][0] == order.price:
                best[side] = (order.price, best[side][1] - order.quantity)
        if any(it and it[1] for it in best.values()):
            sys.exit("a best price has other shares")
        bid, offer = (shown(client.best(unit, "ACME", side)) for side in "BS")
        print(f"unit {unit} {status.word} at {status.reach}: bid {bid}, offer {offer}")
    client.close()


if __name__ == "__main__":
    if len(sys.argv) != 2:
        sys.exit("usage: pitch_client.py LIBRARY")
    try:
        main()
    except (PitchError, OSError) as error:
        sys.exit(f"pitch_client.py: {error}")
