//! The clients of a feed, and an end with its sessions, safe to use from Rust: over `libpitch_c.a`.

#[repr(C)]
struct Raw {
    at: *mut u8,
    mark: u64,
}

/// How far a client is: its `state` is `SILENT`, `CURRENT` or `BEHIND`.
#[repr(C)]
#[derive(Clone, Copy, Debug, Default, PartialEq, Eq)]
pub struct Status {
    pub state: u32,
    pub reach: u32,
    pub top: u32,
    spare: [u32; 5],
}

pub const SILENT: u32 = 1;
pub const CURRENT: u32 = 2;
pub const BEHIND: u32 = 3;

#[repr(C)]
#[derive(Clone, Copy, Default)]
struct BestOut {
    there: u64,
    price: u64,
    shares: u64,
    spare: [u64; 5],
}

/// An open order: its `display` is 1 where it is displayed, and its participant is four spaces where
/// none is named.
#[repr(C)]
#[derive(Clone, Copy, Debug, Default, PartialEq, Eq)]
pub struct Order {
    there: u64,
    pub id: u64,
    pub price: u64,
    pub quantity: u32,
    pub side: u32,
    pub symbol: [u8; 8],
    pub display: u32,
    pub participant: [u8; 4],
    spare: [u64; 2],
}

/// The trading status of a symbol: the two bytes of its message.
#[repr(C)]
#[derive(Clone, Copy, Debug, Default, PartialEq, Eq)]
pub struct State {
    pub symbol: [u8; 8],
    pub halt: u32,
    pub sho: u32,
    spare: [u64; 2],
}

/// A price with its shares.
#[repr(C)]
#[derive(Clone, Copy, Debug, Default, PartialEq, Eq)]
pub struct Level {
    pub price: u64,
    pub shares: u64,
    spare: [u64; 2],
}

/// A best price that a message made another one.
#[repr(C)]
#[derive(Clone, Copy, Debug, Default, PartialEq, Eq)]
pub struct Quote {
    pub sequence: u32,
    pub side: u32,
    pub symbol: [u8; 8],
    pub there: u64,
    pub price: u64,
    pub shares: u64,
    spare: [u64; 3],
}

/// What was heard.
#[repr(C)]
#[derive(Clone, Copy, Debug, Default, PartialEq, Eq)]
pub struct Heard {
    pub used: u32,
    pub unit: u32,
    pub sequence: u32,
    pub count: u32,
    pub fresh: u32,
    pub overflows: u32,
    pub after: Status,
    spare: [u32; 2],
}

#[repr(C)]
struct RawEnd {
    at: *mut u8,
    mark: u64,
}

/// What a datagram had: blocks of the end's unit, blocks of others, and bytes behind the last.
#[repr(C)]
#[derive(Clone, Copy, Debug, Default, PartialEq, Eq)]
pub struct Datagram {
    pub heard: u64,
    pub others: u64,
    pub rest: u64,
    spare: [u64; 5],
}

#[repr(C)]
#[derive(Clone, Copy, Default)]
struct Sent {
    count: u64,
    left: u64,
    spare: [u64; 2],
}

unsafe extern "C" {
    fn pitch_c_abi() -> u32;
    fn pitch_c_open(client: *mut Raw, hold: u32, levels: u32) -> u32;
    fn pitch_c_close(client: *mut Raw);
    fn pitch_c_hear(client: *mut Raw, bytes: *const u8, len: usize, told: *mut Heard) -> u32;
    fn pitch_c_hear_quoted(
        client: *mut Raw,
        bytes: *const u8,
        len: usize,
        told: *mut Heard,
        quotes: *mut Quote,
        quotes_len: usize,
        number: *mut u64,
    ) -> u32;
    fn pitch_c_reserve(client: *mut Raw, unit: u32, messages: u32) -> u32;
    fn pitch_c_status(client: *mut Raw, unit: u32, told: *mut Status) -> u32;
    fn pitch_c_best(
        client: *mut Raw,
        unit: u32,
        symbol: *const [u8; 8],
        side: u8,
        told: *mut BestOut,
    ) -> u32;
    fn pitch_c_order(client: *mut Raw, unit: u32, id: u64, told: *mut Order) -> u32;
    fn pitch_c_orders(
        client: *mut Raw,
        unit: u32,
        told: *mut Order,
        len: usize,
        number: *mut u64,
    ) -> u32;
    fn pitch_c_states(
        client: *mut Raw,
        unit: u32,
        told: *mut State,
        len: usize,
        number: *mut u64,
    ) -> u32;
    fn pitch_c_levels(
        client: *mut Raw,
        unit: u32,
        symbol: *const [u8; 8],
        side: u8,
        told: *mut Level,
        len: usize,
        number: *mut u64,
    ) -> u32;
    fn pitch_c_level(
        client: *mut Raw,
        unit: u32,
        symbol: *const [u8; 8],
        side: u8,
        price: u64,
        told: *mut Level,
    ) -> u32;
    fn pitch_c_end_open(
        end: *mut RawEnd,
        unit: u32,
        sub: *const [u8; 4],
        user: *const [u8; 4],
        password: *const [u8; 10],
        hold: u32,
    ) -> u32;
    fn pitch_c_end_close(end: *mut RawEnd);
    fn pitch_c_end_hear(
        end: *mut RawEnd,
        bytes: *const u8,
        len: usize,
        told: *mut Datagram,
    ) -> u32;
    fn pitch_c_end_connected(end: *mut RawEnd, session: u32) -> u32;
    fn pitch_c_end_took(end: *mut RawEnd, session: u32, bytes: *const u8, len: usize) -> u32;
    fn pitch_c_end_cut(end: *mut RawEnd, session: u32) -> u32;
    fn pitch_c_end_second(end: *mut RawEnd) -> u32;
    fn pitch_c_end_send(
        end: *mut RawEnd,
        session: u32,
        into: *mut u8,
        len: usize,
        told: *mut Sent,
    ) -> u32;
    fn pitch_c_end_connection(end: *mut RawEnd, session: u32, told: *mut u32) -> u32;
    fn pitch_c_end_status(end: *mut RawEnd, told: *mut Status) -> u32;
    fn pitch_c_end_best(
        end: *mut RawEnd,
        symbol: *const [u8; 8],
        side: u8,
        told: *mut BestOut,
    ) -> u32;
    fn pitch_c_end_order(end: *mut RawEnd, id: u64, told: *mut Order) -> u32;
    fn pitch_c_end_orders(
        end: *mut RawEnd,
        told: *mut Order,
        len: usize,
        number: *mut u64,
    ) -> u32;
    fn pitch_c_end_states(
        end: *mut RawEnd,
        told: *mut State,
        len: usize,
        number: *mut u64,
    ) -> u32;
    fn pitch_c_end_levels(
        end: *mut RawEnd,
        symbol: *const [u8; 8],
        side: u8,
        told: *mut Level,
        len: usize,
        number: *mut u64,
    ) -> u32;
    fn pitch_c_end_level(
        end: *mut RawEnd,
        symbol: *const [u8; 8],
        side: u8,
        price: u64,
        told: *mut Level,
    ) -> u32;
}

const ABI: u32 = 4;

/// Why a call had no answer: a `pitch_code` of the header, never 0.
#[derive(Clone, Copy, Debug, PartialEq, Eq)]
pub struct Code(pub u32);

impl Code {
    pub const CLOSED: Code = Code(1);
    pub const IS_OPEN: Code = Code(2);
    pub const NO_MEMORY: Code = Code(3);
    pub const BAD_HOLD: Code = Code(4);
    pub const TRUNCATED: Code = Code(5);
    pub const NOT_A_BLOCK: Code = Code(6);
    pub const NO_CLIENT: Code = Code(7);
    pub const NO_SIDE: Code = Code(8);
    pub const NULL: Code = Code(9);
    pub const OTHER_ABI: Code = Code(10);
    pub const BAD_UNIT: Code = Code(11);
    pub const NO_SESSION: Code = Code(12);
    /// The block was heard, but there was no memory to tell its quotes.
    pub const UNTOLD: Code = Code(13);
}

impl std::fmt::Display for Code {
    fn fmt(&self, f: &mut std::fmt::Formatter<'_>) -> std::fmt::Result {
        f.write_str(match *self {
            Code::CLOSED => "it is closed",
            Code::IS_OPEN => "it is open already",
            Code::NO_MEMORY => "out of memory",
            Code::BAD_HOLD => "the hold is not from 1 to 65536",
            Code::TRUNCATED => "truncated",
            Code::NOT_A_BLOCK => "not a block",
            Code::NO_CLIENT => "no such unit",
            Code::NO_SIDE => "no such side",
            Code::NULL => "a null pointer",
            Code::OTHER_ABI => "the library is of another header",
            Code::BAD_UNIT => "the unit is not from 1 to 255",
            Code::NO_SESSION => "no such session",
            Code::UNTOLD => "heard, with no memory to tell quotes",
            Code(other) => return write!(f, "unknown code {other}"),
        })
    }
}

impl std::error::Error for Code {}

/// The name of a symbol as orders have it, with spaces at its end; None where it is empty or longer
/// than eight bytes.
pub fn symbol(name: &str) -> Option<[u8; 8]> {
    let mut symbol = [b' '; 8];
    symbol.get_mut(..name.len())?.copy_from_slice(name.as_bytes());
    (!name.is_empty()).then_some(symbol)
}

fn answered(code: u32) -> Result<(), Code> {
    if code == 0 { Ok(()) } else { Err(Code(code)) }
}

/// The clients of all units of a feed.
pub struct Client {
    raw: Raw,
}

// SAFETY: the library's proof has that what a client owns may be used by any thread.
unsafe impl Send for Client {}

// The library marks a client closed while it reads it, so asking takes a `&mut`.
impl Client {
    /// Price levels are kept where best prices are to be looked up.
    pub fn open(hold: u32, levels: bool) -> Result<Client, Code> {
        let mut raw = Raw { at: std::ptr::null_mut(), mark: 0 };
        // SAFETY: it takes nothing.
        if unsafe { pitch_c_abi() } != ABI {
            return Err(Code::OTHER_ABI);
        }
        // SAFETY: a closed client, which nothing else refers to.
        answered(unsafe { pitch_c_open(&mut raw, hold, levels.into()) })?;
        Ok(Client { raw })
    }

    /// Hears the block at the start of the bytes.
    pub fn hear(&mut self, bytes: &[u8]) -> Result<Heard, Code> {
        let mut told = Heard::default();
        // SAFETY: the client is open and borrowed for the call alone, as `told` is; the bytes are
        // lent.
        answered(unsafe { pitch_c_hear(&mut self.raw, bytes.as_ptr(), bytes.len(), &mut told) })?;
        Ok(told)
    }

    /// Hears a block, and writes its quotes, as many as fit. It tells how many there are, or None
    /// where the block was heard and there was no memory to tell its quotes.
    pub fn hear_quoted(
        &mut self,
        bytes: &[u8],
        quotes: &mut [Quote],
    ) -> Result<(Heard, Option<u64>), Code> {
        let (mut told, mut number) = (Heard::default(), 0);
        let (at, len) = (quotes.as_mut_ptr(), quotes.len());
        // SAFETY: as above; no more than the slice is written.
        let heard = answered(unsafe {
            pitch_c_hear_quoted(
                &mut self.raw,
                bytes.as_ptr(),
                bytes.len(),
                &mut told,
                at,
                len,
                &mut number,
            )
        });
        match heard {
            Ok(()) => Ok((told, Some(number))),
            Err(Code::UNTOLD) => Ok((told, None)),
            Err(code) => Err(code),
        }
    }

    /// Takes memory ahead for so many messages of a unit, which gets a client where it has none.
    pub fn reserve(&mut self, unit: u8, messages: u32) -> Result<(), Code> {
        if self.status(unit) == Err(Code::NO_CLIENT) {
            self.hear(&[8, 0, 0, unit, 0, 0, 0, 0])?;
        }
        // SAFETY: as above.
        answered(unsafe { pitch_c_reserve(&mut self.raw, unit.into(), messages) })
    }

    pub fn status(&mut self, unit: u8) -> Result<Status, Code> {
        let mut told = Status::default();
        // SAFETY: as above.
        answered(unsafe { pitch_c_status(&mut self.raw, unit.into(), &mut told) })?;
        Ok(told)
    }

    /// The best price, in ten-thousandths of a dollar, and its shares.
    pub fn best(
        &mut self,
        unit: u8,
        symbol: &[u8; 8],
        side: u8,
    ) -> Result<Option<(u64, u64)>, Code> {
        let mut told = BestOut::default();
        // SAFETY: as above.
        answered(unsafe {
            pitch_c_best(&mut self.raw, unit.into(), symbol, side, &mut told)
        })?;
        Ok((told.there != 0).then_some((told.price, told.shares)))
    }

    /// The open order of an id.
    pub fn order(&mut self, unit: u8, id: u64) -> Result<Option<Order>, Code> {
        let mut told = Order::default();
        // SAFETY: as above.
        answered(unsafe { pitch_c_order(&mut self.raw, unit.into(), id, &mut told) })?;
        Ok((told.there != 0).then_some(told))
    }

    /// Writes the open orders of a unit by rising id, as many as fit, and tells how many there are.
    pub fn orders(&mut self, unit: u8, told: &mut [Order]) -> Result<u64, Code> {
        let mut number = 0;
        let (at, len) = (told.as_mut_ptr(), told.len());
        // SAFETY: as above; no more than the slice is written.
        answered(unsafe { pitch_c_orders(&mut self.raw, unit.into(), at, len, &mut number) })?;
        Ok(number)
    }

    /// Writes the trading statuses of a unit by rising bytes of their symbols, likewise.
    pub fn states(&mut self, unit: u8, told: &mut [State]) -> Result<u64, Code> {
        let mut number = 0;
        let (at, len) = (told.as_mut_ptr(), told.len());
        // SAFETY: as above.
        answered(unsafe { pitch_c_states(&mut self.raw, unit.into(), at, len, &mut number) })?;
        Ok(number)
    }

    /// Writes the levels of a symbol on a side, the best first, likewise.
    pub fn levels(
        &mut self,
        unit: u8,
        symbol: &[u8; 8],
        side: u8,
        told: &mut [Level],
    ) -> Result<u64, Code> {
        let mut number = 0;
        let (at, len) = (told.as_mut_ptr(), told.len());
        // SAFETY: as above.
        answered(unsafe {
            pitch_c_levels(&mut self.raw, unit.into(), symbol, side, at, len, &mut number)
        })?;
        Ok(number)
    }

    /// The shares at a price.
    pub fn level(
        &mut self,
        unit: u8,
        symbol: &[u8; 8],
        side: u8,
        price: u64,
    ) -> Result<u64, Code> {
        let mut told = Level::default();
        // SAFETY: as above.
        answered(unsafe {
            pitch_c_level(&mut self.raw, unit.into(), symbol, side, price, &mut told)
        })?;
        Ok(told.shares)
    }
}

impl Drop for Client {
    fn drop(&mut self) {
        // SAFETY: the client is not used again.
        unsafe { pitch_c_close(&mut self.raw) }
    }
}

/// A session of an end: a `pitch_session` of the header.
#[derive(Clone, Copy, Debug, PartialEq, Eq)]
pub enum Session {
    Proxy = 1,
    SpinServer = 2,
}

/// An account of an end: each part with spaces at its end.
pub struct Account {
    pub sub: [u8; 4],
    pub user: [u8; 4],
    pub password: [u8; 10],
}

/// The client's end of a unit with its sessions.
pub struct End {
    raw: RawEnd,
}

// SAFETY: as of a client.
unsafe impl Send for End {}

impl End {
    pub fn open(unit: u8, account: &Account, hold: u32) -> Result<End, Code> {
        let mut raw = RawEnd { at: std::ptr::null_mut(), mark: 0 };
        // SAFETY: it takes nothing.
        if unsafe { pitch_c_abi() } != ABI {
            return Err(Code::OTHER_ABI);
        }
        let Account { sub, user, password } = account;
        // SAFETY: a closed end, which nothing else refers to.
        answered(unsafe { pitch_c_end_open(&mut raw, unit.into(), sub, user, password, hold) })?;
        Ok(End { raw })
    }

    /// A datagram came on a line.
    pub fn hear(&mut self, bytes: &[u8]) -> Result<Datagram, Code> {
        let mut told = Datagram::default();
        // SAFETY: the end is open and borrowed for the call alone, as `told` is; the bytes are lent.
        answered(unsafe {
            pitch_c_end_hear(&mut self.raw, bytes.as_ptr(), bytes.len(), &mut told)
        })?;
        Ok(told)
    }

    pub fn connected(&mut self, session: Session) -> Result<(), Code> {
        // SAFETY: as above.
        answered(unsafe { pitch_c_end_connected(&mut self.raw, session as u32) })
    }

    /// Bytes of a connection came. It is lost where there was no memory for them.
    pub fn took(&mut self, session: Session, bytes: &[u8]) -> Result<(), Code> {
        let (at, len) = (bytes.as_ptr(), bytes.len());
        // SAFETY: as above.
        answered(unsafe { pitch_c_end_took(&mut self.raw, session as u32, at, len) })
    }

    pub fn cut(&mut self, session: Session) -> Result<(), Code> {
        // SAFETY: as above.
        answered(unsafe { pitch_c_end_cut(&mut self.raw, session as u32) })
    }

    pub fn second(&mut self) -> Result<(), Code> {
        // SAFETY: as above.
        answered(unsafe { pitch_c_end_second(&mut self.raw) })
    }

    /// Writes the bytes that wait for a session, as many as fit, and tells how many they are and
    /// how many wait still.
    pub fn send(&mut self, session: Session, into: &mut [u8]) -> Result<(u64, u64), Code> {
        let mut told = Sent::default();
        let (at, len) = (into.as_mut_ptr(), into.len());
        // SAFETY: as above; no more than the slice is written.
        answered(unsafe {
            pitch_c_end_send(&mut self.raw, session as u32, at, len, &mut told)
        })?;
        Ok((told.count, told.left))
    }

    /// Whether a connection stands.
    pub fn connection(&mut self, session: Session) -> Result<bool, Code> {
        let mut told = 0;
        // SAFETY: as above.
        answered(unsafe {
            pitch_c_end_connection(&mut self.raw, session as u32, &mut told)
        })?;
        Ok(told != 0)
    }

    pub fn status(&mut self) -> Result<Status, Code> {
        let mut told = Status::default();
        // SAFETY: as above.
        answered(unsafe { pitch_c_end_status(&mut self.raw, &mut told) })?;
        Ok(told)
    }

    pub fn best(&mut self, symbol: &[u8; 8], side: u8) -> Result<Option<(u64, u64)>, Code> {
        let mut told = BestOut::default();
        // SAFETY: as above.
        answered(unsafe { pitch_c_end_best(&mut self.raw, symbol, side, &mut told) })?;
        Ok((told.there != 0).then_some((told.price, told.shares)))
    }

    pub fn order(&mut self, id: u64) -> Result<Option<Order>, Code> {
        let mut told = Order::default();
        // SAFETY: as above.
        answered(unsafe { pitch_c_end_order(&mut self.raw, id, &mut told) })?;
        Ok((told.there != 0).then_some(told))
    }

    /// Writes the open orders by rising id, as many as fit, and tells how many there are.
    pub fn orders(&mut self, told: &mut [Order]) -> Result<u64, Code> {
        let mut number = 0;
        let (at, len) = (told.as_mut_ptr(), told.len());
        // SAFETY: as above; no more than the slice is written.
        answered(unsafe { pitch_c_end_orders(&mut self.raw, at, len, &mut number) })?;
        Ok(number)
    }

    /// Writes the trading statuses by rising bytes of their symbols, likewise.
    pub fn states(&mut self, told: &mut [State]) -> Result<u64, Code> {
        let mut number = 0;
        let (at, len) = (told.as_mut_ptr(), told.len());
        // SAFETY: as above.
        answered(unsafe { pitch_c_end_states(&mut self.raw, at, len, &mut number) })?;
        Ok(number)
    }

    /// Writes the levels of a symbol on a side, the best first, likewise.
    pub fn levels(
        &mut self,
        symbol: &[u8; 8],
        side: u8,
        told: &mut [Level],
    ) -> Result<u64, Code> {
        let mut number = 0;
        let (at, len) = (told.as_mut_ptr(), told.len());
        // SAFETY: as above.
        answered(unsafe {
            pitch_c_end_levels(&mut self.raw, symbol, side, at, len, &mut number)
        })?;
        Ok(number)
    }

    /// The shares at a price.
    pub fn level(&mut self, symbol: &[u8; 8], side: u8, price: u64) -> Result<u64, Code> {
        let mut told = Level::default();
        // SAFETY: as above.
        answered(unsafe { pitch_c_end_level(&mut self.raw, symbol, side, price, &mut told) })?;
        Ok(told.shares)
    }
}

impl Drop for End {
    fn drop(&mut self) {
        // SAFETY: the end is not used again.
        unsafe { pitch_c_end_close(&mut self.raw) }
    }
}
