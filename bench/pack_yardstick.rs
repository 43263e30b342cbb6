// A plain Rust program that does what `pitch pack --unit 1` does, by hand and with std alone: it reads venue commands, checks
// each against a book of open orders, and writes their datagrams. `pack.py` measures the two side by side.
//
// It knows the commands of the bench's texts (time, add, exec, reduce, modify, delete, trade) and stops at the first fault.
use std::collections::HashMap;
use std::io::{self, Read, Write};
use std::process::exit;

struct Order {
    quantity: u32,
}

struct Packer {
    out: Vec<u8>,
    block: Vec<u8>,
    count: u8,
    first: u32,
    next: u32,
}

impl Packer {
    fn push(&mut self, raw: &[u8]) {
        if self.count == 255 || self.block.len() + raw.len() > 1400 {
            self.flush();
        }
        if self.count == 0 {
            self.first = self.next;
            self.block.extend_from_slice(&[0; 8]);
        }
        self.block.extend_from_slice(raw);
        self.count += 1;
        self.next += 1;
    }

    fn flush(&mut self) {
        if self.count == 0 {
            return;
        }
        let length = self.block.len() as u16;
        self.block[0..2].copy_from_slice(&length.to_le_bytes());
        self.block[2] = self.count;
        self.block[3] = 1;
        self.block[4..8].copy_from_slice(&self.first.to_le_bytes());
        self.out.extend_from_slice(&self.block);
        self.block.clear();
        self.count = 0;
    }
}

fn fail(line: usize, cause: &str) -> ! {
    eprintln!("pitch: at line {line}: {cause}");
    exit(3)
}

fn number(line: usize, field: Option<&str>) -> u64 {
    match field.and_then(|text| text.parse().ok()) {
        Some(value) => value,
        None => fail(line, "bad-number"),
    }
}

fn price(line: usize, field: Option<&str>) -> u64 {
    let text = field.unwrap_or_else(|| fail(line, "missing-field"));
    let (whole, part) = text.split_once('.').unwrap_or((text, "0"));
    let whole = number(line, Some(whole));
    if part.is_empty() || part.len() > 4 {
        fail(line, "bad-price");
    }
    let value = number(line, Some(part)) * 10u64.pow(4 - part.len() as u32);
    whole * 10_000 + value
}

fn short(quantity: u32, price: u64) -> Option<u16> {
    if quantity <= 65_535 && price % 100 == 0 && price <= 6_553_500 {
        Some((price / 100) as u16)
    } else {
        None
    }
}

// The fields that an add and a trade have in common, after the offset of 0.
fn terms(raw: &mut Vec<u8>, kind: [u8; 2], id: u64, side: u8, quantity: u32, symbol: &str, price: u64) {
    let cents = if symbol.len() > 6 { None } else { short(quantity, price) };
    raw.clear();
    raw.extend_from_slice(&[0, if cents.is_some() { kind[1] } else { kind[0] }, 0, 0, 0, 0]);
    raw.extend_from_slice(&id.to_le_bytes());
    raw.push(side);
    match cents {
        Some(_) => raw.extend_from_slice(&(quantity as u16).to_le_bytes()),
        None => raw.extend_from_slice(&quantity.to_le_bytes()),
    }
    let width = if symbol.len() > 6 { 8 } else { 6 };
    let start = raw.len();
    raw.extend_from_slice(symbol.as_bytes());
    raw.resize(start + width, b' ');
    match cents {
        Some(cents) => raw.extend_from_slice(&cents.to_le_bytes()),
        None => raw.extend_from_slice(&price.to_le_bytes()),
    }
}

fn named(raw: &mut Vec<u8>, kind: u8, id: u64) {
    raw.clear();
    raw.extend_from_slice(&[0, kind, 0, 0, 0, 0]);
    raw.extend_from_slice(&id.to_le_bytes());
}

fn main() {
    let mut text = String::new();
    if io::stdin().read_to_string(&mut text).is_err() {
        exit(4);
    }
    let mut book: HashMap<u64, Order> = HashMap::new();
    let mut packer = Packer { out: Vec::new(), block: Vec::new(), count: 0, first: 1, next: 1 };
    let mut raw = Vec::with_capacity(64);
    for (index, all) in text.lines().enumerate() {
        let line = index + 1;
        let mut fields = all.split_ascii_whitespace();
        let Some(word) = fields.next() else { continue };
        if word.starts_with('#') {
            continue;
        }
        match word {
            "time" => {
                let second = number(line, fields.next()) as u32;
                raw.clear();
                raw.extend_from_slice(&[0, 0x20]);
                raw.extend_from_slice(&second.to_le_bytes());
            }
            "add" | "trade" => {
                let id = number(line, fields.next());
                let side = match fields.next() {
                    Some("B") => b'B',
                    Some("S") => b'S',
                    _ => fail(line, "bad-word"),
                };
                let quantity = number(line, fields.next()) as u32;
                let symbol = fields.next().unwrap_or_else(|| fail(line, "missing-field"));
                let price = price(line, fields.next());
                if quantity == 0 {
                    fail(line, "zero-quantity");
                }
                if word == "add" {
                    if book.insert(id, Order { quantity }).is_some() {
                        fail(line, "known-id");
                    }
                    let long = if symbol.len() > 6 { 0x2f } else { 0x21 };
                    terms(&mut raw, [long, 0x22], id, side, quantity, symbol, price);
                    raw.push(1);
                    if long == 0x2f {
                        raw.extend_from_slice(b"    ");
                    }
                } else {
                    let execution = number(line, fields.next());
                    let long = if symbol.len() > 6 { 0x30 } else { 0x2a };
                    terms(&mut raw, [long, 0x2b], id, side, quantity, symbol, price);
                    raw.extend_from_slice(&execution.to_le_bytes());
                }
            }
            "exec" | "reduce" => {
                let id = number(line, fields.next());
                let quantity = number(line, fields.next()) as u32;
                let Some(order) = book.get_mut(&id) else { fail(line, "unknown-id") };
                if quantity > order.quantity {
                    fail(line, "too-much");
                }
                order.quantity -= quantity;
                if order.quantity == 0 {
                    book.remove(&id);
                }
                if word == "exec" {
                    named(&mut raw, 0x23, id);
                    raw.extend_from_slice(&quantity.to_le_bytes());
                    raw.extend_from_slice(&number(line, fields.next()).to_le_bytes());
                } else if quantity <= 65_535 {
                    named(&mut raw, 0x26, id);
                    raw.extend_from_slice(&(quantity as u16).to_le_bytes());
                } else {
                    named(&mut raw, 0x25, id);
                    raw.extend_from_slice(&quantity.to_le_bytes());
                }
            }
            "modify" => {
                let id = number(line, fields.next());
                let quantity = number(line, fields.next()) as u32;
                let price = price(line, fields.next());
                let Some(order) = book.get_mut(&id) else { fail(line, "unknown-id") };
                order.quantity = quantity;
                match short(quantity, price) {
                    Some(cents) => {
                        named(&mut raw, 0x28, id);
                        raw.extend_from_slice(&(quantity as u16).to_le_bytes());
                        raw.extend_from_slice(&cents.to_le_bytes());
                    }
                    None => {
                        named(&mut raw, 0x27, id);
                        raw.extend_from_slice(&quantity.to_le_bytes());
                        raw.extend_from_slice(&price.to_le_bytes());
                    }
                }
                raw.push(1);
            }
            "delete" => {
                let id = number(line, fields.next());
                if book.remove(&id).is_none() {
                    fail(line, "unknown-id");
                }
                named(&mut raw, 0x29, id);
            }
            _ => fail(line, "bad-word"),
        }
        if fields.next().is_some() {
            fail(line, "extra-field");
        }
        raw[0] = raw.len() as u8;
        packer.push(&raw);
    }
    packer.flush();
    if io::stdout().write_all(&packer.out).is_err() {
        exit(5);
    }
}
