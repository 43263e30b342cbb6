//! What crates/own_client does, from Rust; and that the orders at a best price have its shares.
mod pitch_client;
use pitch_client::{BEHIND, CURRENT, Client, Code, Order};
use std::io::Read;

fn main() {
    let mut client = Client::open(4096, true).expect("open");
    let (mut rest, mut piece) = (Vec::new(), vec![0u8; 65536]);
    loop {
        let count = std::io::stdin().read(&mut piece).expect("read");
        if count == 0 {
            break;
        }
        rest.extend_from_slice(&piece[..count]);
        let mut at = 0;
        let code = loop {
            match client.hear(&rest[at..]) {
                Ok(heard) => at += heard.used as usize,
                Err(code) => break code,
            }
        };
        assert_eq!(code, Code::TRUNCATED);
        rest.drain(..at);
    }
    assert!(rest.is_empty());
    for unit in 0..=255u8 {
        let Ok(status) = client.status(unit) else { continue };
        let mut orders = vec![Order::default(); client.orders(unit, &mut []).expect("count") as usize];
        client.orders(unit, &mut orders).expect("orders");
        let mut side = |side| match client.best(unit, b"ACME    ", side).expect("best") {
            Some((price, shares)) => {
                let there = orders.iter().filter(|order| {
                    order.symbol == *b"ACME    " && order.side == u32::from(side) && order.price == price
                });
                assert_eq!(shares, there.map(|order| u64::from(order.quantity)).sum::<u64>());
                format!("{shares} at {}.{:04}", price / 10000, price % 10000)
            }
            None => "none".to_string(),
        };
        let (bid, offer) = (side(b'B'), side(b'S'));
        let word = match status.state {
            CURRENT => "current",
            BEHIND => "behind",
            _ => "silent",
        };
        println!("unit {unit} {word} at {}: bid {bid}, offer {offer}", status.reach);
    }
}
