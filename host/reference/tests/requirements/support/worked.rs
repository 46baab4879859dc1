//! Card K in states that several tests begin from, and log records by their fields.

use super::{pattern, run_done, sector};
use reference::Operation;
use testkit::cards::Card;
use testkit::{AT, ROUTE};

/// Card K after M3.
pub fn after_m3() -> Card {
    let mut card = Card::k();
    run_done(
        &mut card.bytes,
        &Operation::Create {
            name: ROUTE,
            seconds: AT,
        },
    );
    card
}

/// Card K after M4.
pub fn after_m4() -> Card {
    let mut card = after_m3();
    let append = Operation::Append {
        name: ROUTE,
        data: &pattern(1_300, 0),
        seconds: AT,
    };
    run_done(&mut card.bytes, &append);
    card
}

/// Card K with a file of the given size on the given chain.
pub fn with_file(chain: &[u16], end: u16, size: u32) -> Card {
    let mut card = Card::k();
    let first = chain.first().copied().unwrap_or(0);
    card.put_slot(0, ROUTE, 0x20, first, size);
    card.put_chain(chain, end);
    card
}

/// A log record from its fields in card order; the ones that are always 0 are
/// left out.
pub fn record(name: &[u8], operation: u8, slot: u8, dir: u8, cluster: u8, size: u16) -> Vec<u8> {
    let mut bytes = name.to_vec();
    bytes.extend([0x20, 0, operation, 0, 0, 0, 0, slot, 0, 0, 0]);
    bytes.extend([dir, 0, 0, 0, cluster, 0]);
    bytes.extend(u32::from(size).to_le_bytes());
    bytes
}

/// The stamp record of 17 June 2026, 13:45:31, by its bytes.
pub const STAMP: [u8; 32] =
    *b"\x54\0\0\0\0\0\0\0\0\0\0\0\0\0\xAF\x6D\xD1\x5C\0\0\0\0\0\0\0\0\0\0\0\0\0\0";

/// Puts the stamp into a group's sector, after a main record whose operation has one: create, update, truncate and replace.
pub fn put_stamp(sector: &mut [u8]) {
    if [1, 2, 4, 6].contains(&sector[13]) {
        sector[32..64].copy_from_slice(&STAMP);
    }
}

/// Gives a slot the write time, write date and access date of the same moment.
pub fn put_written(slot: &mut [u8]) {
    slot[18..20].copy_from_slice(&[0xD1, 0x5C]);
    slot[22..26].copy_from_slice(&[0xAF, 0x6D, 0xD1, 0x5C]);
}

/// A new file's slot of the same moment.
pub fn created(name: &[u8]) -> Vec<u8> {
    let mut slot = name.to_vec();
    slot.extend([0x20, 0, 0, 0xAF, 0x6D, 0xD1, 0x5C, 0xD1, 0x5C, 0, 0]);
    slot.extend([0xAF, 0x6D, 0xD1, 0x5C, 0, 0, 0, 0, 0, 0]);
    slot
}

/// The log sector holds this one record and its stamp, both committed, and zeros.
pub fn assert_committed(card: &Card, number: usize, record: &[u8]) {
    let log = sector(&card.bytes, number);
    assert_eq!((log[0], log[32]), (0xE5, 0xE5));
    assert_eq!(log[1..32], record[1..]);
    assert_eq!(log[33..64], STAMP[1..]);
    assert!(log[64..].iter().all(|&byte| byte == 0));
}

/// The log sector holds this one record, committed, and zeros: a delete's.
pub fn assert_committed_alone(card: &Card, number: usize, record: &[u8]) {
    let log = sector(&card.bytes, number);
    assert_eq!(log[0], 0xE5);
    assert_eq!(log[1..32], record[1..]);
    assert!(log[32..].iter().all(|&byte| byte == 0));
}
