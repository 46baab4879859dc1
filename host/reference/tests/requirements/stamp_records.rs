//! The stamp in pending groups: what RECORD requires of it, and what recovery makes of it. Groups are written by hand.

use crate::support::long::every_cut;
use crate::support::long_create::{bytes_of, group, letters, HULL};
use crate::support::worked::{record, STAMP};
use crate::support::{is_accepted, pattern, run_storing};
use reference::*;
use testkit::cards::Card;
use testkit::{ALL, AT, PANEL, ROUTE};

/// Create, update, truncate and replace: the groups with a stamp.
const STAMPED: [u8; 4] = [1, 2, 4, 6];
/// Delete and rename.
const UNSTAMPED: [u8; 2] = [3, 5];

/// The sector of a group for slot 3, as the calls write it. A rename goes to slot 4.
fn sector(operation: u8) -> [u8; 512] {
    let mut sector = [0; 512];
    let main = record(PANEL, operation, 3, 0, 0, 0);
    sector[..32].copy_from_slice(&main);
    match operation {
        3 => (),
        5 => sector[32..64].copy_from_slice(&record(ROUTE, 0, 4, 0, 0, 0)),
        _ => sector[32..64].copy_from_slice(&STAMP),
    }
    sector
}

/// A group with a stamp of each kind, with one of a long name that has 20 characters.
fn stamped() -> Vec<[u8; 512]> {
    let mut sectors = STAMPED.map(sector).to_vec();
    sectors.push(group(2, 3, &letters(20)));
    sectors
}

/// Odd bytes in slots 0 to 19, and the sector in log sector 2.
fn pending(sector: &[u8; 512]) -> Card {
    let mut card = Card::k();
    for slot in 0..20 {
        card.slot_mut(slot)
            .copy_from_slice(&pattern(32, slot as u8));
    }
    card.log_sector_mut(2).copy_from_slice(sector);
    card
}

/// Whether recovery takes the sector. One card serves for many, since nothing is stored.
fn takes(card: &mut Card, sector: &[u8; 512]) -> bool {
    card.log_sector_mut(2).copy_from_slice(sector);
    match plan(&card.bytes, &Operation::Recover) {
        Ok(stores) => {
            assert!(!stores.is_empty(), "something is pending");
            true
        }
        Err(ground) => {
            assert_eq!(ground, Ground::Record);
            false
        }
    }
}

/// The same of the sector with one byte changed.
fn accepts(card: &mut Card, sector: &[u8; 512], at: usize, byte: u8) -> bool {
    let mut sector = *sector;
    sector[at] = byte;
    takes(card, &sector)
}

#[test]
fn groups_as_written() {
    for sector in stamped() {
        assert!(is_accepted(pending(&sector)), "{}", sector[13]);
    }
    for operation in UNSTAMPED {
        assert!(is_accepted(pending(&sector(operation))), "{operation}");
    }
}

/// Of the stamp's bytes only 14 to 17, time and date, may be others.
#[test]
fn every_byte() {
    let mut card = pending(&[0; 512]);
    for sector in stamped() {
        for at in 0..32 {
            let own = sector[32 + at];
            for byte in [own ^ 1, own ^ 0x80, own.wrapping_add(0x20), 0xE5, 0xFF] {
                let is_word = (14..18).contains(&at);
                assert_eq!(
                    accepts(&mut card, &sector, 32 + at, byte),
                    is_word,
                    "{at} {byte}"
                );
            }
        }
    }
}

#[test]
fn first_byte_and_operation() {
    let mut card = pending(&[0; 512]);
    for sector in stamped() {
        for byte in 0..=255 {
            assert_eq!(
                accepts(&mut card, &sector, 32, byte),
                byte == 0x54,
                "{byte}"
            );
            assert_eq!(
                accepts(&mut card, &sector, 32 + 13, byte),
                byte == 0,
                "{byte}"
            );
        }
    }
}

/// What follows the stamp is zero to the end of the sector; a long name's characters follow it there.
#[test]
fn the_rest_is_zero() {
    let mut card = pending(&[0; 512]);
    for operation in STAMPED {
        for at in 64..512 {
            let byte = [1, 0x54, 0xE5][at % 3];
            assert!(!accepts(&mut card, &sector(operation), at, byte), "{at}");
        }
        let mut twice = sector(operation);
        twice[64..96].copy_from_slice(&STAMP);
        assert!(!takes(&mut card, &twice));
    }
}

/// A group without the stamp, as it was before there were stamps; one with it elsewhere; and one that is a stamp alone.
#[test]
fn no_stamp() {
    let mut card = pending(&[0; 512]);
    for operation in STAMPED {
        let mut sector = sector(operation);
        let (main, stamp) = (sector[..32].to_vec(), sector[32..64].to_vec());
        sector[32..].fill(0);
        assert!(!takes(&mut card, &sector), "{operation}");
        for place in 2..16 {
            let mut other = sector;
            other[32 * place..][..32].copy_from_slice(&stamp);
            assert!(!takes(&mut card, &other), "{operation} {place}");
        }
        sector[..32].copy_from_slice(&stamp);
        assert!(!takes(&mut card, &sector));
        sector[32..64].copy_from_slice(&main);
        assert!(!takes(&mut card, &sector), "{operation}");
    }
    // A long name without one: its characters begin in record 1.
    for length in [1, 16, 20, 208] {
        let name = letters(length);
        let mut sector = group(name.len().div_ceil(13) as u8, 17, &name);
        assert!(takes(&mut card, &sector), "{length}");
        sector.copy_within(64.., 32);
        sector[480..].fill(0);
        assert!(!takes(&mut card, &sector), "{length}");
    }
}

/// Delete and rename have none: after them, or between a rename's records, it is RECORD.
#[test]
fn a_stamp_too_many() {
    let mut card = pending(&[0; 512]);
    for operation in UNSTAMPED {
        for place in 1..16 {
            let mut other = sector(operation);
            other[32 * place..][..32].copy_from_slice(&STAMP);
            assert!(!takes(&mut card, &other), "{operation} {place}");
            other[32 * place] = 0xE5;
            assert!(!takes(&mut card, &other), "{operation} {place}");
        }
    }
    let mut between = sector(5);
    between.copy_within(32..64, 64);
    between[32..64].copy_from_slice(&STAMP);
    assert!(!takes(&mut card, &between));
    // No other operation has one either.
    for operation in [0, 7, 8, 0x81, 0xFF] {
        let mut other = sector(1);
        other[13] = operation;
        assert!(!takes(&mut card, &other), "{operation}");
        other[32..].fill(0);
        assert!(!takes(&mut card, &other), "{operation}");
    }
}

/// A stamp marked committed under a pending record is RECORD, and so is one that is pending under a committed record.
#[test]
fn half_committed() {
    let mut card = pending(&[0; 512]);
    for operation in STAMPED {
        assert!(
            !accepts(&mut card, &sector(operation), 32, 0xE5),
            "{operation}"
        );
        assert!(
            !accepts(&mut card, &sector(operation), 0, 0xE5),
            "{operation}"
        );
        assert!(!accepts(&mut card, &sector(operation), 0, 0), "{operation}");
    }
    let long = group(2, 3, &letters(20));
    assert!(!accepts(&mut card, &long, 32, 0xE5));
    // A committed long name's record tells that nothing is pending, whatever follows it, and it alone is listed.
    for first in [0x54, 0xE5, b'x', 1, 0] {
        let mut committed = long;
        committed[0] = 0xE5;
        committed[32] = first;
        let mut card = pending(&committed);
        assert_eq!(recover(&mut card.bytes, ALL), Answer::Done(0), "{first}");
        let listed = String::from_utf8(log_listing(&committed)).expect("text");
        assert_eq!(listed.lines().count(), 2, "{first}");
    }
    let mut both = sector(2);
    both[0] = 0xE5;
    both[32] = 0xE5;
    let mut card = pending(&both);
    assert_eq!(recover(&mut card.bytes, ALL), Answer::Done(0));
}

/// Words of all kinds: month 0 and 13, day 0, 31 February, hour 31, second 62, and plain ones.
const WORDS: [[u8; 4]; 8] = [
    [0xAF, 0x6D, 0xD1, 0x5C],
    [0, 0, 0x21, 0],
    [0, 0, 0, 0],
    [0xFF, 0xFF, 0xFF, 0xFF],
    [0xFF, 0x07, 0x01, 0x00],
    [0x1F, 0xF8, 0xA1, 0x5D],
    [1, 0x80, 0x5F, 0x80],
    [0x80, 1, 0x40, 0x28],
];

/// Recovery gives the recorded words, whatever they are; creation fields are a new file's alone. Both records are marked.
#[test]
fn recovery_gives_that_stamp() {
    for words in WORDS {
        let [time, date] = [&words[..2], &words[2..]];
        for start in stamped() {
            let mut sector = start;
            sector[46..50].copy_from_slice(&words);
            let mut card = pending(&sector);
            let mut expected = card.clone();
            let slot = expected.slot_mut(3);
            if sector[13] == 1 {
                slot.fill(0);
                slot[..12].copy_from_slice(&sector[..12]);
                slot[14..16].copy_from_slice(time);
                slot[16..18].copy_from_slice(date);
            } else {
                slot[26..].fill(0);
            }
            slot[18..20].copy_from_slice(date);
            slot[22..24].copy_from_slice(time);
            slot[24..26].copy_from_slice(date);
            expected.log_sector_mut(2)[0] = 0xE5;
            expected.log_sector_mut(2)[32] = 0xE5;
            run_storing(&mut card.bytes, &Operation::Recover, &[33, 67]);
            if sector[12] > 0 {
                assert_eq!(card.slot(3), expected.slot(3), "{words:?}");
                assert_eq!(card.characters(3), letters(20));
                for (at, byte) in [(0, 0xE5), (32, 0xE5), (64, 0xE5), (96, 0xE5), (128, 0)] {
                    assert_eq!(card.log_sector_mut(2)[at], byte, "{at}");
                }
                continue;
            }
            assert!(card.bytes == expected.bytes, "{} {words:?}", sector[13]);
        }
    }
}

/// Every cut of the five calls at moments that differ from the file's dates: as before, or with the new stamp whole.
#[test]
fn cuts() {
    let name = ROUTE;
    let characters = bytes_of(&letters(208));
    for seconds in [0, 59, AT, 4_039_286_399] {
        let mut card = Card::k();
        card.put_slot(0, ROUTE, 0x20, 20, 700);
        card.put_chain(&[20, 21], 0xFFFF);
        card.slot_mut(0)[13..26].copy_from_slice(&pattern(13, 3));
        let data = &pattern(900, 2);
        for (operation, group) in [
            (
                Operation::Create {
                    name: PANEL,
                    seconds,
                },
                0,
            ),
            (
                Operation::CreateLong {
                    name: HULL,
                    characters: &characters,
                    seconds,
                },
                0,
            ),
            (
                Operation::Append {
                    name,
                    data,
                    seconds,
                },
                4,
            ),
            (
                Operation::Replace {
                    name,
                    data,
                    seconds,
                },
                3,
            ),
            (
                Operation::Truncate {
                    name,
                    size: 100,
                    seconds,
                },
                1,
            ),
            (
                Operation::Truncate {
                    name,
                    size: 600,
                    seconds,
                },
                0,
            ),
        ] {
            every_cut(&card, &operation, group);
        }
    }
}
