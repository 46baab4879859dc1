//! RECORD: each clause on its own. Groups are written into the log by hand.

use crate::support::worked::put_stamp;
use reference::*;
use testkit::cards::Card;
use testkit::{AT, OTHER, PANEL, ROUTE};

/// Create, update, delete, truncate and replace: the groups of one record, with its stamp after it but for the delete's.
const SINGLE: [u8; 5] = [1, 2, 3, 4, 6];

/// A card with three slots in use; slot 3 is the lowest beginning 0.
fn card() -> Card {
    let mut card = Card::k();
    card.put_slot(0, ROUTE, 0x20, 20, 700);
    card.put_chain(&[20, 21], 0xFFFF);
    card.put_slot(1, b"\xE5ONE       ", 0x20, 0, 0);
    card.put_slot(2, OTHER, 0x20, 0, 0);
    card
}

/// A pending group of one record for slot 0, in log sector 3.
fn pending(operation: u8) -> Card {
    let mut card = card();
    let log = card.log_sector_mut(3);
    log[..11].copy_from_slice(ROUTE);
    log[11] = 0x20;
    log[13] = operation;
    log[26] = 20;
    log[28] = 100;
    put_stamp(log);
    card
}

/// A pending rename from slot 0 to slot 1, in log sector 3.
fn pending_rename() -> Card {
    let mut card = pending(5);
    let log = card.log_sector_mut(3);
    log.copy_within(..32, 32);
    log[32..43].copy_from_slice(PANEL);
    log[32 + 13] = 0;
    log[32 + 18] = 1;
    card
}

/// What every call makes of the card: recovery refuses on RECORD and so do the
/// others, or recovery has work and the others answer UNCLEAN.
fn is_accepted(card: &mut Card) -> bool {
    let before = card.bytes.clone();
    let recovery = plan(&card.bytes, &Operation::Recover);
    let expected = match &recovery {
        Ok(stores) if !stores.is_empty() => Answer::Refused(Ground::Unclean),
        Err(Ground::Record) => Answer::Refused(Ground::Record),
        other => panic!("{other:?}"),
    };
    let bytes = &mut card.bytes;
    assert_eq!(create(bytes, PANEL, AT, 9), expected);
    assert_eq!(append(bytes, ROUTE, b"x", AT, 9), expected);
    assert_eq!(replace(bytes, ROUTE, b"x", AT, 9), expected);
    assert_eq!(truncate(bytes, ROUTE, 0, AT, 9), expected);
    assert_eq!(delete(bytes, ROUTE, 9), expected);
    assert_eq!(rename(bytes, ROUTE, PANEL, 9), expected);
    assert_eq!(read(bytes, ROUTE, 0, &mut []), expected);
    assert_eq!(list(bytes, &mut []), expected);
    if recovery.is_err() {
        assert_eq!(recover(bytes, 9), expected);
    }
    assert!(card.bytes == before);
    recovery.is_ok()
}

/// Whether the card is accepted with the log bytes replaced, in log sector 3.
fn accepts(mut card: Card, at: usize, bytes: &[u8]) -> bool {
    card.log_sector_mut(3)[at..at + bytes.len()].copy_from_slice(bytes);
    is_accepted(&mut card)
}

#[test]
fn groups_are_accepted_as_written() {
    for operation in SINGLE {
        assert!(is_accepted(&mut pending(operation)), "{operation}");
    }
    assert!(is_accepted(&mut pending_rename()));
}

#[test]
fn operation() {
    for operation in 0..=255 {
        let expected = SINGLE.contains(&operation);
        assert_eq!(
            is_accepted(&mut pending(operation)),
            expected,
            "{operation}"
        );
        let expected = operation == 5;
        assert_eq!(accepts(pending_rename(), 13, &[operation]), expected);
    }
}

#[test]
fn first_byte() {
    for byte in 0..=255u8 {
        if ![0, 0xE5].contains(&byte) {
            assert!(accepts(pending(3), 0, &[byte]), "{byte}");
            assert!(accepts(pending_rename(), 0, &[byte]), "{byte}");
            assert!(accepts(pending_rename(), 32, &[byte]), "{byte}");
        }
    }
    for byte in [0, 0xE5] {
        assert!(!accepts(pending_rename(), 0, &[byte]), "{byte}");
        assert!(!accepts(pending_rename(), 32, &[byte]), "{byte}");
    }
}

#[test]
fn committed_and_unused_records_are_not_judged() {
    for byte in [0, 0xE5] {
        let mut card = card();
        let log = card.log_sector_mut(3);
        log.fill(0xEE);
        for record in log.chunks_exact_mut(32) {
            record[0] = byte;
        }
        let stores = plan(&card.bytes, &Operation::Recover);
        assert_eq!(stores, Ok(vec![]));
        assert_eq!(list(&card.bytes, &mut []), Answer::Done(2));
    }
}

#[test]
fn fields_that_must_be_zero() {
    let long_name_count = [12];
    let directory_cluster = [14, 15, 16, 17];
    let high_word = [20, 21];
    for at in long_name_count
        .into_iter()
        .chain(directory_cluster)
        .chain(high_word)
    {
        assert!(!accepts(pending(3), at, &[1]), "{at}");
        assert!(!accepts(pending_rename(), at, &[1]), "{at}");
        let mut both = pending_rename();
        both.log_sector_mut(3)[at] = 0x80;
        assert!(!accepts(both, 32 + at, &[0x80]), "{at}");
    }
}

#[test]
fn dir_cluster_fits_16_bits() {
    assert!(accepts(pending(3), 22, &[0xFF, 0xFF, 0, 0]));
    assert!(!accepts(pending(3), 22, &[0, 0, 1, 0]));
    assert!(!accepts(pending(3), 22, &[0, 0, 0, 0x80]));
    let mut both = pending_rename();
    both.log_sector_mut(3)[24] = 1;
    assert!(!accepts(both, 32 + 24, &[1]));
}

#[test]
fn slots_up_to_the_lowest_beginning_0() {
    for operation in SINGLE {
        for slot in 0..=3 {
            assert!(accepts(pending(operation), 18, &[slot, 0]), "{slot}");
        }
        for slot in [[4, 0], [0xFF, 1], [0, 2], [0xFF, 0xFF]] {
            assert!(!accepts(pending(operation), 18, &slot), "{slot:?}");
        }
    }
}

#[test]
fn slots_of_a_rename() {
    for old in 0..=5 {
        for new in 0..=5 {
            let mut card = pending_rename();
            card.log_sector_mut(3)[18] = old;
            // Slot 3 is the lowest that begins 0, and 4 where the group names 3.
            let end = if old == 3 || new == 3 { 4 } else { 3 };
            let expected = old <= end && new <= end && old != new;
            assert_eq!(accepts(card, 32 + 18, &[new]), expected, "{old} {new}");
        }
    }
}

#[test]
fn slots_of_a_root_without_an_end() {
    let mut card = pending(3);
    card.fill_root(3);
    assert!(accepts(card.clone(), 18, &[0xFF, 1]));
    assert!(!accepts(card.clone(), 18, &[0, 2]));
    assert!(!accepts(card, 18, &[0xFF, 0xFF]));
}

#[test]
fn slot_0_of_an_empty_root() {
    let mut card = pending(1);
    card.slot_mut(0).fill(0);
    card.slot_mut(1).fill(0);
    card.slot_mut(2).fill(0);
    assert!(accepts(card.clone(), 18, &[0, 0]));
    assert!(!accepts(card, 18, &[1, 0]));
}

#[test]
fn rest_of_the_sector_is_zero() {
    for at in 32..512 {
        // 0xE5 and 1 at the head of a record are committed and pending.
        for byte in [1, 0xE5] {
            assert!(!accepts(pending(3), at, &[byte]), "{at}");
            if at >= 64 {
                assert!(!accepts(pending(2), at, &[byte]), "{at}");
                assert!(!accepts(pending_rename(), at, &[byte]), "{at}");
            }
        }
    }
}

#[test]
fn records_of_a_rename_are_alike() {
    for at in 0..32 {
        let mut card = pending_rename();
        let byte = &mut card.log_sector_mut(3)[32 + at];
        *byte = byte.wrapping_add(1);
        let may_differ = at < 11 || at == 13 || at == 18;
        assert_eq!(is_accepted(&mut card), may_differ, "{at}");
    }
}

#[test]
fn a_rename_may_share_odd_fields() {
    for at in [11, 22, 23, 26, 27, 28, 29, 30, 31] {
        let mut card = pending_rename();
        card.log_sector_mut(3)[at] = 0x77;
        assert!(accepts(card, 32 + at, &[0x77]), "{at}");
    }
}

#[test]
fn other_fields_are_not_judged() {
    for operation in SINGLE {
        for at in (1..12).chain([22, 23]).chain(26..32) {
            for byte in [0, 0xFF] {
                assert!(accepts(pending(operation), at, &[byte]), "{at}");
            }
        }
    }
}

#[test]
fn two_groups() {
    for sector in [0, 2, 4, 7] {
        let mut card = pending(3);
        let first = card.log_sector_mut(3).to_vec();
        card.log_sector_mut(sector).copy_from_slice(&first);
        assert!(!is_accepted(&mut card), "{sector}");
    }
}

#[test]
fn a_pending_record_anywhere_else() {
    for sector in 0..8 {
        for record in 0..16 {
            if (sector, record) == (3, 0) {
                continue;
            }
            let mut with_group = pending(3);
            with_group.log_sector_mut(sector)[record * 32] = b'A';
            assert!(!is_accepted(&mut with_group));
            let mut alone = card();
            alone.log_sector_mut(sector)[record * 32] = b'A';
            alone.log_sector_mut(sector)[record * 32 + 13] = 3;
            assert_eq!(is_accepted(&mut alone), record == 0);
        }
    }
}

#[test]
fn a_pending_record_after_a_committed_one() {
    let mut card = pending_rename();
    card.log_sector_mut(3)[0] = 0xE5;
    card.log_sector_mut(3)[32 + 13] = 3;
    assert!(!is_accepted(&mut card));
}

#[test]
fn committed_sectors_around_a_group() {
    let mut card = pending(3);
    for sector in [0, 1, 2, 4, 5, 6, 7] {
        let log = card.log_sector_mut(sector);
        log.fill(0x77);
        for record in log.chunks_exact_mut(32) {
            record[0] = 0xE5;
        }
    }
    assert!(is_accepted(&mut card));
}
