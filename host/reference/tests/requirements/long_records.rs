//! The long-name count of pending records: what RECORD allows, what recovery makes of it, and power cuts. Groups are written by hand.

use crate::support::long::{card_with, every_cut, DELETE, RENAME};
use crate::support::worked::put_stamp;
use crate::support::{is_accepted, pattern, run_done, run_storing};
use reference::*;
use testkit::cards::Card;
use testkit::{OTHER, PANEL, ROUTE};

const RECOVER: Operation = Operation::Recover;
const REMOVE: u8 = 3;
const MOVE: u8 = 5;

/// Counts on both sides of every bound.
fn counts() -> impl Iterator<Item = u8> {
    (0..=24).chain([0x40, 0x41, 0x80, 0x94, 0xFF])
}

/// Files in slots 0 to 59, of which none is a long entry, and a pending group in log sector 2.
fn pending(operation: u8, slot: u8, count: u8) -> Card {
    let mut card = Card::k();
    for slot in 0..60 {
        let bytes = pattern(32, 2 * slot as u8);
        card.slot_mut(slot).copy_from_slice(&bytes);
    }
    let log = card.log_sector_mut(2);
    log[..14].copy_from_slice(b"ROUTE   CUT\x20\0\0");
    log[12] = count;
    log[13] = operation;
    log[18] = slot;
    put_stamp(log);
    card
}

/// The same for a rename, with both its slots.
fn pending_rename(old: u8, new: u8, count: u8) -> Card {
    let mut card = pending(MOVE, old, count);
    let log = card.log_sector_mut(2);
    log.copy_within(..32, 32);
    log[32..43].copy_from_slice(PANEL);
    log[45] = 0;
    log[50] = new;
    card
}

/// At most 20, and not above the old slot, in a delete and in both records of a rename.
#[test]
fn how_large_the_count_may_be() {
    for slot in [0u8, 1, 2, 15, 16, 19, 20, 21, 59] {
        for count in counts() {
            let expected = count <= 20 && count <= slot;
            assert_eq!(is_accepted(pending(REMOVE, slot, count)), expected);
            let rename = pending_rename(slot, 60, count);
            assert_eq!(is_accepted(rename), expected, "{slot} {count}");
        }
    }
}

/// In create, update, truncate and replace it is 0.
#[test]
fn other_operations_have_none() {
    for operation in [1, 2, 4, 6] {
        for count in counts() {
            let card = pending(operation, 30, count);
            assert_eq!(is_accepted(card), count == 0, "{operation} {count}");
        }
    }
}

/// The new slot is none of those marked; the one before them and the one after the old slot will do.
#[test]
fn where_the_new_slot_may_be() {
    for (old, count) in [
        (30, 0),
        (30, 1),
        (30, 5),
        (30, 20),
        (20, 20),
        (5, 5),
        (1, 1),
    ] {
        for new in 0..=60 {
            let expected = new > old || new < old - count;
            let card = pending_rename(old, new, count);
            assert_eq!(is_accepted(card), expected, "{old} {count} {new}");
        }
    }
}

/// Record 1 has the same count as record 0.
#[test]
fn both_records_of_a_rename() {
    for (count, other) in [(0, 1), (1, 0), (3, 2), (3, 4), (20, 21), (2, 0)] {
        let mut card = pending_rename(40, 60, count);
        card.log_sector_mut(2)[32 + 12] = other;
        assert!(!is_accepted(card), "{count} {other}");
    }
}

/// Recovers, and checks that only the given slots are marked, that the new slot is given bytes, and what was stored.
fn recovered(mut card: Card, sectors: &[usize], marked: std::ops::RangeInclusive<usize>) {
    let mut expected = card.clone();
    let log = card.log_sector_mut(2).to_vec();
    expected.log_sector_mut(2)[0] = 0xE5;
    if log[13] == MOVE {
        let mut bytes = card.slot(usize::from(log[18])).to_vec();
        bytes[..11].copy_from_slice(PANEL);
        let new = usize::from(log[50]);
        expected.slot_mut(new).copy_from_slice(&bytes);
        expected.log_sector_mut(2)[32] = 0xE5;
    }
    expected.mark_deleted(marked);
    run_storing(&mut card.bytes, &RECOVER, sectors);
    assert!(card.bytes == expected.bytes);
    run_storing(&mut card.bytes, &RECOVER, &[]);
}

/// The record alone says how many slots are marked, whatever stands there: here live files.
#[test]
fn recovery_does_not_judge() {
    recovered(pending(REMOVE, 17, 2), &[33, 34, 67], 15..=17);
    recovered(pending(REMOVE, 17, 0), &[34, 67], 17..=17);
    recovered(pending(REMOVE, 17, 1), &[34, 67], 16..=17);
    recovered(pending(REMOVE, 20, 20), &[33, 34, 67], 0..=20);
    recovered(pending(REMOVE, 35, 20), &[33, 34, 35, 67], 15..=35);
    recovered(pending(REMOVE, 60, 20), &[35, 36, 67], 40..=60);
    recovered(pending(REMOVE, 1, 1), &[33, 67], 0..=1);
    recovered(pending_rename(17, 3, 2), &[33, 34, 67], 15..=17);
    recovered(pending_rename(17, 14, 2), &[33, 34, 67], 15..=17);
    recovered(pending_rename(35, 60, 20), &[33, 34, 35, 36, 67], 15..=35);
    recovered(pending_rename(51, 0, 20), &[33, 34, 35, 36, 67], 31..=51);
    recovered(pending_rename(60, 0, 1), &[33, 36, 67], 59..=60);
}

/// Slots that are marked already are concerned all the same: their sector is stored.
#[test]
fn slots_marked_already() {
    let mut card = pending(REMOVE, 17, 2);
    card.mark_deleted([15, 16, 17]);
    recovered(card, &[33, 34, 67], 15..=17);
    let mut card = pending_rename(17, 60, 2);
    card.mark_deleted([15, 16]);
    recovered(card, &[33, 34, 36, 67], 15..=17);
}

/// Neither more than the record says, where proper entries stand before the slot.
#[test]
fn proper_entries_that_the_record_does_not_count() {
    for count in 0..=5 {
        let mut card = pending(REMOVE, 30, count);
        card.put_slot(30, ROUTE, 0x20, 0, 0);
        card.put_long_entries(30, 3);
        let first = 30 - usize::from(count);
        recovered(card, &[34, 67], first..=30);
    }
}

/// The entries are damaged after the group was stored: they are marked all the same, and so where they are marked already.
#[test]
fn entries_changed_after_the_cut() {
    for operation in [DELETE, RENAME] {
        let group = match operation {
            RENAME => 1,
            _ => 2,
        };
        let mut finished = card_with(17, 3);
        run_done(&mut finished.bytes, &operation);
        for (at, byte) in [(0, 0xE5), (0, 0x77), (11, 0x20), (13, 0x77)] {
            let mut card = card_with(17, 3);
            run(&mut card.bytes, &operation, group);
            let mut expected = finished.clone();
            for slot in 14..17 {
                card.slot_mut(slot)[at] = byte;
                expected.slot_mut(slot)[at] = byte;
                expected.mark_deleted([slot]);
            }
            run_done(&mut card.bytes, &RECOVER);
            assert!(card.metadata() == expected.metadata(), "{operation:?}");
        }
    }
}

/// Entries before the slot that came after the group was stored are not marked.
#[test]
fn entries_that_came_after_the_cut() {
    let mut card = card_with(17, 0);
    run(&mut card.bytes, &DELETE, 2);
    card.put_long_entries(17, 2);
    let before = card.clone();
    run_done(&mut card.bytes, &RECOVER);
    for slot in [15, 16] {
        assert_eq!(card.slot(slot), before.slot(slot));
    }
}

/// Slots, counts and new slots that meet one to four root sectors.
#[test]
fn every_cut_of_delete_and_rename() {
    for (slot, count) in [
        (17, 2),
        (16, 2),
        (16, 1),
        (18, 2),
        (35, 20),
        (20, 20),
        (17, 0),
    ] {
        every_cut(&card_with(slot, count), &DELETE, 1);
        for new in [0, 14, slot + 1, 48] {
            let mut card = card_with(slot, count);
            for between in slot + 1..new {
                card.put_slot(between, OTHER, 0x20, 0, 0);
            }
            if new < slot - count {
                card.mark_deleted([new]);
            }
            every_cut(&card, &RENAME, 0);
        }
    }
}

/// With a full log the clearing comes before the group; the count goes with the group.
#[test]
fn cuts_with_a_full_log() {
    let mut card = card_with(35, 20);
    for sector in 0..8 {
        card.log_sector_mut(sector)[0] = 0xE5;
    }
    every_cut(&card, &DELETE, 9);
    every_cut(&card, &RENAME, 8);
    run_done(&mut card.bytes, &RENAME);
    assert_eq!(card.log_sector_mut(0)[12], 20);
    assert_eq!(card.log_sector_mut(0)[44], 20);
}
