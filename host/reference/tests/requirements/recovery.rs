//! What recovery makes of a pending group, also on damaged cards.

use crate::support::worked::{created, put_stamp, put_written};
use crate::support::{pattern, run_storing};
use reference::*;
use testkit::cards::Card;
use testkit::{ALL, OTHER, PANEL};

const RECOVER: Operation = Operation::Recover;

/// A card with odd bytes in the slots and a pending group of one record, with its stamp.
fn pending(operation: u8, slot: u8, fields: [u8; 10]) -> Card {
    let mut card = Card::k();
    for slot in 0..20 {
        card.slot_mut(slot)
            .copy_from_slice(&pattern(32, slot as u8));
    }
    let log = card.log_sector_mut(2);
    log[..11].copy_from_slice(PANEL);
    log[11] = 0x07;
    log[13] = operation;
    log[18] = slot;
    log[22..32].copy_from_slice(&fields);
    put_stamp(log);
    card
}

/// DIR_Cluster 0x1234, first/last 0x5678, size 0x01020304.
const FIELDS: [u8; 10] = [0x34, 0x12, 0, 0, 0x78, 0x56, 4, 3, 2, 1];
/// The same with first/last 0.
const FROM_EMPTY: [u8; 10] = [0x34, 0x12, 0, 0, 0, 0, 4, 3, 2, 1];

/// Recovers and checks that besides the given slots and the commit nothing has
/// changed.
fn recover_changing(mut card: Card, sectors: &[usize], slots: &[(usize, Vec<u8>)]) {
    let mut expected = card.clone();
    for (slot, bytes) in slots {
        expected.slot_mut(*slot).copy_from_slice(bytes);
    }
    expected.log_sector_mut(2)[0] = 0xE5;
    if card.log_sector_mut(2)[13] != 3 {
        expected.log_sector_mut(2)[32] = 0xE5;
    }
    run_storing(&mut card.bytes, &RECOVER, sectors);
    assert!(card.bytes == expected.bytes);
    run_storing(&mut card.bytes, &RECOVER, &[]);
}

#[test]
fn create_writes_a_new_slot_whatever_the_record_has() {
    let card = pending(1, 17, FIELDS);
    recover_changing(card, &[34, 67], &[(17, created(PANEL))]);
}

#[test]
fn update_sets_the_size() {
    let card = pending(2, 3, FIELDS);
    let mut slot = card.slot(3).to_vec();
    slot[28..].copy_from_slice(&[4, 3, 2, 1]);
    put_written(&mut slot);
    recover_changing(card, &[33, 67], &[(3, slot)]);
}

#[test]
fn update_of_an_empty_file_sets_the_first_cluster() {
    let card = pending(2, 3, FROM_EMPTY);
    let mut slot = card.slot(3).to_vec();
    slot[26..].copy_from_slice(&[0x34, 0x12, 4, 3, 2, 1]);
    put_written(&mut slot);
    recover_changing(card, &[33, 67], &[(3, slot)]);
}

#[test]
fn delete_sets_the_first_byte() {
    let card = pending(3, 3, FIELDS);
    let mut slot = card.slot(3).to_vec();
    slot[0] = 0xE5;
    recover_changing(card, &[33, 67], &[(3, slot)]);
}

#[test]
fn truncate_sets_the_size() {
    let card = pending(4, 3, FIELDS);
    let mut slot = card.slot(3).to_vec();
    slot[28..].copy_from_slice(&[4, 3, 2, 1]);
    put_written(&mut slot);
    recover_changing(card, &[33, 67], &[(3, slot)]);
}

#[test]
fn truncate_to_nothing_clears_the_first_cluster() {
    let card = pending(4, 3, [0x34, 0x12, 0, 0, 0x78, 0x56, 0, 0, 0, 0]);
    let mut slot = card.slot(3).to_vec();
    slot[26..].fill(0);
    put_written(&mut slot);
    recover_changing(card, &[33, 67], &[(3, slot)]);
}

/// First cluster and size go into the slot unjudged: a size without a cluster, a cluster without a size, and what is none.
#[test]
fn replace_sets_first_cluster_and_size() {
    for (dir_cluster, size) in [
        ([0x34, 0x12], [4, 3, 2, 1]),
        ([0, 0], [4, 3, 2, 1]),
        ([0x34, 0x12], [0, 0, 0, 0]),
        ([1, 0], [0xFF; 4]),
        ([0xFF, 0xFF], [1, 0, 0, 0]),
    ] {
        let mut fields = FIELDS;
        fields[..2].copy_from_slice(&dir_cluster);
        fields[6..].copy_from_slice(&size);
        let card = pending(6, 3, fields);
        let mut slot = card.slot(3).to_vec();
        slot[26..28].copy_from_slice(&dir_cluster);
        slot[28..].copy_from_slice(&size);
        put_written(&mut slot);
        recover_changing(card, &[33, 67], &[(3, slot)]);
    }
}

/// A first/last cluster of 0 makes no difference, as it does for an update.
#[test]
fn replace_of_an_empty_file_too() {
    let card = pending(6, 3, FROM_EMPTY);
    let mut slot = card.slot(3).to_vec();
    slot[26..].copy_from_slice(&[0x34, 0x12, 4, 3, 2, 1]);
    put_written(&mut slot);
    recover_changing(card, &[33, 67], &[(3, slot)]);
}

#[test]
fn rename_takes_the_old_slot_as_it_stands() {
    for (old, new, sectors) in [
        (3, 18, &[33, 34, 67][..]),
        (18, 3, &[33, 34, 67]),
        (3, 4, &[33, 67]),
    ] {
        let mut card = pending(5, old, FIELDS);
        let log = card.log_sector_mut(2);
        log.copy_within(..32, 32);
        log[32..43].copy_from_slice(OTHER);
        log[32 + 13] = 0x99; // not judged
        log[32 + 18] = new;
        let (old, new) = (usize::from(old), usize::from(new));
        let mut gone = card.slot(old).to_vec();
        let mut slot = gone.clone();
        gone[0] = 0xE5;
        slot[..11].copy_from_slice(OTHER);
        recover_changing(card, sectors, &[(old, gone), (new, slot)]);
    }
}

#[test]
fn root_sector_is_stored_though_it_stays_the_same() {
    let mut card = pending(3, 3, FIELDS);
    card.slot_mut(3)[0] = 0xE5;
    let slot = card.slot(3).to_vec();
    recover_changing(card, &[33, 67], &[(3, slot)]);
}

#[test]
fn update_of_the_slot_at_the_end_of_the_root() {
    let card = pending(2, 20, FIELDS);
    let mut slot = vec![0; 32];
    slot[28..].copy_from_slice(&[4, 3, 2, 1]);
    put_written(&mut slot);
    recover_changing(card, &[34, 67], &[(20, slot)]);
}

#[test]
fn pending_group_takes_fat2() {
    let mut card = pending(3, 3, FIELDS);
    let fat1 = card.bytes[512..17 * 512].to_vec();
    for at in [0, 3_000, 16 * 512 - 1] {
        card.bytes[17 * 512 + at] ^= 0xFF;
    }
    let fat2 = card.bytes[17 * 512..33 * 512].to_vec();
    run_storing(&mut card.bytes, &RECOVER, &[1, 6, 16, 33, 67]);
    assert_ne!(fat1, fat2);
    assert!(card.bytes[512..17 * 512] == fat2);
    assert!(card.bytes[17 * 512..33 * 512] == fat2);
}

#[test]
fn no_pending_group_takes_fat1() {
    let mut card = Card::k();
    let fat1 = card.bytes[512..17 * 512].to_vec();
    for at in [0, 3_000, 16 * 512 - 1] {
        card.bytes[17 * 512 + at] ^= 0xFF;
    }
    run_storing(&mut card.bytes, &RECOVER, &[17, 22, 32]);
    assert!(card.bytes[512..17 * 512] == fat1);
    assert!(card.bytes[17 * 512..33 * 512] == fat1);
    run_storing(&mut card.bytes, &RECOVER, &[]);
}

#[test]
fn clean_card_needs_nothing() {
    let mut card = card_k();
    for limit in [0, 1, ALL] {
        assert_eq!(recover(&mut card, limit), Answer::Done(0));
    }
    assert!(card == card_k());
}

#[test]
fn list_of_stores_is_fixed_when_the_call_begins() {
    let mut card = pending(3, 3, FIELDS);
    card.bytes[17 * 512 + 4..17 * 512 + 20].fill(0); // FAT2 has no log
    run_storing(&mut card.bytes, &RECOVER, &[1, 33, 67]);
    assert_eq!(card.log_sector_mut(2)[0], 0xE5);
    assert_eq!(card.slot(3)[0], 0xE5);
    let answer = recover(&mut card.bytes, ALL);
    assert_eq!(answer, Answer::Refused(Ground::Logarea));
}
