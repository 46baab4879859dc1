//! ROUTE.CUT with long entries before it on card K: slots 0 to 15 in sector 33, 16 to 31 in sector 34 and so on.

use super::run_done;
use reference::{Answer, Operation};
use testkit::cards::Card;
pub use testkit::long_names::card_with;
use testkit::{ALL, PANEL, ROUTE};

pub const DELETE: Operation = Operation::Delete { name: ROUTE };
pub const RENAME: Operation = Operation::Rename {
    old: ROUTE,
    new: PANEL,
};

/// The first bytes of all slots that differ between the two, and that no other byte of the root directory does.
pub fn newly_deleted(before: &Card, after: &Card) -> Vec<usize> {
    let mut slots = Vec::new();
    for slot in 0..usize::from(before.spec.root_entries) {
        let (old, new) = (before.slot(slot), after.slot(slot));
        if old != new {
            assert_eq!(old[1..], new[1..], "slot {slot}");
            assert_eq!(new[0], 0xE5, "slot {slot}");
            slots.push(slot);
        }
    }
    slots
}

/// The slots that a delete of ROUTE.CUT marks, its own too. The record's count says the same.
pub fn deleted_with_it(card: &Card) -> Vec<usize> {
    deleted_with(card, ROUTE)
}

/// The same of any name: a file without clusters, or with some in the first FAT sector.
pub fn deleted_with(card: &Card, name: &[u8]) -> Vec<usize> {
    let stores = reference::plan(&card.bytes, &Operation::Delete { name }).expect("granted");
    let mut slots = Vec::new();
    for store in stores
        .iter()
        .filter(|store| (33..65).contains(&store.sector))
    {
        let first = (store.sector - 33) * 16;
        for (slot, new) in (first..).zip(store.bytes.chunks_exact(32)) {
            let old = card.slot(slot);
            assert_eq!(old[1..], new[1..], "slot {slot}");
            if old[0] != new[0] {
                assert_eq!(new[0], 0xE5, "slot {slot}");
                slots.push(slot);
            }
        }
    }
    let group = stores.iter().find(|store| store.sector == 65);
    let count = group.expect("a group").bytes[12];
    assert_eq!(usize::from(count), slots.len() - 1);
    slots
}

/// Cuts the call after every number of stores and recovers: as before it up to the group's store, as after it from then on.
pub fn every_cut(start: &Card, operation: &Operation, group: usize) {
    let mut finished = start.clone();
    run_done(&mut finished.bytes, operation);
    let stores = reference::plan(&start.bytes, operation).expect("granted");
    for cut in 0..=stores.len() {
        for limits in [
            &[ALL][..],
            &[1, ALL],
            &[1, 1, ALL],
            &[2, 1, ALL],
            &[3, 2, ALL],
        ] {
            let mut card = start.clone();
            reference::run(&mut card.bytes, operation, cut as u32);
            for &limit in limits {
                let answer = reference::recover(&mut card.bytes, limit);
                assert!(!matches!(answer, Answer::Refused(_)), "{answer:?}");
            }
            let expected = if cut > group { &finished } else { start };
            assert!(
                card.metadata() == expected.metadata(),
                "{operation:?} cut after {cut}, recovered by {limits:?}"
            );
            assert_eq!(reference::recover(&mut card.bytes, ALL), Answer::Done(0));
        }
    }
}
