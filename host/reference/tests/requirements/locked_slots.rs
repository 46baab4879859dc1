//! The read-only mark is that of the slot which a name means, whatever other slots have; and recovery does not ask it.

use crate::support::locked::{asking, granted, locked, refused, with_attributes};
use crate::support::{pattern, run_done, run_storing};
use reference::*;
use testkit::cards::Card;
use testkit::{AT, OTHER, ROUTE};

/// Only the lowest slot of a name has a say, whichever of two has the mark.
#[test]
fn two_slots_of_one_name() {
    let name = ROUTE;
    for (low, high, is_locked) in [(0x21, 0x20, true), (0x20, 0x21, false), (0x21, 0x21, true)] {
        for operation in asking(name) {
            let mut card = with_attributes(low);
            card.put_slot(1, ROUTE, high, 30, 700);
            card.put_chain(&[30, 31], 0xFFFF);
            if is_locked {
                refused(&mut card, &operation, Ground::Locked);
            } else {
                let other = card.slot(1).to_vec();
                run_done(&mut card.bytes, &operation);
                assert_eq!(card.slot(1), other, "{operation:?}");
            }
        }
    }
}

/// Labels, long-name entries and deleted slots bear no name, so their mark is nobody's.
#[test]
fn slots_that_bear_no_name() {
    for attributes in [0x09, 0x0F, 0x19, 0x29] {
        for operation in asking(ROUTE) {
            let mut card = Card::k();
            card.put_slot(0, ROUTE, attributes, 0, 0);
            refused(&mut card, &operation, Ground::Absent);
            card.put_slot(1, ROUTE, 0x20, 20, 700);
            card.put_chain(&[20, 21], 0xFFFF);
            granted(&card, &operation);
            card.slot_mut(1)[11] = 0x21;
            refused(&mut card, &operation, Ground::Locked);
        }
    }
    for operation in asking(ROUTE) {
        let mut card = locked();
        card.slot_mut(0)[0] = 0xE5;
        refused(&mut card, &operation, Ground::Absent);
        card.put_slot(1, ROUTE, 0x20, 20, 700);
        granted(&card, &operation);
    }
    // A slot after the end is free with all after it, whatever stands in it.
    let mut card = locked();
    card.slot_mut(0)[0] = 0;
    for operation in asking(ROUTE) {
        refused(&mut card, &operation, Ground::Absent);
    }
}

/// The mark is the slot's and not the file's before it: a slot far back, among others with and without.
#[test]
fn slots_of_other_names() {
    for (own, others) in [(0x20, 0x21), (0x21, 0x20)] {
        let mut card = Card::k();
        card.fill_root(0);
        for slot in 0..512 {
            card.slot_mut(slot)[11] = others;
        }
        card.put_slot(300, ROUTE, own, 20, 700);
        card.put_chain(&[20, 21], 0xFFFF);
        card.slot_mut(400)[0] = 0xE5;
        for operation in asking(ROUTE) {
            match own {
                0x21 => refused(&mut card, &operation, Ground::Locked),
                _ => granted(&card, &operation),
            }
        }
    }
}

/// What each call answers for each attribute byte of the only slot that has the name.
#[test]
fn every_attribute_byte() {
    for attributes in 0..=255_u8 {
        let is_entry = attributes & 0x08 == 0;
        let ground = match attributes {
            _ if !is_entry => Some(Ground::Absent),
            _ if attributes & 0x10 != 0 => Some(Ground::Directory),
            _ if attributes & 0x01 != 0 => Some(Ground::Locked),
            _ => None,
        };
        let mut card = with_attributes(attributes);
        for operation in asking(ROUTE) {
            match ground {
                Some(ground) => refused(&mut card, &operation, ground),
                None => granted(&card, &operation),
            }
        }
        let answer = read(&card.bytes, ROUTE, 0, &mut [0; 9]);
        let expected = match ground {
            None | Some(Ground::Locked) => Answer::Done(9),
            Some(ground) => Answer::Refused(ground),
        };
        assert_eq!(answer, expected, "{attributes:#x}");
        let listed = list(&card.bytes, &mut [0; 64]);
        assert_eq!(listed, Answer::Done(is_entry.into()), "{attributes:#x}");
        let create = Operation::Create {
            name: ROUTE,
            seconds: AT,
        };
        match is_entry {
            true => refused(&mut card, &create, Ground::Exists),
            false => granted(&card, &create),
        }
        granted(
            &card,
            &Operation::Create {
                name: OTHER,
                seconds: AT,
            },
        );
        assert_eq!(plan(&card.bytes, &Operation::Recover), Ok(vec![]));
    }
}

/// Both records of a group have the entry's attributes; here the mark has come to slot and record after the group was stored.
fn mark_pending(card: &mut Card, slot: usize) {
    card.slot_mut(slot)[11] |= 0x01;
    let log = (0..8).find(|&sector| ![0, 0xE5].contains(&card.log_sector_mut(sector)[0]));
    let log = log.expect("a pending group");
    card.log_sector_mut(log)[11] |= 0x01;
    if card.log_sector_mut(log)[13] == 5 {
        card.log_sector_mut(log)[32 + 11] |= 0x01;
    }
}

/// Recovery does not ask LOCKED: a pending group about a file with the mark is redone, and the mark stays.
#[test]
fn recovery_redoes_a_pending_group() {
    for operation in asking(ROUTE) {
        let before = with_attributes(0x20);
        let stores = plan(&before.bytes, &operation).expect("granted");
        let group = stores
            .iter()
            .position(|store| (65..73).contains(&store.sector));
        let group = group.expect("a group's store");
        let mut finished = before.clone();
        run_done(&mut finished.bytes, &operation);
        for cut in group + 1..stores.len() {
            let mut card = before.clone();
            run(&mut card.bytes, &operation, cut as u32);
            if card.slot(0)[0] == 0xE5 {
                continue; // the root sector is stored: its slots are the finished ones
            }
            mark_pending(&mut card, 0);
            refused(&mut card, &operation, Ground::Unclean);
            run_done(&mut card.bytes, &Operation::Recover);
            let mut expected = finished.clone();
            let slot = match operation {
                Operation::Rename { .. } => 1,
                _ => 0,
            };
            expected.slot_mut(slot)[11] |= 0x01;
            if slot == 1 {
                expected.slot_mut(0)[11] |= 0x01; // the deleted slot keeps its bytes
            }
            assert!(
                card.metadata() == expected.metadata(),
                "{operation:?} {cut}"
            );
            assert_eq!(plan(&card.bytes, &Operation::Recover), Ok(vec![]));
        }
    }
}

/// A group that was dropped leaves the file with its mark, and the FATs as they were.
#[test]
fn recovery_drops_what_has_no_group() {
    let data = pattern(600, 1);
    let append = Operation::Append {
        name: ROUTE,
        data: &data,
        seconds: AT,
    };
    let mut card = with_attributes(0x20);
    // One data sector that was there, a new one, FAT2.
    let answer = run(&mut card.bytes, &append, 3);
    assert_eq!(answer, Answer::Stopped(3));
    card.slot_mut(0)[11] = 0x21;
    run_storing(&mut card.bytes, &Operation::Recover, &[17]);
    assert!(card.metadata() == locked().metadata());
}
