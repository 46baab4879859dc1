//! Files with long entries before their slots, systematically: deleted and renamed, cut and recovered. What is marked is written
//! down here or judged by `testkit::long_names`, beside the comparison with the reference.

use crate::support::twin::Twin;
use reference::{Answer, Ground};
use testkit::call::Call;
use testkit::cards::Card;
use testkit::long_names::{card_with, checksum, root_after, JUDGED};
use testkit::random::Random;
use testkit::{cases, Name, ALL, AT, OTHER, PANEL, ROUTE};

fn delete() -> Call {
    Call::Delete(ROUTE.to_vec())
}

fn rename() -> Call {
    Call::Rename(ROUTE.to_vec(), PANEL.to_vec())
}

/// Both calls under every limit, each then recovered under every limit; the finished one leaves the root directory that it should.
fn assert_ended(twin: &mut Twin) {
    for call in [delete(), rename()] {
        let root = root_after(&twin.card, &call).expect("a file, and a free slot");
        twin.all_limits(&call, |twin| {
            twin.done(&Call::Recover);
            assert_eq!(twin.call(&Call::Recover, ALL), Answer::Done(0));
        });
        twin.tried(&call, ALL, |twin| {
            let card = &twin.card;
            let got = &card.bytes[512 * card.root()..512 * card.data()];
            assert!(got == root, "{call:?}");
        });
    }
}

/// Every number of entries, their slot at every place around a border of root sectors; 21 and more do not belong.
#[test]
fn every_count_over_a_border() {
    for count in [0, 1, 2, 3, 5, 15, 16, 17, 19, 20, 21, 22, 40] {
        for slot in [15, 16, 17, 18, 20, 31, 32, 33, 35, 36, 37] {
            if count <= slot {
                let card = card_with(slot, count);
                let own = if count > 20 { 0 } else { count };
                assert_eq!(card.long_entries(slot), own);
                assert_ended(&mut Twin::new(card));
            }
        }
    }
    for (slot, count) in [(1, 1), (2, 2), (20, 20), (511, 20), (510, 20), (511, 1)] {
        let mut card = card_with(slot, count);
        if slot == 511 {
            card.mark_deleted([100]);
        }
        assert_ended(&mut Twin::new(card));
    }
}

/// Without the last entry none belong, also where the entries begin in slot 0.
#[test]
fn without_the_last_entry() {
    for (slot, count) in [(1, 1), (3, 3), (19, 19), (20, 20), (25, 20), (17, 2)] {
        let mut card = card_with(slot, count);
        card.slot_mut(slot - count)[0] &= !0x40;
        let mut twin = Twin::new(card);
        assert_eq!(marked(&mut twin), [slot]);
        assert_ended(&mut twin);
    }
}

/// Which slots a finished delete marks; the record's count says as many.
fn marked(twin: &mut Twin) -> Vec<usize> {
    let before: Vec<u8> = (0..512).map(|slot| twin.card.slot(slot)[0]).collect();
    let mut slots = Vec::new();
    twin.tried(&delete(), ALL, |twin| {
        let differs = |&slot: &usize| twin.card.slot(slot)[0] != before[slot];
        slots = (0..512).filter(differs).collect();
        let log = twin.card.log_sector_mut(0);
        assert_eq!(usize::from(log[12]) + 1, slots.len());
    });
    slots
}

/// Every value of the bytes that count, in each of three entries in slots 14 to 16.
#[test]
fn every_damage_of_one_byte() {
    let mut twin = Twin::new(card_with(17, 3));
    for entry in 14..17 {
        for at in JUDGED {
            let own = twin.card.slot(entry)[at];
            // A first byte of 0 ends the directory: that is ROOT.
            for byte in u8::from(at == 0)..=255 {
                twin.set_slot_byte(entry, at, byte);
                let expected = match (at, entry, byte) {
                    _ if byte == own => &[14, 15, 16, 17][..],
                    (0, 15, 0x42) => &[15, 16, 17],
                    (0, 16, 0x41) => &[16, 17],
                    _ => &[17],
                };
                let what = format!("slot {entry}, byte {at} = {byte:#x}");
                assert_eq!(marked(&mut twin), expected, "{what}");
                if byte % 16 == own % 16 {
                    twin.all_limits(&rename(), |twin| twin.done(&Call::Recover));
                }
            }
            twin.set_slot_byte(entry, at, own);
        }
        // No other byte counts.
        for at in (1..32).filter(|at| !JUDGED.contains(at)) {
            let own = twin.card.slot(entry)[at];
            for byte in [0, own ^ 1, 0xE5, 0xFF] {
                twin.set_slot_byte(entry, at, byte);
                assert_eq!(marked(&mut twin), [14, 15, 16, 17], "{at} = {byte:#x}");
            }
            twin.set_slot_byte(entry, at, own);
        }
    }
}

/// Every byte of the slot's own name is in the sum, and no other byte of the slot.
#[test]
fn sums_of_names() {
    let mut random = Random::new(70_000);
    let allowed = b"ABCXYZ019!#$%&'()-@^_`{}~";
    let mut twin = Twin::new(Card::k());
    for _ in 0..cases(300) {
        let mut name: Name = *b"           ";
        let (stem, extension) = (1 + random.below(8), random.below(4));
        for at in (0..stem).chain(8..8 + extension) {
            name[at] = random.pick(allowed);
        }
        let other = random.byte();
        twin.edit(|card| {
            card.put_slot(3, &name, 0x20, 0, 0);
            card.slot_mut(3)[12..26].fill(other);
            card.put_slot(0, OTHER, 0x08, 0, 0);
            card.put_long_entries(3, 2);
        });
        let delete = Call::Delete(name.to_vec());
        let firsts = |twin: &Twin| [1, 2, 3].map(|slot| twin.card.slot(slot)[0]);
        twin.tried(&delete, ALL, |twin| {
            assert_eq!(firsts(twin), [0xE5; 3], "{name:?}")
        });
        let wrong = checksum(&name).wrapping_add(1 + random.byte() % 255);
        twin.set_slot_byte(1 + random.below(2), 13, wrong);
        twin.tried(&delete, ALL, |twin| {
            assert_eq!(firsts(twin), [0x42, 0x01, 0xE5], "{name:?}")
        });
    }
}

/// The new slot before the entries, in their sector or another, and after them; one that they take is not free for the call.
#[test]
fn new_slots() {
    for (old, count) in [(17, 2), (16, 1), (35, 20), (51, 20), (18, 2)] {
        for new in [0, 3, old - count - 1, old + 1, old + 20, 511] {
            let mut card = card_with(old, count);
            card.fill_root(old + 1);
            let full = Answer::Refused(Ground::Rootfull);
            card.mark_deleted([new]);
            let mut twin = Twin::new(card);
            assert_ended(&mut twin);
            twin.edit(|card| card.slot_mut(new)[0] = b'F');
            assert_eq!(twin.call(&rename(), ALL), full);
        }
    }
}

/// Runs cut in two by a deleted slot, doubled, in the wrong order, of another name, or without their slot.
#[test]
fn broken_runs() {
    type Change = fn(&mut Card);
    let changes: [(Change, &[usize]); 9] = [
        (|card| card.mark_deleted([16]), &[17]),
        (|card| card.mark_deleted([15]), &[17]),
        (|card| card.mark_deleted([14]), &[17]),
        (|card| card.put_long_entries(14, 3), &[14, 15, 16, 17]),
        (
            |card| card.slot_mut(13)[..14].copy_from_slice(b"\x44aaaaaaaaaa\x0F\0\x13"),
            &[14, 15, 16, 17],
        ),
        (|card| card.slot_mut(14)[0] = 0x03, &[17]),
        (|card| card.slot_mut(16)[0] = 0x43, &[17]),
        (
            |card| card.slot_mut(17)[..11].copy_from_slice(b"ROUTE   CUU"),
            &[],
        ),
        (
            |card| (14..17).for_each(|slot| card.slot_mut(slot)[11] = 0x0E),
            &[17],
        ),
    ];
    for (change, expected) in changes {
        let mut card = card_with(17, 3);
        change(&mut card);
        let mut twin = Twin::new(card);
        if expected.is_empty() {
            // The slot has another name, whose sum is another.
            twin.edit(|card| card.put_slot(18, ROUTE, 0x20, 20, 700));
            assert_eq!(marked(&mut twin), [18]);
        } else {
            assert_eq!(marked(&mut twin), expected);
        }
        assert_ended(&mut twin);
    }
}

/// Other calls keep long entries, and their records hold no count.
#[test]
fn other_calls() {
    let name = || ROUTE.to_vec();
    for call in [
        Call::Create(OTHER.to_vec(), AT),
        Call::Append(name(), vec![7; 600], AT),
        Call::Replace(name(), vec![7; 600], AT),
        Call::Truncate(name(), 3, AT),
    ] {
        let mut twin = Twin::new(card_with(17, 3));
        let before = twin.card.clone();
        twin.all_limits(&call, |twin| {
            twin.done(&Call::Recover);
            for slot in 0..17 {
                assert_eq!(twin.card.slot(slot), before.slot(slot), "{call:?}");
            }
            assert_eq!(twin.card.log_sector_mut(0)[12], 0, "{call:?}");
        });
    }
}

/// After the cut another machine changes the entries: recovery goes by the record's count all the same.
#[test]
fn entries_changed_after_a_cut() {
    for (call, group) in [(delete(), 2), (rename(), 1)] {
        let mut twin = Twin::new(card_with(17, 3));
        let stores = twin.stores(&call) as u32;
        for at in JUDGED {
            for byte in [0x01, 0x41, 0x20, 0xE5, 0x77] {
                for cut in 1..stores {
                    twin.tried(&call, cut, |twin| {
                        (14..17).for_each(|slot| twin.set_slot_byte(slot, at, byte));
                        twin.done(&Call::Recover);
                        let first = |slot: usize| twin.card.slot(slot)[0];
                        let is_marked = (14..18).all(|slot| first(slot) == 0xE5);
                        assert_eq!(is_marked, cut >= group, "{call:?} {cut}");
                    });
                }
            }
        }
    }
}
