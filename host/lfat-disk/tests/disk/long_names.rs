//! Files with long names: removed and renamed, by name and by slot, on a disk that lies; and the names that went along.

use crate::support::cards::{card_over, long_names, two_files, Verb, ALL, NEW, PANEL, ROUTE};
use crate::support::cuts::{examine, Depth, Ships};
use crate::support::lying::Lying;
use lfat_disk::lists::Planned;
use lfat_disk::{Access, DiskCard, InUse, Operation, RemovedName};

/// Cut after every disk operation, with every choice of what was kept back: old or new, the long entries too.
#[test]
fn every_verb() {
    let depth = Depth {
        all_below: 5,
        recoveries: true,
    };
    let rename = |old, new| Verb::Calls(vec![Operation::Rename { old, new }]);
    let delete = |name| Verb::Calls(vec![Operation::Delete { name }]);
    for verb in [
        delete(ROUTE),
        delete(PANEL),
        rename(ROUTE, NEW),
        rename(PANEL, NEW),
        Verb::DeleteSlot(17),
        Verb::DeleteSlot(38),
        Verb::RenameSlot(17, NEW),
        Verb::RenameSlot(38, NEW),
    ] {
        let tried = examine(&Ships, &long_names(), &verb, depth);
        let tried = tried.unwrap_or_else(|what| panic!("{what}"));
        assert!(tried.old > 3 && tried.new > 3, "{verb:?}: {tried:?}");
    }
}

/// Runs a verb, and gives the slots that it has marked and the long name that it tells.
fn ended(card: &[u8], verb: &Verb) -> (Vec<usize>, Option<RemovedName>) {
    let mut disk = Lying::new(card);
    let mut open = DiskCard::on(&mut disk, Planned, Access::Write).expect("opened");
    let before = InUse::of(open.window());
    verb.run(&mut open).expect("granted");
    let long = before.long_name_gone(open.window());
    drop(open);
    let (before, after) = (card_over(card), card_over(&disk.kept.to_vec()));
    let is_marked = |slot: &usize| before.slot(*slot)[0] != 0xE5 && after.slot(*slot)[0] == 0xE5;
    ((0..512).filter(is_marked).collect(), long)
}

/// A slot by another name has the same long entries: the name that is lent has its checksum, whichever that is.
#[test]
fn names_that_are_lent() {
    let mut sums = [false; 256];
    for byte in 0..=255_u8 {
        let mut card = card_over(&two_files());
        let slot = card.give_long_name(1, 3).expect("room");
        // A name that no rule allows; the sum goes through all numbers with its last byte.
        card.slot_mut(slot)[..2].copy_from_slice(&[0x80, b'.']);
        card.slot_mut(slot)[10] = byte;
        card.put_long_entries(slot, 3);
        sums[usize::from(card.slot(slot - 1)[13])] = true;
        let own: Vec<usize> = (slot - 3..=slot).collect();
        let (marked, long) = ended(&card.bytes, &Verb::DeleteSlot(slot));
        assert_eq!(marked, own, "{byte:#x}");
        assert_eq!(long.map(|long| long.entries), Some(3));
        if byte % 16 == 0 {
            let (marked, _) = ended(&card.bytes, &Verb::RenameSlot(slot, NEW));
            assert_eq!(marked, own, "{byte:#x}");
        }
    }
    assert_eq!(sums, [true; 256]);
}

/// Long entries that do not belong to the slot's own name do not go along by a name that is lent.
#[test]
fn entries_of_another_name() {
    let mut card = card_over(&long_names());
    card.slot_mut(17)[4] = 0x80;
    let (marked, long) = ended(&card.bytes, &Verb::DeleteSlot(17));
    assert_eq!((marked, long), (vec![17], None));
}

/// A lent name is none that the card has, nor the new one.
#[test]
fn lent_names_that_are_taken() {
    let mut card = card_over(&long_names());
    card.slot_mut(17)[1] = 0x80;
    card.put_long_entries(17, 2);
    let mut taken = Vec::new();
    for slot in [39, 40, 41] {
        // The name that was lent stands in the slot that was removed, but for its first byte.
        let mut disk = Lying::new(&card.bytes);
        let mut open = DiskCard::on(&mut disk, Planned, Access::Write).expect("opened");
        open.delete_slot(17, ALL).expect("granted");
        drop(open);
        let mut name = card_over(&disk.kept.to_vec()).slot(17)[..11].to_vec();
        name[0] = b'L';
        assert!(!taken.contains(&name), "{name:?}");
        let name_bytes: [u8; 11] = name[..].try_into().expect("11 bytes");
        card.put_slot(slot, &name_bytes, 0x20, 0, 0);
        taken.push(name);
    }
    // As the new name it is not lent either, so the rename is granted.
    let new: &'static [u8] = taken.remove(2).leak();
    card.slot_mut(41).fill(0);
    let (marked, _) = ended(&card.bytes, &Verb::RenameSlot(17, new));
    assert_eq!(marked, [15, 16, 17]);
}

/// The name that is told: 13 characters an entry, from the one next to the slot on, up to the first zero.
#[test]
fn the_name_that_went() {
    let card = card_over(&long_names());
    let (marked, long) = ended(
        &card.bytes,
        &Verb::Calls(vec![Operation::Delete { name: ROUTE }]),
    );
    assert_eq!(marked, [15, 16, 17]);
    let text = card.long_name(17).expect("a long name");
    assert_eq!(text, "bcdefghijklmncdefghijklmno");
    assert_eq!(long, Some(RemovedName { entries: 2, text }));
    // Letters of another alphabet, a lone half of a pair, and the end in mid-entry.
    let mut card = card.clone();
    for (at, character) in [
        (1, 0x041F),
        (3, 0x822A),
        (5, 0xD83D),
        (7, b'x'.into()),
        (9, 0),
        (14, b'y'.into()),
    ] {
        card.slot_mut(16)[at..at + 2].copy_from_slice(&u16::to_le_bytes(character));
    }
    let (_, long) = ended(&card.bytes, &Verb::RenameSlot(17, NEW));
    let text = "\u{41F}\u{822A}\u{FFFD}x".to_string();
    assert_eq!(long, Some(RemovedName { entries: 2, text }));
    // No long name, and a card that cannot be read.
    let (_, none) = ended(&two_files(), &Verb::DeleteSlot(1));
    assert_eq!(none, None);
    assert_eq!(InUse::of(&[]).long_name_gone(&[]), None);
}
