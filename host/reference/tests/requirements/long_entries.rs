//! Long entries: which belong to a slot, and that delete and rename mark them. Sectors and slots are worked out by hand on card K.

use crate::support::long::{
    card_with, deleted_with, deleted_with_it, newly_deleted, DELETE, RENAME,
};
use crate::support::{run_done, run_storing};
use reference::*;
use testkit::cards::Card;
use testkit::{Name, ALL, AT, OTHER, PANEL, ROUTE};

/// Short names with the checksum that mtools 4.0.32 wrote into their long entries.
const WRITTEN_BY_MTOOLS: [(&Name, u8); 10] = [
    (b"SHEERP~1CUT", 0xDC),
    (b"HULL7S~1CUT", 0x6D),
    (b"ABCDEF~1   ", 0xCA),
    (b"ABCDEF~2   ", 0xEA),
    (b"XXXXXX~1   ", 0x21),
    (b"YYYYYY~1   ", 0xB2),
    (b"ZZZZZZ~1   ", 0x44),
    (b"______~1CUT", 0xEA),
    (b"__      CUT", 0xB6),
    (b"MIXED   CUT", 0x81),
];

#[test]
fn the_checksum() {
    for (name, sum) in WRITTEN_BY_MTOOLS {
        let mut card = Card::k();
        card.put_slot(1, name, 0x20, 0, 0);
        card.slot_mut(0)[..13].copy_from_slice(b"\x41a\0b\0c\0\0\0\xFF\xFF\x0F\0");
        for stored in 0..=255 {
            card.slot_mut(0)[13] = stored;
            let expected: &[usize] = if stored == sum { &[0, 1] } else { &[1] };
            assert_eq!(deleted_with(&card, name), expected, "{stored:#x}");
        }
    }
}

/// The three slots of `sheer panel, port.cut` as mtools wrote them, but for first cluster and size.
const SHEER_PANEL: [[u8; 32]; 3] = [
    *b"\x42p\0o\0r\0t\0.\0\x0F\0\xDCc\0u\0t\0\0\0\xFF\xFF\xFF\xFF\0\0\xFF\xFF\xFF\xFF",
    *b"\x01s\0h\0e\0e\0r\0\x0F\0\xDC \0p\0a\0n\0e\0l\0\0\0,\0 \0",
    *b"SHEERP~1CUT\x20\0\0\xC4\x42\x71\x5D\x71\x5D\0\0\xC4\x42\x71\x5D\0\0\0\0\0\0",
];

#[test]
fn a_long_name_of_mtools() {
    for first in [0, 3, 13, 14, 15, 16, 509] {
        let mut card = Card::k();
        card.fill_root(0);
        for (place, bytes) in SHEER_PANEL.iter().enumerate() {
            card.slot_mut(first + place).copy_from_slice(bytes);
        }
        let marked = deleted_with(&card, b"SHEERP~1CUT");
        assert_eq!(marked, [first, first + 1, first + 2]);
    }
}

/// Slot, long entries, and the root sectors that a delete stores.
#[test]
fn sectors_of_a_delete() {
    for (slot, count, root) in [
        (17, 0, &[34][..]),
        (17, 1, &[34]),
        (17, 2, &[33, 34]),
        (16, 2, &[33, 34]),
        (16, 1, &[33, 34]),
        (18, 2, &[34]),
        (15, 2, &[33]),
        (20, 20, &[33, 34]),
        (35, 20, &[33, 34, 35]),
        (36, 20, &[34, 35]),
        (51, 20, &[34, 35, 36]),
        (511, 20, &[63, 64]),
    ] {
        let before = card_with(slot, count);
        let mut card = before.clone();
        let sectors = [&[17, 65, 1], root, &[65]].concat();
        run_storing(&mut card.bytes, &DELETE, &sectors);
        let marked: Vec<usize> = (slot - count..=slot).collect();
        assert_eq!(newly_deleted(&before, &card), marked);
        let log = card.log_sector_mut(0);
        let [low, high] = (slot as u16).to_le_bytes();
        assert_eq!(log[11..20], [0x20, count as u8, 3, 0, 0, 0, 0, low, high]);
        assert!(log[32..].iter().all(|&byte| byte == 0));
    }
}

/// Old slot, long entries, new slot, and the root sectors that a rename stores.
#[test]
fn sectors_of_a_rename() {
    for (old, count, new, root) in [
        (17, 2, 18, &[33, 34][..]),
        (17, 2, 3, &[33, 34]),
        (17, 2, 14, &[33, 34]),
        (17, 2, 40, &[33, 34, 35]),
        (16, 2, 300, &[33, 34, 51]),
        (18, 2, 3, &[33, 34]),
        (18, 2, 15, &[33, 34]),
        (18, 2, 19, &[34]),
        (15, 2, 16, &[33, 34]),
        (35, 20, 14, &[33, 34, 35]),
        (35, 20, 48, &[33, 34, 35, 36]),
        (51, 20, 0, &[33, 34, 35, 36]),
        (51, 20, 52, &[34, 35, 36]),
        (511, 20, 0, &[33, 63, 64]),
        (20, 20, 21, &[33, 34]),
    ] {
        let mut card = card_with(old, count);
        // Files between, so that the new slot is the lowest that is free.
        for slot in old + 1..new {
            card.put_slot(slot, OTHER, 0x20, 0, 0);
        }
        if new < old {
            card.mark_deleted([new]);
        }
        let mut expected = card.clone();
        let mut bytes = card.slot(old).to_vec();
        bytes[..11].copy_from_slice(PANEL);
        expected.mark_deleted(old - count..=old);
        expected.slot_mut(new).copy_from_slice(&bytes);
        run_storing(&mut card.bytes, &RENAME, &[&[65], root, &[65]].concat());
        assert!(
            card.metadata() == expected.metadata(),
            "{old} {count} {new}"
        );
        let log = card.log_sector_mut(0);
        assert_eq!(log[11..14], [0x20, count as u8, 5]);
        assert_eq!(log[32 + 11..32 + 14], [0x20, count as u8, 0]);
        assert_eq!(log[18..20], (old as u16).to_le_bytes());
        assert_eq!(log[50..52], (new as u16).to_le_bytes());
        // The new slot has no long entries, whatever stands before it.
        assert_eq!(card.slot(new)[..11], *PANEL);
        let delete = Operation::Delete { name: PANEL };
        let before = card.clone();
        run_done(&mut card.bytes, &delete);
        assert_eq!(newly_deleted(&before, &card), [new]);
    }
}

#[test]
fn up_to_twenty_belong() {
    for count in 0..=40 {
        for slot in [count, count + 1, 60] {
            let own: Vec<usize> = match count {
                0..=20 => (slot - count..=slot).collect(),
                _ => vec![slot],
            };
            assert_eq!(deleted_with_it(&card_with(slot, count)), own, "{count}");
        }
    }
}

/// Entries that lack the last one, before slot 0 or before another slot; at slot 0 there is nothing before.
#[test]
fn without_the_last_entry() {
    assert_eq!(deleted_with_it(&card_with(0, 0)), [0]);
    for count in 1..=20 {
        for slot in [count, count + 1, 40] {
            let mut card = card_with(slot, count);
            card.slot_mut(slot - count)[0] &= !0x40;
            assert_eq!(deleted_with_it(&card), [slot], "{count}");
        }
    }
}

/// Every value of every byte of three entries in slots 14 to 16: order number, attributes and checksum must be as they are, no
/// other byte counts. Only the mark of the last entry on another makes a shorter run.
#[test]
fn every_byte_of_an_entry() {
    let mut card = card_with(17, 3);
    for entry in 14..17 {
        for at in 0..32 {
            let own = card.slot(entry)[at];
            // A first byte of 0 ends the directory.
            for byte in u8::from(at == 0)..=255 {
                card.slot_mut(entry)[at] = byte;
                let expected = match (at, entry, byte) {
                    _ if byte == own => &[14, 15, 16, 17][..],
                    (0, 15, 0x42) => &[15, 16, 17],
                    (0, 16, 0x41) => &[16, 17],
                    (0 | 11 | 13, _, _) => &[17],
                    _ => &[14, 15, 16, 17],
                };
                let marked = deleted_with_it(&card);
                assert_eq!(marked, expected, "slot {entry}, byte {at} = {byte:#x}");
            }
            card.slot_mut(entry)[at] = own;
        }
    }
}

/// The same of a single entry: 0x41 and nothing else, not 0x01, 0x40, 0x61, 0x81, 0xC1.
#[test]
fn every_first_byte_of_a_single_entry() {
    for byte in 1..=255 {
        let mut card = card_with(16, 1);
        card.slot_mut(15)[0] = byte;
        let expected: &[usize] = if byte == 0x41 { &[15, 16] } else { &[16] };
        assert_eq!(deleted_with_it(&card), expected, "{byte:#x}");
    }
}

/// The run ends at the first entry with 0x40, going back: entries of other names, or of this one once more, stay.
#[test]
fn farther_back() {
    for (first, attributes, sum) in [
        (0x43, 0x0F, 0x13),
        (0x03, 0x0F, 0x13),
        (0x41, 0x0F, 0x13),
        (0x42, 0x0F, 0x77),
    ] {
        let mut card = card_with(17, 2);
        let entry = card.slot_mut(14);
        entry[0] = first;
        entry[11] = attributes;
        entry[13] = sum;
        assert_eq!(deleted_with_it(&card), [15, 16, 17], "{first:#x}");
    }
    // Two files with long names, side by side: each has its own, though both are named alike.
    let mut card = card_with(17, 2);
    card.put_slot(14, ROUTE, 0x08, 0, 0);
    card.put_long_entries(14, 3);
    assert_eq!(deleted_with_it(&card), [15, 16, 17]);
}

/// A deleted slot between the entries and their slot, or another slot with the same name's sum.
#[test]
fn slots_between() {
    let mut card = card_with(17, 3);
    card.mark_deleted([16]);
    assert_eq!(deleted_with_it(&card), [17]);
    // The entries stand before a label of this name, and not before the file.
    let mut card = card_with(17, 3);
    card.put_slot(18, ROUTE, 0x20, 20, 700);
    card.slot_mut(17)[11] = 0x08;
    assert_eq!(deleted_with_it(&card), [18]);
    // Numbers that rise with the slots are the wrong way round.
    let mut card = card_with(17, 3);
    card.slot_mut(14)[0] = 0x01;
    card.slot_mut(16)[0] = 0x43;
    assert_eq!(deleted_with_it(&card), [17]);
}

/// Create, append, truncate and replace leave long entries alone, and their records hold 0; so does a refused delete.
#[test]
fn other_operations() {
    let data = &[7; 900][..];
    for operation in [
        Operation::Create {
            name: OTHER,
            seconds: AT,
        },
        Operation::Append {
            name: ROUTE,
            data,
            seconds: AT,
        },
        Operation::Truncate {
            name: ROUTE,
            size: 5,
            seconds: AT,
        },
        Operation::Replace {
            name: ROUTE,
            data,
            seconds: AT,
        },
    ] {
        let before = card_with(17, 3);
        let mut card = before.clone();
        run_done(&mut card.bytes, &operation);
        assert_eq!(card.log_sector_mut(0)[12], 0, "{operation:?}");
        for slot in 0..17 {
            assert_eq!(card.slot(slot), before.slot(slot), "{operation:?}");
        }
    }
    let mut locked = card_with(17, 3);
    locked.slot_mut(17)[11] = 0x21;
    let before = locked.bytes.clone();
    for operation in [DELETE, RENAME] {
        let refused = Answer::Refused(Ground::Locked);
        assert_eq!(run(&mut locked.bytes, &operation, ALL), refused);
    }
    assert!(locked.bytes == before);
}

/// Slots that the call marks are not free for it, and are for the next one.
#[test]
fn marked_slots_as_new_ones() {
    let mut card = card_with(17, 3);
    card.fill_root(18);
    let rootfull = Answer::Refused(Ground::Rootfull);
    assert_eq!(run(&mut card.bytes, &RENAME, ALL), rootfull);
    card.mark_deleted([500]);
    run_storing(&mut card.bytes, &RENAME, &[65, 33, 34, 64, 65]);
    assert_eq!(card.slot(500)[..11], *PANEL);
    for slot in [14, 15, 16, 17] {
        let name: Name = format!("N{slot:07}   ").as_bytes().try_into().unwrap();
        run_done(
            &mut card.bytes,
            &Operation::Create {
                name: &name,
                seconds: AT,
            },
        );
        assert_eq!(card.slot(slot)[..11], name);
    }
    let another = Operation::Create {
        name: OTHER,
        seconds: AT,
    };
    assert_eq!(run(&mut card.bytes, &another, ALL), rootfull);
}
