//! Create with a long name: sectors, slots and every byte of them, worked out by hand on card K.

use crate::support::long_create::*;
use crate::support::{run_done, run_storing};
use reference::*;
use testkit::cards::Card;
use testkit::{Name, ALL, AT, OTHER, PANEL, ROUTE};

const F: u16 = 0xFFFF;

/// The name of 22 characters in slots 0 and 1, the short one in slot 2; the group in sector 65.
#[test]
fn hull_7_sheer_panel() {
    let mut card = Card::k();
    let characters = bytes_of_text("Hull 7 sheer panel.cut");
    run_storing(&mut card.bytes, &hull_named(&characters), &[65, 33, 65]);
    let letters = |text: &str| text.encode_utf16().collect::<Vec<u16>>();
    let mut second = letters("panel.cut");
    second.extend([0, F, F, F]);
    let first = letters("Hull 7 sheer ");
    assert_eq!(card.slot(0), entry(0x42, second.try_into().unwrap()));
    assert_eq!(card.slot(1), entry(0x01, first.try_into().unwrap()));
    assert_eq!(card.slot(2), created());
    assert!(card.slot(3) == [0; 32]);
    // 22 characters are two records; with the main one and the stamp four begin 0xE5.
    let mut log = group(2, 2, &letters("Hull 7 sheer panel.cut"));
    for at in [0, 32, 64, 96] {
        log[at] = 0xE5;
    }
    assert!(card.log_sector_mut(0) == log);
}

/// Length, long slots, records of characters, and the last entry's characters from its first one on: 1, 12 to 15, 26, 27, 208 ..
#[test]
fn lengths() {
    for (length, slots, records) in [
        (1, 1, 1),
        (2, 1, 1),
        (12, 1, 1),
        (13, 1, 1),
        (14, 2, 1),
        (16, 2, 1),
        (17, 2, 2),
        (25, 2, 2),
        (26, 2, 2),
        (27, 3, 2),
        (32, 3, 2),
        (33, 3, 3),
        (195, 15, 13),
        (196, 16, 13),
        (207, 16, 13),
        (208, 16, 13),
    ] {
        let mut card = Card::k();
        let name = letters(length);
        let characters = bytes_of(&name);
        let sectors: &[usize] = if slots < 16 {
            &[65, 33, 65]
        } else {
            &[65, 33, 34, 65]
        };
        let operation = hull_named(&characters);
        let stores = plan(&card.bytes, &operation).expect("granted");
        assert!(
            stores[0].bytes == group(slots, u16::from(slots), &name),
            "{length}"
        );
        run_storing(&mut card.bytes, &operation, sectors);

        for number in 1..=slots {
            let first = 13 * usize::from(number - 1);
            let mut own = [F; 13];
            for (place, character) in own.iter_mut().enumerate() {
                match name.get(first + place) {
                    Some(&given) => *character = given,
                    None if first + place == length => *character = 0,
                    None => (),
                }
            }
            let mark = if number == slots { 0x40 } else { 0 };
            let slot = usize::from(slots - number);
            assert_eq!(
                card.slot(slot),
                entry(number | mark, own),
                "{length} {number}"
            );
        }
        assert_eq!(card.slot(usize::from(slots)), created(), "{length}");
        let mut log = group(slots, u16::from(slots), &name);
        for record in 0..=records + 1 {
            log[32 * record] = 0xE5;
        }
        assert!(card.log_sector_mut(0) == log, "{length}");
        assert_eq!(card.log_sector_mut(0)[32 * (records + 2)], 0, "{length}");
        assert_eq!(list(&card.bytes, &mut []), Answer::Done(1));
        assert_eq!(recover(&mut card.bytes, ALL), Answer::Done(0), "{length}");
    }
}

/// A filled last slot has neither a zero nor 0xFFFF.
#[test]
fn filled_slots() {
    for length in (13..=208).step_by(13) {
        let mut card = Card::k();
        run_done(&mut card.bytes, &hull_named(&bytes_of(&letters(length))));
        let farthest = card.slot(0);
        assert_eq!(farthest[30..], letters(length)[length - 1].to_le_bytes());
        assert!((1..32).all(|at| farthest[at] != 0xFF), "{length}");
    }
}

/// Slots that are free, how many the name needs in all, and the run that it gets: deleted and never used ones alike, over the
/// borders of root sectors, the lowest that is long enough.
#[test]
fn runs() {
    let spans: [(&[(usize, usize)], usize, usize); 14] = [
        (&[(0, 2)], 2, 0),
        (&[(0, 1), (2, 2)], 2, 2),
        (&[(0, 2), (3, 3), (7, 4)], 4, 7),
        (&[(3, 5), (9, 3)], 3, 3),
        (&[(14, 2)], 2, 14),
        (&[(15, 2)], 2, 15),
        (&[(14, 4)], 3, 14),
        (&[(13, 3), (17, 3)], 3, 13),
        (&[(13, 2), (16, 17)], 17, 16),
        (&[(15, 17)], 17, 15),
        (&[(30, 17), (80, 17)], 17, 30),
        (&[(30, 16), (80, 18)], 17, 80),
        (&[(495, 17)], 17, 495),
        (&[(510, 2)], 2, 510),
    ];
    for (free, needed, first) in spans {
        let mut card = Card::k();
        card.fill_root(0);
        for &(from, count) in free {
            card.mark_deleted(from..from + count);
        }
        let characters = bytes_of(&letters(13 * (needed - 1)));
        let slot = first + needed - 1;
        let root: Vec<usize> = (33 + first / 16..=33 + slot / 16).collect();
        let before = card.clone();
        let sectors = [&[65], &root[..], &[65]].concat();
        run_storing(&mut card.bytes, &hull_named(&characters), &sectors);
        assert_eq!(card.slot(slot), created(), "{free:?}");
        assert_eq!(card.long_entries(slot), needed - 1);
        for other in (0..512).filter(|other| !(first..=slot).contains(other)) {
            assert_eq!(card.slot(other), before.slot(other), "{free:?} {other}");
        }
    }
}

/// A run of deleted slots that goes on into never used ones; the slot after it still begins 0.
#[test]
fn deleted_and_never_used() {
    for (deleted, unused) in [(3, 5), (14, 16), (15, 16), (0, 1), (30, 40)] {
        let mut card = Card::k();
        card.fill_root(0);
        card.mark_deleted(deleted..unused);
        for slot in unused..512 {
            card.slot_mut(slot).fill(0);
        }
        let needed = unused - deleted + 2;
        let characters = bytes_of(&letters(13 * (needed - 1)));
        run_done(&mut card.bytes, &hull_named(&characters));
        assert_eq!(card.slot(unused + 1), created());
        assert_eq!(card.slot(unused + 2)[0], 0);
        assert_eq!(card.long_entries(unused + 1), needed - 1);
        assert_eq!(list(&card.bytes, &mut []), Answer::Done(deleted as u32 + 1));
    }
}

/// Free slots enough, but no run of them: ROOTFULL. The short form still finds one.
#[test]
fn no_run_is_long_enough() {
    for needed in 2..=17 {
        let mut card = Card::k();
        card.fill_root(0);
        for first in (0..500).step_by(needed) {
            card.mark_deleted(first..first + needed - 1);
        }
        let characters = bytes_of(&letters(13 * (needed - 1)));
        let before = card.bytes.clone();
        let answer = run(&mut card.bytes, &hull_named(&characters), ALL);
        assert_eq!(answer, Answer::Refused(Ground::Rootfull), "{needed}");
        assert!(card.bytes == before);
        let shorter = bytes_of(&letters(13 * (needed - 2)));
        if needed > 2 {
            run_done(&mut card.bytes, &hull_named(&shorter));
        }
        run_done(
            &mut card.bytes,
            &Operation::Create {
                name: OTHER,
                seconds: AT,
            },
        );
    }
    // One slot is left, or none.
    for free in [0, 1] {
        let mut card = Card::k();
        card.fill_root(0);
        card.mark_deleted(0..free);
        let answer = run(&mut card.bytes, &hull_named(&bytes_of(&letters(1))), ALL);
        assert_eq!(answer, Answer::Refused(Ground::Rootfull));
    }
}

/// The ninth group clears the log first, and its sector then holds the whole name.
#[test]
fn a_full_log() {
    let mut card = Card::k();
    for index in 0..8 {
        card.log_sector_mut(index).fill(0xE5);
    }
    let characters = bytes_of(&letters(208));
    let sectors = [72, 71, 70, 69, 68, 67, 66, 65, 65, 33, 34, 65];
    run_storing(&mut card.bytes, &hull_named(&characters), &sectors);
    assert_eq!(card.log_sector_mut(0)[15 * 32], 0);
    assert_eq!(card.log_sector_mut(0)[14 * 32], 0xE5);
}

/// Delete and rename take all entries of such a file along; append, truncate and replace keep them.
#[test]
fn later_operations() {
    for length in [1, 13, 14, 26, 130, 208] {
        let mut card = Card::k();
        run_done(
            &mut card.bytes,
            &Operation::Create {
                name: ROUTE,
                seconds: AT,
            },
        );
        let characters = bytes_of(&letters(length));
        run_done(&mut card.bytes, &hull_named(&characters));
        let slot = 1 + length.div_ceil(13);
        for operation in [
            Operation::Append {
                name: HULL,
                data: &[7; 900],
                seconds: AT,
            },
            Operation::Truncate {
                name: HULL,
                size: 20,
                seconds: AT,
            },
            Operation::Replace {
                name: HULL,
                data: &[8; 700],
                seconds: AT,
            },
        ] {
            run_done(&mut card.bytes, &operation);
            assert_eq!(card.characters(slot), letters(length));
        }
        for operation in [
            Operation::Delete { name: HULL },
            Operation::Rename {
                old: HULL,
                new: PANEL,
            },
        ] {
            let mut ended = card.clone();
            run_done(&mut ended.bytes, &operation);
            for marked in 1..=slot {
                assert_eq!(ended.slot(marked)[0], 0xE5, "{length} {marked}");
                assert_eq!(ended.slot(marked)[1..], card.slot(marked)[1..]);
            }
            assert_eq!(ended.slot(0), card.slot(0));
        }
    }
}

/// The checksum is that of the short name, whatever it is.
#[test]
fn checksums() {
    let names: [(&Name, u8); 4] = [
        (b"SHEERP~1CUT", 0xDC),
        (b"ABCDEF~2   ", 0xEA),
        (b"__      CUT", 0xB6),
        (b"MIXED   CUT", 0x81),
    ];
    for (name, sum) in names {
        let mut card = Card::k();
        let characters = bytes_of(&letters(27));
        run_done(
            &mut card.bytes,
            &Operation::CreateLong {
                name,
                characters: &characters,
                seconds: AT,
            },
        );
        for slot in 0..3 {
            assert_eq!(card.slot(slot)[11..14], [0x0F, 0, sum]);
            assert_eq!(card.slot(slot)[26..28], [0, 0]);
        }
    }
}
