//! Groups of creates with a long name: what RECORD takes, sectors that their record 0 leads, recovery and power cuts. Groups are
//! written by hand.

use crate::support::long::every_cut;
use crate::support::long_create::*;
use crate::support::worked::put_stamp;
use crate::support::{is_accepted, run_done, run_storing};
use reference::*;
use testkit::cards::Card;
use testkit::{ALL, AT, OTHER, PANEL, ROUTE};

const RECOVER: Operation = Operation::Recover;

/// Files in slots 0 to 39.
fn accepts(count: u8, slot: u16, characters: &[u16]) -> bool {
    is_accepted(pending(40, &group(count, slot, characters)))
}

/// The count is at most 16 and at most the slot, and as many characters as need that many slots.
#[test]
fn counts_and_characters() {
    for count in (1..=20).chain([0x40, 0x80, 0xFF]) {
        for length in [
            1usize, 12, 13, 14, 26, 27, 194, 195, 196, 207, 208, 209, 221, 222, 224,
        ] {
            let needs = usize::from(count) == length.div_ceil(13) && count <= 16;
            assert_eq!(
                accepts(count, 30, &letters(length)),
                needs,
                "{count} {length}"
            );
        }
        assert!(!accepts(count, 30, &[]), "{count}");
    }
    for count in 1..=16 {
        let name = letters(13 * usize::from(count));
        for slot in [0, 1, 2, 14, 15, 16, 17, 39] {
            let expected = u16::from(count) <= slot;
            assert_eq!(accepts(count, slot, &name), expected, "{count} {slot}");
        }
    }
}

/// Zeros after the characters up to the end of the sector, and none but allowed ones before.
#[test]
fn every_byte_after_the_characters() {
    let sector = group(2, 30, &letters(20));
    for at in 64 + 40..512 {
        let mut other = sector;
        other[at] = 1;
        // A byte right after the last character makes another one, 0x0001 or 0x0100: the second is allowed.
        assert_eq!(is_accepted(pending(40, &other)), at == 105, "{at}");
    }
    let forbidden = (1..32).chain("\"*/:<>?\\|".encode_utf16());
    for character in forbidden {
        for at in [0, 1, 12, 13, 19] {
            let mut name = letters(20);
            name[at] = character;
            assert!(!accepts(2, 30, &name), "{character} {at}");
        }
    }
    for character in [0x20, 0x7F, 0xE5, 0xE500, 0x0100, 0xFFFF, 0xD800] {
        for at in [0, 7, 15, 16, 19] {
            let mut name = letters(20);
            name[at] = character;
            assert!(accepts(2, 30, &name), "{character} {at}");
        }
    }
    // A zero among them ends the name: what follows is then not zero.
    for at in 0..19 {
        let mut name = letters(20);
        name[at] = 0;
        assert!(!accepts(2, 30, &name), "{at}");
        assert!(!accepts(1, 30, &name), "{at}");
    }
}

/// The other fields of the main record are judged as a plain create's are.
#[test]
fn fields_of_the_main_record() {
    let sector = group(2, 30, &letters(20));
    for at in [14, 15, 16, 17, 20, 21, 24, 25] {
        let mut other = sector;
        other[at] = 1;
        assert!(!is_accepted(pending(40, &other)), "{at}");
    }
    for (at, byte) in [
        (1, b'a'),
        (10, 0),
        (11, 0x3F),
        (22, 9),
        (23, 0xFF),
        (26, 7),
        (27, 7),
        (28, 1),
        (31, 0xFF),
    ] {
        let mut other = sector;
        other[at] = byte;
        assert!(is_accepted(pending(40, &other)), "{at}");
    }
    // Another operation with a count is no create: update, truncate, replace, part and unknown ones.
    for operation in [0, 2, 4, 6, 7, 0x81] {
        let mut other = sector;
        other[13] = operation;
        assert!(!is_accepted(pending(40, &other)), "{operation}");
        other[64..].fill(0);
        assert!(!is_accepted(pending(40, &other)), "{operation}");
        other[32..].fill(0);
        assert!(!is_accepted(pending(40, &other)), "{operation}");
    }
    // Characters after a create without a count.
    let mut plain = sector;
    plain[12] = 0;
    assert!(!is_accepted(pending(40, &plain)));
    plain[64..].fill(0);
    assert!(is_accepted(pending(40, &plain)));
}

/// Slots up to the lowest that begins 0, where those that the group names count as deleted, long ones included.
#[test]
fn slots_of_a_long_create() {
    let name = letters(40);
    for files in [0, 3, 10, 14, 16, 30] {
        for slot in 0..50 {
            // Four long slots and the short one: all of them may begin 0, if the first is the lowest that does, or below it.
            let expected = slot >= 4 && slot - 4 <= files;
            let card = pending(usize::from(files), &group(4, slot, &name));
            assert_eq!(is_accepted(card), expected, "{files} {slot}");
        }
    }
    let full = |slot| pending(512, &group(4, slot, &name));
    assert!(is_accepted(full(511)));
    assert!(!is_accepted(full(512)));
    assert!(!is_accepted(full(0xFFFF)));
    assert!(is_accepted(pending(508, &group(4, 511, &name))));
    assert!(is_accepted(pending(507, &group(4, 511, &name))));
    assert!(!is_accepted(pending(506, &group(4, 511, &name))));
}

/// The same reading for the other groups: a rename whose two slots begin 0, a delete with long slots at the end.
#[test]
fn slots_of_other_groups() {
    let group = |operation: u8, count: u8, slot: u8| {
        let mut sector = [0; 512];
        sector[..12].copy_from_slice(b"ROUTE   CUT\x20");
        sector[12] = count;
        sector[13] = operation;
        sector[18] = slot;
        put_stamp(&mut sector);
        sector
    };
    for (operation, most) in [(1, 0), (2, 0), (3, 5), (4, 0), (6, 0)] {
        for count in 0..=most {
            for slot in count..30 {
                let card = pending(20, &group(operation, count, slot));
                let expected = slot - count <= 20;
                assert_eq!(is_accepted(card), expected, "{operation} {count} {slot}");
            }
        }
    }
    for count in [0, 3] {
        for (old, new) in (count..28).flat_map(|old| (15..28).map(move |new| (old, new))) {
            let mut sector = group(5, count, old);
            sector.copy_within(..32, 32);
            sector[45] = 0;
            sector[50] = new;
            let named = |slot: u8| (old - count..=old).contains(&slot) || slot == new;
            let end = (20..).find(|&slot| !named(slot)).unwrap();
            let apart = !(old - count..=old).contains(&new);
            let expected = apart && old <= end && new <= end;
            let card = pending(20, &sector);
            assert_eq!(is_accepted(card), expected, "{count} {old} {new}");
        }
    }
}

/// Only record 0 tells in a sector that it leads: pending, it is one group; committed, nothing is.
#[test]
fn led_sectors() {
    // All records of characters begin with a byte that is neither 0 nor 0xE5, or with 0, or with 0xE5.
    for first in [b'x', 0, 0xE5] {
        let mut name = letters(208);
        for at in (0..208).step_by(16) {
            name[at] = 0x4100 + u16::from(first);
        }
        assert!(accepts(16, 30, &name), "{first}");
        let mut card = Card::k();
        run_storing(
            &mut card.bytes,
            &hull_named(&bytes_of(&name)),
            &[65, 33, 34, 65],
        );
        for record in 0..15 {
            assert_eq!(card.log_sector_mut(0)[32 * record], 0xE5);
        }
        assert_eq!(card.log_sector_mut(0)[65], 0x41);
    }
    // A committed record 0 hides whatever follows it, with any count above 0.
    for count in [1, 16, 17, 0xFF] {
        let mut card = pending(40, &group(count, 30, &letters(200)));
        card.log_sector_mut(2)[0] = 0xE5;
        assert_eq!(list(&card.bytes, &mut []), Answer::Done(40), "{count}");
        assert_eq!(recover(&mut card.bytes, ALL), Answer::Done(0));
    }
    // Without a count, with another operation, or where record 0 begins 0, all records tell.
    for (at, byte) in [(12, 0), (13, 3), (13, 0), (0, 0)] {
        let mut card = pending(40, &group(2, 30, &letters(20)));
        let log = card.log_sector_mut(2);
        log[0] = 0xE5;
        log[at] = byte;
        log[32] = b'x';
        assert!(!is_accepted(card), "{at} {byte}");
    }
    // A record that begins 0 leads nothing, and is not pending itself.
    let mut card = pending(40, &group(2, 30, &letters(20)));
    card.log_sector_mut(2)[0] = 0;
    card.log_sector_mut(2)[32..].fill(0);
    assert_eq!(recover(&mut card.bytes, ALL), Answer::Done(0));
}

/// A led sector is one pending record: another in another sector is one too many, before it or after it.
#[test]
fn another_pending_record() {
    for (sector, record) in [(0, 0), (0, 15), (1, 3), (3, 0), (7, 15)] {
        let mut card = pending(40, &group(2, 30, &letters(20)));
        card.log_sector_mut(sector)[32 * record] = b'x';
        assert!(!is_accepted(card), "{sector} {record}");
    }
    let mut card = pending(40, &group(2, 30, &letters(20)));
    let second = group(1, 31, &letters(5));
    card.log_sector_mut(5).copy_from_slice(&second);
    assert!(!is_accepted(card.clone()));
    card.log_sector_mut(5)[0] = 0xE5;
    assert!(is_accepted(card));
}

/// Recovery writes the entries from the record, over whatever stands there, and marks every record of the group.
#[test]
fn recovery_from_the_record() {
    for (slot, length, sectors) in [
        (30, 1, &[34, 67][..]),
        (17, 20, &[33, 34, 67]),
        (16, 208, &[33, 34, 67]),
        (32, 208, &[34, 35, 67]),
        (40, 100, &[35, 67]),
    ] {
        let name = letters(length);
        let count = length.div_ceil(13);
        let mut card = pending(40, &group(count as u8, slot as u16, &name));
        let before = card.clone();
        run_storing(&mut card.bytes, &RECOVER, sectors);
        assert_eq!(card.slot(slot), created());
        assert_eq!(card.characters(slot), name);
        for other in (0..512).filter(|other| !(slot - count..=slot).contains(other)) {
            assert_eq!(card.slot(other), before.slot(other), "{slot} {other}");
        }
        let mut log = group(count as u8, slot as u16, &name);
        for record in 0..=1 + length.div_ceil(16) {
            log[32 * record] = 0xE5;
        }
        assert!(card.log_sector_mut(2) == log);
    }
}

/// Cut after every store, and recovered in many ways: both names or none.
#[test]
fn cuts() {
    for (files, deleted) in [
        (0, 0..0),
        (14, 0..0),
        (15, 15..15),
        (20, 10..20),
        (40, 3..30),
        (512, 490..512),
    ] {
        for length in [1, 20, 208] {
            let mut card = pending(files, &[0; 512]);
            card.mark_deleted(deleted.clone());
            let given = bytes_of(&letters(length));
            if plan(&card.bytes, &hull_named(&given)).is_ok() {
                every_cut(&card, &hull_named(&given), 0);
            }
        }
    }
}

/// A cut before the root stores leaves the log sector pending; the calls are UNCLEAN until it is recovered.
#[test]
fn unclean_until_recovered() {
    let given = bytes_of(&letters(208));
    for cut in 1..4 {
        let mut card = Card::k();
        assert_eq!(
            run(&mut card.bytes, &hull_named(&given), cut),
            Answer::Stopped(cut)
        );
        let unclean = Answer::Refused(Ground::Unclean);
        assert_eq!(create(&mut card.bytes, PANEL, AT, ALL), unclean);
        assert_eq!(long_name(&card.bytes, HULL, &mut []), unclean);
        assert_eq!(recover(&mut card.bytes, ALL), Answer::Done(3));
        assert_eq!(long_name(&card.bytes, HULL, &mut []), Answer::Done(208));
    }
}

/// The listing has record 0 of a led sector alone, pending and committed; of any other sector all records.
#[test]
fn listing() {
    let sector = group(2, 30, &letters(20));
    let listed = |sector: &[u8; 512]| String::from_utf8(log_listing(sector)).unwrap();
    let line = "log 1 sectors\n0 0 create pending HULL7S~1.CUT slot 30 first 0 from 0 size 0\n";
    assert_eq!(listed(&sector), line);
    let mut committed = sector;
    for at in [0, 32, 64, 96] {
        committed[at] = 0xE5;
    }
    let line = "log 1 sectors\n0 0 create committed ?ULL7S~1.CUT slot 30 first 0 from 0 size 0\n";
    assert_eq!(listed(&committed), line);
    for (at, byte) in [(12, 0), (13, 3)] {
        let mut other = sector;
        other[at] = byte;
        // Characters 0x100 and on: the low bytes of every record of them but the first one are not 0. The stamp is listed too.
        assert_eq!(listed(&other).lines().count(), 4, "{at}");
    }
    let mut unused = sector;
    unused[0] = 0;
    assert_eq!(listed(&unused).lines().count(), 3);
    for count in [1, 17, 0xFF] {
        let mut other = sector;
        other[12] = count;
        assert_eq!(listed(&other).lines().count(), 2);
    }
}

/// Files beside it keep their bytes, and the free clusters stay.
#[test]
fn other_files() {
    let mut card = Card::k();
    run_done(
        &mut card.bytes,
        &Operation::Create {
            name: ROUTE,
            seconds: AT,
        },
    );
    run_done(
        &mut card.bytes,
        &Operation::Append {
            name: ROUTE,
            data: &[9; 1_300],
            seconds: AT,
        },
    );
    let free = free_clusters(&card.bytes);
    run_done(&mut card.bytes, &hull_named(&bytes_of(&letters(100))));
    assert_eq!(free_clusters(&card.bytes), free);
    assert_eq!(file_bytes(&card.bytes, 0), [9; 1_300]);
    run_done(
        &mut card.bytes,
        &Operation::Append {
            name: HULL,
            data: &[5; 600],
            seconds: AT,
        },
    );
    assert_eq!(file_bytes(&card.bytes, 9), [5; 600]);
    run_done(
        &mut card.bytes,
        &Operation::Create {
            name: OTHER,
            seconds: AT,
        },
    );
    assert!(is_sound(&card.bytes));
}
