//! The name rule and what a name means.

use crate::support::run_done;
use reference::*;
use testkit::cards::Card;
use testkit::{ALL, AT, OTHER, PANEL, ROUTE};

/// Whether create takes the name; the card has room and no files.
fn is_accepted(card: &mut [u8], name: &[u8]) -> bool {
    match create(card, name, AT, 0) {
        Answer::Stopped(0) => true,
        Answer::Refused(Ground::Name) => false,
        other => panic!("{other:?}"),
    }
}

#[test]
fn every_byte_in_every_place() {
    let mut card = card_k();
    let allowed = b"ABCDEFGHIJKLMNOPQRSTUVWXYZ0123456789!#$%&'()-@^_`{}~";
    for place in 0..11 {
        for byte in 0..=255 {
            let mut name = *b"ABCDEFGHIJK";
            name[place] = byte;
            // A space is a filling only at the end of a part.
            let is_filling = byte == b' ' && (place == 7 || place == 10);
            let expected = allowed.contains(&byte) || is_filling;
            assert_eq!(is_accepted(&mut card, &name), expected, "{name:?}");
        }
    }
}

#[test]
fn filling() {
    let mut card = card_k();
    for (name, expected) in [
        (b"A          ", true),
        (b"A       B  ", true),
        (b"A       BC ", true),
        (b"AB      B C", false),
        (b"A B        ", false),
        (b"A        BC", false),
        (b"A         C", false),
        (b"           ", false),
        (b"        CUT", false),
        (b" A      CUT", false),
        (b"A\t         ", false),
        (b"A       \n  ", false),
        (b"A\0\0\0\0\0\0\0   ", false),
    ] {
        assert_eq!(is_accepted(&mut card, name), expected, "{name:?}");
    }
}

#[test]
fn length() {
    let mut card = card_k();
    let long = [b'A'; 40];
    for length in 0..=40 {
        let expected = length == 11;
        assert_eq!(is_accepted(&mut card, &long[..length]), expected);
    }
}

#[test]
fn a_name_means_its_lowest_slot() {
    let mut card = Card::k();
    card.put_slot(0, PANEL, 0x20, 0, 0);
    card.put_slot(1, ROUTE, 0x20, 20, 5);
    card.put_slot(2, ROUTE, 0x20, 21, 9);
    card.put_chain(&[20], 0xFFF8);
    card.put_chain(&[21], 0xFFF8);
    let mut buffer = [0; 16];
    assert_eq!(read(&card.bytes, ROUTE, 0, &mut buffer), Answer::Done(5));
    run_done(&mut card.bytes, &Operation::Delete { name: ROUTE });
    assert_eq!(card.slot(1)[0], 0xE5);
    assert_eq!(read(&card.bytes, ROUTE, 0, &mut buffer), Answer::Done(9));
}

#[test]
fn labels_and_long_names_are_skipped() {
    let mut card = Card::k();
    card.put_slot(0, ROUTE, 0x08, 0, 0);
    card.put_slot(1, ROUTE, 0x0F, 0, 0);
    card.put_slot(2, ROUTE, 0x18, 0, 0);
    let absent = Answer::Refused(Ground::Absent);
    assert_eq!(read(&card.bytes, ROUTE, 0, &mut []), absent);
    run_done(
        &mut card.bytes,
        &Operation::Create {
            name: ROUTE,
            seconds: AT,
        },
    );
    assert_eq!(card.slot(3)[..12], *b"ROUTE   CUT\x20");
    assert_eq!(read(&card.bytes, ROUTE, 0, &mut []), Answer::Done(0));
}

#[test]
fn deleted_slots_bear_no_name() {
    let mut card = Card::k();
    let mut deleted = *ROUTE;
    deleted[0] = 0xE5;
    card.put_slot(0, &deleted, 0x20, 0, 0);
    card.put_slot(1, OTHER, 0x20, 0, 0);
    let absent = Answer::Refused(Ground::Absent);
    assert_eq!(read(&card.bytes, ROUTE, 0, &mut []), absent);
    run_done(
        &mut card.bytes,
        &Operation::Create {
            name: ROUTE,
            seconds: AT,
        },
    );
    assert_eq!(card.slot(0)[..11], *ROUTE);
}

#[test]
fn a_directory_bears_a_name() {
    let mut card = Card::k();
    card.put_slot(0, ROUTE, 0x10, 20, 0);
    card.put_slot(1, ROUTE, 0x20, 0, 0);
    let directory = Answer::Refused(Ground::Directory);
    assert_eq!(read(&card.bytes, ROUTE, 0, &mut []), directory);
    let exists = Answer::Refused(Ground::Exists);
    assert_eq!(create(&mut card.bytes, ROUTE, AT, ALL), exists);
}

#[test]
fn hidden_and_system_files_are_files() {
    let mut card = Card::k();
    card.put_slot(0, ROUTE, 0x02 | 0x04 | 0x20, 0, 0);
    let append = Operation::Append {
        name: ROUTE,
        data: b"x",
        seconds: AT,
    };
    run_done(&mut card.bytes, &append);
    assert_eq!(card.size(0), 1);
    assert_eq!(card.slot(0)[11], 0x26);
    assert_eq!(card.log_sector_mut(0)[11], 0x26, "the record has them too");
    run_done(&mut card.bytes, &Operation::Delete { name: ROUTE });
}
