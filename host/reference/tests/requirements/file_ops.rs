//! Create, delete and rename.

use crate::support::worked::created;
use crate::support::{pattern, run_done, run_storing};
use reference::*;
use testkit::cards::Card;
use testkit::{Name, ALL, AT, OTHER, PANEL, ROUTE};

const RENAME: Operation = Operation::Rename {
    old: ROUTE,
    new: PANEL,
};

/// Slot bytes that differ in every field, with the given name.
fn odd_slot(name: &Name) -> Vec<u8> {
    let mut bytes = name.to_vec();
    bytes.push(0x26);
    bytes.extend(pattern(20, 0x40));
    bytes
}

#[test]
fn create_takes_the_lowest_slot() {
    let mut card = Card::k();
    card.put_slot(0, OTHER, 0x20, 0, 0);
    card.slot_mut(1).fill(0xE5);
    card.put_slot(2, PANEL, 0x20, 0, 0);
    let create = Operation::Create {
        name: ROUTE,
        seconds: AT,
    };
    run_storing(&mut card.bytes, &create, &[65, 33, 65]);
    let expected = created(ROUTE);
    assert_eq!(card.slot(1), expected, "nothing stays of the old slot");
    assert_eq!(card.log_sector_mut(0)[18], 1);
}

#[test]
fn create_in_the_last_slot() {
    let mut card = Card::k();
    card.fill_root(0);
    card.slot_mut(511).fill(0);
    let create = Operation::Create {
        name: ROUTE,
        seconds: AT,
    };
    run_storing(&mut card.bytes, &create, &[65, 64, 65]);
    assert_eq!(card.log_sector_mut(0)[18..20], [0xFF, 1]);
    let refused = Answer::Refused(Ground::Rootfull);
    assert_eq!(reference::create(&mut card.bytes, PANEL, AT, ALL), refused);
}

#[test]
fn delete_of_an_empty_file() {
    let mut card = Card::k();
    card.put_slot(20, ROUTE, 0x20, 0, 0);
    for slot in 0..20 {
        card.slot_mut(slot)[0] = 0xE5;
    }
    let delete = Operation::Delete { name: ROUTE };
    run_storing(&mut card.bytes, &delete, &[65, 34, 65]);
    assert_eq!(card.slot(20)[0], 0xE5);
}

#[test]
fn delete_frees_the_whole_chain() {
    let mut card = Card::k();
    card.put_slot(0, ROUTE, 0x20, 30, 1_100);
    card.put_chain(&[30, 600, 20], 0xFFFB);
    let delete = Operation::Delete { name: ROUTE };
    run_storing(&mut card.bytes, &delete, &[17, 19, 65, 1, 3, 33, 65]);
    let entries = [30, 600, 20].map(|cluster| card.fat1_entry(cluster));
    assert_eq!(entries, [0, 0, 0]);
}

#[test]
fn rename_within_a_sector() {
    let mut card = Card::k();
    card.slot_mut(0).copy_from_slice(&odd_slot(ROUTE));
    let old = card.slot(0).to_vec();
    let stores = plan(&card.bytes, &RENAME).unwrap();
    let group = &stores[0].bytes;
    run_storing(&mut card.bytes, &RENAME, &[65, 33, 65]);
    assert_eq!(card.slot(0)[0], 0xE5);
    assert_eq!(card.slot(0)[1..], old[1..]);
    assert_eq!(card.slot(1)[..11], *PANEL);
    assert_eq!(card.slot(1)[11..], old[11..], "the high word too");

    let mut record = ROUTE.to_vec();
    record.extend([0x26, 0, 5, 0, 0, 0, 0, 0, 0, 0, 0, 0, 0, 0, 0]);
    record.extend(&old[26..]);
    assert_eq!(group[..32], record);
    record[..11].copy_from_slice(PANEL);
    record[13] = 0;
    record[18] = 1;
    assert_eq!(group[32..64], record);
    assert!(group[64..].iter().all(|&byte| byte == 0));
    let log = card.log_sector_mut(0);
    assert_eq!((log[0], log[32]), (0xE5, 0xE5));
    assert_eq!(log[33..64], record[1..]);
}

#[test]
fn rename_to_a_higher_sector() {
    let mut card = Card::k();
    card.slot_mut(0).copy_from_slice(&odd_slot(ROUTE));
    for slot in 1..40 {
        card.put_slot(slot, OTHER, 0x20, 0, 0);
    }
    let old = card.slot(0).to_vec();
    run_storing(&mut card.bytes, &RENAME, &[65, 33, 35, 65]);
    assert_eq!(card.slot(0)[0], 0xE5);
    assert_eq!(card.slot(40)[11..], old[11..]);
    assert_eq!(card.slot(40)[..11], *PANEL);
}

#[test]
fn rename_to_a_lower_sector() {
    let mut card = Card::k();
    for slot in 0..40 {
        card.put_slot(slot, OTHER, 0x20, 0, 0);
    }
    card.slot_mut(17)[0] = 0xE5;
    card.slot_mut(39).copy_from_slice(&odd_slot(ROUTE));
    let old = card.slot(39).to_vec();
    run_storing(&mut card.bytes, &RENAME, &[65, 34, 35, 65]);
    assert_eq!(card.slot(17)[..11], *PANEL);
    assert_eq!(card.slot(17)[11..], old[11..]);
    assert_eq!(card.slot(39)[0], 0xE5);
}

#[test]
fn rename_refusals() {
    let mut card = Card::k();
    card.put_slot(0, ROUTE, 0x20, 0, 0);
    card.put_slot(1, PANEL, 0x10, 0, 0);
    card.put_slot(2, OTHER, 0x08, 0, 0);
    let mut rename = |old, new| reference::rename(&mut card.bytes, old, new, ALL);
    let exists = Answer::Refused(Ground::Exists);
    assert_eq!(rename(ROUTE, ROUTE), exists);
    assert_eq!(rename(ROUTE, PANEL), exists);
    assert_eq!(rename(PANEL, ROUTE), Answer::Refused(Ground::Directory));
    assert_eq!(rename(OTHER, ROUTE), Answer::Refused(Ground::Absent));
    assert_eq!(rename(ROUTE, b" A         "), Answer::Refused(Ground::Name));
    assert_eq!(rename(ROUTE, b"A"), Answer::Refused(Ground::Name));
    assert_eq!(rename(ROUTE, OTHER), Answer::Done(3), "labels bear no name");
}

#[test]
fn the_old_slot_is_not_free_for_a_rename() {
    let mut card = Card::k();
    card.fill_root(0);
    card.put_slot(100, ROUTE, 0x20, 0, 0);
    let before = card.bytes.clone();
    let answer = run(&mut card.bytes, &RENAME, ALL);
    assert_eq!(answer, Answer::Refused(Ground::Rootfull));
    assert!(card.bytes == before);
    card.slot_mut(511)[0] = 0xE5;
    run_storing(&mut card.bytes, &RENAME, &[65, 39, 64, 65]);
}

#[test]
fn rename_asks_no_chain() {
    let mut card = Card::k();
    card.put_slot(0, ROUTE, 0x20, 77, 5_000);
    run_done(&mut card.bytes, &RENAME);
    assert_eq!((card.first_cluster(1), card.size(1)), (77, 5_000));
    let delete = plan(&card.bytes, &Operation::Delete { name: PANEL });
    assert_eq!(delete, Err(Ground::Chain));
}

#[test]
fn rename_of_the_lowest_of_two() {
    let mut card = Card::k();
    card.put_slot(0, ROUTE, 0x20, 0, 0);
    card.put_slot(1, ROUTE, 0x21, 0, 0);
    run_done(&mut card.bytes, &RENAME);
    assert_eq!(card.slot(2)[..12], *b"PANEL   CUT\x20");
    assert_eq!(card.slot(1)[..12], *b"ROUTE   CUT\x21");
}

#[test]
fn renames_there_and_back() {
    let mut card = Card::k();
    card.put_slot(0, ROUTE, 0x20, 10, 3);
    card.put_chain(&[10], 0xFFFF);
    card.bytes[73 * 512..][..3].copy_from_slice(b"cut");
    let back = Operation::Rename {
        old: PANEL,
        new: ROUTE,
    };
    for round in 0..6 {
        let call = if round % 2 == 0 { RENAME } else { back };
        run_done(&mut card.bytes, &call);
        assert_eq!(card.slot((round + 1) % 2)[26..29], [10, 0, 3]);
    }
    let mut buffer = [0; 4];
    assert_eq!(read(&card.bytes, ROUTE, 0, &mut buffer), Answer::Done(3));
    assert_eq!(buffer, *b"cut\0");
}
