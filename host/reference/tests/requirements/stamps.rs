//! What a call at a number of seconds writes: every byte of the slot and of the group, worked out by hand.

use crate::support::worked::{created, record, with_file, STAMP};
use crate::support::{pattern, planned_sectors, run_done, run_storing};
use reference::*;
use testkit::cards::Card;
use testkit::random::Random;
use testkit::{ALL, AT, OTHER, PANEL, ROUTE};

const LAST: u32 = 4_039_286_399;

/// Seconds with the bytes of their time and date: the first, an odd one, one in 2026, the last.
const MOMENTS: [(u32, [u8; 2], [u8; 2]); 5] = [
    (0, [0, 0], [0x21, 0]),
    (1, [0, 0], [0x21, 0]),
    (3, [1, 0], [0x21, 0]),
    (AT, [0xAF, 0x6D], [0xD1, 0x5C]),
    (LAST, [0x7D, 0xBF], [0x9F, 0xFF]),
];

/// A slot with an odd byte in every field; only the size and the first cluster are a file's.
fn odd_slot() -> Vec<u8> {
    let mut slot = pattern(32, 0x40);
    slot[..12].copy_from_slice(b"ROUTE   CUT\x26");
    slot[26..].copy_from_slice(&[20, 0, 0xBC, 2, 0, 0]);
    slot
}

/// ROUTE.CUT of 700 bytes in clusters 20 and 21, with that slot.
fn odd_card() -> Card {
    let mut card = with_file(&[20, 21], 0xFFFF, 700);
    card.slot_mut(0).copy_from_slice(&odd_slot());
    card
}

fn append(data: &[u8], seconds: u32) -> Operation<'_> {
    Operation::Append {
        name: ROUTE,
        data,
        seconds,
    }
}

fn replace(data: &[u8], seconds: u32) -> Operation<'_> {
    Operation::Replace {
        name: ROUTE,
        data,
        seconds,
    }
}

fn truncate(size: u64, seconds: u32) -> Operation<'static> {
    Operation::Truncate {
        name: ROUTE,
        size,
        seconds,
    }
}

/// All dates and times of a new file, and tenths 0 also for odd seconds.
#[test]
fn a_new_file() {
    for (seconds, time, date) in MOMENTS {
        let mut card = Card::k();
        card.slot_mut(0).fill(0xE5); // nothing stays of the old slot
        let create = Operation::Create {
            name: ROUTE,
            seconds,
        };
        run_storing(&mut card.bytes, &create, &[65, 33, 65]);
        let mut slot = ROUTE.to_vec();
        slot.extend([0x20, 0, 0]);
        slot.extend([time, date, date, [0, 0], time, date].concat());
        slot.extend([0; 6]);
        assert_eq!(card.slot(0), slot, "{seconds}");
    }
}

/// The short slot of a long name has them; the long ones have none.
#[test]
fn a_new_file_with_a_long_name() {
    for (seconds, time, date) in MOMENTS {
        let mut card = Card::k();
        let create = Operation::CreateLong {
            name: ROUTE,
            characters: b"R\0o\0u\0t\0e\0",
            seconds,
        };
        let stores = plan(&card.bytes, &create).expect("granted");
        let mut group = vec![0; 512];
        group[..14].copy_from_slice(b"ROUTE   CUT\x20\x01\x01");
        group[18] = 1;
        group[32] = 0x54;
        group[46..48].copy_from_slice(&time);
        group[48..50].copy_from_slice(&date);
        group[64..74].copy_from_slice(b"R\0o\0u\0t\0e\0");
        assert!(stores[0].bytes[..] == group, "{seconds}");
        run_storing(&mut card.bytes, &create, &[65, 33, 65]);
        for at in [0, 32, 64] {
            group[at] = 0xE5;
        }
        assert!(card.log_sector_mut(0) == group, "{seconds}");
        let mut slot = ROUTE.to_vec();
        slot.extend([0x20, 0, 0]);
        slot.extend([time, date, date, [0, 0], time, date].concat());
        slot.extend([0; 6]);
        assert_eq!(card.slot(1), slot, "{seconds}");
        assert_eq!(card.slot(0)[..13], *b"\x41R\0o\0u\0t\0e\0\x0F\0");
    }
}

/// Write time, write date and access date; creation and its tenths, attributes and the high word stay.
#[test]
fn a_changed_file() {
    let data = pattern(600, 1);
    for (seconds, time, date) in MOMENTS {
        for (operation, cluster, size) in [
            (append(&data, seconds), 20, 1_300_u32),
            (append(&[1], seconds), 20, 701),
            (replace(&data, seconds), 10, 600),
            (replace(&[], seconds), 0, 0),
            (truncate(699, seconds), 20, 699),
            (truncate(1, seconds), 20, 1),
            (truncate(0, seconds), 0, 0),
        ] {
            let mut card = odd_card();
            run_done(&mut card.bytes, &operation);
            let mut slot = odd_slot();
            slot[18..20].copy_from_slice(&date);
            slot[22..24].copy_from_slice(&time);
            slot[24..26].copy_from_slice(&date);
            slot[26] = cluster;
            slot[28..].copy_from_slice(&size.to_le_bytes());
            assert_eq!(card.slot(0), slot, "{operation:?}");
        }
    }
}

/// The stamp of a replace that changes nothing else, of an empty file and of one by its own bytes.
#[test]
fn a_replace_always_sets_dates() {
    let mut card = Card::k();
    run_done(
        &mut card.bytes,
        &Operation::Create {
            name: ROUTE,
            seconds: 0,
        },
    );
    run_storing(&mut card.bytes, &replace(&[], AT), &[66, 33, 66]);
    let mut slot = created(ROUTE);
    slot[14..18].copy_from_slice(&[0, 0, 0x21, 0]);
    assert_eq!(card.slot(0), slot);
    run_done(&mut card.bytes, &replace(b"path", AT));
    run_done(&mut card.bytes, &replace(b"path", LAST));
    assert_eq!(card.slot(0)[18..26], *b"\x9F\xFF\0\0\x7D\xBF\x9F\xFF");
    // An earlier moment is taken as well as a later one.
    run_done(&mut card.bytes, &replace(b"path", 2));
    assert_eq!(card.slot(0)[14..26], *b"\0\0\x21\0\x21\0\0\0\x01\0\x21\0");
}

/// Main record, stamp and zeros, pending in the group's store; both begin 0xE5 after the commit.
#[test]
fn groups() {
    let data = pattern(600, 1);
    for (operation, main) in [
        (append(&data, AT), record(ROUTE, 2, 0, 10, 21, 1_300)),
        (replace(&data, AT), record(ROUTE, 6, 0, 10, 20, 600)),
        (truncate(0, AT), record(ROUTE, 4, 0, 20, 20, 0)),
        (
            Operation::Create {
                name: OTHER,
                seconds: AT,
            },
            record(OTHER, 1, 1, 0, 0, 0),
        ),
    ] {
        let mut card = with_file(&[20, 21], 0xFFFF, 700);
        let mut group = [&main[..], &STAMP, &[0; 448]].concat();
        let stores = plan(&card.bytes, &operation).expect("granted");
        let stored: Vec<_> = stores.iter().filter(|store| store.sector == 65).collect();
        assert!(stored[0].bytes[..] == group, "{operation:?}");
        group[0] = 0xE5;
        group[32] = 0xE5;
        assert!(stored[1].bytes[..] == group, "{operation:?}");
        run_done(&mut card.bytes, &operation);
        assert!(card.log_sector_mut(0) == group, "{operation:?}");
    }
}

/// Delete and rename have no stamp, and the new slot of a rename has the old one's dates.
#[test]
fn delete_and_rename() {
    let rename = Operation::Rename {
        old: ROUTE,
        new: PANEL,
    };
    let mut card = odd_card();
    run_done(&mut card.bytes, &rename);
    assert_eq!(card.slot(1)[11..], odd_slot()[11..]);
    assert_eq!(card.slot(0)[1..], odd_slot()[1..]);
    assert_ne!(card.log_sector_mut(0)[33..64], [0; 31], "the new name");
    assert!(card.log_sector_mut(0)[64..].iter().all(|&byte| byte == 0));
    run_done(&mut card.bytes, &Operation::Delete { name: PANEL });
    assert_eq!(card.slot(1)[12..], odd_slot()[12..]);
    assert!(card.log_sector_mut(1)[32..].iter().all(|&byte| byte == 0));
}

/// Nothing but group, root sector and commit depends on the seconds, and there only the stamp does.
#[test]
fn the_seconds_change_the_stamp_alone() {
    let data = pattern(900, 7);
    let calls = |seconds| {
        let name = PANEL;
        let create = Operation::Create { name, seconds };
        let create_long = Operation::CreateLong {
            name,
            characters: &data[..200],
            seconds,
        };
        [
            create,
            create_long,
            append(&data, seconds),
            replace(&data, seconds),
            truncate(100, seconds),
        ]
    };
    let card = odd_card();
    for (one, other) in calls(AT).into_iter().zip(calls(LAST)) {
        assert_eq!(
            planned_sectors(&card.bytes, &one),
            planned_sectors(&card.bytes, &other)
        );
        let stores = |operation| plan(&card.bytes, operation).expect("granted");
        for (a, b) in stores(&one).iter().zip(stores(&other)) {
            let differing = (0..512).filter(|&at| a.bytes[at] != b.bytes[at]);
            let in_record: Vec<usize> = differing.map(|at| at % 32).collect();
            match a.sector {
                65 => assert_eq!(in_record, [14, 15, 16, 17], "{one:?}"),
                33 => assert!(in_record.ends_with(&[18, 19, 22, 23, 24, 25]), "{one:?}"),
                sector => assert!(in_record.is_empty(), "{one:?} {sector}"),
            }
        }
    }
}

/// Slots of other files, of directories, labels and deleted ones keep every byte.
#[test]
fn other_slots() {
    let mut random = Random::new(6_100);
    let mut start = Card::k();
    for slot in 0..20 {
        let bytes = random.bytes(32);
        start.slot_mut(slot).copy_from_slice(&bytes);
        start.slot_mut(slot)[0] = random.pick(&[b'A', b'Z', 0xE5]);
    }
    start.put_slot(7, ROUTE, 0x20, 20, 700);
    start.put_chain(&[20, 21], 0xFFFF);
    for seconds in [0, AT, LAST] {
        for operation in [
            append(b"x", seconds),
            replace(b"x", seconds),
            truncate(9, seconds),
        ] {
            let mut card = start.clone();
            run_done(&mut card.bytes, &operation);
            for slot in (0..512).filter(|&slot| slot != 7) {
                assert_eq!(card.slot(slot), start.slot(slot), "{operation:?} {slot}");
            }
        }
        let mut card = start.clone();
        let create = Operation::Create {
            name: PANEL,
            seconds,
        };
        run_done(&mut card.bytes, &create);
        let changed: Vec<usize> = (0..512)
            .filter(|&slot| card.slot(slot) != start.slot(slot))
            .collect();
        assert_eq!(changed.len(), 1);
    }
}

/// M3 to M10 store the same sectors at any seconds.
#[test]
fn the_rows_at_any_moment() {
    for (seconds, _, _) in MOMENTS {
        let mut card = Card::k();
        let create = |name| Operation::Create { name, seconds };
        let delete = Operation::Delete { name: ROUTE };
        let (long, short) = (pattern(1_300, 0), pattern(100, 9));
        let m4 = append(&long, seconds);
        run_storing(&mut card.bytes, &create(ROUTE), &[65, 33, 65]);
        for (limit, size, recovery) in [(4, 0, &[17][..]), (5, 1_300, &[1, 33, 66])] {
            let mut cut = card.clone();
            let answer = run(&mut cut.bytes, &m4, limit);
            assert_eq!(answer, Answer::Stopped(limit));
            run_storing(&mut cut.bytes, &Operation::Recover, recovery);
            assert_eq!(cut.size(0), size);
        }
        run_storing(&mut card.bytes, &m4, &[73, 74, 75, 17, 66, 1, 33, 66]);
        run_storing(&mut card.bytes, &append(&short, seconds), &[75, 67, 33, 67]);
        let m8 = [17, 68, 1, 33, 68];
        run_storing(&mut card.bytes, &truncate(512, seconds), &m8);
        run_storing(&mut card.bytes, &delete, &[17, 69, 1, 33, 69]);
        run_storing(&mut card.bytes, &create(ROUTE), &[70, 33, 70]);
        run_storing(&mut card.bytes, &delete, &[71, 33, 71]);
        run_storing(&mut card.bytes, &create(ROUTE), &[72, 33, 72]);
        let m10 = [72, 71, 70, 69, 68, 67, 66, 65, 65, 33, 65];
        run_storing(&mut card.bytes, &create(PANEL), &m10);
        assert_eq!(recover(&mut card.bytes, ALL), Answer::Done(0));
    }
}
