//! CLOCK, 18: the seconds exceed 4,039,286,399. It is asked right after UNCLEAN, in create, append, truncate and replace, also
//! where no store is made; nothing else asks it.

use crate::support::locked::{granted, refused};
use crate::support::long_create::bytes_of_text;
use crate::support::worked::with_file;
use reference::*;
use testkit::cards::Card;
use testkit::{ALL, AT, OTHER, PANEL, ROUTE};

const LAST: u32 = 4_039_286_399;
const TOO_LATE: [u32; 3] = [4_039_286_400, 4_039_286_401, u32::MAX];
const BAD_NAME: &[u8] = b"lower case ";

/// The five calls that take seconds, all granted on a file of 700 bytes but for their names.
fn asking<'a>(name: &'a [u8], characters: &'a [u8], seconds: u32) -> [Operation<'a>; 5] {
    [
        Operation::Create { name, seconds },
        Operation::CreateLong {
            name,
            characters,
            seconds,
        },
        Operation::Append {
            name,
            data: b"x",
            seconds,
        },
        Operation::Replace {
            name,
            data: b"x",
            seconds,
        },
        Operation::Truncate {
            name,
            size: 699,
            seconds,
        },
    ]
}

/// ROUTE.CUT of 700 bytes in clusters 20 and 21.
fn card() -> Card {
    with_file(&[20, 21], 0xFFFF, 700)
}

/// The name that a call is granted for: a new one for the creates.
fn asking_well(characters: &[u8], seconds: u32) -> [Operation<'_>; 5] {
    let [create, create_long, ..] = asking(PANEL, characters, seconds);
    let [.., append, replace, truncate] = asking(ROUTE, characters, seconds);
    [create, create_long, append, replace, truncate]
}

#[test]
fn the_last_second_and_the_next() {
    let characters = bytes_of_text("Panel");
    for seconds in [0, 1, AT, 1 << 31, LAST - 1, LAST] {
        for operation in asking_well(&characters, seconds) {
            granted(&card(), &operation);
        }
    }
    for seconds in TOO_LATE {
        for operation in asking_well(&characters, seconds) {
            refused(&mut card(), &operation, Ground::Clock);
        }
    }
}

/// What would make no store is refused all the same; in range it is done, and sets no date.
#[test]
fn where_no_store_is_made() {
    let idle = |seconds| {
        let name = ROUTE;
        let nothing = Operation::Append {
            name,
            data: &[],
            seconds,
        };
        let same = Operation::Truncate {
            name,
            size: 700,
            seconds,
        };
        [nothing, same]
    };
    for seconds in TOO_LATE {
        for operation in idle(seconds) {
            refused(&mut card(), &operation, Ground::Clock);
        }
    }
    for seconds in [0, 1, AT, LAST] {
        for operation in idle(seconds) {
            let mut card = card();
            let before = card.bytes.clone();
            for limit in [0, 1, ALL] {
                assert_eq!(run(&mut card.bytes, &operation, limit), Answer::Done(0));
            }
            assert!(card.bytes == before, "{operation:?}");
        }
    }
}

/// Grounds 1 to 7 come first, each alone on the card.
#[test]
fn grounds_before_it() {
    let mut boot = card();
    boot.bytes[511] = 0;
    let mut log = card();
    log.set_fats(100, 0xFFF6);
    let mut root = card();
    root.slot_mut(200)[0] = b'X';
    let mut record = card();
    record.log_sector_mut(0)[0] = b'X';
    let mut pending = card();
    pending.log_sector_mut(0)[0] = b'X';
    pending.log_sector_mut(0)[13] = 3;
    let mut fats = card();
    fats.bytes[17 * 512] ^= 1;
    let mut short = card();
    short.bytes.truncate(511);
    let mut window = card();
    window.bytes.pop();
    for (mut card, ground) in [
        (short, Ground::Short),
        (boot, Ground::Boot),
        (window, Ground::Window),
        (log, Ground::Logarea),
        (root, Ground::Root),
        (record, Ground::Record),
        (pending, Ground::Unclean),
        (fats, Ground::Unclean),
    ] {
        for seconds in TOO_LATE {
            for operation in asking(BAD_NAME, b"*", seconds) {
                refused(&mut card, &operation, ground);
            }
        }
    }
}

/// All the others come after: each is answered once the seconds are in range.
#[test]
fn grounds_after_it() {
    let mut full = card();
    full.put_slot(1, PANEL, 0x11, 30, 0);
    full.put_slot(2, OTHER, 0x21, 0, 0);
    full.put_slot(3, b"BROKEN     ", 0x20, 0, 700);
    full.fill();
    full.fill_root(4);
    let long = bytes_of_text("Stem");
    let late = TOO_LATE[0];
    let rows = |seconds| {
        let mut rows = Vec::new();
        for operation in asking(BAD_NAME, b"*", seconds) {
            rows.push((operation, Ground::Name));
        }
        let [create, create_long, ..] = asking(ROUTE, b"*", seconds);
        rows.push((create, Ground::Exists));
        rows.push((create_long, Ground::Longname));
        let [_, create_long, ..] = asking(PANEL, &long, seconds);
        rows.push((create_long, Ground::Exists));
        let [create, create_long, append, replace, truncate] =
            asking(b"STEM       ", &long, seconds);
        rows.push((create, Ground::Rootfull));
        rows.push((create_long, Ground::Rootfull));
        for operation in [append, replace, truncate] {
            rows.push((operation, Ground::Absent));
        }
        for (name, ground) in [
            (PANEL, Ground::Directory),
            (OTHER, Ground::Locked),
            (b"BROKEN     ", Ground::Chain),
        ] {
            let [.., append, replace, truncate] = asking(name, &long, seconds);
            for operation in [append, replace, truncate] {
                rows.push((operation, ground));
            }
        }
        let name = ROUTE;
        let too_long = Operation::Truncate {
            name,
            size: 701,
            seconds,
        };
        rows.push((too_long, Ground::Length));
        let data = &[7; 400];
        let append = Operation::Append {
            name,
            data,
            seconds,
        };
        rows.push((append, Ground::Nospace));
        let replace = Operation::Replace {
            name,
            data,
            seconds,
        };
        rows.push((replace, Ground::Nospace));
        rows
    };
    for (operation, ground) in rows(AT) {
        refused(&mut full, &operation, ground);
    }
    for (operation, _) in rows(late) {
        refused(&mut full, &operation, Ground::Clock);
    }
}

/// The calls that take no seconds go on, whatever dates the slots have.
#[test]
fn calls_that_do_not_ask_it() {
    let mut card = card();
    card.slot_mut(0)[12..26].fill(0xFF);
    assert_eq!(read(&card.bytes, ROUTE, 0, &mut [0; 9]), Answer::Done(9));
    assert_eq!(list(&card.bytes, &mut []), Answer::Done(1));
    assert_eq!(fits(&card.bytes, 1), Answer::Done(10));
    assert_eq!(long_name(&card.bytes, ROUTE, &mut []), Answer::Done(0));
    assert_eq!(recover(&mut card.bytes, ALL), Answer::Done(0));
    let renamed = rename(&mut card.bytes, ROUTE, PANEL, ALL);
    assert_eq!(renamed, Answer::Done(3));
    assert_eq!(card.slot(1)[12..26], [0xFF; 14]);
    assert_eq!(delete(&mut card.bytes, PANEL, ALL), Answer::Done(5));
}

/// A pending group keeps its stamp until it is recovered: the seconds of later calls do not matter to it.
#[test]
fn recovery_takes_no_seconds() {
    let mut card = card();
    let create = Operation::Create {
        name: PANEL,
        seconds: AT,
    };
    assert_eq!(run(&mut card.bytes, &create, 1), Answer::Stopped(1));
    for seconds in [0, LAST, TOO_LATE[0]] {
        for operation in asking(PANEL, b"*", seconds) {
            refused(&mut card, &operation, Ground::Unclean);
        }
    }
    assert_eq!(recover(&mut card.bytes, ALL), Answer::Done(2));
    assert_eq!(card.slot(1), crate::support::worked::created(PANEL));
}
