//! Files marked read-only, rows by hand. LOCKED, 16, asks bit 0x01 of the slot that the name means, right after DIRECTORY, in
//! append, truncate, delete, rename by its old name, and replace; nothing else asks it.

use crate::support::locked::{asking, granted, locked, refused, with_attributes};
use crate::support::{pattern, run_done, run_storing};
use reference::*;
use testkit::cards::Card;
use testkit::{Name, ALL, AT, OTHER, PANEL, ROUTE};

const BAD_NAME: &[u8] = b"lower case ";

#[test]
fn the_five_calls() {
    for operation in asking(ROUTE) {
        granted(&with_attributes(0x20), &operation);
        refused(&mut locked(), &operation, Ground::Locked);
    }
}

/// What would make no store is refused all the same.
#[test]
fn calls_that_would_change_nothing() {
    let name = ROUTE;
    for (operation, stores) in [
        (
            Operation::Append {
                name,
                data: &[],
                seconds: AT,
            },
            0,
        ),
        (
            Operation::Truncate {
                name,
                size: 700,
                seconds: AT,
            },
            0,
        ),
        (
            Operation::Replace {
                name,
                data: &[],
                seconds: AT,
            },
            5,
        ),
    ] {
        let mut card = with_attributes(0x20);
        assert_eq!(run(&mut card.bytes, &operation, ALL), Answer::Done(stores));
        refused(&mut locked(), &operation, Ground::Locked);
    }
}

#[test]
fn an_empty_file() {
    let name = ROUTE;
    let mut card = Card::k();
    card.put_slot(0, ROUTE, 0x01, 0, 0);
    for operation in [
        Operation::Append {
            name,
            data: &[],
            seconds: AT,
        },
        Operation::Truncate {
            name,
            size: 0,
            seconds: AT,
        },
        Operation::Replace {
            name,
            data: &[],
            seconds: AT,
        },
    ]
    .into_iter()
    .chain(asking(name))
    {
        refused(&mut card, &operation, Ground::Locked);
    }
}

/// A name that is no name, one that is not there and a directory's go before.
#[test]
fn grounds_before_it() {
    let mut card = locked();
    card.put_slot(1, OTHER, 0x11, 30, 0);
    for (name, ground) in [
        (BAD_NAME, Ground::Name),
        (b"STEM       ", Ground::Absent),
        (OTHER, Ground::Directory),
    ] {
        for operation in asking(name) {
            refused(&mut card, &operation, ground);
        }
    }
    let rename = Operation::Rename {
        old: ROUTE,
        new: BAD_NAME,
    };
    refused(&mut card, &rename, Ground::Name);
    card.bytes[17 * 512] ^= 1;
    for operation in asking(ROUTE) {
        refused(&mut card, &operation, Ground::Unclean);
    }
}

/// EXISTS, ROOTFULL, CHAIN, LENGTH and NOSPACE come after: each is answered once the mark is gone.
#[test]
fn grounds_after_it() {
    let name = ROUTE;
    let rename = |new| Operation::Rename { old: name, new };
    let truncate = |size| Operation::Truncate {
        name,
        size,
        seconds: AT,
    };
    let append = |data| Operation::Append {
        name,
        data,
        seconds: AT,
    };
    let replace = |data| Operation::Replace {
        name,
        data,
        seconds: AT,
    };
    let delete = Operation::Delete { name };

    let mut taken = locked();
    taken.put_slot(1, PANEL, 0x20, 0, 0);
    taken.put_slot(2, OTHER, 0x10, 0, 0);
    let mut full_root = locked();
    full_root.fill_root(1);
    let mut broken = locked();
    broken.set_fats(20, 0);
    let mut full = locked();
    full.fill();
    let long = pattern(513, 0);
    for (card, operation, ground) in [
        (&taken, rename(PANEL), Ground::Exists),
        (&taken, rename(OTHER), Ground::Exists),
        (&taken, rename(ROUTE), Ground::Exists),
        (&full_root, rename(PANEL), Ground::Rootfull),
        (&broken, append(b"x"), Ground::Chain),
        (&broken, append(&[]), Ground::Chain),
        (&broken, truncate(0), Ground::Chain),
        (&broken, truncate(700), Ground::Chain),
        (&broken, truncate(701), Ground::Chain),
        (&broken, delete, Ground::Chain),
        (&broken, replace(b"x"), Ground::Chain),
        (&locked(), truncate(701), Ground::Length),
        (&locked(), truncate(u64::MAX), Ground::Length),
        (&full, append(&long), Ground::Nospace),
        (&full, replace(b"x"), Ground::Nospace),
    ] {
        let mut card = card.clone();
        refused(&mut card, &operation, Ground::Locked);
        card.slot_mut(0)[11] = 0x20;
        refused(&mut card, &operation, ground);
    }
    // A rename asks no chain, so it is granted there.
    refused(&mut broken, &rename(PANEL), Ground::Locked);
    broken.slot_mut(0)[11] = 0x20;
    granted(&broken, &rename(PANEL));
}

/// The name of a locked file is taken as any other is.
#[test]
fn its_name_is_taken() {
    let mut card = locked();
    card.put_slot(1, OTHER, 0x20, 0, 0);
    let rename = Operation::Rename {
        old: OTHER,
        new: ROUTE,
    };
    refused(&mut card, &rename, Ground::Exists);
    refused(
        &mut card,
        &Operation::Create {
            name: ROUTE,
            seconds: AT,
        },
        Ground::Exists,
    );
    card.slot_mut(1)[11] = 0x21;
    refused(&mut card, &rename, Ground::Locked);
}

/// Read and list have the file; another name is created and changed beside it.
#[test]
fn calls_that_do_not_ask_it() {
    let mut card = locked();
    let bytes = pattern(700, 3);
    card.bytes[83 * 512..][..700].copy_from_slice(&bytes);
    let mut buffer = [0x5A; 800];
    let answer = read(&card.bytes, ROUTE, 0, &mut buffer);
    assert_eq!(answer, Answer::Done(700));
    assert_eq!(buffer[..700], bytes);
    assert_eq!(buffer[700..], [0x5A; 100]);
    let mut entries = [0x5A; 64];
    assert_eq!(list(&card.bytes, &mut entries), Answer::Done(1));
    assert_eq!(entries[..32], *card.slot(0));

    run_storing(
        &mut card.bytes,
        &Operation::Create {
            name: OTHER,
            seconds: AT,
        },
        &[65, 33, 65],
    );
    for operation in [
        Operation::Append {
            name: OTHER,
            data: b"path",
            seconds: AT,
        },
        Operation::Replace {
            name: OTHER,
            data: b"other",
            seconds: AT,
        },
        Operation::Truncate {
            name: OTHER,
            size: 1,
            seconds: AT,
        },
        Operation::Rename {
            old: OTHER,
            new: PANEL,
        },
        Operation::Delete { name: PANEL },
    ] {
        let slot = card.slot(0).to_vec();
        run_done(&mut card.bytes, &operation);
        assert_eq!(card.slot(0), slot, "{operation:?}");
        assert_eq!(file_bytes(&card.bytes, 0), bytes, "{operation:?}");
    }
    assert_eq!(
        run(&mut card.bytes, &Operation::Recover, ALL),
        Answer::Done(0)
    );
}

/// What another program marks is refused from then on, and goes on once the mark is taken away.
#[test]
fn set_and_cleared_between_calls() {
    let name: &Name = ROUTE;
    let mut card = Card::k();
    run_done(&mut card.bytes, &Operation::Create { name, seconds: AT });
    let mut bytes = Vec::new();
    for round in 0..6_u8 {
        let data = pattern(400, round);
        let append = Operation::Append {
            name,
            data: &data,
            seconds: AT,
        };
        card.slot_mut(0)[11] |= 0x01;
        refused(&mut card, &append, Ground::Locked);
        card.slot_mut(0)[11] &= !0x01;
        run_done(&mut card.bytes, &append);
        bytes.extend(data);
        assert_eq!(file_bytes(&card.bytes, 0), bytes);
    }
}
