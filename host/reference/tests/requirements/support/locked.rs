//! Files marked read-only, and the calls that ask for the mark.

use super::worked::with_file;
use reference::*;
use testkit::cards::Card;
use testkit::{ALL, AT, PANEL};

/// ROUTE.CUT of 700 bytes in clusters 20 and 21, with these attributes.
pub fn with_attributes(attributes: u8) -> Card {
    let mut card = with_file(&[20, 21], 0xFFFF, 700);
    card.slot_mut(0)[11] = attributes;
    card
}

pub fn locked() -> Card {
    with_attributes(0x21)
}

/// The five calls that ask LOCKED, each granted on a file of 700 bytes without the mark.
pub fn asking(name: &[u8]) -> [Operation<'_>; 5] {
    [
        Operation::Append {
            name,
            data: b"x",
            seconds: AT,
        },
        Operation::Truncate {
            name,
            size: 699,
            seconds: AT,
        },
        Operation::Delete { name },
        Operation::Rename {
            old: name,
            new: PANEL,
        },
        Operation::Replace {
            name,
            data: b"x",
            seconds: AT,
        },
    ]
}

/// The call is refused on the ground under every limit, and no byte is altered.
pub fn refused(card: &mut Card, operation: &Operation, ground: Ground) {
    let before = card.bytes.clone();
    assert_eq!(plan(&card.bytes, operation), Err(ground), "{operation:?}");
    assert_eq!(
        program(&card.bytes, operation).err(),
        Some(ground),
        "{operation:?}"
    );
    for limit in [0, 1, ALL] {
        let answer = run(&mut card.bytes, operation, limit);
        assert_eq!(answer, Answer::Refused(ground), "{operation:?}");
    }
    assert!(card.bytes == before, "{operation:?}");
}

pub fn granted(card: &Card, operation: &Operation) {
    let stores = plan(&card.bytes, operation).expect("granted");
    assert!(!stores.is_empty(), "{operation:?}");
}
