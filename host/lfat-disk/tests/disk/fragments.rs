//! Lists of stores that are not one run of sectors: fragments of a file, many FAT sectors, two root sectors.

use crate::prefixes::{check_with_recoveries, writes};
use crate::support::cards::{points, ALL, ROUTE};
use lfat_disk::Operation;
use reference::CardSpec;
use std::ops::Range;
use testkit::AT;

/// The sectors that a call writes within a part of card K.
fn sectors(card: &[u8], operation: &Operation, part: Range<usize>) -> Vec<usize> {
    let writes = writes(card, operation).expect("granted");
    let sectors = writes.into_iter().map(|(sector, _)| sector);
    sectors.filter(|sector| part.contains(sector)).collect()
}

/// Fragments: data sectors by file offset, which fall on the card.
#[test]
fn file_in_fragments() {
    let mut card = CardSpec::K.build();
    let data = points(20 * 512);
    let names: Vec<Vec<u8>> = (0..6)
        .map(|i| format!("F{i}         ").into_bytes())
        .collect();
    for name in &names {
        reference::create(&mut card, name, AT, ALL);
        reference::append(&mut card, name, &data[..1_000], AT, ALL);
    }
    for gone in [0, 2, 4] {
        reference::delete(&mut card, &names[gone], ALL);
    }
    let operation = Operation::Append {
        name: b"F5         ",
        data: &data,
        seconds: AT,
    };
    let sectors = sectors(&card, &operation, 73..4_150);
    assert_eq!(sectors.len(), 21);
    assert_eq!(sectors[..8], [84, 73, 74, 77, 78, 81, 82, 85]);
    check_with_recoveries(&mut card, &operation);
}

/// Free clusters far from each other: a store in each of many FAT sectors, for append, replace, truncate and delete.
#[test]
fn many_fat_sectors() {
    let mut card = CardSpec::K.build();
    for cluster in (10..4_087).filter(|cluster| cluster % 200 != 0) {
        for fat in [1, 17] {
            card[fat * 512 + cluster * 2..][..2].copy_from_slice(&0xFFF7_u16.to_le_bytes());
        }
    }
    let name = ROUTE;
    let data = points(18 * 512);
    let create = Operation::Create { name, seconds: AT };
    let append = Operation::Append {
        name,
        data: &data,
        seconds: AT,
    };
    let truncate = Operation::Truncate {
        name,
        size: 4_000,
        seconds: AT,
    };
    // Clusters 200 to 1,600 are freed and 1,800 to 2,600 taken; then those are freed, and 200 to 1,000 taken.
    let data = &data[..5 * 512];
    let replace = Operation::Replace {
        name,
        data,
        seconds: AT,
    };
    for (operation, fat_sectors) in [
        (create, 0),
        (append, 15),
        (truncate, 9),
        (replace, 11),
        (replace, 8),
        (Operation::Delete { name }, 4),
    ] {
        for fat in [1..17, 17..33] {
            let count = sectors(&card, &operation, fat).len();
            assert_eq!(count, fat_sectors, "{operation:?}");
        }
        check_with_recoveries(&mut card, &operation);
    }
}

/// A rename from a slot in one root sector to a slot in another: two root stores, also in recovery.
#[test]
fn rename_across_root_sectors() {
    let mut card = CardSpec::K.build();
    for slot in 0..40 {
        reference::create(&mut card, format!("F{slot:07}   ").as_bytes(), AT, ALL);
    }
    reference::delete(&mut card, b"F0000003   ", ALL);
    let (old, new) = (b"F0000030   ", b"KEEL    CUT");
    let operation = Operation::Rename { old, new };
    assert_eq!(sectors(&card, &operation, 33..65), [33, 34]);
    check_with_recoveries(&mut card, &operation);
}
