//! Chains that grow and shrink, and the chain rule.

use crate::support::worked::with_file;
use crate::support::{pattern, planned_sectors, run_done, run_storing};
use reference::*;
use testkit::cards::Card;
use testkit::{ALL, AT, ROUTE};

fn append(data: &[u8]) -> Operation<'_> {
    Operation::Append {
        name: ROUTE,
        data,
        seconds: AT,
    }
}

fn truncate(size: u64) -> Operation<'static> {
    Operation::Truncate {
        name: ROUTE,
        size,
        seconds: AT,
    }
}

#[test]
fn data_stores_follow_file_offsets() {
    let mut card = with_file(&[30, 20], 0xFFF8, 700);
    card.set_fats(10, 0xFFF7);
    let data = pattern(1_000, 3);
    // 700 to 1,023 in cluster 20, then clusters 11 and 12.
    let expected = [83, 74, 75, 17, 65, 1, 33, 65];
    run_storing(&mut card.bytes, &append(&data), &expected);
    let chain = file_chain(&card.bytes, 0);
    assert_eq!(chain, Some(vec![30, 20, 11, 12]));
    assert_eq!(file_bytes(&card.bytes, 0)[700..], data);
    assert_eq!(card.first_cluster(0), 30);
}

#[test]
fn sectors_may_fall_on_a_fragmented_file() {
    let mut card = with_file(&[40, 50], 0xFFF8, 600);
    card.fill();
    card.set_fats(30, 0);
    let expected = [65 + 48, 65 + 28, 17, 65, 1, 33, 65];
    let data = pattern(900, 3);
    assert_eq!(planned_sectors(&card.bytes, &append(&data)), expected);
}

#[test]
fn only_sectors_with_new_bytes_are_stored() {
    let mut card = Card::new(CardSpec {
        sectors_per_cluster: 4,
        total_sectors: 65 + 4 * 4_085,
        ..CardSpec::K
    });
    run_done(
        &mut card.bytes,
        &Operation::Create {
            name: ROUTE,
            seconds: AT,
        },
    );
    // Cluster 10 starts at sector 65 + 32.
    let data = pattern(513, 1);
    run_storing(
        &mut card.bytes,
        &append(&data),
        &[97, 98, 17, 66, 1, 33, 66],
    );
    run_storing(&mut card.bytes, &append(&[7; 511]), &[98, 67, 33, 67]);
    run_storing(&mut card.bytes, &append(&[8; 512]), &[99, 68, 33, 68]);
    run_storing(
        &mut card.bytes,
        &append(&[9; 513]),
        &[100, 101, 17, 69, 1, 33, 69],
    );
    let whole = [&data[..], &[7; 511], &[8; 512], &[9; 513]].concat();
    assert_eq!(file_bytes(&card.bytes, 0), whole);
}

#[test]
fn kept_bytes_of_a_shared_sector_stay() {
    let mut card = with_file(&[10], 0xFFFF, 100);
    card.bytes[73 * 512..74 * 512].fill(0xEE);
    run_done(&mut card.bytes, &append(&[1; 50]));
    let stored = &card.bytes[73 * 512..74 * 512];
    assert_eq!(stored[..100], [0xEE; 100]);
    assert_eq!(stored[100..150], [1; 50]);
    assert_eq!(stored[150..], [0; 362]);
}

#[test]
fn append_without_new_clusters_leaves_the_end_mark() {
    let mut card = with_file(&[10], 0xFFF8, 100);
    run_storing(&mut card.bytes, &append(&[1; 412]), &[73, 65, 33, 65]);
    assert_eq!(card.fat1_entry(10), 0xFFF8);
    run_storing(&mut card.bytes, &append(&[1]), &[74, 17, 66, 1, 33, 66]);
    assert_eq!(card.fat1_entry(10), 11);
    assert_eq!(card.fat1_entry(11), 0xFFFF);
}

#[test]
fn several_fat_sectors_rise() {
    let mut card = with_file(&[3_000], 0xFFF8, 512);
    card.fill();
    card.set_fats(300, 0);
    card.set_fats(4_000, 0);
    let data = pattern(1_024, 0);
    // FAT entries 300, 3,000 and 4,000 are in FAT sectors 1, 11 and 15.
    let fats = [65 + 298, 65 + 3_998, 18, 28, 32, 65, 2, 12, 16, 33, 65];
    run_storing(&mut card.bytes, &append(&data), &fats);
    assert_eq!(file_chain(&card.bytes, 0), Some(vec![3_000, 300, 4_000]));
    let shorter = [18, 28, 32, 66, 2, 12, 16, 33, 66];
    run_storing(&mut card.bytes, &truncate(1), &shorter);
    assert_eq!(card.fat1_entry(3_000), 0xFFFF);
    assert_eq!(free_clusters(&card.bytes), [300, 4_000]);
}

#[test]
fn truncate_within_the_last_cluster() {
    let mut card = with_file(&[10, 11], 0xFFF8, 1_000);
    run_storing(&mut card.bytes, &truncate(513), &[65, 33, 65]);
    assert_eq!(card.size(0), 513);
    assert_eq!(card.fat1_entry(11), 0xFFF8);
    assert_eq!(card.log_sector_mut(0)[22..26], [0; 4], "none freed");
    assert_eq!(card.log_sector_mut(0)[26], 10);
}

#[test]
fn truncate_to_nothing() {
    let mut card = with_file(&[10, 11], 0xFFF8, 1_000);
    run_storing(&mut card.bytes, &truncate(0), &[17, 65, 1, 33, 65]);
    assert_eq!((card.size(0), card.first_cluster(0)), (0, 0));
    assert_eq!((card.fat1_entry(10), card.fat1_entry(11)), (0, 0));
    assert_eq!(card.log_sector_mut(0)[22..28], [10, 0, 0, 0, 10, 0]);
}

#[test]
fn truncate_leaves_data_alone() {
    let mut card = with_file(&[10, 11], 0xFFF8, 1_000);
    card.bytes[73 * 512..75 * 512].fill(0xCC);
    run_done(&mut card.bytes, &truncate(10));
    assert!(card.bytes[73 * 512..75 * 512].iter().all(|&b| b == 0xCC));
}

#[test]
fn nothing_to_do_makes_no_store() {
    let mut card = with_file(&[10, 11], 0xFFF8, 1_000);
    let before = card.bytes.clone();
    for limit in [0, 1, ALL] {
        assert_eq!(run(&mut card.bytes, &append(&[]), limit), Answer::Done(0));
        let same = truncate(1_000);
        assert_eq!(run(&mut card.bytes, &same, limit), Answer::Done(0));
    }
    assert!(card.bytes == before);
}

#[test]
fn nothing_to_do_still_asks_every_ground() {
    let mut card = with_file(&[10, 11], 0xFFF7, 1_000);
    let refused = Answer::Refused(Ground::Chain);
    assert_eq!(run(&mut card.bytes, &append(&[]), ALL), refused);
    assert_eq!(run(&mut card.bytes, &truncate(1_000), ALL), refused);
    card.fill();
    card.set_fats(11, 0xFFFF);
    assert_eq!(run(&mut card.bytes, &append(&[]), ALL), Answer::Done(0));
}

#[test]
fn append_fills_the_card_to_the_last_cluster() {
    let mut card = Card::k();
    run_done(
        &mut card.bytes,
        &Operation::Create {
            name: ROUTE,
            seconds: AT,
        },
    );
    let room = (4_085 - 8) * 512;
    let data = pattern(room + 1, 5);
    let refused = Answer::Refused(Ground::Nospace);
    assert_eq!(run(&mut card.bytes, &append(&data), ALL), refused);
    run_done(&mut card.bytes, &append(&data[..room]));
    assert_eq!(free_clusters(&card.bytes), []);
    assert!(file_bytes(&card.bytes, 0) == data[..room]);
    assert_eq!(run(&mut card.bytes, &append(&[1]), ALL), refused);
    assert_eq!(run(&mut card.bytes, &append(&[]), ALL), Answer::Done(0));
    run_done(&mut card.bytes, &Operation::Delete { name: ROUTE });
    assert_eq!(free_clusters(&card.bytes).len(), 4_085 - 8);
}

#[test]
fn bad_and_odd_values_are_not_free() {
    let mut card = with_file(&[], 0, 0);
    card.fill();
    for (cluster, value) in [(20, 1), (21, 4_087), (22, 0xFFF5), (23, 0xFFFF)] {
        card.set_fats(cluster, value);
    }
    card.set_fats(0, 0);
    card.set_fats(1, 0);
    card.set_fats(4_087, 0);
    let refused = Answer::Refused(Ground::Nospace);
    assert_eq!(run(&mut card.bytes, &append(&[1]), ALL), refused);
    card.set_fats(4_086, 0);
    run_done(&mut card.bytes, &append(&[1]));
    assert_eq!(card.first_cluster(0), 4_086);
}

/// The ground on which each call that follows a chain refuses.
fn chain_grounds(card: &Card) -> [Option<Ground>; 6] {
    let name = ROUTE;
    let replace = Operation::Replace {
        name,
        data: b"x",
        seconds: AT,
    };
    let empty = Operation::Replace {
        name,
        data: &[],
        seconds: AT,
    };
    let read = match read(&card.bytes, ROUTE, 0, &mut []) {
        Answer::Refused(ground) => Some(ground),
        _ => None,
    };
    let delete = Operation::Delete { name };
    let calls = [append(b"x"), truncate(0), delete, replace, empty];
    let grounds = calls.map(|call| plan(&card.bytes, &call).err());
    [
        grounds[0], grounds[1], grounds[2], grounds[3], grounds[4], read,
    ]
}

#[test]
fn chain_rule() {
    let keeps = |chain: &[u16], end, size| {
        let card = with_file(chain, end, size);
        let grounds = chain_grounds(&card);
        assert_eq!(file_chain(&card.bytes, 0).is_some(), grounds[0].is_none());
        match grounds {
            all if all == [None; 6] => true,
            all if all == [Some(Ground::Chain); 6] => false,
            other => panic!("{other:?}"),
        }
    };
    assert!(keeps(&[], 0, 0));
    assert!(!keeps(&[], 0, 1), "first cluster 0");
    assert!(!keeps(&[10], 0xFFFF, 0), "empty with a cluster");
    assert!(keeps(&[10], 0xFFFF, 1));
    assert!(keeps(&[10], 0xFFFF, 512));
    assert!(!keeps(&[10], 0xFFFF, 513), "one cluster too few");
    assert!(!keeps(&[10, 11], 0xFFFF, 512), "one cluster too many");
    assert!(keeps(&[10, 11], 0xFFFF, 513));
    assert!(keeps(&[4_086, 10], 0xFFFF, 513), "the highest cluster");
    for end in 0xFFF8..=0xFFFF {
        assert!(keeps(&[10, 11], end, 513), "{end}");
    }
    for end in [0, 1, 12, 4_087, 0xFFF5, 0xFFF7] {
        assert!(!keeps(&[10, 11], end, 513), "{end}");
    }
    assert!(!keeps(&[1], 0xFFFF, 1), "first cluster below the range");
    assert!(!keeps(&[4_087], 0xFFFF, 1), "first cluster past the range");
    assert!(
        !keeps(&[10, 4_087], 0xFFFF, 513),
        "next cluster out of range"
    );
    assert!(!keeps(&[10, 11, 10], 11, 5_000), "a ring");
    assert!(!keeps(&[10], 10, u32::MAX), "a ring of one, largest size");
}

#[test]
fn chain_may_not_enter_the_log() {
    let mut card = with_file(&[], 0, 0);
    card.put_slot(0, ROUTE, 0x20, 5, 1);
    assert_eq!(chain_grounds(&card), [Some(Ground::Chain); 6]);
    let card = with_file(&[10], 5, 600);
    assert_eq!(chain_grounds(&card), [Some(Ground::Chain); 6]);
    let card = with_file(&[10], 5, 512);
    assert_eq!(chain_grounds(&card), [Some(Ground::Chain); 6]);
}

#[test]
fn chain_rule_of_a_directory_is_not_asked() {
    let mut card = with_file(&[10], 0xFFFF, 512);
    card.put_slot(1, b"FOLDER     ", 0x10, 5_000, 77);
    assert_eq!(chain_grounds(&card), [None; 6]);
}
