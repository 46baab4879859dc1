//! Replace, worked through on card K as M1 to M10 are: sectors, chains, records and free clusters are numbers found by hand.

use crate::support::worked::{
    after_m3, after_m4, assert_committed, put_written, record, with_file, STAMP,
};
use crate::support::{pattern, planned_sectors, run_done, run_storing, sector};
use reference::*;
use testkit::cards::Card;
use testkit::{ALL, AT, OTHER, PANEL, ROUTE};

const RECOVER: Operation = Operation::Recover;

fn replace(data: &[u8]) -> Operation<'_> {
    Operation::Replace {
        name: ROUTE,
        data,
        seconds: AT,
    }
}

/// The FAT1 entries of the clusters.
fn entries<const N: usize>(card: &Card, clusters: [u16; N]) -> [u16; N] {
    clusters.map(|cluster| card.fat1_entry(cluster))
}

#[test]
fn by_600_bytes() {
    let mut card = after_m4();
    let free = free_clusters(&card.bytes);
    assert_eq!((free.len(), &free[..4]), (4_074, &[13, 14, 15, 16][..]));
    // Old bytes where the new ones go, and after them.
    card.bytes[76 * 512..79 * 512].fill(0xAA);
    let old_sectors = card.bytes[73 * 512..76 * 512].to_vec();
    let data = pattern(600, 5);
    run_storing(
        &mut card.bytes,
        &replace(&data),
        &[76, 77, 17, 67, 1, 33, 67],
    );

    assert_eq!(file_chain(&card.bytes, 0), Some(vec![13, 14]));
    assert_eq!(
        entries(&card, [10, 11, 12, 13, 14, 15]),
        [0, 0, 0, 14, 0xFFFF, 0]
    );
    assert_eq!(sector(&card.bytes, 1), sector(&card.bytes, 17));
    assert_eq!((card.first_cluster(0), card.size(0)), (13, 600));
    assert_committed(&card, 67, &record(ROUTE, 6, 0, 13, 10, 600));
    assert_eq!(card.bytes[76 * 512..][..600], data);
    assert_eq!(sector(&card.bytes, 77)[88..], [0; 424]);
    assert_eq!(sector(&card.bytes, 78), [0xAA; 512], "no sector more");
    assert!(
        card.bytes[73 * 512..76 * 512] == old_sectors,
        "old data stays"
    );
    assert_eq!(file_bytes(&card.bytes, 0), data);
    let free = free_clusters(&card.bytes);
    assert_eq!((free.len(), &free[..4]), (4_075, &[10, 11, 12, 15][..]));
}

#[test]
fn the_group_as_it_is_stored() {
    let stores = plan(&after_m4().bytes, &replace(&pattern(600, 5))).unwrap();
    assert_eq!(stores[3].bytes[..32], record(ROUTE, 6, 0, 13, 10, 600));
    assert_eq!(stores[3].bytes[32..64], STAMP);
    assert!(stores[3].bytes[64..].iter().all(|&byte| byte == 0));
    // New links and freed entries are in the one store of the FAT sector.
    assert_eq!(
        stores[2].bytes[20..30],
        [0, 0, 0, 0, 0, 0, 14, 0, 0xFF, 0xFF]
    );
}

#[test]
fn by_no_bytes() {
    let mut card = after_m4();
    run_storing(&mut card.bytes, &replace(&[]), &[17, 67, 1, 33, 67]);
    assert_eq!((card.first_cluster(0), card.size(0)), (0, 0));
    assert_eq!(entries(&card, [10, 11, 12]), [0, 0, 0]);
    assert_committed(&card, 67, &record(ROUTE, 6, 0, 0, 10, 0));
    assert_eq!(free_clusters(&card.bytes).len(), 4_077);
    assert_eq!(read(&card.bytes, ROUTE, 0, &mut [0; 9]), Answer::Done(0));
}

#[test]
fn an_empty_file_by_some() {
    let mut card = after_m3();
    let data = pattern(600, 5);
    run_storing(
        &mut card.bytes,
        &replace(&data),
        &[73, 74, 17, 66, 1, 33, 66],
    );
    assert_committed(&card, 66, &record(ROUTE, 6, 0, 10, 0, 600));
    assert_eq!(file_chain(&card.bytes, 0), Some(vec![10, 11]));
    assert_eq!(file_bytes(&card.bytes, 0), data);
}

/// A replace always writes a group: nothing but the log changes here, at the moment of the create.
#[test]
fn an_empty_file_by_no_bytes() {
    let mut card = after_m3();
    let mut expected = card.bytes.clone();
    run_storing(&mut card.bytes, &replace(&[]), &[66, 33, 66]);
    let mut committed = record(ROUTE, 6, 0, 0, 0, 0);
    committed.extend(STAMP);
    committed[0] = 0xE5;
    committed[32] = 0xE5;
    expected[66 * 512..][..64].copy_from_slice(&committed);
    assert!(card.bytes == expected);
}

/// The bytes that it has already move to new clusters, and back when they are saved again.
#[test]
fn by_the_same_bytes() {
    let mut card = after_m4();
    let data = pattern(1_300, 0);
    let there = [76, 77, 78, 17, 67, 1, 33, 67];
    run_storing(&mut card.bytes, &replace(&data), &there);
    assert_committed(&card, 67, &record(ROUTE, 6, 0, 13, 10, 1_300));
    assert_eq!(file_chain(&card.bytes, 0), Some(vec![13, 14, 15]));
    let back = [73, 74, 75, 17, 68, 1, 33, 68];
    run_storing(&mut card.bytes, &replace(&data), &back);
    assert_committed(&card, 68, &record(ROUTE, 6, 0, 10, 13, 1_300));
    assert_eq!(file_chain(&card.bytes, 0), Some(vec![10, 11, 12]));
    assert_eq!(file_bytes(&card.bytes, 0), data);
}

/// Cut before the group's store, the fourth: data alone, then FAT2 too.
#[test]
fn cut_before_the_record() {
    for (limit, recovery) in [(2, &[][..]), (3, &[17])] {
        let mut card = after_m4();
        let start = card.metadata().to_vec();
        let answer = run(&mut card.bytes, &replace(&pattern(600, 5)), limit);
        assert_eq!(answer, Answer::Stopped(limit));
        run_storing(&mut card.bytes, &RECOVER, recovery);
        assert_eq!(card.metadata(), start);
        assert_eq!(file_bytes(&card.bytes, 0), pattern(1_300, 0));
    }
}

#[test]
fn cut_at_the_record() {
    let data = pattern(600, 5);
    let mut finished = after_m4();
    run_done(&mut finished.bytes, &replace(&data));
    for (limit, recovery) in [(4, &[1, 33, 67][..]), (5, &[33, 67]), (6, &[33, 67])] {
        let mut card = after_m4();
        let answer = run(&mut card.bytes, &replace(&data), limit);
        assert_eq!(answer, Answer::Stopped(limit));
        run_storing(&mut card.bytes, &RECOVER, recovery);
        assert!(card.bytes == finished.bytes, "{limit}");
    }
}

#[test]
fn on_a_full_card() {
    let mut card = after_m4();
    card.fill();
    let refused = Answer::Refused(Ground::Nospace);
    assert_eq!(run(&mut card.bytes, &replace(&[1]), ALL), refused);
    run_storing(&mut card.bytes, &replace(&[]), &[17, 67, 1, 33, 67]);
    assert_eq!(free_clusters(&card.bytes), [10, 11, 12]);
}

/// Two clusters are free: the three old ones neither serve nor count.
#[test]
fn old_clusters_make_no_room() {
    let mut card = after_m4();
    card.fill();
    card.set_fats(100, 0);
    card.set_fats(101, 0);
    let data = pattern(1_025, 5);
    let before = card.bytes.clone();
    let answer = run(&mut card.bytes, &replace(&data), ALL);
    assert_eq!(answer, Answer::Refused(Ground::Nospace));
    assert!(card.bytes == before);
    let expected = [163, 164, 17, 67, 1, 33, 67];
    run_storing(&mut card.bytes, &replace(&data[..1_024]), &expected);
    assert_eq!(file_chain(&card.bytes, 0), Some(vec![100, 101]));
    assert_eq!(free_clusters(&card.bytes), [10, 11, 12]);
}

/// FAT entries 20 and 21, 300 and 4,000 are in FAT sectors 0, 1 and 15. The first is stored once, with a freed and a new one.
#[test]
fn several_fat_sectors_rise() {
    let mut card = with_file(&[300, 20], 0xFFF8, 700);
    card.fill();
    card.set_fats(21, 0);
    card.set_fats(4_000, 0);
    let data = pattern(1_024, 5);
    let expected = [84, 4_063, 17, 18, 32, 65, 1, 2, 16, 33, 65];
    run_storing(&mut card.bytes, &replace(&data), &expected);
    assert_eq!(file_chain(&card.bytes, 0), Some(vec![21, 4_000]));
    assert_eq!(file_bytes(&card.bytes, 0), data);
    assert_eq!(free_clusters(&card.bytes), [20, 300]);
}

/// Clusters of four sectors: only sectors that get a byte, and the file's other sectors are left.
#[test]
fn only_sectors_with_bytes_are_stored() {
    let mut card = Card::new(CardSpec {
        sectors_per_cluster: 4,
        total_sectors: 65 + 4 * 4_085,
        ..CardSpec::K
    });
    card.put_slot(0, ROUTE, 0x20, 10, 513);
    card.put_chain(&[10], 0xFFFF);
    // Cluster 11 starts at sector 65 + 36.
    card.bytes[101 * 512..109 * 512].fill(0xAA);
    let data = pattern(2_049, 5);
    let expected = [101, 102, 103, 104, 105, 17, 65, 1, 33, 65];
    run_storing(&mut card.bytes, &replace(&data), &expected);
    assert_eq!(file_bytes(&card.bytes, 0), data);
    assert_eq!(sector(&card.bytes, 105)[1..], [0; 511]);
    assert!(card.bytes[106 * 512..109 * 512].iter().all(|&b| b == 0xAA));
}

/// The eighth group was the last with room: all eight sectors are cleared, the highest first, between FAT2 and the group.
#[test]
fn a_full_log_is_cleared() {
    let mut card = after_m4();
    for sector in 67..73 {
        run_storing(&mut card.bytes, &replace(&[]), &sectors_of_an_empty(sector));
    }
    let data = pattern(600, 5);
    let stores = plan(&card.bytes, &replace(&data)).unwrap();
    assert!(stores[3..11].iter().all(|store| store.bytes == [0; 512]));
    let expected = [73, 74, 17, 72, 71, 70, 69, 68, 67, 66, 65, 65, 1, 33, 65];
    run_storing(&mut card.bytes, &replace(&data), &expected);
    assert_committed(&card, 65, &record(ROUTE, 6, 0, 10, 0, 600));
    assert!(card.bytes[66 * 512..73 * 512].iter().all(|&b| b == 0));
}

/// The stores of a replace by no bytes with its group in the sector: the first frees the clusters of M4.
fn sectors_of_an_empty(sector: usize) -> Vec<usize> {
    match sector {
        67 => vec![17, 67, 1, 33, 67],
        other => vec![other, 33, other],
    }
}

/// Of the slot only first cluster, size, write time and the dates of writing and access change: attributes, the fields of its
/// creation and the high word stay.
#[test]
fn other_fields_of_the_slot_stay() {
    let mut card = with_file(&[10], 0xFFF8, 100);
    card.slot_mut(0)[11..26].copy_from_slice(&pattern(15, 0x40));
    card.slot_mut(0)[11] = 0x26;
    let mut slot = card.slot(0).to_vec();
    assert_ne!(slot[20..22], [0, 0]);
    run_done(&mut card.bytes, &replace(&pattern(600, 5)));
    slot[26..].copy_from_slice(&[11, 0, 0x58, 2, 0, 0]);
    put_written(&mut slot);
    assert_eq!(card.slot(0), slot);
    assert_eq!(card.log_sector_mut(0)[11..14], [0x26, 0, 6]);
    assert_eq!(card.log_sector_mut(0)[20..22], [0, 0], "not the slot's");
}

/// The lowest slot of the name, in another root sector; a root directory without a free slot does not matter.
#[test]
fn the_lowest_slot_of_the_name() {
    let mut card = Card::k();
    card.fill_root(0);
    card.put_slot(30, ROUTE, 0x08, 0, 0);
    card.put_slot(40, ROUTE, 0x20, 10, 700);
    card.put_slot(50, ROUTE, 0x20, 20, 5);
    card.put_chain(&[10, 11], 0xFFFF);
    card.put_chain(&[20], 0xFFFF);
    run_storing(&mut card.bytes, &replace(b"path"), &[75, 17, 65, 1, 35, 65]);
    assert_eq!((card.first_cluster(40), card.size(40)), (12, 4));
    assert_eq!((card.first_cluster(50), card.size(50)), (20, 5));
    assert_eq!(card.log_sector_mut(0)[18], 40);
}

#[test]
fn other_files_keep_their_bytes() {
    let mut card = after_m4();
    for (name, length) in [(PANEL, 5_000), (OTHER, 1)] {
        run_done(&mut card.bytes, &Operation::Create { name, seconds: AT });
        let data = &pattern(length, 9);
        run_done(
            &mut card.bytes,
            &Operation::Append {
                name,
                data,
                seconds: AT,
            },
        );
    }
    for length in [0, 1, 512, 1_300, 9_000, 513] {
        let data = pattern(length, length as u8);
        run_done(&mut card.bytes, &replace(&data));
        assert_eq!(file_bytes(&card.bytes, 0), data);
        assert_eq!(file_bytes(&card.bytes, 1), pattern(5_000, 9));
        assert_eq!(file_bytes(&card.bytes, 2), pattern(1, 9));
        assert!(is_sound(&card.bytes));
    }
}

/// As with delete, the old chain is freed whoever shares it.
#[test]
fn a_chain_that_is_shared() {
    let mut card = with_file(&[10, 11], 0xFFFF, 700);
    card.put_slot(1, PANEL, 0x20, 11, 9);
    run_done(&mut card.bytes, &replace(b"path"));
    assert_eq!(entries(&card, [10, 11, 12]), [0, 0, 0xFFFF]);
    assert_eq!(file_chain(&card.bytes, 1), None);
}

/// A replace needs all clusters of its size free before, up to the last one of the card.
#[test]
fn the_whole_card() {
    let mut card = Card::k();
    run_done(
        &mut card.bytes,
        &Operation::Create {
            name: ROUTE,
            seconds: AT,
        },
    );
    let room = (4_085 - 8) * 512;
    let data = pattern(room + 1, 5);
    let refused = Answer::Refused(Ground::Nospace);
    assert_eq!(run(&mut card.bytes, &replace(&data), ALL), refused);
    let half = room / 2 / 512 * 512;
    run_done(&mut card.bytes, &replace(&data[..half]));
    // 2,038 clusters are taken, so 2,039 are free.
    let more = &data[..half + 513];
    assert_eq!(run(&mut card.bytes, &replace(more), ALL), refused);
    run_done(&mut card.bytes, &replace(&data[..half + 512]));
    assert_eq!(free_clusters(&card.bytes).len(), 2_038);
    assert!(file_bytes(&card.bytes, 0) == data[..half + 512]);
    // Clusters 2,048 to 4,086 are in FAT sectors 8 to 15: eight stores in each FAT.
    let stores = planned_sectors(&card.bytes, &replace(&[]));
    assert_eq!(stores.len(), 8 + 1 + 8 + 1 + 1);
}
