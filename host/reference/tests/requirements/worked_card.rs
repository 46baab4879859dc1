//! Card K worked through: M1 to M10.

use crate::support::worked::{
    after_m3, after_m4, assert_committed, assert_committed_alone, created, record, STAMP,
};
use crate::support::{pattern, run_done, run_storing, sector};
use reference::*;
use testkit::cards::Card;
use testkit::{ALL, AT, PANEL, ROUTE};

const CREATE: Operation = Operation::Create {
    name: ROUTE,
    seconds: AT,
};
const DELETE: Operation = Operation::Delete { name: ROUTE };

fn append(data: &[u8]) -> Operation<'_> {
    Operation::Append {
        name: ROUTE,
        data,
        seconds: AT,
    }
}

fn truncate(size: u64) -> Operation<'static> {
    Operation::Truncate {
        name: ROUTE,
        size,
        seconds: AT,
    }
}

fn after_m7() -> Card {
    let mut card = after_m4();
    run_done(&mut card.bytes, &append(&pattern(100, 9)));
    card
}

fn after_m8() -> Card {
    let mut card = after_m7();
    run_done(&mut card.bytes, &truncate(512));
    card
}

#[test]
fn card_k_is_laid_out_as_described() {
    let card = card_k();
    assert_eq!(card.len(), 4_150 * 512);
    let geometry = Geometry::parse(&card).unwrap();
    assert_eq!(geometry.fat1_start(), 1);
    assert_eq!(geometry.fat2_start(), 17);
    assert_eq!(geometry.root_start(), 33);
    assert_eq!(geometry.data_start(), 65);
    let filled = card.iter().skip(512).filter(|&&byte| byte != 0).count();
    assert_eq!(filled, 32, "eight log marks in each FAT and nothing else");
    assert_eq!(sector(&card, 1)[4..20], [0xF6, 0xFF].repeat(8));
}

#[test]
fn m1_fewest_clusters() {
    let card = card_k();
    assert_eq!(Geometry::parse(&card).unwrap().clusters, 4_085);
    assert_eq!(list(&card, &mut []), Answer::Done(0));
}

#[test]
fn m2_one_sector_less() {
    let card = CardSpec {
        total_sectors: 4_149,
        ..CardSpec::K
    };
    let answer = list(&card.build(), &mut []);
    assert_eq!(answer, Answer::Refused(Ground::Boot));
}

#[test]
fn m3_create() {
    let mut card = Card::k();
    let mut expected = card.bytes.clone();
    run_storing(&mut card.bytes, &CREATE, &[65, 33, 65]);

    expected[33 * 512..][..32].copy_from_slice(&created(ROUTE));
    let mut committed = record(ROUTE, 1, 0, 0, 0, 0);
    committed.extend(STAMP);
    committed[0] = 0xE5;
    committed[32] = 0xE5;
    expected[65 * 512..][..64].copy_from_slice(&committed);
    assert!(card.bytes == expected);
}

#[test]
fn m3_first_store_is_the_pending_record() {
    let stores = plan(&card_k(), &CREATE).unwrap();
    assert_eq!(stores[0].bytes[..32], record(ROUTE, 1, 0, 0, 0, 0));
    assert_eq!(stores[0].bytes[32..64], STAMP);
    assert!(stores[0].bytes[64..].iter().all(|&byte| byte == 0));
}

#[test]
fn m4_append() {
    let mut card = after_m3();
    let data = pattern(1_300, 0);
    run_storing(
        &mut card.bytes,
        &append(&data),
        &[73, 74, 75, 17, 66, 1, 33, 66],
    );
    assert_eq!(file_chain(&card.bytes, 0), Some(vec![10, 11, 12]));
    let links = [
        card.fat1_entry(10),
        card.fat1_entry(11),
        card.fat1_entry(12),
    ];
    assert_eq!(links, [11, 12, 0xFFFF]);
    assert_eq!(sector(&card.bytes, 1), sector(&card.bytes, 17));
    assert_eq!(card.bytes[73 * 512..][..1_300], data);
    assert_eq!(sector(&card.bytes, 75)[276..], [0; 236]);
    assert_eq!(card.size(0), 1_300);
    assert_eq!(card.first_cluster(0), 10);
    assert_committed(&card, 66, &record(ROUTE, 2, 0, 10, 0, 1_300));
    assert_eq!(file_bytes(&card.bytes, 0), data);
}

#[test]
fn m4_clears_old_bytes_after_the_new_end() {
    let mut card = after_m3();
    card.bytes[73 * 512..76 * 512].fill(0xAA);
    run_done(&mut card.bytes, &append(&pattern(1_300, 0)));
    assert_eq!(sector(&card.bytes, 75)[276..], [0; 236]);
}

#[test]
fn m5_cut_before_the_record() {
    let mut card = after_m3();
    let start = card.metadata().to_vec();
    let data = pattern(1_300, 0);
    let answer = run(&mut card.bytes, &append(&data), 4);
    assert_eq!(answer, Answer::Stopped(4));
    assert_ne!(card.metadata(), start, "FAT2 is ahead");
    run_storing(&mut card.bytes, &Operation::Recover, &[17]);
    assert_eq!(card.size(0), 0);
    assert_eq!(card.metadata(), start);
}

#[test]
fn m6_cut_after_the_record() {
    let mut card = after_m3();
    let data = pattern(1_300, 0);
    let answer = run(&mut card.bytes, &append(&data), 5);
    assert_eq!(answer, Answer::Stopped(5));
    assert_eq!(card.size(0), 0);
    run_storing(&mut card.bytes, &Operation::Recover, &[1, 33, 66]);
    assert_eq!(card.size(0), 1_300);
    assert_eq!(file_bytes(&card.bytes, 0), data);
    assert!(card.bytes == after_m4().bytes);
}

#[test]
fn m7_append_within_the_last_cluster() {
    let mut card = after_m4();
    let more = pattern(100, 9);
    run_storing(&mut card.bytes, &append(&more), &[75, 67, 33, 67]);
    assert_committed(&card, 67, &record(ROUTE, 2, 0, 0, 12, 1_400));
    let whole = [pattern(1_300, 0), more].concat();
    assert_eq!(file_bytes(&card.bytes, 0), whole);
    assert_eq!(sector(&card.bytes, 75)[376..], [0; 136]);
}

#[test]
fn m8_truncate() {
    let mut card = after_m7();
    run_storing(&mut card.bytes, &truncate(512), &[17, 68, 1, 33, 68]);
    assert_committed(&card, 68, &record(ROUTE, 4, 0, 11, 10, 512));
    assert_eq!(file_chain(&card.bytes, 0), Some(vec![10]));
    assert_eq!(file_bytes(&card.bytes, 0), pattern(1_300, 0)[..512]);
    let freed = [card.fat1_entry(11), card.fat1_entry(12)];
    assert_eq!(freed, [0, 0]);
}

#[test]
fn m9_delete() {
    let mut card = after_m8();
    let before = card.slot(0).to_vec();
    run_storing(&mut card.bytes, &DELETE, &[17, 69, 1, 33, 69]);
    assert_committed_alone(&card, 69, &record(ROUTE, 3, 0, 0, 10, 512));
    assert_eq!(card.fat1_entry(10), 0);
    assert_eq!(card.slot(0)[0], 0xE5);
    assert_eq!(card.slot(0)[1..], before[1..]);
    let answer = read(&card.bytes, ROUTE, 0, &mut []);
    assert_eq!(answer, Answer::Refused(Ground::Absent));
}

#[test]
fn m10_ninth_group() {
    let mut card = after_m8();
    run_done(&mut card.bytes, &DELETE);
    run_storing(&mut card.bytes, &CREATE, &[70, 33, 70]);
    run_storing(&mut card.bytes, &DELETE, &[71, 33, 71]);
    run_storing(&mut card.bytes, &CREATE, &[72, 33, 72]);
    let ninth = Operation::Create {
        name: PANEL,
        seconds: AT,
    };
    let stores = plan(&card.bytes, &ninth).unwrap();
    assert!(stores[..8].iter().all(|store| store.bytes == [0; 512]));
    run_storing(
        &mut card.bytes,
        &ninth,
        &[72, 71, 70, 69, 68, 67, 66, 65, 65, 33, 65],
    );
    assert_committed(&card, 65, &record(PANEL, 1, 1, 0, 0, 0));
    assert!(card.bytes[66 * 512..73 * 512].iter().all(|&b| b == 0));
}

#[test]
fn truncate_to_size_plus_one() {
    let mut card = after_m4();
    let before = card.bytes.clone();
    let answer = run(&mut card.bytes, &truncate(1_301), ALL);
    assert_eq!(answer, Answer::Refused(Ground::Length));
    assert!(card.bytes == before);
}
