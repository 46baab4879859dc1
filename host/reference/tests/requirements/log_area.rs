//! LOGAREA, and where groups go in the log.

use crate::support::planned_sectors;
use crate::support::worked::STAMP;
use reference::*;
use testkit::cards::Card;
use testkit::{AT, ROUTE};

fn ground_of(card: &Card) -> Option<Ground> {
    match list(&card.bytes, &mut []) {
        Answer::Refused(ground) => Some(ground),
        _ => None,
    }
}

fn with_log(sectors_per_cluster: u8, log_first: u16, log_clusters: u16) -> Card {
    Card::new(CardSpec {
        sectors_per_cluster,
        total_sectors: 65 + 4_085 * u32::from(sectors_per_cluster),
        log_first,
        log_clusters,
        ..CardSpec::K
    })
}

const CREATE: Operation = Operation::Create {
    name: ROUTE,
    seconds: AT,
};

#[test]
fn no_run() {
    let card = with_log(1, 2, 0);
    assert_eq!(ground_of(&card), Some(Ground::Logarea));
}

#[test]
fn two_runs() {
    for cluster in [4u16, 100, 4_086] {
        let mut card = with_log(1, 2, 1);
        card.set_fats(cluster, 0xFFF6);
        assert_eq!(ground_of(&card), Some(Ground::Logarea));
    }
    let mut card = with_log(1, 2, 1);
    card.set_fats(3, 0xFFF6);
    assert_eq!(ground_of(&card), None, "two in a row are one run");
}

#[test]
fn longest_run() {
    assert_eq!(ground_of(&with_log(1, 50, 128)), None);
    assert_eq!(ground_of(&with_log(1, 50, 129)), Some(Ground::Logarea));
    assert_eq!(ground_of(&with_log(8, 50, 16)), None);
    assert_eq!(ground_of(&with_log(8, 50, 17)), Some(Ground::Logarea));
}

#[test]
fn run_at_the_end_of_the_card() {
    let card = with_log(1, 4_086, 1);
    assert_eq!(ground_of(&card), None);
    assert_eq!(planned_sectors(&card.bytes, &CREATE), [4_149, 33, 4_149]);
}

#[test]
fn only_cluster_entries_count() {
    let mut card = Card::k();
    card.set_fats(0, 0xFFF6);
    card.set_fats(1, 0xFFF6);
    card.set_fats(4_087, 0xFFF6);
    card.set_fats(4_095, 0xFFF6);
    assert_eq!(ground_of(&card), None);
    assert_eq!(planned_sectors(&card.bytes, &CREATE), [65, 33, 65]);
}

#[test]
fn only_fat1_decides() {
    let mut card = Card::k();
    let log_end = 17 * 512 + 20;
    card.bytes[17 * 512 + 4..log_end].fill(0);
    assert_eq!(ground_of(&card), Some(Ground::Unclean));
    let mut card = with_log(1, 2, 0);
    card.bytes[17 * 512 + 4..log_end].copy_from_slice(&[0xF6, 0xFF].repeat(8));
    assert_eq!(ground_of(&card), Some(Ground::Logarea));
}

#[test]
fn group_goes_into_the_lowest_sector_beginning_0() {
    let mut card = Card::k();
    card.log_sector_mut(0)[0] = 0xE5;
    card.log_sector_mut(2)[0] = 0xE5;
    assert_eq!(planned_sectors(&card.bytes, &CREATE), [66, 33, 66]);
}

#[test]
fn only_the_first_byte_of_a_log_sector_decides() {
    let mut card = Card::k();
    card.log_sector_mut(0)[1..32].fill(0x77);
    card.log_sector_mut(0)[32] = 0xE5;
    card.log_sector_mut(0)[500] = 0x77;
    let stores = plan(&card.bytes, &CREATE).unwrap();
    assert_eq!(stores[0].sector, 65);
    for store in [0, 2] {
        assert_eq!(stores[store].bytes[33..64], STAMP[1..]);
        assert!(stores[store].bytes[64..].iter().all(|&byte| byte == 0));
    }
}

#[test]
fn full_log_of_one_sector() {
    let mut card = with_log(1, 2, 1);
    card.log_sector_mut(0)[0] = 0xE5;
    assert_eq!(planned_sectors(&card.bytes, &CREATE), [65, 65, 33, 65]);
}

#[test]
fn clearing_follows_fat2_and_precedes_the_group() {
    let mut card = with_log(2, 2, 1);
    card.put_slot(0, ROUTE, 0x20, 0, 0);
    card.log_sector_mut(0)[0] = 0xE5;
    card.log_sector_mut(1)[0] = 0xE5;
    let append = Operation::Append {
        name: ROUTE,
        data: b"path",
        seconds: AT,
    };
    let expected = [67, 17, 66, 65, 65, 1, 33, 65];
    assert_eq!(planned_sectors(&card.bytes, &append), expected);
}
