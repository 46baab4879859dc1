//! SHORT, BOOT and WINDOW. A window of one sector suffices to tell an accepted
//! boot sector, which then answers WINDOW, from a refused one.

use crate::support::run_done;
use reference::*;
use testkit::cards::Card;
use testkit::{AT, PANEL, ROUTE};

fn ground_of(window: &[u8]) -> Option<Ground> {
    match list(window, &mut []) {
        Answer::Refused(ground) => Some(ground),
        _ => None,
    }
}

fn is_accepted(boot: &[u8; 512]) -> bool {
    match ground_of(boot) {
        Some(Ground::Window) => true,
        Some(Ground::Boot) => false,
        other => panic!("{other:?}"),
    }
}

fn accepts(spec: CardSpec) -> bool {
    is_accepted(&spec.boot_sector())
}

/// A layout with the given number of clusters.
fn with_clusters(clusters: u32, sectors_per_cluster: u8, sectors_per_fat: u16) -> CardSpec {
    let data = 1 + 2 * u32::from(sectors_per_fat) + 1;
    CardSpec {
        sectors_per_cluster,
        sectors_per_fat,
        root_entries: 16,
        total_sectors: data + clusters * u32::from(sectors_per_cluster),
        use_32bit_total: true,
        ..CardSpec::K
    }
}

#[test]
fn short_window() {
    let card = card_k();
    assert_eq!(ground_of(&[]), Some(Ground::Short));
    assert_eq!(ground_of(&card[..511]), Some(Ground::Short));
    assert_eq!(ground_of(&card[..512]), Some(Ground::Window));
    assert_eq!(ground_of(&[0; 511]), Some(Ground::Short));
    assert_eq!(ground_of(&[0; 512]), Some(Ground::Boot));
}

#[test]
fn window_one_byte_short() {
    let card = card_k();
    let almost = &card[..card.len() - 1];
    assert_eq!(ground_of(almost), Some(Ground::Window));
    assert_eq!(ground_of(&card), None);
}

/// The base has clusters and FAT entries to spare, so that only the rule in
/// question is broken.
#[test]
fn each_field_is_judged() {
    let boot = with_clusters(5_000, 1, 300).boot_sector();
    assert!(is_accepted(&boot));
    for bytes_per_sector in [0u16, 256, 511, 513, 1_024, 0x0002] {
        assert!(!is_accepted(&patched(&boot, 11, bytes_per_sector)));
    }
    assert!(!is_accepted(&patched(&boot, 14, 0)), "reserved sectors");
    for fat_count in [0, 1, 3, 255] {
        let mut boot = boot;
        boot[16] = fat_count;
        assert!(!is_accepted(&boot), "{fat_count}");
    }
    for root_entries in [0, 1, 15, 17, 24, 40] {
        assert!(!is_accepted(&patched(&boot, 17, root_entries)));
    }
    assert!(is_accepted(&patched(&boot, 17, 48)));
    assert!(!is_accepted(&patched(&boot, 22, 0)), "sectors per FAT");
    for signature in [0, 0x55AA, 0xAA54, 0xAB55] {
        assert!(!is_accepted(&patched(&boot, 510, signature)));
    }
}

fn patched(boot: &[u8; 512], at: usize, value: u16) -> [u8; 512] {
    let mut boot = *boot;
    boot[at..at + 2].copy_from_slice(&value.to_le_bytes());
    boot
}

#[test]
fn other_fields_are_not_judged() {
    let boot = CardSpec::K.boot_sector();
    let judged = [11..14, 14..21, 22..24, 510..512];
    for at in 0..512 {
        if judged.iter().all(|range| !range.contains(&at)) {
            let mut patched = boot;
            patched[at] ^= 0xFF;
            assert!(is_accepted(&patched), "{at}");
        }
    }
}

#[test]
fn every_sectors_per_cluster() {
    for per_cluster in 0..=255u8 {
        let spec = with_clusters(5_000, per_cluster, 20);
        let expected = [1, 2, 4, 8, 16, 32, 64].contains(&per_cluster);
        assert_eq!(accepts(spec), expected, "{per_cluster}");
    }
}

#[test]
fn cluster_counts() {
    for (clusters, accepted) in [
        (0, false),
        (1, false),
        (4_084, false),
        (4_085, true),
        (65_524, true),
        (65_525, false),
        (65_535, false),
        (1_000_000, false),
    ] {
        for per_cluster in [1, 8] {
            let spec = with_clusters(clusters, per_cluster, 300);
            assert_eq!(accepts(spec), accepted, "{clusters} {per_cluster}");
        }
    }
}

#[test]
fn sectors_that_make_no_cluster_do_not_count() {
    let mut spec = with_clusters(4_085, 8, 16);
    spec.total_sectors += 7;
    assert!(accepts(spec));
    spec.total_sectors -= 8;
    assert!(!accepts(spec));
    let mut spec = with_clusters(65_524, 8, 256);
    spec.total_sectors += 7;
    assert!(accepts(spec));
    spec.total_sectors += 1;
    assert!(!accepts(spec));
}

#[test]
fn fat_must_hold_all_clusters() {
    assert!(accepts(with_clusters(4_094, 1, 16)));
    assert!(!accepts(with_clusters(4_095, 1, 16)));
    assert!(!accepts(with_clusters(4_085, 1, 15)));
    assert!(accepts(with_clusters(65_524, 1, 256)));
    assert!(!accepts(with_clusters(65_524, 1, 255)));
}

#[test]
fn total_below_the_data_start() {
    for total_sectors in [1, 32, 33, 34] {
        let spec = CardSpec {
            total_sectors,
            ..with_clusters(4_085, 1, 16)
        };
        assert!(!accepts(spec), "{total_sectors}");
    }
}

#[test]
fn the_16_bit_total_goes_first() {
    let mut boot = CardSpec::K.boot_sector();
    boot[32..36].copy_from_slice(&1u32.to_le_bytes());
    assert!(is_accepted(&boot));
    boot[19..21].copy_from_slice(&[0, 0]);
    assert!(!is_accepted(&boot));
    boot[32..36].copy_from_slice(&4_150u32.to_le_bytes());
    assert!(is_accepted(&boot));
}

#[test]
fn largest_fields_do_not_overflow() {
    let spec = CardSpec {
        reserved: u16::MAX,
        sectors_per_cluster: 64,
        sectors_per_fat: u16::MAX,
        root_entries: 65_520,
        total_sectors: u32::MAX,
        use_32bit_total: true,
        ..CardSpec::K
    };
    assert!(!accepts(spec), "far too many clusters");
    let data = 65_535 * 3 + 65_520 / 16;
    let total_sectors = data + 65_524 * 64 + 63;
    assert!(accepts(CardSpec {
        total_sectors,
        ..spec
    }));
}

#[test]
fn most_clusters_with_the_last_one_used() {
    let mut card = Card::new(with_clusters(65_524, 1, 256));
    assert_eq!(Geometry::parse(&card.bytes).unwrap().clusters, 65_524);
    card.fill();
    card.set_fats(0xFFF4, 0);
    card.set_fats(0xFFF5, 0);
    run_done(
        &mut card.bytes,
        &Operation::Create {
            name: ROUTE,
            seconds: AT,
        },
    );
    let data = [7; 1_024];
    let append = Operation::Append {
        name: ROUTE,
        data: &data,
        seconds: AT,
    };
    run_done(&mut card.bytes, &append);
    assert_eq!(file_chain(&card.bytes, 0), Some(vec![0xFFF4, 0xFFF5]));
    assert_eq!(file_bytes(&card.bytes, 0), data);
    assert_eq!(card.first_cluster(0), 0xFFF4);
    assert!(card.bytes.ends_with(&data[..512]));
    let full = run(&mut card.bytes, &append, u32::MAX);
    assert_eq!(full, Answer::Refused(Ground::Nospace));
}

#[test]
fn bytes_after_the_card_are_left_alone() {
    let mut window = card_k();
    let end = window.len();
    window.extend([0xA5; 700]);
    run_done(
        &mut window,
        &Operation::Create {
            name: ROUTE,
            seconds: AT,
        },
    );
    run_done(
        &mut window,
        &Operation::Create {
            name: PANEL,
            seconds: AT,
        },
    );
    assert_eq!(window[end..], [0xA5; 700]);
    assert_eq!(list(&window, &mut []), Answer::Done(2));
}
