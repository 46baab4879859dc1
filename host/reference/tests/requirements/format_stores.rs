//! Format: which sectors are stored, in which order, and every byte of them.

use crate::support::sector;
use reference::{card_k, format, plan, program, run, Answer, Store};
use testkit::fresh::{border_totals, fresh, Fresh, CLUSTER_SIZES, FRESH_K};
use testkit::random::Random;
use testkit::ALL;

fn planned(window: &[u8], asked: Fresh) -> Vec<Store> {
    plan(window, &asked.operation()).expect("granted")
}

/// A window of the card's size with bytes that a format must not look at.
fn noise(asked: Fresh, more: usize) -> Vec<u8> {
    Random::new(asked.total.into()).bytes(asked.window() + more)
}

/// The boot sector's bytes that are not zero: those before the fields that differ, and these.
fn expect_boot(asked: Fresh, fields: &[(usize, u8)]) {
    let stores = planned(&vec![0; asked.window()], asked);
    let last = stores.last().expect("stores");
    assert_eq!(last.sector, 0);
    let mut boot = [0; 512];
    boot[..3].copy_from_slice(&[0xEB, 0x3C, 0x90]);
    boot[12] = 2; // 512 bytes per sector
    boot[14] = 1; // reserved sectors
    boot[16] = 2; // FATs
    boot[18] = 2; // 512 root entries
    boot[21] = 0xF8;
    boot[510..].copy_from_slice(&[0x55, 0xAA]);
    for &(at, byte) in fields {
        assert_eq!(boot[at], 0);
        boot[at] = byte;
    }
    assert_eq!(last.bytes, boot, "{asked:?}");
}

/// Sectors per cluster at 13, the total at 19 or 32, sectors per FAT at 22.
#[test]
fn every_byte_of_the_boot_sector() {
    // 4,150 is 0x1036.
    expect_boot(FRESH_K, &[(13, 1), (19, 0x36), (20, 0x10), (22, 16)]);
    expect_boot(
        fresh(65_535, 1, 128),
        &[(13, 1), (19, 0xFF), (20, 0xFF), (22, 254)],
    );
    expect_boot(fresh(65_536, 1, 1), &[(13, 1), (34, 1), (22, 254)]);
    expect_boot(fresh(65_537, 8, 1), &[(13, 8), (32, 1), (34, 1), (22, 32)]);
    // 4,194,144 is 0x3FFF60; 256 sectors per FAT.
    expect_boot(
        fresh(4_194_144, 64, 2),
        &[(13, 64), (32, 0x60), (33, 0xFF), (34, 0x3F), (23, 1)],
    );
}

/// The sectors of card K, one by one: the zero boot sector, the FATs from 1 and 17, the root directory from 33, the log from 65 to
/// 72, the true boot sector.
#[test]
fn every_store_of_card_k() {
    for window in [vec![0; 4_150 * 512], noise(FRESH_K, 0), card_k()] {
        let stores = planned(&window, FRESH_K);
        assert_eq!(stores.len(), 74);
        for (place, store) in stores[..73].iter().enumerate() {
            assert_eq!(store.sector, place);
            let mut bytes = [0; 512];
            if [1, 17].contains(&place) {
                // Entries 0xFFF8, 0xFFFF, and 0xFFF6 for clusters 2 to 9.
                bytes[..4].copy_from_slice(&[0xF8, 0xFF, 0xFF, 0xFF]);
                for entry in bytes[4..20].chunks_mut(2) {
                    entry.copy_from_slice(&[0xF6, 0xFF]);
                }
            }
            assert_eq!(store.bytes, bytes, "{place}");
        }
        assert_eq!(stores[73].sector, 0);
        assert_eq!(stores[73].bytes[..3], [0xEB, 0x3C, 0x90]);
    }
}

/// 128 marks and entries 0 and 1 still lie in the first sector of a FAT.
#[test]
fn longest_logs() {
    for per_cluster in CLUSTER_SIZES {
        let log_clusters = 128 / per_cluster;
        let asked = fresh(65 + 4_085 * per_cluster, per_cluster, log_clusters);
        let mut window = vec![0xA5; asked.window()];
        assert_eq!(run(&mut window, &asked.operation(), ALL), Answer::Done(194));
        for fat in [1, 17] {
            let marks = &sector(&window, fat)[4..4 + 2 * log_clusters as usize];
            assert!(marks.chunks(2).all(|mark| mark == [0xF6, 0xFF]));
            let rest = &window[512 * fat + 4 + marks.len()..512 * (fat + 16)];
            assert!(rest.iter().all(|&byte| byte == 0), "{asked:?}");
        }
        assert!(window[512 * 33..512 * 193].iter().all(|&byte| byte == 0));
        assert!(window[512 * 193..].iter().all(|&byte| byte == 0xA5));
    }
}

/// Nothing but the stored sectors changes, after the log and after the card.
#[test]
fn what_is_not_stored_stays() {
    for asked in [
        FRESH_K,
        fresh(4_150, 1, 128),
        fresh(4_161, 1, 3),
        fresh(8_255, 2, 5),
        fresh(65_536, 8, 16),
    ] {
        for more in [0, 1, 700] {
            let before = noise(asked, more);
            let mut window = before.clone();
            let answer = format(
                &mut window,
                asked.total,
                asked.per_cluster,
                asked.log_clusters,
                ALL,
            );
            assert_eq!(answer, Answer::Done(asked.stores()));
            let (front, rest) = window.split_at(512 * asked.end());
            assert!(front == asked.front(), "{asked:?}");
            assert!(*rest == before[front.len()..], "{asked:?}");
        }
    }
}

/// Next to every border, against the card by hand.
#[test]
fn fronts_of_many_cards() {
    for per_cluster in [1, 2, 16] {
        for total in border_totals(per_cluster) {
            let asked = fresh(total, per_cluster, 1 + total % (128 / per_cluster));
            if !asked.is_card() {
                continue;
            }
            let mut front = vec![0xA5; 512 * asked.end()];
            let stores = planned(&vec![0; asked.window()], asked);
            let sectors: Vec<usize> = stores.iter().map(|store| store.sector).collect();
            assert_eq!(sectors, asked.sectors(), "{asked:?}");
            for store in stores {
                front[512 * store.sector..][..512].copy_from_slice(&store.bytes);
            }
            assert!(front == asked.front(), "{asked:?}");
        }
    }
}

/// A sector is stored whether its bytes change or not: a second format makes the same stores.
#[test]
fn formatted_again() {
    let mut window = noise(FRESH_K, 0);
    let first = planned(&window, FRESH_K);
    assert_eq!(
        run(&mut window, &FRESH_K.operation(), ALL),
        Answer::Done(74)
    );
    let once = window.clone();
    assert!(planned(&window, FRESH_K) == first);
    assert_eq!(
        run(&mut window, &FRESH_K.operation(), ALL),
        Answer::Done(74)
    );
    assert!(window == once);
}

/// Two barriers: nothing passes the zero boot sector, nor the true one, and nothing comes after it.
#[test]
fn two_segments() {
    for asked in [FRESH_K, fresh(4_160, 1, 1), fresh(33_000, 4, 32)] {
        let window = noise(asked, 0);
        let program = program(&window, &asked.operation()).expect("granted");
        let stores = planned(&window, asked);
        let [refused, written] = &program.segments[..] else {
            panic!("{} segments", program.segments.len());
        };
        assert!(refused.stores.is_empty());
        assert_eq!(refused.barrier.as_ref(), stores.first());
        assert_eq!(refused.barrier.as_ref().expect("it").bytes, [0; 512]);
        assert_eq!(written.barrier.as_ref(), stores.last());
        let [tables] = &written.stores[..] else {
            panic!("one run of sectors");
        };
        assert_eq!((tables.first, tables.count()), (1, asked.end() - 1));
        assert_eq!(program.count(), stores.len());
        let listed = stores.iter().map(|store| (store.sector, &store.bytes[..]));
        assert!(program.sectors().eq(listed));
    }
}

/// The builder's card K lacks only what it takes from no rule: the jump, the media byte, and entries 0 and 1.
#[test]
fn beside_the_built_card() {
    let built = card_k();
    let mut window = vec![0; built.len()];
    assert_eq!(format(&mut window, 4_150, 1, 8, ALL), Answer::Done(74));
    let differing: Vec<usize> = (0..built.len())
        .filter(|&at| window[at] != built[at])
        .collect();
    let fats = [512, 17 * 512].map(|fat| [fat, fat + 1, fat + 2, fat + 3]);
    let expected = [&[0, 1, 2, 21][..], &fats[0], &fats[1]].concat();
    assert_eq!(differing, expected);
}
