//! What a finished format leaves: a clean card with no file, all clusters free but the log's, that takes paths.

use crate::support::history::random_step;
use crate::support::{operation, pattern, planned_sectors, run_done, run_storing};
use reference::*;
use testkit::call::Call;
use testkit::cards::Card;
use testkit::fresh::{border_totals, fresh, Fresh, CLUSTER_SIZES, FRESH_K};
use testkit::random::Random;
use testkit::{cases, ALL, AT, ROUTE};

/// A fresh card in a window with these bytes.
fn formatted(asked: Fresh, mut window: Vec<u8>) -> Card {
    let answer = run(&mut window, &asked.operation(), ALL);
    assert_eq!(answer, Answer::Done(asked.stores()), "{asked:?}");
    asked.in_window(window)
}

/// Clean, sound, no file, every cluster free from the log's end to the last.
fn assert_empty(card: &Card, clusters: u64, log_clusters: u64) {
    let bytes = &card.bytes;
    assert_eq!(list(bytes, &mut []), Answer::Done(0));
    assert_eq!(plan(bytes, &Operation::Recover), Ok(vec![]));
    assert!(is_sound(bytes));
    let free: Vec<u64> = free_clusters(bytes).into_iter().map(u64::from).collect();
    let expected: Vec<u64> = (2 + log_clusters..clusters + 2).collect();
    assert_eq!(free, expected);
    let cluster_bytes = 512 * u64::from(card.spec.sectors_per_cluster);
    let room = free.len() as u64 * cluster_bytes;
    assert_eq!(fits(bytes, room), Answer::Done(clusters as u32 + 1));
    assert_eq!(fits(bytes, room + 1), Answer::No);
}

#[test]
fn card_k_is_empty() {
    let noise = Random::new(10).bytes(4_150 * 512);
    for window in [vec![0; 4_150 * 512], vec![0xFF; 4_150 * 512], noise] {
        let card = formatted(FRESH_K, window);
        assert_empty(&card, 4_085, 8);
        let geometry = Geometry::parse(&card.bytes).expect("accepted");
        assert_eq!(geometry.total_sectors, 4_150);
        assert_eq!(geometry.data_start(), 65);
    }
}

/// All cluster sizes, next to all borders.
#[test]
fn all_cards_are_empty() {
    for per_cluster in CLUSTER_SIZES {
        let mut totals = border_totals(per_cluster);
        totals.dedup();
        // Few of the large ones: their windows are long.
        let step = 1 + per_cluster as usize / 4;
        for total in totals.into_iter().step_by(step) {
            let asked = fresh(total, per_cluster, 1 + total % (128 / per_cluster));
            if asked.is_card() {
                let card = formatted(asked, vec![0; asked.window()]);
                assert_empty(&card, asked.clusters(), asked.log_clusters.into());
            }
        }
    }
}

/// The largest card: its last sectors are the 65,524th cluster and some that make no cluster.
#[test]
fn largest_card() {
    let asked = fresh(4_194_144, 64, 2);
    let card = formatted(asked, vec![0; asked.window()]);
    assert_empty(&card, 65_524, 2);
}

/// Rows M3 and M4 of the worked card, on the card that a format made.
#[test]
fn worked_rows() {
    let mut card = formatted(FRESH_K, vec![0x11; 4_150 * 512]);
    let create = Call::Create(ROUTE.to_vec(), AT);
    run_storing(&mut card.bytes, &operation(&create), &[65, 33, 65]);
    let data = pattern(1_300, 0);
    let append = Call::Append(ROUTE.to_vec(), data.clone(), AT);
    let sectors = [73, 74, 75, 17, 66, 1, 33, 66];
    run_storing(&mut card.bytes, &operation(&append), &sectors);
    assert_eq!(file_chain(&card.bytes, 0), Some(vec![10, 11, 12]));
    let mut buffer = vec![0; 2_000];
    assert_eq!(
        read(&card.bytes, ROUTE, 0, &mut buffer),
        Answer::Done(1_300)
    );
    assert!(buffer[..1_300] == data);
    // A ninth group clears the log, which has eight sectors.
    for size in (0..6).rev() {
        let truncate = Call::Truncate(ROUTE.to_vec(), 100 * size, AT);
        run_done(&mut card.bytes, &operation(&truncate));
    }
    let create = Call::Create(b"NINTH      ".to_vec(), AT);
    let mut clearing: Vec<usize> = (65..73).rev().collect();
    clearing.extend([65, 33, 65]);
    assert_eq!(planned_sectors(&card.bytes, &operation(&create)), clearing);
}

/// A card with files is empty afterwards: nothing of them is found, their clusters are free.
#[test]
fn files_are_gone() {
    let mut card = Card::k();
    card.fill_root(0);
    card.put_slot(7, ROUTE, 0x21, 20, 1_500);
    card.put_chain(&[20, 21, 22], 0xFFFF);
    card.fill();
    card.log_sector_mut(3)[0] = 0xE5;
    assert_eq!(list(&card.bytes, &mut []), Answer::Done(512));
    for asked in [FRESH_K, fresh(4_150, 1, 100)] {
        let card = formatted(asked, card.bytes.clone());
        assert_empty(&card, 4_085, asked.log_clusters.into());
        let gone = read(&card.bytes, ROUTE, 0, &mut [0; 9]);
        assert_eq!(gone, Answer::Refused(Ground::Absent));
        assert!((0..512).all(|slot| card.slot(slot) == [0; 32]));
    }
}

/// A history on the fresh card is the history on the built one: the bytes in which they differ stay as they are.
#[test]
fn histories_as_on_the_built_card() {
    for seed in 0..cases(8) {
        let mut random = Random::new(71_000 + seed);
        let mut built = Card::k();
        let mut card = formatted(FRESH_K, vec![0; 4_150 * 512]);
        let differing: Vec<usize> = (0..4_150 * 512)
            .filter(|&at| card.bytes[at] != built.bytes[at])
            .collect();
        assert_eq!(differing.len(), 12);
        for _ in 0..60 {
            let call = match random.one_in(6) {
                true => Call::Recover,
                false => random_step(&mut random, 512),
            };
            let limit = random.pick(&[ALL, ALL, 3, 5]);
            let answer = run(&mut card.bytes, &operation(&call), limit);
            let expected = run(&mut built.bytes, &operation(&call), limit);
            assert_eq!(answer, expected, "{call:?}");
        }
        for at in differing {
            built.bytes[at] = card.bytes[at];
        }
        assert!(card.bytes == built.bytes, "seed {seed}");
    }
}
