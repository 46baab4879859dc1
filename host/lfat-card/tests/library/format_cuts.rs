//! Format cut after every store: every other call refuses the card with BOOT, and begun again it ends the same. What it leaves is
//! an empty card that takes paths.

use crate::support::fresh::any_window;
use crate::support::twin::Twin;
use reference::{free_clusters, is_sound, Answer, Ground};
use testkit::call::Call;
use testkit::cards::Card;
use testkit::fresh::{fresh, other_calls, Fresh, CLUSTER_SIZES, FRESH_K};
use testkit::random::Random;
use testkit::{ALL, AT, OTHER, ROUTE};

fn refused_with_boot(twin: &mut Twin) {
    for call in other_calls() {
        let answer = twin.call(&call, ALL);
        assert_eq!(answer, Answer::Refused(Ground::Boot), "{call:?}");
    }
}

/// Clean, sound, and no file; all clusters are free but the log's.
fn assert_empty(twin: &mut Twin, asked: Fresh) {
    assert_eq!(twin.call(&Call::List(64), ALL), Answer::Done(0));
    assert_eq!(twin.call(&Call::Recover, ALL), Answer::Done(0));
    let card = &twin.card.bytes;
    assert!(is_sound(card));
    let free = free_clusters(card).into_iter().map(u64::from);
    let log = u64::from(asked.log_clusters);
    assert!(free.eq(2 + log..asked.clusters() + 2), "{asked:?}");
}

/// Card K with a file, with the record of a delete pending, with anything at all.
fn windows() -> [Twin; 3] {
    let mut file = Twin::new(Card::k());
    file.done(&Call::Create(ROUTE.to_vec(), AT));
    file.done(&Call::Append(ROUTE.to_vec(), vec![7; 1_300], AT));
    let mut unclean = Twin::new(file.card.clone());
    unclean.call(&Call::Delete(ROUTE.to_vec()), 2);
    [
        file,
        unclean,
        any_window(FRESH_K, 0, &mut Random::new(77_000)),
    ]
}

#[test]
fn every_cut() {
    for mut twin in windows() {
        let start = twin.card.bytes.clone();
        let rest = start[73 * 512..].to_vec();
        for limit in 0..76 {
            twin.edit(|card| card.bytes.copy_from_slice(&start));
            let answer = twin.call(&FRESH_K.call(), limit);
            match limit {
                0 => assert_eq!(answer, Answer::Stopped(0)),
                1..74 => {
                    assert_eq!(answer, Answer::Stopped(limit));
                    refused_with_boot(&mut twin);
                }
                _ => assert_eq!(answer, Answer::Done(74)),
            }
            assert_eq!(twin.call(&FRESH_K.call(), ALL), Answer::Done(74));
            let (front, after) = twin.card.bytes.split_at(73 * 512);
            assert!(front == FRESH_K.front() && after == rest, "{limit}");
            assert_empty(&mut twin, FRESH_K);
        }
    }
}

/// Cuts of a card of the largest FATs and the longest log.
#[test]
fn cuts_of_a_large_card() {
    let asked = fresh(66_069, 1, 128);
    let mut twin = any_window(asked, 0, &mut Random::new(78_000));
    for limit in [1, 2, 256, 257, 258, 513, 514, 545, 546, 672, 673] {
        assert_eq!(twin.call(&asked.call(), limit), Answer::Stopped(limit));
        refused_with_boot(&mut twin);
    }
    assert_eq!(twin.call(&asked.call(), 674), Answer::Done(674));
    assert_empty(&mut twin, asked);
}

/// The grounds of a card are not asked: one with all faults is formatted as any other.
#[test]
fn over_a_card_with_all_faults() {
    let mut card = Card::k();
    card.fill_root(0);
    card.put_slot(0, ROUTE, 0x21, 0, 700);
    card.fill();
    card.set_fat1(100, 0xFFF6);
    card.slot_mut(200)[0] = 0;
    card.log_sector_mut(0)[0] = b'X';
    card.bytes[511] = 0;
    let mut twin = Twin::new(card);
    refused_with_boot(&mut twin);
    assert_eq!(twin.call(&FRESH_K.call(), ALL), Answer::Done(74));
    assert_empty(&mut twin, FRESH_K);
    let gone = twin.call(&Call::Read(ROUTE.to_vec(), 0, 9), ALL);
    assert_eq!(gone, Answer::Refused(Ground::Absent));
}

/// Paths saved on fresh cards of all cluster sizes, cut and recovered, read back.
#[test]
fn paths_on_fresh_cards() {
    let mut random = Random::new(79_000);
    for per_cluster in CLUSTER_SIZES {
        let asked = fresh(65 + 4_085 * per_cluster, per_cluster, 1);
        let mut twin = Twin::new(asked.in_window(vec![0xE5; asked.window()]));
        twin.done(&asked.call());
        assert_empty(&mut twin, asked);
        let data = random.bytes(512 * per_cluster as usize + 1);
        twin.done(&Call::Create(ROUTE.to_vec(), AT));
        let append = Call::Append(ROUTE.to_vec(), data.clone(), AT);
        for limit in [1, per_cluster + 1, per_cluster + 2, ALL] {
            twin.call(&append, limit);
            twin.done(&Call::Recover);
        }
        twin.done(&Call::Rename(ROUTE.to_vec(), OTHER.to_vec()));
        let saved = reference::file_bytes(&twin.card.bytes, 1);
        assert!(saved.starts_with(&data), "{asked:?}");
        let chain = reference::file_chain(&twin.card.bytes, 1).expect("a proper chain");
        assert_eq!(chain[..2], [3, 4], "{asked:?}");
        twin.done(&Call::Read(OTHER.to_vec(), 0, data.len()));
        // Empty again.
        twin.done(&asked.call());
        assert_empty(&mut twin, asked);
    }
}
