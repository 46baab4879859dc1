//! Format: SIZE, WINDOW and the bytes of the card, next to every border and anywhere. What is expected is worked out apart from the
//! reference, which every call is compared with too.

use crate::support::fresh::any_window;
use crate::support::twin::Twin;
use lfat_card::calls;
use reference::{Answer, Ground};
use testkit::fresh::{
    border_totals, fresh, random_fresh, Fresh, CLUSTER_SIZES, FRESH_K, WRONG_SIZES,
};
use testkit::random::Random;
use testkit::{cases, ALL};

/// Whether there is a card with these numbers, asked of a window too short for any.
fn is_card(asked: Fresh, window: &mut [u8]) -> bool {
    let call = asked.call();
    let answer = call.on_library(window, ALL, &mut []).encode();
    let expected = call.on_reference(window, ALL, &mut []);
    assert_eq!(answer, expected.encode(), "{asked:?}");
    match expected {
        Answer::Refused(Ground::Window) => true,
        Answer::Refused(Ground::Size) => false,
        other => panic!("{asked:?}: {other:?}"),
    }
}

fn expect(asked: Fresh) -> bool {
    let expected = asked.is_card();
    assert_eq!(is_card(asked, &mut []), expected, "{asked:?}");
    expected
}

/// Formats a window that holds anything; gives the card.
fn formatted(asked: Fresh, more: usize, random: &mut Random) -> Twin {
    let mut twin = any_window(asked, more, random);
    let before = twin.card.bytes.clone();
    let answer = twin.call(&asked.call(), ALL);
    assert_eq!(answer, Answer::Done(asked.stores()), "{asked:?}");
    let (front, rest) = twin.card.bytes.split_at(512 * asked.end());
    assert!(front == asked.front(), "{asked:?}");
    assert!(*rest == before[front.len()..], "{asked:?}");
    twin
}

/// The fewest and the most sectors of each cluster size, and where a FAT needs one more.
#[test]
fn borders() {
    for per_cluster in CLUSTER_SIZES {
        let most = 128 / per_cluster;
        for total in border_totals(per_cluster) {
            for log_clusters in [0, 1, most - 1, most, most + 1] {
                expect(fresh(total, per_cluster, log_clusters));
            }
            for other in CLUSTER_SIZES.into_iter().chain(WRONG_SIZES) {
                expect(fresh(total, other, 1));
            }
        }
    }
    for (asked, is_one) in [
        (fresh(4_149, 1, 8), false),
        (fresh(4_150, 1, 8), true),
        (fresh(66_069, 1, 8), true),
        (fresh(66_070, 1, 8), false),
        (fresh(4_194_144, 64, 2), true),
        (fresh(4_194_145, 64, 2), false),
        (fresh(4_150, 1, 128), true),
        (fresh(4_150, 1, 129), false),
        (fresh(4_150, 257, 1), false),
        (fresh(4_150 * 257, 257, 1), false),
        (fresh(300_000, 64, 1 << 26), false),
        (fresh(300_000, 64, (1 << 26) + 1), false),
        (fresh(u32::MAX, 64, 1), false),
    ] {
        assert_eq!(expect(asked), is_one, "{asked:?}");
    }
}

/// Every total with one sector per cluster, and every number of sectors per cluster.
#[test]
fn every_number() {
    for total in 0..67_000 {
        expect(fresh(total, 1, 8));
    }
    for per_cluster in 0..70_000u32 {
        expect(fresh(5_000u32.saturating_mul(per_cluster), per_cluster, 1));
        expect(fresh(5_000 * (per_cluster % 256), per_cluster, 1));
    }
    for log_clusters in 0..70_000 {
        expect(fresh(6_000, 1, log_clusters));
        expect(fresh(100_000, 16, log_clusters));
    }
}

#[test]
fn random_numbers() {
    let mut random = Random::new(73_000);
    let mut window = random.bytes(4_000);
    let mut cards = 0;
    let tries = cases(20_000);
    for _ in 0..tries {
        let asked = random_fresh(&mut random);
        let length = random.below(window.len());
        let is_one = is_card(asked, &mut window[..length]);
        assert_eq!(is_one, asked.is_card(), "{asked:?}");
        cards += u64::from(is_one);
    }
    assert!((tries / 4..tries / 4 * 3).contains(&cards), "{cards}");
}

/// Windows of any length that hold anything: a card, noise, a card that other calls refuse for every ground.
#[test]
fn windows() {
    let mut random = Random::new(74_000);
    let whole = FRESH_K.window();
    let noise = random.bytes(whole);
    for start in [
        noise,
        reference::card_k(),
        vec![0; whole],
        vec![0xFF; whole],
    ] {
        let mut twin = Twin::new(FRESH_K.in_window(start));
        for lent in [0, 1, 100, 511, 512, 513, 4_149 * 512, whole - 1] {
            twin.lent = lent;
            for limit in [0, ALL] {
                let answer = twin.call(&FRESH_K.call(), limit);
                assert_eq!(answer, Answer::Refused(Ground::Window), "{lent}");
                let answer = twin.call(&fresh(4_149, 1, 8).call(), limit);
                assert_eq!(answer, Answer::Refused(Ground::Size), "{lent}");
            }
        }
        twin.lent = whole;
        let answer = twin.call(&fresh(4_151, 1, 8).call(), ALL);
        assert_eq!(answer, Answer::Refused(Ground::Window));
        assert_eq!(twin.call(&FRESH_K.call(), ALL), Answer::Done(74));
    }
}

/// Every byte of cards next to the borders of one sector per cluster, and of the smallest of 2, 4 and 8.
#[test]
fn whole_cards() {
    let mut random = Random::new(75_000);
    let mut many: Vec<Fresh> = border_totals(1)
        .into_iter()
        .map(|total| fresh(total, 1, 1 + random.below(128) as u32))
        .collect();
    many.retain(|asked| asked.total < 5_000 || random.one_in(6));
    many.extend([2, 4, 8].map(|size| fresh(65 + 4_085 * size, size, 128 / size)));
    for asked in many.into_iter().filter(|asked| asked.is_card()) {
        let more = random.pick(&[0, 1, 700]);
        let mut twin = formatted(asked, more, &mut random);
        // Every sector is stored, whether it changes or not.
        let again = twin.call(&asked.call(), ALL);
        assert_eq!(again, Answer::Done(asked.stores()));
    }
}

/// Any numbers, on windows of any length, cut anywhere, one after the other.
#[test]
fn one_after_the_other() {
    let mut random = Random::new(76_000);
    for _ in 0..cases(6) {
        let total = 4_150 + random.below(30_000) as u32;
        let mut twin = any_window(fresh(total, 1, 1), 0, &mut random);
        let whole = twin.lent;
        let mut done = 0;
        for _ in 0..40 {
            let per_cluster = random.pick(&[1, 1, 1, 2, 4, 3]);
            let sectors = 4_140 + random.below(total as usize - 4_139) as u32;
            let log_clusters = random.below(132) as u32 / per_cluster;
            let asked = fresh(sectors, per_cluster, log_clusters);
            twin.lent = random.pick(&[whole, whole, whole, asked.window().min(whole)]);
            let few = random.below(400) as u32;
            let limit = random.pick(&[0, 1, few, ALL, ALL]);
            let answer = twin.call(&asked.call(), limit);
            done += u32::from(matches!(answer, Answer::Done(_)));
        }
        assert!(done > 2, "{done}");
    }
}

/// The largest card, and a window longer than 4 GiB. Memory is taken only for the few pages that are written.
#[test]
fn long_windows() {
    let past = (1 << 32) + 100;
    for (asked, length) in [
        (fresh(4_194_144, 64, 2), 4_194_144 * 512),
        (fresh(66_069, 1, 128), past),
        (FRESH_K, past),
    ] {
        let mut window = vec![0; length];
        let Fresh {
            total,
            per_cluster,
            log_clusters,
        } = asked;
        let answer = calls::format(&mut window, total, per_cluster, log_clusters, ALL);
        assert_eq!(answer, calls::Answer::Done(asked.stores()));
        assert!(window[..512 * asked.end()] == asked.front(), "{asked:?}");
        assert_eq!(calls::list(&window, &mut []), calls::Answer::Done(0));
        let clusters = asked.clusters() as u32;
        let free = asked.clusters() - u64::from(log_clusters);
        let room = 512 * u64::from(per_cluster) * free;
        assert_eq!(
            calls::fits(&window, room),
            calls::Answer::Done(clusters + 1)
        );
        assert_eq!(calls::fits(&window, room + 1), calls::Answer::No);
    }
    let mut short = vec![0; 4_194_144 * 512 - 1];
    let answer = calls::format(&mut short, 4_194_144, 64, 2, ALL);
    assert_eq!(answer.encode(), 3 << 32);
}
