//! Format: which numbers make a card. SIZE is asked before WINDOW, so an empty window tells them apart: WINDOW says that there
//! would be a card. The rows are worked out by hand from the words.

use reference::{plan, run, Answer, Ground};
use testkit::fresh::{border_totals, fresh, random_fresh, Fresh, CLUSTER_SIZES, WRONG_SIZES};
use testkit::random::Random;
use testkit::{cases, ALL};

/// What a window refuses the numbers for, whatever the limit; it is not altered.
fn ground_of(window: &[u8], asked: Fresh) -> Ground {
    let [first, second] = [0, ALL].map(|limit| {
        let mut bytes = window.to_vec();
        let answer = run(&mut bytes, &asked.operation(), limit);
        assert!(bytes == window, "{asked:?}");
        match answer {
            Answer::Refused(ground) => ground,
            answer => panic!("{asked:?}: {answer:?}"),
        }
    });
    assert_eq!(first, second);
    first
}

fn is_card(asked: Fresh) -> bool {
    match ground_of(&[], asked) {
        Ground::Window => true,
        Ground::Size => false,
        other => panic!("{asked:?}: {other}"),
    }
}

/// The total, sectors per cluster and log clusters, the sectors of a FAT, the clusters, and the stores.
const CARDS: [(Fresh, usize, usize, usize); 18] = [
    // Card K: 1 + 16 + 16 + 32 sectors and the data; 8 log sectors.
    (fresh(4_150, 1, 8), 16, 4_085, 74),
    (fresh(4_150, 1, 1), 16, 4_085, 67),
    (fresh(4_150, 1, 128), 16, 4_085, 194),
    // 16 sectors have 4,096 entries: enough for 4,094 clusters, not for the 4,095 that 4,160 sectors would leave.
    (fresh(4_159, 1, 8), 16, 4_094, 74),
    (fresh(4_160, 1, 8), 17, 4_093, 76),
    (fresh(4_161, 1, 8), 17, 4_094, 76),
    // 17 sectors: 4,352 entries, 4,350 clusters; one more would be 33 + 34 + 4,351.
    (fresh(4_417, 1, 8), 17, 4_350, 76),
    (fresh(4_418, 1, 8), 18, 4_349, 78),
    // The total moves from the field of 16 bits to that of 32.
    (fresh(65_535, 1, 8), 254, 64_994, 550),
    (fresh(65_536, 1, 8), 254, 64_995, 550),
    (fresh(66_069, 1, 128), 256, 65_524, 674),
    // Two sectors per cluster: 33 + 32 + 8,170; then 16 sectors of FAT with 4,094 clusters and an odd sector, and one more.
    (fresh(8_235, 2, 64), 16, 4_085, 194),
    (fresh(8_254, 2, 1), 16, 4_094, 68),
    (fresh(8_255, 2, 1), 17, 4_094, 70),
    // 64: 33 + 32 + 261,440, with up to 63 sectors that make no cluster; and the largest card.
    (fresh(261_505, 64, 2), 16, 4_085, 194),
    (fresh(261_568, 64, 1), 16, 4_085, 130),
    (fresh(261_569, 64, 1), 16, 4_086, 130),
    (fresh(4_194_144, 64, 2), 256, 65_524, 674),
];

#[test]
fn cards_worked_out() {
    for (asked, fat, clusters, stores) in CARDS {
        assert!(is_card(asked), "{asked:?}");
        let total = asked.total as usize;
        let per_cluster = asked.per_cluster as usize;
        // Zeros that nobody touches take no memory.
        let planned = plan(&vec![0; total * 512], &asked.operation()).expect("a card");
        assert_eq!(planned.len(), stores, "{asked:?}");
        let boot = &planned[stores - 1].bytes;
        let stated = usize::from(boot[22]) + 256 * usize::from(boot[23]);
        assert_eq!(stated, fat, "{asked:?}");
        let data = total - 1 - 2 * fat - 32;
        assert_eq!(data / per_cluster, clusters, "{asked:?}");
        assert!(256 * fat >= clusters + 2, "the row's own FAT");
        let end = 1 + 2 * fat + 32 + per_cluster * asked.log_clusters as usize;
        let sectors: Vec<usize> = planned.iter().map(|store| store.sector).collect();
        assert_eq!(sectors, [&(0..end).collect::<Vec<_>>()[..], &[0]].concat());
    }
}

#[test]
fn too_few_or_too_many_clusters() {
    for asked in [
        fresh(4_149, 1, 8),
        fresh(8_234, 2, 1),
        fresh(16_404, 4, 1),
        fresh(261_504, 64, 1),
        fresh(66_070, 1, 8),
        fresh(4_194_145, 64, 1),
        // A larger FAT would leave 65,524 clusters, but the smallest that holds all of them is what counts.
        fresh(66_071, 1, 8),
        fresh(66_072, 1, 8),
        fresh(4_194_146, 64, 1),
        // Sums that pass 32 bits.
        fresh(u32::MAX, 1, 8),
        fresh(u32::MAX, 64, 1),
        fresh(u32::MAX - 30, 32, 1),
    ] {
        assert!(!is_card(asked), "{asked:?}");
    }
    for total in 0..4_150 {
        assert!(!is_card(fresh(total, 1, 8)), "{total}");
    }
}

/// Every total from 4,150 to 66,069 makes a card of one sector per cluster.
#[test]
fn no_total_is_left_out() {
    for total in 4_150..66_070 {
        assert!(is_card(fresh(total, 1, 8)), "{total}");
    }
}

#[test]
fn sectors_per_cluster() {
    for per_cluster in (0..1_000).chain(WRONG_SIZES) {
        // About 5,000 clusters, by the whole number and by its lowest byte.
        for size in [per_cluster, per_cluster % 256] {
            let total = 5_000u32.saturating_mul(size);
            let asked = fresh(total, per_cluster, 1);
            let is_one = CLUSTER_SIZES.contains(&per_cluster);
            assert_eq!(is_card(asked), is_one, "{asked:?}");
        }
    }
}

#[test]
fn log_clusters() {
    for per_cluster in CLUSTER_SIZES {
        let total = 6_000 * per_cluster;
        let most = 128 / per_cluster;
        for log_clusters in 0..300 {
            let expected = (1..=most).contains(&log_clusters);
            let asked = fresh(total, per_cluster, log_clusters);
            assert_eq!(is_card(asked), expected, "{asked:?}");
        }
        // Products and numbers that pass 16 or 32 bits, some of them by 1 to 128.
        for past in [1 << 16, 1 << 26, 1 << 31, u32::MAX / per_cluster] {
            for log_clusters in [
                past - 1,
                past,
                past.saturating_add(1),
                past.saturating_add(2),
            ] {
                let asked = fresh(total, per_cluster, log_clusters);
                assert!(!is_card(asked), "{asked:?}");
            }
        }
    }
    assert!(!is_card(fresh(300_000, 64, (1 << 26) + 1)));
    assert!(!is_card(fresh(5_000, 1, 0)));
    assert!(!is_card(fresh(0, 0, 0)));
}

/// What the window holds is not looked at, only its length: one shorter than the card is WINDOW, if there is such a card.
#[test]
fn windows() {
    let whole = 4_150 * 512;
    let mut random = Random::new(7);
    let noise = random.bytes(whole);
    let k = reference::card_k();
    for bytes in [0, 1, 100, 511, 512, 513, 37_888, 4_149 * 512, whole - 1] {
        for window in [&vec![0; bytes], &noise[..bytes], &k[..bytes]] {
            assert_eq!(ground_of(window, fresh(4_150, 1, 8)), Ground::Window);
            assert_eq!(ground_of(window, fresh(4_149, 1, 8)), Ground::Size);
            assert_eq!(ground_of(window, fresh(4_150, 1, 129)), Ground::Size);
            assert_eq!(ground_of(window, fresh(4_150, 3, 8)), Ground::Size);
        }
    }
    for (total, grounds) in [(4_150, None), (4_151, Some(Ground::Window))] {
        let planned = plan(&noise, &fresh(total, 1, 8).operation());
        assert_eq!(planned.err(), grounds);
    }
    assert_eq!(ground_of(&k, fresh(4_149, 1, 8)), Ground::Size);
    assert_eq!(
        ground_of(&k[..100], fresh(4_194_144, 64, 1)),
        Ground::Window
    );
    assert_eq!(ground_of(&k[..100], fresh(4_194_145, 64, 1)), Ground::Size);
}

/// Against another formula for the FAT: next to every border, and anywhere.
#[test]
fn as_by_another_formula() {
    let expect = |asked: Fresh| assert_eq!(is_card(asked), asked.is_card(), "{asked:?}");
    let mut cards = 0;
    for per_cluster in CLUSTER_SIZES {
        for total in border_totals(per_cluster) {
            for other in CLUSTER_SIZES {
                expect(fresh(total, other, 1));
            }
        }
    }
    let mut random = Random::new(70_000);
    let tries = cases(20_000);
    for _ in 0..tries {
        let asked = random_fresh(&mut random);
        expect(asked);
        cards += u64::from(asked.is_card());
    }
    assert!((tries / 4..tries / 4 * 3).contains(&cards), "{cards}");
}
