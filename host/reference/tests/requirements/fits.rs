//! Will it fit? Rows with the answers written down; then the answer beside what append and replace do.

use reference::*;
use testkit::cards::{random_card, Card};
use testkit::fixtures::furnished_card;
use testkit::random::Random;
use testkit::{ALL, AT, OTHER, ROUTE};

/// A number of bytes, and the cluster of a yes, or `None` for a no.
type Row = (u64, Option<u32>);

fn check(card: &Card, rows: &[Row]) {
    for &(bytes, cluster) in rows {
        let expected = cluster.map_or(Answer::No, Answer::Done);
        assert_eq!(fits(&card.bytes, bytes), expected, "{bytes} bytes");
    }
}

/// No card has room for these; cut to 16, 32 or 33 bits, or added to, most of them would be few bytes or few clusters.
const TOO_MANY: [u64; 13] = [
    1 << 25,
    (1 << 25) + 512,
    1 << 31,
    1 << 32,
    (1 << 32) + 1,
    1 << 41,
    (1 << 41) + 512,
    1 << 47,
    1 << 63,
    u64::MAX - 512,
    u64::MAX - 511,
    u64::MAX - 510,
    u64::MAX,
];

fn check_too_many(card: &Card) {
    check(card, &TOO_MANY.map(|bytes| (bytes, None)));
}

/// Card K with these clusters free and no others.
fn with_free(clusters: &[u16]) -> Card {
    let mut card = Card::k();
    card.fill();
    for &cluster in clusters {
        card.set_fats(cluster, 0);
    }
    card
}

/// Clusters of 512 bytes; 10 to 4,086 are free, 4,077 of them.
#[test]
fn card_k_rows() {
    let card = Card::k();
    check(
        &card,
        &[
            (0, Some(0)),
            (1, Some(10)),
            (511, Some(10)),
            (512, Some(10)),
            (513, Some(11)),
            (1_024, Some(11)),
            (1_025, Some(12)),
            (1_300, Some(12)),
            (2_086_912, Some(4_085)),
            (2_086_913, Some(4_086)),
            (2_087_423, Some(4_086)),
            (2_087_424, Some(4_086)),
            (2_087_425, None),
            (2_087_936, None),
            (2_087_937, None),
        ],
    );
    check_too_many(&card);
}

/// Entries 0 and 1, and those after 4,086, are 0 here, and no clusters.
#[test]
fn full_card() {
    let card = with_free(&[]);
    for entry in [0, 1, 4_087, 4_095] {
        assert_eq!(card.fat1_entry(entry), 0);
    }
    check(&card, &[(0, Some(0)), (1, None), (512, None), (513, None)]);
    check_too_many(&card);
}

#[test]
fn free_clusters_with_gaps() {
    let card = with_free(&[100, 255, 256, 511, 512, 4_086]);
    let rows = [
        (0, Some(0)),
        (1, Some(100)),
        (512, Some(100)),
        (513, Some(255)),
        (1_025, Some(256)),
        (1_536, Some(256)),
        (1_537, Some(511)),
        (2_049, Some(512)),
        (2_560, Some(512)),
        (2_561, Some(4_086)),
        (3_072, Some(4_086)),
        (3_073, None),
    ];
    check(&card, &rows);
    check_too_many(&card);
    // What stands in entries that are no clusters changes nothing.
    for value in [1, 10, 0xFFF7, 0xFFFF] {
        let mut card = card.clone();
        for entry in [0, 1, 4_087, 4_088, 4_095] {
            card.set_fats(entry, value);
        }
        check(&card, &rows);
    }
}

/// The first and the last cluster there is, each as the only free one.
#[test]
fn one_free_cluster() {
    let log_at_the_end = CardSpec {
        log_first: 4_079,
        ..CardSpec::K
    };
    let mut first = Card::new(log_at_the_end);
    first.fill();
    first.set_fats(2, 0);
    for (card, cluster) in [(first, 2), (with_free(&[4_086]), 4_086)] {
        check(
            &card,
            &[
                (0, Some(0)),
                (1, Some(cluster)),
                (512, Some(cluster)),
                (513, None),
            ],
        );
    }
}

/// Only 0 is free: neither 1, nor a link to a cluster that is free, nor a bad one.
#[test]
fn every_fat_value() {
    let mut card = with_free(&[20]);
    for value in (1..=0xFFFF_u16).filter(|&value| value != 0xFFF6) {
        card.set_fats(10, value);
        check(&card, &[(512, Some(20)), (513, None)]);
    }
    card.set_fats(10, 0);
    check(&card, &[(512, Some(10)), (513, Some(20))]);
}

/// Clusters of 1, 2 and 64 sectors; 4 to 4,086 are free, 4,083 of them.
#[test]
fn cluster_sizes() {
    for (sectors_per_cluster, total_sectors, cluster_bytes, room) in [
        (1, 4_150, 512, 2_090_496),
        (2, 8_235, 1_024, 4_180_992),
        (64, 261_505, 32_768, 133_791_744),
    ] {
        let card = Card::new(CardSpec {
            sectors_per_cluster,
            total_sectors,
            log_clusters: 2,
            use_32bit_total: true,
            ..CardSpec::K
        });
        check(
            &card,
            &[
                (0, Some(0)),
                (1, Some(4)),
                (cluster_bytes - 1, Some(4)),
                (cluster_bytes, Some(4)),
                (cluster_bytes + 1, Some(5)),
                (3 * cluster_bytes, Some(6)),
                (room - cluster_bytes, Some(4_085)),
                (room, Some(4_086)),
                (room + 1, None),
                (1 << 31, None),
                (1 << 32, None),
                (1 << 47, None),
                ((1 << 47) + 1, None),
                (u64::MAX - 32_767, None),
                (u64::MAX, None),
            ],
        );
    }
}

/// 65,524 clusters; 10 to 65,525 are free, 65,516 of them. Then the last alone.
#[test]
fn most_clusters() {
    let mut card = Card::new(CardSpec {
        sectors_per_fat: 256,
        total_sectors: 66_069,
        use_32bit_total: true,
        ..CardSpec::K
    });
    check(
        &card,
        &[
            (1, Some(10)),
            (33_543_680, Some(65_524)),
            (33_543_681, Some(65_525)),
            (33_544_192, Some(65_525)),
            (33_544_193, None),
        ],
    );
    check_too_many(&card);
    card.fill();
    card.set_fats(65_525, 0);
    check(&card, &[(1, Some(65_525)), (513, None)]);
}

/// Sectors after the last whole cluster are no room, and neither are bytes of the window after the card.
#[test]
fn sectors_that_are_no_cluster() {
    let mut card = Card::new(CardSpec {
        sectors_per_cluster: 4,
        total_sectors: 65 + 4 * 4_085 + 3,
        log_clusters: 2,
        ..CardSpec::K
    });
    let rows = [(8_361_984, Some(4_086)), (8_361_985, None)];
    check(&card, &rows);
    card.bytes.extend([0; 5_000]);
    check(&card, &rows);
}

/// Neither a full root directory, nor files that are marked, broken or no files, matter.
#[test]
fn what_is_not_asked() {
    let mut card = with_free(&[30, 31]);
    card.put_slot(0, ROUTE, 0x21, 0, 700);
    card.put_slot(1, OTHER, 0x10, 5_000, 0);
    card.put_slot(2, b"lower case ", 0x20, 40, u32::MAX);
    card.fill_root(3);
    check(&card, &[(0, Some(0)), (1_024, Some(31)), (1_025, None)]);
}

/// The clusters that a call takes: free in FAT1 before it, not free after it.
fn taken(card: &Card, operation: &Operation) -> Result<Vec<u16>, Ground> {
    let mut after = Card {
        spec: card.spec,
        bytes: card.bytes[..card.root() * 512].to_vec(),
    };
    let fat1 = card.fat1()..card.fat2();
    for store in plan(&card.bytes, operation)? {
        if fat1.contains(&store.sector) {
            after.bytes[store.sector * 512..][..512].copy_from_slice(&store.bytes);
        }
    }
    let is_taken = |&cluster: &u16| card.fat1_entry(cluster) == 0 && after.fat1_entry(cluster) != 0;
    let clusters = 2..card.clusters() as u16 + 2;
    Ok(clusters.filter(is_taken).collect())
}

/// Fits says what the call does: yes exactly if it is not NOSPACE, with the highest cluster that it takes, 0 for none.
fn assert_tied(card: &Card, operation: &Operation, bytes: usize) -> bool {
    let expected = match taken(card, operation) {
        Ok(taken) => Answer::Done(taken.last().map_or(0, |&highest| u32::from(highest))),
        Err(Ground::Nospace) => Answer::No,
        Err(other) => panic!("{other}"),
    };
    assert_eq!(fits(&card.bytes, bytes as u64), expected, "{bytes} bytes");
    expected != Answer::No
}

/// Lengths at the edges of clusters, up to one that is too much.
fn lengths(card: &Card, random: &mut Random) -> Vec<usize> {
    let cluster_bytes = usize::from(card.spec.sectors_per_cluster) * 512;
    let free = free_clusters(&card.bytes).len();
    let edge = |clusters: usize| clusters * cluster_bytes;
    let mut lengths = vec![0, 1, edge(1), edge(free), edge(free) + 1, edge(free + 1)];
    for _ in 0..6 {
        let clusters = random.below(free + 2);
        lengths.extend([edge(clusters), edge(clusters) + 1]);
        lengths.extend([
            edge(clusters).saturating_sub(1),
            random.below(edge(free) + 2),
        ]);
    }
    lengths
}

/// A random card with more kinds of entries: links that lead nowhere, chains without a file, other marks.
fn strewn_card(random: &mut Random) -> Card {
    let mut card = match random.one_in(2) {
        true => furnished_card(random),
        false => random_card(random),
    };
    for cluster in 2..card.clusters() as u16 + 2 {
        if card.fat1_entry(cluster) == 0xFFF7 && random.one_in(50) {
            let value = random.pick(&[0, 1, 2, cluster, 4_000, 0xFFF5, 0xFFF8, 0xFFFF]);
            card.set_fats(cluster, value);
        }
    }
    card
}

#[test]
fn as_append_and_replace_do() {
    let (mut yes, mut no) = (0, 0);
    for seed in 0..60 {
        let mut random = Random::new(90_000 + seed);
        let mut card = strewn_card(&mut random);
        // An empty file, in the place of what slot 0 had.
        let name = ROUTE;
        card.put_slot(0, name, 0x20, 0, 0);
        for length in lengths(&card, &mut random) {
            let data = vec![7; length];
            let fits = assert_tied(
                &card,
                &Operation::Append {
                    name,
                    data: &data,
                    seconds: AT,
                },
                length,
            );
            assert_eq!(
                fits,
                assert_tied(
                    &card,
                    &Operation::Replace {
                        name,
                        data: &data,
                        seconds: AT
                    },
                    length
                )
            );
            yes += usize::from(fits);
            no += usize::from(!fits);
        }
        // A file that has clusters already: they are no room for what replaces it.
        let free = free_clusters(&card.bytes).len();
        let cluster_bytes = usize::from(card.spec.sectors_per_cluster) * 512;
        let data = vec![9; random.below(free.max(1)) * cluster_bytes];
        append(&mut card.bytes, name, &data, AT, ALL);
        assert_eq!(card.size(0) as usize, data.len());
        for length in lengths(&card, &mut random) {
            let data = vec![8; length];
            assert_tied(
                &card,
                &Operation::Replace {
                    name,
                    data: &data,
                    seconds: AT,
                },
                length,
            );
        }
    }
    assert!(yes > 500 && no > 100, "{yes} {no}");
}
