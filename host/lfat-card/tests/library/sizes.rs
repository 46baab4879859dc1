//! Clusters of 1 to 64 sectors: paths saved, read back, shortened and removed at every edge of sector and cluster.

use crate::support::twin::Twin;
use reference::{Answer, CardSpec};
use testkit::call::Call;
use testkit::cards::Card;
use testkit::{ALL, AT, OTHER, PANEL, ROUTE};

fn card(sectors_per_cluster: u8, log_clusters: u16) -> Card {
    let total_sectors = 65 + 4_085 * u32::from(sectors_per_cluster);
    let mut card = Card::new(CardSpec {
        sectors_per_cluster,
        total_sectors,
        use_32bit_total: total_sectors >= 65_536,
        log_first: 9,
        log_clusters,
        ..CardSpec::K
    });
    // The low clusters are taken by turns, so that files lie in pieces.
    for cluster in [2, 4, 5, 7] {
        card.set_fats(cluster, 0xFFF7);
    }
    card
}

/// Bytes that are never 0 and differ from place to place.
fn path(length: usize) -> Vec<u8> {
    (0..length)
        .map(|at| ((at * 7) ^ (at >> 8)) as u8 | 1)
        .collect()
}

/// Saves a path in two pieces, reads it back whole and in part.
fn save(twin: &mut Twin, first: usize, second: usize) {
    let whole = path(first + second);
    twin.done(&Call::Create(ROUTE.to_vec(), AT));
    twin.done(&Call::Append(ROUTE.to_vec(), whole[..first].to_vec(), AT));
    twin.done(&Call::Append(ROUTE.to_vec(), whole[first..].to_vec(), AT));
    assert_eq!(reference::file_bytes(&twin.card.bytes, 0), whole);
    for offset in [0, 1, 511, 512, first, first + second] {
        for room in [0, 1, 513, first + second + 9] {
            let read = Call::Read(ROUTE.to_vec(), offset as u64, room);
            let count = room.min(whole.len().saturating_sub(offset)) as u32;
            assert_eq!(twin.call(&read, ALL), Answer::Done(count));
        }
    }
    // An offset of which the low 32 bits alone lie within the file.
    let past = Call::Read(ROUTE.to_vec(), 1 << 32, 9);
    assert_eq!(twin.call(&past, ALL), Answer::Done(0));
}

fn edges(cluster: usize) -> [usize; 10] {
    [
        0,
        1,
        511,
        512,
        513,
        cluster - 1,
        cluster,
        cluster + 1,
        2 * cluster,
        3 * cluster,
    ]
}

/// Small clusters: every pair of edges.
#[test]
fn small_clusters() {
    for sectors_per_cluster in [1, 2, 4] {
        let cluster = 512 * usize::from(sectors_per_cluster);
        let mut twin = Twin::new(card(sectors_per_cluster, 3));
        for first in edges(cluster) {
            for second in edges(cluster) {
                save(&mut twin, first, second);
                for size in edges(cluster).into_iter().rev() {
                    twin.call(&Call::Truncate(ROUTE.to_vec(), size as u64, AT), ALL);
                }
                twin.done(&Call::Append(ROUTE.to_vec(), path(second), AT));
                for length in [second, first] {
                    twin.done(&Call::Replace(ROUTE.to_vec(), path(length), AT));
                    assert_eq!(reference::file_bytes(&twin.card.bytes, 0), path(length));
                }
                twin.done(&Call::Delete(ROUTE.to_vec()));
            }
        }
    }
}

/// Large clusters take large cards: fewer rows.
#[test]
fn large_clusters() {
    for sectors_per_cluster in [8, 16, 32, 64] {
        let cluster = 512 * usize::from(sectors_per_cluster);
        let mut twin = Twin::new(card(sectors_per_cluster, 1));
        save(&mut twin, cluster - 1, 2 * cluster + 513);
        twin.done(&Call::Create(PANEL.to_vec(), AT));
        twin.done(&Call::Append(PANEL.to_vec(), path(cluster), AT));
        for limit in [0, 1, 3, 4, 5] {
            twin.call(&Call::Append(ROUTE.to_vec(), path(300), AT), limit);
            twin.done(&Call::Recover);
        }
        for size in [2 * cluster + 1, 2 * cluster, cluster - 1, 0] {
            twin.done(&Call::Truncate(ROUTE.to_vec(), size as u64, AT));
        }
        twin.done(&Call::Append(ROUTE.to_vec(), path(3 * cluster + 1), AT));
        // Data, FAT2, group, FAT1, root, commit.
        let data = u32::from(sectors_per_cluster) + 2;
        for limit in [0, 1, data, data + 1, data + 2, data + 3, ALL] {
            twin.call(
                &Call::Replace(ROUTE.to_vec(), path(cluster + 513), AT),
                limit,
            );
            twin.done(&Call::Recover);
        }
        twin.done(&Call::Rename(ROUTE.to_vec(), OTHER.to_vec()));
        twin.done(&Call::Delete(OTHER.to_vec()));
        twin.done(&Call::List(64));
    }
}

/// The longest log, 128 sectors, is filled and cleared, also with cuts in the clearing.
#[test]
fn longest_log() {
    for (sectors_per_cluster, log_clusters) in [(1, 128), (4, 32)] {
        let mut twin = Twin::new(card(sectors_per_cluster, log_clusters));
        let names = [ROUTE.to_vec(), PANEL.to_vec()];
        twin.done(&Call::Create(names[0].clone(), AT));
        for turn in 1..128 {
            let (old, new) = (&names[(turn + 1) % 2], &names[turn % 2]);
            twin.done(&Call::Rename(old.clone(), new.clone()));
        }
        for call in [
            Call::Replace(names[1].clone(), path(700), AT),
            Call::Append(names[1].clone(), path(600), AT),
        ] {
            let clearing = twin.stores(&call);
            assert!(clearing > 128);
            twin.all_limits(&call, |twin| twin.done(&Call::Recover));
            if matches!(call, Call::Append(..)) {
                assert_eq!(twin.call(&call, ALL), Answer::Done(clearing as u32));
            }
        }
    }
}
