//! Will it fit? The answers are written down, or follow from which clusters are free; they do not rely on the reference, which is
//! compared as ever.

use crate::support::twin::Twin;
use reference::{Answer, CardSpec, Ground};
use testkit::call::Call;
use testkit::cards::{random_card, Card};
use testkit::fixtures::{furnished_card, largest_fragmented_card};
use testkit::random::Random;
use testkit::{cases, ALL, AT, PANEL, ROUTE};

/// No card has room for these; cut to 16, 32 or 33 bits, most of them would be few bytes or few clusters.
const TOO_MANY: [u64; 12] = [
    1 << 31,
    (1 << 31) + 512,
    1 << 32,
    (1 << 32) + 1,
    1 << 41,
    1 << 47,
    (1 << 47) + 1,
    1 << 63,
    u64::MAX - 32_768,
    u64::MAX - 32_767,
    u64::MAX - 511,
    u64::MAX,
];

fn fits(twin: &mut Twin, bytes: u64) -> Answer {
    twin.call(&Call::Fits(bytes), ALL)
}

/// The clusters that hold 0 in FAT1.
fn free(card: &Card) -> Vec<u16> {
    let clusters = 2..card.clusters() as u16 + 2;
    clusters
        .filter(|&cluster| card.fat1_entry(cluster) == 0)
        .collect()
}

/// Every edge of a cluster, where these are the free ones, rising; and numbers that are too large for any card.
fn check_all(twin: &mut Twin, free: &[u16]) {
    let cluster_bytes = 512 * u64::from(twin.card.spec.sectors_per_cluster);
    assert_eq!(fits(twin, 0), Answer::Done(0));
    for (before, &cluster) in (0..).zip(free) {
        let yes = Answer::Done(u32::from(cluster));
        for bytes in [1, cluster_bytes - 1, cluster_bytes] {
            assert_eq!(fits(twin, before * cluster_bytes + bytes), yes, "{bytes}");
        }
    }
    let room = free.len() as u64 * cluster_bytes;
    for bytes in [room + 1, room + cluster_bytes, room + cluster_bytes + 1] {
        assert_eq!(fits(twin, bytes), Answer::No, "{bytes}");
    }
    for bytes in TOO_MANY {
        assert_eq!(fits(twin, bytes), Answer::No, "{bytes}");
    }
}

/// A card on which these clusters are free and all others bad. Its last cluster is 4,086, its FAT has entries up to 4,095.
fn with_free(sectors_per_cluster: u8, clusters: &[u16]) -> Card {
    let total_sectors = 65 + 4_085 * u32::from(sectors_per_cluster);
    let mut card = Card::new(CardSpec {
        sectors_per_cluster,
        total_sectors,
        use_32bit_total: true,
        log_first: 1_000,
        log_clusters: 2,
        ..CardSpec::K
    });
    card.fill();
    for &cluster in clusters {
        card.set_fats(cluster, 0);
    }
    card
}

#[test]
fn every_cluster_size() {
    for sectors_per_cluster in [1, 2, 4, 8, 16, 32, 64] {
        for clusters in [
            &[][..],
            &[2],
            &[4_086],
            &[2, 3, 255, 256, 257, 511, 512, 999, 1_002, 4_085, 4_086],
        ] {
            let mut twin = Twin::new(with_free(sectors_per_cluster, clusters));
            check_all(&mut twin, clusters);
        }
    }
}

/// Entries 0 and 1 and those after the last cluster never count, whether they are 0 or not.
#[test]
fn entries_that_are_no_clusters() {
    for value in [0, 1, 2, 0xFFF6, 0xFFF7, 0xFFFF] {
        for clusters in [&[][..], &[4_086], &[2, 4_086]] {
            let mut twin = Twin::new(with_free(1, clusters));
            twin.edit(|card| {
                for entry in [0, 1, 4_087, 4_088, 4_095] {
                    card.set_fats(entry, value);
                }
            });
            check_all(&mut twin, clusters);
        }
    }
}

/// Of all values of an entry only 0 is free; 0xFFF6 would be a second log.
#[test]
fn every_fat_value() {
    let mut card = with_free(1, &[300]);
    let mut ask = |value, bytes| {
        card.set_fats(20, value);
        Call::Fits(bytes)
            .on_library(&mut card.bytes, ALL, &mut [])
            .encode()
    };
    for value in (1..=0xFFFF).filter(|&value| value != 0xFFF6) {
        assert_eq!(ask(value, 512), 300, "{value:#x}");
        assert_eq!(ask(value, 513), 254 << 32, "{value:#x}");
    }
    assert_eq!(ask(0xFFF6, 1), 4 << 32);
    assert_eq!(ask(0, 512), 20);
    assert_eq!(ask(0, 513), 300);
}

#[test]
fn largest_cards() {
    let mut card = largest_fragmented_card();
    check_all(&mut Twin::new(card.clone()), &free(&card));
    for cluster in [2_999, 65_524, 65_525] {
        card.set_fats(cluster, 0);
    }
    assert_eq!(free(&card).last(), Some(&65_525));
    check_all(&mut Twin::new(card.clone()), &free(&card));
}

#[test]
fn random_cards() {
    for seed in 0..cases(12) {
        let mut random = Random::new(80_000 + seed);
        let card = match random.one_in(2) {
            true => random_card(&mut random),
            false => furnished_card(&mut random),
        };
        let free = free(&card);
        check_all(&mut Twin::new(card), &free);
    }
}

/// A window that is too short is refused whatever is asked; one that is longer than the card is as good as the card.
#[test]
fn windows() {
    let card = with_free(2, &[50, 60]);
    let whole = card.bytes.len();
    let mut twin = Twin::new(card);
    for bytes in [0, 1, 2_048, 2_049, u64::MAX] {
        for (lent, ground) in [
            (0, Ground::Short),
            (511, Ground::Short),
            (512, Ground::Window),
            (whole / 2, Ground::Window),
            (whole - 1, Ground::Window),
        ] {
            twin.lent = lent;
            assert_eq!(fits(&mut twin, bytes), Answer::Refused(ground), "{lent}");
        }
    }
    for more in [1, 511, 1_024, 70_000] {
        twin.edit(|card| card.bytes.extend(vec![0; more]));
        check_all(&mut twin, &[50, 60]);
    }
}

/// Full root directory, files that are broken, marked or directories: none of it is asked.
#[test]
fn what_is_not_asked() {
    let mut card = with_free(1, &[30, 31]);
    card.put_slot(0, ROUTE, 0x21, 0, 700);
    card.put_slot(1, PANEL, 0x11, 5_000, 0);
    card.put_slot(2, b"lower case ", 0x20, 40, u32::MAX);
    card.fill_root(3);
    let mut twin = Twin::new(card);
    check_all(&mut twin, &[30, 31]);
    let create = Call::Create(b"NEW        ".to_vec(), AT);
    let full = Answer::Refused(Ground::Rootfull);
    assert_eq!(twin.call(&create, ALL), full);
}

/// What fits is then saved, up to the cluster that was told, and what does not fit is NOSPACE: by append and by replace.
#[test]
fn as_the_saves_do() {
    for seed in 0..cases(15) {
        let mut random = Random::new(81_000 + seed);
        let mut card = random_card(&mut random);
        card.put_slot(0, ROUTE, 0x20, 0, 0);
        let mut twin = Twin::new(card);
        let cluster_bytes = 512 * usize::from(twin.card.spec.sectors_per_cluster);
        for turn in 0..12 {
            let before = free(&twin.card);
            let room = before.len() * cluster_bytes;
            let bytes = match turn % 3 {
                0 => room + 1 + random.below(600),
                1 => random.below(room + 1),
                _ => room / 2,
            };
            let answer = fits(&mut twin, bytes as u64);
            let save = match turn < 3 && twin.card.size(0) == 0 {
                true => Call::Append(ROUTE.to_vec(), vec![7; bytes], AT),
                false => Call::Replace(ROUTE.to_vec(), vec![8; bytes], AT),
            };
            if answer == Answer::No {
                let refused = Answer::Refused(Ground::Nospace);
                assert_eq!(twin.call(&save, ALL), refused, "{save:?}");
                continue;
            }
            twin.done(&save);
            let is_taken = |cluster: &&u16| twin.card.fat1_entry(**cluster) != 0;
            let highest = before.iter().rfind(is_taken).copied().unwrap_or(0);
            assert_eq!(answer, Answer::Done(u32::from(highest)), "{save:?}");
        }
    }
}

/// A save that is cut: UNCLEAN from its first FAT store on; recovered, the answer is that before the save or that after it.
#[test]
fn around_a_cut() {
    let card = with_free(1, &[20, 30, 40, 50]);
    let mut start = Twin::new(card);
    start.done(&Call::Create(ROUTE.to_vec(), AT));
    let save = Call::Append(ROUTE.to_vec(), vec![7; 1_000], AT);
    // Two data sectors, FAT2, the group, FAT1, root, commit.
    let (old, new) = (Answer::Done(20), Answer::Done(40));
    start.all_limits(&save, |twin| {
        let unclean = Answer::Refused(Ground::Unclean);
        let answer = fits(twin, 512);
        assert!([old, new, unclean].contains(&answer), "{answer:?}");
        twin.done(&Call::Recover);
        let recovered = fits(twin, 512);
        assert!([old, new].contains(&recovered), "{recovered:?}");
        assert!(answer == unclean || answer == recovered);
    });
    for (limit, during, after) in [
        (2, Some(20), old),
        (3, None, old),
        (4, None, new),
        (6, None, new),
        (7, Some(40), new),
    ] {
        let mut twin = Twin::new(start.card.clone());
        twin.call(&save, limit);
        let during = during.map_or(Answer::Refused(Ground::Unclean), Answer::Done);
        assert_eq!(fits(&mut twin, 512), during, "{limit}");
        twin.done(&Call::Recover);
        assert_eq!(fits(&mut twin, 512), after, "{limit}");
    }
}
