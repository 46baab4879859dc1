//! Chains, the log's place and the end of the root directory, with the answers written down.

use crate::support::twin::Twin;
use reference::{Answer, CardSpec, Ground};
use testkit::call::Call;
use testkit::cards::Card;
use testkit::{ALL, AT, PANEL, ROUTE};

/// All calls that ask CHAIN agree on a file with the given FAT entries. The card has clusters 2 to 4,086.
fn chain(first: u16, size: u32, entries: &[(u16, u16)], proper: bool) {
    let mut card = Card::k();
    card.put_slot(0, ROUTE, 0x20, first, size);
    for &(cluster, value) in entries {
        card.set_fats(cluster, value);
    }
    let mut twin = Twin::new(card);
    let name = ROUTE.to_vec();
    for call in [
        Call::Append(name.clone(), vec![1; 700], AT),
        Call::Append(name.clone(), Vec::new(), AT),
        Call::Replace(name.clone(), vec![1; 700], AT),
        Call::Replace(name.clone(), Vec::new(), AT),
        Call::Truncate(name.clone(), u64::from(size), AT),
        Call::Truncate(name.clone(), 0, AT),
        Call::Delete(name.clone()),
        Call::Read(name.clone(), 0, 3_000),
        Call::Read(name.clone(), u64::MAX, 0),
    ] {
        let answer = twin.call(&call, 0);
        let refused = answer == Answer::Refused(Ground::Chain);
        assert_eq!(refused, !proper, "{first} {size} {entries:?} {call:?}");
        if proper && call.operation().is_some() {
            twin.all_limits(&call, |_| ());
        }
    }
}

#[test]
fn chains() {
    chain(0, 0, &[], true);
    chain(20, 0, &[(20, 0xFFFF)], false);
    // 0xFFF6 would be a second log.
    for end in (0xFFF0..0xFFF6).chain(0xFFF7..=0xFFFF) {
        chain(20, 512, &[(20, end)], end >= 0xFFF8);
        chain(20, 513, &[(20, 30), (30, end)], end >= 0xFFF8);
    }
    let three = [(20, 4_086), (4_086, 10), (10, 0xFFF8)];
    for (size, proper) in [(1_024, false), (1_025, true), (1_536, true), (1_537, false)] {
        chain(20, size, &three, proper);
    }
    for outside in [0, 1, 4_087, 0xFFF5, 0xFFFF] {
        chain(outside, 1, &three, false);
        chain(10, 1_000, &[(10, outside)], false);
    }
    chain(10, 1_000, &[(10, 1), (1, 0xFFFF)], false);
    chain(10, 1_000, &[(10, 4_087), (4_087, 0xFFFF)], false);
    // Loops, and sizes past the card's clusters.
    chain(20, 1_000, &[(20, 20)], false);
    chain(20, u32::MAX, &[(20, 21), (21, 20)], false);
    chain(20, 4_085 * 512 + 1, &[(20, 21), (21, 20)], false);
    chain(20, u32::MAX, &[(20, 0xFFFF)], false);
    // The log's clusters and bad ones are no links.
    chain(2, 100, &[], false);
    chain(20, 1_000, &[(20, 5)], false);
    chain(20, 1_000, &[(20, 30), (30, 0xFFF7)], false);
}

/// Marks further clusters in FAT1, or in both, and asks whether the log is found.
fn log_area(spec: CardSpec, marks: &[u16], both: bool, found: bool) {
    let mut card = Card::new(spec);
    for &cluster in marks {
        card.set_fat1(cluster, 0xFFF6);
        if both {
            card.set_fats(cluster, 0xFFF6);
        }
    }
    let mut twin = Twin::new(card);
    let answer = twin.call(&Call::Recover, 0);
    let refused = answer == Answer::Refused(Ground::Logarea);
    assert_eq!(refused, !found, "{spec:?} {marks:?}");
    if found && both {
        let create = Call::Create(PANEL.to_vec(), AT);
        twin.all_limits(&create, |twin| twin.done(&Call::Recover));
    }
    twin.call(&Call::List(40), ALL);
}

#[test]
fn log_areas() {
    let k = CardSpec::K;
    let run = |log_first, log_clusters| CardSpec {
        log_first,
        log_clusters,
        ..k
    };
    log_area(run(2, 0), &[], true, false);
    for (length, found) in [(1, true), (127, true), (128, true), (129, false)] {
        log_area(run(2, length), &[], true, found);
        log_area(run(4_087 - length, length), &[], true, found);
    }
    for (mark, found) in [(10, true), (11, false), (4_086, false)] {
        log_area(k, &[mark], true, found);
        log_area(k, &[mark], false, found);
    }
    // Entries 0 and 1 and those past the last cluster are no clusters.
    log_area(k, &[0, 1, 4_087, 4_095], true, true);
    log_area(run(2, 0), &[0, 1, 4_087, 4_095], true, false);
    log_area(run(4_086, 1), &[4_087], true, true);
    for (sectors_per_cluster, most) in [(2, 64), (4, 32)] {
        for (log_clusters, found) in [(most, true), (most + 1, false)] {
            let total_sectors = 65 + 4_090 * u32::from(sectors_per_cluster);
            let spec = CardSpec {
                sectors_per_cluster,
                total_sectors,
                ..run(100, log_clusters)
            };
            log_area(spec, &[], true, found);
        }
    }
}

#[test]
fn ends_of_the_root_directory() {
    for end in [0, 1, 15, 16, 510, 511] {
        for byte in [0xE5, b'A', 0x01, 0xFF] {
            for stray in [end + 1, 511] {
                let mut card = Card::k();
                card.fill_root(0);
                for slot in end..512 {
                    card.slot_mut(slot).fill(0);
                }
                let mut twin = Twin::new(card);
                let count = Answer::Done(end as u32);
                assert_eq!(twin.call(&Call::List(100), ALL), count);
                if stray > 511 || end == 511 {
                    continue;
                }
                twin.edit(|card| card.slot_mut(stray)[0] = byte);
                for call in [Call::List(100), Call::Recover] {
                    let answer = twin.call(&call, ALL);
                    assert_eq!(answer, Answer::Refused(Ground::Root));
                }
            }
        }
    }
}
