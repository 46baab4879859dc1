//! Boot sectors: the edges, with the answers written down, and random ones. `LFAT_CASES=N` tries N times as many.

use crate::support::twin::Twin;
use reference::{Answer, CardSpec, Ground};
use testkit::call::Call;
use testkit::cards::Card;
use testkit::random::Random;
use testkit::{cases, ALL, AT, ROUTE};

/// What list answers where the window is the boot sector alone: WINDOW if it is accepted.
fn boot_alone(bytes: Vec<u8>) -> Answer {
    let spec = CardSpec::K;
    let mut twin = Twin::new(Card { spec, bytes });
    for call in [Call::Create(ROUTE.to_vec(), AT), Call::Recover] {
        assert_eq!(twin.call(&call, ALL), twin.call(&Call::List(9), ALL));
    }
    twin.call(&Call::List(9), ALL)
}

fn expect(spec: CardSpec, accepted: bool) {
    let answer = boot_alone(spec.boot_sector().to_vec());
    let ground = if accepted {
        Ground::Window
    } else {
        Ground::Boot
    };
    assert_eq!(answer, Answer::Refused(ground), "{spec:?}");
}

#[test]
fn edges() {
    let k = CardSpec::K;
    let total = |total_sectors| CardSpec {
        total_sectors,
        use_32bit_total: true,
        ..k
    };
    for (total_sectors, accepted) in [(4_150, true), (4_149, false), (4_158, true)] {
        expect(total(total_sectors), accepted);
    }
    for (clusters, accepted) in [(65_524, true), (65_525, false)] {
        for sectors_per_cluster in [1u8, 64] {
            let spec = CardSpec {
                sectors_per_cluster,
                sectors_per_fat: 256,
                ..total(1 + 512 + 32 + clusters * u32::from(sectors_per_cluster))
            };
            expect(spec, accepted);
            // The FAT has one entry too few.
            let sectors_per_fat = 255;
            expect(
                CardSpec {
                    sectors_per_fat,
                    ..spec
                },
                false,
            );
        }
    }
    for sectors_per_cluster in 0..=255u8 {
        let spec = CardSpec {
            sectors_per_cluster,
            ..total(65 + 4_085 * u32::from(sectors_per_cluster.max(1)))
        };
        let accepted = sectors_per_cluster.is_power_of_two() && sectors_per_cluster <= 64;
        expect(spec, accepted);
    }
    for root_entries in 0..64 {
        let total_sectors = 33 + 4_090;
        let spec = CardSpec {
            root_entries,
            ..total(total_sectors)
        };
        expect(spec, root_entries > 0 && root_entries % 16 == 0);
    }
    expect(CardSpec { reserved: 0, ..k }, false);
    expect(
        CardSpec {
            sectors_per_fat: 15,
            ..k
        },
        false,
    );
    expect(
        CardSpec {
            sectors_per_fat: 0,
            ..k
        },
        false,
    );
}

/// Each byte of the boot sector by itself, with every value where it matters.
#[test]
fn every_byte() {
    for at in (11..24).chain(32..36).chain([510, 511]) {
        for byte in 0..=255 {
            let mut boot = CardSpec::K.boot_sector();
            boot[at] = byte;
            boot_alone(boot.to_vec());
        }
    }
    for at in (0..11).chain(24..32).chain(36..510) {
        let mut boot = CardSpec::K.boot_sector();
        boot[at] = !boot[at];
        assert_eq!(boot_alone(boot.to_vec()), Answer::Refused(Ground::Window));
    }
}

#[test]
fn random_boot_sectors() {
    let mut random = Random::new(30_000);
    let mut accepted = 0;
    for _ in 0..cases(10_000) {
        let mut boot = CardSpec::K.boot_sector();
        for _ in 0..1 + random.below(3) {
            boot[11 + random.below(26)] = random.byte();
        }
        if boot_alone(boot.to_vec()) == Answer::Refused(Ground::Window) {
            accepted += 1;
        }
    }
    assert!(accepted > 500, "{accepted}");
}

/// Windows of every length up to two sectors, and around the card's end.
#[test]
fn window_lengths() {
    let mut twin = Twin::new(Card::k());
    twin.edit(|card| card.bytes.extend([0x77; 600]));
    let end = 4_150 * 512;
    for lent in (0..1_025).chain(end - 513..end + 2).chain([end + 600]) {
        twin.lent = lent;
        let answer = twin.call(&Call::List(40), ALL);
        let expected = match lent {
            0..512 => Answer::Refused(Ground::Short),
            _ if lent < end => Answer::Refused(Ground::Window),
            _ => Answer::Done(0),
        };
        assert_eq!(answer, expected);
        assert_eq!(twin.call(&Call::Recover, ALL), expected);
        let create = twin.call(&Call::Create(ROUTE.to_vec(), AT), 0);
        assert_eq!(create == Answer::Stopped(0), lent >= end);
    }
}
