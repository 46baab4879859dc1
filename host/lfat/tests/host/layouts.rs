//! Layouts here and in the library: the same boot sectors are accepted.

use crate::support::random::Random;
use crate::support::spec;
use lfat_card::{calls, Answer, Refusal};
use lfat_disk::layout::Layout;
use reference::CardSpec;

/// Whether the library accepts a boot sector, and the layout here too.
fn accepts(boot: &[u8]) -> bool {
    let library = match calls::list(boot, &mut []) {
        Answer::Refused(Refusal::Boot) => false,
        Answer::Refused(Refusal::Window) => true,
        other => panic!("{other:?}"),
    };
    assert_eq!(Layout::parse(boot).is_some(), library, "{boot:?}");
    library
}

#[test]
fn random_boot_sectors() {
    let mut random = Random::new(0x9B05_688C_2B3E_6C1F);
    let (mut accepted, mut refused) = (0, 0);
    for round in 0..3_000 {
        let sectors_per_cluster = 1 << (round % 7);
        let mut boot = CardSpec {
            sectors_per_fat: 64,
            // Clusters of twice the size would still be enough of them.
            total_sectors: 161 + 8_400 * u32::from(sectors_per_cluster),
            use_32bit_total: true,
            ..spec(sectors_per_cluster)
        }
        .boot_sector();
        let places = [
            11, 12, 13, 14, 15, 16, 17, 18, 19, 20, 22, 23, 32, 33, 34, 35, 510, 511,
        ];
        for _ in 0..random.below(3) {
            let at = places[random.below(places.len())];
            boot[at] = [0, 1, 2, 16, 64, 128, random.next() as u8][random.below(7)];
        }
        let library = accepts(&boot);
        accepted += usize::from(library);
        refused += usize::from(!library);
    }
    assert!(accepted > 500 && refused > 500, "{accepted} {refused}");
}

#[test]
fn edges() {
    for (clusters, sectors_per_fat, accepted) in [
        (4_084, 16, false),
        (4_085, 16, true),
        (4_094, 16, true),
        (4_095, 16, false),
        (65_524, 256, true),
        (65_524, 255, false),
        (65_525, 256, false),
        (65_525, 300, false),
    ] {
        let boot = CardSpec {
            sectors_per_fat,
            total_sectors: 33 + 2 * u32::from(sectors_per_fat) + clusters,
            use_32bit_total: true,
            ..CardSpec::K
        }
        .boot_sector();
        assert_eq!(accepts(&boot), accepted, "{clusters} {sectors_per_fat}");
    }
}
