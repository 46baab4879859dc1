//! Debian's dosfstools and mtools on cards that the library formatted: they find the card that was asked for, and nothing wrong
//! with it; either reads what the other saves there. `support::image` has what they need to be told.

use crate::fat_tools::{assert_holds, library_step, tools_step, Files};
use crate::support::image::Image;
use lfat_card::calls::Answer;
use testkit::fresh::{fresh, Fresh, CLUSTER_SIZES, FRESH_K};
use testkit::random::Random;
use testkit::{cases, ALL};

/// The number that minfo prints after these words.
fn field(text: &str, words: &str) -> u64 {
    let mut lines = text.lines();
    let rest = lines.find_map(|line| line.strip_prefix(words));
    let rest = rest.unwrap_or_else(|| panic!("no line '{words}': {text}"));
    let number = rest.split(' ').next().expect("a number");
    number.parse().expect("a number")
}

/// Both find an empty card with these numbers.
fn assert_empty(image: &Image, asked: Fresh) {
    let text = String::from_utf8(image.tool("minfo", &["::"])).expect("text");
    let (small, big) = match asked.total {
        0..=65_535 => (asked.total, None),
        _ => (0, Some(asked.total)),
    };
    for (words, number) in [
        ("sector size: ", 512),
        ("cluster size: ", asked.per_cluster.into()),
        ("reserved (boot) sectors: ", 1),
        ("fats: ", 2),
        ("max available root directory slots: ", 512),
        ("small size: ", small.into()),
        ("sectors per fat: ", asked.fat_sectors()),
    ] {
        assert_eq!(field(&text, words), number, "{words}{asked:?}");
    }
    assert!(text.contains("media descriptor byte: 0xf8"), "{text}");
    let stated = big.map(|_| field(&text, "big size: "));
    assert_eq!(stated, big.map(u64::from), "{text}");
    assert_holds(image, &Files::new());
    let (_, checked) = image.checked();
    let summary = format!(
        ": 0 files, {}/{} clusters",
        asked.log_clusters,
        asked.clusters()
    );
    assert!(checked.trim_end().ends_with(&summary), "{checked}");
}

/// The smallest card of every cluster size; and one that is all but full of entries, one larger than 65,535 sectors.
#[test]
fn empty_cards() {
    for per_cluster in CLUSTER_SIZES {
        let asked = fresh(
            65 + 4_085 * per_cluster,
            per_cluster,
            32u32.div_ceil(per_cluster),
        );
        assert_empty(&Image::fresh("empty.img", asked, 0), asked);
    }
    for asked in [
        FRESH_K,
        fresh(4_159, 1, 1),
        fresh(4_160, 1, 128),
        fresh(66_069, 1, 3),
    ] {
        assert_empty(&Image::fresh("full.img", asked, 0xE5), asked);
    }
}

/// Files saved by the library and by mtools, by turns.
#[test]
fn saved_on_fresh_cards() {
    for (asked, byte) in [
        (FRESH_K, 0x5A),
        (fresh(20_000, 4, 2), 0xFF),
        (fresh(66_069, 1, 128), 0),
    ] {
        let mut random = Random::new(80_000 + u64::from(byte));
        let mut image = Image::fresh("saved.img", asked, byte);
        let mut files = Files::new();
        for _ in 0..cases(8) {
            library_step(&mut image, &mut files, &mut random);
            tools_step(&mut image, &mut files, &mut random);
        }
        assert_holds(&image, &files);
        assert!(!files.is_empty());
        // A second format, over their files.
        let answer = asked.call().on_library(&mut image.card, ALL, &mut []);
        assert_eq!(answer, Answer::Done(asked.stores()));
        image.save();
        assert_empty(&image, asked);
    }
}

/// What is fixed by the words is what mkfs.fat writes too, but for the FATs' sectors, of which it may take more.
#[test]
fn beside_cards_of_mkfs() {
    for (per_cluster, kib) in [
        (1, 2_100),
        (1, 2_500),
        (1, 32_767),
        (1, 32_768),
        (1, 33_000),
        (2, 4_300),
        (4, 9_000),
        (8, 20_000),
        (16, 35_000),
        (32, 67_000),
        (64, 134_000),
    ] {
        let image = Image::format("mkfs.img", per_cluster, kib, 512);
        let other = &image.card;
        let asked = fresh(2 * kib as u32, per_cluster as u32, 1);
        let mut own = vec![0; asked.window()];
        let answer = asked.call().on_library(&mut own, ALL, &mut []);
        assert_eq!(answer, Answer::Done(asked.stores()));
        for range in [0..3, 11..22, 32..36, 510..516] {
            assert_eq!(
                own[range.clone()],
                other[range.clone()],
                "{asked:?} {range:?}"
            );
        }
        let sectors = |card: &[u8]| usize::from(card[22]) + 256 * usize::from(card[23]);
        let (fewest, theirs) = (sectors(&own), sectors(other));
        assert!(
            (fewest..fewest + 2).contains(&theirs),
            "{asked:?}: {theirs}"
        );
        for fat in 0..2 {
            let start = |sectors: usize| 512 * (1 + fat * sectors);
            assert_eq!(own[start(fewest)..][..4], other[start(theirs)..][..4]);
        }
    }
}
