//! Random damage: whatever the card holds, a call ends, refuses on a ground
//! without altering anything, or makes its stores and no others.

use crate::support::history::random_step;
use crate::support::operation;
use reference::*;
use std::collections::BTreeSet;
use testkit::cards::{random_card, Card};
use testkit::random::Random;
use testkit::{ALL, AT};

const GUARD: [u8; 64] = [0xA5; 64];

/// A card with some history, perhaps cut off, in a window that is longer.
fn used_card(random: &mut Random) -> Card {
    let mut card = random_card(random);
    let cluster_bytes = usize::from(card.spec.sectors_per_cluster) * 512;
    for _ in 0..20 {
        let step = random_step(random, cluster_bytes);
        run(&mut card.bytes, &operation(&step), ALL);
    }
    if random.one_in(2) {
        let step = random_step(random, cluster_bytes);
        let limit = random.below(8) as u32;
        run(&mut card.bytes, &operation(&step), limit);
    }
    card.bytes.extend(GUARD);
    card
}

/// Changes a few bytes where it matters.
fn damage(card: &mut Card, random: &mut Random) {
    for _ in 0..1 + random.below(4) {
        let (start, length) = match random.below(8) {
            0 => (11, 25),
            1 | 2 => (card.fat1() * 512, (card.root() - card.fat1()) * 512),
            3 | 4 => (card.root() * 512, 200),
            5 => (card.root() * 512, (card.data() - card.root()) * 512),
            _ => (card.log().start * 512, card.log().len() * 512),
        };
        let at = start + random.below(length);
        card.bytes[at] = match random.below(4) {
            0 => 0,
            1 => 0xE5,
            2 => card.bytes[at] ^ 1 << random.below(8),
            _ => random.byte(),
        };
    }
}

/// Runs one call and checks what it did against its plan. Gives the ground.
fn check_call(card: &mut Card, operation: &Operation, limit: u32) -> Option<Ground> {
    let planned = plan(&card.bytes, operation);
    let before = card.bytes.clone();
    let answer = run(&mut card.bytes, operation, limit);
    let stores = match planned {
        Err(ground) => {
            assert_eq!(answer, Answer::Refused(ground));
            assert!(card.bytes == before);
            return Some(ground);
        }
        Ok(stores) => stores,
    };
    let made = stores.len().min(limit as usize);
    let mut expected = before;
    for store in &stores[..made] {
        expected[store.sector * 512..][..512].copy_from_slice(&store.bytes);
        assert_ne!(store.sector, 0, "the boot sector is never stored");
    }
    assert!(card.bytes == expected);
    assert!(card.bytes.ends_with(&GUARD));
    None
}

fn check_reading(card: &Card, name: &[u8], random: &mut Random) {
    let mut buffer = vec![0x5A; random.below(3_000)];
    let offset = random.pick(&[0, 0, 100, 512, 1 << 32, u64::MAX]);
    match read(&card.bytes, name, offset, &mut buffer) {
        Answer::Done(count) => {
            let rest = &buffer[count as usize..];
            assert!(rest.iter().all(|&byte| byte == 0x5A));
        }
        Answer::Refused(_) => assert!(buffer.iter().all(|&byte| byte == 0x5A)),
        other => panic!("{other:?}"),
    }
    // Both ask grounds 1 to 7 and no others.
    let bytes = random.pick(&[0, 1, 5_000, 1 << 20, u64::MAX]);
    match (list(&card.bytes, &mut buffer), fits(&card.bytes, bytes)) {
        (Answer::Refused(ground), Answer::Refused(other)) => assert_eq!(ground, other),
        (Answer::Done(_), Answer::Done(_) | Answer::No) => (),
        other => panic!("{bytes}: {other:?}"),
    }
}

#[test]
fn damaged_cards() {
    let mut grounds = BTreeSet::new();
    for seed in 0..120 {
        let mut random = Random::new(5_000 + seed);
        let mut card = used_card(&mut random);
        let cluster_bytes = usize::from(card.spec.sectors_per_cluster) * 512;
        for _ in 0..4 {
            damage(&mut card, &mut random);
            let limit = random.pick(&[1, 2, 5, ALL, ALL]);
            grounds.extend(check_call(&mut card, &Operation::Recover, limit));
            let step = random_step(&mut random, cluster_bytes);
            let limit = random.pick(&[0, 1, 3, 6, ALL]);
            grounds.extend(check_call(&mut card, &operation(&step), limit));
            let name = random.pick(&crate::support::history::NAMES);
            check_reading(&card, name, &mut random);
        }
    }
    for ground in [
        Ground::Boot,
        Ground::Logarea,
        Ground::Root,
        Ground::Record,
        Ground::Unclean,
    ] {
        assert!(grounds.contains(&ground), "{ground} did not come up");
    }
}

#[test]
fn random_bytes_for_a_boot_sector() {
    let mut random = Random::new(6_000);
    let mut accepted = 0;
    for _ in 0..20_000 {
        let mut boot = CardSpec::K.boot_sector();
        for _ in 0..1 + random.below(3) {
            boot[11 + random.below(26)] = random.byte();
        }
        match list(&boot, &mut []) {
            Answer::Refused(Ground::Window) => accepted += 1,
            Answer::Refused(Ground::Boot) => {}
            other => panic!("{other:?}"),
        }
    }
    assert!((1_000..19_000).contains(&accepted), "{accepted}");
}

#[test]
fn short_windows() {
    let mut card = CardSpec::K.build();
    let end = card.len();
    let name = b"ROUTE   CUT";
    create(&mut card, name, AT, ALL);
    append(&mut card, name, &[1; 3_000], AT, ALL);
    let whole = card.clone();
    for length in (0..600).chain((600..end).step_by(9_973)).chain([end - 1]) {
        let ground = if length < 512 {
            Ground::Short
        } else {
            Ground::Window
        };
        let refused = Answer::Refused(ground);
        let window = &mut card[..length];
        assert_eq!(create(window, name, AT, ALL), refused);
        assert_eq!(append(window, name, &[1], AT, ALL), refused);
        assert_eq!(replace(window, name, &[1], AT, ALL), refused);
        assert_eq!(truncate(window, name, 0, AT, ALL), refused);
        assert_eq!(delete(window, name, ALL), refused);
        assert_eq!(rename(window, name, b"PANEL   CUT", ALL), refused);
        assert_eq!(recover(window, ALL), refused);
        assert_eq!(read(window, name, 0, &mut [0; 9]), refused);
        assert_eq!(list(window, &mut [0; 99]), refused);
    }
    assert!(card == whole);
}
