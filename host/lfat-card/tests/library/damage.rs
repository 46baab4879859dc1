//! Cards with a history and random damage, in windows of any length: every call answers as the reference does, on every ground
//! that it can give.
//! `LFAT_CASES=N` tries N times as many cards.

use crate::support::coverage::{assert_seen, Seen};
use crate::support::twin::Twin;
use testkit::call::Call;
use testkit::cards::Card;
use testkit::fixtures::furnished_card;
use testkit::fresh::{fresh, random_fresh};
use testkit::random::Random;
use testkit::steps::{random_bytes, random_call, random_long_name, random_mark};
use testkit::{cases, ALL};

/// Changes a few bytes where it matters.
fn damage(card: &mut Card, random: &mut Random) {
    for _ in 0..1 + random.below(3) {
        let (start, length) = match random.below(8) {
            0 => (11, 25),
            1 | 2 => (card.fat1() * 512, (card.root() - card.fat1()) * 512),
            3 | 4 => (card.root() * 512, 250),
            5 => (card.root() * 512, (card.data() - card.root()) * 512),
            _ => (card.log().start * 512, card.log().len() * 512),
        };
        let at = start + random.below(length);
        card.bytes[at] = match random.below(5) {
            0 => 0,
            1 => 0xE5,
            2 => 0xFF,
            3 => card.bytes[at] ^ 1 << random.below(8),
            _ => random.byte(),
        };
    }
    match random.below(6) {
        0 => mark_log(card, random),
        1 => damage_file(card, random),
        2 => damage_slot(card, random),
        3 | 4 => random_long_name(random, card),
        _ if random.one_in(4) => fill_root(card),
        _ => (),
    }
}

/// Leaves no slot for a new file.
fn fill_root(card: &mut Card) {
    for slot in 0..usize::from(card.spec.root_entries) {
        if matches!(card.slot(slot)[0], 0 | 0xE5) {
            card.put_slot(slot, b"FILLING    ", 0x20, 0, 0);
        }
    }
}

/// A slot that ends the root directory, or one after its end.
fn damage_slot(card: &mut Card, random: &mut Random) {
    let slot = random.below(usize::from(card.spec.root_entries));
    card.slot_mut(slot)[0] = random.pick(&[0, 0xE5, b'X']);
}

/// Another size, first cluster or link of one of the first slots.
fn damage_file(card: &mut Card, random: &mut Random) {
    let slot = 5 + random.below(8);
    let first = card.first_cluster(slot);
    let cluster_bytes = 512 * u32::from(card.spec.sectors_per_cluster);
    let size = match random.below(3) {
        0 => card.size(slot).wrapping_add(cluster_bytes),
        1 => card.size(slot).wrapping_sub(cluster_bytes),
        _ => card.size(slot),
    };
    card.slot_mut(slot)[28..].copy_from_slice(&size.to_le_bytes());
    let last = card.clusters() as u16 + 1;
    if random.one_in(2) && (2..=last).contains(&first) {
        let value = random.pick(&[0, 1, first, last, last + 1, 0xFFF7, 0xFFFB]);
        card.set_fats(first, value);
    }
}

/// Another log mark, perhaps one too many, or one less.
fn mark_log(card: &mut Card, random: &mut Random) {
    let log = card.spec.log_first..card.spec.log_first + card.spec.log_clusters;
    match random.below(4) {
        0 => card.set_fats(log.end, 0xFFF6),
        1 => card.set_fats(log.start, 0xFFF7),
        2 => card.set_fat1(log.start, 0),
        _ => card.set_fats(2 + random.below(4_000) as u16, 0xFFF6),
    }
}

fn random_window(card: &Card, random: &mut Random) -> usize {
    let whole = card.bytes.len();
    match random.below(8) {
        0 => random.below(513),
        1 => random.below(whole),
        2 => whole - 1,
        _ => whole,
    }
}

fn calls(random: &mut Random, card: &Card) -> Vec<Call> {
    let mut calls = vec![
        Call::List(random.below(300)),
        Call::Fits(random_bytes(random, card)),
    ];
    calls.extend((0..12).map(|_| random_call(random, card)));
    calls.push(Call::Recover);
    calls
}

/// Formats what is there, with numbers that often make a card in the window.
fn format(twin: &mut Twin, random: &mut Random) {
    for _ in 0..2 {
        let total = twin.card.spec.total_sectors;
        let asked = match total.checked_sub(4_150) {
            Some(more) if random.one_in(2) => {
                let total = 4_150 + random.below(more as usize + 2) as u32;
                fresh(total, 1, 1 + random.below(128) as u32)
            }
            _ => random_fresh(random),
        };
        twin.lent = random_window(&twin.card, random);
        let few = random.below(200) as u32;
        twin.call(&asked.call(), random.pick(&[few, ALL]));
        for call in calls(random, &twin.card) {
            twin.call(&call, ALL);
        }
    }
}

fn damaged_card(seed: u64) -> Seen {
    let mut random = Random::new(10_000 + seed);
    let mut twin = Twin::new(furnished_card(&mut random));
    for _ in 0..8 {
        let call = random_call(&mut random, &twin.card);
        twin.call(&call, ALL);
    }
    let cut = random_call(&mut random, &twin.card);
    twin.call(&cut, random.pick(&[2, 4, 6, ALL]));
    for _ in 0..4 {
        if !random.one_in(3) {
            twin.edit(|card| damage(card, &mut random));
        }
        twin.edit(|card| random_mark(&mut random, card));
        twin.lent = random_window(&twin.card, &mut random);
        for call in calls(&mut random, &twin.card) {
            let limit = random.pick(&[0, 1, 2, 3, 5, ALL, ALL]);
            twin.call(&call, limit);
        }
        twin.all_limits(&Call::Recover, |_| ());
    }
    if random.one_in(3) {
        format(&mut twin, &mut random);
    }
    twin.seen
}

#[test]
fn damaged_cards() {
    let mut seen = Seen::new();
    for seed in 0..cases(300) {
        seen.extend(damaged_card(seed));
    }
    assert_seen(&seen, |_| true);
}
