//! Cards with more on them than files of the library's own making.

use crate::cards::{random_card, Card};
use crate::long_names::{damage_long_entries, random_count};
use crate::random::Random;
use crate::{Name, OTHER, PANEL, ROUTE};
use reference::CardSpec;

pub const FOLDER: &Name = b"FOLDER     ";
/// A file that breaks the chain rule.
pub const BROKEN: &Name = b"BROKEN     ";

/// Slots of all kinds at the front of a furnished card.
const FURNISHED: usize = 7;

/// A card with few free clusters and a short log, perhaps with a nearly full root directory, with slots of all kinds at the
/// front, files with long names after them, and old bytes in the log and in the data.
pub fn furnished_card(random: &mut Random) -> Card {
    let mut card = random_card(random);
    for at in card.log().start * 512..card.log().end * 512 {
        card.bytes[at] = random.byte();
    }
    for sector in 0..card.log().len() {
        let full = random.one_in(3);
        // At times record 0 has created a long name: what stands in the records after it is then not looked at.
        let leads = random.one_in(4);
        let log = card.log_sector_mut(sector);
        if leads {
            log[0] = 0xE5;
            log[12] = log[12].max(1);
            log[13] = 1;
            continue;
        }
        for record in log.chunks_exact_mut(32) {
            record[0] = if full || random.one_in(2) { 0xE5 } else { 0 };
        }
    }
    furnish_root(&mut card, random);
    put_long_names(&mut card, random);
    if random.one_in(3) {
        fill_root(&mut card, random);
    }
    card
}

fn furnish_root(card: &mut Card, random: &mut Random) {
    card.put_slot(0, b"WORKSHOP   ", 0x08, 0, 0);
    card.put_slot(1, b"AR.O.U.T.E\xFF", 0x0F, 0, u32::MAX);
    card.put_slot(2, ROUTE, 0x08 | 0x10, 3, 900);
    card.put_slot(3, FOLDER, random.pick(&[0x10, 0x11]), 0, 0);
    card.slot_mut(4)[0] = 0xE5;
    put_broken(card, 5, random);
    put_file(card, 6, random);
    for byte in &mut card.slot_mut(6)[12..26] {
        *byte = random.byte();
    }
}

/// Empty files after the others, with long entries before them: proper, damaged or too many, as far as there is room. Those of
/// the first often begin in the first root sector and end in the second, with deleted slots before them.
fn put_long_names(card: &mut Card, random: &mut Random) {
    let mut first = FURNISHED;
    for name in [PANEL, b"KEEL    CUT"] {
        let count = random_count(random);
        if first + count < 16 && card.spec.root_entries > 16 && random.one_in(2) {
            let last = 15 - random.below(count);
            card.mark_deleted(first..last);
            first = last;
        }
        let slot = first + count;
        if random.one_in(4) || slot + 4 > usize::from(card.spec.root_entries) {
            continue;
        }
        card.put_slot(slot, name, 0x20, 0, 0);
        card.put_long_entries(slot, count);
        if random.one_in(3) {
            damage_long_entries(card, slot, random);
        }
        first = slot + 1;
    }
}

/// A file of a few clusters that were free, in any order, with any end value.
fn put_file(card: &mut Card, slot: usize, random: &mut Random) {
    let mut chain = reference::free_clusters(&card.bytes);
    for place in (1..chain.len()).rev() {
        chain.swap(place, random.below(place + 1));
    }
    chain.truncate(1 + random.below(4));
    let cluster_bytes = 512 * u32::from(card.spec.sectors_per_cluster);
    let size = chain.len() as u32 * cluster_bytes - random.below(cluster_bytes as usize) as u32;
    card.put_chain(&chain, 0xFFF8 + random.below(8) as u16);
    let first = chain.first().copied().unwrap_or(0);
    let attributes = random.pick(&[0x20, 0x00, 0x01, 0x27, 0xE0]);
    let size = if first == 0 { 0 } else { size };
    card.put_slot(slot, OTHER, attributes, first, size);
    for cluster in chain {
        let at = card.cluster(cluster) * 512;
        let bytes = random.bytes(cluster_bytes as usize);
        card.bytes[at..at + bytes.len()].copy_from_slice(&bytes);
    }
}

/// One of the ways to break the chain rule.
fn put_broken(card: &mut Card, slot: usize, random: &mut Random) {
    let past = card.clusters() as u16 + 2;
    let (first, size) = random.pick(&[
        (0, 1),
        (1, 1),
        (past, 1),
        (0xFFFF, 1),
        (3, 0),
        (3, u32::MAX),
        (card.spec.log_first, 1),
        (card.spec.log_first, 1 << 31),
    ]);
    card.put_slot(slot, BROKEN, random.pick(&[0x20, 0x20, 0x21]), first, size);
}

/// Fills the root directory but for a few slots, deleted ones or those at the end.
fn fill_root(card: &mut Card, random: &mut Random) {
    let entries = usize::from(card.spec.root_entries);
    let unused = (0..entries).find(|&slot| card.slot(slot)[0] == 0);
    card.fill_root(unused.unwrap_or(entries));
    for slot in entries - random.below(4)..entries {
        card.slot_mut(slot).fill(0);
    }
    for _ in 0..random.below(3) {
        let slot = FURNISHED + random.below(entries - 12);
        card.slot_mut(slot)[0] = 0xE5;
    }
}

/// The broken file's slot gets the first cluster of the file after it.
pub fn share_cluster(card: &mut Card) {
    let from = card.slot(6)[26..].to_vec();
    card.slot_mut(5)[26..].copy_from_slice(&from);
}

/// 65,524 clusters of one sector; every 3,000th is free.
pub fn largest_fragmented_card() -> Card {
    let mut card = Card::new(CardSpec {
        sectors_per_fat: 256,
        total_sectors: 1 + 512 + 32 + 65_524,
        use_32bit_total: true,
        ..CardSpec::K
    });
    for cluster in 10..65_526u32 {
        if cluster % 3_000 != 0 {
            card.set_fats(cluster as u16, 0xFFF7);
        }
    }
    card
}
