//! Test cards: where their areas are, and changing their bytes by hand.

use crate::{random::Random, Name};
use reference::{card_k, CardSpec};
use std::ops::Range;

/// A card with the spec it was built from.
#[derive(Clone)]
pub struct Card {
    pub spec: CardSpec,
    pub bytes: Vec<u8>,
}

impl Card {
    pub fn new(spec: CardSpec) -> Self {
        let bytes = spec.build();
        Card { spec, bytes }
    }

    pub fn k() -> Self {
        Card {
            spec: CardSpec::K,
            bytes: card_k(),
        }
    }

    pub fn fat1(&self) -> usize {
        usize::from(self.spec.reserved)
    }

    pub fn fat2(&self) -> usize {
        self.fat1() + usize::from(self.spec.sectors_per_fat)
    }

    pub fn root(&self) -> usize {
        self.fat2() + usize::from(self.spec.sectors_per_fat)
    }

    pub fn data(&self) -> usize {
        self.root() + usize::from(self.spec.root_entries) / 16
    }

    pub fn cluster(&self, cluster: u16) -> usize {
        self.data() + (usize::from(cluster) - 2) * usize::from(self.spec.sectors_per_cluster)
    }

    /// The log's sectors.
    pub fn log(&self) -> Range<usize> {
        let first = self.cluster(self.spec.log_first);
        let per_cluster = usize::from(self.spec.sectors_per_cluster);
        first..first + usize::from(self.spec.log_clusters) * per_cluster
    }

    /// How many clusters the card has.
    pub fn clusters(&self) -> usize {
        let data = self.spec.total_sectors as usize - self.data();
        data / usize::from(self.spec.sectors_per_cluster)
    }

    /// Both FATs and the root directory.
    pub fn metadata(&self) -> &[u8] {
        &self.bytes[self.fat1() * 512..self.data() * 512]
    }

    pub fn fat1_entry(&self, cluster: u16) -> u16 {
        let at = self.fat1() * 512 + usize::from(cluster) * 2;
        u16::from_le_bytes([self.bytes[at], self.bytes[at + 1]])
    }

    /// Sets an entry in FAT1 only.
    pub fn set_fat1(&mut self, cluster: u16, value: u16) {
        let at = self.fat1() * 512 + usize::from(cluster) * 2;
        self.bytes[at..at + 2].copy_from_slice(&value.to_le_bytes());
    }

    /// Sets an entry in both FATs.
    pub fn set_fats(&mut self, cluster: u16, value: u16) {
        self.set_fat1(cluster, value);
        let at = self.fat2() * 512 + usize::from(cluster) * 2;
        self.bytes[at..at + 2].copy_from_slice(&value.to_le_bytes());
    }

    /// Marks all free clusters bad.
    pub fn fill(&mut self) {
        for cluster in 2..self.clusters() as u16 + 2 {
            if self.fat1_entry(cluster) == 0 {
                self.set_fats(cluster, 0xFFF7);
            }
        }
    }

    pub fn slot(&self, slot: usize) -> &[u8] {
        &self.bytes[self.root() * 512 + slot * 32..][..32]
    }

    pub fn slot_mut(&mut self, slot: usize) -> &mut [u8] {
        let at = self.root() * 512 + slot * 32;
        &mut self.bytes[at..at + 32]
    }

    /// The lowest slot that has the name.
    pub fn slot_named(&self, name: &[u8]) -> Option<usize> {
        let mut slots = 0..usize::from(self.spec.root_entries);
        slots.find(|&slot| self.slot(slot)[11] & 0x08 == 0 && self.slot(slot).starts_with(name))
    }

    pub fn size(&self, slot: usize) -> u32 {
        u32::from_le_bytes(self.slot(slot)[28..].try_into().unwrap())
    }

    pub fn first_cluster(&self, slot: usize) -> u16 {
        u16::from_le_bytes([self.slot(slot)[26], self.slot(slot)[27]])
    }

    /// Writes a root slot by hand.
    pub fn put_slot(&mut self, slot: usize, name: &Name, attributes: u8, first: u16, size: u32) {
        let bytes = self.slot_mut(slot);
        bytes[..11].copy_from_slice(name);
        bytes[11] = attributes;
        bytes[26..28].copy_from_slice(&first.to_le_bytes());
        bytes[28..].copy_from_slice(&size.to_le_bytes());
    }

    /// Sets or clears the read-only mark of a slot.
    pub fn mark_read_only(&mut self, slot: usize, is_marked: bool) {
        let attributes = &mut self.slot_mut(slot)[11];
        *attributes = *attributes & !0x01 | u8::from(is_marked);
    }

    /// Links the clusters in both FATs, with the given end value.
    pub fn put_chain(&mut self, chain: &[u16], end: u16) {
        for pair in chain.windows(2) {
            self.set_fats(pair[0], pair[1]);
        }
        if let Some(&last) = chain.last() {
            self.set_fats(last, end);
        }
    }

    /// Fills all slots from the given one with small files of their own names.
    pub fn fill_root(&mut self, from: usize) {
        for slot in from..usize::from(self.spec.root_entries) {
            let name: Name = format!("F{slot:07}   ").as_bytes().try_into().unwrap();
            self.put_slot(slot, &name, 0x20, 0, 0);
        }
    }

    /// The log sector with the given number, counted from the log's start.
    pub fn log_sector_mut(&mut self, index: usize) -> &mut [u8] {
        let at = (self.log().start + index) * 512;
        &mut self.bytes[at..at + 512]
    }
}

/// A small card with few free clusters, strewn over the FAT, and a short log,
/// so that fragments, full cards and full logs come up often.
pub fn random_card(random: &mut Random) -> Card {
    let sectors_per_cluster = random.pick(&[1u8, 1, 2, 4]);
    let root_entries = random.pick(&[16u16, 32, 48, 64]);
    let clusters = 4_085 + random.below(8) as u32;
    let reserved = 1 + random.below(3) as u16;
    let odd_sectors = random.below(usize::from(sectors_per_cluster)) as u32;
    let log_first = 2 + random.below(4_080) as u16;
    let spec = CardSpec {
        reserved,
        sectors_per_cluster,
        sectors_per_fat: 16 + random.below(2) as u16,
        root_entries,
        total_sectors: 0,
        log_first,
        log_clusters: 1 + random.below(3) as u16,
        use_32bit_total: random.one_in(2),
    };
    let data = u32::from(reserved + 2 * spec.sectors_per_fat + root_entries / 16);
    let total_sectors = data + clusters * u32::from(sectors_per_cluster) + odd_sectors;
    let mut card = Card::new(CardSpec {
        total_sectors,
        ..spec
    });
    leave_few_free(&mut card, random);
    card
}

fn leave_few_free(card: &mut Card, random: &mut Random) {
    let sparseness = random.pick(&[20, 60, 300]);
    for cluster in 2..card.clusters() as u16 + 2 {
        let is_log = card.fat1_entry(cluster) == 0xFFF6;
        if !is_log && !random.one_in(sparseness) {
            card.set_fats(cluster, 0xFFF7);
        }
    }
}
