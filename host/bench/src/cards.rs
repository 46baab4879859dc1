//! Cards to measure on.

use reference::CardSpec;
use testkit::long_names::{checksum, long_entry};

pub const NAME: &[u8; 11] = b"ROUTE   CUT";
/// Sectors of the log.
pub const LOG_SECTORS: usize = 64;
const ROOT_ENTRIES: usize = 512;

/// The smallest and the largest cards.
pub const SHAPES: [Shape; 4] = [
    Shape::new(4_085, 1),
    Shape::new(4_085, 64),
    Shape::new(65_524, 1),
    Shape::new(65_524, 64),
];

/// The lengths of paths.
pub const SIZES: [(usize, &str); 3] = [(4_096, "4 KiB"), (65_536, "64 KiB"), (1_048_576, "1 MiB")];

/// How large a card is.
#[derive(Clone, Copy)]
pub struct Shape {
    pub clusters: u32,
    pub sectors_per_cluster: u8,
}

/// Where files and free clusters lie.
#[derive(Clone, Copy, PartialEq)]
pub enum Layout {
    /// In consecutive clusters.
    OnePiece,
    /// Spread over the whole card; files in mixed order.
    Scattered,
}

pub const LAYOUTS: [(Layout, &str); 2] = [
    (Layout::OnePiece, "one piece"),
    (Layout::Scattered, "scattered"),
];

pub struct Card {
    shape: Shape,
    pub bytes: Vec<u8>,
}

impl Card {
    pub fn empty(shape: Shape) -> Card {
        let log_clusters = LOG_SECTORS as u16 / u16::from(shape.sectors_per_cluster);
        let spec = CardSpec {
            sectors_per_cluster: shape.sectors_per_cluster,
            sectors_per_fat: shape.fat_sectors() as u16,
            total_sectors: shape.data() as u32
                + shape.clusters * u32::from(shape.sectors_per_cluster),
            root_entries: ROOT_ENTRIES as u16,
            log_clusters,
            use_32bit_total: true,
            ..CardSpec::K
        };
        Card {
            bytes: spec.build(),
            shape,
        }
    }

    /// A card with one file.
    pub fn with_file(shape: Shape, layout: Layout, size: usize) -> Card {
        let mut card = Card::empty(shape);
        let chain = match layout {
            Layout::OnePiece => {
                let first = card.first_free();
                (first..first + shape.clusters_of(size)).collect()
            }
            Layout::Scattered => mixed(card.spread(shape.clusters_of(size))),
        };
        card.put_file(&chain, size);
        card
    }

    /// A card with a file of 4 KiB and the most long entries before it, in three root sectors; small files stand before them.
    pub fn with_long_name(shape: Shape) -> Card {
        let mut card = Card::with_file(shape, Layout::OnePiece, 4_096);
        let root = shape.root() * 512;
        let slots = &mut card.bytes[root..root + 36 * 32];
        slots.copy_within(..32, 35 * 32);
        for (slot, bytes) in slots.chunks_exact_mut(32).enumerate().take(35) {
            match slot {
                ..15 => bytes[..11].copy_from_slice(format!("F{slot:07}CUT").as_bytes()),
                _ => bytes.copy_from_slice(&long_entry(35 - slot, slot == 15, checksum(NAME))),
            }
        }
        slots[26..32].fill(0);
        card
    }

    /// A card with a long name before every file, of three entries, up to the last sectors of the root directory: a run of 17 free
    /// slots is there and no lower one.
    pub fn with_long_names(shape: Shape) -> Card {
        let mut card = Card::empty(shape);
        let root = shape.root() * 512;
        let slots = &mut card.bytes[root..root + (ROOT_ENTRIES - 20) * 32];
        for (file, slots) in slots.chunks_exact_mut(4 * 32).enumerate() {
            let name = format!("F{file:07}CUT");
            let sum = checksum(name.as_bytes());
            for (number, bytes) in (1..=3).rev().zip(slots.chunks_exact_mut(32)) {
                bytes.copy_from_slice(&long_entry(number, number == 3, sum));
            }
            slots[3 * 32..][..11].copy_from_slice(name.as_bytes());
        }
        card
    }

    /// A card with an empty file and room for so many bytes.
    pub fn with_room(shape: Shape, layout: Layout, size: usize) -> Card {
        let mut card = Card::with_file(shape, layout, 0);
        if layout == Layout::Scattered {
            let free = card.spread(shape.clusters_of(size));
            for cluster in card.first_free()..shape.clusters as usize + 2 {
                card.set(cluster, 0xFFF7);
            }
            for cluster in free {
                card.set(cluster, 0);
            }
        }
        card
    }

    /// A card with a file of so many bytes and room for as many beside it. Where there is less room, the file is shorter.
    pub fn with_file_and_room(shape: Shape, layout: Layout, size: usize) -> Card {
        let mut card = Card::empty(shape);
        let first = card.first_free();
        let last = shape.clusters as usize + 2;
        let new = shape.clusters_of(size);
        let old = new.min(last - first - new);
        let mut chain: Vec<usize> = (first..first + old).collect();
        if layout == Layout::Scattered {
            let both = card.spread(old + new);
            let is_old = |index: usize| index.is_multiple_of(2) && index / 2 < old;
            (first..last).for_each(|cluster| card.set(cluster, 0xFFF7));
            chain.clear();
            for (index, cluster) in both.into_iter().enumerate() {
                card.set(cluster, 0);
                chain.extend(is_old(index).then_some(cluster));
            }
            chain = mixed(chain);
        }
        card.put_file(&chain, size.min(old * shape.cluster_bytes()));
        card
    }

    /// A card on which only the last cluster is free.
    pub fn with_last_cluster(shape: Shape) -> Card {
        let mut card = Card::empty(shape);
        for cluster in card.first_free()..shape.clusters as usize + 1 {
            card.set(cluster, 0xFFF7);
        }
        card
    }

    /// A card whose root directory is full of empty files.
    pub fn with_full_root(shape: Shape) -> Card {
        let mut card = Card::empty(shape);
        for slot in 0..ROOT_ENTRIES {
            let name = format!("F{slot:07}CUT");
            let at = shape.root() * 512 + slot * 32;
            card.bytes[at..at + 11].copy_from_slice(name.as_bytes());
        }
        card
    }

    fn put_file(&mut self, chain: &[usize], size: usize) {
        let cluster_bytes = self.shape.cluster_bytes();
        for (index, &cluster) in chain.iter().enumerate() {
            let next = chain.get(index + 1).map_or(0xFFFF, |&next| next as u16);
            self.set(cluster, next);
            let at = 512 * self.shape.data() + (cluster - 2) * cluster_bytes;
            self.bytes[at..at + cluster_bytes].fill(cluster as u8);
        }
        let first = chain.first().map_or(0, |&first| first as u16);
        let slot = &mut self.bytes[self.shape.root() * 512..][..32];
        slot[..11].copy_from_slice(NAME);
        slot[26..28].copy_from_slice(&first.to_le_bytes());
        slot[28..].copy_from_slice(&(size as u32).to_le_bytes());
    }

    fn set(&mut self, cluster: usize, value: u16) {
        let fat_bytes = 512 * self.shape.fat_sectors();
        for fat in [512, 512 + fat_bytes] {
            self.bytes[fat + 2 * cluster..][..2].copy_from_slice(&value.to_le_bytes());
        }
    }

    /// The lowest cluster after the log.
    fn first_free(&self) -> usize {
        2 + LOG_SECTORS / usize::from(self.shape.sectors_per_cluster)
    }

    /// The size of a file in all clusters but those of the log.
    pub fn largest_file(shape: Shape) -> usize {
        let log_clusters = LOG_SECTORS / usize::from(shape.sectors_per_cluster);
        shape.cluster_bytes() * (shape.clusters as usize - log_clusters)
    }

    /// Where the bytes of that cluster begin.
    pub fn first_data(&self) -> usize {
        512 * (self.shape.data() + LOG_SECTORS)
    }

    /// So many clusters, evenly over the card.
    fn spread(&self, count: usize) -> Vec<usize> {
        let first = self.first_free();
        let room = self.shape.clusters as usize + 2 - first;
        (0..count)
            .map(|index| first + index * room / count)
            .collect()
    }

    pub fn fats(&self) -> (&[u8], &[u8]) {
        let bytes = 512 * self.shape.fat_sectors();
        self.bytes[512..512 + 2 * bytes].split_at(bytes)
    }
}

impl Shape {
    pub const fn new(clusters: u32, sectors_per_cluster: u8) -> Shape {
        Shape {
            clusters,
            sectors_per_cluster,
        }
    }

    pub fn fat_sectors(self) -> usize {
        (self.clusters as usize + 2).div_ceil(256)
    }

    /// The first sector of the root directory.
    pub fn root(self) -> usize {
        1 + 2 * self.fat_sectors()
    }

    /// The first sector of the data, where the log is too.
    pub fn data(self) -> usize {
        self.root() + ROOT_ENTRIES / 16
    }

    fn cluster_bytes(self) -> usize {
        512 * usize::from(self.sectors_per_cluster)
    }

    fn clusters_of(self, size: usize) -> usize {
        size.div_ceil(self.cluster_bytes())
    }
}

/// The same clusters in another order. The step is a prime that does not divide their number, so it meets each once.
fn mixed(clusters: Vec<usize>) -> Vec<usize> {
    let count = clusters.len();
    assert!(count == 0 || count % 7_919 != 0);
    (0..count)
        .map(|index| clusters[index * 7_919 % count])
        .collect()
}
