//! A fresh card by hand: what a format of three numbers has to leave. Written apart from the library and from the reference.

use crate::call::Call;
use crate::cards::Card;
use crate::random::Random;
use crate::{AT, PANEL, ROUTE};
use reference::{CardSpec, Operation};

/// What a format is given.
#[derive(Clone, Copy, Debug, PartialEq, Eq, PartialOrd, Ord)]
pub struct Fresh {
    pub total: u32,
    pub per_cluster: u32,
    pub log_clusters: u32,
}

pub const fn fresh(total: u32, per_cluster: u32, log_clusters: u32) -> Fresh {
    Fresh {
        total,
        per_cluster,
        log_clusters,
    }
}

/// The numbers of card K.
pub const FRESH_K: Fresh = fresh(4_150, 1, 8);

pub const CLUSTER_SIZES: [u32; 7] = [1, 2, 4, 8, 16, 32, 64];

/// Sectors per cluster that no card has, some of them right in the lowest byte.
pub const WRONG_SIZES: [u32; 14] = [
    0,
    3,
    5,
    63,
    65,
    96,
    127,
    128,
    255,
    256,
    257,
    320,
    1 << 16,
    u32::MAX,
];

impl Fresh {
    pub fn call(self) -> Call {
        Call::Format(self.total, self.per_cluster, self.log_clusters)
    }

    pub fn operation(self) -> Operation<'static> {
        Operation::Format {
            total: self.total,
            per_cluster: self.per_cluster,
            log_clusters: self.log_clusters,
        }
    }

    /// The sectors after the boot sector and less the 32 of the root directory: both FATs and the data.
    fn rest(self) -> u64 {
        u64::from(self.total).saturating_sub(33)
    }

    /// The sectors of one FAT. So many are too few as long as their 256 entries each, less 2, are fewer than the clusters that they
    /// leave, which is to say: as long as f x (256 clusters and 2 sectors) is not more than the rest and one cluster.
    pub fn fat_sectors(self) -> u64 {
        let cluster = u64::from(self.per_cluster);
        (self.rest() + cluster) / (256 * cluster + 2) + 1
    }

    pub fn clusters(self) -> u64 {
        self.rest().saturating_sub(2 * self.fat_sectors()) / u64::from(self.per_cluster)
    }

    pub fn log_sectors(self) -> u64 {
        u64::from(self.log_clusters) * u64::from(self.per_cluster)
    }

    /// Whether there is a card with these numbers; otherwise they are refused as SIZE.
    pub fn is_card(self) -> bool {
        CLUSTER_SIZES.contains(&self.per_cluster)
            && (4_085..=65_524).contains(&self.clusters())
            && (1..=128).contains(&self.log_sectors())
    }

    /// The first sector that is not stored.
    pub fn end(self) -> usize {
        (1 + 2 * self.fat_sectors() + 32 + self.log_sectors()) as usize
    }

    /// The stores: all sectors up to there, and the boot sector once more.
    pub fn stores(self) -> u32 {
        self.end() as u32 + 1
    }

    /// The sectors in the order of their stores.
    pub fn sectors(self) -> Vec<usize> {
        (0..self.end()).chain([0]).collect()
    }

    pub fn window(self) -> usize {
        self.total as usize * 512
    }

    /// The true boot sector.
    pub fn boot(self) -> [u8; 512] {
        let mut boot = [0; 512];
        let fat = (self.fat_sectors() as u16).to_le_bytes();
        let total = self.total.to_le_bytes();
        boot[..3].copy_from_slice(&[0xEB, 0x3C, 0x90]);
        boot[11..19].copy_from_slice(&[0, 2, self.per_cluster as u8, 1, 0, 2, 0, 2]);
        match self.total {
            0..=65_535 => boot[19..21].copy_from_slice(&total[..2]),
            _ => boot[32..36].copy_from_slice(&total),
        }
        boot[21] = 0xF8;
        boot[22..24].copy_from_slice(&fat);
        boot[510..].copy_from_slice(&[0x55, 0xAA]);
        boot
    }

    /// All that has been stored when the format is done: the sectors up to the end of the log.
    pub fn front(self) -> Vec<u8> {
        let fat_bytes = 512 * self.fat_sectors() as usize;
        let mut front = vec![0; 512 * self.end()];
        front[..512].copy_from_slice(&self.boot());
        for fat in [512, 512 + fat_bytes] {
            front[fat..fat + 4].copy_from_slice(&[0xF8, 0xFF, 0xFF, 0xFF]);
            for entry in front[fat + 4..]
                .chunks_mut(2)
                .take(self.log_clusters as usize)
            {
                entry.copy_from_slice(&[0xF6, 0xFF]);
            }
        }
        front
    }

    /// Where the areas of the card are.
    pub fn spec(self) -> CardSpec {
        CardSpec {
            reserved: 1,
            sectors_per_cluster: self.per_cluster as u8,
            sectors_per_fat: self.fat_sectors() as u16,
            root_entries: 512,
            total_sectors: self.total,
            log_first: 2,
            log_clusters: self.log_clusters as u16,
            use_32bit_total: self.total > 65_535,
        }
    }

    /// The card in a window that holds these bytes, not yet formatted.
    pub fn in_window(self, bytes: Vec<u8>) -> Card {
        let spec = self.spec();
        Card { spec, bytes }
    }
}

/// All calls but format, each of which a clean card with ROUTE.CUT would grant.
pub fn other_calls() -> [Call; 12] {
    let route = || ROUTE.to_vec();
    [
        Call::Create(PANEL.to_vec(), AT),
        Call::CreateLong(PANEL.to_vec(), b"p\0".to_vec(), AT),
        Call::Append(route(), vec![1; 600], AT),
        Call::Replace(route(), vec![1; 600], AT),
        Call::Truncate(route(), 100, AT),
        Call::Delete(route()),
        Call::Rename(route(), PANEL.to_vec()),
        Call::Recover,
        Call::Read(route(), 0, 64),
        Call::List(64),
        Call::Fits(1),
        Call::LongName(route(), 64),
    ]
}

/// The totals next to the borders of a cluster size: the fewest and the most clusters, where a FAT needs another sector, and where
/// the total needs another field.
pub fn border_totals(per_cluster: u32) -> Vec<u32> {
    let with_fat = |sectors: u32, clusters: u32| 33 + 2 * sectors + clusters * per_cluster;
    let one_more = [16, 17, 18, 128, 254, 255].map(|sectors| with_fat(sectors, 256 * sectors - 1));
    let ends = [with_fat(16, 4_085), with_fat(256, 65_525), 65_536];
    let borders = one_more.into_iter().chain(ends);
    borders
        .flat_map(|border| {
            [border - per_cluster, border + per_cluster]
                .into_iter()
                .chain(border - 3..border + 3)
        })
        .collect()
}

/// Numbers that make a card about as often as not.
pub fn random_fresh(random: &mut Random) -> Fresh {
    let per_cluster = match random.below(8) {
        0 => random.pick(&WRONG_SIZES),
        _ => random.pick(&CLUSTER_SIZES),
    };
    let total = match random.below(6) {
        0 => random.next() as u32,
        1 => random.below(70_000) as u32,
        2 | 3 => random.pick(&border_totals(per_cluster.clamp(1, 64))),
        _ => 4_150 + random.below(61_000 * per_cluster.clamp(1, 64) as usize) as u32,
    };
    let most = 128 / per_cluster.clamp(1, 64);
    let log_clusters = match random.below(8) {
        0 => random.pick(&[0, most + 1, 129, 1 << 16, 1 << 26, 1 << 31, u32::MAX]),
        1 => most,
        _ => 1 + random.below(most as usize) as u32,
    };
    fresh(total, per_cluster, log_clusters)
}
