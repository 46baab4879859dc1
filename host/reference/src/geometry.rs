//! The boot sector and the layout that follows from it.

use crate::bytes::{get16, get32};
use crate::root::SLOTS_PER_SECTOR;
use crate::store::SECTOR_BYTES;

const FEWEST_CLUSTERS: u32 = 4_085;
const MOST_CLUSTERS: u32 = 65_524;
const MOST_SECTORS_PER_CLUSTER: u8 = 64;
pub const FAT_ENTRIES_PER_SECTOR: u32 = 256;

/// The numbers of an accepted boot sector. Sector numbers count from the start
/// of the card.
#[derive(Clone, Copy, Debug, PartialEq, Eq)]
pub struct Geometry {
    pub sectors_per_cluster: u32,
    pub reserved_sectors: u32,
    pub root_entries: u32,
    pub sectors_per_fat: u32,
    pub total_sectors: u32,
    /// Whole clusters in the data area.
    pub clusters: u32,
}

impl Geometry {
    /// Reads a boot sector of 512 bytes; `None` if it breaks a rule.
    pub fn parse(boot: &[u8]) -> Option<Geometry> {
        if !fields_are_accepted(boot) {
            return None;
        }
        let mut geometry = Geometry {
            sectors_per_cluster: u32::from(boot[13]),
            reserved_sectors: u32::from(get16(boot, 14)),
            root_entries: u32::from(get16(boot, 17)),
            sectors_per_fat: u32::from(get16(boot, 22)),
            total_sectors: total_sectors(boot),
            clusters: 0,
        };
        let data_sectors = geometry.total_sectors.checked_sub(geometry.data_start())?;
        geometry.clusters = data_sectors / geometry.sectors_per_cluster;
        geometry.clusters_are_accepted().then_some(geometry)
    }

    fn clusters_are_accepted(&self) -> bool {
        (FEWEST_CLUSTERS..=MOST_CLUSTERS).contains(&self.clusters)
            && self.sectors_per_fat * FAT_ENTRIES_PER_SECTOR >= self.clusters + 2
    }

    pub fn fat1_start(&self) -> u32 {
        self.reserved_sectors
    }

    pub fn fat2_start(&self) -> u32 {
        self.fat1_start() + self.sectors_per_fat
    }

    pub fn root_start(&self) -> u32 {
        self.fat2_start() + self.sectors_per_fat
    }

    pub fn root_sectors(&self) -> u32 {
        self.root_entries / SLOTS_PER_SECTOR as u32
    }

    pub fn data_start(&self) -> u32 {
        self.root_start() + self.root_sectors()
    }

    pub fn cluster_bytes(&self) -> u32 {
        self.sectors_per_cluster * SECTOR_BYTES as u32
    }

    /// The highest cluster number.
    pub fn last_cluster(&self) -> u16 {
        (self.clusters + 1) as u16
    }

    /// The first sector of a cluster.
    pub fn cluster_start(&self, cluster: u16) -> u32 {
        self.data_start() + (u32::from(cluster) - 2) * self.sectors_per_cluster
    }
}

/// The rules that need no calculation.
fn fields_are_accepted(boot: &[u8]) -> bool {
    let root_entries = usize::from(get16(boot, 17));
    get16(boot, 11) == SECTOR_BYTES as u16
        && boot[13].is_power_of_two()
        && boot[13] <= MOST_SECTORS_PER_CLUSTER
        && get16(boot, 14) >= 1
        && boot[16] == 2
        && root_entries != 0
        && root_entries.is_multiple_of(SLOTS_PER_SECTOR)
        && get16(boot, 22) != 0
        && boot[510..512] == [0x55, 0xAA]
}

/// The 16-bit total, or where that is 0, the 32-bit one.
fn total_sectors(boot: &[u8]) -> u32 {
    match get16(boot, 19) {
        0 => get32(boot, 32),
        total => u32::from(total),
    }
}
