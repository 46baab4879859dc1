//! The layout that a boot sector gives: where the areas of a card are, in sectors.

use std::ops::Range;

/// The bytes of a sector.
pub const SECTOR: usize = 512;

/// The fewest and the most clusters of a FAT16 card.
pub const CLUSTERS: Range<usize> = 4_085..65_525;

/// The numbers of a boot sector that keeps the rules.
#[derive(Clone, Copy, Debug, PartialEq, Eq)]
pub struct Layout {
    /// A power of two, at most 64.
    pub sectors_per_cluster: usize,
    /// Sectors before FAT1, the boot sector too.
    pub reserved: usize,
    /// Slots of the root directory.
    pub root_entries: usize,
    /// Sectors of each FAT.
    pub sectors_per_fat: usize,
    /// Sectors of the card.
    pub total_sectors: usize,
    /// Whole clusters of the data.
    pub clusters: usize,
}

/// A little-endian number of 2 bytes.
pub fn get16(bytes: &[u8], at: usize) -> usize {
    usize::from(u16::from_le_bytes([bytes[at], bytes[at + 1]]))
}

/// A little-endian number of 4 bytes.
pub fn get32(bytes: &[u8], at: usize) -> usize {
    get16(bytes, at) | get16(bytes, at + 2) << 16
}

impl Layout {
    /// Reads a boot sector; `None` if it breaks a rule.
    pub fn parse(boot: &[u8]) -> Option<Layout> {
        let boot = boot.get(..SECTOR)?;
        let total_sectors = match get16(boot, 19) {
            0 => get32(boot, 32),
            total => total,
        };
        let mut layout = Layout {
            sectors_per_cluster: usize::from(boot[13]),
            reserved: get16(boot, 14),
            root_entries: get16(boot, 17),
            sectors_per_fat: get16(boot, 22),
            total_sectors,
            clusters: 0,
        };
        let fields = get16(boot, 11) == SECTOR
            && boot[16] == 2
            && boot[510..] == [0x55, 0xAA]
            && layout.fields_are_accepted();
        if !fields {
            return None;
        }
        let data = total_sectors.checked_sub(layout.data_start())?;
        layout.clusters = data / layout.sectors_per_cluster;
        let fat_entries = layout.sectors_per_fat * SECTOR / 2;
        (CLUSTERS.contains(&layout.clusters) && fat_entries >= layout.clusters + 2)
            .then_some(layout)
    }

    fn fields_are_accepted(&self) -> bool {
        self.sectors_per_cluster.is_power_of_two()
            && self.sectors_per_cluster <= 64
            && self.reserved > 0
            && self.root_entries > 0
            && self.root_entries.is_multiple_of(16)
            && self.sectors_per_fat > 0
    }

    /// The sectors of FAT1.
    pub fn fat1(&self) -> Range<usize> {
        self.reserved..self.reserved + self.sectors_per_fat
    }

    /// The sectors of FAT2.
    pub fn fat2(&self) -> Range<usize> {
        let start = self.fat1().end;
        start..start + self.sectors_per_fat
    }

    /// The sectors of the root directory.
    pub fn root(&self) -> Range<usize> {
        let start = self.fat2().end;
        start..start + self.root_entries / 16
    }

    /// The first sector of the data.
    pub fn data_start(&self) -> usize {
        self.root().end
    }

    /// The sectors of a cluster.
    pub fn cluster(&self, cluster: usize) -> Range<usize> {
        let start = self.data_start() + (cluster - 2) * self.sectors_per_cluster;
        start..start + self.sectors_per_cluster
    }

    /// Whether there is a cluster of that number.
    pub fn is_cluster(&self, number: usize) -> bool {
        (2..self.clusters + 2).contains(&number)
    }

    /// The bytes of a cluster.
    pub fn cluster_bytes(&self) -> usize {
        self.sectors_per_cluster * SECTOR
    }
}

/// The bytes of a run of sectors.
pub fn bytes(sectors: &Range<usize>) -> Range<usize> {
    sectors.start * SECTOR..sectors.end * SECTOR
}
