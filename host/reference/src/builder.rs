//! Building empty cards for tests and benchmarks. Format takes the boot sector's fields and the
//! log's marks from here.

use crate::bytes::{put16, put32};
use crate::fat::RESERVED;
use crate::store::{Sector, SECTOR_BYTES};

/// The layout of an empty card. Nothing is checked, so that cards which break a
/// rule can be built too.
#[derive(Clone, Copy, Debug, PartialEq, Eq)]
pub struct CardSpec {
    pub reserved: u16,
    pub sectors_per_cluster: u8,
    pub sectors_per_fat: u16,
    pub root_entries: u16,
    pub total_sectors: u32,
    pub log_first: u16,
    pub log_clusters: u16,
    /// Puts the total into the 32-bit field and 0 into the 16-bit one.
    pub use_32bit_total: bool,
}

impl CardSpec {
    /// Card K of the requirements.
    pub const K: CardSpec = CardSpec {
        reserved: 1,
        sectors_per_cluster: 1,
        sectors_per_fat: 16,
        root_entries: 512,
        total_sectors: 4_150,
        log_first: 2,
        log_clusters: 8,
        use_32bit_total: false,
    };

    /// The boot sector.
    ///
    /// # Panics
    /// If the total does not fit the 16-bit field that was asked for.
    pub fn boot_sector(&self) -> Sector {
        let mut boot = [0; SECTOR_BYTES];
        put16(&mut boot, 11, SECTOR_BYTES as u16);
        boot[13] = self.sectors_per_cluster;
        put16(&mut boot, 14, self.reserved);
        boot[16] = 2;
        put16(&mut boot, 17, self.root_entries);
        if self.use_32bit_total {
            put32(&mut boot, 32, self.total_sectors);
        } else {
            let total = u16::try_from(self.total_sectors).expect("total needs 32 bits");
            put16(&mut boot, 19, total);
        }
        put16(&mut boot, 22, self.sectors_per_fat);
        boot[510..].copy_from_slice(&[0x55, 0xAA]);
        boot
    }

    /// The whole card: boot sector, log marks in both FATs, zeros elsewhere.
    ///
    /// # Panics
    /// If the card is too short for its FATs.
    pub fn build(&self) -> Vec<u8> {
        let mut card = vec![0; self.total_sectors as usize * SECTOR_BYTES];
        card[..SECTOR_BYTES].copy_from_slice(&self.boot_sector());
        let fat1 = usize::from(self.reserved) * SECTOR_BYTES;
        let fat2 = fat1 + usize::from(self.sectors_per_fat) * SECTOR_BYTES;
        self.mark_log(&mut card[fat1..]);
        self.mark_log(&mut card[fat2..]);
        card
    }

    /// Marks the log's clusters in a FAT.
    pub(crate) fn mark_log(&self, fat: &mut [u8]) {
        for cluster in self.log_first..self.log_first + self.log_clusters {
            put16(fat, usize::from(cluster) * 2, RESERVED);
        }
    }
}

/// Card K of the requirements.
pub fn card_k() -> Vec<u8> {
    CardSpec::K.build()
}
