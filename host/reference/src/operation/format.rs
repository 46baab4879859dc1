//! Format: an empty card of one form, whatever the window held.

use crate::answer::Ground;
use crate::builder::CardSpec;
use crate::bytes::put16;
use crate::fat::END;
use crate::geometry::{Geometry, FAT_ENTRIES_PER_SECTOR};
use crate::journal::MOST_LOG_SECTORS;
use crate::program::{Extent, Program, Segment};
use crate::store::{Sector, Store, SECTOR_BYTES};
use std::borrow::Cow;

const JUMP: [u8; 3] = [0xEB, 0x3C, 0x90];
const MEDIA: u8 = 0xF8;
/// FAT entry 0: the media byte with all higher bits set.
const MEDIA_ENTRY: u16 = 0xFFF8;

/// The card that a format makes.
pub struct FreshCard {
    spec: CardSpec,
    geometry: Geometry,
}

/// Ground 19, SIZE, then 3, WINDOW.
pub fn plan(
    window: &[u8],
    total: u32,
    per_cluster: u32,
    log_clusters: u32,
) -> Result<FreshCard, Ground> {
    let fresh = FreshCard::of(total, per_cluster, log_clusters).ok_or(Ground::Size)?;
    if window.len() / SECTOR_BYTES < total as usize {
        return Err(Ground::Window);
    }
    Ok(fresh)
}

impl FreshCard {
    /// The one card with these numbers, `None` if BOOT or LOGAREA would refuse it.
    fn of(total: u32, per_cluster: u32, log_clusters: u32) -> Option<FreshCard> {
        let log_sectors = u64::from(log_clusters) * u64::from(per_cluster);
        if !(1..=u64::from(MOST_LOG_SECTORS)).contains(&log_sectors) {
            return None;
        }
        let mut spec = CardSpec {
            reserved: 1,
            sectors_per_cluster: u8::try_from(per_cluster).ok()?,
            sectors_per_fat: 0,
            root_entries: 512,
            total_sectors: total,
            log_first: 2,
            log_clusters: u16::try_from(log_clusters).ok()?,
            use_32bit_total: total >= 1 << 16,
        };
        spec.sectors_per_fat = fewest_fat_sectors(&spec)?;
        let geometry = Geometry::parse(&boot_sector(&spec))?;
        Some(FreshCard { spec, geometry })
    }

    /// All stores but those of the boot sector: both FATs, the root directory and the log.
    fn tables(&self) -> Extent<'static> {
        let Geometry {
            sectors_per_cluster,
            sectors_per_fat,
            ..
        } = self.geometry;
        let first = self.geometry.fat1_start() as usize;
        let log = u32::from(self.spec.log_clusters) * sectors_per_cluster;
        let end = (self.geometry.data_start() + log) as usize;
        let mut bytes = vec![0; (end - first) * SECTOR_BYTES];
        let fats = bytes.chunks_exact_mut(sectors_per_fat as usize * SECTOR_BYTES);
        for fat in fats.take(2) {
            put16(fat, 0, MEDIA_ENTRY);
            put16(fat, 2, END);
            self.spec.mark_log(fat);
        }
        Extent {
            first,
            bytes: Cow::Owned(bytes),
        }
    }

    /// The stores in segments: both of the boot sector, the zero one and the true one, are barriers.
    pub fn program(&self) -> Program<'static> {
        let boot = |bytes| Some(Store { sector: 0, bytes });
        let refused = Segment::new([], boot([0; SECTOR_BYTES]));
        let written = Segment {
            stores: vec![self.tables()],
            barrier: boot(boot_sector(&self.spec)),
        };
        Program {
            segments: vec![refused, written],
        }
    }

    /// The same list.
    pub fn stores(&self) -> Vec<Store> {
        let program = self.program();
        let stores = program.sectors();
        stores
            .map(|(sector, bytes)| Store::copy(sector, bytes))
            .collect()
    }
}

/// The fewest sectors of a FAT that hold two entries more than the clusters which two such FATs
/// leave.
fn fewest_fat_sectors(spec: &CardSpec) -> Option<u16> {
    let total = u64::from(spec.total_sectors);
    let per_cluster = u64::from(spec.sectors_per_cluster);
    let holds_all = |sectors: &u16| {
        let fat = u64::from(*sectors);
        let tables = u64::from(spec.reserved) + 2 * fat + u64::from(spec.root_entries) / 16;
        let clusters = total.saturating_sub(tables) / per_cluster;
        fat * u64::from(FAT_ENTRIES_PER_SECTOR) >= clusters + 2
    };
    (1..=u16::MAX).find(holds_all)
}

/// The builder's boot sector with a jump and a media byte.
fn boot_sector(spec: &CardSpec) -> Sector {
    let mut boot = spec.boot_sector();
    boot[..3].copy_from_slice(&JUMP);
    boot[21] = MEDIA;
    boot
}
