//! The areas of a card whose boot sector and window were accepted.

use crate::answer::Ground;
use crate::fat::Fat;
use crate::geometry::Geometry;
use crate::store::{Store, SECTOR_BYTES};

/// A card with its layout. Bytes past the total sectors are cut off.
#[derive(Clone, Copy)]
pub struct Volume<'a> {
    card: &'a [u8],
    pub geometry: Geometry,
}

impl<'a> Volume<'a> {
    /// Grounds 1 to 3: SHORT, BOOT, WINDOW.
    pub fn open(window: &'a [u8]) -> Result<Self, Ground> {
        let boot = window.get(..SECTOR_BYTES).ok_or(Ground::Short)?;
        let geometry = Geometry::parse(boot).ok_or(Ground::Boot)?;
        let bytes = u64::from(geometry.total_sectors) * SECTOR_BYTES as u64;
        let card = usize::try_from(bytes)
            .ok()
            .and_then(|bytes| window.get(..bytes))
            .ok_or(Ground::Window)?;
        Ok(Volume { card, geometry })
    }

    /// The bytes of a run of sectors.
    pub fn sectors(&self, first: u32, count: u32) -> &'a [u8] {
        let first = first as usize * SECTOR_BYTES;
        &self.card[first..first + count as usize * SECTOR_BYTES]
    }

    pub fn fat1(&self) -> Fat<'a> {
        self.fat(self.geometry.fat1_start())
    }

    pub fn fat2(&self) -> Fat<'a> {
        self.fat(self.geometry.fat2_start())
    }

    fn fat(&self, start: u32) -> Fat<'a> {
        let bytes = self.sectors(start, self.geometry.sectors_per_fat);
        Fat::new(bytes, self.geometry.last_cluster())
    }

    pub fn root(&self) -> &'a [u8] {
        self.sectors(self.geometry.root_start(), self.geometry.root_sectors())
    }

    pub fn cluster(&self, cluster: u16) -> &'a [u8] {
        let start = self.geometry.cluster_start(cluster);
        self.sectors(start, self.geometry.sectors_per_cluster)
    }

    /// A store that would leave the sector as it stands, to be edited.
    pub fn draft(&self, sector: u32) -> Store {
        Store::copy(sector as usize, self.sectors(sector, 1))
    }
}
