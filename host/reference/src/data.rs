//! The data sectors that get new bytes.

use crate::program::Extent;
use crate::store::SECTOR_BYTES;
use crate::volume::Volume;
use std::borrow::Cow;

/// The sectors that get the data if a file's bytes from the offset on are these, by rising file offset. `chain` has all clusters
/// of the file, new ones too. A sector that keeps bytes before the offset and one that is filled up with zeros are copied.
pub fn extents<'d>(
    volume: &Volume,
    chain: &[u16],
    offset: usize,
    data: &'d [u8],
) -> Vec<Extent<'d>> {
    let kept = offset % SECTOR_BYTES;
    let to_edge = (SECTOR_BYTES - kept) % SECTOR_BYTES;
    let (head, tail) = data.split_at(data.len().min(to_edge));
    let (whole, last) = tail.split_at(tail.len() - tail.len() % SECTOR_BYTES);

    let mut extents = Vec::new();
    let mut at = offset / SECTOR_BYTES;
    if !head.is_empty() {
        let mut shared = volume.draft(sector_of(volume, chain, at));
        shared.bytes[kept..kept + head.len()].copy_from_slice(head);
        shared.bytes[kept + head.len()..].fill(0);
        extents.push(Extent {
            first: shared.sector,
            bytes: Cow::Owned(shared.bytes.to_vec()),
        });
        at += 1;
    }
    extents.extend(whole_sectors(volume, chain, at, whole));
    at += whole.len() / SECTOR_BYTES;
    if !last.is_empty() {
        let mut bytes = last.to_vec();
        bytes.resize(SECTOR_BYTES, 0);
        extents.push(Extent {
            first: sector_of(volume, chain, at) as usize,
            bytes: Cow::Owned(bytes),
        });
    }
    extents
}

/// Whole sectors of data from a sector of the file on; neighbouring clusters share
/// an extent.
fn whole_sectors<'d>(
    volume: &Volume,
    chain: &[u16],
    first: usize,
    mut data: &'d [u8],
) -> Vec<Extent<'d>> {
    let per_cluster = volume.geometry.sectors_per_cluster as usize;
    let mut extents = Vec::new();
    let mut at = first;
    while !data.is_empty() {
        let start = sector_of(volume, chain, at) as usize;
        let wanted = data.len() / SECTOR_BYTES;
        let mut count = per_cluster - at % per_cluster;
        while count < wanted && sector_of(volume, chain, at + count) as usize == start + count {
            count += per_cluster;
        }
        let (piece, rest) = data.split_at(count.min(wanted) * SECTOR_BYTES);
        extents.push(Extent {
            first: start,
            bytes: Cow::Borrowed(piece),
        });
        at += count;
        data = rest;
    }
    extents
}

/// The card's sector for a sector of the file.
fn sector_of(volume: &Volume, chain: &[u16], file_sector: usize) -> u32 {
    let per_cluster = volume.geometry.sectors_per_cluster as usize;
    let cluster = chain[file_sector / per_cluster];
    volume.geometry.cluster_start(cluster) + (file_sector % per_cluster) as u32
}
