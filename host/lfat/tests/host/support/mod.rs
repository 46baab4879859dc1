//! What the tests share.

pub mod c;
pub mod cli;
pub mod clock;
pub mod long;
pub mod ram;

pub use testkit::random;

use reference::{card_k, CardSpec};
use testkit::AT;

pub const ALL: u32 = u32::MAX;
pub const ROUTE: &[u8; 11] = b"ROUTE   CUT";
pub const PANEL: &[u8; 11] = b"PANEL   CUT";

/// Card K with the file ROUTE.CUT of so many bytes.
pub fn card_with_route(length: usize) -> Vec<u8> {
    let mut card = card_k();
    reference::create(&mut card, ROUTE, AT, ALL);
    reference::append(&mut card, ROUTE, &points(length), AT, ALL);
    card
}

/// A path: lines of points, cut off at a length.
pub fn points(length: usize) -> Vec<u8> {
    let lines = (0..).flat_map(|at| format!("G1 X{} Y{}\n", at * 7, at * 3 % 100).into_bytes());
    lines.take(length).collect()
}

/// A card like K, with larger clusters.
pub fn spec(sectors_per_cluster: u8) -> CardSpec {
    let total_sectors = 65 + 4_085 * u32::from(sectors_per_cluster);
    CardSpec {
        sectors_per_cluster,
        total_sectors,
        use_32bit_total: total_sectors > 0xFFFF,
        log_clusters: 2,
        ..CardSpec::K
    }
}

/// Marks a slot of card K read-only.
pub fn mark_read_only(card: &mut [u8], slot: usize) {
    card[33 * 512 + slot * 32 + 11] |= 0x01;
}

/// Sets an entry of both FATs of card K.
pub fn set_fats(card: &mut [u8], cluster: usize, value: u16) {
    for fat in [1, 17] {
        card[fat * 512 + cluster * 2..][..2].copy_from_slice(&value.to_le_bytes());
    }
}
