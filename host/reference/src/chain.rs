//! The chain rule.

use crate::fat::{Fat, FatValue};

/// The clusters of a file, if it keeps the chain rule: a file of size 0 has
/// first cluster 0; any other has exactly as many clusters as its size needs,
/// all within range, the last holding an end value.
pub fn walk(fat: &Fat, first: u16, size: u32, cluster_bytes: u32) -> Option<Vec<u16>> {
    if size == 0 {
        return (first == 0).then(Vec::new);
    }
    let count = size.div_ceil(cluster_bytes) as usize;
    // More clusters than the card has would mean visiting one twice, and a
    // chain that does so has no end.
    if count > fat.clusters() || !fat.is_cluster(first) {
        return None;
    }
    let mut chain = Vec::with_capacity(count);
    let mut cluster = first;
    for _ in 1..count {
        chain.push(cluster);
        match fat.value(cluster) {
            FatValue::Next(next) => cluster = next,
            _ => return None,
        }
    }
    chain.push(cluster);
    (fat.value(cluster) == FatValue::End).then_some(chain)
}
