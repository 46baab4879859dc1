//! Looking into a card, for tests.

use crate::fat::FREE;
use crate::lookup::File;
use crate::reading::copy_along;
use crate::root::{slots, UNUSED};
use crate::volume::Volume;

/// Every root file keeps the chain rule and no two share a cluster. A card with
/// a refused boot sector or too short a window is not sound.
pub fn is_sound(card: &[u8]) -> bool {
    let Ok(volume) = Volume::open(card) else {
        return false;
    };
    let mut taken = vec![false; usize::from(volume.geometry.last_cluster()) + 1];
    let files = slots(volume.root())
        .take_while(|slot| slot.0[0] != UNUSED)
        .enumerate()
        .filter(|(_, slot)| slot.is_file());
    for (index, _) in files {
        let Ok(chain) = File::in_slot(&volume, index).chain(&volume) else {
            return false;
        };
        for cluster in chain {
            if std::mem::replace(&mut taken[usize::from(cluster)], true) {
                return false;
            }
        }
    }
    true
}

/// The clusters of the file in a root slot, if the card is readable and the
/// file keeps the chain rule.
pub fn file_chain(card: &[u8], slot: usize) -> Option<Vec<u16>> {
    let volume = Volume::open(card).ok()?;
    File::in_slot(&volume, slot).chain(&volume).ok()
}

/// The bytes of the file in a root slot: the first size bytes along its chain
/// in FAT1.
///
/// # Panics
/// If the card is not readable or the file breaks the chain rule.
pub fn file_bytes(card: &[u8], slot: usize) -> Vec<u8> {
    let volume = Volume::open(card).expect("card is readable");
    let file = File::in_slot(&volume, slot);
    let chain = file.chain(&volume).expect("file keeps the chain rule");
    let mut bytes = vec![0; file.size as usize];
    copy_along(&volume, &chain, 0, &mut bytes);
    bytes
}

/// The free clusters in FAT1, rising.
///
/// # Panics
/// If the card is not readable.
pub fn free_clusters(card: &[u8]) -> Vec<u16> {
    let volume = Volume::open(card).expect("card is readable");
    volume.fat1().holding(FREE).collect()
}
