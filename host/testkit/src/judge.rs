//! What demand 3 speaks of on a card: FAT1, FAT2, the root directory, and the root files' bytes where the card is sound. Written
//! apart from the library and from the reference.

use std::collections::BTreeSet;

/// The part of a card that demand 3 compares.
#[derive(PartialEq)]
pub struct Judged {
    pub fat1: Vec<u8>,
    pub fat2: Vec<u8>,
    pub root: Vec<u8>,
    /// The bytes of each root file by slot, if each has a proper chain and no two share a cluster.
    pub files: Option<Vec<(usize, Vec<u8>)>>,
}

struct Layout {
    sectors_per_cluster: usize,
    fat: usize,
    fat_sectors: usize,
    root: usize,
    data: usize,
    clusters: usize,
}

fn word(bytes: &[u8], at: usize) -> usize {
    usize::from(bytes[at]) + 256 * usize::from(bytes[at + 1])
}

impl Layout {
    fn of(card: &[u8]) -> Layout {
        let (fat, fat_sectors) = (word(card, 14), word(card, 22));
        let root = fat + 2 * fat_sectors;
        let data = root + word(card, 17) / 16;
        let sectors_per_cluster = usize::from(card[13]);
        let total = match word(card, 19) {
            0 => word(card, 32) + 65_536 * word(card, 34),
            total => total,
        };
        Layout {
            clusters: (total - data) / sectors_per_cluster,
            sectors_per_cluster,
            fat,
            fat_sectors,
            root,
            data,
        }
    }

    fn entry(&self, card: &[u8], cluster: usize) -> usize {
        word(card, 512 * self.fat + 2 * cluster)
    }

    fn cluster<'a>(&self, card: &'a [u8], cluster: usize) -> &'a [u8] {
        let first = self.data + (cluster - 2) * self.sectors_per_cluster;
        &card[512 * first..][..512 * self.sectors_per_cluster]
    }

    /// The bytes along a proper chain, whose clusters nobody else has.
    fn bytes(&self, card: &[u8], slot: &[u8], taken: &mut BTreeSet<usize>) -> Option<Vec<u8>> {
        let size = word(slot, 28) + 65_536 * word(slot, 30);
        let mut cluster = word(slot, 26);
        if size == 0 {
            return (cluster == 0).then(Vec::new);
        }
        let mut bytes = Vec::new();
        loop {
            if !(2..self.clusters + 2).contains(&cluster) || !taken.insert(cluster) {
                return None;
            }
            bytes.extend(self.cluster(card, cluster));
            cluster = self.entry(card, cluster);
            if bytes.len() >= size {
                bytes.truncate(size);
                return (cluster >= 0xFFF8).then_some(bytes);
            }
        }
    }
}

pub fn judge(card: &[u8]) -> Judged {
    let layout = Layout::of(card);
    let sectors = |from: usize, to: usize| card[512 * from..512 * to].to_vec();
    let root = sectors(layout.root, layout.data);
    let mut taken = BTreeSet::new();
    let is_file = |slot: &[u8]| {
        slot[0] != 0 && slot[0] != 0xE5 && slot[11] & 0x08 == 0 && slot[11] & 0x10 == 0
    };
    let files = root
        .chunks(32)
        .enumerate()
        .filter(|(_, slot)| is_file(slot))
        .map(|(index, slot)| Some((index, layout.bytes(card, slot, &mut taken)?)))
        .collect();
    Judged {
        fat1: sectors(layout.fat, layout.fat + layout.fat_sectors),
        fat2: sectors(layout.fat + layout.fat_sectors, layout.root),
        root,
        files,
    }
}

/// Whether a record in the log is pending. One at the start of a sector that creates a long name hides those after it.
pub fn has_pending(card: &[u8]) -> bool {
    let layout = Layout::of(card);
    (2..layout.clusters + 2)
        .filter(|&cluster| layout.entry(card, cluster) == 0xFFF6)
        .flat_map(|cluster| layout.cluster(card, cluster).chunks(512))
        .any(|sector| {
            let leads = sector[0] != 0 && sector[12] != 0 && sector[13] == 1;
            let telling = if leads { 1 } else { 16 };
            let mut records = sector.chunks(32).take(telling);
            records.any(|record| record[0] != 0 && record[0] != 0xE5)
        })
}
