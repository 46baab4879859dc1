//! The numbers of a new card.

/// What a card is formatted by. [`Form::for_sectors`] gives the usual one for a size; any other can be made, and format judges it.
///
/// ```
/// use lfat_card::Form;
///
/// let form = Form::for_sectors(262_144).expect("128 MB are a FAT16 card");
/// assert_eq!((form.per_cluster, form.log_clusters), (4, 8));
/// assert_eq!(Form::for_sectors(2_880), None); // A floppy disk has too few clusters.
/// ```
#[derive(Clone, Copy, Debug, PartialEq, Eq, Hash)]
pub struct Form {
    /// The sectors of the card, of 512 bytes each.
    pub total: u32,
    /// The sectors of a cluster: 1, 2, 4, .. 64.
    pub per_cluster: u32,
    /// The clusters of the log, from cluster 2 on; together at most 128 sectors.
    pub log_clusters: u32,
}

/// The usual cluster sizes, each with the most sectors of a card that it is taken for: the FAT16 table of Microsoft's FAT paper, with
/// 1 below its smallest card and, with 64, the last size that leaves no more clusters than FAT16 has.
const CLUSTER_SIZES: [(u32, u32); 7] = [
    (8_400, 1),
    (32_680, 2),
    (262_144, 4),
    (524_288, 8),
    (1_048_576, 16),
    (2_097_152, 32),
    (Form::MOST_SECTORS, 64),
];

/// The sectors of a usual log.
const LOG_SECTORS: u32 = 32;

impl Form {
    /// The fewest sectors of a card that can be formatted, with 1 sector per cluster.
    pub const FEWEST_SECTORS: u32 = 4_150;
    /// The most, with 64.
    pub const MOST_SECTORS: u32 = 4_194_144;

    /// The usual form of a card of so many sectors: clusters as large as other systems make them on a card of this size, and a log of
    /// 32 sectors, or of one cluster where that is larger. `None` if no FAT16 card has this size.
    pub fn for_sectors(total: u32) -> Option<Form> {
        let fits = |&&(most, _): &&(u32, u32)| total <= most;
        let &(_, per_cluster) = CLUSTER_SIZES.iter().find(fits)?;
        (total >= Form::FEWEST_SECTORS).then_some(Form {
            total,
            per_cluster,
            log_clusters: LOG_SECTORS.div_ceil(per_cluster),
        })
    }
}
