//! The numbers of a new card, as the options of `format` give them.

use crate::args::{number, Args};
use crate::failure::Failure;
use crate::size::{sectors, Plain};
use crate::target::Target;
use lfat_card::{calls, Answer, Form, Refusal};
use lfat_disk::layout::CLUSTERS;

/// The sectors of 2 GiB. A disk that is a little larger than the largest card, but not larger than this, is taken for one of its size.
const TWO_GIB: u64 = 4_194_304;

/// The sectors of a new image whose size is not given, 4 MB: the smallest cards of all, of 4,085 and 4,086 clusters, are FAT12 to some
/// readers (GRUB and parted among them).
const NEW_IMAGE: u64 = 8_192;

/// The most sectors of a cluster, and of a log.
const LARGEST: u32 = 64;
const MOST_LOG: u32 = 128;

/// What the options say; all else is as usual for the size.
pub struct Numbers {
    size: Option<u64>,
    per_cluster: Option<u32>,
    log_clusters: Option<u32>,
}

/// The options.
pub const OPTIONS: [&str; 3] = ["--size", "--cluster", "--log"];

impl Numbers {
    pub fn of(args: &Args) -> Result<Numbers, Failure> {
        let [size, cluster, log] = OPTIONS.map(|name| args.option(name));
        let size = size.map(|word| sectors(word, Plain::Bytes, "--size"));
        let cluster = cluster.map(|word| sectors(word, Plain::Sectors, "--cluster"));
        let log = log.map(|word| number(&word.to_string_lossy(), "--log"));
        Ok(Numbers {
            size: size.transpose()?,
            per_cluster: cluster.transpose()?.map(clamped),
            log_clusters: log.transpose()?,
        })
    }

    /// The form of a new image.
    pub fn form_of_new(&self, target: &Target) -> Result<Form, Failure> {
        let size = self.size.unwrap_or(NEW_IMAGE);
        self.form(target, size)
    }

    /// The form of a card on a disk of so many sectors. The library judges it; what it says is explained.
    pub fn form(&self, target: &Target, there: u64) -> Result<Form, Failure> {
        let size = self.size.unwrap_or(there);
        let form = self.with(size);
        let Form {
            total,
            per_cluster,
            log_clusters,
        } = form;
        if calls::format(&mut [], total, per_cluster, log_clusters, 0)
            == Answer::Refused(Refusal::Size)
        {
            return Err(Failure::Refused(
                Refusal::Size,
                self.possible(target, size, &form),
            ));
        }
        if u64::from(total) > there {
            let advice = format!(
                "{} has {there} sectors, and {size} are asked for: give a smaller --size, or none.",
                target.name()
            );
            return Err(Failure::Refused(Refusal::Window, advice));
        }
        Ok(form)
    }

    fn with(&self, size: u64) -> Form {
        let total = match size <= TWO_GIB {
            true => size.min(Form::MOST_SECTORS.into()),
            false => size,
        };
        let total = clamped(total);
        // Of a size that no card has, the library refuses all numbers.
        let (usual, log) = Form::for_sectors(total).map_or((1, 1), |form| {
            (form.per_cluster, form.log_clusters * form.per_cluster)
        });
        let per_cluster = self.per_cluster.unwrap_or(usual);
        let log_clusters = self.log_clusters;
        Form {
            total,
            per_cluster,
            log_clusters: log_clusters.unwrap_or(log.div_ceil(per_cluster.max(1))),
        }
    }

    /// Which numbers there could be, where there is no card with these.
    fn possible(&self, target: &Target, size: u64, form: &Form) -> String {
        let Form {
            total, per_cluster, ..
        } = *form;
        let asked = match self.size {
            Some(_) => format!("{size} sectors are asked for"),
            None => format!("{} has {size} sectors", target.name()),
        };
        let (fewest, most) = (Form::FEWEST_SECTORS, Form::MOST_SECTORS);
        if !(fewest..=most).contains(&total) {
            let rest = match self.size {
                None if total > most => {
                    "; with --size 2G the first of them are taken, and the rest stays unused"
                }
                _ => "",
            };
            return format!(
                "{asked}: a FAT16 card has {fewest} to {most} (--size 2075K to 2G){rest}."
            );
        }
        if !per_cluster.is_power_of_two() || per_cluster > LARGEST {
            return "--cluster is 1, 2, 4, 8, 16, 32 or 64 sectors, as 8 or 4K.".to_string();
        }
        let (least, most) = range(per_cluster);
        if !(least..=most).contains(&total) {
            return format!("{asked}: with {per_cluster} per cluster a FAT16 card has {least} to {most} (--size {least}s to {most}s).");
        }
        format!(
            "With {per_cluster} sectors per cluster --log is 1 to {} clusters.",
            MOST_LOG / per_cluster
        )
    }
}

/// The fewest and the most sectors of a card with so many per cluster.
fn range(per_cluster: u32) -> (u32, u32) {
    let (fewest, most) = (CLUSTERS.start as u32, CLUSTERS.end as u32);
    (
        Form::FEWEST_SECTORS + (per_cluster - 1) * fewest,
        Form::MOST_SECTORS - (LARGEST - per_cluster) * most,
    )
}

fn clamped(number: u64) -> u32 {
    u32::try_from(number).unwrap_or(u32::MAX)
}
