//! `format`: an empty card with a log, over what is there or in a new image.

use crate::args::Args;
use crate::content;
use crate::failure::Failure;
use crate::json;
use crate::numbers::Numbers;
use crate::output::print;
use crate::progress::Progress;
use crate::target::Target;
use lfat_card::{Form, Refusal, NO_LIMIT};
use lfat_disk::disk::{Disk, Part};
use lfat_disk::layout::SECTOR;
use lfat_disk::lists::Planned;
use lfat_disk::volume::Volume;
use lfat_disk::{formatting, Access, DiskCard, Error};
use std::fs::{self, OpenOptions};
use std::path::Path;

/// The whole sectors of a disk or a partition.
pub fn sectors(disk: &impl Disk) -> u64 {
    disk.bytes() / SECTOR as u64
}

pub fn format(mut args: Args) -> Result<(), Failure> {
    let target = Target::parse(args.word("IMAGE")?, &args)?;
    args.end()?;
    let numbers = Numbers::of(&args)?;
    let limit = args.number("--limit", NO_LIMIT)?;
    let new = match target.path.exists() {
        true => None,
        false => Some(NewImage::make(&target, &numbers)?),
    };
    let (mut card, form) = open(&target, &args, &numbers)?;
    let made = match (card.save(&[formatting(form)], limit), &new) {
        // The new image goes with what was begun in it.
        (Err(Error::Cut(error)), Some(_)) => return Err(Failure::host(&target, error)),
        (Err(Error::Cut(error)), None) => {
            let name = target.name();
            let what = format!(
                "{name}: {error}. The card is cut in mid-format: run 'lfat format' on it again."
            );
            return Err(Failure::Cut(what));
        }
        (Err(Error::Stopped(made)), _) => Err(Failure::Stopped(made, "format")),
        (other, _) => Ok(other.map_err(|error| target.failure(error))?),
    };
    if let Some(new) = new {
        new.keep();
    }
    tell(&target, &card, made?, args.has("--json"))
}

/// Opens what is to be formatted. Unless that may be lost, nothing is on it.
fn open(target: &Target, args: &Args, numbers: &Numbers) -> Result<(DiskCard, Form), Failure> {
    let mut part = target.open_whole(args, Access::Write)?;
    let form = numbers.form(target, sectors(&part))?;
    if !args.has("--yes") {
        check_empty(target, &mut part)?;
    }
    let opened = DiskCard::on(part, Planned, Access::Write);
    let mut card = opened.map_err(|error| target.failure(error))?;
    let mut progress = Progress::new("sector");
    card.on_progress(move |made, count| progress.step(made, count));
    Ok((card, form))
}

/// Nothing that anybody would miss is on the disk.
fn check_empty(target: &Target, part: &mut Part<Box<dyn Disk>>) -> Result<(), Failure> {
    let name = target.name();
    let lost = content::lost(part, &name).map_err(|error| Failure::host(&name, error))?;
    lost.map_or(Ok(()), |what| Err(Failure::Holds(format!("{name} {what}"))))
}

/// An image that is new, and goes again unless it is kept.
struct NewImage<'a>(Option<&'a Path>);

impl NewImage<'_> {
    fn make<'a>(target: &'a Target, numbers: &Numbers) -> Result<NewImage<'a>, Failure> {
        let path = target.path.as_path();
        let failed = |error| Failure::host(path.display(), error);
        // A partition or a device that is not there is not made.
        let is_device = path.starts_with("/dev") && !path.starts_with("/dev/shm");
        if target.partition.is_some() || target.names_a_partition() || is_device {
            let what = "no such image, partition or device";
            return Err(Failure::host(path.display(), what));
        }
        let form = numbers.form_of_new(target)?;
        let mut options = OpenOptions::new();
        let file = options
            .write(true)
            .create_new(true)
            .open(path)
            .map_err(failed)?;
        let new = NewImage(Some(path));
        file.set_len(u64::from(form.total) * SECTOR as u64)
            .map_err(failed)?;
        file.sync_all().map_err(failed)?;
        Ok(new)
    }

    fn keep(mut self) {
        self.0 = None;
    }
}

impl Drop for NewImage<'_> {
    fn drop(&mut self) {
        if let Some(path) = self.0 {
            let _ = fs::remove_file(path);
        }
    }
}

/// What was made, in one line.
fn tell(target: &Target, card: &DiskCard, stores: u32, as_json: bool) -> Result<(), Failure> {
    let volume = Volume::open(card.window()).ok_or(Refusal::Boot)?;
    let layout = &volume.layout;
    let log = volume.log_clusters().ok_or(Refusal::Logarea)?.len();
    let free = volume.free_clusters() * layout.cluster_bytes();
    let text = match as_json {
        true => json::object(&[
            ("partition", &json::optional(target.partition)),
            ("sectors", &layout.total_sectors),
            ("sectors_per_cluster", &layout.sectors_per_cluster),
            ("clusters", &layout.clusters),
            ("cluster_bytes", &layout.cluster_bytes()),
            ("log_clusters", &log),
            ("log_sectors", &(log * layout.sectors_per_cluster)),
            ("free_bytes", &free),
            ("stores", &stores),
        ]),
        false => format!(
            "{} is an empty card: {} sectors, {} clusters of {} bytes, {log} of them the log, {free} bytes free",
            target.name(),
            layout.total_sectors,
            layout.clusters,
            layout.cluster_bytes()
        ),
    };
    print((text + "\n").as_bytes())
}
