//! Whether so many bytes, or a file of this machine, fit on a card.

use crate::args::Args;
use crate::failure::Failure;
use crate::json;
use crate::output::print;
use crate::target::Target;
use lfat_card::Refusal;
use lfat_disk::volume::Volume;
use lfat_disk::Access;
use std::ffi::OsStr;
use std::fs;
use std::io::ErrorKind;
use std::os::unix::ffi::OsStrExt;
use std::path::Path;

/// What was asked, and the answer.
struct Asked {
    bytes: u64,
    /// The clusters that they need, and the bytes of each.
    clusters: u64,
    cluster_bytes: usize,
    free: usize,
    /// The highest cluster that they would take; `None` is no.
    highest: Option<u32>,
}

pub fn fits(mut args: Args) -> Result<(), Failure> {
    let target = Target::parse(args.word("IMAGE")?, &args)?;
    let word = args.word("BYTES|FILE")?;
    args.end()?;
    let bytes = size(&word, &target)?;
    let card = target.open(&args, Access::Read)?;
    let highest = card.fits(bytes).map_err(|error| target.failure(error))?;
    let volume = Volume::open(card.window()).ok_or(Refusal::Window)?;
    let cluster_bytes = volume.layout.cluster_bytes();
    let asked = Asked {
        bytes,
        clusters: bytes.div_ceil(cluster_bytes as u64),
        cluster_bytes,
        free: volume.free_clusters(),
        highest,
    };
    let text = match args.has("--json") {
        true => asked.json(),
        false => asked.line(),
    };
    print(text.as_bytes())?;
    highest.map(drop).ok_or(Failure::No)
}

/// Digits alone are a number of bytes; anything else is a file, whose size counts.
fn size(word: &OsStr, card: &Target) -> Result<u64, Failure> {
    let is_number = !word.is_empty() && word.as_bytes().iter().all(u8::is_ascii_digit);
    if is_number {
        let text = word.to_string_lossy();
        let most = u64::MAX;
        let too_large = |_| {
            Failure::Usage(format!(
                "BYTES: {text} is over {most}, the most that can be asked"
            ))
        };
        return text.parse().map_err(too_large);
    }
    let path = Path::new(word);
    let failed = |what: String| Failure::host(path.display(), what);
    if word == "-" {
        let what = "FILE: - has no size before it is read; give a number of bytes";
        return Err(Failure::Usage(what.to_string()));
    }
    card.check_other(path, "FILE")?;
    let about = fs::metadata(path).map_err(|error| match error.kind() {
        ErrorKind::NotFound => failed(format!("{error}; a number of bytes is digits alone")),
        _ => failed(error.to_string()),
    })?;
    if about.is_dir() {
        return Err(failed(ErrorKind::IsADirectory.to_string()));
    }
    if !about.is_file() {
        let what = "is no plain file, so its size is not known; give a number of bytes";
        return Err(failed(what.to_string()));
    }
    Ok(about.len())
}

impl Asked {
    fn free_bytes(&self) -> usize {
        self.free * self.cluster_bytes
    }

    fn line(&self) -> String {
        let bytes = counted(self.bytes, "byte");
        let clusters = counted(self.clusters, "cluster");
        let each = self.cluster_bytes;
        match self.highest {
            Some(0) => format!("yes: {bytes} in no cluster\n"),
            Some(highest) => {
                format!("yes: {bytes} in {clusters} of {each} bytes, up to cluster {highest}\n")
            }
            None => format!(
                "no: {bytes} in {clusters} of {each} bytes; {} free, at most {} fit\n",
                self.free,
                counted(self.free_bytes() as u64, "byte")
            ),
        }
    }

    fn json(&self) -> String {
        json::object(&[
            ("fits", &self.highest.is_some()),
            ("bytes", &self.bytes),
            ("clusters", &self.clusters),
            ("cluster_bytes", &self.cluster_bytes),
            ("up_to_cluster", &json::optional(self.highest)),
            ("free_clusters", &self.free),
            ("free_bytes", &self.free_bytes()),
        ]) + "\n"
    }
}

/// A number of things.
fn counted(count: u64, thing: &str) -> String {
    match count {
        1 => format!("1 {thing}"),
        _ => format!("{count} {thing}s"),
    }
}
