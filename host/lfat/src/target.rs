//! The card that a command is given: an image, a block device, or a partition of one.

use crate::args::{number, Args};
use crate::failure::Failure;
use lfat_card::{Name, Refusal};
use lfat_disk::disk::{self, Disk, Part};
use lfat_disk::{partition, Access, DiskCard, Error, Opening, Wait};
use std::ffi::{OsStr, OsString};
use std::fmt;
use std::fs;
use std::os::unix::ffi::OsStrExt;
use std::os::unix::fs::MetadataExt;
use std::path::{Path, PathBuf};

/// Where a card is: `IMAGE`, or `IMAGE:N` for a partition.
pub struct Target {
    pub path: PathBuf,
    pub partition: Option<u32>,
}

impl Target {
    /// Reads `IMAGE` or `IMAGE:N`. A file that has the whole name is meant first.
    pub fn parse(word: OsString, args: &Args) -> Result<Target, Failure> {
        let asked = args.option("--partition");
        let asked = asked.map(|value| number(&value.to_string_lossy(), "--partition"));
        let (path, suffix) = match split(&word) {
            Some((path, number)) if !Path::new(&word).exists() => (path.into(), Some(number)),
            _ => (PathBuf::from(&word), None),
        };
        Ok(Target {
            path,
            partition: asked.transpose()?.or(suffix),
        })
    }

    /// Opens the card for this program alone.
    pub fn open(&self, args: &Args, access: Access) -> Result<DiskCard, Failure> {
        self.waiting(args, |wait| {
            let partition = self.partition;
            let how = Opening {
                access,
                partition,
                wait,
            };
            DiskCard::open_with(&self.path, &how)
        })
    }

    /// Opens what is to be formatted: the partition that is named, else the whole disk, whatever is on it.
    pub fn open_whole(&self, args: &Args, access: Access) -> Result<Part<Box<dyn Disk>>, Failure> {
        self.waiting(args, |wait| {
            let mut disk = disk::open(&self.path, access, &wait)?;
            let found = match self.partition {
                Some(_) => partition::find(&mut disk, self.partition)?,
                None => None,
            };
            Ok(match found {
                Some(found) => Part::new(disk, found.first, found.sectors),
                None => Part::whole(disk),
            })
        })
    }

    /// Opens something, and waits for another program that has it if that is asked for.
    fn waiting<T>(
        &self,
        args: &Args,
        open: impl FnOnce(Wait) -> Result<T, Error>,
    ) -> Result<T, Failure> {
        let tell = || eprintln!("lfat: waiting for {self}, which another program has");
        let wait = match args.has("--wait") {
            true => Wait::After(&tell),
            false => Wait::No,
        };
        open(wait).map_err(|error| self.failure(error))
    }

    /// What is meant, with the partition's number if that was given.
    pub fn name(&self) -> String {
        match self.partition {
            Some(number) => format!("{self}:{number}"),
            None => self.to_string(),
        }
    }

    /// Whether the name of a file that is not there ends as that of a partition does.
    pub fn names_a_partition(&self) -> bool {
        let name = self.path.to_string_lossy();
        let number = name.rsplit_once(':').map(|(_, number)| number);
        number.is_some_and(|number| number.parse::<u32>().is_ok())
    }

    /// What an error of the disk layer is to a user.
    pub fn failure(&self, error: Error) -> Failure {
        match error {
            Error::Refused(refusal) => refusal.into(),
            Error::Stopped(made) => Failure::Stopped(made, "recover"),
            Error::Disagree => Failure::Disagree,
            Error::Cut(error) => Failure::Cut(format!(
                "{self}: {error}. The card is cut in mid-save: run 'lfat recover' on it."
            )),
            Error::InUse => Failure::Host(format!(
                "{self}: in use by another program, or mounted. Unmount it, or wait with --wait."
            )),
            Error::Partition(what) if self.partition.is_some() => {
                Failure::Usage(format!("{}: {what}", self.path.display()))
            }
            Error::Partition(what) => Failure::Refused(
                Refusal::Boot,
                format!(
                    "{self}: {what}. Another is named as {self}:N; 'lfat format {self}:N' makes it an empty card, and all on it is lost."
                ),
            ),
            other => Failure::host(self, other),
        }
    }

    /// A file that a command is given, which the usage line calls so, is not the image or device itself.
    pub fn check_other(&self, path: &Path, what: &str) -> Result<(), Failure> {
        match self.is_at(path) {
            true => Err(Failure::Usage(format!(
                "{what}: '{}' is the card itself",
                path.display()
            ))),
            false => Ok(()),
        }
    }

    /// Whether a path is the image or device itself.
    fn is_at(&self, path: &Path) -> bool {
        match (fs::metadata(path), fs::metadata(&self.path)) {
            (Ok(one), Ok(other)) => (one.dev(), one.ino()) == (other.dev(), other.ino()),
            _ => false,
        }
    }
}

impl fmt::Display for Target {
    fn fmt(&self, f: &mut fmt::Formatter<'_>) -> fmt::Result {
        write!(f, "{}", self.path.display())
    }
}

/// `PATH:N` as a path that is there and a number.
fn split(word: &OsStr) -> Option<(&Path, u32)> {
    let bytes = word.as_bytes();
    let colon = bytes.iter().rposition(|&byte| byte == b':')?;
    let path = Path::new(OsStr::from_bytes(&bytes[..colon]));
    let number = std::str::from_utf8(&bytes[colon + 1..])
        .ok()?
        .parse()
        .ok()?;
    path.exists().then_some((path, number))
}

/// A file on the card: by its name, or as `slot:N` where no rule allows its name.
#[derive(Clone, Copy)]
pub enum Which {
    Name(Name),
    Slot(usize),
}

/// The new name of a file, a short one: no call gives a file that is there a long one.
pub fn new_name(word: &OsStr) -> Result<Name, Failure> {
    let text = word.to_string_lossy();
    Name::parse(&text).map_err(|refusal| {
        let capitals = text.to_ascii_uppercase();
        let meant = match Name::parse(&capitals) {
            Ok(_) => format!("Did you mean {capitals}? "),
            Err(_) => String::new(),
        };
        let advice = "mv gives short names only. For a long one copy the file, 'lfat get' and 'lfat put', and 'lfat rm' the old one.";
        Failure::Refused(refusal, format!("{meant}{advice}"))
    })
}
