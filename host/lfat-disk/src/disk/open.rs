//! Opening an image or a block device, for oneself alone.

use super::{Device, Disk, Image};
use crate::error::Error;
use crate::sys;
use std::fs::{self, File, OpenOptions, TryLockError};
use std::io;
use std::os::unix::fs::{FileTypeExt, OpenOptionsExt};
use std::path::Path;
use std::time::Duration;

/// What is done with a card.
#[derive(Clone, Copy, Debug, PartialEq, Eq)]
pub enum Access {
    /// It is only read, and others may read it too.
    Read,
    /// It is changed, by this program alone.
    Write,
}

/// What happens where another program has the card.
pub enum Wait<'a> {
    /// The opening fails.
    No,
    /// The function is called once, then the other is waited for.
    After(&'a dyn Fn()),
}

/// How long to wait before a device in use is tried again.
const AGAIN: Duration = Duration::from_millis(200);

/// Opens an image or a block device. A device that is mounted, or open by another program of this kind, is in use.
pub fn open(path: &Path, access: Access, wait: &Wait) -> Result<Box<dyn Disk>, Error> {
    let kind = fs::metadata(path).map_err(Error::Disk)?.file_type();
    if kind.is_block_device() {
        let file = open_device(path, access, wait)?;
        Ok(Box::new(Device::new(file).map_err(Error::Disk)?))
    } else if kind.is_file() {
        let file = options(access).open(path).map_err(Error::Disk)?;
        lock(&file, access, wait)?;
        Ok(Box::new(Image::new(file).map_err(Error::Disk)?))
    } else {
        let what = "neither an image file nor a block device";
        Err(Error::Disk(io::Error::other(what)))
    }
}

fn options(access: Access) -> OpenOptions {
    let mut options = OpenOptions::new();
    options.read(true).write(access == Access::Write);
    options
}

fn open_device(path: &Path, access: Access, wait: &Wait) -> Result<File, Error> {
    let mut told = false;
    loop {
        let opened = options(access)
            .custom_flags(sys::O_DIRECT | sys::O_EXCL)
            .open(path);
        match (opened, wait) {
            (Ok(file), _) => return Ok(file),
            (Err(error), _) if error.raw_os_error() != Some(sys::EBUSY) => {
                return Err(Error::Disk(error))
            }
            (Err(_), Wait::No) => return Err(Error::InUse),
            (Err(_), Wait::After(tell)) => {
                if !std::mem::replace(&mut told, true) {
                    tell();
                }
                std::thread::sleep(AGAIN);
            }
        }
    }
}

/// Two readers share an image; a writer has it alone.
fn lock(file: &File, access: Access, wait: &Wait) -> Result<(), Error> {
    let tried = match access {
        Access::Read => file.try_lock_shared(),
        Access::Write => file.try_lock(),
    };
    match (tried, wait) {
        (Ok(()), _) => Ok(()),
        (Err(TryLockError::Error(error)), _) => Err(Error::Disk(error)),
        (Err(TryLockError::WouldBlock), Wait::No) => Err(Error::InUse),
        (Err(TryLockError::WouldBlock), Wait::After(tell)) => {
            tell();
            let locked = match access {
                Access::Read => file.lock_shared(),
                Access::Write => file.lock(),
            };
            locked.map_err(Error::Disk)
        }
    }
}
