//! Standard output, and files of this machine.

use crate::failure::Failure;
use std::ffi::OsStr;
use std::fs::{self, File, OpenOptions};
use std::io::{self, ErrorKind, Write};
use std::path::{Path, PathBuf};

/// Prints bytes. A reader that has gone away is no failure.
pub fn print(bytes: &[u8]) -> Result<(), Failure> {
    Output::Standard.write(bytes)
}

/// Where a command's bytes go.
pub enum Output {
    Standard,
    /// A reader that has gone away wants no more.
    Gone,
    /// A new file beside the one to be written, which it replaces once it is whole.
    Beside {
        file: File,
        beside: PathBuf,
        path: PathBuf,
    },
    /// What is there and is no plain file: a pipe, a terminal, `/dev/null`.
    Straight(File, PathBuf),
}

impl Output {
    /// Opens a file; `-` is standard output.
    pub fn open(path: &OsStr) -> Result<Output, Failure> {
        if path == "-" {
            return Ok(Output::Standard);
        }
        let failed = |error| Failure::host(path.display(), error);
        // A link is followed: what it points to is replaced.
        let path = fs::canonicalize(path).unwrap_or_else(|_| PathBuf::from(path));
        match fs::metadata(&path) {
            Ok(about) if about.is_dir() => Err(failed(ErrorKind::IsADirectory.into())),
            Ok(about) if !about.is_file() => {
                let file = OpenOptions::new().write(true).open(&path).map_err(failed)?;
                Ok(Output::Straight(file, path))
            }
            there => {
                let beside = beside(&path);
                let mut options = OpenOptions::new();
                let file = options
                    .write(true)
                    .create_new(true)
                    .open(&beside)
                    .map_err(failed)?;
                let output = Output::Beside { file, beside, path };
                if let (Ok(about), Output::Beside { file, .. }) = (there, &output) {
                    file.set_permissions(about.permissions()).map_err(failed)?;
                }
                Ok(output)
            }
        }
    }

    pub fn write(&mut self, bytes: &[u8]) -> Result<(), Failure> {
        match self {
            Output::Standard => {
                let mut out = io::stdout().lock();
                match out.write_all(bytes).and_then(|()| out.flush()) {
                    Err(error) if error.kind() == ErrorKind::BrokenPipe => {
                        drop(out);
                        *self = Output::Gone;
                        Ok(())
                    }
                    other => other.map_err(|error| Failure::host("standard output", error)),
                }
            }
            Output::Gone => Ok(()),
            Output::Beside { file, path, .. } | Output::Straight(file, path) => {
                let failed = |error| Failure::host(path.display(), error);
                file.write_all(bytes).map_err(failed)
            }
        }
    }

    /// All bytes were written: the file is put in its place.
    pub fn finish(mut self) -> Result<(), Failure> {
        if let Output::Beside { file, beside, path } = &self {
            let placed = file.sync_all().and_then(|()| fs::rename(beside, path));
            placed.map_err(|error| Failure::host(path.display(), error))?;
            self = Output::Gone;
        }
        drop(self);
        Ok(())
    }
}

impl Drop for Output {
    /// A file that did not become whole is not left behind.
    fn drop(&mut self) {
        if let Output::Beside { beside, .. } = self {
            let _ = fs::remove_file(beside);
        }
    }
}

/// A name beside a file's.
fn beside(path: &Path) -> PathBuf {
    let mut name = path.file_name().unwrap_or_default().to_os_string();
    name.push(format!(".lfat-{}", std::process::id()));
    path.with_file_name(name)
}

pub fn write_file(path: &OsStr, bytes: &[u8]) -> Result<(), Failure> {
    let mut output = Output::open(path)?;
    output.write(bytes)?;
    output.finish()
}
