//! The few functions of the system that the standard library does not have. Linux on x86-64, as the proved library.

use std::ffi::{c_char, c_int, c_uint, c_ulong, c_void, CString};
use std::fs::{self, File, OpenOptions};
use std::io;
use std::os::fd::{AsRawFd, FromRawFd};
use std::os::unix::ffi::OsStrExt;
use std::os::unix::fs::OpenOptionsExt;
use std::path::{Path, PathBuf};
use std::sync::atomic::{AtomicUsize, Ordering};

/// Flags of open: past the page cache.
pub const O_DIRECT: i32 = 0o40000;
/// On a block device: not mounted, and not open by another so.
pub const O_EXCL: i32 = 0o200;

/// The error of a device that is in use.
pub const EBUSY: i32 = 16;

const BLKSSZGET: c_ulong = 0x1268;
const MFD_CLOEXEC: c_uint = 1;
const PROT_READ: c_int = 1;
const PROT_WRITE: c_int = 2;
const MAP_SHARED: c_int = 1;
const MAP_PRIVATE: c_int = 2;
const MAP_NORESERVE: c_int = 0x4000;
const SEEK_DATA: c_int = 3;
const SEEK_HOLE: c_int = 4;
const ENXIO: i32 = 6;
const PUNCH_HOLE_KEEP_SIZE: c_int = 0x02 | 0x01;
const POSIX_FADV_DONTNEED: c_int = 4;

extern "C" {
    fn memfd_create(name: *const c_char, flags: c_uint) -> c_int;
    fn mmap(
        at: *mut c_void,
        len: usize,
        protection: c_int,
        flags: c_int,
        fd: c_int,
        offset: i64,
    ) -> *mut c_void;
    fn munmap(at: *mut c_void, len: usize) -> c_int;
    fn lseek(fd: c_int, offset: i64, whence: c_int) -> i64;
    fn fallocate(fd: c_int, mode: c_int, offset: i64, len: i64) -> c_int;
    fn posix_fadvise(fd: c_int, offset: i64, len: i64, advice: c_int) -> c_int;
    fn statvfs(path: *const c_char, about: *mut [u64; 14]) -> c_int;
    fn ioctl(fd: c_int, request: c_ulong, ...) -> c_int;
}

/// A file that lives in memory only.
pub fn memory_file() -> io::Result<File> {
    let fd = unsafe { memfd_create(c"lfat".as_ptr(), MFD_CLOEXEC) };
    if fd < 0 {
        return Err(io::Error::last_os_error());
    }
    // The descriptor is new and nobody else's.
    Ok(unsafe { File::from_raw_fd(fd) })
}

/// A file without a name, on a disk: its pages in memory are the system's to write out and drop. `None` where there is no room
/// for so many bytes.
pub fn nameless_file(room: u64) -> io::Result<Option<File>> {
    let folder =
        std::env::var_os("TMPDIR").map_or_else(|| PathBuf::from("/var/tmp"), PathBuf::from);
    if free_bytes(&folder)? / 2 < room {
        return Ok(None);
    }
    static COUNT: AtomicUsize = AtomicUsize::new(0);
    let number = COUNT.fetch_add(1, Ordering::Relaxed);
    let path = folder.join(format!("lfat-{}-{number}", std::process::id()));
    let mut options = OpenOptions::new();
    let file = options
        .read(true)
        .write(true)
        .create_new(true)
        .mode(0o600)
        .open(&path)?;
    fs::remove_file(&path)?;
    Ok(Some(file))
}

fn free_bytes(folder: &Path) -> io::Result<u64> {
    let path = CString::new(folder.as_os_str().as_bytes())?;
    let mut about = [0; 14];
    match unsafe { statvfs(path.as_ptr(), &mut about) } {
        // The size of a block, and how many are free for anybody.
        0 => Ok(about[1].saturating_mul(about[4])),
        _ => Err(io::Error::last_os_error()),
    }
}

/// The bytes of a file in memory, unmapped when this goes.
pub struct Mapping {
    base: *mut u8,
    len: usize,
}

// A mapping is plain memory that belongs to its owner.
unsafe impl Send for Mapping {}
unsafe impl Sync for Mapping {}

impl Mapping {
    /// Maps the first bytes of a file: to be shared with the file, or only to be read.
    pub fn new(file: &File, len: usize, writable: bool) -> io::Result<Mapping> {
        let (protection, flags) = match writable {
            true => (PROT_READ | PROT_WRITE, MAP_SHARED | MAP_NORESERVE),
            false => (PROT_READ, MAP_PRIVATE | MAP_NORESERVE),
        };
        // No mapping has length 0; such a one is never read.
        let base = unsafe {
            mmap(
                std::ptr::null_mut(),
                len.max(1),
                protection,
                flags,
                file.as_raw_fd(),
                0,
            )
        };
        if base as isize == -1 {
            return Err(io::Error::last_os_error());
        }
        Ok(Mapping {
            base: base.cast(),
            len,
        })
    }

    /// The mapped bytes.
    pub fn bytes(&self) -> &[u8] {
        // The mapping has these bytes for as long as it lives.
        unsafe { std::slice::from_raw_parts(self.base, self.len) }
    }

    /// Only of a mapping that is writable.
    pub fn bytes_mut(&mut self) -> &mut [u8] {
        unsafe { std::slice::from_raw_parts_mut(self.base, self.len) }
    }
}

impl Drop for Mapping {
    fn drop(&mut self) {
        unsafe { munmap(self.base.cast(), self.len.max(1)) };
    }
}

/// From an offset on, the next part of a file that holds data: where it begins and where it ends.
pub fn next_data(file: &File, from: usize) -> io::Result<Option<(usize, usize)>> {
    let fd = file.as_raw_fd();
    let start = unsafe { lseek(fd, from as i64, SEEK_DATA) };
    if start < 0 {
        let error = io::Error::last_os_error();
        return match error.raw_os_error() {
            Some(ENXIO) => Ok(None),
            _ => Err(error),
        };
    }
    let end = unsafe { lseek(fd, start, SEEK_HOLE) };
    if end < 0 {
        return Err(io::Error::last_os_error());
    }
    Ok(Some((start as usize, end as usize)))
}

/// Turns a part of a file into zeros that take no room.
pub fn punch_hole(file: &File, from: usize, len: usize) -> io::Result<()> {
    if len == 0 {
        return Ok(());
    }
    match unsafe {
        fallocate(
            file.as_raw_fd(),
            PUNCH_HOLE_KEEP_SIZE,
            from as i64,
            len as i64,
        )
    } {
        0 => Ok(()),
        _ => Err(io::Error::last_os_error()),
    }
}

/// Asks the system to forget what it has of a file in memory, so that it is read from the disk again.
pub fn forget_cached(file: &File) {
    // Advice only: where it is not taken, the cache is as good as the system keeps it.
    unsafe { posix_fadvise(file.as_raw_fd(), 0, 0, POSIX_FADV_DONTNEED) };
}

/// The logical sector size of a block device.
pub fn logical_block(device: &File) -> io::Result<usize> {
    let mut size: c_int = 0;
    match unsafe { ioctl(device.as_raw_fd(), BLKSSZGET, &mut size) } {
        0 => Ok(size as usize),
        _ => Err(io::Error::last_os_error()),
    }
}
