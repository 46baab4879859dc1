//! The C interface, `include/lfat_disk.h`: handles and answers here, the calls in `storing` and `reading`.
//!
//! Every function takes pointers from C: each must be good for the length beside it, as the header asks. A NULL with a length of
//! 0 is an empty slice.

mod reading;
mod storing;

use crate::card::{DiskCard, Opening};
use crate::disk::{Access, Wait};
use crate::error::Error;
use std::cell::RefCell;
use std::ffi::{c_char, c_int, CStr, CString, OsStr};
use std::os::unix::ffi::OsStrExt;
use std::panic::{catch_unwind, AssertUnwindSafe};
use std::path::Path;
use std::ptr::null_mut;

const ARGUMENT: u32 = 263;
const INTERNAL: u32 = 264;

const TO_READ: u32 = 1;
const WAIT: u32 = 2;

/// What stands behind a handle. After a fault of this library there is no card any more.
pub struct Handle(Option<DiskCard>);

/// About the last call that did not end well.
struct Last {
    number: c_int,
    message: CString,
}

thread_local! {
    static LAST: RefCell<Last> = RefCell::new(Last { number: 0, message: CString::default() });
}

/// Remembers what went wrong; gives the code as an answer.
fn failed(code: u32, number: c_int, message: &str) -> u64 {
    LAST.with_borrow_mut(|last| {
        last.number = number;
        last.message = CString::new(message).unwrap_or_default();
    });
    u64::from(code) << 32
}

fn answer(result: Result<usize, Error>) -> u64 {
    match result {
        Ok(count) => count as u64,
        Err(error) => {
            let number = match &error {
                Error::Disk(error) | Error::Cut(error) => error.raw_os_error().unwrap_or(0),
                _ => 0,
            };
            failed(error.code(), number, &error.to_string())
        }
    }
}

fn argument(what: &str) -> u64 {
    failed(ARGUMENT, 0, &format!("{what} is not to be used so"))
}

/// Makes a call that counts on the card of a handle.
///
/// # Safety
/// As for `answered`.
unsafe fn with(
    handle: *mut Handle,
    call: impl FnOnce(&mut DiskCard) -> Result<usize, Error>,
) -> u64 {
    answered(handle, |card| answer(call(card)))
}

/// Makes a call on the card of a handle.
///
/// # Safety
/// The handle is NULL or one that `lfat_disk_open` gave and that is not closed.
unsafe fn answered(handle: *mut Handle, call: impl FnOnce(&mut DiskCard) -> u64) -> u64 {
    let Some(handle) = handle.as_mut() else {
        return argument("a handle of NULL");
    };
    let Some(card) = handle.0.as_mut() else {
        return answer(Err(Error::Ended));
    };
    match catch_unwind(AssertUnwindSafe(|| call(card))) {
        Ok(number) => number,
        Err(_) => {
            handle.0 = None;
            failed(INTERNAL, 0, "a fault of the disk layer; please report this")
        }
    }
}

/// # Safety
/// The pointer is good for the length, or the length is 0.
unsafe fn slice<'a>(start: *const u8, len: usize) -> Option<&'a [u8]> {
    match len {
        0 => Some(&[]),
        _ if start.is_null() => None,
        _ => Some(std::slice::from_raw_parts(start, len)),
    }
}

/// # Safety
/// The pointer is good for the length and nobody else uses it, or the length is 0.
unsafe fn slice_mut<'a>(start: *mut u8, len: usize) -> Option<&'a mut [u8]> {
    match len {
        0 => Some(&mut []),
        _ if start.is_null() => None,
        _ => Some(std::slice::from_raw_parts_mut(start, len)),
    }
}

/// # Safety
/// `path` is a C string, and `disk` a place for a pointer.
#[no_mangle]
pub unsafe extern "C" fn lfat_disk_open(
    path: *const c_char,
    partition: u32,
    flags: u32,
    disk: *mut *mut Handle,
) -> u64 {
    if disk.is_null() {
        return argument("a NULL for the handle");
    }
    *disk = null_mut();
    if path.is_null() {
        return argument("a path of NULL");
    }
    if flags & !(TO_READ | WAIT) != 0 {
        return argument("a flag that is not known");
    }
    let path = Path::new(OsStr::from_bytes(CStr::from_ptr(path).to_bytes()));
    let how = Opening {
        access: match flags & TO_READ {
            0 => Access::Write,
            _ => Access::Read,
        },
        partition: (partition != 0).then_some(partition),
        wait: match flags & WAIT {
            0 => Wait::No,
            _ => Wait::After(&|| {}),
        },
    };
    match catch_unwind(AssertUnwindSafe(|| DiskCard::open_with(path, &how))) {
        Ok(Ok(card)) => {
            *disk = Box::into_raw(Box::new(Handle(Some(card))));
            0
        }
        Ok(Err(error)) => answer(Err(error)),
        Err(_) => failed(INTERNAL, 0, "a fault of the disk layer; please report this"),
    }
}

/// # Safety
/// The handle is NULL, or one that `lfat_disk_open` gave and that is not closed.
#[no_mangle]
pub unsafe extern "C" fn lfat_disk_close(disk: *mut Handle) {
    if !disk.is_null() {
        drop(Box::from_raw(disk));
    }
}

#[no_mangle]
pub extern "C" fn lfat_disk_errno() -> c_int {
    LAST.with_borrow(|last| last.number)
}

#[no_mangle]
pub extern "C" fn lfat_disk_message() -> *const c_char {
    LAST.with_borrow(|last| last.message.as_ptr())
}
