//! The calls that store.

use super::{argument, slice, with, Handle};
use crate::card::DiskCard;
use crate::error::Error;
use lfat_card::Form;

const NAME_OR_DATA: &str = "a name or data of NULL";

/// Makes a call on the card of a handle and a name.
///
/// # Safety
/// As for `answered`; the name is good for its length.
unsafe fn with_name(
    handle: *mut Handle,
    (name, name_len): (*const u8, usize),
    call: impl FnOnce(&mut DiskCard, &[u8]) -> Result<u32, Error>,
) -> u64 {
    let Some(name) = slice(name, name_len) else {
        return argument("a name of NULL");
    };
    with(handle, |card| call(card, name).map(|made| made as usize))
}

/// Makes a call on the card of a handle, a name and another slice, which `what` says are not to be NULL.
///
/// # Safety
/// As for `answered`; both slices are good for their lengths.
unsafe fn with_two(
    handle: *mut Handle,
    (name, name_len): (*const u8, usize),
    (other, other_len): (*const u8, usize),
    what: &str,
    call: impl FnOnce(&mut DiskCard, &[u8], &[u8]) -> Result<u32, Error>,
) -> u64 {
    let (Some(name), Some(other)) = (slice(name, name_len), slice(other, other_len)) else {
        return argument(what);
    };
    with(handle, |card| {
        call(card, name, other).map(|made| made as usize)
    })
}

/// # Safety
/// As for `lfat_disk_close`.
#[no_mangle]
pub unsafe extern "C" fn lfat_disk_recover(disk: *mut Handle) -> u64 {
    with(disk, |card| card.recover().map(|made| made as usize))
}

/// # Safety
/// As for `lfat_disk_close`; the name is good for its length.
#[no_mangle]
pub unsafe extern "C" fn lfat_disk_create(
    disk: *mut Handle,
    name: *const u8,
    name_len: usize,
    seconds: u32,
) -> u64 {
    with_name(disk, (name, name_len), |card, name| {
        card.create(name, seconds)
    })
}

/// # Safety
/// As for `lfat_disk_close`; name and characters are good for their lengths.
#[no_mangle]
pub unsafe extern "C" fn lfat_disk_create_long(
    disk: *mut Handle,
    name: *const u8,
    name_len: usize,
    chars: *const u8,
    chars_len: usize,
    seconds: u32,
) -> u64 {
    let (name, chars) = ((name, name_len), (chars, chars_len));
    let what = "a name or characters of NULL";
    with_two(disk, name, chars, what, |card, name, chars| {
        card.create_long(name, chars, seconds)
    })
}

/// # Safety
/// As for `lfat_disk_close`; name and data are good for their lengths.
#[no_mangle]
pub unsafe extern "C" fn lfat_disk_append(
    disk: *mut Handle,
    name: *const u8,
    name_len: usize,
    data: *const u8,
    data_len: usize,
    seconds: u32,
) -> u64 {
    let (name, data) = ((name, name_len), (data, data_len));
    with_two(disk, name, data, NAME_OR_DATA, |card, name, data| {
        card.append(name, data, seconds)
    })
}

/// # Safety
/// As for `lfat_disk_append`.
#[no_mangle]
pub unsafe extern "C" fn lfat_disk_replace(
    disk: *mut Handle,
    name: *const u8,
    name_len: usize,
    data: *const u8,
    data_len: usize,
    seconds: u32,
) -> u64 {
    let (name, data) = ((name, name_len), (data, data_len));
    with_two(disk, name, data, NAME_OR_DATA, |card, name, data| {
        card.replace(name, data, seconds)
    })
}

/// # Safety
/// As for `lfat_disk_create`.
#[no_mangle]
pub unsafe extern "C" fn lfat_disk_truncate(
    disk: *mut Handle,
    name: *const u8,
    name_len: usize,
    size: u64,
    seconds: u32,
) -> u64 {
    with_name(disk, (name, name_len), |card, name| {
        card.truncate(name, size, seconds)
    })
}

/// # Safety
/// As for `lfat_disk_create`.
#[no_mangle]
pub unsafe extern "C" fn lfat_disk_delete(
    disk: *mut Handle,
    name: *const u8,
    name_len: usize,
) -> u64 {
    with_name(disk, (name, name_len), DiskCard::delete)
}

/// # Safety
/// As for `lfat_disk_close`; both names are good for their lengths.
#[no_mangle]
pub unsafe extern "C" fn lfat_disk_rename(
    disk: *mut Handle,
    old_name: *const u8,
    old_len: usize,
    new_name: *const u8,
    new_len: usize,
) -> u64 {
    let (old, new) = ((old_name, old_len), (new_name, new_len));
    with_two(disk, old, new, "a name of NULL", DiskCard::rename)
}

/// # Safety
/// As for `lfat_disk_close`.
#[no_mangle]
pub unsafe extern "C" fn lfat_disk_format(
    disk: *mut Handle,
    total: u32,
    per_cluster: u32,
    log_clusters: u32,
) -> u64 {
    let form = Form {
        total,
        per_cluster,
        log_clusters,
    };
    with(disk, |card| card.format(form).map(|made| made as usize))
}
