//! The calls that read.

use super::{answer, answered, argument, failed, slice, slice_mut, with, Handle};
use crate::entry::ENTRY;

const NO: u32 = 254;

/// # Safety
/// As for `lfat_disk_create`; the buffer is good for its length.
#[no_mangle]
pub unsafe extern "C" fn lfat_disk_read(
    disk: *mut Handle,
    name: *const u8,
    name_len: usize,
    offset: u64,
    buffer: *mut u8,
    buffer_len: usize,
) -> u64 {
    let (Some(name), Some(buffer)) = (slice(name, name_len), slice_mut(buffer, buffer_len)) else {
        return argument("a name or a buffer of NULL");
    };
    with(disk, |card| card.read(name, offset, buffer))
}

/// # Safety
/// As for `lfat_disk_close`; the buffer is good for its length.
#[no_mangle]
pub unsafe extern "C" fn lfat_disk_list(
    disk: *mut Handle,
    buffer: *mut u8,
    buffer_len: usize,
) -> u64 {
    let Some(buffer) = slice_mut(buffer, buffer_len) else {
        return argument("a buffer of NULL");
    };
    with(disk, |card| {
        let entries = card.list()?;
        for (place, entry) in buffer.chunks_exact_mut(ENTRY).zip(&entries) {
            place.copy_from_slice(&entry.bytes);
        }
        Ok(entries.len())
    })
}

/// # Safety
/// As for `lfat_disk_create`; the buffer is good for its length.
#[no_mangle]
pub unsafe extern "C" fn lfat_disk_long_name(
    disk: *mut Handle,
    name: *const u8,
    name_len: usize,
    buffer: *mut u8,
    buffer_len: usize,
) -> u64 {
    let (Some(name), Some(buffer)) = (slice(name, name_len), slice_mut(buffer, buffer_len)) else {
        return argument("a name or a buffer of NULL");
    };
    with(disk, |card| card.long_name(name, buffer))
}

/// # Safety
/// As for `lfat_disk_close`.
#[no_mangle]
pub unsafe extern "C" fn lfat_disk_fits(disk: *mut Handle, bytes: u64) -> u64 {
    answered(disk, |card| match card.fits(bytes) {
        Ok(None) => failed(NO, 0, "NO: the card has too few free clusters"),
        Ok(Some(cluster)) => u64::from(cluster),
        Err(error) => answer(Err(error)),
    })
}

/// # Safety
/// As for `lfat_disk_close`.
#[no_mangle]
pub unsafe extern "C" fn lfat_disk_sectors(disk: *mut Handle) -> u64 {
    with(disk, |card| {
        Ok(card.sectors().min(u64::from(u32::MAX)) as usize)
    })
}
