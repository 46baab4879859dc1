//! The library's functions as C has them; `include/lfat.h` says what each does. A slice crosses as a pointer and a length.

#![allow(missing_docs)]

extern "C" {
    pub fn lfat_create(
        card: *mut u8,
        card_len: usize,
        name: *const u8,
        name_len: usize,
        seconds: u32,
        limit: u32,
    ) -> u64;
    pub fn lfat_create_long(
        card: *mut u8,
        card_len: usize,
        name: *const u8,
        name_len: usize,
        chars: *const u8,
        chars_len: usize,
        seconds: u32,
        limit: u32,
    ) -> u64;
    pub fn lfat_append(
        card: *mut u8,
        card_len: usize,
        name: *const u8,
        name_len: usize,
        data: *const u8,
        data_len: usize,
        seconds: u32,
        limit: u32,
    ) -> u64;
    pub fn lfat_replace(
        card: *mut u8,
        card_len: usize,
        name: *const u8,
        name_len: usize,
        data: *const u8,
        data_len: usize,
        seconds: u32,
        limit: u32,
    ) -> u64;
    pub fn lfat_truncate(
        card: *mut u8,
        card_len: usize,
        name: *const u8,
        name_len: usize,
        size: u64,
        seconds: u32,
        limit: u32,
    ) -> u64;
    pub fn lfat_delete(
        card: *mut u8,
        card_len: usize,
        name: *const u8,
        name_len: usize,
        limit: u32,
    ) -> u64;
    pub fn lfat_rename(
        card: *mut u8,
        card_len: usize,
        old_name: *const u8,
        old_len: usize,
        new_name: *const u8,
        new_len: usize,
        limit: u32,
    ) -> u64;
    pub fn lfat_recover(card: *mut u8, card_len: usize, limit: u32) -> u64;
    pub fn lfat_format(
        card: *mut u8,
        card_len: usize,
        total: u32,
        per_cluster: u32,
        log_clusters: u32,
        limit: u32,
    ) -> u64;
    pub fn lfat_read(
        card: *const u8,
        card_len: usize,
        name: *const u8,
        name_len: usize,
        offset: u64,
        buffer: *mut u8,
        buffer_len: usize,
    ) -> u64;
    pub fn lfat_list(card: *const u8, card_len: usize, buffer: *mut u8, buffer_len: usize) -> u64;
    pub fn lfat_long_name(
        card: *const u8,
        card_len: usize,
        name: *const u8,
        name_len: usize,
        buffer: *mut u8,
        buffer_len: usize,
    ) -> u64;
    pub fn lfat_fits(card: *const u8, card_len: usize, bytes: u64) -> u64;
}
