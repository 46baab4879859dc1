//! The library's thirteen calls on byte slices, and their answers as values.

use crate::{raw, Refusal};

/// How a call ended.
#[derive(Clone, Copy, Debug, PartialEq, Eq)]
pub enum Answer {
    /// All stores were made, so many. For read: the bytes read. For list: the entries there are. For fits: yes, with the cluster.
    /// For long names: the characters there are.
    Done(u32),
    /// For fits: no.
    No,
    /// The limit cut the stores short, after so many.
    Stopped(u32),
    /// Nothing was stored, and no byte was altered.
    Refused(Refusal),
}

impl Answer {
    /// An answer is code * 2^32 + count: code 0 is DONE, 254 NO, 255 STOPPED, the others are grounds.
    pub fn decode(answer: u64) -> Answer {
        let count = answer as u32;
        match (answer >> 32) as u32 {
            0 => Answer::Done(count),
            254 => Answer::No,
            255 => Answer::Stopped(count),
            code => Answer::Refused(Refusal::with_number(code).unwrap_or(Refusal::Unknown(code))),
        }
    }

    /// The number that the answer has in the C interface.
    pub fn encode(self) -> u64 {
        match self {
            Answer::Done(count) => u64::from(count),
            Answer::No => 254 << 32,
            Answer::Stopped(count) => 255 << 32 | u64::from(count),
            Answer::Refused(refusal) => u64::from(refusal.number()) << 32,
        }
    }
}

// In each call below the slices are valid for their lengths, and a mutable one overlaps no other.

/// A call on a name and another slice, which sets dates.
type OnTwo =
    unsafe extern "C" fn(*mut u8, usize, *const u8, usize, *const u8, usize, u32, u32) -> u64;

/// Makes a call on a name and another slice, data or characters, at a number of seconds.
fn on_two(
    call: OnTwo,
    card: &mut [u8],
    name: &[u8],
    other: &[u8],
    seconds: u32,
    limit: u32,
) -> Answer {
    let answer = unsafe {
        call(
            card.as_mut_ptr(),
            card.len(),
            name.as_ptr(),
            name.len(),
            other.as_ptr(),
            other.len(),
            seconds,
            limit,
        )
    };
    Answer::decode(answer)
}

/// Makes an empty file, with at most so many stores. Here and below the seconds are those since 1980 began.
pub fn create(card: &mut [u8], name: &[u8], seconds: u32, limit: u32) -> Answer {
    Answer::decode(unsafe {
        raw::lfat_create(
            card.as_mut_ptr(),
            card.len(),
            name.as_ptr(),
            name.len(),
            seconds,
            limit,
        )
    })
}

/// Makes an empty file with a short name and a long one, with at most so many stores. The characters are bytes, two each.
pub fn create_long(
    card: &mut [u8],
    name: &[u8],
    characters: &[u8],
    seconds: u32,
    limit: u32,
) -> Answer {
    on_two(
        raw::lfat_create_long,
        card,
        name,
        characters,
        seconds,
        limit,
    )
}

/// Adds bytes at the end of a file, with at most so many stores.
pub fn append(card: &mut [u8], name: &[u8], data: &[u8], seconds: u32, limit: u32) -> Answer {
    on_two(raw::lfat_append, card, name, data, seconds, limit)
}

/// Saves over a file, with at most so many stores: it then has these bytes and no others.
pub fn replace(card: &mut [u8], name: &[u8], data: &[u8], seconds: u32, limit: u32) -> Answer {
    on_two(raw::lfat_replace, card, name, data, seconds, limit)
}

/// Shortens a file, with at most so many stores.
pub fn truncate(card: &mut [u8], name: &[u8], size: u64, seconds: u32, limit: u32) -> Answer {
    Answer::decode(unsafe {
        raw::lfat_truncate(
            card.as_mut_ptr(),
            card.len(),
            name.as_ptr(),
            name.len(),
            size,
            seconds,
            limit,
        )
    })
}

/// Removes a file, with the entries of its long name, and frees its clusters, with at most so many stores.
pub fn delete(card: &mut [u8], name: &[u8], limit: u32) -> Answer {
    Answer::decode(unsafe {
        raw::lfat_delete(
            card.as_mut_ptr(),
            card.len(),
            name.as_ptr(),
            name.len(),
            limit,
        )
    })
}

/// Gives a file another name, with at most so many stores; the entries of its long name are removed.
pub fn rename(card: &mut [u8], old: &[u8], new: &[u8], limit: u32) -> Answer {
    Answer::decode(unsafe {
        raw::lfat_rename(
            card.as_mut_ptr(),
            card.len(),
            old.as_ptr(),
            old.len(),
            new.as_ptr(),
            new.len(),
            limit,
        )
    })
}

/// Finishes what a power cut left behind, or takes it back, with at most so many stores.
pub fn recover(card: &mut [u8], limit: u32) -> Answer {
    Answer::decode(unsafe { raw::lfat_recover(card.as_mut_ptr(), card.len(), limit) })
}

/// Writes an empty card of so many sectors over whatever the window holds, with at most so many stores.
pub fn format(
    card: &mut [u8],
    total: u32,
    per_cluster: u32,
    log_clusters: u32,
    limit: u32,
) -> Answer {
    Answer::decode(unsafe {
        raw::lfat_format(
            card.as_mut_ptr(),
            card.len(),
            total,
            per_cluster,
            log_clusters,
            limit,
        )
    })
}

/// Copies a file's bytes from an offset on, as many as there are and fit.
pub fn read(card: &[u8], name: &[u8], offset: u64, buffer: &mut [u8]) -> Answer {
    Answer::decode(unsafe {
        raw::lfat_read(
            card.as_ptr(),
            card.len(),
            name.as_ptr(),
            name.len(),
            offset,
            buffer.as_mut_ptr(),
            buffer.len(),
        )
    })
}

/// Copies the entries of the root directory, as many as fit whole.
pub fn list(card: &[u8], buffer: &mut [u8]) -> Answer {
    Answer::decode(unsafe {
        raw::lfat_list(card.as_ptr(), card.len(), buffer.as_mut_ptr(), buffer.len())
    })
}

/// Copies the characters of a file's long name, two bytes each, as many as fit.
pub fn long_name(card: &[u8], name: &[u8], buffer: &mut [u8]) -> Answer {
    Answer::decode(unsafe {
        raw::lfat_long_name(
            card.as_ptr(),
            card.len(),
            name.as_ptr(),
            name.len(),
            buffer.as_mut_ptr(),
            buffer.len(),
        )
    })
}

/// Whether so many bytes fit, by free clusters alone: done with the highest cluster that they would take, 0 for no bytes; or no.
pub fn fits(card: &[u8], bytes: u64) -> Answer {
    Answer::decode(unsafe { raw::lfat_fits(card.as_ptr(), card.len(), bytes) })
}
