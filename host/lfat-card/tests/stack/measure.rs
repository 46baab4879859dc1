//! The most that each call has needed so far.

use crate::painted::Stack;
use lfat_card::raw::*;
use std::collections::BTreeMap;
use testkit::call::Call;

/// The address of the library's function, and its arguments as numbers.
fn crossing(call: &Call, card: &mut [u8], limit: u32, buffer: &mut [u8]) -> (*const (), [u64; 8]) {
    let part = |bytes: &[u8]| [bytes.as_ptr() as u64, bytes.len() as u64];
    let limit = u64::from(limit);
    let [card, length] = [card.as_mut_ptr() as u64, card.len() as u64];
    let [to, room] = [buffer.as_mut_ptr() as u64, buffer.len() as u64];
    let seconds = call.seconds().map(u64::from).unwrap_or_default();
    let named = |name: &[u8], rest: [u64; 4]| {
        let [name, name_length] = part(name);
        let [a, b, c, d] = rest;
        [card, length, name, name_length, a, b, c, d]
    };
    let card_and = |rest: [u64; 2]| [card, length, rest[0], rest[1], 0, 0, 0, 0];
    let stamped = |name: &[u8], other: &[u8]| {
        let [other, other_length] = part(other);
        named(name, [other, other_length, seconds, limit])
    };
    match call {
        Call::Create(name, _) => (
            lfat_create as *const (),
            named(name, [seconds, limit, 0, 0]),
        ),
        Call::CreateLong(name, characters, _) => {
            (lfat_create_long as *const (), stamped(name, characters))
        }
        Call::Append(name, data, _) => (lfat_append as *const (), stamped(name, data)),
        Call::Replace(name, data, _) => (lfat_replace as *const (), stamped(name, data)),
        Call::Truncate(name, size, _) => (
            lfat_truncate as *const (),
            named(name, [*size, seconds, limit, 0]),
        ),
        Call::Delete(name) => (lfat_delete as *const (), named(name, [limit, 0, 0, 0])),
        Call::Rename(old, new) => {
            let [new, new_length] = part(new);
            let arguments = named(old, [new, new_length, limit, 0]);
            (lfat_rename as *const (), arguments)
        }
        Call::Recover => (lfat_recover as *const (), card_and([limit, 0])),
        Call::Read(name, offset, _) => {
            (lfat_read as *const (), named(name, [*offset, to, room, 0]))
        }
        Call::LongName(name, _) => (lfat_long_name as *const (), named(name, [to, room, 0, 0])),
        Call::List(_) => (lfat_list as *const (), card_and([to, room])),
        Call::Fits(bytes) => (lfat_fits as *const (), card_and([*bytes, 0])),
        &Call::Format(total, per_cluster, log_clusters) => {
            let numbers = [total, per_cluster, log_clusters].map(u64::from);
            let [total, per_cluster, log_clusters] = numbers;
            let arguments = [card, length, total, per_cluster, log_clusters, limit, 0, 0];
            (lfat_format as *const (), arguments)
        }
    }
}

/// The most that a call has needed, and where.
#[derive(Default)]
pub struct Most {
    pub bytes: usize,
    pub place: String,
}

pub struct Measure {
    stack: Stack,
    pub most: BTreeMap<&'static str, Most>,
}

impl Measure {
    pub fn new() -> Measure {
        Measure {
            stack: Stack::new(),
            most: BTreeMap::new(),
        }
    }

    /// Makes the call on the painted stack; gives its code.
    pub fn call(&mut self, place: &str, card: &mut [u8], call: &Call, limit: u32) -> u64 {
        let mut buffer = vec![0; call.room()];
        let (function, arguments) = crossing(call, card, limit, &mut buffer);
        // Each part is valid for its length, and what is written overlaps nothing.
        let (answer, bytes) = unsafe { self.stack.call(function, arguments) };
        let most = self.most.entry(call.word()).or_default();
        if bytes > most.bytes {
            let place = format!("{place}, code {}", answer >> 32);
            *most = Most { bytes, place };
        }
        answer >> 32
    }
}
