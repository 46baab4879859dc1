//! Dates of entries, by another calendar than that of the library and of the reference, and a third statement of what a call does
//! to them.

use crate::call::Call;
use crate::cards::Card;
use crate::random::Random;

/// The last second of 2107.
pub const LAST_SECOND: u32 = 4_039_286_399;

/// The time word and the date word of a number of seconds. Years begin in March here, so that a leap day is the last of its year,
/// and the months have 30.6 days each.
pub fn words(seconds: u32) -> (u16, u16) {
    let minute = seconds / 60;
    let time = 2_048 * (minute / 60 % 24) + 32 * (minute % 60) + seconds % 60 / 2;
    // Days since 1 March 1600, which began 400 years of the calendar; 1 January 1980 is 138,732 days after it.
    let day = u64::from(seconds / 86_400) + 138_732;
    let (cycle, day) = (day / 146_097, day % 146_097);
    let century = (day / 36_524).min(3);
    let day = day - 36_524 * century;
    let four = day / 1_461;
    let day = day % 1_461;
    let single = (day / 365).min(3);
    let day = day - 365 * single;
    let month = (5 * day + 2) / 153;
    let of_month = day - (153 * month + 2) / 5 + 1;
    let year = 1600 + 400 * cycle + 100 * century + 4 * four + single + month / 10;
    let date = 512 * (year - 1980) + 32 * ((month + 2) % 12 + 1) + of_month;
    (time as u16, date as u16)
}

/// The stamp record of a number of seconds.
pub fn stamp_record(seconds: u32) -> [u8; 32] {
    let (time, date) = words(seconds);
    stamp_of_words(time, date)
}

/// A stamp record with any words.
pub fn stamp_of_words(time: u16, date: u16) -> [u8; 32] {
    let mut record = [0; 32];
    record[0] = 0x54;
    record[14..16].copy_from_slice(&time.to_le_bytes());
    record[16..18].copy_from_slice(&date.to_le_bytes());
    record
}

/// Gives a slot all dates and times of a number of seconds, as a create does.
pub fn stamp_created(slot: &mut [u8], seconds: u32) {
    let (time, date) = words(seconds);
    slot[13] = 0;
    slot[14..16].copy_from_slice(&time.to_le_bytes());
    slot[16..18].copy_from_slice(&date.to_le_bytes());
    stamp_written(slot, seconds);
}

/// Gives a slot the write time, write date and access date, as the other calls do.
pub fn stamp_written(slot: &mut [u8], seconds: u32) {
    let (time, date) = words(seconds);
    slot[18..20].copy_from_slice(&date.to_le_bytes());
    slot[22..24].copy_from_slice(&time.to_le_bytes());
    slot[24..26].copy_from_slice(&date.to_le_bytes());
}

/// Seconds of any year, often at the edge of a day, a February or the whole range, and now and then past it.
pub fn random_seconds(random: &mut Random) -> u32 {
    match random.below(16) {
        0 => random.pick(&[0, 1, 2, LAST_SECOND - 1, LAST_SECOND]),
        1 if random.one_in(3) => random.pick(&[LAST_SECOND + 1, LAST_SECOND + 2, u32::MAX]),
        2..=4 => {
            let midnight = 86_400 * (1 + random.below(46_750) as u32);
            midnight - 2 + random.below(4) as u32
        }
        5 | 6 => {
            // Around the end of February, in leap years and others, most often in 2100.
            let year: u32 = random.pick(&[0, 1, 20, 21, 24, 47, 120, 120, 120, 124, 127]);
            let start = 86_400 * (365 * year + year.div_ceil(4) - u32::from(year > 120));
            start + 86_400 * (57 + random.below(5) as u32) + random.below(86_400) as u32
        }
        _ => (random.next() >> 20) as u32 % (LAST_SECOND + 1),
    }
}

/// The bytes from 12 to 25, dates and all between them, that a call which takes seconds leaves in the slot of its name when it is
/// granted: a new file's, or those of the present slot with the fields that it sets, if it stores anything.
pub fn dates_after(card: &Card, call: &Call) -> Option<Vec<u8>> {
    let seconds = call.seconds().filter(|&seconds| seconds <= LAST_SECOND)?;
    let mut slot = [0; 32];
    let (name, stores) = match call {
        Call::Create(..) | Call::CreateLong(..) => {
            stamp_created(&mut slot, seconds);
            return Some(slot[12..26].to_vec());
        }
        Call::Append(name, data, _) => (name, !data.is_empty()),
        Call::Replace(name, _, _) => (name, true),
        Call::Truncate(name, size, _) => {
            let present = card.slot_named(name).map(|slot| card.size(slot));
            (name, present.map(u64::from) != Some(*size))
        }
        _ => return None,
    };
    slot.copy_from_slice(card.slot(card.slot_named(name)?));
    if stores {
        stamp_written(&mut slot, seconds);
    }
    Some(slot[12..26].to_vec())
}
