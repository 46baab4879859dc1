//! Seconds since 1980 began, as the dates and times of entries.

/// The last second of 2107, the last that an entry can hold.
const LAST_SECOND: u32 = 4_039_286_399;

const FIRST_YEAR: u32 = 1980;
const SECONDS_PER_DAY: u32 = 86_400;

/// A date and a time as they stand in an entry and in a stamp record.
#[derive(Clone, Copy, Debug, PartialEq, Eq, Hash)]
pub struct Stamp {
    /// Hours × 2048 + minutes × 32 + half the seconds.
    pub time: u16,
    /// Years since 1980 × 512 + month × 32 + day.
    pub date: u16,
}

/// The stamp of a number of seconds since 1980 began, `None` after 2107.
pub fn stamp(seconds: u32) -> Option<Stamp> {
    (seconds <= LAST_SECOND).then(|| Stamp {
        time: time_word(seconds % SECONDS_PER_DAY),
        date: date_word(seconds / SECONDS_PER_DAY),
    })
}

/// Of the seconds since midnight.
fn time_word(second: u32) -> u16 {
    let (hours, minutes, seconds) = (second / 3600, second / 60 % 60, second % 60);
    (hours * 2048 + minutes * 32 + seconds / 2) as u16
}

/// Of the days since 1 January 1980.
fn date_word(mut days: u32) -> u16 {
    let mut year = FIRST_YEAR;
    while days >= days_of_year(year) {
        days -= days_of_year(year);
        year += 1;
    }
    let mut month = 1;
    while days >= days_of_month(year, month) {
        days -= days_of_month(year, month);
        month += 1;
    }
    ((year - FIRST_YEAR) * 512 + month * 32 + days + 1) as u16
}

fn days_of_year(year: u32) -> u32 {
    if is_leap(year) {
        366
    } else {
        365
    }
}

fn days_of_month(year: u32, month: u32) -> u32 {
    match month {
        2 if is_leap(year) => 29,
        2 => 28,
        4 | 6 | 9 | 11 => 30,
        _ => 31,
    }
}

/// Every fourth year from 1980 on, but not 2100.
fn is_leap(year: u32) -> bool {
    year.is_multiple_of(4) && year != 2100
}
