//! The stamp of a number of seconds: rows by hand, then the C library's calendar for every day from 1980 to 2107.

use reference::{stamp, Stamp};
use std::ffi::{c_int, c_long};
use testkit::dates::{words, LAST_SECOND};
use testkit::random::Random;
use testkit::AT;

const DAY: u32 = 86_400;
const DAYS: u32 = 46_751;

/// Day, second of the day, date word, time word. A date is years × 512 + month × 32 + day, a time is hours × 2048 +
/// minutes × 32 + seconds / 2.
const ROWS: [(u32, u32, u16, u16); 33] = [
    (0, 0, 0x0021, 0),
    (0, 1, 0x0021, 0),
    (0, 2, 0x0021, 1),
    (0, 3, 0x0021, 1),
    (0, 59, 0x0021, 29),
    (0, 60, 0x0021, 32),
    (0, 61, 0x0021, 32),
    (0, 3_599, 0x0021, 59 * 32 + 29),
    (0, 3_600, 0x0021, 2_048),
    (0, 43_199, 0x0021, 11 * 2_048 + 59 * 32 + 29),
    (0, 86_398, 0x0021, 0xBF7D),
    (0, 86_399, 0x0021, 0xBF7D),
    (1, 0, 0x0022, 0),
    // 31 January and 1 February 1980, 29 February and 1 March, the year's end.
    (30, 0, 0x003F, 0),
    (31, 0, 0x0041, 0),
    (59, 0, 0x005D, 0),
    (60, 0, 0x0061, 0),
    (365, 0, 0x019F, 0),
    (366, 0, 0x0221, 0),
    // 28 February and 1 March 1981.
    (424, 0, 0x025C, 0),
    (425, 0, 0x0261, 0),
    // 28 and 29 February and 1 March 2000: 20 years with 5 leap days are 7,305 days.
    (7_363, 0, 0x285C, 0),
    (7_364, 0, 0x285D, 0),
    (7_365, 0, 0x2861, 0),
    // 17 June 2026, 13:45:31.
    (16_969, 49_531, 0x5CD1, 0x6DAF),
    // 28 February and 1 March 2100, with no day between: 120 years with 30 leap days are 43,830 days.
    (43_888, 86_399, 0xF05C, 0xBF7D),
    (43_889, 0, 0xF061, 0),
    // The end of 2100, and 29 February 2104.
    (44_194, 0, 0xF19F, 0),
    (44_195, 0, 0xF221, 0),
    (45_348, 0, 0xF85C, 0),
    (45_349, 0, 0xF85D, 0),
    (45_350, 0, 0xF861, 0),
    // 31 December 2107, 23:59:59.
    (46_750, 86_399, 0xFF9F, 0xBF7D),
];

#[test]
fn rows() {
    for (day, second, date, time) in ROWS {
        let expected = Some(Stamp { time, date });
        assert_eq!(stamp(DAY * day + second), expected, "{day} {second}");
    }
}

#[test]
fn the_range() {
    assert_eq!(LAST_SECOND, 4_039_286_399);
    assert_eq!(DAY * (DAYS - 1) + 86_399, LAST_SECOND);
    assert!(stamp(LAST_SECOND).is_some());
    for seconds in [LAST_SECOND + 1, LAST_SECOND + 2, 0xF100_0000, u32::MAX] {
        assert_eq!(stamp(seconds), None, "{seconds}");
    }
}

/// The C library's `struct tm` on Linux.
#[repr(C)]
#[derive(Default)]
struct Tm {
    second: c_int,
    minute: c_int,
    hour: c_int,
    day: c_int,
    month: c_int,
    year: c_int,
    week_day: c_int,
    year_day: c_int,
    is_summer: c_int,
    offset: c_long,
    zone: usize,
}

extern "C" {
    fn gmtime_r(time: *const i64, tm: *mut Tm) -> *mut Tm;
}

/// Seconds from 1970 to 1980.
const FROM_1970: i64 = 315_532_800;

/// Date and time by the C library.
fn by_the_c_library(seconds: u32) -> Stamp {
    let time = FROM_1970 + i64::from(seconds);
    let mut tm = Tm::default();
    // Both are valid, and tm has room for what is written.
    let given = unsafe { gmtime_r(&time, &mut tm) };
    assert!(!given.is_null());
    let date = (tm.year - 80) << 9 | (tm.month + 1) << 5 | tm.day;
    let time = tm.hour << 11 | tm.minute << 5 | tm.second >> 1;
    Stamp {
        time: time as u16,
        date: date as u16,
    }
}

/// Both calendars of ours have what the C library has.
fn same(seconds: u32) {
    let expected = by_the_c_library(seconds);
    assert_eq!(stamp(seconds), Some(expected), "{seconds}");
    assert_eq!(words(seconds), (expected.time, expected.date), "{seconds}");
}

#[test]
fn every_day() {
    for day in 0..DAYS {
        for second in [0, 1, 43_200, 86_398, 86_399] {
            same(DAY * day + second);
        }
    }
}

#[test]
fn every_second_of_some_days() {
    // 1 January 1980, 29 February 2000, 28 February 2100, 31 December 2107.
    for day in [0, 7_364, 43_888, DAYS - 1] {
        for second in 0..DAY {
            same(DAY * day + second);
        }
    }
}

#[test]
fn any_seconds() {
    let mut random = Random::new(6_000);
    for _ in 0..200_000 {
        same((random.next() >> 20) as u32 % (LAST_SECOND + 1));
    }
    same(AT);
}

/// Each day is one more than the day before, or the first of the next month, which is one more, or of January.
#[test]
fn one_day_more_is_the_next_date() {
    let date = |day: u32| u32::from(stamp(DAY * day).expect("in range").date);
    let parts = |date: u32| (date >> 9, date >> 5 & 15, date & 31);
    for day in 1..DAYS {
        let (year, month, of_month) = parts(date(day - 1));
        let next = parts(date(day));
        let last = [31, 28, 31, 30, 31, 30, 31, 31, 30, 31, 30, 31][month as usize - 1];
        let is_leap = month == 2 && year % 4 == 0 && year != 120;
        let expected = match of_month < last + u32::from(is_leap) {
            true => (year, month, of_month + 1),
            false if month < 12 => (year, month + 1, 1),
            false => (year + 1, 1, 1),
        };
        assert_eq!(next, expected, "{day}");
    }
}
