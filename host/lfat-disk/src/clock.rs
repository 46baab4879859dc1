//! The time of this machine, in its local zone: what people read off a clock beside it.

use lfat_card::DateTime;
use std::ffi::{c_char, c_int, c_long};
use std::io;
use std::time::{SystemTime, UNIX_EPOCH};

/// `struct tm` of C.
#[repr(C)]
struct Tm {
    second: c_int,
    minute: c_int,
    hour: c_int,
    day: c_int,
    /// From 0 on.
    month: c_int,
    /// Since 1900.
    year: c_int,
    week_day: c_int,
    year_day: c_int,
    is_summer: c_int,
    offset: c_long,
    zone: *const c_char,
}

extern "C" {
    fn tzset();
    fn localtime_r(seconds: *const i64, time: *mut Tm) -> *mut Tm;
}

/// The time of this machine's clock in the zone of `TZ`, or of the system where that is not set.
pub fn now() -> io::Result<DateTime> {
    let seconds = match SystemTime::now().duration_since(UNIX_EPOCH) {
        Ok(since) => i64::try_from(since.as_secs()).unwrap_or(i64::MAX),
        Err(before) => i64::try_from(before.duration().as_secs()).map_or(i64::MIN, |since| -since),
    };
    local(seconds)
}

/// The local time so many seconds after 1970 began in Greenwich.
pub fn local(seconds: i64) -> io::Result<DateTime> {
    let no_date =
        || io::Error::other("the clock of this machine shows no date of the years 0 to 9999");
    let mut time = std::mem::MaybeUninit::uninit();
    // Both pointers are good; a structure that is given back has been filled.
    let time: Tm = unsafe {
        tzset();
        if localtime_r(&seconds, time.as_mut_ptr()).is_null() {
            return Err(no_date());
        }
        time.assume_init()
    };
    let year = u16::try_from(i64::from(time.year) + 1900).map_err(|_| no_date())?;
    let small = |number: c_int| u8::try_from(number).unwrap_or(u8::MAX);
    // A leap second, 60, counts as the one before.
    let second = small(time.second).min(59);
    let (month, day) = (small(time.month + 1), small(time.day));
    let time = DateTime::new(
        year,
        month,
        day,
        small(time.hour),
        small(time.minute),
        second,
    );
    time.ok_or_else(no_date)
}
