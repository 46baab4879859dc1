//! Dates and times of the calendar, and as cards hold them.

use crate::Refusal;
use std::error::Error;
use std::fmt;
use std::str::FromStr;

const FIRST_YEAR: u16 = 1980;
const LAST_YEAR: u16 = 2107;
const DAY: u32 = 86_400;

/// A day of the calendar, of the years 0 to 9999. It is shown as `2026-11-17`, and days sort as their texts do.
#[derive(Clone, Copy, Debug, PartialEq, Eq, PartialOrd, Ord, Hash)]
pub struct Date {
    year: u16,
    month: u8,
    day: u8,
}

impl Date {
    /// A day, with months and days from 1 on; `None` if there is no such day.
    pub fn new(year: u16, month: u8, day: u8) -> Option<Date> {
        let is_date =
            year <= 9_999 && (1..=12).contains(&month) && (1..=days_of(year, month)).contains(&day);
        is_date.then_some(Date { year, month, day })
    }

    /// The day that a date of a card means: the day in bits 0 to 4, the month in bits 5 to 8, then the years since 1980. Other
    /// systems write words that are no date, such as 0.
    pub fn from_fat(date: u16) -> Option<Date> {
        let (month, day) = ((date >> 5 & 0xF) as u8, (date & 0x1F) as u8);
        Date::new(FIRST_YEAR + (date >> 9), month, day)
    }

    /// The year.
    pub fn year(self) -> u16 {
        self.year
    }

    /// The month, 1 to 12.
    pub fn month(self) -> u8 {
        self.month
    }

    /// The day of the month, 1 to 31.
    pub fn day(self) -> u8 {
        self.day
    }

    /// The days since 1980 began, if a card can hold the date.
    fn days(self) -> Option<u32> {
        if !(FIRST_YEAR..=LAST_YEAR).contains(&self.year) {
            return None;
        }
        let years = (FIRST_YEAR..self.year).map(days_of_year).sum::<u32>();
        let months = (1..self.month).map(|month| u32::from(days_of(self.year, month)));
        Some(years + months.sum::<u32>() + u32::from(self.day) - 1)
    }

    /// The date so many days after 1980 began, if a card can hold it.
    fn after(mut days: u32) -> Option<Date> {
        let year = (FIRST_YEAR..=LAST_YEAR).find(|&year| passed(&mut days, days_of_year(year)))?;
        let month = (1..=12).find(|&month| passed(&mut days, u32::from(days_of(year, month))))?;
        Date::new(year, month, days as u8 + 1)
    }
}

/// Whether the days left end within the next so many; else these are taken off.
fn passed(left: &mut u32, days: u32) -> bool {
    let ends = *left < days;
    if !ends {
        *left -= days;
    }
    ends
}

fn is_leap(year: u16) -> bool {
    year.is_multiple_of(4) && (!year.is_multiple_of(100) || year.is_multiple_of(400))
}

fn days_of_year(year: u16) -> u32 {
    365 + u32::from(is_leap(year))
}

fn days_of(year: u16, month: u8) -> u8 {
    match month {
        2 => 28 + u8::from(is_leap(year)),
        4 | 6 | 9 | 11 => 30,
        _ => 31,
    }
}

impl fmt::Display for Date {
    fn fmt(&self, f: &mut fmt::Formatter<'_>) -> fmt::Result {
        write!(f, "{:04}-{:02}-{:02}", self.year, self.month, self.day)
    }
}

/// A date and a time of day, in whatever zone the dates of a card are to be read. It is shown as `2026-11-17T19:30:58`, and read
/// from that.
///
/// ```
/// use lfat_card::{DateTime, Refusal};
///
/// let at: DateTime = "2026-11-17T19:30:58".parse()?;
/// assert_eq!(Some(at), DateTime::new(2026, 11, 17, 19, 30, 58));
/// assert_eq!(at.seconds(), Ok(1_479_411_058));
/// let early: DateTime = "1979-12-31T23:59:59".parse()?;
/// assert_eq!(early.seconds(), Err(Refusal::Clock));
/// assert!("2026-11-31T19:30:58".parse::<DateTime>().is_err());
/// # Ok::<(), lfat_card::ParseDateTimeError>(())
/// ```
#[derive(Clone, Copy, Debug, PartialEq, Eq, PartialOrd, Ord, Hash)]
pub struct DateTime {
    date: Date,
    hour: u8,
    minute: u8,
    second: u8,
}

impl DateTime {
    /// As 1980 began: the date for a machine that has no clock.
    pub const FIRST: DateTime = DateTime {
        date: Date {
            year: FIRST_YEAR,
            month: 1,
            day: 1,
        },
        hour: 0,
        minute: 0,
        second: 0,
    };

    /// A date and a time; `None` if the calendar or the clock has no such one.
    pub fn new(
        year: u16,
        month: u8,
        day: u8,
        hour: u8,
        minute: u8,
        second: u8,
    ) -> Option<DateTime> {
        DateTime::on(Date::new(year, month, day)?, hour, minute, second)
    }

    fn on(date: Date, hour: u8, minute: u8, second: u8) -> Option<DateTime> {
        let is_time = hour < 24 && minute < 60 && second < 60;
        is_time.then_some(DateTime {
            date,
            hour,
            minute,
            second,
        })
    }

    /// What a date and a time of a card mean: half the second in bits 0 to 4, the minute in bits 5 to 10, then the hour; the date
    /// as [`Date::from_fat`] has it. `None` if either is none.
    pub fn from_fat(date: u16, time: u16) -> Option<DateTime> {
        let (hour, minute, half) = (time >> 11, time >> 5 & 0x3F, time & 0x1F);
        DateTime::on(
            Date::from_fat(date)?,
            hour as u8,
            minute as u8,
            half as u8 * 2,
        )
    }

    /// The date and time so many seconds after 1980 began; refused past 2107.
    pub fn from_seconds(seconds: u32) -> Result<DateTime, Refusal> {
        let (date, left) = (Date::after(seconds / DAY), seconds % DAY);
        let part = |of: u32, most: u32| (left / of % most) as u8;
        date.and_then(|date| DateTime::on(date, part(3_600, 24), part(60, 60), part(1, 60)))
            .ok_or(Refusal::Clock)
    }

    /// The seconds since 1980 began, as the calls take them; refused before 1980 and after 2107.
    pub fn seconds(self) -> Result<u32, Refusal> {
        let time = u32::from(self.hour) * 3_600 + u32::from(self.minute) * 60;
        let days = self.date.days().ok_or(Refusal::Clock)?;
        Ok(days * DAY + time + u32::from(self.second))
    }

    /// The same, with a number that the library refuses where there is none: it asks after what is wrong with the card.
    pub(crate) fn asked(self) -> u32 {
        self.seconds().unwrap_or(u32::MAX)
    }

    /// The day.
    pub fn date(self) -> Date {
        self.date
    }

    /// The hour, 0 to 23.
    pub fn hour(self) -> u8 {
        self.hour
    }

    /// The minute, 0 to 59.
    pub fn minute(self) -> u8 {
        self.minute
    }

    /// The second, 0 to 59.
    pub fn second(self) -> u8 {
        self.second
    }

    /// With the hundredths of a second that a creation time may have: 100 to 199 are a second more.
    pub(crate) fn with_hundredths(mut self, hundredths: u8) -> DateTime {
        if (100..200).contains(&hundredths) {
            self.second |= 1;
        }
        self
    }
}

impl fmt::Display for DateTime {
    fn fmt(&self, f: &mut fmt::Formatter<'_>) -> fmt::Result {
        let DateTime {
            date,
            hour,
            minute,
            second,
        } = self;
        write!(f, "{date}T{hour:02}:{minute:02}:{second:02}")
    }
}

/// The text is not of the form `YYYY-MM-DDTHH:MM:SS`, or there is no such date or time.
#[derive(Clone, Copy, Debug, PartialEq, Eq)]
pub struct ParseDateTimeError(());

impl fmt::Display for ParseDateTimeError {
    fn fmt(&self, f: &mut fmt::Formatter<'_>) -> fmt::Result {
        f.write_str("not a date and time as 2026-11-17T19:30:58")
    }
}

impl Error for ParseDateTimeError {}

impl FromStr for DateTime {
    type Err = ParseDateTimeError;

    fn from_str(text: &str) -> Result<DateTime, ParseDateTimeError> {
        const FORM: &[u8; 19] = b"0000-00-00T00:00:00";
        let is_form = |(byte, form): (u8, &u8)| match form {
            b'0' => byte.is_ascii_digit(),
            _ => byte == *form,
        };
        let has_form = text.len() == FORM.len() && text.bytes().zip(FORM).all(is_form);
        let read = |at: usize, digits: usize| text[at..at + digits].parse().ok();
        let parsed = has_form.then(|| {
            let small = |at: usize| read(at, 2).map(|number: u16| number as u8);
            let (year, month, day) = (read(0, 4)?, small(5)?, small(8)?);
            DateTime::new(year, month, day, small(11)?, small(14)?, small(17)?)
        });
        parsed.flatten().ok_or(ParseDateTimeError(()))
    }
}
