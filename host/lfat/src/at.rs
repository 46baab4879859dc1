//! The time that files are dated by: that of this machine, or the one that `--at` gives.

use crate::args::Args;
use crate::failure::Failure;
use lfat_card::{DateTime, Refusal};
use lfat_disk::clock;
use std::ffi::OsStr;

/// What `--at` gives, if anything.
#[derive(Clone, Copy)]
pub struct At(Option<DateTime>);

impl At {
    /// Reads the option, not yet the clock.
    pub fn of(args: &Args) -> Result<At, Failure> {
        args.option("--at").map(parse).transpose().map(At)
    }

    pub fn is_given(self) -> bool {
        self.0.is_some()
    }

    /// The seconds since 1980 began, as the library takes them. It asks for the time right after the card, so this is asked for
    /// then; a time before 1980 has no number that it could be asked with.
    pub fn seconds(self) -> Result<u32, Failure> {
        let refused = |advice: String| {
            let advice = format!("{advice}, as --at 2026-11-17T19:30:58.");
            Failure::Refused(Refusal::Clock, advice)
        };
        const SET: &str = "Set it, or give the time";
        let (time, advice) = match self.0 {
            Some(given) => (given, format!("This one is {}. Give another", shown(given))),
            None => {
                const CLOCK: &str = "The clock of this machine";
                let now = clock::now();
                let now = now.map_err(|_| refused(format!("{CLOCK} shows no date. {SET}")))?;
                (now, format!("{CLOCK} says {}. {SET}", shown(now)))
            }
        };
        time.seconds().map_err(|_| refused(advice))
    }
}

fn parse(value: &OsStr) -> Result<DateTime, Failure> {
    let value = value.to_string_lossy();
    value.parse().map_err(|_| {
        let value = crate::naming::one_line(&value);
        Failure::Usage(format!(
            "--at: '{value}' is no date and time as 2026-11-17T19:30:58"
        ))
    })
}

/// A time as people read it; as texts, times sort as they follow each other.
pub fn shown(time: DateTime) -> String {
    time.to_string().replace('T', " ")
}
