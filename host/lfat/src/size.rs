//! Sizes as users give them: `16M`, `2125312`, `4150s`.

use crate::failure::Failure;
use lfat_disk::layout::SECTOR;
use std::ffi::OsStr;

/// What a number without a letter counts.
#[derive(Clone, Copy, PartialEq)]
pub enum Plain {
    Bytes,
    Sectors,
}

/// A size in whole sectors, rounded down: a number, or one with K, M or G for bytes times 1,024, 1,024² or 1,024³, or with s for
/// sectors.
pub fn sectors(word: &OsStr, plain: Plain, what: &str) -> Result<u64, Failure> {
    let text = word.to_string_lossy();
    let wrong = || {
        let text = crate::naming::one_line(&text);
        Failure::Usage(format!("{what}: '{text}' is no size as 16M or 4150s"))
    };
    let digits = text.trim_end_matches(|letter: char| letter.is_ascii_alphabetic());
    let bytes = match &text[digits.len()..] {
        "" if plain == Plain::Sectors => SECTOR as u64,
        "" => 1,
        "s" => SECTOR as u64,
        "K" | "k" => 1 << 10,
        "M" | "m" => 1 << 20,
        "G" | "g" => 1 << 30,
        _ => return Err(wrong()),
    };
    // A sign is no digit.
    let number = digits
        .bytes()
        .all(|byte| byte.is_ascii_digit())
        .then_some(digits);
    let number: u64 = number
        .and_then(|digits| digits.parse().ok())
        .ok_or_else(wrong)?;
    let size = number.checked_mul(bytes).ok_or_else(wrong)?;
    Ok(size / SECTOR as u64)
}
