//! What mtools print.

/// The free bytes in the last line of what `mdir` prints, whose digits stand in groups.
///
/// # Panics
/// If there is no such line.
pub fn free_bytes(listing: &[u8]) -> u64 {
    let text = String::from_utf8_lossy(listing);
    let line = text.lines().find(|line| line.contains("bytes free"));
    let line = line.unwrap_or_else(|| panic!("no line on free bytes: {text}"));
    let digits: String = line.chars().filter(char::is_ascii_digit).collect();
    digits.parse().expect("a number")
}
