//! What `--json` prints: one object, on one line.

use std::fmt::Display;

/// A text as JSON has it.
pub fn text(text: &str) -> String {
    let mut quoted = String::from("\"");
    for character in text.chars() {
        match character {
            '"' | '\\' => quoted.extend(['\\', character]),
            '\u{20}'.. => quoted.push(character),
            _ => quoted += &format!("\\u{:04x}", u32::from(character)),
        }
    }
    quoted + "\""
}

/// An object of names and values, which are JSON already.
pub fn object(fields: &[(&str, &dyn Display)]) -> String {
    let fields = fields
        .iter()
        .map(|(name, value)| format!("{}: {value}", text(name)));
    format!("{{{}}}", fields.collect::<Vec<_>>().join(", "))
}

pub fn array(values: impl IntoIterator<Item = String>) -> String {
    format!("[{}]", values.into_iter().collect::<Vec<_>>().join(", "))
}

/// A date, or a date and time, that may be missing.
pub fn time(time: Option<impl Display>) -> String {
    optional(time.map(|time| text(&time.to_string())))
}

/// A value that may be missing.
pub fn optional(value: Option<impl Display>) -> String {
    value.map_or("null".to_string(), |value| value.to_string())
}
