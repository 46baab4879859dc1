//! The safe wrapper: names from entries, cards that are only read, files being read, new cards, where the library is linked from.
//! `host/lfat/tests/host/wrapper.rs` has a card's whole life.

mod answers;
mod dates;
mod files;
mod format;
mod library_folder;
mod names;

use lfat_card::{Card, DateTime, Name};
use reference::card_k;

/// A path whose lines and bytes differ, cut off at a length.
fn points(length: usize) -> Vec<u8> {
    let lines = (0..).flat_map(|at| format!("G1 X{} Y{}\n", at * 7, at * 3 % 100).into_bytes());
    lines.take(length).collect()
}

fn name(text: &str) -> Name {
    Name::parse(text).expect("a name")
}

/// A time with an odd second.
fn at() -> DateTime {
    DateTime::new(2026, 6, 17, 13, 45, 31).expect("a date and a time")
}

/// Card K with the file ROUTE.CUT of so many bytes.
fn card_with_route(length: usize) -> Vec<u8> {
    let mut window = card_k();
    let mut card = Card::new(&mut window);
    card.create(name("ROUTE.CUT"), at()).expect("created");
    card.append(name("ROUTE.CUT"), &points(length), at())
        .expect("appended");
    window
}
