//! How much stack each call needs, on cards that drive the deepest paths: no more than the header says.
//!
//! `cargo test --release -p lfat-card --test stack -- --nocapture` prints the table of docs/BENCH.md.

mod cards;
mod measure;
mod painted;

use cards::{drive_formats, drive_large_cards, drive_random_cards};
use measure::{Measure, Most};

const HEADER: &str = include_str!("../../../../include/lfat.h");

/// What no call may need more of, whatever the header says.
const LIMIT: usize = 4_096;

/// The bytes that the header gives a call.
fn stated(call: &str) -> usize {
    let words = format!("lfat_{call} ");
    let (_, list) = HEADER.split_once("bytes of stack").expect("the list");
    let (_, rest) = list.split_once(&words).expect("the call");
    let number = rest.split([',', '.']).next().expect("a number");
    number.parse().expect("a number")
}

#[test]
fn no_call_needs_more() {
    let mut measure = Measure::new();
    drive_random_cards(&mut measure);
    drive_large_cards(&mut measure);
    drive_formats(&mut measure);
    println!("| call | bytes of stack | the header says |\n|---|---|---|");
    for (call, most) in &measure.most {
        println!("| {call} | {} | {} |", most.bytes, stated(call));
    }
    assert_eq!(measure.most.len(), 13);
    for (call, most) in &measure.most {
        let Most { bytes, place } = most;
        assert!(
            *bytes > 64,
            "{call}: {bytes} bytes, so nothing was measured"
        );
        assert!(
            *bytes <= stated(call) && stated(call) <= LIMIT,
            "{call} needs {bytes} bytes of stack on {place}"
        );
    }
}
