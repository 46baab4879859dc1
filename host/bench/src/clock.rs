//! What the clock costs: a create at a moment, against one at the first second of 1980.

use crate::cards::{Card, Shape, NAME, SHAPES};
use crate::timing::compare_runs;
use lfat_card::calls::{create, Answer};
use std::cell::RefCell;
use std::hint::black_box;

/// Creates in one timing; they differ by nanoseconds.
const CREATES: usize = 50;
const SHAPE: Shape = SHAPES[0];
const DAY: u32 = 86_400;

pub fn print() {
    println!("## The clock\n");
    println!(
        "A create up to the store of its group, on 4,085 × 1, at a moment and at the first second of 1980, by turns, {CREATES} at a time. All\n\
         but the clock's work is the same. In microseconds, and the difference in nanoseconds.\n"
    );
    println!("| moment | create / at the first second = ratio | nanoseconds more |");
    println!("|---|---|---|");
    let card = RefCell::new(Card::empty(SHAPE).bytes);
    for (moment, seconds) in [
        ("1 January 1980, 0:00:00", 0),
        ("1 January 1981, 0:00:00", 366 * DAY),
        ("2 July 1981, 12:00:00", 548 * DAY + DAY / 2),
        ("31 December 1981, 23:59:59", 731 * DAY - 1),
        ("1 January 2107, 0:00:00", 46_386 * DAY),
        ("2 July 2107, 12:00:00", 46_568 * DAY + DAY / 2),
        ("31 December 2107, 23:59:59", 46_751 * DAY - 1),
    ] {
        let times = compare_runs(|| creates(&card, seconds), || creates(&card, 0)).of_one(CREATES);
        println!("| {moment} | {times} | {:.0} |", times.nanoseconds_more());
    }
    println!();
}

/// Begins to create a file at the seconds, time after time, with an empty log.
fn creates(card: &RefCell<Vec<u8>>, seconds: u32) {
    let card = &mut card.borrow_mut()[..];
    let group = 512 * SHAPE.data();
    for _ in 0..CREATES {
        let answer = create(black_box(card), NAME, black_box(seconds), 1);
        assert_eq!(answer, Answer::Stopped(1));
        card[group..group + 512].fill(0);
    }
}
