//! Timing of one call under both implementations.

use crate::call::Call;
use reference::{plan, Answer, Store};
use std::cell::Cell;
use std::fmt;
use std::hint::black_box;
use std::ops::Range;
use std::time::{Duration, Instant};

const LIMIT: u32 = u32::MAX;
const LEAST_RUNS: usize = 31;
const MOST_RUNS: usize = 301;
/// No more runs after this time.
const ENOUGH: Duration = Duration::from_millis(150);

/// Medians in microseconds: of the library, of what it is compared with, and of how much longer it took in each turn.
pub struct Times {
    library: f64,
    plain: f64,
    difference: f64,
}

impl Times {
    pub fn ratio(&self) -> f64 {
        self.library / self.plain
    }

    /// The library's time against another one, in microseconds.
    pub fn against(&self, other: f64) -> f64 {
        self.library / other
    }

    /// How much longer the library took, in nanoseconds.
    pub fn nanoseconds_more(&self) -> f64 {
        self.difference * 1e3
    }

    /// The times of one of so many runs that were timed together.
    pub fn of_one(self, runs: usize) -> Times {
        let runs = runs as f64;
        Times {
            library: self.library / runs,
            plain: self.plain / runs,
            difference: self.difference / runs,
        }
    }
}

impl fmt::Display for Times {
    fn fmt(&self, f: &mut fmt::Formatter) -> fmt::Result {
        write!(
            f,
            "{:.1} / {:.1} = {:.2}",
            self.library,
            self.plain,
            self.ratio()
        )
    }
}

/// Runs the call by turns under both, each time on the card as it is given.
pub fn compare(card: &mut [u8], call: &Call) -> Times {
    let (stores, undo) = stores_of(card, call);
    let mut buffer = vec![0; call.room()];
    by_turns(|| {
        let start = Instant::now();
        let answer = call.on_library(black_box(card), LIMIT, &mut buffer);
        let library = start.elapsed();
        assert_made(card, &stores);
        put_back(card, &undo);

        let start = Instant::now();
        let expected = call.on_reference(black_box(card), LIMIT, &mut buffer);
        let plain = start.elapsed();
        put_back(card, &undo);
        assert_eq!(answer.encode(), expected.encode(), "{call:?}");
        let is_granted = matches!(expected, Answer::Done(_) | Answer::No);
        assert!(is_granted, "{call:?}");
        (library, plain)
    })
}

/// Runs the call by turns with one memcpy of the bytes that it moves to or from that place of the card.
pub fn compare_copy(card: &mut [u8], call: &Call, place: Range<usize>) -> Times {
    let (_, undo) = stores_of(card, call);
    let mut buffer = vec![0; call.room()];
    by_turns(|| {
        let start = Instant::now();
        let answer = call.on_library(black_box(card), LIMIT, &mut buffer);
        let library = start.elapsed();
        put_back(card, &undo);
        assert_eq!(answer.encode() >> 32, 0, "{call:?}");

        let start = Instant::now();
        match call {
            Call::Append(_, data, _) => black_box(&mut card[place.clone()]).copy_from_slice(data),
            _ => black_box(&mut buffer).copy_from_slice(&card[place.clone()]),
        }
        let memcpy = start.elapsed();
        put_back(card, &undo);
        (library, memcpy)
    })
}

/// Runs a loop that copies these bytes into a buffer by turns with one memcpy of them.
pub fn compare_loop(bytes: &mut [u8]) -> Times {
    let mut buffer = vec![0; bytes.len()];
    by_turns(|| {
        let start = Instant::now();
        copy_by_loop(cells(black_box(&mut buffer)), cells(bytes));
        let looped = start.elapsed();

        let start = Instant::now();
        black_box(&mut buffer).copy_from_slice(bytes);
        (looped, start.elapsed())
    })
}

fn cells(bytes: &mut [u8]) -> &[Cell<u8>] {
    Cell::from_mut(bytes).as_slice_of_cells()
}

/// Cells may be shared, so the compiler cannot call memcpy here.
#[inline(never)]
fn copy_by_loop(to: &[Cell<u8>], from: &[Cell<u8>]) {
    for (to, from) in to.iter().zip(from) {
        to.set(from.get());
    }
}

/// The median time, in microseconds, of one memcpy of so many bytes between two buffers that are used for nothing else.
pub fn copy_between_buffers(bytes: usize) -> f64 {
    let from = vec![7_u8; bytes];
    let mut to = vec![0_u8; bytes];
    let times = (0..MOST_RUNS)
        .map(|_| elapsed(&mut || black_box(&mut to).copy_from_slice(black_box(&from))))
        .map(microseconds)
        .collect();
    median(times)
}

/// The stores that a call makes, and the bytes that they overwrite, with their places.
fn stores_of(card: &[u8], call: &Call) -> (Vec<Store>, Vec<(usize, Vec<u8>)>) {
    let stores = call.operation().map_or(Vec::new(), |operation| {
        plan(card, &operation).expect("accepted")
    });
    let undo = stores
        .iter()
        .map(|store| (store.sector * 512, sector(card, store.sector).to_vec()))
        .collect();
    (stores, undo)
}

fn by_turns(mut turn: impl FnMut() -> (Duration, Duration)) -> Times {
    let mut times: Vec<(f64, f64)> = Vec::new();
    let begun = Instant::now();
    while times.len() < LEAST_RUNS || times.len() < MOST_RUNS && begun.elapsed() < ENOUGH {
        let (library, plain) = turn();
        times.push((microseconds(library), microseconds(plain)));
    }
    let median_of = |one: fn(&(f64, f64)) -> f64| median(times.iter().map(one).collect());
    Times {
        library: median_of(|turn| turn.0),
        plain: median_of(|turn| turn.1),
        difference: median_of(|turn| turn.0 - turn.1),
    }
}

/// Runs two functions by turns.
pub fn compare_runs(mut library: impl FnMut(), mut plain: impl FnMut()) -> Times {
    by_turns(|| (elapsed(&mut library), elapsed(&mut plain)))
}

fn elapsed(run: &mut impl FnMut()) -> Duration {
    let start = Instant::now();
    run();
    start.elapsed()
}

fn sector(card: &[u8], number: usize) -> &[u8] {
    &card[number * 512..][..512]
}

/// The last store of each sector is on the card.
fn assert_made(card: &[u8], stores: &[Store]) {
    let last = stores.last().map(|store| store.sector);
    for store in stores {
        let is_group = Some(store.sector) == last && sector(card, store.sector)[0] == 0xE5;
        assert!(is_group || sector(card, store.sector) == store.bytes);
    }
}

fn put_back(card: &mut [u8], undo: &[(usize, Vec<u8>)]) {
    for (at, old) in undo {
        card[*at..at + 512].copy_from_slice(old);
    }
}

fn microseconds(time: Duration) -> f64 {
    time.as_secs_f64() * 1e6
}

fn median(mut times: Vec<f64>) -> f64 {
    times.sort_by(f64::total_cmp);
    times[times.len() / 2]
}
