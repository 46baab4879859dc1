//! What these tests share among themselves; `testkit` has what others use too.

pub mod history;
pub mod locked;
pub mod long;
pub mod long_create;
pub mod worked;

use reference::{list, plan, recover, run, Answer, Ground, Operation};
use testkit::call::Call;
use testkit::cards::Card;
use testkit::ALL;

/// A call that stores.
pub fn operation(call: &Call) -> Operation<'_> {
    call.operation().expect("a call that stores")
}

/// The sectors that a call would store, in order.
pub fn planned_sectors(card: &[u8], operation: &Operation) -> Vec<usize> {
    let stores = plan(card, operation).expect("accepted");
    stores.iter().map(|store| store.sector).collect()
}

/// Runs a call to its end and checks that it stored the given sectors.
pub fn run_storing(card: &mut [u8], operation: &Operation, sectors: &[usize]) {
    assert_eq!(planned_sectors(card, operation), sectors);
    let answer = run(card, operation, ALL);
    assert_eq!(answer, Answer::Done(sectors.len() as u32));
}

/// Runs a call to its end, which must be DONE.
pub fn run_done(card: &mut [u8], operation: &Operation) {
    let answer = run(card, operation, ALL);
    assert!(matches!(answer, Answer::Done(_)), "{answer:?}");
}

/// Bytes that differ from place to place and from seed to seed.
pub fn pattern(length: usize, seed: u8) -> Vec<u8> {
    (0..length)
        .map(|at| (at.wrapping_mul(7) ^ (at >> 8)) as u8 ^ seed | 1)
        .collect()
}

pub fn sector(card: &[u8], number: usize) -> &[u8] {
    &card[number * 512..][..512]
}

/// Whether recovery takes what is pending: refused as RECORD, with no byte altered, or done once and for all.
pub fn is_accepted(mut card: Card) -> bool {
    let before = card.bytes.clone();
    let listed = list(&card.bytes, &mut []);
    match recover(&mut card.bytes, ALL) {
        Answer::Refused(ground) => {
            assert_eq!(ground, Ground::Record);
            assert_eq!(listed, Answer::Refused(Ground::Record));
            assert!(card.bytes == before);
            false
        }
        answer => {
            assert!(matches!(answer, Answer::Done(1..)), "{answer:?}");
            assert_eq!(listed, Answer::Refused(Ground::Unclean));
            assert_eq!(recover(&mut card.bytes, ALL), Answer::Done(0));
            true
        }
    }
}
