//! Format cut after every store: the card is as before, or refused with BOOT by every other call, or finished; and begun again it
//! ends the same.

use crate::support::{pattern, run_done};
use reference::{card_k, run, Answer, Ground};
use testkit::call::Call;
use testkit::cards::Card;
use testkit::fresh::{fresh, other_calls, FRESH_K};
use testkit::random::Random;
use testkit::{ALL, AT, ROUTE};

/// What each call answers, each on a copy of the card.
fn answers(card: &[u8]) -> Vec<Answer> {
    let calls = other_calls().into_iter();
    calls
        .map(|call| {
            let mut buffer = vec![0; call.room()];
            call.on_reference(&mut card.to_vec(), ALL, &mut buffer)
        })
        .collect()
}

/// Every call answers BOOT, and neither card nor buffer is altered.
fn refused_by_all(card: &mut [u8], before: &[u8]) {
    for call in other_calls() {
        let mut buffer = vec![0x5A; call.room()];
        let answer = call.on_reference(card, ALL, &mut buffer);
        assert_eq!(answer, Answer::Refused(Ground::Boot), "{call:?}");
        assert!(buffer.iter().all(|&byte| byte == 0x5A), "{call:?}");
    }
    assert!(card == before);
}

/// Card K with a file of 1,300 bytes.
fn with_a_file() -> Vec<u8> {
    let mut card = Card::k();
    run_done(
        &mut card.bytes,
        &Call::Create(ROUTE.to_vec(), AT).operation().unwrap(),
    );
    let append = Call::Append(ROUTE.to_vec(), pattern(1_300, 0), AT);
    run_done(&mut card.bytes, &append.operation().unwrap());
    card.bytes
}

/// An unclean card, one that has been formatted, a window that holds anything.
fn windows() -> [Vec<u8>; 4] {
    let mut unclean = with_a_file();
    let delete = Call::Delete(ROUTE.to_vec());
    let cut = run(&mut unclean, &delete.operation().unwrap(), 2);
    assert_eq!(cut, Answer::Stopped(2));
    let mut finished = card_k();
    assert_eq!(
        run(&mut finished, &FRESH_K.operation(), ALL),
        Answer::Done(74)
    );
    let noise = Random::new(8).bytes(4_150 * 512);
    [with_a_file(), unclean, finished, noise]
}

#[test]
fn every_cut() {
    for start in windows() {
        let mut whole = start.clone();
        assert_eq!(run(&mut whole, &FRESH_K.operation(), ALL), Answer::Done(74));
        assert!(whole[..73 * 512] == FRESH_K.front());
        for limit in 0..=75 {
            let mut card = start.clone();
            let answer = run(&mut card, &FRESH_K.operation(), limit);
            match limit {
                0 => assert!(card == start && answer == Answer::Stopped(0)),
                1..=73 => {
                    assert_eq!(answer, Answer::Stopped(limit));
                    // No boot sector, the tables up to the cut, and the old bytes after them.
                    let made = limit as usize * 512;
                    let tables = &whole[512..made];
                    let cut = [&[0; 512], tables, &start[made..]].concat();
                    refused_by_all(&mut card, &cut);
                }
                _ => assert!(card == whole && answer == Answer::Done(74)),
            }
            assert_eq!(run(&mut card, &FRESH_K.operation(), ALL), Answer::Done(74));
            assert!(card == whole, "begun again after {limit}");
        }
    }
}

/// Before the first store the calls are granted or refused as ever, after the last the empty card is there.
#[test]
fn before_and_after() {
    let start = with_a_file();
    let granted = answers(&start);
    assert!(granted
        .iter()
        .all(|answer| matches!(answer, Answer::Done(_))));
    let mut card = start.clone();
    assert_eq!(run(&mut card, &FRESH_K.operation(), 0), Answer::Stopped(0));
    assert_eq!(answers(&card), granted);
    assert_eq!(run(&mut card, &FRESH_K.operation(), 74), Answer::Done(74));
    let absent = Answer::Refused(Ground::Absent);
    // Group, root sector and commit of the creates; cluster 10 is the first that is free.
    let expected = [
        Answer::Done(3),
        Answer::Done(3),
        absent,
        absent,
        absent,
        absent,
        absent,
        Answer::Done(0),
        absent,
        Answer::Done(0),
        Answer::Done(10),
        absent,
    ];
    assert_eq!(answers(&card), expected);
}

/// Cut, begun again with other numbers, cut again: the last one decides.
#[test]
fn cut_again_and_again() {
    let mut random = Random::new(9);
    let forms = [
        FRESH_K,
        fresh(4_150, 1, 128),
        fresh(8_235, 2, 1),
        fresh(8_254, 1, 5),
    ];
    let start = random.bytes(8_254 * 512);
    for _ in 0..40 {
        let mut card = start.clone();
        for _ in 0..4 {
            let asked = random.pick(&forms);
            let limit = 1 + random.below(asked.stores() as usize - 1) as u32;
            let answer = run(&mut card, &asked.operation(), limit);
            assert_eq!(answer, Answer::Stopped(limit));
            let listed = reference::list(&card, &mut []);
            assert_eq!(listed, Answer::Refused(Ground::Boot));
        }
        let asked = random.pick(&forms);
        let answer = run(&mut card, &asked.operation(), ALL);
        assert_eq!(answer, Answer::Done(asked.stores()));
        assert!(card[..512 * asked.end()] == asked.front());
        assert_eq!(reference::list(&card, &mut []), Answer::Done(0));
    }
}
