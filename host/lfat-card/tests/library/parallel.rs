//! Calls on different cards at the same time, and calls that read one card: as one after the other.

use std::thread;
use testkit::call::Call;
use testkit::cards::Card;
use testkit::fixtures::furnished_card;
use testkit::fresh::fresh;
use testkit::random::Random;
use testkit::steps::random_call;
use testkit::{ALL, AT, ROUTE};

const THREADS: u64 = 4;

/// A history of its own, with what was answered; by either implementation.
fn history(seed: u64, run: impl Fn(&Call, &mut Card, &mut [u8]) -> u64) -> (Vec<u64>, Vec<u8>) {
    let mut random = Random::new(seed);
    let mut card = furnished_card(&mut random);
    let answers = (0..400).map(|_| {
        let call = random_call(&mut random, &card);
        run(&call, &mut card, &mut vec![0; call.room()])
    });
    (answers.collect(), card.bytes)
}

fn on_library(call: &Call, card: &mut Card, buffer: &mut [u8]) -> u64 {
    call.on_library(&mut card.bytes, ALL, buffer).encode()
}

fn on_reference(call: &Call, card: &mut Card, buffer: &mut [u8]) -> u64 {
    call.on_reference(&mut card.bytes, ALL, buffer).encode()
}

#[test]
fn different_cards() {
    let threads: Vec<_> = (0..THREADS)
        .map(|seed| thread::spawn(move || history(seed, on_library)))
        .collect();
    for (seed, thread) in threads.into_iter().enumerate() {
        let (answers, card) = thread.join().expect("no panic");
        let (expected, other) = history(seed as u64, on_reference);
        assert!(answers == expected && card == other, "seed {seed}");
    }
}

/// Formats of different cards at the same time, each cut and begun again.
#[test]
fn different_formats() {
    let threads: Vec<_> = (0..THREADS as u32)
        .map(|number| {
            thread::spawn(move || {
                let asked = fresh(4_150 + 997 * number, 1, 1 + 40 * number);
                let mut card = vec![number as u8; asked.window()];
                for limit in 1..asked.stores() {
                    let answer = asked.call().on_library(&mut card, limit, &mut []);
                    assert_eq!(answer, lfat_card::Answer::Stopped(limit));
                }
                let answer = asked.call().on_library(&mut card, ALL, &mut []);
                assert_eq!(answer, lfat_card::Answer::Done(asked.stores()));
                let (front, rest) = card.split_at(512 * asked.end());
                assert!(front == asked.front());
                assert!(rest.iter().all(|&byte| byte == number as u8));
            })
        })
        .collect();
    for thread in threads {
        thread.join().expect("no panic");
    }
}

#[test]
fn reads_of_one_card() {
    let mut card = Card::k();
    let data = Random::new(5).bytes(50_000);
    Call::Create(ROUTE.to_vec(), AT).on_library(&mut card.bytes, ALL, &mut []);
    Call::Append(ROUTE.to_vec(), data.clone(), AT).on_library(&mut card.bytes, ALL, &mut []);
    let card = &card.bytes;
    thread::scope(|scope| {
        for seed in 0..THREADS {
            let data = &data;
            scope.spawn(move || {
                let mut random = Random::new(seed);
                for _ in 0..200 {
                    let (offset, mut buffer) = (random.below(60_000), vec![0; random.below(9_000)]);
                    let answer = lfat_card::calls::read(card, ROUTE, offset as u64, &mut buffer);
                    let part = data.get(offset..).unwrap_or_default();
                    let read = part.len().min(buffer.len());
                    assert_eq!(answer, lfat_card::Answer::Done(read as u32));
                    assert!(buffer[..read] == part[..read]);
                    // The file has 98 clusters from 10 on, and the next is free.
                    let fits = lfat_card::calls::fits(card, 1 + random.below(512) as u64);
                    assert_eq!(fits, lfat_card::Answer::Done(108));
                }
            });
        }
    });
}
