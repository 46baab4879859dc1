//! Answers from numbers: all of them, also those of a newer library.

use lfat_card::{Answer, Refusal};

#[test]
fn every_number_has_an_answer() {
    for code in (0..300).chain([1 << 31, u64::from(u32::MAX)]) {
        let number = code << 32 | 7;
        let answer = Answer::decode(number);
        match (code, answer) {
            (0, Answer::Done(7)) | (255, Answer::Stopped(7)) => assert_eq!(answer.encode(), number),
            (254, Answer::No) => assert_eq!(answer.encode(), code << 32),
            (1..=253 | 256.., Answer::Refused(refusal)) => {
                assert_eq!(u64::from(refusal.number()), code);
                assert_eq!(answer.encode(), code << 32);
                let is_known = (1..20).contains(&code);
                assert_eq!(
                    matches!(refusal, Refusal::Unknown(_)),
                    !is_known,
                    "{refusal}"
                );
                assert_eq!(refusal.name() == "unknown", !is_known);
            }
            _ => panic!("{code}: {answer:?}"),
        }
    }
}
