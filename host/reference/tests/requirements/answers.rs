//! Numbers, words and the encoding of answers.

use reference::{Answer, Ground};

const WORDS: [&str; 19] = [
    "SHORT",
    "BOOT",
    "WINDOW",
    "LOGAREA",
    "ROOT",
    "RECORD",
    "UNCLEAN",
    "NAME",
    "ABSENT",
    "DIRECTORY",
    "EXISTS",
    "ROOTFULL",
    "CHAIN",
    "LENGTH",
    "NOSPACE",
    "LOCKED",
    "LONGNAME",
    "CLOCK",
    "SIZE",
];

#[test]
fn grounds_have_their_numbers_and_words() {
    for (index, ground) in Ground::ALL.into_iter().enumerate() {
        assert_eq!(ground.number(), index as u32 + 1);
        assert_eq!(ground.name(), WORDS[index]);
        assert_eq!(ground.to_string(), WORDS[index]);
    }
}

#[test]
fn answers_encode_as_code_and_count() {
    assert_eq!(Answer::Done(0).encode(), 0);
    assert_eq!(Answer::Done(u32::MAX).encode(), 0xFFFF_FFFF);
    assert_eq!(Answer::Stopped(7).encode(), 0xFF_0000_0007);
    assert_eq!(Answer::No.encode(), 0xFE_0000_0000);
    assert_eq!(Answer::Refused(Ground::Short).encode(), 1 << 32);
    assert_eq!(Answer::Refused(Ground::Nospace).encode(), 15 << 32);
    assert_eq!(Answer::Refused(Ground::Locked).encode(), 16 << 32);
    assert_eq!(Answer::Refused(Ground::Longname).encode(), 17 << 32);
    assert_eq!(Answer::Refused(Ground::Clock).encode(), 18 << 32);
    assert_eq!(Answer::Refused(Ground::Size).encode(), 19 << 32);
}
