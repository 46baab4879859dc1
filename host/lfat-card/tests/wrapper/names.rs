//! Names from an entry's bytes.

use crate::{at, card_with_route, name};
use lfat_card::{calls, printed, Answer, Card, CardView, Entry, LongName, Name, Refusal};
use reference::card_k;
use testkit::random::Random;
use testkit::AT;

/// Bytes make a name where the library takes them for one.
#[test]
fn as_the_library_has_them() {
    let card = card_k();
    let characters = b"AZ09!#$%&'()-@^_`{}~ ABC   az*+,./:;<=>?[]|\"\\\x05\x7f\xE5";
    let mut random = Random::new(0x7157_3C1D_22F8_04E9);
    let (mut good, mut bad) = (0, 0);
    for _ in 0..4_000 {
        let bound = if random.one_in(3) {
            characters.len()
        } else {
            24
        };
        let mut bytes: Vec<u8> = (0..11).map(|_| characters[random.below(bound)]).collect();
        let (stem, extension) = (random.below(9), random.below(4));
        bytes[stem..8].fill(b' ');
        bytes[8 + extension..].fill(b' ');
        let is_name = calls::read(&card, &bytes, 0, &mut []) != Answer::Refused(Refusal::Name);
        let shown = bytes.escape_ascii();
        match Name::from_bytes(&bytes) {
            Ok(name) => {
                assert!(is_name && name.bytes() == bytes, "{shown}");
                assert_eq!(Name::parse(&name.to_string()), Ok(name), "{shown}");
                good += 1;
            }
            Err(refusal) => {
                assert!(!is_name && refusal == Refusal::Name, "{shown}");
                bad += 1;
            }
        }
    }
    assert!(good > 500 && bad > 500, "{good} {bad}");
    for length in [0, 1, 8, 10, 12, 32] {
        assert_eq!(Name::from_bytes(&vec![b'A'; length]), Err(Refusal::Name));
    }
}

#[test]
fn from_an_entry() {
    let window = card_with_route(5);
    let entries = CardView::new(&window).list().expect("clean");
    assert_eq!(entries[0].to_name(), Ok(name("ROUTE.CUT")));
    let mut other = entries[0];
    other.0[0] = b'r';
    assert_eq!(other.to_name(), Err(Refusal::Name));
    assert_eq!(Entry([0; 32]).to_name(), Err(Refusal::Name));
}

/// Any bytes can be shown, also too few or too many.
#[test]
fn shown_whatever_they_are() {
    let bytes: Vec<u8> = (0..=255).collect();
    for length in 0..20 {
        for start in 0..bytes.len() - length {
            let text = printed(&bytes[start..][..length]);
            assert!(text.len() <= length + 1 && text.bytes().all(|byte| byte.is_ascii_graphic()));
        }
    }
    assert_eq!(printed(b"ROUTE   CUT"), "ROUTE.CUT");
    assert_eq!(printed(b"ROUTE"), "ROUTE");
}

/// Characters make a long name where the library takes them for one.
#[test]
fn long_names_as_the_library_has_them() {
    let mut card = card_k();
    let mut random = Random::new(0x243F_6A88_85A3_08D3);
    let (mut good, mut bad) = (0, 0);
    for round in 0..2_000 {
        let length = random.pick(&[0, 1, 2, 13, 100, 207, 208, 209, 300]);
        let mut characters: Vec<u16> = (0..length)
            .map(|_| 33 + 256 * random.below(90) as u16)
            .collect();
        if random.one_in(2) && length > 0 {
            let at = random.below(length);
            characters[at] = round % 260;
        }
        let bytes = testkit::characters::bytes_of(&characters);
        let answer = calls::create_long(&mut card, b"ROUTE   CUT", &bytes, AT, 0);
        match LongName::from_characters(&characters) {
            Ok(name) => {
                assert_eq!(answer, Answer::Stopped(0), "{characters:?}");
                assert!(name.bytes() == bytes && name.characters() == characters);
                assert_eq!(name.len(), length);
                good += 1;
            }
            Err(refusal) => {
                assert_eq!(answer, Answer::Refused(refusal), "{characters:?}");
                assert_eq!(refusal, Refusal::Longname);
                bad += 1;
            }
        }
    }
    assert!(good > 400 && bad > 400, "{good} {bad}");
}

/// Text becomes UTF-16, and what was created is read back; a name without a long one has no characters.
#[test]
fn long_names_as_text() {
    let boat = LongName::parse("\u{1F6F6} σχέδιο.cut").expect("a long name");
    assert_eq!(boat.to_string(), "\u{1F6F6} σχέδιο.cut");
    assert_eq!(boat.len(), 13);
    assert_eq!("\u{1F6F6} σχέδιο.cut".parse(), Ok(boat.clone()));
    for text in [
        "",
        "a*b",
        "a\tb",
        &"x".repeat(209),
        &"\u{1F6F6}".repeat(105),
    ] {
        assert_eq!(LongName::parse(text), Err(Refusal::Longname));
    }
    assert!(LongName::parse(&"\u{1F6F6}".repeat(104)).is_ok());
    let mut window = card_with_route(5);
    let mut card = Card::new(&mut window);
    let panel = name("PANEL.CUT");
    assert_eq!(card.create_long(panel, &boat, at()), Ok(3));
    assert_eq!(card.long_name(panel), Ok(boat.characters()));
    assert_eq!(card.long_name(name("ROUTE.CUT")), Ok(Vec::new()));
    assert_eq!(card.long_name(name("KEEL")), Err(Refusal::Absent));
    assert_eq!(
        card.create_long(name("KEEL"), &boat, at()),
        Err(Refusal::Exists)
    );
    assert_eq!(
        card.create_long(panel, &LongName::parse("other").unwrap(), at()),
        Err(Refusal::Exists)
    );
    let half = LongName::from_characters(&[0xD800]).expect("allowed");
    assert_eq!(half.to_string(), "\u{FFFD}");
}

/// Names of other systems, of up to 260 characters, are read whole.
#[test]
fn the_longest_long_name() {
    let card = testkit::long_names::card_with(30, 20);
    let characters = CardView::new(&card.bytes)
        .long_name(name("ROUTE.CUT"))
        .expect("clean");
    assert_eq!(characters.len(), 260);
    assert_eq!(characters, card.characters(30));
}
