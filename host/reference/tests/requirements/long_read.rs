//! Reading long names, and which of them are taken.

use crate::support::long_create::*;
use crate::support::run_done;
use reference::*;
use testkit::cards::Card;
use testkit::{ALL, AT, OTHER, PANEL, ROUTE};

/// What is read with so much room: the answer, and that no byte after the characters is touched.
fn read_back(card: &Card, name: &[u8], room: usize) -> (Answer, Vec<u8>) {
    let mut buffer = vec![0xA5; room];
    let answer = long_name(&card.bytes, name, &mut buffer);
    (answer, buffer)
}

#[test]
fn as_many_as_fit() {
    for length in [1, 12, 13, 14, 26, 27, 208] {
        let mut card = Card::k();
        let given = bytes_of(&letters(length));
        run_done(&mut card.bytes, &hull_named(&given));
        for room in (0..40).chain([2 * length - 1, 2 * length, 2 * length + 1, 600]) {
            let (answer, buffer) = read_back(&card, HULL, room);
            assert_eq!(answer, Answer::Done(length as u32));
            let copied = (2 * length).min(room / 2 * 2);
            assert_eq!(buffer[..copied], given[..copied], "{length} {room}");
            assert!(
                buffer[copied..].iter().all(|&byte| byte == 0xA5),
                "{length} {room}"
            );
        }
    }
}

/// Every character that is allowed is read back as it was given: at each place of a slot, 0xFFFF and halves of pairs too.
#[test]
fn every_allowed_character() {
    let forbidden = [34, 42, 47, 58, 60, 62, 63, 92, 124];
    let all: Vec<u16> = (32..=0xFFFF).filter(|c| !forbidden.contains(c)).collect();
    assert_eq!(all.len(), 65_536 - 32 - 9);
    for name in all.chunks(208) {
        let mut card = Card::k();
        let given = bytes_of(name);
        run_done(&mut card.bytes, &hull_named(&given));
        let (answer, buffer) = read_back(&card, HULL, given.len());
        assert_eq!(answer, Answer::Done(name.len() as u32));
        assert_eq!(buffer, given);
    }
}

/// The first zero ends a name, 0xFFFF never does; 260 characters at most.
#[test]
fn where_a_name_ends() {
    for count in [1, 2, 19, 20] {
        let mut card = Card::k();
        card.put_slot(30, ROUTE, 0x20, 0, 0);
        for slot in 0..30 {
            card.slot_mut(slot)[0] = 0xE5;
        }
        card.put_long_entries(30, count);
        let whole = card.characters(30);
        assert_eq!(whole.len(), 13 * count);
        let (answer, buffer) = read_back(&card, ROUTE, 600);
        assert_eq!(answer, Answer::Done(13 * count as u32));
        assert_eq!(buffer[..26 * count], bytes_of(&whole));
        for (place, at) in [1, 3, 5, 7, 9, 14, 16, 18, 20, 22, 24, 28, 30]
            .into_iter()
            .enumerate()
        {
            let mut ended = card.clone();
            ended.slot_mut(30 - count)[at..at + 2].fill(0);
            let (answer, _) = read_back(&ended, ROUTE, 0);
            let expected = 13 * (count - 1) + place;
            assert_eq!(answer, Answer::Done(expected as u32), "{count} {place}");
            ended.slot_mut(30 - count)[at..at + 2].fill(0xFF);
            let (answer, _) = read_back(&ended, ROUTE, 0);
            assert_eq!(answer, Answer::Done(13 * count as u32));
        }
    }
}

/// Without long entries, or with broken ones, there are none; the entries of request 4, no others.
#[test]
fn none_there() {
    let mut card = Card::k();
    card.put_slot(0, ROUTE, 0x20, 0, 0);
    assert_eq!(read_back(&card, ROUTE, 9), (Answer::Done(0), vec![0xA5; 9]));
    for (slot, at, byte) in [
        (14, 0, 0x43),
        (16, 0, 0x41 ^ 0x40 ^ 0x02),
        (15, 11, 0x2F),
        (15, 13, 0x12),
        (14, 0, 0x03),
        (16, 0, 0xE5),
    ] {
        let mut card = testkit::long_names::card_with(17, 3);
        assert_eq!(read_back(&card, ROUTE, 0).0, Answer::Done(39));
        card.slot_mut(slot)[at] = byte;
        let there = if (slot, at, byte) == (14, 0, 0x43) {
            39
        } else {
            0
        };
        let answer = if there == 0 {
            vec![0xA5; 5]
        } else {
            read_back(&card, ROUTE, 5).1
        };
        assert_eq!(read_back(&card, ROUTE, 5), (Answer::Done(there), answer));
    }
    assert_eq!(
        read_back(&testkit::long_names::card_with(30, 21), ROUTE, 0).0,
        Answer::Done(0)
    );
}

/// A directory's long name is read too; labels have none.
#[test]
fn directories() {
    let mut card = Card::k();
    run_done(&mut card.bytes, &hull_named(&bytes_of(&letters(30))));
    card.slot_mut(3)[11] = 0x10;
    assert_eq!(read_back(&card, HULL, 0).0, Answer::Done(30));
    card.slot_mut(3)[11] = 0x08;
    assert_eq!(read_back(&card, HULL, 0).0, Answer::Refused(Ground::Absent));
}

/// Grounds 1 to 9, and no byte of the buffer is altered.
#[test]
fn grounds_of_reading() {
    let mut card = Card::k();
    run_done(&mut card.bytes, &hull_named(&bytes_of(&letters(30))));
    let mut unclean = card.clone();
    create(&mut unclean.bytes, PANEL, AT, 1);
    let short = Card {
        bytes: card.bytes[..511].to_vec(),
        ..card.clone()
    };
    for (card, name, ground) in [
        (&short, &HULL[..], Ground::Short),
        (&unclean, HULL, Ground::Unclean),
        (&unclean, b"hull", Ground::Unclean),
        (&card, b"hull", Ground::Name),
        (&card, b"hull7s~1cut", Ground::Name),
        (&card, ROUTE, Ground::Absent),
    ] {
        let refused = (Answer::Refused(ground), vec![0xA5; 80]);
        assert_eq!(read_back(card, name, 80), refused);
    }
    let mut locked = card.clone();
    locked.slot_mut(3)[11] = 0x21;
    assert_eq!(read_back(&locked, HULL, 0).0, Answer::Done(30));
}

fn answer_of(card: &Card, name: &[u8], characters: &[u16]) -> Answer {
    let mut card = card.clone();
    let before = card.bytes.clone();
    let answer = reference::create_long(&mut card.bytes, name, &bytes_of(characters), AT, ALL);
    assert!(matches!(answer, Answer::Done(_)) || card.bytes == before);
    answer
}

/// The lengths, characters and odd bytes that LONGNAME refuses; every forbidden character at every place.
#[test]
fn which_long_names_are_refused() {
    let card = Card::k();
    let refused = Answer::Refused(Ground::Longname);
    for length in [0, 209, 210, 240, 260, 1_000, 40_000] {
        assert_eq!(
            answer_of(&card, HULL, &letters(length)),
            refused,
            "{length}"
        );
    }
    for bytes in [1, 3, 25, 415, 417] {
        let mut own = card.bytes.clone();
        let answer = reference::create_long(&mut own, HULL, &vec![b'a'; bytes], AT, ALL);
        assert_eq!(answer, refused, "{bytes}");
        assert!(own == card.bytes);
    }
    let forbidden = (0..32).chain("\"*/:<>?\\|".encode_utf16());
    for character in forbidden {
        for (length, at) in [(1, 0), (13, 12), (14, 13), (208, 0), (208, 100), (208, 207)] {
            let mut name = letters(length);
            name[at] = character;
            assert_eq!(answer_of(&card, HULL, &name), refused, "{character} {at}");
            name[at] = character + 0x100;
            assert!(matches!(answer_of(&card, HULL, &name), Answer::Done(_)));
        }
    }
    let allowed = (32..127).filter(|c| !"\"*/:<>?\\|".encode_utf16().any(|f| f == *c));
    for character in allowed.chain([127, 128, 255, 0xD800, 0xFFFF]) {
        let answer = answer_of(&card, HULL, &[character]);
        assert_eq!(answer, Answer::Done(3), "{character}");
    }
}

/// LONGNAME is asked right after NAME, and before EXISTS and ROOTFULL.
#[test]
fn order_of_grounds() {
    let mut card = Card::k();
    run_done(&mut card.bytes, &hull_named(&letters_bytes()));
    card.fill_root(3);
    let bad = [42];
    let (name, long) = (Ground::Name, Ground::Longname);
    assert_eq!(answer_of(&card, b"hull", &bad), Answer::Refused(name));
    assert_eq!(answer_of(&card, HULL, &bad), Answer::Refused(long));
    assert_eq!(answer_of(&card, PANEL, &bad), Answer::Refused(long));
    // The root directory is full: a name that is taken is told first.
    let exists = Answer::Refused(Ground::Exists);
    assert_eq!(answer_of(&card, HULL, &letters(5)), exists);
    assert_eq!(answer_of(&card, PANEL, &letters(20)), exists);
    assert_eq!(
        answer_of(&card, PANEL, &letters(5)),
        Answer::Refused(Ground::Rootfull)
    );
    create(&mut card.bytes, OTHER, AT, 0);
    let mut unclean = Card::k();
    create(&mut unclean.bytes, OTHER, AT, 1);
    assert_eq!(
        answer_of(&unclean, b"hull", &bad),
        Answer::Refused(Ground::Unclean)
    );
}

fn letters_bytes() -> Vec<u8> {
    bytes_of(&letters(20))
}

/// EXISTS by the long name as it is read back: same characters, of a file or a directory, case counts; by the short name as ever.
#[test]
fn which_long_names_are_taken() {
    let text = |text: &str| text.encode_utf16().collect::<Vec<u16>>();
    let mut card = Card::k();
    run_done(
        &mut card.bytes,
        &hull_named(&bytes_of(&text("Panel 7.cut"))),
    );
    let exists = Answer::Refused(Ground::Exists);
    let done = Answer::Done(3);
    for (name, given, expected) in [
        (PANEL, "Panel 7.cut", exists),
        (PANEL, "panel 7.cut", done),
        (PANEL, "Panel 7.cu", done),
        (PANEL, "Panel 7.cut ", done),
        (HULL, "other", exists),
        (HULL, "Panel 7.cut", exists),
        // Short names are not compared with characters, in either direction.
        (PANEL, "HULL7S~1.CUT", done),
        (PANEL, "HULL7S~1CUT", done),
    ] {
        assert_eq!(answer_of(&card, name, &text(given)), expected, "{given}");
    }
    // Plain create and rename do not ask for long names.
    let mut other = card.clone();
    run_done(
        &mut other.bytes,
        &Operation::Create {
            name: PANEL,
            seconds: AT,
        },
    );
    // A directory, a locked file and a name twice as long count.
    for attributes in [0x10, 0x21, 0x00] {
        let mut card = card.clone();
        card.slot_mut(1)[11] = attributes;
        assert_eq!(answer_of(&card, PANEL, &text("Panel 7.cut")), exists);
    }
    // Labels, deleted slots and broken entries never match.
    for (slot, at, byte) in [
        (1, 11, 0x08),
        (1, 0, 0xE5),
        (0, 0, 0x01),
        (0, 13, 0),
        (0, 11, 0x1F),
    ] {
        let mut card = card.clone();
        card.slot_mut(slot)[at] = byte;
        let answer = answer_of(&card, PANEL, &text("Panel 7.cut"));
        assert!(matches!(answer, Answer::Done(_)), "{slot} {at}: {answer:?}");
    }
}

/// What stands after the zero does not count: other fillers, and a name that ends in a zero of its own.
#[test]
fn taken_as_read_back() {
    let mut card = Card::k();
    run_done(&mut card.bytes, &hull_named(&bytes_of(&letters(5))));
    for at in [16, 18, 20, 22, 24, 28, 30] {
        card.slot_mut(0)[at..at + 2].fill(b'x');
    }
    let exists = Answer::Refused(Ground::Exists);
    assert_eq!(answer_of(&card, PANEL, &letters(5)), exists);
    // Names of 20 entries are compared whole: 208 characters do not match the beginning of 260.
    let mut card = testkit::long_names::card_with(30, 20);
    let whole = card.characters(30);
    assert_eq!(answer_of(&card, PANEL, &whole[..208]), Answer::Done(4));
    card.slot_mut(30 - 17)[1..3].fill(0);
    assert_eq!(card.characters(30).len(), 208);
    assert_eq!(answer_of(&card, PANEL, &whole[..208]), exists);
}
