//! The safe wrapper: names, entries, refusals, a card's whole life.

use crate::support::random::Random;
use crate::support::{points, ALL};
use lfat_card::{calls, Answer, Card, DateTime, Name, Operation, Refusal};
use reference::card_k;

fn name(text: &str) -> Name {
    Name::parse(text).expect("a name")
}

fn at() -> DateTime {
    "2026-06-17T13:45:31".parse().expect("a date and a time")
}

#[test]
fn names() {
    for (text, bytes) in [
        ("ROUTE.CUT", b"ROUTE   CUT"),
        ("A", b"A          "),
        ("12345678.123", b"12345678123"),
        ("!#$%&'()", b"!#$%&'()   "),
        ("-@^_`.{}~", b"-@^_`   {}~"),
        ("X.Y", b"X       Y  "),
    ] {
        assert_eq!(name(text).bytes(), bytes, "{text}");
        assert_eq!(name(text).to_string(), text);
        assert_eq!(text.parse(), Ok(name(text)));
    }
    let bad = [
        "",
        ".",
        ".CUT",
        "ROUTE.",
        "route.cut",
        "ROUTE.CUTS",
        "NINECHARS",
        "A B",
        "A ",
        " A",
        "A.B C",
        "A..B",
        "A.B.C",
        "ABCDEFGHIJK",
        "A/B",
        "A+B",
        "\u{c4}",
        "A\0",
    ];
    for text in bad {
        assert_eq!(Name::parse(text), Err(Refusal::Name), "{text:?}");
    }
}

/// What parses is a name to the library, and what does not is none.
#[test]
fn names_as_the_library_has_them() {
    let card = card_k();
    let characters = b"AZ09!#$%&'()-@^_`{}~az *+,/:;<=>?[]|\"\\\x7f";
    let mut random = Random::new(0x3C6E_F372_FE94_F82B);
    let pick = |random: &mut Random, length: usize| -> String {
        let bound = if random.below(3) == 0 {
            characters.len()
        } else {
            20
        };
        (0..length)
            .map(|_| char::from(characters[random.below(bound)]))
            .collect()
    };
    let (mut good, mut bad) = (0, 0);
    for _ in 0..4_000 {
        let (stem, extension) = (random.below(9), random.below(4));
        let (stem, extension) = (pick(&mut random, stem), pick(&mut random, extension));
        let dot = if extension.is_empty() { "" } else { "." };
        let text = format!("{stem}{dot}{extension}");
        // Spaces at a part's end fill it up on the card, but are no part of a name as written.
        if stem.ends_with(' ') || extension.ends_with(' ') {
            assert_eq!(Name::parse(&text), Err(Refusal::Name), "{text:?}");
            continue;
        }
        let bytes = format!("{stem:<8}{extension:<3}").into_bytes();
        let answer = calls::read(&card, &bytes, 0, &mut []);
        match Name::parse(&text) {
            Ok(name) => {
                assert_eq!(
                    (name.bytes(), answer),
                    (&bytes[..], Answer::Refused(Refusal::Absent))
                );
                good += 1;
            }
            Err(refusal) => {
                assert_eq!(
                    (refusal, answer),
                    (Refusal::Name, Answer::Refused(Refusal::Name)),
                    "{text:?}"
                );
                bad += 1;
            }
        }
    }
    assert!(good > 500 && bad > 500, "{good} {bad}");
}

#[test]
fn refusals_are_errors() {
    for number in 1..=19 {
        let refusal = Refusal::with_number(number).expect("a ground");
        assert_eq!(refusal.number(), number);
        let error: Box<dyn std::error::Error> = Box::new(refusal);
        let text = error.to_string();
        assert!(text.starts_with(refusal.name()) && text.ends_with(refusal.meaning()));
    }
    assert_eq!(Refusal::with_number(0), None);
    assert_eq!(Refusal::with_number(20), None);
}

#[test]
fn a_locked_file() {
    let mut window = crate::support::card_with_route(1_300);
    crate::support::mark_read_only(&mut window, 0);
    let before = window.clone();
    let mut card = Card::new(&mut window);
    let (route, panel) = (name("ROUTE.CUT"), name("PANEL"));
    let locked = Err(Refusal::Locked);
    assert_eq!(card.append(route, b"", at()), locked);
    assert_eq!(card.append(route, b"G0", at()), locked);
    assert_eq!(card.replace(route, b"G0", at()), locked);
    assert_eq!(card.truncate(route, 1_301, at()), locked);
    assert_eq!(card.rename(route, panel), locked);
    assert_eq!(card.delete(route), locked);
    assert_eq!(card.create(route, at()), Err(Refusal::Exists));
    assert_eq!(card.recover(), Ok(0));
    assert_eq!(card.read_whole(route), Ok(points(1_300)));
    assert!(card.list().expect("clean")[0].is_read_only());
    assert!(card.bytes() == before);
    card.create(panel, at()).expect("another file");
    assert!(!card.list().expect("clean")[1].is_read_only());
}

#[test]
fn a_whole_life() {
    let mut window = card_k();
    let mut card = Card::new(&mut window);
    let (route, panel) = (name("ROUTE.CUT"), name("PANEL"));
    assert_eq!(card.recover(), Ok(0));
    assert_eq!(card.create(route, at()), Ok(3));
    assert_eq!(card.create(route, at()), Err(Refusal::Exists));
    assert_eq!(card.append(route, &points(1_300), at()), Ok(8));
    assert_eq!(card.read_whole(route), Ok(points(1_300)));
    let mut part = [0; 10];
    assert_eq!(card.read(route, 1_295, &mut part), Ok(5));
    assert_eq!(part[..5], points(1_300)[1_295..]);
    assert_eq!(part[5..], [0; 5]);
    assert_eq!(card.replace(route, &points(700), at()), Ok(7));
    assert_eq!(card.read_whole(route), Ok(points(700)));
    assert_eq!(
        card.replace(panel, &points(700), at()),
        Err(Refusal::Absent)
    );
    let operation = Operation::Replace {
        name: route,
        data: &points(1_300),
        at: at(),
    };
    assert_eq!(card.run(&operation, ALL), Answer::Done(8));
    assert_eq!(card.read_whole(route), Ok(points(1_300)));
    assert_eq!(card.truncate(route, 512, at()), Ok(5));
    assert_eq!(card.truncate(route, 513, at()), Err(Refusal::Length));
    assert_eq!(card.rename(route, panel), Ok(3));
    assert_eq!(card.read_whole(route), Err(Refusal::Absent));

    let entries = card.list().expect("clean");
    assert_eq!(entries.len(), 1);
    let entry = entries[0];
    assert_eq!((entry.name().as_str(), entry.size()), ("PANEL", 512));
    assert_eq!((entry.first_cluster(), entry.attributes()), (10, 0x20));
    assert!(!entry.is_directory());

    assert_eq!(
        card.run(&Operation::Delete { name: panel }, 3),
        Answer::Stopped(3)
    );
    assert_eq!(card.list(), Err(Refusal::Unclean));
    assert_eq!(card.recover(), Ok(2));
    assert_eq!(card.list(), Ok(vec![]));
    assert_eq!(card.delete(panel), Err(Refusal::Absent));
}
