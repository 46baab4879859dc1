//! Cards that are only read, and files being read.

use crate::{card_with_route, name, points};
use lfat_card::{Card, CardView, Refusal};
use reference::CardSpec;
use std::io::{BufRead, BufReader, Error, ErrorKind, Read, Seek, SeekFrom};

const SIZE: usize = 3_000;

#[test]
fn a_card_that_is_only_read() {
    let mut window = card_with_route(SIZE);
    let copy = window.clone();
    let view = CardView::new(&copy);
    assert_eq!(view.bytes(), copy);
    assert_eq!(view.read_whole(name("ROUTE.CUT")), Ok(points(SIZE)));
    assert_eq!(view.open(name("PANEL.CUT")).err(), Some(Refusal::Absent));
    let mut part = [0; 10];
    assert_eq!(view.read(name("ROUTE.CUT"), 2_995, &mut part), Ok(5));
    assert_eq!(part[..5], points(SIZE)[2_995..]);
    let card = Card::new(&mut window);
    assert_eq!(view.list(), card.list());
    assert_eq!(card.view().bytes(), card.bytes());
}

/// A yes with its cluster, a no, and a refusal are three things; the card stays as it is.
#[test]
fn what_fits() {
    // Clusters 10 to 15 are taken, 16 to 4,086 free.
    let mut window = card_with_route(SIZE);
    let before = window.clone();
    let room = (4_086 - 15) * 512;
    let card = Card::new(&mut window);
    for (bytes, fits) in [
        (0, Some(0)),
        (1, Some(16)),
        (512, Some(16)),
        (513, Some(17)),
        (room, Some(4_086)),
        (room + 1, None),
        (1 << 32, None),
        (u64::MAX, None),
    ] {
        assert_eq!(card.fits(bytes), Ok(fits), "{bytes}");
        assert_eq!(CardView::new(&before).fits(bytes), Ok(fits), "{bytes}");
    }
    assert!(card.bytes() == before);
    window[512] = 1;
    for bytes in [0, 1, u64::MAX] {
        assert_eq!(CardView::new(&window).fits(bytes), Err(Refusal::Unclean));
        assert_eq!(CardView::new(&window[..9]).fits(bytes), Err(Refusal::Short));
    }
}

/// Delete and rename take the entries of the long name along; they are in no list, before or after.
#[test]
fn long_names_go_along() {
    let mut start = testkit::cards::Card {
        spec: CardSpec::K,
        bytes: card_with_route(SIZE),
    };
    let slot = start.give_long_name(0, 3).expect("room");
    let marked = |window: &[u8]| {
        (1..=slot)
            .map(|slot| window[33 * 512 + slot * 32])
            .collect::<Vec<u8>>()
    };
    for is_rename in [false, true] {
        let mut window = start.bytes.clone();
        let mut card = Card::new(&mut window);
        assert_eq!(card.list().map(|list| list.len()), Ok(1));
        let made = match is_rename {
            true => card.rename(name("ROUTE.CUT"), name("PANEL.CUT")),
            false => card.delete(name("ROUTE.CUT")),
        };
        assert_eq!(made, Ok(if is_rename { 3 } else { 5 }));
        assert_eq!(card.list().map(|list| list.len()), Ok(is_rename.into()));
        let first = card.bytes()[33 * 512];
        assert_eq!(first, if is_rename { b'P' } else { 0xE5 });
        assert_eq!(marked(&window), [0xE5; 4]);
    }
}

#[test]
fn in_pieces_of_any_length() {
    let window = card_with_route(SIZE);
    for length in [1, 7, 512, 513, 2_999, 3_000, 5_000] {
        let mut file = CardView::new(&window)
            .open(name("ROUTE.CUT"))
            .expect("a file");
        let (mut bytes, mut piece) = (Vec::<u8>::new(), vec![0; length]);
        loop {
            match file.read(&mut piece).expect("granted") {
                0 => break,
                read => bytes.extend(&piece[..read]),
            }
        }
        assert_eq!(bytes, points(SIZE), "{length}");
    }
}

#[test]
fn to_the_end() {
    let window = card_with_route(SIZE);
    let mut file = CardView::new(&window)
        .open(name("ROUTE.CUT"))
        .expect("a file");
    assert_eq!(file.size() as usize, SIZE);
    let mut bytes = b"kept".to_vec();
    file.seek(SeekFrom::Start(1_000)).expect("a place");
    assert_eq!(file.read_to_end(&mut bytes).expect("granted"), 2_000);
    assert_eq!(bytes, [b"kept", &points(SIZE)[1_000..]].concat());
    assert_eq!(file.read_to_end(&mut bytes).expect("granted"), 0);
    assert_eq!(bytes.len(), 2_004);
    file.rewind().expect("a place");
    let lines: Result<Vec<String>, Error> = BufReader::new(file).lines().collect();
    let text = String::from_utf8(points(SIZE)).expect("text");
    assert!(lines
        .expect("granted")
        .iter()
        .map(String::as_str)
        .eq(text.lines()));
}

#[test]
fn seeking() {
    let window = card_with_route(SIZE);
    let mut file = CardView::new(&window)
        .open(name("ROUTE.CUT"))
        .expect("a file");
    let places = [
        (SeekFrom::Start(2_990), Some(2_990)),
        (SeekFrom::Current(-90), Some(2_900)),
        (SeekFrom::End(-1), Some(2_999)),
        (SeekFrom::Current(-3_000), None),
        (SeekFrom::End(-3_001), None),
        (SeekFrom::End(0), Some(3_000)),
        (SeekFrom::Current(5), Some(3_005)),
        (SeekFrom::Start(u64::MAX), Some(u64::MAX)),
        (SeekFrom::Current(1), None),
        (SeekFrom::Start(0), Some(0)),
    ];
    let mut at = 0;
    for (place, expected) in places {
        match expected {
            Some(position) => {
                assert_eq!(file.seek(place).ok(), Some(position));
                at = position;
            }
            None => assert_eq!(
                file.seek(place).unwrap_err().kind(),
                ErrorKind::InvalidInput
            ),
        }
        assert_eq!(file.stream_position().ok(), Some(at), "{place:?}");
        let mut byte = [0];
        let wanted = points(SIZE).get(at as usize).copied();
        let read = file.clone().read(&mut byte).expect("granted");
        assert_eq!((read == 1).then_some(byte[0]), wanted, "{place:?}");
    }
}

/// A refusal as an error of input and output keeps its words, and has a kind that callers know.
#[test]
fn refusals_as_errors_of_input_and_output() {
    let refusals: Vec<Refusal> = (1..).map_while(Refusal::with_number).collect();
    assert_eq!(refusals.len(), 19);
    for refusal in refusals {
        let error = Error::from(refusal);
        assert_eq!(error.to_string(), refusal.to_string());
        let kind = match refusal.name() {
            "SIZE" | "CLOCK" | "NAME" | "LONGNAME" | "LENGTH" => ErrorKind::InvalidInput,
            "ABSENT" => ErrorKind::NotFound,
            "DIRECTORY" => ErrorKind::IsADirectory,
            "LOCKED" => ErrorKind::PermissionDenied,
            "EXISTS" => ErrorKind::AlreadyExists,
            "ROOTFULL" | "NOSPACE" => ErrorKind::StorageFull,
            _ => ErrorKind::InvalidData,
        };
        assert_eq!(error.kind(), kind, "{refusal}");
    }
}
