//! Dates: the calendar, texts, the words of entries, and what the calls set.

use crate::{at, card_with_route, name, points};
use lfat_card::{
    calls, Answer, Card, CardView, Date, DateTime, Entry, LongName, Operation, Refusal,
};
use reference::stamp;
use testkit::dates::{random_seconds, words, LAST_SECOND};
use testkit::random::Random;

fn time(text: &str) -> DateTime {
    text.parse().expect("a date and a time")
}

/// Seconds to a date and back, with the reference's stamp and that of another calendar, every day at its first and last second.
#[test]
fn every_day() {
    let mut random = Random::new(0xCBBB_9D5D_C105_9ED8);
    let mut before = None;
    for day in 0..=LAST_SECOND / 86_400 {
        let start = day * 86_400;
        for seconds in [start, start + 86_399, start + random.below(86_400) as u32] {
            let time = DateTime::from_seconds(seconds).expect("within 2107");
            assert_eq!(time.seconds(), Ok(seconds), "{time}");
            assert_eq!(time.to_string().parse(), Ok(time));
            let (time_word, date_word) = words(seconds);
            let own = stamp(seconds).map(|stamp| (stamp.time, stamp.date));
            assert_eq!(own, Some((time_word, date_word)), "{time}");
            let read = DateTime::from_fat(date_word, time_word).expect("a date");
            assert_eq!(read.seconds(), Ok(seconds / 2 * 2), "{time}");
            assert_eq!(Date::from_fat(date_word), Some(time.date()));
        }
        let date = DateTime::from_seconds(start).expect("within 2107").date();
        // Later days are greater, as values and as texts.
        assert!(before
            .is_none_or(|before: Date| before < date && before.to_string() < date.to_string()));
        before = Some(date);
    }
    assert_eq!(before, Date::new(2107, 12, 31));
    for _ in 0..1_000 {
        let seconds = random_seconds(&mut random);
        let read = DateTime::from_seconds(seconds).and_then(DateTime::seconds);
        let due = if seconds > LAST_SECOND {
            Err(Refusal::Clock)
        } else {
            Ok(seconds)
        };
        assert_eq!(read, due);
    }
}

#[test]
fn first_and_last() {
    assert_eq!(DateTime::from_seconds(0), Ok(DateTime::FIRST));
    assert_eq!(DateTime::FIRST.to_string(), "1980-01-01T00:00:00");
    let last = time("2107-12-31T23:59:59");
    assert_eq!(last.seconds(), Ok(LAST_SECOND));
    assert_eq!(DateTime::from_seconds(LAST_SECOND), Ok(last));
    for late in [LAST_SECOND + 1, u32::MAX] {
        assert_eq!(DateTime::from_seconds(late), Err(Refusal::Clock));
    }
    for text in [
        "1979-12-31T23:59:59",
        "2108-01-01T00:00:00",
        "0000-01-01T00:00:00",
        "9999-12-31T23:59:59",
    ] {
        assert_eq!(time(text).seconds(), Err(Refusal::Clock), "{text}");
    }
    let parts = time("2026-11-17T09:05:07");
    assert_eq!((parts.hour(), parts.minute(), parts.second()), (9, 5, 7));
    let date = parts.date();
    assert_eq!((date.year(), date.month(), date.day()), (2026, 11, 17));
    assert_eq!(date.to_string(), "2026-11-17");
}

#[test]
fn texts_that_are_no_times() {
    for text in [
        "",
        "T",
        "2026-11-17",
        "2026-11-17T19:30",
        "2026-11-17 19:30:58",
        "2026-11-17t19:30:58",
        "2026-11-17T19:30:58Z",
        " 2026-11-17T19:30:58",
        "2026-11-17T19:30:5",
        "2026-11-17T19:30:058",
        "26-11-17T19:30:58",
        "+026-11-17T19:30:58",
        "2026-+1-17T19:30:58",
        "2026/11/17T19:30:58",
        "2026-11-17T19.30.58",
        "2026-00-17T19:30:58",
        "2026-13-17T19:30:58",
        "2026-11-00T19:30:58",
        "2026-11-31T19:30:58",
        "2026-02-29T00:00:00",
        "2100-02-29T00:00:00",
        "1900-02-29T00:00:00",
        "2026-11-17T24:00:00",
        "2026-11-17T19:60:58",
        "2026-11-17T19:30:60",
        "２026-11-17T19:30:5",
        "2026-11-17T19:30:5\u{661}",
        "10000-01-01T00:00:00",
        "x",
    ] {
        let parsed = text.parse::<DateTime>();
        assert!(parsed.is_err(), "{text:?}: {parsed:?}");
    }
    let error = "x".parse::<DateTime>().unwrap_err();
    assert_eq!(
        error.to_string(),
        "not a date and time as 2026-11-17T19:30:58"
    );
    for text in [
        "2000-02-29T00:00:00",
        "2024-02-29T23:59:59",
        "1600-02-29T00:00:00",
    ] {
        assert_eq!(time(text).to_string(), text);
    }
}

/// Of all words just those are dates whose month and day are there, and those times whose hour, minute and second are.
#[test]
fn every_word() {
    let mut dates: Vec<Date> = (0..=u16::MAX).filter_map(Date::from_fat).collect();
    assert_eq!(dates.len(), 46_751);
    dates.sort();
    dates.dedup();
    assert_eq!(dates.len(), 46_751);
    let times = (0..=u16::MAX).filter_map(|time| DateTime::from_fat(0x0021, time));
    let seconds: Vec<u32> = times.map(|time| time.seconds().expect("1980")).collect();
    assert!(seconds.into_iter().eq((0..86_400).step_by(2)));
    for (date, time) in [
        (0, 0),
        (0x0001, 0),
        (0x0020, 0),
        (0x01A1, 0),
        (0x0021, 0xC000),
        (0x0021, 0x001E),
        (0xF05D, 0),
    ] {
        assert_eq!(
            DateTime::from_fat(date, time),
            None,
            "{date:04x} {time:04x}"
        );
    }
    assert_eq!(
        DateTime::from_fat(0xFF9F, 0xBF7D),
        Some(time("2107-12-31T23:59:58"))
    );
}

/// Creation, access and write stand where the FAT paper has them, each for itself.
#[test]
fn places_in_an_entry() {
    let mut bytes = [0; 32];
    assert_eq!(Entry(bytes).created(), None);
    assert_eq!(Entry(bytes).written(), None);
    assert_eq!(Entry(bytes).accessed(), None);
    for (at, text) in [
        (14, "1990-03-05T01:02:04"),
        (18, "2001-07-09T00:00:00"),
        (22, "2026-11-17T19:30:58"),
    ] {
        let (time_word, date_word) = words(time(text).seconds().expect("within 2107"));
        if at != 18 {
            bytes[at..at + 2].copy_from_slice(&time_word.to_le_bytes());
        }
        let date_at = if at == 18 { 18 } else { at + 2 };
        bytes[date_at..date_at + 2].copy_from_slice(&date_word.to_le_bytes());
    }
    let entry = Entry(bytes);
    assert_eq!(entry.created(), Some(time("1990-03-05T01:02:04")));
    assert_eq!(entry.accessed(), Date::new(2001, 7, 9));
    assert_eq!(entry.written(), Some(time("2026-11-17T19:30:58")));
    // Hundredths of a creation: 100 to 199 are the odd second, more are none.
    for (hundredths, second) in [(0, 4), (99, 4), (100, 5), (199, 5), (200, 4), (255, 4)] {
        bytes[13] = hundredths;
        let created = Entry(bytes).created().expect("a date");
        assert_eq!(created.second(), second, "{hundredths}");
        assert_eq!(Entry(bytes).written().map(DateTime::second), Some(58));
    }
}

/// Which dates each call sets, an odd second rounded down.
#[test]
fn what_the_calls_set() {
    let (route, panel) = (name("ROUTE.CUT"), name("PANEL.CUT"));
    let mut window = card_with_route(700);
    let mut card = Card::new(&mut window);
    let dates = |card: &Card, slot: usize| {
        let entry = card.list().expect("clean")[slot];
        let shown = |time: Option<DateTime>| time.expect("a time").to_string();
        (
            shown(entry.created()),
            shown(entry.written()),
            entry.accessed().expect("a date").to_string(),
        )
    };
    let created = "2026-06-17T13:45:30".to_string();
    assert_eq!(
        dates(&card, 0),
        (created.clone(), created.clone(), "2026-06-17".to_string())
    );
    for (step, text) in [
        "2027-01-01T00:00:01",
        "2030-02-28T23:59:59",
        "2099-12-31T12:00:00",
    ]
    .into_iter()
    .enumerate()
    {
        let later = time(text);
        let made = match step {
            0 => card.append(route, b"G0\n", later),
            1 => card.replace(route, &points(600), later),
            _ => card.truncate(route, 0, later),
        };
        assert!(made.is_ok_and(|stores| stores > 2), "{text}");
        let even = DateTime::from_seconds(later.seconds().unwrap() / 2 * 2).unwrap();
        let wanted = (created.clone(), even.to_string(), even.date().to_string());
        assert_eq!(dates(&card, 0), wanted, "{text}");
    }
    // Nothing stored, nothing dated; a replace always dates, by no bytes too.
    let before = dates(&card, 0);
    assert_eq!(card.append(route, b"", at()), Ok(0));
    assert_eq!(card.truncate(route, 0, at()), Ok(0));
    assert_eq!(dates(&card, 0), before);
    assert_eq!(card.replace(route, b"", at()), Ok(3));
    assert_eq!(
        dates(&card, 0),
        (created.clone(), created.clone(), "2026-06-17".to_string())
    );
    // A file with a long name; and a rename keeps what there is.
    let long = LongName::parse("port side.cut").expect("a long name");
    assert_eq!(
        card.create_long(panel, &long, time("2107-12-31T23:59:59")),
        Ok(3)
    );
    let last = "2107-12-31T23:59:58".to_string();
    let wanted = (last.clone(), last, "2107-12-31".to_string());
    assert_eq!(dates(&card, 1), wanted);
    card.rename(panel, name("KEEL")).expect("granted");
    let entries = card.list().expect("clean");
    let at = entries.iter().position(|entry| entry.name() == "KEEL");
    assert_eq!(dates(&card, at.expect("renamed")), wanted);
}

/// A time that a card cannot hold is refused by the library: after what is wrong with the card, before what is with the name.
#[test]
fn out_of_range() {
    let (route, none) = (name("ROUTE.CUT"), name("KEEL"));
    let start = card_with_route(700);
    for text in ["1979-12-31T23:59:59", "2108-01-01T00:00:00"] {
        let at = time(text);
        let mut window = start.clone();
        let mut card = Card::new(&mut window);
        let clock = Err(Refusal::Clock);
        assert_eq!(card.create(none, at), clock);
        assert_eq!(card.create(route, at), clock);
        assert_eq!(
            card.create_long(none, &LongName::parse("x").unwrap(), at),
            clock
        );
        assert_eq!(card.append(route, b"", at), clock);
        assert_eq!(card.append(none, b"G0", at), clock);
        assert_eq!(card.replace(none, b"", at), clock);
        assert_eq!(card.truncate(route, 700, at), clock);
        assert_eq!(card.truncate(route, 701, at), clock);
        let operation = Operation::Create { name: none, at };
        assert_eq!(card.run(&operation, 0), Answer::Refused(Refusal::Clock));
        assert!(window == start);
        window[512] = 1;
        assert_eq!(
            Card::new(&mut window).create(none, at),
            Err(Refusal::Unclean)
        );
    }
    // The calls as they are: the number decides, and a name is not looked at before it.
    let mut window = start.clone();
    let late = LAST_SECOND + 1;
    let refused = Answer::Refused(Refusal::Clock);
    assert_eq!(calls::create(&mut window, b"", late, 0), refused);
    assert_eq!(
        calls::create_long(&mut window, b"KEEL       ", b"*", late, 0),
        refused
    );
    assert_eq!(
        calls::create(&mut window, b"KEEL       ", LAST_SECOND, 0),
        Answer::Stopped(0)
    );
    assert!(window == start);
    assert_eq!(CardView::new(&window).list().map(|list| list.len()), Ok(1));
}
