//! Dates on a disk: set by the calls that date, and by their recovery; a list with another date is not used.

use crate::support::cards::{
    card_over, characters, points, two_files, Verb, ALL, EARLIER, NEW, PANEL, ROUTE,
};
use crate::support::cuts::{examine, run, Build, Depth, Ships};
use crate::support::lying::{Event, Lying};
use lfat_card::{DateTime, Refusal};
use lfat_disk::lists::{Lists, Planned};
use lfat_disk::{clock, Access, DiskCard, Entry, Error, Operation, Program};
use reference::Ground;
use std::time::{SystemTime, UNIX_EPOCH};
use testkit::dates::LAST_SECOND;
use testkit::AT;

const THOROUGH: Depth = Depth {
    all_below: 5,
    recoveries: true,
};

/// A number of seconds as a card holds it.
fn even(seconds: u32) -> Option<DateTime> {
    DateTime::from_seconds(seconds / 2 * 2).ok()
}

fn assert_dated(entry: &Entry, created: u32, written: u32) {
    assert_eq!(entry.created(), even(created), "{}", entry.name());
    assert_eq!(entry.written(), even(written), "{}", entry.name());
    let day = even(written).map(DateTime::date);
    assert_eq!(entry.accessed(), day, "{}", entry.name());
}

/// Every call that dates, with a time of its own; the dates are on the disk, and so are those of a card opened anew.
#[test]
fn what_each_call_sets() {
    let mut disk = Lying::new(&two_files());
    let mut card = DiskCard::on(&mut disk, Planned, Access::Write).expect("opened");
    card.create(NEW, AT).expect("granted");
    card.create_long(b"LONG    CUT", characters(30), LAST_SECOND)
        .expect("granted");
    card.append(ROUTE, &points(900), AT + 1).expect("granted");
    card.replace(PANEL, &points(70), AT + 86_400)
        .expect("granted");
    let entries = card.list().expect("clean");
    let wanted = [
        ("ROUTE.CUT", EARLIER, AT + 1),
        ("PANEL.CUT", EARLIER, AT + 86_400),
        ("NEW.CUT", AT, AT),
        ("LONG.CUT", LAST_SECOND, LAST_SECOND),
    ];
    for (entry, (name, created, written)) in entries.iter().zip(wanted) {
        assert_eq!(entry.name(), name);
        assert_dated(entry, created, written);
    }
    assert_eq!(entries.len(), 4);
    card.truncate(PANEL, 7, AT + 200_000).expect("granted");
    // Nothing stored, nothing dated.
    assert_eq!(card.append(ROUTE, &[], 9).expect("granted"), 0);
    assert_eq!(card.truncate(PANEL, 7, 9).expect("granted"), 0);
    drop(card);
    let kept = Lying::new(&disk.kept.to_vec());
    let card = DiskCard::on(kept, Planned, Access::Read).expect("opened");
    let entries = card.list().expect("clean");
    assert_dated(&entries[0], EARLIER, AT + 1);
    assert_dated(&entries[1], EARLIER, AT + 200_000);
}

/// Calls that change dates alone: a cut leaves the old ones or the new, and so do cuts of the recoveries.
#[test]
fn dates_are_old_or_new() {
    let mut empty = two_files();
    reference::truncate(&mut empty, ROUTE, 0, EARLIER, ALL);
    let replace = |data: &'static [u8]| Operation::Replace {
        name: ROUTE,
        data,
        seconds: AT,
    };
    let same: &'static [u8] = points(1_300).leak();
    for (card, call) in [(&empty, replace(&[])), (&two_files(), replace(same))] {
        let verb = Verb::Calls(vec![call]);
        let tried = examine(&Ships, card, &verb, THOROUGH).expect("old or new");
        assert!(tried.old > 3 && tried.new > 3, "{tried:?}");
    }
}

/// Lists that are right but for the date.
#[derive(Clone, Copy, Debug)]
enum OtherDate {
    /// Another second, in the stamp and in the root directory.
    Later,
    /// No stamp in the group, as before groups had one.
    None,
    /// The stamp is not marked in the end.
    Unmarked,
}

impl Lists for OtherDate {
    fn program<'a>(&self, card: &[u8], operation: &Operation<'a>) -> Result<Program<'a>, Ground> {
        let mut asked = *operation;
        if let (OtherDate::Later, Operation::Append { seconds, .. }) = (self, &mut asked) {
            *seconds += 2;
        }
        let mut program = reference::program(card, &asked)?;
        let barriers = program.segments.iter_mut().flat_map(|s| &mut s.barrier);
        for barrier in barriers {
            let bytes = &mut barrier.bytes[32..64];
            match (self, bytes[0]) {
                (OtherDate::None, _) => bytes.fill(0),
                (OtherDate::Unmarked, 0xE5) => bytes[0] = 0x54,
                _ => {}
            }
        }
        Ok(program)
    }
}

impl Build for OtherDate {
    type Disk<'a> = &'a mut Lying;
    type Lists = OtherDate;

    fn disk<'a>(&self, disk: &'a mut Lying) -> &'a mut Lying {
        disk
    }

    fn lists(&self) -> OtherDate {
        *self
    }
}

#[test]
fn a_list_with_another_date() {
    let start = two_files();
    let append = Operation::Append {
        name: ROUTE,
        data: &[7; 700],
        seconds: AT,
    };
    for other in [OtherDate::Later, OtherDate::None, OtherDate::Unmarked] {
        let verb = Verb::Calls(vec![append]);
        let (disk, answer) = run(&other, &Lying::new(&start), &verb);
        assert!(matches!(answer, Err(Error::Disagree)), "{other:?}");
        assert!(disk.kept == *start && disk.back.is_empty(), "{other:?}");
    }
}

/// A time past 2107 is refused, also where nothing would be stored, and where an earlier call of the same save is granted.
#[test]
fn a_time_past_the_last() {
    let start = two_files();
    let late = LAST_SECOND + 1;
    let create = |seconds| Operation::Create { name: NEW, seconds };
    let append = |data, seconds| Operation::Append {
        name: NEW,
        data,
        seconds,
    };
    for calls in [
        vec![create(late)],
        vec![create(u32::MAX)],
        vec![append(&[], late)],
        vec![create(AT), append(&[1; 600], late)],
    ] {
        let verb = Verb::Calls(calls);
        let (disk, answer) = run(&Ships, &Lying::new(&start), &verb);
        let is_late = matches!(answer, Err(Error::Refused(Refusal::Clock)));
        assert!(is_late, "{verb:?}: {answer:?}");
        assert!(disk.kept == *start && disk.back.is_empty(), "{verb:?}");
        let is_written = |event: &Event| matches!(event, Event::Write(..));
        assert!(!disk.events.iter().any(is_written), "{verb:?}");
    }
}

/// A save that is pending from before groups had a stamp is RECORD; nothing is written, and finished ones do no harm.
#[test]
fn pending_from_before() {
    let mut cut = two_files();
    reference::append(&mut cut, ROUTE, &points(1_300), AT, 6);
    let logged = |card: &[u8]| (65..73).find(|sector| card[sector * 512 + 32] == 0x54);
    let sector = logged(&cut).expect("a stamp that is pending");
    cut[sector * 512 + 32..][..32].fill(0);
    let mut disk = Lying::new(&cut);
    let mut card = DiskCard::on(&mut disk, Planned, Access::Write).expect("opened");
    assert!(matches!(
        card.recover(),
        Err(Error::Refused(Refusal::Record))
    ));
    drop(card);
    assert!(disk.kept == *cut && disk.back.is_empty());

    let mut old = card_over(&two_files());
    for sector in 65..73 {
        old.bytes[sector * 512 + 32..][..32].fill(0);
    }
    let mut disk = Lying::new(&old.bytes);
    let mut card = DiskCard::on(&mut disk, Planned, Access::Write).expect("opened");
    assert_eq!(card.recover().expect("clean"), 0);
    card.append(ROUTE, &points(9), AT).expect("granted");
}

/// The clock of this machine, wherever it stands: within a day of Greenwich's.
#[test]
fn the_clock_of_this_machine() {
    let since = SystemTime::now().duration_since(UNIX_EPOCH);
    let since = since.expect("after 1970").as_secs() as i64;
    let now = clock::now().expect("a date").seconds().expect("a card's");
    assert!((i64::from(now) + 315_532_800 - since).abs() < 86_400 + 60);
    for far in [i64::MAX, i64::MIN, 300_000_000_000, -70_000_000_000] {
        assert!(clock::local(far).is_err(), "{far}");
    }
    let early = clock::local(-86_400 * 400).expect("a date");
    assert_eq!(early.seconds(), Err(Refusal::Clock));
}
