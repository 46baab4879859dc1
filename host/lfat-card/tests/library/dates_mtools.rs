//! Dates, judged by mtools: `mdir` shows those that were given, `mcopy -m` writes the same entries and gives the same times to
//! files, and dates that mtools wrote stay through calls on other files. `support::image` has how the cards are made.
//! `LFAT_CASES=N` tries N times as many random moments.

use crate::support::image::Image;
use lfat_card::calls::{self, Answer};
use std::fs::{self, File};
use std::time::{Duration, SystemTime, UNIX_EPOCH};
use testkit::characters::bytes_of_text;
use testkit::dates::LAST_SECOND;
use testkit::random::Random;
use testkit::{cases, ALL, AT};

/// From 1970 to 1980.
const FROM_1970: u64 = 315_532_800;
/// 1 March 2100. mcopy 4.0.32 takes 2100 for a leap year when it reads an entry, but not when it writes one; mdir shows what is there.
const MARCH_2100: u32 = 43_889 * 86_400;

/// Seconds, and what mdir shows.
const SHOWN: [(u32, &str); 14] = [
    (0, "1980-01-01 0:00"),
    (59, "1980-01-01 0:00"),
    (60, "1980-01-01 0:01"),
    (86_399, "1980-01-01 23:59"),
    (59 * 86_400, "1980-02-29 0:00"),
    (366 * 86_400 - 1, "1980-12-31 23:59"),
    (366 * 86_400, "1981-01-01 0:00"),
    (7_364 * 86_400 + 43_200, "2000-02-29 12:00"),
    (7_365 * 86_400 - 1, "2000-02-29 23:59"),
    (AT, "2026-06-17 13:45"),
    (MARCH_2100 - 1, "2100-02-28 23:59"),
    (MARCH_2100, "2100-03-01 0:00"),
    (45_349 * 86_400, "2104-02-29 0:00"),
    (LAST_SECOND, "2107-12-31 23:59"),
];

fn done(answer: Answer) {
    assert!(matches!(answer, Answer::Done(1..)), "{answer:?}");
}

/// Date and time of each file by its name, as mdir shows them.
fn shown(image: &Image) -> Vec<(String, String)> {
    let text = String::from_utf8(image.tool("mdir", &["-a", "::"])).expect("text");
    let lines = text.lines().map(|line| line.split_whitespace());
    lines
        .filter_map(|words| {
            let words: Vec<&str> = words.collect();
            let date = words.iter().position(|word| {
                word.len() == 10 && word.as_bytes()[4] == b'-' && word.as_bytes()[7] == b'-'
            })?;
            let moment = format!("{} {}", words[date], words[date + 1]);
            Some((words[0].to_string(), moment))
        })
        .collect()
}

/// The root slots from the first on, up to the end of the directory.
fn slots(card: &[u8]) -> Vec<Vec<u8>> {
    let fat = usize::from(u16::from_le_bytes([card[22], card[23]]));
    let root = &card[(1 + 2 * fat) * 512..];
    let used = root.chunks(32).take_while(|slot| slot[0] != 0);
    used.map(<[u8]>::to_vec).collect()
}

fn slot_of(card: &[u8], name: &[u8]) -> Vec<u8> {
    let mut slots = slots(card).into_iter();
    slots.find(|slot| slot.starts_with(name)).expect("the slot")
}

fn name(number: usize) -> Vec<u8> {
    format!("M{number:07}CUT").into_bytes()
}

/// Has mtools write a file that was last written at the seconds.
fn copy_in_at(image: &mut Image, data: &[u8], seconds: u32, path: &str) {
    let source = image.file.with_extension("source");
    fs::write(&source, data).expect("the source");
    let moment = UNIX_EPOCH + Duration::from_secs(FROM_1970 + u64::from(seconds));
    let file = File::options().write(true).open(&source).expect("it");
    file.set_modified(moment).expect("its time");
    drop(file);
    image.save();
    let from = source.to_str().expect("plain path");
    image.tool("mcopy", &["-m", "-o", from, path]);
    fs::remove_file(&source).expect("the source");
    image.load();
}

/// The time that mtools gives to a copy of the file.
fn copied_out(image: &Image, path: &str) -> SystemTime {
    let copy = image.file.with_extension("out");
    let to = copy.to_str().expect("plain path");
    image.tool("mcopy", &["-m", "-n", path, to]);
    let time = fs::metadata(&copy).and_then(|data| data.modified());
    fs::remove_file(&copy).expect("the copy");
    time.expect("a time")
}

#[test]
fn mdir_shows_what_was_given() {
    let mut image = Image::format("shown.img", 1, 2_200, 512);
    let mut expected = Vec::new();
    for (number, (seconds, text)) in SHOWN.into_iter().enumerate() {
        done(calls::create(&mut image.card, &name(number), seconds, ALL));
        expected.push((format!("M{number:07}"), text.to_string()));
    }
    image.save();
    assert_eq!(shown(&image), expected);
    // The others set the date of writing, each over what was there before.
    for (number, (seconds, text)) in SHOWN.into_iter().rev().enumerate() {
        let (card, name) = (&mut image.card, name(number));
        done(calls::append(card, &name, &[7; 600], AT, ALL));
        match number % 3 {
            0 => done(calls::append(card, &name, b"more", seconds, ALL)),
            1 => done(calls::replace(card, &name, b"path", seconds, ALL)),
            _ => done(calls::truncate(card, &name, 5, seconds, ALL)),
        }
        expected[number].1 = text.to_string();
    }
    image.save();
    assert_eq!(shown(&image), expected);
    image.check();
}

/// Empty files of the same moments, written by mtools with `mcopy -m` and by the library: entries are the same in every byte after
/// the name, creation and access too.
#[test]
fn the_same_entries_as_mtools() {
    let mut random = Random::new(92_000);
    let mut moments: Vec<u32> = SHOWN.iter().map(|(seconds, _)| *seconds).collect();
    for _ in 0..cases(30) {
        moments.push((random.next() >> 20) as u32 % (LAST_SECOND + 1));
    }
    let mut image = Image::format("entries-at.img", 1, 2_200, 512);
    for (number, seconds) in moments.into_iter().enumerate() {
        copy_in_at(&mut image, b"", seconds, "::/THEIRS.CUT");
        let own = name(number);
        done(calls::create(&mut image.card, &own, seconds, ALL));
        let theirs = slot_of(&image.card, b"THEIRS  CUT");
        let own = slot_of(&image.card, &own);
        assert_eq!(own[11..], theirs[11..], "{seconds}");
    }
}

/// Copies of files have the time of their last writing, to two seconds.
#[test]
fn copies_have_the_time() {
    let mut image = Image::format("copies.img", 1, 2_200, 512);
    let before = SHOWN.iter().filter(|(seconds, _)| *seconds < MARCH_2100);
    for (number, &(seconds, _)) in before.enumerate() {
        let (card, name) = (&mut image.card, name(number));
        done(calls::create(card, &name, AT, ALL));
        done(calls::append(card, &name, b"path", seconds, ALL));
        image.save();
        let time = copied_out(&image, &format!("::/M{number:07}.CUT"));
        let even = FROM_1970 + u64::from(seconds & !1);
        assert_eq!(time, UNIX_EPOCH + Duration::from_secs(even), "{seconds}");
    }
}

/// Files of mtools, one with a long name, keep every byte of their slots through calls on other files; and ours through theirs.
#[test]
fn dates_of_others_stay() {
    let mut image = Image::format("stay.img", 4, 10_240, 512);
    for (number, (seconds, _)) in SHOWN.into_iter().enumerate() {
        let path = format!("::/T{number}.CUT");
        copy_in_at(&mut image, &[number as u8; 900], seconds, &path);
    }
    copy_in_at(&mut image, b"long", AT, "::/Hull 7 sheer panel.cut");
    let theirs = slots(&image.card);
    let kept = |image: &Image| slots(&image.card)[..theirs.len()] == theirs[..];
    let listed = shown(&image);
    let (card, own) = (&mut image.card, name(1));
    let characters = bytes_of_text("Hull 8 keel.cut");
    done(calls::create(card, &own, LAST_SECOND, ALL));
    done(calls::create_long(
        card,
        b"HULL8K~1CUT",
        &characters,
        3,
        ALL,
    ));
    done(calls::append(card, &own, &[9; 5_000], 86_400, ALL));
    done(calls::truncate(card, &own, 700, AT, ALL));
    done(calls::replace(card, b"HULL8K~1CUT", &[8; 300], AT, ALL));
    done(calls::rename(card, &own, b"OURS    CUT", ALL));
    assert!(kept(&image));
    image.save();
    assert_eq!(shown(&image)[..listed.len()], listed);
    let ours = slot_of(&image.card, b"OURS    CUT");
    assert_eq!(ours[14..20], [0x7D, 0xBF, 0x9F, 0xFF, 0xD1, 0x5C]);
    copy_in_at(&mut image, &[1; 4_000], 5, "::/T0.CUT");
    image.tool("mdel", &["::/T1.CUT"]);
    image.load();
    assert_eq!(slot_of(&image.card, b"OURS    CUT"), ours);
    image.check();
}

/// A file of mtools that the library changes keeps what mtools wrote of its creation, and its long name.
#[test]
fn files_of_mtools_changed() {
    let mut image = Image::format("changed.img", 1, 2_200, 512);
    copy_in_at(
        &mut image,
        &[1; 700],
        366 * 86_400,
        "::/Hull 7 sheer panel.cut",
    );
    let short = b"HULL7S~1CUT";
    let theirs = slot_of(&image.card, short);
    done(calls::append(&mut image.card, short, &[2; 700], AT, ALL));
    let mut expected = theirs.clone();
    expected[18..20].copy_from_slice(&[0xD1, 0x5C]);
    expected[22..26].copy_from_slice(&[0xAF, 0x6D, 0xD1, 0x5C]);
    expected[28..].copy_from_slice(&1_400_u32.to_le_bytes());
    assert_eq!(slot_of(&image.card, short), expected);
    image.save();
    let typed = image.tool("mtype", &["::/Hull 7 sheer panel.cut"]);
    assert!(typed == [[1; 700], [2; 700]].concat());
    assert_eq!(shown(&image)[0].1, "2026-06-17 13:45");
    image.check();
}
