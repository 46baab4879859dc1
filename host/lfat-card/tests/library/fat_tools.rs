//! Debian's dosfstools and mtools on the same cards as the library: either reads what the other has written, byte for byte, and
//! fsck.fat finds nothing. The packages dosfstools and mtools must be there. `support::image` has how the cards are made.
//! `LFAT_CASES=N` makes N times as many steps.

use crate::support::image::Image;
use lfat_card::calls::{self, Answer};
use lfat_card::Refusal;
use std::collections::BTreeMap;
use testkit::random::Random;
use testkit::{cases, ALL, AT};

/// Names and bytes that the card should hold.
pub type Files = BTreeMap<[u8; 11], Vec<u8>>;

const NAMES: [&[u8; 11]; 8] = [
    b"ROUTE   CUT",
    b"PANEL_1 CUT",
    b"A          ",
    b"HULL#7  P  ",
    b"!$%&()-@1  ",
    b"^_`{}~  999",
    b"STEM-PLYCUT",
    b"0       1  ",
];

/// The name as people write it.
fn dotted(name: &[u8; 11]) -> String {
    let (base, extension) = name.split_at(8);
    let text = |part: &[u8]| String::from_utf8_lossy(part).trim_end().to_string();
    match text(extension).as_str() {
        "" => text(base),
        extension => format!("{}.{extension}", text(base)),
    }
}

/// Both the library and mtools find exactly these files, byte for byte, and the same room beside them.
pub fn assert_holds(image: &Image, files: &Files) {
    let names: Vec<String> = files.keys().map(dotted).collect();
    let mut sorted = names.clone();
    sorted.sort();
    assert_eq!(image.listed(), sorted);
    let count = calls::list(&image.card, &mut []);
    assert_eq!(count, Answer::Done(files.len() as u32));
    let room = image.free_bytes();
    let all = calls::fits(&image.card, room);
    assert!(matches!(all, Answer::Done(1..)), "{room}: {all:?}");
    assert_eq!(calls::fits(&image.card, room + 1), Answer::No, "{room}");
    for ((name, bytes), dotted) in files.iter().zip(names) {
        let mut buffer = vec![0xA5; bytes.len() + 600];
        let answer = calls::read(&image.card, name, 0, &mut buffer);
        assert_eq!(answer, Answer::Done(bytes.len() as u32), "{dotted}");
        assert!(buffer[..bytes.len()] == bytes[..], "{dotted}");
        let typed = image.tool("mtype", &[&format!("::/{dotted}")]);
        assert!(typed == *bytes, "mtype {dotted}");
    }
    image.check();
}

pub fn library_step(image: &mut Image, files: &mut Files, random: &mut Random) {
    let (name, new) = (*random.pick(&NAMES), *random.pick(&NAMES));
    let length = random.pick(&[0, 1, 511, 512, 513, 3_000, 20_000]);
    let data = random.bytes(length);
    let card = &mut image.card;
    let size = files.get(&name).map_or(0, |bytes| bytes.len());
    let smaller = random.below(size + 1);
    let done = |answer| assert!(matches!(answer, Answer::Done(_)), "{answer:?}");
    match (files.contains_key(&name), random.below(9)) {
        (false, _) => {
            done(calls::create(card, &name, AT, ALL));
            done(calls::append(card, &name, &data, AT, ALL));
            files.insert(name, data);
        }
        (true, 0..=2) => {
            done(calls::append(card, &name, &data, AT, ALL));
            files.get_mut(&name).expect("there").extend(data);
        }
        (true, 5..=7) => {
            done(calls::replace(card, &name, &data, AT, ALL));
            files.insert(name, data);
        }
        (true, 3) => {
            done(calls::truncate(card, &name, smaller as u64, AT, ALL));
            files.get_mut(&name).expect("there").truncate(smaller);
        }
        (true, 4) if !files.contains_key(&new) => {
            done(calls::rename(card, &name, &new, ALL));
            let bytes = files.remove(&name).expect("there");
            files.insert(new, bytes);
        }
        (true, _) => {
            done(calls::delete(card, &name, ALL));
            files.remove(&name);
        }
    }
    image.save();
}

pub fn tools_step(image: &mut Image, files: &mut Files, random: &mut Random) {
    let name = *random.pick(&NAMES);
    let path = format!("::/{}", dotted(&name));
    if files.contains_key(&name) && random.one_in(3) {
        image.tool("mdel", &[&path]);
        files.remove(&name);
    } else {
        let length = random.pick(&[0, 1, 512, 5_000, 40_000]);
        let data = random.bytes(length);
        image.copy_in(&data, &path);
        files.insert(name, data);
    }
    image.load();
}

/// Sectors per cluster, KiB and root entries of the cards: small, larger clusters, and nearly the most clusters.
const SHAPES: [(usize, usize, usize); 4] = [
    (1, 2_200, 512),
    (4, 10_240, 112),
    (16, 35_000, 512),
    (1, 33_000, 512),
];

#[test]
fn files_of_the_library() {
    for (shape, (per_cluster, kib, entries)) in SHAPES.into_iter().enumerate() {
        let mut random = Random::new(60_000 + shape as u64);
        let mut image = Image::format("library.img", per_cluster, kib, entries);
        let mut files = Files::new();
        for _ in 0..cases(30) {
            library_step(&mut image, &mut files, &mut random);
        }
        assert_holds(&image, &files);
    }
}

#[test]
fn files_of_mtools() {
    for (shape, (per_cluster, kib, entries)) in SHAPES.into_iter().enumerate() {
        let mut random = Random::new(61_000 + shape as u64);
        let mut image = Image::format("mtools.img", per_cluster, kib, entries);
        let mut files = Files::new();
        for _ in 0..cases(20) {
            tools_step(&mut image, &mut files, &mut random);
        }
        assert_holds(&image, &files);
    }
}

/// Both by turns on one card.
#[test]
fn files_of_both() {
    for seed in 0..cases(2) {
        let mut random = Random::new(62_000 + seed);
        let mut image = Image::format("both.img", 1, 2_200, 512);
        let mut files = Files::new();
        for _ in 0..40 {
            library_step(&mut image, &mut files, &mut random);
            tools_step(&mut image, &mut files, &mut random);
        }
        assert_holds(&image, &files);
    }
}

/// A label, a directory and a long name, as other systems leave them.
#[test]
fn entries_of_other_systems() {
    let mut image = Image::format("entries.img", 4, 10_240, 512);
    let mut data = vec![5; 3_000];
    image.tool("mmd", &["::/FOLDER"]);
    image.copy_in(&data, "::/FOLDER/INSIDE.CUT");
    image.copy_in(&data, "::/sheer panel, port.cut");

    let mut entries = [0; 96];
    assert_eq!(calls::list(&image.card, &mut entries), Answer::Done(2));
    assert_eq!(entries[..11], *b"FOLDER     ");
    assert_eq!(entries[11], 0x10);
    let alias = &entries[32..43];
    assert_eq!(alias, b"SHEERP~1CUT");
    let mut buffer = vec![0; 9_000];
    let answer = calls::read(&image.card, alias, 0, &mut buffer);
    assert_eq!(answer, Answer::Done(3_000));
    assert!(buffer[..3_000] == data);
    for (name, refusal) in [
        (b"FOLDER     ", Refusal::Directory),
        (b"WORKSHOP   ", Refusal::Absent),
        (b"INSIDE  CUT", Refusal::Absent),
    ] {
        let answer = calls::delete(&mut image.card, name, ALL);
        assert_eq!(answer, Answer::Refused(refusal));
    }

    let answer = calls::append(&mut image.card, alias, &[6; 5_000], AT, ALL);
    assert!(matches!(answer, Answer::Done(_)), "{answer:?}");
    data.extend([6; 5_000]);
    image.save();
    assert!(image.tool("mtype", &["::/sheer panel, port.cut"]) == data);
    image.check();

    // Saved over it keeps its long name; so does the directory what is in it.
    let answer = calls::replace(&mut image.card, alias, &[9; 700], AT, ALL);
    assert!(matches!(answer, Answer::Done(_)), "{answer:?}");
    image.save();
    assert!(image.tool("mtype", &["::/sheer panel, port.cut"]) == [9; 700]);
    assert!(image.tool("mtype", &["::/FOLDER/INSIDE.CUT"]) == [5; 3_000]);
    image.check();
}

/// A file that mtools wrote is saved over by the library and by mtools in turns: longer, shorter, by nothing.
#[test]
fn saved_over_by_turns() {
    let mut random = Random::new(63_000);
    for (per_cluster, kib) in [(1, 2_200), (16, 35_000)] {
        let mut image = Image::format("turns.img", per_cluster, kib, 512);
        let mut files = Files::new();
        for name in [NAMES[0], NAMES[1]] {
            let data = random.bytes(9_000);
            let path = format!("::/{}", dotted(name));
            image.copy_in(&data, &path);
            files.insert(*name, data);
        }
        for length in [5_000, 20_000, 0, 1, 512, 8_192, 8_193] {
            let data = random.bytes(length);
            let answer = calls::replace(&mut image.card, NAMES[0], &data, AT, ALL);
            assert!(matches!(answer, Answer::Done(_)), "{answer:?}");
            files.insert(*NAMES[0], data);
            image.save();
            assert_holds(&image, &files);
            let data = random.bytes(length / 2);
            image.copy_in(&data, &format!("::/{}", dotted(NAMES[1])));
            files.insert(*NAMES[1], data);
            assert_holds(&image, &files);
        }
    }
}

/// What mattrib sets here: read-only, hidden, system. The archive bit, 0x20, is set already.
const BITS: [(&str, u8); 3] = [("+r", 0x01), ("+h", 0x02), ("+s", 0x04)];

/// The attribute byte of a file, as the library lists it.
fn attributes(image: &Image, name: &[u8; 11]) -> u8 {
    let mut entries = vec![0; 32 * 512];
    let Answer::Done(count) = calls::list(&image.card, &mut entries) else {
        panic!("a clean card");
    };
    let mut entries = entries[..32 * count as usize].chunks(32);
    let entry = entries.find(|entry| entry.starts_with(name));
    entry.expect("the file")[11]
}

/// Has mtools change the attributes of a file.
fn mattrib(image: &mut Image, change: &str, name: &[u8; 11]) {
    image.save();
    let path = format!("::/{}", dotted(name));
    image.tool("mattrib", &[change, &path]);
    image.load();
}

/// Changes a file of 9,000 bytes in every way, gives it another name and removes it. Gives the answers.
fn changes(image: &mut Image, name: &[u8; 11], new: &[u8; 11]) -> [Answer; 7] {
    let card = &mut image.card;
    [
        calls::append(card, name, &[], AT, ALL),
        calls::append(card, name, &[7; 600], AT, ALL),
        calls::replace(card, name, &[8; 9_000], AT, ALL),
        calls::truncate(card, name, 9_000, AT, ALL),
        calls::truncate(card, name, 5_000, AT, ALL),
        calls::rename(card, name, new, ALL),
        calls::delete(card, new, ALL),
    ]
}

/// A file that mtools marks read-only is not changed, and mtools reads it; once mtools has cleared the mark, it is.
#[test]
fn marked_by_mtools() {
    let (name, new) = (NAMES[0], NAMES[2]);
    for bits in 0..8_u8 {
        let mut image = Image::format("marked.img", 1, 2_200, 512);
        let data = Random::new(64_000).bytes(9_000);
        image.copy_in(&data, "::/ROUTE.CUT");
        image.copy_in(b"other", "::/PANEL_1.CUT");
        for (change, bit) in BITS {
            if bits & bit != 0 {
                mattrib(&mut image, change, name);
            }
        }
        assert_attributes(&image, name, 0x20 | bits);
        let files = Files::from([(*name, data), (*NAMES[1], b"other".to_vec())]);
        if bits & 0x01 != 0 {
            let before = image.card.clone();
            let locked = Answer::Refused(Refusal::Locked);
            let absent = Answer::Refused(Refusal::Absent);
            let answers = changes(&mut image, name, new);
            assert_eq!(answers[..6], [locked; 6]);
            assert_eq!(answers[6], absent);
            let onto = calls::rename(&mut image.card, NAMES[1], name, ALL);
            assert_eq!(onto, Answer::Refused(Refusal::Exists));
            assert!(image.card == before, "nothing is stored");
            assert_holds(&image, &files);
            mattrib(&mut image, "-r", name);
            assert_attributes(&image, name, 0x20 | bits & !0x01);
        }
        assert_holds(&image, &files);
        kept_by_changes(&mut image, name, 0x20 | bits & !0x01);
        let answers = changes(&mut image, name, new);
        assert!(
            answers
                .iter()
                .all(|answer| matches!(answer, Answer::Done(_))),
            "{answers:?}"
        );
        image.save();
        let left = Files::from([(*NAMES[1], b"other".to_vec())]);
        assert_holds(&image, &left);
    }
}

/// The library's list and mattrib have the same attributes for a file.
fn assert_attributes(image: &Image, name: &[u8; 11], bits: u8) {
    assert_eq!(attributes(image, name), bits);
    image.save();
    let path = format!("::/{}", dotted(name));
    let text = String::from_utf8(image.tool("mattrib", &[&path])).expect("text");
    let (letters, _) = text.split_once("::").expect("letters, and the path");
    for (letter, bit) in [('A', 0x20), ('R', 0x01), ('H', 0x02), ('S', 0x04)] {
        assert_eq!(letters.contains(letter), bits & bit != 0, "{text}");
    }
}

/// Append, replace, truncate and rename keep the attributes.
fn kept_by_changes(image: &mut Image, name: &[u8; 11], bits: u8) {
    let other = NAMES[3];
    let done = |answer| assert!(matches!(answer, Answer::Done(1..)), "{answer:?}");
    done(calls::append(&mut image.card, name, &[7; 600], AT, ALL));
    assert_attributes(image, name, bits);
    done(calls::replace(&mut image.card, name, &[8; 3_000], AT, ALL));
    assert_attributes(image, name, bits);
    done(calls::truncate(&mut image.card, name, 10, AT, ALL));
    assert_attributes(image, name, bits);
    done(calls::rename(&mut image.card, name, other, ALL));
    assert_attributes(image, other, bits);
    done(calls::rename(&mut image.card, other, name, ALL));
}
