//! Long names that mtools wrote, deleted and renamed by the library, and what mtools and fsck.fat find then. `mdel` and `mren` are
//! the measure for the root directory, byte for byte. `support::image` has how the cards are made.
//! `LFAT_CASES=N` makes N times as many steps.

use crate::support::image::Image;
use lfat_card::calls::{self, Answer};
use lfat_card::Refusal;
use reference::CardSpec;
use std::collections::BTreeMap;
use testkit::cards::Card;
use testkit::long_names::checksum;
use testkit::random::Random;
use testkit::{cases, Name, ALL};

/// Names as mcopy is given them, with how many long entries it writes.
fn names() -> Vec<(String, usize)> {
    let long = |letter: &str, length| letter.repeat(length);
    let mut names: Vec<(String, usize)> = [
        ("ROUTE.CUT", 0),
        // In capitals but for a bit of the slot: no long name is written.
        ("keel.cut", 0),
        ("Mixed.Cut", 1),
        ("sheer panel, port.cut", 2),
        ("a+b=c;d,1.cut", 1),
        ("two.dots.in it", 2),
        ("Путь один.cut", 1),
        ("航路計画.cut", 1),
        ("σχέδιο πλώρης.cut", 2),
    ]
    .map(|(name, count)| (name.to_string(), count))
    .into();
    for (letter, length, count) in [
        ("d", 12, 1),
        ("e", 13, 1),
        ("f", 14, 2),
        ("g", 26, 2),
        ("h", 27, 3),
    ] {
        names.push((long(letter, length), count));
    }
    for (letter, length, count) in [
        ("x", 100, 8),
        ("y", 247, 19),
        ("z", 248, 20),
        ("w", 255, 20),
    ] {
        names.push((long(letter, length), count));
    }
    names
}

/// The card of an image, with the fields that its root directory needs.
fn card_of(image: &Image) -> Card {
    let word = |at: usize| u16::from_le_bytes([image.card[at], image.card[at + 1]]);
    Card {
        spec: CardSpec {
            reserved: word(14),
            sectors_per_cluster: image.card[13],
            sectors_per_fat: word(22),
            root_entries: word(17),
            ..CardSpec::K
        },
        bytes: image.card.clone(),
    }
}

fn live_slots(card: &Card) -> Vec<usize> {
    let is_entry = |slot: &[u8]| !matches!(slot[0], 0 | 0xE5) && slot[11] & 0x08 == 0;
    (0..usize::from(card.spec.root_entries))
        .filter(|&slot| is_entry(card.slot(slot)))
        .collect()
}

/// The short name of a slot.
fn short(card: &Card, slot: usize) -> Name {
    card.slot(slot)[..11].try_into().expect("11 bytes")
}

/// Every live long entry belongs to a file: none is left over.
fn assert_no_orphans(card: &Card) {
    let entries = 0..usize::from(card.spec.root_entries);
    let is_long = |slot: &[u8]| !matches!(slot[0], 0 | 0xE5) && slot[11] == 0x0F;
    let live = entries.filter(|&slot| is_long(card.slot(slot))).count();
    let belonging = live_slots(card).into_iter();
    let belonging: usize = belonging.map(|slot| card.long_entries(slot)).sum();
    assert_eq!(live, belonging);
}

/// A card with all the names, a deleted file before them and one between; the first slot after the label is free.
fn furnished(file: &str) -> Image {
    let mut image = Image::format(file, 1, 2_200, 512);
    image.copy_in(b"first", "::/FIRST.CUT");
    for (name, count) in names() {
        let taken = live_slots(&card_of(&image));
        image.copy_in(name.as_bytes(), &format!("::/{name}"));
        let card = card_of(&image);
        let mut new = live_slots(&card);
        new.retain(|slot| !taken.contains(slot));
        let [slot] = new[..] else {
            panic!("{name}: {new:?}")
        };
        assert_eq!(card.long_entries(slot), count, "{name}");
        if count > 0 {
            assert_eq!(card.long_name(slot), Some(name));
            // What mtools wrote at offset 13.
            let sums = (1..=count).map(|number| card.slot(slot - number)[13]);
            let own = checksum(&short(&card, slot));
            assert!(sums.into_iter().all(|sum| sum == own));
        }
    }
    image.tool("mdel", &["::/FIRST.CUT"]);
    image.load();
    image.check();
    image
}

/// Both FATs and the root directory.
fn tables(image: &Image) -> Vec<u8> {
    card_of(image).metadata().to_vec()
}

fn done(answer: Answer) {
    assert!(matches!(answer, Answer::Done(1..)), "{answer:?}");
}

/// Has a tool change the card, then the library the same card as it was. Gives the tables that each leaves; the card stays as the
/// library left it.
fn both(image: &mut Image, tool: &[&str], own: impl FnOnce(&mut [u8])) -> [Vec<u8>; 2] {
    let before = image.card.clone();
    image.tool(tool[0], &tool[1..]);
    image.load();
    let by_tool = tables(image);
    image.card = before;
    own(&mut image.card);
    image.save();
    [by_tool, tables(image)]
}

/// A file's bytes, as the library reads them.
fn read(image: &Image, name: &Name) -> Vec<u8> {
    let mut buffer = vec![0; 6_000];
    match calls::read(&image.card, name, 0, &mut buffer) {
        Answer::Done(count) => buffer[..count as usize].to_vec(),
        other => panic!("{other:?}"),
    }
}

/// The short name of the file that has these bytes.
fn holding(image: &Image, bytes: &[u8]) -> Name {
    let card = card_of(image);
    let mut names = live_slots(&card).into_iter().map(|slot| short(&card, slot));
    let name = names.find(|name| read(image, name) == bytes);
    name.unwrap_or_else(|| panic!("a file of {} bytes", bytes.len()))
}

/// Deleted one after the other, in an order that leaves long names between: after each the tables are as mdel leaves them.
#[test]
fn deleted_as_mdel_does() {
    let mut image = furnished("deleted.img");
    let mut left: Vec<String> = names().into_iter().map(|(name, _)| name).collect();
    let mut random = Random::new(71_000);
    while !left.is_empty() {
        let name = left.swap_remove(random.below(left.len()));
        let alias = holding(&image, name.as_bytes());
        let tool = ["mdel", &format!("::/{name}")];
        let [by_tool, own] = both(&mut image, &tool, |card| {
            done(calls::delete(card, &alias, ALL))
        });
        assert!(by_tool == own, "{name}");
        assert_no_orphans(&card_of(&image));
        left.sort();
        assert_eq!(image.listed(), left);
        image.check();
    }
    let card = card_of(&image);
    assert!((1..512).all(|slot| matches!(card.slot(slot)[0], 0 | 0xE5)));
}

/// Each renamed to a short name where a lower slot is free: the tables are as mren leaves them. The file has its new name only.
#[test]
fn renamed_as_mren_does() {
    let mut image = furnished("renamed.img");
    let mut expected: Vec<String> = names().into_iter().map(|(name, _)| name).collect();
    for (index, (name, _)) in names().into_iter().enumerate() {
        let alias = holding(&image, name.as_bytes());
        let new: Name = format!("PANEL_{index:02}CUT")
            .as_bytes()
            .try_into()
            .expect("11 bytes");
        let mut shown = format!("PANEL_{index:02}.CUT");
        let tool = ["mren", &format!("::/{name}"), &format!("::/{shown}")];
        let [by_tool, own] = both(&mut image, &tool, |card| {
            done(calls::rename(card, &alias, &new, ALL))
        });
        assert!(by_tool == own, "{name}");
        // The bits by which mtools show small letters stay.
        if name == "keel.cut" {
            shown = shown.to_lowercase();
        }
        expected[index] = shown;
        let mut sorted = expected.clone();
        sorted.sort();
        assert_eq!(image.listed(), sorted);
        assert_no_orphans(&card_of(&image));
        assert_eq!(read(&image, &new), name.as_bytes());
        image.check();
    }
}

/// fsck.fat can tell: entries made by hand with our checksum are in order; with another one, or without their slot, they are not.
#[test]
fn what_fsck_tells() {
    let mut image = Image::format("judged.img", 1, 2_200, 512);
    image.copy_in(b"path", "::/ROUTE.CUT");
    let mut card = card_of(&image);
    let slot = card.give_long_name(1, 3).expect("room");
    image.card = card.bytes.clone();
    image.check();
    let mut wrong = card.clone();
    for entry in slot - 3..slot {
        wrong.slot_mut(entry)[13] ^= 1;
    }
    let mut orphaned = card.clone();
    orphaned.mark_deleted([slot]);
    for (bad, words) in [
        (wrong, "Wrong checksum"),
        (orphaned, "Orphaned long file name"),
    ] {
        image.card = bad.bytes;
        let (_, text) = image.checked();
        assert!(text.contains(words), "{text}");
    }
    image.card = card.bytes;
    done(calls::delete(&mut image.card, b"ROUTE   CUT", ALL));
    image.check();
}

/// Both by turns: mtools write long names into what the library has freed, the library takes them away again, cut and recovered.
#[test]
fn by_turns() {
    let mut random = Random::new(72_000);
    let mut image = Image::format("long-turns.img", 4, 10_240, 112);
    let mut files: BTreeMap<Name, Vec<u8>> = BTreeMap::new();
    let names = names();
    for turn in 0..cases(60) {
        let known: Vec<Name> = files.keys().copied().collect();
        if known.is_empty() || random.one_in(2) && known.len() < 5 {
            let length = 1 + random.below(5_000);
            let data = random.bytes(length);
            let (name, _) = &names[random.below(names.len() - 2)];
            image.copy_in(&data, &format!("::/{name}"));
            // A file of that name is gone.
            let card = card_of(&image);
            let live = live_slots(&card).into_iter();
            let live: Vec<Name> = live.map(|slot| short(&card, slot)).collect();
            files.retain(|name, _| live.contains(name));
            files.insert(holding(&image, &data), data);
        } else {
            let old = random.pick(&known);
            let new: Name = format!("OURS{turn:04}CUT")
                .as_bytes()
                .try_into()
                .expect("11 bytes");
            let is_delete = random.one_in(2);
            let call = |card: &mut [u8], limit| match is_delete {
                true => calls::delete(card, &old, limit),
                false => calls::rename(card, &old, &new, limit),
            };
            call(&mut image.card, random.below(9) as u32);
            let recovered = calls::recover(&mut image.card, ALL);
            assert!(matches!(recovered, Answer::Done(_)), "{recovered:?}");
            let made = call(&mut image.card, ALL);
            let was_made = made == Answer::Refused(Refusal::Absent);
            assert!(was_made || matches!(made, Answer::Done(_)), "{made:?}");
            let bytes = files.remove(&old).expect("known");
            if !is_delete {
                files.insert(new, bytes);
            }
            image.save();
        }
        assert_no_orphans(&card_of(&image));
        for (name, bytes) in &files {
            assert!(read(&image, name) == *bytes);
        }
        assert_eq!(image.listed().len(), files.len());
    }
    assert!(files.len() > 2, "{}", files.len());
    image.check();
}
