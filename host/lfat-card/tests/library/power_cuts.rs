//! Demand 3 on samples: random operations on random cards, each cut after every one of its stores, then recoveries that are cut
//! in turn until one ends. The library does everything; the judge is its own. `LFAT_CASES=N` runs N times as many
//! histories.

use lfat_card::calls::{recover, Answer};
use std::collections::BTreeMap;
use testkit::call::Call;
use testkit::characters::{bytes_of, letters, root_with_long_name};
use testkit::dates::dates_after;
use testkit::fixtures::{furnished_card, largest_fragmented_card, share_cluster};
use testkit::judge::{has_pending, judge, Judged};
use testkit::long_names::{ended_slot, root_after};
use testkit::random::Random;
use testkit::steps::{random_call, random_long_name, random_mark};
use testkit::{cases, ALL, AT};

fn run(call: &Call, card: &mut [u8], limit: u32) -> Answer {
    call.on_library(card, limit, &mut [])
}

/// Recoveries with random limits until one ends. None is refused, and any after that stores nothing.
fn recover_in_steps(card: &mut Vec<u8>, random: &mut Random) {
    for turn in 0.. {
        let limit = match turn {
            30.. => ALL,
            _ => random.pick(&[0, 1, 1, 2, 3, 5, ALL]),
        };
        match recover(card, limit) {
            Answer::Done(made) if made <= limit => break,
            Answer::Stopped(made) if made == limit => {}
            other => panic!("{other:?} with limit {limit}"),
        }
    }
    let ended = card.clone();
    for limit in [0, 1, ALL] {
        assert_eq!(recover(card, limit), Answer::Done(0));
    }
    assert!(*card == ended, "a recovery after the end has stored");
}

/// The two FATs and the root directory are as expected, and on a card that began sound the files' bytes.
fn compare(card: &[u8], expected: &Judged, sound: bool, what: &str) {
    let end = judge(card);
    assert!(end.fat1 == expected.fat1, "{what}: FAT1");
    assert!(end.fat2 == expected.fat2, "{what}: FAT2");
    assert!(end.root == expected.root, "{what}: root");
    if sound {
        assert!(end.files.is_some(), "{what}: a chain is not proper");
        assert!(end.files == expected.files, "{what}: files");
    }
}

/// Checks every cut, each with so many rows of recoveries. Leaves the card as the operation does when it is not cut. Gives what it answered.
fn every_cut(card: &mut Vec<u8>, call: &Call, rows: u32, random: &mut Random) -> Answer {
    let start = judge(card);
    let sound = start.files.is_some();
    let mut whole = card.clone();
    let answer = run(call, &mut whole, ALL);
    let finished = judge(&whole);
    compare(&whole, &finished, sound, "not cut");

    // A refused operation stores nothing with any limit.
    let stores = match answer {
        Answer::Done(stores) => stores,
        _ => 0,
    };
    let mut logged = false;
    let mut second = card.clone();
    for cut in 0..=stores {
        for _ in 0..rows {
            second.copy_from_slice(card);
            let expected = match answer {
                Answer::Done(_) if cut < stores => Answer::Stopped(cut),
                other => other,
            };
            assert_eq!(run(call, &mut second, cut), expected);
            // Cuts rise: from the group's store on, the record is on the card.
            logged |= has_pending(&second);
            recover_in_steps(&mut second, random);
            let expected = if logged { &finished } else { &start };
            let what = format!("{call:?} cut at {cut} of {stores}");
            compare(&second, expected, sound, &what);
        }
    }
    assert_eq!(logged, stores > 0, "{call:?}");
    *card = whole;
    answer
}

/// An operation with a list of stores that is not too long to cut everywhere.
fn has_cuts(call: &Call) -> bool {
    match call {
        Call::Recover | Call::Format(..) => false,
        Call::Read(..) | Call::List(..) | Call::Fits(..) | Call::LongName(..) => false,
        Call::Append(_, data, _) | Call::Replace(_, data, _) => data.len() < 20_000,
        _ => true,
    }
}

/// Which operations came up, each accepted and refused, on sound and other cards.
#[derive(Default)]
struct Tally {
    calls: BTreeMap<(&'static str, bool, bool), u32>,
    /// Of those accepted, the ones that took long entries along, by how many root sectors these reach into before the slot's own.
    long: BTreeMap<(&'static str, usize), u32>,
}

fn history(seed: u64, tally: &mut Tally) {
    let mut random = Random::new(40_000 + seed);
    let mut card = furnished_card(&mut random);
    match random.below(4) {
        0 => (),
        1 => share_cluster(&mut card),
        _ => card.slot_mut(5)[0] = 0xE5, // the broken file
    }
    for _ in 0..20 {
        if random.one_in(5) {
            random_mark(&mut random, &mut card);
        }
        if random.one_in(4) {
            random_long_name(&mut random, &mut card);
        }
        let call = random_call(&mut random, &card);
        if !has_cuts(&call) {
            run(&call, &mut card.bytes, ALL);
            continue;
        }
        let sound = judge(&card.bytes).files.is_some();
        let (ended, root) = (ended_slot(&card, &call), root_after(&card, &call));
        let named = root_with_long_name(&card, &call);
        let dates = dates_after(&card, &call);
        let count = ended.map_or(0, |slot| card.long_entries(slot));
        let answer = every_cut(&mut card.bytes, &call, 2, &mut random);
        let accepted = matches!(answer, Answer::Done(_));
        let key = (call.word(), accepted, sound);
        *tally.calls.entry(key).or_default() += 1;
        if let (true, Some(dates), Some(name)) = (accepted, dates, call.name()) {
            let slot = card.slot_named(name).expect("the file");
            assert_eq!(card.slot(slot)[12..26], dates, "{call:?}");
        }
        if let (true, Some(root)) = (accepted, named) {
            assert!(judge(&card.bytes).root == root, "{call:?}");
        }
        if let (true, Some(slot), Some(root)) = (accepted, ended, root) {
            assert!(judge(&card.bytes).root == root, "{call:?}");
            if count > 0 {
                let key = (call.word(), slot / 16 - (slot - count) / 16);
                *tally.long.entry(key).or_default() += 1;
            }
        }
    }
}

#[test]
fn every_cut_in_random_histories() {
    let mut tally = Tally::default();
    for seed in 0..cases(60) {
        history(seed, &mut tally);
    }
    for word in [
        "create",
        "create_long",
        "append",
        "replace",
        "truncate",
        "delete",
        "rename",
    ] {
        for (accepted, sound) in [(true, true), (true, false), (false, true), (false, false)] {
            let count = tally.calls.get(&(word, accepted, sound));
            assert!(count > Some(&2), "{word} {accepted} {sound}: {count:?}");
        }
    }
    for word in ["delete", "rename"] {
        for borders in [0, 1] {
            let count = tally.long.get(&(word, borders));
            assert!(count > Some(&2), "{word} over {borders}: {count:?}");
        }
    }
}

/// The largest card of one sector to a cluster, its free clusters strewn over all FAT sectors.
#[test]
fn cuts_on_a_large_card() {
    let mut random = Random::new(50_000);
    let mut card = largest_fragmented_card();
    let name = b"ROUTE   CUT".to_vec();
    let data = random.bytes(9 * 512 + 5);
    for call in [
        Call::CreateLong(name.clone(), bytes_of(&letters(208)), AT),
        Call::Append(name.clone(), data.clone(), AT),
        Call::Replace(name.clone(), data[..4 * 512].to_vec(), AT),
        Call::Replace(name.clone(), Vec::new(), AT),
        Call::Replace(name.clone(), data, AT),
        Call::Truncate(name.clone(), 3 * 512, AT),
        Call::Delete(name),
    ] {
        let answer = every_cut(&mut card.bytes, &call, 1, &mut random);
        assert!(matches!(answer, Answer::Done(_)), "{call:?}");
    }
}
