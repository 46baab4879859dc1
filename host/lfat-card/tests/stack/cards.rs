//! The cards and calls to measure on.

use crate::measure::Measure;
use reference::CardSpec;
use testkit::call::Call;
use testkit::cards::Card;
use testkit::characters::{bytes_of, letters};
use testkit::fixtures::furnished_card;
use testkit::fresh::random_fresh;
use testkit::random::Random;
use testkit::steps::{random_call, random_long_name};
use testkit::{cases, ALL, AT, OTHER, PANEL, ROUTE};

const DONE: u64 = 0;
const STOPPED: u64 = 255;

/// Calls of all kinds on small cards with files, directories and damage, cut anywhere, and what is left then recovered.
pub fn drive_random_cards(measure: &mut Measure) {
    for seed in 0..cases(30) {
        let mut random = Random::new(seed);
        let mut card = furnished_card(&mut random);
        for _ in 0..60 {
            if random.one_in(6) {
                random_long_name(&mut random, &mut card);
            }
            let call = random_call(&mut random, &card);
            let few = random.below(40) as u32;
            let limit = random.pick(&[ALL, ALL, 0, few]);
            let code = measure.call("a random card", &mut card.bytes, &call, limit);
            if code == STOPPED {
                measure.call("a random card", &mut card.bytes, &Call::Recover, limit);
                measure.call("a random card", &mut card.bytes, &Call::Recover, ALL);
            }
        }
    }
}

/// The calls that store, on the largest card with files scattered over all of it, with room in the log and without; then the same
/// cut at a few stores and recovered.
pub fn drive_large_cards(measure: &mut Measure) {
    for full_log in [false, true] {
        let start = scattered_card(full_log);
        let mut card = start.clone();
        let place = if full_log {
            "the largest card, log full"
        } else {
            "the largest card"
        };
        for call in storing_calls() {
            card.bytes.copy_from_slice(&start.bytes);
            let code = measure.call(place, &mut card.bytes, &call, ALL);
            assert_eq!(code, DONE, "{call:?} on {place}");
            drive_reads(measure, place, &mut card);
            drive_cuts(measure, place, &start, &mut card, &call);
        }
    }
}

fn storing_calls() -> Vec<Call> {
    let (route, other) = (ROUTE.to_vec(), OTHER.to_vec());
    vec![
        Call::Create(PANEL.to_vec(), AT),
        Call::CreateLong(PANEL.to_vec(), bytes_of(&letters(208)), AT),
        Call::CreateLong(PANEL.to_vec(), bytes_of(&letters(5)), AT),
        Call::Rename(route.clone(), PANEL.to_vec()),
        Call::Append(other.clone(), vec![7; 1 << 20], AT),
        Call::Append(route.clone(), vec![7; 500_000], AT),
        Call::Replace(other.clone(), vec![7; 1 << 20], AT),
        Call::Replace(route.clone(), vec![7; 500_000], AT),
        Call::Replace(route.clone(), Vec::new(), AT),
        Call::Truncate(route.clone(), 1, AT),
        Call::Truncate(route.clone(), 700_000, AT),
        Call::Delete(route),
        Call::Delete(other),
    ]
}

fn drive_reads(measure: &mut Measure, place: &str, card: &mut Card) {
    for call in [
        Call::Read(ROUTE.to_vec(), 0, 2 << 20),
        Call::Read(ROUTE.to_vec(), 777_777, 5_000),
        Call::List(600 * 32),
        Call::LongName(ROUTE.to_vec(), 600),
        Call::LongName(ROUTE.to_vec(), 30),
        Call::Fits(1),
        Call::Fits(1 << 20),
        Call::Fits(u64::MAX),
        Call::Recover,
    ] {
        measure.call(place, &mut card.bytes, &call, ALL);
    }
}

/// Formats with numbers of all kinds, in windows too short and long enough, cut and whole.
pub fn drive_formats(measure: &mut Measure) {
    let mut random = Random::new(500);
    let mut window = vec![0x5A; 66_069 * 512];
    for limit in [0, 1, 300, 673, ALL] {
        let code = measure.call(
            "any window",
            &mut window,
            &Call::Format(66_069, 1, 128),
            limit,
        );
        let expected = if limit == ALL { DONE } else { STOPPED };
        assert_eq!(code, expected, "{limit}");
    }
    for _ in 0..cases(300) {
        let call = random_fresh(&mut random).call();
        measure.call("any window", &mut window, &call, random.pick(&[2, ALL]));
        measure.call("a short window", &mut window[..100], &call, ALL);
    }
}

/// Cuts the call and recovers, by turns with a cut recovery between.
fn drive_cuts(measure: &mut Measure, place: &str, start: &Card, card: &mut Card, call: &Call) {
    let operation = call.operation().expect("a call that stores");
    let stores = reference::plan(&start.bytes, &operation)
        .expect("granted")
        .len();
    let step = stores / 6 + 1;
    let last = stores.saturating_sub(4)..stores;
    for limit in (1..stores).step_by(step).chain(last) {
        card.bytes.copy_from_slice(&start.bytes);
        let code = measure.call(place, &mut card.bytes, call, limit as u32);
        assert_eq!(code, STOPPED, "{call:?} cut after {limit} on {place}");
        measure.call(place, &mut card.bytes, &Call::Recover, limit as u32 % 3);
        let code = measure.call(place, &mut card.bytes, &Call::Recover, ALL);
        assert_eq!(
            code, DONE,
            "recovery of {call:?} cut after {limit} on {place}"
        );
    }
}

/// The largest card of one sector per cluster: ROUTE.CUT of 1 MiB and OTHER of 900 bytes lie scattered over all of it, in mixed
/// order; of the other clusters every eighth is free. The root directory is full but for a slot and a run of seventeen, deleted and
/// unused, in its last three sectors. ROUTE.CUT has 20 long entries, which with its slot and the free one lie in four root sectors;
/// OTHER has one.
fn scattered_card(full_log: bool) -> Card {
    let mut card = Card::new(CardSpec {
        sectors_per_fat: 256,
        total_sectors: 1 + 512 + 32 + 65_524,
        use_32bit_total: true,
        ..CardSpec::K
    });
    for cluster in (10..65_526u32).filter(|cluster| cluster % 8 != 0) {
        card.set_fats(cluster as u16, 0xFFF7);
    }
    let chain: Vec<u16> = (0..2_048u32)
        .map(|at| (at * 7_919 % 2_048 * 32 + 11) as u16)
        .collect();
    card.put_chain(&chain, 0xFFFF);
    card.put_chain(&[65_523, 13], 0xFFF8);
    card.fill_root(0);
    card.put_slot(51, ROUTE, 0x20, chain[0], (1 << 20) - 100);
    card.put_long_entries(51, 20);
    card.put_slot(1, OTHER, 0x20, 65_523, 900);
    card.put_long_entries(1, 1);
    card.mark_deleted([2]);
    card.mark_deleted(495..500);
    for slot in 500..512 {
        card.slot_mut(slot).fill(0);
    }
    if full_log {
        for sector in 0..card.log().len() {
            card.log_sector_mut(sector)
                .chunks_mut(32)
                .for_each(|record| record[0] = 0xE5);
        }
    }
    card
}
