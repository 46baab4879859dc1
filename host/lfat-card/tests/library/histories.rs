//! Random histories on small fragmented cards, and on freshly formatted ones, with cuts and recoveries in between.
//! `LFAT_CASES=N` runs N times as many.

use crate::support::coverage::{assert_seen, Seen};
use crate::support::fresh::fresh_card;
use crate::support::twin::Twin;
use reference::{Answer, CardSpec, Ground};
use std::collections::BTreeSet;
use testkit::call::Call;
use testkit::cards::Card;
use testkit::characters::root_with_long_name;
use testkit::fixtures::furnished_card;
use testkit::long_names::{ended_slot, root_after};
use testkit::random::Random;
use testkit::steps::{
    random_bytes, random_call, random_long_name, random_mark, random_name, random_offset,
};
use testkit::{cases, ALL, AT, PANEL, ROUTE};

/// Things that a history can come across besides its answers.
#[derive(Default)]
struct Met {
    clearing: bool,
    fragments: bool,
    falling_chain: bool,
    /// Calls with how many long entries they took along, and over how many borders of root sectors.
    taken_along: BTreeSet<(&'static str, usize, usize)>,
    /// Calls on a slot whose long entries are not proper.
    broken: BTreeSet<&'static str>,
    /// Characters of long names that were created.
    created: BTreeSet<usize>,
}

impl Met {
    fn look(&mut self, card: &Card) {
        let unused = |sector: usize| card.bytes[sector * 512] == 0;
        self.clearing |= !card.log().any(unused);
        for slot in 0..usize::from(card.spec.root_entries) {
            if [0, 0xE5].contains(&card.slot(slot)[0]) || card.slot(slot)[11] & 0x18 != 0 {
                continue;
            }
            let chain = reference::file_chain(&card.bytes, slot).unwrap_or_default();
            self.fragments |= chain.windows(2).any(|pair| pair[1] > pair[0] + 1);
            self.falling_chain |= chain.windows(2).any(|pair| pair[1] < pair[0]);
        }
    }

    /// A create with a long name that is done: the root directory is as it was to be, and the name is read back.
    fn look_at_created(&mut self, before: &Card, call: &Call, twin: &mut Twin) {
        let (Call::CreateLong(name, bytes, _), Some(root)) =
            (call, root_with_long_name(before, call))
        else {
            return;
        };
        let after = &twin.card;
        assert!(
            after.bytes[512 * after.root()..512 * after.data()] == root,
            "{call:?}"
        );
        let mut buffer = vec![0xA5; bytes.len() + 3];
        let answer = reference::long_name(&after.bytes, name, &mut buffer);
        assert_eq!(answer, Answer::Done(bytes.len() as u32 / 2), "{call:?}");
        assert_eq!(buffer, [&bytes[..], &[0xA5; 3]].concat(), "{call:?}");
        for room in [0, 1, 3, bytes.len(), bytes.len() + 1] {
            twin.call(&Call::LongName(name.clone(), room), ALL);
        }
        self.created.insert(bytes.len() / 2);
    }

    /// A delete or rename that is done: the root directory is as it was to be.
    fn look_at_ended(&mut self, before: &Card, call: &Call, after: &Card) {
        let (Some(slot), Some(root)) = (ended_slot(before, call), root_after(before, call)) else {
            return;
        };
        let got = &after.bytes[512 * after.root()..512 * after.data()];
        assert!(got == root, "{call:?}");
        let count = before.long_entries(slot);
        let borders = slot / 16 - (slot - count) / 16;
        self.taken_along.insert((call.word(), count, borders));
        if count == 0 && slot > 0 && before.slot(slot - 1)[11] == 0x0F {
            self.broken.insert(call.word());
        }
    }
}

/// Reads something, and recovers with every limit.
fn read_and_recover(twin: &mut Twin, random: &mut Random) {
    twin.call(&Call::List(random.below(200)), ALL);
    twin.call(&Call::Fits(random_bytes(random, &twin.card)), ALL);
    let room = random.below(3_000);
    let call = Call::Read(random_name(random), random_offset(random), room);
    twin.call(&call, ALL);
    twin.all_limits(&Call::Recover, |_| ());
}

fn history(seed: u64, met: &mut Met) -> Seen {
    let mut random = Random::new(seed);
    let mut twin = Twin::new(furnished_card(&mut random));
    if random.one_in(3) {
        let more = random.below(1_200);
        let bytes = random.bytes(more);
        twin.edit(|card| card.bytes.extend(bytes));
    }
    steps(&mut twin, &mut random, met);
    twin.seen
}

/// One that begins with a format.
fn fresh_history(seed: u64, met: &mut Met) -> Seen {
    let mut random = Random::new(72_000 + seed);
    let mut twin = fresh_card(&mut random);
    steps(&mut twin, &mut random, met);
    twin.seen
}

fn steps(twin: &mut Twin, random: &mut Random, met: &mut Met) {
    for _ in 0..50 {
        if random.one_in(5) {
            twin.edit(|card| random_mark(random, card));
        }
        if random.one_in(6) {
            twin.edit(|card| random_long_name(random, card));
        }
        let call = random_call(random, &twin.card);
        met.look(&twin.card);
        if call.operation().is_some() && random.one_in(12) && twin.stores(&call) < 80 {
            twin.all_limits(&call, |twin| {
                twin.call(&Call::Recover, ALL);
            });
        }
        if random.one_in(10) {
            twin.call(&call, random.below(9) as u32);
            if random.one_in(3) {
                twin.edit(|card| random_mark(random, card));
            }
            if random.one_in(3) {
                twin.edit(|card| random_long_name(random, card));
            }
            let next = random_call(random, &twin.card);
            twin.call(&next, ALL);
            read_and_recover(twin, random);
            twin.done(&Call::Recover);
        } else if let Call::CreateLong(..) = call {
            let before = twin.card.clone();
            if let Answer::Done(_) = twin.call(&call, ALL) {
                met.look_at_created(&before, &call, twin);
            }
        } else if ended_slot(&twin.card, &call).is_some() {
            let before = twin.card.clone();
            if let Answer::Done(_) = twin.call(&call, ALL) {
                met.look_at_ended(&before, &call, &twin.card);
            }
        } else {
            twin.call(&call, ALL);
        }
    }
}

#[test]
fn random_histories() {
    let mut seen = Seen::new();
    let mut met = Met::default();
    for seed in 0..cases(150) {
        seen.extend(history(seed, &mut met));
    }
    for seed in 0..cases(30) {
        seen.extend(fresh_history(seed, &mut met));
    }
    assert_seen(&seen, |code| code == 0 || code >= 7);
    assert!(met.clearing && met.fragments && met.falling_chain);
    for length in [1, 13, 14, 26] {
        assert!(met.created.contains(&length), "{length}: {:?}", met.created);
    }
    assert!(met.created.last() >= Some(&170), "{:?}", met.created);
    for call in ["delete", "rename"] {
        for few in [(call, 1, 0), (call, 2, 0), (call, 3, 0)] {
            assert!(met.taken_along.contains(&few), "{few:?}");
        }
        let mut all = met.taken_along.iter().filter(|met| met.0 == call);
        assert!(all.any(|met| met.2 > 0), "{call} over a border");
        let most = all.map(|met| met.1).max();
        assert!(most > Some(10), "{call}: {most:?}");
        assert!(met.broken.contains(call), "{call}");
    }
}

/// A card with the given number of free clusters, from the last ones down, every second one.
fn card_with_free(clusters: u16) -> Card {
    let mut card = Card::new(CardSpec {
        sectors_per_cluster: 2,
        total_sectors: 65 + 2 * 4_090,
        ..CardSpec::K
    });
    card.fill();
    let last = card.clusters() as u16 + 1;
    for place in 0..clusters {
        card.set_fats(last - 2 * place, 0);
    }
    card
}

#[test]
fn last_free_clusters() {
    for free in 0..4u16 {
        for start in [0usize, 1, 1_023, 1_024] {
            let mut twin = Twin::new(card_with_free(free + start.div_ceil(1_024) as u16));
            twin.done(&Call::Create(ROUTE.to_vec(), AT));
            twin.done(&Call::Append(ROUTE.to_vec(), vec![1; start], AT));
            let room = usize::from(free) * 1_024 + start.next_multiple_of(1_024) - start;
            let append = |length| Call::Append(ROUTE.to_vec(), vec![2; length], AT);
            let too_much = twin.call(&append(room + 1), ALL);
            assert_eq!(too_much, Answer::Refused(Ground::Nospace));
            twin.all_limits(&append(room), |_| ());
            twin.done(&append(room));
            let full = twin.call(&append(1), ALL);
            assert_eq!(full, Answer::Refused(Ground::Nospace));
            twin.done(&append(0));
            replace_on_full_card(&mut twin, usize::from(free) + start.div_ceil(1_024));
            twin.done(&Call::Truncate(ROUTE.to_vec(), 0, AT));
        }
    }
}

/// The file has all clusters that there are: only no bytes can take their place. Then half of them, which leaves the other half.
fn replace_on_full_card(twin: &mut Twin, clusters: usize) {
    let replace = |length| Call::Replace(ROUTE.to_vec(), vec![3; length], AT);
    let refused = Answer::Refused(Ground::Nospace);
    assert_eq!(twin.call(&replace(1), ALL), refused);
    twin.done(&replace(0));
    assert_eq!(twin.call(&replace(clusters * 1_024 + 1), ALL), refused);
    twin.all_limits(&replace(clusters * 1_024), |twin| twin.done(&Call::Recover));
    let half = clusters / 2;
    twin.done(&replace(half * 1_024));
    let left = (clusters - half) * 1_024;
    assert_eq!(twin.call(&replace(left + 1), ALL), refused);
    twin.done(&replace(left));
}

/// Create and rename take the last slot, whether it is deleted or at the end.
#[test]
fn last_root_slot() {
    for first_byte in [0, 0xE5] {
        for new in [Call::Create(PANEL.to_vec(), AT), rename()] {
            let mut card = Card::k();
            card.put_slot(0, ROUTE, 0x22, 0, 0);
            card.fill_root(1);
            card.slot_mut(511)[0] = first_byte;
            let mut twin = Twin::new(card);
            twin.all_limits(&new, |twin| twin.done(&Call::Recover));
            twin.done(&new);
            let create = Call::Create(b"ONE_MORE   ".to_vec(), AT);
            let answer = twin.call(&create, ALL);
            let full = matches!(new, Call::Create(..));
            assert_eq!(answer == Answer::Refused(Ground::Rootfull), full);
        }
    }
}

fn rename() -> Call {
    Call::Rename(ROUTE.to_vec(), PANEL.to_vec())
}
