//! Files marked read-only, with the answers written down: LOCKED asks bit 0x01 of the slot that the name means, right after
//! DIRECTORY, in append, truncate, delete, rename by its old name, and replace. These rows do not rely on the reference.

use crate::support::twin::Twin;
use reference::{Answer, Ground};
use testkit::call::Call;
use testkit::cards::Card;
use testkit::{ALL, AT, OTHER, PANEL, ROUTE};

const LOCKED: Answer = Answer::Refused(Ground::Locked);

/// ROUTE.CUT of 700 bytes in clusters 20 and 21, with these attributes, in a slot.
fn card_with(slot: usize, attributes: u8) -> Card {
    let mut card = Card::k();
    card.fill_root(0);
    for free in (slot + 1)..512 {
        card.slot_mut(free).fill(0);
    }
    card.put_slot(slot, ROUTE, attributes, 20, 700);
    card.put_chain(&[20, 21], 0xFFFF);
    card
}

/// The five calls that ask LOCKED, in all forms that differ in the grounds or stores after it; each is granted on ROUTE.CUT.
fn asking() -> Vec<Call> {
    let name = || ROUTE.to_vec();
    vec![
        Call::Append(name(), Vec::new(), AT),
        Call::Append(name(), vec![7], AT),
        Call::Append(name(), vec![7; 3_000], AT),
        Call::Truncate(name(), 700, AT),
        Call::Truncate(name(), 699, AT),
        Call::Truncate(name(), 0, AT),
        Call::Delete(name()),
        Call::Rename(name(), PANEL.to_vec()),
        Call::Replace(name(), Vec::new(), AT),
        Call::Replace(name(), vec![7; 3_000], AT),
    ]
}

/// The call is refused under every limit, and both cards stay as they are.
fn expect(twin: &mut Twin, call: &Call, ground: Ground) {
    let before = twin.card.bytes.clone();
    for limit in [0, 1, 2, ALL] {
        let answer = twin.call(call, limit);
        assert_eq!(answer, Answer::Refused(ground), "{call:?}");
    }
    assert!(twin.card.bytes == before, "{call:?}");
}

fn granted(twin: &mut Twin, call: &Call) {
    let answer = twin.call(call, 0);
    let is_granted = matches!(answer, Answer::Stopped(0) | Answer::Done(0));
    assert!(is_granted, "{call:?}: {answer:?}");
}

#[test]
fn the_five_calls() {
    for slot in [0, 15, 16, 300, 510] {
        for call in asking() {
            expect(&mut Twin::new(card_with(slot, 0x21)), &call, Ground::Locked);
            granted(&mut Twin::new(card_with(slot, 0x20)), &call);
        }
    }
}

/// A card that is not clean, a name that is none, and a directory's are refused as such.
#[test]
fn grounds_before_it() {
    let mut twin = Twin::new(card_with(3, 0x21));
    let bad_name = Call::Rename(ROUTE.to_vec(), b"lower case ".to_vec());
    expect(&mut twin, &bad_name, Ground::Name);
    let mut folder = Twin::new(card_with(3, 0x31));
    let mut unclean = Twin::new(card_with(3, 0x21));
    unclean.edit(|card| card.set_fat1(4_000, 0xFFF7));
    let mut pending = Twin::new(card_with(3, 0x20));
    pending.call(&Call::Append(ROUTE.to_vec(), vec![7], AT), 2);
    pending.edit(|card| card.mark_read_only(3, true));
    for call in asking() {
        expect(&mut folder, &call, Ground::Directory);
        expect(&mut unclean, &call, Ground::Unclean);
        expect(&mut pending, &call, Ground::Unclean);
    }
}

/// Each ground that comes after is answered once the mark is gone.
#[test]
fn grounds_after_it() {
    let name = || ROUTE.to_vec();
    let rename = |new: &[u8]| Call::Rename(name(), new.to_vec());
    let mut taken = card_with(3, 0x21);
    taken.put_slot(4, PANEL, 0x10, 0, 0);
    let mut full_root = card_with(3, 0x21);
    full_root.fill_root(4);
    let mut broken = card_with(3, 0x21);
    broken.set_fats(21, 0);
    let mut full = card_with(3, 0x21);
    full.fill();
    let sound = card_with(3, 0x21);
    for (card, call, ground) in [
        (&taken, rename(PANEL), Ground::Exists),
        (&taken, rename(ROUTE), Ground::Exists),
        (&taken, rename(b"F0000000   "), Ground::Exists),
        (&full_root, rename(PANEL), Ground::Rootfull),
        (&broken, Call::Append(name(), vec![7], AT), Ground::Chain),
        (&broken, Call::Append(name(), Vec::new(), AT), Ground::Chain),
        (&broken, Call::Truncate(name(), 700, AT), Ground::Chain),
        (&broken, Call::Truncate(name(), 701, AT), Ground::Chain),
        (&broken, Call::Delete(name()), Ground::Chain),
        (
            &broken,
            Call::Replace(name(), Vec::new(), AT),
            Ground::Chain,
        ),
        (&sound, Call::Truncate(name(), 701, AT), Ground::Length),
        (&sound, Call::Truncate(name(), 1 << 32, AT), Ground::Length),
        (
            &full,
            Call::Append(name(), vec![7; 325], AT),
            Ground::Nospace,
        ),
        (&full, Call::Replace(name(), vec![7], AT), Ground::Nospace),
    ] {
        let mut twin = Twin::new(card.clone());
        expect(&mut twin, &call, Ground::Locked);
        twin.edit(|card| card.mark_read_only(3, false));
        expect(&mut twin, &call, ground);
    }
}

/// Every attribute byte of the only slot that has the name.
#[test]
fn every_attribute_byte() {
    for attributes in 0..=255_u8 {
        let mut twin = Twin::new(card_with(2, attributes));
        let ground = match attributes {
            _ if attributes & 0x08 != 0 => Some(Ground::Absent),
            _ if attributes & 0x10 != 0 => Some(Ground::Directory),
            _ if attributes & 0x01 != 0 => Some(Ground::Locked),
            _ => None,
        };
        for call in asking() {
            match ground {
                Some(ground) => expect(&mut twin, &call, ground),
                None => granted(&mut twin, &call),
            }
        }
        let read = twin.call(&Call::Read(ROUTE.to_vec(), 0, 900), ALL);
        let expected = match ground {
            None | Some(Ground::Locked) => Answer::Done(700),
            Some(ground) => Answer::Refused(ground),
        };
        assert_eq!(read, expected, "{attributes:#x}");
        let is_entry = attributes & 0x08 == 0;
        let there = Answer::Done(2 + u32::from(is_entry));
        assert_eq!(twin.call(&Call::List(96), ALL), there, "{attributes:#x}");
        let create = Call::Create(ROUTE.to_vec(), AT);
        match is_entry {
            true => expect(&mut twin, &create, Ground::Exists),
            false => granted(&mut twin, &create),
        }
        let onto = Call::Rename(b"F0000000   ".to_vec(), ROUTE.to_vec());
        match is_entry {
            true => expect(&mut twin, &onto, Ground::Exists),
            false => granted(&mut twin, &onto),
        }
        granted(&mut twin, &Call::Create(OTHER.to_vec(), AT));
        assert_eq!(twin.call(&Call::Recover, ALL), Answer::Done(0));
    }
}

/// Of slots that have the name, the lowest that is neither deleted, nor a label, nor of a long name decides.
#[test]
fn the_lowest_slot_decides() {
    for (marks, is_locked) in [
        ([0x20, 0x21, 0x21], false),
        ([0x21, 0x20, 0x20], true),
        ([0x09, 0x20, 0x21], false),
        ([0x0F, 0x21, 0x20], true),
        ([0x08, 0x21, 0x20], true),
        ([0x19, 0x20, 0x21], false),
    ] {
        let mut card = card_with(5, marks[0]);
        card.put_slot(6, ROUTE, marks[1], 20, 700);
        card.put_slot(20, ROUTE, marks[2], 20, 700);
        for slot in 7..20 {
            card.slot_mut(slot)[0] = 0xE5;
            card.slot_mut(slot)[11] = 0x21;
        }
        let mut twin = Twin::new(card);
        for call in asking() {
            match is_locked {
                true => expect(&mut twin, &call, Ground::Locked),
                false => granted(&mut twin, &call),
            }
        }
        // Where the lowest is deleted, the next one decides.
        twin.edit(|card| {
            card.slot_mut(5)[0] = 0xE5;
            card.slot_mut(6)[0] = 0xE5;
        });
        for call in asking() {
            match marks[2] {
                0x21 => expect(&mut twin, &call, Ground::Locked),
                _ => granted(&mut twin, &call),
            }
        }
    }
}

/// Files beside it are changed as ever, and it keeps its bytes and its mark.
#[test]
fn files_beside_it() {
    let mut twin = Twin::new(card_with(1, 0x23));
    let slot = twin.card.slot(1).to_vec();
    for call in [
        Call::Create(OTHER.to_vec(), AT),
        Call::Append(OTHER.to_vec(), vec![7; 900], AT),
        Call::Replace(OTHER.to_vec(), vec![8; 1_900], AT),
        Call::Truncate(OTHER.to_vec(), 600, AT),
        Call::Rename(OTHER.to_vec(), PANEL.to_vec()),
        Call::Delete(PANEL.to_vec()),
    ] {
        twin.all_limits(&call, |twin| twin.done(&Call::Recover));
        twin.done(&call);
        assert_eq!(twin.call(&Call::Delete(ROUTE.to_vec()), ALL), LOCKED);
        assert_eq!(twin.card.slot(1), slot, "{call:?}");
        let read = Call::Read(ROUTE.to_vec(), 0, 800);
        assert_eq!(twin.call(&read, ALL), Answer::Done(700));
    }
}

/// The mark comes to the slot of a file whose save was cut: recovery finishes or drops the save as it would without the mark,
/// which the file keeps under either of its names.
#[test]
fn recovery_does_not_ask() {
    for call in asking() {
        let start = card_with(2, 0x20);
        let stores = Twin::new(start.clone()).stores(&call);
        let mut finished = Twin::new(start.clone());
        finished.done(&call);
        let (mut old, mut new) = (0, 0);
        for cut in 0..stores {
            let mut twin = Twin::new(start.clone());
            twin.call(&call, cut as u32);
            twin.edit(|card| card.mark_read_only(2, true));
            twin.all_limits(&Call::Recover, |twin| twin.done(&Call::Recover));
            twin.done(&Call::Recover);
            assert_eq!(twin.call(&Call::Recover, ALL), Answer::Done(0));
            let mut card = twin.card.clone();
            for slot in 2..4 {
                let is_file = ![0, 0xE5].contains(&card.slot(slot)[0]);
                assert!(!is_file || card.slot(slot)[11] == 0x21, "{call:?} {cut}");
                card.mark_read_only(slot, false);
            }
            old += usize::from(card.metadata() == start.metadata());
            new += usize::from(card.metadata() == finished.card.metadata());
        }
        assert_eq!(old + new, stores, "{call:?}");
        assert!(stores == 0 || old > 0 && new > 0, "{call:?}");
    }
}
