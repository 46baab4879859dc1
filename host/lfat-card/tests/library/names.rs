//! Which names are taken: every byte at every place, and other lengths.

use crate::support::twin::Twin;
use reference::{Answer, Ground};
use testkit::call::Call;
use testkit::cards::Card;
use testkit::{AT, OTHER, PANEL, ROUTE};

/// The rule, written down once more.
fn is_name(name: &[u8]) -> bool {
    let allowed = b"ABCDEFGHIJKLMNOPQRSTUVWXYZ0123456789!#$%&'()-@^_`{}~";
    let filled = |part: &[u8]| {
        let end = part.iter().rposition(|&byte| byte != b' ');
        let letters = &part[..end.map_or(0, |last| last + 1)];
        letters.iter().all(|byte| allowed.contains(byte))
    };
    name.len() == 11 && name[0] != b' ' && filled(&name[..8]) && filled(&name[8..])
}

/// With limit 0 nothing is stored, so one card serves for all names.
fn expect(twin: &mut Twin, name: &[u8]) {
    let good = is_name(name);
    let create = twin.call(&Call::Create(name.to_vec(), AT), 0);
    let delete = twin.call(&Call::Delete(name.to_vec()), 0);
    let replace = twin.call(&Call::Replace(name.to_vec(), vec![7], AT), 0);
    let rename = twin.call(&Call::Rename(ROUTE.to_vec(), name.to_vec()), 0);
    let refused = Answer::Refused(Ground::Name);
    let shown = name.escape_ascii();
    assert_eq!(create != refused, good, "{shown}");
    assert_eq!(delete != refused, good, "{shown}");
    assert_eq!(replace != refused, good, "{shown}");
    assert_eq!(rename != refused, good, "{shown}");
}

#[test]
fn every_byte_at_every_place() {
    let mut card = Card::k();
    card.put_slot(0, ROUTE, 0x20, 0, 0);
    let mut twin = Twin::new(card);
    for place in 0..11 {
        for byte in 0..=255 {
            let mut name = *b"PANEL_1ACUT";
            name[place] = byte;
            expect(&mut twin, &name);
        }
    }
}

#[test]
fn lengths_and_spaces() {
    let mut card = Card::k();
    card.put_slot(0, ROUTE, 0x20, 0, 0);
    let mut twin = Twin::new(card);
    for length in 0..14 {
        expect(&mut twin, &b"PANELPANELPANEL"[..length]);
    }
    // Each of the eleven bytes a letter or a space.
    for spaces in 0..1u32 << 11 {
        let byte = |place| [b'X', b' '][(spaces >> place) as usize & 1];
        let name: Vec<u8> = (0..11).map(byte).collect();
        expect(&mut twin, &name);
    }
}

/// A name means its lowest live slot that is neither a label nor part of a long name.
#[test]
fn slots_that_a_name_means() {
    let mut card = Card::k();
    card.put_slot(0, ROUTE, 0x08, 0, 0);
    card.put_slot(1, ROUTE, 0x0F, 0, 0);
    card.put_slot(2, ROUTE, 0x18, 0, 0);
    card.put_slot(3, ROUTE, 0x20, 30, 5);
    card.put_slot(4, ROUTE, 0x20, 31, 6);
    card.put_slot(5, PANEL, 0x10, 0, 0);
    card.put_slot(6, PANEL, 0x20, 32, 7);
    card.put_slot(7, OTHER, 0x08, 0, 0);
    card.slot_mut(8).copy_from_slice(&[0xE5; 32]);
    card.put_chain(&[30], 0xFFF8);
    card.put_chain(&[31], 0xFFFF);
    card.put_chain(&[32], 0xFFFF);
    let mut twin = Twin::new(card);
    let read = Call::Read(ROUTE.to_vec(), 0, 100);
    assert_eq!(twin.call(&read, 0), Answer::Done(5));
    assert_eq!(twin.call(&Call::List(200), 0), Answer::Done(4));
    let folder = twin.call(&Call::Delete(PANEL.to_vec()), 0);
    assert_eq!(folder, Answer::Refused(Ground::Directory));
    let folder = twin.call(&Call::Replace(PANEL.to_vec(), vec![7], AT), 0);
    assert_eq!(folder, Answer::Refused(Ground::Directory));
    twin.done(&Call::Replace(ROUTE.to_vec(), vec![7; 90], AT));
    assert_eq!(twin.call(&read, 0), Answer::Done(90));
    twin.done(&Call::Rename(ROUTE.to_vec(), OTHER.to_vec()));
    assert_eq!(twin.call(&read, 0), Answer::Done(6));
    twin.done(&Call::Delete(ROUTE.to_vec()));
    twin.done(&Call::Create(ROUTE.to_vec(), AT));
    assert_eq!(twin.call(&read, 0), Answer::Done(0));
}
