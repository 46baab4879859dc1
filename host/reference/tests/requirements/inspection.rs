//! Soundness, file bytes and free clusters.

use crate::support::pattern;
use reference::*;
use testkit::cards::Card;
use testkit::{OTHER, PANEL, ROUTE};

/// Card K with three files, one of them empty.
fn card() -> Card {
    let mut card = Card::k();
    card.put_slot(0, ROUTE, 0x20, 20, 1_000);
    card.put_chain(&[20, 30], 0xFFFF);
    card.put_slot(1, PANEL, 0x20, 40, 1);
    card.put_chain(&[40], 0xFFF8);
    card.put_slot(2, OTHER, 0x20, 0, 0);
    card
}

#[test]
fn sound_cards() {
    assert!(is_sound(&card_k()));
    assert!(is_sound(&card().bytes));
}

#[test]
fn broken_chain_is_not_sound() {
    let mut card = card();
    card.set_fats(30, 31);
    assert!(!is_sound(&card.bytes));
    assert_eq!(file_chain(&card.bytes, 0), None);
}

#[test]
fn shared_cluster_is_not_sound() {
    let mut card = card();
    card.put_slot(2, OTHER, 0x20, 30, 1);
    assert!(!is_sound(&card.bytes));
    assert_eq!(file_chain(&card.bytes, 2), Some(vec![30]));
}

#[test]
fn only_files_are_looked_at() {
    for attributes in [0x08, 0x0F, 0x10, 0x18] {
        let mut card = card();
        card.put_slot(2, OTHER, attributes, 30, 77_777);
        assert!(is_sound(&card.bytes), "{attributes}");
    }
    let mut card = card();
    card.put_slot(2, b"\xE5GONE      ", 0x20, 30, 77_777);
    assert!(is_sound(&card.bytes));
    card.put_slot(4, OTHER, 0x20, 30, 77_777);
    assert!(is_sound(&card.bytes), "slot 3 is the end");
}

#[test]
fn refused_card_is_not_sound() {
    let card = card_k();
    assert!(!is_sound(&card[..100]));
    assert!(!is_sound(&card[..card.len() - 1]));
    assert!(!is_sound(&[0; 512]));
}

#[test]
fn bytes_follow_the_chain() {
    let mut card = card();
    let data = pattern(1_000, 4);
    let (first, second) = (card.cluster(20) * 512, card.cluster(30) * 512);
    card.bytes[first..first + 512].copy_from_slice(&data[..512]);
    card.bytes[second..second + 488].copy_from_slice(&data[512..]);
    assert_eq!(file_bytes(&card.bytes, 0), data);
    assert_eq!(file_bytes(&card.bytes, 2), []);
}

#[test]
#[should_panic(expected = "chain rule")]
fn bytes_of_a_broken_chain() {
    let mut card = card();
    card.set_fats(30, 0);
    file_bytes(&card.bytes, 0);
}

#[test]
fn free_clusters_are_those_holding_0() {
    let mut card = card();
    card.fill();
    assert_eq!(free_clusters(&card.bytes), []);
    for cluster in [50, 10, 4_086, 4_087] {
        card.set_fats(cluster, 0);
    }
    assert_eq!(free_clusters(&card.bytes), [10, 50, 4_086]);
}
