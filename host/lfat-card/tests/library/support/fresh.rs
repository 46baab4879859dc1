//! Cards that a format has made.

use super::twin::Twin;
use reference::{Answer, Ground};
use testkit::fresh::{fresh, Fresh};
use testkit::random::Random;
use testkit::ALL;

/// A window to be formatted that holds anything, with some bytes more than the card has.
pub fn any_window(asked: Fresh, more: usize, random: &mut Random) -> Twin {
    let bytes = random.bytes(asked.window() + more);
    Twin::new(asked.in_window(bytes))
}

/// A small card with a short log, formatted in a window that held anything: numbers of no card are refused, and the format is cut
/// once and begun again.
pub fn fresh_card(random: &mut Random) -> Twin {
    let per_cluster = random.pick(&[1, 1, 2]);
    let total = 65 + per_cluster * (4_085 + random.below(20) as u32);
    let asked = fresh(total, per_cluster, 1 + random.below(3) as u32);
    let more = random.below(1_200);
    let mut twin = any_window(asked, more, random);
    let wrong = fresh(random.pick(&[0, 4_149, 9_000_000]), per_cluster, 1);
    let refused = twin.call(&wrong.call(), ALL);
    assert_eq!(refused, Answer::Refused(Ground::Size), "{wrong:?}");
    let cut = 1 + random.below(asked.stores() as usize - 1) as u32;
    let stopped = twin.call(&asked.call(), cut);
    assert_eq!(stopped, Answer::Stopped(cut), "{asked:?}");
    twin.done(&asked.call());
    twin
}
