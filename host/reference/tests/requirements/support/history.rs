//! Random operations on few names, so that refusals come up often too.

use testkit::call::Call;
use testkit::dates::random_seconds;
use testkit::random::Random;
use testkit::{Name, OTHER, PANEL, ROUTE};

pub const NAMES: [&Name; 6] = [
    ROUTE,
    PANEL,
    OTHER,
    b"KEEL    CUT",
    b"STEM       ",
    b"SHEER_L CUT",
];

fn random_name(random: &mut Random) -> Vec<u8> {
    if random.one_in(40) {
        return b"bad name".to_vec();
    }
    random.pick(&NAMES).to_vec()
}

/// A length that often meets a sector's or cluster's edge.
fn random_length(random: &mut Random, cluster_bytes: usize) -> usize {
    match random.below(6) {
        0 => random.below(4),
        1 => 512 * random.below(4),
        2 => cluster_bytes * random.below(5),
        3 => (cluster_bytes * random.below(4)).saturating_sub(1),
        4 => random.below(600),
        _ => random.below(5 * cluster_bytes),
    }
}

/// A call that stores, and no recovery.
pub fn random_step(random: &mut Random, cluster_bytes: usize) -> Call {
    let name = random_name(random);
    let seconds = random_seconds(random);
    match random.below(20) {
        0..=3 => Call::Create(name, seconds),
        4..=8 => {
            let length = random_length(random, cluster_bytes);
            Call::Append(name, random.bytes(length), seconds)
        }
        9..=11 => {
            let size = random_length(random, cluster_bytes);
            Call::Truncate(name, size as u64, seconds)
        }
        12 | 13 => Call::Delete(name),
        14..=17 => {
            let length = random_length(random, cluster_bytes);
            Call::Replace(name, random.bytes(length), seconds)
        }
        _ => Call::Rename(name, random_name(random)),
    }
}
