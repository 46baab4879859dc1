//! Which answers came up, so that a test cannot lose its cases unseen.

use reference::{Answer, Ground};
use std::collections::BTreeSet;

/// Calls with the codes that they answered: 0 DONE, 254 NO, 255 STOPPED, else the ground's number.
pub type Seen = BTreeSet<(&'static str, u64)>;

/// The calls, each with the codes that it never answers. Every other code comes up in a test.
const NEVER: [(&str, &[u64]); 13] = [
    ("create", &[9, 10, 13, 14, 15, 16, 17, 19, 254]),
    ("create_long", &[9, 10, 13, 14, 15, 16, 19, 254]),
    ("append", &[11, 12, 14, 17, 19, 254]),
    ("replace", &[11, 12, 14, 17, 19, 254]),
    ("truncate", &[11, 12, 15, 17, 19, 254]),
    ("delete", &[11, 12, 14, 15, 17, 18, 19, 254]),
    ("rename", &[13, 14, 15, 17, 18, 19, 254]),
    (
        "recover",
        &[7, 8, 9, 10, 11, 12, 13, 14, 15, 16, 17, 18, 19, 254],
    ),
    ("read", &[11, 12, 14, 15, 16, 17, 18, 19, 254, 255]),
    (
        "list",
        &[8, 9, 10, 11, 12, 13, 14, 15, 16, 17, 18, 19, 254, 255],
    ),
    ("fits", &[8, 9, 10, 11, 12, 13, 14, 15, 16, 17, 18, 19, 255]),
    (
        "long_name",
        &[10, 11, 12, 13, 14, 15, 16, 17, 18, 19, 254, 255],
    ),
    (
        "format",
        &[
            1, 2, 4, 5, 6, 7, 8, 9, 10, 11, 12, 13, 14, 15, 16, 17, 18, 254,
        ],
    ),
];

pub fn code(answer: Answer) -> u64 {
    answer.encode() >> 32
}

/// All codes that there are.
fn codes() -> impl Iterator<Item = u64> {
    let grounds = Ground::ALL.into_iter().map(Ground::number);
    [0, 254, 255].into_iter().chain(grounds.map(u64::from))
}

/// Of each call, every code that is wanted was either seen or stands in the list of those that it never answers, and no code was
/// seen that stands there.
pub fn assert_seen(seen: &Seen, wanted: impl Fn(u64) -> bool) {
    let all: Seen = NEVER
        .iter()
        .flat_map(|(call, _)| codes().map(move |code| (*call, code)))
        .collect();
    let never: Seen = NEVER
        .iter()
        .flat_map(|(call, codes)| codes.iter().map(move |&code| (*call, code)))
        .collect();
    let missing: Vec<_> = all
        .iter()
        .filter(|pair| wanted(pair.1) && !seen.contains(pair) && !never.contains(pair))
        .collect();
    assert!(missing.is_empty(), "did not come up: {missing:?}");
    let wrong: Vec<_> = seen.intersection(&never).collect();
    assert!(wrong.is_empty(), "never to be answered: {wrong:?}");
    assert!(seen.is_subset(&all) && never.is_subset(&all), "{seen:?}");
}
