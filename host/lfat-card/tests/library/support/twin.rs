//! One card under both implementations: after every call the answers, all bytes of the window and of the buffer, and the bytes
//! around them must be as the reference has them.

use super::coverage::{code, Seen};
use reference::{plan, Answer, Store};
use testkit::call::Call;
use testkit::cards::Card;
use testkit::ALL;

/// Bytes before and after what is lent. Odd, so that nothing is aligned.
const MARGIN: usize = 61;
const GUARD: u8 = 0xA5;

fn guarded(bytes: &[u8]) -> Vec<u8> {
    [&[GUARD; MARGIN], bytes, &[GUARD; MARGIN]].concat()
}

pub struct Twin {
    /// The card as the reference has it. The library's is the same after every call.
    pub card: Card,
    /// How many of the card's bytes are lent as the window.
    pub lent: usize,
    /// What has been answered.
    pub seen: Seen,
    own: Vec<u8>,
    /// Sectors as they were before each store, in order, while they are to be put back.
    undo: Option<Vec<(usize, Vec<u8>)>>,
}

impl Twin {
    pub fn new(card: Card) -> Self {
        Twin {
            lent: card.bytes.len(),
            own: guarded(&card.bytes),
            seen: Seen::new(),
            undo: None,
            card,
        }
    }

    /// Changes both cards by hand. All of the card is lent again.
    pub fn edit(&mut self, change: impl FnOnce(&mut Card)) {
        change(&mut self.card);
        self.own.truncate(MARGIN);
        self.own.extend(&self.card.bytes);
        self.own.extend([GUARD; MARGIN]);
        self.lent = self.card.bytes.len();
    }

    /// Runs the call on both and compares. Gives the answer.
    pub fn call(&mut self, call: &Call, limit: u32) -> Answer {
        let contents: Vec<u8> = (0..call.room()).map(|at| at as u8 ^ 0x5A).collect();
        let mut expected = contents.clone();
        let mut buffer = guarded(&contents);
        let given = call.clone();

        self.keep(call);
        let window = &mut self.card.bytes[..self.lent];
        let answer = call.on_reference(window, limit, &mut expected);
        let window = &mut self.own[MARGIN..][..self.lent];
        let room = &mut buffer[MARGIN..][..contents.len()];
        let got = given.on_library(window, limit, room);

        assert_eq!(got.encode(), answer.encode(), "{call:?}, limit {limit}");
        self.assert_same(call, limit);
        assert!(buffer == guarded(&expected), "{call:?}: the buffer differs");
        assert!(
            given.operation() == call.operation(),
            "{call:?}: what was given has changed"
        );
        self.seen.insert((call.word(), code(answer)));
        answer
    }

    fn assert_same(&self, call: &Call, limit: u32) {
        let (front, rest) = self.own.split_at(MARGIN);
        let (bytes, back) = rest.split_at(self.card.bytes.len());
        if bytes != self.card.bytes {
            let at = bytes.iter().zip(&self.card.bytes).position(|(a, b)| a != b);
            let at = at.expect("a byte differs");
            let (sector, offset) = (at / 512, at % 512);
            panic!("{call:?}, limit {limit}: sector {sector} differs at {offset}");
        }
        let mut guards = front.iter().chain(back);
        assert!(guards.all(|&byte| byte == GUARD), "{call:?}: a guard");
    }

    /// A call that must end in DONE.
    pub fn done(&mut self, call: &Call) {
        let answer = self.call(call, ALL);
        assert!(matches!(answer, Answer::Done(_)), "{call:?}: {answer:?}");
    }

    /// The stores of the call on the card as it stands; none if it is refused.
    fn planned(&self, call: &Call) -> Vec<Store> {
        let window = &self.card.bytes[..self.lent];
        let planned = call.operation().map(|operation| plan(window, &operation));
        planned.and_then(Result::ok).unwrap_or_default()
    }

    /// Keeps the sectors that the call may store.
    fn keep(&mut self, call: &Call) {
        let Some(mut undo) = self.undo.take() else {
            return;
        };
        undo.extend(self.planned(call).iter().map(|store| {
            let at = store.sector * 512;
            (at, self.card.bytes[at..at + 512].to_vec())
        }));
        self.undo = Some(undo);
    }

    /// How many stores the call makes on the card as it stands.
    pub fn stores(&self, call: &Call) -> usize {
        self.planned(call).len()
    }

    /// Tries the call with every limit from 0 to one more than its stores, each time on the card as it stands, and does `after`
    /// to what each leaves. The card is put back.
    pub fn all_limits(&mut self, call: &Call, after: impl Fn(&mut Twin)) {
        for limit in (0..=self.stores(call) as u32 + 1).chain([ALL]) {
            self.tried(call, limit, &after);
        }
    }

    /// Tries the call and does `after` to what it leaves. The card is put back.
    pub fn tried(&mut self, call: &Call, limit: u32, after: impl FnOnce(&mut Twin)) {
        self.undo = Some(Vec::new());
        self.call(call, limit);
        after(self);
        // The two cards are the same, so they are put back alike.
        for (at, old) in self.undo.take().into_iter().flatten().rev() {
            self.card.bytes[at..at + 512].copy_from_slice(&old);
            self.own[MARGIN + at..][..512].copy_from_slice(&old);
        }
    }

    /// Changes one byte of a root slot on both cards.
    pub fn set_slot_byte(&mut self, slot: usize, at: usize, byte: u8) {
        self.card.slot_mut(slot)[at] = byte;
        let place = self.card.root() * 512 + slot * 32 + at;
        self.own[MARGIN + place] = byte;
    }
}
