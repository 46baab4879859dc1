//! The recoveries after a cut, and the judging of what they leave.

use super::report::Cut;
use super::run::Rack;
use lfat_card::{calls, Answer, NO_LIMIT};

/// Recoveries with more stores than this are cut in every place, but no two of them in a row in every pair of places.
const WIDE: u32 = 24;

/// The most cut recoveries of a random sequence.
const LONGEST: usize = 8;

impl Rack<'_> {
    /// Recovers to the end, then with one more recovery cut in every place, from the least limit on. Gives how many
    /// stores the first recovery made.
    pub fn explore(&mut self, cut: &mut Cut, depth: usize, least: u32) -> Option<u32> {
        let here = self.areas.save(&self.memory.window);
        let needed = self.recover_whole(cut)?;
        let depth = if needed > WIDE { depth.min(1) } else { depth };
        if depth == 0 {
            return Some(needed);
        }
        for limit in least..needed {
            self.areas.restore(&mut self.memory.window, &here);
            let known = self.limits.len();
            if self.recover_part(cut, limit) {
                // A second recovery of no store would be the same again.
                self.explore(cut, depth - 1, 1);
            }
            self.limits.truncate(known);
        }
        Some(needed)
    }

    /// Recovers with random limits below the bound until a recovery ends.
    pub fn wander(&mut self, cut: &mut Cut, bound: u32) {
        let known = self.limits.len();
        for _ in 0..LONGEST {
            let limit = self.random.below(bound);
            cut.recoveries += 1;
            self.limits.push(limit);
            match calls::recover(&mut self.memory.window, limit) {
                Answer::Stopped(made) if made == limit => continue,
                Answer::Done(_) => self.judge(cut),
                answer => self.fail(cut, &format!("recovery answered {answer:?}")),
            }
            self.limits.truncate(known);
            return;
        }
        self.recover_whole(cut);
        self.limits.truncate(known);
    }

    /// A recovery that is cut; false if it answered something else.
    fn recover_part(&mut self, cut: &mut Cut, limit: u32) -> bool {
        cut.recoveries += 1;
        self.limits.push(limit);
        let answer = calls::recover(&mut self.memory.window, limit);
        if answer != Answer::Stopped(limit) {
            self.fail(cut, &format!("recovery answered {answer:?}"));
        }
        answer == Answer::Stopped(limit)
    }

    /// A recovery that ends; gives its number of stores.
    fn recover_whole(&mut self, cut: &mut Cut) -> Option<u32> {
        cut.recoveries += 1;
        match calls::recover(&mut self.memory.window, NO_LIMIT) {
            Answer::Done(made) => {
                self.judge(cut);
                Some(made)
            }
            answer => {
                self.fail(cut, &format!("recovery answered {answer:?}"));
                None
            }
        }
    }

    /// Demand 3: the state is the new one if the log record was on the card at the cut, else the old one; the card is clean,
    /// and one more recovery stores nothing.
    fn judge(&mut self, cut: &mut Cut) {
        let is_new = cut.made >= self.recorded;
        let (wanted, word) = if is_new {
            (&self.new, "new")
        } else {
            (&self.old, "old")
        };
        if let Some(what) = wanted.difference(&self.memory.window) {
            self.fail(cut, &format!("not the {word} state: {what} differs"));
        } else if !matches!(calls::list(&self.memory.window, &mut []), Answer::Done(_)) {
            self.fail(cut, "the card is not clean");
        } else if calls::recover(&mut self.memory.window, NO_LIMIT) != Answer::Done(0) {
            self.fail(cut, "one more recovery stores something");
        } else if is_new {
            cut.new += 1;
        } else {
            cut.old += 1;
        }
    }

    pub fn fail(&mut self, cut: &mut Cut, what: &str) {
        cut.mismatch += 1;
        if self.mismatch.is_none() {
            let sequence = match self.limits.as_slice() {
                [] => "one whole recovery".to_string(),
                limits => format!("recoveries with limits {limits:?}"),
            };
            self.mismatch = Some(format!(
                "cut after {} stores ({}), {sequence}: {what}",
                cut.made,
                cut.stage()
            ));
        }
    }
}
