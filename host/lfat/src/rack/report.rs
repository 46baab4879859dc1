//! What the rack found, as a table.

use super::stage::Stage;
use crate::json;
use crate::naming::one_line;
use lfat_card::{printed, DateTime};
use lfat_disk::Operation;
use std::fmt::Display;

/// One cut and all that followed it.
#[derive(Clone, Debug)]
pub struct Cut {
    /// The stores made before the power went.
    pub made: usize,
    /// What the last of them was.
    pub last: Option<Stage>,
    /// Recoveries called; of a format, formats begun again.
    pub recoveries: usize,
    /// Sequences of recoveries that ended in the old state as they should, in the new one as they should, or otherwise. Those of
    /// formats end with the new card, and count as what was found before them: the old card, one that is refused, or the new one.
    pub old: usize,
    pub refused: usize,
    pub new: usize,
    pub mismatch: usize,
}

impl Cut {
    pub fn after(made: usize, last: Option<Stage>) -> Cut {
        Cut {
            made,
            last,
            recoveries: 0,
            old: 0,
            refused: 0,
            new: 0,
            mismatch: 0,
        }
    }

    pub fn stage(&self) -> &'static str {
        stage(self.last)
    }
}

/// The text of a long name, of characters as bytes, on one line.
fn text(characters: &[u8]) -> String {
    let (pairs, _) = characters.as_chunks();
    let characters: Vec<u16> = pairs.iter().copied().map(u16::from_le_bytes).collect();
    one_line(&String::from_utf16_lossy(&characters))
}

/// What the last store made was for.
fn stage(last: Option<Stage>) -> &'static str {
    last.map_or("none", Stage::word)
}

pub struct Report<'a> {
    pub operation: Operation<'a>,
    /// How many stores it makes.
    pub stores: usize,
    /// The long entries that it marks with the file's slot, or writes before it.
    pub long_entries: usize,
    /// The files' bytes were compared too.
    pub sound: bool,
    pub cuts: Vec<Cut>,
    /// The first mismatch, in words.
    pub mismatch: Option<String>,
}

impl Report<'_> {
    /// The operation in words.
    pub fn title(&self) -> String {
        let words = match self.operation {
            Operation::Create { name, .. } => format!("create {}", printed(name)),
            Operation::CreateLong {
                name, characters, ..
            } => {
                format!("create '{}' as {}", text(characters), printed(name))
            }
            Operation::Append { name, data, .. } => {
                format!("append {} bytes to {}", data.len(), printed(name))
            }
            Operation::Replace { name, data, .. } => {
                format!("replace {} by {} bytes", printed(name), data.len())
            }
            Operation::Truncate { name, size, .. } => {
                format!("truncate {} to {size} bytes", printed(name))
            }
            Operation::Delete { name } => format!("rm {}", printed(name)),
            Operation::Rename { old, new } => format!("mv {} to {}", printed(old), printed(new)),
            Operation::Recover => "recover".to_string(),
            Operation::Format {
                total,
                per_cluster,
                log_clusters,
            } => {
                format!("format {total} sectors, {per_cluster} per cluster, log of {log_clusters}")
            }
        };
        let long = match self.long_entries {
            0 => String::new(),
            1 => " with 1 long entry".to_string(),
            count => format!(" with {count} long entries"),
        };
        format!("{words}{long}: {} stores", self.stores)
    }

    /// The time that the operation is given; none for those that date nothing.
    fn at(&self) -> Option<DateTime> {
        match self.operation {
            Operation::Create { seconds, .. }
            | Operation::CreateLong { seconds, .. }
            | Operation::Append { seconds, .. }
            | Operation::Replace { seconds, .. }
            | Operation::Truncate { seconds, .. } => DateTime::from_seconds(seconds).ok(),
            Operation::Delete { .. }
            | Operation::Rename { .. }
            | Operation::Recover
            | Operation::Format { .. } => None,
        }
    }

    /// The stages, each with its cuts.
    fn stages(&self) -> Vec<(&'static str, Vec<&Cut>)> {
        let mut stages: Vec<Option<Stage>> = self.cuts.iter().map(|cut| cut.last).collect();
        stages.dedup();
        let cuts = |last| self.cuts.iter().filter(move |cut| cut.last == last);
        let rows = stages
            .into_iter()
            .map(|last| (stage(last), cuts(last).collect()));
        rows.chain([("all", self.cuts.iter().collect())]).collect()
    }

    /// What is counted of each cut.
    fn columns(&self) -> &'static [Column] {
        match self.operation {
            Operation::Format { .. } => &OF_A_FORMAT,
            _ => &COLUMNS,
        }
    }

    /// A row for each stage of the stores, and a total.
    pub fn table(&self) -> String {
        let heads = self.columns().iter().map(|(head, _)| *head);
        let mut text = format!(
            "{}\n\n{}",
            self.title(),
            row("last store made", "cuts", heads)
        );
        for (name, cuts) in self.stages() {
            let sums = self.columns().iter().map(|(_, of)| sum(&cuts, of));
            text += &row(name, cuts.len(), sums);
        }
        if self.cuts.len() <= self.stores {
            text += &format!(
                "\nOf {} places to cut, {} were tried.\n",
                self.stores + 1,
                self.cuts.len()
            );
        }
        if !self.sound {
            text +=
                "\nFiles share clusters or break the chain rule: their bytes were not compared.\n";
        }
        text
    }

    /// The same as a JSON object.
    pub fn json(&self) -> String {
        let rows = self.stages().into_iter().map(|(name, cuts)| {
            let (name, count) = (json::text(name), cuts.len());
            let heads = self.columns().iter().map(|(head, _)| head.to_lowercase());
            let heads: Vec<String> = heads.collect();
            let sums: Vec<usize> = self
                .columns()
                .iter()
                .map(|(_, of)| sum(&cuts, of))
                .collect();
            let mut fields: Vec<(&str, &dyn Display)> = vec![("last", &name), ("cuts", &count)];
            fields.extend(
                heads
                    .iter()
                    .zip(&sums)
                    .map(|(head, sum)| (head.as_str(), sum as &dyn Display)),
            );
            json::object(&fields)
        });
        json::object(&[
            ("operation", &json::text(&self.title())),
            ("at", &json::time(self.at())),
            ("stores", &self.stores),
            ("long_entries", &self.long_entries),
            ("sound", &self.sound),
            ("rows", &json::array(rows)),
            (
                "mismatch",
                &json::optional(self.mismatch.as_deref().map(json::text)),
            ),
        ])
    }
}

/// The head of a column, and what it counts of a cut.
type Column = (&'static str, fn(&Cut) -> usize);

const COLUMNS: [Column; 4] = [
    ("recoveries", |cut| cut.recoveries),
    ("old", |cut| cut.old),
    ("new", |cut| cut.new),
    ("mismatch", |cut| cut.mismatch),
];

const OF_A_FORMAT: [Column; 5] = [
    ("formats", |cut| cut.recoveries),
    ("old", |cut| cut.old),
    ("BOOT", |cut| cut.refused),
    ("new", |cut| cut.new),
    ("mismatch", |cut| cut.mismatch),
];

fn sum(cuts: &[&Cut], of: &fn(&Cut) -> usize) -> usize {
    cuts.iter().map(|cut| of(cut)).sum()
}

/// A line of the table.
fn row(name: &str, cuts: impl Display, others: impl Iterator<Item = impl Display>) -> String {
    let mut row = format!("{name:<16}{cuts:>8}");
    for (index, other) in others.enumerate() {
        let width = if index == 0 { 12 } else { 10 };
        row += &format!("{other:>width$}");
    }
    row + "\n"
}
