//! Making a new card, over whatever is there.

use super::{DiskCard, State};
use crate::areas::Snapshot;
use crate::disk::Disk;
use crate::error::Error;
use crate::layout::SECTOR;
use crate::lists::{self, Lists};
use crate::memory::Memory;
use lfat_card::{Form, NO_LIMIT};
use reference::{Operation, Program};

impl<D: Disk, L: Lists> DiskCard<D, L> {
    /// How many whole sectors the disk or the partition has: a card on it has no more.
    pub fn sectors(&self) -> u64 {
        self.disk.bytes() / SECTOR as u64
    }

    /// Writes an empty card over whatever is there: a card with its files, one that is damaged, or none. No question is asked. The boot
    /// sector is written first, as zeros, and again last, each time with a flush before it and after it; a cut in between leaves
    /// what every other call refuses with [`lfat_card::Refusal::Boot`], and what is formatted again. In a partition its entry in the
    /// partition table stays as it is. The card can be used at once.
    pub fn format(&mut self, form: Form) -> Result<u32, Error> {
        self.save(&[formatting(form)], NO_LIMIT)
    }

    /// Makes a format in a memory of its own, which is the card's if it is granted; gives its list of stores.
    pub(super) fn prepare_format<'a>(
        &mut self,
        format: &Operation<'a>,
        total: u32,
    ) -> Result<Program<'a>, Error> {
        let memory = Memory::blank(self.disk.bytes(), format, total);
        let mut memory = memory.map_err(Error::Disk)?;
        let progress = &mut self.progress;
        let tick = &mut |count| progress(0, count);
        let program = lists::run(&mut memory, &self.lists, format, &[], tick)?;
        memory.finish();
        self.memory = memory;
        Ok(program)
    }

    /// The card in memory is again the one on the disk, after calls of which nothing was written. After a format it is read again:
    /// the memory is another one.
    pub(super) fn put_back(
        &mut self,
        before: Option<Snapshot>,
        made: &[Operation],
    ) -> Result<(), Error> {
        let is_format = |call: &Operation| matches!(call, Operation::Format { .. });
        if made.iter().any(is_format) {
            let state = std::mem::replace(&mut self.state, State::Ended);
            self.memory = Memory::load(&mut self.disk).map_err(Error::Disk)?;
            self.state = state;
        } else if let Some(before) = before {
            self.memory.restore(&before);
        }
        self.memory.release_data().map_err(Error::Disk)
    }
}

/// The call that makes a card of a form.
pub fn formatting(form: Form) -> Operation<'static> {
    Operation::Format {
        total: form.total,
        per_cluster: form.per_cluster,
        log_clusters: form.log_clusters,
    }
}
