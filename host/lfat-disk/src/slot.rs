//! Files by their slot: other systems write names that the rule for names does not allow, and no call finds these.
//!
//! In memory such a slot gets a name that no other has, and the call is made by that name. Reading changes nothing on the disk.
//! Delete and rename mark the slot as deleted, so that the name does not last; in the log it stands in the record. Recovery goes
//! by the record's slot and not by its name, so a cut is as safe as that of any other delete or rename. The name that is lent has
//! the checksum of the slot's own, so the long entries before the slot belong to it as before, and go along.

use crate::card::DiskCard;
use crate::disk::Disk;
use crate::error::Error;
use crate::layout::bytes;
use crate::lists::Lists;
use crate::volume::{is_entry, Volume};
use lfat_card::Refusal;
use reference::{checksum, Operation};

const NAME: usize = 11;

impl<D: Disk, L: Lists> DiskCard<D, L> {
    /// Copies the bytes of the file in a slot from an offset on into the buffer; gives how many there were.
    pub fn read_slot(
        &mut self,
        slot: usize,
        offset: u64,
        buffer: &mut [u8],
    ) -> Result<usize, Error> {
        let (name, own) = self.lend_name(slot, &[])?;
        let read = self.read(&name, offset, buffer);
        self.set_name(slot, &own);
        read
    }

    /// Copies the characters of the long name of a slot into the buffer, as many as fit; gives how many there are.
    pub fn long_name_slot(&mut self, slot: usize, buffer: &mut [u8]) -> Result<usize, Error> {
        let (name, own) = self.lend_name(slot, &[])?;
        let there = self.long_name(&name, buffer);
        self.set_name(slot, &own);
        there
    }

    /// Removes the file in a slot, with the entries of its long name, and frees its clusters.
    pub fn delete_slot(&mut self, slot: usize, limit: u32) -> Result<u32, Error> {
        let (name, own) = self.lend_name(slot, &[])?;
        let made = self.save(&[Operation::Delete { name: &name }], limit);
        self.take_back(slot, &own, made)
    }

    /// Gives the file in a slot another name; the entries of its long name are removed.
    pub fn rename_slot(&mut self, slot: usize, new: &[u8], limit: u32) -> Result<u32, Error> {
        let (old, own) = self.lend_name(slot, new)?;
        let made = self.save(&[Operation::Rename { old: &old, new }], limit);
        self.take_back(slot, &own, made)
    }

    /// A slot that was not changed has its own name again.
    fn take_back(
        &mut self,
        slot: usize,
        own: &[u8; NAME],
        made: Result<u32, Error>,
    ) -> Result<u32, Error> {
        if made.is_err() {
            self.set_name(slot, own);
        }
        made
    }

    /// Gives a slot a name in memory that no other slot has, nor will have; gives that and its own.
    fn lend_name(&mut self, slot: usize, new: &[u8]) -> Result<([u8; NAME], [u8; NAME]), Error> {
        self.list()?;
        let volume = Volume::open(self.window()).ok_or(Refusal::Window)?;
        let found = volume.slots().nth(slot).filter(|bytes| is_entry(bytes));
        let found = found.ok_or(Refusal::Absent)?;
        let mut own = [0; NAME];
        own.copy_from_slice(&found[..NAME]);
        let mut names = spare_names(checksum(&own)).filter(|name| name != new);
        let name = names.find(|name| volume.find(name).is_none());
        let name = name.ok_or(Refusal::Rootfull)?;
        self.set_name(slot, &name);
        Ok((name, own))
    }

    fn set_name(&mut self, slot: usize, name: &[u8; NAME]) {
        let Some(areas) = self.memory().areas.clone() else {
            return;
        };
        let root = bytes(&areas.layout.root());
        let at = root.start + slot * 32;
        self.memory().window[at..at + NAME].copy_from_slice(name);
    }
}

/// Names to be lent, all with the given checksum. Of each there are far more than a root directory has slots.
fn spare_names(sum: u8) -> impl Iterator<Item = [u8; NAME]> {
    const DIGITS: &[u8; 36] = b"0123456789ABCDEFGHIJKLMNOPQRSTUVWXYZ";
    let names = (0..36_u32.pow(6)).map(|number| {
        let mut name = *b"LF000000LFT";
        let mut left = number as usize;
        for digit in name[2..8].iter_mut().rev() {
            *digit = DIGITS[left % 36];
            left /= 36;
        }
        name
    });
    names.filter(move |name| checksum(name) == sum)
}
