//! Grounds 1 to 7: the judging of a card. Ground 18: the judging of the clock.

use crate::answer::Ground;
use crate::calendar::{stamp, Stamp};
use crate::journal::{scan, Journal, PendingGroup};
use crate::root::ends_once;
use crate::volume::Volume;

/// A card whose areas were all accepted.
#[derive(Clone, Copy)]
pub struct Mounted<'a> {
    pub volume: Volume<'a>,
    pub journal: Journal<'a>,
}

/// Grounds 1 to 6, with the pending group if there is one.
pub fn recoverable(window: &[u8]) -> Result<(Mounted<'_>, Option<PendingGroup>), Ground> {
    let volume = Volume::open(window)?;
    let journal = Journal::find(&volume)?;
    if !ends_once(volume.root()) {
        return Err(Ground::Root);
    }
    let pending = scan(journal.table, volume.root())?;
    Ok((Mounted { volume, journal }, pending))
}

/// Grounds 1 to 7.
pub fn clean(window: &[u8]) -> Result<Mounted<'_>, Ground> {
    let (mounted, pending) = recoverable(window)?;
    let volume = &mounted.volume;
    if pending.is_some() || volume.fat1().bytes != volume.fat2().bytes {
        return Err(Ground::Unclean);
    }
    Ok(mounted)
}

/// Grounds 1 to 7 and 18, CLOCK: the card, and what its files are stamped with.
pub fn clean_at(window: &[u8], seconds: u32) -> Result<(Mounted<'_>, Stamp), Ground> {
    let card = clean(window)?;
    let stamp = stamp(seconds).ok_or(Ground::Clock)?;
    Ok((card, stamp))
}
