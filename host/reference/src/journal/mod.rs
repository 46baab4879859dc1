//! The log table on the card.

mod area;
pub mod record;
mod scan;

pub use area::{Journal, MOST_LOG_SECTORS};
pub use record::Record;
pub use scan::{scan, PendingGroup};
