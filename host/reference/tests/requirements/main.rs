//! The requirements, checked by running. Cards are built here byte by byte, so
//! that the expected values do not come from the code under test.

mod answers;
mod append_and_truncate;
mod boot;
mod buffers;
mod calendar;
mod clock;
mod damage;
mod file_ops;
mod fits;
mod format;
mod format_cuts;
mod format_stores;
mod format_use;
mod grounds;
mod histories;
mod inspection;
mod limits;
mod listing;
mod locked;
mod locked_slots;
mod log_area;
mod long_create;
mod long_entries;
mod long_groups;
mod long_read;
mod long_records;
mod names;
mod power_cuts;
mod records;
mod recovery;
mod replace;
mod stamp_records;
mod stamps;
mod support;
mod worked_card;
