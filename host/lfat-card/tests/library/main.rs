//! The library's thirteen calls: against the independent implementation, against Debian's FAT tools, and through power cuts.
//!
//! All random numbers have fixed seeds. `LFAT_CASES=10 cargo test --release -p lfat-card --test library` runs ten times as many
//! random cases. `fat_tools`, `format_tools`, `long_names`, `long_mtools` and `dates_mtools` need the packages dosfstools and mtools.

mod support;

mod areas;
mod boot;
mod damage;
mod dates;
mod dates_mtools;
mod fat_tools;
mod fits;
mod format;
mod format_cuts;
mod format_tools;
mod grounds;
mod histories;
mod locked;
mod long_create;
mod long_entries;
mod long_mtools;
mod long_names;
mod names;
mod parallel;
mod power_cuts;
mod raw;
mod records;
mod sizes;
mod stamp_groups;
mod wide;
mod worked_card;
