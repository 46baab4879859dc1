//! The command line on cards, over the disk layer and the proved library.
//!
//! - `commands`, `help`, `args`, `failure`, `remedy`: the command line itself;
//! - `naming`, `short_name`: files by the names that users give, and names for new ones;
//! - `target`, `source`, `at`: the card it is given, files of this machine, the time;
//! - `output`, `progress`, `json`: what is printed;
//! - `reading`, `fits`, `writing`, `ended`, `listing`: what the commands do;
//! - `format`, `numbers`, `size`, `content`: new cards, and what is in their place;
//! - `rack`: the test rack.

pub mod args;
mod at;
pub mod commands;
mod content;
mod ended;
pub mod failure;
mod fits;
mod format;
pub mod help;
mod json;
pub mod listing;
mod naming;
mod numbers;
pub mod output;
mod progress;
pub mod rack;
mod reading;
mod remedy;
mod short_name;
mod size;
mod source;
mod target;
mod writing;
