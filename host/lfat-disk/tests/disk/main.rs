//! The disk layer: on a disk that lies, on one that fails, on files and devices, on partitions; and in C.

mod broken;
mod c;
mod dates;
mod devices;
mod faults;
mod files;
mod fits;
mod format;
mod format_cuts;
mod format_places;
mod fragments;
mod killed;
mod long_create;
mod long_names;
mod partitions;
mod prefixes;
mod support;
mod verbs;
