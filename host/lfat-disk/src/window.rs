//! The window that the library is lent: the whole card as one slice, of which only what is read or stored takes memory.
//!
//! It is a mapping of a file that lives in memory. What was never touched are holes of that file: they read as zeros, and the
//! system tells where they are, so that the whole card can be compared without looking at all of it. For a save of many megabytes
//! it is a mapping of a file on a disk instead: then the system may write out and drop what it has no memory for.

use crate::sys::{self, Mapping};
use std::fs::File;
use std::io;
use std::ops::{Deref, DerefMut, Range};

/// The whole card as one slice.
pub struct Window {
    file: File,
    mapping: Mapping,
}

impl Window {
    /// A window of zeros that takes no memory yet.
    pub fn new(len: usize) -> io::Result<Window> {
        Window::over(sys::memory_file()?, len)
    }

    /// The same, over a file on a disk; `None` where there is no room for so many bytes of it.
    pub fn in_file(len: usize, room: usize) -> io::Result<Option<Window>> {
        let file = sys::nameless_file(room as u64)?;
        file.map(|file| Window::over(file, len)).transpose()
    }

    fn over(file: File, len: usize) -> io::Result<Window> {
        file.set_len(len as u64)?;
        let mapping = Mapping::new(&file, len, true)?;
        Ok(Window { file, mapping })
    }

    /// The parts that were touched since they were last zeros without memory, in whole pages, cut to the window.
    pub fn touched(&self) -> io::Result<Vec<Range<usize>>> {
        let mut parts = Vec::new();
        let mut from = 0;
        while from < self.len() {
            let Some((start, end)) = sys::next_data(&self.file, from)? else {
                break;
            };
            parts.push(start..end.min(self.len()));
            from = end;
        }
        Ok(parts)
    }

    /// Turns a part into zeros and gives its memory back.
    pub fn release(&mut self, part: Range<usize>) -> io::Result<()> {
        sys::punch_hole(&self.file, part.start, part.len())
    }
}

impl Deref for Window {
    type Target = [u8];

    fn deref(&self) -> &[u8] {
        self.mapping.bytes()
    }
}

impl DerefMut for Window {
    fn deref_mut(&mut self) -> &mut [u8] {
        self.mapping.bytes_mut()
    }
}
