//! A file being read.

use crate::{CardView, Name};
use std::io::{Error, ErrorKind, Read, Result, Seek, SeekFrom};

/// A file being read, from any place on.
///
/// Every read asks all grounds of the card anew, so read in large pieces, or through a `BufReader` with a large buffer:
///
/// ```
/// use lfat_card::{Card, DateTime, Name};
/// use std::io::{BufRead, BufReader, Seek, SeekFrom};
///
/// # let mut window = reference::card_k();
/// # let mut card = Card::new(&mut window);
/// # let name = Name::parse("ROUTE.CUT")?;
/// # card.create(name, DateTime::FIRST)?;
/// # card.append(name, b"G0 X0\nG1 X7\n", DateTime::FIRST)?;
/// let mut file = card.open(name)?;
/// file.seek(SeekFrom::Start(6))?;
/// let mut lines = BufReader::with_capacity(1 << 16, file).lines();
/// assert_eq!(lines.next().transpose()?.as_deref(), Some("G1 X7"));
/// # Ok::<(), Box<dyn std::error::Error>>(())
/// ```
#[derive(Clone)]
pub struct File<'a> {
    card: CardView<'a>,
    name: Name,
    size: u32,
    position: u64,
}

impl<'a> File<'a> {
    pub(crate) fn new(card: CardView<'a>, name: Name, size: u32) -> File<'a> {
        File {
            card,
            name,
            size,
            position: 0,
        }
    }

    /// The file's size in bytes.
    pub fn size(&self) -> u32 {
        self.size
    }
}

impl Read for File<'_> {
    fn read(&mut self, buffer: &mut [u8]) -> Result<usize> {
        let read = self.card.read(self.name, self.position, buffer)?;
        self.position += read as u64;
        Ok(read)
    }

    /// All that is left, in one piece.
    fn read_to_end(&mut self, bytes: &mut Vec<u8>) -> Result<usize> {
        let (start, left) = (
            bytes.len(),
            u64::from(self.size).saturating_sub(self.position),
        );
        bytes.resize(start + left as usize, 0);
        let read = self.read(&mut bytes[start..]);
        bytes.truncate(start + read.as_ref().map_or(0, |&read| read));
        read
    }
}

/// A place past the end is allowed, and nothing is read there.
impl Seek for File<'_> {
    fn seek(&mut self, place: SeekFrom) -> Result<u64> {
        let position = match place {
            SeekFrom::Start(offset) => Some(offset),
            SeekFrom::End(offset) => u64::from(self.size).checked_add_signed(offset),
            SeekFrom::Current(offset) => self.position.checked_add_signed(offset),
        };
        let no_place = || Error::new(ErrorKind::InvalidInput, "no file has such a place");
        self.position = position.ok_or_else(no_place)?;
        Ok(self.position)
    }
}
