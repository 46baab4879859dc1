//! A card in memory that is only read.

use crate::{calls, count, Answer, Entry, File, Name, Refusal, ENTRY_BYTES};

/// A card over the bytes of its window, to be read only.
///
/// ```
/// use lfat_card::{CardView, Name};
///
/// # let image = reference::card_k();
/// let window: &[u8] = &image;
/// let card = CardView::new(window);
/// for entry in card.list()? {
///     println!("{:>10} {}", entry.size(), entry.name());
/// }
/// # Ok::<(), lfat_card::Refusal>(())
/// ```
#[derive(Clone, Copy)]
pub struct CardView<'a> {
    window: &'a [u8],
}

impl<'a> CardView<'a> {
    /// The window is the whole card. Nothing is looked at yet.
    pub fn new(window: &'a [u8]) -> CardView<'a> {
        CardView { window }
    }

    /// The card's bytes.
    pub fn bytes(&self) -> &'a [u8] {
        self.window
    }

    /// The files and directories in the root directory, in slot order.
    pub fn list(&self) -> Result<Vec<Entry>, Refusal> {
        let there = count(calls::list(self.window, &mut []))? as usize;
        let mut bytes = vec![0; there * ENTRY_BYTES];
        count(calls::list(self.window, &mut bytes))?;
        let (entries, _) = bytes.as_chunks();
        Ok(entries.iter().copied().map(Entry).collect())
    }

    /// Copies a file's bytes from an offset on into the buffer, as many as there are and fit; gives how many.
    ///
    /// Every call asks all grounds of the card anew, so read in large pieces.
    pub fn read(&self, name: Name, offset: u64, buffer: &mut [u8]) -> Result<usize, Refusal> {
        count(calls::read(self.window, name.bytes(), offset, buffer)).map(|read| read as usize)
    }

    /// A file's bytes.
    pub fn read_whole(&self, name: Name) -> Result<Vec<u8>, Refusal> {
        let mut bytes = vec![0; self.size(name)? as usize];
        let read = self.read(name, 0, &mut bytes)?;
        bytes.truncate(read);
        Ok(bytes)
    }

    /// A file, to be read by `std::io::Read` and `Seek`.
    pub fn open(&self, name: Name) -> Result<File<'a>, Refusal> {
        Ok(File::new(*self, name, self.size(name)?))
    }

    /// Whether so many bytes fit: whether neither an append of them to an empty file nor a replace by them would be refused with
    /// [`Refusal::Nospace`]. If they fit, gives the highest cluster that they would take, 0 for no bytes; `None` is no.
    ///
    /// Only free clusters are asked for: a new name may still be refused with [`Refusal::Rootfull`].
    ///
    /// ```
    /// # use lfat_card::{CardView, Refusal};
    /// # let image = reference::card_k();
    /// // 4,077 clusters of 512 bytes are free, from 10 on.
    /// let card = CardView::new(&image);
    /// assert_eq!(card.fits(1_300)?, Some(12));
    /// assert!(card.fits(4_077 * 512)?.is_some());
    /// assert!(card.fits(4_077 * 512 + 1)?.is_none());
    /// # Ok::<(), Refusal>(())
    /// ```
    pub fn fits(&self, bytes: u64) -> Result<Option<u32>, Refusal> {
        match calls::fits(self.window, bytes) {
            Answer::No => Ok(None),
            answer => count(answer).map(Some),
        }
    }

    /// The characters of a file's or a directory's long name, none if it has no proper one. Other systems write up to 255; what
    /// they wrote need not keep the rule of [`crate::LongName`]. `String::from_utf16_lossy` makes text of them.
    pub fn long_name(&self, name: Name) -> Result<Vec<u16>, Refusal> {
        // No more than 20 entries of 13 characters belong to a file.
        let mut bytes = [0; 2 * 20 * 13];
        let there = count(calls::long_name(self.window, name.bytes(), &mut bytes))? as usize;
        let (pairs, _) = bytes.as_chunks();
        let characters = pairs.iter().copied().map(u16::from_le_bytes);
        Ok(characters.take(there).collect())
    }

    /// The size of a file that can be read.
    fn size(&self, name: Name) -> Result<u32, Refusal> {
        // The file keeps the chain rule if this is granted, so its size is no more than the card's.
        self.read(name, 0, &mut [])?;
        let entries = self.list()?;
        let entry = entries.iter().find(|e| e.name_bytes() == name.bytes());
        Ok(entry.map_or(0, Entry::size))
    }
}
