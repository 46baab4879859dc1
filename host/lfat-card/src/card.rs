//! A card in memory that is changed.

use crate::{
    count, Answer, CardView, DateTime, Entry, File, Form, LongName, Name, Operation, Refusal,
    NO_LIMIT,
};

/// A card over the bytes of its window. Methods that change it give the number of stores made.
///
/// A file that is marked read-only ([`Entry::is_read_only`]) is read as any other; append, replace, truncate, delete and rename
/// refuse it with [`Refusal::Locked`]. No method sets the mark or takes it away.
///
/// The long name that other systems show for a file goes with it in delete and rename: its entries before the file's own are
/// marked as deleted in the same operation. After a rename the file has its new name only. [`Card::create_long`] gives a new file
/// one; the other methods leave it alone.
///
/// Create, append, replace and truncate date the file: `at` is the time, in the zone in which the card's dates are to be read. A new
/// file gets all its dates from it, the others set those of writing and access; what appends nothing or truncates to the present size
/// sets none. A card holds even seconds of the years 1980 to 2107; another year is refused ([`Refusal::Clock`]).
///
/// ```
/// use lfat_card::{Card, DateTime, Name, Refusal};
///
/// # let image = reference::card_k();
/// let mut window: Vec<u8> = image;
/// let mut card = Card::new(&mut window);
/// card.recover()?;
/// let name = Name::parse("ROUTE.CUT")?;
/// let at = DateTime::new(2026, 11, 17, 19, 30, 59).expect("a date and a time");
/// assert_eq!(card.create(name, at), Ok(3));
/// assert_eq!(card.create(name, at), Err(Refusal::Exists));
/// assert_eq!(card.list()?[0].created(), DateTime::new(2026, 11, 17, 19, 30, 58));
/// # Ok::<(), Refusal>(())
/// ```
pub struct Card<'a> {
    window: &'a mut [u8],
}

impl<'a> Card<'a> {
    /// The window is the whole card. Nothing is looked at yet.
    pub fn new(window: &'a mut [u8]) -> Card<'a> {
        Card { window }
    }

    /// The card's bytes.
    pub fn bytes(&self) -> &[u8] {
        self.window
    }

    /// The card, to be read only.
    pub fn view(&self) -> CardView<'_> {
        CardView::new(self.window)
    }

    /// Makes a call with at most so many stores.
    pub fn run(&mut self, operation: &Operation, limit: u32) -> Answer {
        operation.run(self.window, limit)
    }

    /// Finishes what a power cut left behind, or takes it back.
    pub fn recover(&mut self) -> Result<u32, Refusal> {
        count(self.run(&Operation::Recover, NO_LIMIT))
    }

    /// Makes an empty file.
    pub fn create(&mut self, name: Name, at: DateTime) -> Result<u32, Refusal> {
        count(self.run(&Operation::Create { name, at }, NO_LIMIT))
    }

    /// Makes an empty file with a short name, by which the other methods find it, and a long one, which other systems show. In one
    /// operation: a cut and a recovery leave both names or none. A long name that a file or directory has is taken
    /// ([`Refusal::Exists`]), and the root directory needs a run of free slots: one for every 13 characters, and one more.
    ///
    /// ```
    /// # use lfat_card::{Card, DateTime, LongName, Name, Refusal};
    /// # let mut window = reference::card_k();
    /// # let mut card = Card::new(&mut window);
    /// # let at = DateTime::FIRST;
    /// let long = LongName::parse("Hull 7 sheer panel.cut")?;
    /// card.create_long(Name::parse("HULL7S~1.CUT")?, &long, at)?;
    /// assert_eq!(card.long_name(Name::parse("HULL7S~1.CUT")?)?, long.characters());
    /// assert_eq!(card.create_long(Name::parse("HULL7S~2.CUT")?, &long, at), Err(Refusal::Exists));
    /// # Ok::<(), Refusal>(())
    /// ```
    pub fn create_long(
        &mut self,
        name: Name,
        long_name: &LongName,
        at: DateTime,
    ) -> Result<u32, Refusal> {
        let create = Operation::CreateLong {
            name,
            long_name,
            at,
        };
        count(self.run(&create, NO_LIMIT))
    }

    /// Adds bytes at the end of a file.
    pub fn append(&mut self, name: Name, data: &[u8], at: DateTime) -> Result<u32, Refusal> {
        count(self.run(&Operation::Append { name, data, at }, NO_LIMIT))
    }

    /// Saves over a file: it then has these bytes and no others. In one operation, so that a cut and a recovery leave the old
    /// bytes or the new ones, whole. The old ones keep their clusters until then: both need room.
    ///
    /// ```
    /// # use lfat_card::{Card, DateTime, Name, Refusal};
    /// # let mut window = reference::card_k();
    /// # let mut card = Card::new(&mut window);
    /// # let name = Name::parse("ROUTE.CUT")?;
    /// # let at = DateTime::FIRST;
    /// # card.create(name, at)?;
    /// # card.append(name, b"G1 X0 Y7\n", at)?;
    /// card.replace(name, b"G1 X9\n", at)?;
    /// assert_eq!(card.read_whole(name)?, b"G1 X9\n");
    /// assert_eq!(card.replace(Name::parse("KEEL.CUT")?, b"G0\n", at), Err(Refusal::Absent));
    /// # Ok::<(), Refusal>(())
    /// ```
    pub fn replace(&mut self, name: Name, data: &[u8], at: DateTime) -> Result<u32, Refusal> {
        count(self.run(&Operation::Replace { name, data, at }, NO_LIMIT))
    }

    /// Shortens a file.
    pub fn truncate(&mut self, name: Name, size: u64, at: DateTime) -> Result<u32, Refusal> {
        count(self.run(&Operation::Truncate { name, size, at }, NO_LIMIT))
    }

    /// Removes a file, with the entries of its long name, and frees its clusters.
    pub fn delete(&mut self, name: Name) -> Result<u32, Refusal> {
        count(self.run(&Operation::Delete { name }, NO_LIMIT))
    }

    /// Gives a file another name; the entries of its long name are removed.
    pub fn rename(&mut self, old: Name, new: Name) -> Result<u32, Refusal> {
        count(self.run(&Operation::Rename { old, new }, NO_LIMIT))
    }

    /// Writes an empty card over whatever the window holds, which is not looked at: all files are gone, and no question is asked.
    /// The boot sector is stored first, as zeros, and again last; a cut in between leaves a card that every other method refuses
    /// ([`Refusal::Boot`]), and that is formatted again.
    ///
    /// ```
    /// use lfat_card::{Card, Form, Refusal};
    ///
    /// let form = Form::for_sectors(16_384).expect("8 MB are a FAT16 card");
    /// let mut window = vec![0xE5; 16_384 * 512];
    /// let mut card = Card::new(&mut window);
    /// assert_eq!(card.list(), Err(Refusal::Boot));
    /// assert_eq!(card.format(form), Ok(130));
    /// assert_eq!(card.list(), Ok(Vec::new()));
    ///
    /// // 3 sectors are no cluster, and the window has no room for a larger card.
    /// let three = Form { per_cluster: 3, ..form };
    /// assert_eq!(card.format(three), Err(Refusal::Size));
    /// let larger = Form::for_sectors(32_768).expect("so are 16 MB");
    /// assert_eq!(card.format(larger), Err(Refusal::Window));
    /// ```
    pub fn format(&mut self, form: Form) -> Result<u32, Refusal> {
        count(self.run(&Operation::Format { form }, NO_LIMIT))
    }

    /// As [`CardView::list`].
    pub fn list(&self) -> Result<Vec<Entry>, Refusal> {
        self.view().list()
    }

    /// As [`CardView::read`].
    pub fn read(&self, name: Name, offset: u64, buffer: &mut [u8]) -> Result<usize, Refusal> {
        self.view().read(name, offset, buffer)
    }

    /// As [`CardView::read_whole`].
    pub fn read_whole(&self, name: Name) -> Result<Vec<u8>, Refusal> {
        self.view().read_whole(name)
    }

    /// As [`CardView::fits`].
    pub fn fits(&self, bytes: u64) -> Result<Option<u32>, Refusal> {
        self.view().fits(bytes)
    }

    /// As [`CardView::long_name`].
    pub fn long_name(&self, name: Name) -> Result<Vec<u16>, Refusal> {
        self.view().long_name(name)
    }

    /// As [`CardView::open`].
    pub fn open(&self, name: Name) -> Result<File<'_>, Refusal> {
        self.view().open(name)
    }
}
