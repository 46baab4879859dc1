//! The commands that change a card.

use crate::args::{number, Args};
use crate::at::{shown, At};
use crate::ended::Ended;
use crate::failure::Failure;
use crate::listing;
use crate::naming::{self, one_line, Found, Given, Known};
use crate::output::print;
use crate::progress::Progress;
use crate::remedy::Remedy;
use crate::source::Source;
use crate::target::{new_name, Target, Which};
use lfat_card::{Name, Refusal};
use lfat_disk::layout::bytes;
use lfat_disk::volume::Volume;
use lfat_disk::{Access, DiskCard, Error, InUse, Operation};

/// A card that is open to be changed.
struct Opened {
    target: Target,
    card: DiskCard,
    limit: u32,
    at: At,
}

impl Opened {
    /// All words have been read. Reads the options and opens the card.
    fn new(target: Target, args: &Args) -> Result<Opened, Failure> {
        args.end()?;
        let limit = args.number("--limit", u32::MAX)?;
        let at = At::of(args)?;
        let mut card = target.open(args, Access::Write)?;
        let mut progress = Progress::new("sector");
        card.on_progress(move |made, count| progress.step(made, count));
        Ok(Opened {
            target,
            card,
            limit,
            at,
        })
    }

    /// Makes calls; only if all are granted, something is written. Gives how many stores there were.
    fn save(&mut self, calls: &[Operation]) -> Result<u32, Failure> {
        let made = self.card.save(calls, self.limit);
        made.map_err(|error| self.target.failure(error))
    }

    fn remedy(&self) -> Remedy<'_> {
        Remedy {
            target: &self.target,
            card: &self.card,
        }
    }

    /// The names on the card, and the seconds that date what is saved, one number for all calls of a command.
    fn known(&mut self) -> Result<(Known, u32), Failure> {
        let known = Known::on(&self.target, &mut self.card)?;
        Ok((known, self.at.seconds()?))
    }

    /// Makes a call on a file.
    fn change(&mut self, name: Name, call: Operation) -> Result<(), Failure> {
        let made = self.card.save(&[call], self.limit);
        self.made(made, Which::Name(name), None).map(drop)
    }

    /// How many stores a call on a file has made. `new` is a name that it was to have.
    fn made(
        &self,
        made: Result<u32, Error>,
        which: Which,
        new: Option<Name>,
    ) -> Result<u32, Failure> {
        made.map_err(|error| {
            let failure = self.target.failure(error);
            self.remedy().explain(failure, which, new)
        })
    }

    /// Makes a call that ends a file's slot, and tells what went along with it.
    fn end(
        mut self,
        which: Which,
        new: Option<Name>,
        as_json: bool,
        call: impl FnOnce(&mut DiskCard, u32) -> Result<u32, Error>,
    ) -> Result<(), Failure> {
        let (shown, entry) = (self.remedy().name(which), self.remedy().entry(which));
        let before = InUse::of(self.card.window());
        let made = call(&mut self.card, self.limit);
        let stores = self.made(made, which, new)?;
        let long = before.long_name_gone(self.card.window());
        let ended = Ended {
            shown,
            entry,
            new,
            long,
            stores,
        };
        ended.tell(as_json)
    }
}

fn image(args: &mut Args) -> Result<Target, Failure> {
    Target::parse(args.word("IMAGE")?, args)
}

/// The words IMAGE, NAME and FILE: the card opened, the name, and the bytes of the file of this machine.
fn with_file(mut args: Args) -> Result<(Opened, String, Source), Failure> {
    let target = image(&mut args)?;
    let name = naming::text(&args.word("NAME")?)?;
    let file = args.word("FILE")?;
    let opened = Opened::new(target, &args)?;
    let source = Source::open(&file, opened.card.window().len(), &opened.target)?;
    Ok((opened, name, source))
}

pub fn put(args: Args) -> Result<(), Failure> {
    let may_replace = args.has("--replace") || args.has("-f");
    let (mut opened, text, source) = with_file(args)?;
    let (known, seconds) = opened.known()?;
    let there = match known.lookup(&text) {
        Found::None => None,
        Found::One(entry) => Some(*entry),
        Found::Several(failure) => return Err(failure),
    };
    let data = source.bytes();
    match there {
        None => opened.put_new(&known, &text, data, seconds),
        Some(_) if may_replace => opened.put_over(known.find_name(&text)?, data, seconds),
        Some(entry) => {
            let advice = opened.remedy().taken(&entry, &one_line(&text));
            Err(Failure::Refused(Refusal::Exists, advice))
        }
    }
}

impl Opened {
    /// Saves bytes under a new name, and tells which short name a long one got.
    fn put_new(
        &mut self,
        known: &Known,
        text: &str,
        data: &[u8],
        seconds: u32,
    ) -> Result<(), Failure> {
        let (given, long) = naming::new_file(known, text)?;
        let name = given.bytes();
        let append = Operation::Append {
            name,
            data,
            seconds,
        };
        let create = naming::create(name, long.as_ref(), seconds);
        self.save(&[create, append]).map_err(with_room)?;
        match long {
            Some(long) => {
                print(format!("'{}' is saved as {given}\n", one_line(&long.to_string())).as_bytes())
            }
            None => Ok(()),
        }
    }

    /// Saves bytes over a file.
    fn put_over(&mut self, given: Name, data: &[u8], seconds: u32) -> Result<(), Failure> {
        let name = given.bytes();
        let made = self.save(&[Operation::Replace {
            name,
            data,
            seconds,
        }]);
        made.map(drop).map_err(|failure| match failure {
            Failure::Refused(Refusal::Nospace, _) => {
                let old = self.remedy().entry(Which::Name(given));
                let advice = match old.is_some_and(|entry| entry.size() > 0) {
                    true => format!("The old bytes of {given} keep their room until the new ones are saved. {NO_ROOM}"),
                    false => NO_ROOM.to_string(),
                };
                Failure::Refused(Refusal::Nospace, advice)
            }
            failure => self.remedy().explain(failure, Which::Name(given), None),
        })
    }
}

/// New bytes that do not fit.
fn with_room(failure: Failure) -> Failure {
    match failure {
        Failure::Refused(Refusal::Nospace, _) => {
            Failure::Refused(Refusal::Nospace, NO_ROOM.to_string())
        }
        failure => failure,
    }
}

/// What to do where new bytes do not fit.
const NO_ROOM: &str =
    "'lfat info' shows the free clusters; 'lfat rm' frees some. 'lfat fits' tells before a save.";

pub fn append(args: Args) -> Result<(), Failure> {
    let (mut opened, given, source) = with_file(args)?;
    let (known, seconds) = opened.known()?;
    let given = known.find_name(&given)?;
    let append = Operation::Append {
        name: given.bytes(),
        data: source.bytes(),
        seconds,
    };
    opened.change(given, append)
}

pub fn truncate(mut args: Args) -> Result<(), Failure> {
    let target = image(&mut args)?;
    let given = naming::text(&args.word("NAME")?)?;
    let size = number(&args.text("SIZE")?, "SIZE")?;
    let mut opened = Opened::new(target, &args)?;
    let (known, seconds) = opened.known()?;
    let given = known.find_name(&given)?;
    let truncate = Operation::Truncate {
        name: given.bytes(),
        size,
        seconds,
    };
    opened.change(given, truncate)
}

pub fn rm(mut args: Args) -> Result<(), Failure> {
    let target = image(&mut args)?;
    let given = Given::parse(&args.word("NAME")?)?;
    let mut opened = Opened::new(target, &args)?;
    let which = given.find(&opened.target, &mut opened.card)?;
    opened.end(which, None, args.has("--json"), |card, limit| match which {
        Which::Name(name) => {
            let name = name.bytes();
            card.save(&[Operation::Delete { name }], limit)
        }
        Which::Slot(slot) => card.delete_slot(slot, limit),
    })
}

pub fn mv(mut args: Args) -> Result<(), Failure> {
    let target = image(&mut args)?;
    let old = Given::parse(&args.word("OLD")?)?;
    let new = new_name(&args.word("NEW")?)?;
    let mut opened = Opened::new(target, &args)?;
    let old = old.find(&opened.target, &mut opened.card)?;
    opened.end(
        old,
        Some(new),
        args.has("--json"),
        |card, limit| match old {
            Which::Name(old) => {
                let (old, new) = (old.bytes(), new.bytes());
                card.save(&[Operation::Rename { old, new }], limit)
            }
            Which::Slot(slot) => card.rename_slot(slot, new.bytes(), limit),
        },
    )
}

pub fn recover(mut args: Args) -> Result<(), Failure> {
    let target = image(&mut args)?;
    let mut opened = Opened::new(target, &args)?;
    let pending = pending(&opened.card);
    let made = opened.save(&[Operation::Recover])?;
    let sectors = match made {
        1 => "1 sector".to_string(),
        _ => format!("{made} sectors"),
    };
    let text = match (made, pending) {
        (0, _) => "nothing to recover\n".to_string(),
        (_, Some(what)) => format!("recovered: the save that was cut is finished ({what}), {sectors} written\n"),
        (_, None) => format!("recovered: a half-made save was dropped, every file is as before it, {sectors} written\n"),
    };
    print(text.as_bytes())
}

/// The operation that a card's log has pending.
fn pending(card: &DiskCard) -> Option<String> {
    let log = Volume::open(card.window())?.log()?;
    let table = &card.window()[bytes(&log)];
    let record = listing::records(table).find(|record| record.is_pending())?;
    let long = match record.long_entries() {
        0 => "",
        _ => " with its long name",
    };
    let dated = record.stamp().map(|at| format!(", dated {}", shown(at)));
    Some(format!(
        "{} {}{long}{}",
        record.operation(),
        record.name(),
        dated.unwrap_or_default()
    ))
}
