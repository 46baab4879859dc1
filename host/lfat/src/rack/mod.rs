//! The test rack: pulls the plug after every store of an operation, then during recovery, and looks at what is left.

mod format;
mod random;
mod recoveries;
pub mod report;
mod run;
pub mod stage;
mod state;
mod svg;

pub use report::{Cut, Report};
pub use run::{run, Settings, Swap};

use crate::args::{number, Args};
use crate::at::At;
use crate::failure::Failure;
use crate::format::sectors;
use crate::json;
use crate::naming::{self, Known};
use crate::numbers::{self, Numbers};
use crate::output::{print, write_file};
use crate::remedy::Remedy;
use crate::source::Source;
use crate::target::{new_name, Target, Which};
use lfat_card::{LongName, Name};
use lfat_disk::{Access, DiskCard, Error, Operation};
use std::ffi::{OsStr, OsString};

/// The operations, each with the words after it: a name, and what else it takes.
const OPERATIONS: [(&str, &[&str]); 8] = [
    ("create", &["NAME"]),
    ("append", &["NAME", "FILE"]),
    ("put", &["NAME", "FILE"]),
    ("replace", &["NAME", "FILE"]),
    ("truncate", &["NAME", "SIZE"]),
    ("rm", &["NAME"]),
    ("mv", &["OLD", "NEW"]),
    (FORMAT, &[]),
];

/// The operation that is no file's.
const FORMAT: &str = "format";

/// The operation in words.
struct Asked {
    verb: &'static str,
    /// Each word after it, and what it is.
    words: Vec<(&'static str, OsString)>,
}

impl Asked {
    fn parse(args: &mut Args) -> Result<Asked, Failure> {
        let asked = args.text("OPERATION")?;
        let known = OPERATIONS.iter().find(|(verb, _)| *verb == asked);
        let &(verb, takes) = known.ok_or_else(|| {
            let known = OPERATIONS.map(|(verb, _)| verb).join(", ");
            Failure::Usage(format!("OPERATION: '{asked}' is none of {known}"))
        })?;
        let words = takes.iter().map(|what| Ok((*what, args.word(what)?)));
        let words = words.collect::<Result<_, Failure>>()?;
        args.end()?;
        Ok(Asked { verb, words })
    }

    /// The second word, if it is such a one.
    fn second(&self, wanted: &str) -> Option<&OsString> {
        let second = self.words.get(1);
        second
            .filter(|(what, _)| *what == wanted)
            .map(|(_, word)| word)
    }

    /// The new name that is given, if any.
    fn new_name(&self) -> Result<Option<Name>, Failure> {
        self.second("NEW").map(|word| new_name(word)).transpose()
    }

    /// The short name that calls take, and the long one of a new file. A create or put of a name that is there is left to the
    /// library, which refuses it.
    fn names(&self, known: &Known) -> Result<(Name, Option<LongName>), Failure> {
        let name = self.words.first().map(|(_, word)| word.as_os_str());
        let text = naming::text(name.unwrap_or_default())?;
        match (self.verb, Name::parse(&text)) {
            ("create" | "put", Ok(name)) => Ok((name, None)),
            ("create" | "put", Err(_)) => naming::new_file(known, &text),
            _ => known.find_name(&text).map(|name| (name, None)),
        }
    }

    /// The file of this machine that is given, if any.
    fn source(&self, card: &DiskCard, target: &Target) -> Result<Option<Source>, Failure> {
        let file = self.second("FILE");
        file.map(|file| Source::open(file, card.window().len(), target))
            .transpose()
    }

    /// The size that is given, if any.
    fn size(&self) -> Result<u64, Failure> {
        let size = self.second("SIZE");
        size.map_or(Ok(0), |size| number(&size.to_string_lossy(), "SIZE"))
    }

    /// Whether the operation dates the file.
    fn is_dated(&self) -> bool {
        !matches!(self.verb, "rm" | "mv" | FORMAT)
    }

    /// The time that is given, which must be of use.
    fn at(&self, args: &Args) -> Result<At, Failure> {
        let at = At::of(args)?;
        if at.is_given() && !self.is_dated() {
            let what = format!("--at: {} dates no file", self.verb);
            return Err(Failure::Usage(what));
        }
        Ok(at)
    }

    /// The numbers of a new card, which only a format takes.
    fn numbers(&self, args: &Args) -> Result<Numbers, Failure> {
        let given = numbers::OPTIONS.iter().find(|option| args.has(option));
        match given {
            Some(option) if self.verb != FORMAT => {
                let what = format!("{option}: {} makes no card", self.verb);
                Err(Failure::Usage(what))
            }
            _ => Numbers::of(args),
        }
    }

    /// The calls: one, or two for a put.
    fn calls<'a>(
        &self,
        name: &'a [u8],
        long: Option<&'a LongName>,
        given: &Given<'a>,
    ) -> Vec<Operation<'a>> {
        let &Given {
            new,
            data,
            size,
            seconds,
        } = given;
        let create = naming::create(name, long, seconds);
        let append = Operation::Append {
            name,
            data,
            seconds,
        };
        match self.verb {
            "create" => vec![create],
            "rm" => vec![Operation::Delete { name }],
            "truncate" => vec![Operation::Truncate {
                name,
                size,
                seconds,
            }],
            "mv" => vec![Operation::Rename { old: name, new }],
            "append" => vec![append],
            "replace" => vec![Operation::Replace {
                name,
                data,
                seconds,
            }],
            _ => vec![create, append],
        }
    }
}

/// What an operation is given beside the name, as far as it takes it. All cuts are of calls with the same seconds.
struct Given<'a> {
    new: &'a [u8],
    data: &'a [u8],
    size: u64,
    seconds: u32,
}

/// `--break` alone, or with two numbers of stores.
fn swap(value: &OsStr) -> Result<Swap, Failure> {
    let value = value.to_string_lossy();
    match value.split_once(',') {
        None if value.is_empty() => Ok(Swap::Last),
        Some((one, other)) => Ok(Swap::Two(
            number(one, "--break")?,
            number(other, "--break")?,
        )),
        None => Err(Failure::Usage("--break takes two numbers: I,J".to_string())),
    }
}

pub fn rack(mut args: Args) -> Result<(), Failure> {
    let target = Target::parse(args.word("IMAGE")?, &args)?;
    let asked = Asked::parse(&mut args)?;
    let settings = Settings {
        depth: args.number("--depth", 2)?,
        random: args.number("--random", 16)?,
        seed: args.number("--seed", 1)?,
        swap: args.option("--break").map(swap).transpose()?,
    };
    let new = asked.new_name()?;
    let size = asked.size()?;
    let at = asked.at(&args)?;
    let numbers = asked.numbers(&args)?;
    if asked.verb == FORMAT {
        let mut disk = target.open_whole(&args, Access::Read)?;
        let form = numbers.form(&target, sectors(&disk))?;
        let report = format::run(&mut disk, form, &settings);
        let report = report.map_err(|error| target.failure(error))?;
        return tell(&args, vec![report], &settings);
    }
    let mut card = target.open(&args, Access::Read)?;
    let known = Known::on(&target, &mut card)?;
    let seconds = match asked.is_dated() {
        true => at.seconds()?,
        false => 0,
    };
    let (name, long) = asked.names(&known)?;
    let source = asked.source(&card, &target)?;
    let given = Given {
        new: new.as_ref().map_or(&[][..], |new| new.bytes()),
        data: source.as_ref().map_or(&[][..], Source::bytes),
        size,
        seconds,
    };
    let calls = asked.calls(name.bytes(), long.as_ref(), &given);
    // A create makes a name, any other call is about a file.
    let explain = |card: &DiskCard, error: Error| {
        let failure = target.failure(error);
        let target = &target;
        Remedy { target, card }.explain(failure, Which::Name(name), new.or(Some(name)))
    };
    if calls.len() > 1 {
        // All calls must be granted before the first is tried.
        for call in &calls {
            card.rehearse(call).map_err(|error| explain(&card, error))?;
        }
        drop(card);
        card = target.open(&args, Access::Read)?;
    }

    let mut reports = Vec::new();
    for call in &calls {
        reports.push(run(&mut card, call, &settings).map_err(|error| explain(&card, error))?);
    }
    tell(&args, reports, &settings)
}

/// Shows what was found.
fn tell(args: &Args, reports: Vec<Report>, settings: &Settings) -> Result<(), Failure> {
    if let Some(swap) = settings.swap {
        for report in &reports {
            run::swapped(report.stores, swap)?;
        }
    }
    let text = match args.has("--json") {
        true => {
            json::object(&[("operations", &json::array(reports.iter().map(Report::json)))]) + "\n"
        }
        false => {
            let text: Vec<String> = reports.iter().map(Report::table).collect();
            text.join("\n")
        }
    };
    print(text.as_bytes())?;
    if let Some(file) = args.option("--svg") {
        write_file(file, svg::draw(&reports).as_bytes())?;
    }
    match reports.into_iter().find_map(|report| report.mismatch) {
        Some(first) => Err(Failure::Mismatch(format!("MISMATCH: {first}"))),
        None => Ok(()),
    }
}
