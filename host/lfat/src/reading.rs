//! The commands that only read a card.

use crate::args::Args;
use crate::at::shown;
use crate::failure::Failure;
use crate::naming::{one_line, Given};
use crate::output::{print, Output};
use crate::progress::Progress;
use crate::remedy::Remedy;
use crate::target::{Target, Which};
use crate::{json, listing};
use lfat_card::{calls, Answer, Refusal};
use lfat_disk::layout::{bytes, SECTOR};
use lfat_disk::partition::Partition;
use lfat_disk::volume::{is_live, Volume};
use lfat_disk::{Access, DiskCard, Named};
use std::ffi::OsStr;
use std::ops::Range;
use std::path::Path;

/// The bytes of a file that are read at a time.
const PIECE: usize = 1 << 20;

/// Opens the card that a command only reads.
fn open(args: &mut Args) -> Result<(Target, DiskCard), Failure> {
    let target = Target::parse(args.word("IMAGE")?, args)?;
    args.end()?;
    let card = target.open(args, Access::Read)?;
    Ok((target, card))
}

pub fn ls(mut args: Args) -> Result<(), Failure> {
    let (target, mut card) = open(&mut args)?;
    let entries = card.list_named().map_err(|error| target.failure(error))?;
    if args.has("--json") {
        let entries = json::array(entries.iter().map(entry_json));
        return print((json::object(&[("entries", &entries)]) + "\n").as_bytes());
    }
    let with_dates = args.has("-l");
    let mut text = String::new();
    for (index, named) in entries.iter().enumerate() {
        let entry = &named.entry;
        let mark = match entry.is_read_only() {
            true => "  (read-only)",
            false => "",
        };
        let size = match entry.is_directory() {
            true => "directory".to_string(),
            false => entry.size().to_string(),
        };
        let mut before = entries[..index].iter();
        let is_second = before.any(|other| other.entry.name_bytes() == entry.name_bytes());
        let slot = match entry.has_name() && !is_second {
            true => String::new(),
            false => format!("  (slot:{})", entry.slot),
        };
        let long = named.long_name().map(|long| one_line(&long));
        let long = long.map_or(String::new(), |long| format!("  '{long}'"));
        let date = match with_dates {
            true => format!("{:<19}  ", entry.written().map_or("-".to_string(), shown)),
            false => String::new(),
        };
        text += &format!("{size:>10}  {date}{}{slot}{mark}{long}\n", entry.name());
    }
    print(text.as_bytes())
}

fn entry_json(named: &Named) -> String {
    let entry = &named.entry;
    let long_name = named.long_name().map(|long| json::text(&long));
    json::object(&[
        ("slot", &entry.slot),
        ("name", &json::text(&entry.name())),
        ("long_name", &json::optional(long_name)),
        ("size", &entry.size()),
        ("directory", &entry.is_directory()),
        ("attributes", &entry.attributes()),
        ("read_only", &entry.is_read_only()),
        ("created", &json::time(entry.created())),
        ("written", &json::time(entry.written())),
        ("accessed", &json::time(entry.accessed())),
    ])
}

pub fn get(mut args: Args) -> Result<(), Failure> {
    let target = Target::parse(args.word("IMAGE")?, &args)?;
    let given = Given::parse(&args.word("NAME")?)?;
    args.end()?;
    let path = args.option("-o").unwrap_or(OsStr::new("-"));
    target.check_other(Path::new(path), "-o")?;
    let mut card = target.open(&args, Access::Read)?;
    let which = given.find(&target, &mut card)?;
    let size = size(&card, which);
    let mut piece = vec![0; PIECE.min(size)];
    let mut read = |offset: usize, piece: &mut [u8]| {
        let read = match which {
            Which::Name(name) => card.read(name.bytes(), offset as u64, piece),
            Which::Slot(slot) => card.read_slot(slot, offset as u64, piece),
        };
        read.map_err(|error| {
            let (target, card) = (&target, &card);
            Remedy { target, card }.explain(target.failure(error), which, None)
        })
    };
    // A file that is refused leaves nothing behind.
    let mut count = read(0, &mut piece)?;
    let mut output = Output::open(path)?;
    let mut progress = Progress::new("byte");
    let mut offset = 0;
    while count > 0 {
        output.write(&piece[..count])?;
        offset += count;
        progress.step(offset, size);
        count = match matches!(output, Output::Gone) {
            true => 0,
            false => read(offset, &mut piece)?,
        };
    }
    output.finish()
}

/// The size of a file as its entry has it, 0 if there is none.
fn size(card: &DiskCard, which: Which) -> usize {
    let found = match which {
        Which::Name(name) => card.find(name.bytes()).ok().flatten(),
        Which::Slot(slot) => {
            let entries = card.list().unwrap_or_default();
            entries.into_iter().find(|entry| entry.slot == slot)
        }
    };
    found.map_or(0, |entry| entry.size())
}

pub fn log(mut args: Args) -> Result<(), Failure> {
    let (_, mut card) = open(&mut args)?;
    // The log of a card with a damaged root directory or log can be shown all the same.
    match card.refusal() {
        None | Some(Refusal::Root | Refusal::Record) => {}
        Some(refusal) => return Err(refusal.into()),
    }
    let log = Volume::open(card.window()).and_then(|volume| volume.log());
    let table = &card.window()[bytes(&log.ok_or(Refusal::Logarea)?)];
    if args.has("--raw") {
        print(table)
    } else if args.has("--json") {
        print(listing::json(table).as_bytes())
    } else {
        print(listing::listing(table).as_bytes())
    }
}

pub fn info(mut args: Args) -> Result<(), Failure> {
    let (_, mut card) = open(&mut args)?;
    let refusal = card.refusal();
    let volume = Volume::open(card.window()).ok_or(refusal.unwrap_or(Refusal::Boot))?;
    let state = match (refusal, calls::list(card.window(), &mut [])) {
        (Some(refusal), _) | (None, Answer::Refused(refusal)) => Err(refusal),
        _ => Ok(()),
    };
    let text = match args.has("--json") {
        true => info_json(&volume, card.partition(), state),
        false => info_lines(&volume, card.partition(), state),
    };
    print(text.as_bytes())?;
    state.map_err(Failure::from)
}

fn info_lines(
    volume: &Volume,
    partition: Option<&Partition>,
    state: Result<(), Refusal>,
) -> String {
    let partition = partition.map_or(String::new(), |found| {
        format!(
            "partition            {}, from sector {}\n",
            found.number, found.first
        )
    });
    let layout = &volume.layout;
    let free = volume.free_clusters();
    let live = volume.slots().filter(|slot| is_live(slot)).count();
    let data = layout.data_start()..layout.total_sectors;
    let state = match state {
        Ok(()) => "clean".to_string(),
        Err(refusal) => refusal.to_string(),
    };
    format!(
        "{partition}sectors              {} of {SECTOR} bytes\n\
         sectors per cluster  {}\n\
         clusters             {}, {free} free ({} bytes)\n\
         FAT1                 {}\n\
         FAT2                 {}\n\
         root directory       {}, {} slots, {live} in use\n\
         data                 {}\n\
         log                  {}\n\
         state                {state}\n",
        layout.total_sectors,
        layout.sectors_per_cluster,
        layout.clusters,
        free * layout.cluster_bytes(),
        span(&layout.fat1()),
        span(&layout.fat2()),
        span(&layout.root()),
        layout.root_entries,
        span(&data),
        log_words(volume)
    )
}

fn span(sectors: &Range<usize>) -> String {
    format!("sectors {} to {}", sectors.start, sectors.end - 1)
}

fn log_words(volume: &Volume) -> String {
    let (Some(clusters), Some(sectors)) = (volume.log_clusters(), volume.log()) else {
        return "none".to_string();
    };
    format!(
        "{}, clusters {} to {}, {} of {} sectors used",
        span(&sectors),
        clusters.start,
        clusters.end - 1,
        used(volume, &sectors),
        sectors.len()
    )
}

/// The log's sectors that are in use.
fn used(volume: &Volume, log: &Range<usize>) -> usize {
    let table = volume.window[bytes(log)].chunks_exact(SECTOR);
    table.filter(|sector| sector[0] != 0).count()
}

fn info_json(volume: &Volume, partition: Option<&Partition>, state: Result<(), Refusal>) -> String {
    let layout = &volume.layout;
    let free = volume.free_clusters();
    let live = volume.slots().filter(|slot| is_live(slot)).count();
    let sectors = |part: Range<usize>| format!("[{}, {}]", part.start, part.end - 1);
    let log = volume.log().map(|log| {
        let used = used(volume, &log);
        json::object(&[("sectors", &sectors(log)), ("used", &used)])
    });
    let root = json::object(&[
        ("sectors", &sectors(layout.root())),
        ("slots", &layout.root_entries),
        ("used", &live),
    ]);
    let state = state.map_or_else(Refusal::name, |()| "clean");
    json::object(&[
        (
            "partition",
            &json::optional(partition.map(|found| found.number)),
        ),
        ("sectors", &layout.total_sectors),
        ("sectors_per_cluster", &layout.sectors_per_cluster),
        ("clusters", &layout.clusters),
        ("free_clusters", &free),
        ("free_bytes", &(free * layout.cluster_bytes())),
        ("fat1", &sectors(layout.fat1())),
        ("fat2", &sectors(layout.fat2())),
        ("root", &root),
        ("data", &sectors(layout.data_start()..layout.total_sectors)),
        ("log", &json::optional(log)),
        ("state", &json::text(state)),
    ]) + "\n"
}
