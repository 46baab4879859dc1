//! What `--help` prints.

use crate::commands::{Command, COMMANDS};

pub const FORMAT: &str = "\
IMAGE is a new image, or an image or block device that is there, such as /dev/sdX, all of it; IMAGE:N is its partition N. What is
there is formatted if it is empty: zeros, a card without files, or what a format that was cut has left. With files, another file
system or a partition table it is refused.
  --yes          format it all the same: all on it is lost
  --size SIZE    bytes, or as 2075K, 16M, 2G (times 1,024) or 4150s (sectors), rounded down to whole sectors of 512 bytes; as
                 large as the disk or partition, a new image 4M. A FAT16 card has 4150 to 4194144 sectors; 2G is the largest
  --cluster N    sectors per cluster, 1, 2, 4, .. 64, or as 2K, 32K; by the size, as other systems choose it
  --log N        clusters of the log, at most 128 sectors (32 sectors, or one cluster if that is more)
  --json         one JSON object: partition, sectors, sectors_per_cluster, clusters, cluster_bytes, log_clusters, log_sectors,
                 free_bytes, stores
  --limit N      make only the first N stores, as if the power went then; answers STOPPED, and the card is BOOT until it is formatted
  --partition N  the partition, as in IMAGE:N
  --wait         wait until no other program has the disk, instead of failing
";

pub const LS: &str = "\
A file whose name no rule allows, or has twice, is shown with its slot, as slot:3: get, rm and mv take that for its name.
A file marked read-only is shown as (read-only) after its name: get reads it, commands that would change it refuse it.
A long name is shown last, in quotes; commands take it for the file's name, if no other file has it.
  -l          also the date and time of the last write, as 2026-11-17 19:30:58, before the name; - for what is no date. The files
              are in the order of their slots: sort -k2,3 has them in the order of their dates
  --json      one JSON object: entries, each with slot, name, long_name (null for none), size, directory, attributes, read_only,
              created, written (as 2026-11-17T19:30:58) and accessed (as 2026-11-17), null for what is no date
";

pub const GET: &str = "\
NAME may be a long name, or slot:N, as ls shows it, for a file whose name no rule allows.
  -o FILE     write to FILE instead, which is replaced once all is read; - is standard output
";

pub const FITS: &str = "\
A word of digits alone is a number of bytes; any other is a file, whose size counts. A file named by digits is given as ./123.
Yes is that neither a put of them under a new name nor one over a file, with --replace, would be refused as NOSPACE. A new name
also needs a free slot in the root directory, which is not asked. A refusal ends with 1 too, and is told on standard error.
  --json      one JSON object: fits, bytes, clusters, cluster_bytes, up_to_cluster (null for no), free_clusters, free_bytes
";

pub const RM: &str = "\
NAME may be a long name, or slot:N, as ls shows it, for a file whose name no rule allows. The entries of a long name before the
file's own are removed with it in the same call, and a line says so.
  --json      one JSON object: slot, name, new_name (null), long_name (null for none), long_entries, stores
";

pub const MV: &str = "\
OLD may be a long name, or slot:N, as ls shows it, for a file whose name no rule allows. The file then has the name NEW alone, a
short one: the entries of a long name before the file's own are removed in the same call, and a line says so. To give a file a long
name, get it, put it under that name, and rm the old one.
  --json      one JSON object: slot, name, new_name, long_name (null for none), long_entries, stores
";

pub const PUT: &str = "\
NAME is a short name in capitals, as ROUTE.CUT, or a long one of 1 to 208 characters, none of \" * / : < > ? \\ | and no control
characters: then the file also gets a short name, as HULL7S~1.CUT with the lowest number that is free, and a line says which. Other
systems do not tell capitals from small letters, so a name that differs from one on the card in these only is refused.
FILE may be - for standard input. A name that is taken is refused. For a new one two calls are made, create and append, once
both are granted: after a power cut and a recovery there is no such file, an empty one, or the whole one.
  --replace   save over a file that is there, in one call: after a power cut and a recovery it has its old bytes or the new
              ones, whole. The old ones keep their room until then. A name that is not there is a new one, as above
  -f          the same
";

pub const RECOVER: &str = "\
A save whose log record is on the card is finished, with the date that it was begun with; any other is dropped, and every file is as
before it. Before an update from an lfat that does not date files, recover all cards with that one: its records are not taken here.
";

pub const LOG: &str = "\
  --raw       write the log table itself, for the program loglist
  --json      one JSON object: sectors, records, each with what its line shows, long_entries, and stamp, the time that the operation
              gives its file, from the record after its own (null for none)
";

const AT: &str = "\
The file is dated by the clock of this machine, in local time (TZ); appending nothing and truncating to the present size set no date.
  --at TIME   the time instead, as 2026-11-17T19:30:58, from 1980 to 2107; a card holds even seconds, an odd one is rounded down
";

const LIMIT: &str =
    "  --limit N   make only the first N stores, as if the power went then; answers STOPPED\n";

const CARD: &str = "\
IMAGE is a card image or a block device, such as /dev/sdX, or IMAGE:N for its partition N. Without a number the first
partition that holds a FAT16 card is taken, where there are partitions.
  --partition N  the partition, as in IMAGE:N
  --wait         wait until no other program has the card, instead of failing
";

pub const RACK: &str = "\
OPERATION is one of: create NAME, append NAME FILE, put NAME FILE, replace NAME FILE (put --replace), truncate NAME SIZE,
rm NAME, mv OLD NEW; format. Names may be long, but for NEW.
The card is only read. Each cut is followed by recoveries, cut in turn, until one ends; then both FATs, the root
directory and all files must be as before the operation (old) or, if the log record was on the card, as after it (new).
Of more than 4,096 stores of data, cuts are tried in 2,048 places.
Of a format, all of IMAGE is taken; a cut must leave what was there, what every other call refuses as BOOT, or at the end the new
card; and a format that is begun again, and cut in turn, must end with the same bytes.
  --size SIZE, --cluster N, --log N  of a format, as 'lfat format' takes them
  --at TIME   the time that dates the file, as 2026-11-17T19:30:58, instead of the clock's; rm and mv date nothing
  --svg FILE  draw the cuts, coloured by outcome
  --depth N   cut N recoveries in a row in every place (2)
  --random N  also try N random sequences of cut recoveries after each cut (16); of a format, cuts of a disk that keeps stores back
  --seed N    seed of the random sequences (1)
  --break     swap the last two stores, root directory and commit mark: the rack must find a mismatch;
              --break=I,J swaps stores I and J, counted from 1
  --json      one JSON object instead of the table
";

impl Command {
    pub fn help(&self) -> String {
        let has = |option| self.options.valued.contains(&option);
        let limit = if has("--limit") { LIMIT } else { "" };
        let at = if has("--limit") && has("--at") {
            AT
        } else {
            ""
        };
        // A format takes cards, and is cut, in its own way.
        let (limit, card) = match self.name {
            "format" => ("", ""),
            _ => (limit, CARD),
        };
        format!(
            "usage: lfat {}\n\n{}\n{}{at}{limit}{card}",
            self.usage(),
            self.about,
            self.details
        )
    }
}

/// The help of the whole program.
pub fn overview() -> String {
    let mut text = "usage: lfat COMMAND IMAGE ...\n\n\
         Files on FAT16 cards with a TI-LFAT journal; a power cut leaves each as it was or as it was to be.\n\n"
        .to_string();
    for command in &COMMANDS {
        text += &format!("  {:<9} {}\n", command.name, command.about);
    }
    text + "\n'lfat COMMAND --help' says more; 'lfat --version' the version. -- ends the options.\n\
         IMAGE is an image, a block device such as /dev/sdX, or IMAGE:N for a partition. Names are as ROUTE.CUT, in capitals, or long ones.\n\
         Files marked read-only, which ls shows, can be read; they are not changed, renamed or removed.\n\
         put, append and truncate date a file by this machine's clock, or by --at; ls -l shows the dates.\n\
         Exit status: 0 done; 1 refused, stopped, a mismatch or no; 2 wrong usage; 3 a file or the card could not be used;\n\
         4 list and library disagree, nothing written; 5 the disk failed in mid-save: recover the card.\n"
}
