//! The commands.

use crate::args::{Args, Options};
use crate::failure::Failure;
use crate::{fits, format, help, rack, reading, writing};

pub struct Command {
    pub name: &'static str,
    /// The words that it needs, and those that it may have.
    pub words: &'static [&'static str],
    pub more: &'static str,
    pub about: &'static str,
    pub details: &'static str,
    pub options: Options,
    pub run: fn(Args) -> Result<(), Failure>,
}

/// The options of every command.
pub const CARD: Options = Options {
    valued: &["--partition"],
    plain: &["--wait"],
};
const JSON: Options = Options {
    valued: &[],
    plain: &["--json"],
};
const LIMIT: Options = Options {
    valued: &["--limit"],
    plain: &[],
};
const DATED: Options = Options {
    valued: &["--limit", "--at"],
    plain: &[],
};
const LIMIT_JSON: Options = Options {
    valued: LIMIT.valued,
    plain: JSON.plain,
};

pub static COMMANDS: [Command; 13] = [
    Command {
        name: "format",
        words: &["IMAGE"],
        more: "[--size SIZE] [--cluster N] [--log N] [--yes] [--json] [--limit N]",
        about: "make an empty card with a log: a new image, or over what is there if that is empty",
        details: help::FORMAT,
        options: Options {
            valued: &["--size", "--cluster", "--log", "--limit"],
            plain: &["--yes", "--json"],
        },
        run: format::format,
    },
    Command {
        name: "ls",
        words: &["IMAGE"],
        more: "[-l] [--json]",
        about: "list the root directory: sizes, names and read-only marks; with -l dates too",
        details: help::LS,
        options: Options {
            valued: &[],
            plain: &["--json", "-l"],
        },
        run: reading::ls,
    },
    Command {
        name: "get",
        words: &["IMAGE", "NAME"],
        more: "[-o FILE]",
        about: "copy a file from the card to standard output",
        details: help::GET,
        options: Options {
            valued: &["-o"],
            plain: &[],
        },
        run: reading::get,
    },
    Command {
        name: "fits",
        words: &["IMAGE", "BYTES|FILE"],
        more: "[--json]",
        about: "tell whether so many bytes, or a file of this machine, fit: exit status 0 for yes, 1 for no",
        details: help::FITS,
        options: JSON,
        run: fits::fits,
    },
    Command {
        name: "put",
        words: &["IMAGE", "NAME", "FILE"],
        more: "[--replace] [--at TIME] [--limit N]",
        about: "save a file of this machine under a new name, or over an old file",
        details: help::PUT,
        options: Options {
            valued: DATED.valued,
            plain: &["--replace", "-f"],
        },
        run: writing::put,
    },
    Command {
        name: "append",
        words: &["IMAGE", "NAME", "FILE"],
        more: "[--at TIME] [--limit N]",
        about: "add a file of this machine to the end of one on the card",
        details: "FILE may be - for standard input.\n",
        options: DATED,
        run: writing::append,
    },
    Command {
        name: "truncate",
        words: &["IMAGE", "NAME", "SIZE"],
        more: "[--at TIME] [--limit N]",
        about: "shorten a file to SIZE bytes",
        details: "",
        options: DATED,
        run: writing::truncate,
    },
    Command {
        name: "rm",
        words: &["IMAGE", "NAME"],
        more: "[--json] [--limit N]",
        about: "remove a file, and the long name that other systems show for it",
        details: help::RM,
        options: LIMIT_JSON,
        run: writing::rm,
    },
    Command {
        name: "mv",
        words: &["IMAGE", "OLD", "NEW"],
        more: "[--json] [--limit N]",
        about: "give a file another name, which must not be taken; a long name that it has goes",
        details: help::MV,
        options: LIMIT_JSON,
        run: writing::mv,
    },
    Command {
        name: "recover",
        words: &["IMAGE"],
        more: "[--limit N]",
        about: "finish or take back what a power cut left behind",
        details: help::RECOVER,
        options: LIMIT,
        run: writing::recover,
    },
    Command {
        name: "log",
        words: &["IMAGE"],
        more: "[--raw | --json]",
        about: "list the card's log, record by record",
        details: help::LOG,
        options: Options {
            valued: &[],
            plain: &["--raw", "--json"],
        },
        run: reading::log,
    },
    Command {
        name: "info",
        words: &["IMAGE"],
        more: "[--json]",
        about: "show layout, log, free clusters and state; exit status 0 if the card is clean",
        details: "",
        options: JSON,
        run: reading::info,
    },
    Command {
        name: "rack",
        words: &["IMAGE", "OPERATION"],
        more: "... [--at TIME] [--size SIZE] [--cluster N] [--log N] [--svg FILE] [--depth N] [--random N] [--seed N] [--break[=I,J]] [--json]",
        about: "pull the plug at every store of an operation, recover, and check what is left",
        details: help::RACK,
        options: Options {
            valued: &[
                "--at",
                "--size",
                "--cluster",
                "--log",
                "--svg",
                "--depth",
                "--random",
                "--seed",
                "--break",
            ],
            plain: &["--break", "--json"],
        },
        run: rack::rack,
    },
];

impl Command {
    /// Everything after `lfat`.
    pub fn usage(&self) -> String {
        format!("{} {} {}", self.name, self.words.join(" "), self.more)
    }

    /// Reads the words and runs. What is missing is said before anything else is looked at.
    pub fn run(&self, words: &[std::ffi::OsString]) -> Result<(), Failure> {
        let usage = |failure| match failure {
            Failure::Usage(what) => Failure::Usage(format!("{what}; usage: lfat {}", self.usage())),
            other => other,
        };
        let args = Args::parse(words, &[self.options, CARD]).map_err(usage)?;
        args.check_missing(self.words)
            .and_then(|()| (self.run)(args))
            .map_err(usage)
    }
}
