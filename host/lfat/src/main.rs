//! lfat: files on FAT16 cards, safe against power cuts.

use lfat::commands::COMMANDS;
use lfat::failure::Failure;
use lfat::help::overview;
use lfat::output::print;
use std::ffi::OsString;
use std::process::ExitCode;

const HELP: [&str; 2] = ["--help", "-h"];

fn main() -> ExitCode {
    let words: Vec<OsString> = std::env::args_os().skip(1).collect();
    match run(&words) {
        Ok(()) => ExitCode::SUCCESS,
        Err(failure) => {
            // A no is an answer, and nothing went wrong.
            if !matches!(failure, Failure::No) {
                eprintln!("lfat: {failure}");
            }
            ExitCode::from(failure.status())
        }
    }
}

fn run(words: &[OsString]) -> Result<(), Failure> {
    let Some((name, rest)) = words.split_first() else {
        let what = "COMMAND is missing; 'lfat --help' lists the commands";
        return Err(Failure::Usage(what.to_string()));
    };
    if name == "help" || HELP.iter().any(|word| name == word) {
        return print(overview().as_bytes());
    }
    if name == "--version" {
        return print(concat!("lfat ", env!("CARGO_PKG_VERSION"), "\n").as_bytes());
    }
    let Some(command) = COMMANDS.iter().find(|command| name == command.name) else {
        let name = name.display();
        let what = format!("there is no command '{name}'; 'lfat --help' lists the commands");
        return Err(Failure::Usage(what));
    };
    let mut options = rest.iter().take_while(|word| *word != "--");
    if options.any(|word| HELP.iter().any(|help| word == help)) {
        return print(command.help().as_bytes());
    }
    command.run(rest)
}
