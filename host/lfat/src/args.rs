//! The words of a command line. Paths need not be UTF-8.

use crate::failure::Failure;
use std::collections::VecDeque;
use std::ffi::{OsStr, OsString};
use std::os::unix::ffi::OsStrExt;

/// Options of a command: those with a value, and plain ones.
#[derive(Clone, Copy)]
pub struct Options {
    pub valued: &'static [&'static str],
    pub plain: &'static [&'static str],
}

pub struct Args {
    words: VecDeque<OsString>,
    options: Vec<(&'static str, OsString)>,
}

impl Args {
    /// Sorts words and options. `--option=VALUE` is `--option VALUE`; after `--` all are words.
    pub fn parse(words: &[OsString], known: &[Options]) -> Result<Args, Failure> {
        let find = |list: fn(&Options) -> &'static [&'static str], option: &[u8]| {
            let mut all = known.iter().flat_map(list);
            all.find(|name| name.as_bytes() == option).copied()
        };
        let mut args = Args {
            words: VecDeque::new(),
            options: Vec::new(),
        };
        let mut rest = words.iter();
        while let Some(word) = rest.next() {
            if word == "--" {
                args.words.extend(rest.cloned());
                break;
            }
            let bytes = word.as_bytes();
            if !bytes.starts_with(b"-") || bytes == b"-" {
                args.words.push_back(word.clone());
                continue;
            }
            let equals = bytes.iter().position(|&byte| byte == b'=');
            let option = &bytes[..equals.unwrap_or(bytes.len())];
            let valued = find(|options| options.valued, option);
            let plain = find(|options| options.plain, option);
            args.options.push(match (equals, plain, valued) {
                (None, Some(name), _) => (name, OsString::new()),
                (Some(at), _, Some(name)) => (name, OsStr::from_bytes(&bytes[at + 1..]).into()),
                (None, None, Some(name)) => {
                    let value = rest.next().cloned();
                    let missing = || Failure::Usage(format!("{name} needs a value"));
                    (name, value.ok_or_else(missing)?)
                }
                _ => {
                    let what = format!("unknown option {}", word.display());
                    return Err(Failure::Usage(what));
                }
            });
        }
        Ok(args)
    }

    /// There are as many words as the names say, if not more.
    pub fn check_missing(&self, names: &[&str]) -> Result<(), Failure> {
        match names.get(self.words.len()..) {
            None | Some([]) => Ok(()),
            Some([one]) => Err(Failure::Usage(format!("{one} is missing"))),
            Some(more) => Err(Failure::Usage(format!(
                "{} are missing",
                more.join(" and ")
            ))),
        }
    }

    /// The next word, which the usage line calls so.
    pub fn word(&mut self, what: &str) -> Result<OsString, Failure> {
        let missing = || Failure::Usage(format!("{what} is missing"));
        self.words.pop_front().ok_or_else(missing)
    }

    /// The next word, which has to be plain text.
    pub fn text(&mut self, what: &str) -> Result<String, Failure> {
        let word = self.word(what)?;
        let other = |word: OsString| {
            Failure::Usage(format!("{what}: '{}' is not plain text", word.display()))
        };
        word.into_string().map_err(other)
    }

    /// There is no further word.
    pub fn end(&self) -> Result<(), Failure> {
        match self.words.front() {
            Some(word) => {
                let what = format!("'{}' is one word too many", word.display());
                Err(Failure::Usage(what))
            }
            None => Ok(()),
        }
    }

    /// An option's value, the last if it is given more than once.
    pub fn option(&self, name: &str) -> Option<&OsStr> {
        let mut given = self.options.iter().rev();
        given.find(|o| o.0 == name).map(|o| o.1.as_os_str())
    }

    pub fn has(&self, name: &str) -> bool {
        self.option(name).is_some()
    }

    /// A number given as an option, or its default.
    pub fn number<T: std::str::FromStr>(&self, name: &str, default: T) -> Result<T, Failure> {
        self.option(name)
            .map_or(Ok(default), |value| number(&value.to_string_lossy(), name))
    }
}

/// A word that has to be a number.
pub fn number<T: std::str::FromStr>(word: &str, what: &str) -> Result<T, Failure> {
    word.parse()
        .map_err(|_| Failure::Usage(format!("{what}: '{word}' is no number that fits")))
}
