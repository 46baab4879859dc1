//! What a call answers: a refusal with its ground, or a count.

use std::fmt;

/// Why a call refused, by number. The numbers give the checking order, but for
/// LOCKED, which is asked right after DIRECTORY, LONGNAME, right after NAME, and
/// CLOCK, right after UNCLEAN. SIZE is format's, which asks it before WINDOW.
#[derive(Clone, Copy, Debug, PartialEq, Eq, PartialOrd, Ord, Hash)]
pub enum Ground {
    Short = 1,
    Boot,
    Window,
    Logarea,
    Root,
    Record,
    Unclean,
    Name,
    Absent,
    Directory,
    Exists,
    Rootfull,
    Chain,
    Length,
    Nospace,
    Locked,
    Longname,
    Clock,
    Size,
}

impl Ground {
    /// All grounds, by number.
    pub const ALL: [Ground; 19] = [
        Ground::Short,
        Ground::Boot,
        Ground::Window,
        Ground::Logarea,
        Ground::Root,
        Ground::Record,
        Ground::Unclean,
        Ground::Name,
        Ground::Absent,
        Ground::Directory,
        Ground::Exists,
        Ground::Rootfull,
        Ground::Chain,
        Ground::Length,
        Ground::Nospace,
        Ground::Locked,
        Ground::Longname,
        Ground::Clock,
        Ground::Size,
    ];

    /// The ground's number in the requirements, 1 to 19.
    pub fn number(self) -> u32 {
        self as u32
    }

    /// The ground's word in the requirements.
    pub fn name(self) -> &'static str {
        match self {
            Ground::Short => "SHORT",
            Ground::Boot => "BOOT",
            Ground::Window => "WINDOW",
            Ground::Logarea => "LOGAREA",
            Ground::Root => "ROOT",
            Ground::Record => "RECORD",
            Ground::Unclean => "UNCLEAN",
            Ground::Name => "NAME",
            Ground::Absent => "ABSENT",
            Ground::Directory => "DIRECTORY",
            Ground::Exists => "EXISTS",
            Ground::Rootfull => "ROOTFULL",
            Ground::Chain => "CHAIN",
            Ground::Length => "LENGTH",
            Ground::Nospace => "NOSPACE",
            Ground::Locked => "LOCKED",
            Ground::Longname => "LONGNAME",
            Ground::Clock => "CLOCK",
            Ground::Size => "SIZE",
        }
    }
}

impl fmt::Display for Ground {
    fn fmt(&self, f: &mut fmt::Formatter<'_>) -> fmt::Result {
        f.write_str(self.name())
    }
}

/// The answer of a call.
#[derive(Clone, Copy, Debug, PartialEq, Eq, Hash)]
pub enum Answer {
    /// Nothing was stored and no lent byte was altered.
    Refused(Ground),
    /// The whole list of stores was made. For read: the bytes read. For list:
    /// the entries there are. For long names: the characters there are. For
    /// fits: yes, with the cluster.
    Done(u32),
    /// Fits: no.
    No,
    /// The limit ended the list early, after this many stores.
    Stopped(u32),
}

impl Answer {
    const NO_CODE: u32 = 254;
    const STOPPED_CODE: u32 = 255;

    /// One number for the C interface: code × 2³² + count.
    pub fn encode(self) -> u64 {
        let (code, count) = match self {
            Answer::Refused(ground) => (ground.number(), 0),
            Answer::Done(count) => (0, count),
            Answer::No => (Self::NO_CODE, 0),
            Answer::Stopped(count) => (Self::STOPPED_CODE, count),
        };
        u64::from(code) << 32 | u64::from(count)
    }
}
