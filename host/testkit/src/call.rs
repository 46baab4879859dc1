//! A call with what it is given, for either implementation.

#[cfg(feature = "library")]
use lfat_card::calls;
use reference::{Answer, Operation};
use std::fmt;

/// One of the thirteen calls. Those that set dates have the seconds last.
#[derive(Clone)]
pub enum Call {
    Create(Vec<u8>, u32),
    /// Name, and the characters as bytes.
    CreateLong(Vec<u8>, Vec<u8>, u32),
    Append(Vec<u8>, Vec<u8>, u32),
    Replace(Vec<u8>, Vec<u8>, u32),
    Truncate(Vec<u8>, u64, u32),
    Delete(Vec<u8>),
    Rename(Vec<u8>, Vec<u8>),
    Recover,
    /// Name, offset and the buffer's length.
    Read(Vec<u8>, u64, usize),
    /// The buffer's length.
    List(usize),
    /// A number of bytes.
    Fits(u64),
    /// Name and the buffer's length.
    LongName(Vec<u8>, usize),
    /// Total sectors, sectors per cluster and log clusters.
    Format(u32, u32, u32),
}

impl Call {
    pub fn word(&self) -> &'static str {
        match self {
            Call::Create(..) => "create",
            Call::CreateLong(..) => "create_long",
            Call::Append(..) => "append",
            Call::Replace(..) => "replace",
            Call::Truncate(..) => "truncate",
            Call::Delete(..) => "delete",
            Call::Rename(..) => "rename",
            Call::Recover => "recover",
            Call::Read(..) => "read",
            Call::List(..) => "list",
            Call::Fits(..) => "fits",
            Call::LongName(..) => "long_name",
            Call::Format(..) => "format",
        }
    }

    /// The length of the buffer that the call fills.
    pub fn room(&self) -> usize {
        match *self {
            Call::Read(_, _, room) | Call::List(room) | Call::LongName(_, room) => room,
            _ => 0,
        }
    }

    /// The name that the call was given, the old one of a rename.
    pub fn name(&self) -> Option<&[u8]> {
        match self {
            Call::Create(name, _)
            | Call::CreateLong(name, _, _)
            | Call::Append(name, _, _)
            | Call::Replace(name, _, _)
            | Call::Truncate(name, _, _)
            | Call::Delete(name)
            | Call::Rename(name, _)
            | Call::Read(name, _, _)
            | Call::LongName(name, _) => Some(name),
            Call::Recover | Call::List(_) | Call::Fits(_) | Call::Format(..) => None,
        }
    }

    /// The seconds that the call was given, if it sets dates.
    pub fn seconds(&self) -> Option<u32> {
        match *self {
            Call::Create(_, seconds)
            | Call::CreateLong(_, _, seconds)
            | Call::Append(_, _, seconds)
            | Call::Replace(_, _, seconds)
            | Call::Truncate(_, _, seconds) => Some(seconds),
            _ => None,
        }
    }

    /// The reference's name for a call that stores.
    pub fn operation(&self) -> Option<Operation<'_>> {
        let seconds = self.seconds().unwrap_or_default();
        Some(match self {
            Call::Create(name, _) => Operation::Create { name, seconds },
            Call::CreateLong(name, characters, _) => Operation::CreateLong {
                name,
                characters,
                seconds,
            },
            Call::Append(name, data, _) => Operation::Append {
                name,
                data,
                seconds,
            },
            Call::Replace(name, data, _) => Operation::Replace {
                name,
                data,
                seconds,
            },
            &Call::Truncate(ref name, size, _) => Operation::Truncate {
                name,
                size,
                seconds,
            },
            Call::Delete(name) => Operation::Delete { name },
            Call::Rename(old, new) => Operation::Rename { old, new },
            Call::Recover => Operation::Recover,
            &Call::Format(total, per_cluster, log_clusters) => Operation::Format {
                total,
                per_cluster,
                log_clusters,
            },
            Call::Read(..) | Call::List(..) | Call::Fits(..) | Call::LongName(..) => return None,
        })
    }

    #[cfg(feature = "library")]
    pub fn on_library(&self, card: &mut [u8], limit: u32, buffer: &mut [u8]) -> calls::Answer {
        match self {
            Call::Create(name, seconds) => calls::create(card, name, *seconds, limit),
            Call::CreateLong(name, characters, seconds) => {
                calls::create_long(card, name, characters, *seconds, limit)
            }
            Call::Append(name, data, seconds) => calls::append(card, name, data, *seconds, limit),
            Call::Replace(name, data, seconds) => calls::replace(card, name, data, *seconds, limit),
            Call::Truncate(name, size, seconds) => {
                calls::truncate(card, name, *size, *seconds, limit)
            }
            Call::Delete(name) => calls::delete(card, name, limit),
            Call::Rename(old, new) => calls::rename(card, old, new, limit),
            Call::Recover => calls::recover(card, limit),
            Call::Read(name, offset, _) => calls::read(card, name, *offset, buffer),
            Call::List(_) => calls::list(card, buffer),
            Call::Fits(bytes) => calls::fits(card, *bytes),
            Call::LongName(name, _) => calls::long_name(card, name, buffer),
            &Call::Format(total, per_cluster, log_clusters) => {
                calls::format(card, total, per_cluster, log_clusters, limit)
            }
        }
    }

    pub fn on_reference(&self, card: &mut [u8], limit: u32, buffer: &mut [u8]) -> Answer {
        match (self, self.operation()) {
            (_, Some(operation)) => reference::run(card, &operation, limit),
            (Call::Read(name, offset, _), _) => reference::read(card, name, *offset, buffer),
            (Call::Fits(bytes), _) => reference::fits(card, *bytes),
            (Call::LongName(name, _), _) => reference::long_name(card, name, buffer),
            _ => reference::list(card, buffer),
        }
    }
}

/// The arguments without the data.
impl fmt::Debug for Call {
    fn fmt(&self, f: &mut fmt::Formatter<'_>) -> fmt::Result {
        let shown = |name: &[u8]| name.escape_ascii().to_string();
        write!(f, "{}", self.word())?;
        match self {
            Call::Create(name, _) | Call::Delete(name) => write!(f, " '{}'", shown(name)),
            Call::CreateLong(name, characters, _) => {
                write!(f, " '{}' {characters:02x?}", shown(name))
            }
            Call::Append(name, data, _) | Call::Replace(name, data, _) => {
                write!(f, " '{}' {} bytes", shown(name), data.len())
            }
            Call::Truncate(name, size, _) => write!(f, " '{}' to {size}", shown(name)),
            Call::Rename(old, new) => write!(f, " '{}' '{}'", shown(old), shown(new)),
            Call::Recover => Ok(()),
            Call::Read(name, offset, room) => {
                write!(f, " '{}' from {offset}, room {room}", shown(name))
            }
            Call::List(room) => write!(f, ", room {room}"),
            Call::Fits(bytes) => write!(f, " {bytes} bytes"),
            Call::LongName(name, room) => write!(f, " '{}', room {room}", shown(name)),
            Call::Format(total, per_cluster, log_clusters) => {
                write!(
                    f,
                    " {total} sectors, {per_cluster} a cluster, log {log_clusters}"
                )
            }
        }?;
        match self.seconds() {
            Some(seconds) => write!(f, " at {seconds}"),
            None => Ok(()),
        }
    }
}
