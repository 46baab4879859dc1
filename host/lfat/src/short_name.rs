//! Short names for files with a long one, as mtools makes them: `HULL7S~1.CUT` for `Hull 7 sheer panel.cut`.

use lfat_card::Name;

const STEM: usize = 8;
const EXTENSION: usize = 3;
const MOST_NUMBER: u32 = 999_999;

/// The short name that a long one gets: the name itself in capitals where nothing else is lost, else its beginning with the
/// lowest number that is free. `None` if all are taken.
pub fn make(long: &str, is_taken: impl Fn(Name) -> bool) -> Option<Name> {
    let parts = Parts::of(long);
    let plain = (!parts.is_cut).then(|| parts.name("")).flatten();
    let numbered = || (1..=MOST_NUMBER).filter_map(|number| parts.name(&format!("~{number}")));
    let mut names = plain.into_iter().chain(numbered());
    names.find(|&name| !is_taken(name))
}

/// A long name in the characters of short ones.
struct Parts {
    stem: String,
    extension: String,
    /// Characters were dropped, or replaced that other systems have in short names.
    is_cut: bool,
}

impl Parts {
    /// Blanks are dropped, and dots but the one before the extension. What is no character of a short name becomes `_`.
    fn of(long: &str) -> Parts {
        let begun = long.trim_start_matches(['.', ' ']);
        let (stem, extension) = begun.rsplit_once('.').unwrap_or((begun, ""));
        let is_cut = begun.len() < long.len()
            || long.ends_with('.')
            || stem.chars().count() > STEM
            || extension.chars().count() > EXTENSION
            || stem.contains('.')
            || long.chars().any(|c| " +,;=[]".contains(c));
        let stem: String = stem.chars().filter_map(short).collect();
        let extension = extension.chars().take(EXTENSION).filter_map(short);
        Parts {
            stem: if stem.is_empty() { "_".into() } else { stem },
            extension: extension.collect(),
            is_cut,
        }
    }

    /// The name with this tail.
    fn name(&self, tail: &str) -> Option<Name> {
        // A number takes the place of one that is there.
        let stem = match self.stem.rsplit_once('~') {
            Some((stem, number))
                if !tail.is_empty() && number.bytes().all(|b| b.is_ascii_digit()) =>
            {
                stem
            }
            _ => &self.stem,
        };
        let stem = &stem[..stem.len().min(STEM - tail.len())];
        let text = match self.extension.as_str() {
            "" => format!("{stem}{tail}"),
            extension => format!("{stem}{tail}.{extension}"),
        };
        Name::parse(&text).ok()
    }
}

/// A character as short names have it, none for blanks and dots.
fn short(character: char) -> Option<char> {
    let capital = character.to_ascii_uppercase();
    match capital {
        ' ' | '.' => None,
        _ if Name::parse(capital.encode_utf8(&mut [0; 4])).is_ok() => Some(capital),
        _ => Some('_'),
    }
}
