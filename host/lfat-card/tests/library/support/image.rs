//! A card in a file for Debian's dosfstools and mtools, in memory for the library.
//!
//! `mkfs.fat -F 16 -S 512 -s N -f 2 -R 1 -r ENTRIES -a -C FILE KIB` makes a card that meets the boot rules, if KIB is chosen so
//! that there are 4,085 to 65,524 clusters: sectors of 512 bytes, N sectors per cluster, 2 FATs, 1 reserved sector, root entries
//! a multiple of 16, nothing rounded up for alignment. It has no log: the run of clusters is marked 0xFFF6 in both FATs here.
//! fsck.fat 4.2 takes 0xFFF6 for a link out of range, so it is given a copy whose run is marked 0xFFF7, bad.
//!
//! A card that the library formatted has zeros where mkfs.fat writes heads, sectors per track and a label. mtools 4.0 take it if
//! MTOOLS_SKIP_CHECK is set; fsck.fat asks for a label, so the copy gets one.

use lfat_card::calls;
use std::fs::File;
use std::io::Write;
use std::ops::Range;
use std::path::{Path, PathBuf};
use std::process::{Command, Output};
use testkit::fresh::Fresh;
use testkit::mtools::free_bytes;
use testkit::ALL;

/// The clusters of the log on a card that mkfs.fat made.
const LOG: Range<usize> = 40..44;

fn command(program: &str, arguments: &[&str]) -> Command {
    let path = std::env::var("PATH").unwrap_or_default() + ":/usr/sbin:/sbin";
    let mut command = Command::new(program);
    command
        .args(arguments)
        .env("PATH", path)
        .env("MTOOLSRC", "/dev/null")
        .env("LC_ALL", "C.UTF-8")
        .env("TZ", "UTC");
    command
}

fn run(mut command: Command) -> Output {
    let output = command.output();
    output.unwrap_or_else(|error| panic!("{command:?} of dosfstools or mtools: {error}"))
}

/// What a tool prints; it must succeed.
fn printed(command: Command) -> Vec<u8> {
    let words = format!("{command:?}");
    let output = run(command);
    let errors = String::from_utf8_lossy(&output.stderr);
    assert!(output.status.success(), "{words}: {errors}");
    output.stdout
}

/// The two copies are brought together by `load` and `save`.
pub struct Image {
    pub file: PathBuf,
    pub card: Vec<u8>,
    log: Range<usize>,
    /// Formatted by the library.
    is_fresh: bool,
}

impl Image {
    pub fn format(
        name: &str,
        sectors_per_cluster: usize,
        kib: usize,
        root_entries: usize,
    ) -> Image {
        let file = path_of(name);
        let _ = std::fs::remove_file(&file);
        let options = format!(
            "-F 16 -S 512 -s {sectors_per_cluster} -f 2 -R 1 -r {root_entries} -a -n WORKSHOP -C"
        );
        let (path, kib) = (file.to_str().expect("plain path"), kib.to_string());
        let mut arguments: Vec<&str> = options.split(' ').collect();
        arguments.extend([path, &kib]);
        printed(command("mkfs.fat", &arguments));
        let mut image = Image {
            card: Vec::new(),
            file,
            log: LOG,
            is_fresh: false,
        };
        image.load();
        mark_log(&mut image.card, LOG, 0xFFF6);
        image.save();
        image
    }

    /// A card that the library formats in a window of these bytes.
    pub fn fresh(name: &str, asked: Fresh, byte: u8) -> Image {
        let Fresh {
            total,
            per_cluster,
            log_clusters,
        } = asked;
        let mut card = vec![byte; asked.window()];
        let answer = calls::format(&mut card, total, per_cluster, log_clusters, ALL);
        assert_eq!(answer, calls::Answer::Done(asked.stores()), "{asked:?}");
        let image = Image {
            card,
            file: path_of(name),
            log: 2..2 + log_clusters as usize,
            is_fresh: true,
        };
        image.save();
        image
    }

    pub fn load(&mut self) {
        self.card = std::fs::read(&self.file).expect("the image");
    }

    pub fn save(&self) {
        write(&self.file, &self.card).expect("the image");
    }

    pub fn tool(&self, program: &str, arguments: &[&str]) -> Vec<u8> {
        let file = self.file.to_str().expect("plain path");
        let mut command = command(program, &[&["-i", file], arguments].concat());
        if self.is_fresh {
            command.env("MTOOLS_SKIP_CHECK", "1");
        }
        printed(command)
    }

    /// Has mtools write a file, over one that is there.
    pub fn copy_in(&mut self, data: &[u8], path: &str) {
        let source = self.file.with_extension("source");
        std::fs::write(&source, data).expect("the source");
        let from = source.to_str().expect("plain path");
        self.tool("mcopy", &["-o", from, path]);
        std::fs::remove_file(&source).expect("the source");
        self.load();
    }

    /// The files' names in the root directory, as mtools lists them.
    pub fn listed(&self) -> Vec<String> {
        let text = String::from_utf8(self.tool("mdir", &["-b", "-a", "::"])).expect("names");
        let mut names: Vec<String> = text.lines().map(|line| line.replace("::/", "")).collect();
        names.sort();
        names
    }

    /// The bytes that mtools find free.
    pub fn free_bytes(&self) -> u64 {
        free_bytes(&self.tool("mdir", &["::"]))
    }

    /// fsck.fat prints its version and the summary, and nothing else.
    pub fn check(&self) {
        let (is_clean, text) = self.checked();
        assert!(is_clean, "{text}");
        assert_eq!(text.lines().count(), 2, "{text}");
    }

    /// Whether fsck.fat ends well, and what it prints.
    pub fn checked(&self) -> (bool, String) {
        let copy = self.file.with_extension("copy");
        let mut card = self.card.clone();
        mark_log(&mut card, self.log.clone(), 0xFFF7);
        if self.is_fresh {
            card[38] = 0x29;
            card[43..54].copy_from_slice(b"NO NAME    ");
        }
        write(&copy, &card).expect("the copy");
        let path = copy.to_str().expect("plain path");
        let output = run(command("fsck.fat", &["-n", path]));
        std::fs::remove_file(copy).expect("the copy");
        let text = String::from_utf8_lossy(&output.stdout).into_owned();
        (output.status.success(), text)
    }
}

impl Drop for Image {
    fn drop(&mut self) {
        let _ = std::fs::remove_file(&self.file);
    }
}

/// Writes a file, but for the zeros at its end, which a file system need not keep.
fn write(path: &Path, bytes: &[u8]) -> std::io::Result<()> {
    let block = [0; 4_096];
    let mut blocks = bytes.chunks(block.len());
    let last = blocks.rposition(|part| *part != block[..part.len()]);
    let used = last.map_or(0, |last| (last + 1) * block.len());
    let mut file = File::create(path)?;
    file.write_all(&bytes[..used.min(bytes.len())])?;
    file.set_len(bytes.len() as u64)
}

fn path_of(name: &str) -> PathBuf {
    PathBuf::from(env!("CARGO_TARGET_TMPDIR")).join(name)
}

/// Marks the log's clusters in both FATs.
fn mark_log(card: &mut [u8], log: Range<usize>, value: u16) {
    let fat_bytes = 512 * usize::from(u16::from_le_bytes([card[22], card[23]]));
    for fat in [512, 512 + fat_bytes] {
        for cluster in log.clone() {
            card[fat + 2 * cluster..][..2].copy_from_slice(&value.to_le_bytes());
        }
    }
}
