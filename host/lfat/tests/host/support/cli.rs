//! Running the command line in a folder of its own.

use std::ffi::OsStr;
use std::path::{Path, PathBuf};
use std::process::{Command, Output, Stdio};
use std::sync::atomic::{AtomicUsize, Ordering};
use std::sync::OnceLock;
use std::{env, fs};

/// A folder that goes when the test ends. Two of one name are two folders.
pub struct Folder(PathBuf);

impl Folder {
    pub fn new(name: &str) -> Folder {
        static COUNT: AtomicUsize = AtomicUsize::new(0);
        let number = COUNT.fetch_add(1, Ordering::Relaxed);
        let path = env::temp_dir().join(format!("lfat-{}-{number}-{name}", std::process::id()));
        fs::create_dir(&path).expect("a folder for the test");
        Folder(path)
    }

    pub fn path(&self) -> &Path {
        &self.0
    }

    pub fn write(&self, name: &str, bytes: &[u8]) {
        fs::write(self.0.join(name), bytes).expect("the folder can be written");
    }

    pub fn read(&self, name: &str) -> Vec<u8> {
        fs::read(self.0.join(name)).expect("the file is there")
    }

    /// Runs lfat here with the words of a line.
    pub fn lfat(&self, line: &str) -> Run {
        self.run(env!("CARGO_BIN_EXE_lfat"), line, Stdio::null())
    }

    /// The same with a file as standard input.
    pub fn lfat_from(&self, line: &str, input: &str) -> Run {
        let input = fs::File::open(self.0.join(input)).expect("the file is there");
        self.run(env!("CARGO_BIN_EXE_lfat"), line, input.into())
    }

    /// The same with words that need not be text.
    pub fn lfat_words(&self, words: &[&OsStr]) -> Run {
        let mut command = Command::new(env!("CARGO_BIN_EXE_lfat"));
        let output = command
            .args(words)
            .current_dir(&self.0)
            .stdin(Stdio::null())
            .output();
        Run {
            line: format!("{words:?}"),
            output: output.expect("the program runs"),
        }
    }

    /// Runs lfat on a machine whose disks take so many writes and no more.
    pub fn lfat_with_writes(&self, writes: usize, line: &str) -> Run {
        let writes = writes.to_string();
        self.lfat_with(line, full_disk(), &[("WRITES", &writes)])
    }

    /// Runs lfat on a machine that a library and variables make another one.
    pub fn lfat_with(&self, line: &str, library: &Path, variables: &[(&str, &str)]) -> Run {
        let output = Command::new(env!("CARGO_BIN_EXE_lfat"))
            .args(line.split_whitespace())
            .current_dir(&self.0)
            .stdin(Stdio::null())
            .env("LD_PRELOAD", library)
            .envs(variables.iter().copied())
            .output();
        Run {
            line: format!("{line}, {variables:?}"),
            output: output.expect("the program runs"),
        }
    }

    /// The names of all files here, sorted.
    pub fn names(&self) -> Vec<String> {
        let entries = fs::read_dir(&self.0).expect("the folder is there");
        let names = entries.map(|entry| entry.expect("an entry").file_name());
        let mut names: Vec<String> = names
            .map(|name| name.to_string_lossy().into_owned())
            .collect();
        names.sort();
        names
    }

    pub fn run(&self, program: impl AsRef<OsStr>, line: &str, input: Stdio) -> Run {
        let output = Command::new(program)
            .args(line.split_whitespace())
            .current_dir(&self.0)
            .stdin(input)
            .output()
            .expect("the program runs");
        Run {
            line: line.to_string(),
            output,
        }
    }
}

impl Drop for Folder {
    fn drop(&mut self) {
        let _ = fs::remove_dir_all(&self.0);
    }
}

/// A run that has ended.
pub struct Run {
    line: String,
    output: Output,
}

impl Run {
    pub fn status(&self) -> i32 {
        self.output.status.code().expect("not killed")
    }

    pub fn bytes(&self) -> &[u8] {
        &self.output.stdout
    }

    pub fn text(&self) -> String {
        String::from_utf8_lossy(&self.output.stdout).into_owned()
    }

    pub fn errors(&self) -> String {
        String::from_utf8_lossy(&self.output.stderr).into_owned()
    }

    /// It ended with 0 and said nothing on standard error.
    pub fn done(self) -> Run {
        assert_eq!(self.status(), 0, "{}: {}", self.line, self.errors());
        assert_eq!(self.errors(), "", "{}", self.line);
        self
    }

    /// It ended with the status, and standard error has the words.
    pub fn failed(self, status: i32, words: &str) -> Run {
        let errors = self.errors();
        assert_eq!(self.status(), status, "{}: {errors}", self.line);
        assert!(errors.contains(words), "{}: {errors}", self.line);
        self
    }
}

/// A library that lets the writes to files fail after so many.
const FULL_DISK: &str = r#"
#define _GNU_SOURCE
#include <errno.h>
#include <stdlib.h>
#include <sys/syscall.h>
#include <unistd.h>
static int is_full(int fd)
{
    static long left = -1;
    if (left < 0)
        left = atol(getenv("WRITES"));
    if (fd <= 2 || left-- > 0)
        return 0;
    left = 0;
    errno = ENOSPC;
    return 1;
}
ssize_t write(int fd, const void *bytes, size_t count)
{
    return is_full(fd) ? -1 : syscall(SYS_write, fd, bytes, count);
}
ssize_t pwrite64(int fd, const void *bytes, size_t count, off64_t at)
{
    return is_full(fd) ? -1 : syscall(SYS_pwrite64, fd, bytes, count, at);
}
"#;

fn full_disk() -> &'static Path {
    static BUILT: OnceLock<PathBuf> = OnceLock::new();
    BUILT.get_or_init(|| build_library("full_disk", FULL_DISK))
}

/// Builds a library that is put before the others.
pub fn build_library(name: &str, source: &str) -> PathBuf {
    let path = Path::new(env!("CARGO_TARGET_TMPDIR")).join(format!("{name}.so"));
    let file = path.with_extension("c");
    fs::write(&file, source).expect("a source");
    let built = Command::new("gcc")
        .args(["-shared", "-fPIC", "-O1", "-o"])
        .args([&path, &file])
        .status();
    assert!(built.expect("gcc is there").success());
    path
}
