//! Running the command line on a machine whose clock stands where a test wants it.

use super::cli::{build_library, Folder, Run};
use std::path::PathBuf;
use std::sync::OnceLock;

/// A clock that stands at `CLOCK` seconds since 1970 began in Greenwich, and goes on by `STEP` each time that it is read.
const CLOCK: &str = r#"
#define _GNU_SOURCE
#include <stdlib.h>
#include <sys/syscall.h>
#include <time.h>
#include <unistd.h>
int clock_gettime(clockid_t id, struct timespec *now)
{
    static long long reads;
    if (id != CLOCK_REALTIME)
        return (int)syscall(SYS_clock_gettime, id, now);
    now->tv_sec = atoll(getenv("CLOCK")) + reads++ * atoll(getenv("STEP"));
    now->tv_nsec = 0;
    return 0;
}
"#;

/// Runs lfat at a moment and in a zone.
pub fn lfat_at(folder: &Folder, clock: i64, zone: &str, line: &str) -> Run {
    lfat_stepping(folder, clock, 0, zone, line)
}

/// The same with a clock that goes on by so many seconds each time that it is read.
pub fn lfat_stepping(folder: &Folder, clock: i64, step: i64, zone: &str, line: &str) -> Run {
    static BUILT: OnceLock<PathBuf> = OnceLock::new();
    let library = BUILT.get_or_init(|| build_library("clock", CLOCK));
    let (clock, step) = (clock.to_string(), step.to_string());
    let variables = [("CLOCK", clock.as_str()), ("STEP", &step), ("TZ", zone)];
    folder.lfat_with(line, library, &variables)
}
