//! The machine, in a sentence.

use std::fs::read_to_string;
use std::process::Command;

pub fn description() -> String {
    let cpuinfo = read_to_string("/proc/cpuinfo").unwrap_or_default();
    let model = cpuinfo
        .lines()
        .find_map(|line| line.strip_prefix("model name"))
        .map_or("unknown processor", |line| {
            line.trim_start_matches([' ', '\t', ':'])
        });
    let cores = std::thread::available_parallelism().map_or(0, |cores| cores.get());
    let rustc = Command::new("rustc").arg("--version").output();
    let rustc = rustc.map_or("unknown rustc".into(), |output| {
        String::from_utf8_lossy(&output.stdout).trim().to_string()
    });
    let loads = read_to_string("/proc/loadavg").unwrap_or_default();
    let load = loads.split(' ').next().unwrap_or_default();
    format!(
        "Machine: {cores} × {model}, {} {}; {rustc}; load average when the run began: {load}.",
        std::env::consts::OS,
        std::env::consts::ARCH
    )
}
