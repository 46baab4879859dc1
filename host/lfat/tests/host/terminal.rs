//! Progress: on a terminal, for what takes more than a second, and nowhere else.

use crate::refusals::folder_with;
use crate::support::card_with_route;
use std::process::Stdio;

/// Runs a command with standard error on a terminal of its own, and prints what came there.
const ON_A_TERMINAL: &str = "\
import os, subprocess, sys
own, other = os.openpty()
child = subprocess.Popen(sys.argv[1:], stderr=other, stdout=subprocess.DEVNULL)
os.close(other)
while True:
    try:
        part = os.read(own, 4096)
    except OSError:
        break
    if not part:
        break
    os.write(1, part)
sys.exit(child.wait())
";

#[test]
fn on_a_terminal_only() {
    let folder = folder_with("terminal", &card_with_route(1_300));
    folder.write("terminal.py", ON_A_TERMINAL.as_bytes());
    let lfat = env!("CARGO_BIN_EXE_lfat");
    let on_a_terminal = |arguments: &str| {
        let command = format!("terminal.py {lfat} {arguments}");
        let run = folder.run("python3", &command, Stdio::null());
        run.done().text()
    };
    // A run of more than a second, whatever the machine.
    let long = "rack card append ROUTE.CUT path --depth 0 --random";
    let text = [20_000, 200_000, 2_000_000]
        .into_iter()
        .map(|many| on_a_terminal(&format!("{long} {many}")))
        .find(|text| !text.is_empty())
        .expect("a bar");
    assert!(
        text.contains(" %  cut ") && text.contains(" of 10"),
        "{text:?}"
    );
    assert!(text.ends_with("\r\u{1b}[K"), "the line is cleared");
    let short = "rack card append ROUTE.CUT path --depth 0 --random 1";
    assert_eq!(on_a_terminal(short), "");
    folder.lfat(short).done();
}
