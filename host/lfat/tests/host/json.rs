//! `--json`: what another program reads is what the command shows.

use crate::refusals::folder_with;
use crate::support::cli::Folder;
use crate::support::{card_with_route, points, ALL, ROUTE};
use std::process::Stdio;
use testkit::AT;

/// Has python read the output of a command and look at it.
pub fn check(folder: &Folder, output: &[u8], expression: &str) {
    folder.write("output", output);
    let program = format!("import json\nv = json.load(open('output'))\nassert {expression}, v\n");
    folder.write("check.py", program.as_bytes());
    folder.run("python3", "check.py", Stdio::null()).done();
}

#[test]
fn every_command_that_has_it() {
    let mut card = card_with_route(1_300);
    reference::create(&mut card, b"A\"\\B       ", AT, ALL);
    reference::create(&mut card, b"SUB        ", AT, ALL);
    card[33 * 512 + 32..][..4].copy_from_slice(b"A\"\\B");
    card[33 * 512 + 32 + 11] = 0x10;
    let folder = folder_with("json", &card);
    let run = folder.lfat("ls card --json").done();
    let listed = "[(e['slot'], e['name'], e['size'], e['directory'], e['attributes']) for e in v['entries']]";
    check(
        &folder,
        run.bytes(),
        &format!("{listed} == [(0, 'ROUTE.CUT', 1300, False, 32), (1, 'A\"\\\\B', 0, True, 16)]"),
    );

    let run = folder.lfat("info card --json").done();
    check(&folder, run.bytes(), "v['state'] == 'clean' and v['clusters'] == 4085 and v['free_clusters'] == 4074 and v['partition'] is None");
    check(&folder, run.bytes(), "v['fat1'] == [1, 16] and v['root']['slots'] == 512 and v['log'] == {'sectors': [65, 72], 'used': 3}");

    let run = folder.lfat("fits card path --json").done();
    let fields =
        "'fits': True, 'bytes': 1300, 'clusters': 3, 'cluster_bytes': 512, 'up_to_cluster': 15";
    let free = "'free_clusters': 4074, 'free_bytes': 2085888";
    check(&folder, run.bytes(), &format!("v == {{{fields}, {free}}}"));
    let run = folder.lfat("fits card 18446744073709551615 --json");
    assert_eq!((run.status(), run.errors().as_str()), (1, ""));
    check(&folder, run.bytes(), "v['fits'] is False and v['bytes'] == 2**64 - 1 and v['clusters'] == 2**55 and v['up_to_cluster'] is None");
    let run = folder.lfat("fits card 0 --json").done();
    check(
        &folder,
        run.bytes(),
        "v['fits'] is True and [v[k] for k in ('bytes', 'clusters', 'up_to_cluster')] == [0, 0, 0]",
    );

    let run = folder.lfat("log card --json").done();
    check(
        &folder,
        run.bytes(),
        "v['sectors'] == 8 and [r['operation'] for r in v['records']] == ['create', 'part', 'update', 'part', 'create', 'part']",
    );
    check(
        &folder,
        run.bytes(),
        "v['records'][2]['size'] == 1300 and v['records'][2]['state'] == 'committed'",
    );

    let run = folder
        .lfat("rack card put NEW.CUT path --json --random 1")
        .done();
    check(&folder, run.bytes(), "[o['stores'] for o in v['operations']] == [3, 8] and v['operations'][1]['mismatch'] is None");
    check(&folder, run.bytes(), "v['operations'][1]['rows'][-1]['last'] == 'all' and v['operations'][1]['rows'][-1]['cuts'] == 9");
    let run = folder
        .lfat("rack card append ROUTE.CUT path --json --random 1 --break")
        .failed(1, "MISMATCH");
    check(
        &folder,
        run.bytes(),
        "v['operations'][0]['mismatch'].startswith('cut after')",
    );

    let run = folder
        .lfat("rack card replace ROUTE.CUT path --json --random 1")
        .done();
    check(
        &folder,
        run.bytes(),
        "v['operations'][0]['operation'] == 'replace ROUTE.CUT by 1300 bytes: 8 stores'",
    );
    check(&folder, run.bytes(), "[r['last'] for r in v['operations'][0]['rows']][1:5] == ['data', 'FAT2', 'log record', 'FAT1']");
    folder.lfat("put -f card ROUTE.CUT path").done();
    let run = folder.lfat("log card --json").done();
    check(
        &folder,
        run.bytes(),
        "[v['records'][6][k] for k in ('operation', 'first', 'from', 'size')] == ['replace', 10, 13, 1300]",
    );

    reference::append(&mut card, ROUTE, &points(1_300), AT, 6);
    folder.write("card", &card);
    let run = folder.lfat("info card --json").failed(1, "UNCLEAN");
    check(&folder, run.bytes(), "v['state'] == 'UNCLEAN'");
    folder.lfat("ls card --json").failed(1, "UNCLEAN");
    let run = folder.lfat("fits card 0 --json").failed(1, "UNCLEAN");
    assert_eq!(run.bytes(), b"", "a refusal is no answer");
}
