//! The script accident.script, with the test of a frame and without it.

use std::fs::File;
use std::process::{Command, Output, Stdio};

const ORACLE: &str = env!("CARGO_BIN_EXE_oracle");
const SCRIPT: &str = concat!(env!("CARGO_MANIFEST_DIR"), "/accident.script");

fn run(options: &[&str]) -> Output {
    Command::new(ORACLE)
        .arg("run")
        .args(options)
        .stdin(Stdio::from(File::open(SCRIPT).expect("the script")))
        .output()
        .expect("the oracle runs")
}

fn answers(options: &[&str]) -> Vec<String> {
    let output = run(options);
    assert!(output.status.success());
    let text = String::from_utf8(output.stdout).expect("text");
    text.lines().map(str::to_string).collect()
}

/// Calls of the script in their order, each with the answer of the test and the answer without it.
const DECISIVE: &[(&str, &str, &str)] = &[
    ("frame 1000 0x11 0x1100000000001E28 8 0", "taken", "taken"),
    // the record
    ("accepts 0x21 0x11FFFF7FF7FF2030 8 0", "accepts 1", "accepts 1"),
    ("frame 2000 0x21 0x11FFFF7FF7FF2030 8 0", "refused 15", "taken"),
    (
        "session",
        "session last 1000 sequence 1 run 0 latest 1 1000 1 17 1 ENABLED C1480000 C1F00000 C1200000 41F00000 42200000 replies acks",
        "session last 2000 sequence 2 run 0 latest 2 2000 1 33 1 ENABLED 41480000 BBF01000 BB201000 42000000 42400000 replies acks",
    ),
    // a fresh state
    ("frame-lent 3000 0x21 0x11FFFF7FF7FF2030 8 0", "refused 15", "taken"),
    (
        "sent",
        "want clock",
        "done state 1 33 1 ENABLED 41480000 BBF01000 BB201000 42000000 42400000",
    ),
    (
        "slept",
        "done state 1 17 1 ENABLED C147E700 C1F00000 C1200000 41F00000 42200000",
        "refused 9",
    ),
    // the caches
    ("frame 4000 0x21 0x1100330A03000000 8 0", "refused 15", "taken"),
    ("frame 4001 0x11 0x1100330A03000000 8 0", "refused 15", "taken"),
    ("frame 4002 0x21 0x1100550A03000000 8 0", "refused 15", "taken"),
    ("frame 4003 0x11 0x1100550A03000000 8 0", "refused 15", "taken"),
    (
        "session",
        "session last 3001 sequence 2 run 0 latest 2 3000 1 17 1 ENABLED C147E700 C1F00000 C1200000 41F00000 42200000 replies acks",
        "session last 4003 sequence 4 run 0 latest 4 3000 1 17 1 ENABLED C147E700 C1F00000 C1200000 41F00000 42200000 replies 10 u32 3 4001 acks 10 u32 3 4003",
    ),
    // a mode switch
    ("frame 5000 0x21 0x1100330A03000000 8 0", "refused 15", "taken"),
    ("sent", "want clock", "done"),
    ("slept", "want send 513 0000000000000000", "refused 9"),
    // echoes
    ("frame 6000 0x7FF 0x0100550A02000000 8 0", "refused 15", "taken"),
    ("frame 6001 0x7FF 0x0100330A00000000 8 0", "refused 15", "taken"),
    // a feedback id for two motors
    ("frame 2000 0x11 0x11FFFF7FF7FF2030 8 0", "taken", "taken"),
    ("frame 2001 0x11 0x1100330A03000000 8 0", "refused 15", "taken"),
    // a position that looks like a register
    ("frame 3000 0x11 0x0100330A07FF1E28 8 0", "taken", "taken"),
    ("frame 3001 0x11 0x1100330A07FF1E28 8 0", "refused 15", "taken"),
    (
        "session",
        "session last 3000 sequence 2 run 0 latest 2 2000 1 17 1 ENABLED 41480000 BBF01000 BB201000 42000000 42400000 replies 10 u32 673120007 3000 acks",
        "session last 3001 sequence 2 run 0 latest 2 2000 1 17 1 ENABLED 41480000 BBF01000 BB201000 42000000 42400000 replies 10 u32 673120007 3001 acks",
    ),
    ("frame 1000 0x21 0x1100330A07FF1E28 8 0", "taken", "taken"),
    (
        "session",
        "session last 1000 sequence 0 run 0 latest none replies 10 u32 673120007 1000 acks",
        "session last 1000 sequence 0 run 0 latest none replies 10 u32 673120007 1000 acks",
    ),
    // echoes on the feedback id
    ("frame 1000 0x7FF 0x0100550A02000000 8 0", "taken", "taken"),
    ("frame 1001 0x7FF 0x0100330A00000000 8 0", "taken", "taken"),
    (
        "session",
        "session last 1001 sequence 0 run 0 latest none replies 10 u32 0 1001 acks 10 u32 2 1000",
        "session last 1001 sequence 0 run 0 latest none replies 10 u32 0 1001 acks 10 u32 2 1000",
    ),
    (
        "sent",
        "done state 1 2047 0 DISABLED C146C13F C1F00000 C1200000 00000000 00000000",
        "done state 1 2047 0 DISABLED C146C13F C1F00000 C1200000 00000000 00000000",
    ),
    ("sent", "want send 2047 0100AA0100000000", "want send 2047 0100AA0100000000"),
];

#[test]
fn the_accident() {
    let script = std::fs::read_to_string(SCRIPT).expect("text");
    let calls: Vec<&str> = script
        .lines()
        .filter(|line| !line.is_empty() && !line.starts_with('#'))
        .collect();
    let (tested, untested) = (answers(&[]), answers(&["--any-frame"]));
    assert_eq!([tested.len(), untested.len()], [calls.len(); 2]);
    let mut places = 0..calls.len();
    for (call, with, without) in DECISIVE {
        let place = places.find(|place| calls[*place] == *call).expect(call);
        assert_eq!(
            (tested[place].as_str(), untested[place].as_str()),
            (*with, *without),
            "{call}"
        );
    }
    // No other frame is refused, and without the test none is.
    let refused = |answers: &[String]| {
        answers
            .iter()
            .filter(|answer| *answer == "refused 15")
            .count()
    };
    let decisive = DECISIVE
        .iter()
        .filter(|(_, with, _)| *with == "refused 15")
        .count();
    assert_eq!((refused(&tested), refused(&untested)), (decisive, 0));
}

#[test]
fn options_of_run() {
    for options in [
        ["--any-frame", "--any-frame"].as_slice(),
        &["--any"],
        &["any-frame"],
    ] {
        let output = run(options);
        assert_eq!(output.status.code(), Some(1));
        assert!(output
            .stderr
            .starts_with(b"usage: oracle run [--any-frame] <"));
    }
}
