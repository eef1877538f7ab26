//! The command `compare`, with drives that are wrong on purpose: the oracle, with a word of its answers changed.

use std::fs::File;
use std::path::PathBuf;
use std::process::{Command, Output, Stdio};

const ORACLE: &str = env!("CARGO_BIN_EXE_oracle");

fn compare(drive: &str, options: &str) -> Output {
    Command::new(ORACLE)
        .args(["compare", "--drive", drive, "--seed", "1"])
        .args(options.split(' '))
        .output()
        .expect("the oracle runs")
}

fn kept(name: &str) -> PathBuf {
    PathBuf::from(env!("CARGO_TARGET_TMPDIR")).join(name)
}

/// What a drive answers to a script in a file.
fn answers(drive: &str, script: &PathBuf) -> Vec<u8> {
    Command::new("sh")
        .args(["-c", drive])
        .stdin(Stdio::from(File::open(script).expect("a script")))
        .output()
        .expect("the drive runs")
        .stdout
}

/// Compares with a drive whose answers `sed` has changed. The short script has at most so many lines, and differs.
fn check(name: &str, kinds: &str, change: &str, most: usize) -> String {
    let right = format!("'{ORACLE}' run");
    let wrong = format!("{right} | sed '{change}'");
    let keep = kept(name);
    let options = format!("--lines 50000 --kinds {kinds} --keep {}", keep.display());
    let output = compare(&wrong, &options);
    assert_eq!(output.status.code(), Some(1));
    assert!(answers(&right, &keep) != answers(&wrong, &keep));
    let script = std::fs::read_to_string(&keep).expect("text");
    assert!(script.lines().count() <= most, "{script}");
    let report = String::from_utf8(output.stderr).expect("text");
    for line in script.lines() {
        assert!(report.contains(&format!("\n{line}\n    ")), "{report}");
    }
    assert!(report.contains(&format!("random --seed 1 --lines 50000 --kinds {kinds}")));
    report
}

#[test]
fn a_difference_of_one_line() {
    check("one.script", "all", "s/^reply/ack/", 1);
    let report = check("bad.script", "bad", "s/^bad line/bad  line/", 1);
    assert!(report.contains("    oracle: bad line\n    drive:  bad  line\n"));
}

#[test]
fn a_difference_that_wants_a_session_and_a_frame() {
    let report = check("frame.script", "all", "s/replies 10 u32/replies 10 f32/", 3);
    assert!(report.contains("    both:   taken\nsession\n    oracle: session last"));
    check("record.script", "sessions", "s/^patched 1/patched 0/", 3);
}

#[test]
fn a_difference_that_wants_a_run() {
    check("failed.script", "runs", "s/^send-failed/timeout/", 4);
    check(
        "slept.script",
        "mode",
        "s/^want sleep 20000000/want sleep 2/",
        20,
    );
}

#[test]
fn a_difference_in_how_the_drive_ends() {
    let right = format!("'{ORACLE}' run");
    for (drive, report) in [
        (
            format!("{right}; exit 3"),
            "the drive ended with exit status: 3",
        ),
        (format!("{right}; echo more"), "answers: oracle 0, drive 1"),
    ] {
        let output = compare(&drive, "--lines 1000 --kinds all");
        assert_eq!(output.status.code(), Some(1));
        assert!(String::from_utf8_lossy(&output.stderr).contains(report));
    }
}

#[test]
fn a_difference_that_does_not_show_again() {
    // Wrong as long as there is a file, which it removes.
    let file = kept("once");
    std::fs::write(&file, "").expect("a file");
    let drive = format!(
        "'{ORACLE}' run; rm '{}' 2>/dev/null && echo more",
        file.display()
    );
    let output = compare(&format!("{drive}; true"), "--lines 1000 --kinds all");
    assert_eq!(output.status.code(), Some(1));
    let report = String::from_utf8(output.stderr).expect("text");
    assert!(report.contains("otherwise when it is run again\n"));
    assert!(report.contains("(970 lines before these)\n"), "{report}");
}

#[test]
fn no_difference() {
    let right = format!("'{ORACLE}' run");
    let output = compare(&right, "--lines 30001 --chunk 10000 --kinds all");
    let told = String::from_utf8(output.stdout).expect("text");
    assert!(output.status.success() && told.starts_with("30001 lines compared in "));
    assert!(told.ends_with(", 0 differences\n"));
    let output = compare(&right, "--seconds 1 --chunk 1000 --kinds stateless");
    assert!(output.status.success() && !output.stdout.starts_with(b"0 "));
    for both in [
        "--lines 1 --seconds 1",
        "--seconds 1 --minutes 1",
        "--chunk 1",
    ] {
        let output = compare(&right, &format!("{both} --kinds all"));
        assert_eq!(output.status.code(), Some(1));
    }
}
