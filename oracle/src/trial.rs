//! A script with both sides' answers.

use crate::lines::answer_lines;
use crate::oracle::Oracle;
use crate::parser::{self, Line};
use std::io::{Read, Write};
use std::process::{Command, Stdio};
use std::thread;

pub struct Trial {
    pub script: Vec<u8>,
    oracle: Vec<u8>,
    drive: Vec<u8>,
    /// How the drive ended, if not well.
    ended: Option<String>,
}

/// A line, with its newline if it has one, and both sides' answers to it.
type Answered<'a> = (&'a [u8], Option<&'a [u8]>, Option<&'a [u8]>);

impl Trial {
    /// Runs both sides on a script, from nothing.
    pub fn anew(drive: &str, script: Vec<u8>) -> Result<Trial, String> {
        let mut oracle = Oracle::default();
        let mut answers = Vec::new();
        answer_lines(script.as_slice(), &mut answers, |line, out| {
            oracle.line(line, out)
        })
        .map_err(|error| error.to_string())?;
        Trial::of(drive, script, answers)
    }

    /// Runs the drive, a command for the shell, on a script that the oracle has answered.
    pub fn of(drive: &str, script: Vec<u8>, oracle: Vec<u8>) -> Result<Trial, String> {
        let failed = |error| format!("{drive}: {error}");
        let mut child = Command::new("sh")
            .args(["-c", drive])
            .stdin(Stdio::piped())
            .stdout(Stdio::piped())
            .spawn()
            .map_err(failed)?;
        let mut input = child.stdin.take().expect("its standard input");
        let mut output = child.stdout.take().expect("its standard output");
        let mut answers = Vec::with_capacity(oracle.len() + 1);
        thread::scope(|scope| {
            // A drive that ends early shows in its answers.
            scope.spawn(|| {
                input.write_all(&script).ok();
                drop(input);
            });
            output.read_to_end(&mut answers)
        })
        .map_err(failed)?;
        let status = child.wait().map_err(failed)?;
        Ok(Trial {
            script,
            oracle,
            drive: answers,
            ended: (!status.success()).then(|| status.to_string()),
        })
    }

    pub fn differs(&self) -> bool {
        self.oracle != self.drive || self.ended.is_some()
    }

    /// The script up to the first line that is answered differently, and with it; all of it if there is none.
    pub fn up_to_difference(&self) -> &[u8] {
        let mut length = 0;
        for (line, oracle, drive) in self.answered() {
            length += line.len();
            if oracle != drive {
                break;
            }
        }
        &self.script[..length]
    }

    /// The first difference, with at most so many lines that lead to it.
    pub fn report(&self, most: usize) -> String {
        let lines = lines_of(self.up_to_difference()).count();
        let skipped = lines.saturating_sub(most);
        let mut report = match skipped {
            0 => String::new(),
            _ => format!("({skipped} lines before these)\n"),
        };
        for (line, oracle, drive) in self.answered().take(lines).skip(skipped) {
            report += &format!("{}\n", shown(line));
            if oracle != drive {
                let [oracle, drive] =
                    [oracle, drive].map(|answer| answer.map_or("nothing".to_string(), shown));
                report += &format!("    oracle: {oracle}\n    drive:  {drive}\n");
            } else if let Some(answer) = oracle {
                report += &format!("    both:   {}\n", shown(answer));
            }
        }
        let [ours, theirs] = [&self.oracle, &self.drive].map(|answers| lines_of(answers).count());
        if ours != theirs {
            report += &format!("answers: oracle {ours}, drive {theirs}\n");
        }
        if let Some(ended) = &self.ended {
            report += &format!("the drive ended with {ended}\n");
        }
        report
    }

    fn answered(&self) -> impl Iterator<Item = Answered<'_>> {
        let mut oracle = lines_of(&self.oracle);
        let mut drive = lines_of(&self.drive);
        lines_of(&self.script).map(move |line| {
            match parser::parse(line.strip_suffix(b"\n").unwrap_or(line)) {
                Line::PassedOver => (line, None, None),
                _ => (line, oracle.next(), drive.next()),
            }
        })
    }
}

/// The lines of a text, each with its newline; the last may have none.
pub fn lines_of(text: &[u8]) -> impl Iterator<Item = &[u8]> {
    text.split_inclusive(|byte| *byte == b'\n')
}

/// A line as text, cut where it is long.
fn shown(line: &[u8]) -> String {
    let (text, end) = match line.strip_suffix(b"\n") {
        Some(text) => (text, ""),
        None => (line, " (no newline)"),
    };
    let cut = if text.len() > 300 { " .." } else { "" };
    format!("{}{cut}{end}", text[..text.len().min(300)].escape_ascii())
}
