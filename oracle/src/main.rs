//! The original, answering the line script. See README.md.

mod answers;
mod bus;
mod compare;
mod lines;
mod motor_side;
mod oracle;
mod parser;
mod random;
mod refusals;
mod session;
mod shrink;
mod stateless;
#[cfg(test)]
mod tests;
mod trial;

use compare::{Comparison, Extent};
use oracle::Oracle;
use random::Recipe;
use std::collections::HashMap;
use std::io;
use std::process::ExitCode;
use std::time::Duration;

const USAGE: &str = "usage: oracle run [--any-frame] < SCRIPT > ANSWERS
       oracle random --seed S --lines N --kinds LIST [--without LIST] --script FILE --answers FILE
       oracle compare --drive CMD --seed S --lines N|--seconds N|--minutes N --kinds LIST [--without LIST] [--chunk N] [--keep FILE]
--any-frame: each frame is taken, as the original takes it, without the test 15
kinds: all, stateless, frames-out, frames-in, motor-side, models, tables, sessions, runs, mode, bad";

fn main() -> ExitCode {
    let arguments: Vec<String> = std::env::args().skip(1).collect();
    let (command, rest) = match arguments.split_first() {
        Some((command, rest)) => (command.as_str(), rest),
        None => ("", [].as_slice()),
    };
    let done = match command {
        "run" => oracle_for(rest).and_then(run),
        "random" => Options::read(
            rest,
            &["seed", "lines", "kinds", "without", "script", "answers"],
        )
        .and_then(|options| random_script(&options)),
        "compare" => Options::read(
            rest,
            &[
                "drive", "seed", "lines", "seconds", "minutes", "kinds", "without", "chunk", "keep",
            ],
        )
        .and_then(|options| compare_with(&options)),
        _ => Err(USAGE.to_string()),
    };
    match done {
        Ok(()) => ExitCode::SUCCESS,
        Err(message) => {
            eprintln!("{message}");
            ExitCode::FAILURE
        }
    }
}

/// `--name value` pairs.
struct Options(HashMap<String, String>);

impl Options {
    fn read(words: &[String], known: &[&str]) -> Result<Self, String> {
        let mut options = HashMap::new();
        for pair in words.chunks(2) {
            let name = pair[0].strip_prefix("--").unwrap_or_default();
            if pair.len() < 2 || !known.contains(&name) {
                return Err(USAGE.to_string());
            }
            options.insert(name.to_string(), pair[1].clone());
        }
        Ok(Options(options))
    }

    fn text(&self, name: &str) -> Result<&str, String> {
        self.0
            .get(name)
            .map(String::as_str)
            .ok_or_else(|| format!("--{name} is missing\n{USAGE}"))
    }

    fn number(&self, name: &str) -> Result<u64, String> {
        let text = self.text(name)?;
        text.parse()
            .map_err(|_| format!("--{name}: '{text}' is no number"))
    }
}

fn oracle_for(words: &[String]) -> Result<Oracle, String> {
    match words {
        [] => Ok(Oracle::default()),
        [word] if word == "--any-frame" => Ok(Oracle::of_any_frame()),
        _ => Err(USAGE.to_string()),
    }
}

fn run(mut oracle: Oracle) -> Result<(), String> {
    let input = io::BufReader::with_capacity(1 << 17, io::stdin().lock());
    let output = io::BufWriter::with_capacity(1 << 17, io::stdout().lock());
    lines::answer_lines(input, output, |line, out| oracle.line(line, out))
        .map_err(|error| error.to_string())
}

fn recipe(options: &Options) -> Result<Recipe, String> {
    let without = options.0.get("without").map_or("", String::as_str);
    Ok(Recipe {
        families: random::families(options.text("kinds")?)?,
        without: without.split(',').map(str::to_string).collect(),
    })
}

fn random_script(options: &Options) -> Result<(), String> {
    let recipe = recipe(options)?;
    let (script, answers) = (options.text("script")?, options.text("answers")?);
    let chunk = random::chunk(options.number("seed")?, options.number("lines")?, &recipe);
    for (file, bytes) in [(script, &chunk.script), (answers, &chunk.answers)] {
        std::fs::write(file, bytes).map_err(|error| format!("{file}: {error}"))?;
    }
    Ok(())
}

/// A number of lines or a time, and not both.
fn extent(options: &Options) -> Result<Extent, String> {
    let given = ["lines", "seconds", "minutes"].map(|name| options.0.contains_key(name));
    match given {
        [false, true, false] => Ok(Extent::Time(Duration::from_secs(
            options.number("seconds")?,
        ))),
        [false, false, true] => Ok(Extent::Time(Duration::from_secs(
            options.number("minutes")?.saturating_mul(60),
        ))),
        [_, false, false] => Ok(Extent::Lines(options.number("lines")?)),
        _ => Err(USAGE.to_string()),
    }
}

fn compare_with(options: &Options) -> Result<(), String> {
    let mut named = format!("--kinds {}", options.text("kinds")?);
    if let Some(without) = options.0.get("without").filter(|calls| !calls.is_empty()) {
        named += &format!(" --without {without}");
    }
    compare::compare(&Comparison {
        drive: options.text("drive")?.to_string(),
        seed: options.number("seed")?,
        extent: extent(options)?,
        recipe: recipe(options)?,
        named,
        chunk: match options.0.contains_key("chunk") {
            true => options.number("chunk")?,
            false => 200_000,
        },
        keep: options.0.get("keep").cloned(),
    })
}
