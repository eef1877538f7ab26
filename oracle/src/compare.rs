//! Runs another program on random scripts and compares its answers with the oracle's.

use crate::random::{self, Chunk, Recipe};
use crate::shrink::shrunk;
use crate::trial::Trial;
use std::sync::mpsc::{sync_channel, SyncSender};
use std::thread;
use std::time::{Duration, Instant};

/// How long there is no word of progress.
const SILENCE: Duration = Duration::from_secs(5);

/// How many lines of a script that differs are shown.
const SHOWN: usize = 30;

/// How much is compared.
pub enum Extent {
    Lines(u64),
    Time(Duration),
}

pub struct Comparison {
    /// A command for the shell, which gets the script on its standard input.
    pub drive: String,
    pub seed: u64,
    pub extent: Extent,
    pub recipe: Recipe,
    /// The options that name the recipe.
    pub named: String,
    pub chunk: u64,
    /// Where a short script that differs is left.
    pub keep: Option<String>,
}

struct Made {
    seed: u64,
    lines: u64,
    chunk: Chunk,
}

/// Compares chunk by chunk; the next chunk is made while the last one is run.
pub fn compare(comparison: &Comparison) -> Result<(), String> {
    let (give, take) = sync_channel(1);
    thread::scope(|scope| {
        scope.spawn(move || make(comparison, &give));
        let mut progress = Progress::begun();
        for made in take {
            let lines = made.chunk.lines;
            one_chunk(comparison, made)?;
            progress.compared(lines);
        }
        println!("{}, 0 differences", progress.so_far());
        Ok(())
    })
}

/// Makes chunks, until there are enough or nobody takes them.
fn make(comparison: &Comparison, give: &SyncSender<Made>) {
    let begun = Instant::now();
    let chunk = comparison.chunk.max(1);
    let mut seed = comparison.seed;
    let mut made = 0;
    loop {
        let lines = match comparison.extent {
            Extent::Lines(lines) => chunk.min(lines - made),
            Extent::Time(time) if begun.elapsed() < time => chunk,
            Extent::Time(_) => 0,
        };
        if lines == 0 {
            return;
        }
        let chunk = random::chunk(seed, lines, &comparison.recipe);
        if give.send(Made { seed, lines, chunk }).is_err() {
            return;
        }
        made += lines;
        seed = random::mixed(seed);
    }
}

fn one_chunk(comparison: &Comparison, made: Made) -> Result<(), String> {
    let trial = Trial::of(&comparison.drive, made.chunk.script, made.chunk.answers)?;
    if !trial.differs() {
        return Ok(());
    }
    eprintln!(
        "a difference in random --seed {} --lines {} {}",
        made.seed, made.lines, comparison.named
    );
    let short = shortened(&comparison.drive, trial)?;
    let kept = match &comparison.keep {
        None => String::new(),
        Some(keep) => match std::fs::write(keep, &short.script) {
            Ok(()) => format!("the script is in {keep}"),
            Err(error) => format!("{keep}: {error}"),
        },
    };
    Err(format!("{}{kept}", short.report(SHOWN)))
}

/// A short script that differs, made from the one of this trial.
fn shortened(drive: &str, trial: Trial) -> Result<Trial, String> {
    let mut trials = 0;
    let mut anew = |script: &[u8]| {
        trials += 1;
        Trial::anew(drive, script.to_vec())
    };
    // What comes behind the first difference is needed where the drive's end or too many answers are the difference.
    for script in [trial.up_to_difference(), &trial.script] {
        if anew(script)?.differs() {
            let short = shrunk(script.to_vec(), |script| Ok(anew(script)?.differs()))?;
            let short = anew(&short)?;
            eprintln!("made short in {trials} trials");
            return Ok(short);
        }
    }
    eprintln!("the drive answers otherwise when it is run again");
    Ok(trial)
}

/// Lines and time so far.
struct Progress {
    begun: Instant,
    said: Instant,
    lines: u64,
}

impl Progress {
    fn begun() -> Self {
        let now = Instant::now();
        Progress {
            begun: now,
            said: now,
            lines: 0,
        }
    }

    fn compared(&mut self, lines: u64) {
        self.lines += lines;
        if self.said.elapsed() >= SILENCE {
            self.said = Instant::now();
            eprintln!("{}", self.so_far());
        }
    }

    fn so_far(&self) -> String {
        let seconds = self.begun.elapsed().as_secs_f64();
        let rate = self.lines as f64 / seconds;
        format!(
            "{} lines compared in {seconds:.0} s, {rate:.0} lines per second",
            self.lines
        )
    }
}
