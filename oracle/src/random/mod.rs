//! Random scripts, made together with the oracle's answers: the generator runs the oracle, so it knows
//! what the open run wants. The same seed makes the same script.

mod bad;
mod rng;
mod runs;
mod sessions;
mod stateless;
mod text;
mod values;

use crate::oracle::Oracle;
use crate::parser::{self, Line};
use crate::session::Session;
pub use rng::mixed;
use rng::Rng;
use runs::Runs;

#[derive(Debug, Clone, Copy, PartialEq, Eq)]
pub enum Family {
    FramesOut,
    FramesIn,
    MotorSide,
    Models,
    Tables,
    Sessions,
    Runs,
    Mode,
    Bad,
}

use Family::*;

/// The families of a list such as `stateless,mode`.
pub fn families(list: &str) -> Result<Vec<Family>, String> {
    let mut families = Vec::new();
    for kind in list.split(',') {
        let chosen: &[Family] = match kind {
            "stateless" => &[FramesOut, FramesIn, MotorSide, Models, Tables],
            "frames-out" => &[FramesOut],
            "frames-in" => &[FramesIn],
            "motor-side" => &[MotorSide],
            "models" => &[Models],
            "tables" => &[Tables],
            "sessions" => &[Sessions],
            "runs" => &[Runs],
            "mode" => &[Mode],
            "bad" => &[Bad],
            "all" => &[
                FramesOut, FramesIn, MotorSide, Models, Tables, Sessions, Runs, Mode, Bad,
            ],
            _ => {
                return Err(format!(
                    "no kind '{kind}': all, stateless, frames-out, frames-in, motor-side, models, \
                     tables, sessions, runs, mode, bad"
                ))
            }
        };
        families.extend_from_slice(chosen);
    }
    Ok(families)
}

/// What a script is made of.
pub struct Recipe {
    pub families: Vec<Family>,
    /// Calls by their words: once a session has started they are left out.
    pub without: Vec<String>,
}

/// A script with its answers.
pub struct Chunk {
    pub script: Vec<u8>,
    pub answers: Vec<u8>,
    pub lines: u64,
}

/// A script of this many lines, but for those that are left out. It begins without a session.
pub fn chunk(seed: u64, lines: u64, recipe: &Recipe) -> Chunk {
    let mut rng = Rng::new(seed);
    let mut generator = Generator {
        runs: Runs::new(&mut rng),
        rng,
        lending: Rng::new(mixed(seed)),
        oracle: Oracle::default(),
        recipe,
    };
    let mut chunk = Chunk {
        script: Vec::with_capacity(lines as usize * 40),
        answers: Vec::with_capacity(lines as usize * 30),
        lines: 0,
    };
    let mut made = 0;
    while made < lines {
        let family = generator.family();
        let burst = generator.burst(family);
        for _ in 0..burst.min(lines - made) {
            let line = generator.line(family);
            let line = generator.unlent(line);
            made += 1;
            if generator.leaves_out(&line) {
                continue;
            }
            generator.oracle.line(&line, &mut chunk.answers);
            chunk.script.extend_from_slice(&line);
            chunk.script.push(b'\n');
            chunk.lines += 1;
        }
    }
    // Now and then the last line has no newline; an empty line would then be none.
    if generator.rng.chance(25) && !chunk.script.ends_with(b"\n\n") && chunk.script.len() > 1 {
        chunk.script.pop();
    }
    chunk
}

struct Generator<'a> {
    rng: Rng,
    /// Which calls are lent, on its own: but for that word the other lines are the same with it and without.
    lending: Rng,
    oracle: Oracle,
    runs: Runs,
    recipe: &'a Recipe,
}

impl Generator<'_> {
    fn family(&mut self) -> Family {
        self.rng.pick(&self.recipe.families)
    }

    /// Where the recipe does without the entry that lends the session, its frames go by value.
    fn unlent(&self, line: Vec<u8>) -> Vec<u8> {
        match line.strip_prefix(b"frame-lent ") {
            Some(rest) if self.leaves_out(&line) => [b"frame ", rest].concat(),
            _ => line,
        }
    }

    /// Whether a line is a call that the recipe does without. A bad line with the call's word is none.
    fn leaves_out(&self, line: &[u8]) -> bool {
        let call = line.strip_prefix(b"lent ").unwrap_or(line);
        let word = call.split(|byte| *byte == b' ').next().unwrap_or_default();
        self.oracle.session().is_some()
            && self.is_without(word)
            && matches!(parser::parse(line), Line::Call(_))
    }

    fn is_without(&self, word: &[u8]) -> bool {
        let without = &self.recipe.without;
        without.iter().any(|call| call.as_bytes() == word)
    }

    /// The call with the word `lent` before it, in half of the cases where that may be.
    fn lent(&mut self, line: Vec<u8>) -> Vec<u8> {
        if !self.is_without(b"lent") && parser::may_be_lent(&line) && self.lending.chance(50) {
            [b"lent ", line.as_slice()].concat()
        } else {
            line
        }
    }

    /// How many lines of a family stand together. Runs want many.
    fn burst(&mut self, family: Family) -> u64 {
        1 + match family {
            Runs | Mode => self.rng.below(400),
            Sessions => self.rng.below(60),
            Bad => self.rng.below(6),
            _ => self.rng.below(30),
        }
    }

    fn line(&mut self, family: Family) -> Vec<u8> {
        let line = self.plain(family);
        self.lent(line)
    }

    fn plain(&mut self, family: Family) -> Vec<u8> {
        let rng = &mut self.rng;
        match family {
            FramesOut => stateless::frames_out(rng),
            FramesIn => stateless::frames_in(rng),
            MotorSide => stateless::motor_side(rng),
            Models => stateless::models(rng),
            Tables => stateless::tables(rng),
            Bad => {
                let family = rng.pick(&[
                    FramesOut, FramesIn, MotorSide, Models, Tables, Sessions, Runs, Mode,
                ]);
                let good = self.line(family);
                bad::line(&mut self.rng, good)
            }
            Sessions | Runs | Mode => {
                let Some(session) = self.oracle.session() else {
                    return unstarted(rng, &mut self.runs);
                };
                match family {
                    Sessions => sessions::line(rng, session),
                    _ => run_line(rng, &mut self.runs, session, family),
                }
            }
        }
    }
}

/// A line before any session: a start, or a call that finds none.
fn unstarted(rng: &mut Rng, runs: &mut Runs) -> Vec<u8> {
    match rng.below(8) {
        0 => runs.start(rng),
        1 => runs.start_mode(rng),
        2 => sessions::patch(rng),
        3 => rng
            .pick(&[
                b"session".as_slice(),
                b"sent",
                b"slept",
                b"send-timeout",
                b"send-failed",
                b"clock 1",
                b"frame 1 2 3 8 0",
                b"frame-lent 1 2 3 8 0",
                b"accepts 2 3 8 0",
            ])
            .to_vec(),
        _ => sessions::start(rng),
    }
}

fn run_line(rng: &mut Rng, runs: &mut Runs, session: &Session, family: Family) -> Vec<u8> {
    if let Some(want) = session.wanted() {
        return runs.line(rng, session, want);
    }
    match rng.below(40) {
        0 => sessions::start(rng),
        1 => sessions::line(rng, session),
        2 => b"session".to_vec(),
        3 => rng
            .pick(&[b"sent".as_slice(), b"slept", b"clock 0"])
            .to_vec(),
        _ if family == Mode && !rng.chance(10) => runs.start_mode(rng),
        _ => runs.start(rng),
    }
}
