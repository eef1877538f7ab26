//! Runs two programs that print the same rows in turns, each round with a seed of its own, and prints
//! a table of the times: turns OURS RUST ROUNDS SEED. A row that differs ends it.

use std::process::Command;

type Failure<T> = Result<T, Box<dyn std::error::Error>>;

/// What a program prints of a row: how many calls it made, their checksum, and the time of one.
struct Line {
    name: String,
    checked: String,
    nanoseconds: f64,
}

fn line(text: &str) -> Option<Line> {
    let (checked, nanoseconds) = text.rsplit_once('\t')?;
    let (name, counted) = checked.split_once('\t')?;
    let (calls, _) = counted.split_once('\t')?;
    Some(Line {
        name: name.to_string(),
        checked: checked.to_string(),
        nanoseconds: nanoseconds.parse::<f64>().ok()? / calls.parse::<f64>().ok()?,
    })
}

fn lines(program: &str, seed: u64) -> Failure<Vec<Line>> {
    let output = Command::new(program).arg(seed.to_string()).output()?;
    if !output.status.success() {
        return Err(format!("{program} ended with {}", output.status).into());
    }
    let text = String::from_utf8(output.stdout)?;
    let lines: Option<Vec<Line>> = text.lines().map(line).collect();
    lines.ok_or_else(|| format!("{program} printed no row:\n{text}").into())
}

struct Row {
    name: String,
    ours: Vec<f64>,
    original: Vec<f64>,
}

/// Both programs' rows for a seed.
fn round(programs: [&str; 2], seed: u64, ours_first: bool) -> Failure<[Vec<Line>; 2]> {
    let [ours, original] = programs;
    let (ours, original) = if ours_first {
        (lines(ours, seed)?, lines(original, seed)?)
    } else {
        let original = lines(original, seed)?;
        (lines(ours, seed)?, original)
    };
    if ours.len() != original.len() {
        return Err(format!("{} rows and {}", ours.len(), original.len()).into());
    }
    for (a, b) in ours.iter().zip(&original) {
        if a.checked != b.checked {
            return Err(format!("seed {seed}: '{}' is not '{}'", a.checked, b.checked).into());
        }
    }
    Ok([ours, original])
}

fn measured(programs: [&str; 2], rounds: u64, seed: u64) -> Failure<Vec<Row>> {
    let mut rows: Vec<Row> = Vec::new();
    for number in 0..rounds {
        let [ours, original] = round(programs, seed.wrapping_add(number), number % 2 == 0)?;
        for (at, (a, b)) in ours.into_iter().zip(original).enumerate() {
            if at == rows.len() {
                rows.push(Row {
                    name: a.name,
                    ours: Vec::new(),
                    original: Vec::new(),
                });
            }
            rows[at].ours.push(a.nanoseconds);
            rows[at].original.push(b.nanoseconds);
        }
    }
    Ok(rows)
}

fn best_and_median(mut times: Vec<f64>) -> [f64; 2] {
    times.sort_by(f64::total_cmp);
    [times[0], times[times.len() / 2]]
}

fn print(rows: Vec<Row>) {
    println!("| row | ours | Rust | ratio | ours, median | Rust, median | ratio |");
    println!("|---|---|---|---|---|---|---|");
    for row in rows {
        let [ours, ours_median] = best_and_median(row.ours);
        let [original, original_median] = best_and_median(row.original);
        println!(
            "| {} | {ours:.2} | {original:.2} | {:.2} | {ours_median:.2} | {original_median:.2} | {:.2} |",
            row.name,
            ours / original,
            ours_median / original_median,
        );
    }
}

fn main() -> Failure<()> {
    let words: Vec<String> = std::env::args().skip(1).collect();
    let [ours, original, rounds, seed] = words.as_slice() else {
        return Err("usage: turns OURS RUST ROUNDS SEED".into());
    };
    let rounds = rounds.parse::<u64>()?.max(1);
    let rows = measured([ours, original], rounds, seed.parse()?)?;
    println!("ns a call, best and median of {rounds} rounds, seeds from {seed}");
    println!();
    print(rows);
    Ok(())
}
