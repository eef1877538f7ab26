//! Makes a script that differs short, by delta debugging: leaves out whatever it can do without and still differ.

use crate::trial::lines_of;

/// What the trials of one script may cost together. A trial costs its bytes, and START for the drive's start.
const BUDGET: usize = 500_000_000;
const START: usize = 50_000;

/// As much of a script as is needed for it to differ: no line can be left out and no byte of a line, as far as
/// the budget goes. `differs` says whether a script does.
pub fn shrunk(
    mut script: Vec<u8>,
    differs: impl FnMut(&[u8]) -> Result<bool, String>,
) -> Result<Vec<u8>, String> {
    let mut trials = Trials {
        differs,
        left: BUDGET,
    };
    loop {
        let fewer = trials.fewer_lines(&script)?;
        let plainer = trials.plainer_lines(&fewer)?;
        if plainer == script || trials.spent() {
            return Ok(plainer);
        }
        script = plainer;
    }
}

struct Trials<F> {
    differs: F,
    left: usize,
}

impl<F: FnMut(&[u8]) -> Result<bool, String>> Trials<F> {
    fn spent(&self) -> bool {
        self.left == 0
    }

    fn differs(&mut self, script: &[u8]) -> Result<bool, String> {
        self.left = self.left.saturating_sub(script.len() + START);
        (self.differs)(script)
    }

    fn fewer_lines(&mut self, script: &[u8]) -> Result<Vec<u8>, String> {
        let lines: Vec<&[u8]> = lines_of(script).collect();
        let fewer = self.thinned(lines, |lines| lines.concat())?;
        Ok(fewer.concat())
    }

    /// One line after the other: its numbers become 0 or 1, then bytes are left out.
    fn plainer_lines(&mut self, script: &[u8]) -> Result<Vec<u8>, String> {
        let mut done = Vec::new();
        let mut rest = script;
        while let Some(line) = lines_of(rest).next() {
            if self.spent() {
                break;
            }
            let text = line.strip_suffix(b"\n").unwrap_or(line);
            let (end, next) = rest[text.len()..].split_at(line.len() - text.len());
            let with = |text: &[u8]| [&done, text, end, next].concat();
            let plain = self.plain_numbers(text, with)?;
            let plain = self.thinned(plain, with)?;
            done.extend_from_slice(&[&plain, end].concat());
            rest = next;
        }
        Ok([&done, rest].concat())
    }

    /// A line with 0 or 1 in place of each number that can be replaced; `with` is the script with a line in its place.
    fn plain_numbers(
        &mut self,
        line: &[u8],
        with: impl Fn(&[u8]) -> Vec<u8>,
    ) -> Result<Vec<u8>, String> {
        let mut words: Vec<&[u8]> = line.split(|byte| *byte == b' ').collect();
        for place in 1..words.len() {
            let word = words[place];
            if matches!(word, b"0" | b"1") || !word.first().is_some_and(u8::is_ascii_digit) {
                continue;
            }
            for plain in [b"0", b"1"] {
                words[place] = plain;
                if self.differs(&with(&words.join(&b' ')))? {
                    break;
                }
                words[place] = word;
            }
        }
        Ok(words.join(&b' '))
    }

    /// Leaves out halves, then quarters and so on, as long as the script of the rest still differs, and ends when no
    /// single item can be left out.
    fn thinned<T: Clone>(
        &mut self,
        mut items: Vec<T>,
        script: impl Fn(&[T]) -> Vec<u8>,
    ) -> Result<Vec<T>, String> {
        let mut size = items.len().max(1);
        loop {
            let before = items.len();
            let mut start = 0;
            while start < items.len() {
                if self.spent() {
                    return Ok(items);
                }
                let end = items.len().min(start + size);
                let rest = [&items[..start], &items[end..]].concat();
                if self.differs(&script(&rest))? {
                    items = rest;
                } else {
                    start = end;
                }
            }
            if size > 1 {
                size = size.div_ceil(2);
            } else if items.len() == before {
                return Ok(items);
            }
        }
    }
}

#[cfg(test)]
mod tests {
    use super::*;

    fn shrunk_text(script: &str, differs: impl Fn(&str) -> bool) -> String {
        let script = script.as_bytes().to_vec();
        let text = |script: &[u8]| String::from_utf8(script.to_vec()).expect("text");
        text(&shrunk(script, |script| Ok(differs(&text(script)))).expect("no trial fails"))
    }

    #[test]
    fn lines_that_are_needed_stay() {
        let script: String = (0..10_000).map(|n| format!("line {n}\n")).collect();
        let needed = |script: &str| ["line 17\n", "line 9998\n"].map(|line| script.contains(line));
        assert_eq!(
            shrunk_text(&script, |script| needed(script) == [true; 2]),
            "line 17\nline 9998\n"
        );
        assert_eq!(shrunk_text(&script, |_| true), "");
        assert_eq!(shrunk_text("", |_| true), "");
    }

    #[test]
    fn lines_become_plain() {
        let script = "call 0x41480000 17 0x110F33\nx  \nlast 23 of all";
        let differs = |script: &str| {
            script.starts_with("call ") && script.contains("33") && script.ends_with("all")
        };
        assert_eq!(shrunk_text(script, differs), "call 33\nall");
        let numbers =
            |script: &str| script.starts_with("call ") && script.split_whitespace().count() == 4;
        assert_eq!(
            shrunk_text("call 0x41480000 17 95\n", numbers),
            "call 0 0 0\n"
        );
    }

    #[test]
    fn trials_come_to_an_end() {
        let script: String = (0..200_000).map(|n| format!("line {n}\n")).collect();
        let mut bytes = 0;
        let whole = script.len();
        let same = shrunk(script.clone().into_bytes(), |script| {
            bytes += script.len() + START;
            Ok(script.len() >= whole)
        });
        assert!(same.expect("no trial fails") == script.as_bytes());
        assert!((BUDGET..BUDGET + whole + START).contains(&bytes));
    }
}
