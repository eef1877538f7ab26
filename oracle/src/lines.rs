//! Reads lines of any length, keeping no more of one than is needed to call it too long.

use crate::parser::LONGEST;
use std::io::{self, BufRead, Write};

/// Hands each line, without its newline, to `each`, which appends its answer; answers are written when
/// the input has nothing ready or many have gathered.
pub fn answer_lines(
    mut input: impl BufRead,
    mut output: impl Write,
    mut each: impl FnMut(&[u8], &mut Vec<u8>),
) -> io::Result<()> {
    let mut answers = Vec::new();
    let mut begun: Vec<u8> = Vec::new();
    let mut open = false;
    loop {
        let ready = input.fill_buf()?;
        if ready.is_empty() {
            break;
        }
        let length = ready.len();
        let mut rest = ready;
        while let Some(end) = rest.iter().position(|byte| *byte == b'\n') {
            if open {
                keep(&mut begun, &rest[..end]);
                each(&begun, &mut answers);
                begun.clear();
                open = false;
            } else {
                each(&rest[..end], &mut answers);
            }
            rest = &rest[end + 1..];
        }
        if !rest.is_empty() {
            keep(&mut begun, rest);
            open = true;
        }
        input.consume(length);
        output.write_all(&answers)?;
        output.flush()?;
        answers.clear();
    }
    if open {
        each(&begun, &mut answers);
        output.write_all(&answers)?;
    }
    output.flush()
}

/// Appends a piece, up to one byte more than the longest line has.
fn keep(begun: &mut Vec<u8>, piece: &[u8]) {
    let room = LONGEST + 1 - begun.len();
    begun.extend_from_slice(&piece[..piece.len().min(room)]);
}

#[cfg(test)]
mod tests {
    use super::*;

    fn lengths(input: &[u8], capacity: usize) -> Vec<usize> {
        let mut lengths = Vec::new();
        let input = io::BufReader::with_capacity(capacity, input);
        answer_lines(input, io::sink(), |line, _| lengths.push(line.len())).unwrap();
        lengths
    }

    #[test]
    fn lines_over_any_buffer() {
        let mut input = b"a\n\nbcd\n".to_vec();
        input.extend_from_slice(&[b'x'; LONGEST]);
        input.push(b'\n');
        input.extend_from_slice(&[b'x'; LONGEST + 5]);
        input.extend_from_slice(b"\nlast");
        for capacity in [1, 2, 3, 7, 4096, 100_000] {
            let mut found = lengths(&input, capacity);
            found[4] = found[4].min(LONGEST + 1);
            assert_eq!(found, [1, 0, 3, LONGEST, LONGEST + 1, 4], "{capacity}");
        }
        assert_eq!(lengths(b"", 8), []);
        assert_eq!(lengths(b"\n", 8), [0]);
    }
}
