//! Malformed lines: good ones spoiled, random bytes, lines of many lengths.

use super::rng::Rng;
use crate::parser::LONGEST;

const WORDS: &[&str] = &[
    "lent",
    "start-limits",
    "start-model",
    "get-u32",
    "get-f32",
    "write-u32",
    "write-f32",
    "fresh-state",
    "store",
    "mode",
    "clock",
    "sent",
    "send-timeout",
    "send-failed",
    "slept",
    "frame",
    "frame-lent",
    "accepts",
    "patch",
    "session",
    "mit",
    "pos-vel",
    "vel",
    "force-pos",
    "read-reg",
    "write-reg",
    "store-params",
    "feedback-request",
    "disable",
    "zero",
    "clear",
    "make-feedback",
    "make-reply",
    "make-ack",
    "decode",
    "sort",
    "status-name",
    "register",
    "match",
    "suggest",
];

const NUMBERS: &[&str] = &[
    "",
    "0x",
    "0X1",
    "+1",
    "-1",
    "1_000",
    "0xG",
    "x",
    "1.5",
    "1e3",
    "0b1",
    "256",
    "65536",
    "4294967296",
    "18446744073709551615",
    "18446744073709551616",
    "99999999999999999999999",
    "0x10000000000000000",
    "0xFFFFFFFFFFFFFFFF",
    "0x00000000000000000000001",
    "0x0x1",
    "2",
    "'1'",
    "NaN",
    "inf",
    "0",
    "1",
    "00",
    "0xfF",
    "\u{ff11}",
    "1,0",
    "#",
    "0x1 ",
];

/// A line made from a good one. It may be good still.
pub fn line(rng: &mut Rng, good: Vec<u8>) -> Vec<u8> {
    let mut line = match rng.below(22) {
        0 => (0..rng.below(40)).map(|_| rng.next() as u8).collect(),
        1 => (0..rng.below(40))
            .map(|_| 32 + rng.below(95) as u8)
            .collect(),
        2 => long(rng, &good),
        3 => [b"#", good.as_slice()].concat(),
        4 => Vec::new(),
        5 => word_and_numbers(rng),
        6 => [good.as_slice(), b" 0"].concat(),
        7 => rng.pick(WORDS).as_bytes().to_vec(),
        8 => {
            let byte = rng.pick(b" \t\r\x0B\x0C\0#");
            [&[byte], good.as_slice()].concat()
        }
        9 => {
            let byte = rng.pick(b" \t\r\x0B\x0C\0#");
            [good.as_slice(), &[byte]].concat()
        }
        10..=13 => spoil_word(rng, &good),
        14 => good[..rng.below(good.len() as u64 + 1) as usize].to_vec(),
        15 => good.to_ascii_uppercase(),
        16 | 17 => put_lent(rng, &good),
        _ => spoil_byte(rng, good),
    };
    // A line holds no newline.
    line.retain(|byte| *byte != b'\n');
    line
}

/// A call word with any count of numbers, good ones mostly.
fn word_and_numbers(rng: &mut Rng) -> Vec<u8> {
    let mut line = rng.pick(WORDS).as_bytes().to_vec();
    for _ in 0..rng.below(12) {
        line.push(b' ');
        let number = if rng.chance(80) {
            rng.pick(&["0", "1", "8", "255", "0x3F800000"])
        } else {
            rng.pick(NUMBERS)
        };
        line.extend_from_slice(number.as_bytes());
    }
    line
}

/// One word dropped, doubled, or put in place of another.
fn spoil_word(rng: &mut Rng, good: &[u8]) -> Vec<u8> {
    let mut words: Vec<&[u8]> = good.split(|byte| *byte == b' ').collect();
    let at = rng.below(words.len() as u64) as usize;
    match rng.below(4) {
        0 => {
            words.remove(at);
        }
        1 => words.insert(at, words[at]),
        _ => words[at] = rng.pick(NUMBERS).as_bytes(),
    }
    words.join(&b' ')
}

/// The word `lent` before a line, mostly, or between its words or behind them.
fn put_lent(rng: &mut Rng, good: &[u8]) -> Vec<u8> {
    let mut words: Vec<&[u8]> = good.split(|byte| *byte == b' ').collect();
    let at = if rng.chance(60) {
        0
    } else {
        rng.below(words.len() as u64 + 1) as usize
    };
    words.insert(at, b"lent");
    words.join(&b' ')
}

/// One byte changed, put in or taken out.
fn spoil_byte(rng: &mut Rng, mut line: Vec<u8>) -> Vec<u8> {
    let at = rng.below(line.len() as u64) as usize;
    let byte = if rng.chance(50) {
        rng.next() as u8
    } else {
        rng.pick(b" \t\r\0x-+_0")
    };
    match rng.below(3) {
        0 => line[at] = byte,
        1 => line.insert(at, byte),
        _ => {
            line.remove(at);
        }
    }
    line
}

/// A line about as long as a line may be, good but for its length, or a comment.
fn long(rng: &mut Rng, good: &[u8]) -> Vec<u8> {
    let length = match rng.below(6) {
        0 => LONGEST - 1,
        1 | 2 => LONGEST,
        3 | 4 => LONGEST + 1,
        _ => LONGEST + rng.below(10_000) as usize,
    };
    match rng.below(4) {
        0 => {
            let mut line = good.to_vec();
            line.resize(length, rng.pick(b" 0x#"));
            line
        }
        1 => {
            let mut line = b"#".to_vec();
            line.resize(length, b'#');
            line
        }
        _ => {
            // Leading zeros of the last number.
            let at = good.iter().rposition(|byte| *byte == b' ');
            let at = at.map_or(good.len(), |at| at + 1);
            let (head, tail) = good.split_at(at);
            let (prefix, digits) = if tail.starts_with(b"0x") {
                tail.split_at(2)
            } else {
                tail.split_at(0)
            };
            let zeros = vec![b'0'; length.saturating_sub(good.len())];
            [head, prefix, &zeros, digits].concat()
        }
    }
}
