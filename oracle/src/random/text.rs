//! A line in the making, with its numbers spelled in varying ways.

use super::rng::Rng;

pub struct Text {
    pub bytes: Vec<u8>,
}

impl Text {
    pub fn new(word: &str) -> Self {
        Text {
            bytes: word.as_bytes().to_vec(),
        }
    }

    pub fn word(mut self, word: &[u8]) -> Self {
        self.bytes.push(b' ');
        self.bytes.extend_from_slice(word);
        self
    }

    /// Mostly decimal.
    pub fn number(self, rng: &mut Rng, number: impl Into<u64>) -> Self {
        let number = number.into();
        let spelled = match rng.below(16) {
            0 | 1 => format!("0x{number:X}"),
            2 => format!("0x{number:x}"),
            3 => format!("0x{number:016X}"),
            4 => format!("0{number}"),
            _ => number.to_string(),
        };
        self.word(spelled.as_bytes())
    }

    /// Mostly 8 hexadecimal digits.
    pub fn float(self, rng: &mut Rng, bits: u32) -> Self {
        let spelled = match rng.below(16) {
            0 | 1 => bits.to_string(),
            2 => format!("0x{bits:x}"),
            _ => format!("0x{bits:08X}"),
        };
        self.word(spelled.as_bytes())
    }

    pub fn floats(self, rng: &mut Rng, bits: &[u32]) -> Self {
        bits.iter().fold(self, |text, bits| text.float(rng, *bits))
    }

    /// Mostly 16 hexadecimal digits.
    pub fn data(self, rng: &mut Rng, data: [u8; 8]) -> Self {
        let number = u64::from_be_bytes(data);
        let spelled = match rng.below(16) {
            0 => number.to_string(),
            1 => format!("0x{number:x}"),
            _ => format!("0x{number:016X}"),
        };
        self.word(spelled.as_bytes())
    }
}
