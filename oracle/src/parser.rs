//! The line script's lines, in detail:
//!
//! - A line ends at a newline byte, which is no part of it. A last line without one is a line too;
//!   nothing after the last newline is no line.
//! - Longer than 4,095 bytes: a bad line, whatever it begins with, `#` included.
//! - Empty, or `#` as its first byte: passed over, whatever bytes follow. A line with only spaces, or
//!   with a space before `#`, is a bad line.
//! - Any other line with a tab or a carriage return anywhere is a bad line.
//! - Words stand exactly one space apart, with none before the first or after the last. Call words are
//!   written as in the table, in lower case.
//! - A number is decimal digits, or `0x` (lower case) and hexadecimal digits of either case: at least
//!   one digit, no sign, no underscore, nothing else. Leading zeros are free in number. A value that
//!   does not fit 64 bits, or does not fit its field, makes a bad line.
//! - A flag is a number with the value 0 or 1, so `0x1` and `00` are flags too.
//! - A float is a number of 32 bits, any pattern.
//! - The word `lent` and a space before the start of a run, an answer or a patch change nothing here;
//!   before any other line they make a bad line, and so does `lent` twice.
//! - A NAME is any word: one byte or more, none of them a space, tab, carriage return or newline. It
//!   need not be text.
//! - Bad lines are found before anything else is asked, so also before `no session` and refusals.

use crate::motor_side::{Feedback, Register};
use script::Answer;

pub const LONGEST: usize = 4095;

#[derive(Debug, Clone, Copy)]
pub enum Line<'a> {
    PassedOver,
    Bad,
    Call(Call<'a>),
}

#[derive(Debug, Clone, Copy)]
pub struct Frame {
    pub id: u32,
    pub data: [u8; 8],
    pub dlc: u8,
    pub extended: bool,
}

/// The start of a run.
#[derive(Debug, Clone, Copy)]
pub enum Start {
    GetU32 { rid: u8, timeout: u64 },
    GetF32 { rid: u8, timeout: u64 },
    WriteU32 { rid: u8, value: u32 },
    WriteF32 { rid: u8, value: f32 },
    FreshState { timeout: u64 },
    Store,
    Mode { mode: u32, timeout: u64 },
}

/// A call on the session.
#[derive(Debug, Clone, Copy)]
pub enum SessionCall {
    Start(Start),
    Answer(Answer),
    Frame { reading: u64, frame: Frame },
    Accepts(Frame),
    Patch { status: u8, mos: u8, rotor: u8 },
    Session,
}

/// One command frame for a motor.
#[derive(Debug, Clone, Copy)]
pub enum Command {
    Mit {
        limits: [f32; 3],
        setpoint: [f32; 5],
    },
    PosVel {
        position: f32,
        limit: f32,
    },
    Vel {
        velocity: f32,
    },
    ForcePos {
        position: f32,
        limit: f32,
        ratio: f32,
    },
    ReadReg {
        rid: u8,
    },
    WriteReg {
        rid: u8,
        bits: u32,
    },
    StoreParams,
    FeedbackRequest,
    Disable,
    Zero,
    Clear,
}

#[derive(Debug, Clone, Copy)]
pub enum Call<'a> {
    StartLimits {
        motor: u16,
        feedback: u16,
        limits: [f32; 3],
    },
    StartModel {
        name: &'a [u8],
        motor: u16,
        feedback: u16,
    },
    Session(SessionCall),
    Command {
        motor: u16,
        command: Command,
    },
    MakeFeedback(Feedback),
    MakeReply(Register),
    MakeAck(Register),
    Decode {
        limits: [f32; 3],
        data: [u8; 8],
    },
    Sort {
        data: [u8; 8],
    },
    StatusName(u8),
    Register(u8),
    Match {
        query: [f32; 3],
        tolerance: f32,
    },
    Suggest {
        query: [f32; 3],
        count: u64,
    },
}

pub fn parse(line: &[u8]) -> Line<'_> {
    if line.len() > LONGEST {
        return Line::Bad;
    }
    if line.is_empty() || line[0] == b'#' {
        return Line::PassedOver;
    }
    if line.iter().any(|byte| matches!(byte, b'\t' | b'\r')) {
        return Line::Bad;
    }
    let (lent, rest) = match line.strip_prefix(b"lent ") {
        Some(rest) => (true, rest),
        None => (false, line),
    };
    let mut words = Words { rest: Some(rest) };
    match call(&mut words) {
        Some(call) if words.rest.is_none() && (!lent || call.may_be_lent()) => Line::Call(call),
        _ => Line::Bad,
    }
}

impl Call<'_> {
    /// Whether the word `lent` may stand before it.
    fn may_be_lent(&self) -> bool {
        use SessionCall::{Answer, Patch, Start};
        matches!(self, Call::Session(Start(_) | Answer(_) | Patch { .. }))
    }
}

/// Whether a line is a call before which `lent` may be put.
pub fn may_be_lent(line: &[u8]) -> bool {
    let Line::Call(call) = parse(line) else {
        return false;
    };
    call.may_be_lent() && !line.starts_with(b"lent ")
}

fn call<'a>(words: &mut Words<'a>) -> Option<Call<'a>> {
    let run = |start| Call::Session(SessionCall::Start(start));
    let answer = |answer| Call::Session(SessionCall::Answer(answer));
    Some(match words.word()? {
        b"start-limits" => Call::StartLimits {
            motor: words.u16()?,
            feedback: words.u16()?,
            limits: words.three_floats()?,
        },
        b"start-model" => Call::StartModel {
            name: words.word()?,
            motor: words.u16()?,
            feedback: words.u16()?,
        },
        b"get-u32" => run(Start::GetU32 {
            rid: words.u8()?,
            timeout: words.u64()?,
        }),
        b"get-f32" => run(Start::GetF32 {
            rid: words.u8()?,
            timeout: words.u64()?,
        }),
        b"write-u32" => run(Start::WriteU32 {
            rid: words.u8()?,
            value: words.u32()?,
        }),
        b"write-f32" => run(Start::WriteF32 {
            rid: words.u8()?,
            value: words.f32()?,
        }),
        b"fresh-state" => run(Start::FreshState {
            timeout: words.u64()?,
        }),
        b"store" => run(Start::Store),
        b"mode" => run(Start::Mode {
            mode: words.u32()?,
            timeout: words.u64()?,
        }),
        b"clock" => answer(Answer::Reading(words.u64()?)),
        b"sent" => answer(Answer::Sent),
        b"send-timeout" => answer(Answer::SendTimeout),
        b"send-failed" => answer(Answer::SendFailed),
        b"slept" => answer(Answer::Slept),
        b"frame" | b"frame-lent" => Call::Session(SessionCall::Frame {
            reading: words.u64()?,
            frame: words.frame()?,
        }),
        b"accepts" => Call::Session(SessionCall::Accepts(words.frame()?)),
        b"patch" => Call::Session(SessionCall::Patch {
            status: words.u8()?,
            mos: words.u8()?,
            rotor: words.u8()?,
        }),
        b"session" => Call::Session(SessionCall::Session),
        b"make-feedback" => Call::MakeFeedback(Feedback {
            motor: words.u8()?,
            status: words.u8()?,
            position: words.u32()?,
            velocity: words.u32()?,
            torque: words.u32()?,
            mos: words.u8()?,
            rotor: words.u8()?,
        }),
        b"make-reply" => Call::MakeReply(words.register()?),
        b"make-ack" => Call::MakeAck(words.register()?),
        b"decode" => Call::Decode {
            limits: words.three_floats()?,
            data: words.data()?,
        },
        b"sort" => Call::Sort {
            data: words.data()?,
        },
        b"status-name" => Call::StatusName(words.u8()?),
        b"register" => Call::Register(words.u8()?),
        b"match" => Call::Match {
            query: words.three_floats()?,
            tolerance: words.f32()?,
        },
        b"suggest" => Call::Suggest {
            query: words.three_floats()?,
            count: words.u64()?,
        },
        word => {
            let motor = words.u16();
            Call::Command {
                command: command(word, words)?,
                motor: motor?,
            }
        }
    })
}

/// The command's own arguments, behind the motor id.
fn command(word: &[u8], words: &mut Words) -> Option<Command> {
    Some(match word {
        b"mit" => Command::Mit {
            limits: words.three_floats()?,
            setpoint: [
                words.f32()?,
                words.f32()?,
                words.f32()?,
                words.f32()?,
                words.f32()?,
            ],
        },
        b"pos-vel" => Command::PosVel {
            position: words.f32()?,
            limit: words.f32()?,
        },
        b"vel" => Command::Vel {
            velocity: words.f32()?,
        },
        b"force-pos" => Command::ForcePos {
            position: words.f32()?,
            limit: words.f32()?,
            ratio: words.f32()?,
        },
        b"read-reg" => Command::ReadReg { rid: words.u8()? },
        b"write-reg" => Command::WriteReg {
            rid: words.u8()?,
            bits: words.u32()?,
        },
        b"store-params" => Command::StoreParams,
        b"feedback-request" => Command::FeedbackRequest,
        b"disable" => Command::Disable,
        b"zero" => Command::Zero,
        b"clear" => Command::Clear,
        _ => return None,
    })
}

/// What is left of a line, word by word; `None` behind the last word.
struct Words<'a> {
    rest: Option<&'a [u8]>,
}

impl<'a> Words<'a> {
    fn word(&mut self) -> Option<&'a [u8]> {
        let rest = self.rest?;
        let word = match rest.iter().position(|byte| *byte == b' ') {
            Some(at) => {
                self.rest = Some(&rest[at + 1..]);
                &rest[..at]
            }
            None => {
                self.rest = None;
                rest
            }
        };
        (!word.is_empty()).then_some(word)
    }

    fn u64(&mut self) -> Option<u64> {
        number(self.word()?)
    }

    fn u32(&mut self) -> Option<u32> {
        self.u64()?.try_into().ok()
    }

    fn u16(&mut self) -> Option<u16> {
        self.u64()?.try_into().ok()
    }

    fn u8(&mut self) -> Option<u8> {
        self.u64()?.try_into().ok()
    }

    fn flag(&mut self) -> Option<bool> {
        match self.u64()? {
            0 => Some(false),
            1 => Some(true),
            _ => None,
        }
    }

    fn f32(&mut self) -> Option<f32> {
        self.u32().map(f32::from_bits)
    }

    fn three_floats(&mut self) -> Option<[f32; 3]> {
        Some([self.f32()?, self.f32()?, self.f32()?])
    }

    fn data(&mut self) -> Option<[u8; 8]> {
        self.u64().map(u64::to_be_bytes)
    }

    fn register(&mut self) -> Option<Register> {
        Some(Register {
            id: self.u16()?,
            rid: self.u8()?,
            bits: self.u32()?,
        })
    }

    fn frame(&mut self) -> Option<Frame> {
        Some(Frame {
            id: self.u32()?,
            data: self.data()?,
            dlc: self.u8()?,
            extended: self.flag()?,
        })
    }
}

fn number(word: &[u8]) -> Option<u64> {
    let (digits, radix) = match word.strip_prefix(b"0x") {
        Some(digits) => (digits, 16),
        None => (word, 10),
    };
    if digits.is_empty() {
        return None;
    }
    digits.iter().try_fold(0u64, |value, digit| {
        let digit = char::from(*digit).to_digit(radix)?;
        value
            .checked_mul(u64::from(radix))?
            .checked_add(u64::from(digit))
    })
}

#[cfg(test)]
mod tests {
    use super::*;

    fn is_bad(line: &[u8]) -> bool {
        matches!(parse(line), Line::Bad)
    }

    #[test]
    fn numbers() {
        assert_eq!(number(b"0"), Some(0));
        assert_eq!(number(b"00018446744073709551615"), Some(u64::MAX));
        assert_eq!(number(b"18446744073709551616"), None);
        assert_eq!(number(b"0xFfFfFfFfFfFfFfFf"), Some(u64::MAX));
        assert_eq!(number(b"0x00000000000000000000000000001"), Some(1));
        for bad in [
            "", "0x", "0X1", "+1", "-1", "1_0", "0xG", "a", "1.0", "x1", "0x 1",
        ] {
            assert_eq!(number(bad.as_bytes()), None, "{bad}");
        }
        assert_eq!(number(b"1\xB2"), None);
    }

    #[test]
    fn fields() {
        assert!(!is_bad(b"status-name 255"));
        assert!(is_bad(b"status-name 256"));
        assert!(!is_bad(b"vel 65535 4294967295"));
        assert!(is_bad(b"vel 65536 0"));
        assert!(is_bad(b"vel 0 4294967296"));
        assert!(!is_bad(
            b"make-feedback 255 255 4294967295 4294967295 4294967295 255 255"
        ));
        assert!(is_bad(b"make-feedback 256 0 0 0 0 0 0"));
        assert!(is_bad(b"make-feedback 0 0 0 0 0 0 256"));
        assert!(!is_bad(b"make-ack 65535 255 4294967295"));
        assert!(is_bad(b"make-reply 65536 0 0"));
        assert!(is_bad(b"make-reply 0 256 0"));
        assert!(!is_bad(b"accepts 0xFFFFFFFF 0xFFFFFFFFFFFFFFFF 255 1"));
        assert!(is_bad(b"accepts 0x100000000 0 8 0"));
        assert!(is_bad(b"accepts 0 0 8 2"));
        assert!(!is_bad(b"mode 4294967295 18446744073709551615"));
        assert!(is_bad(b"mode 1 18446744073709551616"));
    }

    #[test]
    fn words_and_spaces() {
        for bad in [
            " session",
            "session ",
            "session 1",
            "vel  1 0",
            "vel 1",
            "vel 1 0 0",
            "Session",
            "session\r",
            "vel\t1 0",
            "vel 1\t0",
            " ",
            " #",
            "\r",
            "sent\0",
            "start-model  1 2",
            "start-model 43\t10 1 2",
            "vel",
            "frames",
            "",
            "#",
        ] {
            let line = parse(bad.as_bytes());
            let passed = bad.is_empty() || bad.starts_with('#');
            assert_eq!(matches!(line, Line::PassedOver), passed, "{bad:?}");
            assert_eq!(matches!(line, Line::Bad), !passed, "{bad:?}");
        }
        assert!(!is_bad(b"start-model \xFF\x00# 1 2"));
        assert!(matches!(parse(b"# \xFF\t\r"), Line::PassedOver));
    }

    #[test]
    fn lent() {
        for good in [
            "get-u32 10 1",
            "get-f32 0 1",
            "write-u32 10 1",
            "write-f32 0 0",
            "fresh-state 1",
            "store",
            "mode 1 1",
            "clock 0x5",
            "sent",
            "send-timeout",
            "send-failed",
            "slept",
            "patch 11 80 90",
        ] {
            assert!(may_be_lent(good.as_bytes()), "{good}");
            let lent = format!("lent {good}");
            assert!(!is_bad(lent.as_bytes()), "{lent}");
            assert!(!may_be_lent(lent.as_bytes()), "{lent}");
            let twice = format!("lent {lent}");
            assert!(is_bad(twice.as_bytes()), "{twice}");
            let apart = format!("lent  {good}");
            assert!(is_bad(apart.as_bytes()), "{apart}");
        }
        for good in [
            "start-model 4310 1 2",
            "start-limits 1 2 3 4 5",
            "frame 1 2 3 8 0",
            "frame-lent 1 2 3 8 0",
            "accepts 2 3 8 0",
            "session",
            "vel 1 0",
            "make-reply 1 10 0",
            "sort 0",
            "register 10",
            "suggest 1 2 3 4",
        ] {
            assert!(!is_bad(good.as_bytes()), "{good}");
            assert!(!may_be_lent(good.as_bytes()), "{good}");
            let lent = format!("lent {good}");
            assert!(is_bad(lent.as_bytes()), "{lent}");
        }
        for bad in [
            "lent",
            "lent ",
            "lent #",
            "lent help",
            "lent clock",
            "lent clock 5 6",
            "lent clock x",
            "lent sent ",
            " lent sent",
            "Lent sent",
            "lent\tsent",
            "lentsent",
            "lent-sent",
            "sent lent",
            "clock lent 5",
        ] {
            assert!(is_bad(bad.as_bytes()), "{bad:?}");
            assert!(!may_be_lent(bad.as_bytes()), "{bad:?}");
        }
    }

    #[test]
    fn long_lines() {
        let padded = |length: usize, first: &str| {
            let mut line = first.as_bytes().to_vec();
            line.resize(length, b'0');
            line
        };
        assert!(!is_bad(&padded(LONGEST, "register ")));
        assert!(is_bad(&padded(LONGEST + 1, "register ")));
        assert!(!is_bad(&padded(LONGEST, "lent clock ")));
        assert!(is_bad(&padded(LONGEST + 1, "lent clock ")));
        assert!(matches!(parse(&padded(LONGEST, "#")), Line::PassedOver));
        assert!(is_bad(&padded(LONGEST + 1, "#")));
    }
}
