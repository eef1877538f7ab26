//! How answers are written: whole numbers decimal, floats as 8 and data as 16 hexadecimal capitals.

use motor_vendor_damiao::motor::adapter::Entry;
use motor_vendor_damiao::motor::{MotorFeedbackState, RegisterValue};
use script::Want;

pub fn text(out: &mut Vec<u8>, text: &str) {
    out.extend_from_slice(text.as_bytes());
}

pub fn decimal(out: &mut Vec<u8>, mut number: u64) {
    let mut digits = [0; 20];
    let mut at = digits.len();
    loop {
        at -= 1;
        digits[at] = b'0' + (number % 10) as u8;
        number /= 10;
        if number == 0 {
            break;
        }
    }
    out.extend_from_slice(&digits[at..]);
}

fn hexadecimal(out: &mut Vec<u8>, bytes: &[u8]) {
    const DIGITS: &[u8; 16] = b"0123456789ABCDEF";
    for byte in bytes {
        out.push(DIGITS[usize::from(byte >> 4)]);
        out.push(DIGITS[usize::from(byte & 0xF)]);
    }
}

/// A word and a number.
pub fn numbered(out: &mut Vec<u8>, word: &str, number: u64) {
    text(out, word);
    out.push(b' ');
    decimal(out, number);
}

pub fn float(out: &mut Vec<u8>, float: f32) {
    hexadecimal(out, &float.to_bits().to_be_bytes());
}

pub fn floats(out: &mut Vec<u8>, floats: &[f32]) {
    for number in floats {
        out.push(b' ');
        float(out, *number);
    }
}

/// Eight bytes, behind a word.
pub fn data(out: &mut Vec<u8>, word: &str, data: [u8; 8]) {
    text(out, word);
    out.push(b' ');
    hexadecimal(out, &data);
}

/// `ID DATA` of a frame, behind a word.
pub fn frame(out: &mut Vec<u8>, word: &str, id: u32, data: [u8; 8]) {
    numbered(out, word, id.into());
    out.push(b' ');
    hexadecimal(out, &data);
}

pub fn want(out: &mut Vec<u8>, want: Want) {
    match want {
        Want::Clock => text(out, "want clock"),
        Want::Send { id, data } => frame(out, "want send", id, data),
        Want::Sleep(length) => numbered(out, "want sleep", length),
    }
}

/// `u32 N` or `f32 BITS`.
pub fn value(out: &mut Vec<u8>, value: RegisterValue) {
    match value {
        RegisterValue::UInt32(number) => numbered(out, "u32", number.into()),
        RegisterValue::Float(number) => {
            text(out, "f32 ");
            float(out, number);
        }
    }
}

/// `CANID ARBITRATION STATUS NAME POS VEL TORQ MOS ROTOR`.
pub fn feedback(out: &mut Vec<u8>, state: &MotorFeedbackState) {
    decimal(out, state.can_id.into());
    out.push(b' ');
    decimal(out, state.arbitration_id.into());
    out.push(b' ');
    decimal(out, state.status_code.into());
    out.push(b' ');
    text(out, state.status_name);
    floats(
        out,
        &[state.pos, state.vel, state.torq, state.t_mos, state.t_rotor],
    );
}

/// ` RID u32 N STAMP` or ` RID f32 BITS STAMP` for each entry.
pub fn entries(out: &mut Vec<u8>, entries: &[Entry]) {
    for (rid, held, stamp) in entries {
        out.push(b' ');
        decimal(out, (*rid).into());
        out.push(b' ');
        value(out, *held);
        out.push(b' ');
        decimal(out, stamp.0);
    }
}
