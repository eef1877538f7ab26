//! Random runs: starts, and answers that suit what the open run wants most of the time. Each run has
//! a temper, which says how its motor, its bus and its clock behave.

use super::rng::Rng;
use super::sessions;
use super::text::Text;
use super::values;
use crate::session::Session;
use script::Want;

const MS: u64 = 1_000_000;
const LAST_READING: u64 = 1 << 62;

/// Registers of either type, and those among them that may be written.
const U32: &[u8] = &[7, 8, 9, 10, 13, 14, 15, 16, 35, 36];
const F32: &[u8] = &[0, 1, 6, 11, 12, 21, 25, 34, 50, 56, 59, 65, 80, 81];
const U32_WRITABLE: &[u8] = &[7, 8, 9, 10, 35];
const F32_WRITABLE: &[u8] = &[0, 1, 6, 21, 22, 25, 34];

#[derive(Debug, Clone, Copy, PartialEq, Eq)]
enum Clock {
    Stands,
    Honest,
    Slow,
    Leaps,
    Edges,
}

/// Chances are in percent.
struct Temper {
    clock: Clock,
    /// A request is answered at all.
    replies: u64,
    /// A reply has the value that is hoped for, before the first write and after.
    right_at_first: u64,
    right: u64,
    /// An ack has the value written.
    right_ack: u64,
    /// The answer comes before the send is reported.
    early: u64,
    /// The answer waits for up to this many lines.
    delay: u64,
    send_fails: u64,
    /// Other frames, patches, prints between the steps.
    noise: u64,
    /// Before an answer comes one like it that is not this motor's.
    foreign: u64,
    /// Answers and starts that are refused.
    blunders: u64,
    /// Lines since the last send after which the clock leaps on.
    patience: u64,
    /// The clock leaps to the end of a wait or little beyond, and acks come once their wait is open.
    steady: bool,
}

impl Temper {
    fn draw(rng: &mut Rng) -> Self {
        Temper {
            clock: rng.pick(&[
                Clock::Stands,
                Clock::Honest,
                Clock::Honest,
                Clock::Honest,
                Clock::Slow,
                Clock::Leaps,
                Clock::Edges,
                Clock::Edges,
            ]),
            replies: rng.pick(&[0, 50, 90, 100, 100, 100, 100, 100]),
            right_at_first: rng.pick(&[0, 0, 10, 10, 100]),
            right: rng.pick(&[0, 20, 40, 80, 100]),
            right_ack: rng.pick(&[0, 50, 90, 100, 100, 100]),
            early: rng.pick(&[0, 30, 70, 100]),
            delay: rng.pick(&[0, 1, 3, 10, 60]),
            send_fails: rng.pick(&[0, 0, 0, 1, 5, 30]),
            noise: rng.pick(&[0, 0, 3, 15, 40]),
            foreign: rng.pick(&[0, 0, 0, 3, 30]),
            blunders: rng.pick(&[0, 0, 2, 10]),
            patience: match rng.below(32) {
                0 => 400,
                1..=3 => 120,
                _ => rng.pick(&[0, 3, 6, 12, 25, 50]),
            },
            steady: false,
        }
    }

    /// One with which a switch comes to its later reads.
    fn steady(rng: &mut Rng) -> Self {
        Temper {
            clock: rng.pick(&[Clock::Stands, Clock::Honest, Clock::Honest, Clock::Slow]),
            replies: rng.pick(&[60, 90, 100, 100]),
            right_at_first: rng.pick(&[0, 0, 0, 10]),
            right: rng.pick(&[0, 0, 20, 50]),
            right_ack: rng.pick(&[50, 80, 100]),
            early: rng.pick(&[0, 0, 0, 30]),
            delay: rng.pick(&[0, 1, 3]),
            send_fails: rng.pick(&[0, 1, 4]),
            foreign: rng.pick(&[0, 0, 0, 10]),
            patience: rng.pick(&[6, 12, 25, 120]),
            steady: true,
            ..Temper::draw(rng)
        }
    }
}

/// A request that the motor is about to answer.
#[derive(Clone, Copy)]
enum Asked {
    Reply { rid: u8 },
    Ack { rid: u8, bits: u32 },
    State,
}

/// What the generator remembers of the open run.
pub struct Runs {
    temper: Temper,
    /// The mode wanted, in a switch.
    mode: Option<u32>,
    /// The register that is read or written.
    rid: Option<u8>,
    /// The bits to be written.
    bits: Option<u32>,
    timeout: u64,
    /// The opening of the newest wait, and how long it lasts.
    opening: u64,
    wait: u64,
    /// The next reading is an opening.
    opens: bool,
    /// The first reading of the run and its newest three.
    readings: [u64; 4],
    /// Slept since the last reading.
    slept: u64,
    /// The send that was already seen as a request.
    send_seen: bool,
    /// The newest send that was wanted.
    sent: (u32, [u8; 8]),
    /// What is to be answered, and after how many lines.
    asked: Option<(Asked, u64)>,
    /// Whether a write was wanted.
    written: bool,
    /// How often register 10 was read.
    mode_reads: u64,
    /// The last send's ack came, with the value written.
    acked: bool,
    /// Lines since the last send.
    lines: u64,
}

impl Runs {
    pub fn new(rng: &mut Rng) -> Self {
        Runs {
            temper: Temper::draw(rng),
            mode: None,
            rid: None,
            bits: None,
            timeout: 0,
            opening: 0,
            wait: 0,
            opens: true,
            readings: [0; 4],
            slept: 0,
            send_seen: false,
            sent: (0x7FF, [0; 8]),
            asked: None,
            written: false,
            mode_reads: 0,
            acked: false,
            lines: 0,
        }
    }

    /// The start of a register read, a confirmed write, a fresh-state request or storing.
    pub fn start(&mut self, rng: &mut Rng) -> Vec<u8> {
        *self = Runs::new(rng);
        match rng.below(16) {
            0..=5 => {
                let (word, of_type) = rng.pick(&[("get-u32", U32), ("get-f32", F32)]);
                let rid = register(rng, of_type);
                self.rid = Some(rid);
                self.timeout = timeout(rng);
                Text::new(word)
                    .number(rng, rid)
                    .number(rng, self.timeout)
                    .bytes
            }
            6..=10 => {
                let (word, writable) =
                    rng.pick(&[("write-u32", U32_WRITABLE), ("write-f32", F32_WRITABLE)]);
                let rid = register(rng, writable);
                let bits = values::any_float(rng);
                self.rid = Some(rid);
                self.bits = Some(bits);
                let text = Text::new(word).number(rng, rid);
                if word == "write-u32" {
                    text.number(rng, bits).bytes
                } else {
                    text.float(rng, bits).bytes
                }
            }
            11..=13 => {
                self.timeout = timeout(rng);
                Text::new("fresh-state").number(rng, self.timeout).bytes
            }
            _ => {
                self.timeout = 50 * MS;
                b"store".to_vec()
            }
        }
    }

    /// The start of a switch.
    pub fn start_mode(&mut self, rng: &mut Rng) -> Vec<u8> {
        *self = Runs::new(rng);
        let steady = rng.chance(60);
        if steady {
            self.temper = Temper::steady(rng);
        }
        let mode = match rng.below(40) {
            0 => rng.pick(&[0, 5, 256, 257, 0x1_0001, u32::MAX]),
            1 => rng.next() as u32,
            _ => 1 + rng.below(4) as u32,
        };
        self.mode = Some(mode);
        self.timeout = if steady && rng.chance(50) {
            rng.below(4_000 * MS)
        } else {
            timeout(rng)
        };
        Text::new("mode")
            .number(rng, mode)
            .number(rng, self.timeout)
            .bytes
    }

    /// The next line while a run is open.
    pub fn line(&mut self, rng: &mut Rng, session: &Session, want: Want) -> Vec<u8> {
        self.lines += 1;
        if session.last() > LAST_READING / 2 && rng.chance(5) {
            return sessions::start(rng); // near the clock's end no wait would end
        }
        if rng.chance(self.temper.blunders) {
            return self.blunder(rng, session);
        }
        if rng.chance(self.temper.noise) {
            return self.noise(rng, session);
        }
        if self.opens && rng.chance(12) {
            return self.unasked(rng, session); // to be stamped with the opening, or below it
        }
        if let Some(frame) = self.due(rng, session, want) {
            return frame;
        }
        match want {
            Want::Clock => {
                let reading = self.reading(rng, session.last());
                self.slept = 0;
                if self.opens {
                    self.opens = false;
                    self.opening = reading;
                }
                if self.readings == [0; 4] {
                    self.readings = [reading; 4];
                } else {
                    self.readings[1..].rotate_left(1);
                    self.readings[3] = reading;
                }
                Text::new("clock").number(rng, reading).bytes
            }
            Want::Send { id, data } => {
                self.send_seen = false;
                self.lines = 0;
                // Few runs come to their late sends.
                let late = if self.mode_reads > 2 { 5 } else { 0 };
                if rng.chance(self.temper.send_fails + late) {
                    self.asked = self.asked.filter(|_| rng.chance(30));
                    rng.pick(&[b"send-timeout".as_slice(), b"send-failed"])
                        .to_vec()
                } else {
                    // The wait for an ack opens with the reading after the send.
                    self.opens = matches!(request(id, data), Some(Asked::Ack { .. }));
                    b"sent".to_vec()
                }
            }
            Want::Sleep(length) => {
                self.slept = self.slept.saturating_add(length);
                b"slept".to_vec()
            }
        }
    }

    /// How long what is asked is waited for.
    fn wait_of(&self, asked: Option<Asked>) -> u64 {
        match asked {
            Some(Asked::Ack { .. }) => 50 * MS,
            Some(Asked::Reply { rid: 10 }) if self.mode.is_some() => self.mode_cap(),
            Some(Asked::Reply { .. }) if self.mode.is_some() => self.hold_cap(),
            _ => self.timeout,
        }
    }

    fn mode_cap(&self) -> u64 {
        (self.timeout / 4).clamp(2 * MS, 100 * MS)
    }

    fn hold_cap(&self) -> u64 {
        (self.timeout / 6).clamp(2 * MS, 30 * MS)
    }

    /// A frame that is due now, with what the motor has to say.
    fn due(&mut self, rng: &mut Rng, session: &Session, want: Want) -> Option<Vec<u8>> {
        if let Want::Send { id, data } = want {
            if !self.send_seen {
                self.send_seen = true;
                self.sent = (id, data);
                self.acked = false;
                self.opening = self.readings[3];
                self.wait = self.wait_of(request(id, data));
                self.written |= matches!(request(id, data), Some(Asked::Ack { .. }));
                self.mode_reads +=
                    u64::from(matches!(request(id, data), Some(Asked::Reply { rid: 10 })));
                self.asked = request(id, data)
                    .filter(|_| rng.chance(self.temper.replies))
                    .map(|asked| {
                        let early = rng.chance(self.temper.early);
                        let delay = 1 + rng.below(self.temper.delay + 1);
                        (asked, if early { 0 } else { delay })
                    });
            }
        }
        let (asked, delay) = self.asked.as_mut()?;
        if *delay > 0 || self.temper.steady && self.opens {
            *delay = delay.saturating_sub(1);
            return None;
        }
        let asked = *asked;
        let foreign = rng.chance(self.temper.foreign);
        if !foreign && rng.chance(90) {
            self.asked = None; // else it is repeated
        }
        let right = rng.chance(match asked {
            Asked::Ack { .. } => self.temper.right_ack,
            _ if self.written => self.temper.right,
            _ => self.temper.right_at_first,
        });
        self.acked |= right && !foreign && matches!(asked, Asked::Ack { .. });
        let motor = session.motor_id();
        let data = match asked {
            Asked::Reply { rid } => {
                let bits = self.reply_bits(rng, session, rid, right);
                let rid = if rng.chance(4) { values::rid(rng) } else { rid };
                let marker = if rng.chance(4) { 0x55 } else { 0x33 };
                values::register_data(motor, marker, rid, bits)
            }
            Asked::Ack { rid, bits } => {
                let bits = if right { bits } else { other_bits(rng, bits) };
                let rid = if rng.chance(4) { values::rid(rng) } else { rid };
                let marker = if rng.chance(4) { 0x33 } else { 0x55 };
                values::register_data(motor, marker, rid, bits)
            }
            Asked::State => state_data(rng, session),
        };
        let reading = stamp(rng, session);
        let foreign = if foreign { 100 } else { 0 };
        Some(sessions::frame_with(rng, session, reading, data, foreign))
    }

    /// The value of a reply: the mode that a switch hopes for, or something else.
    fn reply_bits(&self, rng: &mut Rng, session: &Session, rid: u8, right: bool) -> u32 {
        match self.mode {
            Some(mode) if rid == 10 && right => mode,
            Some(_) if rid == 10 => match rng.below(8) {
                0 => rng.next() as u32,
                _ => rng.below(6) as u32,
            },
            // The bits with which a frame to hold the position is a read of register 10, or a write.
            Some(_) if rng.chance(if on_7ff(session) { 50 } else { 5 }) => {
                rng.pick(&[0x0A33_0000, 0x0A33_0000, 0x0A55_0000]) | u32::from(session.motor_id())
            }
            _ => values::any_float(rng),
        }
    }

    /// A reading for the run, as its clock behaves.
    fn reading(&self, rng: &mut Rng, last: u64) -> u64 {
        let leap = self.lines > self.temper.patience;
        let steady = self.temper.steady;
        let clock = if rng.chance(4) && !steady {
            rng.pick(&[Clock::Stands, Clock::Leaps, Clock::Edges])
        } else {
            self.temper.clock
        };
        let on = |by: u64| last.saturating_add(by);
        if self.mode.is_some() && self.acked && !self.opens && rng.chance(15) {
            return self.settling(rng).max(last).min(LAST_READING);
        }
        if rng.below(if steady { 5000 } else { 500 }) == 0 {
            // at the end of the clock, or so near that the wait's deadline is beyond it
            let short = rng.pick(&[0, 1, MS, self.timeout.min(61_000 * MS)]);
            return (LAST_READING - rng.below(short + 1)).max(last);
        }
        if self.opens && rng.chance(50) {
            // what was taken last has the opening's stamp, or is one below it
            return on(rng.below(2)).min(LAST_READING);
        }
        if leap && rng.chance(40) {
            let wait = match rng.below(8) {
                _ if steady => self.wait,
                0 => self.timeout.min(61_000 * MS),
                1 => self.timeout.min(100 * MS),
                2 => 1 << rng.below(50),
                3 | 4 => 50 * MS,
                _ => self.wait.min(61_000 * MS),
            };
            return on(wait + rng.below(2 * MS)).min(LAST_READING);
        }
        let reading = match clock {
            Clock::Stands => last,
            Clock::Honest => {
                let jitter = if rng.chance(50) {
                    0
                } else {
                    rng.below(MS / 10)
                };
                on(self.slept).saturating_add(jitter)
            }
            Clock::Slow => on(rng.below(self.slept + 1)),
            Clock::Leaps => on(match rng.below(4) {
                0 => rng.below(200 * MS),
                1 => rng.below(30 * MS),
                2 => rng.below(self.timeout.min(60_000 * MS) + 2),
                _ => self.slept,
            }),
            Clock::Edges => self.edge(rng, last),
        };
        reading.min(LAST_READING)
    }

    /// A reading after which a switch has time for all of its settling sleep, a part of it or none.
    fn settling(&self, rng: &mut Rng) -> u64 {
        let from_start = self.readings[0].saturating_add(self.timeout);
        let sleep = match rng.below(4) {
            0 => 0,
            1 => 20 * MS,
            2 => 1,
            _ => rng.below(20 * MS),
        };
        from_start
            .saturating_sub(self.mode_cap() + sleep)
            .saturating_add_signed(rng.around(1))
    }

    /// A reading at a deadline, or one nanosecond off, as far as it is not past.
    fn edge(&self, rng: &mut Rng, last: u64) -> u64 {
        let from_start = self.readings[0].saturating_add(self.timeout);
        let newest = self.readings[1 + rng.below(3) as usize];
        let edge = match rng.below(12) {
            0 => from_start,
            1 if self.mode.is_some() => from_start.saturating_sub(self.mode_cap()),
            2 if self.mode.is_some() => from_start.saturating_sub(self.mode_cap() + 20 * MS),
            3 if self.mode.is_some() => newest.saturating_add(self.mode_cap()),
            4 if self.mode.is_some() => newest.saturating_add(self.hold_cap()),
            5 => newest.saturating_add(50 * MS),
            6 => newest.saturating_add(self.timeout),
            7 | 8 => last + self.slept,
            _ => self.opening.saturating_add(self.wait),
        };
        edge.saturating_add_signed(rng.around(1)).max(last)
    }

    /// Frames, patches and prints that the run did not ask for.
    fn noise(&mut self, rng: &mut Rng, session: &Session) -> Vec<u8> {
        match rng.below(16) {
            0 => b"session".to_vec(),
            1 => sessions::patch(rng),
            2 => b"patch 0 30 31".to_vec(),
            3..=5 => sessions::frame(rng, session),
            6 | 7 => {
                let data = state_data(rng, session);
                let reading = stamp(rng, session);
                sessions::frame_with(rng, session, reading, data, 10)
            }
            8 => self.echo(rng, session),
            _ => self.unasked(rng, session),
        }
    }

    /// A reply, an ack or nearly one, mostly of a register that the run looks at.
    fn unasked(&self, rng: &mut Rng, session: &Session) -> Vec<u8> {
        let rid = match self.rid {
            Some(rid) if rng.chance(60) => rid,
            _ if rng.chance(70) => rng.pick(&[10, 10, 80]),
            _ => values::known_rid(rng),
        };
        let right = rng.chance(50);
        let bits = match self.bits {
            Some(bits) if right => bits,
            _ => self.reply_bits(rng, session, rid, right),
        };
        let marker = rng.pick(&[0x33, 0x33, 0x55, 0x55, 0x00]);
        let data = values::register_data(session.motor_id(), marker, rid, bits);
        let reading = stamp(rng, session);
        sessions::frame_with(rng, session, reading, data, 10)
    }

    /// What the run sent last, or wants sent, heard by us too.
    fn echo(&self, rng: &mut Rng, session: &Session) -> Vec<u8> {
        let (id, data) = self.sent;
        let reading = stamp(rng, session);
        sessions::echo(rng, reading, id, data)
    }

    /// A call that is refused while this run is open, or may be; now and then a fresh session.
    fn blunder(&mut self, rng: &mut Rng, session: &Session) -> Vec<u8> {
        match rng.below(16) {
            0..=3 => rng
                .pick(&[
                    b"sent".as_slice(),
                    b"slept",
                    b"send-timeout",
                    b"send-failed",
                ])
                .to_vec(),
            4..=7 => {
                let last = session.last();
                let reading = match rng.below(4) {
                    0 => LAST_READING + 1,
                    1 => rng.next() | 1 << 63,
                    2 => last.saturating_sub(1),
                    _ => rng.below(last + 1),
                };
                Text::new("clock").number(rng, reading).bytes
            }
            8..=11 => {
                let mut other = Runs::new(rng);
                if rng.chance(50) {
                    other.start(rng)
                } else {
                    other.start_mode(rng)
                }
            }
            12 if rng.chance(20) => sessions::start(rng),
            13 if rng.chance(3) => {
                let reading = LAST_READING - rng.below(2);
                Text::new("clock").number(rng, reading).bytes
            }
            _ => sessions::frame(rng, session),
        }
    }
}

/// Whether a frame that holds a position goes where registers are read and written.
fn on_7ff(session: &Session) -> bool {
    session.motor_id() == 0x4FF
}

/// What a sent frame asks of the motor.
fn request(id: u32, data: [u8; 8]) -> Option<Asked> {
    let [_, _, marker, rid, value @ ..] = data;
    match (id, marker) {
        (0x7FF, 0x33) => Some(Asked::Reply { rid }),
        (0x7FF, 0x55) => Some(Asked::Ack {
            rid,
            bits: u32::from_le_bytes(value),
        }),
        (0x7FF, 0xCC) => Some(Asked::State),
        _ => None,
    }
}

/// A state of this motor, with status 0 as often as not.
fn state_data(rng: &mut Rng, session: &Session) -> [u8; 8] {
    let mut data = rng.next().to_be_bytes();
    let status = if rng.chance(50) {
        0
    } else {
        rng.below(16) as u8
    };
    data[0] = session.motor_id() as u8 & 0x0F | status << 4;
    data
}

/// A reading for a frame that the session takes, mostly its last.
fn stamp(rng: &mut Rng, session: &Session) -> u64 {
    match rng.below(8) {
        0 => session.last() + rng.below(2 * MS),
        1 => session.last() + 1,
        _ => session.last(),
    }
}

/// A register of this list, or any, or none.
fn register(rng: &mut Rng, list: &[u8]) -> u8 {
    if rng.chance(75) {
        rng.pick(list)
    } else {
        values::rid(rng)
    }
}

/// Bits that differ, often by little.
fn other_bits(rng: &mut Rng, bits: u32) -> u32 {
    match rng.below(4) {
        0 => bits ^ 1 << 31, // -0 for 0, too
        1 => bits ^ 1,
        2 => rng.below(6) as u32,
        _ => values::any_float(rng),
    }
}

fn timeout(rng: &mut Rng) -> u64 {
    match rng.below(24) {
        0 => 0,
        1 => 1,
        2 => rng.pick(&[2 * MS - 1, 2 * MS, 2 * MS + 1]),
        3 => rng.pick(&[8 * MS - 1, 8 * MS, 8 * MS + 3, 12 * MS, 12 * MS - 1]),
        4 => rng.pick(&[180 * MS, 180 * MS - 1, 180 * MS + 5, 120 * MS]),
        5..=8 => 400 * MS,
        9 => 400 * MS - 1 + rng.below(5),
        10 => 60_000 * MS,
        11 => rng.pick(&[60_000 * MS + 1, u64::MAX, 1 << 62]),
        12 => rng.below(60_000 * MS),
        13 if rng.chance(30) => rng.next(),
        14 | 15 => rng.below(50 * MS),
        18..=20 => rng.below(5_000 * MS),
        _ => rng.below(1_000 * MS),
    }
}
