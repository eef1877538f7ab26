//! A session: the original's motor, the last reading, and the open run.

use crate::answers;
use crate::bus::ScriptBus;
use crate::parser::{Frame, SessionCall, Start};
use crate::refusals::{self, Refused};
use motor_core::bus::CanFrame;
use motor_core::device::MotorDevice;
use motor_core::error::{MotorError, Result as MotorResult};
use motor_vendor_damiao::motor::adapter;
use motor_vendor_damiao::motor::{ControlMode, DamiaoMotor, MotorFeedbackState, RegisterValue};
use motor_vendor_damiao::registers::RegisterDataType;
use script::{Answer, Progress, Run, Want};
use std::sync::Arc;
use std::time::Duration;

/// The result of a run.
enum Outcome {
    Done,
    Value(RegisterValue),
    State(MotorFeedbackState),
    NoState,
    Timeout,
    Mismatch(RegisterValue),
    WrongType,
    SendFailed,
}

pub struct Session {
    motor: Arc<DamiaoMotor>,
    last: u64,
    run: Option<Run<Outcome>>,
    /// Without the test 15: any frame is taken, as the original takes it.
    pub any_frame: bool,
}

impl Session {
    pub fn from_limits(motor: u16, feedback: u16, limits: [f32; 3]) -> Result<Self, Refused> {
        refusals::limits(limits)?;
        refusals::motor_id(motor)?;
        let bus = Arc::new(ScriptBus);
        Ok(Self::fresh(adapter::motor_with_limits(
            motor, feedback, limits, bus,
        )))
    }

    pub fn from_model(name: &[u8], motor: u16, feedback: u16) -> Result<Self, Refused> {
        let name = std::str::from_utf8(name).map_err(|_| refusals::MODEL_UNKNOWN)?;
        let made = DamiaoMotor::new(motor, feedback, name, Arc::new(ScriptBus))
            .map_err(|_| refusals::MODEL_UNKNOWN)?;
        refusals::motor_id(motor)?;
        Ok(Self::fresh(made))
    }

    fn fresh(motor: DamiaoMotor) -> Self {
        Session {
            motor: Arc::new(motor),
            last: 0,
            run: None,
            any_frame: false,
        }
    }

    /// The last accepted reading.
    pub fn last(&self) -> u64 {
        self.last
    }

    pub fn motor_id(&self) -> u16 {
        self.motor.motor_id
    }

    pub fn feedback_id(&self) -> u16 {
        self.motor.feedback_id
    }

    /// What the open run wants.
    pub fn wanted(&self) -> Option<Want> {
        self.run.as_ref().map(Run::wanted)
    }

    pub fn call(&mut self, call: SessionCall, out: &mut Vec<u8>) -> Result<(), Refused> {
        match call {
            SessionCall::Start(start) => self.start(start, out)?,
            SessionCall::Answer(answer) => self.answer(answer, out)?,
            SessionCall::Frame { reading, frame } => {
                self.take(reading, frame)?;
                answers::text(out, "taken");
            }
            SessionCall::Accepts(frame) => {
                let accepts = self.motor.accepts_frame(&received(frame));
                answers::numbered(out, "accepts", accepts.into());
            }
            SessionCall::Patch { status, mos, rotor } => {
                let patched = self.motor.patch(status, mos, rotor);
                answers::numbered(out, "patched", patched.into());
            }
            SessionCall::Session => self.print(out),
        }
        Ok(())
    }

    fn start(&mut self, start: Start, out: &mut Vec<u8>) -> Result<(), Refused> {
        if self.run.is_some() {
            return Err(refusals::RUN_OPEN);
        }
        match start {
            Start::GetU32 { rid, timeout } | Start::GetF32 { rid, timeout } => {
                refusals::known_register(rid)?;
                refusals::timeout(timeout)?;
            }
            Start::WriteU32 { rid, .. } => refusals::write(rid, RegisterDataType::UInt32)?,
            Start::WriteF32 { rid, .. } => refusals::write(rid, RegisterDataType::Float)?,
            Start::FreshState { timeout } => refusals::timeout(timeout)?,
            Start::Store => {}
            Start::Mode { mode, timeout } => {
                refusals::mode(mode)?;
                refusals::timeout(timeout)?;
            }
        }
        let motor = Arc::clone(&self.motor);
        self.follow(Run::start(move || run(&motor, start)), out);
        Ok(())
    }

    fn answer(&mut self, answer: Answer, out: &mut Vec<u8>) -> Result<(), Refused> {
        match &self.run {
            Some(run) if run.fits(answer) => {}
            _ => return Err(refusals::NOT_WANTED),
        }
        if let Answer::Reading(reading) = answer {
            refusals::reading(reading, self.last)?;
            self.last = reading;
        }
        if let Some(run) = self.run.take() {
            self.follow(run.answer(answer), out);
        }
        Ok(())
    }

    fn follow(&mut self, progress: Progress<Outcome>, out: &mut Vec<u8>) {
        match progress {
            Progress::Wants(run) => {
                answers::want(out, run.wanted());
                self.run = Some(run);
            }
            Progress::Ended(outcome) => result(&outcome, out),
        }
    }

    fn take(&mut self, reading: u64, frame: Frame) -> Result<(), Refused> {
        refusals::reading(reading, self.last)?;
        if !self.any_frame {
            refusals::own_frame(&frame, self.motor_id(), self.feedback_id())?;
        }
        self.last = reading;
        script::at_reading(reading, || {
            self.motor.process_feedback_frame(received(frame))
        })
        .expect("taking a frame never fails");
        Ok(())
    }

    fn print(&self, out: &mut Vec<u8>) {
        answers::numbered(out, "session last", self.last);
        answers::numbered(out, " sequence", self.motor.sequence());
        answers::numbered(out, " run", self.run.is_some().into());
        match self.motor.latest_state_snapshot() {
            None => answers::text(out, " latest none"),
            Some(latest) => {
                answers::numbered(out, " latest", latest.sequence);
                out.push(b' ');
                answers::decimal(out, latest.received_at.0);
                out.push(b' ');
                answers::feedback(out, &latest.state);
            }
        }
        answers::text(out, " replies");
        answers::entries(out, &self.motor.replies());
        answers::text(out, " acks");
        answers::entries(out, &self.motor.acks());
    }
}

fn received(frame: Frame) -> CanFrame {
    CanFrame {
        arbitration_id: frame.id,
        data: frame.data,
        dlc: frame.dlc,
        is_extended: frame.extended,
        is_rx: true,
    }
}

/// The original's own function, from its start to its result.
fn run(motor: &DamiaoMotor, start: Start) -> Outcome {
    let ended = match start {
        Start::GetU32 { rid, timeout } => motor
            .get_register_u32(rid, Duration::from_nanos(timeout))
            .map(|value| Outcome::Value(RegisterValue::UInt32(value))),
        Start::GetF32 { rid, timeout } => motor
            .get_register_f32(rid, Duration::from_nanos(timeout))
            .map(|value| Outcome::Value(RegisterValue::Float(value))),
        Start::WriteU32 { rid, value } => done(motor.write_register_u32(rid, value)),
        Start::WriteF32 { rid, value } => done(motor.write_register_f32(rid, value)),
        Start::FreshState { timeout } => motor
            .request_fresh_state(Duration::from_nanos(timeout))
            .map(|state| state.map_or(Outcome::NoState, Outcome::State)),
        Start::Store => done(motor.store_parameters()),
        Start::Mode { mode, timeout } => {
            let mode = match mode {
                1 => ControlMode::Mit,
                2 => ControlMode::PosVel,
                3 => ControlMode::Vel,
                _ => ControlMode::ForcePos,
            };
            done(motor.ensure_control_mode(mode, Duration::from_nanos(timeout)))
        }
    };
    ended.unwrap_or_else(|error| failure(motor, start, error))
}

fn done(ended: MotorResult<()>) -> MotorResult<Outcome> {
    ended.map(|()| Outcome::Done)
}

/// The original tells mismatch from wrong type in its texts only.
fn failure(motor: &DamiaoMotor, start: Start, error: MotorError) -> Outcome {
    let text = match error {
        MotorError::Timeout(_) => return Outcome::Timeout,
        MotorError::Io(_) => return Outcome::SendFailed,
        MotorError::Protocol(text) => text,
        other => unreachable!("{other:?}"),
    };
    if text.contains("write ack mismatched") {
        // Such a run ends with the look that found it, so the ack is still the one found. The text
        // would lose the bits of a NaN.
        let written = match start {
            Start::WriteU32 { rid, .. } | Start::WriteF32 { rid, .. } => rid,
            _ => 10,
        };
        Outcome::Mismatch(motor.ack(written).expect("the ack found"))
    } else if let Some(got) = text
        .strip_prefix("control mode verify failed: ")
        .and_then(|text| text.split_once("got "))
    {
        let value = got.1.parse().expect("the mode read");
        Outcome::Mismatch(RegisterValue::UInt32(value))
    } else {
        assert!(text.contains(" holds "), "{text}");
        Outcome::WrongType
    }
}

fn result(outcome: &Outcome, out: &mut Vec<u8>) {
    match outcome {
        Outcome::Done => answers::text(out, "done"),
        Outcome::Value(value) => {
            answers::text(out, "done ");
            answers::value(out, *value);
        }
        Outcome::State(state) => {
            answers::text(out, "done state ");
            answers::feedback(out, state);
        }
        Outcome::NoState => answers::text(out, "no-state"),
        Outcome::Timeout => answers::text(out, "timeout"),
        Outcome::Mismatch(value) => {
            answers::text(out, "mismatch ");
            answers::value(out, *value);
        }
        Outcome::WrongType => answers::text(out, "wrong-type"),
        Outcome::SendFailed => answers::text(out, "send-failed"),
    }
}
