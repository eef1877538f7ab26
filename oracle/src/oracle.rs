//! Answers the line script, line by line.

use crate::answers;
use crate::motor_side;
use crate::parser::{self, Call, Line};
use crate::refusals::Refused;
use crate::session::Session;
use crate::stateless;

#[derive(Default)]
pub struct Oracle {
    session: Option<Session>,
    any_frame: bool,
}

impl Oracle {
    /// One that leaves out the test 15, so that the original's own answers are seen.
    pub fn of_any_frame() -> Self {
        Oracle {
            session: None,
            any_frame: true,
        }
    }

    pub fn session(&self) -> Option<&Session> {
        self.session.as_ref()
    }

    /// Appends the answer to a line, with its newline; nothing for a line that is passed over.
    pub fn line(&mut self, line: &[u8], out: &mut Vec<u8>) {
        match parser::parse(line) {
            Line::PassedOver => return,
            Line::Bad => answers::text(out, "bad line"),
            Line::Call(call) => {
                if let Err(Refused(number)) = self.call(call, out) {
                    answers::numbered(out, "refused", number.into());
                }
            }
        }
        out.push(b'\n');
    }

    fn call(&mut self, call: Call, out: &mut Vec<u8>) -> Result<(), Refused> {
        match call {
            Call::StartLimits {
                motor,
                feedback,
                limits,
            } => self.begin(Session::from_limits(motor, feedback, limits)?, out),
            Call::StartModel {
                name,
                motor,
                feedback,
            } => self.begin(Session::from_model(name, motor, feedback)?, out),
            Call::Session(call) => match &mut self.session {
                Some(session) => session.call(call, out)?,
                None => answers::text(out, "no session"),
            },
            Call::Command { motor, command } => stateless::command(motor, command, out)?,
            Call::MakeFeedback(feedback) => motor_side::put(out, feedback.made()?),
            Call::MakeReply(register) => motor_side::put(out, register.reply()?),
            Call::MakeAck(register) => motor_side::put(out, register.ack()?),
            Call::Decode { limits, data } => stateless::decode(limits, data, out)?,
            Call::Sort { data } => stateless::sort(data, out),
            Call::StatusName(status) => stateless::status(status, out),
            Call::Register(rid) => stateless::register(rid, out),
            Call::Match { query, tolerance } => stateless::matching(query, tolerance, out)?,
            Call::Suggest { query, count } => stateless::suggest(query, count, out)?,
        }
        Ok(())
    }

    /// A fresh session takes the place of the old one and of its open run.
    fn begin(&mut self, mut session: Session, out: &mut Vec<u8>) {
        session.any_frame = self.any_frame;
        self.session = Some(session);
        answers::text(out, "started");
    }
}
