//! A run of the original, suspended at what it wants.

use crate::context::Context;
use std::cell::{Cell, RefCell};
use std::ptr;
use std::rc::Rc;

const STACK_WORDS: usize = 32 * 1024;

/// What a run waits for.
#[derive(Debug, Clone, Copy, PartialEq, Eq)]
pub enum Want {
    Clock,
    Send { id: u32, data: [u8; 8] },
    Sleep(u64),
}

/// What the script gives it.
#[derive(Debug, Clone, Copy, PartialEq, Eq)]
pub enum Answer {
    Reading(u64),
    Sent,
    SendTimeout,
    SendFailed,
    Slept,
}

#[derive(Debug, Clone, Copy, PartialEq, Eq)]
pub enum SendError {
    Timeout,
    Failed,
}

/// Where a run has got to: it wants something, or it has ended.
pub enum Progress<T> {
    Wants(Run<T>),
    Ended(T),
}

/// A stack with the two places between which control goes to and fro.
struct Side {
    script: Context,
    run: Context,
    stack: Box<[u64]>,
    work: Option<Box<dyn FnOnce()>>,
    want: Option<Want>,
    answer: Option<Answer>,
}

thread_local! {
    /// The side that is at work now, null outside a run.
    static AT_WORK: Cell<*mut Side> = const { Cell::new(ptr::null_mut()) };
    /// Sides whose run has ended, ready for the next. Boxed, since a context must not move.
    #[allow(clippy::vec_box)]
    static READY: RefCell<Vec<Box<Side>>> = const { RefCell::new(Vec::new()) };
}

impl Side {
    fn ready() -> *mut Side {
        let held = READY.with_borrow_mut(|ready| ready.pop());
        Box::into_raw(held.unwrap_or_else(|| {
            let mut side = Box::new(Side {
                script: Context::new(),
                run: Context::new(),
                stack: vec![0; STACK_WORDS].into_boxed_slice(),
                work: None,
                want: None,
                answer: None,
            });
            // The stack is on the heap and freed with its side only.
            unsafe { side.run.prepare(&mut side.stack, work_forever) };
            side
        }))
    }

    /// Lets the run go on until its next want; `None` when its work has ended.
    unsafe fn go_on(side: *mut Side) -> Option<Want> {
        AT_WORK.set(side);
        Context::switch(&raw mut (*side).script, &raw const (*side).run);
        AT_WORK.set(ptr::null_mut());
        (*side).want.take()
    }
}

/// The bottom of each stack: one piece of work after the other.
extern "C" fn work_forever() {
    loop {
        let side = AT_WORK.get();
        unsafe {
            if let Some(work) = (*side).work.take() {
                work();
            }
            Context::switch(&raw mut (*side).run, &raw const (*side).script);
        }
    }
}

/// Suspends the run that is at work until the script answers.
pub(crate) fn ask(want: Want) -> Answer {
    let side = AT_WORK.get();
    assert!(!side.is_null(), "{want:?} outside a run");
    unsafe {
        (*side).want = Some(want);
        Context::switch(&raw mut (*side).run, &raw const (*side).script);
        (*side).answer.take().expect("an answer")
    }
}

/// Puts a frame on the script's bus.
pub fn send(id: u32, data: [u8; 8]) -> Result<(), SendError> {
    match ask(Want::Send { id, data }) {
        Answer::Sent => Ok(()),
        Answer::SendTimeout => Err(SendError::Timeout),
        Answer::SendFailed => Err(SendError::Failed),
        other => unreachable!("{other:?} is no end of a send"),
    }
}

/// A suspended run with the result that it will have.
pub struct Run<T> {
    side: *mut Side,
    result: Rc<Cell<Option<T>>>,
    wanted: Option<Want>,
}

impl<T: 'static> Run<T> {
    /// Begins `work` and goes on to its first want.
    pub fn start(work: impl FnOnce() -> T + 'static) -> Progress<T> {
        let result = Rc::new(Cell::new(None));
        let place = Rc::clone(&result);
        let side = Side::ready();
        unsafe { (*side).work = Some(Box::new(move || place.set(Some(work())))) };
        let mut run = Run {
            side,
            result,
            wanted: None,
        };
        run.go_on();
        run.progress()
    }

    /// What it wants now.
    pub fn wanted(&self) -> Want {
        self.wanted.expect("a suspended run wants something")
    }

    /// Whether this is an answer of the kind that it wants.
    pub fn fits(&self, answer: Answer) -> bool {
        matches!(
            (self.wanted(), answer),
            (Want::Clock, Answer::Reading(_))
                | (
                    Want::Send { .. },
                    Answer::Sent | Answer::SendTimeout | Answer::SendFailed
                )
                | (Want::Sleep(_), Answer::Slept)
        )
    }

    /// Gives it an answer of the kind that it wants.
    pub fn answer(mut self, answer: Answer) -> Progress<T> {
        assert!(self.fits(answer), "{answer:?} to {:?}", self.wanted());
        unsafe { (*self.side).answer = Some(answer) };
        self.go_on();
        self.progress()
    }

    fn progress(self) -> Progress<T> {
        match self.wanted {
            Some(_) => Progress::Wants(self),
            None => Progress::Ended(self.result.take().expect("a result")),
        }
    }
}

impl<T> Run<T> {
    fn go_on(&mut self) {
        self.wanted = unsafe { Side::go_on(self.side) };
    }
}

/// An abandoned run is led to its end, so that what it holds is freed: a clock that leaps past every
/// deadline, and a bus that fails. Its result is thrown away.
impl<T> Drop for Run<T> {
    fn drop(&mut self) {
        let mut reading = 1 << 63;
        while let Some(want) = self.wanted {
            reading += 1 << 40;
            let answer = match want {
                Want::Clock => Answer::Reading(reading),
                Want::Send { .. } => Answer::SendFailed,
                Want::Sleep(_) => Answer::Slept,
            };
            unsafe { (*self.side).answer = Some(answer) };
            self.go_on();
        }
        let side = unsafe { Box::from_raw(self.side) };
        // While the thread itself ends, the side is simply freed.
        let _ = READY.try_with(|ready| ready.borrow_mut().push(side));
    }
}

#[cfg(test)]
mod tests {
    use super::*;
    use crate::{at_reading, sleep, Instant};
    use std::time::Duration;

    fn wants<T>(progress: Progress<T>) -> Run<T> {
        match progress {
            Progress::Wants(run) => run,
            Progress::Ended(_) => panic!("it has ended"),
        }
    }

    #[test]
    fn a_run_stops_at_each_want() {
        let run = wants(Run::start(|| {
            let begun = Instant::now();
            sleep(Duration::from_millis(2));
            let sent = send(0x7FF, [1; 8]);
            (Instant::now().checked_duration_since(begun), sent)
        }));
        assert_eq!(run.wanted(), Want::Clock);
        assert!(!run.fits(Answer::Slept));
        let run = wants(run.answer(Answer::Reading(5)));
        assert_eq!(run.wanted(), Want::Sleep(2_000_000));
        let run = wants(run.answer(Answer::Slept));
        let id = 0x7FF;
        assert_eq!(run.wanted(), Want::Send { id, data: [1; 8] });
        // A frame that is taken meanwhile has its own reading.
        assert_eq!(at_reading(9, Instant::now), Instant(9));
        let run = wants(run.answer(Answer::SendTimeout));
        match run.answer(Answer::Reading(12)) {
            Progress::Ended(result) => {
                let expected = (Some(Duration::from_nanos(7)), Err(SendError::Timeout));
                assert_eq!(result, expected);
            }
            Progress::Wants(_) => panic!("it has not ended"),
        }
    }

    #[test]
    fn an_abandoned_run_frees_what_it_holds() {
        let held = Rc::new(());
        for _ in 0..1000 {
            let inside = Rc::clone(&held);
            let run = wants(Run::start(move || {
                while send(1, [0; 8]).is_ok() {
                    sleep(Duration::from_millis(1));
                }
                drop(inside);
            }));
            drop(run.answer(Answer::Sent));
        }
        assert_eq!(Rc::strong_count(&held), 1);
        assert!(READY.with_borrow(|ready| ready.len()) <= 1);
    }

    #[test]
    fn two_runs_may_be_open_together() {
        let work = || (Instant::now(), Instant::now());
        let one = wants(Run::start(work));
        let other = wants(Run::start(work));
        let one = wants(one.answer(Answer::Reading(1)));
        let other = wants(other.answer(Answer::Reading(2)));
        let ended = |progress| match progress {
            Progress::Ended(result) => result,
            Progress::Wants(_) => panic!("it has not ended"),
        };
        assert_eq!(
            ended(one.answer(Answer::Reading(3))),
            (Instant(1), Instant(3))
        );
        assert_eq!(
            ended(other.answer(Answer::Reading(4))),
            (Instant(2), Instant(4))
        );
    }
}
