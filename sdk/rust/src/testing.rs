//! Turns of a program on this machine, for its tests.

use crate::{Source, TEXTS, TEXT_BYTES};
use std::cell::RefCell;
use std::panic::{catch_unwind, resume_unwind, AssertUnwindSafe};

thread_local! {
    static TOLD: RefCell<Vec<String>> = const { RefCell::new(Vec::new()) };
}

/// How a turn ends before its function returns: with this text.
struct Ended(String);

fn end(text: String) -> ! {
    resume_unwind(Box::new(Ended(text)))
}

fn tell(label: String, text: &str) {
    if TOLD.with_borrow(Vec::len) == TEXTS {
        end("trap: too many texts".into());
    }
    if text.len() > TEXT_BYTES {
        end("trap: text too long".into());
    }
    TOLD.with_borrow_mut(|told| told.push(label + text));
}

pub(crate) fn output(text: &str) {
    tell("out: ".into(), text);
}

pub(crate) fn send(unit: u8, text: &str) {
    tell(format!("to {unit}: "), text);
}

pub(crate) fn refuse(text: &str) -> ! {
    end(if text.len() > TEXT_BYTES { "trap: text too long".into() } else { text.into() })
}

/// A unit: its state, and the function that works its turns.
pub struct Unit<S> {
    pub state: S,
    handle: fn(&mut S, &str, Source, u8, u8),
    /// The unit's number.
    pub unit: u8,
    /// How many units there were when it was made.
    pub home: u8,
}

impl<S: Clone> Unit<S> {
    /// Unit 0 of a tenant of one.
    pub fn new(state: S, handle: fn(&mut S, &str, Source, u8, u8)) -> Unit<S> {
        Unit { state, handle, unit: 0, home: 1 }
    }

    /// What the unit puts out and sends upon a text, in order: `out: TEXT` and `to UNIT: TEXT`. A turn that is refused leaves
    /// the state as it was; a panic of the program goes on.
    pub fn upon(&mut self, source: Source, text: &str) -> Vec<String> {
        let mut state = self.state.clone();
        TOLD.with_borrow_mut(Vec::clear);
        let turn = catch_unwind(AssertUnwindSafe(|| (self.handle)(&mut state, text, source, self.unit, self.home)));
        match turn.map_err(|cause| cause.downcast::<Ended>()) {
            Ok(()) => {
                self.state = state;
                TOLD.with_borrow(Vec::clone)
            }
            Err(Ok(ended)) => vec![format!("out: {}", ended.0)],
            Err(Err(cause)) => resume_unwind(cause),
        }
    }
}
