//! What a program in Rust needs to be a unit of recall: docs/PROGRAMS.md. Nothing else is there: no clock, no chance, no file.
//!
//! ```
//! #![cfg_attr(target_arch = "riscv32", no_std, no_main)]
//! use recall::{output, Source};
//!
//! fn handle(count: &mut u32, text: &str, source: Source, unit: u8, home: u8) {
//!     *count += 1;
//!     output!("{count}: {text}");
//! }
//!
//! recall::program!(u32 = 0, handle);
//! # assert_eq!(recall::testing::Unit::new(0, handle).upon(Source::Outside, "a"), ["out: 1: a"]);
//! ```
//!
//! The state is a value that `program!` names: it stays from turn to turn. For another machine the same crate is built with
//! `testing`, which works turns in a test.
#![cfg_attr(target_arch = "riscv32", no_std)]

use core::fmt::{self, Write};
use core::mem::MaybeUninit;

#[cfg(target_arch = "riscv32")]
#[doc(hidden)]
pub mod machine;
#[cfg(not(target_arch = "riscv32"))]
pub mod testing;

#[cfg(target_arch = "riscv32")]
use machine as calls;
#[cfg(not(target_arch = "riscv32"))]
use testing as calls;

/// Bytes of a text that comes, is put out or is sent, at most.
pub const TEXT_BYTES: usize = 4096;

/// Texts that a turn puts out and sends, at most.
pub const TEXTS: usize = 64;

/// Who sent a text.
#[derive(Clone, Copy, Debug, PartialEq, Eq)]
pub enum Source {
    /// Nobody within the tenant.
    Outside,
    /// The unit of this number.
    Unit(u8),
}

/// Puts out a text. What was put out can't be taken back once it has left.
pub fn output(text: &str) {
    calls::output(text);
}

/// Sends a text to a unit. One to a unit that isn't there goes nowhere.
pub fn send(unit: u8, text: &str) {
    calls::send(unit, text);
}

/// Ends the turn: the state is as before it, nothing is sent, and this text is all that is put out.
pub fn refuse(text: &str) -> ! {
    calls::refuse(text)
}

/// A text that is being written. What doesn't fit is left out whole, and writing it is an error.
pub struct Line {
    /// The first `length` of them were copied from texts.
    bytes: [MaybeUninit<u8>; TEXT_BYTES],
    length: usize,
}

impl Line {
    #[inline(always)]
    pub const fn new() -> Line {
        Line { bytes: [MaybeUninit::uninit(); TEXT_BYTES], length: 0 }
    }

    pub fn as_str(&self) -> &str {
        // SAFETY: `write_str` alone changes a line. It copies whole texts, one behind the other, so that `length` bytes are set and
        // are UTF-8.
        unsafe { core::str::from_utf8_unchecked(core::slice::from_raw_parts(self.bytes.as_ptr().cast(), self.length)) }
    }
}

impl Default for Line {
    fn default() -> Line {
        Line::new()
    }
}

impl Write for Line {
    fn write_str(&mut self, text: &str) -> fmt::Result {
        let end = self.length + text.len();
        let place = self.bytes.get_mut(self.length..end).ok_or(fmt::Error)?;
        for (to, byte) in place.iter_mut().zip(text.bytes()) {
            to.write(byte);
        }
        self.length = end;
        Ok(())
    }
}

/// Puts out a text of these words; where they are too long, of as many as fit.
pub fn output_words(words: fmt::Arguments<'_>) {
    let mut line = Line::new();
    let _ = line.write_fmt(words);
    output(line.as_str());
}

/// Sends a unit a text of these words; where they are too long, of as many as fit.
pub fn send_words(unit: u8, words: fmt::Arguments<'_>) {
    let mut line = Line::new();
    let _ = line.write_fmt(words);
    send(unit, line.as_str());
}

/// Ends the turn with a text of these words; where they are too long, of as many as fit.
pub fn refuse_words(words: fmt::Arguments<'_>) -> ! {
    let mut line = Line::new();
    let _ = line.write_fmt(words);
    refuse(line.as_str())
}

/// `output_words`, with words as `format!` has them.
#[macro_export]
macro_rules! output {
    ($($words:tt)*) => { $crate::output_words(format_args!($($words)*)) };
}

/// `send_words`, with words as `format!` has them.
#[macro_export]
macro_rules! send {
    ($unit:expr, $($words:tt)*) => { $crate::send_words($unit, format_args!($($words)*)) };
}

/// `refuse_words`, with words as `format!` has them.
#[macro_export]
macro_rules! refuse {
    ($($words:tt)*) => { $crate::refuse_words(format_args!($($words)*)) };
}

/// Makes the program: the type of its state, what that is at first, and the function that works a turn.
#[macro_export]
macro_rules! program {
    ($state:ty = $first:expr, $handle:path) => {
        #[cfg(target_arch = "riscv32")]
        #[no_mangle]
        extern "C" fn handle_turn(text: *const u8, length: usize, source: u32, unit: u32, home: u32) {
            static mut STATE: $state = $first;
            // SAFETY: one turn is worked at a time, and none within another, so nobody else has the state. The machine
            // gives a text of `length` bytes of UTF-8 that nothing writes to during the turn.
            let (state, text) = unsafe { (&mut *core::ptr::addr_of_mut!(STATE), $crate::machine::text_at(text, length)) };
            $handle(state, text, $crate::machine::source_of(source), unit as u8, home as u8);
        }

        /// Built for another machine, the program has tests alone.
        #[cfg(not(target_arch = "riscv32"))]
        #[allow(dead_code)]
        fn main() {}
    };
}
