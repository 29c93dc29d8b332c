//! The calls of the machine, and where a turn begins.

use crate::Source;
use core::arch::{asm, global_asm};
use core::panic::PanicInfo;

global_asm!(
    ".pushsection .text.entry, \"ax\"",
    ".globl _start",
    "_start:",
    "la tp, __tls_base",
    "j handle_turn",
    ".popsection"
);

pub(crate) fn output(text: &str) {
    // SAFETY: the machine reads the text, and changes nothing.
    unsafe { asm!("ecall", in("a7") 1, in("a0") text.as_ptr(), in("a1") text.len(), options(nostack, readonly, preserves_flags)) }
}

pub(crate) fn send(unit: u8, text: &str) {
    // SAFETY: the machine reads the text, and changes nothing.
    unsafe { asm!("ecall", in("a7") 2, in("a0") u32::from(unit), in("a1") text.as_ptr(), in("a2") text.len(), options(nostack, readonly, preserves_flags)) }
}

pub(crate) fn refuse(text: &str) -> ! {
    // SAFETY: the machine reads the text, and the turn ends.
    unsafe { asm!("ecall", in("a7") 3, in("a0") text.as_ptr(), in("a1") text.len(), options(nostack, readonly, noreturn)) }
}

pub fn source_of(number: u32) -> Source {
    u8::try_from(number).map_or(Source::Outside, Source::Unit)
}

/// # Safety
/// At `text` stand `length` bytes of UTF-8 that nobody writes to.
pub unsafe fn text_at<'a>(text: *const u8, length: usize) -> &'a str {
    core::str::from_utf8_unchecked(core::slice::from_raw_parts(text, length))
}

/// A program that panics refuses its text, and tells where.
#[panic_handler]
fn panic(info: &PanicInfo<'_>) -> ! {
    match info.location() {
        Some(at) => crate::refuse!("panic at {}:{}", at.file(), at.line()),
        None => refuse("panic"),
    }
}
