//! What the examples share: a name of limited length, and what is said of a text that is none.
#![cfg_attr(target_arch = "riscv32", no_std)]

use recall::{output, TEXT_BYTES};

/// Bytes of a name, at most.
pub const NAME_BYTES: usize = 64;

/// A name that is kept.
#[derive(Clone, Copy)]
pub struct Name {
    bytes: [u8; NAME_BYTES],
    length: usize,
}

impl Name {
    /// No name.
    pub const EMPTY: Name = Name { bytes: [0; NAME_BYTES], length: 0 };

    /// The name, where it isn't too long.
    pub fn new(name: &str) -> Option<Name> {
        let mut it = Name { length: name.len(), ..Name::EMPTY };
        it.bytes.get_mut(..name.len())?.copy_from_slice(name.as_bytes());
        Some(it)
    }

    pub fn is(&self, name: &str) -> bool {
        self.bytes.get(..self.length) == Some(name.as_bytes())
    }
}

/// Says that a text is none that the program takes.
pub fn misunderstand(text: &str) {
    const LEAD: &str = "not understood: ";
    output!("{LEAD}{}", if text.len() + LEAD.len() > TEXT_BYTES { "a long text" } else { text });
}
