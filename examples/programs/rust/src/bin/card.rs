//! A card: what a ledger decided is put out, and money moves. It takes letters alone, since a text from outside was decided by no
//! ledger. It has no state.
#![cfg_attr(target_arch = "riscv32", no_std, no_main)]

use programs::misunderstand;
use recall::{output, Source};

fn handle(_state: &mut (), text: &str, source: Source, _unit: u8, _home: u8) {
    match source {
        Source::Outside => misunderstand(text),
        Source::Unit(_) => output!("card {text}"),
    }
}

recall::program!(() = (), handle);

#[cfg(test)]
mod tests {
    use super::*;
    use recall::testing::Unit;

    #[test]
    fn letters_alone_are_taken() {
        let unit = &mut Unit::new((), handle);
        assert_eq!(unit.upon(Source::Unit(0), "charge alice 500"), ["out: card charge alice 500"]);
        assert_eq!(unit.upon(Source::Outside, "charge eve 9"), ["out: not understood: charge eve 9"]);
        assert_eq!(unit.upon(Source::Outside, &"x".repeat(4096)), ["out: not understood: a long text"]);
    }
}
