//! A ledger: it keeps balances, and tells the card, unit 1, what to move. Upon `charge ACCOUNT CENTS` or `refund ACCOUNT CENTS` it
//! sends that text on where the balance allows it, and says why not where it doesn't.
#![cfg_attr(target_arch = "riscv32", no_std, no_main)]

use programs::{misunderstand, Name};
use recall::{refuse, send, Source};

const CARD_UNIT: u8 = 1;
const ACCOUNTS: usize = 256;

#[derive(Clone, Copy)]
struct Account {
    name: Name,
    cents: u64,
}

#[derive(Clone)]
struct Ledger {
    count: usize,
    accounts: [Account; ACCOUNTS],
}

const NEW: Ledger = Ledger { count: 0, accounts: [Account { name: Name::EMPTY, cents: 0 }; ACCOUNTS] };

impl Ledger {
    /// The account of this name, which is made where it is new. The turn is refused where there is no room for it.
    fn account(&mut self, name: &str) -> &mut Account {
        let known = self.accounts[..self.count].iter().position(|it| it.name.is(name));
        let at = known.unwrap_or_else(|| self.add(name));
        &mut self.accounts[at]
    }

    fn add(&mut self, name: &str) -> usize {
        let Some(name) = Name::new(name) else { refuse("refused: the name is too long") };
        let at = self.count;
        let Some(place) = self.accounts.get_mut(at) else { refuse("refused: there is no room for another account") };
        *place = Account { name, cents: 0 };
        self.count += 1;
        at
    }
}

#[derive(Clone, Copy)]
enum Movement {
    Charge,
    Refund,
}

impl Movement {
    fn named(name: &str) -> Option<Movement> {
        match name {
            "charge" => Some(Movement::Charge),
            "refund" => Some(Movement::Refund),
            _ => None,
        }
    }

    fn name(self) -> &'static str {
        match self {
            Movement::Charge => "charge",
            Movement::Refund => "refund",
        }
    }

    fn balance_after(self, balance: u64, cents: u64) -> Option<u64> {
        match self {
            Movement::Charge => balance.checked_add(cents),
            Movement::Refund => balance.checked_sub(cents),
        }
    }
}

struct Request<'a> {
    movement: Movement,
    account: &'a str,
    cents: u64,
}

impl Request<'_> {
    fn read(text: &str) -> Option<Request<'_>> {
        let (name, rest) = text.split_once(' ')?;
        let (account, digits) = rest.split_once(' ')?;
        Some(Request { movement: Movement::named(name)?, account, cents: digits.parse().ok()? })
    }
}

fn handle(ledger: &mut Ledger, text: &str, _source: Source, _unit: u8, _home: u8) {
    let Some(Request { movement, account, cents }) = Request::read(text) else { return misunderstand(text) };
    let place = ledger.account(account);
    let balance = place.cents;
    let Some(after) = movement.balance_after(balance, cents) else {
        recall::refuse!("refused {} {account} {cents}: the balance is {balance}", movement.name())
    };
    place.cents = after;
    send!(CARD_UNIT, "{} {account} {cents}", movement.name());
}

recall::program!(Ledger = NEW, handle);

#[cfg(test)]
mod tests {
    use super::*;
    use recall::testing::Unit;

    fn ask(unit: &mut Unit<Ledger>, text: &str, wanted: &str) {
        assert_eq!(unit.upon(Source::Outside, text), [wanted], "upon {text:?}");
    }

    #[test]
    fn balances_are_kept() {
        let unit = &mut Unit::new(NEW, handle);
        ask(unit, "charge alice 500", "to 1: charge alice 500");
        ask(unit, "refund alice 200", "to 1: refund alice 200");
        ask(unit, "refund alice 400", "out: refused refund alice 400: the balance is 300");
        ask(unit, "charge bob 18446744073709551615", "to 1: charge bob 18446744073709551615");
        ask(unit, "charge bob 1", "out: refused charge bob 1: the balance is 18446744073709551615");
        ask(unit, "charge bob 18446744073709551616", "out: not understood: charge bob 18446744073709551616");
        ask(unit, "charge  +07", "to 1: charge  7");
        ask(unit, "charge bob", "out: not understood: charge bob");
        ask(unit, "charge bob +", "out: not understood: charge bob +");
        ask(unit, "pay bob 1", "out: not understood: pay bob 1");
    }

    #[test]
    fn accounts_are_limited() {
        let unit = &mut Unit::new(NEW, handle);
        for number in 0..256 {
            // Who is refused leaves no account behind.
            ask(unit, "refund other 1", "out: refused refund other 1: the balance is 0");
            ask(unit, &format!("charge {number} 1"), &format!("to 1: charge {number} 1"));
        }
        ask(unit, "charge other 1", "out: refused: there is no room for another account");
        ask(unit, &format!("charge {} 1", "x".repeat(65)), "out: refused: the name is too long");
        ask(unit, "refund 255 1", "to 1: refund 255 1");
    }
}
