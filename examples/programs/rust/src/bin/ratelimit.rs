//! A token bucket for each key. A program has no clock, so the time comes in as a text.
//!
//! | text | does |
//! |---|---|
//! | `limit PER_SECOND BURST` | from now on each key gets so many tokens a second, and has BURST of them at most; all begin full |
//! | `clock MILLISECONDS` | it is that late; the clock never goes back |
//! | `take KEY` | takes a token: `granted KEY LEFT`, or `denied KEY MILLISECONDS` until there is one |
//!
//! Tokens are counted in thousandths: a rate of one a second is one thousandth a millisecond, so that nothing is rounded.
#![cfg_attr(target_arch = "riscv32", no_std, no_main)]

use programs::{misunderstand, Name};
use recall::{output, refuse, Source};

const KEYS: usize = 256;
const TOKEN: u32 = 1000;
const MOST: u32 = 1_000_000;

#[derive(Clone, Copy)]
struct Bucket {
    key: Name,
    thousandths: u32,
    told_at: u64,
}

#[derive(Clone)]
struct Limiter {
    /// What holds before the first limit is a zero here, so that all of the state is zeros at first and takes no room in the image.
    limit: Option<Limit>,
    now: u64,
    count: usize,
    buckets: [Bucket; KEYS],
}

#[derive(Clone, Copy)]
struct Limit {
    per_second: u32,
    burst: u32,
}

const NEW: Limiter = Limiter { limit: None, now: 0, count: 0, buckets: [Bucket { key: Name::EMPTY, thousandths: 0, told_at: 0 }; KEYS] };

impl Bucket {
    /// Puts in what the time since then has brought.
    fn fill(&mut self, limit: Limit, now: u64) {
        let room = limit.burst * TOKEN - self.thousandths;
        let passed = now - self.told_at;
        self.told_at = now;
        self.thousandths += match u32::try_from(passed) {
            Ok(passed) if passed <= room / limit.per_second => passed * limit.per_second,
            _ => room,
        };
    }
}

impl Limiter {
    fn limit(&self) -> Limit {
        self.limit.unwrap_or(Limit { per_second: 1, burst: 5 })
    }

    /// The bucket of a key, which begins full.
    fn bucket(&mut self, key: &str) -> &mut Bucket {
        let known = self.buckets[..self.count].iter().position(|it| it.key.is(key));
        let at = known.unwrap_or_else(|| self.add(key));
        &mut self.buckets[at]
    }

    fn add(&mut self, key: &str) -> usize {
        let Some(key) = Name::new(key) else { refuse("refused: the key is too long") };
        let at = self.count;
        let thousandths = self.limit().burst * TOKEN;
        let Some(place) = self.buckets.get_mut(at) else { refuse("refused: there is no room for another key") };
        *place = Bucket { key, thousandths, told_at: self.now };
        self.count += 1;
        at
    }

    fn take(&mut self, key: &str) {
        let (limit, now) = (self.limit(), self.now);
        let bucket = self.bucket(key);
        bucket.fill(limit, now);
        match bucket.thousandths.checked_sub(TOKEN) {
            Some(left) => {
                bucket.thousandths = left;
                output!("granted {key} {}", left / TOKEN);
            }
            None => output!("denied {key} {}", (TOKEN - bucket.thousandths).div_ceil(limit.per_second)),
        }
    }

    fn set_clock(&mut self, now: u64) {
        if now < self.now {
            recall::refuse!("refused: the clock is at {}", self.now);
        }
        self.now = now;
    }

    fn set_limit(&mut self, per_second: u64, burst: u64) {
        let fits = |it: u64| u32::try_from(it).ok().filter(|it| (1..=MOST).contains(it));
        let (Some(per_second), Some(burst)) = (fits(per_second), fits(burst)) else { refuse("refused: a limit is 1 to 1000000") };
        self.limit = Some(Limit { per_second, burst });
        self.count = 0;
    }

    /// Does what a text asks for, if it is one.
    fn work(&mut self, text: &str) -> Option<()> {
        let (word, rest) = text.split_once(' ')?;
        match word {
            "take" => self.take(rest),
            "clock" => self.set_clock(rest.parse().ok()?),
            "limit" => {
                let (per_second, burst) = rest.split_once(' ')?;
                self.set_limit(per_second.parse().ok()?, burst.parse().ok()?);
            }
            _ => return None,
        }
        Some(())
    }
}

fn handle(limiter: &mut Limiter, text: &str, _source: Source, _unit: u8, _home: u8) {
    if limiter.work(text).is_none() {
        misunderstand(text);
    }
}

recall::program!(Limiter = NEW, handle);

#[cfg(test)]
mod tests {
    use super::*;
    use recall::testing::Unit;

    fn ask(unit: &mut Unit<Limiter>, text: &str, wanted: &[&str]) {
        assert_eq!(unit.upon(Source::Outside, text), wanted, "upon {text:?}");
    }

    #[test]
    fn a_bucket_empties_and_fills() {
        let unit = &mut Unit::new(NEW, handle);
        ask(unit, "take a", &["out: granted a 4"]);
        ask(unit, "limit 2 3", &[]);
        for left in [2, 1, 0] {
            ask(unit, "take a", &[&format!("out: granted a {left}")]);
        }
        ask(unit, "take a", &["out: denied a 500"]);
        ask(unit, "take b", &["out: granted b 2"]);
        ask(unit, "clock 499", &[]);
        ask(unit, "take a", &["out: denied a 1"]);
        ask(unit, "clock 500", &[]);
        ask(unit, "take a", &["out: granted a 0"]);
        ask(unit, "clock 1000000000000", &[]);
        ask(unit, "take a", &["out: granted a 2"]);
    }

    #[test]
    fn words_are_refused() {
        let unit = &mut Unit::new(NEW, handle);
        ask(unit, "clock 7", &[]);
        ask(unit, "clock 1", &["out: refused: the clock is at 7"]);
        ask(unit, "limit 0 1", &["out: refused: a limit is 1 to 1000000"]);
        ask(unit, "limit 1 1000001", &["out: refused: a limit is 1 to 1000000"]);
        ask(unit, "limit 1", &["out: not understood: limit 1"]);
        ask(unit, "clock now", &["out: not understood: clock now"]);
        ask(unit, &format!("take {}", "x".repeat(65)), &["out: refused: the key is too long"]);
    }

    #[test]
    fn keys_are_limited() {
        let unit = &mut Unit::new(NEW, handle);
        for number in 0..256 {
            ask(unit, &format!("take {number}"), &[&format!("out: granted {number} 4")]);
        }
        ask(unit, "take another", &["out: refused: there is no room for another key"]);
        ask(unit, "take 255", &["out: granted 255 3"]);
    }
}
