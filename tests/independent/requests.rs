//! Requests by system and year or day: their numbers as they are written, what
//! they are refused for, and their answers over a range of years or days.

use crate::reckoning::{FIRST_YEAR, LAST_YEAR};
use std::io::{self, Write};
use std::ops::Range;

/// The lines that a request is answered with, or its refusal.
pub type Answer = Result<Vec<String>, u8>;

/// A whole number of any size, as its decimal digits without leading noughts,
/// so that a number too large for a machine word is refused and not cut.
#[derive(Clone, PartialEq, Eq)]
pub struct Number(Vec<u8>);

impl Number {
    pub fn read(text: &str) -> Option<Number> {
        if text.is_empty() || !text.bytes().all(|b| b.is_ascii_digit()) {
            return None;
        }
        let digits: Vec<u8> = text.bytes().map(|b| b - b'0').skip_while(|d| *d == 0).collect();
        Some(Number(digits))
    }

    /// At or below another: fewer digits, or as many and no later in order.
    fn at_most(&self, other: &Number) -> bool {
        self.0.len() < other.0.len() || (self.0.len() == other.0.len() && self.0 <= other.0)
    }

    /// The number itself if it has at most seven digits: no system, year or day
    /// that may be asked for has more.
    fn small(&self) -> Option<i128> {
        if self.0.len() > 7 {
            return None;
        }
        let mut value = 0;
        for digit in &self.0 {
            value = value * 10 + *digit as i128;
        }
        Some(value)
    }

    fn add_one(&mut self) {
        for digit in self.0.iter_mut().rev() {
            if *digit < 9 {
                *digit += 1;
                return;
            }
            *digit = 0;
        }
        self.0.insert(0, 1);
    }
}

/// The system asked for. 4: there is no such system.
pub fn system_asked(number: &Number) -> Result<u8, u8> {
    match number.small() {
        Some(1) => Ok(1),
        Some(2) => Ok(2),
        Some(3) => Ok(3),
        _ => Err(4),
    }
}

/// The same where only the two Song systems are known.
pub fn song_system_asked(number: &Number) -> Result<u8, u8> {
    match number.small() {
        Some(1) => Ok(1),
        Some(2) => Ok(2),
        _ => Err(4),
    }
}

/// The year asked for. 5: it is not one of those that may be asked for.
pub fn year_asked(number: &Number) -> Result<i128, u8> {
    match number.small() {
        Some(year) if year >= FIRST_YEAR && year <= LAST_YEAR => Ok(year),
        _ => Err(5),
    }
}

/// The day asked for. 7: it is not one of those that may be asked for.
pub fn day_asked(number: &Number, days: Range<i128>) -> Result<i128, u8> {
    match number.small() {
        Some(day) if days.contains(&day) => Ok(day),
        _ => Err(7),
    }
}

/// The answers for the years or days from first to last, both among them.
pub fn answers(
    first: &Number,
    last: &Number,
    answer: impl Fn(&Number) -> Answer,
    out: &mut impl Write,
) -> io::Result<()> {
    let mut asked = first.clone();
    while asked.at_most(last) {
        write_answer(answer(&asked), out)?;
        asked.add_one();
    }
    Ok(())
}

fn write_answer(answer: Answer, out: &mut impl Write) -> io::Result<()> {
    match answer {
        Ok(lines) => lines.iter().try_for_each(|line| writeln!(out, "{}", line)),
        Err(refusal) => writeln!(out, "refused {}", refusal),
    }
}
