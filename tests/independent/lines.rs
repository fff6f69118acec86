//! The program of paper 01: records from standard input, one line for each.

use crate::citation::{store, Refusal, Stored};
use crate::reckoning::{name_of, Moment, Tables};
use std::io::{self, Write};

pub fn lines(tables: &Tables, input: &[u8], out: &mut impl Write) -> io::Result<()> {
    lines_by(input, |record| line(tables, record), out)
}

/// The same with any line for each record.
pub fn lines_by(input: &[u8], line: impl Fn(&[u8]) -> String, out: &mut impl Write) -> io::Result<()> {
    let mut left = input;
    // The end says nothing of its own, neither at once nor after a record.
    while !left.is_empty() {
        match first_record(left) {
            Some(length) => {
                writeln!(out, "{}", line(&left[..length]))?;
                left = &left[length..];
            }
            None => {
                // Something is left that is no record: the last line.
                writeln!(out, "refused 1")?;
                return Ok(());
            }
        }
    }
    Ok(())
}

/// The lines of every beginning of the input, from none of its bytes to as many
/// as asked for, each after a line that tells how long it is.
pub fn cuts(tables: &Tables, input: &[u8], longest: u64, out: &mut impl Write) -> io::Result<()> {
    for length in 0..=input.len() {
        if length as u64 > longest {
            break;
        }
        writeln!(out, "cut {}", length)?;
        lines(tables, &input[..length], out)?;
    }
    Ok(())
}

/// The length of the record that comes first, if its length field can be
/// believed and all of it is there. A single byte left holds no length field.
pub fn first_record(left: &[u8]) -> Option<usize> {
    if left.len() < 2 {
        return None;
    }
    let length = left[0] as usize + 256 * left[1] as usize;
    if length < 4 || length > 64 || length > left.len() {
        return None;
    }
    Some(length)
}

/// The line of one record: its date, register day and name, or its refusal.
/// The program's own output is long enough, so that 8 never applies.
pub fn line(tables: &Tables, record: &[u8]) -> String {
    told_line(tables, store(tables, record, 10))
}

/// The line of what a record is stored as.
pub fn told_line(tables: &Tables, result: Result<Stored, Refusal>) -> String {
    match result {
        Err(refusal) => refused_line(refusal),
        Ok((day, stored)) => {
            let day = day as i128;
            let table = tables.table(stored[4]).unwrap();
            let place = table.place(day).unwrap();
            format!(
                "{} {} {} {} {} {}",
                table.system.letter,
                place.year,
                month_text(place.month, place.leap),
                place.day_of_month,
                day,
                name_of(day)
            )
        }
    }
}

/// Paper 02, Q-3: a month comes with 10 only, and with 10 even where it is 0.
fn refused_line(refusal: Refusal) -> String {
    match refusal.number {
        10 => format!("refused 10 {}", refusal.leap_month),
        number => format!("refused {}", number),
    }
}

/// A qi or a pentad, by its number in the year.
pub fn moment_line(word: &str, number: usize, moment: &Moment) -> String {
    let Moment { day, parts, units } = moment;
    format!("{} {} {} {} {} {}", word, number, day, name_of(*day), parts, units)
}

/// A month's number, with `*` after it if leap.
pub fn month_text(number: u8, leap: bool) -> String {
    format!("{}{}", number, if leap { "*" } else { "" })
}
