//! What a citation names, what it is refused for, and how its day is stored.

use crate::reckoning::{name_of, Tables, Table, Year, FIRST_YEAR, LAST_YEAR};
use std::ops::Range;

/// A stored citation: its register day and its ten bytes.
pub type Stored = (u32, [u8; 10]);

/// Why a citation is not stored.
#[derive(Clone, Copy, PartialEq, Eq, Debug)]
pub struct Refusal {
    pub number: u8,
    /// Told with 10 only (paper 02, Q-3): the number of the year's leap month,
    /// or 0 if it has none. It is 0 with every other refusal.
    pub leap_month: u8,
}

impl Refusal {
    pub fn plain(number: u8) -> Refusal {
        Refusal { number, leap_month: 0 }
    }

    /// 10: the month is marked leap and is not.
    pub fn not_leap(leap_month: u8) -> Refusal {
        Refusal { number: 10, leap_month }
    }
}

fn two_bytes(bytes: &[u8], at: usize) -> u32 {
    bytes[at] as u32 + 256 * bytes[at + 1] as u32
}

fn four_bytes(bytes: &[u8], at: usize) -> u32 {
    two_bytes(bytes, at) + 65_536 * two_bytes(bytes, at + 2)
}

/// The day that a citation names, or the first of refusals 1, 2, 11, 3 to 6, 10
/// and 7 that holds.
pub fn named_day(tables: &Tables, input: &[u8]) -> Result<i128, Refusal> {
    let kind = kind_of(input)?;
    let kinds_length = match kind {
        1 | 5 => 10,
        3 | 4 => 9,
        // 11: a kind that is retired
        2 => return Err(Refusal::plain(11)),
        // 2: no such kind
        _ => return Err(Refusal::plain(2)),
    };
    judge_length(input, kinds_length)?;
    let table = table_of(tables, input)?;
    match kind {
        1 => by_day_of_month(year_of(table, input)?, input[7], input[8], input[9]),
        3 => by_ordinal(year_of(table, input)?, two_bytes(input, 7)),
        4 => by_day(table, four_bytes(input, 5) as i128),
        _ => by_name(year_of(table, input)?, input[7], input[8], input[9], name_of),
    }
}

/// The kind of a record. 1: too short for a length and a kind.
pub fn kind_of(input: &[u8]) -> Result<u32, Refusal> {
    if input.len() < 4 {
        return Err(Refusal::plain(1));
    }
    Ok(two_bytes(input, 2))
}

/// 3: the length told, or the input's own, is not that of the kind.
pub fn judge_length(input: &[u8], kinds_length: u32) -> Result<(), Refusal> {
    if two_bytes(input, 0) != kinds_length || input.len() != kinds_length as usize {
        return Err(Refusal::plain(3));
    }
    Ok(())
}

/// The table of a record's system. 4: no such system.
pub fn table_of<'a>(tables: &'a Tables, input: &[u8]) -> Result<&'a Table, Refusal> {
    tables.table(input[4]).ok_or(Refusal::plain(4))
}

/// The year of a record that has one. 5: no such year.
pub fn year_of<'a>(table: &'a Table, input: &[u8]) -> Result<&'a Year, Refusal> {
    let year = two_bytes(input, 5) as i128;
    if year < FIRST_YEAR || year > LAST_YEAR {
        return Err(Refusal::plain(5));
    }
    Ok(table.year(year))
}

/// The days of the month with a number and a leap byte.
fn days_of_month(year: &Year, number: u8, leap: u8) -> Result<Range<i128>, Refusal> {
    // 6: there can be no such month
    if number < 1 || number > 12 || leap > 1 {
        return Err(Refusal::plain(6));
    }
    for month in &year.months {
        if month.number == number && month.leap == (leap == 1) {
            return Ok(month.days());
        }
    }
    assert!(leap == 1, "a year lacks one of its twelve numbered months");
    // 10: this year lacks the leap month asked for
    Err(Refusal::not_leap(leap_month(year)))
}

/// The number of the year's leap month, or 0 if it has none.
fn leap_month(year: &Year) -> u8 {
    for month in &year.months {
        if month.leap {
            return month.number;
        }
    }
    0
}

/// Kind 1: by counting the days of the month.
fn by_day_of_month(year: &Year, number: u8, leap: u8, wanted: u8) -> Result<i128, Refusal> {
    let mut day_of_month = 0;
    for day in days_of_month(year, number, leap)? {
        day_of_month += 1;
        if day_of_month == wanted {
            return Ok(day);
        }
    }
    Err(Refusal::plain(7))
}

/// Kind 5: by looking for the name among the days of the month, which are named
/// by a rule.
pub fn by_name(
    year: &Year,
    number: u8,
    leap: u8,
    wanted: u8,
    rule: impl Fn(i128) -> u8,
) -> Result<i128, Refusal> {
    for day in days_of_month(year, number, leap)? {
        if rule(day) == wanted {
            return Ok(day);
        }
    }
    Err(Refusal::plain(7))
}

/// Kind 3: by counting the days of the year.
fn by_ordinal(year: &Year, wanted: u32) -> Result<i128, Refusal> {
    let mut ordinal = 0;
    for day in year.head..year.next_head {
        ordinal += 1;
        if ordinal == wanted {
            return Ok(day);
        }
    }
    Err(Refusal::plain(7))
}

/// Kind 4: the day itself, if it belongs to years 1 to 3000.
fn by_day(table: &Table, day: i128) -> Result<i128, Refusal> {
    if day < table.year(FIRST_YEAR).head || day >= table.year(LAST_YEAR + 1).head {
        return Err(Refusal::plain(7));
    }
    Ok(day)
}

/// The kind 1 record of a day of years 1 to 3000.
pub fn stored_record(table: &Table, day: i128) -> [u8; 10] {
    let place = table.place(day).expect("no place for an accepted day");
    let [year_low, year_high] = place.year.to_le_bytes();
    [
        10,
        0,
        1,
        0,
        table.system.number,
        year_low,
        year_high,
        place.month,
        place.leap as u8,
        place.day_of_month,
    ]
}

/// The storing step, for an output of that many bytes.
pub fn store(tables: &Tables, input: &[u8], output_length: usize) -> Result<Stored, Refusal> {
    let day = named_day(tables, input)?;
    store_day(table_of(tables, input)?, day, output_length)
}

/// The same of a day that is named. 8: no room for the record.
pub fn store_day(table: &Table, day: i128, output_length: usize) -> Result<Stored, Refusal> {
    if output_length < 10 {
        return Err(Refusal::plain(8));
    }
    Ok((day as u32, stored_record(table, day)))
}

/// What C is told: the day in the low 32 bits, the refusal in the eight above
/// them and the month told in the next eight; accepted, nothing but the day,
/// and refused, no day.
pub fn answer(result: &Result<Stored, Refusal>) -> u64 {
    match result {
        Ok((day, _)) => *day as u64,
        Err(Refusal { number, leap_month }) => {
            4_294_967_296 * *number as u64 + 1_099_511_627_776 * *leap_month as u64
        }
    }
}
