//! Request Q-7 of paper 02: records of the retired kind 2, turned into kind 5;
//! and what such a record stored as while the storing step took it, to which
//! the turned one is held.

use crate::citation::{by_name, judge_length, kind_of, store_day, table_of, year_of, Refusal, Stored};
use crate::reckoning::Tables;

/// The sixty-day name as kind 2 tells it, 0 (jiazi) to 59 (guihai).
pub fn former_name_of(register_day: i128) -> u8 {
    (register_day + 49).rem_euclid(60) as u8
}

/// What a record of kind 2 stored as.
pub fn formerly_stored(tables: &Tables, old: &[u8], output_length: usize) -> Result<Stored, Refusal> {
    judge_length(old, 10)?;
    let table = table_of(tables, old)?;
    let day = by_name(year_of(table, old)?, old[7], old[8], old[9], former_name_of)?;
    store_day(table, day, output_length)
}

/// The conversion, for an output of that many bytes. System, year, month and
/// leap byte are not looked at.
pub fn convert(input: &[u8], output_length: usize) -> Result<[u8; 10], Refusal> {
    // 1: too short for a kind; 2: another kind than the retired one
    if kind_of(input)? != 2 {
        return Err(Refusal::plain(2));
    }
    // 3: not ten bytes, or not told so
    judge_length(input, 10)?;
    // 7: no name
    if input[9] > 59 {
        return Err(Refusal::plain(7));
    }
    // 8: no room for the record
    if output_length < 10 {
        return Err(Refusal::plain(8));
    }
    let mut record = [0; 10];
    record.copy_from_slice(input);
    record[2] = 5;
    record[9] += 1;
    Ok(record)
}
