//! Streams of cases with names: for the storing step, and for the conversion of
//! records of the retired kind.
//!
//! A frame for the conversion is: input length (1 byte), the input, output length (1 byte) and the
//! expected answer (8 bytes, little-endian). Where the input is converted there
//! follow the expected ten bytes; then the output length (1 byte) with which
//! these are to be stored, the expected answer (8 bytes) and, where that
//! accepts them, the expected ten bytes.

use crate::citation::{answer, store, Refusal, Stored};
use crate::conversion::{convert, formerly_stored};
use crate::random::Random;
use crate::reckoning::{Table, Tables};
use crate::streams::{citation_of, expected, frame, room, stored_at, Maker, MOST};
use crate::tally::Tally;
use std::io::{self, Write};

/// What the conversion can answer, and then the storing of what it gave.
pub const ANSWERS: [u8; 6] = [0, 1, 2, 3, 7, 8];
pub const THEN_ANSWERS: [u8; 7] = [0, 4, 5, 6, 10, 7, 8];

/// An input of the conversion, what it is turned into, and what the input
/// stored as while its kind was in force. Both have the length of their output.
struct Case {
    input: Vec<u8>,
    room: usize,
    converted: Result<[u8; 10], Refusal>,
    storing_room: usize,
    stored: Result<Stored, Refusal>,
}

impl Case {
    /// What is due by the two rules. Only what is converted can be stored.
    fn of(tables: &Tables, input: Vec<u8>, room: usize, storing_room: usize) -> Case {
        let converted = convert(&input, room);
        let stored = converted.and_then(|_| formerly_stored(tables, &input, storing_room));
        Case { input, room, converted, storing_room, stored }
    }

    fn write(&self, out: &mut impl Write) -> io::Result<()> {
        let told = self.converted.map(|record| (0, record));
        frame(out, &self.input, self.room, &told)?;
        if self.converted.is_err() {
            return Ok(());
        }
        let written = self.stored.as_ref().map_or(&[][..], |(_, record)| record);
        expected(out, self.storing_room, answer(&self.stored), written)
    }
}

/// Records of kind 5 or of the retired one with every byte for a name: in years
/// that are met elsewhere in these tests, in every system, month and leap mark;
/// and with any of system, year, month and leap byte wrong, several at once
/// among them.
fn spread(kind: u8) -> Vec<Vec<u8>> {
    let years = [1, 2, 237, 238, 1092, 1094, 1107, 1108, 3000];
    let months: Vec<u8> = (1..=12).collect();
    let mut records = combined(kind, &[1, 2, 3], &years, &months, &[0, 1]);
    let (systems, years) = ([0, 1, 2, 3, 4, 255], [0, 1, 1094, 3000, 3001, 65_535]);
    records.extend(combined(kind, &systems, &years, &[0, 1, 5, 12, 13, 255], &[0, 1, 2, 255]));
    records
}

fn combined(kind: u8, systems: &[u8], years: &[u16], months: &[u8], leaps: &[u8]) -> Vec<Vec<u8>> {
    let mut records = Vec::new();
    for system in systems {
        for [low, high] in years.iter().map(|year| year.to_le_bytes()) {
            for (month, leap) in months.iter().flat_map(|m| leaps.iter().map(move |leap| (m, leap))) {
                let record = |name| vec![10, 0, kind, 0, *system, low, high, *month, *leap, name];
                records.extend((0..=255).map(record));
            }
        }
    }
    records
}

/// Inputs in which several things can be wrong at once: how many bytes there
/// are, what the length field and the kind tell, and the name.
fn mixed() -> Vec<Vec<u8>> {
    let mut inputs = Vec::new();
    for length in (0..=12).chain([64]) {
        for field in [0, 2, 3, 4, 9, 10, 11, 64, 266] {
            for kind in [0, 1, 2, 3, 4, 5, 6, 7, 258, 512] {
                for name in [0, 59, 60, 255] {
                    let ([f, g], [k, l]) = (u16::to_le_bytes(field), u16::to_le_bytes(kind));
                    let mut input = vec![f, g, k, l, 1, 0x46, 0x04, 5, 0, name];
                    input.resize(length, 37);
                    inputs.push(input);
                }
            }
        }
    }
    inputs
}

/// Output lengths below, at and above ten.
const ROOMS: [usize; 6] = [0, 1, 9, 10, 11, 64];

/// The conversion of all of these: the spread with room for the conversion, and
/// also for the storing or not; the mixed with every output length.
pub fn conversions(tables: &Tables, out: &mut impl Write) -> io::Result<()> {
    for (i, record) in spread(2).into_iter().enumerate() {
        let room = [10, 11, 64][i % 3];
        Case::of(tables, record.clone(), room, 10).write(out)?;
        Case::of(tables, record, room, ROOMS[i % ROOMS.len()]).write(out)?;
    }
    for input in mixed() {
        for room in ROOMS {
            Case::of(tables, input.clone(), room, 10).write(out)?;
        }
    }
    Ok(())
}

/// The storing step on the spread in both kinds, with room and without, and on
/// old records of any length: frames as of citations. Of the retired kind, what
/// is expected is told by the kind alone.
pub fn names(tables: &Tables, out: &mut impl Write) -> io::Result<()> {
    for (i, (record, old)) in spread(5).into_iter().zip(spread(2)).enumerate() {
        for room in [10, ROOMS[i % ROOMS.len()]] {
            frame(out, &record, room, &store(tables, &record, room))?;
            frame(out, &old, room, &Err(Refusal::plain(11)))?;
        }
    }
    let record = [10, 0, 2, 0, 1, 0x46, 0x04, 5, 0, 37];
    for length in 0..=64 {
        for field in [length as u8, 10] {
            let mut input = record.to_vec();
            input.resize(length, 0);
            input.iter_mut().take(1).for_each(|first| *first = field);
            let refusal = Refusal::plain(if length < 4 { 1 } else { 11 });
            for room in ROOMS {
                frame(out, &input, room, &Err(refusal))?;
            }
        }
    }
    Ok(())
}

/// Every day of years 1 to 3000 of one system. What is expected comes from the
/// walk through the days, and not from the conversion.
pub fn days(table: &Table, out: &mut impl Write) -> io::Result<()> {
    let system = table.system.number;
    for (place, day) in table.places.iter().zip(table.first_day..) {
        let mut turned = [0; 10];
        turned.copy_from_slice(&citation_of(system, 5, *place, day));
        let case = Case {
            input: citation_of(system, 2, *place, day),
            room: 10 + (day % 7) as usize,
            converted: Ok(turned),
            storing_room: 10 + (day % 5) as usize,
            stored: Ok(stored_at(system, *place, day)),
        };
        case.write(out)?;
    }
    Ok(())
}

/// Random and damaged records, and how often each answer came.
pub fn random(tables: &Tables, seed: u64, count: u64, out: &mut impl Write) -> io::Result<[Tally; 2]> {
    let mut random = Random::new(seed);
    let maker = Maker::new(tables);
    let mut tallies = [Tally::default(), Tally::default()];
    for _ in 0..count {
        let input = maker.record(&mut random, MOST);
        let case = Case::of(tables, input, room(&mut random), room(&mut random));
        tallies[0].count(&case.converted);
        if case.converted.is_ok() {
            tallies[1].count(&case.stored);
        }
        case.write(out)?;
    }
    Ok(tallies)
}
