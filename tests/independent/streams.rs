//! Streams of cases: frames for the storing step, and raw records for the
//! program over standard input.
//!
//! A frame is: input length (1 byte), the input, output length (1 byte), the
//! expected answer (8 bytes, little-endian), and then, where the input is
//! accepted, the expected ten bytes.

use crate::citation::{answer, store, Refusal, Stored};
use crate::conversion::former_name_of;
use crate::random::Random;
use crate::reckoning::{name_of, Place, Table, Tables, FIRST_YEAR, LAST_YEAR, SYSTEMS};
use crate::tally::{Seen, Tally};
use std::io::{self, Write};

pub fn frame(
    out: &mut impl Write,
    input: &[u8],
    output_length: usize,
    result: &Result<Stored, Refusal>,
) -> io::Result<()> {
    lent(out, input)?;
    expected(out, output_length, answer(result), result.as_ref().map_or(&[], |(_, record)| record))
}

/// An input as it stands in a frame.
pub fn lent(out: &mut impl Write, input: &[u8]) -> io::Result<()> {
    out.write_all(&[input.len() as u8])?;
    out.write_all(input)
}

/// How a call ends in a frame: the length of its output, the expected answer,
/// and the bytes that are to be written.
pub fn expected(out: &mut impl Write, output_length: usize, answer: u64, written: &[u8]) -> io::Result<()> {
    out.write_all(&[output_length as u8])?;
    out.write_all(&answer.to_le_bytes())?;
    out.write_all(written)
}

/// The kinds that the storing step takes.
pub const KINDS: [u8; 4] = [1, 3, 4, 5];

/// The citation of a day in one of these kinds or in the retired one, from its
/// place.
pub fn citation_of(system: u8, kind: u8, place: Place, day: i128) -> Vec<u8> {
    let year = place.year.to_le_bytes();
    let leap = place.leap as u8;
    match kind {
        1 => vec![10, 0, 1, 0, system, year[0], year[1], place.month, leap, place.day_of_month],
        2 => vec![10, 0, 2, 0, system, year[0], year[1], place.month, leap, former_name_of(day)],
        3 => {
            let ordinal = place.ordinal.to_le_bytes();
            vec![9, 0, 3, 0, system, year[0], year[1], ordinal[0], ordinal[1]]
        }
        4 => {
            let day = (day as u32).to_le_bytes();
            vec![9, 0, 4, 0, system, day[0], day[1], day[2], day[3]]
        }
        _ => vec![10, 0, 5, 0, system, year[0], year[1], place.month, leap, name_of(day)],
    }
}

/// A day as it is to be stored.
pub fn stored_at(system: u8, place: Place, day: i128) -> Stored {
    let mut record = [0; 10];
    record.copy_from_slice(&citation_of(system, 1, place, day));
    (day as u32, record)
}

/// Every day of years 1 to 3000 of one system in all four kinds. What is
/// expected comes from the walk through the days, not from the citation.
pub fn days(table: &Table, out: &mut impl Write) -> io::Result<()> {
    let system = table.system.number;
    let mut day = table.first_day;
    let mut output_length = 10;
    for place in &table.places {
        let expected = Ok(stored_at(system, *place, day));
        for kind in KINDS {
            frame(out, &citation_of(system, kind, *place, day), output_length, &expected)?;
            output_length = if output_length == 16 { 10 } else { output_length + 1 };
        }
        day += 1;
    }
    Ok(())
}

/// Every month number of years 1 to 3000 with either leap mark, in kinds 1 and
/// 5, and what is expected by the list of the year's months. The first day of
/// such a month is cited; where there is none, that of the unmarked month, so
/// that nothing but the mark speaks against it.
pub fn leap_marks(table: &Table) -> Vec<(Vec<u8>, Result<Stored, Refusal>)> {
    let system = table.system.number;
    let mut marked = Vec::new();
    for year in FIRST_YEAR..=LAST_YEAR {
        let months = &table.year(year).months;
        let refusal = Refusal::not_leap(months.iter().find(|m| m.leap).map_or(0, |m| m.number));
        for number in 1..=12 {
            for leap in [false, true] {
                let with = |mark| months.iter().find(|m| m.number == number && m.leap == mark);
                let day = with(leap).or(with(false)).unwrap().head;
                let place = Place { leap, ..table.place(day).unwrap() };
                for kind in [1, 5] {
                    let expected = with(leap).map(|_| stored_at(system, place, day)).ok_or(refusal);
                    marked.push((citation_of(system, kind, place, day), expected));
                }
            }
        }
    }
    marked
}

/// The same as frames.
pub fn marks(table: &Table, out: &mut impl Write) -> io::Result<()> {
    for (input, expected) in leap_marks(table) {
        frame(out, &input, 10, &expected)?;
    }
    Ok(())
}

/// Citations by register days around the ends of years 1 to 3000 and of the
/// numbers that a machine holds, and around count day 0, before which a system
/// has no days to reckon with. What is expected comes from the list of days.
pub fn outside(table: &Table, out: &mut impl Write) -> io::Result<()> {
    let system = table.system.number;
    let (first, end) = (table.first_day, table.year(LAST_YEAR + 1).head);
    let count_day_0 = table.system.register_day(0);
    for around in [0, count_day_0, 65_536, first, end, 16_777_216, 2_147_483_648, 4_294_967_295] {
        for day in around - 400..=around + 400 {
            let Ok(cited) = u32::try_from(day) else { continue };
            let [a, b, c, d] = cited.to_le_bytes();
            let expected = table.place(day).map(|place| stored_at(system, place, day));
            frame(out, &[9, 0, 4, 0, system, a, b, c, d], 10, &expected.ok_or(Refusal::plain(7)))?;
        }
    }
    Ok(())
}

/// What the storing step can answer: 0, accepted, and the refusals in the order
/// of its checks. 9 is of qi and pentads only.
pub const ANSWERS: [u8; 11] = [0, 1, 2, 11, 3, 4, 5, 6, 10, 7, 8];

/// How many records in ten are of the retired kind: in what is stored, and in
/// what is as old as the kind.
const FEW: usize = 2;
pub const MOST: usize = 7;

/// Random and damaged records.
pub fn random(tables: &Tables, seed: u64, count: u64, out: &mut impl Write) -> io::Result<(Tally, Seen)> {
    let mut random = Random::new(seed);
    let maker = Maker::new(tables);
    let (mut tally, mut seen) = (Tally::default(), Seen::new());
    for _ in 0..count {
        let input = maker.record(&mut random, FEW);
        let output_length = room(&mut random);
        let result = store(tables, &input, output_length);
        tally.count(&result);
        seen.note(&input);
        frame(out, &input, output_length, &result)?;
    }
    Ok((tally, seen))
}

/// The length of an output, most of which have room.
pub fn room(random: &mut Random) -> usize {
    let lowest = if random.once_in(2) { 0 } else { 10 };
    random.between(lowest, 16)
}

/// Records one after another whose length fields hold, then some ending.
pub fn stream(tables: &Tables, seed: u64, count: u64, out: &mut impl Write) -> io::Result<()> {
    records(tables, seed, count, FEW, out)
}

/// The same as they were written when the retired kind was in use.
pub fn old_stream(tables: &Tables, seed: u64, count: u64, out: &mut impl Write) -> io::Result<()> {
    records(tables, seed, count, MOST, out)
}

fn records(tables: &Tables, seed: u64, count: u64, retired: usize, out: &mut impl Write) -> io::Result<()> {
    let mut random = Random::new(seed);
    let maker = Maker::new(tables);
    for _ in 0..count {
        let mut record = maker.record(&mut random, retired);
        if random.once_in(20) {
            let longer = random.between(4, 64);
            while record.len() < longer {
                record.push(random.byte());
            }
        }
        while record.len() < 4 {
            record.push(random.byte());
        }
        record[0] = record.len() as u8;
        record[1] = 0;
        out.write_all(&record)?;
    }
    out.write_all(&ending(&maker, &mut random))
}

fn ending(maker: &Maker, random: &mut Random) -> Vec<u8> {
    let mut end = Vec::new();
    match random.below(6) {
        // Nothing after the last record.
        0 => {}
        // A single byte.
        1 => end.push(random.pick(&[0, 4, 9, 10, 255])),
        // A record that is cut.
        2 => {
            end = maker.valid(random);
            let kept = random.between(1, end.len() - 1);
            end.truncate(kept);
        }
        // A length field below 4, with bytes after it.
        3 => {
            end.extend([random.below(4) as u8, 0]);
            garbage(random, &mut end);
        }
        // A length field above 64, with that many bytes or fewer after it;
        // some would read as a fair length if their high byte were lost.
        4 => {
            let length = random.pick(&[65, 66, 100, 255, 256, 257, 266, 300, 65_535]);
            end.extend([(length % 256) as u8, (length / 256) as u8]);
            for _ in 0..random.below(400) {
                end.push(random.byte());
            }
        }
        // Anything.
        _ => garbage(random, &mut end),
    }
    end
}

fn garbage(random: &mut Random, end: &mut Vec<u8>) {
    for _ in 0..random.between(1, 40) {
        end.push(random.byte());
    }
}

/// Makes records, sound ones and damaged ones.
pub struct Maker<'a> {
    tables: &'a Tables,
    /// Days in leap months, by system: rare, so they are kept apart.
    leap_days: [Vec<usize>; SYSTEMS.len()],
    /// Register days at the edges of what is accepted.
    edges: Vec<u32>,
}

impl<'a> Maker<'a> {
    pub fn new(tables: &'a Tables) -> Maker<'a> {
        let mut leap_days = SYSTEMS.map(|_| Vec::new());
        let mut edges = vec![0, 1, u32::MAX - 1, u32::MAX];
        for (system, leap_days) in SYSTEMS.iter().zip(&mut leap_days) {
            let table = tables.table(system.number).unwrap();
            for (i, place) in table.places.iter().enumerate() {
                if place.leap {
                    leap_days.push(i);
                }
            }
            for edge in [system.register_day(0), table.year(1).head, table.year(3001).head] {
                edges.extend((edge - 3..=edge + 3).filter_map(|near| u32::try_from(near).ok()));
            }
        }
        Maker { tables, leap_days, edges }
    }

    /// A record that nothing speaks against, of any kind and system.
    fn valid(&self, random: &mut Random) -> Vec<u8> {
        let kind = random.pick(&KINDS);
        self.of_kind(random, kind)
    }

    /// The record of some day in this kind.
    fn of_kind(&self, random: &mut Random, kind: u8) -> Vec<u8> {
        let place = random.below(SYSTEMS.len());
        let system = SYSTEMS[place].number;
        let table = self.tables.table(system).unwrap();
        let days = table.places.len();
        let i = match random.below(8) {
            0 | 1 => random.pick(&self.leap_days[place]),
            2 => random.below(800),
            3 => days - 1 - random.below(800),
            _ => random.below(days),
        };
        citation_of(system, kind, table.places[i], table.first_day + i as i128)
    }

    /// A record with no damage, some or much; so many in ten are of the retired
    /// kind at first.
    pub fn record(&self, random: &mut Random, retired: usize) -> Vec<u8> {
        if random.once_in(25) {
            return (0..random.between(0, 20)).map(|_| random.byte()).collect();
        }
        let is_retired = random.below(10) < retired;
        let mut record = if is_retired { self.of_kind(random, 2) } else { self.valid(random) };
        let damages = random.pick(&[0, 0, 1, 1, 1, 1, 1, 2, 2, 3]);
        for _ in 0..damages {
            self.damage(random, &mut record);
        }
        record
    }

    /// One damage, or a change that happens to be none.
    fn damage(&self, random: &mut Random, record: &mut Vec<u8>) {
        let kind = record.get(2).copied().unwrap_or(0);
        let has_month = matches!(kind, 1 | 2 | 5);
        match random.below(20) {
            // The length field.
            0 => {
                let length = record.len();
                let any = random.below(65_536);
                let field =
                    random.pick(&[0, 4, 8, 9, 10, 11, length, length + 1, length + 256, 2570, 65_535, any]);
                put_two(record, 0, field);
            }
            // The kind, its high byte too.
            1 => {
                let any = random.below(65_536);
                let high = kind as usize + 256 * random.between(1, 255);
                let field = random.pick(&[0, 2, 6, 255, 256, 257, 258, 512, 1024, 1280, 65_535, high, high, any]);
                put_two(record, 2, field);
            }
            // Another kind from 0 to 7, with nothing else changed.
            2 => put_two(record, 2, random.below(8)),
            // Another kind, with the length and the length field made to fit.
            3 => {
                let other = random.between(1, 5);
                let length = if other == 3 || other == 4 { 9 } else { 10 };
                record.resize(length, random.byte());
                put_two(record, 0, length);
                put_two(record, 2, other);
            }
            // The system.
            4 | 5 => {
                let any = random.byte();
                let system = random.pick(&[0, 4, 255, 1, 2, 3, any]);
                put(record, 4, system);
            }
            // The year, or the low half of the register day.
            6 | 7 => {
                let any = random.below(65_536);
                let near = random.between(1, 3000);
                let year = random.pick(&[0, 1, 2999, 3000, 3001, 3002, 65_535, 256, any, near]);
                put_two(record, 5, year);
            }
            // The month.
            8 if has_month => {
                let any = random.byte();
                let month = random.pick(&[0, 1, 11, 12, 13, 255, any]);
                put(record, 7, month);
            }
            9 if has_month => put(record, 7, random.between(1, 12) as u8),
            // The leap byte; most months are not leap.
            10 if has_month => {
                let any = random.byte();
                let leap = random.pick(&[0, 1, 1, 2, 3, 255, any]);
                put(record, 8, leap);
            }
            // The day of the month, or the name.
            8..=11 if has_month => {
                let any = random.byte();
                let day = random.pick(&[0, 1, 29, 30, 31, 32, 59, 60, 61, 128, 255, any]);
                put(record, 9, day);
            }
            12 if has_month => put(record, 9, random.byte()),
            // The leap mark, wrong for most months; at times also a day or a
            // name, or a month, that is in no year.
            13 | 14 if has_month => {
                put(record, 8, 1);
                if random.once_in(3) {
                    put(record, 9, random.pick(&[0, 31, 60, 61, 255]));
                }
                if random.once_in(8) {
                    put(record, 7, random.pick(&[0, 13]));
                }
            }
            // The ordinal.
            8..=14 if kind == 3 => {
                let any = random.below(65_536);
                let near = random.between(354, 385);
                let ordinal = random.pick(&[0, 1, near, near, near, near, 256, 512, 65_535, any]);
                put_two(record, 7, ordinal);
            }
            // The register day.
            8..=14 => {
                let any = random.next() as u32;
                let edge = random.pick(&self.edges);
                let day = random.pick(&[edge, edge, edge, edge, any]);
                put_two(record, 5, day as usize % 65_536);
                put_two(record, 7, day as usize / 65_536);
            }
            // Any byte, or one bit of it.
            15 if !record.is_empty() => {
                let at = random.below(record.len());
                record[at] = random.byte();
            }
            16 if !record.is_empty() => {
                let at = random.below(record.len());
                record[at] ^= 1 << random.below(8);
            }
            // Cut, the length field left or made to fit.
            15 | 16 | 17 => {
                let length = random.below(record.len() + 1);
                record.truncate(length);
                if random.once_in(3) {
                    put_two(record, 0, length);
                }
            }
            18 => record.truncate(random.below(5)),
            // Lengthened, the length field left or made to fit.
            _ => {
                let length = random.between(record.len(), 20);
                while record.len() < length {
                    record.push(random.byte());
                }
                if random.once_in(3) {
                    put_two(record, 0, length);
                }
            }
        }
    }
}

fn put(record: &mut [u8], at: usize, value: u8) {
    if at < record.len() {
        record[at] = value;
    }
}

fn put_two(record: &mut [u8], at: usize, value: usize) {
    put(record, at, (value % 256) as u8);
    put(record, at + 1, (value / 256 % 256) as u8);
}
