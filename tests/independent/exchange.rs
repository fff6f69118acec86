//! Request Q-11 of paper 02: rows of the observatory's list, and the parts of a
//! day as the fractions that are exchanged by them.

use crate::citation::Refusal;
use crate::float::{nearest, value_of, Magnitude, Value};
use crate::reckoning::System;

/// Bytes in a row: a register day (4), a tag, a time (8).
pub const ROW: usize = 13;

/// The tags: a fraction of the day, and a count of parts.
pub const FRACTION: u8 = 1;
pub const PARTS: u8 = 2;

/// One of the two systems that rows are exchanged in, and the bits of the
/// exported fractions of all its counts below D, in their order.
pub struct Scale {
    pub system: u64,
    pub exported: Vec<u64>,
    /// The fractions themselves.
    magnitudes: Vec<Magnitude>,
}

impl Scale {
    fn new(number: u8) -> Scale {
        let in_day = System::numbered(number).unwrap().solar_parts_in_day as u128;
        let exported: Vec<u64> = (0..in_day).map(|parts| nearest(parts, in_day)).collect();
        let magnitudes = exported.iter().map(|bits| fraction_of_day(*bits).unwrap()).collect();
        Scale { system: number as u64, exported, magnitudes }
    }

    /// D, below which a count is.
    pub fn parts_in_day(&self) -> u64 {
        self.exported.len() as u64
    }

    /// The largest count whose exported fraction is not above this one, found by
    /// halving: the fractions rise with the counts.
    fn settled(&self, fraction: Magnitude) -> u64 {
        self.magnitudes.partition_point(|exported| *exported <= fraction) as u64 - 1
    }

    /// The same by the words of the request: every count is tried, from the
    /// largest down.
    pub fn settled_by_trying(&self, fraction: Magnitude) -> u64 {
        let largest = self.magnitudes.iter().rposition(|exported| *exported <= fraction);
        largest.expect("a fraction below nought") as u64
    }
}

/// The scales of both systems.
pub struct Scales([Scale; 2]);

impl Scales {
    pub fn new() -> Scales {
        Scales([Scale::new(1), Scale::new(2)])
    }

    /// 4: rows are not exchanged in such a system.
    pub fn asked(&self, system: u64) -> Result<&Scale, Refusal> {
        self.0.iter().find(|scale| scale.system == system).ok_or(Refusal::plain(4))
    }
}

/// The fraction that these bits stand for. 12: no number, one below zero, or one
/// not below one. Negative zero is not below zero.
pub fn fraction_of_day(bits: u64) -> Result<Magnitude, Refusal> {
    match value_of(bits) {
        Value::Finite { magnitude: Magnitude::NOUGHT, .. } => Ok(Magnitude::NOUGHT),
        Value::Finite { negative: false, magnitude } if magnitude < Magnitude::ONE => Ok(magnitude),
        _ => Err(Refusal::plain(12)),
    }
}

/// What is asked to be exported, and into how many bytes of output.
#[derive(Clone, Copy)]
pub struct Export {
    pub system: u64,
    pub day: u32,
    pub parts: u64,
    pub units: u64,
    pub room: usize,
}

/// A row, and whether small units were cut off from what it tells.
#[derive(Clone, Copy, PartialEq, Eq, Debug)]
pub struct Exported {
    pub row: [u8; ROW],
    pub cut: bool,
}

pub fn export(scales: &Scales, asked: &Export) -> Result<Exported, Refusal> {
    let scale = scales.asked(asked.system)?;
    // 12: no count of parts of a day
    if asked.parts >= scale.parts_in_day() {
        return Err(Refusal::plain(12));
    }
    // 8: no room for the row
    if asked.room < ROW {
        return Err(Refusal::plain(8));
    }
    let time = scale.exported[asked.parts as usize];
    Ok(Exported { row: row(asked.day, FRACTION, time.to_le_bytes()), cut: asked.units > 0 })
}

pub fn row(day: u32, tag: u8, time: [u8; 8]) -> [u8; ROW] {
    let [a, b, c, d] = day.to_le_bytes();
    let [e, f, g, h, i, j, k, l] = time;
    [a, b, c, d, tag, e, f, g, h, i, j, k, l]
}

/// A time as it came: a fraction, by its bits, or a count.
#[derive(Clone, Copy, PartialEq, Eq, Debug)]
pub enum Time {
    Fraction(u64),
    Parts(u16),
}

impl Time {
    fn tag(self) -> u8 {
        match self {
            Time::Fraction(_) => FRACTION,
            Time::Parts(_) => PARTS,
        }
    }
}

/// A row's day as it stands, its time as it came, and the count that this
/// settles to.
#[derive(Clone, Copy, PartialEq, Eq, Debug)]
pub struct Imported {
    pub day: u32,
    pub time: Time,
    pub count: u64,
}

pub fn import(scales: &Scales, system: u64, row: &[u8]) -> Result<Imported, Refusal> {
    // 3: not the length of a row
    let Ok([a, b, c, d, tag, time @ ..]) = <[u8; ROW]>::try_from(row) else {
        return Err(Refusal::plain(3));
    };
    let scale = scales.asked(system)?;
    let (time, count) = match tag {
        FRACTION => settled_fraction(scale, u64::from_le_bytes(time))?,
        PARTS => settled_parts(scale, time)?,
        // 2: no such tag
        _ => return Err(Refusal::plain(2)),
    };
    Ok(Imported { day: u32::from_le_bytes([a, b, c, d]), time, count })
}

fn settled_fraction(scale: &Scale, bits: u64) -> Result<(Time, u64), Refusal> {
    let count = scale.settled(fraction_of_day(bits)?);
    Ok((Time::Fraction(bits), count))
}

/// 12: no count of parts of a day, or a filler that is not nought.
fn settled_parts(scale: &Scale, [low, high, filler @ ..]: [u8; 8]) -> Result<(Time, u64), Refusal> {
    let parts = u16::from_le_bytes([low, high]);
    if parts as u64 >= scale.parts_in_day() || filler.iter().any(|byte| *byte != 0) {
        return Err(Refusal::plain(12));
    }
    Ok((Time::Parts(parts), parts as u64))
}

/// What C is told of an export: 1 where small units were cut off, or 2^32 times
/// the refusal.
pub fn export_answer(result: &Result<Exported, Refusal>) -> u64 {
    match result {
        Ok(exported) => exported.cut as u64,
        Err(refusal) => 4_294_967_296 * refusal.number as u64,
    }
}

/// What C is told of an import: the day, 2^40 times the count and 2^56 times the
/// tag, or 2^32 times the refusal.
pub fn import_answer(result: &Result<Imported, Refusal>) -> u64 {
    match result {
        Ok(Imported { day, time, count }) => {
            *day as u64 + 1_099_511_627_776 * count + 72_057_594_037_927_936 * time.tag() as u64
        }
        Err(refusal) => 4_294_967_296 * refusal.number as u64,
    }
}
