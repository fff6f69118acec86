//! Streams of cases for the exchange of rows.
//!
//! A frame begins with a byte that tells the call:
//! - 1, an export: system (8 bytes), register day (4), parts (8), small units
//!   (8), output length (1), the expected answer (8), and then, where there is
//!   no refusal, the expected row (13);
//! - 2, an import: system (8), row length (1), the row, a 0 for the output that
//!   it does not have, the expected answer (8).
//!
//! All numbers are little-endian.

use crate::citation::Refusal;
use crate::exchange::{
    export, export_answer, import, import_answer, row, Export, Exported, Imported, Scale, Scales, Time, FRACTION,
    PARTS, ROW,
};
use crate::float::{nearest, value_of, Magnitude, Value};
use crate::random::Random;
use crate::streams::{expected, lent};
use crate::tally::Tally;
use std::io::{self, Write};

/// What an export and an import can answer, in the order of their checks.
pub const EXPORT_ANSWERS: [u8; 4] = [0, 4, 12, 8];
pub const IMPORT_ANSWERS: [u8; 5] = [0, 3, 4, 2, 12];

/// A call with what is due, as a frame.
fn export_frame(out: &mut impl Write, asked: &Export, due: &Result<Exported, Refusal>) -> io::Result<()> {
    out.write_all(&[1])?;
    out.write_all(&asked.system.to_le_bytes())?;
    out.write_all(&asked.day.to_le_bytes())?;
    out.write_all(&asked.parts.to_le_bytes())?;
    out.write_all(&asked.units.to_le_bytes())?;
    let written = due.as_ref().map_or(&[][..], |exported| &exported.row);
    expected(out, asked.room, export_answer(due), written)
}

fn import_frame(
    out: &mut impl Write,
    system: u64,
    row: &[u8],
    due: &Result<Imported, Refusal>,
) -> io::Result<()> {
    out.write_all(&[2])?;
    out.write_all(&system.to_le_bytes())?;
    lent(out, row)?;
    expected(out, 0, import_answer(due), &[])
}

/// The same with what is due by the rules.
fn write_export(out: &mut impl Write, scales: &Scales, asked: &Export) -> io::Result<()> {
    export_frame(out, asked, &export(scales, asked))
}

fn write_import(out: &mut impl Write, scales: &Scales, system: u64, row: &[u8]) -> io::Result<()> {
    import_frame(out, system, row, &import(scales, system, row))
}

/// Other systems than the two. Some would be one of these if they were cut to
/// fewer bytes.
pub const NO_SYSTEMS: [u64; 15] = [
    0,
    3,
    4,
    255,
    256,
    257,
    258,
    65_537,
    65_538,
    0x1_0000_0000,
    0x1_0000_0001,
    0x1_0000_0002,
    0x8000_0000_0000_0001,
    u64::MAX - 1,
    u64::MAX,
];

fn any_systems() -> impl Iterator<Item = u64> {
    [1, 2].into_iter().chain(NO_SYSTEMS)
}

/// Days of the calendars and others: a row's day is not judged.
const DAYS: [u32; 9] =
    [0, 1, 2_120_808, 2_817_138, 0x0102_0304, 0x7FFF_FFFF, 0x8000_0000, 0xFF00_0000, 0xFFFF_FFFF];

/// Small units, none of which are too many to be cut off. The larger ones end
/// in bytes of 0.
const UNITS: [u64; 11] = [0, 1, 3, 4, 35, 36, 256, 65_536, 0x1_0000_0000, 0x8000_0000_0000_0000, u64::MAX];

/// Counts at the ends of both systems' days, and others that would be below if
/// they were cut to fewer bytes.
const COUNTS: [u64; 20] = [
    0,
    1,
    6_015,
    7_289,
    7_290,
    7_291,
    12_029,
    12_030,
    12_031,
    32_768,
    65_535,
    65_536,
    71_551,
    0xFFFF_FFFF,
    0x1_0000_0000,
    0x1_0000_0001,
    0x1_0000_177F,
    0x8000_0000_0000_0000,
    u64::MAX - 1,
    u64::MAX,
];

/// Every count of a system, without small units and with, into outputs that have
/// room and ones that have not; then, also for other systems, counts and small
/// units of all sizes and outputs of all lengths.
pub fn exports(scales: &Scales, scale: &Scale, out: &mut impl Write) -> io::Result<()> {
    for i in 0..scale.exported.len() {
        let (day, units) = (DAYS[i % DAYS.len()], UNITS[i % UNITS.len()]);
        let asked = Export { system: scale.system, day, parts: i as u64, units: 0, room: ROW };
        write_export(out, scales, &asked)?;
        write_export(out, scales, &Export { day: !day, units, room: ROW + i % 4, ..asked })?;
        write_export(out, scales, &Export { units, room: i % ROW, ..asked })?;
    }
    for system in [scale.system].into_iter().chain(NO_SYSTEMS) {
        for (parts, units) in COUNTS.iter().flat_map(|parts| UNITS.iter().map(move |units| (*parts, *units))) {
            for room in (0..=16).chain([64, 255]) {
                let day = DAYS[room % DAYS.len()];
                write_export(out, scales, &Export { system, day, parts, units, room })?;
            }
        }
    }
    Ok(())
}

/// Every count of a system as a row: as parts, as its own fraction and its
/// neighbours by one bit, and by the fraction halfway to the next count's. What
/// is expected comes from the counts. Bits of floats from 0 up are in the order
/// of the floats, so that all from one count's fraction up to the next settle to
/// that count.
pub fn fractions(scale: &Scale, out: &mut impl Write) -> io::Result<()> {
    const ONE: u64 = 0x3FF0_0000_0000_0000;
    for (i, own) in scale.exported.iter().enumerate() {
        let day = DAYS[i % DAYS.len()];
        let count = i as u64;
        let due = Ok(Imported { day, time: Time::Parts(i as u16), count });
        import_frame(out, scale.system, &row(day, PARTS, count.to_le_bytes()), &due)?;
        let next = scale.exported.get(i + 1).copied().unwrap_or(ONE);
        for bits in [*own, own + 1, own + (next - own) / 2, next - 1] {
            let due = Ok(Imported { day, time: Time::Fraction(bits), count });
            import_frame(out, scale.system, &row(day, FRACTION, bits.to_le_bytes()), &due)?;
        }
    }
    Ok(())
}

/// Rows of all wrong lengths, tags and systems, several wrong at once among
/// them; every number of parts; every filler; and fractions of every exponent.
pub fn rows(scales: &Scales, out: &mut impl Write) -> io::Result<()> {
    wrong_several(scales, out)?;
    for system in [1, 2] {
        parts_and_fillers(scales, system, out)?;
        for (i, bits) in bit_patterns().into_iter().enumerate() {
            let day = DAYS[i % DAYS.len()];
            write_import(out, scales, system, &row(day, FRACTION, bits.to_le_bytes()))?;
        }
    }
    Ok(())
}

/// Times that are sound and wrong: half a day, negative nought, no number, below
/// zero, one; a count, too many parts, a filler.
const TIMES: [u64; 8] = [
    0x3FE0_0000_0000_0000,
    0x8000_0000_0000_0000,
    0x7FF8_0000_0000_0000,
    0xBFE0_0000_0000_0000,
    0x3FF0_0000_0000_0000,
    6_015,
    65_535,
    0x0001_0000,
];

fn wrong_several(scales: &Scales, out: &mut impl Write) -> io::Result<()> {
    for (system, time) in any_systems().flat_map(|system| TIMES.map(|time| (system, time))) {
        for tag in 0..=255 {
            let whole = row(DAYS[tag as usize % DAYS.len()], tag, time.to_le_bytes());
            write_import(out, scales, system, &whole)?;
            if ![0, 1, 2, 3, 255].contains(&tag) {
                continue;
            }
            for length in (0..ROW).chain(ROW + 1..=16).chain([17, 25, 26, 39, 64, 255]) {
                let mut cut = whole.to_vec();
                cut.resize(length, 0);
                write_import(out, scales, system, &cut)?;
            }
        }
    }
    Ok(())
}

fn parts_and_fillers(scales: &Scales, system: u64, out: &mut impl Write) -> io::Result<()> {
    for parts in 0..=65_535_u64 {
        let day = DAYS[parts as usize % DAYS.len()];
        write_import(out, scales, system, &row(day, PARTS, parts.to_le_bytes()))?;
    }
    for parts in [0, 1, 7_289, 7_290, 12_029, 12_030, 65_535] {
        for (place, byte) in (2..8).flat_map(|place| (1..=255).map(move |byte| (place, byte))) {
            let time: u64 = parts + (byte << (8 * place));
            write_import(out, scales, system, &row(2_120_808, PARTS, time.to_le_bytes()))?;
        }
    }
    Ok(())
}

/// Every sign and exponent with some significands, and every single bit.
fn bit_patterns() -> Vec<u64> {
    let significands = [0, 1, 2, 0x5_5555_5555_5555, 1 << 51, (1 << 51) + 1, (1 << 52) - 2, (1 << 52) - 1];
    let with = |above: u64| significands.map(|significand| (above << 52) + significand);
    (0..4096).flat_map(with).chain((0..64).map(|bit| 1 << bit)).collect()
}

/// How often each answer came in a random run, and each sort of time.
#[derive(Default)]
pub struct Met {
    pub exports: Tally,
    pub imports: Tally,
    times: [u64; SORTS.len()],
}

/// The sorts of times in rows that nothing but their time could speak against.
const SORTS: [&str; 11] = [
    "nought",
    "negative nought",
    "subnormal",
    "fraction",
    "no number",
    "infinite",
    "below zero",
    "not below one",
    "count",
    "too many parts",
    "filler",
];

fn sort_of(scale: &Scale, tag: u8, bits: u64) -> &'static str {
    if tag == PARTS {
        return match bits {
            bits if bits > 65_535 => "filler",
            bits if bits >= scale.parts_in_day() => "too many parts",
            _ => "count",
        };
    }
    match value_of(bits) {
        Value::NotANumber => "no number",
        Value::Infinite { .. } => "infinite",
        Value::Finite { negative: false, magnitude: Magnitude::NOUGHT } => "nought",
        Value::Finite { negative: true, magnitude: Magnitude::NOUGHT } => "negative nought",
        Value::Finite { negative: true, .. } => "below zero",
        Value::Finite { magnitude, .. } if magnitude >= Magnitude::ONE => "not below one",
        Value::Finite { .. } if bits < 1 << 52 => "subnormal",
        Value::Finite { .. } => "fraction",
    }
}

impl Met {
    fn note_row(&mut self, scales: &Scales, system: u64, row: &[u8]) {
        let (Ok(scale), Ok([_, _, _, _, tag, time @ ..])) = (scales.asked(system), <[u8; ROW]>::try_from(row)) else {
            return;
        };
        if tag == FRACTION || tag == PARTS {
            let sort = sort_of(scale, tag, u64::from_le_bytes(time));
            self.times[SORTS.iter().position(|other| *other == sort).unwrap()] += 1;
        }
    }

    pub fn times_text(&self) -> String {
        let text = |(sort, times): (&&str, u64)| format!("{} {}", sort, times);
        let texts: Vec<String> = SORTS.iter().zip(self.times).map(text).collect();
        texts.join(", ")
    }

    pub fn all_times(&self) -> bool {
        self.times.iter().all(|times| *times > 0)
    }
}

/// Random exports and imports.
pub fn random(scales: &Scales, seed: u64, count: u64, out: &mut impl Write) -> io::Result<Met> {
    let mut random = Random::new(seed);
    let mut met = Met::default();
    for _ in 0..count {
        if random.once_in(3) {
            let asked = random_export(&mut random);
            let due = export(scales, &asked);
            met.exports.count(&due);
            export_frame(out, &asked, &due)?;
        } else {
            let (system, row) = (random_system(&mut random), random_row(&mut random, scales));
            let due = import(scales, system, &row);
            met.imports.count(&due);
            met.note_row(scales, system, &row);
            import_frame(out, system, &row, &due)?;
        }
    }
    Ok(met)
}

fn random_system(random: &mut Random) -> u64 {
    match random.below(20) {
        0 | 1 => random.pick(&NO_SYSTEMS),
        2 => random.next(),
        _ => random.between(1, 2) as u64,
    }
}

fn random_export(random: &mut Random) -> Export {
    let any = random.next();
    let high = random.pick(&[8, 16, 32, 63]);
    let small = random_count(random);
    Export {
        system: random_system(random),
        day: random_day(random),
        parts: match random.below(10) {
            0 => random.pick(&COUNTS),
            1 => random.below(65_536) as u64,
            2 => small.wrapping_add(any << high),
            3 => any,
            _ => small,
        },
        units: match random.below(8) {
            0..=2 => 0,
            3 => any,
            4 => any << high,
            5 => random.pick(&UNITS),
            _ => random.below(40) as u64,
        },
        room: match random.below(8) {
            0 | 1 => random.below(ROW),
            2 => random.between(0, 255),
            _ => random.between(ROW, 16),
        },
    }
}

/// A count of one of the systems, which need not be one of the other.
fn random_count(random: &mut Random) -> u64 {
    let in_day = random.pick(&[7_290, 12_030]);
    random.below(in_day) as u64
}

fn random_day(random: &mut Random) -> u32 {
    if random.once_in(2) {
        return random.next() as u32;
    }
    random.between(1_721_407, 2_817_138) as u32
}

/// A row, at times of another length or with another tag.
fn random_row(random: &mut Random, scales: &Scales) -> Vec<u8> {
    let tag = match random.below(16) {
        0 => random.byte(),
        1 => random.pick(&[0, 3]),
        2..=5 => PARTS,
        _ => FRACTION,
    };
    let is_parts = if random.once_in(20) { random.once_in(2) } else { tag == PARTS };
    let time = if is_parts { random_parts(random) } else { random_bits(random, scales) };
    let mut row = row(random_day(random), tag, time.to_le_bytes()).to_vec();
    if random.once_in(10) {
        let longest = if random.once_in(4) { 255 } else { 16 };
        row.resize(random.between(0, longest), random.byte());
    }
    row
}

fn random_parts(random: &mut Random) -> u64 {
    let parts = match random.below(8) {
        0 => random.pick(&COUNTS) % 65_536,
        1 => random.below(65_536) as u64,
        _ => random_count(random),
    };
    let filler = match random.below(6) {
        0 => 1 << random.between(16, 63),
        1 => random.next() << random.pick(&[16, 24, 32, 40, 48, 56]),
        _ => 0,
    };
    parts + filler
}

/// The bits of a float of any sort, most of them at a count's fraction or near.
fn random_bits(random: &mut Random, scales: &Scales) -> u64 {
    const SIGN: u64 = 1 << 63;
    let any = random.next();
    let significand = any % (1 << 52);
    let exponent = |low, high, random: &mut Random| (random.between(low, high) as u64) << 52;
    let system = random.between(1, 2) as u64;
    let own = random.pick(&scales.asked(system).unwrap().exported);
    match random.below(20) {
        0..=2 => own,
        3..=5 => own.wrapping_add(random.below(7) as u64).wrapping_sub(3),
        6 => own ^ (1 << random.below(64)),
        // Anywhere in the day, with all bits that can be had there.
        7 | 8 => nearest((any >> 11) as u128, 1 << 53),
        // Exponents below that of one, most of which are far too small to count.
        9 => exponent(1, 1022, random) + significand,
        10 => exponent(1000, 1022, random) + significand,
        // Subnormals, the smallest among them.
        11 => significand >> random.below(52),
        12 => random.pick(&[0, SIGN]),
        // No numbers, of which one bit tells two sorts.
        13 => (any | 0x7FF0_0000_0000_0000) & !(random.pick(&[0, 1]) << 51),
        14 => random.pick(&[0, SIGN]) + (2047 << 52) + (significand & (1 << random.below(52))),
        15 => SIGN + own,
        16 => SIGN + (any % SIGN),
        17 => (0x3FF0_0000_0000_0000 + random.below(9) as u64) - 4,
        18 => exponent(1023, 2046, random) + significand,
        _ => any,
    }
}
