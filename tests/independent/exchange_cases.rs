//! Request Q-11 of paper 02: floats as exact numbers, the fractions of all
//! counts, and rows. The numbers written out are worked out by hand.

use crate::cases::Checks;
use crate::citation::Refusal;
use crate::exchange::{
    export, export_answer, fraction_of_day, import, import_answer, row, Export, Exported, Imported, Scale, Scales,
    Time, FRACTION, PARTS,
};
use crate::exchange_streams::NO_SYSTEMS;
use crate::float::{nearest, value_of, Magnitude, Value};
use crate::random::Random;

pub fn run(checks: &mut Checks) {
    let scales = Scales::new();
    values_by_hand(checks);
    nearest_by_hand(checks);
    order(checks);
    exported_by_hand(&scales, checks);
    settled_by_hand(&scales, checks);
    rows_by_hand(&scales, checks);
    no_fractions(&scales, checks);
    no_parts(&scales, checks);
    refused_imports(&scales, checks);
    refused_exports(&scales, checks);
    for system in [1, 2] {
        let scale = scales.asked(system).unwrap();
        every_count(&scales, scale, checks);
        every_count_by_trying(scale, checks);
        random_fractions(&scales, scale, checks);
    }
}

const HALF: u64 = 0x3FE0_0000_0000_0000;
const ONE: u64 = 0x3FF0_0000_0000_0000;
const SIGN: u64 = 0x8000_0000_0000_0000;

/// Not a number: the two by a quiet bit alone, the least and the greatest by
/// their other bits, and these with a sign.
const NO_NUMBERS: [u64; 8] = [
    0x7FF8_0000_0000_0000,
    0x7FF4_0000_0000_0000,
    0x7FF0_0000_0000_0001,
    0x7FFF_FFFF_FFFF_FFFF,
    0xFFF8_0000_0000_0000,
    0xFFF4_0000_0000_0000,
    0xFFF0_0000_0000_0001,
    0xFFFF_FFFF_FFFF_FFFF,
];

fn refused<T>(number: u8) -> Result<T, Refusal> {
    Err(Refusal::plain(number))
}

/// Exponents are told from 1,023 for that of one, and significands without their
/// first bit; 0 and 2,047 for an exponent are of other sorts.
fn values_by_hand(checks: &mut Checks) {
    for (bits, significand, exponent) in [
        (ONE, 1, 0),
        (HALF, 1, -1),
        (0x4008_0000_0000_0000, 3, 0),
        (0x3FB9_9999_9999_999A, 0x19_9999_9999_999A, -56),
        (0x7FEF_FFFF_FFFF_FFFF, 0x1F_FFFF_FFFF_FFFF, 971),
        (0x0010_0000_0000_0000, 1, -1022),
        (0x000F_FFFF_FFFF_FFFF, 0xF_FFFF_FFFF_FFFF, -1074),
        (0x0000_0000_0000_0001, 1, -1074),
        (0, 0, 0),
    ] {
        let magnitude = Magnitude::new(significand, exponent);
        for (sign, negative) in [(0, false), (SIGN, true)] {
            checks.same("Q-11, a float", value_of(sign + bits), Value::Finite { negative, magnitude });
        }
    }
    for (bits, negative) in [(0x7FF0_0000_0000_0000, false), (0xFFF0_0000_0000_0000, true)] {
        checks.same("Q-11, infinite", value_of(bits), Value::Infinite { negative });
    }
    for bits in NO_NUMBERS {
        checks.same("Q-11, no number", value_of(bits), Value::NotANumber);
    }
    checks.same("Q-11, one", Magnitude::ONE, Magnitude::new(1, 0));
    checks.same("Q-11, nought", Magnitude::NOUGHT, Magnitude::new(0, 0));
}

/// Fractions from a half up to one, where a float's significand is a count of
/// 2^53rds: between 2^52 and the next, at, above and below the middle; in the
/// middle between an odd one and an even one above; and just below one, to which
/// all from half a 2^53rd below are rounded.
fn nearest_by_hand(checks: &mut Checks) {
    for (over, under, bits) in [
        (0, 1, 0),
        (1, 2, HALF),
        ((1 << 53) + 1, 1 << 54, HALF),
        ((1 << 55) + 3, 1 << 56, HALF),
        ((1 << 55) + 5, 1 << 56, HALF + 1),
        ((1 << 53) + 3, 1 << 54, HALF + 2),
        ((1 << 55) - 3, 1 << 55, ONE - 1),
        ((1 << 54) - 1, 1 << 54, ONE),
        ((1 << 55) - 1, 1 << 55, ONE),
        (1, 4, 0x3FD0_0000_0000_0000),
        (3, 4, 0x3FE8_0000_0000_0000),
    ] {
        checks.same(&format!("Q-11, {} / {}", over, under), nearest(over, under), bits);
    }
}

fn magnitude(bits: u64) -> Magnitude {
    match value_of(bits) {
        Value::Finite { magnitude, .. } => magnitude,
        _ => panic!("no finite float"),
    }
}

/// A float from 0 up in binary, from the highest place that any has down to that
/// of 2^-1074: in this form numbers are in the order of their places.
fn written_out(bits: u64) -> Vec<bool> {
    let (exponent, rest) = (bits >> 52, bits % (1 << 52));
    let (significand, lowest) = if exponent == 0 { (rest, 0) } else { (rest + (1 << 52), exponent as usize - 1) };
    let mut places = vec![false; 2045 + 53];
    for bit in 0..53 {
        places[lowest + bit] = significand >> bit & 1 == 1;
    }
    places.reverse();
    places
}

/// Magnitudes are in the order of the numbers, and so are the bits themselves.
fn order(checks: &mut Checks) {
    let mut all = vec![0, 1, 2, HALF, ONE, 0x7FEF_FFFF_FFFF_FFFF];
    for near in [1 << 52, 2 << 52, HALF, ONE, 0x3F15_CA75_8D2C_228F] {
        all.extend([near - 1, near, near + 1]);
    }
    let mut random = Random::new(1094);
    for bits in 0..63 {
        all.extend([1 << bits, random.next() % (1 << bits)]);
    }
    all.retain(|bits| bits >> 52 < 2047);
    let written: Vec<Vec<bool>> = all.iter().map(|bits| written_out(*bits)).collect();
    for (a, first) in all.iter().zip(&written) {
        for (b, second) in all.iter().zip(&written) {
            let due = first.cmp(second);
            let same = magnitude(*a).cmp(&magnitude(*b)) == due && a.cmp(b) == due;
            checks.that(same, || format!("Q-11, order of {:016X} and {:016X}", a, b));
        }
    }
}

/// Fractions of few digits, whose bits repeat. 12,030 is 10 times 1,203 and 6
/// times 2,005; 7,290 is 10 times 729 and 9 times 810.
/// - The halves are exact.
/// - A third is 1 and a third by 4, and also 5 by 16 and a sixteenth of itself: a
///   third of a unit is left after the last five, and cut off. So with two thirds.
/// - A fifth is 1 and six tenths by 8, and six tenths are 9 by 16 and a sixteenth
///   of themselves: six tenths of a unit are left after the last nine, and make it
///   A. So with a tenth. Three tenths are 1 and a fifth by 4, and a fifth of a unit
///   is left after the last three.
/// - Five sixths are 1 and two thirds by 2, and two thirds of a unit are left after
///   the last A, and make it B.
/// - A ninth is 1 and seven ninths by 16, and seven ninths are C71 by 4,096 and as
///   much again: 4 ninths of a unit are left after the fifth C.
///
/// The ends of the day: 2^53 is 12,030 times 748,728,117,601 and 962 more, and
/// 7,290 times 1,235,555,453,325 and 1,742 more.
/// - The last counts are one less these in 2^53rds, to the nearest without the
///   rest: rounded up.
/// - 2^66 is 2^13 times as much as 2^53: 12,030 times 6,133,580,739,388,047 and
///   1,054 more. So one part, between 2^-14 and 2^-13, is rounded down.
/// - 2^65 is 2^12 times as much: 7,290 times 5,060,835,136,820,178 and 5,612 more,
///   which is over half. So one part, between 2^-13 and 2^-12, is rounded up.
const EXPORTED: [(u64, u64, u64); 19] = [
    (1, 0, 0),
    (1, 1, 0x3F10_0000_0000_0000 + 6_133_580_739_388_047 - (1 << 52)),
    (1, 1_203, 0x3FB9_9999_9999_999A),
    (1, 2_406, 0x3FC9_9999_9999_999A),
    (1, 3_609, 0x3FD3_3333_3333_3333),
    (1, 4_010, 0x3FD5_5555_5555_5555),
    (1, 6_015, 0x3FE0_0000_0000_0000),
    (1, 8_020, 0x3FE5_5555_5555_5555),
    (1, 10_025, 0x3FEA_AAAA_AAAA_AAAB),
    (1, 12_029, ONE - 748_728_117_601),
    (2, 0, 0),
    (2, 1, 0x3F20_0000_0000_0000 + 5_060_835_136_820_179 - (1 << 52)),
    (2, 729, 0x3FB9_9999_9999_999A),
    (2, 810, 0x3FBC_71C7_1C71_C71C),
    (2, 2_187, 0x3FD3_3333_3333_3333),
    (2, 2_430, 0x3FD5_5555_5555_5555),
    (2, 3_645, 0x3FE0_0000_0000_0000),
    (2, 6_075, 0x3FEA_AAAA_AAAA_AAAB),
    (2, 7_289, ONE - 1_235_555_453_325),
];

/// Each of these settles to its own count, and so does the next float up; the
/// next one down settles to the count before. So the third of a day, rounded down
/// and thereby less than 4,010 parts, is 4,010 parts.
fn exported_by_hand(scales: &Scales, checks: &mut Checks) {
    for (system, parts, bits) in EXPORTED {
        let what = format!("Q-11, system {}, {} parts", system, parts);
        checks.same(&what, scales.asked(system).unwrap().exported[parts as usize], bits);
        settles(scales, checks, system, bits, parts);
        settles(scales, checks, system, bits + 1, parts);
        if parts > 0 {
            settles(scales, checks, system, bits - 1, parts - 1);
        }
    }
}

/// A fraction is told as it came, and settles to this count.
fn settles(scales: &Scales, checks: &mut Checks, system: u64, bits: u64, count: u64) {
    let what = format!("Q-11, system {}, fraction {:016X}", system, bits);
    let due = Ok(Imported { day: 2_120_808, time: Time::Fraction(bits), count });
    checks.same(&what, import(scales, system, &row(2_120_808, FRACTION, bits.to_le_bytes())), due);
}

/// Fractions that are no count's own.
/// - A quarter of 12,030 is 3,007 and a half, three quarters are 9,022 and a half;
///   a quarter of 7,290 is 1,822 and a half.
/// - 12,030 by 2^12 is twice and 3,838 more, by 2^13 once and as many more, and by
///   2^14 below one. 7,290 by 2^12 is once and 3,194 more, by 2^13 below one.
/// - The last float below one is in the last part of the day; whatever is below
///   the normal numbers is in the first, and so is nought with either sign.
fn settled_by_hand(scales: &Scales, checks: &mut Checks) {
    for (bits, in_guantian, in_jiyuan) in [
        (0x3FD0_0000_0000_0000, 3_007, 1_822),
        (0x3FE8_0000_0000_0000, 9_022, 5_467),
        (0x3F30_0000_0000_0000, 2, 1),
        (0x3F20_0000_0000_0000, 1, 0),
        (0x3F10_0000_0000_0000, 0, 0),
        (0x3FEF_FFFF_FFFF_FFFF, 12_029, 7_289),
        (0x0010_0000_0000_0000, 0, 0),
        (0x000F_FFFF_FFFF_FFFF, 0, 0),
        (0x0000_0000_0000_0001, 0, 0),
        (0x0000_0000_0000_0000, 0, 0),
        (0x8000_0000_0000_0000, 0, 0),
    ] {
        settles(scales, checks, 1, bits, in_guantian);
        settles(scales, checks, 2, bits, in_jiyuan);
    }
}

/// An export that nothing speaks against.
const NOON: Export = Export { system: 1, day: 2_120_808, parts: 6_015, units: 0, room: 13 };

/// Noon of day 2120808 as it is exported, and as parts: 6,015 is 23 times 256 and
/// 127.
const NOON_ROW: [u8; 13] = [0x68, 0x5C, 0x20, 0x00, 1, 0, 0, 0, 0, 0, 0, 0xE0, 0x3F];
const NOON_IN_PARTS: [u8; 13] = [0x68, 0x5C, 0x20, 0x00, 2, 0x7F, 0x17, 0, 0, 0, 0, 0, 0];

/// Rows byte by byte, and what C is told: tag, count, refusal and day are the
/// first two digits, the next four, the next two and the last eight.
fn rows_by_hand(scales: &Scales, checks: &mut Checks) {
    for (units, cut, to_c) in [(0, false, 0), (1, true, 1), (256, true, 1), (u64::MAX, true, 1)] {
        for room in [13, 14, 255] {
            let came = export(scales, &Export { units, room, ..NOON });
            checks.same("Q-11, exported", came, Ok(Exported { row: NOON_ROW, cut }));
            checks.same("Q-11, exported, to C", export_answer(&came), to_c);
        }
    }
    let all_bytes = export(scales, &Export { day: 0x0403_0201, parts: 1_203, ..NOON });
    let due = [1, 2, 3, 4, 1, 0x9A, 0x99, 0x99, 0x99, 0x99, 0x99, 0xB9, 0x3F];
    checks.same("Q-11, exported", all_bytes.map(|exported| exported.row), Ok(due));

    let to_c = |system, row: &[u8]| import_answer(&import(scales, system, row));
    checks.same("Q-11, noon to C", to_c(1, &NOON_ROW), 0x0117_7F00_0020_5C68);
    checks.same("Q-11, noon in Jiyuan to C", to_c(2, &NOON_ROW), 0x010E_3D00_0020_5C68);
    checks.same("Q-11, noon in parts to C", to_c(1, &NOON_IN_PARTS), 0x0217_7F00_0020_5C68);
    checks.same("Q-11, all days to C", to_c(1, &row(u32::MAX, PARTS, [0; 8])), 0x0200_0000_FFFF_FFFF);
    let evening = import(scales, 2, &row(0, FRACTION, (ONE - 1).to_le_bytes()));
    checks.same("Q-11, day 0 to C", import_answer(&evening), 0x011C_7900_0000_0000);
    let in_parts = Imported { day: 2_120_808, time: Time::Parts(6_015), count: 6_015 };
    checks.same("Q-11, noon in parts", import(scales, 1, &NOON_IN_PARTS), Ok(in_parts));

    checks.same("Q-11, 3 to C", to_c(1, &NOON_ROW[..12]), 0x0003_0000_0000);
    checks.same("Q-11, 4 to C", to_c(3, &NOON_ROW), 0x0004_0000_0000);
    checks.same("Q-11, 2 to C", to_c(1, &row(2_120_808, 3, [0; 8])), 0x0002_0000_0000);
    checks.same("Q-11, 12 to C", to_c(1, &row(2_120_808, FRACTION, [255; 8])), 0x000C_0000_0000);
    let refused = |asked: Export| export_answer(&export(scales, &asked));
    checks.same("Q-11, export, 4 to C", refused(Export { system: 3, units: 1, ..NOON }), 0x0004_0000_0000);
    checks.same("Q-11, export, 12 to C", refused(Export { parts: 12_030, units: 1, ..NOON }), 0x000C_0000_0000);
    checks.same("Q-11, export, 8 to C", refused(Export { room: 12, units: 1, ..NOON }), 0x0008_0000_0000);
}

/// Floats that are no fraction of the day: no number, infinite, one and above,
/// below zero, where the nearest to it is first.
fn no_fractions(scales: &Scales, checks: &mut Checks) {
    let others = [
        ONE,
        ONE + 1,
        0x4000_0000_0000_0000,
        0x7FEF_FFFF_FFFF_FFFF,
        0x7FF0_0000_0000_0000,
        0x8000_0000_0000_0001,
        0x8010_0000_0000_0000,
        SIGN + HALF,
        SIGN + ONE,
        0xFFF0_0000_0000_0000,
    ];
    for bits in others.into_iter().chain(NO_NUMBERS) {
        for system in [1, 2] {
            let came = import(scales, system, &row(2_120_808, FRACTION, bits.to_le_bytes()));
            checks.same(&format!("Q-11, fraction {:016X}", bits), came, refused(12));
        }
    }
}

/// The first two bytes are below D and the others 0, or the time is refused.
fn no_parts(scales: &Scales, checks: &mut Checks) {
    let in_parts = |system, time: [u8; 8]| import(scales, system, &row(7, PARTS, time)).map(|told| told.count);
    for (system, in_day) in [(1, 12_030), (2, 7_290)] {
        for parts in 0..=65_535_u16 {
            let [low, high] = parts.to_le_bytes();
            let due = if parts < in_day { Ok(parts as u64) } else { refused(12) };
            checks.same("Q-11, parts", in_parts(system, [low, high, 0, 0, 0, 0, 0, 0]), due);
        }
        for (at, byte) in (2..8).flat_map(|at| (1..=255).map(move |byte| (at, byte))) {
            for parts in [0, 1, in_day - 1, in_day] {
                let [low, high] = parts.to_le_bytes();
                let mut time = [low, high, 0, 0, 0, 0, 0, 0];
                time[at] = byte;
                checks.same("Q-11, filler", in_parts(system, time), refused(12));
            }
        }
    }
}

/// Each refusal of an import with all that could be refused after it, and with
/// the next one alone: 3, 4, 2, 12.
fn refused_imports(scales: &Scales, checks: &mut Checks) {
    let no_number = NO_NUMBERS[0].to_le_bytes();
    for system in [1, 2].into_iter().chain(NO_SYSTEMS) {
        let is_known = system == 1 || system == 2;
        for tag in 0..=255 {
            for (sound, whole) in [(true, row(7, tag, [0; 8])), (false, row(7, tag, no_number))] {
                for length in (0..13).chain(14..=32) {
                    let mut other = whole.to_vec();
                    other.resize(length, 0);
                    checks.same("Q-11, length", import(scales, system, &other), refused(3));
                }
                let due = match tag {
                    _ if !is_known => 4,
                    FRACTION | PARTS if sound => 0,
                    FRACTION | PARTS => 12,
                    _ => 2,
                };
                let came = import(scales, system, &whole).map_or_else(|refusal| refusal.number, |_| 0);
                checks.same("Q-11, system, tag, time", came, due);
            }
        }
    }
}

/// Likewise those of an export: 4, 12, 8.
fn refused_exports(scales: &Scales, checks: &mut Checks) {
    for (system, in_day) in [(1, 12_030), (2, 7_290), (0, 0), (3, 1_843), (4, 0), ((1 << 32) + 1, 0), (u64::MAX, 0)] {
        for parts in [0, 1, 7_289, 7_290, 12_029, 12_030, 65_535, 65_536, 1 << 32, (1 << 32) + 1, u64::MAX] {
            for room in (0..=16).chain([255]) {
                let due = match system {
                    1 | 2 if parts >= in_day => 12,
                    1 | 2 if room < 13 => 8,
                    1 | 2 => 0,
                    _ => 4,
                };
                let came = export(scales, &Export { system, parts, room, ..NOON });
                checks.same("Q-11, export", came.map_or_else(|refusal| refusal.number, |_| 0), due);
            }
        }
    }
}

/// How far a float is from a fraction below one, in shares of 2^-80 of the
/// fraction's unit.
fn distance(bits: u64, over: u128, under: u128) -> u128 {
    (magnitude(bits).in_units_of(-80) * under).abs_diff(over << 80)
}

/// Every exported fraction by its distance: nearer to its count than the floats
/// next to it. The fractions rise, and each comes back as its own count. None
/// but the first and the half are exact, for 6,015 and 3,645 are odd, and halved
/// no further.
fn every_count(scales: &Scales, scale: &Scale, checks: &mut Checks) {
    let in_day = scale.parts_in_day() as u128;
    checks.same("Q-11, counts", in_day, if scale.system == 1 { 12_030 } else { 7_290 });
    for (parts, bits) in scale.exported.iter().enumerate() {
        let say = |what: &str| format!("Q-11, system {}, {} parts: {}", scale.system, parts, what);
        let to = |bits| distance(bits, parts as u128, in_day);
        checks.that((to(*bits) == 0) == (parts == 0 || 2 * parts as u128 == in_day), || say("exact"));
        if parts > 0 {
            checks.that(to(*bits) < to(bits - 1) && to(*bits) < to(bits + 1), || say("not the nearest"));
            let before = scale.exported[parts - 1];
            checks.that(written_out(before) < written_out(*bits), || say("does not rise"));
        }
        let asked = Export { system: scale.system, parts: parts as u64, ..NOON };
        let back = export(scales, &asked).and_then(|exported| import(scales, scale.system, &exported.row));
        let due = Ok(Imported { day: NOON.day, time: Time::Fraction(*bits), count: parts as u64 });
        checks.that(back == due, || say("does not come back"));
    }
}

/// Every count's fraction and its neighbours, by trying all counts.
fn every_count_by_trying(scale: &Scale, checks: &mut Checks) {
    for (parts, bits) in scale.exported.iter().enumerate() {
        let parts = parts as u64;
        for (near, due) in [(Some(*bits), parts), (Some(bits + 1), parts), (bits.checked_sub(1), parts.max(1) - 1)] {
            let Some(near) = near else { continue };
            let came = scale.settled_by_trying(fraction_of_day(near).unwrap());
            checks.that(came == due, || format!("Q-11, system {}, {:016X}", scale.system, near));
        }
    }
}

/// Fractions anywhere in the day and far too small ones settle alike by halving
/// and by trying.
fn random_fractions(scales: &Scales, scale: &Scale, checks: &mut Checks) {
    let mut random = Random::new(1107);
    for i in 0..4_000 {
        let bits = if i % 4 == 0 { random.next() % ONE } else { nearest(random.next() as u128 >> 11, 1 << 53) };
        settles(scales, checks, scale.system, bits, scale.settled_by_trying(fraction_of_day(bits).unwrap()));
    }
}
