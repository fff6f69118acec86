//! Request Q-10 of paper 02: the submerged day (没日) of a qi and the
//! extinguished day (灭日) of a new moon, each told as its distance in whole
//! days from the day that the qi or the new moon falls on.

use crate::fraction::Fraction;
use crate::reckoning::{Month, System, Tables};
use crate::requests::{song_system_asked, year_asked, Answer, Number};

/// A year's qi. A wrong system is refused before a wrong year.
pub fn submerged_page(system: &Number, year: &Number) -> Answer {
    let system = song_system_asked(system)?;
    let year = year_asked(year)?;
    Ok(accepted_qi(System::numbered(system).unwrap(), year))
}

/// A year's new moons, refused in the same order.
pub fn extinguished_page(tables: &Tables, system: &Number, year: &Number) -> Answer {
    let system = song_system_asked(system)?;
    let year = year_asked(year)?;
    let table = tables.table(system).unwrap();
    Ok(accepted_moons(table.system, year, &table.year(year).months))
}

fn accepted_qi(system: &System, year: i128) -> Vec<String> {
    let mut lines = vec![format!("submerged {} {}", system.letter, year)];
    lines.extend(system.qi(year).iter().enumerate().map(|(i, qi)| {
        let distance = submerged(system, qi.parts, qi.units);
        format!("qi {} {} {}", i, qi.day, distance_text(distance))
    }));
    lines
}

fn accepted_moons(system: &System, year: i128, months: &[Month]) -> Vec<String> {
    let mut lines = vec![format!("extinguished {} {}", system.letter, year)];
    lines.extend(months.iter().enumerate().map(|(i, month)| {
        let distance = extinguished(system, month.remainder);
        format!("moon {} {} {}", i + 1, month.head, distance_text(distance))
    }));
    lines
}

fn distance_text(distance: Option<i128>) -> String {
    distance.map_or("-".to_string(), |days| days.to_string())
}

/// The distance of the submerged day of a qi with this remainder, if it has
/// one.
pub fn submerged(system: &System, parts: i128, units: i128) -> Option<i128> {
    match system.number {
        1 => submerged_in_guantian(parts, units),
        2 => submerged_in_jiyuan(parts, units),
        _ => panic!("no submerged days in {}", system.letter),
    }
}

/// From 9,402 whole parts on: a third of a part below is still below.
fn submerged_in_guantian(parts: i128, units: i128) -> Option<i128> {
    let remainder = Fraction::new(36 * parts + units, 36);
    if !remainder.at_least(Fraction::whole(9_402)) {
        return None;
    }
    let left = 4_393_880 - 360 * parts - 10 * units;
    Some(Fraction::new(left, 63_080).cut_down())
}

/// From 5,697 and a quarter on.
fn submerged_in_jiyuan(parts: i128, units: i128) -> Option<i128> {
    let remainder = Fraction::new(4 * parts + units, 4);
    if !remainder.at_least(Fraction::new(4 * 5_697 + 1, 4)) {
        return None;
    }
    let left = Fraction::whole(443_771).less(remainder.times(60));
    Some(left.divided_by(6_371).cut_down())
}

/// The distance of the extinguished day of a new moon with this remainder, if
/// it has one.
pub fn extinguished(system: &System, remainder: i128) -> Option<i128> {
    let limit = match system.number {
        1 => 5_647,
        2 => 3_422,
        _ => panic!("no extinguished days in {}", system.letter),
    };
    if remainder >= limit {
        return None;
    }
    Some(Fraction::new(30 * remainder, limit).cut_down())
}
