//! Request Q-1 of paper 02: where two systems differ in a year.

use crate::lines::month_text;
use crate::reckoning::{Month, Tables};
use crate::requests::{system_asked, year_asked, Answer, Number};

/// The first to the thirteenth month.
const PLACES: std::ops::RangeInclusive<usize> = 1..=13;

/// Either system wrong is refused before a wrong year.
pub fn comparison(tables: &Tables, first: &Number, second: &Number, year: &Number) -> Answer {
    let first = system_asked(first)?;
    let second = system_asked(second)?;
    let year = year_asked(year)?;
    Ok(accepted_comparison(tables, first, second, year))
}

fn accepted_comparison(tables: &Tables, first: u8, second: u8, number: i128) -> Vec<String> {
    let (first, second) = (tables.table(first).unwrap(), tables.table(second).unwrap());
    let (of_first, of_second) = (&first.year(number).months, &second.year(number).months);
    // A place that a year lacks is past the end of its months.
    let listed: Vec<String> = PLACES
        .filter_map(|place| place_line(place, of_first.get(place - 1), of_second.get(place - 1)))
        .collect();
    let letters = format!("{} {}", first.system.letter, second.system.letter);
    let mut lines = vec![format!("compare {} {} {}", letters, number, listed.len())];
    lines.extend(listed);
    lines
}

/// The line of a place where the systems differ.
fn place_line(place: usize, first: Option<&Month>, second: Option<&Month>) -> Option<String> {
    let told = match (first, second) {
        (None, None) => return None,
        (None, Some(_)) => "first".to_string(),
        (Some(_), None) => "second".to_string(),
        (Some(first), Some(second)) if differ(first, second) => (second.head - first.head).to_string(),
        (Some(_), Some(_)) => return None,
    };
    Some(format!("place {} {} {} {}", place, side(first), side(second), told))
}

fn differ(first: &Month, second: &Month) -> bool {
    first.number != second.number || first.leap != second.leap || first.head != second.head
}

/// What one system has at a place.
fn side(month: Option<&Month>) -> String {
    match month {
        Some(month) => format!("{} {}", month_text(month.number, month.leap), month.head),
        None => "- -".to_string(),
    }
}
