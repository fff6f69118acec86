//! The page of a year: qi, months and day names.

use crate::lines::{moment_line, month_text};
use crate::reckoning::{name_of, Month, Table, Tables};
use crate::requests::{system_asked, year_asked, Answer, Number};

/// A wrong system is refused before a wrong year.
pub fn page(tables: &Tables, system: &Number, year: &Number) -> Answer {
    let system = system_asked(system)?;
    let year = year_asked(year)?;
    Ok(accepted_page(tables.table(system).unwrap(), year))
}

fn accepted_page(table: &Table, number: i128) -> Vec<String> {
    let year = table.year(number);
    let (letter, months) = (table.system.letter, year.months.len());
    let mut lines = vec![format!("year {} {} {} {}", letter, number, months, year.length())];
    lines.extend(year.qi.iter().enumerate().map(|(i, qi)| moment_line("qi", i, qi)));
    lines.extend(year.months.iter().enumerate().map(month_line));
    lines.push(format!("next {}", year.next_head));
    let names: Vec<String> = (year.head..year.next_head).map(|day| name_of(day).to_string()).collect();
    lines.push(format!("names {}", names.join(" ")));
    lines
}

/// A month and, last, its reasons: the new moon's remainder and the index
/// of the middle qi that it holds.
fn month_line((i, month): (usize, &Month)) -> String {
    let (text, head) = (month_text(month.number, month.leap), month.head);
    let days = format!("{} {} {}", head, name_of(head), month.length);
    let held = month.held.map_or("-".to_string(), |j| j.to_string());
    format!("month {} {} {} {} {}", i + 1, text, days, month.remainder, held)
}
