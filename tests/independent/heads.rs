//! Request Q-5 of paper 02: the heads of years, beside which the printed ones
//! are held. Here every head is reckoned, and none is printed.

use crate::reckoning::Tables;
use crate::requests::{system_asked, year_asked, Answer, Number};

/// A year and the register day of its head. A wrong system is refused before a
/// wrong year.
pub fn line(tables: &Tables, system: &Number, year: &Number) -> Answer {
    let system = system_asked(system)?;
    let year = year_asked(year)?;
    let head = tables.table(system).unwrap().year(year).head;
    Ok(vec![format!("{} {}", year, head)])
}
