//! Request Q-4 of paper 02: the seventy-two pentads of a year, and the pentad
//! in force on a day.

use crate::lines::moment_line;
use crate::reckoning::{System, FIRST_YEAR, LAST_YEAR};
use crate::requests::{day_asked, system_asked, year_asked, Answer, Number};
use std::ops::Range;

/// A year's pentads. A wrong system is refused before a wrong year.
pub fn page(system: &Number, year: &Number) -> Answer {
    let system = system_asked(system)?;
    let year = year_asked(year)?;
    Ok(accepted_page(System::numbered(system).unwrap(), year))
}

fn accepted_page(system: &System, year: i128) -> Vec<String> {
    let mut lines = vec![format!("pentads {} {}", system.letter, year)];
    let pentads = system.pentads(year);
    lines.extend(pentads.iter().enumerate().map(|(p, pentad)| moment_line("pentad", p, pentad)));
    lines
}

/// A pentad by its year, counted from solstice to solstice, and its number
/// there; and the register day that its moment falls on.
#[derive(Clone, Copy, PartialEq, Eq, Debug)]
pub struct Pentad {
    pub year: i128,
    pub number: usize,
    pub day: i128,
}

/// All pentads of one system in order, with a year more on either side than a
/// day may be asked for in.
pub struct Pentads {
    pub system: &'static System,
    pub list: Vec<Pentad>,
}

impl Pentads {
    pub fn new(system: &'static System) -> Pentads {
        let mut list = Vec::new();
        for year in FIRST_YEAR - 1..=LAST_YEAR + 1 {
            for (number, moment) in system.pentads(year).iter().enumerate() {
                list.push(Pentad { year, number, day: moment.day });
            }
        }
        Pentads { system, list }
    }

    /// Those of the system asked for. It does not change from day to day, so
    /// they are listed once and a refusal is kept in their place.
    pub fn asked(system: &Number) -> Result<Pentads, u8> {
        let system = system_asked(system)?;
        Ok(Pentads::new(System::numbered(system).unwrap()))
    }

    /// The days that may be asked for: from the solstice day of year 1 to the
    /// day before that of year 3001.
    pub fn days(&self) -> Range<i128> {
        self.system.solstice_day(FIRST_YEAR)..self.system.solstice_day(LAST_YEAR + 1)
    }

    /// The pentad in force at the end of a day: the last of the list that falls
    /// on that day or earlier, whatever the time of day. The list is in the
    /// order of the days, so the search may halve it.
    pub fn in_force(&self, day: i128) -> Option<Pentad> {
        let later = self.list.partition_point(|pentad| pentad.day <= day);
        self.list[..later].last().copied()
    }
}

/// A wrong system is refused before a wrong day.
pub fn in_force_line(pentads: &Result<Pentads, u8>, day: &Number) -> Answer {
    let pentads = pentads.as_ref().map_err(|refusal| *refusal)?;
    let day = day_asked(day, pentads.days())?;
    let Pentad { year, number, .. } = pentads.in_force(day).unwrap();
    Ok(vec![format!("{} {} {} {}", day, pentads.system.letter, year, number)])
}
