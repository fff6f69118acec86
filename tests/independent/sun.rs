//! Request Q-12 of paper 02: the sun's excess and shortfall (盈缩分) in
//! Guantian, on a day so many whole days after a solstice.

use crate::fraction::Fraction;
use crate::requests::{day_asked, Answer, Number};
use std::ops::Range;

/// The days that may be asked for.
const DAYS: Range<i128> = 0..183;

/// Which solstice the days are counted from.
#[derive(Clone, Copy, PartialEq, Eq, Debug)]
pub enum Season {
    Winter,
    Summer,
}

impl Season {
    pub fn read(word: &str) -> Option<Season> {
        match word {
            "winter" => Some(Season::Winter),
            "summer" => Some(Season::Summer),
            _ => None,
        }
    }

    fn other(self) -> Season {
        match self {
            Season::Winter => Season::Summer,
            Season::Summer => Season::Winter,
        }
    }

    /// The paper's L, in days.
    fn limit(self) -> Fraction {
        match self {
            Season::Winter => days_and_parts(88, 10_958),
            Season::Summer => days_and_parts(93, 8_552),
        }
    }

    /// What to divide by where this season's L is used.
    fn divisor(self) -> i128 {
        match self {
            Season::Winter => 3_294,
            Season::Summer => 3_659,
        }
    }
}

fn days_and_parts(days: i128, parts: i128) -> Fraction {
    Fraction::new(12_030 * days + parts, 12_030)
}

/// The days to reckon with, and the season whose L is used with them.
fn days_taken(season: Season, day: i128) -> (Fraction, Season) {
    let day = Fraction::whole(day);
    if season.limit().at_least(day) {
        return (day, season);
    }
    (days_and_parts(182, 7_480).less(day), season.other())
}

/// In ten-thousandths of a degree, cut down only here.
pub fn amount(season: Season, day: i128) -> i128 {
    let (days, used) = days_taken(season, day);
    let rest = used.limit().times(2).less(days);
    let degrees = days.product(rest).divided_by(used.divisor());
    degrees.times(10_000).cut_down()
}

pub fn line(season: Season, day: &Number) -> Answer {
    let day = day_asked(day, DAYS)?;
    Ok(vec![format!("{} {}", day, amount(season, day))])
}
