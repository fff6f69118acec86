//! The reckoning of every system, in whole numbers only, found by walking and
//! searching. Nothing here turns a rule round: a year's first month is found
//! by stepping from month to month, a month's number by trying every middle
//! qi against its days, a day's place by walking through the days.

use std::cell::OnceCell;
use std::ops::Range;

/// Paper 01, constants: one column of the table; and the units in which paper
/// 02, Q-4 tells a pentad's fraction of a part, which need not be the small
/// units of a qi. A year is told in solar parts and a month in lunar parts, of
/// which a day may have another number.
pub struct System {
    pub number: u8,
    pub letter: char,
    pub solar_parts_in_day: i128,
    pub lunar_parts_in_day: i128,
    pub solar_parts_in_year: i128,
    pub lunar_parts_in_month: i128,
    pub small_units_in_part: i128,
    pub pentad_units_in_part: i128,
    pub known_year: i128,
    pub elapsed_at_known_year: i128,
    /// Jiazi is 1 and jimao 16.
    pub name_of_count_day_0: i128,
    /// What is added to a count day; below 0 where the paper subtracts.
    pub register_day_of_count_day_0: i128,
}

const GUANTIAN: System = System {
    number: 1,
    letter: 'G',
    solar_parts_in_day: 12_030,
    lunar_parts_in_day: 12_030,
    solar_parts_in_year: 4_393_880,
    lunar_parts_in_month: 355_253,
    small_units_in_part: 36,
    pentad_units_in_part: 36,
    known_year: 1092,
    elapsed_at_known_year: 5_944_808,
    name_of_count_day_0: 1,
    register_day_of_count_day_0: -2_169_182_929,
};

const JIYUAN: System = System {
    number: 2,
    letter: 'J',
    solar_parts_in_day: 7_290,
    lunar_parts_in_day: 7_290,
    solar_parts_in_year: 2_662_626,
    lunar_parts_in_month: 215_278,
    small_units_in_part: 4,
    pentad_units_in_part: 60,
    known_year: 1100,
    elapsed_at_known_year: 28_613_460,
    name_of_count_day_0: 16,
    register_day_of_count_day_0: -10_448_760_934,
};

/// Paper 02, Q-6.
const JINGCHU: System = System {
    number: 3,
    letter: 'W',
    solar_parts_in_day: 1_843,
    lunar_parts_in_day: 4_559,
    solar_parts_in_year: 673_150,
    lunar_parts_in_month: 134_630,
    small_units_in_part: 12,
    pentad_units_in_part: 36,
    known_year: 237,
    elapsed_at_known_year: 4_045,
    name_of_count_day_0: 1,
    register_day_of_count_day_0: 330_191,
};

pub const SYSTEMS: [&System; 3] = [&GUANTIAN, &JIYUAN, &JINGCHU];

/// A moment in solar parts from the epoch, and one in lunar parts. They are two
/// kinds of number: only the days that such moments fall on can be compared.
#[derive(Clone, Copy, PartialEq, Eq, PartialOrd, Ord)]
pub struct Solar(pub i128);
#[derive(Clone, Copy, PartialEq, Eq, PartialOrd, Ord)]
pub struct Lunar(pub i128);

/// The years a request may name; the tables go one year further on each side.
pub const FIRST_YEAR: i128 = 1;
pub const LAST_YEAR: i128 = 3000;
const TABLE_END: i128 = 3002;

/// The equal steps from solstice to solstice.
const QI: i128 = 24;
const PENTADS: i128 = 72;

impl System {
    /// The system of that number, if there is one.
    pub fn numbered(number: u8) -> Option<&'static System> {
        SYSTEMS.into_iter().find(|system| system.number == number)
    }

    /// The winter solstice: a whole number of years after the epoch.
    pub fn solstice(&self, year: i128) -> Solar {
        let elapsed = self.elapsed_at_known_year + (year - self.known_year);
        Solar(elapsed * self.solar_parts_in_year)
    }

    pub fn solstice_day(&self, year: i128) -> i128 {
        let Solar(parts) = self.solstice(year);
        self.register_day(parts / self.solar_parts_in_day)
    }

    /// The solar parts of its day that have passed at the solstice.
    pub fn solstice_remainder(&self, year: i128) -> i128 {
        let Solar(parts) = self.solstice(year);
        parts % self.solar_parts_in_day
    }

    /// The register day that a new moon falls on.
    pub fn day_of_moon(&self, moon: Lunar) -> i128 {
        self.register_day(moon.0 / self.lunar_parts_in_day)
    }

    /// The lunar parts of that day that have passed at the new moon.
    pub fn remainder_of_moon(&self, moon: Lunar) -> i128 {
        moon.0 % self.lunar_parts_in_day
    }

    /// The new moon after this one.
    pub fn next_moon(&self, moon: Lunar) -> Lunar {
        Lunar(moon.0 + self.lunar_parts_in_month)
    }

    /// A count day, whole days since the epoch, as the register has it.
    pub fn register_day(&self, count_day: i128) -> i128 {
        count_day + self.register_day_of_count_day_0
    }

    /// The year's qi in order: the solstice first and qi 24, which is all of Y
    /// after it, last.
    pub fn qi(&self, year: i128) -> Vec<Moment> {
        (0..=QI).map(|i| self.step(year, i, QI, self.small_units_in_part)).collect()
    }

    /// The year's pentads in order, the solstice first.
    pub fn pentads(&self, year: i128) -> Vec<Moment> {
        (0..PENTADS).map(|p| self.step(year, p, PENTADS, self.pentad_units_in_part)).collect()
    }

    /// The moment i equal steps after the solstice, of which the year has so
    /// many, exactly: a part is cut into that many times its units, so that a
    /// step, an equal share of Y parts, is Y * units of these. It must come out
    /// in whole units.
    fn step(&self, year: i128, i: i128, steps: i128, units_in_part: i128) -> Moment {
        let fine_in_part = units_in_part * steps;
        let fine_in_day = self.solar_parts_in_day * fine_in_part;
        let fine_in_step = self.solar_parts_in_year * units_in_part;
        let Solar(solstice) = self.solstice(year);
        let moment = solstice * fine_in_part + i * fine_in_step;
        let left_of_day = moment % fine_in_day;
        let left_of_part = left_of_day % fine_in_part;
        assert!(left_of_part % steps == 0, "a step begins between two units");
        Moment {
            day: self.register_day(moment / fine_in_day),
            parts: left_of_day / fine_in_part,
            units: left_of_part / steps,
        }
    }
}

/// The sixty-day name, 1 (jiazi) to 60 (guihai), by one rule for every system.
pub fn name_of(register_day: i128) -> u8 {
    (register_day + 49).rem_euclid(60) as u8 + 1
}

/// The register day that a qi or a pentad falls on, and the solar parts and
/// units of a part past its beginning.
#[derive(PartialEq, Eq)]
pub struct Moment {
    pub day: i128,
    pub parts: i128,
    pub units: i128,
}

pub struct Month {
    /// Its own new moon.
    pub new_moon: Lunar,
    pub head: i128,
    pub length: i128,
    /// The lunar parts of its first day that have passed at the new moon.
    pub remainder: i128,
    /// Which of the middle qi of its year it holds, 0 to 11, if it holds one.
    pub held: Option<usize>,
    pub number: u8,
    pub leap: bool,
}

impl Month {
    pub fn days(&self) -> Range<i128> {
        self.head..self.head + self.length
    }
}

pub struct Year {
    pub number: i128,
    pub qi: Vec<Moment>,
    pub months: Vec<Month>,
    pub head: i128,
    pub next_head: i128,
}

impl Year {
    /// Days from this year's head up to the day before the next year's head.
    pub fn length(&self) -> i128 {
        self.next_head - self.head
    }
}

/// Where a day stands, noted down while walking through the days.
#[derive(Clone, Copy, PartialEq, Eq, Debug)]
pub struct Place {
    pub year: u16,
    pub month: u8,
    pub leap: bool,
    pub day_of_month: u8,
    pub ordinal: u16,
}

/// All years of one system, and the place of every day of years 1 to 3000.
pub struct Table {
    pub system: &'static System,
    pub years: Vec<Year>,
    pub first_day: i128,
    pub places: Vec<Place>,
}

impl Table {
    pub fn new(system: &'static System) -> Table {
        let years = all_years(system);
        let mut first_day = None;
        let mut places = Vec::new();
        for year in &years {
            if year.number < FIRST_YEAR || year.number > LAST_YEAR {
                continue;
            }
            if first_day.is_none() {
                first_day = Some(year.head);
            }
            let mut ordinal = 0;
            for month in &year.months {
                for day_of_month in 1..=month.length {
                    ordinal += 1;
                    places.push(Place {
                        year: year.number as u16,
                        month: month.number,
                        leap: month.leap,
                        day_of_month: day_of_month as u8,
                        ordinal,
                    });
                }
            }
        }
        Table { system, years, first_day: first_day.unwrap(), places }
    }

    /// The year of that number. The list begins with year 0, so a year's
    /// number is also its place there.
    pub fn year(&self, number: i128) -> &Year {
        let year = &self.years[number as usize];
        assert!(year.number == number);
        year
    }

    /// The place of a register day, if it is a day of years 1 to 3000.
    pub fn place(&self, day: i128) -> Option<Place> {
        if day < self.first_day {
            return None;
        }
        self.places.get((day - self.first_day) as usize).copied()
    }
}

/// A table for each of the systems. The walk from the epoch is long, so it is
/// made when it is first asked for, and a refused request needs none.
pub struct Tables([OnceCell<Table>; SYSTEMS.len()]);

impl Tables {
    pub fn new() -> Tables {
        Tables(SYSTEMS.map(|_| OnceCell::new()))
    }

    pub fn table(&self, system: u8) -> Option<&Table> {
        let place = SYSTEMS.iter().position(|other| other.number == system)?;
        Some(self.0[place].get_or_init(|| Table::new(SYSTEMS[place])))
    }
}

/// Years 0 to 3002, by one walk along the mean new moons. The first is the
/// epoch itself, and each comes M parts after the one before it.
fn all_years(system: &'static System) -> Vec<Year> {
    // It is a long way to the first of them, on which no day is looked at
    // until the solstice's day of the year before. A day begins a whole number
    // of days after the epoch, which lunar parts can tell as well.
    let days = system.solstice_day(-1) - system.register_day(0);
    let day_begins = Lunar(days * system.lunar_parts_in_day);
    let mut moon = Lunar(0);
    while moon < day_begins {
        moon = system.next_moon(moon);
    }
    // A year opens with the month that holds its solstice's day.
    walk_to_month_with(system, &mut moon, system.solstice_day(0));
    let mut years = Vec::new();
    for number in 0..=TABLE_END {
        let first_moon = moon;
        // The next year, found in the same way, ends it.
        walk_to_month_with(system, &mut moon, system.solstice_day(number + 1));
        years.push(year_between(system, number, first_moon, moon));
    }
    years
}

/// Steps forward while the next month's first day is not past the day.
fn walk_to_month_with(system: &System, moon: &mut Lunar, day: i128) {
    assert!(system.day_of_moon(*moon) <= day);
    while system.day_of_moon(system.next_moon(*moon)) <= day {
        *moon = system.next_moon(*moon);
    }
}

fn year_between(system: &System, number: i128, first_moon: Lunar, end_moon: Lunar) -> Year {
    let qi = system.qi(number);
    let mut months = Vec::new();
    let mut moon = first_moon;
    while moon < end_moon {
        months.push(month_at(system, &qi, moon, months.last()));
        moon = system.next_moon(moon);
    }
    assert!(moon == end_moon);
    Year {
        number,
        qi,
        months,
        head: system.day_of_moon(first_moon),
        next_head: system.day_of_moon(end_moon),
    }
}

fn month_at(system: &System, qi: &[Moment], new_moon: Lunar, before: Option<&Month>) -> Month {
    // The numbers of the months that hold the year's middle qi, in order.
    const NUMBERS: [u8; 12] = [11, 12, 1, 2, 3, 4, 5, 6, 7, 8, 9, 10];
    // Its days run from the day of its new moon to the day before the next.
    let head = system.day_of_moon(new_moon);
    let next = system.day_of_moon(system.next_moon(new_moon));
    let mut held = None;
    for j in 0..12 {
        // The qi's day decides: on the first day it may come before the moon.
        if (head..next).contains(&qi[2 * j].day) {
            assert!(held.is_none(), "a month holds two middle qi");
            held = Some(j);
        }
    }
    // Without a middle qi of its own it is leap and repeats the number before.
    let number = match held {
        Some(j) => NUMBERS[j],
        None => before.expect("the first month is leap").number,
    };
    Month {
        new_moon,
        head,
        length: next - head,
        remainder: system.remainder_of_moon(new_moon),
        held,
        number,
        leap: held.is_none(),
    }
}
