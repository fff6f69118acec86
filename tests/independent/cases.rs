//! The check of this program itself: the examples and the general facts of
//! papers 01 and 02, with the papers' numbers written out.

use crate::almanac;
use crate::citation::{answer, store, Refusal, Stored};
use crate::exchange_cases;
use crate::heads;
use crate::lines::lines;
use crate::month_cases;
use crate::pentads::{self, in_force_line, Pentads};
use crate::reckoning::{
    name_of, Moment, Month, System, Table, Tables, Year, FIRST_YEAR, LAST_YEAR, SYSTEMS,
};
use crate::requests::{Answer, Number};
use crate::retired_cases;
use crate::streams::{citation_of, leap_marks, KINDS};
use crate::submerged_cases;
use crate::sun_cases;

pub struct Checks {
    pub passed: u64,
    pub failures: Vec<String>,
}

impl Checks {
    pub fn that(&mut self, holds: bool, what: impl Fn() -> String) {
        if holds {
            self.passed += 1;
        } else {
            self.failures.push(what());
        }
    }

    pub fn same<T: PartialEq + std::fmt::Debug>(&mut self, what: &str, got: T, paper: T) {
        self.that(got == paper, || format!("{}: got {:?}, the paper has {:?}", what, got, paper));
    }
}

pub fn run(tables: &Tables) -> Checks {
    let mut checks = Checks { passed: 0, failures: Vec::new() };
    examples(tables, &mut checks);
    days_with_qi_and_moon(tables, &mut checks);
    told_months(tables, &mut checks);
    pages_of_years(tables, &mut checks);
    pages_of_pentads(&mut checks);
    pentads_in_force(&mut checks);
    told_heads(tables, &mut checks);
    jingchu_years(tables, &mut checks);
    jingchu_leap_months(tables, &mut checks);
    jingchu_qi(tables, &mut checks);
    jingchu_days(tables, &mut checks);
    nineteen_years(tables, &mut checks);
    jingchu_remainders(tables, &mut checks);
    retired_cases::run(tables, &mut checks);
    month_cases::run(tables, &mut checks);
    submerged_cases::run(tables, &mut checks);
    exchange_cases::run(&mut checks);
    sun_cases::run(&mut checks);
    for system in SYSTEMS {
        let table = tables.table(system.number).unwrap();
        facts(table, &mut checks);
        names(table, &mut checks);
        carried_walk(table, &mut checks);
        every_day(tables, table, &mut checks);
        every_stored_form(tables, table, &mut checks);
        every_leap_mark(tables, table, &mut checks);
        every_told_month(tables, table, &mut checks);
        every_qi(table, &mut checks);
        every_pentad(table, &mut checks);
        every_day_in_force(table, &mut checks);
        retired_cases::every_old_day(tables, table, &mut checks);
        month_cases::every_month(tables, table, &mut checks);
    }
    checks
}

/// The refusal of a record stored with so much room, and the month told with
/// it; both are 0 when it is accepted.
pub fn refusal_with_room(tables: &Tables, record: &[u8], room: usize) -> (u8, u8) {
    match store(tables, record, room) {
        Ok(_) => (0, 0),
        Err(refusal) => (refusal.number, refusal.leap_month),
    }
}

/// The same with room enough.
pub fn refusal(tables: &Tables, record: &[u8]) -> (u8, u8) {
    refusal_with_room(tables, record, 10)
}

pub fn lines_of(tables: &Tables, input: &[u8]) -> String {
    let mut out = Vec::new();
    lines(tables, input, &mut out).unwrap();
    String::from_utf8(out).unwrap()
}

fn by_date(tables: &Tables, system: u8, year: u16, month: u8, leap: u8, day: u8) -> (u8, u8) {
    let y = year.to_le_bytes();
    refusal(tables, &[10, 0, 1, 0, system, y[0], y[1], month, leap, day])
}

fn by_ordinal(tables: &Tables, system: u8, year: u16, ordinal: u16) -> (u8, u8) {
    let (y, o) = (year.to_le_bytes(), ordinal.to_le_bytes());
    refusal(tables, &[9, 0, 3, 0, system, y[0], y[1], o[0], o[1]])
}

fn by_name(tables: &Tables, system: u8, year: u16, month: u8, leap: u8, name: u8) -> (u8, u8) {
    let y = year.to_le_bytes();
    refusal(tables, &[10, 0, 5, 0, system, y[0], y[1], month, leap, name])
}

/// One of these two: system, year, month, leap byte, and the day or the name.
type By = fn(&Tables, u8, u16, u8, u8, u8) -> (u8, u8);

fn leap_numbers(year: &Year) -> Vec<u8> {
    year.months.iter().filter(|m| m.leap).map(|m| m.number).collect()
}

/// The parts from a first month's new moon to the solstice, where the sun and
/// the moon have the same parts.
fn parts_to_solstice(system: &System, year: &Year) -> i128 {
    assert!(system.solar_parts_in_day == system.lunar_parts_in_day);
    system.solstice(year.number).0 - year.months[0].new_moon.0
}

/// A year's solstice as the papers tell it: day, name and remainder.
fn solstice_of(year: &Year) -> (i128, u8, i128) {
    let Moment { day, parts, .. } = year.qi[0];
    (day, name_of(day), parts)
}

/// The papers' examples 1 to 10, and the other places where paper 01 gives the
/// number of a day.
fn examples(tables: &Tables, checks: &mut Checks) {
    let guantian = tables.table(1).unwrap();
    let jiyuan = tables.table(2).unwrap();

    let y = guantian.year(1092);
    checks.same("1", solstice_of(y), (2119895, 25, 2_320));

    checks.same("2, parts before", parts_to_solstice(guantian.system, y), 28_067);
    checks.same("2, day", y.head, 2119892);
    checks.same("2, first month's head", y.months[0].head, 2119892);
    checks.same("2, name", name_of(y.head), 22);
    checks.same("2, remainder", y.months[0].remainder, 10_343);

    checks.same("3, months", y.months.len(), 12);
    checks.same("3, days", y.length(), 355);
    checks.same("3, ordinal 355", by_ordinal(tables, 1, 1092, 355), (0, 0));
    checks.same("3, ordinal 356", by_ordinal(tables, 1, 1092, 356), (7, 0));

    checks.same("4, number", (y.months[0].number, y.months[0].leap), (11, false));
    checks.same("4, days", y.months[0].length, 30);
    checks.same("4, name 51", by_name(tables, 1, 1092, 11, 0, 51), (0, 0));
    checks.same("4, name 52", by_name(tables, 1, 1092, 11, 0, 52), (7, 0));

    let y = guantian.year(1094);
    checks.same("5, head", y.head, 2120601);
    checks.same("5, months", y.months.len(), 13);
    checks.same("5, days", y.length(), 384);
    checks.same("5, ordinal 385", by_ordinal(tables, 1, 1094, 385), (7, 0));

    let (seventh, eighth) = (&y.months[6], &y.months[7]);
    checks.same("6, number", (eighth.number, eighth.leap), (5, false));
    checks.same("6, head", eighth.head, 2120808);
    checks.same("6, days", eighth.length, 29);
    checks.same("6, the month before", (seventh.number, seventh.leap), (4, true));

    let y = jiyuan.year(1106);
    checks.same("7", solstice_of(y), (2125008, 38, 4_536));

    checks.same("8, parts before", parts_to_solstice(jiyuan.system, y), 50_806);
    checks.same("8, day", y.head, 2125001);
    checks.same("8, name", name_of(y.head), 31);
    checks.same("8, remainder", y.months[0].remainder, 4_760);
    checks.same("8, months", y.months.len(), 12);

    let first = [0x0A, 0x00, 0x01, 0x00, 0x01, 0x46, 0x04, 0x05, 0x00, 0x01];
    let second = [0x0A, 0x00, 0x05, 0x00, 0x01, 0x46, 0x04, 0x05, 0x00, 0x26];
    let third = [0x09, 0x00, 0x03, 0x00, 0x01, 0x46, 0x04, 0xD0, 0x00];
    let fourth = [0x09, 0x00, 0x04, 0x00, 0x01, 0x68, 0x5C, 0x20, 0x00];
    let four: [&[u8]; 4] = [&first, &second, &third, &fourth];
    stored_alike(tables, checks, "9", &four, (2120808, first));

    let y = jiyuan.year(1107);
    checks.same("10, months of 1107", y.months.len(), 13);
    checks.same("10, leap of 1107", leap_numbers(y), vec![10]);
    let y = jiyuan.year(1108);
    checks.same("10, months of 1108", y.months.len(), 12);
    checks.same("10, leap of 1108", leap_numbers(y), vec![]);

    // The program's own example: case 9's records and a stray byte; and no
    // input at all.
    let mut input = four.concat();
    input.push(0);
    let expected = "G 1094 5 1 2120808 38\n".repeat(4) + "refused 1\n";
    checks.same("the program", lines_of(tables, &input), expected);
    checks.same("the program on nothing", lines_of(tables, &[]), String::new());

    // Two days of one name, sixty apart.
    checks.same("shared name, first", name_of(2120808), 38);
    checks.same("shared name, second", name_of(2120868), 38);
}

/// Records that name one day are all stored as the same ten bytes, and refused
/// where there is room for nine.
fn stored_alike(tables: &Tables, checks: &mut Checks, case: &str, records: &[&[u8]], stored: Stored) {
    for record in records {
        checks.same(&format!("{}, stored", case), store(tables, record, 10), Ok(stored));
        checks.same(&format!("{}, no room", case), store(tables, record, 9), Err(Refusal::plain(8)));
    }
}

/// What Q-2 says of two days on which a new moon follows a qi.
fn days_with_qi_and_moon(tables: &Tables, checks: &mut Checks) {
    let guantian = tables.table(1).unwrap();
    let y = guantian.year(1094);
    let (summer, month) = (&y.qi[12], &y.months[7]);
    checks.same("Q-2, day of the summer solstice", summer.day, 2120808);
    checks.same("Q-2, day of the new moon", month.head, 2120808);
    let parts_between = month.remainder - summer.parts;
    checks.same("Q-2, parts between them", (parts_between, summer.units), (76, 0));

    checks.same("Q-2, leap months of 1094", leap_numbers(y), vec![4]);

    let jiyuan = tables.table(2).unwrap();
    let y = jiyuan.year(1108);
    let before = parts_to_solstice(jiyuan.system, y);
    checks.that(-jiyuan.system.lunar_parts_in_month < before && before < 0, || {
        "Q-2: the first new moon of Jiyuan 1108 is not the next after its solstice".to_string()
    });
    checks.same("Q-2, day of that new moon", y.months[0].head, y.qi[0].day);
}

/// Leap 5 of Guantian 1094, whose leap month is 4, and of Guantian 1092, which
/// has none, in kinds 1 and 5; and leap 4 of 1094, which is there.
const LEAP_5_BY_DATE: [u8; 10] = [0x0A, 0x00, 0x01, 0x00, 0x01, 0x46, 0x04, 0x05, 0x01, 0x01];
const LEAP_5_BY_NAME: [u8; 10] = [0x0A, 0x00, 0x05, 0x00, 0x01, 0x46, 0x04, 0x05, 0x01, 0x26];
const NO_LEAP_BY_DATE: [u8; 10] = [0x0A, 0x00, 0x01, 0x00, 0x01, 0x44, 0x04, 0x05, 0x01, 0x01];
const NO_LEAP_BY_NAME: [u8; 10] = [0x0A, 0x00, 0x05, 0x00, 0x01, 0x44, 0x04, 0x05, 0x01, 0x26];
const LEAP_4_BY_DATE: [u8; 10] = [0x0A, 0x00, 0x01, 0x00, 0x01, 0x46, 0x04, 0x04, 0x01, 0x01];

/// A record with one byte changed.
pub fn changed(record: [u8; 10], at: usize, byte: u8) -> [u8; 10] {
    let mut other = record;
    other[at] = byte;
    other
}

/// What Q-3 says of a month that is marked leap and is not: refusal 10, its
/// place among the others, the month told with it, and how it is written.
fn told_months(tables: &Tables, checks: &mut Checks) {
    for by in [by_date, by_name] {
        told_with_ten(tables, checks, by);
        before_ten(tables, checks, by);
    }
    around_ten(tables, checks);

    for (record, line) in [
        (LEAP_5_BY_DATE, "refused 10 4\n"),
        (LEAP_5_BY_NAME, "refused 10 4\n"),
        (NO_LEAP_BY_DATE, "refused 10 0\n"),
        (NO_LEAP_BY_NAME, "refused 10 0\n"),
        (changed(LEAP_5_BY_DATE, 7, 13), "refused 6\n"),
        (changed(LEAP_5_BY_DATE, 8, 2), "refused 6\n"),
        (changed(LEAP_4_BY_DATE, 9, 31), "refused 7\n"),
    ] {
        checks.same("Q-3, the program", lines_of(tables, &record), line.to_string());
    }

    let to_c = |record: &[u8]| answer(&store(tables, record, 10));
    checks.same("Q-3, 10 telling 4 to C", to_c(&LEAP_5_BY_DATE), 0x040A_0000_0000);
    checks.same("Q-3, 10 telling none to C", to_c(&NO_LEAP_BY_DATE), 0x000A_0000_0000);
    checks.same("Q-3, 7 to C", to_c(&changed(LEAP_4_BY_DATE, 9, 31)), 0x0007_0000_0000);
    checks.same("Q-3, case 9 to C", to_c(&changed(LEAP_5_BY_DATE, 8, 0)), 2120808);
}

/// 10 and the month told, whatever the day or the name; and the leap months
/// themselves, in which a day or a name may be missing.
fn told_with_ten(tables: &Tables, checks: &mut Checks, by: By) {
    for byte in 0..=255 {
        checks.same("Q-3, leap 5 of 1094", by(tables, 1, 1094, 5, 1, byte), (10, 4));
        checks.same("Q-3, leap 5 of 1092", by(tables, 1, 1092, 5, 1, byte), (10, 0));
        checks.same("Q-3, leap 11 of 1107", by(tables, 2, 1107, 11, 1, byte), (10, 10));
        checks.same("Q-3, leap 11 of 1108", by(tables, 2, 1108, 11, 1, byte), (10, 0));
        checks.same("Q-3, leap 11 of 238", by(tables, 3, 238, 11, 1, byte), (10, 10));
        checks.same("Q-3, leap 10 of 237", by(tables, 3, 237, 10, 1, byte), (10, 0));
    }
    for (system, year, leap, place) in [(1, 1094, 4, 6), (2, 1107, 10, 12), (3, 238, 10, 12)] {
        let month = &tables.table(system).unwrap().year(year).months[place];
        let answers: Vec<(u8, u8)> =
            (0..=255).map(|byte| by(tables, system, year as u16, leap, 1, byte)).collect();
        let accepted = answers.iter().filter(|a| **a == (0, 0)).count();
        let missing = answers.iter().filter(|a| **a == (7, 0)).count();
        checks.same("Q-3, days of a leap month", accepted as i128, month.length);
        checks.same("Q-3, the rest of the bytes", accepted + missing, 256);
    }
}

/// The refusals that come first, although the leap byte is 1 and the month is
/// not leap: 6, and before it 5 and 4.
fn before_ten(tables: &Tables, checks: &mut Checks, by: By) {
    for number in (0..=255).filter(|n| !(1..=12).contains(n)) {
        checks.same("Q-3, no such number", by(tables, 1, 1094, number, 1, 1), (6, 0));
        checks.same("Q-3, no such number", by(tables, 1, 1092, number, 1, 1), (6, 0));
    }
    for leap in 2..=255 {
        checks.same("Q-3, no such leap byte", by(tables, 1, 1094, 4, leap, 1), (6, 0));
        checks.same("Q-3, no such leap byte", by(tables, 1, 1094, 5, leap, 1), (6, 0));
        checks.same("Q-3, no such leap byte", by(tables, 1, 1092, 5, leap, 1), (6, 0));
    }
    for year in [0, 3001, 65_535] {
        checks.same("Q-3, no such year", by(tables, 1, year, 5, 1, 1), (5, 0));
    }
    for system in [0, 4, 255] {
        checks.same("Q-3, no such system", by(tables, system, 1094, 5, 1, 1), (4, 0));
        checks.same("Q-3, no such system", by(tables, system, 0, 13, 1, 1), (4, 0));
    }
}

/// Refusals 1, 2, 11 and 3 before 10, and 7 and 8 after it.
fn around_ten(tables: &Tables, checks: &mut Checks) {
    for record in [LEAP_5_BY_DATE, LEAP_5_BY_NAME] {
        for length in 0..10 {
            let expected = if length < 4 { (1, 0) } else { (3, 0) };
            checks.same("Q-3, cut", refusal(tables, &record[..length]), expected);
        }
        checks.same("Q-3, length field 9", refusal(tables, &changed(record, 0, 9)), (3, 0));
        checks.same("Q-3, kind 3 in ten bytes", refusal(tables, &changed(record, 2, 3)), (3, 0));
        checks.same("Q-3, kind 0", refusal(tables, &changed(record, 2, 0)), (2, 0));
        checks.same("Q-3, kind 6", refusal(tables, &changed(record, 2, 6)), (2, 0));
        checks.same("Q-3, kind 2", refusal(tables, &changed(record, 2, 2)), (11, 0));
        for room in 0..10 {
            let no_day = changed(record, 9, 255);
            checks.same("Q-3, no room", refusal_with_room(tables, &record, room), (10, 4));
            checks.same("Q-3, no room, no day", refusal_with_room(tables, &no_day, room), (10, 4));
        }
    }
    for room in 0..10 {
        let no_day = changed(LEAP_4_BY_DATE, 9, 31);
        checks.same("Q-3, leap 4, no room", refusal_with_room(tables, &LEAP_4_BY_DATE, room), (8, 0));
        checks.same("Q-3, leap 4, no day", refusal_with_room(tables, &no_day, room), (7, 0));
    }
}

/// Systems that there are not. Some would be if they were cut to 8, 32 or 64
/// bits.
pub const NO_SYSTEMS: [&str; 5] = ["0", "4", "259", "4294967297", "18446744073709551618"];

/// Years that there are not, some of the same sort.
pub const NO_YEARS: [&str; 5] = ["0", "3001", "66628", "4294968388", "18446744073709552708"];

/// Every request by system and year refuses what there is not, the system
/// first.
fn refused_by_year(checks: &mut Checks, request: &str, ask: impl Fn(&str, &str) -> Answer) {
    for system in NO_SYSTEMS {
        for year in ["1092", "0"] {
            checks.same(&format!("{}, no such system", request), ask(system, year), Err(4));
        }
    }
    for year in NO_YEARS {
        for system in ["1", "2", "3"] {
            checks.same(&format!("{}, no such year", request), ask(system, year), Err(5));
        }
    }
}

/// The page of one year, or the refusal.
pub fn page_of(tables: &Tables, system: &str, year: &str) -> Answer {
    almanac::page(tables, &Number::read(system).unwrap(), &Number::read(year).unwrap())
}

/// The lines of one year's pentads, or the refusal.
fn pentads_of(system: &str, year: &str) -> Answer {
    pentads::page(&Number::read(system).unwrap(), &Number::read(year).unwrap())
}

/// The line of the pentad in force on one day, or the refusal.
fn in_force_on(system: &str, day: &str) -> Answer {
    let pentads = Pentads::asked(&Number::read(system).unwrap());
    in_force_line(&pentads, &Number::read(day).unwrap())
}

fn one_line(line: &str) -> Answer {
    Ok(vec![line.to_string()])
}

/// The first and the last qi of a page by hand. Qi 0 is the solstice of
/// cases 1 and 7 and of Q-6, and qi 24 is a year on: 365 days and 2,930, 1,776
/// or 455 parts. Of 3000, qi 24 is the solstice of 3001, N times Y by D, and qi
/// 0 is a year before it:
/// - Guantian: 5,946,717 times 4,393,880 is 26,129,160,891,960, or 2,172,000,074
///   days of 12,030 parts and 1,740 parts; the register has 2,169,182,929 less;
/// - Jiyuan: 28,615,361 times 2,662,626 is 76,192,004,197,986, or 10,451,578,079
///   days of 7,290 parts and 2,076 parts; the register has 10,448,760,934 less;
/// - Jingchu: 6,809 times 673,150 is 4,583,478,350, or 2,486,966 days of 1,843
///   parts and 12 parts; the register has 330,191 more.
fn pages_of_years(tables: &Tables, checks: &mut Checks) {
    for (system, year, first, last) in [
        ("1", "1092", "qi 0 2119895 25 2320 0", "qi 24 2120260 30 5250 0"),
        ("2", "1106", "qi 0 2125008 38 4536 0", "qi 24 2125373 43 6312 0"),
        ("3", "237", "qi 0 1807614 44 1161 0", "qi 24 1807979 49 1616 0"),
        ("1", "3000", "qi 0 2816779 9 10840 0", "qi 24 2817145 15 1740 0"),
        ("2", "3000", "qi 0 2816780 10 300 0", "qi 24 2817145 15 2076 0"),
        ("3", "3000", "qi 0 2816791 21 1400 0", "qi 24 2817157 27 12 0"),
    ] {
        let page = page_of(tables, system, year).unwrap();
        checks.same("Q-8, qi 0", page[1].as_str(), first);
        checks.same("Q-8, qi 24", page[25].as_str(), last);
        checks.that(page[26].starts_with("month 1 11 "), || format!("Q-8, after qi 24: {}", page[26]));
    }
    refused_by_year(checks, "Q-8", |system, year| page_of(tables, system, year));
}

/// Pentads of Q-4 by hand. The solstices are those of cases 1 and 7 and of
/// Q-6, and one step is added to them; a third pentad is a qi; the last is a
/// step before the next solstice, which for Guantian 1093 is 365 days and 2,930
/// parts on, and for Jingchu 238 is 365 days and 455 parts on.
fn pages_of_pentads(checks: &mut Checks) {
    let guantian = pentads_of("1", "1092").unwrap();
    checks.same("Q-4, lines", guantian.len(), 73);
    checks.same("Q-4, first line", guantian[0].as_str(), "pentads G 1092");
    checks.same("Q-4, solstice", guantian[1].as_str(), "pentad 0 2119895 25 2320 0");
    checks.same("Q-4, a step on", guantian[2].as_str(), "pentad 1 2119900 30 3196 4");
    checks.same("Q-4, a qi on", guantian[4].as_str(), "pentad 3 2119910 40 4948 12");
    checks.same("Q-4, a step back", guantian[72].as_str(), "pentad 71 2120255 25 4373 32");
    let summer = &pentads_of("1", "1094").unwrap()[37];
    checks.same("Q-4, summer solstice", summer.as_str(), "pentad 36 2120808 38 3630 0");

    let jiyuan = pentads_of("2", "1106").unwrap();
    checks.same("Q-4, lines", jiyuan.len(), 73);
    checks.same("Q-4, first line", jiyuan[0].as_str(), "pentads J 1106");
    checks.same("Q-4, solstice", jiyuan[1].as_str(), "pentad 0 2125008 38 4536 0");
    checks.same("Q-4, a step on", jiyuan[2].as_str(), "pentad 1 2125013 43 5066 55");
    checks.same("Q-4, a qi on", jiyuan[4].as_str(), "pentad 3 2125023 53 6128 45");

    let jingchu = pentads_of("3", "237").unwrap();
    checks.same("Q-6, lines", jingchu.len(), 73);
    checks.same("Q-6, first line", jingchu[0].as_str(), "pentads W 237");
    checks.same("Q-6, solstice", jingchu[1].as_str(), "pentad 0 1807614 44 1161 0");
    checks.same("Q-6, a step on", jingchu[2].as_str(), "pentad 1 1807619 49 1295 11");
    checks.same("Q-6, two steps on", jingchu[3].as_str(), "pentad 2 1807624 54 1429 22");
    checks.same("Q-6, a qi on", jingchu[4].as_str(), "pentad 3 1807629 59 1563 33");
    checks.same("Q-6, a step back", jingchu[72].as_str(), "pentad 71 1807974 44 1481 25");

    refused_by_year(checks, "Q-4", pentads_of);
}

/// The pentad in force around those days, by hand, and around the first and the
/// last day that may be asked for, which in Jingchu are later than in the other
/// two.
fn pentads_in_force(checks: &mut Checks) {
    for (system, day, line) in [
        ("1", "2119894", "2119894 G 1091 71"),
        ("1", "2119895", "2119895 G 1092 0"),
        ("1", "2119899", "2119899 G 1092 0"),
        ("1", "2119900", "2119900 G 1092 1"),
        ("1", "2120807", "2120807 G 1094 35"),
        ("1", "2120808", "2120808 G 1094 36"),
        ("1", "2120812", "2120812 G 1094 36"),
        ("1", "2120813", "2120813 G 1094 37"),
        ("2", "2125007", "2125007 J 1105 71"),
        ("2", "2125008", "2125008 J 1106 0"),
        ("2", "2125012", "2125012 J 1106 0"),
        ("2", "2125013", "2125013 J 1106 1"),
        ("3", "1807613", "1807613 W 236 71"),
        ("3", "1807614", "1807614 W 237 0"),
        ("3", "1807618", "1807618 W 237 0"),
        ("3", "1807619", "1807619 W 237 1"),
        ("1", "1721414", "1721414 G 1 0"),
        ("2", "1721414", "1721414 J 1 0"),
        ("3", "1721416", "1721416 W 1 0"),
        ("1", "2817144", "2817144 G 3000 71"),
        ("2", "2817144", "2817144 J 3000 71"),
        ("3", "2817156", "2817156 W 3000 71"),
    ] {
        checks.same("Q-4, in force", in_force_on(system, day), one_line(line));
    }
    for system in NO_SYSTEMS {
        checks.same("Q-4, no such system", in_force_on(system, "2120808"), Err(4));
        checks.same("Q-4, no such system", in_force_on(system, "0"), Err(4));
    }
    for day in ["0", "1721413", "4294967295", "4297088104", "18446744073711672424"] {
        for system in ["1", "2", "3"] {
            checks.same("Q-4, no such day", in_force_on(system, day), Err(7));
        }
    }
    for (system, day) in [("1", "2817145"), ("2", "2817145"), ("3", "1721415"), ("3", "2817157")] {
        checks.same("Q-4, no such day", in_force_on(system, day), Err(7));
    }
    for day in ["1", "330190", "330191", "330192", "1721406", "1721407"] {
        checks.same("Q-6, no such day", in_force_on("3", day), Err(7));
    }
}

/// The line of one year's head, or the refusal.
fn head_of(tables: &Tables, system: &str, year: &str) -> Answer {
    heads::line(tables, &Number::read(system).unwrap(), &Number::read(year).unwrap())
}

/// The heads of cases 2, 5 and 8, those which follow on the years whose lengths
/// cases 3 and 5 tell, as Q-5 wants them compared, and that of Q-6's year.
fn told_heads(tables: &Tables, checks: &mut Checks) {
    for (system, year, line) in [
        ("1", "1092", "1092 2119892"),
        ("1", "1093", "1093 2120247"),
        ("1", "1094", "1094 2120601"),
        ("1", "1095", "1095 2120985"),
        ("2", "1106", "1106 2125001"),
        ("3", "237", "237 1807606"),
    ] {
        checks.same("Q-5, head", head_of(tables, system, year), one_line(line));
    }
    refused_by_year(checks, "Q-5", |system, year| head_of(tables, system, year));
}

/// Years of Q-6 by hand: the solstice, N times 673,150 by 1,843; the new moon
/// that opens the year, whose number is N times 235 by 19, cut down, and whose
/// day is that number times 134,630 by 4,559; 330,191 added to either day. Each
/// has its name and its remainder. The days are those to the next head.
fn jingchu_years(tables: &Tables, checks: &mut Checks) {
    let jingchu = tables.table(3).unwrap();
    for (year, solstice, head, months, days) in [
        (1, (1721416, 6, 675), (1721407, 57, 186), 12, 354),
        (2, (1721781, 11, 1_130), (1721761, 51, 1_860), 13, 384),
        (8, (1723973, 43, 174), (1723946, 16, 3_065), 13, 384),
        (236, (1807249, 39, 706), (1807222, 12, 4_381), 13, 384),
        // The paper's own solstice.
        (237, (1807614, 44, 1_161), (1807606, 36, 3_915), 12, 355),
        (238, (1807979, 49, 1_616), (1807961, 31, 1_030), 13, 384),
        (239, (1808345, 55, 228), (1808345, 55, 564), 12, 354),
        (1094, (2120631, 41, 380), (2120631, 41, 940), 12, 354),
        (3000, (2816791, 21, 1_400), (2816785, 15, 2_474), 12, 354),
        // No request may name it, but it ends the year before.
        (3001, (2817157, 27, 12), (2817139, 9, 4_148), 12, 355),
    ] {
        let y = jingchu.year(year);
        let what = format!("Q-6, {}", year);
        let of_head = (y.head, name_of(y.head), y.months[0].remainder);
        checks.same(&what, (solstice_of(y), of_head), (solstice, head));
        checks.same(&what, (y.months.len(), y.length()), (months, days));
    }
}

/// The leap months of those years, by hand: the place, the number, the head and
/// the length.
///
/// In 8 qi 6 falls at 748 of 1,843 parts on the day of the fifth new moon,
/// which comes at 3,623 of 4,559: it is held by that month, and the fourth is
/// leap. In 236 the treatise's shortcut makes the fourth leap: 19 less 17,
/// times 12 and by 7, is 3 and three sevenths, which it rounds to 3 months
/// before it. But qi 6 falls on the last day of the fourth, and the fifth holds
/// none.
fn jingchu_leap_months(tables: &Tables, checks: &mut Checks) {
    let jingchu = tables.table(3).unwrap();
    for (year, leap) in [
        (1, vec![]),
        (2, vec![(12, 9, 1722086, 29)]),
        (8, vec![(4, 1, 1724035, 29)]),
        (236, vec![(5, 2, 1807341, 29)]),
        (237, vec![]),
        (238, vec![(13, 10, 1808315, 30)]),
        (239, vec![]),
        (1094, vec![]),
        (3000, vec![]),
    ] {
        let months = jingchu.year(year).months.iter().enumerate();
        let came: Vec<(usize, u8, i128, i128)> = months
            .filter(|(_, m)| m.leap)
            .map(|(i, m)| (i + 1, m.number, m.head, m.length))
            .collect();
        checks.same(&format!("Q-6, leap months of {}", year), came, leap);
    }
}

/// Qi of Q-6 by hand: so many steps of 15 days, 402 parts and 11 small units
/// after the solstice.
fn jingchu_qi(tables: &Tables, checks: &mut Checks) {
    let jingchu = tables.table(3).unwrap();
    for (year, i, day, parts, units) in [
        (8, 6, 1724064, 748, 6),
        (236, 6, 1807340, 1_280, 6),
        (236, 8, 1807371, 243, 4),
        (237, 1, 1807629, 1_563, 11),
        (237, 2, 1807645, 123, 10),
        (237, 12, 1807797, 467, 0),
        (237, 23, 1807964, 1_213, 1),
        (238, 22, 1808314, 1_265, 2),
    ] {
        let qi = &jingchu.year(year).qi[i];
        let what = format!("Q-6, qi {} of {}", i, year);
        checks.same(&what, (qi.day, qi.parts, qi.units), (day, parts, units));
    }
}

/// Days of Q-6 by hand: one in all four kinds, which is the first of a leap
/// month; the first and the last of the years 1 and 3000; and days outside,
/// among them those around count day 0.
fn jingchu_days(tables: &Tables, checks: &mut Checks) {
    let first = [0x0A, 0x00, 0x01, 0x00, 0x03, 0xEE, 0x00, 0x0A, 0x01, 0x01];
    let second = [0x0A, 0x00, 0x05, 0x00, 0x03, 0xEE, 0x00, 0x0A, 0x01, 0x19];
    let third = [0x09, 0x00, 0x03, 0x00, 0x03, 0xEE, 0x00, 0x63, 0x01];
    let fourth = [0x09, 0x00, 0x04, 0x00, 0x03, 0xBB, 0x97, 0x1B, 0x00];
    let four: [&[u8]; 4] = [&first, &second, &third, &fourth];
    stored_alike(tables, checks, "Q-6", &four, (1808315, first));
    let expected = "W 238 10* 1 1808315 25\n".repeat(4);
    checks.same("Q-6, the program", lines_of(tables, &four.concat()), expected);

    for (year, ordinal, line) in [
        (1, 1, "W 1 11 1 1721407 57\n"),
        (1, 354, "W 1 10 30 1721760 50\n"),
        (1, 355, "refused 7\n"),
        (237, 9, "W 237 11 9 1807614 44\n"),
        (237, 355, "W 237 10 30 1807960 30\n"),
        (237, 356, "refused 7\n"),
        (3000, 1, "W 3000 11 1 2816785 15\n"),
        (3000, 354, "W 3000 10 29 2817138 8\n"),
        (3000, 355, "refused 7\n"),
    ] {
        let ([y, z], [o, p]) = (u16::to_le_bytes(year), u16::to_le_bytes(ordinal));
        let came = lines_of(tables, &[9, 0, 3, 0, 3, y, z, o, p]);
        checks.same("Q-6, by ordinal", came, line.to_string());
    }
    for (day, line) in [
        (0, "refused 7\n"),
        (1, "refused 7\n"),
        (330_190, "refused 7\n"),
        (330_191, "refused 7\n"),
        (330_192, "refused 7\n"),
        (1721406, "refused 7\n"),
        (1721407, "W 1 11 1 1721407 57\n"),
        (2817138, "W 3000 10 29 2817138 8\n"),
        (2817139, "refused 7\n"),
        (4_294_967_295, "refused 7\n"),
    ] {
        let [a, b, c, d] = u32::to_le_bytes(day);
        let came = lines_of(tables, &[9, 0, 4, 0, 3, a, b, c, d]);
        checks.same("Q-6, by day", came, line.to_string());
    }
    // Refused before anything else of the record is looked at.
    let no_system = [9, 0, 4, 0, 4, 0, 0, 0, 0];
    checks.same("Q-6, no such system", lines_of(tables, &no_system), "refused 4\n".to_string());
}

/// Of Q-6: 19 years are as long as 235 months, so that in every nineteenth
/// year, such as 239, the solstice is at a new moon. Solar and lunar parts are
/// two kinds, so that shares of a day are compared, by their cross products.
/// And three pentads are a qi, and 72 a year.
fn nineteen_years(tables: &Tables, checks: &mut Checks) {
    let jingchu = tables.table(3).unwrap();
    let walk = |parts_in_day, units_in_part, step: Clock, times| {
        let mut clock = Clock { day: 0, parts: 0, units: 0 };
        for _ in 0..times {
            clock.add(Scale { parts_in_day, units_in_part }, step);
        }
        (clock.day, clock.parts, clock.units)
    };
    let year = Clock { day: 365, parts: 455, units: 0 };
    let month = Clock { day: 29, parts: 2_419, units: 0 };
    checks.same("Q-6, 19 years", walk(1_843, 12, year, 19), (6_939, 1_273, 0));
    checks.same("Q-6, 235 months", walk(4_559, 1, month, 235), (6_939, 3_149, 0));
    checks.same("Q-6, the two shares of a day", 1_273 * 4_559, 3_149 * 1_843);

    let pentad = Clock { day: 5, parts: 134, units: 11 };
    checks.same("Q-6, three pentads", walk(1_843, 36, pentad, 3), (15, 402, 33));
    checks.same("Q-6, 72 pentads", walk(1_843, 36, pentad, 72), (365, 455, 0));

    for number in FIRST_YEAR..=LAST_YEAR {
        let y = jingchu.year(number);
        let (solstice, moon) = (&y.qi[0], y.months[0].remainder);
        let at_new_moon = y.head == solstice.day && solstice.parts * 4_559 == moon * 1_843;
        checks.that(at_new_moon == ((number - 239) % 19 == 0), || {
            format!("Q-6: the solstice of {} and the new moon", number)
        });
    }
}

/// What source document 001 tells of Jingchu's long months and leap years by
/// remainders, which nothing else here looks at: a month has 30 days when its
/// new moon's is 2,140 or more, and a year has 13 months when N times 235 by 19
/// leaves 12 or more.
fn jingchu_remainders(tables: &Tables, checks: &mut Checks) {
    let jingchu = tables.table(3).unwrap();
    for number in FIRST_YEAR..=LAST_YEAR {
        let y = jingchu.year(number);
        let say = |what: &str| format!("001, W {}: {}", number, what);
        for month in &y.months {
            let long = month.remainder >= 2_140;
            checks.that((month.length == 30) == long, || say("a long month"));
        }
        let left = (4_045 + (number - 237)) * 235 % 19;
        checks.that((y.months.len() == 13) == (left >= 12), || say("a leap month"));
    }
}

/// What Q-8 says of every year's qi: 0 is the solstice, T by D, without small
/// units; 24 is the next one and qi 0 of the year after, for 3000 too.
fn every_qi(table: &Table, checks: &mut Checks) {
    let system = table.system;
    for number in FIRST_YEAR..=LAST_YEAR {
        let say = |what: &str| format!("{} {}: {}", system.letter, number, what);
        let solstice = |year| Moment {
            day: system.solstice_day(year),
            parts: system.solstice_remainder(year),
            units: 0,
        };
        let qi = &table.year(number).qi;
        checks.that(qi.len() == 25, || say("not qi 0 to 24"));
        checks.that(qi[0] == solstice(number), || say("qi 0 is not the solstice"));
        checks.that(qi[24] == solstice(number + 1), || say("qi 24 is not the next solstice"));
        checks.that(qi[24] == table.year(number + 1).qi[0], || say("qi 24 is not the next qi 0"));
    }
}

/// What Q-4 says of every year's pentads: every third is a qi, the first among
/// them, and the units told are fewer than make a part.
fn every_pentad(table: &Table, checks: &mut Checks) {
    let system = table.system;
    for number in FIRST_YEAR..=LAST_YEAR {
        let y = table.year(number);
        let say = |what: &str| format!("{} {}: {}", system.letter, number, what);
        let pentads = system.pentads(number);
        checks.that(pentads.len() == 72, || say("not 72 pentads"));
        for (third, qi) in pentads.iter().step_by(3).zip(&y.qi) {
            // The two fractions of a part, in pentad units and in small units.
            let pentad_over_both = third.units * system.small_units_in_part;
            let qi_over_both = qi.units * system.pentad_units_in_part;
            checks.that(
                third.day == qi.day && third.parts == qi.parts && pentad_over_both == qi_over_both,
                || say("a third pentad is not a qi"),
            );
        }
        for pentad in &pentads {
            let in_day = (0..system.solar_parts_in_day).contains(&pentad.parts);
            let in_part = (0..system.pentad_units_in_part).contains(&pentad.units);
            checks.that(in_day && in_part, || say("parts or units too many"));
        }
    }
}

/// Every day that may be asked for, met by going from pentad to pentad: one is
/// in force from its own day to the day before that of the next, and the last
/// of a year to the day before the next solstice.
fn every_day_in_force(table: &Table, checks: &mut Checks) {
    let system = table.system;
    let pentads = Pentads::new(system);
    let found = |day| pentads.in_force(day).map(|pentad| (pentad.year, pentad.number));
    let say = |day: i128| format!("{}: the pentad in force on day {}", system.letter, day);
    for pair in pentads.list.windows(2) {
        let days = pair[1].day - pair[0].day;
        checks.that(days == 5 || days == 6, || say(pair[0].day));
    }
    let first_day = table.year(FIRST_YEAR).qi[0].day;
    let mut day = first_day;
    for year in FIRST_YEAR..=LAST_YEAR {
        let next_solstice = table.year(year).qi[24].day;
        let mut starts: Vec<i128> = system.pentads(year).iter().map(|pentad| pentad.day).collect();
        starts.push(next_solstice);
        for (number, around) in starts.windows(2).enumerate() {
            checks.that(day == around[0], || say(day));
            while day < around[1] {
                checks.that(found(day) == Some((year, number)), || say(day));
                day += 1;
            }
        }
        // So the list runs on from year to year.
        checks.that(found(next_solstice - 1) == Some((year, 71)), || say(next_solstice - 1));
        checks.that(found(next_solstice) == Some((year + 1, 0)), || say(next_solstice));
    }
    checks.that(pentads.days() == (first_day..day), || say(day));
}

/// The numbers of the months that hold the middle qi, in order.
pub const IN_ORDER: [u8; 12] = [11, 12, 1, 2, 3, 4, 5, 6, 7, 8, 9, 10];

/// The days of a year's twelve middle qi, in order; qi 24 is of the year after.
fn middle_days(year: &Year) -> Vec<i128> {
    year.qi[..24].iter().step_by(2).map(|qi| qi.day).collect()
}

/// What the papers say of months and years in general, for every year.
fn facts(table: &Table, checks: &mut Checks) {
    let letter = table.system.letter;
    for number in FIRST_YEAR..=LAST_YEAR {
        let y = table.year(number);
        let say = |what: &str| format!("{} {}: {}", letter, number, what);
        let middle = middle_days(y);
        let held = |month: &Month| middle.iter().filter(|day| month.days().contains(day)).count();

        for month in &y.months {
            checks.that(month.length == 29 || month.length == 30, || say("a month's length"));
            checks.that(held(month) <= 1, || say("a month holds two middle qi"));
            checks.that(month.leap == (held(month) == 0), || say("a leap mark"));
        }
        checks.that([354, 355, 383, 384].contains(&y.length()), || say("the year's length"));

        let lacking = y.months.iter().filter(|m| held(m) == 0).count();
        match y.months.len() {
            12 => checks.that(lacking == 0, || say("one of twelve lacks a middle qi")),
            13 => checks.that(lacking == 1, || say("not just one of thirteen lacks a middle qi")),
            _ => checks.that(false, || say("neither twelve nor thirteen months")),
        }

        // The solstice's day is one of the first month's days, and each middle
        // qi's day is one of just one month's, which has the qi's number. No
        // middle qi of the years around falls on a day of this one.
        checks.that(y.months[0].days().contains(&y.qi[0].day), || say("the first month"));
        for (day, due) in middle.iter().zip(IN_ORDER) {
            let holding: Vec<u8> =
                y.months.iter().filter(|m| m.days().contains(day)).map(|m| m.number).collect();
            checks.that(holding == [due], || say("the month of a middle qi"));
        }
        for around in [number - 1, number + 1] {
            let outside = |day: &i128| *day < y.head || *day >= y.next_head;
            checks.that(middle_days(table.year(around)).iter().all(outside), || say("another year's qi"));
        }

        // Each numbered month stands there once, in the order of the paper,
        // and a leap month bears the number of the month before it.
        let plain: Vec<u8> = y.months.iter().filter(|m| !m.leap).map(|m| m.number).collect();
        checks.that(plain == IN_ORDER, || say("the numbers"));
        for i in 1..y.months.len() {
            let (before, month) = (&y.months[i - 1], &y.months[i]);
            checks.that(!month.leap || month.number == before.number, || say("a leap number"));
        }

        // The months tile the days: every day is in exactly one of them, and
        // no month reaches outside of the year.
        for day in y.head..y.next_head {
            let holding = y.months.iter().filter(|m| m.days().contains(&day)).count();
            checks.that(holding == 1, || say("a day is not in exactly one month"));
        }
        let total: i128 = y.months.iter().map(|m| m.length).sum();
        checks.that(total == y.length(), || say("the lengths do not add up"));
        checks.that(y.next_head == table.year(number + 1).head, || say("the next head"));
    }
}

/// The two rules for names agree: the name counted on from that of count day
/// 0, day by day, is the name of the register day.
fn names(table: &Table, checks: &mut Checks) {
    let system = table.system;
    let count_day_0 = system.register_day(0);
    checks.that(name_of(count_day_0) as i128 == system.name_of_count_day_0, || {
        format!("{}: the name of count day 0", system.letter)
    });
    // From count day 0 in whole sixties to just before the first year, then
    // one name a day.
    let mut day = count_day_0;
    while day + 60 <= table.first_day {
        day += 60;
    }
    let mut name = system.name_of_count_day_0;
    while day < table.year(LAST_YEAR + 1).head {
        checks.that(name_of(day) as i128 == name, || format!("{}: day {}", system.letter, day));
        day += 1;
        name = if name == 60 { 1 } else { name + 1 };
    }
}

/// A moment kept as days, parts and units of a part, added to with carrying,
/// and so never divided.
#[derive(Clone, Copy, PartialEq, Eq, Debug)]
struct Clock {
    day: i64,
    parts: i64,
    units: i64,
}

/// How many parts the days of a clock have, and how many units its parts.
#[derive(Clone, Copy)]
struct Scale {
    parts_in_day: i64,
    units_in_part: i64,
}

impl Clock {
    fn add(&mut self, scale: Scale, step: Clock) {
        self.day += step.day;
        self.parts += step.parts;
        self.units += step.units;
        if self.units >= scale.units_in_part {
            self.units -= scale.units_in_part;
            self.parts += 1;
        }
        if self.parts >= scale.parts_in_day {
            self.parts -= scale.parts_in_day;
            self.day += 1;
        }
    }

    /// The register day of a clock that was started at the epoch.
    fn register_day(&self, system: &System) -> i128 {
        system.register_day(self.day as i128)
    }

    fn is_at(&self, system: &System, moment: &Moment) -> bool {
        self.register_day(system) == moment.day
            && self.parts as i128 == moment.parts
            && self.units as i128 == moment.units
    }
}

/// Solstices, qi, pentads and months once more, from the epoch by carried
/// steps, the sun's in solar and the moon's in lunar parts. The steps are
/// written out; Guantian's qi step has the 12 small units that the paper puts
/// in place of the printed 11.
fn carried_walk(table: &Table, checks: &mut Checks) {
    let system = table.system;
    let clock = |day, parts, units| Clock { day, parts, units };
    let (year_step, month_step, qi_step) = match system.number {
        1 => (clock(365, 2_930, 0), clock(29, 6_383, 0), clock(15, 2_628, 12)),
        2 => (clock(365, 1_776, 0), clock(29, 3_868, 0), clock(15, 1_592, 3)),
        _ => (clock(365, 455, 0), clock(29, 2_419, 0), clock(15, 402, 11)),
    };
    let solar = Scale {
        parts_in_day: system.solar_parts_in_day as i64,
        units_in_part: system.small_units_in_part as i64,
    };
    // A new moon is told in whole parts.
    let lunar = Scale { parts_in_day: system.lunar_parts_in_day as i64, units_in_part: 1 };

    // Solstices: one year's step for every year elapsed.
    let mut solstice = clock(0, 0, 0);
    let before_year_1 = system.elapsed_at_known_year - (system.known_year - 1);
    for _ in 0..before_year_1 {
        solstice.add(solar, year_step);
    }
    let mut moon = clock(0, 0, 0);
    let end_of_moon = |moon: Clock| {
        let mut next = moon;
        next.add(lunar, month_step);
        next
    };
    for number in FIRST_YEAR..=LAST_YEAR + 1 {
        let y = table.year(number);
        let say = |what: &str| format!("{} {}: {} by carried steps", system.letter, number, what);
        let mut qi = solstice;
        let mut middle = Vec::new();
        for i in 0..24 {
            checks.that(qi.is_at(system, &y.qi[i]), || say(&format!("qi {}", i)));
            if i % 2 == 0 {
                middle.push(qi.day);
            }
            qi.add(solar, qi_step);
        }
        checks.that(qi.is_at(system, &y.qi[24]), || say("qi 24"));
        let mut next_solstice = solstice;
        next_solstice.add(solar, year_step);
        checks.that(qi == next_solstice, || say("24 qi steps do not close on the year"));
        carried_pentads(system, number, solstice, next_solstice, checks);

        // New moons: the last on the solstice's day or an earlier one.
        while end_of_moon(moon).day <= solstice.day {
            moon = end_of_moon(moon);
        }
        checks.that(moon.register_day(system) == y.head, || say("head"));
        carried_months(system, y, moon, end_of_moon, middle, checks);
        solstice = next_solstice;
    }
}

/// A year's pentads from its solstice on, by the steps that paper 02 tells.
fn carried_pentads(
    system: &System,
    year: i128,
    solstice: Clock,
    next_solstice: Clock,
    checks: &mut Checks,
) {
    let (units_in_part, step) = match system.number {
        1 => (36, Clock { day: 5, parts: 876, units: 4 }),
        2 => (60, Clock { day: 5, parts: 530, units: 55 }),
        _ => (36, Clock { day: 5, parts: 134, units: 11 }),
    };
    let scale = Scale { parts_in_day: system.solar_parts_in_day as i64, units_in_part };
    let say = |what: &str| format!("{} {}: {} by carried steps", system.letter, year, what);
    let pentads = system.pentads(year);
    let mut clock = solstice;
    for p in 0..72 {
        checks.that(clock.is_at(system, &pentads[p]), || say(&format!("pentad {}", p)));
        clock.add(scale, step);
    }
    checks.that(clock == next_solstice, || say("72 pentad steps do not close on the year"));
}

/// A year's months from its first new moon on, and the days of its middle qi
/// beside them: a qi whose day comes before a month is over belongs to it, and
/// the next qi waits for a later month.
fn carried_months(
    system: &System,
    y: &Year,
    mut moon: Clock,
    end_of_moon: impl Fn(Clock) -> Clock,
    middle: Vec<i64>,
    checks: &mut Checks,
) {
    let say = |what: &str| format!("{} {}: {} by carried steps", system.letter, y.number, what);
    let mut waiting = middle.into_iter().enumerate().peekable();
    let mut number = 10;
    for month in &y.months {
        checks.that(moon.register_day(system) == month.head, || say("a month's head"));
        checks.that(moon.parts as i128 == month.remainder, || say("a new moon's remainder"));
        moon = end_of_moon(moon);
        let held = waiting.next_if(|(_, day)| *day < moon.day).map(|(j, _)| j);
        if held.is_some() {
            number = if number == 12 { 1 } else { number + 1 };
        }
        checks.that(month.held == held, || say("the middle qi of a month"));
        checks.that(month.leap == held.is_none() && month.number == number, || say("a month's number"));
    }
    checks.that(waiting.next().is_none(), || say("a middle qi is left over"));
    checks.that(moon.register_day(system) == y.next_head, || say("next head"));
}

/// Every day in all four kinds: the citation names the day that was walked
/// to, and its stored record is the kind 1 record of that place.
fn every_day(tables: &Tables, table: &Table, checks: &mut Checks) {
    let system = table.system.number;
    let mut day = table.first_day;
    let mut year = FIRST_YEAR;
    for place in &table.places {
        // The year of a day, by the list of year heads.
        while day >= table.year(year + 1).head {
            year += 1;
        }
        checks.that(place.year as i128 == year, || format!("the year of day {}", day));
        let stored = citation_of(system, 1, *place, day);
        for kind in KINDS {
            let result = store(tables, &citation_of(system, kind, *place, day), 10);
            checks.that(
                matches!(result, Ok((d, record)) if d as i128 == day && record[..] == stored[..]),
                || format!("system {}, kind {}, day {}: {:?}", system, kind, day, result),
            );
        }
        day += 1;
    }
    checks.that(day == table.year(LAST_YEAR + 1).head, || "the last day walked to".to_string());
    for outside in [table.first_day - 1, day] {
        let d = (outside as u32).to_le_bytes();
        checks.same("a day outside", refusal(tables, &[9, 0, 4, 0, system, d[0], d[1], d[2], d[3]]), (7, 0));
    }
}

/// Every kind 1 record of these years that could be written: just as many are
/// accepted as there are days, and no day is named twice.
fn every_stored_form(tables: &Tables, table: &Table, checks: &mut Checks) {
    let system = table.system.number;
    let mut named = vec![0u8; table.places.len()];
    let mut accepted = 0;
    for year in FIRST_YEAR..=LAST_YEAR {
        let y = (year as u16).to_le_bytes();
        for month in 0..=13 {
            for leap in 0..=2 {
                for day in 0..=32 {
                    let record = [10, 0, 1, 0, system, y[0], y[1], month, leap, day];
                    if let Ok((d, stored)) = store(tables, &record, 10) {
                        accepted += 1;
                        named[(d as i128 - table.first_day) as usize] += 1;
                        checks.that(stored == record, || format!("{:?} is not its own record", record));
                    }
                }
            }
        }
    }
    checks.that(accepted == table.places.len(), || format!("{} kind 1 records accepted", accepted));
    checks.that(named.iter().all(|n| *n == 1), || "a day has not just one record".to_string());
}

/// Either leap mark on every month number of every year: store follows the
/// list of the year's months.
fn every_leap_mark(tables: &Tables, table: &Table, checks: &mut Checks) {
    for (record, expected) in leap_marks(table) {
        let result = store(tables, &record, 10);
        checks.that(result == expected, || format!("{:?}: {:?}", record, result));
    }
}

/// Month numbers 0 to 13 of every year with leap bytes 0 to 2, in kinds 1 and
/// 5, with days and names that are there and others: 10 for every number but
/// the leap month's, which it tells, and no month told with anything else.
/// Nor is one told with ordinals that the year lacks.
fn every_told_month(tables: &Tables, table: &Table, checks: &mut Checks) {
    let system = table.system.number;
    for year in FIRST_YEAR..=LAST_YEAR {
        let y = table.year(year);
        for ordinal in [0, y.length() as u16 + 1, 65_535] {
            checks.same("no such ordinal", by_ordinal(tables, system, year as u16, ordinal), (7, 0));
        }
        let leap_month = leap_numbers(y).first().copied().unwrap_or(0);
        let right = |number: u8, leap: u8, came: (u8, u8)| {
            if number == 0 || number == 13 || leap == 2 {
                came == (6, 0)
            } else if leap == 1 && number != leap_month {
                came == (10, leap_month)
            } else {
                came == (0, 0) || came == (7, 0)
            }
        };
        for (number, leap) in (0..=13).flat_map(|n| (0..=2).map(move |leap| (n, leap))) {
            for byte in [0, 1, 29, 45, 255] {
                for by in [by_date, by_name] {
                    let came = by(tables, system, year as u16, number, leap, byte);
                    checks.that(right(number, leap, came), || {
                        format!("system {}, year {}, {} {} {}: {:?}", system, year, number, leap, byte, came)
                    });
                }
            }
        }
    }
}
