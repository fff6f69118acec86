//! Request Q-10 of paper 02: submerged and extinguished days, by remainders and
//! as the pages print them. The numbers written out are worked out by hand from
//! those of the papers.

use crate::cases::{Checks, NO_SYSTEMS, NO_YEARS};
use crate::fraction::Fraction;
use crate::month_cases::whole;
use crate::reckoning::{Moment, Solar, System, Table, Tables, FIRST_YEAR, LAST_YEAR};
use crate::requests::{Answer, Number};
use crate::submerged::{extinguished, extinguished_page, submerged, submerged_page};

pub fn run(tables: &Tables, checks: &mut Checks) {
    submerged_by_hand(checks);
    extinguished_by_hand(checks);
    every_remainder_of_a_qi(checks);
    every_remainder_of_a_moon(checks);
    guantian_1094(tables, checks);
    jiyuan_1107(tables, checks);
    new_moons_of_1092(tables, checks);
    guantian_qi(checks);
    jiyuan_qi(checks);
    new_moons_at_the_limit(tables, checks);
    refused(tables, checks);
    for system in [1, 2] {
        let table = tables.table(system).unwrap();
        every_submerged_day(table, checks);
        every_extinguished_day(tables, table, checks);
    }
}

fn song_system(number: u8) -> &'static System {
    System::numbered(number).unwrap()
}

/// Remainders at the limits, and others on either side of a whole distance, most
/// of which no qi has.
///
/// Guantian, 4,393,880 less 360 times the parts less 10 times the small units:
/// - 9,401 and 24 leave 1,009,280, which is 16 times 63,080, but are below 9,402;
/// - 9,402 leave 1,009,160, or 15 times and 62,960 more;
/// - 10,453 leave 630,800, 10 times exactly, and a small unit takes 10 off;
/// - 10,628 leave 567,800, 9 times and 80, which are used up by 8 small units;
/// - 12,029 and 35 leave 63,090, once and 10 more.
///
/// Jiyuan, 443,771 less 60 times the remainder:
/// - 5,697 and a quarter leave 101,936, which is 16 times 6,371, and a quarter
///   more takes 15 off;
/// - 6,759 leave 38,231, 6 times and 5 more;
/// - 7,289 and three quarters leave 6,386, once and 15 more.
fn submerged_by_hand(checks: &mut Checks) {
    for (system, parts, units, distance) in [
        (1, 0, 0, None),
        (1, 9_401, 24, None),
        (1, 9_401, 35, None),
        (1, 9_402, 0, Some(15)),
        (1, 9_402, 1, Some(15)),
        (1, 10_453, 0, Some(10)),
        (1, 10_453, 1, Some(9)),
        (1, 10_628, 8, Some(9)),
        (1, 10_628, 9, Some(8)),
        (1, 12_029, 35, Some(1)),
        (2, 0, 0, None),
        (2, 5_696, 3, None),
        (2, 5_697, 0, None),
        (2, 5_697, 1, Some(16)),
        (2, 5_697, 2, Some(15)),
        (2, 6_759, 0, Some(6)),
        (2, 6_759, 1, Some(5)),
        (2, 7_289, 3, Some(1)),
    ] {
        let what = format!("Q-10, system {}, {} parts and {}", system, parts, units);
        checks.same(&what, submerged(song_system(system), parts, units), distance);
    }
}

/// The same of new moons: 30 times 188 is 5,640 and 30 times 114 is 3,420, just
/// below 5,647 and 3,422; 30 times 5,646 is 169,380, or 29 times 5,647 and 5,617
/// more; 30 times 3,421 is 102,630, or 29 times 3,422 and 3,392 more.
fn extinguished_by_hand(checks: &mut Checks) {
    for (system, remainder, distance) in [
        (1, 0, Some(0)),
        (1, 188, Some(0)),
        (1, 189, Some(1)),
        (1, 5_646, Some(29)),
        (1, 5_647, None),
        (1, 12_029, None),
        (2, 0, Some(0)),
        (2, 114, Some(0)),
        (2, 115, Some(1)),
        (2, 3_421, Some(29)),
        (2, 3_422, None),
        (2, 7_289, None),
    ] {
        let what = format!("Q-10, system {}, new moon at {}", system, remainder);
        checks.same(&what, extinguished(song_system(system), remainder), distance);
    }
}

/// The least and the greatest of these distances, each between which is there.
fn range(distances: &[i128]) -> Option<(i128, i128)> {
    let (least, greatest) = (*distances.iter().min()?, *distances.iter().max()?);
    (least..=greatest).all(|days| distances.contains(&days)).then_some((least, greatest))
}

/// Every remainder that a qi could have, counted in small units alone: the
/// limits are 9,402 times 36 and 4 times 5,697 and 1, and each small unit takes
/// off a 36th of 360 or a quarter of 60. Distances are 1 to 16; Guantian's limit
/// lets none of 16 in, and Jiyuan's just one remainder.
fn every_remainder_of_a_qi(checks: &mut Checks) {
    for (system, limit, at_first, each, by, range_due) in [
        (1, 338_472, 4_393_880, 10, 63_080, (1, 15)),
        (2, 22_789, 443_771, 15, 6_371, (1, 16)),
    ] {
        let system = song_system(system);
        let in_part = system.small_units_in_part;
        let mut distances = Vec::new();
        for small_units in 0..system.solar_parts_in_day * in_part {
            let came = submerged(system, small_units / in_part, small_units % in_part);
            let due = (small_units >= limit).then(|| (at_first - each * small_units) / by);
            checks.that(came == due, || format!("Q-10, {}: {} small units", system.letter, small_units));
            distances.extend(came);
        }
        checks.same("Q-10, submerged, range", range(&distances), Some(range_due));
        let of_16 = distances.iter().filter(|days| **days == 16).count();
        checks.same("Q-10, distances of 16", of_16, if system.number == 1 { 0 } else { 1 });
    }
}

fn every_remainder_of_a_moon(checks: &mut Checks) {
    for (system, limit) in [(1, 5_647), (2, 3_422)] {
        let system = song_system(system);
        let mut distances = Vec::new();
        for remainder in 0..system.lunar_parts_in_day {
            let came = extinguished(system, remainder);
            let due = (remainder < limit).then(|| 30 * remainder / limit);
            checks.that(came == due, || format!("Q-10, {}: new moon at {}", system.letter, remainder));
            distances.extend(came);
        }
        checks.same("Q-10, extinguished, range", range(&distances), Some((0, 29)));
    }
}

fn submerged_of(system: &str, year: &str) -> Answer {
    submerged_page(&Number::read(system).unwrap(), &Number::read(year).unwrap())
}

fn extinguished_of(tables: &Tables, system: &str, year: &str) -> Answer {
    extinguished_page(tables, &Number::read(system).unwrap(), &Number::read(year).unwrap())
}

/// A page has so many lines, and these are all that do not end with none.
fn page_by_hand(checks: &mut Checks, page: Answer, count: usize, lines: &[&str]) {
    let page = page.unwrap();
    checks.same(lines[0], page.len(), count);
    let told: Vec<&str> = page.iter().map(|line| line.as_str()).filter(|l| !l.ends_with(" -")).collect();
    checks.same(lines[0], told, lines.to_vec());
}

/// Guantian 1094 by hand. The solstice is on 2120625 at 8,180, and each next qi
/// 15 days, 2,628 parts and 12 of 36 small units later. Those of 9,402 parts or
/// more are
/// - qi 1 at 10,808 and 12: 502,880 are left, 7 times 63,080 and 61,320;
/// - qi 6 at 11,920: 102,680, once and 39,600;
/// - qi 10 at 10,403 and 12: 648,680, 10 times and 17,880;
/// - qi 15 at 11,515: 248,480, 3 times and 59,240;
/// - qi 19 at 9,998 and 12: 794,480, 12 times and 37,520;
/// - qi 24 at 11,110: 394,280, 6 times and 15,800;
///
/// and the nearest of the others is qi 5 at 9,291 and 24. The new moons stand in
/// `month_cases`. Of those below 5,647, which are at 1,498, 2,234, 2,970, 3,706,
/// 4,442 and 5,178, 30 times are 44,940, 67,020, 89,100, 111,180, 133,260 and
/// 155,340.
fn guantian_1094(tables: &Tables, checks: &mut Checks) {
    let lines = [
        "submerged G 1094",
        "qi 1 2120640 7",
        "qi 6 2120716 1",
        "qi 10 2120777 10",
        "qi 15 2120853 3",
        "qi 19 2120914 12",
        "qi 24 2120990 6",
    ];
    page_by_hand(checks, submerged_of("1", "1094"), 26, &lines);
    let lines = [
        "extinguished G 1094",
        "moon 2 2120631 7",
        "moon 4 2120690 11",
        "moon 6 2120749 15",
        "moon 8 2120808 19",
        "moon 10 2120867 23",
        "moon 12 2120926 27",
    ];
    page_by_hand(checks, extinguished_of(tables, "1", "1094"), 14, &lines);
}

/// Jiyuan 1107 by hand. The solstice is on 2125373 at 6,312, and each next qi 15
/// days, 1,592 parts and 3 of 4 small units later. Those of 5,697 parts and one
/// or more are
/// - qi 0 at 6,312: 65,051 are left, 10 times 6,371 and 1,341;
/// - qi 5 at 6,985 and 3: 24,626, 3 times and 5,513;
/// - qi 9 at 6,066 and 3: 79,766, 12 times and 3,314;
/// - qi 14 at 6,740 and 2: 39,341, 6 times and 1,115;
/// - qi 18 at 5,821 and 2: 94,481, 14 times and 5,287;
/// - qi 23 at 6,495 and 1: 54,056, 8 times and 3,088;
///
/// and the nearest of the others is qi 4 at 5,393. Of the new moons below 3,422,
/// which are at 146, 592, 1,038, 1,484, 1,930, 2,376 and 2,822, 30 times are
/// 4,380, 17,760, 31,140, 44,520, 57,900, 71,280 and 84,660.
fn jiyuan_1107(tables: &Tables, checks: &mut Checks) {
    let lines = [
        "submerged J 1107",
        "qi 0 2125373 10",
        "qi 5 2125449 3",
        "qi 9 2125510 12",
        "qi 14 2125586 6",
        "qi 18 2125647 14",
        "qi 23 2125723 8",
    ];
    page_by_hand(checks, submerged_of("2", "1107"), 26, &lines);
    let lines = [
        "extinguished J 1107",
        "moon 1 2125356 1",
        "moon 3 2125415 5",
        "moon 5 2125474 9",
        "moon 7 2125533 13",
        "moon 9 2125592 16",
        "moon 11 2125651 20",
        "moon 13 2125710 24",
    ];
    page_by_hand(checks, extinguished_of(tables, "2", "1107"), 14, &lines);
}

/// The twelve new moons of 1092, on the same days in both systems. Their
/// remainders, too, stand in `month_cases`: 4,696, 5,432, 521, 1,257 and 1,993 of
/// 5,647, and 2,854, 3,300, 324, 770 and 1,216 of 3,422, are low enough. 30 times
/// 4,696 is 140,880, or 24 times 5,647 and 5,352; 30 times 2,854 is 85,620, or 25
/// times 3,422 and 70.
fn new_moons_of_1092(tables: &Tables, checks: &mut Checks) {
    let lines = [
        "extinguished G 1092",
        "moon 2 2119922 24",
        "moon 4 2119981 28",
        "moon 7 2120070 2",
        "moon 9 2120129 6",
        "moon 11 2120188 10",
    ];
    page_by_hand(checks, extinguished_of(tables, "1", "1092"), 13, &lines);
    let lines = [
        "extinguished J 1092",
        "moon 2 2119922 25",
        "moon 4 2119981 28",
        "moon 7 2120070 2",
        "moon 9 2120129 6",
        "moon 11 2120188 10",
    ];
    page_by_hand(checks, extinguished_of(tables, "2", "1092"), 13, &lines);
}

/// A line of a page by its place there.
fn line_by_hand(checks: &mut Checks, page: Answer, at: usize, line: &str) {
    checks.same("Q-10, a line", page.unwrap()[at].as_str(), line);
}

/// Guantian's qi nearest to the limit and to the end of the day, by so many
/// years from the solstice of 1092, on 2119895 at 2,320, and so many steps. Its
/// remainders are 5 thirds of a part apart.
/// - 1209, 117 years on: 42,733 days and 5,970 parts, to 2162628 at 8,290. Qi 5,
///   76 days, 1,111 parts and 24 on, is at 9,401 and 24. It has none, though 16
///   times 63,080 would be left.
/// - 1087, 5 years back: 1,826 days and 2,620 parts, to 2118068 at 11,730. Qi 22,
///   334 days, 9,703 parts and 12 on, is at 9,403 and 12, which leave 1,008,680,
///   or 15 times and 62,480.
/// - 1029, 63 years back: 23,010 days and 4,140 parts, to 2096884 at 10,210. Qi
///   19, 289 days, 1,818 parts and 12 on, is at 12,028 and 12, which leave 63,680.
///
/// Two in which the small units count:
/// - 960, 132 years back: 48,212 days and 1,800 parts, to 2071683 at 520. Qi 13,
///   197 days, 10,108 parts and 12 on, is at 10,628 and 12, which leave 567,680,
///   or 8 times and 63,040. Without the small units there would be 9.
/// - 1064, 28 years back: 10,226 days and 9,860 parts, to 2109668 at 4,490. Qi 16,
///   243 days, 5,963 parts and 12 on, is at 10,453 and 12, which leave 630,680, or
///   9 times and 62,960. Without them there would be 10.
fn guantian_qi(checks: &mut Checks) {
    for (year, qi, line) in [
        ("1209", 5, "qi 5 2162704 -"),
        ("1087", 22, "qi 22 2118403 15"),
        ("1029", 19, "qi 19 2097173 1"),
        ("960", 13, "qi 13 2071880 8"),
        ("1064", 16, "qi 16 2109911 9"),
    ] {
        line_by_hand(checks, submerged_of("1", year), qi + 1, line);
    }
}

/// Jiyuan's qi at the limit and around it. 1,215 years are 443,771 days exactly,
/// and N at 2105 is 28,614,465, or 23,551 times 1,215, so that the solstice of
/// 2105 is at 0 on count day 10,451,250,821, which is 2489887.
/// - 2104: qi 23, 15 days and 1,592 and three quarters before it, is on 2489871
///   at 5,697 and a quarter, which leave 101,936, or 16 times 6,371.
/// - 889: all of this comes 443,771 days earlier as well.
/// - 1884, 221 years before 2105: 80,718 days and 6,126 parts, to 2409168 at
///   1,164. Qi 12, 182 days and 4,533 parts on, is at 5,697 and no quarter. Qi 13
///   is at 7,289 and three quarters, which leave 6,386, or once and 15.
///
/// From the solstice of 1106, on 2125008 at 4,536:
/// - 1110, 4 years on: 1,460 days and 7,104 parts, to 2126469 at 4,350. Qi 10, 152
///   days and 1,347 and a half on, is at 5,697 and a half, which leave 101,921, or
///   15 times and 6,356.
/// - 1072, 34 years back: 12,418 days and 2,064 parts, to 2112590 at 2,472. Qi 21,
///   319 days and 4,287 and three quarters on, is at 6,759 and three quarters,
///   which leave 38,186, or 5 times and 6,331. Without the quarters there would be
///   6.
fn jiyuan_qi(checks: &mut Checks) {
    for (year, qi, line) in [
        ("2104", 23, "qi 23 2489871 16"),
        ("889", 23, "qi 23 2046100 16"),
        ("1884", 12, "qi 12 2409350 -"),
        ("1884", 13, "qi 13 2409365 1"),
        ("1110", 10, "qi 10 2126621 15"),
        ("1072", 21, "qi 21 2112909 5"),
    ] {
        line_by_hand(checks, submerged_of("2", year), qi + 1, line);
    }
}

/// New moons at 0, at the limit and just below it, by so many months from case
/// 2's, on 2119892 at 10,343, and from case 8's, on 2125001 at 4,760. Jiyuan's
/// are at even numbers of parts.
/// - Guantian 1101: 119 months on are 3,514 days and 1,687 parts, to 2123407 at 0,
///   and the one before is on 2123377 at 5,647. The solstice is on 2123182, and 8
///   months before the first of these are on 2123170, so that it is the ninth.
/// - Guantian 952: 1,729 months back are 51,058 days and 4,697 parts, to 2068834
///   at 5,646, and 3 months before are on 2068745. The solstice is on 2068761.
/// - Jiyuan 1105: 5 months back are 147 days and 4,760 parts, to 2124854 at 0, and
///   the one before is on 2124824 at 3,422. The solstice is on 2124643, and 8
///   months before the first of these are on 2124617.
/// - Jiyuan 1032: 905 months back are 26,725 days and 1,340 parts, to 2098276 at
///   3,420, and 11 months before are on 2097951. The solstice is on 2097980, the
///   last day of that month. 30 times 3,420 is 102,600, or 29 times 3,422 and
///   3,362.
fn new_moons_at_the_limit(tables: &Tables, checks: &mut Checks) {
    for (system, year, place, line) in [
        ("1", "1101", 8, "moon 8 2123377 -"),
        ("1", "1101", 9, "moon 9 2123407 0"),
        ("1", "952", 4, "moon 4 2068834 29"),
        ("2", "1105", 8, "moon 8 2124824 -"),
        ("2", "1105", 9, "moon 9 2124854 0"),
        ("2", "1032", 12, "moon 12 2098276 29"),
    ] {
        line_by_hand(checks, extinguished_of(tables, system, year), place, line);
    }
}

/// System 3 is refused as those that there are not, and like them before the
/// year.
fn refused(tables: &Tables, checks: &mut Checks) {
    let both = |system: &str, year: &str| [submerged_of(system, year), extinguished_of(tables, system, year)];
    for system in ["3", "003"].into_iter().chain(NO_SYSTEMS) {
        for year in ["237", "1094", "0", "3001"] {
            checks.same("Q-10, no such system", both(system, year), [Err(4), Err(4)]);
        }
    }
    for year in NO_YEARS {
        for system in ["1", "2"] {
            checks.same("Q-10, no such year", both(system, year), [Err(5), Err(5)]);
        }
    }
}

/// What a line tells: the number of the qi or the place of the month, the day,
/// and the distance, if there is one.
#[derive(PartialEq, Eq, Debug)]
struct Told {
    number: i128,
    day: i128,
    distance: Option<i128>,
}

impl Told {
    /// The line read word by word; nothing if it has others than these four.
    fn read(line: &str, word: &str) -> Option<Told> {
        let words: Vec<&str> = line.split(' ').collect();
        let [first, number, day, distance] = words[..] else { return None };
        if first != word {
            return None;
        }
        Some(Told {
            number: whole(number)?,
            day: whole(day)?,
            distance: if distance == "-" { None } else { Some(whole(distance)?) },
        })
    }
}

/// What a page tells after its first line, if it is of that form.
fn told(page: Answer, first: &str, word: &str) -> Option<Vec<Told>> {
    let page = page.ok()?;
    let (heading, lines) = page.split_first()?;
    if heading != first {
        return None;
    }
    lines.iter().map(|line| Told::read(line, word)).collect()
}

/// A qi in days from the epoch.
fn qi_from_epoch(system: &System, qi: &Moment) -> Fraction {
    let (in_day, in_part) = (system.solar_parts_in_day, system.small_units_in_part);
    let parts = (qi.day - system.register_day(0)) * in_day + qi.parts;
    Fraction::new(parts * in_part + qi.units, in_day * in_part)
}

/// The distances due for all qi of the years 1 to 3001 but the last, found by
/// another way than by remainders.
///
/// Cut the year into 360 equal shares, 15 to a qi. A share is longer than a day,
/// and so the count of days runs ahead of that of shares, from the epoch on,
/// where both begin with a qi: by one in every Y by Y less 360 times D days,
/// which are 4,393,880 by 63,080 or 443,771 by 6,371. Each moment at which it is
/// ahead by one more falls on a submerged day. It is that of the last qi before
/// the moment.
///
/// Such a moment may be that of a qi itself, and is then after the qi before.
/// Jiyuan's limit has it so: 7,290 less the step's 1,592 and three quarters is
/// 5,697 and a quarter. 12,030 less 2,628 and 12 of 36 is 9,401 and 24, so that
/// Guantian's leaves it out.
fn submerged_by_moments(table: &Table) -> Vec<Option<i128>> {
    let system = table.system;
    let (over, under) = if system.number == 1 { (4_393_880, 63_080) } else { (443_771, 6_371) };
    // The number of the first after the solstice of year 1.
    let Solar(solstice) = system.solstice(FIRST_YEAR);
    let mut number = solstice * under / (over * system.solar_parts_in_day) + 1;
    let mut due = Vec::new();
    let qi: Vec<&Moment> = (FIRST_YEAR..=LAST_YEAR + 1).flat_map(|year| &table.year(year).qi[..24]).collect();
    for pair in qi.windows(2) {
        let moment = Fraction::new(number * over, under);
        let next = qi_from_epoch(system, pair[1]);
        if !next.at_least(moment) {
            due.push(None);
            continue;
        }
        number += 1;
        let left_out = system.number == 1 && moment.at_least(next);
        let from_day = moment.less(Fraction::whole(pair[0].day - system.register_day(0)));
        due.push((!left_out).then(|| from_day.cut_down()));
    }
    due
}

/// Every qi of the years 1 to 3000 as the pages tell it.
///
/// The next qi is 16 days on where there is a submerged day, and else 15. In
/// 3000 years from solstice to solstice, from 1721414 to 2817145, there are
/// 1,095,731 days, and 15 to each of 72,000 qi are 1,080,000: 15,731 qi have 16.
///
/// That is all in Jiyuan. In Guantian ten are left out, those before a qi at the
/// very beginning of its day. A step is 109,847 by 7,218 days, which has no
/// smaller terms, and one qi in 7,218 is such: qi 6 of 1209 on 2162720, 4 earlier
/// and 5 later ones.
fn every_submerged_day(table: &Table, checks: &mut Checks) {
    let system = table.system;
    let due = submerged_by_moments(table);
    let mut days_of_16 = Vec::new();
    for number in FIRST_YEAR..=LAST_YEAR {
        let say = |what: &str| format!("Q-10, {} {}: {}", system.letter, number, what);
        let page = submerged_of(&system.number.to_string(), &number.to_string());
        let Some(told) = told(page, &format!("submerged {} {}", system.letter, number), "qi") else {
            checks.that(false, || say("a page of another form"));
            continue;
        };
        let qi = &table.year(number).qi;
        let first = 24 * (number - FIRST_YEAR) as usize;
        let all: Vec<Told> = (0..=24)
            .map(|i| Told { number: i as i128, day: qi[i].day, distance: due[first + i] })
            .collect();
        checks.that(told == all, || say("not the submerged days by moments"));
        for (i, line) in told.iter().enumerate() {
            checks.that(line.distance.map_or(true, |d| (1..=16).contains(&d)), || say("not 1 to 16"));
            // The page's own last qi has no next one there.
            let Some(next) = qi.get(i + 1) else { continue };
            let left_out = system.number == 1 && next.parts == 0 && next.units == 0;
            let long = next.day - line.day == 16;
            checks.that(line.distance.is_some() == (long && !left_out), || say("15 or 16 days"));
            if line.distance == Some(16) {
                days_of_16.push((number, i));
            }
        }
    }
    let count = due[..72_000].iter().flatten().count();
    checks.same("Q-10, submerged days", count, if system.number == 1 { 15_721 } else { 15_731 });
    let due_of_16 = if system.number == 1 { vec![] } else { vec![(889, 23), (2104, 23)] };
    checks.same("Q-10, distances of 16", days_of_16, due_of_16);
}

/// The distances due for all new moons of the years 1 to 3000, found by another
/// way than by remainders.
///
/// Cut the month into 30 equal shares. A share is shorter than a day, and so the
/// count of shares runs ahead of that of days, from the epoch on: by one in every
/// M by 30 times D less M days, which are 355,253 by 5,647 or 215,278 by 3,422.
/// Each moment at which it is ahead by one more, or at the epoch by none, falls
/// on an extinguished day. It is that of the new moon at the moment, or of the
/// last before it.
fn extinguished_by_moments(table: &Table) -> Vec<Vec<Option<i128>>> {
    let system = table.system;
    let (over, under) = if system.number == 1 { (355_253, 5_647) } else { (215_278, 3_422) };
    let in_day = system.lunar_parts_in_day;
    // The number of the first that is not before the first new moon of year 1.
    let first_moon = table.year(FIRST_YEAR).months[0].new_moon.0;
    let mut number = (first_moon * under + over * in_day - 1) / (over * in_day);
    let mut due = Vec::new();
    for year in FIRST_YEAR..=LAST_YEAR {
        let mut of_year = Vec::new();
        for month in &table.year(year).months {
            let moment = Fraction::new(number * over, under);
            let next = Fraction::new(system.next_moon(month.new_moon).0, in_day);
            if moment.at_least(next) {
                of_year.push(None);
                continue;
            }
            number += 1;
            let from_day = moment.less(Fraction::whole(month.head - system.register_day(0)));
            of_year.push(Some(from_day.cut_down()));
        }
        due.push(of_year);
    }
    due
}

/// Every new moon of the years 1 to 3000 as the pages tell it: a month has 29
/// days where it has an extinguished day, and else 30.
///
/// The first new moon of year 1 is on 1721407, at 911 of 12,030 parts or 594 of
/// 7,290. In either system 37,105 months later, by 355,253 or 215,278 parts, the
/// one that opens 3001 is on 2817139, at 7,516 or 4,504. These are 1,095,732
/// days, and 30 to each month are 1,113,150: 17,418 months have 29.
fn every_extinguished_day(tables: &Tables, table: &Table, checks: &mut Checks) {
    let system = table.system;
    let due = extinguished_by_moments(table);
    for (number, due) in (FIRST_YEAR..=LAST_YEAR).zip(&due) {
        let say = |what: &str| format!("Q-10, {} {}: {}", system.letter, number, what);
        let page = extinguished_of(tables, &system.number.to_string(), &number.to_string());
        let Some(told) = told(page, &format!("extinguished {} {}", system.letter, number), "moon") else {
            checks.that(false, || say("a page of another form"));
            continue;
        };
        let months = &table.year(number).months;
        let all: Vec<Told> = (0..months.len())
            .map(|i| Told { number: i as i128 + 1, day: months[i].head, distance: due[i] })
            .collect();
        checks.that(told == all, || say("not the extinguished days by moments"));
        for (line, month) in told.iter().zip(months) {
            checks.that(line.distance.map_or(true, |d| (0..=29).contains(&d)), || say("not 0 to 29"));
            checks.that(line.distance.is_some() == (month.length == 29), || say("29 or 30 days"));
        }
    }
    checks.same("Q-10, new moons", due.iter().flatten().count(), 37_105);
    checks.same("Q-10, extinguished days", due.iter().flatten().flatten().count(), 17_418);
}
