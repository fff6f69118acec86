//! Request Q-9 of paper 02: months that carry their reasons, which are the new
//! moon's remainder and the middle qi that is held. They are looked at in the
//! year's value and as its page prints them. The numbers written out are worked
//! out by hand from those of the papers.

use crate::cases::{page_of, Checks, IN_ORDER};
use crate::compare;
use crate::reckoning::{name_of, Month, System, Table, Tables, FIRST_YEAR, LAST_YEAR, SYSTEMS};
use crate::requests::{Answer, Number};

pub fn run(tables: &Tables, checks: &mut Checks) {
    first_months(tables, checks);
    guantian_1094(tables, checks);
    jiyuan_1107(tables, checks);
    jingchu_236_and_237(tables, checks);
    compared_by_hand(tables, checks);
    every_comparison(tables, checks);
}

/// A month as its line tells it.
#[derive(PartialEq, Eq, Debug)]
struct Told {
    place: i128,
    number: i128,
    leap: bool,
    head: i128,
    name: i128,
    length: i128,
    remainder: i128,
    held: Option<i128>,
}

impl Told {
    /// The line read word by word; nothing if it has others than these eight.
    fn read(line: &str) -> Option<Told> {
        let words: Vec<&str> = line.split(' ').collect();
        let ["month", place, text, head, name, length, remainder, held] = words[..] else {
            return None;
        };
        let marked = text.strip_suffix('*');
        Some(Told {
            place: whole(place)?,
            number: whole(marked.unwrap_or(text))?,
            leap: marked.is_some(),
            head: whole(head)?,
            name: whole(name)?,
            length: whole(length)?,
            remainder: whole(remainder)?,
            held: if held == "-" { None } else { Some(whole(held)?) },
        })
    }

    /// What the line of a month of the year's value is to tell.
    fn due((i, month): (usize, &Month)) -> Told {
        Told {
            place: i as i128 + 1,
            number: month.number as i128,
            leap: month.leap,
            head: month.head,
            name: name_of(month.head) as i128,
            length: month.length,
            remainder: month.remainder,
            held: month.held.map(|j| j as i128),
        }
    }

    fn has_day(&self, day: i128) -> bool {
        self.head <= day && day < self.head + self.length
    }

    /// All that Q-1 compares.
    fn same_for_q_1(&self, other: &Told) -> bool {
        self.number == other.number && self.leap == other.leap && self.head == other.head
    }
}

/// A number as it is printed, without leading noughts.
pub fn whole(text: &str) -> Option<i128> {
    text.parse().ok().filter(|number: &i128| number.to_string() == text)
}

/// What a year's page tells of its qi, its months and the next head.
struct Page {
    qi_days: Vec<i128>,
    months: Vec<Told>,
    next_head: i128,
}

impl Page {
    /// Nothing if it has other lines than one for the year, those of qi 0 to 24
    /// and of the months, the next head and the names.
    fn read(lines: &[String]) -> Option<Page> {
        let qi_day = |line: &String| line.strip_prefix("qi ")?.split(' ').nth(1).and_then(whole);
        let [months @ .., next, names] = lines.get(26..)? else { return None };
        names.strip_prefix("names ")?;
        Some(Page {
            qi_days: lines[1..26].iter().map(qi_day).collect::<Option<_>>()?,
            months: months.iter().map(|line| Told::read(line)).collect::<Option<_>>()?,
            next_head: whole(next.strip_prefix("next ")?)?,
        })
    }

    fn of(tables: &Tables, system: &System, year: i128) -> Option<Page> {
        Page::read(&page_of(tables, &system.number.to_string(), &year.to_string()).ok()?)
    }
}

/// The first new moons of cases 2 and 8, as their lines have them.
fn first_months(tables: &Tables, checks: &mut Checks) {
    for (system, year, line) in [
        ("1", "1092", "month 1 11 2119892 22 30 10343 0"),
        ("2", "1106", "month 1 11 2125001 31 30 4760 0"),
    ] {
        checks.same("Q-9, first month", page_of(tables, system, year).unwrap()[26].as_str(), line);
    }
}

/// A year's months are these, on its page and in its value.
fn months_by_hand(tables: &Tables, checks: &mut Checks, system: u8, year: i128, lines: &[&str]) {
    let what = format!("Q-9, months of {} in system {}", year, system);
    let page = page_of(tables, &system.to_string(), &year.to_string()).unwrap();
    let printed: Vec<&str> = page.iter().map(|l| l.as_str()).filter(|l| l.starts_with("month")).collect();
    checks.same(&what, printed, lines.to_vec());
    let months = &tables.table(system).unwrap().year(year).months;
    let had: Vec<Option<Told>> = months.iter().enumerate().map(|m| Some(Told::due(m))).collect();
    checks.same(&what, had, lines.iter().map(|line| Told::read(line)).collect());
}

/// Guantian 1094 by hand. Case 2's new moon opens 1092, which has 12 months by
/// case 3, and 1093 has 354 days and so 12 too. 24 times 355,253 and 10,343 are
/// 8,536,415 parts, or 709 days of 12,030 and 7,145 parts: the first new moon
/// is on 2120601, as case 5 has it, at 7,145. Each next one is 29 days and 6,383
/// parts later: where that makes 12,030 parts or more, these are a day, and the
/// month has 30.
///
/// The solstice, two years of 365 days and 2,930 parts after case 1's, is on
/// 2120625 at 8,180, and each next middle qi 30 days, 5,256 parts and 24 of 36
/// small units later: on 2120625, 656, 686, 716, 747, 777, 808, 838, 869, 899,
/// 930 and 960. 777 is the last day of the sixth month and 808 the first of the
/// eighth, on which the new moon comes 76 parts later than the 3,630 of the qi.
fn guantian_1094(tables: &Tables, checks: &mut Checks) {
    let lines = [
        "month 1 11 2120601 11 30 7145 0",
        "month 2 12 2120631 41 29 1498 1",
        "month 3 1 2120660 10 30 7881 2",
        "month 4 2 2120690 40 29 2234 3",
        "month 5 3 2120719 9 30 8617 4",
        "month 6 4 2120749 39 29 2970 5",
        "month 7 4* 2120778 8 30 9353 -",
        "month 8 5 2120808 38 29 3706 6",
        "month 9 6 2120837 7 30 10089 7",
        "month 10 7 2120867 37 29 4442 8",
        "month 11 8 2120896 6 30 10825 9",
        "month 12 9 2120926 36 29 5178 10",
        "month 13 10 2120955 5 30 11561 11",
    ];
    months_by_hand(tables, checks, 1, 1094, &lines);
}

/// Jiyuan 1107 by hand. Case 8's new moon opens 1106, which has 12 months. 12
/// times 215,278 and 4,760 are 2,588,096 parts, or 355 days of 7,290 and 146
/// parts: the first new moon is on 2125356 at 146. Each next one is 29 days and
/// 3,868 parts later.
///
/// The solstice, 365 days and 1,776 parts after case 7's, is on 2125373 at
/// 6,312, and each next middle qi 30 days, 3,185 parts and 2 of 4 small units
/// later: on 2125373, 404, 434, 465, 495, 526, 556, 586, 617, 647, 678 and 708.
/// The next solstice is on 2125739, the day after the thirteenth month.
fn jiyuan_1107(tables: &Tables, checks: &mut Checks) {
    let lines = [
        "month 1 11 2125356 26 29 146 0",
        "month 2 12 2125385 55 30 4014 1",
        "month 3 1 2125415 25 29 592 2",
        "month 4 2 2125444 54 30 4460 3",
        "month 5 3 2125474 24 29 1038 4",
        "month 6 4 2125503 53 30 4906 5",
        "month 7 5 2125533 23 29 1484 6",
        "month 8 6 2125562 52 30 5352 7",
        "month 9 7 2125592 22 29 1930 8",
        "month 10 8 2125621 51 30 5798 9",
        "month 11 9 2125651 21 29 2376 10",
        "month 12 10 2125680 50 30 6244 11",
        "month 13 10* 2125710 20 29 2822 -",
    ];
    months_by_hand(tables, checks, 2, 1107, &lines);
}

/// Jingchu 236 and 237 by hand, in the moon's parts. N is 4,044, times 235 and
/// by 19 it is 50,017 and 17 left: 50,017 times 134,630 is 6,733,788,710 parts,
/// or 1,477,031 days of 4,559 and 4,381 parts, and the first new moon is on
/// 1807222 at 4,381. Each next one is 29 days and 2,419 parts later, and the
/// fourteenth, on 1807606 at 3,915, opens 237.
///
/// The solstice of 236, 365 days and 455 solar parts before that of 237, is on
/// 1807249 at 706, and each next middle qi 30 days, 805 parts and 10 of 12 small
/// units later: on 1807249, 279, 310, 340, 371, 401, 432, 462, 492, 523, 553 and
/// 584. 340 is the last day of the fourth month and 371 the second of the sixth.
/// From the solstice of 237, on 1807614 at 1,161, they are on 614, 645, 675,
/// 705, 736, 766, 797, 827, 858, 888, 919 and 949, one in each month.
fn jingchu_236_and_237(tables: &Tables, checks: &mut Checks) {
    let lines = [
        "month 1 11 1807222 12 30 4381 0",
        "month 2 12 1807252 42 30 2241 1",
        "month 3 1 1807282 12 29 101 2",
        "month 4 2 1807311 41 30 2520 3",
        "month 5 2* 1807341 11 29 380 -",
        "month 6 3 1807370 40 30 2799 4",
        "month 7 4 1807400 10 29 659 5",
        "month 8 5 1807429 39 30 3078 6",
        "month 9 6 1807459 9 29 938 7",
        "month 10 7 1807488 38 30 3357 8",
        "month 11 8 1807518 8 29 1217 9",
        "month 12 9 1807547 37 30 3636 10",
        "month 13 10 1807577 7 29 1496 11",
    ];
    months_by_hand(tables, checks, 3, 236, &lines);
    let lines = [
        "month 1 11 1807606 36 30 3915 0",
        "month 2 12 1807636 6 29 1775 1",
        "month 3 1 1807665 35 30 4194 2",
        "month 4 2 1807695 5 29 2054 3",
        "month 5 3 1807724 34 30 4473 4",
        "month 6 4 1807754 4 30 2333 5",
        "month 7 5 1807784 34 29 193 6",
        "month 8 6 1807813 3 30 2612 7",
        "month 9 7 1807843 33 29 472 8",
        "month 10 8 1807872 2 30 2891 9",
        "month 11 9 1807902 32 29 751 10",
        "month 12 10 1807931 1 30 3170 11",
    ];
    months_by_hand(tables, checks, 3, 237, &lines);
}

/// The comparison of two systems in one year, or the refusal.
fn comparison_of(tables: &Tables, first: u8, second: u8, year: i128) -> Answer {
    let number = |text: String| Number::read(&text).unwrap();
    let (first, second) = (number(first.to_string()), number(second.to_string()));
    compare::comparison(tables, &first, &second, &number(year.to_string()))
}

/// Q-1 does not look at remainders, nor does it tell them or the qi.
///
/// Guantian and Jiyuan have the same twelve months in 1092, by hand: 173 months
/// of 215,278 parts, or 5,108 days and 5,774 parts, before case 8's new moon is
/// one on 2119892 at 6,276, and case 2's is on that day at 10,343. With 29 days
/// and 3,868 of 7,290 parts, or 6,383 of 12,030, both come to 2119922, 951, 981,
/// 2120010, 040, 070, 099, 129, 158, 188, 217 and, after them, 247.
///
/// Guantian and Jingchu differ in every place of 1094: the months of the one are
/// those above, and Jingchu's first new moon is on 2120631 at 940.
fn compared_by_hand(tables: &Tables, checks: &mut Checks) {
    let remainders = |system| -> Vec<i128> {
        tables.table(system).unwrap().year(1092).months.iter().map(|m| m.remainder).collect()
    };
    let guantian = vec![10_343, 4_696, 11_079, 5_432, 11_815, 6_168, 521, 6_904, 1_257, 7_640, 1_993, 8_376];
    let jiyuan = vec![6_276, 2_854, 6_722, 3_300, 7_168, 3_746, 324, 4_192, 770, 4_638, 1_216, 5_084];
    checks.same("Q-9, Guantian 1092", remainders(1), guantian);
    checks.same("Q-9, Jiyuan 1092", remainders(2), jiyuan);
    let alike = comparison_of(tables, 1, 2, 1092);
    checks.same("Q-9, compared", alike, Ok(vec!["compare G J 1092 0".to_string()]));

    let listed = [
        "compare G W 1094 13",
        "place 1 11 2120601 11 2120631 30",
        "place 2 12 2120631 12 2120660 29",
        "place 3 1 2120660 1 2120690 30",
        "place 4 2 2120690 2 2120719 29",
        "place 5 3 2120719 3 2120749 30",
        "place 6 4 2120749 4 2120778 29",
        "place 7 4* 2120778 5 2120808 30",
        "place 8 5 2120808 6 2120837 29",
        "place 9 6 2120837 7 2120867 30",
        "place 10 7 2120867 8 2120896 29",
        "place 11 8 2120896 9 2120926 30",
        "place 12 9 2120926 10 2120956 30",
        "place 13 10 2120955 - - second",
    ];
    let listed: Vec<String> = listed.iter().map(|line| line.to_string()).collect();
    checks.same("Q-9, compared", comparison_of(tables, 1, 3, 1094), Ok(listed));
}

/// The same of every two systems and every year, from what the pages tell: a
/// place is passed over when number, leap mark and head are the same, and of two
/// systems there are such places with two remainders.
fn every_comparison(tables: &Tables, checks: &mut Checks) {
    let years = FIRST_YEAR..=LAST_YEAR;
    let pages = SYSTEMS.map(|system| -> Vec<Vec<Told>> {
        years.clone().map(|year| Page::of(tables, system, year).map_or(vec![], |page| page.months)).collect()
    });
    for (first, of_first) in SYSTEMS.iter().zip(&pages) {
        for (second, of_second) in SYSTEMS.iter().zip(&pages) {
            let mut with_two_remainders = 0;
            for (year, (a, b)) in years.clone().zip(of_first.iter().zip(of_second)) {
                let lines = comparison_of(tables, first.number, second.number, year).unwrap();
                checks.that(lists_rightly(&lines, a, b), || {
                    format!("Q-9: {} and {} compared in {}", first.letter, second.letter, year)
                });
                let both = a.iter().zip(b).filter(|(m, n)| m.same_for_q_1(n));
                with_two_remainders += both.filter(|(m, n)| m.remainder != n.remainder).count();
            }
            let differ = first.number != second.number;
            checks.that((with_two_remainders > 0) == differ, || {
                format!("Q-9: remainders of {} and {}", first.letter, second.letter)
            });
        }
    }
}

/// The places due are listed, each in seven words, after five of the beginning.
fn lists_rightly(lines: &[String], a: &[Told], b: &[Told]) -> bool {
    let words: Vec<Vec<&str>> = lines.iter().map(|line| line.split(' ').collect()).collect();
    let due = (0..13).filter(|i| match (a.get(*i), b.get(*i)) {
        (None, None) => false,
        (Some(m), Some(n)) => !m.same_for_q_1(n),
        _ => true,
    });
    let due: Vec<Option<i128>> = due.map(|i| Some(i as i128 + 1)).collect();
    let listed: Vec<Option<i128>> = words[1..].iter().map(|line| whole(line[1])).collect();
    words[0].len() == 5 && words[1..].iter().all(|line| line.len() == 7) && listed == due
}

/// What Q-9 says of every year, of its page and so of its value, which has the
/// same.
pub fn every_month(tables: &Tables, table: &Table, checks: &mut Checks) {
    for number in FIRST_YEAR..=LAST_YEAR {
        let say = |what: &str| format!("Q-9, {} {}: {}", table.system.letter, number, what);
        let Some(page) = Page::of(tables, table.system, number) else {
            checks.that(false, || say("a page of another form"));
            continue;
        };
        let due: Vec<Told> = table.year(number).months.iter().enumerate().map(Told::due).collect();
        checks.that(page.months == due, || say("the page and the value"));
        new_moons(table, number, &page, checks);
        middle_qi(&page, checks, say);
    }
}

/// A year's new moons by head and remainder, to the one that opens the next.
fn new_moons(table: &Table, number: i128, page: &Page, checks: &mut Checks) {
    let say = |what: &str| format!("Q-9, {} {}: {}", table.system.letter, number, what);
    // The moon's parts: in a day, in a month, and in a month past 29 days.
    let (in_day, in_month, past_29_days) = match table.system.number {
        1 => (12_030, 355_253, 6_383),
        2 => (7_290, 215_278, 3_868),
        _ => (4_559, 134_630, 2_419),
    };
    let from_epoch = |head: i128, parts: i128| (head - table.system.register_day(0)) * in_day + parts;
    for (told, month) in page.months.iter().zip(&table.year(number).months) {
        let moon = from_epoch(told.head, told.remainder);
        checks.that((0..in_day).contains(&told.remainder), || say("a remainder of a day or more"));
        checks.that(moon == month.new_moon.0, || say("head and remainder are not the new moon"));
        checks.that(moon % in_month == 0, || say("not whole months from the epoch"));
    }
    let opening = &table.year(number + 1).months[0];
    checks.that(page.next_head == opening.head, || say("the next head"));
    let of_next = page.months[1..].iter().map(|m| (m.head, m.remainder));
    for (month, (head, parts)) in page.months.iter().zip(of_next.chain([(opening.head, opening.remainder)])) {
        let on = from_epoch(head, parts) - from_epoch(month.head, month.remainder);
        checks.that(on == in_month, || say("a month from new moon to new moon"));
        // The parts rise, and are a day less where the month has a day more.
        let taken = if month.length == 30 { in_day } else { 0 };
        checks.that(parts == month.remainder + past_29_days - taken, || say("a remainder rises"));
        checks.that(head == month.head + month.length, || say("a month's days"));
    }
}

/// The middle qi that a year's months hold: leap exactly when none is held, the
/// indexes 0 to 11 in order, each month's own number, and the days of the qi.
fn middle_qi(page: &Page, checks: &mut Checks, say: impl Fn(&str) -> String) {
    let mut before = None;
    for month in &page.months {
        checks.that(month.leap == month.held.is_none(), || say("leap, and what is held"));
        let number = month.held.map_or(before, |j| IN_ORDER.get(j as usize).map(|n| *n as i128));
        checks.that(Some(month.number) == number, || say("a number by the qi held"));
        before = number;
        let on_its_days = (0..12).filter(|j| month.has_day(page.qi_days[2 * *j as usize]));
        checks.that(on_its_days.eq(month.held), || say("the qi on a month's days"));
    }
    checks.that(page.months.iter().filter_map(|m| m.held).eq(0..12), || say("0 to 11 without a gap"));
}
