//! Request Q-12 of paper 02: the sun's excess and shortfall on every day after
//! either solstice, and the days that are refused. The numbers written out are
//! worked out by hand from those of the paper.

use crate::cases::Checks;
use crate::requests::{answers, Answer, Number};
use crate::sun::{amount, line, Season};
use std::cmp::Ordering;

pub fn run(checks: &mut Checks) {
    seasons(checks);
    up_to_the_limit(checks);
    beyond_the_limit(checks);
    refused(checks);
    ranges(checks);
    for season in [Season::Winter, Season::Summer] {
        every_day(season, checks);
    }
    whole_list(checks, Season::Winter, 89, 89, 24_000, 317);
    whole_list(checks, Season::Summer, 93, 94, 23_998, 334);
    backwards(checks, Season::Winter, Season::Summer, 90);
    backwards(checks, Season::Summer, Season::Winter, 95);
}

fn line_of(season: Season, day: &str) -> Answer {
    line(season, &Number::read(day).unwrap())
}

fn by_hand(checks: &mut Checks, season: Season, day: i128, due: i128) {
    let what = format!("Q-12, {:?}, day {}", season, day);
    checks.same(&what, amount(season, day), due);
    checks.same(&what, line_of(season, &day.to_string()), Ok(vec![format!("{} {}", day, due)]));
}

fn seasons(checks: &mut Checks) {
    checks.same("Q-12, a word", Season::read("winter"), Some(Season::Winter));
    checks.same("Q-12, a word", Season::read("summer"), Some(Season::Summer));
    for word in ["", "Winter", "SUMMER", "winter ", "wint", "summers", "spring", "autumn", "0", "1", "2"] {
        checks.same("Q-12, no such word", Season::read(word), None);
    }
}

/// Days at most L. Twice L is 2,139,196 parts after winter and 2,254,684 after
/// summer, and x is x times 12,030, so that x times (2L less x) can be told in
/// parts. A degree has 3,294 or 3,659 times 12,030 of these, and a ten-thousandth
/// of it 3,962.682 or 4,401.777. After winter:
/// - once 2,127,166 is 536 times 3,962.682 and 3,168.448;
/// - 34 times 1,730,176 is 58,825,984, or 14,844 times and 3,932.392, not far from
///   one more;
/// - 38 times 1,682,056 is 63,918,128, or 16,130 times and only 67.340;
/// - 88 times 1,080,556 is 95,088,928, or 23,996 times and 410.728.
///
/// After summer:
/// - once 2,242,654 is 509 times 4,401.777 and 2,149.507;
/// - 13 times 2,098,294 is 27,277,822, or 6,197 times and only 9.931;
/// - 85 times 1,232,134 is 104,731,390, or 23,792 times and 4,311.616, not far from
///   one more;
/// - 93 times 1,135,894 is 105,638,142, or 23,998 times and 4,297.554.
fn up_to_the_limit(checks: &mut Checks) {
    for (day, due) in [(0, 0), (1, 536), (34, 14_844), (38, 16_130), (88, 23_996)] {
        by_hand(checks, Season::Winter, day, due);
    }
    for (day, due) in [(0, 0), (1, 509), (13, 6_197), (85, 23_792), (93, 23_998)] {
        by_hand(checks, Season::Summer, day, due);
    }
}

/// Days beyond L. 182 days and 7,480 parts are 2,196,940 parts. What x leaves of
/// them is taken in parts, and so is what that leaves of twice the other L. Then
/// a degree has 3,659 or 3,294 times 12,030 times 12,030, and a ten-thousandth of
/// it 52,953,377.31 after winter and 47,671,064.46 after summer. After winter:
/// - day 89: 1,126,270 times 1,128,414 is 1,270,898,835,780, or 24,000 times
///   52,953,377.31 and 17,780,340;
/// - day 96: 1,042,060 times 1,212,624 is 1,263,626,965,440, or 23,863 times and
///   only 522,691.47;
/// - day 140: 512,740 times 1,741,944 is 893,164,366,560, or 16,866 times and
///   52,704,849.54, not far from one more;
/// - day 181: 19,510 times 2,235,174 is 43,608,244,740, or 823 times and
///   27,615,213.87;
/// - day 182: 7,480 times 2,247,204 is 16,809,085,920, or 317 times and
///   22,865,312.73.
///
/// After summer:
/// - day 94: 1,066,120 times 1,073,076 is 1,144,027,785,120, or 23,998 times
///   47,671,064.46 and 17,580,208.92;
/// - day 102: 969,880 times 1,169,316 is 1,134,096,202,080, or 23,790 times and
///   only 1,578,576.60;
/// - day 155: 332,290 times 1,806,906 is 600,416,794,740, or 12,594 times and
///   47,408,930.76, not far from one more;
/// - day 181: 19,510 times 2,119,686 is 41,355,073,860, or 867 times and
///   24,260,973.18;
/// - day 182: 7,480 times 2,131,716 is 15,945,235,680, or 334 times and
///   23,100,150.36.
fn beyond_the_limit(checks: &mut Checks) {
    for (day, due) in [(89, 24_000), (96, 23_863), (140, 16_866), (181, 823), (182, 317)] {
        by_hand(checks, Season::Winter, day, due);
    }
    for (day, due) in [(94, 23_998), (102, 23_790), (155, 12_594), (181, 867), (182, 334)] {
        by_hand(checks, Season::Summer, day, due);
    }
}

/// Days at the ends of 8, 16, 31, 32, 63 and 64 bits, and days that would come
/// out as 1 or 182 if they were cut to as many.
const NO_DAYS: [&str; 25] = [
    "183",
    "0183",
    "255",
    "256",
    "257",
    "438",
    "65535",
    "65536",
    "65537",
    "65718",
    "2147483647",
    "2147483648",
    "2147483649",
    "4294967295",
    "4294967296",
    "4294967297",
    "4294967478",
    "9223372036854775807",
    "9223372036854775808",
    "9223372036854775809",
    "18446744073709551615",
    "18446744073709551616",
    "18446744073709551617",
    "18446744073709551798",
    "100000000000000000000000000000000000000000000000001",
];

fn refused(checks: &mut Checks) {
    for season in [Season::Winter, Season::Summer] {
        for day in NO_DAYS {
            checks.same("Q-12, no such day", line_of(season, day), Err(7));
        }
        for day in 183..=70_000 {
            let came = line_of(season, &day.to_string());
            checks.that(came == Err(7), || format!("Q-12, {:?}: day {} is not refused", season, day));
        }
    }
}

/// A line for each day, refused or not, and leading noughts that change nothing.
fn ranges(checks: &mut Checks) {
    for (season, first, last, due) in [
        (Season::Winter, "0", "1", "0 0\n1 536\n"),
        (Season::Summer, "000", "0000001", "0 0\n1 509\n"),
        (Season::Winter, "88", "89", "88 23996\n89 24000\n"),
        (Season::Summer, "0093", "94", "93 23998\n94 23998\n"),
        (Season::Winter, "181", "184", "181 823\n182 317\nrefused 7\nrefused 7\n"),
        (Season::Summer, "181", "00184", "181 867\n182 334\nrefused 7\nrefused 7\n"),
        (Season::Winter, "4294967295", "4294967297", "refused 7\nrefused 7\nrefused 7\n"),
        (Season::Summer, "18446744073709551615", "18446744073709551616", "refused 7\nrefused 7\n"),
        (Season::Winter, "1", "0", ""),
        (Season::Summer, "10", "9", ""),
        (Season::Winter, "18446744073709551616", "1", ""),
    ] {
        let numbers = [first, last].map(|text| Number::read(text).unwrap());
        let mut out = Vec::new();
        answers(&numbers[0], &numbers[1], |day| line(season, day), &mut out).unwrap();
        let what = format!("Q-12, {:?}, days {} to {}", season, first, last);
        checks.same(&what, String::from_utf8(out).unwrap().as_str(), due);
    }
}

/// Whether an amount is the one due, by another way than the paper's: in whole
/// numbers of parts, by squares and without the 182 days and 7,480 parts.
///
/// x times (2L less x) is L squared less the square of what x lacks to L. 88 and
/// 93 days and 10,958 and 8,552 parts are 182 days and 7,480 parts. So beyond L
/// what is taken lacks as much to the other L as x has passed its own.
///
/// 88 times 12,030 and 10,958 are 1,069,598; 93 times 12,030 and 8,552 are
/// 1,127,342.
fn is_due(season: Season, day: i128, amount: i128) -> bool {
    let (winter, summer) = ((1_069_598, 3_294), (1_127_342, 3_659));
    let (own, other) = match season {
        Season::Winter => (winter, summer),
        Season::Summer => (summer, winter),
    };
    let passed = 12_030 * day - own.0;
    let (limit, divisor) = if passed > 0 { other } else { own };
    let over = 10_000 * (limit * limit - passed * passed);
    let under = 12_030 * 12_030 * divisor;
    amount * under <= over && over < (amount + 1) * under
}

fn every_day(season: Season, checks: &mut Checks) {
    for day in 0..=182 {
        let say = |what: &str| format!("Q-12, {:?}, day {}: {}", season, day, what);
        let came = amount(season, day);
        checks.that(is_due(season, day, came), || say("not the amount by squares"));
        let line = line_of(season, &day.to_string());
        checks.that(line == Ok(vec![format!("{} {}", day, came)]), || say("another line"));
    }
}

fn amounts(season: Season) -> Vec<i128> {
    (0..=182).map(|day| amount(season, day)).collect()
}

/// The amounts rise from 0 to the largest, which these days have and no others,
/// and then fall to the last, the least but for that of day 0.
///
/// Where x meets L there would be L squared, and nowhere more. With winter's L it
/// is 1,144,039,881,604, or 23,998 times 47,671,064.46 and 29,676,692.92; with
/// summer's 1,270,899,984,964, or 24,000 times 52,953,377.31 and 18,929,524. So
/// 24,000 and 23,998 cannot be passed with these. Around them, besides what is
/// worked out above, are
/// - day 90 after winter: 1,114,240 times 1,140,444 is 1,270,728,322,560, or 23,997
///   times 52,953,377.31 and 6,127,251.93;
/// - day 92 after summer: 92 times 1,147,924 is 105,609,008, or 23,992 times
///   4,401.777 and 1,574.216;
/// - day 95 after summer: 1,054,090 times 1,085,106 is 1,143,799,383,540, or 23,993
///   times 47,671,064.46 and 27,533,951.22.
fn whole_list(checks: &mut Checks, season: Season, first: usize, last: usize, largest: i128, least: i128) {
    let amounts = amounts(season);
    for (day, pair) in amounts.windows(2).enumerate() {
        let due = if day < first {
            Ordering::Less
        } else if day < last {
            Ordering::Equal
        } else {
            Ordering::Greater
        };
        checks.that(pair[0].cmp(&pair[1]) == due, || format!("Q-12, {:?}, after day {}", season, day));
    }
    let days_with = |amount: i128| -> Vec<usize> { (0..=182).filter(|day| amounts[*day] == amount).collect() };
    checks.same("Q-12, the largest", amounts.iter().max(), Some(&largest));
    checks.same("Q-12, days with the largest", days_with(largest), (first..=last).collect());
    checks.same("Q-12, days with 0", days_with(0), vec![0]);
    checks.same("Q-12, the least after day 0", amounts[1..].iter().min(), Some(&least));
    checks.same("Q-12, days with the least", days_with(least), vec![182]);
}

/// Beyond L a season goes through the other's amounts backwards, 7,480 parts off
/// from whole days: each is between those of two days.
fn backwards(checks: &mut Checks, season: Season, other: Season, first: usize) {
    let (amounts, others) = (amounts(season), amounts(other));
    for day in first..=182 {
        let between = others[182 - day] < amounts[day] && amounts[day] < others[183 - day];
        checks.that(between, || format!("Q-12, {:?}, day {}: not between the other's", season, day));
    }
}
