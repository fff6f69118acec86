//! The examples of request Q-7 of paper 02: kinds and names as they are, the
//! retired kind, its conversion, and old files. The numbers are worked out by
//! hand from those of the papers.

use crate::cases::{changed, lines_of, refusal, refusal_with_room, Checks};
use crate::citation::{answer, store, Refusal, Stored};
use crate::conversion::{convert, former_name_of, formerly_stored};
use crate::reckoning::{name_of, Table, Tables};
use crate::renewal::{former_lines, renew};
use crate::streams::{citation_of, stored_at};

pub fn run(tables: &Tables, checks: &mut Checks) {
    kinds(tables, checks);
    retired(tables, checks);
    ends_of_the_round(tables, checks);
    no_names(tables, checks);
    converted(checks);
    not_converted(checks);
    formerly(tables, checks);
    renewed_by_hand(checks);
    lines_by_hand(tables, checks);
}

/// Case 9's second record, and as it was written before kind 5 came.
const BY_NAME: [u8; 10] = [0x0A, 0x00, 0x05, 0x00, 0x01, 0x46, 0x04, 0x05, 0x00, 0x26];
const OLD: [u8; 10] = [0x0A, 0x00, 0x02, 0x00, 0x01, 0x46, 0x04, 0x05, 0x00, 0x25];

/// So many bytes, the first of them the record's.
fn of_length(record: [u8; 10], length: usize) -> Vec<u8> {
    let mut bytes = record.to_vec();
    bytes.resize(length, 0);
    bytes
}

/// A kind that there is not is refused 2, be the rest as it may; the kind is a
/// number of two bytes.
fn kinds(tables: &Tables, checks: &mut Checks) {
    for kind in [0, 6, 7, 255, 256, 257, 258, 261, 512, 1280, 65_535] {
        let [low, high] = u16::to_le_bytes(kind);
        for length in 0..=64 {
            for field in [length as u8, 9, 10] {
                let mut input = of_length(changed(changed(BY_NAME, 2, low), 3, high), length);
                input.iter_mut().take(1).for_each(|first| *first = field);
                let due = if length < 4 { (1, 0) } else { (2, 0) };
                checks.same("Q-7, no such kind", refusal(tables, &input), due);
            }
        }
    }
    for room in [0, 9, 10, 16] {
        let no_kind = changed(BY_NAME, 2, 6);
        checks.same("Q-7, no such kind", refusal_with_room(tables, &no_kind, room), (2, 0));
    }
}

/// Kind 2 is refused 11 from four bytes on: before 3 and all that follows on
/// it, and after 1.
fn retired(tables: &Tables, checks: &mut Checks) {
    for length in 0..=64 {
        for field in [0, 4, 9, 10, 11, length as u8] {
            let mut input = of_length(OLD, length);
            input.iter_mut().take(1).for_each(|first| *first = field);
            let due = if length < 4 { (1, 0) } else { (11, 0) };
            checks.same("Q-7, retired", refusal(tables, &input), due);
        }
    }
    for name in 0..=255 {
        checks.same("Q-7, retired", refusal(tables, &changed(OLD, 9, name)), (11, 0));
    }
    // No system, no year, no month, no leap byte, not leap, no name, no room.
    for (at, byte) in [(4, 0), (4, 4), (6, 255), (7, 13), (8, 2), (8, 1), (9, 60)] {
        for room in [0, 9, 10, 16] {
            let wrong = changed(OLD, at, byte);
            checks.same("Q-7, retired and wrong", refusal_with_room(tables, &wrong, room), (11, 0));
        }
    }
    checks.same("Q-7, 11 to C", answer(&store(tables, &OLD, 10)), 0x000B_0000_0000);
    checks.same("Q-7, the program", lines_of(tables, &OLD), "refused 11\n".to_string());
    let short = [0x04, 0x00, 0x02, 0x00];
    checks.same("Q-7, the program, short", lines_of(tables, &short), "refused 11\n".to_string());
}

/// Days with the last name of a round and the first of the next, which fall
/// within one month: Guantian 1092, month 12, whose names run from 52 to 60 and
/// from 1 to 20; Jiyuan 1106, month 4; Jingchu 237, month 3.
fn ends_of_the_round(tables: &Tables, checks: &mut Checks) {
    for (system, year, month, day, day_of_month) in
        [(1, 1092, 12, 2119930, 9), (2, 1106, 4, 2125150, 2), (3, 237, 3, 1807750, 27)]
    {
        checks.same("Q-7, guihai", name_of(day as i128), 60);
        checks.same("Q-7, jiazi", name_of(day as i128 + 1), 1);
        let [y, z] = u16::to_le_bytes(year);
        let by_name = |name| [10, 0, 5, 0, system, y, z, month, 0, name];
        let stored = |day_of_month| [10, 0, 1, 0, system, y, z, month, 0, day_of_month];
        let guihai: Result<Stored, Refusal> = Ok((day, stored(day_of_month)));
        checks.same("Q-7, name 60", store(tables, &by_name(60), 10), guihai);
        let jiazi = Ok((day + 1, stored(day_of_month + 1)));
        checks.same("Q-7, name 1", store(tables, &by_name(1), 10), jiazi);
        checks.same("Q-7, name 0", refusal(tables, &by_name(0)), (7, 0));
        checks.same("Q-7, name 61", refusal(tables, &by_name(61)), (7, 0));
    }
    for (name, due) in [(51, 7), (52, 0), (20, 0), (21, 7)] {
        let record = [10, 0, 5, 0, 1, 0x44, 0x04, 12, 0, name];
        checks.same("Q-7, names of a month", refusal(tables, &record), (due, 0));
    }
    // A month without these two.
    for name in [60, 1] {
        let record = [10, 0, 5, 0, 1, 0x44, 0x04, 11, 0, name];
        checks.same("Q-7, not in the month", refusal(tables, &record), (7, 0));
    }
    let record = [10, 0, 5, 0, 1, 0x44, 0x04, 12, 0, 60];
    let line = "G 1092 12 9 2119930 60\n".to_string();
    checks.same("Q-7, the program tells 60", lines_of(tables, &record), line);
}

/// Bytes that are no name of kind 5 are refused in the place of 7: after 3, 4,
/// 5, 6 and 10, and before 8.
fn no_names(tables: &Tables, checks: &mut Checks) {
    for name in [0].into_iter().chain(61..=255) {
        let record = changed(BY_NAME, 9, name);
        for room in [0, 9, 10, 16] {
            checks.same("Q-7, no name", refusal_with_room(tables, &record, room), (7, 0));
        }
        for (at, byte, due) in [
            (0, 9, (3, 0)),
            (4, 0, (4, 0)),
            (6, 255, (5, 0)),
            (7, 13, (6, 0)),
            (8, 2, (6, 0)),
            (8, 1, (10, 4)),
        ] {
            checks.same("Q-7, no name and more", refusal(tables, &changed(record, at, byte)), due);
        }
    }
}

/// Names rise by one, and nothing else is looked at.
fn converted(checks: &mut Checks) {
    checks.same("Q-7, converted", convert(&OLD, 10), Ok(BY_NAME));
    for name in 0..60 {
        let turned = changed(BY_NAME, 9, name + 1);
        for room in [10, 11, 64] {
            checks.same("Q-7, converted", convert(&changed(OLD, 9, name), room), Ok(turned));
        }
        checks.same("Q-7, converted twice", convert(&turned, 10), Err(Refusal::plain(2)));
    }
    for (at, byte) in [(4, 0), (4, 4), (4, 255), (5, 0), (6, 0), (6, 255), (7, 0), (7, 13), (8, 1), (8, 2)] {
        let turned = changed(BY_NAME, at, byte);
        checks.same("Q-7, not judged", convert(&changed(OLD, at, byte), 10), Ok(turned));
    }
    let all_wrong = [10, 0, 2, 0, 0, 0, 0, 0, 2, 59];
    checks.same("Q-7, not judged", convert(&all_wrong, 10), Ok([10, 0, 5, 0, 0, 0, 0, 0, 2, 60]));
}

/// The refusals of the conversion, each with all later ones that can hold too.
fn not_converted(checks: &mut Checks) {
    for room in [0, 1, 9, 10, 64] {
        let mut same = |input: &[u8], due| {
            checks.same("Q-7, not converted", convert(input, room), Err(Refusal::plain(due)));
        };
        for length in 0..4 {
            same(&OLD[..length], 1);
        }
        for kind in [0, 1, 3, 4, 5, 6, 255] {
            same(&[10, 0, kind, 0], 2);
            same(&changed(changed(OLD, 2, kind), 9, 60), 2);
            same(&of_length(changed(OLD, 2, kind), 11), 2);
        }
        same(&changed(OLD, 3, 1), 2);
        for length in (4..=64).filter(|length| *length != 10) {
            same(&of_length(changed(OLD, 9, 60), length), 3);
            same(&of_length(changed(changed(OLD, 0, length as u8), 9, 60), length), 3);
        }
        for field in [0, 9, 11, 255] {
            same(&changed(OLD, 0, field), 3);
            same(&changed(changed(OLD, 0, field), 9, 60), 3);
        }
        same(&changed(OLD, 1, 1), 3);
        for name in 60..=255 {
            same(&changed(OLD, 9, name), 7);
        }
    }
    for room in 0..10 {
        checks.same("Q-7, no room", convert(&OLD, room), Err(Refusal::plain(8)));
    }
    checks.same("Q-7, 0 to C", answer(&convert(&OLD, 10).map(|record| (0, record))), 0);
}

/// What old records stored as: the names of paper 01's cases, and refusals.
fn formerly(tables: &Tables, checks: &mut Checks) {
    checks.same("Q-7, formerly 37", former_name_of(2120808), 37);
    let due: Result<Stored, Refusal> = Ok((2120808, [10, 0, 1, 0, 1, 0x46, 0x04, 5, 0, 1]));
    checks.same("Q-7, case 9 formerly", formerly_stored(tables, &OLD, 10), due);
    let plain = |number| Err(Refusal::plain(number));
    let of_1092 = |month, name| [10, 0, 2, 0, 1, 0x44, 0x04, month, 0, name];
    let stored = |day, month, of_month| Ok((day, [10, 0, 1, 0, 1, 0x44, 0x04, month, 0, of_month]));
    for (record, room, due) in [
        (of_1092(11, 50), 10, stored(2119921, 11, 30)),
        (of_1092(11, 51), 10, plain(7)),
        (of_1092(12, 59), 10, stored(2119930, 12, 9)),
        (of_1092(12, 0), 10, stored(2119931, 12, 10)),
        (of_1092(12, 60), 10, plain(7)),
        (changed(OLD, 4, 4), 10, plain(4)),
        (changed(OLD, 6, 255), 10, plain(5)),
        (changed(OLD, 7, 13), 10, plain(6)),
        (changed(OLD, 8, 2), 10, plain(6)),
        (changed(OLD, 8, 1), 10, Err(Refusal::not_leap(4))),
        (OLD, 9, plain(8)),
        (of_1092(11, 51), 9, plain(7)),
    ] {
        checks.same("Q-7, formerly", formerly_stored(tables, &record, room), due);
    }
}

/// Every day as an old record: it stored as the day, and so does what it is
/// turned into.
pub fn every_old_day(tables: &Tables, table: &Table, checks: &mut Checks) {
    let system = table.system.number;
    for (place, day) in table.places.iter().zip(table.first_day..) {
        let old = citation_of(system, 2, *place, day);
        let due = Ok(stored_at(system, *place, day));
        let turned = convert(&old, 10).and_then(|turned| store(tables, &turned, 10));
        checks.that(formerly_stored(tables, &old, 10) == due && turned == due, || {
            format!("system {}, day {} by its old name", system, day)
        });
    }
}

/// An old file: what is converted, what is not, and what is no record.
fn renewed_by_hand(checks: &mut Checks) {
    let by_day = [0x09, 0x00, 0x04, 0x00, 0x01, 0x68, 0x5C, 0x20, 0x00];
    let no_name = changed(OLD, 9, 60);
    let short = [0x09, 0x00, 0x02, 0x00, 0x01, 0x46, 0x04, 0x05, 0x00];
    let only_kind = [0x04, 0x00, 0x02, 0x00];
    let records: [&[u8]; 7] = [&OLD, &by_day, &no_name, &short, &only_kind, &BY_NAME, &OLD];
    let turned: [&[u8]; 7] = [&BY_NAME, &by_day, &no_name, &short, &only_kind, &BY_NAME, &BY_NAME];
    let (old, new) = (records.concat(), turned.concat());
    let told = ["record at byte 19: refused 7", "record at byte 29: refused 3", "record at byte 38: refused 3"];
    renewed_to(checks, &[], &[], &[]);
    renewed_to(checks, &OLD, &BY_NAME, &[]);
    renewed_to(checks, &old, &new, &told);
    // A byte, a field out of bounds with old records after it, a cut record.
    for rest in [vec![0], vec![0x41, 0x00], [&[0x03, 0x00][..], &OLD].concat(), OLD[..9].to_vec()] {
        let ended = [&told[..], &["no record at byte 62"]].concat();
        renewed_to(checks, &[&old[..], &rest].concat(), &[&new[..], &rest].concat(), &ended);
        renewed_to(checks, &rest, &rest, &["no record at byte 0"]);
    }
}

fn renewed_to(checks: &mut Checks, old: &[u8], new: &[u8], told: &[&str]) {
    let renewed = renew(old);
    let told: Vec<String> =
        told.iter().map(|what| format!("chiselbrow-renew: standard input: {}", what)).collect();
    checks.same("Q-7, renewed", renewed.bytes, new.to_vec());
    checks.same("Q-7, told of it", renewed.told, told);
}

/// The lines of old records, which those of the renewed ones are held to.
fn lines_by_hand(tables: &Tables, checks: &mut Checks) {
    for (record, line) in [
        (OLD, "G 1094 5 1 2120808 38\n"),
        (BY_NAME, "G 1094 5 1 2120808 38\n"),
        (changed(OLD, 4, 4), "refused 4\n"),
        (changed(OLD, 6, 255), "refused 5\n"),
        (changed(OLD, 7, 13), "refused 6\n"),
        (changed(OLD, 8, 1), "refused 10 4\n"),
        (changed(OLD, 9, 36), "refused 7\n"),
        (changed(OLD, 9, 60), "refused 11\n"),
        (changed(OLD, 0, 9), "refused 11\nrefused 1\n"),
    ] {
        let mut out = Vec::new();
        former_lines(tables, &record, &mut out).unwrap();
        checks.same("Q-7, old lines", String::from_utf8(out).unwrap(), line.to_string());
        let renewed = renew(&record).bytes;
        checks.same("Q-7, renewed lines", lines_of(tables, &renewed), line.to_string());
    }
}
