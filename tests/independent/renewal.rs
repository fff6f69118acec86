//! The program that renews old files: every record of kind 2 turned into kind
//! 5, all else as it was. And the lines that are due for the renewed file, from
//! the old one.

use crate::conversion::{convert, formerly_stored};
use crate::lines::{first_record, line, lines_by, told_line};
use crate::reckoning::Tables;
use std::io::{self, Write};

/// What a stream is turned into, and what is told on standard error: each
/// record of kind 2 that stays as it was, and where the records end before the
/// stream does.
pub struct Renewed {
    pub bytes: Vec<u8>,
    pub told: Vec<String>,
}

pub fn renew(old: &[u8]) -> Renewed {
    let mut renewed = Renewed { bytes: Vec::with_capacity(old.len()), told: Vec::new() };
    let mut at = 0;
    while let Some(length) = first_record(&old[at..]) {
        let record = &old[at..at + length];
        match convert(record, 10) {
            Ok(turned) => renewed.bytes.extend(turned),
            Err(refusal) => {
                renewed.bytes.extend(record);
                // Another kind is no fault.
                if refusal.number != 2 {
                    renewed.tell(format!("record at byte {}: refused {}", at, refusal.number));
                }
            }
        }
        at += length;
    }
    if at < old.len() {
        renewed.tell(format!("no record at byte {}", at));
        renewed.bytes.extend(&old[at..]);
    }
    renewed
}

impl Renewed {
    fn tell(&mut self, what: String) {
        self.told.push(format!("chiselbrow-renew: standard input: {}", what));
    }
}

/// The lines that the program of paper 01 has for an old stream once it is
/// renewed. A record that is turned has the line that it had, by what it stored
/// as before. All others have those of today: one of kind 2 that cannot be
/// turned is refused as retired, and one of kind 5 is judged as kind 5.
pub fn former_lines(tables: &Tables, old: &[u8], out: &mut impl Write) -> io::Result<()> {
    lines_by(old, |record| former_line(tables, record), out)
}

fn former_line(tables: &Tables, record: &[u8]) -> String {
    match convert(record, 10) {
        Ok(_) => told_line(tables, formerly_stored(tables, record, 10)),
        Err(_) => line(tables, record),
    }
}
