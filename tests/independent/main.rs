//! The independent check of the day reckonings of papers 01 and 02: the same
//! rules, found by plain searching, to be compared with the library.

mod almanac;
mod by_name;
mod cases;
mod citation;
mod compare;
mod conversion;
mod exchange;
mod exchange_cases;
mod exchange_streams;
mod float;
mod fraction;
mod heads;
mod lines;
mod month_cases;
mod pentads;
mod random;
mod reckoning;
mod renewal;
mod requests;
mod retired_cases;
mod streams;
mod submerged;
mod submerged_cases;
mod sun;
mod sun_cases;
mod tally;

use exchange::Scales;
use reckoning::{System, Table, Tables};
use requests::{answers, Number};
use std::io::{self, BufWriter, Read, Write};
use std::process::exit;
use tally::Tally;

const USAGE: &str = "usage:
  independent year SYSTEM YEAR [LAST]
  independent heads SYSTEM YEAR [LAST]
  independent compare FIRST SECOND YEAR [LAST]
  independent pentads SYSTEM YEAR [LAST]
  independent pentad SYSTEM DAY [LAST]
  independent submerged SYSTEM YEAR [LAST]
  independent extinguished SYSTEM YEAR [LAST]
  independent sun SEASON FIRST [LAST]
  independent lines < records
  independent cuts LONGEST < records
  independent days SYSTEM
  independent marks SYSTEM
  independent outside SYSTEM
  independent random SEED COUNT
  independent stream SEED COUNT
  independent names
  independent conversions
  independent old-days SYSTEM
  independent old-random SEED COUNT
  independent old-stream SEED COUNT
  independent former < records
  independent renew < records
  independent exports SYSTEM
  independent fractions SYSTEM
  independent rows
  independent exchange-random SEED COUNT
  independent cases";

fn main() {
    let arguments: Vec<String> = std::env::args().skip(1).collect();
    let words: Vec<&str> = arguments.iter().map(|a| a.as_str()).collect();
    let mut out = BufWriter::with_capacity(1 << 20, io::stdout().lock());
    let written = match words[..] {
        ["year", system, year] => year_pages(system, year, year, &mut out),
        ["year", system, year, last] => year_pages(system, year, last, &mut out),
        ["heads", system, year] => heads(system, year, year, &mut out),
        ["heads", system, year, last] => heads(system, year, last, &mut out),
        ["compare", first, second, year] => compare(first, second, year, year, &mut out),
        ["compare", first, second, year, last] => compare(first, second, year, last, &mut out),
        ["pentads", system, year] => pentad_pages(system, year, year, &mut out),
        ["pentads", system, year, last] => pentad_pages(system, year, last, &mut out),
        ["pentad", system, day] => pentad_lines(system, day, day, &mut out),
        ["pentad", system, day, last] => pentad_lines(system, day, last, &mut out),
        ["submerged", system, year] => submerged_pages(system, year, year, &mut out),
        ["submerged", system, year, last] => submerged_pages(system, year, last, &mut out),
        ["extinguished", system, year] => extinguished_pages(system, year, year, &mut out),
        ["extinguished", system, year, last] => extinguished_pages(system, year, last, &mut out),
        ["sun", season, first] => sun_lines(season, first, first, &mut out),
        ["sun", season, first, last] => sun_lines(season, first, last, &mut out),
        ["lines"] => lines::lines(&Tables::new(), &records(), &mut out),
        ["cuts", longest] => lines::cuts(&Tables::new(), &records(), word(longest), &mut out),
        ["days", system] => streams::days(&table(system), &mut out),
        ["marks", system] => streams::marks(&table(system), &mut out),
        ["outside", system] => streams::outside(&table(system), &mut out),
        ["random", seed, count] => random(word(seed), word(count), &mut out),
        ["stream", seed, count] => stream(streams::stream, word(seed), word(count), &mut out),
        ["names"] => by_name::names(&Tables::new(), &mut out),
        ["conversions"] => by_name::conversions(&Tables::new(), &mut out),
        ["old-days", system] => by_name::days(&table(system), &mut out),
        ["old-random", seed, count] => old_random(word(seed), word(count), &mut out),
        ["old-stream", seed, count] => stream(streams::old_stream, word(seed), word(count), &mut out),
        ["former"] => renewal::former_lines(&Tables::new(), &records(), &mut out),
        ["renew"] => renew(&mut out),
        ["exports", system] => exports(word(system), &mut out),
        ["fractions", system] => fractions(word(system), &mut out),
        ["rows"] => exchange_streams::rows(&Scales::new(), &mut out),
        ["exchange-random", seed, count] => exchange_random(word(seed), word(count), &mut out),
        ["cases"] => cases(&mut out),
        _ => usage(),
    };
    if let Err(error) = written.and_then(|_| out.flush()) {
        eprintln!("independent: {}", error);
        exit(1);
    }
}

fn usage() -> ! {
    eprintln!("{}", USAGE);
    exit(2)
}

fn number(text: &str) -> Number {
    Number::read(text).unwrap_or_else(|| usage())
}

fn word(text: &str) -> u64 {
    text.parse().unwrap_or_else(|_| usage())
}

/// The table of a system that there is.
fn table(system: &str) -> Table {
    let number = system.parse().unwrap_or_else(|_| usage());
    Table::new(System::numbered(number).unwrap_or_else(|| usage()))
}

fn year_pages(system: &str, year: &str, last: &str, out: &mut impl Write) -> io::Result<()> {
    let (tables, system) = (Tables::new(), number(system));
    answers(&number(year), &number(last), |year| almanac::page(&tables, &system, year), out)
}

fn heads(system: &str, year: &str, last: &str, out: &mut impl Write) -> io::Result<()> {
    let (tables, system) = (Tables::new(), number(system));
    answers(&number(year), &number(last), |year| heads::line(&tables, &system, year), out)
}

fn compare(first: &str, second: &str, year: &str, last: &str, out: &mut impl Write) -> io::Result<()> {
    let (tables, first, second) = (Tables::new(), number(first), number(second));
    let comparison = |year: &Number| compare::comparison(&tables, &first, &second, year);
    answers(&number(year), &number(last), comparison, out)
}

fn pentad_pages(system: &str, year: &str, last: &str, out: &mut impl Write) -> io::Result<()> {
    let system = number(system);
    answers(&number(year), &number(last), |year| pentads::page(&system, year), out)
}

fn pentad_lines(system: &str, day: &str, last: &str, out: &mut impl Write) -> io::Result<()> {
    let pentads = pentads::Pentads::asked(&number(system));
    answers(&number(day), &number(last), |day| pentads::in_force_line(&pentads, day), out)
}

fn submerged_pages(system: &str, year: &str, last: &str, out: &mut impl Write) -> io::Result<()> {
    let system = number(system);
    answers(&number(year), &number(last), |year| submerged::submerged_page(&system, year), out)
}

fn extinguished_pages(system: &str, year: &str, last: &str, out: &mut impl Write) -> io::Result<()> {
    let (tables, system) = (Tables::new(), number(system));
    let page = |year: &Number| submerged::extinguished_page(&tables, &system, year);
    answers(&number(year), &number(last), page, out)
}

fn sun_lines(season: &str, first: &str, last: &str, out: &mut impl Write) -> io::Result<()> {
    let season = sun::Season::read(season).unwrap_or_else(|| usage());
    answers(&number(first), &number(last), |day| sun::line(season, day), out)
}

/// All of standard input.
fn records() -> Vec<u8> {
    let mut input = Vec::new();
    if let Err(error) = io::stdin().lock().read_to_end(&mut input) {
        eprintln!("independent: {}", error);
        exit(1);
    }
    input
}

fn random(seed: u64, count: u64, out: &mut impl Write) -> io::Result<()> {
    eprintln!("independent: random seed {}", seed);
    let (tally, seen) = streams::random(&Tables::new(), seed, count, out)?;
    let all = tell_tally(&tally, &streams::ANSWERS);
    enough(all && seen.all(), count, out)
}

fn old_random(seed: u64, count: u64, out: &mut impl Write) -> io::Result<()> {
    eprintln!("independent: random seed {}", seed);
    let [converted, stored] = by_name::random(&Tables::new(), seed, count, out)?;
    let all = tell_tally(&converted, &by_name::ANSWERS);
    let then_all = tell_tally(&stored, &by_name::THEN_ANSWERS);
    enough(all && then_all, count, out)
}

fn exports(system: u64, out: &mut impl Write) -> io::Result<()> {
    let scales = Scales::new();
    let scale = scales.asked(system).unwrap_or_else(|_| usage());
    exchange_streams::exports(&scales, scale, out)
}

fn fractions(system: u64, out: &mut impl Write) -> io::Result<()> {
    let scales = Scales::new();
    exchange_streams::fractions(scales.asked(system).unwrap_or_else(|_| usage()), out)
}

fn exchange_random(seed: u64, count: u64, out: &mut impl Write) -> io::Result<()> {
    eprintln!("independent: random seed {}", seed);
    let met = exchange_streams::random(&Scales::new(), seed, count, out)?;
    let exports = tell_tally(&met.exports, &exchange_streams::EXPORT_ANSWERS);
    let imports = tell_tally(&met.imports, &exchange_streams::IMPORT_ANSWERS);
    eprintln!("independent: {}", met.times_text());
    enough(exports && imports && met.all_times(), count, out)
}

/// Tells how often each of these answers came, and whether all did.
fn tell_tally(tally: &Tally, answers: &[u8]) -> bool {
    eprintln!("independent: {}", tally.text(answers));
    tally.has_all(answers)
}

/// A large run that does not meet all that there is does not test it.
fn enough(all: bool, count: u64, out: &mut impl Write) -> io::Result<()> {
    if count >= 1_000_000 && !all {
        eprintln!("independent: an answer, a kind, a name or a time never came");
        out.flush()?;
        exit(1);
    }
    Ok(())
}

fn stream<W: Write>(
    write: impl Fn(&Tables, u64, u64, &mut W) -> io::Result<()>,
    seed: u64,
    count: u64,
    out: &mut W,
) -> io::Result<()> {
    eprintln!("independent: stream seed {}", seed);
    write(&Tables::new(), seed, count, out)
}

/// The renewed bytes, and on standard error what is told; the status, too, is
/// the program's.
fn renew(out: &mut impl Write) -> io::Result<()> {
    let renewed = renewal::renew(&records());
    out.write_all(&renewed.bytes)?;
    out.flush()?;
    renewed.told.iter().for_each(|line| eprintln!("{}", line));
    exit(!renewed.told.is_empty() as i32)
}

fn cases(out: &mut impl Write) -> io::Result<()> {
    let checks = cases::run(&Tables::new());
    if checks.failures.is_empty() {
        return writeln!(out, "independent: {} checks passed", checks.passed);
    }
    for failure in checks.failures.iter().take(20) {
        writeln!(out, "independent: {}", failure)?;
    }
    writeln!(out, "independent: {} checks failed", checks.failures.len())?;
    out.flush()?;
    exit(1)
}
