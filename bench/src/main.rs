//! Times the proved functions, built for this machine, against the same work in plain Rust, in one run.

mod plain;

use plain::{Mark, Told};
use std::hint::black_box;
use std::io::Write;
use std::time::Instant;

/// The viewer's reply about a day.
#[repr(C)]
struct Day {
    first: u32,
    year: u16,
    place: u8,
    day: u8,
    length: u8,
    number: u8,
    leap: u8,
    refused: u8,
}

/// An answer's number, or a refusal's in `refused`.
#[repr(C)]
struct Timed {
    refused: u64,
    number: u64,
}

/// How many bytes of a reply were written, or a refusal's number in `refused`.
#[repr(C)]
struct Written {
    refused: u64,
    bytes: u64,
}

extern "C" {
    fn lengadriu_day(d: u64) -> Day;
    fn lengadriu_ask(
        line: *const u8,
        line_length: usize,
        row: *mut u8,
        row_length: usize,
    ) -> Written;
    fn timing_true_moon(l: u64, q: u64) -> Timed;
    fn timing_run(row: *mut u64, length: usize, n: u64, count: u64) -> Timed;
    fn timing_terms(row: *mut u64, length: usize, n: u64) -> Timed;
    fn timing_terms_anew(row: *mut u64, length: usize, n: u64) -> Timed;
}

/// The least nanoseconds that one of `of` items took, over several rounds of both sides in turn.
fn race(
    rounds: usize,
    of: u64,
    mut ours: impl FnMut() -> u64,
    mut theirs: impl FnMut() -> u64,
) -> (f64, f64) {
    let mut least = (f64::MAX, f64::MAX);
    for _ in 0..rounds {
        let start = Instant::now();
        let a = black_box(ours());
        let one = start.elapsed().as_nanos() as f64 / of as f64;
        let start = Instant::now();
        let b = black_box(theirs());
        let two = start.elapsed().as_nanos() as f64 / of as f64;
        assert_eq!(a, b, "the two sides disagree");
        least = (least.0.min(one), least.1.min(two));
    }
    least
}

fn report(what: &str, times: (f64, f64), bound: f64) -> bool {
    let ratio = times.0 / times.1;
    println!(
        "{what}: proved {:.1} ns, plain Rust {:.1} ns, ratio {ratio:.2} (at most {bound})",
        times.0, times.1
    );
    ratio <= bound
}

/// As `report`, for a whole question, in microseconds and with the most that the proved side may take.
fn report_question(what: &str, times: (f64, f64), bound: f64, most: f64) -> bool {
    let (ours, theirs) = (times.0 / 1000.0, times.1 / 1000.0);
    let ratio = ours / theirs;
    println!(
        "{what}: proved {ours:.1} µs (at most {most}), plain Rust {theirs:.1} µs, ratio {ratio:.2} (at most {bound})"
    );
    ratio <= bound && ours <= most
}

/// Lunations or days in no order.
fn shuffled(count: u64, most: u64) -> Vec<u64> {
    let mut x = 0x9E37_79B9_7F4A_7C15u64;
    (0..count)
        .map(|_| {
            x ^= x << 13;
            x ^= x >> 7;
            x ^= x << 17;
            x % most
        })
        .collect()
}

fn true_moons() -> bool {
    let asked = shuffled(200_000, 12_368 * 4);
    let ours = || {
        asked.iter().fold(0u64, |sum, x| {
            let moon = unsafe { timing_true_moon(x / 4, x % 4) };
            assert_eq!(moon.refused, 0);
            sum.wrapping_add(moon.number)
        })
    };
    let theirs = || {
        asked.iter().fold(0u64, |sum, x| {
            sum.wrapping_add(plain::true_moon(x / 4, x % 4))
        })
    };
    report(
        "a true moon",
        race(20, asked.len() as u64, ours, theirs),
        1.5,
    )
}

fn runs() -> bool {
    let mut row = vec![0u64; 52_000];
    let mut records = vec![plain::Record::default(); 13_000];
    let ours = || {
        let run = unsafe { timing_run(row.as_mut_ptr(), row.len(), 0, 1_000) };
        assert_eq!(run.refused, 0);
        row[..4 * run.number as usize]
            .iter()
            .fold(run.number, |sum, x| sum.wrapping_mul(31).wrapping_add(*x))
    };
    let theirs = || {
        let n = plain::run(0, 1_000, &mut records);
        let sum = |sum: u64, x: u64| sum.wrapping_mul(31).wrapping_add(x);
        records[..n].iter().fold(n as u64, |s, m| {
            sum(sum(sum(sum(s, m.first), m.length), m.number), m.leap)
        })
    };
    report(
        "a month of the run of 1,000 years",
        race(20, 12_368, ours, theirs),
        1.5,
    )
}

/// A year's terms by one way of listing them, for all years.
fn terms_by(
    what: &str,
    ours: unsafe extern "C" fn(*mut u64, usize, u64) -> Timed,
    theirs: fn(u64, &mut [u64]) -> usize,
) -> bool {
    let (mut row, mut plain_row) = ([0u64; 24], [0u64; 24]);
    let sum = |sum: u64, row: &[u64]| row.iter().fold(sum, |sum, x| sum.wrapping_add(*x));
    let ours = || {
        (0..1_000).fold(0u64, |total, n| {
            let terms = unsafe { ours(row.as_mut_ptr(), row.len(), n) };
            assert_eq!(terms.refused, 0);
            sum(total, black_box(&row))
        })
    };
    let theirs = || {
        (0..1_000).fold(0u64, |total, n| {
            theirs(n, &mut plain_row);
            sum(total, black_box(&plain_row))
        })
    };
    report(what, race(200, 1_000, ours, theirs), 1.5)
}

/// As the calendar lists them, and as it did before.
fn terms() -> bool {
    let good = [
        terms_by(
            "a year's 24 terms, each carried to the next",
            timing_terms,
            plain::terms,
        ),
        terms_by(
            "a year's 24 terms, each multiplied anew, as before",
            timing_terms_anew,
            plain::terms_anew,
        ),
    ];
    !good.contains(&false)
}

/// Every part of a reply counts, so that none is left out of the work.
fn days() -> bool {
    let asked: Vec<u64> = shuffled(100_000, 365_234).iter().map(|d| d + 35).collect();
    let mix = |parts: [u64; 7]| {
        parts
            .iter()
            .fold(0u64, |sum, x| sum.wrapping_mul(31).wrapping_add(*x))
    };
    let ours = || {
        asked.iter().fold(0u64, |sum, d| {
            let m = unsafe { lengadriu_day(*d) };
            assert_eq!(m.refused, 0);
            let parts = [
                m.year as u64,
                m.place as u64,
                m.day as u64,
                m.first as u64,
                m.length as u64,
                m.number as u64,
                m.leap as u64,
            ];
            sum.wrapping_add(mix(parts))
        })
    };
    let theirs = || {
        asked.iter().fold(0u64, |sum, d| {
            let m = plain::day(*d).expect("an admitted day");
            let r = m.record;
            sum.wrapping_add(mix([
                m.year, m.place, m.day, r.first, r.length, r.number, r.leap,
            ]))
        })
    };
    report(
        "a day's month",
        race(20, asked.len() as u64, ours, theirs),
        0.5,
    )
}

/// Every mark of a year's list.
fn whole_sheet(year: u64) -> Vec<Mark> {
    let mut list = [plain::Record::default(); 13];
    let count = plain::run(year, 1, &mut list);
    let mut marks = Vec::new();
    for (place, month) in list[..count].iter().enumerate() {
        let mut mark = |told| marks.push(Mark { place, told });
        mark(Told::Name(month.first % 60));
        mark(Told::Stem(month.first % 10));
        mark(Told::Branch(month.first % 12));
        mark(Told::Length(month.length));
        if month.leap == 1 {
            mark(Told::Leap);
        }
    }
    marks
}

/// A sheet as the desk reads it.
fn sheet_line(marks: &[Mark]) -> String {
    let mut line = String::from("sheet");
    for Mark { place, told } in marks {
        line += &match told {
            Told::Name(name) => format!(" name {place} {name}"),
            Told::Stem(stem) => format!(" stem {place} {stem}"),
            Told::Branch(branch) => format!(" branch {place} {branch}"),
            Told::Length(length) => format!(" length {place} {length}"),
            Told::Leap => format!(" leap {place}"),
        };
    }
    line
}

/// The reply's text, written anew.
fn write_years(years: &[u64], text: &mut Vec<u8>) {
    text.clear();
    for year in years {
        write!(text, "{year} ").expect("a row of bytes takes all");
    }
    if text.pop().is_none() {
        text.extend_from_slice(b"none");
    }
    text.push(b'\n');
}

/// From the line to the reply's text on the proved side; plain Rust has its marks read already.
fn sheet(what: &str, marks: &[Mark]) -> bool {
    let line = sheet_line(marks);
    let mut row = vec![0u8; 2 << 20];
    let (mut years, mut text) = ([0u64; 1_000], Vec::new());
    let sum = |text: &[u8]| {
        text.iter()
            .fold(0u64, |sum, x| sum.wrapping_mul(31).wrapping_add(*x as u64))
    };
    let ours = || {
        let written =
            unsafe { lengadriu_ask(line.as_ptr(), line.len(), row.as_mut_ptr(), row.len()) };
        assert_eq!(written.refused, 0);
        sum(&row[..written.bytes as usize])
    };
    let theirs = || {
        let count = plain::years(marks, &mut years);
        write_years(&years[..count], &mut text);
        sum(&text)
    };
    report_question(what, race(200, 1, ours, theirs), 1.2, 500.0)
}

/// All marks of a year with 13 months, three of them, and none.
fn sheets() -> bool {
    let whole = whole_sheet(0);
    assert_eq!(whole.len(), 4 * 13 + 1);
    let three: Vec<Mark> = whole.iter().step_by(20).copied().collect();
    let good = [
        sheet("a whole sheet over all years", &whole),
        sheet("a sheet of three marks over all years", &three),
        sheet("a sheet without marks over all years", &[]),
    ];
    !good.contains(&false)
}

fn main() {
    println!(
        "{}, {} build, least of several rounds",
        std::env::consts::ARCH,
        if cfg!(debug_assertions) {
            "debug"
        } else {
            "release"
        }
    );
    let good = [true_moons(), terms(), days(), runs(), sheets()];
    if good.contains(&false) {
        std::process::exit(1);
    }
}
