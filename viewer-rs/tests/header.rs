//! The C headers: a C program that includes them, linked with the archives, sees what the Rust side sees.

use lengadriu_viewer::{raw, REPLY_BYTES};
use std::mem::{align_of, size_of};
use std::path::Path;
use std::process::Command;

#[test]
fn the_structs_have_the_sizes_of_the_headers() {
    assert_eq!((size_of::<raw::Day>(), align_of::<raw::Day>()), (12, 4));
    assert_eq!((size_of::<raw::Count>(), align_of::<raw::Count>()), (8, 4));
    let written = (size_of::<raw::Written>(), align_of::<raw::Written>());
    assert_eq!(written, (16, 8));
}

#[test]
fn a_program_in_c_gets_the_same_replies() {
    let here = Path::new(env!("CARGO_MANIFEST_DIR"));
    let program = Path::new(env!("CARGO_TARGET_TMPDIR")).join("caller");
    let archive = |name| Path::new(env!("VIEWER_ARCHIVE_FOLDER")).join(name);
    let compiled = Command::new("cc")
        .args(["-std=c11", "-Wall", "-Wextra", "-Werror", "-I"])
        .arg(here.join("../crates/viewer"))
        .arg("-I")
        .arg(here.join("../crates/ask"))
        .arg(here.join("tests/caller.c"))
        .args(["libviewer.a", "libask.a"].map(archive))
        .arg("-o")
        .arg(&program)
        .status();
    assert!(compiled.expect("cc starts").success());
    let output = Command::new(&program).output().expect("the program starts");
    assert!(output.status.success());
    assert_eq!(String::from_utf8(output.stdout).unwrap(), expected());
}

/// Returns what the C program must write, by the Rust side.
fn expected() -> String {
    let mut text = String::from("month: 12, 0 4 6 7 8 9 10 11\ncount: 8, 0 4\nwritten: 16, 0 8\n");
    for d in [34, 35, 340, 365_268, 365_269, u64::MAX] {
        let m = numbers(d).map(|number| number.to_string()).join(" ");
        text += &format!("day {d}: {m}\n");
    }
    for (n, length) in [(0, 208), (1, 216), (0, 207), (1_000, 208)] {
        let mut row = [0xA5; 216];
        let count = raw::year(&mut row[..length], n);
        let bytes: String = row.iter().map(|byte| format!("{byte:02x}")).collect();
        text += &format!("year {n}: {} {} {bytes}\n", count.refused, count.records);
    }
    for (line, room) in [
        ("day 340", SMALL_ROW),
        ("day 340", 0),
        ("day 34", SMALL_ROW),
        ("", SMALL_ROW),
        ("sheet name 0 35 length 3 30 leap 10", SMALL_ROW),
        ("sheet leap 0", SMALL_ROW),
        ("sheet leap 13", SMALL_ROW),
        ("years 0 1000", SMALL_ROW),
    ] {
        let (written, row) = asked(line, room);
        let reply = String::from_utf8_lossy(&row[..written.bytes as usize]);
        let (refused, bytes) = (written.refused, written.bytes);
        text += &format!("ask {line}: {refused} {bytes} {:02x} {reply}\n", row[0]);
    }
    text + &sums()
}

/// Returns the last line, over all days, all years and many lines.
fn sums() -> String {
    let days = (0..=365_300).flat_map(numbers).fold(0, folded);
    let years = (0..=1_001).fold(0, |sum, n| {
        let mut row = [0xA5; 216];
        let count = raw::year(&mut row, n);
        let bytes = row.iter().map(|byte| u64::from(*byte));
        [count.refused.into(), count.records.into()]
            .into_iter()
            .chain(bytes)
            .fold(sum, folded)
    });
    let year = |n: u32| (format!("year {n}"), SMALL_ROW);
    let sheet = |name: u32| (format!("sheet name {} {name}", name % 14), SMALL_ROW);
    let lines = std::iter::once(("years 0 1000".to_string(), REPLY_BYTES))
        .chain((0..=1_001).map(year))
        .chain((0..=60).map(sheet))
        .fold(0, |sum, (line, room)| {
            let (written, row) = asked(&line, room);
            let bytes = row[..written.bytes as usize].iter();
            [written.refused, written.bytes]
                .into_iter()
                .chain(bytes.map(|byte| u64::from(*byte)))
                .fold(sum, folded)
        });
    format!("sums: {days:016x} {years:016x} {lines:016x}\n")
}

/// Room for the reply to every question but `years`.
const SMALL_ROW: usize = 65_536;

/// Returns what a line is answered with in a row of some length, of which there is a byte more.
fn asked(line: &str, room: usize) -> (raw::Written, Vec<u8>) {
    let mut row = vec![0xA5; room + 1];
    let written = raw::ask(line.as_bytes(), &mut row[..room]);
    (written, row)
}

/// Returns the numbers of the reply about a day, in the order of the fields.
fn numbers(d: u64) -> [u64; 8] {
    let m = raw::day(d);
    let first = m.first.into();
    let bytes = [m.place, m.day, m.length, m.number, m.leap, m.refused].map(u64::from);
    let [place, day, length, number, leap, refused] = bytes;
    let year = m.year.into();
    [first, year, place, day, length, number, leap, refused]
}

/// Returns a sum with one number more, as the C program adds it.
fn folded(sum: u64, number: u64) -> u64 {
    (sum ^ number).wrapping_mul(0x100_0000_01B3)
}
