//! The replies and every byte of the rows, held to the independent second program.

use lengadriu_viewer::raw::{self, Count, Day, Written};
use lengadriu_viewer::{
    ask, month_of, months_of, write_year, Month, Refusal, RECORD_BYTES, REPLY_BYTES, YEAR_ROOM,
};
use second::ask::DAMAGED;
use second::calendar::{Months, Record, LONGEST_LIST};
use second::desk;

/// Numbers that a program of fewer bits, or one that takes a sign, would take for others.
const FAR: [u64; 12] = [
    1 << 16,
    (1 << 16) + 35,
    (1 << 31) - 1,
    1 << 31,
    1 << 32,
    (1 << 32) + 35,
    (1 << 32) + 365_268,
    1 << 63,
    (1 << 63) + 35,
    1_000_000,
    u64::MAX - 1,
    u64::MAX,
];

/// What a row holds before a question: no byte is like its neighbours.
fn marked(length: usize) -> Vec<u8> {
    (0..length).map(|at| (at * 37 + 11) as u8).collect()
}

/// Returns the reply that the second program's reply stands for.
fn expected_day(months: &Months, day: u64) -> Day {
    match months.day(day) {
        Ok(reply) => Day {
            first: reply.month.first_day as u32,
            year: reply.year as u16,
            place: reply.place as u8,
            day: reply.day_of_month as u8,
            length: reply.month.length as u8,
            number: reply.month.number as u8,
            leap: reply.month.leap.into(),
            refused: 0,
        },
        Err(refusal) => Day {
            first: 0,
            year: 0,
            place: 0,
            day: 0,
            length: 0,
            number: 0,
            leap: 0,
            refused: refusal as u8,
        },
    }
}

/// Returns the reply and the row after a year's list that the second program's reply stands for.
fn expected_year(months: &Months, row: &[u8], year: u64) -> (Count, Vec<u8>) {
    let mut records = vec![Record::default(); row.len() / RECORD_BYTES];
    let mut after = row.to_vec();
    match months.year(year, &mut records) {
        Ok(written) => {
            let numbers = records[..written].iter().flat_map(|record| {
                let leap = i128::from(record.leap);
                [record.first_day, record.length, record.number, leap]
            });
            let bytes: Vec<u8> = numbers
                .flat_map(|number| (number as u32).to_le_bytes())
                .collect();
            after[..bytes.len()].copy_from_slice(&bytes);
            let records = written as u32;
            (
                Count {
                    refused: 0,
                    records,
                },
                after,
            )
        }
        Err(refused) => (
            Count {
                refused,
                records: 0,
            },
            after,
        ),
    }
}

/// Asks for a year's list in a row of a length, with other bytes before and after it, and holds reply
/// and bytes to the second program.
fn check_row(months: &Months, year: u64, length: usize, before: usize) {
    let mut memory = marked(before + length + 40);
    let (count, row) = expected_year(months, &memory[before..before + length], year);
    let mut after = memory.clone();
    after[before..before + length].copy_from_slice(&row);
    let got = raw::year(&mut memory[before..before + length], year);
    assert_eq!(got, count, "year {year}, {length} bytes");
    assert_eq!(memory, after, "year {year}, {length} bytes");
}

#[test]
fn every_day() {
    let months = Months::listed();
    for day in (0..=365_300).chain(FAR) {
        assert_eq!(raw::day(day), expected_day(&months, day), "day {day}");
    }
}

#[test]
fn no_refusal_looks_like_a_month() {
    for day in (0..=365_300).chain(FAR) {
        let reply = raw::day(day);
        assert_eq!(reply.refused == 0, (29..=30).contains(&reply.length));
    }
}

#[test]
fn every_year() {
    let months = Months::listed();
    for year in (0..=1_001).chain(FAR) {
        for length in [0, 207, 208, 209, 250] {
            check_row(&months, year, length, 16);
        }
    }
}

#[test]
fn rows_of_every_length() {
    let months = Months::listed();
    // years of 13 and of 12 months, the last year, and years that are refused
    for year in [0, 1, 2, 999, 1_000, u64::MAX] {
        for length in 0..=300 {
            check_row(&months, year, length, 24);
        }
    }
}

#[test]
fn rows_at_every_address() {
    let months = Months::listed();
    for before in 0..=16 {
        check_row(&months, 0, YEAR_ROOM * RECORD_BYTES, before);
        check_row(&months, 1, YEAR_ROOM * RECORD_BYTES, before);
    }
}

#[test]
fn the_wrapper_says_what_the_functions_say() {
    let months = Months::listed();
    for day in (0..=365_300).step_by(7).chain(FAR) {
        let expected = months.day(day).map_err(Refusal);
        let got = month_of(day);
        assert_eq!(got.is_ok(), expected.is_ok(), "day {day}");
        match (got, expected) {
            (Ok(got), Ok(expected)) => {
                assert_eq!(i128::from(got.year), expected.year);
                assert_eq!(i128::from(got.place), expected.place);
                assert_eq!(i128::from(got.day), expected.day_of_month);
                assert_eq!(got.month, month(&expected.month));
            }
            (got, expected) => assert_eq!(got.err(), expected.err()),
        }
    }
    for year in (0..=1_001).chain(FAR) {
        let mut row = [Record::default(); LONGEST_LIST];
        let expected = months
            .year(year, &mut row)
            .map(|written| row[..written].iter().map(month).collect::<Vec<_>>())
            .map_err(Refusal);
        assert_eq!(months_of(year), expected, "year {year}");
    }
    assert_eq!(write_year(&mut [0; 207], 0), Err(Refusal(4)));
    assert_eq!(write_year(&mut [0; 207], 1_000), Err(Refusal(1)));
    assert_eq!(write_year(&mut [0; 208], 0), Ok(13));
}

/// Returns the month of a record of the second program.
fn month(record: &Record) -> Month {
    Month {
        first: record.first_day as u32,
        length: record.length as u32,
        number: record.number as u32,
        leap: record.leap,
    }
}

#[test]
fn day_and_list_agree() {
    for year in 0..1_000 {
        for (place, month) in months_of(year).unwrap().iter().enumerate() {
            for day in [1, month.length] {
                let reply = month_of(u64::from(month.first + day - 1)).unwrap();
                assert_eq!(u64::from(reply.year), year);
                assert_eq!(usize::from(reply.place), place);
                assert_eq!(u32::from(reply.day), day);
                assert_eq!(reply.month, *month);
            }
        }
    }
}

#[test]
fn threads_do_not_disturb_each_other() {
    let ask = |from: u64| (from..365_300).step_by(8).map(raw::day).collect::<Vec<_>>();
    let alone: Vec<_> = (0..8).map(ask).collect();
    let threads: Vec<_> = (0..8)
        .map(|from| std::thread::spawn(move || ask(from)))
        .collect();
    for (thread, alone) in threads.into_iter().zip(alone) {
        assert!(thread.join().unwrap() == alone);
    }
}

/// Lines that ask each question of the desk, and lines that ask none.
fn lines() -> Vec<String> {
    let good = |(word, parts): &(&str, &[&str])| [&[*word], *parts].concat().join(" ");
    let mut lines: Vec<String> = DAMAGED.iter().map(good).collect();
    for line in lines.clone() {
        lines.extend([
            format!(" {line}"),
            format!("{line} "),
            line.to_uppercase(),
            line + " 1",
        ]);
    }
    lines.extend((0..=1_001).map(|year| format!("year {year}")));
    lines.extend((0..365_300).step_by(997).map(|day| format!("day {day}")));
    lines.extend(
        [
            "",
            " ",
            "\n",
            "dya 340",
            "day ３４０",
            "years 0 1000",
            "years 1 1000",
        ]
        .map(String::from),
    );
    lines.extend([1_023, 1_024, 5_000].map(|bytes| "9".repeat(bytes)));
    lines
}

#[test]
fn the_desk_answers_as_the_second_program() {
    let months = Months::listed();
    let mut row = vec![0; REPLY_BYTES];
    for line in lines() {
        let expected = desk::reply(&months, line.as_bytes());
        let written = raw::ask(line.as_bytes(), &mut row);
        let bytes = expected.len() as u64 + 1;
        assert_eq!(written, Written { refused: 0, bytes }, "{line}");
        assert_eq!(
            row[..bytes as usize],
            *format!("{expected}\n").as_bytes(),
            "{line}"
        );
        let expected = match expected.strip_prefix("refused ") {
            Some(number) => Err(Refusal(number.parse().unwrap())),
            None => Ok(expected),
        };
        assert_eq!(ask(&line), expected, "{line}");
    }
}

#[test]
fn a_row_that_is_too_short_keeps_its_bytes() {
    for line in ["day 340", "year 0", "day 34", "sheet leap 10", ""] {
        let whole = ask(line).map_or_else(|k| format!("refused {}\n", k.0), |text| text + "\n");
        let mut answered = false;
        for length in [0, 1, 9, 100, 1_000, 10_000, 65_535, 65_536, REPLY_BYTES] {
            let mut row = marked(length);
            let written = raw::ask(line.as_bytes(), &mut row);
            // what is enough for a row is enough for every longer one
            if written.refused == 0 {
                answered = true;
                assert_eq!(written.bytes, whole.len() as u64);
                assert!(row.starts_with(whole.as_bytes()), "{line}, {length}");
                assert_eq!(row[whole.len()..], marked(length)[whole.len()..]);
            } else {
                assert!(!answered && length < 65_536, "{line}, {length}");
                assert_eq!(
                    written,
                    Written {
                        refused: 4,
                        bytes: 0
                    }
                );
                assert_eq!(row, marked(length));
            }
        }
    }
}
