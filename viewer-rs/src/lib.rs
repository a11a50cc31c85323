//! The Shoushi calendar for Rust: the month of a day and the months of a solstice year, as the proved functions of the
//! crate `viewer` answer them, every question of the desk, as that of the crate `ask` does, and their presentation as
//! text and as a page. Every year that is a number here is a solstice year; the civil year stands in `civil`.

pub mod civil;
pub mod command;
pub mod file;
pub mod find;
pub mod names;
pub mod page;
pub mod raw;
pub mod sheet;
pub mod terms;
pub mod text;
pub mod western;

use std::fmt;

/// How many records a row must have room for, and how many bytes a record has.
pub const YEAR_ROOM: usize = 13;
pub const RECORD_BYTES: usize = 16;

/// How many bytes are enough for the desk's reply to every question.
pub const REPLY_BYTES: usize = 2_097_152;

/// A month of a solstice year's list.
#[derive(Clone, Copy, Debug, PartialEq, Eq)]
pub struct Month {
    /// Running day on which it begins.
    pub first: u32,
    /// 29 or 30 days.
    pub length: u32,
    /// 1 to 12; a leap month repeats the number before it.
    pub number: u32,
    pub leap: bool,
}

/// The month of a day, and where the two stand.
#[derive(Clone, Copy, Debug, PartialEq, Eq)]
pub struct MonthOfDay {
    /// Solstice year in whose list the month stands; `civil::CivilYear::of_day` has the civil year.
    pub year: u16,
    /// Place of the month in that list, counted from 0.
    pub place: u8,
    /// Day of the month, counted from 1.
    pub day: u8,
    pub month: Month,
}

/// Why a question was not answered, by the calendar's numbers.
#[derive(Clone, Copy, Debug, PartialEq, Eq)]
pub struct Refusal(pub u32);

impl fmt::Display for Refusal {
    fn fmt(&self, f: &mut fmt::Formatter<'_>) -> fmt::Result {
        let why = match self.0 {
            1 => "it lies outside the calendar's solstice years, 0 to 999",
            2 => "a number lies outside its list",
            3 => "it lies outside the calendar's days, 35 to 365,268",
            4 => "the row is too short",
            _ => "the question is malformed",
        };
        write!(f, "{why} (refusal {})", self.0)
    }
}

impl std::error::Error for Refusal {}

/// Returns the month in which a running day lies.
pub fn month_of(day: u64) -> Result<MonthOfDay, Refusal> {
    let reply = raw::day(day);
    if reply.refused != 0 {
        return Err(Refusal(reply.refused.into()));
    }
    Ok(MonthOfDay {
        year: reply.year,
        place: reply.place,
        day: reply.day,
        month: Month {
            first: reply.first,
            length: reply.length.into(),
            number: reply.number.into(),
            leap: reply.leap == 1,
        },
    })
}

/// Returns how many records of a solstice year's list were written from the start of a lent row of bytes. What
/// lies past them keeps its contents, and a refusal leaves the whole row.
pub fn write_year(row: &mut [u8], year: u64) -> Result<usize, Refusal> {
    let reply = raw::year(row, year);
    if reply.refused != 0 {
        return Err(Refusal(reply.refused));
    }
    Ok(reply.records as usize)
}

/// Returns the months of a solstice year.
pub fn months_of(year: u64) -> Result<Vec<Month>, Refusal> {
    let mut row = [0; YEAR_ROOM * RECORD_BYTES];
    let records = write_year(&mut row, year)?;
    Ok(row
        .chunks_exact(RECORD_BYTES)
        .take(records)
        .map(month_in)
        .collect())
}

/// Returns the text of the desk's reply to a question, without its line end.
pub fn ask(question: &str) -> Result<String, Refusal> {
    let mut row = vec![0; REPLY_BYTES];
    let written = raw::ask(question.as_bytes(), &mut row);
    if written.refused != 0 {
        return Err(Refusal(written.refused as u32));
    }
    row.truncate(written.bytes as usize);
    let text = String::from_utf8_lossy(&row);
    let text = text.trim_end_matches('\n');
    match text.strip_prefix("refused ").map(str::parse) {
        Some(Ok(number)) => Err(Refusal(number)),
        _ => Ok(text.to_string()),
    }
}

/// Returns the month of a record: four numbers of 32 bits, low byte first.
fn month_in(record: &[u8]) -> Month {
    let number = |at: usize| {
        let bytes = [record[at], record[at + 1], record[at + 2], record[at + 3]];
        u32::from_le_bytes(bytes)
    };
    Month {
        first: number(0),
        length: number(4),
        number: number(8),
        leap: number(12) == 1,
    }
}
