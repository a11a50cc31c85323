//! The rows of the output, and the sentences beside them.

use super::decide::{Asked, Refused};
use super::Counts;
use crate::civil::CivilYear;
use crate::{names, text, MonthOfDay, YEAR_ROOM};
use std::fmt::Display;
use std::io::{self, Write};

pub const HEADER: &str =
    "line,asked,running_day,civil_year,year_name,month,day_of_month,day_name,month_line,refused";

/// How many columns a refused row leaves empty between what was asked and its number.
const UNANSWERED: usize = 7;

/// After how many rows progress is told.
const STEP: u64 = 100_000;

const YEARS: usize = 1_000;
const NAMES: u64 = 60;

/// What the days of one month have in common.
struct MonthText {
    /// Civil year, its name and the month, with the commas before, between and after them.
    date: String,
    line: String,
}

/// Rows of the output that are not yet handed on.
pub struct Replies {
    text: Vec<u8>,
    day_names: Vec<String>,
    /// By solstice year and place in its list; each is made when it is first needed.
    months: Vec<Option<MonthText>>,
}

impl Replies {
    pub fn new() -> Replies {
        Replies {
            text: format!("{HEADER}\n").into_bytes(),
            day_names: (0..NAMES).map(|name| names::sixty(name).chinese).collect(),
            months: (0..YEARS * YEAR_ROOM).map(|_| None).collect(),
        }
    }

    /// Writes the row of a day that is answered.
    pub fn answered(&mut self, line: u64, asked: &Asked) {
        let Asked { given, day, reply } = asked;
        let place = usize::from(reply.year) * YEAR_ROOM + usize::from(reply.place);
        let month = self.months[place].get_or_insert_with(|| month_text(reply));
        let text = &mut self.text;
        push_number(text, line);
        text.push(b',');
        text.extend_from_slice(given);
        text.push(b',');
        push_number(text, *day);
        text.extend_from_slice(month.date.as_bytes());
        push_number(text, reply.day.into());
        text.push(b',');
        text.extend_from_slice(self.day_names[(day % NAMES) as usize].as_bytes());
        text.push(b',');
        text.extend_from_slice(month.line.as_bytes());
        text.extend_from_slice(b",\n");
    }

    /// Writes the row of a refusal: what was asked and the number, and no day.
    pub fn refused(&mut self, line: u64, refused: &Refused) {
        let text = &mut self.text;
        push_number(text, line);
        text.push(b',');
        push_field(text, &String::from_utf8_lossy(&refused.given));
        text.extend_from_slice(&[b','; UNANSWERED + 1]);
        push_number(text, refused.number().into());
        text.push(b'\n');
    }

    /// Hands the rows on.
    pub fn pass_on(&mut self, output: &mut impl Write) -> io::Result<()> {
        output.write_all(&self.text)?;
        self.text.clear();
        output.flush()
    }
}

impl Default for Replies {
    fn default() -> Replies {
        Replies::new()
    }
}

/// Returns what the days of a month have in common.
fn month_text(reply: &MonthOfDay) -> MonthText {
    let civil = CivilYear::of_day(reply);
    let name = civil.name().chinese;
    MonthText {
        date: format!(",{},{name},{},", civil.0, text::number(&reply.month)),
        line: month_line(reply),
    }
}

/// Returns the calendar's line of a month: solstice year, number, leap mark, first day and length in hexadecimal digits.
fn month_line(reply: &MonthOfDay) -> String {
    let month = &reply.month;
    format!(
        "{:03X}{:X}{}{:05X}{:02X}",
        reply.year,
        month.number,
        u32::from(month.leap),
        month.first,
        month.length
    )
}

/// Writes a number in decimal digits.
fn push_number(text: &mut Vec<u8>, number: u64) {
    let mut digits = [0; 20];
    let mut from = digits.len();
    let mut left = number;
    loop {
        from -= 1;
        digits[from] = b'0' + (left % 10) as u8;
        left /= 10;
        if left == 0 {
            break;
        }
    }
    text.extend_from_slice(&digits[from..]);
}

/// Writes a field, in quotation marks where it would not be one without them.
fn push_field(text: &mut Vec<u8>, field: &str) {
    if field.contains(['"', ',', '\r', '\n']) {
        text.extend_from_slice(format!("\"{}\"", field.replace('"', "\"\"")).as_bytes());
    } else {
        text.extend_from_slice(field.as_bytes());
    }
}

/// Sentences about refused rows and about progress. Where they cannot be written the rows and the exit status still tell.
pub struct Sentences<W> {
    output: W,
    text: String,
    progress: bool,
    told: u64,
    /// How many characters of progress stand on the line that is next written.
    standing: usize,
}

impl<W: Write> Sentences<W> {
    pub fn new(output: W, progress: bool) -> Sentences<W> {
        Sentences {
            output,
            text: String::new(),
            progress,
            told: 0,
            standing: 0,
        }
    }

    /// Tells why a row is refused.
    pub fn refused(&mut self, line: u64, refused: &Refused) {
        self.clear_line();
        self.text += &format!("viewer: line {line}: {refused}\n");
    }

    /// Hands on what was told, with the progress where it is wanted and another step is done.
    pub fn progress(&mut self, counts: &Counts) {
        if self.progress && counts.rows / STEP > self.told {
            self.told = counts.rows / STEP;
            self.clear_line();
            let line = said(counts);
            self.standing = line.len();
            self.text += &line;
        }
        self.pass_on();
    }

    /// Tells at the end how many rows there were, where progress is wanted, something was refused or there were none.
    pub fn end(&mut self, counts: &Counts) {
        self.clear_line();
        if self.progress || counts.refused > 0 || counts.rows == 0 {
            self.text += &format!("{}.\n", said(counts));
        }
        self.pass_on();
    }

    /// Hands on what was told, and leaves an empty line for what is told next.
    pub fn stop(&mut self) {
        self.clear_line();
        self.pass_on();
    }

    fn clear_line(&mut self) {
        if self.standing > 0 {
            self.text += &format!("\r{}\r", " ".repeat(self.standing));
            self.standing = 0;
        }
    }

    fn pass_on(&mut self) {
        let written = self.output.write_all(self.text.as_bytes());
        let _ = written.and_then(|()| self.output.flush());
        self.text.clear();
    }
}

/// Returns how many rows there were and were refused, and how many lines were passed over where there were any.
fn said(counts: &Counts) -> String {
    let rows = counted(counts.rows, "row");
    let said = format!("viewer: {rows}, {} refused", counts.refused);
    match counts.empty_lines {
        0 => said,
        lines => format!("{said}, {} passed over", counted(lines, "empty line")),
    }
}

/// Returns a number of things with their name.
pub(super) fn counted<N: Display + From<u8> + PartialEq>(number: N, name: &str) -> String {
    let many = if number == N::from(1) { "" } else { "s" };
    format!("{number} {name}{many}")
}
