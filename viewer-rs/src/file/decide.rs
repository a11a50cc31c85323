//! Which day a row asks for, and its month; or why the row is refused.

use super::input::{self, Fault, Line, Span};
use super::output::counted;
use super::settings::{Base, Column, Settings};
use crate::command::MALFORMED;
use crate::{month_of, MonthOfDay, Refusal};
use std::borrow::Cow;
use std::fmt;

/// How many characters of a text a sentence shows.
const SHOWN: usize = 40;

/// A day that a row asks for.
#[derive(Clone, Copy, Debug)]
pub struct Asked<'a> {
    /// As it was given.
    pub given: &'a [u8],
    pub day: u64,
    pub reply: MonthOfDay,
}

/// A row that is refused.
#[derive(Clone, Debug)]
pub struct Refused<'a> {
    /// What was given for the day, or the whole line where its columns are not clear.
    pub given: Cow<'a, [u8]>,
    pub why: Why,
}

#[derive(Clone, Copy, Debug, PartialEq, Eq)]
pub enum Why {
    NoDay,
    NoNumber(Base),
    Outside(Base, Refusal),
    /// It has so many columns, and the line that they are counted by has others.
    Columns(usize, Width),
    /// It has so many columns, and not the one of this place.
    NoColumn(usize, usize),
    ThousandsMark,
    Open,
    /// It lies inside a quotation mark opened on this line.
    Inside(u64),
    Stray,
    TooLong,
}

/// How many columns a line has.
#[derive(Clone, Copy, Debug, PartialEq, Eq)]
pub struct Width {
    pub line: u64,
    pub columns: usize,
}

/// What is known of the rows so far.
pub struct Rows<'s> {
    settings: &'s Settings,
    /// Where the day stands, which the header may have to say.
    place: Option<usize>,
    width: Option<Width>,
    /// The line on which a quotation mark was opened that is not closed.
    open: Option<u64>,
    columns: Vec<Span>,
}

impl Refused<'_> {
    /// Returns the number of the refusal.
    pub fn number(&self) -> u32 {
        match self.why {
            Why::Outside(_, refusal) => refusal.0,
            _ => MALFORMED,
        }
    }
}

impl fmt::Display for Refused<'_> {
    fn fmt(&self, f: &mut fmt::Formatter<'_>) -> fmt::Result {
        let given = shown(&self.given);
        match self.why {
            Why::NoDay => write!(f, "the row has no day")?,
            Why::NoNumber(base) => write!(f, "‘{given}’ is not a number in {base}")?,
            Why::Outside(base, refusal) => {
                return write!(f, "‘{given}’ in {base} is refused: {refusal}.");
            }
            Why::Columns(has, width) => {
                let (has, wanted) = (counted(has, "column"), width.columns);
                write!(f, "‘{given}’ has {has}, and line {} has {wanted}", width.line)?
            }
            Why::NoColumn(has, place) => {
                let has = counted(has, "column");
                write!(f, "‘{given}’ has {has}, and no column {}", place + 1)?
            }
            Why::ThousandsMark => write!(
                f,
                "‘{given}’ may be one number with a thousands mark, and ‘--column 1’ would say that it is two"
            )?,
            Why::Open => write!(f, "‘{given}’ has a quotation mark that its line does not close")?,
            Why::Inside(line) => {
                write!(f, "‘{given}’ lies inside a quotation mark opened on line {line}")?
            }
            Why::Stray => write!(f, "‘{given}’ has a quotation mark inside a column")?,
            Why::TooLong => write!(f, "the line is longer than {} bytes", input::LONGEST)?,
        }
        write!(f, " (refusal {MALFORMED}).")
    }
}

impl<'s> Rows<'s> {
    pub fn new(settings: &'s Settings) -> Rows<'s> {
        let place = match settings.column {
            Column::Unsaid => Some(0),
            Column::Place(place) => Some(place),
            Column::Name(_) => None,
        };
        Rows {
            settings,
            place,
            width: None,
            open: None,
            columns: Vec::new(),
        }
    }

    /// Returns whether the next line is a header that names the columns.
    pub fn want_header(&self) -> bool {
        self.place.is_none()
    }

    /// Finds the column of the day in a header, or returns a sentence that says why it is not found.
    pub fn take_header(&mut self, line: &Line) -> Result<(), String> {
        let header = shown(line.text);
        if line.too_long || input::columns(line.text, &mut self.columns).is_err() {
            return Err(no_header(&format!(
                "The header line ‘{header}’ cannot be taken apart into columns"
            )));
        }
        let wanted = match &self.settings.column {
            Column::Name(name) => name.as_str(),
            _ => "",
        };
        let named = |span: &Span| input::trimmed(&text_of(line.text, *span)) == wanted.as_bytes();
        let mut places = (0..self.columns.len()).filter(|place| named(&self.columns[*place]));
        self.place = places.next();
        if self.place.is_none() {
            return Err(no_header(&format!(
                "The header line ‘{header}’ has no column ‘{wanted}’"
            )));
        }
        if places.next().is_some() {
            return Err(no_header(&format!(
                "The header line ‘{header}’ has more than one column ‘{wanted}’"
            )));
        }
        self.width = Some(Width {
            line: line.number,
            columns: self.columns.len(),
        });
        Ok(())
    }

    /// Returns a sentence where the input has ended and its header was never seen.
    pub fn found_header(&self) -> Result<(), String> {
        match self.place {
            Some(_) => Ok(()),
            None => Err(no_header("The input has no header line")),
        }
    }

    /// Returns what a row asks for.
    pub fn asked<'a>(&mut self, line: &Line<'a>) -> Result<Asked<'a>, Refused<'a>> {
        let whole = |why| Refused {
            given: Cow::Borrowed(line.text),
            why,
        };
        let span = self.day_in(line).map_err(whole)?;
        let given = &line.text[span.from..span.to];
        self.month(input::trimmed(given))
            .map(|(day, reply)| Asked { given, day, reply })
            .map_err(|why| Refused {
                given: text_of(line.text, span),
                why,
            })
    }

    /// Returns where the day of a row stands in its line.
    fn day_in(&mut self, line: &Line) -> Result<Span, Why> {
        if let Some(opened) = self.open {
            if !line.too_long && !input::stays_open(line.text, &mut self.columns) {
                self.open = None;
            }
            return Err(Why::Inside(opened));
        }
        if line.too_long {
            return Err(Why::TooLong);
        }
        match input::columns(line.text, &mut self.columns) {
            Ok(()) => {}
            Err(Fault::Stray) => return Err(Why::Stray),
            Err(Fault::Open) => {
                self.open = Some(line.number);
                return Err(Why::Open);
            }
        }
        let has = self.columns.len();
        let width = *self.width.get_or_insert(Width {
            line: line.number,
            columns: has,
        });
        if has != width.columns {
            return Err(Why::Columns(has, width));
        }
        if self.settings.column == Column::Unsaid && self.thousands(line.text) {
            return Err(Why::ThousandsMark);
        }
        let place = self.place.unwrap_or(0);
        let span = self.columns.get(place).copied();
        span.ok_or(Why::NoColumn(has, place))
    }

    /// Returns whether the first two columns look like one number with a thousands mark: one to three digits, and three.
    fn thousands(&self, line: &[u8]) -> bool {
        let digits = |span: &Span, lengths: std::ops::RangeInclusive<usize>| {
            let text = &line[span.from..span.to];
            lengths.contains(&text.len()) && number(text, self.settings.base).is_some()
        };
        match self.columns.as_slice() {
            [first, second, ..] => digits(first, 1..=3) && digits(second, 3..=3),
            _ => false,
        }
    }

    /// Returns the day that a text gives and the day's month.
    fn month(&self, text: &[u8]) -> Result<(u64, MonthOfDay), Why> {
        let base = self.settings.base;
        if text.is_empty() {
            return Err(Why::NoDay);
        }
        let day = number(text, base).ok_or(Why::NoNumber(base))?;
        let reply = month_of(day).map_err(|refusal| Why::Outside(base, refusal))?;
        Ok((day, reply))
    }
}

/// Returns a sentence about a header.
fn no_header(what: &str) -> String {
    format!("{what} (refusal {MALFORMED}).")
}

/// Returns the text of a column; two quotation marks between quotation marks are one.
fn text_of(line: &[u8], span: Span) -> Cow<'_, [u8]> {
    let text = &line[span.from..span.to];
    if !span.quoted || !text.contains(&b'"') {
        return Cow::Borrowed(text);
    }
    let mut single = Vec::with_capacity(text.len());
    let mut first_of_two = false;
    for byte in text {
        first_of_two = *byte == b'"' && !first_of_two;
        if *byte != b'"' || first_of_two {
            single.push(*byte);
        }
    }
    Cow::Owned(single)
}

/// Returns the number that a text of digits gives. One of more than 64 bits lies outside the calendar as the greatest of
/// 64 bits does, and stands for it.
pub fn number(text: &[u8], base: Base) -> Option<u64> {
    if text.is_empty() {
        return None;
    }
    let radix: u32 = match base {
        Base::Decimal => 10,
        Base::Hexadecimal => 16,
    };
    text.iter().try_fold(0_u64, |value, byte| {
        let digit = char::from(*byte).to_digit(radix)?;
        Some(
            value
                .saturating_mul(radix.into())
                .saturating_add(digit.into()),
        )
    })
}

/// Returns a text as a sentence shows it: its first characters, and none that would disturb a terminal.
fn shown(text: &[u8]) -> String {
    let start = &text[..text.len().min(4 * (SHOWN + 1))];
    let start = String::from_utf8_lossy(start);
    let mut shown: String = start
        .chars()
        .take(SHOWN)
        .map(|each| if each.is_control() { '\u{FFFD}' } else { each })
        .collect();
    if start.chars().count() > SHOWN {
        shown.push('…');
    }
    shown
}
