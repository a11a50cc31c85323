//! What the words behind `viewer file` ask for.

use crate::command::MALFORMED;
use std::ffi::OsString;
use std::fmt;
use std::path::PathBuf;

pub const HELP: &str = "\
viewer file --decimal [FILE]        files the running days of FILE, or of the standard input
viewer file --hexadecimal [FILE]    the same for days in hexadecimal digits, with small letters or capitals

One of the two flags must be given: 00340 is running day 340 in decimal and running day 832 in hexadecimal.

  --column N     the day stands in column N, counted from 1; without this flag it is the first column
  --column NAME  the day stands in the column that the first line, a header, calls NAME
  --progress     tells on the way how many rows are done, as it does at a terminal

The input has one day a line, or is CSV with commas. A row is one line, and all rows have as many columns as the
first. Blanks around a day, leading zeros, a byte order mark and a carriage return before a line's end are taken as
meant; a sign, a point, 0x or a thousands mark is refused. An empty line is passed over, but counted as a line.

The output is CSV with one row for each row of the input, in order:
  line           line of the input, counted from 1
  asked          the day as it was given, or the whole line where its columns are not clear
  running_day    the day in decimal; day 0 is a jiazi day
  civil_year     the Western year in which the civil year (年) of the month began
  year_name      sixty-name of the civil year
  month          number of the month, as in 8 or leap 8
  day_of_month   counted from 1
  day_name       sixty-name of the day
  month_line     the calendar's own line: solstice year (歲) 3 hexadecimal digits, number 1, leap 1, first day 5, length 2
  refused        empty, or the number of the refusal; a refused row has no day

Each refused row is told on standard error too, with its line and a reason. The exit status is 0 where every row was
answered, 1 where one was refused, and 2 where the command was refused or could not read or write to the end.
";

const BASES: &str = "‘--decimal’ or ‘--hexadecimal’";

/// How the digits of a day are read.
#[derive(Clone, Copy, Debug, PartialEq, Eq)]
pub enum Base {
    Decimal,
    Hexadecimal,
}

impl fmt::Display for Base {
    fn fmt(&self, f: &mut fmt::Formatter<'_>) -> fmt::Result {
        f.write_str(match self {
            Base::Decimal => "decimal digits",
            Base::Hexadecimal => "hexadecimal digits",
        })
    }
}

/// Where the day of a row stands.
#[derive(Clone, Debug, PartialEq, Eq)]
pub enum Column {
    /// In the first column, which is not said.
    Unsaid,
    /// Counted from 0.
    Place(usize),
    /// Under a name of the header.
    Name(String),
}

/// What is asked of a file.
#[derive(Clone, Debug, PartialEq, Eq)]
pub struct Settings {
    pub base: Base,
    pub column: Column,
    pub progress: bool,
    /// The standard input where there is none.
    pub file: Option<PathBuf>,
}

impl Settings {
    /// Returns what words ask for, or a sentence that says why they are refused.
    pub fn of(words: &[OsString]) -> Result<Settings, String> {
        let mut base = None;
        let mut column = None;
        let mut progress = false;
        let mut file = None;
        let mut words = words.iter();
        while let Some(word) = words.next() {
            match word.to_str() {
                Some("--decimal") => once(&mut base, Base::Decimal, BASES)?,
                Some("--hexadecimal") => once(&mut base, Base::Hexadecimal, BASES)?,
                Some("--column") => once(&mut column, column_in(words.next())?, "‘--column’")?,
                Some("--progress") => progress = true,
                Some("-") => once(&mut file, None, "A file")?,
                Some(flag) if flag.starts_with('-') => {
                    return Err(malformed(&format!("‘{flag}’ is no flag of ‘viewer file’")));
                }
                _ => once(&mut file, Some(PathBuf::from(word)), "A file")?,
            }
        }
        Ok(Settings {
            base: base.ok_or_else(unsaid_base)?,
            column: column.unwrap_or(Column::Unsaid),
            progress,
            file: file.flatten(),
        })
    }
}

/// Puts what a word says into its place, which must be empty.
fn once<T>(place: &mut Option<T>, said: T, what: &str) -> Result<(), String> {
    if place.is_some() {
        return Err(malformed(&format!("{what} is given more than once")));
    }
    *place = Some(said);
    Ok(())
}

/// Returns the column that a word gives: digits count, and all else is a name.
fn column_in(word: Option<&OsString>) -> Result<Column, String> {
    let wrong = |what: &str| Err(malformed(what));
    match word.map(|word| word.to_str()) {
        None | Some(Some("")) => wrong("‘--column’ wants a number or a name"),
        Some(None) => wrong("The name of the column is no text"),
        Some(Some(word)) if word.bytes().all(|byte| byte.is_ascii_digit()) => {
            match word.parse::<usize>() {
                Ok(0) => wrong("Columns are counted from 1, and there is no column 0"),
                Ok(count) => Ok(Column::Place(count - 1)),
                Err(_) => wrong(&format!("There is no column {word}")),
            }
        }
        Some(Some(name)) => Ok(Column::Name(name.trim().to_string())),
    }
}

/// Returns the sentence about digits that could be read in two ways.
fn unsaid_base() -> String {
    format!(
        "Say ‘--decimal’ or ‘--hexadecimal’, since ‘00340’ is running day 340 in decimal and running day 832 in \
         hexadecimal (refusal {MALFORMED})."
    )
}

/// Returns a sentence about words that ask for no file.
fn malformed(what: &str) -> String {
    format!("{what}; ‘viewer help file’ says what can be asked (refusal {MALFORMED}).")
}
