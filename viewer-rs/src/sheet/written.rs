//! The years that agree with a sheet, as text for a terminal.

use super::marks::Asked;
use super::{lists, telling, words, By, Candidate, Sheet};
use crate::civil::{self, CivilYear, Part};
use crate::names;
use crate::text::{aligned, both, solstice_year, width, with_eras};
use crate::Month;

/// Lines and columns of a terminal.
const SCREEN: usize = 24;
const COLUMNS: usize = 100;

/// Columns of a month in a list: a running day, or a name with the sign of its length, and a blank.
const CELL: usize = 7;

/// A blank at which no line ends.
const KEPT: char = '\u{A0}';

/// Lines for the years that find no room.
const MORE: usize = 3;

/// A reply whose years may be too many for a screen.
struct Listed {
    head: String,
    /// What is told of each year.
    years: Vec<String>,
    /// The years in short, where that says less than the above.
    short: Vec<String>,
    tail: String,
}

/// Returns the reply to a sheet as text.
pub fn written(asked: &Asked, candidates: &[Candidate]) -> String {
    let listed = match candidates {
        [first, ..] if first.misread.is_none() => agreeing(&asked.sheet, candidates),
        _ => misread(&asked.sheet, candidates),
    };
    let (head, years) = (listed.head, listed.years);
    let blank = if listed.tail.is_empty() { "" } else { "\n" };
    let tail = blank.to_string() + &listed.tail;
    let lines = |text: &str| text.lines().count();
    let fit = |count: usize, more: usize| {
        let all: usize = years.iter().take(count).map(|year| lines(year)).sum();
        all + more + lines(&head) + lines(&tail) <= SCREEN
    };
    if asked.all || years.is_empty() || fit(years.len(), 0) {
        return head + &years.concat() + &tail;
    }
    let room = if listed.short.is_empty() { 1 } else { MORE };
    let shown = (1..).take_while(|count| fit(*count, room)).count().max(1);
    let short = listed.short.get(shown..).unwrap_or(&[]);
    head + &years[..shown].concat() + &more(years.len() - shown, short) + &tail
}

/// Returns how many years there are besides those shown, and which, as far as there is room.
fn more(count: usize, short: &[String]) -> String {
    let told = |named: usize| {
        let names = short[..named].join(", ");
        wrapped(&match (named, count - named) {
            (0, _) => format!("And {count} more; ‘--all’ lists them."),
            (_, 0) => format!("And {count} more, which ‘--all’ lists: {names}."),
            (_, others) => {
                format!("And {count} more, which ‘--all’ lists: {names} and {others} others.")
            }
        })
    };
    let fits = |text: &String| text.lines().count() <= MORE;
    (0..=short.len())
        .map(told)
        .take_while(fits)
        .last()
        .unwrap_or_default()
}

/// Returns the years that agree.
fn agreeing(sheet: &Sheet, candidates: &[Candidate]) -> Listed {
    let by = sheet.by;
    let years: Vec<u64> = candidates.iter().map(|candidate| candidate.year).collect();
    let apart = match years.len() {
        1 => String::new(),
        _ => wrapped(&words::told_apart(telling::apart(sheet, &years))),
    };
    Listed {
        head: title(sheet, &years, years.len()) + "\n" + &header(by),
        years: years.iter().map(|year| block(by, *year)).collect(),
        short: years.iter().map(|year| short(by, *year)).collect(),
        tail: apart + &courtesy(by, &years),
    }
}

/// Returns the years that agree with all marks but one, as the rows of a table.
fn misread(sheet: &Sheet, candidates: &[Candidate]) -> Listed {
    let by = sheet.by;
    let years: Vec<u64> = candidates.iter().map(|candidate| candidate.year).collect();
    let counted = words::counted_but_one(sheet, years.len());
    let mut head = title(sheet, &years, 0) + &wrapped(&counted);
    let mut rows = vec![["Mark", "Would have to read", kind(by)].map(String::from)];
    rows.extend(candidates.iter().filter_map(|candidate| {
        let mark = &sheet.marks[candidate.misread?];
        let months = lists::months(by, candidate.year);
        let would = words::would_read(mark, &months, both);
        Some([mark.word.clone(), would, named(by, candidate.year, &months)])
    }));
    let mut lines = aligned(&rows);
    let columns = lines.remove(0);
    if !years.is_empty() {
        head += "\n";
        head += &columns;
    }
    Listed {
        head,
        years: lines,
        short: Vec::new(),
        tail: courtesy(by, &years),
    }
}

/// Returns how many years agree with the marks, and what is to be known of years before they are read.
fn title(sheet: &Sheet, years: &[u64], agreeing: usize) -> String {
    let counted = words::counted(sheet.by, agreeing);
    let marks = words::marks(sheet, both);
    let notes = words::cut(sheet.by, years);
    let notes: String = notes.iter().map(|note| wrapped(note)).collect();
    wrapped(&format!("{counted}: {marks}.")) + &notes
}

/// Returns the line above the lists: the places, or the months with the leap month as the last.
fn header(by: By) -> String {
    match by {
        By::Place => line("Place", (0..=12).map(|place: u32| place.to_string())),
        By::Month => {
            let months = (1..=12).map(|month: u32| month.to_string());
            line("Month", months.chain(["leap".to_string()]))
        }
    }
}

/// Returns a year with the first days of its months, as running days and as names with their length.
fn block(by: By, year: u64) -> String {
    let months = lists::months(by, year);
    let columns = lists::columns(by, &months);
    let cells = |cell: fn(&Month) -> String| {
        let cells = columns.iter().map(|month| month.as_ref().map(cell));
        line("", cells.map(Option::unwrap_or_default))
    };
    let (kind, year) = (kind(by), named(by, year, &months));
    wrapped(&format!("{kind} {year}: {}", words::months(by, &months)))
        + &cells(|month| month.first.to_string())
        + &cells(|month| names::of_day(month.first.into()).chinese + names::of_length(month).0)
}

/// Returns a line of cells.
fn line(first: &str, cells: impl Iterator<Item = String>) -> String {
    let padded = |cell: String| " ".repeat(CELL.saturating_sub(width(&cell))) + &cell;
    let line: String = cells.map(padded).collect();
    format!("{first:5}{line}").trim_end().to_string() + "\n"
}

/// Returns which year a number is.
fn kind(by: By) -> &'static str {
    match by {
        By::Place => "Solstice year",
        By::Month => "Civil year",
    }
}

/// Returns a year with its names.
fn named(by: By, year: u64, months: &[Month]) -> String {
    match by {
        By::Place => solstice_year(year),
        By::Month => {
            let year = CivilYear(year);
            with_eras(&Part { year, months })
        }
    }
}

/// Returns a year in short.
fn short(by: By, year: u64) -> String {
    match by {
        By::Place => format!("{year}{KEPT}({})", civil::span(year)),
        By::Month => year.to_string(),
    }
}

/// Returns the line about eras, where one is told.
fn courtesy(by: By, years: &[u64]) -> String {
    words::courtesy(by, years).map_or(String::new(), wrapped)
}

/// Returns a text in lines of a terminal.
fn wrapped(text: &str) -> String {
    let mut lines = vec![String::new()];
    for word in text.split(' ') {
        let last = lines.len() - 1;
        if lines[last].is_empty() {
            lines[last] += word;
        } else if width(&lines[last]) + 1 + width(word) <= COLUMNS {
            lines[last] += " ";
            lines[last] += word;
        } else {
            lines.push(format!("  {word}"));
        }
    }
    lines.join("\n").replace(KEPT, " ") + "\n"
}
