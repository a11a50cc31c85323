//! The years that agree with a sheet, as a page of HTML: the marks stand above the lists, each over the months that must
//! agree with it.

use super::marks::Asked;
use super::{lists, telling, words, By, Candidate, Mark, Reading, Sheet, Spot};
use crate::civil::{self, CivilYear, Part};
use crate::find::question::MonthAsked;
use crate::names;
use crate::page::{both, chinese, document, eras, romanised};
use crate::text::{number, numbered};
use crate::Month;

const STYLE: &str = include_str!("page.css");

/// How many lists stand on a page unless all are asked for.
const MOST: usize = 12;

/// Columns of the table: places 0 to 12, or months 1 to 12 and the leap month.
const COLUMNS: usize = 13;

/// Returns the page of a sheet.
pub fn page(asked: &Asked, candidates: &[Candidate]) -> String {
    let sheet = &asked.sheet;
    let most = if asked.all { candidates.len() } else { MOST };
    let shown = &candidates[..candidates.len().min(most)];
    let rows: String = shown.iter().map(|each| year_row(sheet, each)).collect();
    let lists = format!(
        "<table class=\"lists\">\n<thead>\n{}{}</thead>\n<tbody>\n{rows}</tbody>\n</table>\n",
        head(sheet.by),
        sheet_row(sheet),
    );
    let title = words::counted(sheet.by, agreeing(candidates));
    let body = format!(
        "<header>\n<h1>{} <span>Shoushi lists for a torn sheet</span></h1>\n\
         <p class=\"year\">{title}: {}.</p>\n{}</header>\n<main>\n{lists}{}</main>\n<footer>\n{}</footer>\n",
        chinese("授時曆"),
        words::marks(sheet, both),
        paragraphs(&told(sheet, candidates)),
        paragraphs(&more(candidates.len() - shown.len())),
        paragraphs(&notes(sheet, shown)),
    );
    document(&format!("Shoushi: {title}"), STYLE, &body)
}

/// Returns how many years agree with all marks.
fn agreeing(candidates: &[Candidate]) -> usize {
    let agrees = |each: &&Candidate| each.misread.is_none();
    candidates.iter().filter(agrees).count()
}

fn paragraphs(texts: &[String]) -> String {
    texts
        .iter()
        .map(|text| format!("<p>{text}</p>\n"))
        .collect()
}

/// Returns what is told of the years before they are read.
fn told(sheet: &Sheet, candidates: &[Candidate]) -> Vec<String> {
    let years: Vec<u64> = candidates.iter().map(|each| each.year).collect();
    let mut told = match agreeing(candidates) {
        0 => vec![words::counted_but_one(sheet, years.len())],
        1 => Vec::new(),
        _ => vec![words::told_apart(telling::apart(sheet, &years))],
    };
    told.extend(words::cut(sheet.by, &years));
    told
}

/// Returns how many years found no room.
fn more(count: usize) -> Vec<String> {
    match count {
        0 => Vec::new(),
        count => vec![format!("And {count} more; ‘--all’ lists them.")],
    }
}

/// Returns the table's head of places or months.
fn head(by: By) -> String {
    let (what, mut names): (&str, Vec<String>) = match by {
        By::Place => ("Place", (0..=12).map(|place| place.to_string()).collect()),
        By::Month => ("Month", (1..=12).map(|month| month.to_string()).collect()),
    };
    names.resize(COLUMNS, "leap".to_string());
    let cells = names
        .iter()
        .map(|name| format!("<th scope=\"col\">{name}</th>"));
    let cells: String = cells.collect();
    format!("<tr><th scope=\"col\">{what}</th>{cells}</tr>\n")
}

/// Returns the row of the sheet's own marks.
fn sheet_row(sheet: &Sheet) -> String {
    let column = |mark: &&Mark| match mark.spot {
        Spot::Place(place) => place as usize,
        Spot::Month(month) if month.leap => COLUMNS - 1,
        Spot::Month(month) => month.number as usize - 1,
    };
    let cells = (0..COLUMNS).map(|at| {
        let marks = sheet.marks.iter().filter(|mark| column(mark) == at);
        format!("<td>{}</td>", marked(&marks.collect::<Vec<_>>()))
    });
    let cells: String = cells.collect();
    format!("<tr class=\"sheet\"><th scope=\"row\">The sheet</th>{cells}</tr>\n")
}

/// Returns the marks of a cell, under their spots as far as the column does not say them.
fn marked(marks: &[&Mark]) -> String {
    let mut cell = String::new();
    let mut last = None;
    for mark in marks {
        if last != Some(mark.spot) {
            cell += &match mark.spot {
                Spot::Month(month) if month.leap => {
                    format!("<b class=\"which\">leap {}</b>", month.number)
                }
                spot => format!("<b class=\"at\">{}</b>", words::named(spot)),
            };
        }
        last = Some(mark.spot);
        cell += &match mark.reading {
            _ if mark.is_leap_month() => String::new(),
            Reading::Length(length) => small(&length_shown(length)),
            Reading::Leap => small(&format!("{} leap", chinese("閏"))),
            reading => words::read(reading, both),
        };
    }
    cell
}

/// Returns the row of a year: its names, and its months in their columns.
fn year_row(sheet: &Sheet, candidate: &Candidate) -> String {
    let months = lists::months(sheet.by, candidate.year);
    let misread = candidate.misread.map(|which| &sheet.marks[which]);
    let columns = lists::columns(sheet.by, &months);
    let cells = (0..COLUMNS).map(|at| match columns.get(at).copied().flatten() {
        Some(month) => cell(sheet, misread, at, &month),
        None => empty(misread, at),
    });
    let cells: String = cells.collect();
    let would = misread.map(|mark| {
        format!(
            "<span class=\"small would\">{} must be {}</span>",
            words::named(mark.spot),
            words::would_read(mark, &months, both),
        )
    });
    format!(
        "<tr><th scope=\"row\">{}{}</th>{cells}</tr>\n",
        year_names(sheet.by, candidate.year, &months),
        would.unwrap_or_default(),
    )
}

/// Returns a year with its names.
fn year_names(by: By, year: u64, months: &[Month]) -> String {
    let whole = |name: String| format!("<span class=\"whole\">{name}</span>");
    match by {
        By::Place => {
            let [before, begun] = civil::parts(year, months).map(|part| both(&part.year.name()));
            format!(
                "<b>{}</b><span class=\"small\">solstice year {year}</span>\
                 <span class=\"small\">{} and {}</span>",
                civil::span(year),
                whole(before),
                whole(begun),
            )
        }
        By::Month => {
            let year = CivilYear(year);
            let eras = eras(&Part { year, months });
            let name = both(&year.name());
            format!("<b>{}</b><span class=\"small\">{name}{eras}</span>", year.0)
        }
    }
}

/// Returns a cell without a month, with its class where a leap month would be misread.
fn empty(misread: Option<&Mark>, at: usize) -> String {
    let read_for_none = misread.map_or(false, Mark::is_leap_month) && at == COLUMNS - 1;
    let class = if read_for_none {
        " class=\"misread\""
    } else {
        ""
    };
    format!("<td{class}></td>")
}

/// Returns the cell of a month, with its class where a mark stands there.
fn cell(sheet: &Sheet, misread: Option<&Mark>, at: usize, month: &Month) -> String {
    let spot = match sheet.by {
        By::Place => Spot::Place(at as u64),
        By::Month => Spot::Month(MonthAsked {
            number: month.number.into(),
            leap: month.leap,
        }),
    };
    let read_for = |mark: &Mark| mark.is_leap_month() && month.leap;
    let class = if misread.map_or(false, |mark| mark.spot == spot || read_for(mark)) {
        " class=\"misread\""
    } else if sheet.marks.iter().any(|mark| mark.spot == spot) {
        " class=\"agrees\""
    } else {
        ""
    };
    let name = names::of_day(month.first.into());
    format!(
        "<td{class}>{}{}{}{}{}</td>",
        which(sheet.by, spot, month),
        chinese(&name.chinese),
        romanised(&name.romanised),
        small(&month.first.to_string()),
        small(&length_shown(month.length.into())),
    )
}

/// Returns which month stands in a cell, as far as its column does not say it.
fn which(by: By, spot: Spot, month: &Month) -> String {
    let at = format!("<b class=\"at\">{}</b>", words::named(spot));
    match (by, month.leap) {
        (By::Month, false) => at,
        (By::Place, false) => format!("{at}<b class=\"which\">{}</b>", numbered(month)),
        (By::Month, true) => leap_month(month),
        (By::Place, true) => at + &leap_month(month),
    }
}

fn leap_month(month: &Month) -> String {
    format!("<b class=\"which leap-month\">{}</b>", number(month))
}

fn small(text: &str) -> String {
    format!("<span class=\"small\">{text}</span>")
}

/// Returns a length with its sign.
fn length_shown(days: u64) -> String {
    format!("{} {days}", chinese(names::length(days).0))
}

/// Returns what the cells mean, and whose the replies are.
fn notes(sheet: &Sheet, shown: &[Candidate]) -> Vec<String> {
    let mut legend = "<i class=\"agrees\"></i> agrees with a mark".to_string();
    if shown.iter().any(|each| each.misread.is_some()) {
        legend += " <i class=\"misread\"></i> a mark would be misread";
    }
    let (number, whose) = match sheet.by {
        By::Place => ("its number, ", ""),
        By::Month => ("", ", of which the civil years are made up here"),
    };
    let [great, small] = [30, 29].map(|days| {
        let (chinese, romanised) = names::length(days);
        both(&words::name(chinese, romanised))
    });
    let mut notes = vec![format!(
        "{legend}. Of each month: {number}the sixty-name and the running day of its first day, and its length, {great} \
         30 days or {small} 29. The lists, and which of them agree, are replies of the proved calendar{whose}."
    )];
    let years: Vec<u64> = shown.iter().map(|each| each.year).collect();
    notes.extend(words::courtesy(sheet.by, &years).map(String::from));
    notes
}
