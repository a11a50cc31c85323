//! Replies as text for a terminal.

use crate::civil::{self, CivilYear, Part, LAST_TOLD};
use crate::names::{self, Name};
use crate::{western, Month, MonthOfDay};

/// Returns the reply about a day as a small block, the civil year first.
pub fn day(day: u64, reply: &MonthOfDay) -> String {
    let civil = CivilYear::of_day(reply);
    let month = &reply.month;
    let (length, length_romanised) = names::of_length(month);
    let first = u64::from(month.first);
    let date = western::date_of(day);
    format!(
        "Day {day}, {}\n\
         \x20 civil year     {}\n\
         \x20 era            {} (courtesy)\n\
         \x20 month          {}, {}\n\
         \x20 day            {} of {} ({length} {length_romanised})\n\
         \x20 first day      {first}, {}\n\
         \x20 solstice year  {} (歲, {}), place {} in its list, counted from 0\n\
         \x20 Western date   {date}, {} calendar (courtesy)\n",
        both(&names::of_day(day)),
        civil_year(civil),
        era(civil, month),
        number(month),
        both(&names::of_month(month)),
        reply.day,
        month.length,
        both(&names::of_day(first)),
        reply.year,
        civil::span(reply.year.into()),
        reply.place,
        date.calendar(),
    )
}

/// Returns a civil year by the Western year in which it began, with its sixty-name.
fn civil_year(year: CivilYear) -> String {
    format!("{}, {}", year.0, both(&year.name()))
}

/// Returns the era of a month of a civil year, or says that none is told.
fn era(year: CivilYear, month: &Month) -> String {
    match year.era(month.number) {
        Some(era) => both(&era.name()),
        None => format!("none is told after {LAST_TOLD}"),
    }
}

/// Returns the months of a solstice year as a table, parted where the civil year begins.
pub fn year(year: u64, months: &[Month]) -> String {
    let days: u32 = months.iter().map(|month| month.length).sum();
    let parts = civil::parts(year, months);
    let lines = aligned(&rows(months));
    let (head, listed) = lines.split_at(1);
    let (before, after) = listed.split_at(parts[0].months.len());
    format!(
        "Solstice year {}: {} months, {days} days\n\n{}\nCivil year {}\n{}\nCivil year {}\n{}\n{}\n",
        solstice_year(year),
        months.len(),
        head.concat(),
        with_eras(&parts[0]),
        before.concat(),
        with_eras(&parts[1]),
        after.concat(),
        courtesy_note(&parts),
    )
}

/// Returns a solstice year with the sixty-names of its two civil years.
pub fn solstice_year(year: u64) -> String {
    let [before, begun] = civil::parts(year, &[]).map(|part| both(&part.year.name()));
    format!("{year} ({}), {before} and {begun}", civil::span(year))
}

/// Returns the civil year of some months with its sixty-name and with their eras.
pub fn with_eras(part: &Part) -> String {
    match part.eras_told(both) {
        Some(eras) => format!("{}, {eras}*", civil_year(part.year)),
        None => civil_year(part.year),
    }
}

/// Returns the cells of the table of months, its head first.
fn rows(months: &[Month]) -> Vec<[String; 8]> {
    let head = [
        "Place",
        "Month",
        "",
        "Days",
        "",
        "First day",
        "",
        "Western*",
    ];
    let mut rows = vec![head.map(String::from)];
    rows.extend(months.iter().enumerate().map(|(place, month)| {
        [
            place.to_string(),
            number(month),
            both(&names::of_month(month)),
            month.length.to_string(),
            names::of_length(month).0.to_string(),
            month.first.to_string(),
            both(&names::of_day(month.first.into())),
            format!("{:>11}", western::date_of(month.first.into()).short()),
        ]
    }));
    rows
}

/// Returns a month's number, with leap marked.
pub fn number(month: &Month) -> String {
    if month.leap {
        format!("leap {}", month.number)
    } else {
        month.number.to_string()
    }
}

/// Returns a month by its number, in words.
pub fn numbered(month: &Month) -> String {
    if month.leap {
        format!("leap month {}", month.number)
    } else {
        format!("month {}", month.number)
    }
}

/// Returns a sentence about the courtesies: which calendar the Western dates are in, and where no era is told.
pub fn courtesy_note(parts: &[Part; 2]) -> String {
    let calendar = calendar_of(parts);
    let untold = format!("; no era is told after {LAST_TOLD}");
    let (eras, untold) = match parts {
        [_, last] if last.year.0 <= LAST_TOLD => (" and eras", ""),
        [first, _] if first.year.0 <= LAST_TOLD => (" and eras", untold.as_str()),
        _ => ("", untold.as_str()),
    };
    format!(
        "* Western dates ({calendar}){eras} are a courtesy and no part of the calendar's reply{untold}."
    )
}

/// Returns the name of the calendar that the Western dates of months are in.
fn calendar_of(parts: &[Part; 2]) -> &'static str {
    let mut months = parts.iter().flat_map(|part| part.months);
    let gregorian = |month: &Month| western::date_of(month.first.into()).gregorian;
    match (months.clone().all(gregorian), months.any(gregorian)) {
        (true, _) => "Gregorian",
        (_, true) => "Julian up to 4 October 1582 and then Gregorian",
        _ => "Julian",
    }
}

/// Returns a name in Chinese and romanised.
pub fn both(name: &Name) -> String {
    format!("{} {}", name.chinese, name.romanised)
}

/// Returns rows of cells as lines in columns, numbers to the right and words to the left.
pub fn aligned<const COLUMNS: usize>(rows: &[[String; COLUMNS]]) -> Vec<String> {
    let mut lines = Vec::new();
    for row in rows {
        let mut line = String::new();
        for (column, cell) in row.iter().enumerate() {
            let widest = rows.iter().map(|row| width(&row[column])).max();
            let blanks = " ".repeat(widest.unwrap_or(0) - width(cell));
            let digits = !cell.is_empty() && cell.bytes().all(|byte| byte.is_ascii_digit());
            let between = if column == 0 { "" } else { "  " };
            line += between;
            line += &if digits {
                blanks + cell
            } else {
                cell.clone() + &blanks
            };
        }
        lines.push(format!("{}\n", line.trim_end()));
    }
    lines
}

/// Returns how many columns of a terminal a text takes: a Chinese character takes two.
pub fn width(text: &str) -> usize {
    text.chars()
        .map(|each| if each >= '\u{2E80}' { 2 } else { 1 })
        .sum()
}
