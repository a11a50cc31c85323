//! What was found, as text for a terminal.

use super::years::era_of;
use super::{refused, Answer, Found, Refused};
use crate::civil::CivilYear;
use crate::names::{self, Name};
use crate::text::{aligned, both, number};
use crate::{month_of, text, western, Refusal};

/// Returns what was found as text: first the notes, so that no day is read without them, then the days.
pub fn written(found: &Found) -> Result<String, Refused> {
    let mut parts: Vec<String> = Vec::new();
    let notes: String = (found.notes.iter())
        .map(|note| format!("Note: {note}.\n"))
        .collect();
    if !notes.is_empty() {
        parts.push(notes);
    }
    for answer in &found.answers {
        parts.push(match answer {
            Answer::Day(day) => block(*day)?,
            Answer::Named { year, name, days } => table(*year, &names::sixty(*name), days)?,
        });
    }
    Ok(parts.join("\n"))
}

/// Returns the block of a day, as `viewer day` has it.
fn block(day: u64) -> Result<String, Refused> {
    let reply = month_of(day).map_err(no_day)?;
    Ok(text::day(day, &reply))
}

/// Returns the refusal of a running day.
fn no_day(refusal: Refusal) -> Refused {
    refused(refusal.0, "its day lies outside the calendar's days".into())
}

/// Returns the days of a sixty-name in a civil year as a table.
fn table(year: CivilYear, name: &Name, days: &[u64]) -> Result<String, Refused> {
    let head = ["Month", "", "Day", "Running day", "Western*", "Era*"];
    let mut rows = vec![head.map(String::from)];
    for day in days {
        let reply = month_of(*day).map_err(no_day)?;
        let date = western::date_of(*day);
        let era = era_of(*day).map(|era| both(&era.name()));
        rows.push([
            number(&reply.month),
            both(&names::of_month(&reply.month)),
            reply.day.to_string(),
            day.to_string(),
            format!("{:>11} {}", date.short(), date.calendar()),
            era.unwrap_or_default(),
        ]);
    }
    Ok(format!(
        "Civil year {}, {}: {} {}\n\n{}\n\
         * Western dates and eras are a courtesy and no part of the calendar's reply.\n",
        year.0,
        both(&year.name()),
        count_of_days(days.len()),
        both(name),
        aligned(&rows).concat(),
    ))
}

/// Returns how many days of a name there are.
fn count_of_days(count: usize) -> String {
    match count {
        1 => "1 day is".to_string(),
        count => format!("{count} days are"),
    }
}
