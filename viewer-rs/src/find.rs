//! From what a sheet or a catalogue gives to the running day: a Western date, a day of a month of a civil year, or a
//! sixty-name in a civil year. The question is read in `question`, looked up here in the calendar's own lists, and
//! answered in `written`.

mod months;
pub mod question;
mod written;
mod years;

pub use months::{months_of_civil, number_asked, part_only};

use crate::civil::{CivilYear, Era};
use crate::command::MALFORMED;
use crate::western::{self, Date};
use crate::{month_of, Refusal};
use question::{Asked, Civil, Question};
use std::fmt;

/// Numbers of refusals.
const OUTSIDE_YEARS: u32 = 1;
pub(crate) const OUTSIDE_LIST: u32 = 2;
const OUTSIDE_DAYS: u32 = 3;

/// First and last running day and civil year. Of the first civil year the calendar has months 11 and 12 only, of the
/// last months 1 to 10.
const DAYS: (u64, u64) = (35, 365_268);
pub(crate) const YEARS: (u64, u64) = (1280, 2280);

/// What was found.
#[derive(Clone, Debug, Default, PartialEq, Eq)]
pub struct Found {
    /// What is to be read before the days.
    pub notes: Vec<String>,
    pub answers: Vec<Answer>,
}

#[derive(Clone, Debug, PartialEq, Eq)]
pub enum Answer {
    /// A running day.
    Day(u64),
    /// The running days of a sixty-name in a civil year.
    Named {
        year: CivilYear,
        name: u64,
        days: Vec<u64>,
    },
}

/// Why nothing was found.
#[derive(Clone, Debug, PartialEq, Eq)]
pub struct Refused {
    pub number: u32,
    pub why: String,
}

impl fmt::Display for Refused {
    fn fmt(&self, f: &mut fmt::Formatter<'_>) -> fmt::Result {
        write!(f, "{} (refusal {}).", self.why, self.number)
    }
}

/// A civil year that a question may mean, with the era by which it was asked for.
#[derive(Clone, Copy)]
struct Meant {
    year: CivilYear,
    era: Option<&'static Era>,
}

/// Returns the reply to a question as text.
pub fn reply(text: &str) -> Result<String, Refused> {
    let text = text.split_whitespace().collect::<Vec<_>>().join(" ");
    let question = question::read(&text).map_err(|why| refused(MALFORMED, why));
    let found = question.and_then(|question| written::written(&find(&question)?));
    found.map_err(|miss| Refused {
        why: format!("‘{text}’ is refused: {}", miss.why),
        ..miss
    })
}

/// Returns what a question asks for.
pub fn find(question: &Question) -> Result<Found, Refused> {
    match question {
        Question::Western(date) => western(date),
        Question::Civil(civil) => in_years(civil),
    }
}

/// Returns the refusal of a number.
pub(crate) fn refused(number: u32, why: String) -> Refused {
    Refused { number, why }
}

/// Returns the day of a Western date.
fn western(date: &Date) -> Result<Found, Refused> {
    let day = western::day_of(date).ok_or(Refusal(OUTSIDE_DAYS));
    let day = day.and_then(|day| month_of(day).map(|_| day));
    let day = day.map_err(|refusal| {
        let (first, last) = (western::date_of(DAYS.0), western::date_of(DAYS.1));
        let why = format!(
            "it lies outside the calendar's days, 35 to 365,268, which are {first} to {last}"
        );
        refused(refusal.0, why)
    })?;
    let usual = western::date_of(day);
    let note = format!(
        "{date} in the {} calendar is {usual} in the {}",
        date.calendar(),
        usual.calendar(),
    );
    Ok(Found {
        notes: (*date != usual).then_some(note).into_iter().collect(),
        answers: vec![Answer::Day(day)],
    })
}

/// Returns what is asked of a civil year, or of each that the question may mean.
fn in_years(question: &Civil) -> Result<Found, Refused> {
    let meant = years::agreeing(years::meant(&question.year)?, question.year_name)?;
    let mut found = Found::default();
    let mut misses = Vec::new();
    for each in &meant {
        match in_year(each, question) {
            Ok(one) => {
                found.notes.extend(one.notes);
                found.answers.extend(one.answers);
            }
            Err(miss) => misses.push(miss),
        }
    }
    let why = |misses: &[Refused]| {
        let whys: Vec<&str> = misses.iter().map(|miss| miss.why.as_str()).collect();
        whys.join("; ")
    };
    match misses.last() {
        Some(last) if found.answers.is_empty() => return Err(refused(last.number, why(&misses))),
        _ if meant.len() > 1 => found.notes.insert(0, years::twice(&meant, &why(&misses))),
        _ => {}
    }
    Ok(found)
}

/// Returns what is asked of a civil year.
fn in_year(meant: &Meant, question: &Civil) -> Result<Found, Refused> {
    let year = meant.year;
    inside(year, &format!("civil year {}", year.0))?;
    let (told, answer) = match question.asked {
        Asked::Day { month, day, name } => {
            let found = months::month_asked(year, month)?;
            let day = months::day_asked(year, &found, day)?;
            months::agrees(year, &found, day, name)?;
            ([months::leap_too(year, &found), None], Answer::Day(day))
        }
        Asked::Named {
            month: Some(month),
            name,
        } => {
            let found = months::month_asked(year, month)?;
            let day = months::named_in(&found, name)
                .ok_or_else(|| months::not_named(year, &found, name))?;
            ([months::leap_too(year, &found), None], Answer::Day(day))
        }
        Asked::Named { month: None, name } => {
            let days = months::named(year, name)?;
            let told = [
                months::part_only(year),
                years::own_name(question, year, name),
            ];
            (told, Answer::Named { year, name, days })
        }
    };
    let mut notes = years::era_notes(meant, &answer);
    notes.extend(told.into_iter().flatten());
    Ok(Found {
        notes,
        answers: vec![answer],
    })
}

/// Refuses a civil year of which the calendar has no month.
fn inside(year: CivilYear, what: &str) -> Result<(), Refused> {
    if (YEARS.0..=YEARS.1).contains(&year.0) {
        Ok(())
    } else {
        Err(outside(what))
    }
}

/// Returns the refusal of a civil year or of a month that the calendar has not.
fn outside(what: &str) -> Refused {
    let why = format!(
        "{what} lies outside the calendar's solstice years, 0 to 999, which run from month 11 of civil year {} to month \
         10 of civil year {}",
        YEARS.0, YEARS.1,
    );
    refused(OUTSIDE_YEARS, why)
}
