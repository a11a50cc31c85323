//! The civil years that a question may mean, and what is told of their eras.

use super::question::{Civil, Year};
use super::{inside, refused, Answer, Meant, Refused, OUTSIDE_YEARS};
use crate::civil::{CivilYear, Era, EraYear};
use crate::command::MALFORMED;
use crate::month_of;
use crate::names;
use crate::text::both;

/// Returns the civil years that a year may be. A sheet is printed before its year, so that an era's name may stand for
/// the year in which the next began; this is taken where no era of the name has the year.
pub(super) fn meant(year: &Year) -> Result<Vec<Meant>, Refused> {
    let (eras, year) = match year {
        Year::Western(year) => {
            let year = CivilYear(*year);
            inside(year, "its civil year")?;
            return Ok(vec![Meant { year, era: None }]);
        }
        Year::Era { eras, year } => (eras, *year),
    };
    let own = having(eras, year, Era::last_year);
    if !own.is_empty() {
        return Ok(own);
    }
    let changing = having(eras, year, Era::year_of_change);
    if !changing.is_empty() {
        return Ok(changing);
    }
    let has: Vec<String> = eras
        .iter()
        .map(|era| {
            let years = span("year", 1, era.last_year() - era.year + 1);
            let civil = span("civil year", era.year, era.last_year());
            format!("{} has {years}, {civil}", of_era(era))
        })
        .collect();
    let why = format!(
        "{}; eras are a courtesy, and the civil year itself can be asked for",
        has.join(", and ")
    );
    Err(refused(OUTSIDE_YEARS, why))
}

/// Returns the civil years that a year is in those eras which have it up to a last civil year.
fn having(eras: &[&'static Era], year: u64, last: fn(&Era) -> u64) -> Vec<Meant> {
    let has = |era: &&&'static Era| (1..=last(era) - era.year + 1).contains(&year);
    let meant = |era: &&'static Era| Meant {
        year: CivilYear(era.year + year - 1),
        era: Some(era),
    };
    eras.iter().filter(has).map(meant).collect()
}

/// Returns those civil years that have the sixty-name which the question gives.
pub(super) fn agreeing(meant: Vec<Meant>, name: Option<u64>) -> Result<Vec<Meant>, Refused> {
    let name = match name {
        Some(name) => names::sixty(name),
        None => return Ok(meant),
    };
    let (agreeing, others): (Vec<Meant>, Vec<Meant>) =
        meant.into_iter().partition(|each| each.year.name() == name);
    if !agreeing.is_empty() {
        return Ok(agreeing);
    }
    let are: Vec<String> = others
        .iter()
        .map(|each| format!("civil year {} is {}", each.year.0, both(&each.year.name())))
        .collect();
    let why = format!("its year is not {}: {}", both(&name), are.join(", "));
    Err(refused(MALFORMED, why))
}

/// Returns notes about days of a civil year that lie before or after the era by which it was asked for.
pub(super) fn era_notes(meant: &Meant, answer: &Answer) -> Vec<String> {
    let era = match meant.era {
        Some(era) => era,
        None => return Vec::new(),
    };
    let days: &[u64] = match answer {
        Answer::Day(day) => std::slice::from_ref(day),
        Answer::Named { days, .. } => days,
    };
    let mut notes = Vec::new();
    for day in days {
        let told = era_of(*day).map(|told| told.era);
        // the era asked for is yet to begin, or another has begun
        let began = match told {
            Some(told) if told == era => continue,
            Some(told) if told.year == era.year && told.month > era.month => told,
            Some(told) if told.year > era.year => told,
            _ => era,
        };
        let note = format!(
            "{} began with month {} of civil year {} (eras are a courtesy); the question is taken for the whole of \
             civil year {}",
            of_era(began),
            began.month,
            began.year,
            meant.year.0,
        );
        if !notes.contains(&note) {
            notes.push(note);
        }
    }
    notes
}

/// Returns a note about a sixty-name that may have been meant for the year.
pub fn own_name(question: &Civil, year: CivilYear, name: u64) -> Option<String> {
    let own = question.year_name.is_none() && names::sixty(name) == year.name();
    own.then(|| {
        format!(
            "{} is the name of civil year {} too; here it is taken for a day's",
            both(&year.name()),
            year.0
        )
    })
}

/// Returns a note about a name that two eras have.
pub(super) fn twice(meant: &[Meant], misses: &str) -> String {
    let years: Vec<String> = meant.iter().map(|each| each.year.0.to_string()).collect();
    let era = meant[0].era.map(of_era).unwrap_or_default();
    let told = if misses.is_empty() {
        "both have what is asked"
    } else {
        misses
    };
    format!(
        "two eras are called {era}, and the year may be civil year {}; {told}",
        years.join(" or ")
    )
}

/// Returns the era of a day, where it is known.
pub fn era_of(day: u64) -> Option<EraYear> {
    let reply = month_of(day).ok()?;
    CivilYear::of_day(&reply).era(reply.month.number)
}

/// Returns an era's name in Chinese and romanised.
fn of_era(era: &Era) -> String {
    format!("{} {}", era.chinese, era.romanised)
}

/// Returns a run of years in words.
fn span(what: &str, first: u64, last: u64) -> String {
    if first == last {
        format!("{what} {first}")
    } else {
        format!("{what}s {first} to {last}")
    }
}
