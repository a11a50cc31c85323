//! Months and days of a civil year, looked up in the calendar's lists.

use super::question::{DayAsked, MonthAsked};
use super::{outside, refused, Refused, OUTSIDE_LIST, OUTSIDE_YEARS, YEARS};
use crate::civil::CivilYear;
use crate::command::MALFORMED;
use crate::names;
use crate::text::{both, numbered};
use crate::{months_of, Month, Refusal};

/// Returns a month of a civil year.
pub fn month_asked(year: CivilYear, asked: MonthAsked) -> Result<Month, Refused> {
    let number = number_asked(asked)?;
    let list = year.solstice_year(number).ok_or(Refusal(OUTSIDE_YEARS));
    let list = list.and_then(months_of).map_err(|refusal| Refused {
        number: refusal.0,
        ..outside(&format!("month {number} of civil year {}", year.0))
    })?;
    let is_asked = |month: &&Month| month.number == number && month.leap == asked.leap;
    let month = list.iter().find(is_asked).copied();
    month.ok_or_else(|| no_leap(year, number))
}

/// Returns the number of a month, where a civil year may have it.
pub fn number_asked(asked: MonthAsked) -> Result<u32, Refused> {
    match asked.number {
        number @ 1..=12 => Ok(number as u32),
        _ => {
            let why = "the months of a civil year are numbered 1 to 12".to_string();
            Err(refused(OUTSIDE_LIST, why))
        }
    }
}

/// Returns the refusal of a leap month that a civil year has not.
fn no_leap(year: CivilYear, number: u32) -> Refused {
    let leap = months_of_civil(year).into_iter().find(|month| month.leap);
    let has = match leap {
        Some(leap) => format!("its leap month is leap {}", leap.number),
        None => "it has no other leap month".to_string(),
    };
    let why = format!(
        "civil year {} has no leap month {number}; {has}{}",
        year.0,
        part_told(year)
    );
    refused(OUTSIDE_LIST, why)
}

/// Returns the running day of a day of a month.
pub fn day_asked(year: CivilYear, month: &Month, asked: DayAsked) -> Result<u64, Refused> {
    let length = u64::from(month.length);
    let day = match asked {
        DayAsked::Number(day) => day,
        DayAsked::Last => length,
    };
    if (1..=length).contains(&day) {
        return Ok(u64::from(month.first) + day - 1);
    }
    let why = format!("{} has {length} days", of_civil(year, month));
    Err(refused(OUTSIDE_LIST, why))
}

/// Refuses a day whose sixty-name is not the one that the question gives.
pub fn agrees(year: CivilYear, month: &Month, day: u64, name: Option<u64>) -> Result<(), Refused> {
    match name {
        Some(name) if name != day % 60 => {
            let why = format!(
                "day {} of {} is {}, not {}",
                day - u64::from(month.first) + 1,
                of_civil(year, month),
                both(&names::of_day(day)),
                both(&names::sixty(name)),
            );
            Err(refused(MALFORMED, why))
        }
        _ => Ok(()),
    }
}

/// Returns the day of a sixty-name in a month; no month has two.
pub fn named_in(month: &Month, name: u64) -> Option<u64> {
    let first = u64::from(month.first);
    (first..first + u64::from(month.length)).find(|day| day % 60 == name)
}

/// Returns the refusal of a sixty-name that no day of a month has. Where the month has a leap month beside it, or is
/// one, it is told whether the other has the name.
pub fn not_named(year: CivilYear, month: &Month, name: u64) -> Refused {
    let beside = months_of_civil(year)
        .into_iter()
        .find(|other| other.number == month.number && other.leap != month.leap);
    let there = beside.and_then(|other| Some((other, named_in(&other, name)?)));
    let told = match there {
        Some((other, day)) => format!(
            "it is day {} of {}, running day {day}",
            day - u64::from(other.first) + 1,
            numbered(&other),
        ),
        None => {
            let first = u64::from(month.first);
            let last = first + u64::from(month.length) - 1;
            let ends = [first, last].map(|day| both(&names::of_day(day)));
            format!("its days are {} to {}", ends[0], ends[1])
        }
    };
    let name = both(&names::sixty(name));
    let why = format!("no day of {} is {name}; {told}", of_civil(year, month));
    refused(OUTSIDE_LIST, why)
}

/// Returns the days of a sixty-name in a civil year.
pub fn named(year: CivilYear, name: u64) -> Result<Vec<u64>, Refused> {
    let days: Vec<u64> = months_of_civil(year)
        .iter()
        .filter_map(|month| named_in(month, name))
        .collect();
    if !days.is_empty() {
        return Ok(days);
    }
    let name = both(&names::sixty(name));
    let why = format!(
        "no day of civil year {} is {name}{}",
        year.0,
        part_told(year)
    );
    Err(refused(OUTSIDE_LIST, why))
}

/// Returns those months of a civil year that the calendar has: months 1 to 10 end the list of a solstice year, and
/// months 11 and 12 begin the next.
pub fn months_of_civil(year: CivilYear) -> Vec<Month> {
    [1, 11]
        .iter()
        .filter_map(|number| year.solstice_year(*number))
        .flat_map(|list| {
            let months = months_of(list).unwrap_or_default().into_iter();
            months.filter(move |month| CivilYear::of(list, month) == year)
        })
        .collect()
}

/// Returns a note about a month that has a leap month of the same number beside it.
pub fn leap_too(year: CivilYear, month: &Month) -> Option<String> {
    let is_leap = |other: &Month| other.number == month.number && other.leap;
    let beside = !month.leap && months_of_civil(year).iter().any(is_leap);
    let (year, number) = (year.0, month.number);
    beside.then(|| {
        format!("civil year {year} has a leap month {number} too; ‘leap {number}’ asks for it")
    })
}

/// Returns a note about a civil year of which the calendar has some months only.
pub fn part_only(year: CivilYear) -> Option<String> {
    let months = match year.0 {
        first if first == YEARS.0 => "months 11 and 12",
        last if last == YEARS.1 => "months 1 to 10",
        _ => return None,
    };
    Some(format!(
        "the calendar has only {months} of civil year {}",
        year.0
    ))
}

/// Returns the same as the end of a sentence.
fn part_told(year: CivilYear) -> String {
    part_only(year).map_or_else(String::new, |note| format!("; {note}"))
}

/// Returns a month with its civil year.
fn of_civil(year: CivilYear, month: &Month) -> String {
    format!("{} of civil year {}", numbered(month), year.0)
}
