//! The proved function is asked which lists agree with marks. It knows places in the list of a solstice year; the months
//! of a civil year stand in two lists, at places that hang on where the leap month stands.

use super::{By, Mark, Reading, Spot};
use crate::civil::CivilYear;
use crate::find::question::MonthAsked;
use crate::find::{months_of_civil, YEARS};
use crate::{ask, months_of, Month, Refusal};

/// Places where a leap month can stand: the month at place 0 holds the winter solstice.
const LEAP_PLACES: std::ops::RangeInclusive<u64> = 1..=12;

/// Returns the solstice or the civil years that agree with marks.
pub fn agreeing(by: By, marks: &[Mark]) -> Result<Vec<u64>, Refusal> {
    match by {
        By::Place => {
            let placed = |mark: &Mark| match mark.spot {
                Spot::Place(place) => Some((place, mark.reading)),
                Spot::Month(_) => None,
            };
            asked(&marks.iter().filter_map(placed).collect::<Vec<_>>())
        }
        By::Month => civil_years(marks),
    }
}

/// Returns those months of a solstice or civil year that the calendar has.
pub fn months(by: By, year: u64) -> Vec<Month> {
    match by {
        By::Place => months_of(year).unwrap_or_default(),
        By::Month => months_of_civil(CivilYear(year)),
    }
}

/// Returns the months of a year as columns of a table: by places, or by numbers with the leap month as the last.
pub fn columns(by: By, months: &[Month]) -> Vec<Option<Month>> {
    if by == By::Place {
        return months.iter().copied().map(Some).collect();
    }
    let number = |number| move |month: &&Month| month.number == number && !month.leap;
    let numbered = (1..=12).map(|each| months.iter().find(number(each)));
    let leap = months.iter().find(|month| month.leap);
    numbered
        .chain([leap])
        .map(Option::<&Month>::cloned)
        .collect()
}

/// Returns the solstice years whose list agrees with readings at places.
fn asked(readings: &[(u64, Reading)]) -> Result<Vec<u64>, Refusal> {
    let marks = readings.iter().map(|(place, reading)| match reading {
        Reading::Name(name) => format!(" name {place} {name}"),
        Reading::Stem(stem) => format!(" stem {place} {stem}"),
        Reading::Branch(branch) => format!(" branch {place} {branch}"),
        Reading::Length(length) => format!(" length {place} {length}"),
        Reading::Leap => format!(" leap {place}"),
    });
    let reply = ask(&format!("sheet{}", marks.collect::<String>()))?;
    let years = reply.split(' ').filter(|word| *word != "none");
    Ok(years
        .map(|year| year.parse().expect("the desk replies with years"))
        .collect())
}

/// Returns the civil years that agree with marks by months: months 1 to 10 stand in one list, months 11 and 12 in the next.
/// Of the first and the last civil year the calendar has one of these, in which all marks must lie.
fn civil_years(marks: &[Mark]) -> Result<Vec<u64>, Refusal> {
    let mut years: Vec<u64> = (YEARS.0..=YEARS.1).collect();
    for (number, numbers) in [(1, 1..=10), (11, 11..=12)] {
        let readings: Vec<(MonthAsked, Reading)> = (marks.iter())
            .filter_map(|mark| match mark.spot {
                Spot::Month(month) if numbers.contains(&month.number) => {
                    Some((month, mark.reading))
                }
                _ => None,
            })
            .collect();
        if !readings.is_empty() {
            let lists = lists_with(&readings)?;
            let listed = |year: &u64| CivilYear(*year).solstice_year(number);
            years.retain(|year| listed(year).map_or(false, |list| lists.contains(&list)));
        }
    }
    Ok(years)
}

/// Returns the solstice years whose list agrees with readings of months, asked once for each place where a leap month
/// can stand and once for the lists without one.
fn lists_with(readings: &[(MonthAsked, Reading)]) -> Result<Vec<u64>, Refusal> {
    let mut lists = Vec::new();
    for leap in LEAP_PLACES.map(Some).chain([None]) {
        let placed =
            |(month, reading): &(MonthAsked, Reading)| Some((place(*month, leap)?, *reading));
        let mut placed: Vec<(u64, Reading)> = match readings.iter().map(placed).collect() {
            Some(placed) => placed,
            // it names a leap month that stands elsewhere
            None => continue,
        };
        placed.extend(leap.map(|leap| (leap, Reading::Leap)));
        let mut years = asked(&placed)?;
        years.retain(|year| {
            leap.is_some() || !months(By::Place, *year).iter().any(|month| month.leap)
        });
        lists.extend(years);
    }
    Ok(lists)
}

/// Returns the place of a month in a list whose leap month stands at a place, or which has none.
fn place(month: MonthAsked, leap: Option<u64>) -> Option<u64> {
    // months 11 and 12 begin the list
    let index = (month.number + 1) % 12;
    if month.leap {
        return leap.filter(|leap| *leap == index + 1);
    }
    Some(index + u64::from(leap.map_or(false, |leap| leap <= index)))
}
