//! What text and page say of a sheet in words. Names are shown as each of them shows a name.

use super::telling::Apart;
use super::{By, Mark, Reading, Sheet, Spot};
use crate::civil::{CivilYear, LAST_TOLD};
use crate::find::part_only;
use crate::names::{self, Name};
use crate::text::{number, numbered};
use crate::Month;

/// How a name is shown.
pub type Shown = fn(&Name) -> String;

/// Returns how many years agree with a sheet.
pub fn counted(by: By, count: usize) -> String {
    let kind = match by {
        By::Place => "solstice",
        By::Month => "civil",
    };
    match count {
        0 => format!("No {kind} year agrees with the sheet"),
        1 => format!("1 {kind} year agrees with the sheet"),
        count => format!("{count} {kind} years agree with the sheet"),
    }
}

/// Returns how many years agree with all marks of a sheet but one.
pub fn counted_but_one(sheet: &Sheet, count: usize) -> String {
    match (count, sheet.marks.len()) {
        (0, _) => "Nor does any if one of the marks is misread.".to_string(),
        (1, _) => "If one mark is misread, 1 year agrees with the others.".to_string(),
        (_, 1) => format!("If the mark is misread, the sheet may be of any of {count} years."),
        _ => format!("If one mark is misread, {count} years agree with the others."),
    }
}

/// Returns the marks of a sheet as they are taken, those of first days before the others.
pub fn marks(sheet: &Sheet, shown: Shown) -> String {
    let told = |mark: &&Mark| match mark.is_leap_month() {
        true => named(mark.spot),
        false => format!("{} {}", read(mark.reading, shown), at(mark.spot)),
    };
    let (days, others): (Vec<&Mark>, Vec<&Mark>) = (sheet.marks.iter())
        .partition(|mark| !matches!(mark.reading, Reading::Length(_) | Reading::Leap));
    let mut all: Vec<String> = days.iter().chain(&others).map(told).collect();
    match days.len() {
        0 => {}
        1 => all[0].insert_str(0, "first day "),
        _ => all[0].insert_str(0, "first days "),
    }
    all.join(", ")
}

/// Returns a spot by its name.
pub fn named(spot: Spot) -> String {
    match spot {
        Spot::Place(place) => format!("place {place}"),
        Spot::Month(month) if month.leap => format!("leap month {}", month.number),
        Spot::Month(month) => format!("month {}", month.number),
    }
}

/// Returns where a spot is.
fn at(spot: Spot) -> String {
    match spot {
        Spot::Place(_) => format!("at {}", named(spot)),
        Spot::Month(_) => format!("in {}", named(spot)),
    }
}

/// Returns what is read of a month, with ? for a character that is lost.
pub fn read(reading: Reading, shown: Shown) -> String {
    match reading {
        Reading::Name(name) => shown(&names::sixty(name)),
        Reading::Stem(stem) => {
            let Name { chinese, romanised } = names::stem(stem);
            shown(&name(&format!("{chinese}?"), &format!("{romanised}?")))
        }
        Reading::Branch(branch) => {
            let Name { chinese, romanised } = names::branch(branch);
            shown(&name(&format!("?{chinese}"), &format!("?{romanised}")))
        }
        Reading::Length(length) => {
            let (chinese, romanised) = names::length(length);
            format!("{length} days ({})", shown(&name(chinese, romanised)))
        }
        Reading::Leap => "leap".to_string(),
    }
}

/// Returns a name of two texts.
pub fn name(chinese: &str, romanised: &str) -> Name {
    Name {
        chinese: chinese.to_string(),
        romanised: romanised.to_string(),
    }
}

/// Returns what a mark would have to read in a year's months.
pub fn would_read(mark: &Mark, months: &[Month], shown: Shown) -> String {
    let month = match mark.spot.of(months) {
        Some(month) if !mark.is_leap_month() => month,
        _ => {
            let leap = months.iter().find(|month| month.leap);
            return leap.map_or("no leap month".to_string(), numbered);
        }
    };
    let first = u64::from(month.first);
    let whole = || shown(&names::of_day(first));
    match mark.reading {
        Reading::Name(_) => whole(),
        Reading::Stem(_) => format!("{} ({})", read(Reading::Stem(first), shown), whole()),
        Reading::Branch(_) => format!("{} ({})", read(Reading::Branch(first), shown), whole()),
        Reading::Length(_) => read(Reading::Length(month.length.into()), shown),
        Reading::Leap => format!("{}, not leap", numbered(month)),
    }
}

/// Returns what is to be told of civil years of which the calendar has some months only.
pub fn cut(by: By, years: &[u64]) -> Vec<String> {
    match by {
        By::Place => Vec::new(),
        By::Month => {
            let cut = years.iter().filter_map(|year| part_only(CivilYear(*year)));
            cut.map(|note| format!("Note: {note}.")).collect()
        }
    }
}

/// Returns a sentence about eras, where one is told.
pub fn courtesy(by: By, years: &[u64]) -> Option<&'static str> {
    let told = by == By::Month && years.iter().any(|year| *year <= LAST_TOLD);
    told.then_some("* Eras are a courtesy and no part of the calendar's reply.")
}

/// Returns how many months a year has, and which of them is leap.
pub fn months(by: By, months: &[Month]) -> String {
    let count = format!("{} months", months.len());
    match (by, months.iter().position(|month| month.leap)) {
        (_, None) => count,
        (By::Place, Some(place)) => {
            format!("{count}, {} at place {place}", number(&months[place]))
        }
        (By::Month, Some(place)) => format!("{count}, {}", number(&months[place])),
    }
}

/// Returns what would tell years apart.
pub fn told_apart(apart: Apart) -> String {
    let no_name = "No further name of a first day tells them apart";
    match apart {
        Apart::Name(best) => {
            let left = match best.most {
                1 => "it leaves one year".to_string(),
                most => format!(
                    "it leaves {most} years at most, {} on average",
                    best.average()
                ),
            };
            format!(
                "Best told apart by the first day's name {}: {left}.",
                at(best.spot)
            )
        }
        Apart::LeapMonth => format!("{no_name}; which month is leap does."),
        Apart::Length(spot) => format!("{no_name}; how many days there are {} does.", at(spot)),
        Apart::Nothing => {
            "No mark tells them apart: names, lengths and leap month are the same.".to_string()
        }
    }
}
