//! The marks of a sheet, read from words. Whether the calendar has such a place or length is for it to say.

use super::{By, Mark, Reading, Sheet, Spot};
use crate::command::{number_in, MALFORMED};
use crate::find::question::{self, MonthAsked};
use crate::find::{number_asked, refused, Refused};
use crate::names;

/// What is asked about a sheet.
#[derive(Clone, Debug, PartialEq, Eq)]
pub struct Asked {
    pub sheet: Sheet,
    /// Whether all years are to be listed.
    pub all: bool,
}

/// Lengths of the small and of the great month.
const SMALL: u64 = 29;
const GREAT: u64 = 30;

/// Returns what words ask, or the refusal of the first that is not understood.
pub fn read(words: &[&str]) -> Result<Asked, Refused> {
    let words = words.iter().flat_map(|word| word.split_whitespace());
    let (flags, words): (Vec<&str>, Vec<&str>) = words.partition(|word| word.starts_with("--"));
    let (mut by, mut all) = (By::Place, false);
    for flag in flags {
        match flag {
            "--civil" => by = By::Month,
            "--all" => all = true,
            _ => {
                let what = format!("‘{flag}’ is no flag of ‘viewer sheet’");
                return Err(malformed(&what));
            }
        }
    }
    let marks = marks_in(by, &words)?;
    if marks.is_empty() {
        return Err(malformed("No mark of a sheet was given"));
    }
    let sheet = Sheet { by, marks };
    Ok(Asked { sheet, all })
}

/// Returns the marks that words give. One that is given twice counts once.
fn marks_in(by: By, words: &[&str]) -> Result<Vec<Mark>, Refused> {
    let mut marks: Vec<Mark> = Vec::new();
    for word in words {
        let (spot, reading) = mark(by, word).map_err(|miss| Refused {
            why: format!("‘{word}’ is refused: {}", miss.why),
            ..miss
        })?;
        let same = |mark: &Mark| (mark.spot, mark.reading) == (spot, reading);
        if !marks.iter().any(same) {
            let word = word.to_string();
            marks.push(Mark {
                spot,
                reading,
                word,
            });
        }
    }
    Ok(marks)
}

/// Returns the refusal of words that are no sheet.
fn malformed(what: &str) -> Refused {
    not_read(format!(
        "{what}; ‘viewer help sheet’ says what can be asked"
    ))
}

fn not_read(why: String) -> Refused {
    refused(MALFORMED, why)
}

/// Returns where a mark stands and what is read there.
fn mark(by: By, word: &str) -> Result<(Spot, Reading), Refused> {
    let parts = word.split_once(['=', '＝']);
    let parts = parts.filter(|(spot, what)| !spot.is_empty() && !what.is_empty());
    match (by, parts) {
        (By::Place, Some((place, what))) => Ok((place_in(place)?, reading_in(what)?)),
        (By::Month, Some((month, what))) => {
            let month = month_in(month)?;
            match reading_in(what)? {
                Reading::Leap if !month.leap => Err(never_leap(month)),
                reading => Ok((Spot::Month(month), reading)),
            }
        }
        (_, None) => match month_named(word) {
            Some(month) if by == By::Month && month.leap => {
                number_asked(month)?;
                Ok((Spot::Month(month), Reading::Leap))
            }
            Some(month) if by == By::Place && month.leap => Err(no_place(word)),
            _ => Err(not_read(match by {
                By::Place => "a mark is PLACE=WHAT, as ‘0=jihai’ is".into(),
                By::Month => "a mark is MONTH=WHAT, as ‘3=jihai’ is, or a leap month alone".into(),
            })),
        },
    }
}

/// Returns the refusal of a month that is said to be leap: it and its leap month are two.
fn never_leap(month: MonthAsked) -> Refused {
    not_read(format!(
        "month {0} and leap month {0} are two, and ‘leap{0}’ says that the year has the second",
        month.number
    ))
}

/// Returns the place that a text gives.
fn place_in(text: &str) -> Result<Spot, Refused> {
    let place = number_in(&plain(text)).map(Spot::Place);
    place.ok_or_else(|| no_place(text))
}

/// Returns the refusal of a text that is no place.
fn no_place(text: &str) -> Refused {
    not_read(match month_named(text) {
        Some(_) => format!("‘{text}’ is a month and no place; ‘--civil’ takes marks by months"),
        None => format!("‘{text}’ is no place of a list, which is a number from 0 to 12"),
    })
}

/// Returns the month that a text gives.
fn month_in(text: &str) -> Result<MonthAsked, Refused> {
    let month = month_named(text).ok_or_else(|| {
        not_read(format!(
            "‘{text}’ is no month, as ‘3’, ‘三月’, ‘leap8’ and ‘閏八月’ are"
        ))
    })?;
    number_asked(month)?;
    Ok(month)
}

/// Returns the month that a text names as a question of `find` does; `l8` is short for `leap8`.
fn month_named(text: &str) -> Option<MonthAsked> {
    let number = text
        .strip_prefix(['l', 'L'])
        .filter(|rest| number_in(rest).is_some());
    match number {
        Some(number) => question::month(&format!("leap{number}")),
        None => question::month(text),
    }
}

/// Returns a text in small letters, with the characters by which `find` reads, and one sign for what is lost.
fn plain(text: &str) -> String {
    let sign = |each| match each {
        '？' | '□' => '?',
        each => question::traditional(each).to_ascii_lowercase(),
    };
    text.chars().map(sign).collect()
}

/// Returns what a text says of a month.
fn reading_in(text: &str) -> Result<Reading, Refused> {
    let what = plain(text);
    let named = match what.as_str() {
        "leap" | "run" | "閏" => Some(Reading::Leap),
        "xiao" | "小" => Some(Reading::Length(SMALL)),
        "da" | "大" => Some(Reading::Length(GREAT)),
        _ => None,
    };
    let half = || {
        let stem = what.strip_suffix('?').and_then(names::stem_of);
        let branch = what.strip_prefix('?').and_then(names::branch_of);
        stem.map(Reading::Stem)
            .or_else(|| branch.map(Reading::Branch))
    };
    named
        .or_else(|| number_in(&what).map(Reading::Length))
        .or_else(|| names::count_of(&what).map(Reading::Name))
        .or_else(half)
        .ok_or_else(|| not_read(unread(text, &what)))
}

/// Returns why a text says nothing of a month.
fn unread(text: &str, what: &str) -> String {
    let stem = names::stem_of(what).map(names::stem);
    let branch = names::branch_of(what).map(names::branch);
    match (stem, branch) {
        (Some(stem), Some(branch)) => format!(
            "‘{text}’ is a stem and a branch: ‘{text}?’ is {}, ‘?{text}’ is {}",
            stem.chinese, branch.chinese
        ),
        (Some(_), None) => format!("‘{text}’ is a stem alone, which is written ‘{text}?’"),
        (None, Some(_)) => format!("‘{text}’ is a branch alone, which is written ‘?{text}’"),
        (None, None) if is_pair(what) => {
            format!("‘{text}’ is none of the sixty names, as this stem and this branch never meet")
        }
        (None, None) => format!(
            "‘{text}’ is no sixty-name, no half of one with ? for the other, no length and not ‘leap’"
        ),
    }
}

/// Returns whether a text is a stem with a branch.
fn is_pair(what: &str) -> bool {
    let mut halves = what.char_indices().map(|(at, _)| what.split_at(at));
    halves
        .any(|(stem, branch)| names::stem_of(stem).is_some() && names::branch_of(branch).is_some())
}
