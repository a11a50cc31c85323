//! Dating a torn sheet: the years whose months agree with what is left of it. The marks are read in `marks`, the
//! proved function is asked in `lists`, what a further name would leave is counted in `telling`, and the reply is a
//! text in `written` and a page in `page`, which share `words`.

pub mod lists;
pub mod marks;
mod page;
pub mod telling;
mod words;
mod written;

use crate::find::question::MonthAsked;
use crate::find::{refused, Refused, OUTSIDE_LIST};
use crate::{Month, Refusal};

pub const HELP: &str = "\
viewer sheet MARK…           the solstice years whose list agrees with every mark of a torn sheet
viewer sheet --civil MARK…   the civil years that do, with marks by months, as a printed almanac names them
viewer page sheet …          either as a page of HTML, the marks above the lists, to print or for a phone

A mark is one word, PLACE=WHAT. PLACE is the place of a month in the solstice year's list, 0 to 12, and WHAT is
  jihai, 己亥      the sixty-name of the month's first day
  ji?, 己?         its stem, where the branch is lost
  ?hai, ?亥        its branch, where the stem is lost; ？ and □ stand for what is lost too
  29, xiao, 小     the month's length; 30, da, 大
  leap, run, 閏    that the month is leap
Several marks may stand at one place. What is not marked is open: a month without the mark may be leap. Where the
shell takes ? for itself, it stands in quotes: viewer sheet 0=jihai '4=ding?'

With --civil a mark is MONTH=WHAT, of a civil year:
  3=…, 三月=…      month 3; 正月 is month 1, 冬月 month 11, 臘月 month 12
  leap8=…, l8=…, 閏8=…, 閏八月=…
                   the leap month after month 8; 8=… is month 8 and never the leap month
  leap8, 閏八月    alone: that the year has this leap month

  --all            lists all years; else there is a screenful of them, or 12 on a page

Each year is listed with the first days of its months, as running days and as sixty-names with 大 or 小. Where none
agrees, those are listed that agree with all marks but one, with what this would have to read. Where several do, it
is told which further name would tell them apart best. Of civil year 1280 the calendar has months 11 and 12 only and
of 2280 months 1 to 10: these agree where all marks lie in what there is. The lists are the Shoushi calendar's: on a
sheet reckoned otherwise a month may begin a day sooner or later, or another month be leap.
";

/// What the marks of a sheet stand at.
#[derive(Clone, Copy, Debug, PartialEq, Eq)]
pub enum By {
    /// Places of a solstice year's list.
    Place,
    /// Months of a civil year.
    Month,
}

/// Where a mark stands.
#[derive(Clone, Copy, Debug, PartialEq, Eq)]
pub enum Spot {
    /// A place of a solstice year's list, counted from 0.
    Place(u64),
    /// A month of a civil year.
    Month(MonthAsked),
}

/// What is read of a month. Names are counted from a jiazi.
#[derive(Clone, Copy, Debug, PartialEq, Eq)]
pub enum Reading {
    /// The sixty-name of its first day.
    Name(u64),
    Stem(u64),
    Branch(u64),
    Length(u64),
    /// That it is leap, or that the civil year has this leap month.
    Leap,
}

#[derive(Clone, Debug, PartialEq, Eq)]
pub struct Mark {
    pub spot: Spot,
    pub reading: Reading,
    /// The mark as it was given.
    pub word: String,
}

/// What is left of a sheet.
#[derive(Clone, Debug, PartialEq, Eq)]
pub struct Sheet {
    pub by: By,
    pub marks: Vec<Mark>,
}

/// A solstice or a civil year that agrees with all marks, or with all but one.
#[derive(Clone, Copy, Debug, PartialEq, Eq)]
pub struct Candidate {
    pub year: u64,
    /// Which of the marks would be misread.
    pub misread: Option<usize>,
}

impl Spot {
    /// Returns the month that stands here in a year's months, where it has one.
    pub fn of(self, months: &[Month]) -> Option<&Month> {
        match self {
            Spot::Place(place) => months.get(usize::try_from(place).ok()?),
            Spot::Month(asked) => months
                .iter()
                .find(|month| u64::from(month.number) == asked.number && month.leap == asked.leap),
        }
    }
}

impl Mark {
    /// Returns whether it says only that the civil year has a leap month.
    pub fn is_leap_month(&self) -> bool {
        matches!((self.spot, self.reading), (Spot::Month(_), Reading::Leap))
    }
}

/// Returns the reply to a sheet as text.
pub fn reply(words: &[&str]) -> Result<String, Refused> {
    let asked = marks::read(words)?;
    let candidates = candidates(&asked.sheet)?;
    Ok(written::written(&asked, &candidates))
}

/// Returns the reply to a sheet as a page.
pub fn page(words: &[&str]) -> Result<String, Refused> {
    let asked = marks::read(words)?;
    let candidates = candidates(&asked.sheet)?;
    Ok(page::page(&asked, &candidates))
}

/// Returns the years that agree with a sheet; where there are none, those that agree with all marks but one.
pub fn candidates(sheet: &Sheet) -> Result<Vec<Candidate>, Refused> {
    let told = |refusal| why(sheet, refusal);
    let years = lists::agreeing(sheet.by, &sheet.marks).map_err(told)?;
    if years.is_empty() {
        return misread(sheet).map_err(told);
    }
    let candidate = |year| Candidate {
        year,
        misread: None,
    };
    Ok(years.into_iter().map(candidate).collect())
}

/// Returns the years that agree with all marks but one, those of the mark that leaves the fewest first. A year must have
/// the month of which something is misread, but for a leap month that was read for another or for none.
fn misread(sheet: &Sheet) -> Result<Vec<Candidate>, Refusal> {
    let mut groups = Vec::new();
    for (which, mark) in sheet.marks.iter().enumerate() {
        let mut others = sheet.marks.clone();
        others.remove(which);
        let mut years = lists::agreeing(sheet.by, &others)?;
        let has = |year| mark.spot.of(&lists::months(sheet.by, year)).is_some();
        years.retain(|year| mark.is_leap_month() || has(*year));
        groups.push((which, years));
    }
    groups.sort_by_key(|(_, years)| years.len());
    let candidates = groups.into_iter().flat_map(|(which, years)| {
        years.into_iter().map(move |year| Candidate {
            year,
            misread: Some(which),
        })
    });
    Ok(candidates.collect())
}

/// Returns the calendar's refusal of a sheet, with the mark that it refuses.
fn why(sheet: &Sheet, refusal: Refusal) -> Refused {
    let alone = |mark: &&Mark| lists::agreeing(sheet.by, &[(*mark).clone()]) == Err(refusal);
    let mark = sheet.marks.iter().find(alone);
    let what = mark.map_or("The sheet".to_string(), |mark| format!("‘{}’", mark.word));
    let told = match (refusal.0, sheet.by) {
        (OUTSIDE_LIST, By::Place) => "a place is 0 to 12 and a length 29 or 30 days",
        (OUTSIDE_LIST, By::Month) => "a length is 29 or 30 days",
        _ => "its marks are more than the calendar takes, a line of 1,023 bytes",
    };
    refused(refusal.0, format!("{what} is refused: {told}"))
}
