//! Which further mark would tell years apart. Many years have a twin, mostly 124 years on, whose months begin on days of
//! the same names: these no name tells apart.

use super::{lists, By, Sheet, Spot};
use crate::civil::CivilYear;
use crate::find::part_only;
use crate::find::question::MonthAsked;
use crate::Month;
use std::collections::HashMap;
use std::hash::Hash;

/// What would tell years apart.
#[derive(Clone, Copy, Debug, PartialEq, Eq)]
pub enum Apart {
    /// The name of a first day.
    Name(Telling),
    /// No name, but which month is leap.
    LeapMonth,
    /// No name, but the length of a month.
    Length(Spot),
    Nothing,
}

/// What the name of the first day at a spot would leave of some years.
#[derive(Clone, Copy, Debug, PartialEq, Eq)]
pub struct Telling {
    pub spot: Spot,
    /// How many years there are, and how many would be left at most.
    pub years: usize,
    pub most: usize,
    /// How many would be left where each year in turn is the sheet's, added up.
    pub sum: usize,
}

impl Telling {
    /// Returns how many years would be left on average, with one decimal.
    pub fn average(&self) -> String {
        let tenths = (20 * self.sum + self.years) / (2 * self.years);
        format!("{}.{}", tenths / 10, tenths % 10)
    }
}

/// A year with its months.
type Listed = (u64, Vec<Month>);

/// Returns what would tell years apart; of several names the one that leaves the fewest on average, and then at most.
pub fn apart(sheet: &Sheet, years: &[u64]) -> Apart {
    let listed = |year: &u64| (*year, lists::months(sheet.by, *year));
    let years: Vec<Listed> = years.iter().map(listed).collect();
    let mut spots = spots(sheet.by);
    spots.retain(|spot| years.iter().all(|year| may_be_read(sheet.by, *spot, year)));
    // a name that is known already leaves all years
    let best = (spots.iter())
        .map(|spot| left(*spot, &years))
        .filter(|telling| telling.most < years.len())
        .min_by_key(|telling| (telling.sum, telling.most));
    let leap = |months: &[Month]| months.iter().position(|month| month.leap);
    let differ = |spot: &&Spot| alike(&years, |months| Some(spot.of(months)?.length)).len() > 1;
    match best {
        Some(best) => Apart::Name(best),
        None if alike(&years, leap).len() > 1 => Apart::LeapMonth,
        None => spots
            .iter()
            .find(differ)
            .map_or(Apart::Nothing, |spot| Apart::Length(*spot)),
    }
}

/// Returns where a mark may stand.
fn spots(by: By) -> Vec<Spot> {
    match by {
        By::Place => (0..=12).map(Spot::Place).collect(),
        By::Month => (1..=12)
            .flat_map(|number| [false, true].map(|leap| Spot::Month(MonthAsked { number, leap })))
            .collect(),
    }
}

/// Returns whether a year's sheet has the month at a spot, though the calendar may have cut it off.
fn may_be_read(by: By, spot: Spot, (year, months): &Listed) -> bool {
    let cut = by == By::Month && part_only(CivilYear(*year)).is_some();
    cut || spot.of(months).is_some()
}

/// Returns what the name at a spot would leave of years.
fn left(spot: Spot, years: &[Listed]) -> Telling {
    let counts = alike(years, |months| Some(spot.of(months)?.first % 60));
    Telling {
        spot,
        years: years.len(),
        most: counts.iter().copied().max().unwrap_or(0),
        sum: counts.iter().map(|count| count * count).sum(),
    }
}

/// Returns how many years are alike in something of their months, for each thing that it is.
fn alike<T: Eq + Hash>(years: &[Listed], what: impl Fn(&[Month]) -> T) -> Vec<usize> {
    let mut counts: HashMap<T, usize> = HashMap::new();
    for (_, months) in years {
        *counts.entry(what(months)).or_default() += 1;
    }
    counts.into_values().collect()
}
