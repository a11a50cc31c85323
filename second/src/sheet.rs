//! Dating a torn sheet: the years whose lists of months agree with every mark that is left on it.

use crate::calendar::*;
use std::fmt;

/// What a mark tells of the month at its place.
#[derive(Clone, Copy, Debug, PartialEq, Eq)]
pub enum Told {
    Name(u64),
    Stem(u64),
    Branch(u64),
    Length(u64),
    Leap,
}

/// A mark: a place of a year's list and what is told of the month there.
#[derive(Clone, Copy, Debug, PartialEq, Eq)]
pub struct Mark {
    pub place: u64,
    pub told: Told,
}

impl Mark {
    /// Returns nothing for a mark that some month could bear and refusal 2 for another.
    fn check(self) -> Result<(), u32> {
        check_place(self.place, LONGEST_LIST as Number)?;
        match self.told {
            Told::Name(name) => check_place(name, NAMES),
            Told::Stem(stem) => check_place(stem, STEMS),
            Told::Branch(branch) => check_place(branch, BRANCHES),
            Told::Length(length) if !LENGTHS.contains(&length.into()) => Err(REFUSED_PLACE),
            Told::Length(_) | Told::Leap => Ok(()),
        }
    }

    /// Returns whether a year's list has a month at the mark's place of which the mark is true.
    fn agrees(self, list: &[Record]) -> bool {
        list.get(self.place as usize)
            .map_or(false, |month| match self.told {
                Told::Name(told) => name(month.first_day) == told.into(),
                Told::Stem(told) => stem(month.first_day) == told.into(),
                Told::Branch(told) => branch(month.first_day) == told.into(),
                Told::Length(told) => month.length == told.into(),
                Told::Leap => month.leap,
            })
    }
}

impl fmt::Display for Mark {
    /// Writes a mark as a desk line has it.
    fn fmt(&self, out: &mut fmt::Formatter) -> fmt::Result {
        let place = self.place;
        match self.told {
            Told::Name(name) => write!(out, "name {place} {name}"),
            Told::Stem(stem) => write!(out, "stem {place} {stem}"),
            Told::Branch(branch) => write!(out, "branch {place} {branch}"),
            Told::Length(length) => write!(out, "length {place} {length}"),
            Told::Leap => write!(out, "leap {place}"),
        }
    }
}

/// Returns the question line of a sheet.
pub fn line(marks: &[Mark]) -> String {
    let marks = marks.iter().map(|mark| format!(" {mark}"));
    std::iter::once("sheet".to_string()).chain(marks).collect()
}

/// Returns every mark that is true of the month at a place.
pub fn marks_of(place: usize, month: &Record) -> Vec<Mark> {
    let day = month.first_day;
    let mut told = vec![
        Told::Name(name(day) as u64),
        Told::Stem(stem(day) as u64),
        Told::Branch(branch(day) as u64),
        Told::Length(month.length as u64),
    ];
    if month.leap {
        told.push(Told::Leap);
    }
    let place = place as u64;
    told.into_iter().map(|told| Mark { place, told }).collect()
}

/// Returns the whole sheet of a year: every mark that is true of its list.
pub fn whole(list: &[Record]) -> Vec<Mark> {
    let months = list.iter().enumerate();
    months
        .flat_map(|(place, month)| marks_of(place, month))
        .collect()
}

/// Returns the years whose lists agree with every mark, in rising order, or a refusal.
pub fn years(months: &Months, marks: &[Mark]) -> Result<Vec<Number>, u32> {
    marks.iter().try_for_each(|mark| mark.check())?;
    let agreeing = (0..=LAST_YEAR).zip(months.lists());
    Ok(agreeing
        .filter(|(_, list)| marks.iter().all(|mark| mark.agrees(list)))
        .map(|(year, _)| year)
        .collect())
}
