//! The facts that hold of all admitted months together, checked on the plain list of all of them.

use crate::calendar::*;
use crate::sheet;

pub const NEXT_HEAD: (Number, Number) = (12_368, 365_269);
pub const LIST_LENGTHS: [usize; 2] = [NUMBERS.len(), LONGEST_LIST];

/// Every so manyth year's sheet is torn mark by mark.
const TORN_PACE: usize = 37;

/// Returns nothing when a fact holds and its description when it fails.
fn fact(holds: bool, description: impl FnOnce() -> String) -> Result<(), String> {
    if holds {
        Ok(())
    } else {
        Err(description())
    }
}

/// Returns how many months of a year's list hold no middle term.
fn without_middle_term(year: Number, list: &[Record]) -> usize {
    let days = middle_term_days(year);
    list.iter()
        .filter(|month| !holds_one(month.first_day, month.length, &days))
        .count()
}

/// Returns nothing when a year's list is as the paper says and the fact that fails otherwise.
fn check_list(year: Number, list: &[Record]) -> Result<(), String> {
    let lean = without_middle_term(year, list);
    let leaps = list.iter().filter(|month| month.leap).count();
    let lengths_hold = list.iter().all(|month| LENGTHS.contains(&month.length));
    fact(LIST_LENGTHS.contains(&list.len()), || {
        format!("year {year} has {} months", list.len())
    })?;
    fact(lengths_hold, || {
        format!("year {year} has a month of other than 29 or 30 days")
    })?;
    fact(lean == list.len() - LIST_LENGTHS[0], || {
        format!("year {year} has {lean} months without a middle term")
    })?;
    fact(leaps == lean, || {
        format!("year {year} has {leaps} leap months")
    })
}

/// Returns nothing when each admitted day stands in the lists exactly once and no other day does,
/// and the fact that fails otherwise.
fn check_days(lists: &[Vec<Record>]) -> Result<(), String> {
    let mut held = vec![0u32; LAST_DAY as usize + 1];
    for month in lists.iter().flatten() {
        for day in month.first_day..month.first_day + month.length {
            fact(day <= LAST_DAY, || format!("day {day} is held"))?;
            held[day as usize] += 1;
        }
    }
    for (day, times) in held.iter().enumerate() {
        let wanted = u32::from(day as Number >= FIRST_DAY);
        fact(*times == wanted, || {
            format!("day {day} is held {times} times")
        })?;
    }
    Ok(())
}

/// Returns how many years are dated by their whole sheets alone, when the sheet of each gives it, or the fact that fails.
fn check_sheets(months: &Months) -> Result<usize, String> {
    let mut alone = 0;
    for (year, list) in (0..=LAST_YEAR).zip(months.lists()) {
        let left = years_left(months, &sheet::whole(list));
        fact(left.contains(&year), || {
            format!("the whole sheet of year {year} does not give it")
        })?;
        alone += usize::from(left.len() == 1);
    }
    Ok(alone)
}

/// Returns nothing when a sheet without one of its marks leaves every year that it leaves, down to the sheet without
/// marks, which leaves all, and the fact that fails otherwise.
fn check_torn(months: &Months, year: usize) -> Result<(), String> {
    let mut marks = sheet::whole(&months.lists()[year]);
    while !marks.is_empty() {
        let left = years_left(months, &marks);
        for torn in 0..marks.len() {
            let mut fewer = marks.clone();
            let mark = fewer.remove(torn);
            let left_by_fewer = years_left(months, &fewer);
            fact(left.iter().all(|year| left_by_fewer.contains(year)), || {
                format!("without {mark} a sheet of year {year} loses a year")
            })?;
        }
        marks.pop();
    }
    let all = years_left(months, &marks).len();
    fact(all == months.lists().len(), || {
        format!("a sheet without marks leaves {all} years")
    })
}

/// Returns the years that a sheet of admitted marks leaves.
fn years_left(months: &Months, marks: &[sheet::Mark]) -> Vec<Number> {
    sheet::years(months, marks).expect("the marks are admitted")
}

/// Returns a line that sums up all facts, or the first that fails.
pub fn check(months: &Months) -> Result<String, String> {
    let lists = months.lists();
    for (year, list) in lists.iter().enumerate() {
        check_list(year as Number, list)?;
    }
    check_days(lists)?;
    let count = lists.iter().map(Vec::len).sum::<usize>();
    fact(count as Number == LAST_LUNATION + 1, || {
        format!("there are {count} months")
    })?;
    let next_head = months.head_and_first_day(lists.len());
    fact(next_head == NEXT_HEAD, || {
        format!("the head after the last year is {next_head:?}")
    })?;
    let dated = check_sheets(months)?;
    for year in (0..lists.len()).step_by(TORN_PACE) {
        check_torn(months, year)?;
    }
    let leap_years = lists
        .iter()
        .filter(|list| list.len() == LONGEST_LIST)
        .count();
    Ok(format!(
        "{count} months in {} years, {leap_years} of them with a leap month: days {FIRST_DAY} to \
         {LAST_DAY} each once, next head lunation {} on day {}; each year's whole sheet gives it, {dated} alone",
        lists.len(),
        next_head.0,
        next_head.1
    ))
}
