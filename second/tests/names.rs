//! How many names it takes: the figures against the replies to sheets that have just these names.

use second::calendar::*;
use second::names;
use second::sheet::{years, Mark, Told};
use std::ops::Range;

/// Returns how many years the sheet with a year's names at the given places leaves.
fn left(months: &Months, year: usize, places: Range<usize>) -> usize {
    let list = &months.lists()[year];
    let marks: Vec<Mark> = places
        .map(|place| Mark {
            place: place as u64,
            told: Told::Name(name(list[place].first_day) as u64),
        })
        .collect();
    years(months, &marks).expect("the marks are admitted").len()
}

/// Returns the lines about whole names.
fn lines(months: &Months) -> Vec<String> {
    names::text(months).lines().map(String::from).collect()
}

#[test]
fn neighbouring_names_leave_what_their_sheets_leave() {
    let months = Months::listed();
    let lines = lines(&months);
    for size in [1, 3, 7, 12] {
        let (mut alone, mut all) = (0.0, 0.0);
        for year in 0..1000 {
            let last = months.lists()[year].len() - size;
            let runs = (0..=last).map(|first| left(&months, year, first..first + size));
            let runs: Vec<usize> = runs.collect();
            let share = 1.0 / runs.len() as f64;
            alone += share * runs.iter().filter(|left| **left == 1).count() as f64;
            all += share * runs.iter().sum::<usize>() as f64;
        }
        let row = format!("{:>6.1} %  {:>10.2}", alone / 10.0, all / 1000.0);
        assert!(
            lines[2 + size].ends_with(&row),
            "{}: {row}",
            lines[2 + size]
        );
    }
}

#[test]
fn the_years_that_are_not_singled_out_are_those_whose_sheets_leave_more() {
    let months = Months::listed();
    let lines = lines(&months);
    let whole = |year: &usize| left(&months, *year, 0..months.lists()[*year].len());
    let more: Vec<usize> = (0..1000).filter(|year| whole(year) > 1).collect();
    let numbers: Vec<String> = more.iter().map(usize::to_string).collect();
    assert_eq!(lines[19], format!("not singled out: {}", numbers.join(" ")));
    assert!(lines[16].starts_with(&format!("{} years are singled out", 1000 - more.len())));
    let most = more.iter().map(whole).max().unwrap();
    let said = format!(
        "{} years are not: all their names leave 2 to {most} years,",
        more.len()
    );
    assert!(lines[17].starts_with(&said));
}

#[test]
fn names_stems_and_branches_are_counted_for_every_number_of_them() {
    let text = names::text(&Months::listed());
    assert_eq!(text.matches(", counted over 1000 years\n").count(), 3);
    let rows: Vec<&str> = text.lines().filter(|line| line.contains(" %  ")).collect();
    for (row, size) in rows.iter().zip((1..=13).cycle()) {
        assert!(row.trim_start().starts_with(&format!("{size} ")), "{row}");
    }
    assert_eq!(rows.len(), 3 * 13);
}
