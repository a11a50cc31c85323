//! Names, terms and Western dates.

use lengadriu_viewer::civil::CivilYear;
use lengadriu_viewer::western::{date_of, Date};
use lengadriu_viewer::{months_of, names, terms};
use second::calendar;
use std::collections::HashSet;

#[test]
fn the_terms_fall_where_the_second_program_has_them() {
    for year in 0..1_000 {
        for term in 0..=terms::LAST {
            let time = calendar::term(year, term).unwrap();
            let day = terms::day_of(year, term);
            assert_eq!(i128::from(day), calendar::day_of(time));
        }
    }
}

#[test]
fn the_leap_month_holds_no_middle_term() {
    for year in 0..1_000 {
        for month in months_of(year).unwrap() {
            let first = u64::from(month.first);
            let days = first..first + u64::from(month.length);
            let held = (0..=terms::LAST)
                .filter(|term| terms::is_middle(*term))
                .any(|term| days.contains(&terms::day_of(year, term)));
            assert_eq!(held, !month.leap, "year {year}, day {first}");
        }
    }
}

#[test]
fn there_are_sixty_names() {
    let name = |day| names::of_day(day).chinese;
    let all: HashSet<String> = (0..60).map(name).collect();
    assert_eq!(all.len(), 60);
    assert!((0..60).all(|day| name(day) == name(day + 60)));
    let both = |day| (name(day), names::of_day(day).romanised);
    assert_eq!(both(0), ("甲子".into(), "jiazi".into()));
    assert_eq!(both(55), ("己未".into(), "jiwei".into()));
    assert_eq!(both(59), ("癸亥".into(), "guihai".into()));
    assert_eq!(CivilYear(1281).name().romanised, "xinsi");
    assert_eq!(CivilYear(1284).name().romanised, "jiashen");
}

#[test]
fn months_have_their_names() {
    let months = months_of(0).unwrap();
    let names: Vec<String> = months
        .iter()
        .map(|month| names::of_month(month).chinese)
        .collect();
    assert_eq!(names[0], "十一月");
    assert_eq!(names[2], "正月");
    assert_eq!(names[10], "閏八月");
    assert_eq!(names::of_month(&months[10]).romanised, "run-bayue");
    assert_eq!(names::of_length(&months[0]), ("小", "xiao"));
    assert_eq!(names::of_length(&months[1]), ("大", "da"));
}

#[test]
fn western_dates_that_are_known() {
    // the solstice of the epoch, the reform, and days whose Julian Day Number is in every book
    let known = [
        (55, "14 December 1280", false),
        (2_299_160 - 2_188_871, "4 October 1582", false),
        (2_299_161 - 2_188_871, "15 October 1582", true),
        (2_400_001 - 2_188_871, "17 November 1858", true),
        (2_451_545 - 2_188_871, "1 January 2000", true),
        (2_451_604 - 2_188_871, "29 February 2000", true),
    ];
    for (day, text, gregorian) in known {
        let date = date_of(day);
        assert_eq!(
            (date.to_string().as_str(), date.gregorian),
            (text, gregorian)
        );
    }
    assert_eq!(date_of(55).short(), "14 Dec 1280");
}

#[test]
fn western_dates_run_on_from_day_to_day() {
    let mut date = date_of(0);
    assert_eq!(date.to_string(), "20 October 1280");
    for day in 1..=365_300 {
        let next = date_of(day);
        assert_eq!((next.year, next.month, next.day), after(&date), "day {day}");
        date = next;
    }
}

/// Returns year, month and day of the date after another.
fn after(date: &Date) -> (u64, u64, u64) {
    if (date.year, date.month, date.day) == (1582, 10, 4) {
        return (1582, 10, 15);
    }
    let leap =
        date.year % 4 == 0 && (!date.gregorian || date.year % 100 != 0 || date.year % 400 == 0);
    let length = match date.month {
        2 if leap => 29,
        2 => 28,
        4 | 6 | 9 | 11 => 30,
        _ => 31,
    };
    if date.day < length {
        (date.year, date.month, date.day + 1)
    } else if date.month < 12 {
        (date.year, date.month + 1, 1)
    } else {
        (date.year + 1, 1, 1)
    }
}
