//! What the command writes.

mod pages;

use lengadriu_viewer::{command, months_of, terms};
use pages::balanced;
use std::process::{Command, Output};

/// Returns what the command does with some words.
fn viewer(words: &[&str]) -> Output {
    Command::new(env!("CARGO_BIN_EXE_viewer"))
        .args(words)
        .output()
        .expect("the command starts")
}

/// Returns what the command writes for words that it answers.
fn answered(words: &[&str]) -> String {
    let output = viewer(words);
    assert_eq!(output.status.code(), Some(0), "{words:?}");
    assert!(output.stderr.is_empty(), "{words:?}");
    String::from_utf8(output.stdout).unwrap()
}

/// Returns the sentence with which the command refuses words.
fn refused(words: &[&str]) -> String {
    let output = viewer(words);
    assert_eq!(output.status.code(), Some(2), "{words:?}");
    assert!(output.stdout.is_empty(), "{words:?}");
    String::from_utf8(output.stderr).unwrap()
}

#[test]
fn a_day() {
    assert_eq!(
        answered(&["day", "340"]),
        "Day 340, 甲辰 jiachen\n\
         \x20 civil year     1281, 辛巳 xinsi\n\
         \x20 era            至元十八年 Zhiyuan 18 (courtesy)\n\
         \x20 month          leap 8, 閏八月 run-bayue\n\
         \x20 day            12 of 30 (大 da)\n\
         \x20 first day      329, 癸巳 guisi\n\
         \x20 solstice year  0 (歲, 1280/81), place 10 in its list, counted from 0\n\
         \x20 Western date   25 September 1281, Julian calendar (courtesy)\n"
    );
    let first = answered(&["day", "35"]);
    assert!(first.contains("civil year     1280, 庚辰 gengchen"));
    assert!(first.contains("month          11, 十一月 shiyiyue"));
    let last = answered(&["day", "000365268"]);
    assert!(last.contains("era            none is told after 1644 (courtesy)"));
    assert!(last.contains("Gregorian"));
}

#[test]
fn a_year() {
    let table = answered(&["year", "0"]);
    let lines: Vec<&str> = table.lines().collect();
    assert_eq!(
        lines[0],
        "Solstice year 0 (1280/81), 庚辰 gengchen and 辛巳 xinsi: 13 months, 384 days"
    );
    assert_eq!(
        lines[4],
        "Civil year 1280, 庚辰 gengchen, 至元十七年 Zhiyuan 17*"
    );
    assert_eq!(
        lines[5],
        "    0      11  十一月 shiyiyue     29  小         35  己亥 jihai    24 Nov 1280"
    );
    assert_eq!(
        lines[8],
        "Civil year 1281, 辛巳 xinsi, 至元十八年 Zhiyuan 18*"
    );
    assert_eq!(
        lines[17],
        "   10  leap 8  閏八月 run-bayue    30  大        329  癸巳 guisi    14 Sep 1281"
    );
    assert_eq!(lines.len(), 3 + 4 + 13 + 2);
    assert!(lines[21].starts_with("* Western dates (Julian) and eras are a courtesy"));
    assert!(answered(&["year", "301"]).contains("(Julian up to 4 October 1582 and then Gregorian)"));
    let last = answered(&["year", "999"]);
    assert!(last.starts_with(
        "Solstice year 999 (2279/80), 己未 jiwei and 庚申 gengshen: 12 months, 354 days\n"
    ));
    assert!(last.ends_with(
        "* Western dates (Gregorian) are a courtesy and no part of the calendar's reply; no era is told after 1644.\n"
    ));
}

#[test]
fn refusals_are_sentences() {
    let days = "is refused: it lies outside the calendar's days, 35 to 365,268 (refusal 3).\n";
    for day in ["34", "365269", "0", "18446744073709551616"] {
        assert_eq!(refused(&["day", day]), format!("viewer: Day {day} {days}"));
    }
    let years =
        "is refused: it lies outside the calendar's solstice years, 0 to 999 (refusal 1).\n";
    for words in [
        ["year", "1000"],
        ["page", "1000"],
        ["page", "18446744073709551615"],
    ] {
        assert_eq!(
            refused(&words),
            format!("viewer: Solstice year {} {years}", words[1])
        );
    }
}

#[test]
fn what_is_no_question_is_refused_with_5() {
    let bad: [&[&str]; 12] = [
        &[],
        &[""],
        &["dya", "340"],
        &["day"],
        &["day", ""],
        &["day", "-1"],
        &["day", "+1"],
        &["day", "34o"],
        &["day", "3 40"],
        &["year", "0", "1"],
        &["page", "0x1"],
        &["help", "me"],
    ];
    for words in bad {
        let sentence = refused(words);
        assert!(sentence.ends_with("(refusal 5).\n"), "{sentence}");
    }
}

#[test]
fn help() {
    assert_eq!(answered(&["help"]), command::HELP);
    assert_eq!(answered(&["--help"]), command::HELP);
}

#[test]
fn a_reader_that_stops_is_no_failure() {
    let shell = format!("{} page 0 | head -c 10", env!("CARGO_BIN_EXE_viewer"));
    let output = Command::new("sh").args(["-c", &shell]).output().unwrap();
    assert_eq!(output.stdout, b"<!DOCTYPE ");
    assert!(output.stderr.is_empty());
}

#[test]
fn a_page() {
    let page = answered(&["page", "0"]);
    assert!(page.starts_with("<!DOCTYPE html>\n<html lang=\"en\">"));
    assert!(page.contains("<title>Shoushi solstice year 0 (1280/81)</title>"));
    assert!(page.contains("<i class=\"middle\">21<b lang=\"zh-Hant\">冬至</b></i>"));
    assert!(page.contains("leap month 8 · <span class=\"zh\" lang=\"zh-Hant\">大</span> 30 days"));
}

#[test]
fn every_page_has_every_month_day_and_term() {
    for year in 0..1_000 {
        let page = command::reply(&["page", &year.to_string()]).unwrap();
        let months = months_of(year).unwrap();
        let days: usize = months.iter().map(|month| month.length as usize).sum();
        let first = u64::from(months[0].first);
        let drawn = first..first + days as u64;
        let own = (0..=terms::LAST).map(|term| terms::day_of(year, term));
        let before = year
            .checked_sub(1)
            .map(|year| terms::day_of(year, terms::LAST));
        let marks = own.chain(before).filter(|day| drawn.contains(day)).count();
        let count = |part: &str| page.matches(part).count();
        assert_eq!(
            count("<tr>") + count("<tr class=\"leap\">"),
            months.len() + 1
        );
        assert_eq!(count("<tr class=\"leap\">"), months.len() - 12);
        // the legend has two more of each
        assert_eq!(count("<i>") + count("<i class="), days + 2);
        assert_eq!(count("<i class="), marks + 2);
        assert_eq!(count("<li class="), 24);
        assert_eq!(count("after the last month"), usize::from(year == 999));
        balanced(&page);
        for part in [
            "http", "<script", "<link", "<img", "url(", "@import", "src=",
        ] {
            assert!(!page.contains(part), "{part}");
        }
    }
}
