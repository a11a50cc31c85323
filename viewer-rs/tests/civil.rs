//! The civil year that days, tables and pages tell, held to the second program and to dates of the histories.

use lengadriu_viewer::civil::CivilYear;
use lengadriu_viewer::{command, months_of, names, terms, western, Month};
use second::calendar::{self, MonthPlace, Months};

/// Returns what the command answers.
fn answered(question: &str, number: u64) -> String {
    command::reply(&[question, &number.to_string()]).unwrap()
}

/// Returns the civil year of a reply of the second program: the list of a solstice year begins with months 11 and 12 of
/// the civil year before.
fn civil_year(reply: &MonthPlace) -> i128 {
    match reply.month.number {
        11 | 12 => 1_280 + reply.year,
        _ => 1_281 + reply.year,
    }
}

/// Returns a civil year with its sixty-name, as text and page show it. 1984 is a jiazi year.
fn named(year: i128) -> (String, String) {
    let name = names::sixty((year + 1_200 - 1_984) as u64);
    (name.chinese, name.romanised)
}

/// Returns a month as the page numbers it.
fn numbered(number: i128, leap: bool) -> String {
    format!("{}month {number}", if leap { "leap " } else { "" })
}

/// Returns a month of a civil year.
fn month_of_civil(year: u64, number: u32, leap: bool) -> Option<Month> {
    let months = months_of(CivilYear(year).solstice_year(number)?).ok()?;
    let wanted = |month: &&Month| (month.number, month.leap) == (number, leap);
    months.iter().find(wanted).copied()
}

#[test]
fn day_811_is_of_civil_year_1282() {
    assert_eq!(
        answered("day", 811),
        "Day 811, 乙未 yiwei\n\
         \x20 civil year     1282, 壬午 renwu\n\
         \x20 era            至元十九年 Zhiyuan 19 (courtesy)\n\
         \x20 month          12, 十二月 shieryue\n\
         \x20 day            9 of 29 (小 xiao)\n\
         \x20 first day      803, 丁亥 dinghai\n\
         \x20 solstice year  2 (歲, 1282/83), place 1 in its list, counted from 0\n\
         \x20 Western date   9 January 1283, Julian calendar (courtesy)\n"
    );
    for day in [810, 812, 831] {
        let block = answered("day", day);
        assert!(block.contains("  civil year     1282, 壬午 renwu\n"));
        assert!(block.contains("  month          12, 十二月 shieryue\n"));
    }
}

#[test]
fn the_civil_year_changes_with_month_1_and_the_solstice_year_with_month_11() {
    let told = |day| {
        let block = answered("day", day);
        let line = |at: usize| block.lines().nth(at).unwrap()[17..].to_string();
        let month = line(3).split(',').next().unwrap().to_string();
        let solstice_year = line(6).split(' ').next().unwrap().to_string();
        (line(1), month, solstice_year)
    };
    for (day, civil, month, solstice_year) in [
        (772, "1282, 壬午 renwu", "10", "1"),
        (773, "1282, 壬午 renwu", "11", "2"),
        (802, "1282, 壬午 renwu", "11", "2"),
        (803, "1282, 壬午 renwu", "12", "2"),
        (831, "1282, 壬午 renwu", "12", "2"),
        (832, "1283, 癸未 guiwei", "1", "2"),
    ] {
        let expected = (civil.into(), month.into(), solstice_year.into());
        assert_eq!(told(day), expected, "day {day}");
    }
}

#[test]
fn every_day_tells_its_civil_year() {
    let months = Months::listed();
    for day in 35..=365_268 {
        let reply = months.day(day).unwrap();
        let year = civil_year(&reply);
        let (chinese, romanised) = named(year);
        let block = answered("day", day);
        let lines: Vec<&str> = block.lines().collect();
        assert_eq!(lines.len(), 8, "day {day}");
        assert_eq!(
            lines[1],
            format!("  civil year     {year}, {chinese} {romanised}"),
            "day {day}"
        );
        let solstice = format!("  solstice year  {} (歲, ", reply.year);
        let place = format!("), place {} in its list, counted from 0", reply.place);
        assert!(lines[6].starts_with(&solstice), "day {day}: {}", lines[6]);
        assert!(lines[6].ends_with(&place), "day {day}: {}", lines[6]);
        assert_eq!(lines[2].contains("none is told"), year > 1_644, "day {day}");
    }
}

#[test]
fn every_civil_year_began_in_the_western_year_that_names_it() {
    for year in 1_281..=2_280 {
        let month = month_of_civil(year, 1, false).unwrap();
        assert_eq!(western::date_of(month.first.into()).year, year);
    }
}

#[test]
fn days_that_the_histories_date() {
    // Wen Tianxiang's death, those of Khubilai and Temür, the Ming founder's accession and his death, the Yongle
    // emperor's death, the battle at Tumu, the deaths of the Jiajing, Wanli and Chongzhen emperors
    let known = [
        ("至元十九年", 1282, 12, false, 9, "9 January 1283"),
        ("至元三十一年", 1294, 1, false, 22, "18 February 1294"),
        ("大德十一年", 1307, 1, false, 8, "10 February 1307"),
        ("洪武元年", 1368, 1, false, 4, "23 January 1368"),
        ("洪武三十一年", 1398, 5, true, 10, "24 June 1398"),
        ("永樂二十二年", 1424, 7, false, 18, "12 August 1424"),
        ("正統十四年", 1449, 8, false, 15, "1 September 1449"),
        ("嘉靖四十五年", 1566, 12, false, 14, "23 January 1567"),
        ("萬曆四十八年", 1620, 7, false, 21, "18 August 1620"),
        ("崇禎十七年", 1644, 3, false, 19, "25 April 1644"),
    ];
    for (era, year, number, leap, day_of_month, date) in known {
        let month = month_of_civil(year, number, leap).unwrap();
        let block = answered("day", u64::from(month.first + day_of_month - 1));
        for part in [
            format!("\n  civil year     {year}, "),
            format!("\n  era            {era} "),
            format!("\n  day            {day_of_month} of "),
            format!("\n  Western date   {date}, "),
        ] {
            assert!(block.contains(&part), "{part} in {block}");
        }
    }
}

#[test]
fn leap_months_that_the_histories_have() {
    // Zhiyuan 18 and 26, Dade 1 and 10, Zhida 1, the later Zhiyuan 1, Hongwu 31, Yongle 1
    for (year, number) in [
        (1281, 8),
        (1289, 10),
        (1297, 12),
        (1306, 1),
        (1308, 11),
        (1335, 12),
        (1398, 5),
        (1403, 11),
    ] {
        for other in 1..=12 {
            let leap = month_of_civil(year, other, true);
            assert_eq!(leap.is_some(), other == number, "{year}, month {other}");
        }
    }
}

#[test]
fn every_table_names_both_civil_years_and_parts_their_months() {
    for year in 0..1_000 {
        let table = answered("year", year);
        let lines: Vec<&str> = table.lines().collect();
        let begun = 1_281 + year as i128;
        let (before, after) = (named(begun - 1), named(begun));
        assert!(lines[0].starts_with(&format!("Solstice year {year} ({}/", begun - 1)));
        let names = format!(" {} {} and {} {}: ", before.0, before.1, after.0, after.1);
        assert!(lines[0].contains(&names), "{}", lines[0]);
        let mut heading = 0;
        let mut months = months_of(year).unwrap().into_iter();
        for line in &lines[3..lines.len() - 2] {
            if line.starts_with("Civil year ") {
                heading += 1;
                let civil = begun - 2 + heading;
                let (chinese, romanised) = named(civil);
                assert!(line.starts_with(&format!("Civil year {civil}, {chinese} {romanised}")));
                assert_eq!(line.ends_with('*'), civil <= 1_644, "{line}");
            } else if !line.is_empty() {
                let month = months.next().unwrap();
                assert_eq!(heading, if month.number > 10 { 1 } else { 2 }, "{line}");
                assert!(line.contains(&format!("  {}  ", month.first)));
            }
        }
        assert_eq!((heading, months.next()), (2, None), "year {year}");
    }
}

/// Returns the rows of a page's table of months: the month or the civil year that each names.
fn rows(page: &str) -> Vec<String> {
    let body = page.split("</thead>").nth(1).unwrap();
    let table = body.split("</table>").next().unwrap();
    table.split("<tr").skip(1).map(row).collect()
}

/// Returns what a row of the table names.
fn row(row: &str) -> String {
    if row.starts_with(" class=\"civil") {
        let said = row.split(" · ").nth(1).unwrap();
        return said
            .split(" <")
            .next()
            .unwrap()
            .split("</")
            .next()
            .unwrap()
            .to_string();
    }
    let small = row.split("<span class=\"small\">").nth(1).unwrap();
    small.split(" · ").next().unwrap().to_string()
}

/// Returns the rows that a page must have.
fn expected_rows(year: u64) -> Vec<String> {
    let months = months_of(year).unwrap();
    let of = |wanted: fn(u32) -> bool| {
        months
            .iter()
            .filter(|month| wanted(month.number))
            .map(|month| numbered(month.number.into(), month.leap))
            .collect::<Vec<String>>()
    };
    let mut rows = vec![format!("civil year {}, its last months", 1_280 + year)];
    rows.extend(of(|number| number > 10));
    rows.push(format!("civil year {} begins", 1_281 + year));
    rows.extend(of(|number| number < 11));
    rows
}

#[test]
fn every_page_draws_one_civil_new_year_before_month_1() {
    for year in 0..1_000 {
        let page = answered("page", year);
        let rows = rows(&page);
        assert_eq!(rows, expected_rows(year), "year {year}");
        let at = rows
            .iter()
            .position(|row| row.ends_with(" begins"))
            .unwrap();
        assert!(["month 12", "leap month 12"].contains(&rows[at - 1].as_str()));
        assert_eq!(rows[at + 1], "month 1");
        assert_eq!(page.matches("<tr class=\"civil\">").count(), 1);
        assert_eq!(page.matches("<tr class=\"civil new-year\">").count(), 1);
    }
}

#[test]
fn the_civil_new_year_comes_after_leap_months_11_and_12() {
    // the leap month 12 of Dade 1 and the leap month 11 of Zhida 1
    let dade = rows(&answered("page", 17));
    let listed = [
        "civil year 1297, its last months",
        "month 11",
        "month 12",
        "leap month 12",
    ];
    assert_eq!(dade[..4], listed);
    assert_eq!(dade[4..6], ["civil year 1298 begins", "month 1"]);
    let zhida = rows(&answered("page", 28));
    let listed = [
        "civil year 1308, its last months",
        "month 11",
        "leap month 11",
        "month 12",
    ];
    assert_eq!(zhida[..4], listed);
    assert_eq!(zhida[4..6], ["civil year 1309 begins", "month 1"]);
    assert!(answered("page", 17).contains("months 11 to leap 12</span>"));
}

#[test]
fn every_page_names_both_civil_years_in_its_header() {
    for year in 0..1_000 {
        let page = answered("page", year);
        let header = page.split("</header>").next().unwrap();
        assert!(header.contains(&format!("<title>Shoushi solstice year {year} (")));
        for civil in [1_280 + year, 1_281 + year] {
            let (chinese, romanised) = named(civil.into());
            assert!(header.contains(&format!(
                "{chinese}年</span> <em lang=\"zh-Latn-pinyin\">{romanised}</em> · civil year {civil}, "
            )));
        }
        let told = [1_280 + year, 1_281 + year]
            .iter()
            .filter(|civil| **civil <= 1_644)
            .count();
        assert_eq!(header.matches("*</span>").count(), told, "year {year}");
        assert_eq!(page.contains("no era is told after 1644"), told < 2);
        assert_eq!(page.contains(" and eras are a courtesy"), told > 0);
    }
    let page = answered("page", 2);
    assert!(page.contains("至元十九年</span> <em lang=\"zh-Latn-pinyin\">Zhiyuan 19</em>*"));
    assert!(page.contains("至元二十年</span> <em lang=\"zh-Latn-pinyin\">Zhiyuan 20</em>*"));
}

#[test]
fn every_term_on_a_page_falls_in_its_civil_year() {
    let months = Months::listed();
    for year in 0..1_000 {
        let page = answered("page", year);
        let told: Vec<&str> = page
            .split("<span class=\"where\">")
            .skip(1)
            .map(|rest| rest.split("</span>").next().unwrap())
            .collect();
        assert_eq!(told.len(), 24);
        for (told, term) in told.into_iter().zip(0..=terms::LAST) {
            let day = calendar::day_of(calendar::term(year, term).unwrap());
            let expected = match months.day(day as u64) {
                Ok(reply) => where_in(&reply, year.into()),
                Err(_) => "after the last month".to_string(),
            };
            assert_eq!(told, expected, "year {year}, term {term}");
        }
    }
}

/// Returns where a term of a solstice year falls, as a page must say it.
fn where_in(reply: &MonthPlace, year: i128) -> String {
    let month = numbered(reply.month.number, reply.month.leap);
    let within = format!(
        "{month} of {}, day {}",
        civil_year(reply),
        reply.day_of_month
    );
    if reply.year == year {
        within
    } else {
        format!("solstice year {}, {within}", reply.year)
    }
}

#[test]
fn every_year_is_said_to_be_civil_or_solstice_or_western() {
    let known = |text: &str| {
        let text = text.to_lowercase().replace('\n', " ");
        for (at, _) in text.match_indices("year ") {
            let before = text[..at].trim_end().rsplit([' ', '>']).next().unwrap();
            let known = ["solstice", "civil", "western", "viewer"].contains(&before);
            assert!(known, "{before} year");
        }
    };
    for year in [0, 2, 6, 17, 28, 301, 999] {
        known(&answered("year", year));
        known(answered("page", year).split("</style>").nth(1).unwrap());
    }
    known(&answered("day", 811));
    known(command::HELP);
}

#[test]
fn a_civil_year_asked_as_a_solstice_year_is_refused() {
    for question in ["year", "page"] {
        assert_eq!(
            command::reply(&[question, "1282"]).unwrap_err(),
            "Solstice year 1282 is refused: it lies outside the calendar's solstice years, 0 to 999 (refusal 1)."
        );
    }
    for words in [
        ["year", "壬午"],
        ["year", "1282/83"],
        ["day", "-811"],
        ["page", " 2"],
    ] {
        let sentence = command::reply(&words).unwrap_err();
        assert!(sentence.ends_with("(refusal 5)."), "{sentence}");
    }
}
