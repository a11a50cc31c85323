//! From what a sheet or a catalogue gives to the running day: every civil date by the second program's replies, every
//! Western date, dated events of the histories, every spelling, and what is refused.

use lengadriu_viewer::civil::CivilYear;
use lengadriu_viewer::find::{self, question, Answer, Found, Refused};
use lengadriu_viewer::western::{date_of, day_of, Date};
use lengadriu_viewer::{command, month_of, months_of, names, Month, Refusal};
use second::calendar::{MonthPlace, Months, Record, LONGEST_LIST};
use std::collections::HashSet;
use std::process::{Command, Output};

const FIRST: u64 = 35;
const LAST: u64 = 365_268;

/// Returns what the command does with the words of a question.
fn viewer(words: &[&str]) -> Output {
    Command::new(env!("CARGO_BIN_EXE_viewer"))
        .args(words)
        .output()
        .expect("the command starts")
}

/// Returns what is found for a question.
fn found(text: &str) -> Result<Found, Refused> {
    let question = question::read(text).map_err(|why| Refused { number: 5, why })?;
    find::find(&question)
}

/// Returns the one day that is found for a question, and the notes.
fn day_and_notes(text: &str) -> (u64, Vec<String>) {
    let found = found(text).unwrap_or_else(|refused| panic!("{text}: {refused}"));
    match found.answers[..] {
        [Answer::Day(day)] => (day, found.notes),
        _ => panic!("{text}: {:?}", found.answers),
    }
}

/// Returns the one day that is found for a question.
fn day(text: &str) -> u64 {
    day_and_notes(text).0
}

/// Returns the one day that is found for a question without any note.
fn plain_day(text: &str) -> u64 {
    let (day, notes) = day_and_notes(text);
    assert!(notes.is_empty(), "{text}: {notes:?}");
    day
}

/// Returns the days of a sixty-name that are found for a question.
fn named_days(text: &str) -> Vec<u64> {
    let found = found(text).unwrap_or_else(|refused| panic!("{text}: {refused}"));
    match &found.answers[..] {
        [Answer::Named { days, .. }] => days.clone(),
        other => panic!("{text}: {other:?}"),
    }
}

/// Returns the number of a question's refusal, having held its sentence to a part.
fn refused(text: &str, part: &str) -> u32 {
    let refused = find::reply(text).expect_err(text);
    let sentence = refused.to_string();
    assert!(sentence.contains(part), "{sentence}");
    assert!(sentence.starts_with(&format!("‘{text}’ is refused: ")));
    assert!(sentence.ends_with(&format!(" (refusal {}).", refused.number)));
    refused.number
}

/// Returns the civil year of a reply of the second program, by the rule and not by the viewer.
fn civil_year(reply: &MonthPlace) -> u64 {
    let before = u64::from(reply.month.number > 10);
    1281 + reply.year as u64 - before
}

#[test]
fn day_811_from_all_sides() {
    // Wen Tianxiang was put to death in Dadu on this day
    let block = command::reply(&["day", "811"]).unwrap();
    for words in [
        &["9", "January", "1283"][..],
        &["9 Jan 1283"],
        &["1283-01-09"],
        &["1282", "12", "9"],
        &["1282", "renwu", "12", "9"],
        &["Zhiyuan", "19", "12", "9"],
        &["至元十九年十二月初九"],
        &["至元十九年臘月初九乙未"],
        &["1282", "12", "yiwei"],
    ] {
        let output = viewer(&[&["find"], words].concat());
        assert_eq!(output.status.code(), Some(0), "{words:?}");
        assert!(output.stderr.is_empty(), "{words:?}");
        assert_eq!(
            String::from_utf8(output.stdout).unwrap(),
            block,
            "{words:?}"
        );
    }
    assert!(named_days("1282 yiwei").contains(&811));
}

#[test]
fn every_day_from_its_civil_date() {
    let months = Months::listed();
    for day in FIRST..=LAST {
        let reply = months.day(day).unwrap();
        let year = civil_year(&reply);
        let leap = if reply.month.leap { "leap " } else { "" };
        let month = reply.month.number;
        let text = format!("{year} {leap}{month} {}", reply.day_of_month);
        let (found, notes) = day_and_notes(&text);
        assert_eq!(found, day, "{text}");
        let number = months_of_second(&months, year)
            .iter()
            .filter(|other| other.0 == month)
            .count();
        let both = number == 2 && !reply.month.leap;
        assert_eq!(notes.len(), usize::from(both), "{text}: {notes:?}");
    }
}

/// Returns number and leap of the months of a civil year, by the second program.
fn months_of_second(months: &Months, year: u64) -> Vec<(i128, bool)> {
    let list = |list: Option<u64>| {
        let mut row = [Record::default(); LONGEST_LIST];
        let written = list.and_then(|list| months.year(list, &mut row).ok());
        let records = row.into_iter().take(written.unwrap_or(0));
        records.map(|record| (record.number, record.leap))
    };
    let to_ten = list(year.checked_sub(1281)).filter(|month| month.0 <= 10);
    let from_eleven = list(year.checked_sub(1280)).filter(|month| month.0 > 10);
    to_ten.chain(from_eleven).collect()
}

#[test]
fn every_day_of_the_eras_as_a_sheet_has_it() {
    let months = Months::listed();
    let mut last = 0;
    for day in FIRST..=LAST {
        let reply = month_of(day).unwrap();
        let year = CivilYear::of_day(&reply);
        let era = match year.era(reply.month.number) {
            Some(era) => era.name().chinese,
            None => break,
        };
        let second = months.day(day).unwrap();
        let number = names::numeral(second.day_of_month as u64);
        let first_ten = if second.day_of_month <= 10 { "初" } else { "" };
        let month = names::of_month(&reply.month).chinese;
        let own = &year.name().chinese;
        let text = format!(
            "{era}歲次{own}{month}{first_ten}{number}日{}",
            names::of_day(day).chinese
        );
        assert_eq!(self::day(&text), day, "{text}");
        last = day;
    }
    assert_eq!(last + 1, day("1645 1 1"));
}

#[test]
fn every_western_date() {
    for day in 0..=365_300 {
        assert_eq!(day_of(&date_of(day)), Some(day));
    }
    for day in FIRST..=LAST {
        let date = date_of(day);
        let iso = format!("{}-{:02}-{:02}", date.year, date.month, date.day);
        assert_eq!(plain_day(&iso), day);
        assert_eq!(plain_day(&date.to_string()), day);
        assert_eq!(
            plain_day(&format!("{} {}", date.short(), date.calendar())),
            day
        );
    }
}

#[test]
fn both_calendars_run_on_through_the_whole_time() {
    // day 0 is 20 October 1280 in the Julian calendar and 27 October in the Gregorian
    for (gregorian, day) in [(false, 20), (true, 27)] {
        let mut date = Date {
            year: 1280,
            month: 10,
            day,
            gregorian,
        };
        for day in 0..=365_300 {
            assert!(date.exists(), "{date}");
            assert_eq!(day_of(&date), Some(day), "{date}");
            date = after(&date);
        }
    }
}

/// Returns the date after another in the same calendar.
fn after(date: &Date) -> Date {
    let with = |year, month, day| Date {
        year,
        month,
        day,
        ..*date
    };
    let candidates = [
        with(date.year, date.month, date.day + 1),
        with(date.year, date.month + 1, 1),
        with(date.year + 1, 1, 1),
    ];
    let next = candidates.into_iter().find(Date::exists);
    next.expect("one of them exists")
}

#[test]
fn a_named_calendar_is_told_in_the_usual_one() {
    let told = |text: &str| {
        let (day, notes) = day_and_notes(text);
        (day, notes.join(" "))
    };
    // the October revolution, and the reform from both sides
    assert_eq!(
        told("25 October 1917 julian"),
        (
            plain_day("7 November 1917"),
            "25 October 1917 in the Julian calendar is 7 November 1917 in the Gregorian".into()
        )
    );
    assert_eq!(
        told("14 October 1582 gregorian"),
        (
            plain_day("4 October 1582"),
            "14 October 1582 in the Gregorian calendar is 4 October 1582 in the Julian".into()
        )
    );
    assert_eq!(
        told("5 October 1582 Julian").0,
        plain_day("15 October 1582")
    );
    assert_eq!(
        told("29 February 1700 julian").0,
        plain_day("11 March 1700")
    );
    assert_eq!(plain_day("1283-01-09 julian"), 811);
    assert_eq!(told("1283-01-16 gregorian").0, 811);
}

#[test]
fn days_that_the_histories_date_in_both_ways() {
    // the lunar date with the day's name, and the Western date; most are accessions and deaths of emperors
    let events = [
        // Wen Tianxiang's death
        ("至元十九年十二月初九乙未", "9 January 1283"),
        // Kublai's death, and the accession of Chengzong
        ("至元三十一年正月廿二癸酉", "18 February 1294"),
        ("至元三十一年四月十四甲午", "10 May 1294"),
        // deaths of Chengzong, Wuzong, Renzong, Taiding, Mingzong and Wenzong
        ("大德十一年正月初八癸酉", "10 February 1307"),
        ("至大四年正月初八庚辰", "27 January 1311"),
        ("延祐七年正月廿一辛丑", "1 March 1320"),
        ("致和元年七月初十庚午", "15 August 1328"),
        ("天曆二年八月初六庚寅", "30 August 1329"),
        ("至順三年八月十二己酉", "2 September 1332"),
        // Yingzong's murder at Nanpo
        ("至治三年八月癸亥", "4 September 1323"),
        // accession of the last Yuan emperor
        ("至順四年六月初八己巳", "19 July 1333"),
        // accession of Hongwu, and the fall of Dadu
        ("洪武元年正月初四乙亥", "23 January 1368"),
        ("洪武元年八月初二庚午", "14 September 1368"),
        // Hongwu's death, in a leap month
        ("洪武三十一年閏五月初十乙酉", "24 June 1398"),
        // accession of Yongle
        ("建文四年六月十七己巳", "17 July 1402"),
        // deaths of Yongle, Hongxi and Xuande
        ("永樂二十二年七月十八辛卯", "12 August 1424"),
        ("洪熙元年五月十二辛巳", "29 May 1425"),
        ("宣德十年正月初三乙亥", "31 January 1435"),
        // the defeat at Tumu
        ("正統十四年八月十五壬戌", "1 September 1449"),
        // Zhengtong on the throne again
        ("天順元年正月十七壬午", "11 February 1457"),
        // deaths of Tianshun, Chenghua, Hongzhi and Zhengde
        ("天順八年正月十七庚午", "23 February 1464"),
        ("成化二十三年八月廿二己丑", "9 September 1487"),
        ("弘治十八年五月初七辛卯", "8 June 1505"),
        ("正德十六年三月十四丙寅", "20 April 1521"),
        // the palace women's plot, and the Shaanxi earthquake
        ("嘉靖二十一年十月廿一丁酉", "27 November 1542"),
        ("嘉靖三十四年十二月十二壬寅", "23 January 1556"),
        // deaths of Jiajing and Longqing
        ("嘉靖四十五年十二月十四庚子", "23 January 1567"),
        ("隆慶六年五月廿六庚戌", "5 July 1572"),
        // Matteo Ricci's death, in a leap month
        ("萬曆三十八年閏三月十九", "11 May 1610"),
        // deaths of Wanli, Taichang and Chongzhen
        ("萬曆四十八年七月廿一丙申", "18 August 1620"),
        ("泰昌元年九月初一乙亥", "26 September 1620"),
        ("崇禎十七年三月十九丁未", "25 April 1644"),
    ];
    for (lunar, western) in events {
        assert_eq!(day(lunar), plain_day(western), "{lunar}");
    }
}

#[test]
fn a_death_that_the_datong_almanac_dates_otherwise() {
    // Tianqi died on 30 September 1627, yimao, day 22 of month 8 in the histories; the Shoushi month began a day later
    assert_eq!(names::of_day(day("30 September 1627")).chinese, "乙卯");
    assert_eq!(day("天啟七年八月乙卯"), day("天啟七年八月廿一"));
    assert_eq!(
        refused("天啟七年八月廿二乙卯", "is 丙辰 bingchen, not 乙卯 yimao"),
        5
    );
}

#[test]
fn spellings_of_one_day() {
    for text in [
        "1281 leap 8 12",
        "  1281  leap\t8 12\n",
        "1281 LEAP 08 012",
        "１２８１　閏８月１２日",
        "1281年閏八月十二",
        "1281年闰8月12日",
        "1281 xinsi leap 8 12",
        "1281 辛巳 leap 8 12",
        "1281 辛巳年閏八月十二日",
        "Zhiyuan 18 leap 8 12",
        "zhiyuan 18 Xinsi leap 8 12 jiachen",
        "earlier Zhiyuan 18 leap 8 12",
        "至元十八年閏八月十二",
        "至元十八年閏八月十二日",
        "至元 十八 閏八 十二",
        "至元18年閏8月12日",
        "前至元十八年閏八月十二日",
        "至元十八年辛巳閏八月十二日甲辰",
        "至元十八年歲次辛巳閏八月甲辰",
        "至元十八年岁在辛巳闰八月甲辰日",
        "至元十八年閏八月甲辰",
        "1281 leap 8 jiachen",
        "1281 leap 8 JiaChen",
    ] {
        assert_eq!(plain_day(text), 340, "{text}");
    }
}

#[test]
fn days_and_months_by_their_signs() {
    let month = |text: &str| {
        let reply = month_of(day(text)).unwrap();
        (reply.month.number, reply.month.leap, reply.day)
    };
    let numerals = [
        ("初一", 1),
        ("初十", 10),
        ("十", 10),
        ("十一", 11),
        ("二十", 20),
        ("廿", 20),
        ("廿一日", 21),
        ("二十九", 29),
        ("三十", 30),
        ("卅日", 30),
        ("朔", 1),
        ("朔日", 1),
        ("晦", 30),
        ("晦日", 30),
    ];
    for (text, day) in numerals {
        assert_eq!(month(&format!("至元十八年閏八月{text}")), (8, true, day));
    }
    assert_eq!(month("至元十八年八月晦"), (8, false, 29));
    for (text, number) in [
        ("正月", 1),
        ("一月", 1),
        ("二月", 2),
        ("十月", 10),
        ("十一月", 11),
        ("冬月", 11),
        ("十二月", 12),
        ("臘月", 12),
        ("腊月", 12),
    ] {
        assert_eq!(month(&format!("1281年{text}初三")), (number, false, 3));
    }
    assert_eq!(day("至元十八年閏八月癸巳朔"), 329);
    assert_eq!(day("至元十八年閏八月朔癸巳"), 329);
    assert_eq!(refused("至元十八年閏八月甲午朔", "is 癸巳 guisi"), 5);
}

#[test]
fn eras_in_simplified_and_variant_characters() {
    for (text, year) in [
        ("元贞元年", 1295),
        ("皇庆二年", 1313),
        ("延佑元年", 1314),
        ("至顺二年", 1331),
        ("元统二年", 1334),
        ("天历二年", 1329),
        ("天暦二年", 1329),
        ("永乐十年", 1412),
        ("永楽十年", 1412),
        ("宣徳十年", 1435),
        ("正统十年", 1445),
        ("天顺二年", 1458),
        ("隆庆二年", 1568),
        ("万历卌八年", 1620),
        ("萬厯四十八年", 1620),
        ("天启三年", 1623),
        ("天啓三年", 1623),
        ("崇祯十七年", 1644),
    ] {
        let same = format!("{year} 3 15");
        assert_eq!(day(&format!("{text}三月十五")), day(&same), "{text}");
    }
}

#[test]
fn every_day_of_a_civil_year_has_one_of_the_sixty_names() {
    let months = Months::listed();
    let mut next = FIRST;
    for year in 1280..=2280_u64 {
        let mut all = Vec::new();
        for name in 0..60 {
            let text = format!("{year} {}", names::sixty(name).chinese);
            let days = match found(&text) {
                Ok(_) => named_days(&text),
                // of the first civil year the calendar has two months, 59 days
                Err(refused) => {
                    assert_eq!((year, refused.number), (1280, 2), "{text}");
                    continue;
                }
            };
            let whole = !(year == 1280 || year == 2280);
            assert!(!whole || (5..=7).contains(&days.len()), "{text}");
            assert!(days.iter().all(|day| day % 60 == name), "{text}");
            all.extend(days);
        }
        all.sort_unstable();
        let end = next + all.len() as u64;
        assert!(all.iter().copied().eq(next..end), "civil year {year}");
        for day in all {
            assert_eq!(civil_year(&months.day(day).unwrap()), year, "day {day}");
        }
        next = end;
    }
    assert_eq!(next, LAST + 1);
}

#[test]
fn days_of_a_name_as_a_table() {
    let output = viewer(&["find", "1281", "jiachen"]);
    assert_eq!(output.status.code(), Some(0));
    let table = String::from_utf8(output.stdout).unwrap();
    let lines: Vec<&str> = table.lines().collect();
    assert_eq!(
        lines[0],
        "Civil year 1281, 辛巳 xinsi: 7 days are 甲辰 jiachen"
    );
    assert_eq!(
        lines[7],
        "leap 8  閏八月 run-bayue   12          340  25 Sep 1281 Julian  至元十八年 Zhiyuan 18"
    );
    assert_eq!(lines.len(), 3 + 7 + 2);
    assert!(lines[11].starts_with("* Western dates and eras are a courtesy"));
    for words in [
        "1281 甲辰",
        "至元十八年甲辰",
        "至元十八年甲辰日",
        "1281 xinsi jiachen",
    ] {
        assert_eq!(find::reply(words).unwrap(), table, "{words}");
    }
    let reform = find::reply("1582 jiazi").unwrap();
    assert!(reform.contains("25 Sep 1582 Julian") && reform.contains("4 Dec 1582 Gregorian"));
    let own = find::reply("1281 辛巳").unwrap();
    let note =
        "Note: 辛巳 xinsi is the name of civil year 1281 too; here it is taken for a day's.\n\n";
    assert!(own.starts_with(note), "{own}");
    let part = find::reply("2280 jiazi").unwrap();
    assert!(part.starts_with("Note: the calendar has only months 1 to 10 of civil year 2280.\n\n"));
}

#[test]
fn a_month_beside_its_leap_month_is_told() {
    let (found, notes) = day_and_notes("1281 8 12");
    assert_eq!(found, 311);
    assert_eq!(
        notes,
        ["civil year 1281 has a leap month 8 too; ‘leap 8’ asks for it"]
    );
    let reply = find::reply("1281 8 12").unwrap();
    let block = command::reply(&["day", "311"]).unwrap();
    assert_eq!(reply, format!("Note: {}.\n\n{block}", notes[0]));
    let there = "no day of month 8 of civil year 1281 is 甲辰 jiachen; it is day 12 of leap month 8, running day 340";
    assert_eq!(refused("1281 8 jiachen", there), 2);
    assert_eq!(refused("1281 leap 8 jiazi", "it is day 1 of month 8"), 2);
    assert_eq!(
        refused("1281 7 jiazi", "its days are 甲午 jiawu to 癸亥 guihai"),
        2
    );
}

#[test]
fn an_era_that_occurs_twice() {
    let (found, notes) = day_and_notes("至元五年二月初三");
    assert_eq!(found, day("1339 2 3"));
    assert!(notes[0].starts_with(
        "two eras are called 至元 Zhiyuan, and the year may be civil year 1268 or 1339; "
    ));
    assert_eq!(notes.len(), 1);
    for text in [
        "後至元五年二月初三",
        "later Zhiyuan 5 2 3",
        "至元五年己卯二月初三",
    ] {
        assert_eq!(plain_day(text), found, "{text}");
    }
    // the earlier era is meant, and its year lies before the calendar
    for text in [
        "前至元五年二月初三",
        "至元五年戊辰二月初三",
        "至元七年二月初三",
    ] {
        assert_eq!(
            refused(text, "lies outside the calendar's solstice years"),
            1
        );
    }
    let both = "civil year 1268 lies outside";
    assert_eq!(refused("至元五年三月三十", both), 2);
    assert_eq!(
        refused("至元五年三月三十", "month 3 of civil year 1339 has 29 days"),
        2
    );
    assert_eq!(
        refused(
            "至元五年甲子二月初三",
            "civil year 1268 is 戊辰 wuchen, civil year 1339 is 己卯 jimao"
        ),
        5
    );
}

#[test]
fn a_month_outside_its_era_is_taken_and_told() {
    let told = |text: &str, day: &str, part: &str| {
        let (found, notes) = day_and_notes(text);
        assert_eq!(found, self::day(day), "{text}");
        assert!(notes[0].starts_with(part), "{text}: {notes:?}");
    };
    told(
        "天曆元年三月朔",
        "1328 3 1",
        "天曆 Tianli began with month 9 of civil year 1328 ",
    );
    told(
        "泰定五年三月朔",
        "1328 3 1",
        "致和 Zhihe began with month 2 of civil year 1328 ",
    );
    told(
        "Taiding 5 10 1",
        "1328 10 1",
        "天曆 Tianli began with month 9 of civil year 1328 ",
    );
    told(
        "泰昌元年七月朔",
        "1620 7 1",
        "泰昌 Taichang began with month 8 of civil year 1620 ",
    );
    // sheets of these years were printed before the next era began
    told(
        "至正二十八年八月初二",
        "1368 8 2",
        "洪武 Hongwu began with month 1 of civil year 1368 ",
    );
    told(
        "景泰八年正月十七",
        "1457 1 17",
        "天順 Tianshun began with month 1 of civil year 1457 ",
    );
    plain_day("泰定五年正月朔");
    plain_day("天曆元年九月朔");
    plain_day("致和元年八月晦");
}

#[test]
fn an_era_year_that_the_era_has_not() {
    let has = "天啟 Tianqi has years 1 to 7, civil years 1621 to 1627;";
    assert_eq!(refused("天啟二十年正月初一", has), 1);
    assert_eq!(refused("Tianqi 0 1 1", has), 1);
    assert_eq!(refused("Tianqi 18446744073709551616 1 1", has), 1);
    assert_eq!(
        refused(
            "泰昌三年正月初一",
            "泰昌 Taichang has year 1, civil year 1620;"
        ),
        1
    );
    assert_eq!(
        refused(
            "崇禎十八年正月初一",
            "years 1 to 17, civil years 1628 to 1644;"
        ),
        1
    );
    let both = "civil years 1264 to 1294, and 至元 Zhiyuan (the later) has years 1 to 6, civil years 1335 to 1340;";
    assert_eq!(refused("至元四十年正月朔", both), 1);
}

#[test]
fn a_wrong_name_of_the_year_or_the_day() {
    assert_eq!(
        refused("1281 renwu 8 12", "civil year 1281 is 辛巳 xinsi"),
        5
    );
    assert_eq!(
        refused(
            "至元十八年壬午八月十二",
            "its year is not 壬午 renwu: civil year 1281 is 辛巳 xinsi"
        ),
        5
    );
    assert_eq!(
        refused(
            "1281 leap 8 12 yisi",
            "day 12 of leap month 8 of civil year 1281 is 甲辰 jiachen, not 乙巳 yisi"
        ),
        5
    );
}

#[test]
fn months_and_days_outside_their_list() {
    assert_eq!(
        refused(
            "1281 leap 5 1",
            "civil year 1281 has no leap month 5; its leap month is leap 8"
        ),
        2
    );
    assert_eq!(
        refused(
            "1282 leap 5 1",
            "civil year 1282 has no leap month 5; it has no other leap month"
        ),
        2
    );
    assert_eq!(
        refused("1281 8 30", "month 8 of civil year 1281 has 29 days"),
        2
    );
    assert_eq!(
        refused(
            "至元十八年八月卅日",
            "month 8 of civil year 1281 has 29 days"
        ),
        2
    );
    assert_eq!(
        refused(
            "1281 leap 8 31",
            "leap month 8 of civil year 1281 has 30 days"
        ),
        2
    );
    for text in ["1281 8 0", "1281 8 18446744073709551616"] {
        assert_eq!(refused(text, "has 29 days"), 2);
    }
    for text in [
        "1281 0 1",
        "1281 13 1",
        "1281 leap 13 1",
        "1281 4294967304 1",
    ] {
        assert_eq!(refused(text, "numbered 1 to 12"), 2);
    }
}

#[test]
fn every_leap_month_that_there_is_not_is_refused() {
    let months = Months::listed();
    for year in 1281..2280_u64 {
        let has: HashSet<i128> = months_of_second(&months, year)
            .iter()
            .filter(|month| month.1)
            .map(|month| month.0)
            .collect();
        for number in 1..=12 {
            let text = format!("{year} leap {number} 1");
            match found(&text) {
                Ok(_) => assert!(has.contains(&number), "{text}"),
                Err(refused) => assert!(!has.contains(&number) && refused.number == 2, "{text}"),
            }
        }
    }
}

#[test]
fn the_ends_of_the_calendar() {
    assert_eq!(plain_day("1280 11 1"), FIRST);
    assert_eq!(plain_day("至元十七年十一月朔"), FIRST);
    assert_eq!(plain_day("24 November 1280"), FIRST);
    assert_eq!(plain_day("2280 10 30"), LAST);
    assert_eq!(plain_day("22 November 2280"), LAST);
    // as the calendar's own functions refuse them
    assert_eq!(months_of(1_000), Err(Refusal(1)));
    for text in [
        "1280 10 1",
        "1280 leap 3 1",
        "至元十七年正月朔",
        "2280 11 1",
        "2280 leap 12 1",
        "1279 12 1",
        "2281 1 1",
        "0 12 1",
        "3 1 jiazi",
        "18446744073709551615 11 1",
        "18446744073709551616 jiazi",
    ] {
        assert_eq!(
            refused(
                text,
                "month 11 of civil year 1280 to month 10 of civil year 2280"
            ),
            1
        );
    }
    assert_eq!(month_of(34), Err(Refusal(3)));
    assert_eq!(month_of(365_269), Err(Refusal(3)));
    for text in [
        "23 November 1280",
        "23 November 2280",
        "1-1-1",
        "0-1-1",
        "19 March 1279",
        "18446744073709551615-12-31",
        "1 January 99999999999999999999999 julian",
    ] {
        assert_eq!(
            refused(
                text,
                "35 to 365,268, which are 24 November 1280 to 22 November 2280"
            ),
            3
        );
    }
}

#[test]
fn dates_that_never_were() {
    for day in 5..=14 {
        assert_eq!(refused(&format!("{day} October 1582"), "never were"), 5);
        assert_eq!(refused(&format!("1582-10-{day}"), "never were"), 5);
    }
    for text in [
        "30 February 1283",
        "29 February 1283",
        "31 April 1283",
        "0 January 1283",
        "32 January 1283",
        "1283-00-01",
        "1283-13-01",
        "1283-01-00",
        "09-01-1283",
        "0-0-0",
    ] {
        assert_eq!(refused(text, "the Julian calendar has no such date"), 5);
    }
    for text in ["29 February 1700", "29 February 1300 gregorian"] {
        assert_eq!(refused(text, "the Gregorian calendar has no such date"), 5);
    }
}

#[test]
fn what_is_no_question_is_refused_with_5() {
    for text in [
        "",
        "foo",
        "1281",
        "1281 8",
        "1281 leap",
        "1281 leap 8",
        "1281 8 12 13",
        "1281 8 12 foo",
        "1281 8 -12",
        "1281 8 +12",
        "1281 8 1.2",
        "1281/8/12",
        "1281-8",
        "1283-01-09 jul",
        "1283-01-09 julian gregorian",
        "9 Ja 1283",
        "9 Januarys 1283",
        "9 January",
        "January 9 1283",
        "1281 甲丑",
        "1281 jiachou",
        "1281 8 己已",
        "1281 8 8十二",
        "1281 8 十十",
        "1281 8 初十一",
        "1281 8 初",
        "1281 8 〇",
        "1281 正 3",
        "至元",
        "至元年八月初一",
        "至元十八年",
        "至元十八年初五",
        "至元十八年十二日甲辰",
        "至元十八年8日",
        "至元十八年日甲辰",
        "至元十八年辛巳日甲辰",
        "至元八月初三",
        "1281月8日",
        "1281 8年 12",
        "1281 8 12月",
        "1281 8 12 月",
        "至元十八年閏月初五",
        "至元十八八十二",
        "至正正月",
        "後洪武元年正月朔",
        "later Hongwu 1 1 1",
        "康熙元年正月朔",
        "元年正月朔",
        "歲次辛巳八月朔",
        "\u{FFFD}",
    ] {
        assert_eq!(refused(text, "‘viewer help’ says what can be asked"), 5);
    }
    assert_eq!(refused("1281 8 8十二", "from ‘8十二’ on"), 5);
    assert_eq!(refused("1281 8 12 foo", "from ‘foo’ on"), 5);
    for words in [&["find"][..], &["find", ""], &["find", "1281", "8"]] {
        let output = viewer(words);
        assert_eq!(output.status.code(), Some(2), "{words:?}");
        assert!(output.stdout.is_empty(), "{words:?}");
        let sentence = String::from_utf8(output.stderr).unwrap();
        assert_eq!(sentence.lines().count(), 1, "{sentence}");
        assert!(sentence.ends_with(" (refusal 5).\n"), "{sentence}");
    }
}

#[test]
fn names_and_numerals_are_read_as_they_are_written() {
    for count in 0..60 {
        let name = names::sixty(count);
        assert_eq!(names::count_of(&name.chinese), Some(count));
        assert_eq!(names::count_of(&name.romanised), Some(count));
        assert_eq!(names::count_of(&name.romanised.to_uppercase()), Some(count));
    }
    assert_eq!(names::count_of("wuwu"), names::count_of("戊午"));
    for text in ["", "甲", "jia", "甲丑", "甲子甲子", "jia zi"] {
        assert_eq!(names::count_of(text), None, "{text}");
    }
    for number in 1..100 {
        assert_eq!(names::number_of(&names::numeral(number)), Some(number));
    }
    for text in ["", "十十", "廿十", "二廿", "一二", "百", "元"] {
        assert_eq!(names::number_of(text), None, "{text}");
    }
}

#[test]
fn the_months_of_the_civil_years_are_those_of_the_lists() {
    let listed: Vec<Month> = (0..1_000)
        .flat_map(|year| months_of(year).unwrap())
        .collect();
    let civil: Vec<Month> = (1280..=2280)
        .flat_map(|year| find::months_of_civil(CivilYear(year)))
        .collect();
    assert_eq!(listed, civil);
}

#[test]
fn every_row_of_words_gets_a_reply_or_a_sentence() {
    let words = [
        "1281",
        "8",
        "12",
        "0",
        "18446744073709551616",
        "leap",
        "jiachen",
        "xinsi",
        "Zhiyuan",
        "later",
        "January",
        "julian",
        "-",
        "年",
        "月",
        "日",
        "閏",
        "正",
        "臘",
        "初",
        "朔",
        "晦",
        "元",
        "至元",
        "洪武",
        "甲辰",
        "辛巳",
        "歲次",
        "十二",
        "卅",
        "x",
        "é",
        "\u{1b}",
    ];
    let mut answered = 0;
    for start in ["", "1281", "2280年", "至元十八年", "至元五年"] {
        for first in words {
            for second in words {
                for third in words {
                    for between in ["", " "] {
                        let text = [start, first, second, third].join(between);
                        match find::reply(&text) {
                            Ok(reply) => {
                                assert!(reply.ends_with('\n') && reply.contains("ay "), "{text}");
                                answered += 1;
                            }
                            Err(refused) => {
                                assert!([1, 2, 3, 5].contains(&refused.number), "{text}");
                                assert!(refused.to_string().ends_with(")."), "{text}");
                            }
                        }
                    }
                }
            }
        }
    }
    assert!(answered > 100, "{answered}");
}
