//! Torn sheets: handfuls of marks of every solstice and of every civil year, right and wrong, against the second program's
//! lists; what is read, what is refused, and how the years are told.

mod pages;

use lengadriu_viewer::find::question::MonthAsked;
use lengadriu_viewer::sheet::marks::read;
use lengadriu_viewer::sheet::telling::{self, Apart, Telling};
use lengadriu_viewer::sheet::{self, lists, By, Candidate, Mark, Reading, Sheet, Spot};
use lengadriu_viewer::text::width;
use lengadriu_viewer::{command, names};
use pages::balanced;
use second::calendar::{Months, Record, LONGEST_LIST};
use std::collections::{BTreeMap, BTreeSet};
use std::process::Command;

/// The months of every solstice year and of every civil year, by the second program.
struct Years {
    solstice: BTreeMap<u64, Vec<Record>>,
    civil: BTreeMap<u64, Vec<Record>>,
}

impl Years {
    fn listed() -> Years {
        let months = Months::listed();
        let list = |year: u64| {
            let mut row = [Record::default(); LONGEST_LIST];
            let written = months.year(year, &mut row).unwrap();
            (year, row[..written].to_vec())
        };
        let solstice: BTreeMap<u64, Vec<Record>> = (0..1_000).map(list).collect();
        let part = |year: Option<u64>, late: bool| {
            let list = year.and_then(|year| solstice.get(&year)).cloned();
            let list = list.unwrap_or_default().into_iter();
            list.filter(move |month| (month.number > 10) == late)
        };
        let civil = (1280..=2280)
            .map(|year: u64| {
                let to_ten = part(year.checked_sub(1281), false);
                (year, to_ten.chain(part(Some(year - 1280), true)).collect())
            })
            .collect();
        Years { solstice, civil }
    }

    fn by(&self, by: By) -> &BTreeMap<u64, Vec<Record>> {
        match by {
            By::Place => &self.solstice,
            By::Month => &self.civil,
        }
    }

    /// Returns the years that agree with marks, one by one.
    fn agreeing(&self, sheet: &Sheet) -> Vec<u64> {
        let agrees = |months: &[Record]| sheet.marks.iter().all(|mark| agrees(mark, months));
        let years = self.by(sheet.by).iter();
        years
            .filter(|(_, months)| agrees(months))
            .map(|(year, _)| *year)
            .collect()
    }

    /// Returns the years that disagree with one mark only and have its month, with that mark.
    fn misread(&self, sheet: &Sheet) -> BTreeSet<(u64, usize)> {
        let mut found = BTreeSet::new();
        for (year, months) in self.by(sheet.by) {
            let wrong = (0..sheet.marks.len()).filter(|at| !agrees(&sheet.marks[*at], months));
            if let [at] = wrong.collect::<Vec<usize>>()[..] {
                let mark = &sheet.marks[at];
                let alone = matches!((mark.spot, mark.reading), (Spot::Month(_), Reading::Leap));
                if alone || month_at(mark.spot, months).is_some() {
                    found.insert((*year, at));
                }
            }
        }
        found
    }
}

/// Returns the month at a spot.
fn month_at(spot: Spot, months: &[Record]) -> Option<&Record> {
    match spot {
        Spot::Place(place) => months.get(place as usize),
        Spot::Month(MonthAsked { number, leap }) => months
            .iter()
            .find(|month| month.number == i128::from(number) && month.leap == leap),
    }
}

/// Returns whether a year's months agree with a mark.
fn agrees(mark: &Mark, months: &[Record]) -> bool {
    let month = match month_at(mark.spot, months) {
        Some(month) => month,
        None => return false,
    };
    match mark.reading {
        Reading::Name(name) => month.first_day % 60 == i128::from(name),
        Reading::Stem(stem) => month.first_day % 10 == i128::from(stem),
        Reading::Branch(branch) => month.first_day % 12 == i128::from(branch),
        Reading::Length(length) => month.length == i128::from(length),
        Reading::Leap => month.leap,
    }
}

/// A row of numbers without visible order, the same at every run.
struct Random(u64);

impl Random {
    fn below(&mut self, bound: usize) -> usize {
        self.0 = self.0.wrapping_add(0x9E37_79B9_7F4A_7C15);
        let mut mixed = self.0;
        mixed = (mixed ^ (mixed >> 30)).wrapping_mul(0xBF58_476D_1CE4_E5B9);
        mixed = (mixed ^ (mixed >> 27)).wrapping_mul(0x94D0_49BB_1331_11EB);
        ((mixed ^ (mixed >> 31)) % bound as u64) as usize
    }

    /// Returns a mark of a year as a word; in one of `spoilt` cases it is another's.
    fn mark(&mut self, by: By, months: &[Record], spoilt: usize) -> String {
        let at = self.below(months.len());
        let month = &months[at];
        let spot = match (by, month.leap) {
            (By::Place, _) => at.to_string(),
            (By::Month, true) => {
                ["leap", "l", "閏"][self.below(3)].to_string() + &month.number.to_string()
            }
            (By::Month, false) => month.number.to_string(),
        };
        if month.leap && self.below(3) == 0 {
            return if by == By::Place { spot + "=閏" } else { spot };
        }
        let wrong = self.below(spoilt) == 0;
        let count = month.first_day as u64 + if wrong { 1 + self.below(59) as u64 } else { 0 };
        let name = names::sixty(count);
        let what = match self.below(6) {
            0 => name.romanised,
            1 => names::stem(count).romanised + "?",
            2 => format!("□{}", names::branch(count).chinese),
            3 => if wrong {
                59 - month.length
            } else {
                month.length
            }
            .to_string(),
            _ => name.chinese,
        };
        format!("{spot}={what}")
    }

    /// Returns a sheet with some marks of a year.
    fn sheet(&mut self, by: By, months: &[Record], spoilt: usize) -> Sheet {
        let count = 1 + self.below(4);
        let mut words: Vec<String> = (0..count).map(|_| self.mark(by, months, spoilt)).collect();
        if by == By::Month {
            words.insert(0, "--civil".to_string());
        }
        of(&words)
    }
}

/// Returns the sheet that words give.
fn of<T: AsRef<str>>(words: &[T]) -> Sheet {
    let words: Vec<&str> = words.iter().map(AsRef::as_ref).collect();
    let asked = read(&words).unwrap_or_else(|refused| panic!("{words:?}: {refused}"));
    asked.sheet
}

/// Returns the sheet that a line of words gives.
fn line(words: &str) -> Sheet {
    of(&[words])
}

/// Returns the reply to a line of words.
fn reply(words: &str) -> String {
    sheet::reply(&[words]).unwrap_or_else(|refused| panic!("{words}: {refused}"))
}

/// Returns the number of a refusal, having held its sentence to a part.
fn refused(words: &str, part: &str) -> u32 {
    let refused = sheet::reply(&[words]).expect_err(words);
    let sentence = refused.to_string();
    assert!(sentence.contains(part), "{sentence}");
    assert!(sentence.ends_with(&format!(" (refusal {}).", refused.number)));
    assert_eq!(sentence.matches(". ").count(), 0, "{sentence}");
    let page = command::reply(&["page", "sheet", words]);
    assert_eq!(page, Err(sentence));
    refused.number
}

/// Holds the years that agree with handfuls of every year's marks to the lists.
fn handfuls(by: By, rounds: usize, spoilt: usize) {
    let years = Years::listed();
    let mut random = Random(spoilt as u64);
    for (year, months) in years.by(by) {
        for _ in 0..rounds {
            let sheet = random.sheet(by, months, spoilt);
            let agreeing = lists::agreeing(by, &sheet.marks).unwrap();
            assert_eq!(
                agreeing,
                years.agreeing(&sheet),
                "{year}: {:?}",
                sheet.marks
            );
            assert!(spoilt < 1_000 || agreeing.contains(year), "{year}");
        }
    }
}

/// So rarely that no mark of a test is spoilt.
const NEVER: usize = usize::MAX;

#[test]
fn handfuls_of_every_solstice_year() {
    handfuls(By::Place, 3, NEVER);
}

#[test]
fn handfuls_of_every_solstice_year_with_wrong_marks() {
    handfuls(By::Place, 3, 4);
}

#[test]
fn handfuls_of_every_civil_year() {
    handfuls(By::Month, 1, NEVER);
}

#[test]
fn handfuls_of_every_civil_year_with_wrong_marks() {
    handfuls(By::Month, 1, 4);
}

#[test]
fn every_month_of_a_civil_year_by_itself() {
    let years = Years::listed();
    for number in 1..=12 {
        for word in [
            format!("leap{number}"),
            format!("{number}=大"),
            format!("閏{number}月=小"),
            format!("{number}=癸巳"),
        ] {
            let sheet = of(&["--civil", &word]);
            let agreeing = lists::agreeing(By::Month, &sheet.marks).unwrap();
            assert_eq!(agreeing, years.agreeing(&sheet), "{word}");
        }
    }
}

#[test]
fn two_leap_months_agree_with_no_year() {
    let two = line("--civil leap5 leap8");
    assert!(lists::agreeing(By::Month, &two.marks).unwrap().is_empty());
    let candidates = sheet::candidates(&two).unwrap();
    let five = line("--civil leap5");
    let agreeing = lists::agreeing(By::Month, &five.marks).unwrap();
    assert!(agreeing.iter().all(|year| candidates.contains(&Candidate {
        year: *year,
        misread: Some(1)
    })));
}

#[test]
fn one_mark_misread() {
    let years = Years::listed();
    let mut random = Random(1281);
    let mut spoilt = 0;
    for by in [By::Place, By::Month] {
        for (_, months) in years.by(by).iter().step_by(9) {
            let sheet = random.sheet(by, months, 2);
            let candidates = sheet::candidates(&sheet).unwrap();
            let agreeing = years.agreeing(&sheet);
            if !agreeing.is_empty() {
                let same = agreeing.into_iter().map(|year| Candidate {
                    year,
                    misread: None,
                });
                assert!(candidates.into_iter().eq(same), "{:?}", sheet.marks);
                continue;
            }
            spoilt += 1;
            let pairs: Vec<(u64, usize)> = candidates
                .iter()
                .map(|each| (each.year, each.misread.expect("it does not agree")))
                .collect();
            let all: BTreeSet<(u64, usize)> = pairs.iter().copied().collect();
            assert_eq!(all.len(), pairs.len());
            assert_eq!(all, years.misread(&sheet), "{:?}", sheet.marks);
        }
    }
    assert!(spoilt > 50, "{spoilt}");
}

#[test]
fn the_name_that_tells_years_apart_best() {
    let years = Years::listed();
    let few = [
        "3=30 4=30 5=30",
        "--civil leap8",
        "--civil 11=jihai",
        "10=leap",
    ]
    .map(String::from);
    let named = (0..60).flat_map(|name| {
        let name = names::sixty(name).chinese;
        ["0", "9", "--civil 3", "--civil 12"].map(|spot| format!("{spot}={name}"))
    });
    for words in few.into_iter().chain(named) {
        let words = words.as_str();
        let sheet = line(words);
        let agreeing = years.agreeing(&sheet);
        let best = match telling::apart(&sheet, &agreeing) {
            Apart::Name(best) => best,
            other => panic!("{words}: {other:?}"),
        };
        let left = |spot: Spot| {
            let name = |year: &u64| {
                let month = month_at(spot, &years.by(sheet.by)[year]);
                month.map(|month| month.first_day % 60)
            };
            let same = |year: &u64| {
                agreeing
                    .iter()
                    .filter(|other| name(other) == name(year))
                    .count()
            };
            let left: Vec<usize> = agreeing.iter().map(same).collect();
            let all = agreeing
                .iter()
                .all(|year| name(year).is_some() || [1280, 2280].contains(year));
            (
                all,
                left.iter().sum::<usize>(),
                left.iter().copied().max().unwrap(),
            )
        };
        assert_eq!(left(best.spot), (true, best.sum, best.most), "{words}");
        let spots: Vec<Spot> = match sheet.by {
            By::Place => (0..13).map(Spot::Place).collect(),
            By::Month => (1..13)
                .flat_map(|number| {
                    [false, true].map(|leap| Spot::Month(MonthAsked { number, leap }))
                })
                .collect(),
        };
        for spot in spots {
            let (all, sum, most) = left(spot);
            assert!(
                !all || (best.sum, best.most) <= (sum, most),
                "{words}: {spot:?}"
            );
        }
    }
    let average = |years, sum| {
        let spot = Spot::Place(0);
        Telling {
            spot,
            years,
            most: 1,
            sum,
        }
        .average()
    };
    assert_eq!(average(3, 5), "1.7");
    assert_eq!(average(4, 5), "1.3");
    assert_eq!(average(20, 20), "1.0");
    assert_eq!(average(10, 109), "10.9");
}

/// Returns a line of marks with all first days' names of a year.
fn names_of(by: By, months: &[Record]) -> String {
    let name = |month: &Record| names::of_day(month.first_day as u64).chinese;
    let marks: Vec<String> = match by {
        By::Place => (0..)
            .zip(months)
            .map(|(place, month): (u32, _)| format!("{place}={}", name(month)))
            .collect(),
        By::Month => months
            .iter()
            .filter(|month| !month.leap)
            .map(|month| format!("{}={}", month.number, name(month)))
            .collect(),
    };
    let flag = if by == By::Month { "--civil " } else { "" };
    format!("{flag}{}", marks.join(" "))
}

#[test]
fn years_that_no_name_tells_apart() {
    let years = Years::listed();
    let apart = |by, year| {
        let sheet = line(&names_of(by, &years.by(by)[&year]));
        let agreeing = years.agreeing(&sheet);
        (telling::apart(&sheet, &agreeing), agreeing)
    };
    assert_eq!(apart(By::Place, 67), (Apart::Nothing, vec![67, 191]));
    assert_eq!(apart(By::Place, 123), (Apart::LeapMonth, vec![123, 247]));
    assert_eq!(apart(By::Month, 1348), (Apart::Nothing, vec![1348, 1472]));
    assert_eq!(apart(By::Month, 1392), (Apart::LeapMonth, vec![1392, 1516]));
    let twin = reply(&names_of(By::Place, &years.solstice[&67]));
    assert!(
        twin.ends_with("\nNo mark tells them apart: names, lengths and leap month are the same.\n"),
        "{twin}"
    );
    // whatever is said to tell nothing apart is the same throughout, and nothing else is
    let mut said = [0; 3];
    for by in [By::Place, By::Month] {
        for (year, months) in years.by(by) {
            let (apart, agreeing) = apart(by, *year);
            let same = |what: fn(&Record) -> (i128, i128, bool)| {
                let of = |year: &u64| years.by(by)[year].iter().map(what).collect::<Vec<_>>();
                agreeing.iter().all(|other| of(other) == of(year))
            };
            let leap = same(|month| (month.number, 0, month.leap));
            let lengths = same(|month| (month.number, month.length, month.leap));
            match apart {
                Apart::Name(telling) => assert!(
                    month_at(telling.spot, months).map_or(true, |month| month.leap),
                    "{year}"
                ),
                Apart::Nothing => assert!(leap && lengths, "{year}"),
                Apart::Length(_) => assert!(leap && !lengths, "{year}"),
                Apart::LeapMonth => assert!(!leap, "{year}"),
            }
            said[0] += usize::from(apart == Apart::Nothing && agreeing.len() > 1);
            said[1] += usize::from(apart == Apart::LeapMonth);
            said[2] += usize::from(matches!(apart, Apart::Length(_)));
        }
    }
    assert!(said.iter().all(|count| *count > 0), "{said:?}");
}

/// Returns the readings of one mark, by place and by month.
fn readings(what: &str) -> [Reading; 2] {
    ["0", "--civil 3"].map(|spot| {
        let sheet = line(&format!("{spot}={what}"));
        assert_eq!(sheet.marks.len(), 1, "{what}");
        sheet.marks[0].reading
    })
}

#[test]
fn every_name_and_every_half_of_one() {
    for count in 0..60 {
        let name = names::sixty(count);
        for what in [name.chinese, name.romanised.to_uppercase(), name.romanised] {
            assert_eq!(readings(&what), [Reading::Name(count); 2], "{what}");
        }
        for lost in ["?", "？", "□"] {
            let (stem, branch) = (names::stem(count), names::branch(count));
            for what in [stem.chinese, stem.romanised] {
                let half = Reading::Stem(count % 10);
                assert_eq!(readings(&format!("{what}{lost}")), [half; 2], "{what}");
            }
            for what in [branch.chinese, branch.romanised] {
                let half = Reading::Branch(count % 12);
                assert_eq!(readings(&format!("{lost}{what}")), [half; 2], "{what}");
            }
        }
    }
    assert_eq!(readings("wu?"), [Reading::Stem(4); 2]);
    assert_eq!(readings("?wu"), [Reading::Branch(6); 2]);
    assert_eq!(readings("wuwu"), [Reading::Name(54); 2]);
    assert_eq!(readings("jisi"), [Reading::Name(5); 2]);
}

#[test]
fn lengths_and_leap_months() {
    for (what, length) in [
        ("29", 29),
        ("xiao", 29),
        ("小", 29),
        ("30", 30),
        ("DA", 30),
        ("大", 30),
        ("３０", 30),
    ] {
        assert_eq!(readings(what), [Reading::Length(length); 2], "{what}");
    }
    for what in ["leap", "run", "閏", "闰", "Leap"] {
        let sheet = line(&format!("10={what}"));
        assert_eq!(
            (sheet.marks[0].spot, sheet.marks[0].reading),
            (Spot::Place(10), Reading::Leap)
        );
    }
    assert_eq!(
        line("０＝３０"),
        Sheet {
            by: By::Place,
            marks: vec![Mark {
                spot: Spot::Place(0),
                reading: Reading::Length(30),
                word: "０＝３０".into()
            }]
        }
    );
}

#[test]
fn months_by_their_names() {
    let month = |number, leap| Spot::Month(MonthAsked { number, leap });
    for (word, number, leap) in [
        ("3", 3, false),
        ("03", 3, false),
        ("三月", 3, false),
        ("三", 3, false),
        ("3月", 3, false),
        ("正月", 1, false),
        ("冬月", 11, false),
        ("臘月", 12, false),
        ("腊月", 12, false),
        ("十二月", 12, false),
        ("leap8", 8, true),
        ("LEAP8", 8, true),
        ("l8", 8, true),
        ("L8", 8, true),
        ("閏8", 8, true),
        ("閏八", 8, true),
        ("閏八月", 8, true),
        ("闰８月", 8, true),
        ("閏正月", 1, true),
        ("閏臘月", 12, true),
    ] {
        let sheet = of(&["--civil", &format!("{word}=jihai")]);
        assert_eq!(sheet.marks[0].spot, month(number, leap), "{word}");
        if leap {
            let alone = of(&[word, "--civil"]);
            assert_eq!(
                (alone.marks[0].spot, alone.marks[0].reading),
                (month(number, true), Reading::Leap)
            );
            assert_eq!(
                of(&["--civil", &format!("{word}=leap")]).marks[0].reading,
                Reading::Leap
            );
        }
    }
}

#[test]
fn a_mark_twice_counts_once() {
    assert_eq!(line("0=jihai 00=己亥 0=ji? 0=jihai").marks.len(), 2);
    assert_eq!(
        line("--civil leap8 閏八月 l8=leap 閏八月=小").marks.len(),
        2
    );
}

#[test]
fn words_that_are_no_mark_are_refused_with_5() {
    let none = "is no sixty-name, no half of one with ? for the other, no length and not ‘leap’";
    for what in [
        "guisix", "?", "??", "甲??", "?甲", "辰?", "gu?si", "1=2", "-1", "己已", "ji'si", "leap8",
        "+30", "30.0", "三十",
    ] {
        let told = format!("‘0={what}’ is refused: ‘{what}’ {none} (refusal 5).");
        assert_eq!(refused(&format!("0={what}"), &told), 5);
        assert_eq!(refused(&format!("3=30 --civil 3={what}"), none), 5);
    }
    assert_eq!(
        refused(
            "0=wu",
            "‘wu’ is a stem and a branch: ‘wu?’ is 戊, ‘?wu’ is 午"
        ),
        5
    );
    assert_eq!(
        refused("0=jia", "‘jia’ is a stem alone, which is written ‘jia?’"),
        5
    );
    assert_eq!(
        refused("0=辰", "‘辰’ is a branch alone, which is written ‘?辰’"),
        5
    );
    for what in ["jiachou", "甲丑", "WUCHOU"] {
        assert_eq!(
            refused(&format!("0={what}"), "is none of the sixty names"),
            5
        );
    }
    let place = "is no place of a list, which is a number from 0 to 12";
    for word in ["x=jihai", "-1=jihai", "1.0=jihai", "leap=30"] {
        assert_eq!(refused(word, place), 5);
    }
    for word in ["jihai", "0", "0=", "=jihai", "=", "leap"] {
        assert_eq!(refused(word, "a mark is PLACE=WHAT, as ‘0=jihai’ is"), 5);
    }
    for word in ["三月=己亥", "leap8", "閏八月", "l8=30"] {
        assert_eq!(
            refused(
                word,
                "is a month and no place; ‘--civil’ takes marks by months"
            ),
            5
        );
    }
}

#[test]
fn words_that_are_no_mark_by_month_are_refused_with_5() {
    for word in ["foo=jihai", "leap=30", "閏=小", "3.0=30", "leapp8=30"] {
        assert_eq!(
            refused(&format!("--civil {word}"), "is no month, as ‘3’"),
            5
        );
    }
    let form = "a mark is MONTH=WHAT, as ‘3=jihai’ is, or a leap month alone";
    for word in ["8", "三月", "jihai", "leap", "8=", "=jihai"] {
        assert_eq!(refused(&format!("--civil {word}"), form), 5);
    }
    assert_eq!(
        refused(
            "--civil leap 8=29",
            "‘leap’ is refused: a mark is MONTH=WHAT"
        ),
        5
    );
    assert_eq!(
        refused("--civil 8=leap", "month 8 and leap month 8 are two"),
        5
    );
    assert_eq!(refused("--civil", "No mark of a sheet was given"), 5);
    assert_eq!(refused("", "No mark of a sheet was given"), 5);
    assert_eq!(
        refused("--cvil 3=30", "‘--cvil’ is no flag of ‘viewer sheet’"),
        5
    );
}

#[test]
fn what_the_calendar_refuses_is_refused_with_its_number() {
    let told = "is refused: a place is 0 to 12 and a length 29 or 30 days (refusal 2).";
    for word in [
        "13=jihai",
        "18446744073709551615=30",
        "99999999999999999999=leap",
        "0=28",
        "0=31",
        "0=0",
        "0=99999999999999999999",
    ] {
        assert_eq!(
            refused(&format!("0=jihai {word} 3=30"), &format!("‘{word}’ {told}")),
            2
        );
    }
    for word in ["3=31", "leap8=28", "12=0"] {
        let told = format!("‘{word}’ is refused: a length is 29 or 30 days (refusal 2).");
        assert_eq!(refused(&format!("--civil 3=jihai {word}"), &told), 2);
    }
    for word in [
        "0=jihai",
        "13=30",
        "leap13",
        "閏十三月=小",
        "99999999999999999999=30",
    ] {
        let told = format!(
            "‘{word}’ is refused: the months of a civil year are numbered 1 to 12 (refusal 2)."
        );
        assert_eq!(refused(&format!("--civil {word}"), &told), 2);
    }
}

#[test]
fn more_marks_than_a_line_holds() {
    let words: Vec<String> = (0..12)
        .flat_map(|place| {
            (0..12).map(move |name| format!("{place}={}", names::sixty(name).romanised))
        })
        .collect();
    assert_eq!(
        refused(
            &words.join(" "),
            "The sheet is refused: its marks are more than the calendar takes, a line of 1,023 bytes (refusal 5)."
        ),
        5
    );
}

#[test]
fn one_year_as_text() {
    assert_eq!(
        reply("0=jihai 3=30 10=leap"),
        "1 solstice year agrees with the sheet: first day 己亥 jihai at place 0, 30 days (大 da) at place 3,\n\
         \x20 leap at place 10.\n\
         \n\
         Place      0      1      2      3      4      5      6      7      8      9     10     11     12\n\
         Solstice year 0 (1280/81), 庚辰 gengchen and 辛巳 xinsi: 13 months, leap 8 at place 10\n\
         \x20         35     64     94    123    153    182    211    241    270    300    329    359    389\n\
         \x20     己亥小 戊辰大 戊戌小 丁卯大 丁酉小 丙寅小 乙未大 乙丑小 甲午大 甲子小 癸巳大 癸亥大 癸巳大\n"
    );
    assert_eq!(
        reply("--civil 三月=丁酉 閏八月=大"),
        "1 civil year agrees with the sheet: first day 丁酉 dingyou in month 3, 30 days (大 da) in leap month\n\
         \x20 8.\n\
         \n\
         Month      1      2      3      4      5      6      7      8      9     10     11     12   leap\n\
         Civil year 1281, 辛巳 xinsi, 至元十八年 Zhiyuan 18*: 13 months, leap 8\n\
         \x20         94    123    153    182    211    241    270    300    359    389    419    448    329\n\
         \x20     戊戌小 丁卯大 丁酉小 丙寅小 乙未大 乙丑小 甲午大 甲子小 癸亥大 癸巳大 癸亥小 壬辰大 癸巳大\n\
         \n\
         * Eras are a courtesy and no part of the calendar's reply.\n"
    );
}

#[test]
fn a_civil_year_that_is_cut_is_told() {
    let first = reply("--civil 11=jihai 12=wuchen");
    assert!(first.contains("\nNote: the calendar has only months 11 and 12 of civil year 1280.\n"));
    assert!(first.contains("Zhiyuan 17*: 2 months\n"));
    let months = &Years::listed().civil[&2280];
    let names: Vec<String> = (months.iter())
        .map(|month| {
            format!(
                "{}={}",
                month.number,
                names::of_day(month.first_day as u64).chinese
            )
        })
        .collect();
    assert_eq!(names.len(), 10);
    let last = reply(&format!("--civil {}", names.join(" ")));
    assert!(last.starts_with("1 civil year agrees"), "{last}");
    assert!(last.contains("\nNote: the calendar has only months 1 to 10 of civil year 2280.\n"));
    let past = reply(&format!("--civil {} 11=30", names.join(" ")));
    assert!(past.starts_with("No civil year agrees"), "{past}");
    assert!(!past.contains("2280"), "{past}");
}

#[test]
fn where_none_agrees_the_misread_mark_is_told() {
    assert_eq!(
        reply("--civil 三月=己亥 閏八月=小 12=xinyou"),
        "No civil year agrees with the sheet: first days 己亥 jihai in month 3, 辛酉 xinyou in month 12, 29\n\
         \x20 days (小 xiao) in leap month 8.\n\
         If one mark is misread, 1 year agrees with the others.\n\
         \n\
         Mark       Would have to read  Civil year\n\
         三月=己亥  丙寅 bingyin        1710, 庚寅 gengyin\n"
    );
    for (words, mark, would, year) in [
        (
            "0=jihai 1=?wu 10=leap",
            "1=?wu",
            "?辰 ?chen (戊辰 wuchen)",
            "0 (1280/81), 庚辰 gengchen and 辛巳 xinsi",
        ),
        (
            "0=jihai 1=甲□ 10=leap",
            "1=甲□",
            "戊? wu? (戊辰 wuchen)",
            "0 (1280/81), ",
        ),
        (
            "0=da 0=jihai 1=wuchen 9=甲子",
            "0=da",
            "29 days (小 xiao)",
            "0 (1280/81), ",
        ),
        (
            "0=jihai 1=wuchen 11=leap 4=dingyou",
            "11=leap",
            "month 9, not leap",
            "0 (1280/81), ",
        ),
        (
            "--civil 1=wuxu 2=dingmao leap7",
            "leap7",
            "leap month 8",
            "1281, 辛巳 xinsi, 至元十八年 Zhiyuan 18*",
        ),
        (
            "--civil 1=壬戌 2=辛卯 閏七月",
            "閏七月",
            "no leap month",
            "1282, 壬午 renwu, 至元十九年 Zhiyuan 19*",
        ),
    ] {
        let text = reply(words);
        let is = |line: &str| {
            let rest = line.strip_prefix(mark)?.trim_start().strip_prefix(would)?;
            Some(rest.trim_start().starts_with(year))
        };
        assert!(text.lines().any(|line| is(line) == Some(true)), "{text}");
    }
    let none = reply("0=guisi 1=jiazi 2=guihai");
    assert!(
        none.ends_with("\nNor does any if one of the marks is misread.\n"),
        "{none}"
    );
    let one = reply("0=leap");
    assert!(
        one.contains("\nIf the mark is misread, the sheet may be of any of 1000 years.\n"),
        "{one}"
    );
}

#[test]
fn no_reply_is_more_than_a_screen() {
    let mut sheets = Vec::new();
    for place in 0..13 {
        for what in ["jiazi", "jia?", "?wu", "29", "30", "leap"] {
            sheets.push(format!("{place}={what}"));
            if what != "leap" && place > 0 {
                sheets.push(format!("--civil {place}={what}").replace("=0", "=12"));
            }
            sheets.push(format!("{place}={what} 2=30 5=29"));
            sheets.push(format!("{place}={what} {place}=guihai"));
        }
    }
    sheets.retain(|words| !words.contains("--civil 13"));
    for words in sheets {
        let text = reply(&words);
        assert!(text.lines().count() <= 24, "{words}: {text}");
        for line in text.lines() {
            assert!(width(line) <= 100, "{words}: {line}");
        }
        let all = reply(&format!("{words} --all"));
        let count = |text: &str| {
            text.lines()
                .filter(|line| line.contains("year ") || line.contains('='))
                .count()
        };
        assert!(count(&all) >= count(&text), "{words}");
        assert!(!all.contains("‘--all’"), "{words}");
    }
}

#[test]
fn all_years_are_listed_where_all_are_asked_for() {
    let years = Years::listed();
    for words in ["0=guisi", "3=29", "--civil leap8", "--civil 3=29"] {
        let sheet = line(words);
        let all = reply(&format!("{words} --all"));
        let kind = if sheet.by == By::Place {
            "Solstice year "
        } else {
            "Civil year "
        };
        let listed: Vec<u64> = (all.lines())
            .filter_map(|line| line.strip_prefix(kind))
            .map(|rest| rest.split([' ', ',']).next().unwrap().parse().unwrap())
            .collect();
        assert_eq!(listed, years.agreeing(&sheet), "{words}");
    }
    let some = reply("0=guisi");
    assert!(
        some.contains("\nAnd 12 more, which ‘--all’ lists: 316 (1596/97), 342 (1622/23), "),
        "{some}"
    );
    let many = reply("--civil 3=29");
    assert!(many.contains(" and 458 others.\n"), "{many}");
}

#[test]
fn the_command() {
    let viewer = |words: &[&str]| {
        let output = Command::new(env!("CARGO_BIN_EXE_viewer"))
            .args(words)
            .output()
            .unwrap();
        let text = |bytes: Vec<u8>| String::from_utf8(bytes).unwrap();
        (
            output.status.code(),
            text(output.stdout),
            text(output.stderr),
        )
    };
    let found = viewer(&["sheet", "0=jihai", "3=30", "10=leap"]);
    assert_eq!(
        found,
        (Some(0), reply("0=jihai 3=30 10=leap"), String::new())
    );
    // that none agrees is an answer
    let none = viewer(&["sheet", "0=guisi", "1=jiazi", "2=guihai"]);
    assert_eq!((none.0, none.2), (Some(0), String::new()));
    let refused = viewer(&["sheet", "0=jihai", "0=wu"]);
    assert_eq!((refused.0, refused.1), (Some(2), String::new()));
    assert!(refused.2.starts_with("viewer: ‘0=wu’ is refused: "));
    let no_mark = viewer(&["page", "sheet"]);
    assert_eq!((no_mark.0, no_mark.1), (Some(2), String::new()));
    assert!(no_mark
        .2
        .starts_with("viewer: No mark of a sheet was given; "));
    for words in [
        &["help", "sheet"][..],
        &["sheet", "--help"],
        &["sheet", "-h"],
    ] {
        assert_eq!(
            viewer(words),
            (Some(0), sheet::HELP.to_string(), String::new())
        );
    }
}

#[test]
fn pages_have_the_marks_above_the_lists() {
    for (words, marked, lists, agree, misread) in [
        ("0=jihai 3=30 10=leap", 3, 1, 3, 0),
        ("0=jihai 0=29 10=leap 10=gui?", 2, 1, 2, 0),
        ("0=guisi", 1, 12, 12, 0),
        ("0=guisi --all", 1, 17, 17, 0),
        ("--civil 三月=丁酉 閏八月=大", 2, 1, 2, 0),
        ("--civil leap8", 1, 12, 12, 0),
        ("--civil 三月=己亥 閏八月=小 12=xinyou", 3, 1, 2, 1),
        (
            "--civil 1=wuxu 2=dingmao 3=dingyou 9=癸亥 12=壬辰 leap7",
            6,
            1,
            5,
            1,
        ),
        ("0=jihai 3=30 11=leap 1=wuchen 4=丁酉 9=甲子", 6, 1, 5, 1),
        ("0=guisi 1=jiazi 2=guihai", 3, 0, 0, 0),
    ] {
        let page = command::reply(&["page", "sheet", words]).unwrap();
        let count = |part: &str| page.matches(part).count();
        assert!(page.starts_with("<!DOCTYPE html>\n<html lang=\"en\">"));
        assert_eq!(count("<tr><th scope=\"row\">"), lists, "{words}");
        assert_eq!(count("<td class=\"agrees\">"), agree, "{words}");
        assert_eq!(count("<td class=\"misread\">"), misread, "{words}");
        assert_eq!(count("<td"), 13 * (lists + 1), "{words}");
        let row = page.split("<tr class=\"sheet\">").nth(1).unwrap();
        let row = row.split("</tr>").next().unwrap();
        assert_eq!(row.matches("<td></td>").count(), 13 - marked, "{words}");
        for part in [
            "http", "<script", "<link", "<img", "url(", "@import", "src=",
        ] {
            assert!(!page.contains(part), "{words}: {part}");
        }
        balanced(&page);
    }
    let two = command::reply(&["page", "sheet", "0=jihai 0=29"]).unwrap();
    assert!(two.contains(
        "<td><b class=\"at\">place 0</b><span class=\"zh\" lang=\"zh-Hant\">己亥</span> \
         <em lang=\"zh-Latn-pinyin\">jihai</em><span class=\"small\"><span class=\"zh\" lang=\"zh-Hant\">小</span> 29</span></td>"
    ));
    let some = command::reply(&["page", "sheet", "0=guisi"]).unwrap();
    assert!(some.contains("17 solstice years agree with the sheet"));
    assert!(some.contains("<p>And 5 more; ‘--all’ lists them.</p>"));
    assert!(some.contains("<p>Best told apart by the first day's name at place 10: it leaves 8 years at most, 6.4 on average.</p>"));
}
