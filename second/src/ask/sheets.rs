//! The set of torn sheets: whole ones, torn ones, wrong ones, and lines that are refused.

use super::{and_far, change, Random};
use crate::calendar::*;
use crate::desk::LONGEST_LINE;
use crate::sheet::{line, marks_of, whole, Mark, Told};
use std::io::{Result, Write};

/// The years whose sheets are changed mark by mark: the first with 13 months, the first with 12, and the last.
const CHANGED_YEARS: [usize; 3] = [0, 1, LAST_YEAR as usize];

/// A mark of each kind, all of them true of year 0.
const GOOD: [&str; 5] = [
    "name 0 35",
    "stem 1 4",
    "branch 12 5",
    "length 0 29",
    "leap 10",
];

/// Numbers that are none for the desk, or are the last that is one.
const STRANGE: [&str; 10] = [
    "",
    "x",
    "-1",
    "+1",
    "1.0",
    "0x1",
    "00000000000000000001",
    "000000000000000000001",
    "18446744073709551615",
    "18446744073709551616",
];

/// Returns nothing, having written sheets of every kind, then so many torn at random.
pub fn write(count: u64, out: &mut impl Write) -> Result<()> {
    let months = Months::listed();
    let lists = months.lists();
    let whole_sheets = lists.iter().map(|list| whole(list));
    let sheets = whole_sheets
        .chain(single_marks())
        .chain(thirteenth_names(lists))
        .chain(CHANGED_YEARS.iter().flat_map(|year| changed(&lists[*year])))
        .chain(with_bad_marks(&whole(&lists[0])));
    for marks in sheets {
        writeln!(out, "{}", line(&marks))?;
    }
    for text in malformed().into_iter().chain(long_lines()) {
        writeln!(out, "{text}")?;
    }
    let mut random = Random::start();
    for _ in 0..count {
        out.write_all(&random_line(lists, &mut random))?;
        out.write_all(b"\n")?;
    }
    Ok(())
}

// Sheets that are answered.

/// Returns the sheet without marks and the sheets of each single mark that is admitted.
fn single_marks() -> Vec<Vec<Mark>> {
    let mut sheets = vec![Vec::new()];
    for place in 0..LONGEST_LIST as u64 {
        let told = (0..NAMES as u64).map(Told::Name);
        let told = told.chain((0..STEMS as u64).map(Told::Stem));
        let told = told.chain((0..BRANCHES as u64).map(Told::Branch));
        let told = told.chain(LENGTHS.map(|length| Told::Length(length as u64)));
        sheets.extend(
            told.chain([Told::Leap])
                .map(|told| vec![Mark { place, told }]),
        );
    }
    sheets
}

/// Returns the marks of the month at place 12, or of the month that follows where the list ends before.
fn thirteenth(lists: &[Vec<Record>], year: usize) -> Vec<Mark> {
    let place = LONGEST_LIST - 1;
    let month = lists[year..].iter().flatten().nth(place);
    month.map_or(Vec::new(), |month| marks_of(place, month))
}

/// Returns the names of the thirteen months from every third head on, the last of which a year with twelve has not.
fn thirteenth_names(lists: &[Vec<Record>]) -> Vec<Vec<Mark>> {
    let name = |mark: &Mark| matches!(mark.told, Told::Name(_));
    let sheet = |year: usize| {
        let mut marks = whole(&lists[year][..NUMBERS.len()]);
        marks.extend(thirteenth(lists, year));
        marks.retain(name);
        marks
    };
    (0..lists.len()).step_by(3).map(sheet).collect()
}

/// Returns a mark that says another thing of its place, by so many values on; a leap mark goes to another place.
fn wrong(mark: Mark, values_on: u64) -> Mark {
    let on = |value: u64, end: Number| (value + 1 + values_on % (end as u64 - 1)) % end as u64;
    let both_lengths = LENGTHS.iter().sum::<Number>() as u64;
    let mut wrong = mark;
    match mark.told {
        Told::Name(name) => wrong.told = Told::Name(on(name, NAMES)),
        Told::Stem(stem) => wrong.told = Told::Stem(on(stem, STEMS)),
        Told::Branch(branch) => wrong.told = Told::Branch(on(branch, BRANCHES)),
        Told::Length(length) => wrong.told = Told::Length(both_lengths - length),
        Told::Leap => wrong.place = on(mark.place, LONGEST_LIST as Number),
    }
    wrong
}

/// Returns a mark that contradicts another, in another word where there is one.
fn against(mark: Mark, values_on: u64) -> Mark {
    let (stems, branches) = (STEMS as u64, BRANCHES as u64);
    let told = match mark.told {
        Told::Name(name) if values_on % 2 == 0 => Told::Stem((name + 1) % stems),
        Told::Name(name) => Told::Branch((name + 1) % branches),
        // the stem and the branch of a name are both even or both odd
        Told::Stem(stem) => Told::Branch((stem + 1) % branches),
        Told::Branch(branch) => Told::Stem((branch + 1) % stems),
        Told::Length(_) | Told::Leap => return wrong(mark, values_on),
    };
    Mark { told, ..mark }
}

/// Returns a year's whole sheet with each mark wrong, twice, or contradicted, and each such pair by itself.
fn changed(list: &[Record]) -> Vec<Vec<Mark>> {
    let marks = whole(list);
    let mut sheets = Vec::new();
    for (at, mark) in marks.iter().enumerate() {
        let besides = [*mark, wrong(*mark, 0), against(*mark, 0), against(*mark, 1)];
        for beside in besides {
            let mut sheet = marks.clone();
            sheet[at] = beside;
            sheets.push(sheet.clone());
            sheet.push(*mark);
            sheets.push(sheet);
            sheets.push(vec![*mark, beside]);
        }
    }
    sheets
}

// Sheets that are refused.

/// Returns marks that no month can bear: places and values past their ends, and such as would be good in fewer bits.
fn bad_marks() -> Vec<Mark> {
    let wrapped = |good: u64| [8, 16, 32, 63].map(|bits| good + (1 << bits));
    let good = [
        Told::Name(35),
        Told::Stem(5),
        Told::Branch(11),
        Told::Length(29),
        Told::Leap,
    ];
    let mut marks = Vec::new();
    for told in good {
        let places = and_far(&[13, 14]).into_iter().chain(wrapped(0));
        marks.extend(places.map(|place| Mark { place, told }));
    }
    for place in [0, 12] {
        let values = |ends: &[u64], good: u64| and_far(ends).into_iter().chain(wrapped(good));
        let told = values(&[60, 61, 95], 35).map(Told::Name);
        let told = told.chain(values(&[10, 11, 15], 5).map(Told::Stem));
        let told = told.chain(values(&[12, 13, 23], 11).map(Told::Branch));
        let told = told.chain(values(&[0, 1, 28, 31], 29).map(Told::Length));
        marks.extend(told.map(|told| Mark { place, told }));
    }
    marks
}

/// Returns sheets with a bad mark: by itself, first, in the middle and last among good marks, and beside marks that
/// contradict each other.
fn with_bad_marks(good: &[Mark]) -> Vec<Vec<Mark>> {
    let contradiction = [good[0], wrong(good[0], 0)];
    let mut sheets = Vec::new();
    for bad in bad_marks() {
        sheets.push(vec![bad]);
        for at in [0, good.len() / 2, good.len()] {
            sheets.push([&good[..at], &[bad], &good[at..]].concat());
        }
        sheets.push([&[bad], &contradiction[..]].concat());
        sheets.push([&contradiction[..], &[bad]].concat());
    }
    sheets
}

// Lines that are no question.

/// Returns a mark's text damaged in every way.
fn damaged_mark(good: &str) -> Vec<String> {
    let parts: Vec<&str> = good.split(' ').collect();
    let (word, numbers) = (parts[0], parts[1..].join(" "));
    let mut texts = vec![
        format!("{} {numbers}", word.to_uppercase()),
        format!("{}{} {numbers}", word[..1].to_uppercase(), &word[1..]),
        format!("{} {numbers}", &word[1..]),
        format!("{} {numbers}", &word[..word.len() - 1]),
        format!("{word}s {numbers}"),
        format!("day {numbers}"),
        format!("sheet {numbers}"),
        format!("{good} "),
        format!(" {good}"),
        format!("{good}\t"),
        format!("{good}\r"),
        format!("{good}\0"),
        format!("{good},"),
    ];
    for between in ["  ", "\t", ",", ":", ""] {
        texts.push(parts.join(between));
        texts.push(parts.join(" ").replacen(' ', between, 1));
    }
    for at in 0..parts.len() {
        let (before, after) = (&parts[..at], &parts[at + 1..]);
        texts.push([before, after].concat().join(" "));
        texts.push([before, &parts[at..=at], &parts[at..]].concat().join(" "));
        texts.push([after, before, &parts[at..=at]].concat().join(" "));
        for strange in STRANGE.iter().filter(|_| at > 0) {
            texts.push([before, &[*strange], after].concat().join(" "));
        }
    }
    texts
}

/// Returns lines with a damaged mark: by itself, before and after good marks, and before and after a mark that would
/// be refused with 2 in a good line.
fn malformed() -> Vec<String> {
    let mut lines: Vec<String> = [
        "sheet ",
        "sheet  ",
        "sheet\t",
        "sheets",
        "Sheet",
        "sheet sheet",
    ]
    .map(String::from)
    .to_vec();
    for good in GOOD {
        lines.push(format!("sheet  {good}"));
        for text in damaged_mark(good) {
            lines.push(format!("sheet {text}"));
            for beside in [good, "leap 13", "name 12 60"] {
                lines.push(format!("sheet {text} {beside}"));
                lines.push(format!("sheet {beside} {text}"));
            }
        }
    }
    lines
}

/// Returns a line of so many bytes: a beginning, and a name's mark as often as it fits, the last number led by noughts.
fn filled(beginning: &str, name: &str, length: usize) -> String {
    let mark = format!(" name 0 {name}");
    let room = length - beginning.len();
    let times = room / mark.len();
    let digits = name.len() + room % mark.len();
    let last = format!(" name 0 {name:0>digits$}");
    [beginning, &mark.repeat(times - 1), &last].concat()
}

/// Returns lines as long as a line may be and about so long, and those with the most marks.
fn long_lines() -> Vec<String> {
    let near = LONGEST_LINE - 3..=LONGEST_LINE + 3;
    let lengths = [254, 255, 256, 257, 511, 512, 513, 2047, 4096, 70_000];
    let mut lines = Vec::new();
    for length in near.chain(lengths) {
        lines.push(filled("sheet", "35", length));
        lines.push(filled("sheet stem 0 6", "35", length));
        lines.push(filled("sheet leap 13", "35", length));
        lines.push(filled("sheet leap", "35", length));
        lines.push(filled("sheet", "60", length));
        lines.push(filled("sheet", "35", length - 1) + " ");
        lines.push(filled("sheet", "35", length - " leap 13".len()) + " leap 13");
    }
    for mark in GOOD.iter().chain(&["leap 9"]) {
        let most = (LONGEST_LINE - "sheet".len()) / (mark.len() + 1);
        for times in [most - 1, most] {
            let marks = format!(" {mark}").repeat(times);
            lines.push(format!("sheet{marks}"));
            // the first or the last of so many decides
            for deciding in ["leap 8", "leap 13"] {
                lines.push(format!("sheet {deciding}{marks}"));
                lines.push(format!("sheet{marks} {deciding}"));
            }
        }
    }
    lines
}

// Sheets torn at random.

/// Returns a random place in a row of so many.
fn at(length: usize, random: &mut Random) -> usize {
    random.below(length as u64) as usize
}

/// Returns nothing, having put marks into a random order.
fn shuffle(marks: &mut [Mark], random: &mut Random) {
    for last in (1..marks.len()).rev() {
        marks.swap(last, at(last + 1, random));
    }
}

/// Returns the line of a sheet torn at random, one in eight with a bad mark, one in eight changed as a line.
fn random_line(lists: &[Vec<Record>], random: &mut Random) -> Vec<u8> {
    let mut marks = torn(lists, random);
    let refused = random.below(8);
    if refused == 0 {
        let bad = bad_marks();
        let bad = bad[at(bad.len(), random)];
        marks.insert(at(marks.len() + 1, random), bad);
    }
    let mut line = line(&marks).into_bytes();
    if refused == 1 {
        for _ in 0..=random.below(2) {
            change(&mut line, random);
        }
    }
    line
}

/// Returns the marks of a random year, all or a handful, with marks of the thirteenth month, wrong ones, several wrong
/// ones, or such as stand beside others of their place, in some sheets.
fn torn(lists: &[Vec<Record>], random: &mut Random) -> Vec<Mark> {
    let year = at(lists.len(), random);
    let mut marks = whole(&lists[year]);
    if random.below(4) == 0 {
        marks.extend(thirteenth(lists, year));
    }
    if random.below(4) > 0 {
        shuffle(&mut marks, random);
        marks.truncate(at(10, random));
    }
    if marks.is_empty() {
        return marks;
    }
    let wrongs = [0, 0, 0, 0, 1, 1, 2, 4][at(8, random)];
    for _ in 0..wrongs {
        let place = at(marks.len(), random);
        marks[place] = wrong(marks[place], random.below(60));
    }
    if random.below(6) == 0 {
        let mark = marks[at(marks.len(), random)];
        let values_on = random.below(60);
        let beside = [mark, wrong(mark, values_on), against(mark, values_on)];
        marks.insert(
            at(marks.len() + 1, random),
            beside[at(beside.len(), random)],
        );
    }
    if random.below(2) == 0 {
        shuffle(&mut marks, random);
    }
    marks
}
