//! The desk: one question a line, words and decimal numbers with exactly one blank between them, and
//! one reply a line.

use crate::calendar::*;
use crate::sheet::{self, Mark, Told};

pub const LONGEST_LINE: usize = 1023;
pub const MOST_DIGITS: usize = 20;

/// The reply where there is nothing to tell.
const NONE: &str = "none";

/// The questions, as `help` lists them.
pub const QUESTIONS: [&str; 26] = [
    "constants",
    "solstice N",
    "term N I",
    "pentad N I P",
    "earth N I",
    "terms N",
    "mean L Q",
    "true L Q",
    "solar L Q",
    "lunar L Q",
    "correction L Q",
    "motion L Q",
    "solar-at fast|slow T",
    "lunar-at quick|tardy T",
    "motion-at quick|tardy K",
    "name D",
    "hour R",
    "extra R",
    "vanishing R",
    "head N",
    "day D",
    "back N P M",
    "year N",
    "years N C",
    "sheet [name P N|stem P S|branch P B|length P D|leap P]..",
    "help",
];

/// The constants of the paper's table under their names.
const CONSTANTS: [(&str, Number); 15] = [
    ("day", DAY),
    ("fen", FEN),
    ("miao", MIAO),
    ("year", YEAR),
    ("half-year", HALF_YEAR),
    ("month", MONTH),
    ("quarter", QUARTER_STEP),
    ("term", TERM_STEP),
    ("pentad", PENTAD_STEP),
    ("earth", EARTH_STEP),
    ("anomalistic-month", ANOMALISTIC_MONTH),
    ("anomalistic-half", ANOMALISTIC_HALF),
    ("solstice-epoch", SOLSTICE_AT_EPOCH),
    ("leap-epoch", LEAP_REMAINDER_AT_EPOCH),
    ("anomaly-epoch", ANOMALY_AT_EPOCH),
];

/// Returns the reply to a question line, without a line end.
pub fn reply(months: &Months, line: &[u8]) -> String {
    match answer(months, line) {
        Ok(text) => text,
        Err(refusal) => format!("refused {refusal}"),
    }
}

/// Returns the answer to a question line, or a refusal.
fn answer(months: &Months, line: &[u8]) -> Result<String, u32> {
    match parts(line)?.as_slice() {
        [b"constants"] => Ok(constants()),
        [b"help"] => Ok(format!("questions: {}", QUESTIONS.join(", "))),
        [b"solstice", n] => solstice(number(n)?).map(moment),
        [b"term", n, i] => term(number(n)?, number(i)?).map(moment),
        [b"pentad", n, i, p] => pentad(number(n)?, number(i)?, number(p)?).map(moment),
        [b"earth", n, i] => earth(number(n)?, number(i)?).map(moment),
        [b"terms", n] => year_terms(number(n)?),
        [b"mean", l, q] => mean(number(l)?, number(q)?).map(moment),
        [b"true", l, q] => true_moon(number(l)?, number(q)?).map(moment),
        [b"solar", l, q] => solar(number(l)?, number(q)?).map(plain),
        [b"lunar", l, q] => lunar(number(l)?, number(q)?).map(plain),
        [b"correction", l, q] => correction(number(l)?, number(q)?).map(plain),
        [b"motion", l, q] => motion(number(l)?, number(q)?).map(plain),
        [b"solar-at", half, t] => solar_at(solar_half(half)?, number(t)?).map(plain),
        [b"lunar-at", half, t] => lunar_at(lunar_half(half)?, number(t)?).map(plain),
        [b"motion-at", half, k] => motion_at(lunar_half(half)?, number(k)?).map(plain),
        [b"name", d] => Ok(names(number(d)?.into())),
        [b"hour", r] => hour(number(r)?).map(|(hour, ke)| format!("{hour} {ke}")),
        [b"extra", r] => extra(number(r)?).map(days_on),
        [b"vanishing", r] => vanishing(number(r)?).map(days_on),
        [b"head", n] => months.head(number(n)?).map(plain),
        [b"day", d] => months.day(number(d)?).map(month_place),
        [b"back", n, p, m] => months.back(number(n)?, number(p)?, number(m)?).map(plain),
        [b"year", n] => year_list(months, number(n)?),
        [b"years", n, c] => run_of_years(months, number(n)?, number(c)?),
        [b"sheet", parts @ ..] => sheet::years(months, &marks(parts)?).map(years_left),
        _ => Err(REFUSED_LINE),
    }
}

// The parts of a question.

/// Returns the parts of a line that one blank separates, or refusal 5 for an overlong line.
fn parts(line: &[u8]) -> Result<Vec<&[u8]>, u32> {
    if line.len() > LONGEST_LINE {
        return Err(REFUSED_LINE);
    }
    Ok(line.split(|byte| *byte == b' ').collect())
}

/// Returns the number of one to twenty decimal digits below 2⁶⁴, or refusal 5.
fn number(part: &[u8]) -> Result<u64, u32> {
    if part.is_empty() || part.len() > MOST_DIGITS || !part.iter().all(u8::is_ascii_digit) {
        return Err(REFUSED_LINE);
    }
    let value = part
        .iter()
        .fold(0u128, |value, digit| value * 10 + u128::from(digit - b'0'));
    u64::try_from(value).map_err(|_| REFUSED_LINE)
}

/// Returns the half of the year by its word, or refusal 5.
fn solar_half(word: &[u8]) -> Result<SolarHalf, u32> {
    match word {
        b"fast" => Ok(SolarHalf::Fast),
        b"slow" => Ok(SolarHalf::Slow),
        _ => Err(REFUSED_LINE),
    }
}

/// Returns the half of the anomalistic month by its word, or refusal 5.
fn lunar_half(word: &[u8]) -> Result<LunarHalf, u32> {
    match word {
        b"quick" => Ok(LunarHalf::Quick),
        b"tardy" => Ok(LunarHalf::Tardy),
        _ => Err(REFUSED_LINE),
    }
}

/// Returns the marks of a sheet, one after the other, or refusal 5.
fn marks(mut parts: &[&[u8]]) -> Result<Vec<Mark>, u32> {
    let mut marks = Vec::new();
    while !parts.is_empty() {
        let (place, told, rest) = match parts {
            [b"name", p, n, rest @ ..] => (p, Told::Name(number(n)?), rest),
            [b"stem", p, s, rest @ ..] => (p, Told::Stem(number(s)?), rest),
            [b"branch", p, b, rest @ ..] => (p, Told::Branch(number(b)?), rest),
            [b"length", p, d, rest @ ..] => (p, Told::Length(number(d)?), rest),
            [b"leap", p, rest @ ..] => (p, Told::Leap, rest),
            _ => return Err(REFUSED_LINE),
        };
        let place = number(place)?;
        marks.push(Mark { place, told });
        parts = rest;
    }
    Ok(marks)
}

// The texts of the replies.

/// Returns a number's text, with `-` before a negative one.
fn plain(number: Number) -> String {
    number.to_string()
}

/// Returns texts with a single blank between them.
fn with_blanks(items: impl Iterator<Item = String>) -> String {
    let mut text = String::new();
    for item in items {
        if !text.is_empty() {
            text.push(' ');
        }
        text.push_str(&item);
    }
    text
}

/// Returns a moment's text: the running time, its day, its remainder and the day's name.
fn moment(time: Number) -> String {
    let day = day_of(time);
    format!("{} {} {} {}", time, day, remainder_of(time), name(day))
}

/// Returns the text of a day count's name, stem and branch.
fn names(count: Number) -> String {
    format!("{} {} {}", name(count), stem(count), branch(count))
}

/// Returns the text of days to add, or of none.
fn days_on(days: Option<Number>) -> String {
    days.map_or(NONE.to_string(), plain)
}

/// Returns the text of the years that a sheet leaves, or of none.
fn years_left(years: Vec<Number>) -> String {
    if years.is_empty() {
        return NONE.to_string();
    }
    with_blanks(years.into_iter().map(plain))
}

/// Returns the text of all constants.
fn constants() -> String {
    with_blanks(
        CONSTANTS
            .iter()
            .map(|(name, value)| format!("{name}={value}")),
    )
}

/// Returns the text of a year's terms, or a refusal.
fn year_terms(year: u64) -> Result<String, u32> {
    let mut row = [0; TERMS as usize];
    let written = terms(year, &mut row)?;
    Ok(with_blanks(row[..written].iter().copied().map(plain)))
}

/// Returns the text of a month with its place.
fn month_place(reply: MonthPlace) -> String {
    format!(
        "{} {} {} {} {} {} {}",
        reply.year,
        reply.place,
        reply.day_of_month,
        reply.month.first_day,
        reply.month.length,
        reply.month.number,
        u8::from(reply.month.leap)
    )
}

/// Returns a record's text.
fn record(month: &Record) -> String {
    format!(
        "{}:{}:{}:{}",
        month.first_day,
        month.length,
        month.number,
        u8::from(month.leap)
    )
}

/// Returns the text of a year's list, or a refusal.
fn year_list(months: &Months, year: u64) -> Result<String, u32> {
    let mut row = [Record::default(); LONGEST_LIST];
    let written = months.year(year, &mut row)?;
    Ok(with_blanks(row[..written].iter().map(record)))
}

/// Returns the text of the lists of a run of years, or a refusal.
fn run_of_years(months: &Months, year: u64, count: u64) -> Result<String, u32> {
    let room = LONGEST_LIST * count.min(LAST_YEAR as u64 + 1) as usize;
    let mut row = vec![Record::default(); room];
    let written = months.years(year, count, &mut row)?;
    Ok(with_blanks(row[..written].iter().map(record)))
}
