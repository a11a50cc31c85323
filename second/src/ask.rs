//! Sets of questions for the desk and of lines for the line program, always the same ones, so that two
//! programs' replies to a set can be compared byte for byte.

mod sheets;

use crate::calendar::*;
use crate::desk::LONGEST_LINE;
use std::io::{Result, Write};

/// The names of the sets.
pub const SETS: [&str; 11] = [
    "years",
    "remainders",
    "names",
    "damaged",
    "lunations",
    "directs",
    "days",
    "back",
    "lists",
    "sheets",
    "hex",
];

/// How many random questions of each kind a set asks when no count is given.
pub const DEFAULT_COUNT: u64 = 100_000;

/// The words that damaged lines may ask with, each with parts that make a good line.
pub const DAMAGED: [(&str, &[&str]); 25] = [
    ("solstice", &["7"]),
    ("term", &["7", "5"]),
    ("pentad", &["7", "5", "2"]),
    ("earth", &["7", "8"]),
    ("terms", &["7"]),
    ("name", &["7"]),
    ("hour", &["7000000"]),
    ("extra", &["80000000"]),
    ("vanishing", &["7000000"]),
    ("constants", &[]),
    ("mean", &["7", "2"]),
    ("true", &["7", "2"]),
    ("solar", &["7", "2"]),
    ("lunar", &["7", "2"]),
    ("correction", &["7", "2"]),
    ("motion", &["7", "2"]),
    ("solar-at", &["fast", "7000000"]),
    ("lunar-at", &["tardy", "7000000"]),
    ("motion-at", &["quick", "7"]),
    ("head", &["7"]),
    ("day", &["777"]),
    ("back", &["7", "5", "2"]),
    ("year", &["7"]),
    ("years", &["7", "2"]),
    (
        "sheet",
        &["name", "0", "35", "leap", "10", "length", "12", "30"],
    ),
];

/// The word whose reply is each program's own.
pub const NOT_DAMAGED: &str = "help";

const SEED: u64 = 0x1281_0365_2425_0001;

/// Numbers that a program of fewer bits, or one that takes a sign, would take for others.
const FAR: [u64; 8] = [
    (1 << 31) - 1,
    1 << 31,
    1 << 32,
    (1 << 32) + 2,
    1 << 63,
    (1 << 63) + 8,
    u64::MAX - 1,
    u64::MAX,
];

/// Returns whether there is a set of this name, having written its questions.
pub fn write(set: &str, count: u64, out: &mut impl Write) -> Result<bool> {
    match set {
        "years" => years(out)?,
        "remainders" => remainders(count, out)?,
        "names" => names(count, out)?,
        "damaged" => damaged(count, out)?,
        "lunations" => lunations(out)?,
        "directs" => directs(count, out)?,
        "days" => days(out)?,
        "back" => back(count, out)?,
        "lists" => lists(out)?,
        "sheets" => sheets::write(count, out)?,
        "hex" => hex(count, out)?,
        _ => return Ok(false),
    }
    Ok(true)
}

/// A row of numbers without visible order, the same at every run.
struct Random {
    state: u64,
}

impl Random {
    /// Returns the row at its start.
    fn start() -> Random {
        Random { state: SEED }
    }

    /// Returns the next number of 64 bits.
    fn next(&mut self) -> u64 {
        self.state = self.state.wrapping_add(0x9E37_79B9_7F4A_7C15);
        let mut mixed = self.state;
        mixed = (mixed ^ (mixed >> 30)).wrapping_mul(0xBF58_476D_1CE4_E5B9);
        mixed = (mixed ^ (mixed >> 27)).wrapping_mul(0x94D0_49BB_1331_11EB);
        mixed ^ (mixed >> 31)
    }

    /// Returns the next number below a bound.
    fn below(&mut self, bound: u64) -> u64 {
        self.next() % bound
    }

    /// Returns the next number of a random count of bits.
    fn of_any_size(&mut self) -> u64 {
        let shift = self.below(64);
        self.next() >> shift
    }

    /// Returns a number below a bound, or in one of eight cases one of any size.
    fn mostly_below(&mut self, bound: u64) -> u64 {
        if self.below(8) == 0 {
            self.of_any_size()
        } else {
            self.below(bound)
        }
    }
}

/// Returns a number with its neighbours, as far as they are not below 0 or over 64 bits.
fn around(number: Number) -> Vec<u64> {
    (number - 1..=number + 1)
        .filter_map(|each| u64::try_from(each).ok())
        .collect()
}

/// Returns numbers with all their neighbours.
fn all_around(numbers: impl Iterator<Item = Number>) -> Vec<u64> {
    numbers.flat_map(around).collect()
}

/// Returns the least whole number not below a quotient.
fn quotient_up(number: Number, divisor: Number) -> Number {
    (number + divisor - 1) / divisor
}

/// Returns the numbers given, then the far ones.
fn and_far(numbers: &[u64]) -> Vec<u64> {
    numbers.iter().chain(FAR.iter()).copied().collect()
}

// The sets.

/// Returns nothing, having written all questions about all years with the refused ones.
fn years(out: &mut impl Write) -> Result<()> {
    for year in 0..=LAST_YEAR as u64 {
        year_questions(year, out)?;
    }
    for year in and_far(&[0, 1, 500, 998, 999, 1000, 1001, 1024, 65_536]) {
        year_edges(year, out)?;
    }
    Ok(())
}

/// Returns nothing, having written the admitted questions about a year.
fn year_questions(year: u64, out: &mut impl Write) -> Result<()> {
    writeln!(out, "solstice {year}")?;
    writeln!(out, "terms {year}")?;
    for term in 0..TERMS {
        writeln!(out, "term {year} {term}")?;
        for pentad in 0..PENTADS {
            writeln!(out, "pentad {year} {term} {pentad}")?;
        }
    }
    for term in EARTH_TERMS {
        writeln!(out, "earth {year} {term}")?;
    }
    Ok(())
}

/// Returns nothing, having written questions at the edges of a year's lists.
fn year_edges(year: u64, out: &mut impl Write) -> Result<()> {
    writeln!(out, "solstice {year}")?;
    writeln!(out, "terms {year}")?;
    let terms: Vec<u64> = (0..=25).chain(FAR).chain([256, 258]).collect();
    for term in terms {
        writeln!(out, "term {year} {term}")?;
        writeln!(out, "earth {year} {term}")?;
        for pentad in and_far(&[0, 1, 2, 3, 4, 256]) {
            writeln!(out, "pentad {year} {term} {pentad}")?;
        }
    }
    Ok(())
}

/// Returns nothing, having written the questions about remainders.
fn remainders(count: u64, out: &mut impl Write) -> Result<()> {
    for remainder in remainder_edges() {
        remainder_questions(remainder, out)?;
    }
    let mut random = Random::start();
    for word in ["hour", "extra", "vanishing"] {
        for _ in 0..count {
            writeln!(out, "{word} {}", random.mostly_below(DAY as u64))?;
        }
    }
    Ok(())
}

/// Returns nothing, having written the three questions about a remainder.
fn remainder_questions(remainder: u64, out: &mut impl Write) -> Result<()> {
    writeln!(out, "hour {remainder}")?;
    writeln!(out, "extra {remainder}")?;
    writeln!(out, "vanishing {remainder}")
}

/// Returns the remainders at which a reply changes, with their neighbours.
fn remainder_edges() -> Vec<u64> {
    let double_hours = 0..=DOUBLE_HOURS;
    let ke = double_hours.flat_map(|hour| (0..=9).map(move |ke| hour * DAY + ke * KE_FEN * FEN));
    let hours = ke.map(|twelvefold| quotient_up(twelvefold, DOUBLE_HOURS));
    let extras = (0..=17).map(|days| (TERM_STEP - days * EXTRA_OVER) / EXTRA_TIMES);
    let vanishings = (0..=31).map(|days| quotient_up(days * VANISHING_TO, VANISHING_TIMES));
    let limits = [0, EXTRA_FROM, VANISHING_TO, DAY, YEAR].into_iter();
    let far = FAR.into_iter().map(Number::from);
    all_around(
        hours
            .chain(extras)
            .chain(vanishings)
            .chain(limits)
            .chain(far),
    )
}

/// Returns nothing, having written the questions about names.
fn names(count: u64, out: &mut impl Write) -> Result<()> {
    for day in name_edges() {
        writeln!(out, "name {day}")?;
    }
    let mut random = Random::start();
    for _ in 0..count {
        writeln!(out, "name {}", random.next())?;
    }
    Ok(())
}

/// Returns counts near the beginning, the last days, the powers of two and the rounds of names.
fn name_edges() -> Vec<u64> {
    let last_term_day = day_of(term_time(LAST_YEAR, TERMS - 1));
    let near = [LAST_DAY, last_term_day, 1 << 32, 1 << 63, 1 << 64];
    let near = near.into_iter().flat_map(|day| day - 130..=day + 130);
    let rounds = [NAMES, BRANCHES, STEMS].into_iter().flat_map(|round| {
        let bits = (5..=64).map(|bits| 1 << bits);
        bits.map(move |power: Number| power / round * round)
    });
    let counts = near.chain(all_around(rounds).into_iter().map(Number::from));
    (0..=400)
        .chain(counts.filter_map(|day| u64::try_from(day).ok()))
        .collect()
}

/// Returns nothing, having written the questions about all lunations with the refused ones.
fn lunations(out: &mut impl Write) -> Result<()> {
    for lunation in 0..=LAST_LUNATION as u64 {
        for quarter in 0..QUARTERS as u64 {
            lunation_questions(lunation, quarter, out)?;
        }
    }
    let end = LAST_LUNATION as u64 + 1;
    for lunation in and_far(&[0, 1, end - 1, end, end + 1, end + 2, 65_536]) {
        for quarter in and_far(&[0, 1, 2, 3, 4, 5, 256]) {
            lunation_questions(lunation, quarter, out)?;
        }
    }
    Ok(())
}

/// Returns nothing, having written the six questions about a quarter of a lunation.
fn lunation_questions(lunation: u64, quarter: u64, out: &mut impl Write) -> Result<()> {
    for word in ["mean", "true", "solar", "lunar", "correction", "motion"] {
        writeln!(out, "{word} {lunation} {quarter}")?;
    }
    Ok(())
}

/// Returns nothing, having written the direct questions about inequalities and motions.
fn directs(count: u64, out: &mut impl Write) -> Result<()> {
    let solar = direct_edges(HALF_YEAR, solar_edges());
    let lunar = direct_edges(ANOMALISTIC_HALF, lunar_edges());
    let limits = and_far(&(0..=170).chain([256, 336]).collect::<Vec<u64>>());
    let mut random = Random::start();
    for half in ["fast", "slow"] {
        direct_questions("solar-at", half, &solar, out)?;
        for _ in 0..count {
            let time = random.mostly_below(HALF_YEAR as u64);
            writeln!(out, "solar-at {half} {time}")?;
        }
    }
    for half in ["quick", "tardy"] {
        direct_questions("lunar-at", half, &lunar, out)?;
        direct_questions("motion-at", half, &limits, out)?;
        for _ in 0..count {
            let time = random.mostly_below(ANOMALISTIC_HALF as u64);
            writeln!(out, "lunar-at {half} {time}")?;
        }
    }
    Ok(())
}

/// Returns nothing, having written a direct question in a half for each of the numbers.
fn direct_questions(word: &str, half: &str, numbers: &[u64], out: &mut impl Write) -> Result<()> {
    for number in numbers {
        writeln!(out, "{word} {half} {number}")?;
    }
    Ok(())
}

/// Returns the given times, the ends of the half and the far numbers, all with their neighbours.
fn direct_edges(half: Number, times: Vec<Number>) -> Vec<u64> {
    let far = FAR.into_iter().map(Number::from);
    let ends = [0, half, 2 * half].into_iter();
    all_around(times.into_iter().chain(ends).chain(far))
}

/// Returns the times in a solar half at its limits and at whole days, from both of its ends.
fn solar_edges() -> Vec<Number> {
    let limits = [FAST_LIMIT, SLOW_LIMIT].into_iter();
    let days = (0..=HALF_YEAR / DAY + 1).flat_map(|day| [day * DAY, HALF_YEAR - day * DAY]);
    limits
        .flat_map(|limit| [limit, HALF_YEAR - limit])
        .chain(days)
        .collect()
}

/// Returns the times in a lunar half at whole limits.
fn lunar_edges() -> Vec<Number> {
    (0..=END_LIMIT + 1)
        .map(|whole| quotient_up(whole * LIMIT * LIMITS_OVER, LIMITS_TIMES))
        .collect()
}

/// Returns nothing, having written the question about every day with the refused ones.
fn days(out: &mut impl Write) -> Result<()> {
    for day in 0..=365_300 {
        writeln!(out, "day {day}")?;
    }
    let wrapped = [1 << 16, 1 << 20, 1 << 32, 1 << 63].into_iter();
    let wrapped = wrapped.flat_map(|power: u64| [power, power + FIRST_DAY as u64]);
    for day in wrapped.chain(FAR).chain([365_301, 400_000, 1_000_000]) {
        writeln!(out, "day {day}")?;
    }
    Ok(())
}

/// Returns nothing, having written questions for the way back: the edges of every place of every
/// year, random places, and the refused ones.
fn back(count: u64, out: &mut impl Write) -> Result<()> {
    for year in 0..=LAST_YEAR as u64 {
        for place in 0..=LONGEST_LIST {
            for day in [0, 1, 29, 30, 31] {
                writeln!(out, "back {year} {place} {day}")?;
            }
        }
    }
    let mut random = Random::start();
    for _ in 0..count {
        let (year, place, day) = (random.below(1000), random.below(13), random.below(30));
        writeln!(out, "back {year} {place} {}", day + 1)?;
    }
    for year in and_far(&[0, 1, 999, 1000, 1001]) {
        for place in and_far(&[0, 10, 11, 12, 13, 14]) {
            for day in and_far(&[0, 1, 15, 28, 29, 30, 31, 32]) {
                writeln!(out, "back {year} {place} {day}")?;
            }
        }
    }
    Ok(())
}

/// Returns nothing, having written the questions about heads, lists and runs of years.
fn lists(out: &mut impl Write) -> Result<()> {
    let end = LAST_YEAR as u64 + 1;
    for year in (0..=end + 1).chain(FAR) {
        writeln!(out, "head {year}")?;
        writeln!(out, "year {year}")?;
    }
    for length in 1..=end {
        writeln!(out, "years 0 {length}")?;
        writeln!(out, "years {} {length}", end - length)?;
    }
    for first in (0..end).step_by(7) {
        writeln!(out, "years {first} {}", 1 + first % 29)?;
    }
    for first in and_far(&[0, 1, 500, 998, 999, 1000, 1001]) {
        for length in and_far(&[0, 1, 2, 500, 501, 999, 1000, 1001]) {
            writeln!(out, "years {first} {length}")?;
        }
    }
    Ok(())
}

// The damaged lines.

/// Returns nothing, having written damaged lines of every kind, then random ones.
fn damaged(count: u64, out: &mut impl Write) -> Result<()> {
    for line in damaged_kinds() {
        put_damaged(&line, out)?;
    }
    let mut random = Random::start();
    for _ in 0..count {
        let line = random_damage(&mut random);
        put_damaged(&line, out)?;
    }
    Ok(())
}

/// Returns nothing, having written a line with its end unless it asks with a word left out here.
fn put_damaged(line: &[u8], out: &mut impl Write) -> Result<()> {
    let word = line.split(|byte| *byte == b' ').next().unwrap_or(line);
    if word == NOT_DAMAGED.as_bytes() {
        return Ok(());
    }
    out.write_all(line)?;
    out.write_all(b"\n")
}

/// Returns every byte but the line end.
fn bytes() -> impl Iterator<Item = u8> {
    (0..=u8::MAX).filter(|byte| *byte != b'\n')
}

/// Returns a line from its parts with the given bytes between them.
fn joined(parts: &[&[u8]], between: &[u8]) -> Vec<u8> {
    parts.join(between)
}

/// Returns the parts of the good line of a word.
fn good_parts<'a>(word: &'a str, numbers: &[&'a str]) -> Vec<&'a [u8]> {
    let numbers = numbers.iter().map(|number| number.as_bytes());
    std::iter::once(word.as_bytes()).chain(numbers).collect()
}

/// Returns damaged lines of every kind.
fn damaged_kinds() -> Vec<Vec<u8>> {
    let mut lines = Vec::new();
    for text in [
        "",
        " ",
        "  ",
        "\t",
        "\r",
        "7",
        "7 7",
        "x",
        "X 7",
        "7 solstice",
        "- 7",
    ] {
        lines.push(text.as_bytes().to_vec());
    }
    lines.extend(bytes().map(|byte| vec![byte]));
    lines.extend([b' ', b'0', b'x', 0].map(|byte| vec![byte; 70_000]));
    for (word, numbers) in DAMAGED {
        let parts = good_parts(word, numbers);
        lines.extend(damaged_blanks(&parts));
        lines.extend(damaged_words(&parts));
        lines.extend(damaged_numbers(&parts));
        lines.extend(damaged_bytes(&parts));
        lines.extend(damaged_lengths(&parts));
    }
    lines
}

/// Returns lines whose blanks or count of parts are not as they should be, after the good line.
fn damaged_blanks(parts: &[&[u8]]) -> Vec<Vec<u8>> {
    let good = joined(parts, b" ");
    let mut lines = vec![good.clone()];
    for between in [
        "  ", "   ", "\t", " \t", "\t ", "", ",", "\u{a0}", "\r", "\0",
    ] {
        lines.push(joined(parts, between.as_bytes()));
    }
    for end in [
        " ", "  ", "\t", "\r", "\0", "\x0b", " \r", ".", " 7", " 7 7", " x", "\u{a0}",
    ] {
        lines.push([good.as_slice(), end.as_bytes()].concat());
        lines.push([end.as_bytes(), good.as_slice()].concat());
    }
    for length in 1..parts.len() {
        lines.push(joined(&parts[..length], b" "));
        lines.push([joined(&parts[..length], b" ").as_slice(), b" "].concat());
        lines.push(joined(&parts[length..], b" "));
    }
    for times in 2..=9 {
        let more = vec![*parts.last().unwrap_or(&parts[0]); times];
        lines.push(joined(&[parts, more.as_slice()].concat(), b" "));
    }
    lines.push([good.as_slice(), b" ", good.as_slice()].concat());
    lines
}

/// Returns lines whose word is not one.
fn damaged_words(parts: &[&[u8]]) -> Vec<Vec<u8>> {
    let word = parts[0];
    let last = word.len() - 1;
    let mut words = vec![
        word.to_ascii_uppercase(),
        [&word[..1].to_ascii_uppercase(), &word[1..]].concat(),
        [&word[..last], &word[last..].to_ascii_uppercase()].concat(),
        word[1..].to_vec(),
        word[..last].to_vec(),
        [word, &word[last..]].concat(),
        [&word[..1], word].concat(),
        [word, b"s"].concat(),
        [word, b"-at"].concat(),
        [word, b"\0"].concat(),
        [b"\xef\xbb\xbf", word].concat(),
        [b"-", word].concat(),
        word.iter().rev().copied().collect(),
        b"x".to_vec(),
        b"xyzzy".to_vec(),
        Vec::new(),
    ];
    words.extend((1..last).map(|at| [&word[..at], b" ", &word[at..]].concat()));
    words
        .iter()
        .map(|word| joined(&[&[word.as_slice()], &parts[1..]].concat(), b" "))
        .collect()
}

/// Returns lines with strange numbers in each place of a number, those of twenty digits among them.
fn damaged_numbers(parts: &[&[u8]]) -> Vec<Vec<u8>> {
    let numbers: [&[u8]; 43] = [
        b"",
        b"0",
        b"00",
        b"07",
        b"007",
        b"00000000000000000000",
        b"00000000000000000007",
        b"000000000000000000000",
        b"000000000000000000007",
        b"0000000000000000000000000007",
        b"255",
        b"256",
        b"65536",
        b"4294967295",
        b"4294967296",
        b"4294967303",
        b"9223372036854775807",
        b"9223372036854775808",
        b"9999999999999999999",
        b"10000000000000000000",
        b"18446744073709551614",
        b"18446744073709551615",
        b"18446744073709551616",
        b"18446744073709551617",
        b"18446744073709551623",
        b"018446744073709551615",
        b"36893488147419103232",
        b"36893488147419103239",
        b"99999999999999999999",
        b"100000000000000000000",
        b"340282366920938463463374607431768211456",
        b"+7",
        b"-7",
        b"-0",
        b"7-",
        b"0x7",
        b"7e0",
        b"7.0",
        b"7,000",
        b"7_000",
        b"A",
        b"\xd9\xa7",
        b"\xef\xbc\x97",
    ];
    let mut lines = Vec::new();
    for place in 1..parts.len() {
        for number in numbers {
            let mut changed = parts.to_vec();
            changed[place] = number;
            lines.push(joined(&changed, b" "));
        }
    }
    lines
}

/// Returns lines with every byte in place of the first blank, of the last byte, and after the end.
fn damaged_bytes(parts: &[&[u8]]) -> Vec<Vec<u8>> {
    let good = joined(parts, b" ");
    let blank = parts[0].len();
    let mut lines = Vec::new();
    for byte in bytes() {
        lines.push([good.as_slice(), &[byte]].concat());
        for at in [0, blank, good.len() - 1] {
            let mut line = good.clone();
            if at < line.len() {
                line[at] = byte;
                lines.push(line);
            }
        }
    }
    lines
}

/// Returns lines of every length near the longest that is admitted, and longer ones.
fn damaged_lengths(parts: &[&[u8]]) -> Vec<Vec<u8>> {
    let good = joined(parts, b" ");
    let mut lines = Vec::new();
    let longest = LONGEST_LINE - 2..=LONGEST_LINE + 2;
    for length in longest.chain([21, 64, 128, 255, 256, 257, 511, 512, 513, 4096]) {
        for filler in [b' ', b'0', b'7', b'x', 0, 0xFF] {
            let fill = vec![filler; length - good.len().min(length)];
            lines.push([good.as_slice(), fill.as_slice()].concat());
            lines.push([fill.as_slice(), good.as_slice()].concat());
            lines.push([parts[0], b" ", fill.as_slice()].concat());
        }
    }
    lines
}

/// Returns a good line of a random word, changed at random up to three times.
fn random_damage(random: &mut Random) -> Vec<u8> {
    let (word, numbers) = DAMAGED[random.below(DAMAGED.len() as u64) as usize];
    let mut line = word.as_bytes().to_vec();
    for part in numbers {
        let half = part.parse::<u64>().is_err();
        let number = random_number(random).to_string();
        line.push(b' ');
        line.extend_from_slice(if half {
            part.as_bytes()
        } else {
            number.as_bytes()
        });
    }
    for _ in 0..random.below(4) {
        change(&mut line, random);
    }
    line
}

/// Returns a random number, often small.
fn random_number(random: &mut Random) -> u64 {
    match random.below(3) {
        0 => random.below(3),
        1 => random.below(1000),
        _ => random.of_any_size(),
    }
}

/// Returns nothing, having changed a line at a random place without putting a line end into it.
fn change(line: &mut Vec<u8>, random: &mut Random) {
    let at = random.below(line.len() as u64 + 1) as usize;
    let byte = likely_byte(random);
    match random.below(6) {
        0 | 1 => line.insert(at, byte),
        2 if at < line.len() => line[at] = byte,
        3 if at < line.len() => line[at] ^= b' ',
        4 if at < line.len() => {
            line.remove(at);
        }
        5 => line.truncate(at),
        _ => line.push(byte),
    }
    line.retain(|byte| *byte != b'\n');
}

/// Returns a random byte, often a blank or a digit, never the line end.
fn likely_byte(random: &mut Random) -> u8 {
    let byte = match random.below(4) {
        0 => b' ',
        1 | 2 => b'0' + random.below(10) as u8,
        _ => random.below(256) as u8,
    };
    if byte == b'\n' {
        b' '
    } else {
        byte
    }
}

// The lines of the line program.

/// Returns nothing, having written each day in five digits, lines damaged in every way, then random ones.
fn hex(count: u64, out: &mut impl Write) -> Result<()> {
    for day in (0..=365_300).chain([0x5_9304, 0xF_FFFE, 0xF_FFFF]) {
        writeln!(out, "{day:05X}")?;
    }
    for text in [
        "",
        " ",
        "\r",
        "00023\r",
        " 00023",
        "00023 ",
        "0023",
        "000023",
        "00g40",
        "0002a",
        "\0\0\0\0\0",
    ] {
        out.write_all(text.as_bytes())?;
        out.write_all(b"\n")?;
    }
    for byte in bytes() {
        out.write_all(&[b'0', b'0', byte, b'2', b'3', b'\n'])?;
    }
    for length in [6, 255, 256, 65_535, 65_536, 70_000] {
        out.write_all(&vec![b'0'; length])?;
        out.write_all(b"\n")?;
    }
    let mut random = Random::start();
    for _ in 0..count {
        let mut line = format!("{:05X}", random.below(400_000)).into_bytes();
        for _ in 0..=random.below(3) {
            change(&mut line, &mut random);
        }
        out.write_all(&line)?;
        out.write_all(b"\n")?;
    }
    Ok(())
}
