//! The questions of the command line.

use crate::{file, find, month_of, months_of, page, sheet, text, Refusal};

pub const HELP: &str = "\
The Shoushi calendar of 1281, asked through its proved functions.

  viewer day D     the civil year and the month in which running day D lies, 35 to 365268
  viewer year N    the months of solstice year N as a table; N is 0 (1280/81) to 999 (2279/80)
  viewer page N    the same solstice year as a page of HTML, to print or for a phone:
                   viewer page 0 > year.html
  viewer find …    the running day of a Western date or of a civil one, or the days of a sixty-name:
                   viewer find 9 January 1283   (9 Jan 1283, 1283-01-09, 16 January 1283 gregorian)
                   viewer find 1281 leap 8 12   (Zhiyuan 18 leap 8 12, 至元十八年閏八月十二日)
                   viewer find 1281 jiachen     (1281 leap 8 jiachen, 至元十八年甲辰)
  viewer sheet MARK…
                   the years that a torn sheet may be of, from marks that can still be read, by the places of
                   a solstice year's list or by the months of a civil year; ‘viewer help sheet’ says how:
                   viewer sheet 0=jihai 3=30 10=leap      (0=己? for a name of which half is lost)
                   viewer sheet --civil 三月=丁酉 leap8=30
                   viewer page sheet 0=jihai 3=30 10=leap > sheet.html
  viewer file FLAGS [FILE]
                   the days of a file or of the standard input, one a line or in a column of CSV, filed
                   by civil year and month as CSV; ‘viewer help file’ says how
  viewer help      this text

The solstice year (歲) runs from winter solstice to winter solstice and its list begins with months 11 and 12
of the civil year before, while the civil year (年), by which a sheet is dated, begins with month 1 and is
named by the Western year in which it began, or by an era, from Zhiyuan to Chongzhen. The sixty-names of the
civil year and of the day may be given to find too, and must then agree. All days found are the Shoushi
calendar's: on a sheet reckoned otherwise a month may begin a day sooner or later.

Running day 0 is a jiazi day, and day 35 begins month 11 of civil year 1280, the first month of solstice year
0. Eras are a courtesy, told up to 1644. Western dates are a courtesy, Julian up to 4 October 1582 and
Gregorian from 15 October 1582 on. What is refused is told in one sentence with the refusal's number, and the
exit status is then 2.
";

/// Refusal of what is no question.
pub(crate) const MALFORMED: u32 = 5;

/// Returns what a question's words are answered with, or a sentence that says why they are not.
pub fn reply(words: &[&str]) -> Result<String, String> {
    match words {
        ["day", day] => about("Day", day, |d| Ok(text::day(d, &month_of(d)?))),
        ["year", year] => about("Solstice year", year, |n| Ok(text::year(n, &months_of(n)?))),
        ["page", "sheet", given @ ..] => told(sheet::page(given)),
        ["page", year] => about("Solstice year", year, |n| Ok(page::year(n, &months_of(n)?))),
        ["find"] => Err(malformed("Nothing was given to find")),
        ["find", given @ ..] => told(find::reply(&given.join(" "))),
        ["help" | "--help" | "-h"] => Ok(HELP.to_string()),
        ["help", "file"] | ["file", "--help" | "-h"] => Ok(file::HELP.to_string()),
        ["help", "sheet"] | ["sheet", "--help" | "-h"] => Ok(sheet::HELP.to_string()),
        ["sheet", given @ ..] => told(sheet::reply(given)),
        [] => Err(malformed("No question was asked")),
        _ => Err(malformed(&format!("‘{}’ is no question", words.join(" ")))),
    }
}

/// Returns a reply with its refusal as a sentence.
fn told(reply: Result<String, find::Refused>) -> Result<String, String> {
    reply.map_err(|refused| refused.to_string())
}

/// Returns a sentence about words that are no question.
fn malformed(what: &str) -> String {
    format!("{what}; ‘viewer help’ says what can be asked (refusal {MALFORMED}).")
}

/// Returns the answer about the number that a word gives, or a sentence about its refusal.
fn about(
    what: &str,
    word: &str,
    answer: impl Fn(u64) -> Result<String, Refusal>,
) -> Result<String, String> {
    let number = number_in(word)
        .ok_or_else(|| malformed(&format!("‘{word}’ is not a whole number in digits")))?;
    answer(number).map_err(|refusal| format!("{what} {word} is refused: {refusal}."))
}

/// Returns the number that a word of digits gives. One of more than 64 bits lies outside every list as
/// the greatest of 64 bits does, and stands for it.
pub fn number_in(word: &str) -> Option<u64> {
    if word.is_empty() || !word.bytes().all(|byte| byte.is_ascii_digit()) {
        return None;
    }
    Some(word.parse().unwrap_or(u64::MAX))
}
