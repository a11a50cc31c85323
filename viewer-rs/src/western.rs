//! Western dates, a courtesy: no reply of the calendar has one. The Julian calendar is used up to
//! 4 October 1582 and the Gregorian from the next day, 15 October, on, wherever and whenever a country
//! went over. All days of the calendar are later than the year 1, and none is reckoned backward.

use std::fmt;

/// Julian Day Numbers of running day 0 and of 15 October 1582.
const DAY_ZERO: u64 = 2_188_871;
const REFORM: u64 = 2_299_161;

const MONTHS: [&str; 12] = [
    "January",
    "February",
    "March",
    "April",
    "May",
    "June",
    "July",
    "August",
    "September",
    "October",
    "November",
    "December",
];

/// A date of the Julian or the Gregorian calendar.
#[derive(Clone, Copy, Debug, PartialEq, Eq)]
pub struct Date {
    pub year: u64,
    /// 1 to 12.
    pub month: u64,
    pub day: u64,
    pub gregorian: bool,
}

impl Date {
    /// Returns the name of the calendar.
    pub fn calendar(&self) -> &'static str {
        if self.gregorian {
            "Gregorian"
        } else {
            "Julian"
        }
    }

    /// Returns whether its calendar has it.
    pub fn exists(&self) -> bool {
        (1..=12).contains(&self.month) && (1..=self.month_length()).contains(&self.day)
    }

    /// Returns how many days its month has.
    fn month_length(&self) -> u64 {
        let left_out = self.gregorian && self.year % 100 == 0 && self.year % 400 != 0;
        match self.month {
            2 if self.year % 4 == 0 && !left_out => 29,
            2 => 28,
            4 | 6 | 9 | 11 => 30,
            _ => 31,
        }
    }

    fn month_name(&self) -> &'static str {
        MONTHS[self.month as usize - 1]
    }

    /// Returns the date with the month's first three letters.
    pub fn short(&self) -> String {
        format!("{} {} {}", self.day, &self.month_name()[..3], self.year)
    }
}

impl fmt::Display for Date {
    fn fmt(&self, f: &mut fmt::Formatter<'_>) -> fmt::Result {
        write!(f, "{} {} {}", self.day, self.month_name(), self.year)
    }
}

/// Returns the date of a running day of the calendar.
pub fn date_of(day: u64) -> Date {
    let number = DAY_ZERO + day;
    let gregorian = number >= REFORM;
    // the days that the Gregorian calendar has left out by then
    let left_out = if gregorian {
        (4 * number + 274_277) / 146_097 * 3 / 4 - 38
    } else {
        0
    };
    // years counted from 1 March, so that the leap day is the last
    let quarter_days = 4 * (number + 1_401 + left_out) + 3;
    let fifths = 5 * (quarter_days % 1_461 / 4) + 2;
    let month = (fifths / 153 + 2) % 12 + 1;
    Date {
        year: quarter_days / 1_461 + (14 - month) / 12 - 4_716,
        month,
        day: fifths % 153 / 5 + 1,
        gregorian,
    }
}

/// Returns whether a year, a month and a day are of the Gregorian calendar by the usual rule, Julian up to
/// 4 October 1582 and Gregorian from 15 October 1582 on, or nothing of the days between, which never were.
pub fn usually_gregorian(year: u64, month: u64, day: u64) -> Option<bool> {
    match (year, month, day) {
        date if date <= (1582, 10, 4) => Some(false),
        date if date >= (1582, 10, 15) => Some(true),
        _ => None,
    }
}

/// Returns the running day of a date that its calendar has, where it is not before day 0.
pub fn day_of(date: &Date) -> Option<u64> {
    // years counted from 1 March, so that the leap day is the last
    let before_march = i128::from(date.month < 3);
    let year = i128::from(date.year) + 4_800 - before_march;
    let month = i128::from(date.month) + 12 * before_march - 3;
    let left_out = if date.gregorian {
        year / 100 - year / 400 - 38
    } else {
        0
    };
    let number =
        i128::from(date.day) + (153 * month + 2) / 5 + 365 * year + year / 4 - 32_083 - left_out;
    u64::try_from(number - i128::from(DAY_ZERO)).ok()
}

/// Returns the month, 1 to 12, that a word gives: its English name, or at least the first three letters of it.
pub fn month_named(word: &str) -> Option<u64> {
    let word = word.to_lowercase();
    let begins = |month: &&str| word.len() >= 3 && month.to_lowercase().starts_with(&word);
    (1..)
        .zip(&MONTHS)
        .find(|(_, month)| begins(month))
        .map(|(number, _)| number)
}
