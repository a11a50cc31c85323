//! The line program: one day in, one month out, a line each, in hexadecimal digits.

use crate::calendar::{MonthPlace, Months, Number, REFUSED_LINE};

pub const DAY_DIGITS: usize = 5;

/// Returns the value of a digit 0-9 or A-F, or refusal 5.
fn digit(byte: u8) -> Result<u64, u32> {
    match byte {
        b'0'..=b'9' => Ok(u64::from(byte - b'0')),
        b'A'..=b'F' => Ok(u64::from(byte - b'A') + 10),
        _ => Err(REFUSED_LINE),
    }
}

/// Returns the day of a line of exactly five digits, or refusal 5.
fn asked_day(line: &[u8]) -> Result<u64, u32> {
    if line.len() != DAY_DIGITS {
        return Err(REFUSED_LINE);
    }
    line.iter()
        .try_fold(0, |value, byte| Ok(value * 16 + digit(*byte)?))
}

/// Returns the month's frame: year, number, leap mark, first day and length.
fn frame(reply: MonthPlace) -> String {
    format!(
        "{:03X}{:X}{:X}{:05X}{:02X}",
        reply.year,
        reply.month.number,
        Number::from(reply.month.leap),
        reply.month.first_day,
        reply.month.length
    )
}

/// Returns the reply to a line, without a line end.
pub fn reply(months: &Months, line: &[u8]) -> String {
    match asked_day(line).and_then(|day| months.day(day)) {
        Ok(month) => frame(month),
        Err(refusal) => format!("E{refusal}"),
    }
}
