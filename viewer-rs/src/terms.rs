//! Where the terms fall, for show. The calendar's own replies, months and lists, come from the proved
//! functions; these are sums of whole wei made here.

/// Wei of a day, of the year and of the step from term to term, and the solstice of year 0.
const DAY: u64 = 100_000_000;
const YEAR: u64 = 36_524_250_000;
const STEP: u64 = 1_521_843_750;
const SOLSTICE: u64 = 5_506_000_000;

pub const LAST: u64 = 23;

/// Returns the running day of a term, 0 to 23, of an admitted year.
pub fn day_of(year: u64, term: u64) -> u64 {
    (year * YEAR + SOLSTICE + term * STEP) / DAY
}

/// Returns whether a term is a middle term, one of those that number the months.
pub fn is_middle(term: u64) -> bool {
    term % 2 == 0
}
