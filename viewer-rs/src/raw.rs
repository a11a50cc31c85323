//! The functions of the two proved archives, and all of the viewer's unsafe code. Nothing but the tests holds these
//! declarations to `src/lib.rt` of the crates `viewer_c` and `ask_c`; `viewer.h` and `ask.h`, of the crates `viewer` and
//! `ask` below these, say the same in C.
//! Beside them stands one function of the system's C library, which asks about a terminal.

/// A reply about a day. In a month `refused` is 0; a refusal has its number there and 0 elsewhere.
#[repr(C)]
#[derive(Clone, Copy, Debug, PartialEq, Eq)]
pub struct Day {
    pub first: u32,
    pub year: u16,
    pub place: u8,
    pub day: u8,
    pub length: u8,
    pub number: u8,
    pub leap: u8,
    pub refused: u8,
}

/// How many records were written; where `refused` is not 0, none were.
#[repr(C)]
#[derive(Clone, Copy, Debug, PartialEq, Eq)]
pub struct Count {
    pub refused: u32,
    pub records: u32,
}

/// How many bytes of text were written; where `refused` is not 0, none were.
#[repr(C)]
#[derive(Clone, Copy, Debug, PartialEq, Eq)]
pub struct Written {
    pub refused: u64,
    pub bytes: u64,
}

extern "C" {
    fn lengadriu_day(d: u64) -> Day;

    // a lent row goes over as its address and its length
    fn lengadriu_year(row: *mut u8, length: usize, n: u64) -> Count;

    fn lengadriu_ask(
        line: *const u8,
        line_length: usize,
        row: *mut u8,
        row_length: usize,
    ) -> Written;

    fn isatty(descriptor: i32) -> i32;
}

/// Returns the reply about a day.
pub fn day(d: u64) -> Day {
    // SAFETY: the function takes a number, touches no memory of ours, and is proved to return.
    unsafe { lengadriu_day(d) }
}

/// Returns the reply to a year's list, having written its records into the lent row.
pub fn year(row: &mut [u8], n: u64) -> Count {
    // SAFETY: address and length are those of one slice, which no one else holds during the call, and
    // the function is proved to stay inside it and to return.
    unsafe { lengadriu_year(row.as_mut_ptr(), row.len(), n) }
}

/// Returns how much of the lent row is the desk's reply to a line, having written it.
pub fn ask(line: &[u8], row: &mut [u8]) -> Written {
    // SAFETY: addresses and lengths are those of two slices, of which no one else holds the row during the
    // call, and the function is proved to stay inside them and to return.
    unsafe { lengadriu_ask(line.as_ptr(), line.len(), row.as_mut_ptr(), row.len()) }
}

/// Returns whether the standard error is a terminal.
pub fn told_to_a_terminal() -> bool {
    const STANDARD_ERROR: i32 = 2;
    // SAFETY: the function takes a number and touches no memory of ours.
    unsafe { isatty(STANDARD_ERROR) == 1 }
}
