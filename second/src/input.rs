//! Reading one line after another from an input of any length, in bounded memory.

use crate::desk::LONGEST_LINE;
use std::io::{BufRead, Result};

pub const LINE_END: u8 = 0x0A;

/// How much of a line is kept: more than the longest line that any program here answers.
pub const KEPT: usize = LONGEST_LINE + 1;

/// Returns whether there was a line, having put its first bytes, at most [`KEPT`], into `line`.
///
/// A line ends at the byte 0A or at the end of the input; nothing follows a final 0A. An overlong
/// line keeps more bytes than any question may have, so that it is still seen to be overlong.
pub fn next_line(input: &mut impl BufRead, line: &mut Vec<u8>) -> Result<bool> {
    line.clear();
    let mut begun = false;
    loop {
        let bytes = input.fill_buf()?;
        if bytes.is_empty() {
            return Ok(begun);
        }
        begun = true;
        let end = bytes.iter().position(|byte| *byte == LINE_END);
        let length = end.unwrap_or(bytes.len());
        line.extend_from_slice(&bytes[..length.min(KEPT - line.len())]);
        match end {
            Some(_) => {
                input.consume(length + 1);
                return Ok(true);
            }
            None => input.consume(length),
        }
    }
}
