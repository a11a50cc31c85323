//! The bench's front end: the days of a file, one to a row, filed by civil year and month. It takes what the line program
//! refuses on purpose (carriage returns, blanks, small letters, columns) and never guesses: a row is answered
//! or refused by itself, and every row that is read has its row in the output, in order.
//!
//! [`input`] reads lines and takes them apart, [`decide`] says which day a row asks for or why it is refused, and
//! [`output`] writes rows and sentences. Rows are not gathered: what is held is a block of the input and its replies.

pub mod decide;
pub mod input;
pub mod output;
pub mod settings;

use decide::Rows;
use input::Lines;
use output::{Replies, Sentences};
pub use settings::{Base, Column, Settings, HELP};
use std::fmt;
use std::io::{self, Read, Write};

/// How many rows were answered or refused. Lines of nothing but blanks ask nothing and are counted apart.
#[derive(Clone, Copy, Debug, Default, PartialEq, Eq)]
pub struct Counts {
    pub rows: u64,
    pub refused: u64,
    pub empty_lines: u64,
}

/// Why not every row of the input has its row in the output.
#[derive(Debug)]
pub enum Failure {
    /// The command itself is refused, and nothing was written.
    Refused(String),
    /// The input could not be read on, after so many lines.
    Read(u64, io::Error),
    Write(io::Error),
}

impl fmt::Display for Failure {
    fn fmt(&self, f: &mut fmt::Formatter<'_>) -> fmt::Result {
        match self {
            Failure::Refused(sentence) => f.write_str(sentence),
            Failure::Read(0, error) => write!(f, "The input could not be read: {error}."),
            Failure::Read(lines, error) => write!(
                f,
                "The input could not be read to its end, and nothing after line {lines} is answered: {error}."
            ),
            Failure::Write(error) => write!(f, "The output is cut short: {error}."),
        }
    }
}

/// Returns how many rows there were, having written a row of the output for each and a sentence for each that is refused.
pub fn answer(
    settings: &Settings,
    input: impl Read,
    output: impl Write,
    sentences: impl Write,
) -> Result<Counts, Failure> {
    let mut sentences = Sentences::new(sentences, settings.progress);
    let result = answer_blocks(settings, input, output, &mut sentences);
    match &result {
        Ok(counts) => sentences.end(counts),
        Err(_) => sentences.stop(),
    }
    result
}

/// Returns how many rows there were, having answered block after block of the input.
fn answer_blocks(
    settings: &Settings,
    input: impl Read,
    mut output: impl Write,
    sentences: &mut Sentences<impl Write>,
) -> Result<Counts, Failure> {
    let mut lines = Lines::new(input);
    let mut rows = Rows::new(settings);
    let mut replies = Replies::new();
    let mut counts = Counts::default();
    let mut more = true;
    while more {
        more = lines
            .read()
            .map_err(|error| Failure::Read(lines.count(), error))?;
        while let Some(line) = lines.next_line(more) {
            if line.is_empty() {
                counts.empty_lines += 1;
            } else if rows.want_header() {
                rows.take_header(&line).map_err(Failure::Refused)?;
            } else {
                counts.rows += 1;
                match rows.asked(&line) {
                    Ok(asked) => replies.answered(line.number, &asked),
                    Err(refused) => {
                        counts.refused += 1;
                        replies.refused(line.number, &refused);
                        sentences.refused(line.number, &refused);
                    }
                }
            }
        }
        if rows.want_header() && more {
            continue;
        }
        rows.found_header().map_err(Failure::Refused)?;
        replies.pass_on(&mut output).map_err(Failure::Write)?;
        sentences.progress(&counts);
    }
    Ok(counts)
}
