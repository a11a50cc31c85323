//! Lines of an input of any length, and the columns of a line. What is held of the input is bounded.

use std::io::{self, Read};

/// How much is read at once, and how long a line may be.
const BLOCK: usize = 1 << 16;
pub const LONGEST: usize = 1 << 20;

const MARK: u8 = b'"';
const BYTE_ORDER_MARK: &[u8] = b"\xEF\xBB\xBF";

/// A line without its end, by its number counted from 1.
#[derive(Clone, Copy, Debug)]
pub struct Line<'a> {
    pub number: u64,
    /// Nothing is kept of a line that is longer than [`LONGEST`] bytes.
    pub text: &'a [u8],
    pub too_long: bool,
}

/// The lines of an input, block after block.
pub struct Lines<R> {
    input: R,
    held: Vec<u8>,
    /// Where the next line begins in what is held, and up to where its end was not found.
    from: usize,
    sought: usize,
    count: u64,
    too_long: bool,
}

/// What is wrong with the quotation marks of a line.
#[derive(Clone, Copy, Debug, PartialEq, Eq)]
pub enum Fault {
    /// One is opened and not closed.
    Open,
    /// One stands inside a column, or a column goes on after it is closed.
    Stray,
}

/// Where the text of a column stands in its line. Of a column in quotation marks it is what stands between them.
#[derive(Clone, Copy, Debug, PartialEq, Eq)]
pub struct Span {
    pub from: usize,
    pub to: usize,
    pub quoted: bool,
}

impl Line<'_> {
    /// Returns whether a line has nothing but blanks.
    pub fn is_empty(&self) -> bool {
        !self.too_long && self.text.iter().all(|byte| is_blank(*byte))
    }
}

impl<R: Read> Lines<R> {
    pub fn new(input: R) -> Lines<R> {
        Lines {
            input,
            held: Vec::new(),
            from: 0,
            sought: 0,
            count: 0,
            too_long: false,
        }
    }

    /// Returns how many lines were given.
    pub fn count(&self) -> u64 {
        self.count
    }

    /// Returns whether the input goes on, having read a block of it. Each line is then to be taken.
    pub fn read(&mut self) -> io::Result<bool> {
        self.held.drain(..self.from);
        self.sought -= self.from;
        self.from = 0;
        if self.held.len() > LONGEST {
            self.held.clear();
            self.sought = 0;
            self.too_long = true;
        }
        let before = self.held.len();
        self.held.resize(before + BLOCK, 0);
        let read = loop {
            match self.input.read(&mut self.held[before..]) {
                Err(error) if error.kind() == io::ErrorKind::Interrupted => {}
                result => break result,
            }
        };
        self.held.truncate(before + *read.as_ref().unwrap_or(&0));
        Ok(read? > 0)
    }

    /// Returns the next line that has ended, or where the input does not go on the last one.
    pub fn next_line(&mut self, more: bool) -> Option<Line<'_>> {
        let end = self.held[self.sought..]
            .iter()
            .position(|byte| *byte == b'\n')
            .map(|at| self.sought + at);
        let last = !more && (self.from < self.held.len() || self.too_long);
        if end.is_none() && !last {
            self.sought = self.held.len();
            return None;
        }
        let to = end.unwrap_or(self.held.len());
        let line = self.from..to;
        self.from = end.map_or(to, |end| end + 1);
        self.sought = self.from;
        self.count += 1;
        let too_long = std::mem::take(&mut self.too_long) || line.len() > LONGEST;
        let text = if too_long { &[] } else { &self.held[line] };
        Some(Line {
            number: self.count,
            text: without_marks(text, self.count == 1),
            too_long,
        })
    }
}

/// Returns a line without the carriage return at its end, and the first without a byte order mark.
fn without_marks(line: &[u8], first: bool) -> &[u8] {
    let line = line.strip_suffix(b"\r").unwrap_or(line);
    match line.strip_prefix(BYTE_ORDER_MARK) {
        Some(rest) if first => rest,
        _ => line,
    }
}

fn is_blank(byte: u8) -> bool {
    byte == b' ' || byte == b'\t'
}

/// Returns a text without the blanks around it.
pub fn trimmed(text: &[u8]) -> &[u8] {
    let from = blanks(text);
    let behind = text.iter().rev().take_while(|byte| is_blank(**byte));
    &text[from..(text.len() - behind.count()).max(from)]
}

/// Returns how many blanks a text begins with.
fn blanks(text: &[u8]) -> usize {
    text.iter().take_while(|byte| is_blank(**byte)).count()
}

/// Puts the columns of a line into a list, or returns what is wrong with its quotation marks.
pub fn columns(line: &[u8], list: &mut Vec<Span>) -> Result<(), Fault> {
    list.clear();
    let mut at = 0;
    loop {
        let begin = at + blanks(&line[at..]);
        let span = if line.get(begin) == Some(&MARK) {
            quoted(line, begin + 1)?
        } else {
            plain(line, at)?
        };
        list.push(span);
        at = after(line, span)?;
        if at == line.len() {
            return Ok(());
        }
        at += 1;
    }
}

/// Returns the column that begins at a place and has no quotation marks.
fn plain(line: &[u8], from: usize) -> Result<Span, Fault> {
    let text = &line[from..];
    let length = text.iter().position(|byte| *byte == b',');
    let to = from + length.unwrap_or(text.len());
    if line[from..to].contains(&MARK) {
        return Err(Fault::Stray);
    }
    Ok(Span {
        from,
        to,
        quoted: false,
    })
}

/// Returns the column whose text begins at a place, after its quotation mark. Two marks in it are one of its text.
fn quoted(line: &[u8], from: usize) -> Result<Span, Fault> {
    let mut to = from;
    loop {
        match (line.get(to), line.get(to + 1)) {
            (None, _) => return Err(Fault::Open),
            (Some(&MARK), Some(&MARK)) => to += 2,
            (Some(&MARK), _) => break,
            _ => to += 1,
        }
    }
    Ok(Span {
        from,
        to,
        quoted: true,
    })
}

/// Returns where a column ends: at a comma or at the end of its line.
fn after(line: &[u8], span: Span) -> Result<usize, Fault> {
    if !span.quoted {
        return Ok(span.to);
    }
    let at = span.to + 1;
    let at = at + blanks(&line[at..]);
    match line.get(at) {
        None | Some(b',') => Ok(at),
        _ => Err(Fault::Stray),
    }
}

/// Returns whether quotation marks are still open at the end of a line that lies inside them.
pub fn stays_open(line: &[u8], list: &mut Vec<Span>) -> bool {
    let rest = quoted(line, 0).and_then(|span| after(line, span));
    match rest {
        Err(fault) => fault == Fault::Open,
        Ok(at) if at == line.len() => false,
        Ok(at) => columns(&line[at + 1..], list) == Err(Fault::Open),
    }
}
