//! The command `viewer`.

use lengadriu_viewer::file::{self, Counts, Failure, Settings};
use lengadriu_viewer::{command, raw};
use std::ffi::OsString;
use std::fs::File;
use std::io::{self, Write};
use std::process::ExitCode;

const ROWS_REFUSED: u8 = 1;
const REFUSED: u8 = 2;

fn main() -> ExitCode {
    let words: Vec<OsString> = std::env::args_os().skip(1).collect();
    match words.split_first() {
        Some((first, rest)) if first == "file" && !asks_for_help(rest) => filed(rest),
        _ => replied(&words),
    }
}

/// Returns the exit status of a question that is answered at once.
fn replied(words: &[OsString]) -> ExitCode {
    let words: Vec<_> = words.iter().map(|word| word.to_string_lossy()).collect();
    let words: Vec<&str> = words.iter().map(|word| word.as_ref()).collect();
    match command::reply(&words) {
        Ok(text) => written(io::stdout().write_all(text.as_bytes())),
        Err(sentence) => refused(&sentence),
    }
}

/// Returns whether the words behind `file` ask what can be asked.
fn asks_for_help(words: &[OsString]) -> bool {
    words.len() == 1 && (words[0] == "--help" || words[0] == "-h")
}

/// Returns the exit status of a file whose rows are answered one after another.
fn filed(words: &[OsString]) -> ExitCode {
    match answered(words) {
        Ok(counts) if counts.refused == 0 => ExitCode::SUCCESS,
        Ok(_) => ExitCode::from(ROWS_REFUSED),
        Err(Failure::Write(error)) if error.kind() == io::ErrorKind::BrokenPipe => {
            ExitCode::SUCCESS
        }
        Err(failure) => refused(&failure.to_string()),
    }
}

/// Returns how many rows there were, having answered them.
fn answered(words: &[OsString]) -> Result<Counts, Failure> {
    let mut settings = Settings::of(words).map_err(Failure::Refused)?;
    settings.progress |= raw::told_to_a_terminal();
    let (output, sentences) = (io::stdout().lock(), io::stderr());
    match &settings.file {
        None => file::answer(&settings, io::stdin().lock(), output, sentences),
        Some(path) => {
            let unopened = |error| format!("‘{}’ cannot be opened: {error}.", path.display());
            let input = File::open(path).map_err(|error| Failure::Refused(unopened(error)))?;
            file::answer(&settings, input, output, sentences)
        }
    }
}

/// Returns the exit status of a refusal, having told it.
fn refused(sentence: &str) -> ExitCode {
    eprintln!("viewer: {sentence}");
    ExitCode::from(REFUSED)
}

/// Returns the exit status of a write. A reader that has seen enough is no failure.
fn written(result: io::Result<()>) -> ExitCode {
    match result {
        Err(error) if error.kind() != io::ErrorKind::BrokenPipe => {
            eprintln!("viewer: {error}");
            ExitCode::FAILURE
        }
        _ => ExitCode::SUCCESS,
    }
}
