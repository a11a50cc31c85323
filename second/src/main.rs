//! The command line of the second program.

use second::calendar::Months;
use second::{ask, desk, facts, input, lines, names};
use std::io::{self, BufReader, BufWriter, Read, Write};
use std::os::fd::OwnedFd;
use std::os::unix::net::UnixStream;
use std::process::{Command, ExitCode};

const USAGE: &str = "\
second desk [WORDS..]     answer the question of the words, or one question a line of the input
second lines              the line program: a day of five hexadecimal digits a line of the input
second ask SET [COUNT]    write a set of questions for the desk, COUNT of each random kind
second facts              check what holds of all months together
second names              count how many names of first days it takes to single a year out
second failing COMMAND..  run a command on the input's bytes, and then on reads that fail
";

const BUFFER: usize = 1 << 16;

/// A program's reply to one line.
type Reply = fn(&Months, &[u8]) -> String;

/// Returns the exit code of the command that the arguments name.
fn main() -> ExitCode {
    let words: Vec<String> = std::env::args_os()
        .skip(1)
        .map(|word| word.to_string_lossy().into_owned())
        .collect();
    let words: Vec<&str> = words.iter().map(String::as_str).collect();
    let done = match words.as_slice() {
        ["desk"] => answer_lines(desk::reply),
        ["desk", question @ ..] => answer_words(question),
        ["lines"] => answer_lines(lines::reply),
        ["ask", set] => write_set(set, ask::DEFAULT_COUNT),
        ["ask", set, count] => match count.parse() {
            Ok(count) => write_set(set, count),
            Err(_) => return usage(),
        },
        ["facts"] => return check_facts(),
        ["names"] => write_names(),
        ["failing", command, arguments @ ..] => run_failing(command, arguments),
        _ => return usage(),
    };
    match done {
        Ok(true) => ExitCode::SUCCESS,
        Ok(false) => usage(),
        Err(error) => {
            eprintln!("second: {error}");
            ExitCode::FAILURE
        }
    }
}

/// Returns true, having answered every line of the standard input with a line.
fn answer_lines(reply: Reply) -> io::Result<bool> {
    let months = Months::listed();
    let mut input = BufReader::with_capacity(BUFFER, io::stdin());
    let mut output = BufWriter::with_capacity(BUFFER, io::stdout());
    let mut line = Vec::new();
    while input::next_line(&mut input, &mut line)? {
        writeln!(output, "{}", reply(&months, &line))?;
        if input.buffer().is_empty() {
            output.flush()?;
        }
    }
    output.flush()?;
    Ok(true)
}

/// Returns true, having answered the one question of the given words.
fn answer_words(words: &[&str]) -> io::Result<bool> {
    let line = words.join(" ");
    let reply = desk::reply(&Months::listed(), line.as_bytes());
    writeln!(io::stdout(), "{reply}")?;
    Ok(true)
}

/// Returns whether there is such a set of questions, having written it.
fn write_set(set: &str, count: u64) -> io::Result<bool> {
    let mut output = BufWriter::with_capacity(BUFFER, io::stdout());
    let known = ask::write(set, count, &mut output)?;
    output.flush()?;
    Ok(known)
}

/// Returns true, having written how many names it takes to single a year out.
fn write_names() -> io::Result<bool> {
    io::stdout().write_all(names::text(&Months::listed()).as_bytes())?;
    Ok(true)
}

/// Returns true, having run a command whose input fails after the bytes of the standard input: no end of it is ever seen.
fn run_failing(command: &str, arguments: &[&str]) -> io::Result<bool> {
    let mut bytes = Vec::new();
    io::stdin().read_to_end(&mut bytes)?;
    let (mut ours, theirs) = UnixStream::pair()?;
    ours.write_all(&bytes)?;
    // a read that would have to wait fails
    theirs.set_nonblocking(true)?;
    Command::new(command)
        .args(arguments)
        .stdin(OwnedFd::from(theirs))
        .status()?;
    Ok(true)
}

/// Returns success when all facts hold, having written their summary.
fn check_facts() -> ExitCode {
    match facts::check(&Months::listed()) {
        Ok(summary) => {
            println!("{summary}");
            ExitCode::SUCCESS
        }
        Err(failed) => {
            eprintln!("second: {failed}");
            ExitCode::FAILURE
        }
    }
}

/// Returns the exit code of a wrong usage, having written the help text.
fn usage() -> ExitCode {
    eprintln!("{USAGE}Sets: {}", ask::SETS.join(" "));
    ExitCode::from(2)
}
