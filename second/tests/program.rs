//! The program itself: its lines, its ends of input and its usage.

use std::io::Write;
use std::process::{Command, Output, Stdio};

/// Returns what the program gives for arguments and an input.
fn run(arguments: &[&str], input: &[u8]) -> Output {
    let mut child = Command::new(env!("CARGO_BIN_EXE_second"))
        .args(arguments)
        .stdin(Stdio::piped())
        .stdout(Stdio::piped())
        .stderr(Stdio::piped())
        .spawn()
        .expect("the program starts");
    let mut to_child = child.stdin.take().expect("the program has an input");
    let _ = to_child.write_all(input);
    drop(to_child);
    child.wait_with_output().expect("the program ends")
}

/// Returns the text that the program writes for arguments and an input, once it has succeeded.
fn output(arguments: &[&str], input: &[u8]) -> String {
    let output = run(arguments, input);
    assert!(output.status.success());
    String::from_utf8(output.stdout).expect("the output is text")
}

#[test]
fn the_whole_case_of_the_line_program() {
    let whole = "000B0000231D\n000B0000231D\nE3\nE5\n";
    assert_eq!(output(&["lines"], b"00023\n0003F\n00022\n00g40\n"), whole);
    assert_eq!(output(&["lines"], b"00023\n0003F\n00022\n00g40"), whole);
}

#[test]
fn lines_end_at_0a_or_at_the_end_of_the_input() {
    assert_eq!(output(&["lines"], b""), "");
    assert_eq!(output(&["lines"], b"\n"), "E5\n");
    assert_eq!(output(&["lines"], b"\n\n00023"), "E5\nE5\n000B0000231D\n");
    assert_eq!(output(&["lines"], b"00023\n\n"), "000B0000231D\nE5\n");
    assert_eq!(output(&["desk"], b""), "");
    assert_eq!(output(&["desk"], b"\n"), "refused 5\n");
    assert_eq!(output(&["desk"], b"\nname 0"), "refused 5\n0 0 0\n");
    assert_eq!(output(&["desk"], b"name 0\n\n"), "0 0 0\nrefused 5\n");
}

#[test]
fn lines_that_are_not_five_digits_are_one_refusal_5_each() {
    let bad = "0002\n000023\n0002f\n00023\r\n 00023\n00023 \n+0023\n0x023\nE3\n0002G\n0002@\n";
    let refused = "E5\n".repeat(11);
    assert_eq!(output(&["lines"], bad.as_bytes()), refused);
    assert_eq!(output(&["lines"], b"000\x0023\n0002\xff\n"), "E5\nE5\n");
}

#[test]
fn lines_beyond_the_days_are_refused_with_3() {
    let asked = b"00000\n00022\n00023\n592D4\n592D5\nFFFFF\n";
    let told = output(&["lines"], asked);
    let told: Vec<&str> = told.lines().collect();
    assert_eq!(told[..3], ["E3", "E3", "000B0000231D"]);
    assert!(told[3].starts_with("3E7A0"));
    assert_eq!(told[4..], ["E3", "E3"]);
}

#[test]
fn the_leap_month_of_year_0_is_marked() {
    // Day 340 = 154 in hexadecimal: year 0, leap 8, first day 329 = 149, 30 = 1E days.
    assert_eq!(output(&["lines"], b"00154"), "00081001491E\n");
}

#[test]
fn overlong_lines_are_one_refusal_each() {
    for length in [
        255, 256, 1022, 1023, 1024, 1025, 65_535, 65_536, 65_537, 300_000,
    ] {
        for byte in [b' ', b'0', b'x', 0] {
            let line = vec![byte; length];
            let input = [line.as_slice(), b"\n", line.as_slice()].concat();
            assert_eq!(output(&["desk"], &input), "refused 5\nrefused 5\n");
            assert_eq!(output(&["lines"], &input), "E5\nE5\n");
        }
    }
}

#[test]
fn a_line_is_read_to_its_last_byte() {
    let longest = ["sheet", &" name 0 35".repeat(101), " leap 10"].concat();
    let input = format!("{longest}\n{longest}0\n{longest}");
    let told = output(&["desk"], input.as_bytes());
    let told: Vec<&str> = told.lines().collect();
    assert_eq!(told.len(), 3);
    assert_eq!(told[0], told[2]);
    assert!(told[0].starts_with("0 "));
    assert_eq!(told[1], "refused 5");
    assert_eq!(output(&["desk", &longest], b""), format!("{}\n", told[0]));
    assert_eq!(
        output(&["desk", &longest, "leap", "10"], b""),
        "refused 5\n"
    );
}

#[test]
fn the_words_of_a_question_are_joined_by_one_blank() {
    assert_eq!(output(&["desk", "day", "340"], b""), "0 10 12 329 30 8 1\n");
    assert_eq!(output(&["desk", "day 340"], b""), "0 10 12 329 30 8 1\n");
    assert_eq!(output(&["desk", ""], b"day 340"), "refused 5\n");
    assert_eq!(output(&["desk", "day", "", "340"], b""), "refused 5\n");
    assert_eq!(output(&["desk", "day", "34"], b""), "refused 3\n");
}

#[test]
fn an_unknown_usage_gives_the_help_text_and_2() {
    let usages: [&[&str]; 8] = [
        &[],
        &["x"],
        &["ask"],
        &["ask", "x"],
        &["ask", "names", "x"],
        &["facts", "x"],
        &["lines", "x"],
        &["names", "x"],
    ];
    for usage in usages {
        let output = run(usage, b"");
        assert_eq!(output.status.code(), Some(2), "{usage:?}");
        assert!(output.stdout.is_empty());
        assert!(!output.stderr.is_empty());
    }
}

#[test]
fn the_facts_hold() {
    assert_eq!(output(&["facts"], b"").lines().count(), 1);
}

/// Returns the numbers of a text, commas between their digits left out.
fn numbers(text: &str) -> Vec<String> {
    text.replace(',', "")
        .split(|each: char| !each.is_ascii_digit() && each != '.')
        .map(|number| number.trim_matches('.').to_string())
        .filter(|number| !number.is_empty())
        .collect()
}

#[test]
fn the_page_on_sheets_has_the_figures_of_the_names() {
    let path = format!("{}/../docs/SHEETS.md", env!("CARGO_MANIFEST_DIR"));
    let page = std::fs::read_to_string(&path).expect("the page can be read");
    let section = page.split("\n## How many names it takes\n").nth(1);
    let section = section.expect("the page has the section");
    let section = section.split("\n## ").next().expect("a text has a start");
    let told = output(&["names"], b"");
    // a block holds lines of the command, in order
    let mut quoted = 0;
    for block in section.split("```").skip(1).step_by(2) {
        let mut told = told.lines();
        for line in block.lines().skip(2) {
            assert!(told.any(|each| each == line), "{line}");
            quoted += 1;
        }
    }
    assert_eq!(quoted, 22);
    // a figure of the prose is one of the commands, their list of years left out
    let figures = told.lines().filter(|line| !line.starts_with("not "));
    let known: Vec<String> = figures.flat_map(numbers).collect();
    let known = [known, numbers(&output(&["facts"], b""))].concat();
    for prose in section.split("```").step_by(2) {
        for number in numbers(prose) {
            let known = known.contains(&number) || ["29", "30", "100"].contains(&number.as_str());
            assert!(known, "{number}");
        }
    }
}
