//! The front end for a file of days: its rows against the second program, and every wrong input.

use lengadriu_viewer::file::{self, Base, Column, Counts, Failure, Settings};
use second::calendar::{self, Months};
use second::lines;
use std::fs::{self, File};
use std::io::{self, Read, Write};
use std::path::{Path, PathBuf};
use std::process::{Command, Output, Stdio};

const HEADER: &str =
    "line,asked,running_day,civil_year,year_name,month,day_of_month,day_name,month_line,refused\n";

const STEMS: [&str; 10] = ["甲", "乙", "丙", "丁", "戊", "己", "庚", "辛", "壬", "癸"];
const BRANCHES: [&str; 12] = [
    "子", "丑", "寅", "卯", "辰", "巳", "午", "未", "申", "酉", "戌", "亥",
];

/// How a day is written.
type Digits = fn(u64) -> String;

/// Returns settings for a base without any other flag.
fn settings(base: Base) -> Settings {
    Settings {
        base,
        column: Column::Unsaid,
        progress: false,
        file: None,
    }
}

/// Returns the counts, the rows without their header line, and the sentences for an input.
fn filed(settings: &Settings, input: &[u8]) -> (Counts, String, String) {
    let (mut output, mut sentences) = (Vec::new(), Vec::new());
    let counts = file::answer(settings, input, &mut output, &mut sentences).unwrap();
    let output = String::from_utf8(output).unwrap();
    let rows = output
        .strip_prefix(HEADER)
        .expect("the header comes first")
        .to_string();
    (counts, rows, String::from_utf8(sentences).unwrap())
}

/// Returns the rows for an input in decimal digits.
fn decimal(input: &str) -> String {
    filed(&settings(Base::Decimal), input.as_bytes()).1
}

/// Returns the rows for an input in hexadecimal digits.
fn hexadecimal(input: &str) -> String {
    filed(&settings(Base::Hexadecimal), input.as_bytes()).1
}

/// Returns what the command does with some words and an input.
fn viewer(words: &[&str], input: &[u8]) -> Output {
    let mut child = Command::new(env!("CARGO_BIN_EXE_viewer"))
        .arg("file")
        .args(words)
        .stdin(Stdio::piped())
        .stdout(Stdio::piped())
        .stderr(Stdio::piped())
        .spawn()
        .expect("the command starts");
    // a command that is refused reads nothing
    let _ = child.stdin.take().unwrap().write_all(input);
    child.wait_with_output().unwrap()
}

/// Returns the sentence with which the command is refused, having written no row.
fn refused(words: &[&str], input: &[u8]) -> String {
    let output = viewer(words, input);
    assert_eq!(output.status.code(), Some(2), "{words:?}");
    assert!(output.stdout.is_empty(), "{words:?}");
    String::from_utf8(output.stderr).unwrap()
}

/// Returns the path of a new file with a text.
fn written(name: &str, text: &[u8]) -> PathBuf {
    let path = Path::new(env!("CARGO_TARGET_TMPDIR")).join(name);
    fs::write(&path, text).unwrap();
    path
}

/// Returns the row that the second program's reply about a day stands for, without its line number and what was asked.
fn expected(months: &Months, day: u64) -> String {
    let reply = months.day(day).unwrap();
    let number = reply.month.number;
    // months 11 and 12 begin the list of a solstice year and are of the civil year before
    let civil = 1281 + reply.year - i128::from(number == 11 || number == 12);
    let name = |count| {
        let (stem, branch) = (calendar::stem(count), calendar::branch(count));
        format!("{}{}", STEMS[stem as usize], BRANCHES[branch as usize])
    };
    let leap = if reply.month.leap { "leap " } else { "" };
    let line = lines::reply(months, format!("{day:05X}").as_bytes());
    format!(
        "{day},{civil},{},{leap}{number},{},{},{line},",
        name(civil - 4),
        reply.day_of_month,
        name(day.into()),
    )
}

#[test]
fn every_day_in_decimal_and_in_hexadecimal() {
    let months = Months::listed();
    let days = || 35..=365_268_u64;
    let asked: [(Base, Digits); 2] = [
        (Base::Decimal, |day| format!("{day:05}")),
        (Base::Hexadecimal, |day| format!("{day:05x}")),
    ];
    for (base, asked) in asked {
        let input: String = days().map(|day| asked(day) + "\n").collect();
        let (counts, rows, sentences) = filed(&settings(base), input.as_bytes());
        assert_eq!((counts.rows, counts.refused), (365_234, 0));
        assert!(sentences.is_empty());
        let mut rows = rows.lines();
        for (line, day) in days().enumerate() {
            let row = format!("{},{},{}", line + 1, asked(day), expected(&months, day));
            assert_eq!(rows.next(), Some(row.as_str()));
        }
        assert_eq!(rows.next(), None);
    }
}

#[test]
fn rows_keep_the_order_of_the_input_and_do_not_hang_on_each_other() {
    let months = Months::listed();
    let days: Vec<u64> = (0..60_000).map(|at| 35 + at * 104_729 % 365_234).collect();
    let input: String = days.iter().map(|day| format!("{day}\n34\n")).collect();
    let (counts, rows, _) = filed(&settings(Base::Decimal), input.as_bytes());
    assert_eq!((counts.rows, counts.refused), (120_000, 60_000));
    for (at, (day, rows)) in days
        .iter()
        .zip(rows.lines().collect::<Vec<_>>().chunks(2))
        .enumerate()
    {
        let answered = format!("{},{day},{}", 2 * at + 1, expected(&months, *day));
        let refused = format!("{},34,,,,,,,,3", 2 * at + 2);
        assert_eq!(rows, [answered, refused]);
    }
}

#[test]
fn days_that_the_histories_tell() {
    let told = [
        // Wen Tianxiang's death; Khubilai's; the Ming's beginning; the third Ming emperor enthroned; Tumu; Wanli's death; the end
        (811, "1282,壬午,12,9,乙未"),
        (4_869, "1294,甲午,1,22,癸酉"),
        (31_871, "1368,戊申,1,4,乙亥"),
        (44_465, "1402,壬午,6,17,己巳"),
        (61_678, "1449,己巳,8,15,壬戌"),
        (124_112, "1620,庚申,7,21,丙申"),
        (132_763, "1644,甲申,3,19,丁未"),
        (340, "1281,辛巳,leap 8,12,甲辰"),
        // the first month of the list of solstice year 0, which is of the civil year before, and the first of the next
        (35, "1280,庚辰,11,1,己亥"),
        (94, "1281,辛巳,1,1,戊戌"),
    ];
    for (day, date) in told {
        let row = decimal(&day.to_string());
        assert!(
            row.starts_with(&format!("1,{day},{day},{date},")),
            "{row}{date}"
        );
    }
}

#[test]
fn the_same_digits_are_two_days() {
    assert!(decimal("00340\n").starts_with("1,00340,340,1281,辛巳,leap 8,12,"));
    assert!(hexadecimal("00340\n").starts_with("1,00340,832,1283,癸未,1,1,"));
    for words in [&[][..], &["-"], &["--column", "2"], &["--progress"]] {
        let sentence = refused(words, b"00340\n");
        assert_eq!(
            sentence,
            "viewer: Say ‘--decimal’ or ‘--hexadecimal’, since ‘00340’ is running day 340 in decimal and running \
             day 832 in hexadecimal (refusal 5).\n"
        );
    }
}

#[test]
fn what_is_taken_as_meant() {
    let rest = "340,1281,辛巳,leap 8,12,甲辰,00081001491E,\n";
    for (given, asked) in [
        ("340", "340"),
        ("340\n", "340"),
        ("340\r\n", "340"),
        ("\u{FEFF}340\r\n", "340"),
        ("\u{FEFF}\"340\"\n", "340"),
        ("0000000000000000000000340\n", "0000000000000000000000340"),
        (" \t340\t \n", " \t340\t "),
        ("\"340\"\n", "340"),
        (" \"340\" \r\n", "340"),
        ("\" 340\"\n", " 340"),
    ] {
        assert_eq!(decimal(given), format!("1,{asked},{rest}"), "{given:?}");
    }
    for given in ["154", "00154", "00000154", " 154\r\n", "\u{FEFF}154"] {
        assert!(hexadecimal(given).ends_with(rest), "{given:?}");
    }
    let small = hexadecimal("592d4\n");
    assert!(small.starts_with("1,592d4,365268,2280,庚申,10,30,"));
    assert_eq!(hexadecimal("592D4\n"), small.replace("592d4", "592D4"));
    // a byte order mark begins an input and no other line, and a line has one end
    assert!(decimal("340\n\u{FEFF}340\n").ends_with("\n2,\u{FEFF}340,,,,,,,,5\n"));
    assert_eq!(decimal("340\r\r\n"), "1,\"340\r\",,,,,,,,5\n");
    assert!(hexadecimal("0014a\n0014A\n0014a")
        .lines()
        .all(|row| row.contains(",330,1281,")));
}

#[test]
fn empty_lines_are_passed_over_and_counted() {
    let (counts, rows, sentences) = filed(&settings(Base::Decimal), b"\n340\n\r\n \t\n34\n\n");
    let lines: Vec<&str> = rows.lines().collect();
    assert_eq!((counts.rows, counts.refused, counts.empty_lines), (2, 1, 4));
    assert!(lines[0].starts_with("2,340,340,"));
    assert_eq!(lines[1], "5,34,,,,,,,,3");
    assert!(sentences.ends_with("viewer: 2 rows, 1 refused, 4 empty lines passed over.\n"));
    // an empty column of a row is a row without a day
    assert_eq!(decimal("\"\"\n"), "1,,,,,,,,,5\n");
}

#[test]
fn an_input_without_rows_is_told() {
    for input in [&b""[..], b"\n", b"\xEF\xBB\xBF", b" \r\n"] {
        let (counts, rows, sentences) = filed(&settings(Base::Decimal), input);
        assert_eq!((counts.rows, rows.as_str()), (0, ""));
        assert!(sentences.starts_with("viewer: 0 rows, 0 refused"));
    }
}

#[test]
fn a_refused_row_has_its_number_and_a_sentence_and_no_day() {
    let number = "is not a number in decimal digits (refusal 5).";
    let outside = "in decimal digits is refused: it lies outside the calendar's days, 35 to 365,268 (refusal 3).";
    for (given, refusal, why) in [
        ("00g40", 5, number),
        ("+340", 5, number),
        ("-340", 5, number),
        ("340.0", 5, number),
        ("340.", 5, number),
        ("3e2", 5, number),
        ("0x154", 5, number),
        ("154h", 5, number),
        ("0014A", 5, number),
        ("35 123", 5, number),
        ("35'123", 5, number),
        ("35_123", 5, number),
        ("35.123", 5, number),
        ("340;1", 5, number),
        ("day 340", 5, number),
        ("３４０", 5, number),
        ("三百四十", 5, number),
        ("\u{A0}340", 5, number),
        ("340\u{FEFF}", 5, number),
        ("0", 3, outside),
        ("34", 3, outside),
        ("365269", 3, outside),
        ("4294967331", 3, outside),
        ("18446744073709551651", 3, outside),
        ("99999999999999999999999999999999999999999", 3, outside),
    ] {
        let (counts, rows, sentences) = filed(&settings(Base::Decimal), given.as_bytes());
        assert_eq!((counts.rows, counts.refused), (1, 1));
        assert_eq!(rows, format!("1,{given},,,,,,,,{refusal}\n"));
        let shown: String = given.chars().take(40).collect();
        let more = if shown == given { "" } else { "…" };
        assert_eq!(
            sentences,
            format!("viewer: line 1: ‘{shown}{more}’ {why}\nviewer: 1 row, 1 refused.\n")
        );
    }
    for given in ["0x154", "154h", "00G40", "-154", "1.5", "１５４"] {
        let (_, rows, sentences) = filed(&settings(Base::Hexadecimal), given.as_bytes());
        assert_eq!(rows, format!("1,{given},,,,,,,,5\n"));
        assert!(sentences.contains("is not a number in hexadecimal digits (refusal 5)"));
    }
    assert_eq!(hexadecimal("00022\n"), "1,00022,,,,,,,,3\n");
    assert_eq!(hexadecimal("592d5\n"), "1,592d5,,,,,,,,3\n");
}

#[test]
fn bytes_that_are_no_text_are_refused_and_disturb_no_reader() {
    let (_, rows, sentences) = filed(
        &settings(Base::Decimal),
        b"34\xFF0\n\x1B[2J340\n34\r0\n340\n",
    );
    let lines: Vec<&str> = rows.split('\n').collect();
    assert_eq!(lines[0], "1,34\u{FFFD}0,,,,,,,,5");
    assert_eq!(lines[1], "2,\u{1B}[2J340,,,,,,,,5");
    assert_eq!(lines[2], "3,\"34\r0\",,,,,,,,5");
    assert!(lines[3].starts_with("4,340,340,1281,"));
    assert!(!sentences.contains('\u{1B}') && !sentences.contains('\r'));
}

#[test]
fn a_number_with_a_thousands_mark_is_not_taken_for_columns() {
    let first = settings(Base::Decimal);
    for given in ["35,123", "340,000", "100,234,567"] {
        let (counts, rows, sentences) = filed(&first, given.as_bytes());
        assert_eq!((counts.rows, counts.refused), (1, 1));
        assert_eq!(rows, format!("1,\"{given}\",,,,,,,,5\n"));
        assert!(sentences.contains("may be one number with a thousands mark"));
    }
    assert_eq!(decimal("\"35,123\"\n"), "1,\"35,123\",,,,,,,,5\n");
    // where the column is said there is no doubt, nor with other lengths
    let said = Settings {
        column: Column::Place(0),
        ..first
    };
    assert!(filed(&said, b"340,123\n").1.starts_with("1,340,340,1281,"));
    assert!(decimal("340,12\n").starts_with("1,340,340,1281,"));
    assert!(decimal("340,Almanac\n").starts_with("1,340,340,1281,"));
}

#[test]
fn columns_by_number_and_by_name() {
    let rows = b"sheet,\"title, with \"\"marks\"\"\",day\n1,\"Almanac, 1281\",340\n2,\"a \"\"b\"\" c\", \"35\" \n3,,x\n";
    let by_name = viewer(&["--decimal", "--column", "day"], rows);
    let text = String::from_utf8(by_name.stdout).unwrap();
    assert_eq!(
        text,
        format!(
            "{HEADER}2,340,340,1281,辛巳,leap 8,12,甲辰,00081001491E,\n\
             3,35,35,1280,庚辰,11,1,己亥,000B0000231D,\n\
             4,x,,,,,,,,5\n"
        )
    );
    assert_eq!(by_name.status.code(), Some(1));
    // by number every line is a row, a header too
    let by_number = viewer(&["--column", "3", "--decimal", "-"], rows);
    let header = format!("{HEADER}1,day,,,,,,,,5\n");
    assert_eq!(
        String::from_utf8(by_number.stdout).unwrap(),
        text.replace(HEADER, &header)
    );
    let name = viewer(
        &["--decimal", "--column", "title, with \"marks\""],
        b"\xEF\xBB\xBF\"title, with \"\"marks\"\"\" ,b\r\n340,1\r\n",
    );
    assert_eq!(name.status.code(), Some(0));
    assert!(String::from_utf8(name.stdout)
        .unwrap()
        .contains("\n2,340,340,"));
}

#[test]
fn a_header_that_does_not_name_the_column_refuses_the_command() {
    let words = ["--decimal", "--column", "day"];
    for (input, why) in [
        (
            "sheet,Day\n1,340\n",
            "The header line ‘sheet,Day’ has no column ‘day’",
        ),
        (
            "day,a,day\n340,1,340\n",
            "The header line ‘day,a,day’ has more than one column ‘day’",
        ),
        (
            "\"day\n340\n",
            "The header line ‘\"day’ cannot be taken apart into columns",
        ),
        ("340\n", "The header line ‘340’ has no column ‘day’"),
        ("", "The input has no header line"),
        ("\n\n", "The input has no header line"),
    ] {
        let sentence = refused(&words, input.as_bytes());
        assert_eq!(sentence, format!("viewer: {why} (refusal 5).\n"));
    }
}

#[test]
fn a_row_with_other_columns_is_refused() {
    let third = Settings {
        column: Column::Place(2),
        ..settings(Base::Decimal)
    };
    // a comma that was not meant would move the sheet's number into the column of the day
    let (_, rows, sentences) = filed(&third, b"a,120,340\nb,c,120,340\nd,340\n");
    let rows: Vec<&str> = rows.lines().collect();
    assert!(rows[0].starts_with("1,340,340,1281,"));
    assert_eq!(rows[1], "2,\"b,c,120,340\",,,,,,,,5");
    assert_eq!(rows[2], "3,\"d,340\",,,,,,,,5");
    assert!(
        sentences.contains("line 2: ‘b,c,120,340’ has 4 columns, and line 1 has 3 (refusal 5).\n")
    );
    let (_, rows, sentences) = filed(&third, b"340\n");
    assert_eq!(rows, "1,340,,,,,,,,5\n");
    assert!(sentences.contains("‘340’ has 1 column, and no column 3 (refusal 5).\n"));
}

#[test]
fn quotation_marks_that_do_not_fit_are_refused() {
    for given in [
        "34\"0",
        "\"340\"1",
        "\"34\"0\"",
        "340,12\" plate",
        "340,\"a\" b",
    ] {
        let (_, rows, sentences) = filed(&settings(Base::Decimal), given.as_bytes());
        let asked = format!("\"{}\"", given.replace('"', "\"\""));
        assert_eq!(rows, format!("1,{asked},,,,,,,,5\n"));
        assert!(sentences.contains("has a quotation mark inside a column (refusal 5)"));
    }
    // the row after it is read as if nothing had been
    assert!(decimal("34\"0\n340\n").contains("\n2,340,340,1281,"));
}

#[test]
fn no_line_inside_quotation_marks_is_taken_for_a_row() {
    let input = b"340,\"a\n341,b\n342\n\n343,\"\"\n344\",\"c\"\n345,d\n346,\"e\n347,f\",\"g\n348,h\",i\n349,j\n";
    let (counts, rows, sentences) = filed(&settings(Base::Decimal), input);
    let answered: Vec<&str> = rows.lines().filter(|row| !row.ends_with('5')).collect();
    assert_eq!((counts.rows, counts.refused), (10, 8));
    assert_eq!(answered.len(), 2);
    assert!(answered[0].starts_with("7,345,345,"));
    assert!(answered[1].starts_with("11,349,349,"));
    assert!(sentences.contains(
        "line 1: ‘340,\"a’ has a quotation mark that its line does not close (refusal 5).\n"
    ));
    assert!(sentences
        .contains("line 3: ‘342’ lies inside a quotation mark opened on line 1 (refusal 5).\n"));
    assert!(
        sentences.contains("line 10: ‘348,h\",i’ lies inside a quotation mark opened on line 8")
    );
    // one that is never closed refuses each line up to the end
    let (counts, rows, _) = filed(&settings(Base::Decimal), b"340\n\"340\n341\n342\n");
    assert_eq!((counts.rows, counts.refused), (4, 3));
    assert!(rows.ends_with("3,341,,,,,,,,5\n4,342,,,,,,,,5\n"));
}

#[test]
fn lines_of_any_length() {
    let longest = 1 << 20;
    for (length, answered) in [
        (longest - 1, true),
        (longest, true),
        (longest + 1, false),
        (5 * longest, false),
    ] {
        let zeros = "0".repeat(length - 3);
        for end in ["\n", ""] {
            let input = format!("341\n{zeros}340{end}");
            let (counts, rows, sentences) = filed(&settings(Base::Decimal), input.as_bytes());
            assert_eq!((counts.rows, counts.refused == 0), (2, answered));
            let rows: Vec<&str> = rows.lines().collect();
            if answered {
                assert!(rows[1].ends_with("340,340,1281,辛巳,leap 8,12,甲辰,00081001491E,"));
            } else {
                assert_eq!(rows[1], "2,,,,,,,,,5");
                assert!(sentences.contains("the line is longer than 1048576 bytes (refusal 5)"));
            }
        }
    }
    let (counts, rows, _) = filed(
        &settings(Base::Decimal),
        format!("{}\n340\n", "0".repeat(3 * longest)).as_bytes(),
    );
    assert_eq!((counts.rows, counts.refused), (2, 1));
    assert!(rows.contains("\n2,340,340,1281,"));
}

/// An input that comes in pieces, and may fail at its end.
struct Pieces<'a> {
    rest: &'a [u8],
    size: usize,
    fails: bool,
    interrupted: bool,
}

impl Read for Pieces<'_> {
    fn read(&mut self, row: &mut [u8]) -> io::Result<usize> {
        self.interrupted = !self.interrupted;
        if self.interrupted {
            return Err(io::ErrorKind::Interrupted.into());
        }
        if self.rest.is_empty() && self.fails {
            return Err(io::Error::new(io::ErrorKind::Other, "the disk is gone"));
        }
        let piece = &self.rest[..self.size.min(self.rest.len()).min(row.len())];
        row[..piece.len()].copy_from_slice(piece);
        self.rest = &self.rest[piece.len()..];
        Ok(piece.len())
    }
}

#[test]
fn however_the_input_comes() {
    let input = "\u{FEFF}340\r\n\n00g40\n\"35\"\n 36,\n341".as_bytes();
    let whole = filed(&settings(Base::Decimal), input);
    for size in 1..=input.len() {
        let pieces = Pieces {
            rest: input,
            size,
            fails: false,
            interrupted: false,
        };
        let (mut output, mut sentences) = (Vec::new(), Vec::new());
        let settings = settings(Base::Decimal);
        let counts = file::answer(&settings, pieces, &mut output, &mut sentences).unwrap();
        assert_eq!(counts, whole.0);
        assert_eq!(
            String::from_utf8(output).unwrap(),
            HEADER.to_string() + &whole.1
        );
        assert_eq!(String::from_utf8(sentences).unwrap(), whole.2);
    }
}

#[test]
fn a_failed_read_is_told_and_a_line_whose_end_was_not_seen_gets_no_reply() {
    for (input, rows, sentence) in [
        ("340\n34", 1, "The input could not be read to its end, and nothing after line 1 is answered: the disk is gone."),
        ("340\n", 1, "The input could not be read to its end, and nothing after line 1 is answered: the disk is gone."),
        ("", 0, "The input could not be read: the disk is gone."),
    ] {
        let pieces = Pieces {
            rest: input.as_bytes(),
            size: 3,
            fails: true,
            interrupted: false,
        };
        let mut output = Vec::new();
        let failure =
            file::answer(&settings(Base::Decimal), pieces, &mut output, io::sink()).unwrap_err();
        assert!(matches!(failure, Failure::Read(..)));
        assert_eq!(failure.to_string(), sentence);
        let written = String::from_utf8(output).unwrap();
        assert_eq!(written.matches(",340,340,").count(), rows);
        assert!(!written.contains(",34,"));
    }
    // a folder opens and cannot be read
    assert!(refused(&["--decimal", "."], b"").contains("The input could not be read: "));
}

#[test]
fn a_failed_write_is_told_with_status_2() {
    let full = File::options().write(true).open("/dev/full").unwrap();
    let path = written("one_day.txt", b"340\n");
    let output = Command::new(env!("CARGO_BIN_EXE_viewer"))
        .args(["file", "--decimal"])
        .arg(path)
        .stdout(full)
        .output()
        .unwrap();
    assert_eq!(output.status.code(), Some(2));
    let sentence = String::from_utf8(output.stderr).unwrap();
    assert!(sentence.starts_with("viewer: The output is cut short: "));
}

#[test]
fn a_reader_that_stops_is_no_failure() {
    let days: String = (35..300_000).map(|day| format!("{day}\n")).collect();
    let path = written("many_days.txt", days.as_bytes());
    let shell = format!(
        "{} file --decimal {} | head -n 1",
        env!("CARGO_BIN_EXE_viewer"),
        path.display()
    );
    let output = Command::new("sh").args(["-c", &shell]).output().unwrap();
    assert_eq!(String::from_utf8(output.stdout).unwrap(), HEADER);
    assert!(output.stderr.is_empty());
}

#[test]
fn exit_statuses() {
    let status = |words: &[&str], input: &[u8]| viewer(words, input).status.code();
    assert_eq!(status(&["--decimal"], b"340\n"), Some(0));
    assert_eq!(status(&["--decimal", "-"], b"340\n"), Some(0));
    assert_eq!(status(&["--decimal"], b""), Some(0));
    assert_eq!(status(&["--decimal"], b"340\n34\n"), Some(1));
    assert_eq!(status(&["--hexadecimal"], b"0014G\n"), Some(1));
    assert_eq!(status(&[], b"340\n"), Some(2));
    let path = written("two_days.txt", b"340\r\n35");
    let path = path.to_str().unwrap();
    let output = viewer(&["--decimal", path], b"99\n");
    assert_eq!(output.status.code(), Some(0));
    assert!(output.stderr.is_empty());
    let text = String::from_utf8(output.stdout).unwrap();
    assert_eq!(text.lines().count(), 3);
    assert!(text.contains("\n2,35,35,1280,"));
}

#[test]
fn a_command_that_is_not_understood_is_refused() {
    let bad: [(&[&str], &str); 12] = [
        (
            &["--decimal", "--hexadecimal"],
            "‘--decimal’ or ‘--hexadecimal’ is given more than once",
        ),
        (
            &["--decimal", "--decimal"],
            "‘--decimal’ or ‘--hexadecimal’ is given more than once",
        ),
        (
            &["--decimal", "--column"],
            "‘--column’ wants a number or a name",
        ),
        (
            &["--decimal", "--column", ""],
            "‘--column’ wants a number or a name",
        ),
        (
            &["--decimal", "--column", "0"],
            "Columns are counted from 1, and there is no column 0",
        ),
        (
            &["--decimal", "--column", "99999999999999999999"],
            "There is no column 99999999999999999999",
        ),
        (
            &["--decimal", "--column", "1", "--column", "2"],
            "‘--column’ is given more than once",
        ),
        (
            &["--decimal", "--column=1"],
            "‘--column=1’ is no flag of ‘viewer file’",
        ),
        (&["--dec"], "‘--dec’ is no flag of ‘viewer file’"),
        (&["--decimal", "-x"], "‘-x’ is no flag of ‘viewer file’"),
        (&["--decimal", "a", "b"], "A file is given more than once"),
        (&["--decimal", "-", "b"], "A file is given more than once"),
    ];
    for (words, why) in bad {
        let said =
            format!("viewer: {why}; ‘viewer help file’ says what can be asked (refusal 5).\n");
        assert_eq!(refused(words, b"340\n"), said);
    }
    let sentence = refused(&["--decimal", "no such file"], b"");
    assert!(sentence.starts_with("viewer: ‘no such file’ cannot be opened: "));
}

#[test]
fn progress_is_told_where_it_is_asked_for() {
    let days = "340\n".repeat(250_000) + "34\n";
    let asked = Settings {
        progress: true,
        ..settings(Base::Decimal)
    };
    let (_, _, sentences) = filed(&asked, days.as_bytes());
    assert_eq!(sentences.matches(" rows, 0 refused").count(), 2);
    assert!(sentences.contains('\r'));
    let last: Vec<&str> = sentences.rsplit('\r').collect();
    assert_eq!(
        last[0],
        "viewer: line 250001: ‘34’ in decimal digits is refused: it lies outside the calendar's days, 35 to 365,268 \
         (refusal 3).\nviewer: 250001 rows, 1 refused.\n"
    );
    let quiet = filed(&settings(Base::Decimal), "340\n".repeat(250_000).as_bytes());
    assert_eq!(quiet.2, "");
    let output = viewer(&["--decimal", "--progress"], b"340\n");
    assert_eq!(
        String::from_utf8(output.stderr).unwrap(),
        "viewer: 1 row, 0 refused.\n"
    );
}

#[test]
fn help() {
    for words in [&["help", "file"][..], &["file", "--help"], &["file", "-h"]] {
        let output = Command::new(env!("CARGO_BIN_EXE_viewer"))
            .args(words)
            .output()
            .unwrap();
        assert_eq!(output.status.code(), Some(0));
        assert_eq!(String::from_utf8(output.stdout).unwrap(), file::HELP);
    }
    for column in HEADER.trim_end().split(',') {
        assert!(file::HELP.contains(&format!("\n  {column} ")), "{column}");
    }
}
