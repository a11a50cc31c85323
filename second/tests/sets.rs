//! The sets of questions: always the same, one question a line, and the replies as many.

use second::ask;
use second::calendar::Months;
use second::desk;
use second::sheet;

/// Returns the bytes of a set.
fn set(name: &str, count: u64) -> Vec<u8> {
    let mut bytes = Vec::new();
    assert!(ask::write(name, count, &mut bytes).expect("a row of bytes takes all"));
    bytes
}

/// Returns the lines of a set without their ends.
fn lines(set: &[u8]) -> Vec<&[u8]> {
    let body = set.strip_suffix(b"\n").expect("a set ends a line");
    body.split(|byte| *byte == b'\n').collect()
}

#[test]
fn a_set_is_always_the_same() {
    for name in ask::SETS {
        assert_eq!(set(name, 100), set(name, 100), "{name}");
    }
}

#[test]
fn the_sets_ask_all_that_they_promise() {
    assert!(lines(&set("years", 0)).len() > 102_000);
    assert!(lines(&set("lunations", 0)).len() > 296_832);
    assert!(lines(&set("days", 0)).len() > 365_301);
    let more = lines(&set("remainders", 1000)).len() - lines(&set("remainders", 0)).len();
    assert_eq!(more, 3000);
    let more = lines(&set("names", 1000)).len() - lines(&set("names", 0)).len();
    assert_eq!(more, 1000);
    let more = lines(&set("directs", 1000)).len() - lines(&set("directs", 0)).len();
    assert_eq!(more, 4000);
}

#[test]
fn only_damaged_lines_and_sheets_ask_what_is_no_question() {
    let months = Months::listed();
    for name in ask::SETS
        .iter()
        .filter(|name| !["damaged", "sheets", "hex"].contains(name))
    {
        for line in lines(&set(name, 10)) {
            if !line.starts_with(b"years") {
                assert_ne!(desk::reply(&months, line), "refused 5");
            }
        }
    }
}

#[test]
fn the_damaged_set_has_good_and_bad_lines_of_its_own_words_alone() {
    let months = Months::listed();
    let bytes = set("damaged", 20_000);
    let mut told = [0; 3];
    for line in lines(&bytes) {
        let word = line.split(|byte| *byte == b' ').next().unwrap();
        assert_ne!(word, ask::NOT_DAMAGED.as_bytes());
        let reply = desk::reply(&months, line);
        let known = ask::DAMAGED.iter().any(|(own, _)| own.as_bytes() == word);
        assert!(known || reply == "refused 5");
        match reply.as_str() {
            "refused 5" => told[0] += 1,
            reply if reply.starts_with("refused") => told[1] += 1,
            _ => told[2] += 1,
        }
    }
    assert!(told.iter().all(|times| *times > 1000), "{told:?}");
}

#[test]
fn every_word_of_the_desk_is_either_damaged_or_left_out() {
    let mut words: Vec<&str> = ask::DAMAGED.iter().map(|(word, _)| *word).collect();
    words.push(ask::NOT_DAMAGED);
    words.sort_unstable();
    let questions = desk::QUESTIONS.iter();
    let mut asked: Vec<&str> = questions
        .map(|question| question.split(' ').next().unwrap())
        .collect();
    asked.sort_unstable();
    assert_eq!(words, asked);
}

/// Returns how many of the replies to lines are none, one year, several, all, refused 2 and refused 5.
fn replies_by_kind(lines: &[&[u8]]) -> [usize; 6] {
    let months = Months::listed();
    let mut told = [0; 6];
    for line in lines {
        let reply = desk::reply(&months, line);
        let kind = match reply.as_str() {
            "none" => 0,
            "refused 2" => 4,
            "refused 5" => 5,
            years => match years.split(' ').count() {
                1 => 1,
                1000 => 3,
                _ => 2,
            },
        };
        told[kind] += 1;
    }
    told
}

#[test]
fn the_sheets_have_every_reply_often() {
    let (fixed, all) = (set("sheets", 0), set("sheets", 5000));
    let (fixed, all) = (lines(&fixed), lines(&all));
    let torn = &all[fixed.len()..];
    assert_eq!(all[..fixed.len()], fixed);
    assert_eq!(torn.len(), 5000);
    let told = replies_by_kind(torn);
    assert!(told.iter().all(|times| *times > 200), "{told:?}");
    // the sheet without marks is the only one that leaves all years
    let told = replies_by_kind(&fixed);
    assert_eq!(told[3], 1);
    let others = [told[0], told[1], told[2], told[4], told[5]];
    assert!(others.iter().all(|times| *times > 700), "{told:?}");
}

#[test]
fn the_sheets_have_all_that_they_promise() {
    let bytes = set("sheets", 5000);
    let lines = lines(&bytes);
    let months = Months::listed();
    for (year, list) in months.lists().iter().enumerate() {
        let whole = sheet::line(&sheet::whole(list));
        assert_eq!(lines[year], whole.as_bytes());
    }
    // the longest line is answered, and refused with one byte more
    let of_length = |length: usize, refused: bool| {
        let mut lines = lines.iter().filter(|line| line.len() == length);
        lines.any(|line| desk::reply(&months, line).starts_with("refused") == refused)
    };
    assert!(of_length(desk::LONGEST_LINE, false) && of_length(desk::LONGEST_LINE, true));
    assert!(!of_length(desk::LONGEST_LINE + 1, false) && of_length(desk::LONGEST_LINE + 1, true));
    // place 12 is asked with years left and with none, and so is a leap mark
    for word in ["name 12 ", "leap "] {
        let told: Vec<String> = lines
            .iter()
            .map(|line| String::from_utf8_lossy(line))
            .filter(|line| line.contains(word))
            .map(|line| desk::reply(&months, line.as_bytes()))
            .collect();
        let none = told.iter().filter(|reply| *reply == "none").count();
        let refused = told.iter().filter(|reply| reply.starts_with("refused"));
        assert!(
            none > 300 && told.len() - none - refused.count() > 300,
            "{word}"
        );
    }
}
