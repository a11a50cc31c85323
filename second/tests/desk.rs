//! The desk's examples and its grammar.

use second::calendar::Months;
use second::desk;

/// Returns the desk's reply to a line.
fn reply(line: &[u8]) -> String {
    desk::reply(&Months::listed(), line)
}

#[test]
fn the_examples() {
    assert_eq!(reply(b"true 0 0"), "3521069168 35 21069168 35");
    assert_eq!(reply(b"day 340"), "0 10 12 329 30 8 1");
    assert_eq!(reply(b"hour 99999999"), "11 8");
    assert_eq!(reply(b"earth 0 3"), "refused 2");
    assert_eq!(reply(b"years 0 0"), "refused 1");
}

#[test]
fn every_question_has_its_reply() {
    let year_0 = "35:29:11:0 64:30:12:0 94:29:1:0";
    assert_eq!(reply(b"solstice 0"), "5506000000 55 6000000 55");
    assert_eq!(reply(b"solstice 1"), "42030250000 420 30250000 0");
    assert_eq!(reply(b"term 0 0"), "5506000000 55 6000000 55");
    assert_eq!(reply(b"pentad 0 0 1"), "6013281250 60 13281250 0");
    assert_eq!(reply(b"earth 0 2"), "8245318750 82 45318750 22");
    assert_eq!(reply(b"terms 0").split(' ').count(), 24);
    assert!(reply(b"terms 0").starts_with("5506000000 7027843750 8549687500 "));
    assert_eq!(reply(b"mean 0 0"), "3487500000 34 87500000 34");
    assert_eq!(reply(b"true 1 0"), "6479957652 64 79957652 4");
    assert_eq!(reply(b"solar 0 0"), "-93335814");
    assert_eq!(reply(b"lunar 0 0"), "-542779589");
    assert_eq!(reply(b"correction 0 0"), "33569168");
    assert_eq!(reply(b"motion 0 0"), "109786425");
    assert_eq!(reply(b"motion-at tardy 82"), "109786425");
    assert_eq!(reply(b"solar-at fast 0"), "0");
    assert_eq!(reply(b"solar-at slow 0"), "0");
    assert_eq!(reply(b"solar-at fast 8890922500"), "240142279");
    assert_eq!(reply(b"lunar-at quick 1377720000"), "0");
    assert_eq!(reply(b"lunar-at tardy 1377720000"), "0");
    assert_eq!(reply(b"name 55"), "55 5 7");
    assert_eq!(reply(b"name 420"), "0 0 0");
    assert_eq!(reply(b"name 18446744073709551615"), "15 5 3");
    assert_eq!(reply(b"extra 78156250"), "16");
    assert_eq!(reply(b"extra 78156249"), "none");
    assert_eq!(reply(b"vanishing 46940700"), "30");
    assert_eq!(reply(b"vanishing 46940701"), "none");
    assert_eq!(reply(b"head 0"), "0");
    assert_eq!(reply(b"day 35"), "0 0 1 35 29 11 0");
    assert_eq!(reply(b"back 0 10 12"), "340");
    assert!(reply(b"year 0").starts_with(year_0));
    assert_eq!(reply(b"year 0").split(' ').count(), 13);
    assert_eq!(reply(b"years 0 1"), reply(b"year 0"));
    assert_eq!(reply(b"years 0 1000").split(' ').count(), 12_368);
}

#[test]
fn a_run_is_its_years_one_after_another() {
    let years: Vec<String> = (3..8)
        .map(|year| reply(format!("year {year}").as_bytes()))
        .collect();
    assert_eq!(reply(b"years 3 5"), years.join(" "));
}

#[test]
fn the_constants_stand_with_every_place() {
    assert_eq!(
        reply(b"constants"),
        "day=100000000 fen=10000 miao=100 year=36524250000 half-year=18262125000 \
         month=2953059300 quarter=738264825 term=1521843750 pentad=507281250 earth=304368750 \
         anomalistic-month=2755460000 anomalistic-half=1377730000 solstice-epoch=5506000000 \
         leap-epoch=2018500000 anomaly-epoch=1319040000"
    );
}

#[test]
fn help_is_one_line_with_every_question() {
    let help = reply(b"help");
    assert!(!help.contains('\n'));
    assert!(help.contains("solar-at fast|slow T"));
    assert!(help
        .ends_with(", years N C, sheet [name P N|stem P S|branch P B|length P D|leap P].., help"));
    assert_eq!(help.split(", ").count(), 26);
}

#[test]
fn bad_lines_are_refused_with_5() {
    let overlong = [b"sheet".as_slice(), &b" name 0 35".repeat(102)].concat();
    let bad: [&[u8]; 34] = [
        b"",
        b" ",
        b"solstice",
        b"solstice ",
        b"solstice  0",
        b" solstice 0",
        b"solstice 0 ",
        b"solstice 0 0",
        b"solstice\t0",
        b"solstice 0\r",
        b"solstice 0\0",
        b"solstice 0\n",
        b"Solstice 0",
        b"SOLSTICE 0",
        b"solstices 0",
        b"solstic 0",
        b"solstice x",
        b"solstice +0",
        b"solstice -1",
        b"solstice 0x0",
        b"solstice 1.0",
        b"solstice 18446744073709551616",
        b"solstice 99999999999999999999",
        b"solstice 000000000000000000000",
        b"pentad 1000 24 x",
        b"constants 0",
        b"help help",
        b"solar-at 0 0",
        b"solar-at quick 0",
        b"lunar-at fast 0",
        b"motion-at fast 0",
        b"0 solstice",
        b"\xff 0",
        &overlong,
    ];
    for line in bad {
        assert_eq!(reply(line), "refused 5", "{line:?}");
    }
}

#[test]
fn numbers_may_lead_with_noughts_up_to_twenty_digits() {
    assert_eq!(
        reply(b"solstice 00000000000000000001"),
        reply(b"solstice 1")
    );
    assert_eq!(reply(b"name 00"), "0 0 0");
    assert_eq!(reply(b"solstice 18446744073709551615"), "refused 1");
}

#[test]
fn refusals_come_in_order() {
    assert_eq!(reply(b"pentad 1000 24 3"), "refused 1");
    assert_eq!(reply(b"pentad 999 24 3"), "refused 2");
    assert_eq!(reply(b"back 1000 13 0"), "refused 1");
    assert_eq!(reply(b"back 999 13 0"), "refused 2");
    assert_eq!(reply(b"day 34"), "refused 3");
    assert_eq!(reply(b"day 365269"), "refused 3");
    assert_eq!(reply(b"years 999 2"), "refused 1");
    assert_eq!(
        reply(b"years 18446744073709551615 18446744073709551615"),
        "refused 1"
    );
    assert_eq!(reply(b"years 1 18446744073709551615"), "refused 1");
}

#[test]
fn a_sheet_gives_the_years_that_agree_with_every_mark() {
    let all: Vec<String> = (0..1000).map(|year| year.to_string()).collect();
    assert_eq!(reply(b"sheet"), all.join(" "));
    assert_eq!(reply(b"sheet name 0 35 length 0 29 leap 10"), "0");
    assert_eq!(reply(b"sheet leap 10 length 0 29 name 0 35"), "0");
    assert_eq!(
        reply(b"sheet stem 0 5 branch 0 11"),
        reply(b"sheet name 0 35")
    );
    assert_eq!(reply(b"sheet leap 10 leap 10"), reply(b"sheet leap 10"));
    assert!(reply(b"sheet name 1 4").starts_with("0 "));
    for none in [
        "sheet name 0 35 name 0 36",
        "sheet name 0 35 stem 0 6",
        "sheet name 0 35 branch 0 0",
        "sheet stem 0 0 branch 0 1",
        "sheet length 3 29 length 3 30",
        "sheet leap 10 leap 11",
    ] {
        assert_eq!(reply(none.as_bytes()), "none", "{none}");
    }
}

#[test]
fn a_single_mark_gives_the_years_whose_list_has_it() {
    let months = Months::listed();
    let lists: Vec<Vec<Vec<u64>>> = (0..1000)
        .map(|year| desk::reply(&months, format!("year {year}").as_bytes()))
        .map(|list| {
            let records = list.split(' ').map(|record| record.split(':'));
            records
                .map(|record| record.map(|number| number.parse().unwrap()).collect())
                .collect()
        })
        .collect();
    let told = |mark: String, agrees: &dyn Fn(&Vec<Vec<u64>>) -> bool| {
        let years = (0..1000).filter(|year| agrees(&lists[*year]));
        let years: Vec<String> = years.map(|year| year.to_string()).collect();
        let line = format!("sheet {mark}");
        assert!(!years.is_empty(), "{line}");
        assert_eq!(
            desk::reply(&months, line.as_bytes()),
            years.join(" "),
            "{line}"
        );
    };
    let at = |list: &Vec<Vec<u64>>, place: usize, field: usize| list.get(place).map(|r| r[field]);
    for place in 0..13 {
        let day = |list: &Vec<Vec<u64>>| at(list, place, 0);
        for (word, round) in [("name", 60), ("stem", 10), ("branch", 12)] {
            for value in 0..round {
                let same = |list: &Vec<Vec<u64>>| day(list).map(|day| day % round) == Some(value);
                told(format!("{word} {place} {value}"), &same);
            }
        }
        for length in [29, 30] {
            let same = |list: &Vec<Vec<u64>>| at(list, place, 1) == Some(length);
            told(format!("length {place} {length}"), &same);
        }
    }
    for place in 1..13 {
        told(format!("leap {place}"), &|list| {
            at(list, place, 3) == Some(1)
        });
    }
    assert_eq!(reply(b"sheet leap 0"), "none");
}

#[test]
fn a_mark_that_no_month_bears_is_refused_with_2() {
    for mark in [
        "name 0 60",
        "stem 0 10",
        "branch 0 12",
        "length 0 28",
        "length 0 31",
        "length 0 0",
        "name 13 0",
        "stem 13 0",
        "branch 13 0",
        "length 13 29",
        "leap 13",
        "leap 18446744073709551615",
        "name 0 18446744073709551615",
    ] {
        for line in [
            format!("sheet {mark}"),
            format!("sheet {mark} name 0 35"),
            format!("sheet name 0 35 {mark} leap 10"),
            format!("sheet name 0 35 name 0 36 {mark}"),
        ] {
            assert_eq!(reply(line.as_bytes()), "refused 2", "{line}");
        }
    }
}

#[test]
fn a_sheet_that_is_no_question_is_refused_with_5_before_2() {
    for marks in [
        " ",
        " name",
        " name 0",
        " name 0 35 ",
        " name 0 35 36",
        " name 0  35",
        "  name 0 35",
        " name 0 35\t",
        " Name 0 35",
        " names 0 35",
        " year 0 35",
        " leap",
        " leap 10 0",
        " leap 10 leap",
        " 0 35",
        " name 0 x",
        " name x 35",
        " leap -1",
        " name 0 18446744073709551616",
        " leap 000000000000000000010",
    ] {
        for line in [
            format!("sheet{marks}"),
            format!("sheet leap 13{marks}"),
            format!("sheet{marks} leap 13"),
        ] {
            assert_eq!(reply(line.as_bytes()), "refused 5", "{line}");
        }
    }
}

#[test]
fn a_line_may_have_1023_bytes() {
    let names = " name 0 35".repeat(101);
    let longest = format!("sheet{names} leap 10");
    assert_eq!(longest.len(), 1023);
    assert_eq!(reply(longest.as_bytes()), reply(b"sheet name 0 35 leap 10"));
    assert_eq!(
        reply(format!("sheet{names} leap 010").as_bytes()),
        "refused 5"
    );
    assert_eq!(
        reply(format!("sheet{names} leap 13").as_bytes()),
        "refused 2"
    );
    assert_eq!(
        reply(format!("sheet{names} leap 013").as_bytes()),
        "refused 5"
    );
}
