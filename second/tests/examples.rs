//! The examples and identities of document 01, its expectations typed from the paper.

use second::calendar::*;
use second::sheet::{line, marks_of, whole, years, Mark, Told};

/// Returns a time's day and remainder.
fn split(time: Number) -> (Number, Number) {
    (day_of(time), remainder_of(time))
}

#[test]
fn the_constants_keep_their_identities() {
    assert_eq!(YEAR, 3_652_425 * FEN);
    assert_eq!(DAY, 10_000 * FEN);
    assert_eq!(FEN, 100 * MIAO);
    assert_eq!(2 * HALF_YEAR, YEAR);
    assert_eq!(FAST_LIMIT + SLOW_LIMIT, HALF_YEAR);
    assert_eq!(MONTH, 29_530_593 * MIAO);
    assert_eq!(4 * QUARTER_STEP, MONTH);
    assert_eq!(24 * TERM_STEP, YEAR);
    assert_eq!(3 * PENTAD_STEP, TERM_STEP);
    assert_eq!(5 * EARTH_STEP, TERM_STEP);
    assert_eq!(2 * ANOMALISTIC_HALF, ANOMALISTIC_MONTH);
    assert_eq!(LEAP_REMAINDER_AT_EPOCH, 201_850 * FEN);
    assert_eq!(LIMIT, 100_000_000);
}

#[test]
fn the_three_starts_are_less_the_leap_remainder() {
    let less = |start: Number| start - LEAP_REMAINDER_AT_EPOCH;
    assert_eq!(less(SOLSTICE_AT_EPOCH), MEAN_START);
    assert_eq!(less(HALF_YEAR), SOLAR_START);
    assert_eq!(
        less(ANOMALY_AT_EPOCH).rem_euclid(ANOMALISTIC_MONTH),
        ANOMALY_START
    );
}

#[test]
fn solstices_of_years_0_and_1() {
    assert_eq!(split(solstice(0).unwrap()), (55, 6_000_000));
    assert_eq!(name(55), 55);
    assert_eq!(split(solstice(1).unwrap()), (420, 30_250_000));
    assert_eq!(name(420), 0);
}

#[test]
fn the_last_term_lies_after_the_last_admitted_day() {
    assert_eq!(day_of(term(999, 23).unwrap()), 365_282);
}

#[test]
fn lunation_0() {
    assert_eq!(split(mean(0, 0).unwrap()), (34, 87_500_000));
    assert_eq!(solar(0, 0), Ok(-93_335_814));
    assert_eq!(lunar(0, 0), Ok(-542_779_589));
    let (half, time) = anomaly(0, 0);
    assert_eq!((half, whole_limit(time)), (LunarHalf::Tardy, 82));
    assert_eq!(motion_at(LunarHalf::Tardy, 82), Ok(109_786_425));
    assert_eq!(motion(0, 0), Ok(109_786_425));
    assert_eq!(correction(0, 0), Ok(33_569_168));
    assert_eq!(split(true_moon(0, 0).unwrap()), (35, 21_069_168));
}

#[test]
fn lunation_1() {
    assert_eq!(split(true_moon(1, 0).unwrap()), (64, 79_957_652));
    assert_eq!(first_day(1) - first_day(0), 29);
}

#[test]
fn year_0_has_thirteen_months_and_place_10_is_leap_8() {
    let mut row = [Record::default(); 13];
    assert_eq!(Months::listed().year(0, &mut row), Ok(13));
    assert_eq!((row[10].number, row[10].leap), (8, true));
    assert_eq!(row.iter().filter(|month| month.leap).count(), 1);
    let numbers: Vec<Number> = row.iter().map(|month| month.number).collect();
    assert_eq!(numbers, [11, 12, 1, 2, 3, 4, 5, 6, 7, 8, 8, 9, 10]);
    assert_eq!((row[0].first_day, row[0].length), (35, 29));
}

#[test]
fn inequalities_that_are_nothing() {
    assert_eq!(solar_at(SolarHalf::Fast, 0), Ok(0));
    assert_eq!(solar_at(SolarHalf::Slow, 0), Ok(0));
    assert_eq!(lunar_at(LunarHalf::Quick, 1_377_720_000), Ok(0));
    assert_eq!(lunar_at(LunarHalf::Tardy, 1_377_720_000), Ok(0));
}

#[test]
fn the_two_solar_laws_do_not_meet() {
    let fast = |time| solar_at(SolarHalf::Fast, time);
    assert_eq!(fast(8_890_922_500), Ok(240_142_279));
    assert_eq!(fast(8_890_922_501), Ok(240_132_544));
    let slow = |time| solar_at(SolarHalf::Slow, time);
    let (law_a, law_b) = (
        law_at(LAW_A, 8_890_922_499, DAY),
        law_at(LAW_B, 9_371_202_500, DAY),
    );
    assert_ne!(law_a, law_b);
    assert_eq!(slow(9_371_202_500), Ok(-law_b));
    assert_eq!(slow(9_371_202_501), Ok(-law_a));
}

#[test]
fn the_half_itself_begins_the_second_half() {
    assert_eq!(
        in_solar_half(18_262_124_999),
        (SolarHalf::Slow, 18_262_124_999)
    );
    assert_eq!(in_solar_half(18_262_125_000), (SolarHalf::Fast, 0));
    assert_eq!(
        in_lunar_half(1_377_729_999),
        (LunarHalf::Quick, 1_377_729_999)
    );
    assert_eq!(in_lunar_half(1_377_730_000), (LunarHalf::Tardy, 0));
}

#[test]
fn whole_limit_168_counts_as_167() {
    assert_eq!(limits(1_377_729_999), 16_808_305_987);
    assert_eq!(whole_limit(1_377_729_999), 167);
    assert_eq!(whole_limit(1_377_049_180), 167);
    assert_eq!(whole_limit(0), 0);
}

#[test]
fn the_lunar_law_does_not_peak_at_84() {
    assert_eq!(whole_limit_law(82), 542_881_000);
    assert_eq!(whole_limit_law(84), 542_337_600);
    assert_eq!(whole_limit_law(86), 542_881_000);
    assert_eq!(whole_limit_law(0), 0);
    assert_eq!(whole_limit_law(168), 0);
}

#[test]
fn extra_and_vanishing_days() {
    assert_eq!(extra(78_156_250), Ok(Some(16)));
    assert_eq!(extra(78_156_249), Ok(None));
    assert_eq!(vanishing(0), Ok(Some(0)));
    assert_eq!(vanishing(46_940_700), Ok(Some(30)));
    assert_eq!(vanishing(46_940_701), Ok(None));
}

#[test]
fn the_last_remainder_is_double_hour_11_and_ke_8() {
    assert_eq!(hour(99_999_999), Ok((11, 8)));
    assert_eq!(hour(0), Ok((0, 0)));
}

#[test]
fn the_first_and_last_day() {
    let months = Months::listed();
    assert_eq!(months.day(34), Err(3));
    assert_eq!(months.day(35).unwrap().month.first_day, 35);
    assert_eq!(months.day(365_268).unwrap().year, 999);
    assert_eq!(months.day(365_269), Err(3));
}

#[test]
fn the_head_of_year_1000() {
    let months = Months::listed();
    assert_eq!(months.head_and_first_day(1000), (12_368, 365_269));
    assert_eq!(months.head(1000), Err(1));
    assert_eq!(months.head(0), Ok(0));
}

#[test]
fn a_law_differs_from_the_exact_cubic_by_less_than_2_units() {
    let cube = DAY * DAY * DAY;
    for (law, end) in [
        (LAW_A, 93_712_025 * MIAO),
        (LAW_B, 93_712_025 * MIAO),
        (LUNAR_LAW, MIDDLE_LIMIT * LIMIT),
    ] {
        for step in 0..=20_000 {
            let time = end * step / 20_000;
            let exact = law.first * time * DAY * DAY
                - law.second * time * time * DAY
                - law.third * time * time * time;
            assert!((law_at(law, time, DAY) * cube - exact).abs() < 2 * cube);
        }
    }
}

#[test]
fn the_law_is_exact_at_whole_units() {
    for whole in 0..=84 {
        assert_eq!(
            law_at(LUNAR_LAW, whole * LIMIT, LIMIT),
            exact_law(LUNAR_LAW, whole)
        );
        assert_eq!(law_at(LAW_A, whole * DAY, DAY), exact_law(LAW_A, whole));
        assert_eq!(law_at(LAW_B, whole * DAY, DAY), exact_law(LAW_B, whole));
    }
}

#[test]
fn the_motions_of_a_half_sum_to_the_mean_motion() {
    for half in [LunarHalf::Quick, LunarHalf::Tardy] {
        let sum: Number = (0..168).map(|k| motion_at(half, k).unwrap()).sum();
        assert_eq!(sum, 168 * 109_623_750);
    }
}

#[test]
fn a_correction_is_rounded_toward_nothing() {
    let mut negative = 0;
    for lunation in 0..=12_367 {
        for quarter in 0..4 {
            let difference = solar(lunation, quarter).unwrap() - lunar(lunation, quarter).unwrap();
            let correction = correction(lunation, quarter).unwrap();
            let product = difference.abs() * 8_200_000;
            let motion = motion(lunation, quarter).unwrap();
            assert!(correction * difference >= 0);
            assert!(correction.abs() * motion <= product);
            assert!(product < (correction.abs() + 1) * motion);
            negative += u32::from(correction < 0);
        }
    }
    assert!(negative > 0);
}

#[test]
fn every_moon_s_times_lie_within_their_halves() {
    let mut seen = (false, false);
    for lunation in 0..=12_367 {
        for quarter in 0..4 {
            let (solar_half, time) = solar_place(lunation, quarter);
            assert!((0..18_262_125_000).contains(&time));
            seen.0 |= solar_half == SolarHalf::Fast;
            let (lunar_half, time) = anomaly(lunation, quarter);
            assert!((0..1_377_730_000).contains(&time));
            seen.1 |= lunar_half == LunarHalf::Tardy;
        }
    }
    assert_eq!(seen, (true, true));
}

#[test]
fn refusals_come_in_the_paper_s_order() {
    let months = Months::listed();
    let mut none: [Record; 0] = [];
    assert_eq!(pentad(1000, 24, 3), Err(1));
    assert_eq!(pentad(999, 24, 3), Err(2));
    assert_eq!(pentad(999, 23, 3), Err(2));
    assert_eq!(earth(1000, 3), Err(1));
    assert_eq!(earth(0, 3), Err(2));
    assert_eq!(terms(1000, &mut []), Err(1));
    assert_eq!(terms(999, &mut [0; 23]), Err(4));
    assert_eq!(months.back(1000, 13, 31), Err(1));
    assert_eq!(months.back(0, 13, 1), Err(2));
    assert_eq!(months.back(0, 0, 0), Err(2));
    assert_eq!(months.back(0, 0, 30), Err(2));
    assert_eq!(months.year(1000, &mut none), Err(1));
    assert_eq!(months.year(0, &mut none), Err(4));
    assert_eq!(months.years(0, 0, &mut none), Err(1));
    assert_eq!(months.years(999, 2, &mut none), Err(1));
    assert_eq!(months.years(u64::MAX, u64::MAX, &mut none), Err(1));
    assert_eq!(months.years(0, 1000, &mut none), Err(4));
    assert_eq!(solar_at(SolarHalf::Fast, 18_262_125_000), Err(2));
    assert_eq!(lunar_at(LunarHalf::Quick, 1_377_730_000), Err(2));
    assert_eq!(motion_at(LunarHalf::Quick, 168), Err(2));
    assert_eq!(mean(12_368, 0), Err(2));
    assert_eq!(mean(12_367, 4), Err(2));
    assert_eq!(hour(100_000_000), Err(2));
}

#[test]
fn a_lent_row_keeps_what_is_not_written() {
    let kept = Record {
        first_day: 7,
        length: 7,
        number: 7,
        leap: true,
    };
    let months = Months::listed();
    let mut row = [kept; 27];
    let written = months.years(0, 2, &mut row).unwrap();
    assert_eq!(written, 25);
    assert_eq!(row[25..], [kept; 2]);
    let mut one = [kept; 14];
    assert_eq!(months.year(0, &mut one), Ok(13));
    assert_eq!(one[..13], row[..13]);
    assert_eq!(one[13], kept);
    assert_eq!(months.year(1, &mut one), Ok(12));
    assert_eq!(one[..12], row[13..25]);
    let mut short = [kept; 25];
    assert_eq!(months.years(0, 2, &mut short), Err(4));
    assert_eq!(short, [kept; 25]);
    let mut times = [7; 26];
    assert_eq!(terms(0, &mut times), Ok(24));
    assert_eq!(times[24..], [7; 2]);
    assert_eq!(times[23], 5_506_000_000 + 23 * 1_521_843_750);
}

#[test]
fn the_way_back_returns_every_day() {
    let months = Months::listed();
    for day in 35..=365_268 {
        let reply = months.day(day).unwrap();
        let (year, place) = (reply.year as u64, reply.place as u64);
        let back = months.back(year, place, reply.day_of_month as u64);
        assert_eq!(back, Ok(Number::from(day)));
    }
}

#[test]
fn the_marks_of_year_0() {
    let months = Months::listed();
    let marks = whole(&months.lists()[0]);
    assert_eq!(marks.len(), 4 * 13 + 1);
    let told = |place: usize| marks_of(place, &months.lists()[0][place]);
    let at = |place: u64, told: Told| Mark { place, told };
    assert_eq!(
        told(0),
        [
            at(0, Told::Name(35)),
            at(0, Told::Stem(5)),
            at(0, Told::Branch(11)),
            at(0, Told::Length(29))
        ]
    );
    assert_eq!(told(10)[0], at(10, Told::Name(29)));
    assert_eq!(
        told(10)[3..],
        [at(10, Told::Length(30)), at(10, Told::Leap)]
    );
    assert_eq!(years(&months, &marks), Ok(vec![0]));
    assert_eq!(years(&months, &[at(13, Told::Leap)]), Err(2));
    assert_eq!(
        line(&told(10)[2..]),
        "sheet branch 10 5 length 10 30 leap 10"
    );
}

#[test]
fn the_facts_hold() {
    second::facts::check(&Months::listed()).unwrap();
}
