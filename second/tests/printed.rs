//! The legible rows of the tables printed in document 004, against the laws.

use second::calendar::*;
use std::fs;

/// Returns the rows of a printed table without its comment and its heading.
fn rows(table: &str) -> Vec<Vec<String>> {
    let path = format!(
        "{}/../tests/printed/{table}.tsv",
        env!("CARGO_MANIFEST_DIR")
    );
    let text = fs::read_to_string(&path).expect("the printed table can be read");
    text.lines()
        .filter(|line| !line.starts_with('#'))
        .skip(1)
        .map(|line| line.split('\t').map(String::from).collect())
        .collect()
}

/// Returns the number that a cell prints.
fn printed(cell: &str) -> Number {
    cell.parse().expect("a printed cell is a number")
}

#[test]
fn the_accumulated_lunar_inequality() {
    let rows = rows("lunar_accumulation");
    assert_eq!(rows.len(), 79);
    for row in rows {
        let (limit, accumulated) = (printed(&row[0]), printed(&row[2]));
        assert_eq!(row[2].len(), 9);
        assert_eq!(lunar_magnitude(limit * LIMIT), accumulated, "{row:?}");
        assert_eq!(whole_limit_law(limit), accumulated, "{row:?}");
    }
}

#[test]
fn the_accumulated_solar_inequality_of_law_b() {
    let rows = rows("solar_b_accumulation");
    assert_eq!(rows.len(), 37);
    for row in rows {
        let (day, last_eight) = (printed(&row[0]), printed(&row[2]));
        assert_eq!(row[2].len(), 8);
        let slow = solar_at(SolarHalf::Slow, (day * DAY) as u64).unwrap();
        assert_eq!(-slow % 100_000_000, last_eight, "{row:?}");
        assert_eq!(law_at(LAW_B, day * DAY, DAY), -slow);
    }
}

#[test]
fn the_legible_decimals_of_law_a() {
    let rows = rows("solar_a_digits");
    assert_eq!(rows.len(), 10);
    for row in rows {
        let day = printed(&row[0]);
        let fast = solar_at(SolarHalf::Fast, (day * DAY) as u64).unwrap();
        assert_eq!(law_at(LAW_A, day * DAY, DAY), fast);
        for (column, decimal) in [(2, 3), (3, 4), (4, 7), (5, 8)] {
            let digit = fast / Number::pow(10, 8 - decimal) % 10;
            assert_eq!(digit, printed(&row[column]), "{row:?}, decimal {decimal}");
        }
    }
}
