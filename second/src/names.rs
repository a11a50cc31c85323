//! How many names of first days it takes to single a year out, counted over all admitted years.
//!
//! A set of a year's places leaves every year whose list has the same names there, the year itself among them. Of
//! each two years the places with the same name are taken once, and the sets inside them are counted: nothing is
//! drawn at random, and every average is exact up to its last rounding.

use crate::calendar::*;

/// What of the name of a running day is legible.
type Part = fn(Number) -> Number;

const LEGIBLE: [(&str, Part); 3] = [("names", name), ("stems", stem), ("branches", branch)];

/// The parts that one is cut into. The sets of one size, and the runs of one size, of 12 and of 13 places are so many
/// that the share of each is a whole number of parts.
const PARTS: u64 = 360_360;

/// What the sets of one size leave, summed over the years that have so many places.
#[derive(Clone, Default)]
struct Sum {
    years: u64,
    alone: u64,
    left: u64,
}

impl Sum {
    /// Returns nothing, having added a year by what each of its sets leaves.
    fn add(&mut self, left: &[u64]) {
        let share = PARTS / left.len() as u64;
        self.years += 1;
        self.alone += share * left.iter().filter(|left| **left == 1).count() as u64;
        self.left += share * left.iter().sum::<u64>();
    }

    /// Returns the chance that a set leaves one year alone, and the average number of years left.
    fn text(&self) -> String {
        let whole = PARTS * self.years;
        let (chance, left) = (
            decimal(100 * self.alone, whole, 1),
            decimal(self.left, whole, 2),
        );
        format!("{chance:>6} %  {left:>10}")
    }
}

/// A year: how many names, in parts of one, it takes on average until no further name tells more, and how many years
/// are then left.
struct Year {
    year: usize,
    taken: u64,
    left: u64,
}

/// What is counted of the names, by the number of places and by the year.
struct Figures {
    anywhere: Vec<Sum>,
    neighbours: Vec<Sum>,
    years: Vec<Year>,
    /// the least distance of two years that all names of a year leave
    apart: Option<usize>,
}

/// Returns a quotient with so many decimals.
fn decimal(number: u64, divisor: u64, decimals: usize) -> String {
    let unit = 10u64.pow(decimals as u32);
    let nearest = (2 * number * unit + divisor) / (2 * divisor);
    format!("{}.{:0decimals$}", nearest / unit, nearest % unit)
}

/// Returns the set of a year's places at which another year has the same name.
fn same_places(own: &[Number], other: &[Number]) -> usize {
    let places = own.iter().zip(other).enumerate();
    let same = places.filter(|(_, (own, other))| own == other);
    same.map(|(place, _)| 1 << place).sum()
}

/// Returns how many years each set of a year's places leaves.
fn left_by_set(names: &[Vec<Number>], own: &[Number]) -> Vec<u64> {
    let mut left = vec![0; 1 << own.len()];
    for other in names {
        left[same_places(own, other)] += 1;
    }
    // a set leaves what any set with more places leaves
    for place in 0..own.len() {
        for set in 0..left.len() {
            if set >> place & 1 == 0 {
                left[set] += left[set | 1 << place];
            }
        }
    }
    left
}

/// Returns the least distance of two years of those that have all names of a year, or none where it alone has them.
fn nearest_two(names: &[Vec<Number>], own: &[Number]) -> Option<usize> {
    let whole = (1 << own.len()) - 1;
    let alike: Vec<usize> = (0..names.len())
        .filter(|other| same_places(own, &names[*other]) == whole)
        .collect();
    alike.windows(2).map(|two| two[1] - two[0]).min()
}

impl Figures {
    /// Returns the figures of all years' names.
    fn counted(names: &[Vec<Number>]) -> Figures {
        let mut figures = Figures {
            anywhere: vec![Sum::default(); LONGEST_LIST + 1],
            neighbours: vec![Sum::default(); LONGEST_LIST + 1],
            years: Vec::new(),
            apart: names.iter().filter_map(|own| nearest_two(names, own)).min(),
        };
        for (year, own) in names.iter().enumerate() {
            figures.count(year, own.len(), &left_by_set(names, own));
        }
        figures
    }

    /// Returns nothing, having counted a year by what the sets of its places leave.
    fn count(&mut self, year: usize, places: usize, left: &[u64]) {
        let in_the_end = left[left.len() - 1];
        let mut taken = 0;
        for size in 0..=places {
            let sets = (0..left.len()).filter(|set| set.count_ones() as usize == size);
            let by_sets: Vec<u64> = sets.map(|set| left[set]).collect();
            let runs = (0..=places - size).map(|first| ((1 << size) - 1) << first);
            let by_runs: Vec<u64> = runs.map(|run: usize| left[run]).collect();
            // after so many names one more is wanted with this chance
            let wanting = by_sets.iter().filter(|left| **left > in_the_end).count();
            taken += PARTS / by_sets.len() as u64 * wanting as u64;
            self.anywhere[size].add(&by_sets);
            self.neighbours[size].add(&by_runs);
        }
        self.years.push(Year {
            year,
            taken,
            left: in_the_end,
        });
    }

    /// Returns the text of what so many names leave, a line for each number of them.
    fn table(&self, legible: &str) -> String {
        let years = self.years.len() as u64;
        let mut text = format!(
            "{legible}, counted over {years} years\n{:>27}{:>22}\n{:>5}{:>10}{:>12}{:>10}{:>12}\n",
            "any places",
            "neighbouring places",
            "count",
            "alone",
            "years left",
            "alone",
            "years left"
        );
        for size in 1..=LONGEST_LIST {
            let (anywhere, neighbours) = (&self.anywhere[size], &self.neighbours[size]);
            text += &format!("{size:>5}  {}  {}", anywhere.text(), neighbours.text());
            if anywhere.years < years {
                text += &format!("  ({} years have so many)", anywhere.years);
            }
            text.push('\n');
        }
        text
    }

    /// Returns the text of how many names it takes, and of the years for which all are too few.
    fn summary(&self, legible: &str) -> String {
        let (one, more): (Vec<&Year>, Vec<&Year>) = self.years.iter().partition(|y| y.left == 1);
        let average = |years: &[&Year]| {
            let taken = years.iter().map(|year| year.taken).sum();
            decimal(taken, PARTS * years.len() as u64, 2)
        };
        let by_taken = |year: &&&Year| year.taken;
        let least = one.iter().min_by_key(by_taken).expect("some are told");
        let most = one.iter().max_by_key(by_taken).expect("some are told");
        let numbers: Vec<String> = more.iter().map(|year| year.year.to_string()).collect();
        format!(
            "{} years are singled out by all their {legible}: after {} in random order on average, from {} \
             (year {}) to {} (year {})\n\
             {} years are not: all their {legible} leave 2 to {} years, the nearest two {} apart\n\
             over all years, until no further one tells more: {} on average\n\
             not singled out: {}\n",
            one.len(),
            average(&one),
            decimal(least.taken, PARTS, 2),
            least.year,
            decimal(most.taken, PARTS, 2),
            most.year,
            more.len(),
            more.iter().map(|year| year.left).max().unwrap_or(1),
            self.apart.unwrap_or(0),
            average(&self.years.iter().collect::<Vec<&Year>>()),
            numbers.join(" ")
        )
    }
}

/// Returns the text of all figures.
pub fn text(months: &Months) -> String {
    let mut text = String::new();
    for (legible, part) in LEGIBLE {
        let names = |list: &Vec<Record>| list.iter().map(|month| part(month.first_day)).collect();
        let names: Vec<Vec<Number>> = months.lists().iter().map(names).collect();
        let figures = Figures::counted(&names);
        text += &(figures.table(legible) + &figures.summary(legible));
    }
    text
}
