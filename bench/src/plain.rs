//! The same calendar in plain Rust, in the fastest form found: 64 bits throughout, products over a day split by the time, motions
//! from a table.

const DAY: u64 = 100_000_000;
const YEAR: u64 = 36_524_250_000;
const HALF_YEAR: u64 = YEAR / 2;
const MONTH: u64 = 2_953_059_300;
const QUARTER: u64 = MONTH / 4;
const ANOMALISTIC: u64 = 2_755_460_000;
const HALF_ANOMALISTIC: u64 = ANOMALISTIC / 2;
const TERM: u64 = YEAR / 24;
const SOLSTICE: u64 = 5_506_000_000;
const LEAP: u64 = 2_018_500_000;
const ANOMALY: u64 = 1_319_040_000;
const FAST_LIMIT: u64 = 8_890_922_500;
const SLOW_LIMIT: u64 = HALF_YEAR - FAST_LIMIT;
const MEAN_START: u64 = SOLSTICE - LEAP;
const SOLAR_START: u64 = HALF_YEAR - LEAP;
const ANOMALY_START: u64 = (ANOMALY + 2 * ANOMALISTIC - LEAP) % ANOMALISTIC;

struct Law(u64, u64, u64);
const A: Law = Law(5_133_200, 24_600, 31);
const B: Law = Law(4_870_600, 22_100, 27);
const MOON: Law = Law(11_110_000, 28_100, 325);

const fn exact(k: u64) -> u64 {
    let k = if k <= 84 { k } else { 168 - k };
    k * (MOON.0 - k * (MOON.1 + k * MOON.2))
}

const fn motions() -> [u64; 336] {
    let mut table = [0; 336];
    let mut k = 0;
    while k < 168 {
        table[k] = 109_623_750 + exact(k as u64 + 1) - exact(k as u64);
        table[168 + k] = 109_623_750 + exact(k as u64) - exact(k as u64 + 1);
        k += 1;
    }
    table
}
static MOTIONS: [u64; 336] = motions();

#[inline(always)]
fn over(a: u64, days: u64, rest: u64) -> u64 {
    a * days + a * rest / DAY
}

#[inline(always)]
fn law(c: Law, t: u64) -> i64 {
    let (days, rest) = (t / DAY, t % DAY);
    let growth = over(c.2 * 10_000, days, rest);
    let taken = over(c.1 * 10_000 + growth, days, rest);
    (over(c.0 * 10_000 - taken, days, rest) / 10_000) as i64
}

#[inline(always)]
fn solar(s: u64) -> i64 {
    if s < HALF_YEAR {
        -(if s <= SLOW_LIMIT {
            law(B, s)
        } else {
            law(A, HALF_YEAR - s)
        })
    } else {
        let s = s - HALF_YEAR;
        if s <= FAST_LIMIT {
            law(A, s)
        } else {
            law(B, HALF_YEAR - s)
        }
    }
}

/// The true moon of quarter q of lunation l.
#[inline(always)]
pub fn true_time(l: u64, q: u64) -> u64 {
    let anomaly = (ANOMALY_START + l * (MONTH - ANOMALISTIC) + q * QUARTER) % ANOMALISTIC;
    let tardy = anomaly >= HALF_ANOMALISTIC;
    let t = if tardy {
        anomaly - HALF_ANOMALISTIC
    } else {
        anomaly
    };
    let limits = t * 122 / 10;
    let nearer = if limits <= 84 * DAY {
        limits
    } else {
        (168 * DAY).saturating_sub(limits)
    };
    let lunar = law(MOON, nearer);
    let row = (limits / DAY).min(167) as usize + if tardy { 168 } else { 0 };
    let sun = solar((SOLAR_START + l * MONTH + q * QUARTER) % YEAR);
    let ahead = if tardy { sun + lunar } else { sun - lunar };
    let mean = MEAN_START + l * MONTH + q * QUARTER;
    (mean as i64 + ahead * 8_200_000 / MOTIONS[row] as i64) as u64
}

/// The question with its refusals.
#[inline(never)]
pub fn true_moon(l: u64, q: u64) -> u64 {
    if l > 12_367 || q > 3 {
        return 2;
    }
    true_time(l, q)
}

fn first(l: u64) -> u64 {
    true_time(l, 0) / DAY
}

fn middle(n: u64, i: u64) -> u64 {
    (n * YEAR + SOLSTICE + i * 2 * TERM) / DAY
}

/// A year's terms, each carried to the next by one step; how many there are.
#[inline(never)]
pub fn terms(n: u64, row: &mut [u64]) -> usize {
    let mut carried = n * YEAR + SOLSTICE;
    for number in row[..24].iter_mut() {
        *number = carried;
        carried += TERM;
    }
    24
}

/// The same, each multiplied anew.
#[inline(never)]
pub fn terms_anew(n: u64, row: &mut [u64]) -> usize {
    for (i, number) in row[..24].iter_mut().enumerate() {
        *number = n * YEAR + SOLSTICE + i as u64 * TERM;
    }
    24
}

/// A lunation with its month's first day and the next month's, so that no true moon is worked out twice.
#[derive(Clone, Copy)]
struct Month {
    l: u64,
    day: u64,
    end: u64,
}

impl Month {
    fn of(l: u64) -> Month {
        Month {
            l,
            day: first(l),
            end: first(l + 1),
        }
    }

    fn next(self) -> Month {
        Month {
            l: self.l + 1,
            day: self.end,
            end: first(self.l + 2),
        }
    }
}

/// The head of year n: the last month whose first day is not after the solstice's day.
fn head(n: u64) -> Month {
    let solstice = middle(n, 0);
    let mut head = Month::of((n * YEAR + LEAP) / MONTH);
    while head.day > solstice {
        head = Month::of(head.l - 1);
    }
    while head.end <= solstice {
        head = head.next();
    }
    head
}

#[derive(Clone, Copy, Default, PartialEq, Debug)]
pub struct Record {
    pub first: u64,
    pub length: u64,
    pub number: u64,
    pub leap: u64,
}

/// Year n's list from its head on, and the next year's head.
fn list_from(n: u64, head: Month, row: &mut [Record]) -> (usize, Month) {
    let next = middle(n + 1, 0);
    let (mut month, mut count) = (head, 0);
    while month.end <= next {
        row[count] = Record {
            first: month.day,
            length: month.end - month.day,
            number: 0,
            leap: 0,
        };
        count += 1;
        month = month.next();
    }
    let (mut term, mut rank) = (0, 0);
    for record in row[..count].iter_mut() {
        let held = term < 12 && middle(n, term) < record.first + record.length;
        if held {
            rank = term;
            term += 1;
        }
        record.number = (rank + 10) % 12 + 1;
        record.leap = (count == 13 && !held) as u64;
    }
    (count, month)
}

/// The lists of so many years.
#[inline(never)]
pub fn run(n: u64, years: u64, row: &mut [Record]) -> usize {
    let (mut used, mut h) = (0, head(n));
    for k in 0..years {
        let (count, next) = list_from(n + k, h, &mut row[used..]);
        used += count;
        h = next;
    }
    used
}

/// What a mark tells of the month at its place.
#[derive(Clone, Copy)]
pub enum Told {
    Name(u64),
    Stem(u64),
    Branch(u64),
    Length(u64),
    Leap,
}

#[derive(Clone, Copy)]
pub struct Mark {
    pub place: usize,
    pub told: Told,
}

/// The years whose lists agree with every mark: each year is listed once, from the head that the year before it hands on.
#[inline(never)]
pub fn years(marks: &[Mark], row: &mut [u64]) -> usize {
    let mut list = [Record::default(); 13];
    let (mut used, mut h) = (0, head(0));
    for n in 0..1_000 {
        let (count, next) = list_from(n, h, &mut list);
        let agrees = |mark: &Mark| {
            mark.place < count && {
                let month = &list[mark.place];
                match mark.told {
                    Told::Name(name) => month.first % 60 == name,
                    Told::Stem(stem) => month.first % 10 == stem,
                    Told::Branch(branch) => month.first % 12 == branch,
                    Told::Length(length) => month.length == length,
                    Told::Leap => month.leap == 1,
                }
            }
        };
        if marks.iter().all(agrees) {
            row[used] = n;
            used += 1;
        }
        h = next;
    }
    used
}

#[derive(Default, PartialEq, Debug)]
pub struct Found {
    pub year: u64,
    pub place: u64,
    pub day: u64,
    pub record: Record,
}

/// The month of a day: the day's year is listed and the list searched.
#[inline(never)]
pub fn day(d: u64) -> Option<Found> {
    if !(35..=365_268).contains(&d) {
        return None;
    }
    let mut row = [Record::default(); 13];
    // the last days before a solstice may lie in the month that heads its year
    let before = (d * DAY).saturating_sub(SOLSTICE) / YEAR;
    for year in before..=999 {
        let (count, _) = list_from(year, head(year), &mut row);
        let found = row[..count]
            .iter()
            .position(|m| m.first <= d && d < m.first + m.length);
        if let Some(place) = found {
            return Some(Found {
                year,
                place: place as u64,
                day: d - row[place].first + 1,
                record: row[place],
            });
        }
    }
    None
}
