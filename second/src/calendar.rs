//! The calendar by document 01's procedure, worked plainly. Every time is a whole number of wei and
//! every angle a whole number of 10⁻⁸ degree. First the paper's numerals, then its rules, which
//! refuse nothing, then its questions, which refuse by number in the order 1, 2, 3, 4 (a bad line,
//! refusal 5, is judged before any of them is asked).

/// A whole number of wei, of days, of 10⁻⁸ degree or of places.
pub type Number = i128;

// Units and constants.

pub const DAY: Number = 100_000_000;
pub const FEN: Number = 10_000;
pub const MIAO: Number = 100;
pub const YEAR: Number = 36_524_250_000;
pub const HALF_YEAR: Number = 18_262_125_000;
pub const MONTH: Number = 2_953_059_300;
pub const QUARTER_STEP: Number = 738_264_825;
pub const TERM_STEP: Number = 1_521_843_750;
pub const PENTAD_STEP: Number = 507_281_250;
pub const EARTH_STEP: Number = 304_368_750;
pub const ANOMALISTIC_MONTH: Number = 2_755_460_000;
pub const ANOMALISTIC_HALF: Number = 1_377_730_000;
pub const SOLSTICE_AT_EPOCH: Number = 5_506_000_000;
pub const LEAP_REMAINDER_AT_EPOCH: Number = 2_018_500_000;
pub const ANOMALY_AT_EPOCH: Number = 1_319_040_000;

// The running day count.

pub const LAST_YEAR: Number = 999;
pub const NAMES: Number = 60;
pub const STEMS: Number = 10;
pub const BRANCHES: Number = 12;
pub const TERMS: Number = 24;
pub const MIDDLE_TERM_PACE: Number = 2;
pub const PENTADS: Number = 3;
pub const EARTH_TERMS: [Number; 4] = [2, 8, 14, 20];
pub const LAST_LUNATION: Number = 12_367;
pub const QUARTERS: Number = 4;
pub const MEAN_START: Number = 3_487_500_000;

// The solar inequality.

pub const SOLAR_START: Number = 16_243_625_000;
pub const FAST_LIMIT: Number = 8_890_922_500;
pub const SLOW_LIMIT: Number = 9_371_202_500;
pub const LAW_SCALE: Number = 10_000;
pub const LAW_A: Law = Law {
    first: 5_133_200,
    second: 24_600,
    third: 31,
};
pub const LAW_B: Law = Law {
    first: 4_870_600,
    second: 22_100,
    third: 27,
};

// The lunar inequality and the motion.

pub const ANOMALY_START: Number = 2_056_000_000;
pub const LIMIT: Number = 100_000_000;
pub const LIMITS_TIMES: Number = 122;
pub const LIMITS_OVER: Number = 10;
pub const MIDDLE_LIMIT: Number = 84;
pub const END_LIMIT: Number = 168;
pub const LAST_WHOLE_LIMIT: Number = 167;
pub const LUNAR_LAW: Law = Law {
    first: 11_110_000,
    second: 28_100,
    third: 325,
};
pub const MEAN_MOTION: Number = 109_623_750;
pub const CORRECTION_TIMES: Number = 8_200_000;

// The months.

pub const FIRST_DAY: Number = 35;
pub const LAST_DAY: Number = 365_268;
pub const LONGEST_LIST: usize = 13;
pub const LENGTHS: [Number; 2] = [29, 30];
pub const NUMBERS: [Number; 12] = [11, 12, 1, 2, 3, 4, 5, 6, 7, 8, 9, 10];

// Hours, extra and vanishing days.

pub const DOUBLE_HOURS: Number = 12;
pub const KE_FEN: Number = 1_200;
pub const EXTRA_FROM: Number = 78_156_250;
pub const EXTRA_TIMES: Number = 15;
pub const EXTRA_OVER: Number = 21_843_750;
pub const VANISHING_TO: Number = 46_940_700;
pub const VANISHING_TIMES: Number = 30;

// Refusals.

pub const REFUSED_YEAR: u32 = 1;
pub const REFUSED_PLACE: u32 = 2;
pub const REFUSED_DAY: u32 = 3;
pub const REFUSED_ROW: u32 = 4;
pub const REFUSED_LINE: u32 = 5;

/// The three coefficients of a law.
#[derive(Clone, Copy, Debug, PartialEq, Eq)]
pub struct Law {
    pub first: Number,
    pub second: Number,
    pub third: Number,
}

/// The half of the year in which the sun stands.
#[derive(Clone, Copy, Debug, PartialEq, Eq)]
pub enum SolarHalf {
    Fast,
    Slow,
}

/// The half of the anomalistic month in which the moon stands.
#[derive(Clone, Copy, Debug, PartialEq, Eq)]
pub enum LunarHalf {
    Quick,
    Tardy,
}

/// A month of a year's list.
#[derive(Clone, Copy, Debug, Default, PartialEq, Eq)]
pub struct Record {
    pub first_day: Number,
    pub length: Number,
    pub number: Number,
    pub leap: bool,
}

/// The reply to the question about a day.
#[derive(Clone, Copy, Debug, PartialEq, Eq)]
pub struct MonthPlace {
    pub year: Number,
    pub place: Number,
    pub day_of_month: Number,
    pub month: Record,
}

// The rules of days and terms.

/// Returns the running day of a time.
pub fn day_of(time: Number) -> Number {
    time.div_euclid(DAY)
}

/// Returns the remainder of a time within its day.
pub fn remainder_of(time: Number) -> Number {
    time.rem_euclid(DAY)
}

/// Returns the sixty-name of a running day count.
pub fn name(count: Number) -> Number {
    count.rem_euclid(NAMES)
}

/// Returns the stem of a running day count.
pub fn stem(count: Number) -> Number {
    count.rem_euclid(STEMS)
}

/// Returns the branch of a running day count.
pub fn branch(count: Number) -> Number {
    count.rem_euclid(BRANCHES)
}

/// Returns the time of a year's winter solstice.
pub fn solstice_time(year: Number) -> Number {
    year * YEAR + SOLSTICE_AT_EPOCH
}

/// Returns the time of a term of a year.
pub fn term_time(year: Number, term: Number) -> Number {
    solstice_time(year) + term * TERM_STEP
}

/// Returns the time of a pentad of a term of a year.
pub fn pentad_time(year: Number, term: Number, pentad: Number) -> Number {
    term_time(year, term) + pentad * PENTAD_STEP
}

/// Returns the time at which earth begins to rule before a middle term of a year.
pub fn earth_time(year: Number, term: Number) -> Number {
    term_time(year, term) - EARTH_STEP
}

// The rules of the two inequalities.

/// Returns a law at a time counted in the given unit, each rest dropped.
pub fn law_at(law: Law, time: Number, unit: Number) -> Number {
    let by_third = law.third * LAW_SCALE * time / unit;
    let by_second = (law.second * LAW_SCALE + by_third) * time / unit;
    let by_first = (law.first * LAW_SCALE - by_second) * time / unit;
    by_first / LAW_SCALE
}

/// Returns a law at a whole number of units, exactly.
pub fn exact_law(law: Law, whole: Number) -> Number {
    law.first * whole - law.second * whole * whole - law.third * whole * whole * whole
}

/// Returns the half and the time in the half of a time in the sun's year.
pub fn in_solar_half(time: Number) -> (SolarHalf, Number) {
    if time < HALF_YEAR {
        (SolarHalf::Slow, time)
    } else {
        (SolarHalf::Fast, time - HALF_YEAR)
    }
}

/// Returns the half and the time in the half of the sun at a quarter of a lunation.
pub fn solar_place(lunation: Number, quarter: Number) -> (SolarHalf, Number) {
    let moved = lunation * MONTH + quarter * QUARTER_STEP;
    in_solar_half((SOLAR_START + moved).rem_euclid(YEAR))
}

/// Returns the solar inequality without its sign at a time in the fast half.
pub fn fast_magnitude(time: Number) -> Number {
    if time <= FAST_LIMIT {
        law_at(LAW_A, time, DAY)
    } else {
        law_at(LAW_B, HALF_YEAR - time, DAY)
    }
}

/// Returns the solar inequality without its sign at a time in the slow half.
pub fn slow_magnitude(time: Number) -> Number {
    if time <= SLOW_LIMIT {
        law_at(LAW_B, time, DAY)
    } else {
        law_at(LAW_A, HALF_YEAR - time, DAY)
    }
}

/// Returns the solar inequality at a time in a half.
pub fn solar_inequality(half: SolarHalf, time: Number) -> Number {
    match half {
        SolarHalf::Fast => fast_magnitude(time),
        SolarHalf::Slow => -slow_magnitude(time),
    }
}

/// Returns the solar inequality at a quarter of a lunation.
pub fn solar_of(lunation: Number, quarter: Number) -> Number {
    let (half, time) = solar_place(lunation, quarter);
    solar_inequality(half, time)
}

/// Returns the half and the time in the half of a time in the anomalistic month.
pub fn in_lunar_half(time: Number) -> (LunarHalf, Number) {
    if time < ANOMALISTIC_HALF {
        (LunarHalf::Quick, time)
    } else {
        (LunarHalf::Tardy, time - ANOMALISTIC_HALF)
    }
}

/// Returns the half and the time in the half of the moon's anomaly at a quarter of a lunation.
pub fn anomaly(lunation: Number, quarter: Number) -> (LunarHalf, Number) {
    let moved = lunation * (MONTH - ANOMALISTIC_MONTH) + quarter * QUARTER_STEP;
    in_lunar_half((ANOMALY_START + moved).rem_euclid(ANOMALISTIC_MONTH))
}

/// Returns the limits of a time in a half, counted in 10⁻⁸ of a limit.
pub fn limits(time: Number) -> Number {
    time * LIMITS_TIMES / LIMITS_OVER
}

/// Returns the limits that the lunar law takes: up to the middle, then back to the end, then none.
pub fn limits_taken(limits: Number) -> Number {
    if limits <= MIDDLE_LIMIT * LIMIT {
        limits
    } else if limits <= END_LIMIT * LIMIT {
        END_LIMIT * LIMIT - limits
    } else {
        0
    }
}

/// Returns the lunar inequality without its sign at limits counted in 10⁻⁸ of a limit.
pub fn lunar_magnitude(limits: Number) -> Number {
    law_at(LUNAR_LAW, limits_taken(limits), LIMIT)
}

/// Returns the lunar inequality at a time in a half.
pub fn lunar_inequality(half: LunarHalf, time: Number) -> Number {
    match half {
        LunarHalf::Quick => lunar_magnitude(limits(time)),
        LunarHalf::Tardy => -lunar_magnitude(limits(time)),
    }
}

/// Returns the lunar inequality at a quarter of a lunation.
pub fn lunar_of(lunation: Number, quarter: Number) -> Number {
    let (half, time) = anomaly(lunation, quarter);
    lunar_inequality(half, time)
}

/// Returns E(k), the exact lunar law at a whole limit, counted back from the end after the middle.
pub fn whole_limit_law(whole: Number) -> Number {
    if whole <= MIDDLE_LIMIT {
        exact_law(LUNAR_LAW, whole)
    } else {
        exact_law(LUNAR_LAW, END_LIMIT - whole)
    }
}

/// Returns the whole limit of a time in a half, the end counted with the limit before it.
pub fn whole_limit(time: Number) -> Number {
    let whole = limits(time) / LIMIT;
    if whole == END_LIMIT {
        LAST_WHOLE_LIMIT
    } else {
        whole
    }
}

/// Returns the moon's motion in a whole limit of a half.
pub fn motion_in_limit(half: LunarHalf, whole: Number) -> Number {
    let difference = whole_limit_law(whole + 1) - whole_limit_law(whole);
    match half {
        LunarHalf::Quick => MEAN_MOTION + difference,
        LunarHalf::Tardy => MEAN_MOTION - difference,
    }
}

/// Returns the moon's motion at a quarter of a lunation.
pub fn motion_of(lunation: Number, quarter: Number) -> Number {
    let (half, time) = anomaly(lunation, quarter);
    motion_in_limit(half, whole_limit(time))
}

// The rules of the moons and months.

/// Returns the time of the mean moon at a quarter of a lunation.
pub fn mean_time(lunation: Number, quarter: Number) -> Number {
    MEAN_START + lunation * MONTH + quarter * QUARTER_STEP
}

/// Returns the correction from the mean to the true moon at a quarter of a lunation.
pub fn correction_of(lunation: Number, quarter: Number) -> Number {
    let difference = solar_of(lunation, quarter) - lunar_of(lunation, quarter);
    let magnitude = difference.abs() * CORRECTION_TIMES / motion_of(lunation, quarter);
    if difference < 0 {
        -magnitude
    } else {
        magnitude
    }
}

/// Returns the time of the true moon at a quarter of a lunation.
pub fn true_time(lunation: Number, quarter: Number) -> Number {
    mean_time(lunation, quarter) + correction_of(lunation, quarter)
}

/// Returns the first day of a month, which is the day of its true new moon.
pub fn first_day(lunation: Number) -> Number {
    day_of(true_time(lunation, 0))
}

/// Returns the days of a year's twelve middle terms, in rising order.
pub fn middle_term_days(year: Number) -> Vec<Number> {
    (0..TERMS)
        .filter(|term| term % MIDDLE_TERM_PACE == 0)
        .map(|term| day_of(term_time(year, term)))
        .collect()
}

/// Returns whether a month of the given first day and length holds one of the given days.
pub fn holds_one(first_day: Number, length: Number, days: &[Number]) -> bool {
    days.iter()
        .any(|day| first_day <= *day && *day < first_day + length)
}

/// Returns the place of the leap month among a year's months, if the year has thirteen.
pub fn leap_place(year: Number, months: &[(Number, Number)]) -> Option<usize> {
    if months.len() < LONGEST_LIST {
        return None;
    }
    let days = middle_term_days(year);
    months
        .iter()
        .position(|(first_day, length)| !holds_one(*first_day, *length, &days))
}

/// Returns a year's list from its months' first days and lengths.
pub fn numbered(year: Number, months: &[(Number, Number)]) -> Vec<Record> {
    let leap_place = leap_place(year, months);
    let mut ordinary = NUMBERS.iter();
    let mut number = 0;
    let mut list = Vec::new();
    for (place, (first_day, length)) in months.iter().enumerate() {
        let leap = leap_place == Some(place);
        if !leap {
            number = *ordinary.next().expect("a list has twelve ordinary months");
        }
        list.push(Record {
            first_day: *first_day,
            length: *length,
            number,
            leap,
        });
    }
    list
}

// What is refused.

/// Returns nothing for an admitted year and refusal 1 for another.
fn check_year(year: u64) -> Result<(), u32> {
    if Number::from(year) <= LAST_YEAR {
        Ok(())
    } else {
        Err(REFUSED_YEAR)
    }
}

/// Returns nothing for a run of at least one year ending by the last and refusal 1 for another.
fn check_run(year: u64, count: u64) -> Result<(), u32> {
    if count > 0 && Number::from(year) + Number::from(count) <= LAST_YEAR + 1 {
        Ok(())
    } else {
        Err(REFUSED_YEAR)
    }
}

/// Returns nothing for a place below the length of its list and refusal 2 for another.
pub(crate) fn check_place(place: u64, length: Number) -> Result<(), u32> {
    if Number::from(place) < length {
        Ok(())
    } else {
        Err(REFUSED_PLACE)
    }
}

/// Returns nothing for an admitted lunation and quarter and refusal 2 for others.
fn check_quarter(lunation: u64, quarter: u64) -> Result<(), u32> {
    check_place(lunation, LAST_LUNATION + 1)?;
    check_place(quarter, QUARTERS)
}

/// Returns nothing for one of earth's four terms and refusal 2 for another.
fn check_earth_term(term: u64) -> Result<(), u32> {
    if EARTH_TERMS.contains(&Number::from(term)) {
        Ok(())
    } else {
        Err(REFUSED_PLACE)
    }
}

/// Returns nothing for a day of some month and refusal 3 for another.
fn check_day(day: u64) -> Result<(), u32> {
    if (FIRST_DAY..=LAST_DAY).contains(&Number::from(day)) {
        Ok(())
    } else {
        Err(REFUSED_DAY)
    }
}

/// Returns nothing for a row with the room wanted and refusal 4 for a shorter one.
fn check_row(length: usize, wanted: usize) -> Result<(), u32> {
    if length >= wanted {
        Ok(())
    } else {
        Err(REFUSED_ROW)
    }
}

// The questions about the year.

/// Returns the time of a year's solstice, or a refusal.
pub fn solstice(year: u64) -> Result<Number, u32> {
    check_year(year)?;
    Ok(solstice_time(year.into()))
}

/// Returns the time of a term, or a refusal.
pub fn term(year: u64, term: u64) -> Result<Number, u32> {
    check_year(year)?;
    check_place(term, TERMS)?;
    Ok(term_time(year.into(), term.into()))
}

/// Returns the time of a pentad, or a refusal.
pub fn pentad(year: u64, term: u64, pentad: u64) -> Result<Number, u32> {
    check_year(year)?;
    check_place(term, TERMS)?;
    check_place(pentad, PENTADS)?;
    Ok(pentad_time(year.into(), term.into(), pentad.into()))
}

/// Returns the time at which earth begins to rule before one of its four terms, or a refusal.
pub fn earth(year: u64, term: u64) -> Result<Number, u32> {
    check_year(year)?;
    check_earth_term(term)?;
    Ok(earth_time(year.into(), term.into()))
}

/// Returns how many of a year's terms were written into the lent row, or a refusal.
pub fn terms(year: u64, row: &mut [Number]) -> Result<usize, u32> {
    check_year(year)?;
    check_row(row.len(), TERMS as usize)?;
    for (number, term) in row.iter_mut().zip(0..TERMS) {
        *number = term_time(year.into(), term);
    }
    Ok(TERMS as usize)
}

// The questions about the moon.

/// Returns the time of a mean moon, or a refusal.
pub fn mean(lunation: u64, quarter: u64) -> Result<Number, u32> {
    check_quarter(lunation, quarter)?;
    Ok(mean_time(lunation.into(), quarter.into()))
}

/// Returns the time of a true moon, or a refusal.
pub fn true_moon(lunation: u64, quarter: u64) -> Result<Number, u32> {
    check_quarter(lunation, quarter)?;
    Ok(true_time(lunation.into(), quarter.into()))
}

/// Returns the solar inequality of a lunation's quarter, or a refusal.
pub fn solar(lunation: u64, quarter: u64) -> Result<Number, u32> {
    check_quarter(lunation, quarter)?;
    Ok(solar_of(lunation.into(), quarter.into()))
}

/// Returns the lunar inequality of a lunation's quarter, or a refusal.
pub fn lunar(lunation: u64, quarter: u64) -> Result<Number, u32> {
    check_quarter(lunation, quarter)?;
    Ok(lunar_of(lunation.into(), quarter.into()))
}

/// Returns the moon's motion of a lunation's quarter, or a refusal.
pub fn motion(lunation: u64, quarter: u64) -> Result<Number, u32> {
    check_quarter(lunation, quarter)?;
    Ok(motion_of(lunation.into(), quarter.into()))
}

/// Returns the correction of a lunation's quarter, or a refusal.
pub fn correction(lunation: u64, quarter: u64) -> Result<Number, u32> {
    check_quarter(lunation, quarter)?;
    Ok(correction_of(lunation.into(), quarter.into()))
}

/// Returns the solar inequality at a time in a half, or a refusal.
pub fn solar_at(half: SolarHalf, time: u64) -> Result<Number, u32> {
    check_place(time, HALF_YEAR)?;
    Ok(solar_inequality(half, time.into()))
}

/// Returns the lunar inequality at a time in a half, or a refusal.
pub fn lunar_at(half: LunarHalf, time: u64) -> Result<Number, u32> {
    check_place(time, ANOMALISTIC_HALF)?;
    Ok(lunar_inequality(half, time.into()))
}

/// Returns the moon's motion in a whole limit of a half, or a refusal.
pub fn motion_at(half: LunarHalf, whole: u64) -> Result<Number, u32> {
    check_place(whole, LAST_WHOLE_LIMIT + 1)?;
    Ok(motion_in_limit(half, whole.into()))
}

// The questions about a remainder.

/// Returns the double-hour and the ke of a remainder, or a refusal.
pub fn hour(remainder: u64) -> Result<(Number, Number), u32> {
    check_place(remainder, DAY)?;
    let twelvefold = Number::from(remainder) * DOUBLE_HOURS;
    Ok((twelvefold / DAY, twelvefold % DAY / (KE_FEN * FEN)))
}

/// Returns the days from a term of this remainder to its extra day, if it has one, or a refusal.
pub fn extra(remainder: u64) -> Result<Option<Number>, u32> {
    check_place(remainder, DAY)?;
    let remainder = Number::from(remainder);
    if remainder < EXTRA_FROM {
        return Ok(None);
    }
    Ok(Some((TERM_STEP - EXTRA_TIMES * remainder) / EXTRA_OVER))
}

/// Returns the days from a mean new moon of this remainder to its vanishing day, if it has one, or
/// a refusal.
pub fn vanishing(remainder: u64) -> Result<Option<Number>, u32> {
    check_place(remainder, DAY)?;
    let remainder = Number::from(remainder);
    if remainder > VANISHING_TO {
        return Ok(None);
    }
    Ok(Some(VANISHING_TIMES * remainder / VANISHING_TO))
}

// The questions about months.

/// All months of the admitted years, listed once.
pub struct Months {
    first_days: Vec<Number>,
    heads: Vec<usize>,
    lists: Vec<Vec<Record>>,
}

impl Months {
    /// Returns all months, listed by walking from lunation 0 through the years.
    pub fn listed() -> Months {
        let mut months = Months {
            first_days: (0..=LAST_LUNATION + 2).map(first_day).collect(),
            heads: Vec::new(),
            lists: Vec::new(),
        };
        for year in 0..=LAST_YEAR + 1 {
            months.heads.push(months.walk_to_head(year));
        }
        for year in 0..=LAST_YEAR {
            months.lists.push(months.list(year));
        }
        months
    }

    /// Returns the last month whose first day is not after the day of a year's solstice, walking on
    /// from the head found before it.
    fn walk_to_head(&self, year: Number) -> usize {
        let solstice_day = day_of(solstice_time(year));
        let mut lunation = self.heads.last().copied().unwrap_or(0);
        while self.first_days[lunation + 1] <= solstice_day {
            lunation += 1;
        }
        lunation
    }

    /// Returns a year's list, from its head to before the next year's head.
    fn list(&self, year: Number) -> Vec<Record> {
        let lunations = self.heads[year as usize]..self.heads[year as usize + 1];
        let months: Vec<(Number, Number)> = lunations
            .map(|l| {
                (
                    self.first_days[l],
                    self.first_days[l + 1] - self.first_days[l],
                )
            })
            .collect();
        numbered(year, &months)
    }

    /// Returns the lists of the admitted years.
    pub fn lists(&self) -> &[Vec<Record>] {
        &self.lists
    }

    /// Returns the lunation of the head of a year up to the one after the last admitted, with the
    /// head's first day.
    pub fn head_and_first_day(&self, year: usize) -> (Number, Number) {
        let head = self.heads[year];
        (head as Number, self.first_days[head])
    }

    /// Returns the lunation of a year's head, or a refusal.
    pub fn head(&self, year: u64) -> Result<Number, u32> {
        check_year(year)?;
        Ok(self.heads[year as usize] as Number)
    }

    /// Returns how many records of a year's list were written into the lent row, or a refusal.
    pub fn year(&self, year: u64, row: &mut [Record]) -> Result<usize, u32> {
        check_year(year)?;
        check_row(row.len(), LONGEST_LIST)?;
        let list = &self.lists[year as usize];
        row[..list.len()].copy_from_slice(list);
        Ok(list.len())
    }

    /// Returns how many records of a run of years were written into the lent row, or a refusal.
    pub fn years(&self, year: u64, count: u64, row: &mut [Record]) -> Result<usize, u32> {
        check_year(year)?;
        check_run(year, count)?;
        check_row(row.len(), LONGEST_LIST * count as usize)?;
        let mut used = 0;
        for each in year..year + count {
            used += self.year(each, &mut row[used..])?;
        }
        Ok(used)
    }

    /// Returns the year whose list holds an admitted day.
    fn year_of(&self, day: Number) -> usize {
        self.lists.partition_point(|list| list[0].first_day <= day) - 1
    }

    /// Returns the month of a day with its place, or a refusal.
    pub fn day(&self, day: u64) -> Result<MonthPlace, u32> {
        check_day(day)?;
        let day = Number::from(day);
        let year = self.year_of(day);
        let list = &self.lists[year];
        let place = list
            .iter()
            .rposition(|month| month.first_day <= day)
            .expect("the year's first month starts by the day");
        Ok(MonthPlace {
            year: year as Number,
            place: place as Number,
            day_of_month: day - list[place].first_day + 1,
            month: list[place],
        })
    }

    /// Returns the day of a year, a place in its list and a day of the month, or a refusal.
    pub fn back(&self, year: u64, place: u64, day_of_month: u64) -> Result<Number, u32> {
        check_year(year)?;
        let list = &self.lists[year as usize];
        check_place(place, list.len() as Number)?;
        let month = &list[place as usize];
        let days_on = day_of_month.checked_sub(1).ok_or(REFUSED_PLACE)?;
        check_place(days_on, month.length)?;
        Ok(month.first_day + Number::from(days_on))
    }
}
