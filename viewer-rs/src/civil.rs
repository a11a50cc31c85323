//! The civil year of a month. The calendar's list of year N runs from winter solstice to winter solstice (歲, the
//! solstice year): it begins with months 11 and 12 of the civil year before. A sheet is filed by the civil year (年), which
//! begins with month 1. Eras are a courtesy and no part of a reply of the calendar.

use crate::names::{self, Name};
use crate::{Month, MonthOfDay};

/// Western year in which the civil year of month 1 of solstice year 0 began.
const FIRST: u64 = 1281;

/// A jiazi year, of which all others are counted on.
const JIAZI: u64 = 4;

/// A civil year, by the Western year in which it began.
#[derive(Clone, Copy, Debug, PartialEq, Eq, PartialOrd, Ord)]
pub struct CivilYear(pub u64);

/// The months of one civil year that stand in the list of a solstice year.
#[derive(Clone, Copy, Debug, PartialEq, Eq)]
pub struct Part<'a> {
    pub year: CivilYear,
    pub months: &'a [Month],
}

/// A year of an era.
#[derive(Clone, Copy, Debug, PartialEq, Eq)]
pub struct EraYear {
    pub era: &'static Era,
    /// Counted from 1.
    pub year: u64,
}

/// An era, which begins with a month of a civil year.
#[derive(Debug, PartialEq, Eq)]
pub struct Era {
    pub year: u64,
    pub month: u32,
    pub chinese: &'static str,
    pub romanised: &'static str,
}

/// The eras as general histories have them, up to the last civil year of each; no reading of a source here.
pub const ERAS: [Era; 31] = [
    era(1264, 8, "至元", "Zhiyuan"),
    era(1295, 1, "元貞", "Yuanzhen"),
    era(1297, 2, "大德", "Dade"),
    era(1308, 1, "至大", "Zhida"),
    era(1312, 1, "皇慶", "Huangqing"),
    era(1314, 1, "延祐", "Yanyou"),
    era(1321, 1, "至治", "Zhizhi"),
    era(1324, 1, "泰定", "Taiding"),
    era(1328, 2, "致和", "Zhihe"),
    era(1328, 9, "天曆", "Tianli"),
    era(1330, 5, "至順", "Zhishun"),
    era(1333, 10, "元統", "Yuantong"),
    era(1335, 11, "至元", "Zhiyuan (the later)"),
    era(1341, 1, "至正", "Zhizheng"),
    era(1368, 1, "洪武", "Hongwu"),
    era(1399, 1, "建文", "Jianwen"),
    era(1403, 1, "永樂", "Yongle"),
    era(1425, 1, "洪熙", "Hongxi"),
    era(1426, 1, "宣德", "Xuande"),
    era(1436, 1, "正統", "Zhengtong"),
    era(1450, 1, "景泰", "Jingtai"),
    era(1457, 1, "天順", "Tianshun"),
    era(1465, 1, "成化", "Chenghua"),
    era(1488, 1, "弘治", "Hongzhi"),
    era(1506, 1, "正德", "Zhengde"),
    era(1522, 1, "嘉靖", "Jiajing"),
    era(1567, 1, "隆慶", "Longqing"),
    era(1573, 1, "萬曆", "Wanli"),
    era(1620, 8, "泰昌", "Taichang"),
    era(1621, 1, "天啟", "Tianqi"),
    era(1628, 1, "崇禎", "Chongzhen"),
];

/// The last civil year whose era is told.
pub const LAST_TOLD: u64 = 1644;

const fn era(year: u64, month: u32, chinese: &'static str, romanised: &'static str) -> Era {
    Era {
        year,
        month,
        chinese,
        romanised,
    }
}

impl CivilYear {
    /// Returns the civil year of a month in the list of a solstice year: months 11 and 12, which begin the list, and
    /// their leap months belong to the civil year before.
    pub fn of(solstice_year: u64, month: &Month) -> CivilYear {
        CivilYear(FIRST + solstice_year - u64::from(month.number > 10))
    }

    /// Returns the civil year of a day's month.
    pub fn of_day(reply: &MonthOfDay) -> CivilYear {
        CivilYear::of(reply.year.into(), &reply.month)
    }

    /// Returns the solstice year in whose list a month of this civil year stands, where the calendar has it.
    pub fn solstice_year(self, number: u32) -> Option<u64> {
        (self.0 + u64::from(number > 10)).checked_sub(FIRST)
    }

    /// Returns its sixty-name.
    pub fn name(self) -> Name {
        names::sixty(self.0 - JIAZI)
    }

    /// Returns the era of one of its months, and which of its years that is, where it is known.
    pub fn era(self, month: u32) -> Option<EraYear> {
        if self.0 > LAST_TOLD {
            return None;
        }
        let begun = |era: &&'static Era| (era.year, era.month) <= (self.0, month);
        let era = ERAS.iter().rev().find(begun)?;
        Some(EraYear {
            era,
            year: self.0 - era.year + 1,
        })
    }
}

/// Returns the two parts of a solstice year's list: months 11 and 12, which end a civil year, and months 1 to 10, which
/// begin the next.
pub fn parts(solstice_year: u64, months: &[Month]) -> [Part<'_>; 2] {
    let begun = CivilYear(FIRST + solstice_year);
    let ending = months.iter().take_while(|month| month.number > 10).count();
    let (before, after) = months.split_at(ending);
    [(CivilYear(begun.0 - 1), before), (begun, after)].map(|(year, months)| Part { year, months })
}

/// Returns the Western years in which the two civil years of a solstice year began: 1280/81, and 1299/1300 where a
/// century begins.
pub fn span(solstice_year: u64) -> String {
    let begun = FIRST + solstice_year;
    match begun % 100 {
        0 => format!("{}/{begun}", begun - 1),
        last => format!("{}/{last:02}", begun - 1),
    }
}

impl Part<'_> {
    /// Returns the eras of its months, each with the number of the first month that has it, where they are known.
    pub fn eras(&self) -> Vec<(u32, EraYear)> {
        let mut eras: Vec<(u32, EraYear)> = Vec::new();
        for month in self.months {
            if let Some(era) = self.year.era(month.number) {
                if eras.last().map(|last| last.1) != Some(era) {
                    eras.push((month.number, era));
                }
            }
        }
        eras
    }

    /// Returns its eras in words, each name as it is to be shown: the first, and each later one with the month from which it
    /// counts.
    pub fn eras_told(&self, shown: impl Fn(&Name) -> String) -> Option<String> {
        let mut eras = self.eras().into_iter();
        let mut told = shown(&eras.next()?.1.name());
        for (month, era) in eras {
            told += &format!(", from month {month} {}", shown(&era.name()));
        }
        Some(told)
    }
}

impl Era {
    /// Returns whether a word in small letters is its name. The later of two eras has the name of the earlier.
    pub fn is_romanised(&self, word: &str) -> bool {
        let name = self.romanised.split(' ').next();
        name.map(str::to_lowercase).as_deref() == Some(word)
    }

    /// Returns the last civil year in which it was the era of a month.
    pub fn last_year(&self) -> u64 {
        match self.next() {
            Some(next) if next.month == 1 => next.year - 1,
            _ => self.year_of_change(),
        }
    }

    /// Returns the civil year in which the next era began, or the last that is told.
    pub fn year_of_change(&self) -> u64 {
        self.next().map_or(LAST_TOLD, |next| next.year)
    }

    fn next(&self) -> Option<&'static Era> {
        let began = (self.year, self.month);
        ERAS.iter().find(|era| (era.year, era.month) > began)
    }
}

impl EraYear {
    /// Returns it as a sheet prints it, 至元十八年 with 元年 for the first, and romanised.
    pub fn name(&self) -> Name {
        let year = match self.year {
            1 => "元".to_string(),
            year => names::numeral(year),
        };
        Name {
            chinese: format!("{}{year}年", self.era.chinese),
            romanised: format!("{} {}", self.era.romanised, self.year),
        }
    }
}

#[cfg(test)]
mod tests {
    use super::*;

    #[test]
    fn the_first_two_months_of_a_list_are_of_the_civil_year_before() {
        let month = |number, leap| Month {
            first: 0,
            length: 29,
            number,
            leap,
        };
        for (number, leap, civil) in [
            (11, false, 1282),
            (11, true, 1282),
            (12, false, 1282),
            (12, true, 1282),
            (1, false, 1283),
            (1, true, 1283),
            (10, true, 1283),
        ] {
            let year = CivilYear::of(2, &month(number, leap));
            assert_eq!(year, CivilYear(civil), "month {number}, leap {leap}");
            assert_eq!(year.solstice_year(number), Some(2));
        }
    }

    #[test]
    fn the_span_of_a_solstice_year_names_both_civil_years() {
        assert_eq!(span(0), "1280/81");
        assert_eq!(span(19), "1299/1300");
        assert_eq!(span(20), "1300/01");
        assert_eq!(span(719), "1999/2000");
        assert_eq!(span(999), "2279/80");
    }

    #[test]
    fn an_era_that_begins_within_a_year_is_told_with_its_month() {
        let months: Vec<Month> = [11, 12, 1, 2, 3, 4, 5, 6, 7, 8, 9, 10]
            .map(|number| Month {
                first: 0,
                length: 29,
                number,
                leap: false,
            })
            .to_vec();
        let told =
            |year| parts(year, &months).map(|part| part.eras_told(|era| era.chinese.clone()));
        let some = |text: &str| Some(text.to_string());
        let changes = "泰定五年, from month 2 致和元年, from month 9 天曆元年";
        assert_eq!(told(47), [some("泰定四年"), some(changes)]);
        assert_eq!(told(48), [some("天曆元年"), some("天曆二年")]);
        assert_eq!(told(54), [some("元統二年"), some("元統三年")]);
        assert_eq!(told(55), [some("至元元年"), some("至元二年")]);
        assert_eq!(told(364), [some("崇禎十七年"), None]);
        assert_eq!(told(365), [None, None]);
    }

    #[test]
    fn names_and_eras() {
        let told = |year, month| CivilYear(year).era(month).map(|era| era.name().chinese);
        assert_eq!(CivilYear(1281).name().chinese, "辛巳");
        assert_eq!(CivilYear(1280).name().chinese, "庚辰");
        assert_eq!(CivilYear(1984).name().chinese, "甲子");
        assert_eq!(told(1281, 8).unwrap(), "至元十八年");
        assert_eq!(told(1328, 1).unwrap(), "泰定五年");
        assert_eq!(told(1328, 2).unwrap(), "致和元年");
        assert_eq!(told(1328, 9).unwrap(), "天曆元年");
        assert_eq!(told(1335, 10).unwrap(), "元統三年");
        assert_eq!(told(1335, 11).unwrap(), "至元元年");
        assert_eq!(told(1644, 12).unwrap(), "崇禎十七年");
        assert_eq!(told(1645, 1), None);
    }
}
