//! Chinese names with their romanisation (pinyin without tones).

use crate::Month;

/// A name in Chinese and romanised.
#[derive(Clone, Debug, PartialEq, Eq)]
pub struct Name {
    pub chinese: String,
    pub romanised: String,
}

impl Name {
    /// Returns whether a text gives this name, in Chinese or romanised, with small letters or capitals.
    pub fn is(&self, text: &str) -> bool {
        self.chinese == text || self.romanised.eq_ignore_ascii_case(text)
    }
}

/// A term of the year.
pub struct Term {
    pub chinese: &'static str,
    pub romanised: &'static str,
    pub english: &'static str,
}

const STEMS: [(&str, &str); 10] = [
    ("甲", "jia"),
    ("乙", "yi"),
    ("丙", "bing"),
    ("丁", "ding"),
    ("戊", "wu"),
    ("己", "ji"),
    ("庚", "geng"),
    ("辛", "xin"),
    ("壬", "ren"),
    ("癸", "gui"),
];

const BRANCHES: [(&str, &str); 12] = [
    ("子", "zi"),
    ("丑", "chou"),
    ("寅", "yin"),
    ("卯", "mao"),
    ("辰", "chen"),
    ("巳", "si"),
    ("午", "wu"),
    ("未", "wei"),
    ("申", "shen"),
    ("酉", "you"),
    ("戌", "xu"),
    ("亥", "hai"),
];

const MONTHS: [(&str, &str); 12] = [
    ("正月", "zhengyue"),
    ("二月", "eryue"),
    ("三月", "sanyue"),
    ("四月", "siyue"),
    ("五月", "wuyue"),
    ("六月", "liuyue"),
    ("七月", "qiyue"),
    ("八月", "bayue"),
    ("九月", "jiuyue"),
    ("十月", "shiyue"),
    ("十一月", "shiyiyue"),
    ("十二月", "shieryue"),
];

/// The 24 terms from the winter solstice on; those of even place are the middle terms.
pub const TERMS: [Term; 24] = [
    term("冬至", "Dongzhi", "winter solstice"),
    term("小寒", "Xiaohan", "lesser cold"),
    term("大寒", "Dahan", "greater cold"),
    term("立春", "Lichun", "spring begins"),
    term("雨水", "Yushui", "rain water"),
    term("驚蟄", "Jingzhe", "insects wake"),
    term("春分", "Chunfen", "spring equinox"),
    term("清明", "Qingming", "clear and bright"),
    term("穀雨", "Guyu", "grain rain"),
    term("立夏", "Lixia", "summer begins"),
    term("小滿", "Xiaoman", "lesser fullness"),
    term("芒種", "Mangzhong", "grain in ear"),
    term("夏至", "Xiazhi", "summer solstice"),
    term("小暑", "Xiaoshu", "lesser heat"),
    term("大暑", "Dashu", "greater heat"),
    term("立秋", "Liqiu", "autumn begins"),
    term("處暑", "Chushu", "heat withdraws"),
    term("白露", "Bailu", "white dew"),
    term("秋分", "Qiufen", "autumn equinox"),
    term("寒露", "Hanlu", "cold dew"),
    term("霜降", "Shuangjiang", "frost descends"),
    term("立冬", "Lidong", "winter begins"),
    term("小雪", "Xiaoxue", "lesser snow"),
    term("大雪", "Daxue", "greater snow"),
];

const fn term(chinese: &'static str, romanised: &'static str, english: &'static str) -> Term {
    Term {
        chinese,
        romanised,
        english,
    }
}

/// Returns the name among the sixty at a count from a jiazi.
pub fn sixty(count: u64) -> Name {
    let (stem, branch) = (stem(count), branch(count));
    Name {
        chinese: stem.chinese + &branch.chinese,
        romanised: stem.romanised + &branch.romanised,
    }
}

/// Returns the sixty-name of a running day. Day 0 is a jiazi day.
pub fn of_day(day: u64) -> Name {
    sixty(day)
}

/// Returns a number from 1 to 99 in Chinese: 八, 十, 十八, 二十, 二十一.
pub fn numeral(number: u64) -> String {
    const DIGITS: [&str; 10] = ["", "一", "二", "三", "四", "五", "六", "七", "八", "九"];
    let ones = DIGITS[(number % 10) as usize];
    match number / 10 {
        0 => ones.to_string(),
        1 => format!("十{ones}"),
        tens => format!("{}十{ones}", DIGITS[tens as usize]),
    }
}

/// Returns the count from a jiazi, 0 to 59, of the name among the sixty that a text gives, in Chinese or
/// romanised.
pub fn count_of(text: &str) -> Option<u64> {
    (0..60).find(|count| sixty(*count).is(text))
}

/// Returns the stem at a count from jia.
pub fn stem(count: u64) -> Name {
    name(STEMS[(count % 10) as usize])
}

/// Returns the branch at a count from zi.
pub fn branch(count: u64) -> Name {
    name(BRANCHES[(count % 12) as usize])
}

fn name((chinese, romanised): (&str, &str)) -> Name {
    Name {
        chinese: chinese.to_string(),
        romanised: romanised.to_string(),
    }
}

/// Returns the count from jia, 0 to 9, of the stem that a text gives, in Chinese or romanised.
pub fn stem_of(text: &str) -> Option<u64> {
    (0..10).find(|count| stem(*count).is(text))
}

/// Returns the count from zi, 0 to 11, of the branch that a text gives, in Chinese or romanised.
pub fn branch_of(text: &str) -> Option<u64> {
    (0..12).find(|count| branch(*count).is(text))
}

/// Returns the number from 1 to 99 that a text gives in Chinese. 廿, 卅 and 卌 are 二十, 三十 and 四十.
pub fn number_of(text: &str) -> Option<u64> {
    let text = text
        .replace('廿', "二十")
        .replace('卅', "三十")
        .replace('卌', "四十");
    (1..100).find(|number| numeral(*number) == text)
}

/// Returns the name of a month.
pub fn of_month(month: &Month) -> Name {
    let (chinese, romanised) = MONTHS[month.number as usize - 1];
    if month.leap {
        Name {
            chinese: format!("閏{chinese}"),
            romanised: format!("run-{romanised}"),
        }
    } else {
        Name {
            chinese: chinese.to_string(),
            romanised: romanised.to_string(),
        }
    }
}

/// Returns the name of a month's length.
pub fn of_length(month: &Month) -> (&'static str, &'static str) {
    length(month.length.into())
}

/// Returns the name of a length: 30 days are great, 29 small.
pub fn length(days: u64) -> (&'static str, &'static str) {
    if days == 30 {
        ("大", "da")
    } else {
        ("小", "xiao")
    }
}
