//! What is asked of `viewer find`, read from its words. Nothing is looked up here: whether the calendar has what is
//! asked is no matter of reading.

use crate::civil::{Era, ERAS};
use crate::western::{self, Date};
use crate::{command, names};

/// What is to be found.
#[derive(Clone, Debug, PartialEq, Eq)]
pub enum Question {
    /// A date that its calendar has.
    Western(Date),
    Civil(Civil),
}

/// A day or the days of a name in a civil year.
#[derive(Clone, Debug, PartialEq, Eq)]
pub struct Civil {
    pub year: Year,
    /// The sixty-name that the question gives the year, by its count from a jiazi.
    pub year_name: Option<u64>,
    pub asked: Asked,
}

/// A civil year.
#[derive(Clone, Debug, PartialEq, Eq)]
pub enum Year {
    /// By the Western year in which it began.
    Western(u64),
    /// By a year of an era; two eras have one name.
    Era { eras: Vec<&'static Era>, year: u64 },
}

/// What is asked of a civil year.
#[derive(Clone, Copy, Debug, PartialEq, Eq)]
pub enum Asked {
    /// A day of a month, with the sixty-name that the question gives it.
    Day {
        month: MonthAsked,
        day: DayAsked,
        name: Option<u64>,
    },
    /// The days of a sixty-name, in one month or in the whole year.
    Named {
        month: Option<MonthAsked>,
        name: u64,
    },
}

/// A month by its number.
#[derive(Clone, Copy, Debug, PartialEq, Eq)]
pub struct MonthAsked {
    pub number: u64,
    pub leap: bool,
}

/// A day of a month, counted from 1, or the month's last.
#[derive(Clone, Copy, Debug, PartialEq, Eq)]
pub enum DayAsked {
    Number(u64),
    Last,
}

/// A part of a question.
#[derive(Clone, Debug, PartialEq, Eq)]
enum Token {
    /// In digits or in Chinese.
    Number(u64),
    /// Letters, all small.
    Word(String),
    /// Any other character.
    Sign(char),
}

/// What characters run together into one part.
#[derive(Clone, Copy, Debug, PartialEq, Eq)]
enum Kind {
    Blank,
    Numeral,
    Letter,
    Sign,
}

/// Returns the question that a text puts, or why it puts none.
pub fn read(text: &str) -> Result<Question, String> {
    let (tokens, places) = tokens(text).map_err(|place| stopped(text, Some(place)))?;
    let mut reader = Reader { rest: &tokens };
    let question = match reader.date() {
        Some(numbers) => {
            let calendar = reader.calendar();
            reader
                .is_done()
                .then(|| date(numbers, calendar).map(Question::Western))
        }
        None => {
            let civil = reader.civil();
            civil
                .filter(|_| reader.is_done())
                .map(|civil| Ok(Question::Civil(civil)))
        }
    };
    let place = places.get(tokens.len() - reader.rest.len()).copied();
    question.unwrap_or_else(|| Err(stopped(text, place)))
}

/// Returns the month that a whole text names, as a question does.
pub fn month(text: &str) -> Option<MonthAsked> {
    let (tokens, _) = tokens(text).ok()?;
    let mut reader = Reader { rest: &tokens };
    let month = reader.month()??;
    reader.is_done().then_some(month)
}

/// Returns how far a text is understood: up to a place, or to its end, where more was to come.
fn stopped(text: &str, place: Option<usize>) -> String {
    let how = match place {
        None => "it does not name a day".to_string(),
        Some(0) => "it is not understood".to_string(),
        Some(place) => format!("it is not understood from ‘{}’ on", &text[place..]),
    };
    format!("{how}; ‘viewer help’ says what can be asked")
}

/// Returns the date of a year, a month and a day, in the usual calendar where none is named.
fn date(numbers: (u64, u64, u64), calendar: Option<bool>) -> Result<Date, String> {
    let (year, month, day) = numbers;
    let usual = western::usually_gregorian(year, month, day);
    let gregorian = calendar.or(usual).ok_or(
        "5 to 14 October 1582 never were, as 4 October, Julian, was followed by 15 October, Gregorian",
    )?;
    let date = Date {
        year,
        month,
        day,
        gregorian,
    };
    if date.exists() {
        Ok(date)
    } else {
        Err(format!("the {} calendar has no such date", date.calendar()))
    }
}

/// Returns the parts of a text with the places where they begin, or the place of a number that is none.
fn tokens(text: &str) -> Result<(Vec<Token>, Vec<usize>), usize> {
    let all: Vec<(usize, char)> = text
        .char_indices()
        .map(|(place, each)| (place, traditional(each)))
        .collect();
    let mut tokens = Vec::new();
    let mut places = Vec::new();
    let mut rest = &all[..];
    while let Some((place, first)) = rest.first().copied() {
        let kind = kind(first);
        let alike = rest.iter().take_while(|each| kind_of(each) == kind).count();
        let (run, after) = rest.split_at(if kind == Kind::Sign { 1 } else { alike });
        let run: String = run.iter().map(|each| each.1).collect();
        rest = after;
        tokens.push(match kind {
            Kind::Blank => continue,
            Kind::Numeral => Token::Number(number_in(&run).ok_or(place)?),
            Kind::Letter => Token::Word(run.to_lowercase()),
            Kind::Sign => Token::Sign(first),
        });
        places.push(place);
    }
    Ok((tokens, places))
}

/// Returns the number that a run gives in digits or in Chinese, but not in both.
fn number_in(run: &str) -> Option<u64> {
    command::number_in(run).or_else(|| names::number_of(run))
}

fn kind_of(each: &(usize, char)) -> Kind {
    kind(each.1)
}

/// Returns what a character runs together with.
fn kind(each: char) -> Kind {
    match each {
        _ if each.is_whitespace() => Kind::Blank,
        '0'..='9' => Kind::Numeral,
        _ if "一二三四五六七八九十廿卅卌".contains(each) => Kind::Numeral,
        _ if each.is_ascii_alphabetic() => Kind::Letter,
        _ => Kind::Sign,
    }
}

/// Returns the character that stands here for a simplified one, a variant, or a wide digit.
pub fn traditional(each: char) -> char {
    match each {
        '０'..='９' => char::from(b'0' + (u32::from(each) - u32::from('０')) as u8),
        '闰' => '閏',
        '腊' => '臘',
        '岁' | '歳' => '歲',
        '后' => '後',
        '贞' => '貞',
        '庆' => '慶',
        '佑' => '祐',
        '历' | '暦' | '歷' | '歴' | '厯' => '曆',
        '顺' => '順',
        '统' => '統',
        '乐' | '楽' => '樂',
        '徳' => '德',
        '万' => '萬',
        '启' | '啓' => '啟',
        '祯' => '禎',
        each => each,
    }
}

/// The parts of a question that are still to be read.
struct Reader<'a> {
    rest: &'a [Token],
}

impl Reader<'_> {
    fn is_done(&self) -> bool {
        self.rest.is_empty()
    }

    /// Takes signs in a row, and returns whether they were there.
    fn signs(&mut self, signs: &str) -> bool {
        let count = signs.chars().count();
        let there = self.rest.len() >= count
            && (self.rest.iter().zip(signs.chars()))
                .all(|(token, sign)| *token == Token::Sign(sign));
        if there {
            self.rest = &self.rest[count..];
        }
        there
    }

    /// Takes a word, and returns whether it was there.
    fn word(&mut self, word: &str) -> bool {
        let there = matches!(self.rest.first(), Some(Token::Word(next)) if next == word);
        if there {
            self.rest = &self.rest[1..];
        }
        there
    }

    /// Takes a number.
    fn number(&mut self) -> Option<u64> {
        match self.rest {
            [Token::Number(number), rest @ ..] => {
                self.rest = rest;
                Some(*number)
            }
            _ => None,
        }
    }

    /// Takes year, month and day of a Western date.
    fn date(&mut self) -> Option<(u64, u64, u64)> {
        use Token::{Number, Sign, Word};
        let (numbers, rest) = match self.rest {
            [Number(year), Sign('-'), Number(month), Sign('-'), Number(day), rest @ ..] => {
                ((*year, *month, *day), rest)
            }
            [Number(day), Word(month), Number(year), rest @ ..] => {
                ((*year, western::month_named(month)?, *day), rest)
            }
            _ => return None,
        };
        self.rest = rest;
        Some(numbers)
    }

    /// Takes the name of a Western calendar, and returns whether it is the Gregorian.
    fn calendar(&mut self) -> Option<bool> {
        if self.word("julian") {
            Some(false)
        } else {
            self.word("gregorian").then_some(true)
        }
    }

    /// Takes a question about a civil year.
    fn civil(&mut self) -> Option<Civil> {
        let year = self.year()?;
        let year_name = self.year_name()?;
        let month = self.month()?;
        let asked = self.asked(month)?;
        Some(Civil {
            year,
            year_name,
            asked,
        })
    }

    /// Takes a civil year.
    fn year(&mut self) -> Option<Year> {
        let year = match self.number() {
            Some(year) => Year::Western(year),
            None => {
                let eras = self.eras()?;
                let first = self.signs("元").then_some(1);
                let year = first.or_else(|| self.number())?;
                Year::Era { eras, year }
            }
        };
        self.signs("年");
        Some(year)
    }

    /// Takes the name of an era, and returns the eras that have it. Of two, the earlier or the later may be asked for.
    fn eras(&mut self) -> Option<Vec<&'static Era>> {
        let earlier = self.signs("前") || self.word("earlier");
        let later = !earlier && (self.signs("後") || self.word("later"));
        let named = |era: &&Era| match self.rest {
            [Token::Word(word), ..] => era.is_romanised(word),
            [Token::Sign(one), Token::Sign(two), ..] => era.chinese.chars().eq([*one, *two]),
            _ => false,
        };
        let mut eras: Vec<&'static Era> = ERAS.iter().filter(named).collect();
        if eras.is_empty() || (eras.len() == 1 && (earlier || later)) {
            return None;
        }
        let taken = if matches!(self.rest[0], Token::Word(_)) {
            1
        } else {
            2
        };
        self.rest = &self.rest[taken..];
        if earlier {
            eras.truncate(1);
        } else if later {
            eras = eras.split_off(eras.len() - 1);
        }
        Some(eras)
    }

    /// Takes the year's sixty-name, where there is one. A name that is the question's last word is a day's.
    fn year_name(&mut self) -> Option<Option<u64>> {
        let before = self.signs("歲次") || self.signs("歲在");
        let start = self.rest;
        let name = self.name();
        if name.is_none() {
            return if before { None } else { Some(None) };
        }
        let after = self.signs("年") || self.signs("歲");
        let last = matches!(self.rest, [] | [Token::Sign('日')]);
        if last && !before && !after {
            self.rest = start;
            return Some(None);
        }
        Some(name)
    }

    /// Takes a month, where there is one.
    fn month(&mut self) -> Option<Option<MonthAsked>> {
        let leap = self.signs("閏") || self.word("leap");
        let named = [("正月", 1), ("冬月", 11), ("臘月", 12)];
        let number = match named.iter().find(|named| self.signs(named.0)) {
            Some((_, number)) => Some(*number),
            None => self.number().map(|number| {
                self.signs("月");
                number
            }),
        };
        match number {
            Some(number) => Some(Some(MonthAsked { number, leap })),
            None if leap => None,
            None => Some(None),
        }
    }

    /// Takes what is asked of a month or of the year: a day, a name, or a day with its name. 日 may follow either.
    fn asked(&mut self, month: Option<MonthAsked>) -> Option<Asked> {
        let before = self.name();
        let day = match before {
            Some(_) => self.end_of_month(),
            None => self.day()?,
        };
        if before.is_some() || day.is_some() {
            self.signs("日");
        }
        let name = before.or_else(|| self.name());
        if before.is_none() && name.is_some() {
            self.signs("日");
        }
        match (month, day, name) {
            (Some(month), Some(day), name) => Some(Asked::Day { month, day, name }),
            (month, None, Some(name)) => Some(Asked::Named { month, name }),
            _ => None,
        }
    }

    /// Takes a day of a month, where there is one. 初 stands before the first ten.
    fn day(&mut self) -> Option<Option<DayAsked>> {
        if let Some(day) = self.end_of_month() {
            return Some(Some(day));
        }
        if self.signs("初") {
            return match self.rest {
                [Token::Number(1..=10), ..] => Some(self.number().map(DayAsked::Number)),
                _ => None,
            };
        }
        Some(self.number().map(DayAsked::Number))
    }

    /// Takes the sign of a month's first or last day.
    fn end_of_month(&mut self) -> Option<DayAsked> {
        if self.signs("朔") {
            Some(DayAsked::Number(1))
        } else {
            self.signs("晦").then_some(DayAsked::Last)
        }
    }

    /// Takes a name among the sixty, and returns its count from a jiazi.
    fn name(&mut self) -> Option<u64> {
        let (name, taken) = match self.rest {
            [Token::Word(word), ..] => (word.clone(), 1),
            [Token::Sign(stem), Token::Sign(branch), ..] => (String::from_iter([stem, branch]), 2),
            _ => return None,
        };
        let count = names::count_of(&name)?;
        self.rest = &self.rest[taken..];
        Some(count)
    }
}
