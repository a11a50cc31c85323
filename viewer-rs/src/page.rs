//! A solstice year as a page of HTML that needs nothing besides itself.

use crate::civil::{self, CivilYear, Part};
use crate::names::{self, Name, TERMS};
use crate::text::{courtesy_note, number, numbered};
use crate::{month_of, terms, western, Month, MonthOfDay};

const STYLE: &str = include_str!("page.css");

/// Returns the page of a solstice year.
pub fn year(year: u64, months: &[Month]) -> String {
    let span = civil::span(year);
    let parts = civil::parts(year, months);
    let falling = falling(year);
    let listed: String = (0..=terms::LAST).map(|term| listed(year, term)).collect();
    let title = format!("Shoushi solstice year {year} ({span})");
    let body = format!(
        "<header>\n<h1>{} <span>{title}</span></h1>\n\
         {}{}<p>{}</p>\n</header>\n<main>\n\
         <table class=\"months\">\n\
         <thead><tr><th scope=\"col\">Month</th><th scope=\"col\">First day · Western date*</th>\
         <th scope=\"col\">Days and terms</th></tr></thead>\n\
         {}{}</table>\n\
         <h2>{} <span>The 24 terms</span></h2>\n<ol class=\"terms\">\n{listed}</ol>\n</main>\n\
         <footer>\n{}<p>{}</p>\n</footer>\n",
        chinese("授時曆"),
        spanned(&parts[0]),
        spanned(&parts[1]),
        summary(year, months),
        body("civil", ", its last months", &parts[0], &falling),
        body("civil new-year", " begins", &parts[1], &falling),
        chinese("二十四氣"),
        legend(),
        courtesy_note(&parts),
    );
    document(&title, "", &body)
}

/// Returns a page that needs nothing besides itself.
pub fn document(title: &str, style: &str, body: &str) -> String {
    format!(
        "<!DOCTYPE html>\n<html lang=\"en\">\n<head>\n<meta charset=\"utf-8\">\n\
         <meta name=\"viewport\" content=\"width=device-width, initial-scale=1\">\n\
         <title>{title}</title>\n<style>\n{STYLE}{style}</style>\n</head>\n<body>\n{body}</body>\n</html>\n"
    )
}

/// Returns the line of the header about a civil year of which the solstice year has months.
fn spanned(part: &Part) -> String {
    let months = match part.months {
        [first, .., last] => format!(
            ", <span class=\"whole\">months {} to {}</span>",
            number(first),
            number(last)
        ),
        _ => String::new(),
    };
    format!(
        "<p class=\"year\">{} · civil year {}{months}{}</p>\n",
        named(part.year),
        part.year.0,
        eras(part),
    )
}

/// Returns the table's body of a civil year's months, under a row that names it and says which months these are.
fn body(class: &str, which: &str, part: &Part, falling: &[(u64, u64)]) -> String {
    let rows: String = part
        .months
        .iter()
        .map(|month| row(month, falling))
        .collect();
    format!(
        "<tbody>\n<tr class=\"{class}\"><th scope=\"rowgroup\" colspan=\"3\">{} · civil year {}{which}{}</th></tr>\n\
         {rows}</tbody>\n",
        named(part.year),
        part.year.0,
        eras(part),
    )
}

/// Returns the sixty-name of a civil year.
fn named(year: CivilYear) -> String {
    let name = year.name();
    format!(
        "{} {}",
        chinese(&format!("{}年", name.chinese)),
        romanised(&name.romanised)
    )
}

/// Returns a civil year's eras as they follow its name, where they are known.
pub fn eras(part: &Part) -> String {
    match part.eras_told(both) {
        Some(eras) => format!(" <span class=\"era\">{eras}*</span>"),
        None => String::new(),
    }
}

/// Returns the terms with their days that a solstice year's months may hold: its own, and the last of the
/// one before.
fn falling(year: u64) -> Vec<(u64, u64)> {
    let before = year.checked_sub(1).map(|before| (before, terms::LAST));
    let own = (0..=terms::LAST).map(|term| (year, term));
    before
        .into_iter()
        .chain(own)
        .map(|(year, term)| (term, terms::day_of(year, term)))
        .collect()
}

/// Returns a sentence that sums the solstice year up.
fn summary(year: u64, months: &[Month]) -> String {
    let days: u32 = months.iter().map(|month| month.length).sum();
    let leap = match months.iter().find(|month| month.leap) {
        Some(month) => format!(", one of them leap ({})", both(&names::of_month(month))),
        None => ", none of them leap".to_string(),
    };
    let solstice = terms::day_of(year, 0);
    format!(
        "{} months{leap}; {days} days. Winter solstice on day {solstice}, {}.",
        months.len(),
        both(&names::of_day(solstice)),
    )
}

/// Returns the table row of a month.
fn row(month: &Month, falling: &[(u64, u64)]) -> String {
    let name = names::of_month(month);
    let class = if month.leap { " class=\"leap\"" } else { "" };
    let first = u64::from(month.first);
    format!(
        "<tr{class}>\n<th scope=\"row\">{} {}<span class=\"small\">{} · {} {} days</span></th>\n\
         <td class=\"first\">{}<span class=\"small\">day {first} · {}</span></td>\n\
         <td class=\"length\">{}</td>\n</tr>\n",
        chinese(&name.chinese),
        romanised(&name.romanised),
        numbered(month),
        chinese(names::of_length(month).0),
        month.length,
        both(&names::of_day(first)),
        western::date_of(first).short(),
        strip(month, falling),
    )
}

/// Returns a month's days drawn as cells, in three rounds of ten, with the terms marked.
fn strip(month: &Month, falling: &[(u64, u64)]) -> String {
    let first = u64::from(month.first);
    let mut cells = String::new();
    let mut said = String::new();
    for day in 1..=u64::from(month.length) {
        if day > 1 && day % 10 == 1 {
            cells += "</span><span>";
        }
        let term = falling.iter().find(|each| each.1 == first + day - 1);
        cells += &match term {
            Some((term, _)) => {
                let name = &TERMS[*term as usize];
                said += &format!("; {} on day {day}", name.romanised);
                marked_cell(day, *term, name.chinese)
            }
            None => format!("<i>{day}</i>"),
        };
    }
    format!(
        "<div class=\"days\" role=\"img\" aria-label=\"{} days{said}\"><span>{cells}</span></div>",
        month.length
    )
}

/// Returns the cell of a term's day.
fn marked_cell(day: u64, term: u64, name: &str) -> String {
    let class = class(term);
    format!("<i class=\"{class}\">{day}<b lang=\"zh-Hant\">{name}</b></i>")
}

/// Returns the list item of a term.
fn listed(year: u64, term: u64) -> String {
    let name = &TERMS[term as usize];
    let day = terms::day_of(year, term);
    format!(
        "<li class=\"{}\"><span class=\"name\">{} {}</span> <span class=\"small\">{}</span>\n\
         <span class=\"where\">{}</span> <span class=\"small\">{} · day {day} · {}</span></li>\n",
        class(term),
        chinese(name.chinese),
        romanised(name.romanised),
        name.english,
        place(year, month_of(day).ok()),
        both(&names::of_day(day)),
        western::date_of(day).short(),
    )
}

/// Returns where a term of a solstice year falls.
fn place(year: u64, month: Option<MonthOfDay>) -> String {
    match month {
        // the last terms of the last solstice year
        None => "after the last month".to_string(),
        Some(of) if u64::from(of.year) == year => within(&of),
        // the last term may fall in the first month of the next list
        Some(of) => format!("solstice year {}, {}", of.year, within(&of)),
    }
}

/// Returns a day's month, with the civil year, and the day of the month.
fn within(of: &MonthOfDay) -> String {
    let civil = CivilYear::of_day(of).0;
    format!("{} of {civil}, day {}", numbered(&of.month), of.day)
}

/// Returns what the marks and the two years mean.
fn legend() -> String {
    format!(
        "<p><i class=\"middle\"></i> middle term ({}) <i class=\"node\"></i> node term ({}). {} {} 30 days, {} {} \
         29 days, {} {} leap: a leap month holds no middle term. Months, lengths and leap marks are \
         replies of the proved calendar; the terms’ days are sums made for this page.</p>\n\
         <p>A solstice year ({} {}) lies between winter solstices; a civil year ({} {}) begins with month 1, in the \
         Western year that names it.</p>\n",
        chinese("中氣"),
        chinese("節"),
        chinese("大"),
        romanised("da"),
        chinese("小"),
        romanised("xiao"),
        chinese("閏"),
        romanised("run"),
        chinese("歲"),
        romanised("sui"),
        chinese("年"),
        romanised("nian"),
    )
}

/// Returns the class of a term.
fn class(term: u64) -> &'static str {
    if terms::is_middle(term) {
        "middle"
    } else {
        "node"
    }
}

/// Returns Chinese text, marked as such.
pub fn chinese(text: &str) -> String {
    format!("<span class=\"zh\" lang=\"zh-Hant\">{text}</span>")
}

/// Returns romanised text, marked as such.
pub fn romanised(text: &str) -> String {
    format!("<em lang=\"zh-Latn-pinyin\">{text}</em>")
}

/// Returns a name in Chinese and romanised.
pub fn both(name: &Name) -> String {
    format!("{} {}", chinese(&name.chinese), romanised(&name.romanised))
}
