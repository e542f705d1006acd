//! Holds what the port says of every day number of 32 bits against a second calendar: inside the calendar the counts of
//! groups of years, the day's place in its year, the year and the month, and "outside" elsewhere. Ends with 1 if an
//! answer is wrong.

mod port;
mod second;

use port::{Answer, Counts};
use second::Date;

/// Document 01: the calendar has the years -262143 to 262142.
const FIRST_YEAR: i32 = -262143;
const LAST_YEAR: i32 = 262142;

/// The days from 1 January of year 1 to 1 January 1970.
const YEAR_1_TO_1970: i32 = 719162;

/// Wrong answers that are printed.
const SHOWN: u64 = 20;

#[derive(Default)]
struct Report {
    inside: u64,
    outside: u64,
    held_100: u64,
    held_1: u64,
    wrong: u64,
}

/// The counts by document 02: the digits of the year less 1.
fn counts(year: i32) -> Counts {
    let before = year - 1;
    Counts {
        n400: before.div_euclid(400),
        n100: before.rem_euclid(400) as u32 / 100,
        n4: before.rem_euclid(100) as u32 / 4,
        n1: before.rem_euclid(4) as u32,
    }
}

impl Report {
    fn compare(&mut self, day: i32, expected: Answer) {
        let found = port::ask(day);
        if found != expected {
            self.note(|| format!("day {day}: {found:?}, and not {expected:?}"));
        }
    }

    fn note(&mut self, text: impl FnOnce() -> String) {
        self.wrong += 1;
        if self.wrong <= SHOWN {
            println!("{}", text());
        }
    }

    fn inside(&mut self, day: i32, date: Date) {
        let Date { year, month0, place, .. } = date;
        self.compare(day, Answer { groups: Some((counts(year), place)), civil: Some((year, month0)) });
        self.inside += 1;
        self.note_held(day, date);
    }

    /// Plain division gives a fourth group of 100 years on the last day of each year that 400 divides, and a fourth year
    /// on that of each leap year, where the counts are held at 3.
    fn note_held(&mut self, day: i32, date: Date) {
        let in_400 = (day + YEAR_1_TO_1970).rem_euclid(146097);
        let in_100 = in_400 - (in_400 / 36524).min(3) * 36524;
        let held = [in_400 / 36524 == 4, in_100 % 1461 / 365 == 4];
        let expected = [date.ends_year() && date.year % 400 == 0, date.ends_year() && second::leap(date.year)];
        if held != expected {
            self.note(|| format!("day {day}: held {held:?}, and not {expected:?}"));
        }
        self.held_100 += u64::from(held[0]);
        self.held_1 += u64::from(held[1]);
    }

    fn outside(&mut self, day: i32) {
        self.compare(day, Answer::OUTSIDE);
        self.outside += 1;
    }
}

/// From day 0 on, both ways: the walk finds the calendar's ends by its years.
fn walk() -> Report {
    let mut report = Report::default();
    let mut date = Date::EPOCH;
    for day in 0..=i32::MAX {
        if date.year > LAST_YEAR {
            report.outside(day);
        } else {
            report.inside(day, date);
            date = date.next();
        }
    }
    date = Date::EPOCH.previous();
    for day in (i32::MIN..0).rev() {
        if date.year < FIRST_YEAR {
            report.outside(day);
        } else {
            report.inside(day, date);
            date = date.previous();
        }
    }
    report
}

fn main() {
    let Report { inside, outside, held_100, held_1, wrong } = walk();
    println!("{inside} days of the calendar, {outside} outside, {wrong} wrong");
    println!("a count of 100s was held at 3 on {held_100} days, a count of years on {held_1}");
    std::process::exit(i32::from(wrong > 0));
}
