//! A second calendar: it walks from day to day by the leap rule and the lengths of the months. It does no sums on day
//! numbers, and knows no groups of years.

/// A date, with the day's place in its year; month, day and place are counted from 0.
#[derive(Clone, Copy, PartialEq, Eq, Debug)]
pub struct Date {
    pub year: i32,
    pub month0: u32,
    pub day0: u32,
    pub place: u32,
}

/// Divisible by 4, and not by 100 unless by 400.
pub fn leap(year: i32) -> bool {
    year % 4 == 0 && (year % 100 != 0 || year % 400 == 0)
}

fn month_length(year: i32, month0: u32) -> u32 {
    match month0 {
        1 if leap(year) => 29,
        1 => 28,
        3 | 5 | 8 | 10 => 30,
        _ => 31,
    }
}

impl Date {
    pub const EPOCH: Date = Date { year: 1970, month0: 0, day0: 0, place: 0 };

    pub fn ends_year(self) -> bool {
        (self.month0, self.day0) == (11, 30)
    }

    pub fn next(self) -> Date {
        let Date { year, month0, day0, place } = self;
        if day0 + 1 < month_length(year, month0) {
            Date { day0: day0 + 1, place: place + 1, ..self }
        } else if month0 < 11 {
            Date { month0: month0 + 1, day0: 0, place: place + 1, ..self }
        } else {
            Date { year: year + 1, month0: 0, day0: 0, place: 0 }
        }
    }

    pub fn previous(self) -> Date {
        let Date { year, month0, day0, place } = self;
        if day0 > 0 {
            Date { day0: day0 - 1, place: place - 1, ..self }
        } else if month0 > 0 {
            Date { month0: month0 - 1, day0: month_length(year, month0 - 1) - 1, place: place - 1, ..self }
        } else {
            let before = year - 1;
            Date { year: before, month0: 11, day0: 30, place: if leap(before) { 365 } else { 364 } }
        }
    }
}
