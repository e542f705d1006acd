//! The inputs at which an answer turns: ends of the types, of the calendar and of 32 bits of hours; the starts of
//! hours, days, months and years before and after 1970; widths; and strings at the edges of UTF-8's lengths.

use std::collections::BTreeSet;

use beside::leaf::column;

use crate::types::{self, FIRST_DAY, LAST_DAY, SECONDS_PER_DAY, SECONDS_PER_HOUR, per_second};

/// Widths of Truncate: none, small ones, and those around the ends of 31 and 32 bits.
pub const WIDTHS: [u32; 10] = [0, 1, 2, 3, 10, 255, (1 << 31) - 1, 1 << 31, (1 << 31) + 1, u32::MAX];

/// The first and last code points of one, two, three and four bytes, those around the gap of the surrogates, and some
/// that stand in words: an accented letter, an accent that combines, a sign, an emoji.
pub const CODE_POINTS: [char; 17] = [
    '\0',
    'a',
    'b',
    '~',
    '\u{7f}',
    '\u{80}',
    'é',
    '\u{301}',
    '\u{7ff}',
    '\u{800}',
    '€',
    '\u{d7ff}',
    '\u{e000}',
    '\u{ffff}',
    '\u{10000}',
    '😀',
    '\u{10ffff}',
];

/// Years whose months are tried: the calendar's ends and just outside, year 0, centuries that are leap years and that
/// are not, the ends of 64 bits of nanoseconds, and those around 1970.
const YEARS: [i128; 25] = [
    -262_144, -262_143, -262_142, -401, -4, -1, 0, 1, 1600, 1677, 1678, 1899, 1900, 1968, 1969, 1970, 1971, 1972, 1973,
    2000, 2001, 2100, 2262, 262_142, 262_143,
];
/// Months whose first day is tried: each is the end of another, February's among them.
const MONTHS: [i128; 4] = [1, 2, 3, 12];

/// Days that are the first of a month, the calendar's ends, and those around 1970.
pub fn days() -> Vec<i128> {
    let firsts = YEARS.iter().flat_map(|year| MONTHS.iter().map(|month| first_of_month(*year, *month)));
    let ends = [FIRST_DAY, LAST_DAY, LAST_DAY + 1].map(i128::from);
    firsts.chain(ends).chain(-3..=3).collect()
}

/// The day number of the first of a month. Years are counted from March, so that a leap day is a year's last; in them
/// the months before number m (March is 0) have (153 m + 2) / 5 days.
fn first_of_month(year: i128, month: i128) -> i128 {
    const DAYS_TO_1970: i128 = 719_468;
    let year = if month <= 2 { year - 1 } else { year };
    let leap_days = year.div_euclid(4) - year.div_euclid(100) + year.div_euclid(400);
    365 * year + leap_days + (153 * ((month + 9) % 12) + 2) / 5 - DAYS_TO_1970
}

/// What is added to the start of a lot of a timestamp: nothing, little, and what lies around a second and an hour.
pub fn offsets(column: u8) -> Vec<i128> {
    let second = i128::from(per_second(column).unwrap_or(1));
    let hour = second * i128::from(SECONDS_PER_HOUR);
    let above = [0, 1, 2, 3, second - 2, second - 1, second, second + 1, hour - 1, hour];
    above.iter().flat_map(|offset| [-offset, *offset]).collect()
}

/// The numbers of a type at which some transform turns, ascending and without repeats.
pub fn numbers(column: u8) -> Vec<i64> {
    let range = types::range(column);
    let (low, high) = (i128::from(*range.start()), i128::from(*range.end()));
    let mut found: BTreeSet<i128> = [low, 0, high].iter().flat_map(|end| end - 3..=end + 3).collect();
    match column {
        column::INT | column::LONG => found.extend(WIDTHS.iter().flat_map(|width| around_width(low, *width))),
        column::DATE => found.extend(days().iter().flat_map(|day| day - 1..=day + 1)),
        column::TIME => found.extend([-SECONDS_PER_DAY, SECONDS_PER_DAY].map(i128::from)),
        _ => found
            .extend(lot_starts(column).iter().flat_map(|start| offsets(column).into_iter().map(move |o| start + o))),
    }
    found.into_iter().filter_map(|number| i64::try_from(number).ok()).filter(|number| range.contains(number)).collect()
}

/// Where Truncate of a width turns: at its multiples, and where the lowest result would leave the type.
fn around_width(low: i128, width: u32) -> Vec<i128> {
    let width = i128::from(width);
    let turns = [-width, width, -2 * width, 2 * width, low + width, low - low.rem_euclid(width.max(1)) + width];
    turns.iter().flat_map(|turn| turn - 1..=turn + 1).collect()
}

/// Midnights, and the first moments of the lowest hour and past the highest one that 32 bits hold.
fn lot_starts(column: u8) -> Vec<i128> {
    let second = i128::from(per_second(column).unwrap_or(1));
    let hours =
        [i128::from(i32::MIN), i128::from(i32::MAX) + 1].map(|hour| hour * second * i128::from(SECONDS_PER_HOUR));
    days().into_iter().map(|day| day * second * i128::from(SECONDS_PER_DAY)).chain(hours).collect()
}
