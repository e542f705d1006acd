//! Facade over the REAL chrono 0.4.23 (Debian). The calendar (day number -> year, month) is the
//! real one's. Added here: the newer API that the iceberg files call, and the newer year range
//! (-262143 ..= 262142, document 01) where 0.4.23 has -262144 ..= 262143.
use std::cmp::Ordering;
use std::str::FromStr;

pub use chrono_real::{Datelike, IsoWeek, LocalResult, NaiveDate, NaiveTime, ParseError, Utc, Weekday};

/// First and last day of the newer chrono's NaiveDate, counted from 1970-01-01.
pub const FIRST_DAY: i64 = -96_465_292; // -262143-01-01
pub const LAST_DAY: i64 = 95_026_236; //    262142-12-31
/// 1970-01-01 counted from 0001-01-01 = 1 (chrono's `num_days_from_ce`).
const EPOCH_CE: i64 = 719_163;

/// Day number from 1970-01-01 to a date, `None` outside the newer chrono's range.
/// Not part of chrono's API; the one place where the range is kept.
pub fn naive_date_from_epoch_days(day: i64) -> Option<NaiveDate> {
    if !(FIRST_DAY..=LAST_DAY).contains(&day) {
        return None;
    }
    NaiveDate::from_num_days_from_ce_opt((day + EPOCH_CE) as i32)
}

// ---------------------------------------------------------------- Duration / TimeDelta
/// Newer chrono: `Duration` is an alias of `TimeDelta`.
#[derive(Clone, Copy, Debug, PartialEq, Eq, PartialOrd, Ord)]
pub struct TimeDelta(chrono_real::Duration);
pub type Duration = TimeDelta;

impl TimeDelta {
    /// As newer chrono's `TimeDelta::new`: secs + nanos, nanos under 1e9, within ±i64::MAX ms.
    pub fn new(secs: i64, nanos: u32) -> Option<TimeDelta> {
        const MAX_SECS: i64 = i64::MAX / 1_000;
        // one second inside the real bounds; no 64-bit count of micros or nanos comes near
        if nanos >= 1_000_000_000 || secs >= MAX_SECS || secs <= -MAX_SECS {
            return None;
        }
        Some(TimeDelta(chrono_real::Duration::seconds(secs) + chrono_real::Duration::nanoseconds(nanos as i64)))
    }
    /// The real chrono's.
    pub fn num_days(&self) -> i64 {
        self.0.num_days()
    }
}

// ---------------------------------------------------------------- TimeZone
pub trait TimeZone: chrono_real::TimeZone {
    fn timestamp_millis_opt(&self, millis: i64) -> LocalResult<DateTime<Self>>;
}

impl TimeZone for Utc {
    fn timestamp_millis_opt(&self, millis: i64) -> LocalResult<DateTime<Utc>> {
        let secs = millis.div_euclid(1_000);
        let nanos = millis.rem_euclid(1_000) as u32 * 1_000_000;
        match DateTime::from_timestamp(secs, nanos) {
            Some(t) => LocalResult::Single(t),
            None => LocalResult::None,
        }
    }
}

// ---------------------------------------------------------------- NaiveDateTime
#[derive(Clone, Copy, Debug, PartialEq, Eq, PartialOrd, Ord)]
pub struct NaiveDateTime(chrono_real::NaiveDateTime);

impl NaiveDateTime {
    pub fn and_utc(&self) -> DateTime<Utc> {
        DateTime(chrono_real::DateTime::from_utc(self.0, Utc))
    }
}

impl FromStr for NaiveDateTime {
    type Err = ParseError;
    fn from_str(s: &str) -> Result<Self, ParseError> {
        s.parse().map(NaiveDateTime)
    }
}

// ---------------------------------------------------------------- DateTime
#[derive(Clone, Debug)]
pub struct DateTime<Tz: chrono_real::TimeZone>(chrono_real::DateTime<Tz>);

impl DateTime<Utc> {
    /// As newer chrono's `DateTime::from_timestamp`.
    pub fn from_timestamp(secs: i64, nsecs: u32) -> Option<Self> {
        let day = secs.div_euclid(86_400);
        let secs = secs.rem_euclid(86_400);
        let date = naive_date_from_epoch_days(day)?;
        let time = NaiveTime::from_num_seconds_from_midnight_opt(secs as u32, nsecs)?;
        Some(DateTime(chrono_real::DateTime::from_utc(date.and_time(time), Utc)))
    }
    /// As newer chrono's: floor division into seconds, then `from_timestamp`.
    pub fn from_timestamp_micros(micros: i64) -> Option<Self> {
        let secs = micros.div_euclid(1_000_000);
        let nsecs = micros.rem_euclid(1_000_000) as u32 * 1_000;
        Self::from_timestamp(secs, nsecs)
    }
    /// As newer chrono's: never out of range for 64 bits.
    pub fn from_timestamp_nanos(nanos: i64) -> Self {
        let secs = nanos.div_euclid(1_000_000_000);
        let nsecs = nanos.rem_euclid(1_000_000_000) as u32;
        Self::from_timestamp(secs, nsecs).expect("timestamp in nanos is always in range")
    }
}

impl<Tz: chrono_real::TimeZone> DateTime<Tz> {
    pub fn with_timezone<Tz2: chrono_real::TimeZone>(&self, tz: &Tz2) -> DateTime<Tz2> {
        DateTime(self.0.with_timezone(tz))
    }
    pub fn timestamp_micros(&self) -> i64 {
        self.0.timestamp_micros()
    }
}

impl FromStr for DateTime<Utc> {
    type Err = ParseError;
    fn from_str(s: &str) -> Result<Self, ParseError> {
        s.parse().map(DateTime)
    }
}

impl<Tz: chrono_real::TimeZone> PartialEq for DateTime<Tz> {
    fn eq(&self, o: &Self) -> bool {
        self.0 == o.0
    }
}
impl<Tz: chrono_real::TimeZone> PartialOrd for DateTime<Tz> {
    fn partial_cmp(&self, o: &Self) -> Option<Ordering> {
        self.0.partial_cmp(&o.0)
    }
}

impl<Tz: chrono_real::TimeZone> Datelike for DateTime<Tz> {
    fn year(&self) -> i32 {
        self.0.year()
    }
    fn month(&self) -> u32 {
        self.0.month()
    }
    fn month0(&self) -> u32 {
        self.0.month0()
    }
    fn day(&self) -> u32 {
        self.0.day()
    }
    fn day0(&self) -> u32 {
        self.0.day0()
    }
    fn ordinal(&self) -> u32 {
        self.0.ordinal()
    }
    fn ordinal0(&self) -> u32 {
        self.0.ordinal0()
    }
    fn weekday(&self) -> Weekday {
        self.0.weekday()
    }
    fn iso_week(&self) -> IsoWeek {
        self.0.iso_week()
    }
    fn with_year(&self, v: i32) -> Option<Self> {
        self.0.with_year(v).map(DateTime)
    }
    fn with_month(&self, v: u32) -> Option<Self> {
        self.0.with_month(v).map(DateTime)
    }
    fn with_month0(&self, v: u32) -> Option<Self> {
        self.0.with_month0(v).map(DateTime)
    }
    fn with_day(&self, v: u32) -> Option<Self> {
        self.0.with_day(v).map(DateTime)
    }
    fn with_day0(&self, v: u32) -> Option<Self> {
        self.0.with_day0(v).map(DateTime)
    }
    fn with_ordinal(&self, v: u32) -> Option<Self> {
        self.0.with_ordinal(v).map(DateTime)
    }
    fn with_ordinal0(&self, v: u32) -> Option<Self> {
        self.0.with_ordinal0(v).map(DateTime)
    }
}

#[cfg(test)]
mod tests {
    use super::*;
    /// The two day numbers of document 01 are the first and last day of the years it names,
    /// by the real chrono's calendar.
    #[test]
    fn range() {
        let ce = |y, m, d| NaiveDate::from_ymd_opt(y, m, d).unwrap().num_days_from_ce() as i64 - EPOCH_CE;
        assert_eq!(ce(-262143, 1, 1), FIRST_DAY);
        assert_eq!(ce(262142, 12, 31), LAST_DAY);
        assert_eq!(ce(1970, 1, 1), 0);
        assert!(naive_date_from_epoch_days(FIRST_DAY).is_some());
        assert!(naive_date_from_epoch_days(FIRST_DAY - 1).is_none());
        assert!(naive_date_from_epoch_days(LAST_DAY).is_some());
        assert!(naive_date_from_epoch_days(LAST_DAY + 1).is_none());
        assert_eq!(chrono_real::NaiveDate::MIN.year(), -262144);
        assert_eq!(chrono_real::NaiveDate::MAX.year(), 262143);
    }
    /// `new` and the real parts: seconds and nanos come back as put in.
    #[test]
    fn delta() {
        for (s, n, d) in [
            (-86400, 0, -1),
            (-86400, 1, 0),
            (-86401, 0, -1),
            (-86401, 1, -1),
            (-86399, 5, 0),
            (86399, 999_999_999, 0),
            (86400, 0, 1),
        ] {
            assert_eq!(TimeDelta::new(s, n).unwrap().num_days(), d, "{s} {n}");
        }
    }
}
