//! Stand-in for src/spec/values/temporal.rs: text forms (numbers as they are) and the two
//! conversions that Datum's text parsers call; never run.
pub(crate) mod date {
    use chrono::{NaiveDate, NaiveTime};
    pub(crate) fn days_to_date(days: i32) -> i32 {
        days
    }
    pub(crate) fn date_from_naive_date(d: NaiveDate) -> i32 {
        use chrono::Datelike;
        d.num_days_from_ce() - 719_163
    }
    pub(crate) struct UnixEpoch;
    impl UnixEpoch {
        pub(crate) fn time(&self) -> NaiveTime {
            NaiveTime::from_num_seconds_from_midnight_opt(0, 0).unwrap()
        }
    }
    pub(crate) fn unix_epoch() -> UnixEpoch {
        UnixEpoch
    }
}
pub(crate) mod time {
    pub(crate) fn microseconds_to_time(v: i64) -> i64 {
        v
    }
}
pub(crate) mod timestamp {
    pub(crate) fn microseconds_to_datetime(v: i64) -> i64 {
        v
    }
    pub(crate) fn nanoseconds_to_datetime(v: i64) -> i64 {
        v
    }
}
pub(crate) mod timestamptz {
    pub(crate) fn microseconds_to_datetimetz(v: i64) -> i64 {
        v
    }
    pub(crate) fn nanoseconds_to_datetimetz(v: i64) -> i64 {
        v
    }
}
