//! Stand-in: the few names of arrow_schema that the iceberg files mention. Types only.
#[derive(Clone, Copy, Debug, PartialEq, Eq)]
pub enum TimeUnit {
    Second,
    Millisecond,
    Microsecond,
    Nanosecond,
}

#[derive(Clone, Debug, PartialEq, Eq)]
pub enum DataType {
    Null,
    Int32,
    Int64,
    Date32,
    Utf8,
    LargeUtf8,
    Binary,
    LargeBinary,
    FixedSizeBinary(i32),
    Decimal128(u8, i8),
    Time64(TimeUnit),
    Timestamp(TimeUnit, Option<std::sync::Arc<str>>),
}

#[derive(Debug)]
pub struct ArrowError(pub String);
impl std::fmt::Display for ArrowError {
    fn fmt(&self, f: &mut std::fmt::Formatter<'_>) -> std::fmt::Result {
        f.write_str(&self.0)
    }
}
impl std::error::Error for ArrowError {}
