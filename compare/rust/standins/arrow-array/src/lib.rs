//! Stand-in: the array side (`TransformFunction::transform`) only has to compile; it is never run.
//! The one function that IS run is `types::Date32Type::to_naive_date_opt`.
use std::any::Any;
use std::marker::PhantomData;
use std::sync::Arc;

use arrow_schema::{ArrowError, DataType};

pub trait Array: Any + Send + Sync + std::fmt::Debug {
    fn as_any(&self) -> &dyn Any;
    fn data_type(&self) -> &DataType;
    fn len(&self) -> usize;
}
pub type ArrayRef = Arc<dyn Array>;
impl Array for ArrayRef {
    fn as_any(&self) -> &dyn Any {
        self.as_ref().as_any()
    }
    fn data_type(&self) -> &DataType {
        self.as_ref().data_type()
    }
    fn len(&self) -> usize {
        self.as_ref().len()
    }
}

pub fn new_null_array(_: &DataType, _: usize) -> ArrayRef {
    unimplemented!("stand-in")
}

pub trait ArrowPrimitiveType: Send + Sync + std::fmt::Debug + 'static {
    type Native: Copy;
}

pub mod types {
    use chrono::NaiveDate;
    macro_rules! t { ($($n:ident $v:ty;)*) => { $(
        #[derive(Debug)] pub struct $n;
        impl crate::ArrowPrimitiveType for $n { type Native = $v; }
    )* } }
    t! { Int32Type i32; Int64Type i64; Date32Type i32; Decimal128Type i128;
    Time64MicrosecondType i64; Time64NanosecondType i64;
    TimestampMicrosecondType i64; TimestampNanosecondType i64; }

    impl Date32Type {
        /// arrow: 1970-01-01 plus i days by chrono, `None` when that leaves chrono's range.
        pub fn to_naive_date_opt(i: i32) -> Option<NaiveDate> {
            chrono::naive_date_from_epoch_days(i as i64)
        }
    }
}

#[derive(Debug)]
pub struct PrimitiveArray<T: ArrowPrimitiveType>(PhantomData<T>);
impl<T: ArrowPrimitiveType> PrimitiveArray<T> {
    pub fn unary<F, O>(&self, _: F) -> PrimitiveArray<O>
    where
        O: ArrowPrimitiveType,
        F: Fn(T::Native) -> O::Native,
    {
        unimplemented!("stand-in")
    }
    pub fn try_unary<F, O, E>(&self, _: F) -> Result<PrimitiveArray<O>, E>
    where
        O: ArrowPrimitiveType,
        F: Fn(T::Native) -> Result<O::Native, E>,
    {
        unimplemented!("stand-in")
    }
}
impl PrimitiveArray<types::Decimal128Type> {
    pub fn with_precision_and_scale(self, _: u8, _: i8) -> Result<Self, ArrowError> {
        unimplemented!("stand-in")
    }
}
impl<T: ArrowPrimitiveType> FromIterator<Option<T::Native>> for PrimitiveArray<T> {
    fn from_iter<I: IntoIterator<Item = Option<T::Native>>>(_: I) -> Self {
        unimplemented!("stand-in")
    }
}
impl<T: ArrowPrimitiveType> Array for PrimitiveArray<T> {
    fn as_any(&self) -> &dyn Any {
        self
    }
    fn data_type(&self) -> &DataType {
        unimplemented!("stand-in")
    }
    fn len(&self) -> usize {
        unimplemented!("stand-in")
    }
}
pub type Int32Array = PrimitiveArray<types::Int32Type>;
pub type Int64Array = PrimitiveArray<types::Int64Type>;
pub type Date32Array = PrimitiveArray<types::Date32Type>;
pub type Decimal128Array = PrimitiveArray<types::Decimal128Type>;
pub type Time64MicrosecondArray = PrimitiveArray<types::Time64MicrosecondType>;
pub type Time64NanosecondArray = PrimitiveArray<types::Time64NanosecondType>;
pub type TimestampMicrosecondArray = PrimitiveArray<types::TimestampMicrosecondType>;
pub type TimestampNanosecondArray = PrimitiveArray<types::TimestampNanosecondType>;

macro_rules! bytes_array { ($($n:ident $t:ty;)*) => { $(
    #[derive(Debug)] pub struct $n(());
    impl $n {
        pub fn iter(&self) -> std::vec::IntoIter<Option<&$t>> { unimplemented!("stand-in") }
    }
    impl<'a> FromIterator<Option<&'a $t>> for $n {
        fn from_iter<I: IntoIterator<Item = Option<&'a $t>>>(_: I) -> Self { unimplemented!("stand-in") }
    }
    impl Array for $n {
        fn as_any(&self) -> &dyn Any { self }
        fn data_type(&self) -> &DataType { unimplemented!("stand-in") }
        fn len(&self) -> usize { unimplemented!("stand-in") }
    }
)* } }
bytes_array! { StringArray str; LargeStringArray str; BinaryArray [u8]; LargeBinaryArray [u8]; FixedSizeBinaryArray [u8]; }
