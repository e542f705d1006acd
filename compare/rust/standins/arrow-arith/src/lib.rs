//! Stand-in: names only, never run.
pub mod arity {
    use arrow_array::{ArrowPrimitiveType, PrimitiveArray};
    use arrow_schema::ArrowError;
    pub fn binary<A, B, F, O>(
        _: &PrimitiveArray<A>,
        _: &PrimitiveArray<B>,
        _: F,
    ) -> Result<PrimitiveArray<O>, ArrowError>
    where
        A: ArrowPrimitiveType,
        B: ArrowPrimitiveType,
        O: ArrowPrimitiveType,
        F: Fn(A::Native, B::Native) -> O::Native,
    {
        unimplemented!("stand-in")
    }
}
pub mod temporal {
    use arrow_array::{Array, ArrayRef};
    use arrow_schema::ArrowError;
    pub enum DatePart {
        Year,
        Month,
    }
    pub fn date_part(_: &dyn Array, _: DatePart) -> Result<ArrayRef, ArrowError> {
        unimplemented!("stand-in")
    }
}
