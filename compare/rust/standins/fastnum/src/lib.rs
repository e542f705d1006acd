//! Stand-in for fastnum's D128: decimals are outside document 01; names only, never run.
pub mod decimal {
    #[derive(Clone, Copy, Debug, Default)]
    pub struct Context;
}
#[derive(Clone, Copy, Debug, PartialEq, PartialOrd)]
pub struct D128(());
#[derive(Debug)]
pub struct ParseError;
impl std::fmt::Display for ParseError {
    fn fmt(&self, f: &mut std::fmt::Formatter<'_>) -> std::fmt::Result {
        f.write_str("stand-in")
    }
}
pub struct Digits(());
impl Digits {
    pub fn to_u128(&self) -> Result<u128, ParseError> {
        unimplemented!("stand-in")
    }
}
impl D128 {
    pub fn from_i128(_: i128) -> Result<D128, ParseError> {
        unimplemented!("stand-in")
    }
    pub fn from_str(_: &str, _: decimal::Context) -> Result<D128, ParseError> {
        unimplemented!("stand-in")
    }
    pub fn digits(&self) -> Digits {
        unimplemented!("stand-in")
    }
    pub fn is_sign_negative(&self) -> bool {
        unimplemented!("stand-in")
    }
    pub fn fractional_digits_count(&self) -> i16 {
        unimplemented!("stand-in")
    }
    pub fn rescale(self, _: i16) -> D128 {
        unimplemented!("stand-in")
    }
}
impl std::fmt::Display for D128 {
    fn fmt(&self, f: &mut std::fmt::Formatter<'_>) -> std::fmt::Result {
        f.write_str("stand-in")
    }
}
