//! The operators of leaves and predicates, with the names and codes of the crate iceberg.

use std::fmt::{self, Display, Formatter};
use std::str::FromStr;

use crate::ParseError;

/// The operator of a leaf or of a predicate.
#[derive(Clone, Copy, Debug, PartialEq, Eq, Hash)]
#[repr(u16)]
pub enum PredicateOperator {
    /// The value is missing.
    IsNull = 101,
    /// The value is present.
    NotNull = 102,
    /// Holds of nothing, since no column type has a NaN.
    IsNan = 103,
    /// The value is present.
    NotNan = 104,
    /// Below the literal.
    LessThan = 201,
    /// Not above the literal.
    LessThanOrEq = 202,
    /// Above the literal.
    GreaterThan = 203,
    /// Not below the literal.
    GreaterThanOrEq = 204,
    /// The literal.
    Eq = 205,
    /// Missing, or another than the literal.
    NotEq = 206,
    /// A string or binary that starts with the literal.
    StartsWith = 207,
    /// Missing, or does not start with the literal, as no number does.
    NotStartsWith = 208,
    /// One of the literals.
    In = 301,
    /// Missing, or none of the literals.
    NotIn = 302,
}

impl PredicateOperator {
    /// All operators, by number.
    pub const ALL: [PredicateOperator; 14] = [
        PredicateOperator::IsNull,
        PredicateOperator::NotNull,
        PredicateOperator::IsNan,
        PredicateOperator::NotNan,
        PredicateOperator::LessThan,
        PredicateOperator::LessThanOrEq,
        PredicateOperator::GreaterThan,
        PredicateOperator::GreaterThanOrEq,
        PredicateOperator::Eq,
        PredicateOperator::NotEq,
        PredicateOperator::StartsWith,
        PredicateOperator::NotStartsWith,
        PredicateOperator::In,
        PredicateOperator::NotIn,
    ];

    /// Its number in a sheet.
    #[must_use]
    pub fn number(self) -> u16 {
        self as u16
    }

    /// The operator with a number of document 01's list.
    #[must_use]
    pub fn from_number(number: u16) -> Option<PredicateOperator> {
        let mut all = PredicateOperator::ALL.into_iter();
        all.find(|operator| operator.number() == number)
    }

    /// Whether it takes no literal.
    #[must_use]
    pub fn is_unary(self) -> bool {
        self.number() < PredicateOperator::LessThan.number()
    }

    /// Whether it takes one literal.
    #[must_use]
    pub fn is_binary(self) -> bool {
        !self.is_unary() && !self.is_set()
    }

    /// Whether it takes a set of literals.
    #[must_use]
    pub fn is_set(self) -> bool {
        self.number() >= PredicateOperator::In.number()
    }

    /// The operator that a present value meets where it does not meet this one; it takes as many literals. A missing value, too,
    /// meets one of the two, but neither of `<` and `>=`, of `<=` and `>`, and of IsNan and NotNan.
    #[must_use]
    pub fn negate(self) -> PredicateOperator {
        use PredicateOperator::*;
        match self {
            IsNull => NotNull,
            NotNull => IsNull,
            IsNan => NotNan,
            NotNan => IsNan,
            LessThan => GreaterThanOrEq,
            LessThanOrEq => GreaterThan,
            GreaterThan => LessThanOrEq,
            GreaterThanOrEq => LessThan,
            Eq => NotEq,
            NotEq => Eq,
            StartsWith => NotStartsWith,
            NotStartsWith => StartsWith,
            In => NotIn,
            NotIn => In,
        }
    }
}

impl Display for PredicateOperator {
    fn fmt(&self, f: &mut Formatter<'_>) -> fmt::Result {
        f.write_str(match self {
            PredicateOperator::IsNull => "IS NULL",
            PredicateOperator::NotNull => "IS NOT NULL",
            PredicateOperator::IsNan => "IS NAN",
            PredicateOperator::NotNan => "IS NOT NAN",
            PredicateOperator::LessThan => "<",
            PredicateOperator::LessThanOrEq => "<=",
            PredicateOperator::GreaterThan => ">",
            PredicateOperator::GreaterThanOrEq => ">=",
            PredicateOperator::Eq => "=",
            PredicateOperator::NotEq => "!=",
            PredicateOperator::StartsWith => "STARTS WITH",
            PredicateOperator::NotStartsWith => "NOT STARTS WITH",
            PredicateOperator::In => "IN",
            PredicateOperator::NotIn => "NOT IN",
        })
    }
}

/// Reads what [`Display`] writes.
impl FromStr for PredicateOperator {
    type Err = ParseError;

    fn from_str(text: &str) -> Result<PredicateOperator, ParseError> {
        let mut all = PredicateOperator::ALL.into_iter();
        let named = all.find(|operator| operator.to_string() == text);
        named.ok_or_else(|| ParseError::new(text, "operator"))
    }
}
