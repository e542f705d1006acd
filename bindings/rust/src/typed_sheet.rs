//! Sheets as they are kept: the bytes of their records, in the order of the chain.

use std::fmt::{self, Debug, Formatter};

use crate::bytes::Bytes;
use crate::record::{
    self, content, head_record, next, next_bytes, put_content, put_missing, Record,
    ANSWER_LITERALS_MAX, EMPTY, RECORD_SIZE,
};
use crate::routines::holds;
use crate::{LeafError, Literal, PredicateOperator, Refusal, Transform, Type};

/// An operator, a column type, a transform and literals, kept as the bytes of a sheet.
///
/// Its records lie in the order of the chain, so that equal sheets have equal bytes. Whether operator and number of literals go
/// together is left to the routines, which answer [`Refusal::Malformed`]; [`Leaf`](crate::Leaf) sees to it.
#[derive(Clone, PartialEq, Eq, Hash)]
pub struct Sheet {
    bytes: Bytes,
}

impl Sheet {
    /// A sheet without literals.
    #[must_use]
    pub fn new(operator: PredicateOperator, column_type: Type, transform: Transform) -> Sheet {
        let bytes = Bytes::one(head_record(0, operator, column_type, transform));
        Sheet { bytes }
    }

    /// A sheet with one literal.
    #[inline]
    pub(crate) fn with_one(
        operator: PredicateOperator,
        transform: Transform,
        literal: &Literal,
    ) -> Result<Sheet, LeafError> {
        let column_type = literal.column_type();
        let head = head_record(1, operator, column_type, transform);
        let mut record = EMPTY;
        literal.put(column_type, &mut record)?;
        let bytes = Bytes::two(&head, &record);
        Ok(Sheet { bytes })
    }

    /// Starts over with a new head and no literals; the memory is kept.
    pub fn restart(
        &mut self,
        operator: PredicateOperator,
        column_type: Type,
        transform: Transform,
    ) {
        let head = head_record(0, operator, column_type, transform);
        self.bytes.restart(&head);
    }

    /// Adds a literal at the end of the chain. It has the column's type, and there are at most [`ANSWER_LITERALS_MAX`].
    ///
    /// # Errors
    ///
    /// [`LeafError::WrongType`], [`LeafError::TooLong`] and [`LeafError::TooMany`]; the sheet is then as it was.
    pub fn push(&mut self, literal: &Literal) -> Result<(), LeafError> {
        let mut record = EMPTY;
        literal.put(self.column_type(), &mut record)?;
        if self.len() == ANSWER_LITERALS_MAX {
            return Err(LeafError::TooMany(ANSWER_LITERALS_MAX));
        }
        self.push_record(&record);
        Ok(())
    }

    /// Adds a literal's record, and makes it the next of the last one.
    fn push_record(&mut self, record: &Record) {
        let bytes = self.bytes.as_mut_slice();
        let last = bytes.len() - RECORD_SIZE;
        // At most ANSWER_LITERALS_MAX + 1 records, so the number fits.
        let number = (bytes.len() / RECORD_SIZE) as u16;
        bytes[last..last + 2].copy_from_slice(&next_bytes(number));
        self.bytes.push(record);
    }

    /// Reads the bytes of a sheet: of a leaf, or of an answer. Records off the chain are left out.
    ///
    /// # Errors
    ///
    /// [`Refusal::Malformed`] and [`Refusal::NotUtf8`].
    pub fn from_bytes(bytes: &[u8]) -> Result<Sheet, Refusal> {
        // The holds-test reads a sheet whole before it answers; a missing value is one of every type.
        let mut missing = EMPTY;
        put_missing(&mut missing);
        holds(bytes, &missing)?;
        Sheet::read(bytes).ok_or(Refusal::Malformed)
    }

    /// The records on the chain of bytes that the library has read, and so found well-formed.
    fn read(bytes: &[u8]) -> Option<Sheet> {
        let mut record: &Record = bytes.first_chunk()?;
        let mut head = *record;
        head[..2].copy_from_slice(&next_bytes(0));
        let mut sheet = Sheet {
            bytes: Bytes::one(head),
        };
        while next(record) != 0 {
            record = bytes.get(RECORD_SIZE * next(record)..)?.first_chunk()?;
            let mut alone = EMPTY;
            put_content(&mut alone, content(record)?)?;
            sheet.push_record(&alone);
        }
        Some(sheet)
    }

    /// An answer sheet that the library wrote: it has no other records than those on its chain, in their order.
    #[inline]
    pub(crate) fn answered(bytes: &[u8]) -> Sheet {
        let bytes = Bytes::copy(bytes);
        Sheet { bytes }
    }

    /// Its bytes, as the routines take them.
    #[must_use]
    pub fn as_bytes(&self) -> &[u8] {
        self.bytes.as_slice()
    }

    /// Its head.
    fn head(&self) -> &Record {
        let head = self.as_bytes().first_chunk();
        head.expect("every sheet has a head")
    }

    /// Its operator.
    #[must_use]
    pub fn operator(&self) -> PredicateOperator {
        listed(record::operator(self.head()))
    }

    /// The same literals with the operator's negation, which takes as many.
    pub(crate) fn negate(&self) -> Sheet {
        let mut sheet = self.clone();
        let bytes = sheet.bytes.as_mut_slice();
        let head = bytes.first_chunk_mut().expect("every sheet has a head");
        record::set_operator(head, self.operator().negate());
        sheet
    }

    /// The type of its literals and of the values that it is asked about.
    #[must_use]
    pub fn column_type(&self) -> Type {
        listed(record::column_type(self.head()))
    }

    /// Its transform; Identity in an answer sheet.
    #[must_use]
    pub fn transform(&self) -> Transform {
        listed(record::transform(self.head()))
    }

    /// How many literals it has.
    #[must_use]
    pub fn len(&self) -> usize {
        self.as_bytes().len() / RECORD_SIZE - 1
    }

    /// Whether it has no literals.
    #[must_use]
    pub fn is_empty(&self) -> bool {
        self.len() == 0
    }

    /// Its literals, in the order of the chain.
    #[must_use]
    pub fn literals(&self) -> impl ExactSizeIterator<Item = Literal> + '_ {
        let records = self.as_bytes()[RECORD_SIZE..].chunks_exact(RECORD_SIZE);
        records.map(|record| literal_in(self.column_type(), record))
    }
}

/// What a head names. Every sheet was written here, or read by the library, which takes none with another number.
fn listed<T>(named: Option<T>) -> T {
    named.expect("what a sheet's head names is listed")
}

/// The literal in a record of a sheet.
fn literal_in(column_type: Type, record: &[u8]) -> Literal {
    let content = record.first_chunk().and_then(content);
    let literal = content.map(|content| Literal::from_content(column_type, content));
    match literal {
        Some(Ok(literal)) => literal,
        _ => unreachable!("every literal of a sheet has the column's type"),
    }
}

impl Debug for Sheet {
    fn fmt(&self, f: &mut Formatter<'_>) -> fmt::Result {
        f.debug_struct("Sheet")
            .field("operator", &self.operator())
            .field("column_type", &self.column_type())
            .field("transform", &self.transform())
            .field("literals", &self.literals().collect::<Vec<_>>())
            .finish()
    }
}
