//! The bytes that a sheet keeps.

use std::hash::{Hash, Hasher};

use crate::record::{Record, RECORD_SIZE};

/// The bytes of a sheet's records, in the order of its chain. Most sheets have one record or two, and these lie in place: memory
/// from the heap takes about a third of the time that the projection of such a leaf does.
#[derive(Clone)]
pub(crate) enum Bytes {
    One(Aligned<RECORD_SIZE>),
    Two(Aligned<{ 2 * RECORD_SIZE }>),
    /// Any number of records.
    Many(Vec<u8>),
}

/// Bytes that start where a processor reads several at once soonest; an enum's would start behind its tag.
#[derive(Clone, Copy)]
#[repr(align(16))]
pub(crate) struct Aligned<const N: usize>([u8; N]);

impl Bytes {
    /// A copy of whole records, in one piece.
    #[inline]
    pub(crate) fn copy(bytes: &[u8]) -> Bytes {
        if let Ok(two) = bytes.try_into() {
            Bytes::Two(Aligned(two))
        } else if let Ok(one) = bytes.try_into() {
            Bytes::One(Aligned(one))
        } else {
            Bytes::Many(bytes.to_vec())
        }
    }

    /// One record.
    #[inline]
    pub(crate) fn one(record: Record) -> Bytes {
        Bytes::One(Aligned(record))
    }

    /// Two records.
    #[inline]
    pub(crate) fn two(first: &Record, second: &Record) -> Bytes {
        let mut two = [0; 2 * RECORD_SIZE];
        two[..RECORD_SIZE].copy_from_slice(first);
        two[RECORD_SIZE..].copy_from_slice(second);
        Bytes::Two(Aligned(two))
    }

    /// Starts over with one record; memory of the heap is kept.
    pub(crate) fn restart(&mut self, record: &Record) {
        match self {
            Bytes::Many(bytes) => {
                bytes.clear();
                bytes.extend_from_slice(record);
            }
            few => *few = Bytes::one(*record),
        }
    }

    /// Adds a record.
    pub(crate) fn push(&mut self, record: &Record) {
        match self {
            Bytes::One(first) => *self = Bytes::two(&first.0, record),
            Bytes::Two(two) => {
                // Whoever adds a third record is writing a set.
                let mut many = Vec::with_capacity(4 * two.0.len());
                many.extend_from_slice(&two.0);
                many.extend_from_slice(record);
                *self = Bytes::Many(many);
            }
            Bytes::Many(bytes) => bytes.extend_from_slice(record),
        }
    }

    pub(crate) fn as_slice(&self) -> &[u8] {
        match self {
            Bytes::One(bytes) => &bytes.0,
            Bytes::Two(bytes) => &bytes.0,
            Bytes::Many(bytes) => bytes,
        }
    }

    pub(crate) fn as_mut_slice(&mut self) -> &mut [u8] {
        match self {
            Bytes::One(bytes) => &mut bytes.0,
            Bytes::Two(bytes) => &mut bytes.0,
            Bytes::Many(bytes) => bytes,
        }
    }
}

/// Where the bytes lie makes no difference.
impl PartialEq for Bytes {
    fn eq(&self, other: &Bytes) -> bool {
        self.as_slice() == other.as_slice()
    }
}

impl Eq for Bytes {}

impl Hash for Bytes {
    fn hash<H: Hasher>(&self, state: &mut H) {
        self.as_slice().hash(state);
    }
}
