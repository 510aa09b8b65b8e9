//! Pair numbers and event numbers, as two types so that they are never confused.

use std::fmt;

/// The number of a pair (one cache line in one cache): the index of its set in the table.
///
/// No number stands for "no pair" or "not known": with [`MOST_PAIRS`](crate::MOST_PAIRS) pairs each is a pair.
///
/// ```compile_fail
/// use korehyumo::{EventNumber, PairNumber};
///
/// assert!(PairNumber(7) == EventNumber(7)); // a pair's number is no event's number
/// ```
#[derive(Clone, Copy, Debug, Default, PartialEq, Eq, PartialOrd, Ord, Hash)]
pub struct PairNumber(pub u16);

/// The number of an event in its trace, from 0.
#[derive(Clone, Copy, Debug, Default, PartialEq, Eq, PartialOrd, Ord, Hash)]
pub struct EventNumber(pub u64);

impl fmt::Display for PairNumber {
    fn fmt(&self, f: &mut fmt::Formatter<'_>) -> fmt::Result {
        self.0.fmt(f)
    }
}

impl fmt::Display for EventNumber {
    fn fmt(&self, f: &mut fmt::Formatter<'_>) -> fmt::Result {
        self.0.fmt(f)
    }
}
