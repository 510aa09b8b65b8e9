//! Why a call was refused.

use crate::numbers::{EventNumber, PairNumber};
use std::error::Error;
use std::fmt;

/// Why a call was refused, and where. A refused call changes nothing that was lent. A question counts as event 0.
///
/// ```
/// use korehyumo::{judge_trace, PairNumber, Refusal};
///
/// let mut table = [127, 128];
/// let refusal = judge_trace(&[], &[], &mut table, &mut [], &mut [], &mut []).unwrap_err();
/// assert_eq!(refusal, Refusal::Set(PairNumber(1)));
/// assert_eq!((refusal.number(), refusal.place()), (2, 1));
/// assert_eq!(refusal.to_string(), "refused with 2: the set of pair 1 is above 127");
/// ```
#[derive(Clone, Copy, Debug, PartialEq, Eq, Hash)]
#[non_exhaustive]
pub enum Refusal {
    /// 1: a buffer has a wrong length, or there are too many events or pairs.
    Lengths,
    /// 2: the set of this pair is above 127; it is the lowest such pair.
    Set(PairNumber),
    /// 3: this event's pair is not in the table.
    Pair(EventNumber),
    /// 4: a byte of this event, other than its request, is outside its range.
    Range(EventNumber),
    /// 5: this event's request is not one of the ten that are judged.
    Request(EventNumber),
    /// 9: the list has more bytes than the room.
    Room,
    /// A refusal of a later library, without a name in this version of the package.
    Unknown {
        /// The refusal's number.
        number: u8,
        /// Its place.
        place: u64,
    },
}

impl Refusal {
    /// Its number in the definition's table of refusals.
    pub const fn number(self) -> u8 {
        match self {
            Refusal::Lengths => 1,
            Refusal::Set(_) => 2,
            Refusal::Pair(_) => 3,
            Refusal::Range(_) => 4,
            Refusal::Request(_) => 5,
            Refusal::Room => 9,
            Refusal::Unknown { number, .. } => number,
        }
    }

    /// Its place in the definition's table of refusals: a pair number, an event number, or 0.
    pub const fn place(self) -> u64 {
        match self {
            Refusal::Lengths | Refusal::Room => 0,
            Refusal::Set(pair) => pair.0 as u64,
            Refusal::Pair(event) | Refusal::Range(event) | Refusal::Request(event) => event.0,
            Refusal::Unknown { place, .. } => place,
        }
    }

    /// Reads a result of the library: the place if it is accepted, else the refusal.
    pub(crate) fn unless_accepted(result: u64) -> Result<u64, Refusal> {
        let number = (result % 256) as u8;
        // the upper 32 bits are what more a call answers, not part of the place
        let place = result % (1 << 32) / 256;
        let event = EventNumber(place);
        match number {
            0 => Ok(place),
            1 => Err(Refusal::Lengths),
            2 => Err(Refusal::of_set(place)),
            3 => Err(Refusal::Pair(event)),
            4 => Err(Refusal::Range(event)),
            5 => Err(Refusal::Request(event)),
            9 => Err(Refusal::Room),
            _ => Err(Refusal::Unknown { number, place }),
        }
    }

    /// The refusal of the set at a place.
    fn of_set(place: u64) -> Refusal {
        match u16::try_from(place) {
            Ok(pair) => Refusal::Set(PairNumber(pair)),
            Err(_) => Refusal::Unknown { number: 2, place },
        }
    }
}

impl fmt::Display for Refusal {
    fn fmt(&self, f: &mut fmt::Formatter<'_>) -> fmt::Result {
        write!(f, "refused with {}", self.number())?;
        match self {
            Refusal::Lengths => f.write_str(": something lent has a wrong length"),
            Refusal::Set(pair) => write!(f, ": the set of pair {pair} is above 127"),
            Refusal::Pair(event) => write!(f, ": the pair of event {event} is not in the table"),
            Refusal::Range(event) => write!(f, ": a byte of event {event} is outside its range"),
            Refusal::Request(event) => {
                write!(f, ": the request of event {event} is none that is judged")
            }
            Refusal::Room => f.write_str(": the list has more bytes than the room"),
            Refusal::Unknown { place, .. } => write!(
                f,
                " at place {place}, which this version of the package does not know"
            ),
        }
    }
}

impl Error for Refusal {}

#[cfg(test)]
mod tests {
    use super::*;
    use crate::trace::{MOST_EVENTS, MOST_PAIRS};

    /// Each refusal of the definition's table, read from a result.
    #[test]
    fn results_of_the_table() {
        let read = Refusal::unless_accepted;
        let most = MOST_EVENTS as u64;
        assert_eq!(read(0), Ok(0));
        assert_eq!(read(most * 256), Ok(most));
        assert_eq!(read((57 << 32) + 256), Ok(1));
        assert_eq!(read(57 << 32), Ok(0));
        assert_eq!(read(1), Err(Refusal::Lengths));
        for pair in [0, 4_095, 4_096, u16::MAX] {
            let result = u64::from(pair) * 256 + 2;
            assert_eq!(read(result), Err(Refusal::Set(PairNumber(pair))));
        }
        let last = EventNumber(most - 1);
        assert_eq!(read(last.0 * 256 + 3), Err(Refusal::Pair(last)));
        assert_eq!(read(7 * 256 + 4), Err(Refusal::Range(EventNumber(7))));
        assert_eq!(read(5), Err(Refusal::Request(EventNumber(0))));
        assert_eq!(read(9), Err(Refusal::Room));
    }

    /// An unknown number is a refusal with that number and place, never an acceptance.
    #[test]
    fn results_not_known() {
        for number in (6..=8).chain(10..=255) {
            for place in [0, 1, 255, 4_096, 65_535, (1 << 24) - 1] {
                let refusal =
                    Refusal::unless_accepted(place * 256 + u64::from(number)).unwrap_err();
                assert_eq!(refusal, Refusal::Unknown { number, place });
                assert_eq!((refusal.number(), refusal.place()), (number, place));
            }
        }
        // the first place that is no pair of any table
        let far = MOST_PAIRS as u64;
        let refusal = Refusal::unless_accepted(far * 256 + 2).unwrap_err();
        assert_eq!((refusal.number(), refusal.place()), (2, far));
    }

    /// Each refusal in words.
    #[test]
    fn words() {
        let words = |result: u64| Refusal::unless_accepted(result).unwrap_err().to_string();
        assert_eq!(
            words(1),
            "refused with 1: something lent has a wrong length"
        );
        assert_eq!(
            words(9 * 256 + 2),
            "refused with 2: the set of pair 9 is above 127"
        );
        assert_eq!(
            words(9 * 256 + 3),
            "refused with 3: the pair of event 9 is not in the table"
        );
        assert_eq!(
            words(9 * 256 + 4),
            "refused with 4: a byte of event 9 is outside its range"
        );
        assert_eq!(
            words(9 * 256 + 5),
            "refused with 5: the request of event 9 is none that is judged"
        );
        assert_eq!(
            words(9),
            "refused with 9: the list has more bytes than the room"
        );
        assert_eq!(
            words(8 * 256 + 16),
            "refused with 16 at place 8, which this version of the package does not know"
        );
    }
}
