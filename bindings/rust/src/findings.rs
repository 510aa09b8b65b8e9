//! What the judge says of an event.

use crate::sets::StateSet;
use std::fmt;

/// Whether the rows explain an event, given the set of its pair.
///
/// ```
/// use korehyumo::Verdict;
///
/// assert_eq!(Verdict::from(2), Verdict::NotJudged);
/// assert_eq!(Verdict::NotJudged.code(), 2);
/// assert_eq!(Verdict::NotJudged.to_string(), "not judged");
/// ```
#[derive(Clone, Copy, Debug, PartialEq, Eq, Hash)]
#[non_exhaustive]
pub enum Verdict {
    /// The rows permit a step from a state of the set.
    Explained,
    /// The set was not empty, and the rows permit no step from it.
    Unexplained,
    /// The set was empty: the pair was lost before.
    NotJudged,
    /// A code without a name in this version of the package.
    Other(u8),
}

/// Who holds the duty to write a Dirty line back after an event.
///
/// ```
/// use korehyumo::Duty;
///
/// assert_eq!(Duty::from(2), Duty::Requester);
/// assert_eq!(Duty::Requester.code(), 2);
/// assert_eq!(Duty::Lost.to_string(), "lost");
/// ```
#[derive(Clone, Copy, Debug, PartialEq, Eq, Hash)]
#[non_exhaustive]
pub enum Duty {
    /// No duty was handed over.
    None,
    /// Home.
    Home,
    /// The Requester.
    Requester,
    /// Nobody: there was a non-data error, and the line may have been Dirty.
    Lost,
    /// Nobody: SnpMakeInvalid threw the line away on purpose, and it may have been Dirty.
    Discarded,
    /// A code without a name in this version of the package.
    Other(u8),
}

/// What the judge says of one event of a trace.
///
/// ```
/// use korehyumo::{Duty, Finding, State, StateSet, Verdict};
///
/// let after = [State::I, State::SC].into_iter().collect();
/// let finding = Finding { verdict: Verdict::Explained, duty: Duty::Home, after };
/// assert_eq!(finding.to_string(), "explained,Home,I SC");
/// ```
#[derive(Clone, Copy, Debug, PartialEq, Eq, Hash)]
pub struct Finding {
    /// Whether the rows explain it.
    pub verdict: Verdict,
    /// Who holds the duty.
    pub duty: Duty,
    /// The states that its pair can be in after it.
    pub after: StateSet,
}

impl Verdict {
    /// Its code in the definition.
    pub const fn code(self) -> u8 {
        match self {
            Verdict::Explained => 0,
            Verdict::Unexplained => 1,
            Verdict::NotJudged => 2,
            Verdict::Other(code) => code,
        }
    }
}

impl Duty {
    /// Its code in the definition.
    pub const fn code(self) -> u8 {
        match self {
            Duty::None => 0,
            Duty::Home => 1,
            Duty::Requester => 2,
            Duty::Lost => 3,
            Duty::Discarded => 4,
            Duty::Other(code) => code,
        }
    }
}

impl From<u8> for Verdict {
    /// The verdict with this code; `Other` if it has no name.
    fn from(code: u8) -> Verdict {
        match code {
            0 => Verdict::Explained,
            1 => Verdict::Unexplained,
            2 => Verdict::NotJudged,
            _ => Verdict::Other(code),
        }
    }
}

impl From<u8> for Duty {
    /// The duty with this code; `Other` if it has no name.
    fn from(code: u8) -> Duty {
        match code {
            0 => Duty::None,
            1 => Duty::Home,
            2 => Duty::Requester,
            3 => Duty::Lost,
            4 => Duty::Discarded,
            _ => Duty::Other(code),
        }
    }
}

impl fmt::Display for Verdict {
    fn fmt(&self, f: &mut fmt::Formatter<'_>) -> fmt::Result {
        match self {
            Verdict::Explained => f.pad("explained"),
            Verdict::Unexplained => f.pad("unexplained"),
            Verdict::NotJudged => f.pad("not judged"),
            Verdict::Other(code) => f.pad(&format!("verdict {code}")),
        }
    }
}

impl fmt::Display for Duty {
    fn fmt(&self, f: &mut fmt::Formatter<'_>) -> fmt::Result {
        match self {
            Duty::None => f.pad("none"),
            Duty::Home => f.pad("Home"),
            Duty::Requester => f.pad("Requester"),
            Duty::Lost => f.pad("lost"),
            Duty::Discarded => f.pad("discarded"),
            Duty::Other(code) => f.pad(&format!("duty {code}")),
        }
    }
}

impl fmt::Display for Finding {
    /// Writes the three fields that follow the event on a line of the sheet's answer.
    fn fmt(&self, f: &mut fmt::Formatter<'_>) -> fmt::Result {
        write!(f, "{},{},{}", self.verdict, self.duty, self.after)
    }
}
